"""The command why: what entered each line of a mail's verdict, the scripts that were looked up, and the branches that the run took."""
from __future__ import annotations

from typing import Dict, Iterator, List, NamedTuple, Optional, Tuple

from . import cautions
from .chains import Bench, Course, Flags, chained, step
from .changes import ACTIONS, BRANCHES, Command, blank, commands
from .ends import refuse
from .files import octets_of
from .findings import Finding
from .folder import Site, User
from .judge import Batch, Judge, why_unjudged
from .mails import Mail
from .mains import Main
from .program import Place, Program, Verdict
from .reach import mark, marked, marks_in, own_box
from .shown import Look
from .sieve_text import with_flags
from .words import unquoted, words_of

Texts = Dict[Place, bytes]
# An error of a run: the script and the line of the command that failed.
Error = Tuple[Place, int]


class Branch(NamedTuple):
    """A branch of an `if`, or another command: its script and its line, the command on one line, and where its block begins."""

    place: Place
    line: int
    shown: bytes
    block: int

    def told(self, user: User, look: Look) -> str:
        """It with its file."""
        return f"{look.name(user.path_of(self.place))}:{self.line}: {look.text(self.shown)}"


class Answer(NamedTuple):
    """Of a mail under a main script: the verdict, why it isn't judged if it isn't, the branches in the order in which they were taken
    first, the commands that were taken out to find them, whether they are known then, whether such a command may have been done before it
    failed, in a script that is included again, and what a server may do otherwise."""

    user: User
    main: Main
    mail: Mail
    verdict: Verdict
    unjudged: Optional[str]
    branches: List[Branch]
    left_out: List[Branch]
    known: bool
    again: bool
    cautions: List[Finding]


class Question:
    """Asks for the branches that one mail's run of a script takes, where it begins with these internal flags."""

    def __init__(self, bench: Bench, name: bytes, place: Place, flags: Flags) -> None:
        self.bench, self.name, self.place = bench, name, place
        text = with_flags(bench.scripts[place], flags)
        verdict = self.run({place: text})
        self.texts: Texts = {at: bench.scripts[at] for at, there in verdict.reads if there}
        self.texts[place] = text
        self.box = own_box(self.texts.values())
        error = error_of(verdict)
        self.failing = self.take_out(error)
        # Whether the runs that answer don't fail.
        self.known = error is None or self.failing is not None
        self.again = self.failing is not None and self.failing.place != place and self.includes_again()
        self.all = self.take_actions()

    def run(self, texts: Texts) -> Verdict:
        """The verdict under other texts of scripts."""
        with self.bench.changed(texts):
            return self.bench.run(self.place)[self.name]

    def take_out(self, error: Optional[Error]) -> Optional[Branch]:
        """Puts a `stop` in place of the command that failed. It is the first on its line with which, and without those after it, the
        run fails there."""
        place, line = error or (self.place, 0)
        text = self.texts.get(place, b"")
        acting = [it for it in commands(text) if it.acts() and it.line() == line]
        for number, it in enumerate(acting):
            alone = without(text, acting[number + 1 :])
            if len(acting) == 1 or error_of(self.run({**self.texts, place: alone})) == error:
                rest = blank(text[it.start() : it.end])
                self.texts[place] = text[: it.start()] + b"stop;" + rest + text[it.end :]
                return Branch(place, line, it.shown(text), it.end)
        return None

    def includes_again(self) -> bool:
        """Whether two commands include the same script."""
        found = [it for text in self.texts.values() for it in commands(text) if it.name() == b"include"]
        goals = [(b":global" in [word.octets for word in it.tokens], it.tokens[-1].octets) for it in found]
        return len(set(goals)) < len(goals)

    def take_actions(self) -> List[Branch]:
        """Takes the actions out, on which no test depends, and gives all branches."""
        branches = []
        for place, text in self.texts.items():
            text = without(text, [it for it in commands(text) if it.name() in ACTIONS])
            self.texts[place] = text
            found = [it for it in commands(text) if it.name() in BRANCHES and it.block is not None]
            branches += [Branch(place, it.line(), it.shown(text), it.block or 0) for it in found]
        return branches

    def branches(self) -> List[Branch]:
        """The branches that the run takes, in the order in which it takes them first."""
        points: Dict[Place, List[Tuple[int, int]]] = {}
        for number, it in enumerate(self.all):
            points.setdefault(it.place, []).append((it.block, number))
        asking = {place: marked(self.texts[place], found, self.box) for place, found in points.items()}
        found = marks_in(self.run({**self.texts, **asking}), self.box)
        self.known = self.known and found is not None
        branches = {mark(number): it for number, it in enumerate(self.all)}
        return [branches[it] for it in found or []]


def without(text: bytes, left_out: List[Command]) -> bytes:
    """The text with blanks in place of some commands."""
    for it in left_out:
        text = text[: it.start()] + blank(text[it.start() : it.end]) + text[it.end :]
    return text


def error_of(verdict: Verdict) -> Optional[Error]:
    """Where a run failed, if it did."""
    for line in verdict.lines:
        words = words_of(line.text) or [b""]
        if words[0] == b"error":
            return (words[1].decode(), unquoted(words[2])), int(words[4])
    return None


def answers(site: Site, program: Program) -> List[Answer]:
    """The answer for each main script of each user for whom the mail is judged."""
    judge = Judge(site, program, 1)
    batches = [Batch(number, user, user.mains, [mail]) for number, user in enumerate(site.users) for mail in user.mails]
    with judge.seats:
        return [answer for batch in batches for answer in answers_of(judge, batch)]


def answers_of(judge: Judge, batch: Batch) -> Iterator[Answer]:
    """The answer for each main script of a user, of one mail."""
    user, (mail,) = batch.user, batch.mails
    with judge.held(batch) as held:
        (name,) = held.mails
        for main in batch.mains:
            verdict = chained(held.bench, main.scripts, [name])[name]
            unjudged = why_unjudged(verdict, judge.surveys[batch.number])
            asked = [(it, it.branches()) for it in questions(held.bench, name, main)]
            branches = [branch for _, taken in asked for branch in taken]
            left_out = [it.failing for it, _ in asked if it.failing]
            known, again = all(it.known for it, _ in asked), any(it.again for it, _ in asked)
            told = cautions_of(judge, user, mail, verdict)
            yield Answer(user, main, mail, verdict, unjudged, branches, left_out, known, again, told)


def cautions_of(judge: Judge, user: User, mail: Mail, verdict: Verdict) -> List[Finding]:
    """What a server may do otherwise with a mail, and what the site lacks for the scripts that were looked up."""
    octets = octets_of(mail.path)
    found = cautions.of_case(judge.site, user, user.scripts, verdict, judge.envelope_of(mail, octets), octets)
    return list(dict.fromkeys([*cautions.of_mail(mail.path, octets), *found]))


def questions(bench: Bench, name: bytes, main: Main) -> Iterator[Question]:
    """A question for each of the scripts that run one after another, as far as the run comes."""
    flags: Optional[Flags] = ()
    for number, place in enumerate(main.scripts, 1):
        if flags is None:
            return
        yield Question(bench, name, place, flags)
        if number < len(main.scripts):
            flags = step(bench, place, flags, {name}, Course([name])).get(name)


def text_of(found: List[Answer], look: Look) -> str:
    """The answers for people."""
    return "".join(f"{line}\n" for answer in found for line in lines_of(answer, look))


def lines_of(answer: Answer, look: Look) -> Iterator[str]:
    """The lines of an answer."""
    user = answer.user
    yield f"{look.name(answer.mail.path)} under {look.name(answer.main.label())}"
    if answer.unjudged:
        yield f"  not judged: {answer.unjudged}"
    yield "  what becomes of it:"
    for line in answer.verdict.lines:
        at = f"  ({look.name(user.path_of(line.at[0]))}:{line.at[1]})" if line.at else ""
        yield f"    {look.line(line.text)}{at}"
    if answer.cautions:
        yield "  what a server may do otherwise:"
    for it in answer.cautions:
        yield f"    {look.name(it.path)}:{it.line}: {it.kind}: {look.line(it.text.encode('latin-1'))}"
    yield "  scripts that are looked up:"
    for place, there in answer.verdict.reads:
        yield f"    {look.name(user.path_of(place))}{'' if there else ': there is none'}"
    if not answer.known:
        yield "  the branches aren't known: the run fails, whatever is taken out"
        return
    yield "  branches that are taken:" if answer.branches else "  no branch is taken"
    for branch in answer.branches:
        yield f"    {branch.told(user, look)}"
    for branch in answer.left_out:
        yield f"  taken out for this question, since it fails: {branch.told(user, look)}"
    if answer.again:
        yield "  a script is included again: the branches end where the run first comes to this command"


def mail_name(word: bytes) -> bytes:
    """The name of a mail's file, which may be given with the folder."""
    name = word.rpartition(b"/")[2]
    if not name:
        refuse("a site and the name of a mail's file are wanted, as 09.eml; see --help")
    return name
