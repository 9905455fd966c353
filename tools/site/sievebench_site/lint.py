"""The command lint: the faults of scripts, what their includes and actions lead to, and what no main script comes to."""

from __future__ import annotations

import os
import re
import subprocess
from typing import Dict, Iterator, List, Optional, Set

from . import cautions, findings
from .answers import expected_answers
from .code import Code
from .ends import fail, ran
from .faults import SENTENCES, sentence_of
from .files import temporary_folder
from .findings import ERROR, NOTE, PLAIN, SKIPPED, Finding, Test
from .folder import Site, User
from .program import Place, Program, Session
from .shown import Look
from .survey import Survey, surveyed
from .words import quoted

SIEVEC_SAYS = re.compile(rb"line ([0-9]+): error: (.*)")


class Linted:
    """The findings in the scripts of a user, by what was asked of them: their survey, and the operations of each without a fault."""

    def __init__(
        self, site: Site, user: User, survey: Survey, operations: Dict[Place, Optional[List[bytes]]], actions: "Actions"
    ) -> None:
        self.site, self.user, self.survey = site, user, survey
        self.code = Code(user.scripts, operations, {main.scripts[0] for main in user.mains})
        self.faults = [
            Finding(it.path, line, word, sentence_of(it, line, word)) for it, (line, word) in self.survey.broken(user)
        ]
        self.faults += [*self.include_faults(), *actions.faults(self.code)]
        self.unjudged = [Finding(it.path, line, "not judged", why) for it, line, why in self.survey.unjudged(user)]

    def include_faults(self) -> Iterator[Finding]:
        """Includes of scripts that are missing or have a fault, and those by which a script comes to itself."""
        for place, script in self.code.scripts.items():
            for it in self.code.includes(place):
                kind = self.wrong_with(place, it.place, it.optional, it.once)
                if kind:
                    yield Finding(script.path, it.line, kind, include_sentence(kind, it.place))

    def wrong_with(self, place: Place, goal: Place, optional: bool, once: bool) -> Optional[str]:
        """What is wrong with an include. One that is skipped where its script was entered can't come back to it."""
        if goal not in self.code.operations:
            return None if optional else "missing-script"
        if self.code.operations[goal] is None:
            return None if goal in self.survey.lacking else "invalid-script"
        return "recursive-include" if not once and self.code.comes_to(goal, place) else None

    def notes(self) -> Iterator[Finding]:
        """What is printed and is no fault."""
        for script, line, why in self.survey.skipped(self.user):
            yield Finding(script.path, line, "skipped", PLAIN.line(why.encode()), SKIPPED)
        yield from cautions.of_scripts(self.site, self.code.sound())
        for it in self.code.plain_stores():
            yield from cautions.of_store(self.site, it.script.path, it.line, it.mailbox, it.use)

    def reached(self) -> Optional[Set[bytes]]:
        """The files of the scripts that main ones come to; nothing where none is named, or one of them has a fault."""
        seen = self.code.reached(place for main in self.user.mains for place in main.scripts)
        if not seen or any(self.code.operations[place] is None for place in seen):
            return None
        return {self.code.scripts[place].path for place in seen}


def include_sentence(kind: str, goal: Place) -> str:
    """What is wrong with an include of a script."""
    name = f"{goal[0]} {quoted(goal[1])}"
    return {"missing-script": f"There is no script {name}.", "invalid-script": f"The script {name} has a fault."}.get(
        kind, f"The script {name} runs already."
    )


class Actions:
    """Redirects to a text that isn't one address, responses from one that isn't, and stores into what can be no mailbox or by what can be
    no use of one, found by running each once that has no variable in it."""

    def __init__(self, session: Session) -> None:
        self.session, self.place = session, ("personal", b"\x01action")
        # The error of each script that shows an action, if it has one.
        self.errors: Dict[bytes, Optional[str]] = {}
        session.edit("message", [b"m"], b"", "a mail")
        session.edit("main personal", [self.place[1]], None, "the main script")

    def faults(self, code: Code) -> Iterator[Finding]:
        """The actions of some scripts that fail."""
        for action in code.actions():
            if action.shown not in self.errors:
                self.errors[action.shown] = self.error_of(action.shown)
            kind = self.errors[action.shown]
            if kind:
                yield Finding(action.script.path, action.line, kind, action.sentence or SENTENCES.get(kind, kind))

    def error_of(self, shown: bytes) -> Optional[str]:
        """The error in which a script ends, if it ends in one."""
        self.session.script(self.place, shown, "an action")
        lines = [line.text for line in self.session.report().verdicts[b"m"].lines]
        return next((line.split()[-1].decode() for line in lines if line.startswith(b"error ")), None)


def linted_in(session: Session, site: Site, user: User) -> Linted:
    """The findings in the scripts of a user, which are put into a new session."""
    found = surveyed(session, site, user)
    operations = {script.at(): session.dump(script.at()) for script in user.scripts}
    return Linted(site, user, found, operations, Actions(session))


def lint(site: Site, program: Program, sievec: bool) -> List[Finding]:
    """All findings: the faults, where sievec says otherwise, and what is no fault. Of several users each is printed once."""
    faults: Set[Finding] = set()
    others: List[Finding] = []
    unjudged: List[Finding] = []
    notes: List[Finding] = []
    reached: List[Optional[Set[bytes]]] = []
    for user in site.users:
        with program.session() as session:
            linted = linted_in(session, site, user)
        faults.update(linted.faults)
        unjudged += linted.unjudged
        others += sievec_differences(site, linted) if sievec else []
        notes += linted.notes()
        reached.append(linted.reached())
    notes += expected_answers(site)
    left_out = [Finding(path, 0, "left-out", f"{why[0].upper()}{why[1:]}.", NOTE) for path, why in site.left_out]
    found = [*sorted(faults), *dict.fromkeys(others), *dict.fromkeys(unjudged), *dict.fromkeys(notes)]
    return [*found, *unreached(site, reached), *left_out]


def unreached(site: Site, reached: List[Optional[Set[bytes]]]) -> Iterator[Finding]:
    """The scripts that no main one comes to, of those users of whom that is known."""
    users: Dict[bytes, List[Optional[Set[bytes]]]] = {}
    for user, seen in zip(site.users, reached):
        for script in user.scripts:
            users.setdefault(script.path, []).append(seen)
    for path, known in users.items():
        if all(seen is not None and path not in seen for seen in known):
            yield Finding(path, 0, "unreached", "No main script comes to it.", NOTE)


def sievec_differences(site: Site, linted: Linted) -> Iterator[Finding]:
    """The scripts that sievec compiles though something was reported of them, or of a script that they come to, and the other way round.
    Of one that can't be judged here, or comes to one, sievec alone says something."""
    first = {fault.path: fault.line for fault in sorted(linted.faults, reverse=True)}
    personal, shared = os.path.join(linted.user.home, b"personal"), os.path.join(site.wanted.folder, b"global")
    settings = [(b"sieve", personal), (b"sieve_global", shared)]
    options = [
        word for name, path in settings for word in (b"-o", b"plugin/" + name + b"=file:" + os.path.abspath(path))
    ]
    with temporary_folder() as room:
        for script in linted.user.scripts:
            reached = linted.code.reached([script.at()])
            lacks = bool(reached & set(linted.survey.lacking))
            done = compiled(
                [b"sievec", *options, os.path.abspath(script.path), os.fsencode(os.path.join(room, "compiled"))]
            )
            broken = any(linted.code.scripts[at].path in first for at in reached)
            if done.returncode and (lacks or not broken):
                found = SIEVEC_SAYS.search(done.stderr)
                text = found[2].decode("utf-8", "replace") if found else "It can't compile this."
                yield Finding(script.path, int(found[1]) if found else 0, "sievec", text)
            elif broken and not lacks and not done.returncode:
                yield Finding(script.path, first.get(script.path, 0), "sievec", "It compiles this.")


def compiled(words: List[bytes]) -> "subprocess.CompletedProcess[bytes]":
    """How sievec ended."""
    try:
        return ran(words)
    except OSError as error:
        fail(f'cannot run "sievec": {error.strerror}')


def text_of(found: List[Finding], look: Look, quiet: bool) -> str:
    """The findings for people, a line each."""
    told = [it for it in found if it.level == ERROR or not quiet]
    return "".join(
        f"{look.name(it.path)}:{it.line}: {it.kind}: {look.line(it.text.encode('utf-8', 'surrogateescape'))}\n"
        for it in told
    )


def failed(found: List[Finding]) -> bool:
    """Whether a finding fails the run."""
    return any(it.level == ERROR for it in found)


def results(found: List[Finding], tests: List[Test], form: str, look: Look, quiet: bool, version: str) -> str:
    """The findings in a form."""
    if form == "json":
        return findings.findings_json(not failed(found), found)
    if form == "junit":
        return findings.junit(tests, sum(it.seconds for it in tests)).decode()
    if form == "github":
        return findings.github(found)
    if form == "sarif":
        return findings.sarif(found, version)
    return text_of(found, look, quiet)


def tests_of(found: List[Finding], scripts: List[bytes], seconds: float) -> Iterator[Test]:
    """A test for each script, which fails by its faults. All have the same part of the seconds."""
    for path in scripts:
        wrong: List[str] = []
        skipped: List[str] = []
        levels = {ERROR: wrong, SKIPPED: skipped}
        for it in (it for it in found if it.path == path and it.level in levels):
            levels[it.level].append(f"line {it.line}: {it.kind}: {it.text}")
        text = "\n".join(wrong or skipped)
        failure = wrong[0] if wrong else None
        yield Test("lint", PLAIN.name(path), seconds / len(scripts), failure, text, bool(skipped) and not wrong)
