"""The command untested: what can be changed in the scripts so that no mail's verdict notices."""
from __future__ import annotations

import contextlib
import itertools
import json
from typing import Dict, Iterable, Iterator, List, Optional, Tuple

from .changes import Change, changes, commands
from .chains import Bench, chained
from .envelopes import Envelope
from .faults import sentence_of
from .findings import PLAIN
from .folder import Site, User
from .judge import Batch, Held, Judge, Told
from .mails import Mail
from .mains import Main, Script
from .program import NO_MEMORY, Place, Program, Session, Verdict
from .reach import Came, Places, Reach, places_of, with_end
from .seats import Seat, Seats
from .shown import Look
from .sieve_text import required

# Most changes are noticed by a few mails.
SOME, FEW = 4, 40
# So much of a command is shown.
SHOWN = 120
Verdicts = Dict[bytes, Verdict]


class Tried:
    """A change of a script, and what became of it: whether it leaves a fault, a verdict notices it, and mails come there."""

    def __init__(self, script: Script, change: Change) -> None:
        self.script, self.change = script, change
        self.text = change.command.shown(script.text)
        self.same = change.is_none(script.text)
        self.tried = self.faulty = self.noticed = self.reached = False

    def open(self) -> bool:
        """Whether it could be noticed and wasn't until now."""
        return not (self.same or self.faulty or self.noticed)

    def why(self, look: Look) -> str:
        """What isn't noticed."""
        shown = look.text(self.text if len(self.text) <= SHOWN else self.text[:SHOWN] + b" ..")
        how = look.text(self.change.how.encode("latin-1"))
        return f"no mail notices {how}: {shown}  ({'mails come there' if self.reached else 'reached by no mail'})"


class Untested:
    """The changes of a site's scripts, each tried on all mails until one notices it."""

    def __init__(self, site: Site, program: Program, jobs: int, keys: bool, numbers: bool) -> None:
        self.site, self.judge = site, Judge(site, program, jobs)
        surveyed = list(zip(site.users, self.judge.surveys))
        self.broken = {it[0].path: it for user, found in surveyed for it in found.broken(user)}
        self.lacking = {it[0].path: it for user, found in surveyed for it in found.unjudged(user)}
        self.skipped = {it[0].path: it for user, found in surveyed for it in found.skipped(user)}
        whole = {it.path: it for user in site.users for it in user.scripts}
        self.tried: Dict[bytes, List[Tried]] = {
            path: [Tried(script, it) for it in changes(script.text, keys, numbers)]
            for path, script in whole.items()
            if path not in self.broken and path not in self.lacking and path not in self.skipped
        }
        # The scripts that no verdict looked up, until one does.
        self.unasked = dict.fromkeys(whole)
        # The mails for which memory is refused.
        self.refused: Dict[bytes, None] = {}
        self.numbers = itertools.count()
        self.seats = {most: Seats(program, self.judge.seats.begin) for most in (SOME, FEW)}
        with self.seats[SOME], self.seats[FEW]:
            self.found = self.judge.batches(self.try_batch, self.refuse_batch)

    def refuse_batch(self, batch: Batch) -> Told:
        """Leaves out mails for which memory is refused."""
        self.refused.update(dict.fromkeys(mail.path for mail in batch.mails))
        return self.judge.refused(batch)

    def try_batch(self, batch: Batch) -> Told:
        """Judges some mails, tries the changes on them, and asks where these come."""
        number = next(self.numbers)
        with self.judge.held(batch) as held, contextlib.ExitStack() as room:
            cases = self.judge.cases(batch, held)
            seats = {most: room.enter_context(it.taken(batch.fresh)) for most, it in self.seats.items()}
            few = Few(self.judge, held, seats, batch.user)
            names = {mail.path: name for name, mail in held.mails.items()}
            for main in batch.mains:
                base = {names[it.mail.path]: it.verdict for it in cases if it.main is main}
                found = looked_up(batch.user, base)
                came = self.came(batch, few, main, base, self.places(batch, found))
                for script, readers in found.items():
                    self.unasked.pop(script.path, None)
                    tried = self.tried.get(script.path)
                    if not tried:
                        continue
                    # Parts that are tried at once begin at different changes: what one notices, the other needn't try.
                    start = len(tried) * (number % self.judge.jobs) // self.judge.jobs
                    trial = Trial(few, main, script, base, {name: came[name] for name in readers})
                    # Those for which the same mails are wanted stand together.
                    for it in sorted([*tried[start:], *tried[:start]], key=lambda it: trial.block(it) or 0):
                        if it.open():
                            trial.take(it)
                    trial.end()
                    trial.ask([it for it in tried if it.open() and not it.reached])
        self.judge.progress.add(len(batch.mails))
        return cases, held.bare

    def came(
        self, batch: Batch, few: "Few", main: Main, verdicts: Verdicts, places: Places
    ) -> Dict[bytes, Optional[Came]]:
        """Of each mail those of some places to which its run comes; nothing where the run fails."""
        return Reach(few.held.bench, list(verdicts), main).came(places)

    def places(self, batch: Batch, scripts: Iterable[Script]) -> Places:
        """The places of scripts, of those that can run."""
        faults = self.judge.surveys[batch.number].faults
        return {it.at(): places_of(commands(it.text)) for it in scripts if it.at() not in faults}

    def judged(self) -> List[Tried]:
        """All changes of the scripts that some verdict looked up."""
        return [it for path, tried in self.tried.items() if path not in self.unasked for it in tried]

    def left(self) -> List[Tried]:
        """Those that no verdict notices."""
        return [it for it in self.judged() if it.open()]

    def counts(self) -> Dict[str, int]:
        """How many there are."""
        judged = self.judged()
        return {
            "noticed": sum(it.noticed for it in judged),
            "changes": sum(not it.same and not it.faulty for it in judged),
            "leave a fault": sum(it.faulty for it in judged),
            "change nothing": sum(it.same for it in judged),
        }

    def passes(self, percent: float) -> bool:
        """Whether so many in a hundred are noticed. Where there are none, all are."""
        counts = self.counts()
        return counts["noticed"] * 100 >= percent * counts["changes"]


def looked_up(user: User, verdicts: Verdicts) -> Dict[Script, List[bytes]]:
    """The scripts that some of these verdicts looked up, each with their mails: no other can matter to them."""
    readers: Dict[Place, List[bytes]] = {}
    for name, verdict in verdicts.items():
        for place, there in verdict.reads:
            if there:
                readers.setdefault(place, []).append(name)
    return {script: readers[script.at()] for script in user.scripts if script.at() in readers}


class Few:
    """Sessions into which mails of another are put as they are wanted: one for some, and one for a few."""

    def __init__(self, judge: Judge, held: Held, seats: Dict[int, Seat], user: User) -> None:
        self.judge, self.held, self.seats = judge, held, seats
        # The mails that are there, and what was read of them.
        self.there: Dict[int, List[bytes]] = {most: [] for most in seats}
        self.known: Dict[bytes, Tuple[bytes, Envelope]] = {}
        for seat in seats.values():
            seat.put_scripts(user)

    def benches(self) -> List[Bench]:
        """All sessions."""
        return [self.held.bench, *(seat.bench for seat in self.seats.values())]

    def bench_of(self, ids: List[bytes]) -> Bench:
        """A session with these mails: the other one, with all, where they aren't few."""
        most = next((it for it in self.seats if len(ids) <= it), None)
        if most is None:
            return self.held.bench
        # Others that are there stay as long as they are few.
        names = list(dict.fromkeys([*self.there[most], *ids]))
        self.there[most] = names if len(names) <= most + SOME else ids
        self.seats[most].become({name: self.held.mails[name] for name in self.there[most]}, self.put_mail)
        return self.seats[most].bench

    def put_mail(self, session: Session, name: bytes, mail: Mail) -> bool:
        """Puts a mail, which is read once."""
        if name not in self.known:
            self.known[name] = self.judge.read(mail)
        return self.judge.put(session, name, mail, *self.known[name])


class Trial:
    """The changes of a script, tried on some mails under a main script."""

    def __init__(self, few: Few, main: Main, script: Script, base: Verdicts, came: Dict[bytes, Optional[Came]]) -> None:
        self.few, self.main, self.script, self.base = few, main, script, base
        self.ids = list(came)
        self.variables = b"variables" in required(script.text)[1]
        # The places to which each mail comes, where that is known.
        self.came = {name: None if it is None else it[script.at()] for name, it in came.items()}
        self.comings: Dict[Optional[int], List[bytes]] = {None: self.ids}

    def coming(self, block: Optional[int]) -> List[bytes]:
        """The mails that come to a block, or may; all where it is none."""
        if block not in self.comings:
            self.comings[block] = [name for name, it in self.came.items() if it is None or block in it]
        return self.comings[block]

    def block(self, it: Tried) -> Optional[int]:
        """The block to which the mails come that could notice a change: the one in which it is, if it is in one. A condition that is made
        false is noticed by those alone that come to its own block, unless it may set variables where it doesn't hold.
        """
        command = it.change.command
        sets = self.variables and b":matches" in [token.octets for token in command.tokens]
        return command.block if it.change.denies() and not sets else command.inside

    def take(self, it: Tried) -> None:
        """Tries a change, on a few mails first."""
        place, text, mails = it.script.at(), it.change.of(it.script.text), self.coming(self.block(it))
        # Where no mail comes there, it is tried once, since it may leave a fault.
        for ids in parts_of(mails) if mails or not it.tried else ():
            bench = self.few.bench_of(ids)
            bench.replace(place, text)
            told = chained(bench, self.main.scripts, ids)
            # Other parts of the mails are tried at the same time, so what is known is never unset.
            it.tried = True
            if bench.faults.get(place):
                it.faulty = True
            elif any(self.differs(name, told[name]) for name in ids):
                it.noticed = True
            if not it.open():
                return

    def differs(self, name: bytes, verdict: Verdict) -> bool:
        """Whether a mail's verdict isn't what it was."""
        before = self.base[name]
        return verdict is not before and verdict.texts() != before.texts()

    def end(self) -> None:
        """Puts the script's own text back."""
        for bench in self.few.benches():
            bench.replace(self.script.at(), self.script.text)

    def ask(self, left: List[Tried]) -> None:
        """Asks which of these changes mails come to, a few mails first, where that isn't known: before an `elsif`, and of runs that fail."""
        known = {place for found in self.came.values() for place in found or ()}
        unknown = None in self.came.values()
        points = {it.change.command.start(): it.change.command for it in left if self.coming(it.change.command.inside)}
        asked = [it for start, it in points.items() if start not in known and (unknown or it.name() == b"elsif")]
        for ids in parts_of(self.ids) if asked else ():
            reach = Reach(self.few.bench_of(ids), ids, self.main)
            for command in asked:
                text, line = with_end(self.script.text, command)
                if command.start() not in known and reach.ended(self.script.at(), text, line):
                    known.add(command.start())
        for it in left:
            it.reached = it.reached or it.change.command.start() in known


def parts_of(ids: List[bytes]) -> Iterator[List[bytes]]:
    """Mails in parts: some, more, and all; one part without mails where there are none."""
    yield ids[:SOME]
    if len(ids) > SOME:
        yield ids[SOME:FEW]
    if len(ids) > FEW:
        yield ids


def text_of(found: Untested, look: Look, quiet: bool) -> str:
    """The results for people."""
    told = [
        f"{look.name(it.path)}:{line}: {word}: {sentence_of(it, line, word)}"
        for it, (line, word) in found.broken.values()
    ]
    told += [f"{look.name(script.path)}:{line}: not judged: {why}" for script, line, why in found.lacking.values()]
    told += [f"{look.name(path)}: not judged: {NO_MEMORY}" for path in sorted(found.refused)]
    told += [f"{look.name(it.script.path)}:{it.change.line}: {it.why(look)}" for it in found.left()]
    if not quiet:
        told += [
            f"{look.name(it.path)}:{n}: skipped: {look.line(why.encode())}" for it, n, why in found.skipped.values()
        ]
        told += [f"{look.name(path)}: no verdict looks it up" for path in found.unasked]
        counts = found.counts()
        further = [f"{counts[it]} {it}" for it in ("leave a fault", "change nothing") if counts[it]]
        told.append(", ".join([f"{counts['noticed']} of {counts['changes']} changes are noticed", *further]))
    return "".join(f"{line}\n" for line in told)


def json_of(found: Untested, passed: bool) -> str:
    """The results as one object."""
    told: Dict[str, object] = {
        "passed": passed,
        "counts": found.counts(),
        "unnoticed": [change_object(it) for it in found.left()],
        "faults": [
            {"script": PLAIN.name(it.path), "line": line, "word": word} for it, (line, word) in found.broken.values()
        ],
        "not judged": [
            *({"script": PLAIN.name(it.path), "line": line, "why": why} for it, line, why in found.lacking.values()),
            *({"mail": PLAIN.name(path), "why": NO_MEMORY} for path in sorted(found.refused)),
        ],
        "not looked up": [PLAIN.name(path) for path in found.unasked],
    }
    return json.dumps(told) + "\n"


def change_object(it: Tried) -> Dict[str, object]:
    """A change as an object."""
    how, text = (PLAIN.text(octets) for octets in (it.change.how.encode("latin-1"), it.text))
    return {
        "script": PLAIN.name(it.script.path),
        "line": it.change.line,
        "change": how,
        "text": text,
        "reached": it.reached,
    }
