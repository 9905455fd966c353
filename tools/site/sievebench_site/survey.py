"""What is asked of scripts before mails are judged: their faults, and what they require that isn't there."""

from __future__ import annotations

from typing import Dict, FrozenSet, Iterable, List, NamedTuple, Optional, Tuple

from .faults import LACKING, strangers, use_at
from .folder import Site, User
from .listed import Entry
from .mains import Script
from .program import Fault, Place, Program, Session
from .sieve_text import line_requiring, required
from .words import quoted

# A script, a line of it, and what is said of that.
Noted = Tuple[Script, int, str]
NO_FAULT: Fault = (0, "")


class Survey(NamedTuple):
    """Of each script that has a fault the first one; of each that can't be judged what it requires that isn't there, and the line that lists it, if one
    does; and why each that isn't listed can't be judged, with what to do."""

    faults: Dict[Place, Fault]
    lacking: Dict[Place, List[bytes]]
    listed: Dict[Place, Entry]
    answers: Dict[Place, str]

    def broken(self, user: User) -> List[Tuple[Script, Fault]]:
        """The scripts that have a fault, but for those that can't be judged."""
        return [
            (it, fault)
            for it in user.scripts
            for fault in [self.faults.get(it.at())]
            if fault and it.at() not in self.lacking
        ]

    def unjudged(self, user: User) -> List[Noted]:
        """The scripts that can't be judged and aren't listed, each with a line and why."""
        return [(it, self.line_of(it), self.answers[it.at()]) for it in user.scripts if it.at() in self.answers]

    def skipped(self, user: User) -> List[Noted]:
        """The scripts that are listed and can't be judged, each with a line and why."""
        found = [(it, self.listed.get(it.at())) for it in user.scripts]
        return [(it, self.line_of(it), quoted(entry.why)[1:-1]) for it, entry in found if entry]

    def line_of(self, script: Script) -> int:
        """The line of a script's fault."""
        return self.faults.get(script.at(), NO_FAULT)[0]


def requires(names: Iterable[bytes]) -> str:
    """What a script requires, as it is reported."""
    return "requires " + ", ".join(quoted(name)[1:-1] for name in names)


def survey(site: Site, user: User, program: Program, told: Dict[Place, Optional[Fault]]) -> Survey:
    """What comes of what a report told of the scripts of a user."""
    faults = {place: fault for place, fault in told.items() if fault}
    lacking: Dict[Place, List[bytes]] = {}
    for script in user.scripts:
        fault, names = judged(program, script, faults.get(script.at()))
        faults.update({script.at(): fault} if fault else {})
        lacking.update({script.at(): names} if names else {})
    listed = {it.at(): site.listed.entry_of(user.name, it) for it in user.scripts if it.at() in lacking}
    entries = {place: entry for place, entry in listed.items() if entry}
    answers = {
        it.at(): answer_of(site, it, faults.get(it.at(), NO_FAULT), lacking[it.at()], program.names())
        for it in user.scripts
        if it.at() in lacking and it.at() not in entries
    }
    return Survey(faults, lacking, entries, answers)


def judged(program: Program, script: Script, fault: Optional[Fault]) -> Tuple[Optional[Fault], List[bytes]]:
    """The fault of a script of which the program told one or none, and what it requires that isn't there, if that is the fault."""
    strange = [name for name in strangers(script.text) if name not in program.names()]
    if strange and (fault is None or fault[1] == LACKING):
        return (line_requiring(script.text, strange[0]), LACKING), []
    return fault, lacked(program, script, fault) if fault else []


def lacked(program: Program, script: Script, fault: Fault) -> List[bytes]:
    """What a script requires that isn't there, if that is its fault: a `require` is refused, or what is used of it."""
    names = list(dict.fromkeys(required(script.text)[1]))
    if fault[1] != LACKING:
        used = use_at(script.text, fault)
        names = [name for name in names if used and used.name == name]
    missing = program.missing(names)
    return [name for name in names if name in missing]


def surveyed(session: Session, site: Site, user: User) -> Survey:
    """Puts the scripts of a user into a session, and asks for their faults."""
    put_scripts(session, user.scripts)
    return survey(site, user, session.program, session.report().faults)


def put_scripts(session: Session, scripts: Iterable[Script]) -> None:
    """Puts the scripts of a user."""
    for script in scripts:
        session.script(script.at(), script.text, f"the script {quoted(script.path)}")


def answer_of(site: Site, script: Script, fault: Fault, names: List[bytes], known: FrozenSet[bytes]) -> str:
    """Why a script can't be judged, and what to do."""
    used, told = use_at(script.text, fault), []
    asked = [name for name in names if name in known]
    others = [name for name in names if name not in known]
    if asked:
        what = "them" if len(asked) > 1 else "it"
        told.append(f"{used.told() if used else requires(asked)}: add {what} to the file with")
    if others:
        what = "they aren't" if len(others) > 1 else "it isn't"
        line = site.listed.line_for(script, requires(others))
        why = used.told() if used else requires(others)
        told.append(f"{why}: {what} supported yet; list the script in unjudged: {line}")
    return "; ".join(told)
