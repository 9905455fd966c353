"""The code of scripts, as the program dumps it: what it includes, and what it does by words that have no variable in them."""

from __future__ import annotations

import re
from typing import Dict, Iterable, Iterator, List, NamedTuple, Optional, Set

from .mains import Script
from .program import Place
from .words import unquoted

INCLUDE = re.compile(rb'[0-9]+: include (personal|global)( once)?( optional)? (".*") @([0-9]+)')
# A string of a dump that has no variable in it, and any one.
LITERAL = rb'"(?:[^"\\]|\\.)*"'
PART = rb"(?:" + LITERAL + rb"|[a-z]+\([^)]*\))"
STRING = PART + rb"(?:\+" + PART + rb")*"
REDIRECT = rb"[0-9]+: redirect (" + LITERAL + rb")(?: copy)? @([0-9]+)"
FLAGS, COPY = rb"(?: internal| flags \[.*\])", rb"(?: copy)? @([0-9]+)"
STORE = rb"[0-9]+: fileinto (" + LITERAL + rb")" + FLAGS + rb"(?: create)?(?: special-use " + STRING + rb")?" + COPY
USE = rb"[0-9]+: fileinto " + STRING + FLAGS + rb"(?: create)? special-use (" + LITERAL + rb")" + COPY
PLAIN_STORE = re.compile(rb"[0-9]+: fileinto (" + LITERAL + rb")" + FLAGS + rb"( special-use " + STRING + rb")?" + COPY)
ANSWER = rb"[0-9]+: vacation(?: days [0-9]+)?(?: subject " + STRING + rb")? from (" + LITERAL + rb") .* @([0-9]+)"
NO_USE = "This is no use of a mailbox: one is a backslash and a word."


class Kind(NamedTuple):
    """Operations that always fail by a string: what they look like, the script that shows it, and what is said of it, if that isn't what
    the error means."""

    pattern: "re.Pattern[bytes]"
    shown: bytes
    sentence: str = ""


KINDS = [
    Kind(re.compile(REDIRECT), b"redirect %s;"),
    Kind(re.compile(STORE), b'require "fileinto"; fileinto %s;'),
    Kind(re.compile(USE), b'require ["fileinto", "special-use"]; fileinto :specialuse %s "A";', NO_USE),
    Kind(re.compile(ANSWER), b'require "vacation"; vacation :from %s "";'),
]


class Include(NamedTuple):
    """What is included, whether at most once, whether it may be missing, and on which line."""

    place: Place
    once: bool
    optional: bool
    line: int


class Action(NamedTuple):
    """An action by a string without a variable: its script and line, a script that does the same, and what is said where it fails, if
    that isn't what the error means."""

    script: Script
    line: int
    shown: bytes
    sentence: str


class Store(NamedTuple):
    """A store: its script and line, the mailbox, and whether it asks for a special use."""

    script: Script
    line: int
    mailbox: bytes
    use: bool


class Code:
    """The scripts of a user, each with its operations where it has no fault."""

    def __init__(
        self, scripts: List[Script], operations: Dict[Place, Optional[List[bytes]]], mains: Set[Place]
    ) -> None:
        self.scripts = {script.at(): script for script in scripts}
        self.operations, self.mains = operations, mains

    def includes(self, place: Place) -> Iterator[Include]:
        """What a script includes."""
        for operation in self.operations[place] or []:
            found = INCLUDE.fullmatch(operation)
            if found:
                yield Include((found[1].decode(), unquoted(found[4])), bool(found[2]), bool(found[3]), int(found[5]))

    def comes_to(self, start: Place, goal: Place) -> bool:
        """Whether a script includes another, be it through others. The first include enters a script also under `:once`, but for a
        main script, which has been entered."""
        seen, left = set(), [start]
        while left:
            at = left.pop()
            if at == goal:
                return True
            if at not in seen and at in self.operations:
                seen.add(at)
                left += [it.place for it in self.includes(at) if not it.once or it.place not in self.mains]
        return False

    def reached(self, places: Iterable[Place]) -> Set[Place]:
        """The scripts that are there among these and those that they come to."""
        seen: Set[Place] = set()
        left = list(places)
        while left:
            at = left.pop()
            if at in self.operations and at not in seen:
                seen.add(at)
                left += [it.place for it in self.includes(at)]
        return seen

    def actions(self) -> Iterator[Action]:
        """The actions by strings without variables, each with a script that does the same."""
        for place, operations in self.operations.items():
            for operation in operations or []:
                for kind in KINDS:
                    found = kind.pattern.fullmatch(operation)
                    if found:
                        text = unquoted(found[1]).replace(b"\\", b"\\\\").replace(b'"', b'\\"')
                        shown = kind.shown.replace(b"%s", b'"' + text + b'"')
                        yield Action(self.scripts[place], int(found[2]), shown, kind.sentence)

    def plain_stores(self) -> Iterator[Store]:
        """The stores that make no mailbox, and name one without a variable."""
        for place, operations in self.operations.items():
            for found in map(PLAIN_STORE.fullmatch, operations or []):
                if found:
                    yield Store(self.scripts[place], int(found[3]), unquoted(found[1]), bool(found[2]))

    def sound(self) -> List[Script]:
        """The scripts without a fault."""
        return [self.scripts[place] for place, operations in self.operations.items() if operations is not None]
