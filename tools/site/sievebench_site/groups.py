"""Cases that are alike: the same difference of many mails is printed once."""

from __future__ import annotations

import difflib
from typing import Callable, Dict, Hashable, Iterable, Iterator, List, NamedTuple, Optional, Tuple

from .judge import Case
from .program import Line
from .shown import Look
from .words import quoted

FIRST = 3


class Change(NamedTuple):
    """A line of a difference: `-` is expected, `+` is there now, and a blank is both."""

    mark: str
    text: bytes


class Group(NamedTuple):
    """Cases that are alike."""

    cases: List[Case]

    def first(self) -> List[Case]:
        """Those that are listed by name."""
        return self.cases[:FIRST]

    def sizes(self) -> str:
        """How many there are."""
        mails = len({case.mail.path for case in self.cases})
        mains = len({case.main.key for case in self.cases})
        return (
            f"{counted(len(self.cases), 'verdict')} in all, of {counted(mails, 'mail')} under {counted(mains, 'main')}"
        )

    def more(self) -> Optional[str]:
        """What is printed after the first ones, where there are several."""
        rest = len(self.cases) - FIRST
        if len(self.cases) < 2:
            return None
        return f"and {rest} more: {self.sizes()}" if rest > 0 else self.sizes()


def counted(number: int, what: str) -> str:
    """A number of things."""
    return f"{number:,} {what}{'' if number == 1 else 's'}"


def grouped(cases: Iterable[Case], alike: Callable[[Case], Hashable], each: bool) -> List[Group]:
    """The cases in groups of those that are alike, or each by itself, in the order of the first of each."""
    groups: Dict[Hashable, List[Case]] = {}
    for number, case in enumerate(cases):
        groups.setdefault(number if each else alike(case), []).append(case)
    return [Group(found) for found in groups.values()]


def changes(case: Case) -> Tuple[Change, ...]:
    """What is expected against what there is now, line by line."""
    wanted, got = case.block.lines if case.block else (), case.lines()
    told: List[Change] = []
    for what, start, end, first, last in difflib.SequenceMatcher(None, wanted, got, False).get_opcodes():
        if what == "equal":
            told += [Change(" ", line) for line in wanted[start:end]]
        else:
            told += [
                *(Change("-", line) for line in wanted[start:end]),
                *(Change("+", line) for line in got[first:last]),
            ]
    return tuple(told)


def entered_at(group: Group, text: bytes, look: Look) -> str:
    """The script and the line that entered an action of a group, and how many other lines entered it too. Of an error by an include it is
    the script that was looked up last."""
    if text.startswith(b"error ") and text.endswith((b" missing-script", b" invalid-script")):
        (place, name), _ = group.cases[0].verdict.reads[-1]
        return f"  ({place} {quoted(name)})"
    places = dict.fromkeys(
        place for case in group.cases for line in case.verdict.lines for place in places_of(case, line, text)
    )
    if not places:
        return ""
    path, number = next(iter(places))
    others = f" and {counted(len(places) - 1, 'other line')}" if len(places) > 1 else ""
    return f"  ({look.name(path)}:{number}{others})"


def places_of(case: Case, line: Line, text: bytes) -> Iterator[Tuple[bytes, int]]:
    """The file and the line of what entered a line of a verdict, if it has this text."""
    if line.text == text and line.at:
        yield case.user.path_of(line.at[0]), line.at[1]


def difference(group: Group, look: Look) -> List[str]:
    """The difference of a group, with what entered the actions that are there now."""
    told = []
    for mark, text in changes(group.cases[0]):
        beside = entered_at(group, text, look) if mark == "+" else ""
        told.append(look.mark(f"{mark} {look.line(text)}", mark) + beside)
    return told


def name_of(case: Case, look: Look) -> str:
    """A case by its mail and its main script."""
    return f"{look.name(case.mail.path)} under {look.name(case.main.label())}"
