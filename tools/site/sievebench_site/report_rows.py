"""What a page shows of mails: how each verdict went, mails of which all is equal in one row, and the columns of the table of them."""

from __future__ import annotations

from typing import Dict, FrozenSet, Iterable, List, NamedTuple, Tuple

from .expected import Key
from .findings import PLAIN, Finding
from .folder import Site
from .judge import Case
from .mails import Mail
from .traces import Trace

# More columns than these are hard to read.
COLUMNS = 12
Traces = Dict[Tuple[bytes, Key], Trace]
Cautions = Dict[Tuple[bytes, Key], Tuple[Finding, ...]]


class Outcome(NamedTuple):
    """How a verdict went: the word for one and for several, the sign, and the rank, by which the worst comes first."""

    word: str
    words: str
    sign: str
    rank: int

    def kind(self) -> str:
        """It as a class of the page's style."""
        return self.word.replace(" ", "-")


DISAGREES = Outcome("disagrees", "disagree", "✗", 0)
UNJUDGED = Outcome("not judged", "not judged", "?", 1)
UNEXPECTED = Outcome("nothing expected", "nothing expected", "○", 2)
AGREES = Outcome("agrees", "agree", "✓", 3)
OUTCOMES = (DISAGREES, UNJUDGED, UNEXPECTED, AGREES)


def outcome_of(case: Case) -> Outcome:
    """How a verdict went."""
    if case.unjudged:
        return UNJUDGED
    return {True: AGREES, False: DISAGREES, None: UNEXPECTED}[case.agrees()]


class Row(NamedTuple):
    """Mails of which all is equal, and the cases of the first of them, one for each main script."""

    mails: List[Mail]
    cases: List[Case]

    def rank(self) -> int:
        """The rank of its worst case."""
        return min(outcome_of(case).rank for case in self.cases)


def rows_of(cases: Iterable[Case], traces: Traces, cautions: Cautions) -> List[Row]:
    """The mails in rows: those with the worst verdicts first, and then in the order of the mails."""
    mails: Dict[bytes, List[Case]] = {}
    for case in cases:
        mails.setdefault(case.mail.path, []).append(case)
    rows: Dict[object, Row] = {}
    for found in mails.values():
        alike = []
        for it in found:
            at = it.mail.path, it.main.key
            same = it.verdict, it.block and it.block.lines, it.unjudged, traces.get(at), cautions.get(at)
            alike.append((it.main.key, same))
        rows.setdefault(tuple(alike), Row([], found)).mails.append(found[0].mail)
    return sorted(rows.values(), key=Row.rank)


class Column(NamedTuple):
    """A column of the table of mails: its title, and the lines of main scripts that are in it."""

    title: str
    keys: FrozenSet[Key]


def columns_of(site: Site) -> List[Column]:
    """A column for each line of main scripts; where these are many for each user, and where users are many for all of them."""
    keys = [(user, main) for user in site.users for main in user.mains]
    if len(keys) <= COLUMNS:
        return [Column(PLAIN.name(main.label()), frozenset([main.key])) for _, main in keys]
    if 1 < len(site.users) <= COLUMNS:
        found = [(PLAIN.name(user.name), frozenset(main.key for main in user.mains)) for user in site.users]
        return [Column(title, mains) for title, mains in found if mains]
    return [Column("All main scripts", frozenset(main.key for _, main in keys))]
