"""What a check finds: the cases by how they went, what is stale, and what is left out."""

from __future__ import annotations

from typing import Dict, Iterable, Iterator, List, NamedTuple, Optional, Set

from .expected import Key
from .faults import sentence_of
from .findings import ERROR, NOTE, SKIPPED
from .folder import Site
from .groups import Group, changes, grouped
from .judge import Case, Judged
from .mails import LeftOut, Mail
from .shards import Shard
from .shown import Look
from .survey import Noted

# The kinds of what is found: those that fail a check, those that do so unless it is lax, and the others, of which two are told.
FAILING = FAULT, DISAGREES, UNJUDGED = "fault", "disagrees", "not-judged"
STRICT = UNEXPECTED, STALE = "nothing-expected", "stale"
AGREES, PASSED_OVER, LEFT_OUT = "agrees", "skipped", "left-out"
LEVELS = {PASSED_OVER: SKIPPED, LEFT_OUT: NOTE}
EXPECTS_NOTHING = "nothing is expected"
# What is wrong with a line that lists what can't be judged.
JUDGED, NOWHERE = "{} can be judged", "no script and no user is called {}"


class Stale(NamedTuple):
    """A line that speaks of nothing that there is: its file, its line, its words and what is said of them; of a mail that isn't there the
    file alone."""

    path: bytes
    line: int
    key: Key
    sentence: str = "no main script is called {}"

    def why(self, look: Look) -> str:
        """What is wrong."""
        return self.sentence.format(look.name(b" ".join(self.key))) if self.line else "its mail isn't there"


class Broken(NamedTuple):
    """A script that has a fault: its file, the line, the word of the fault and what it means."""

    path: bytes
    line: int
    word: str
    sentence: str


class Unfit(NamedTuple):
    """A script that can't be judged: its file, the line, and why, or why that is known."""

    path: bytes
    line: int
    why: str


class Beside(NamedTuple):
    """What belongs to no verdict: the scripts that have a fault, that can't be judged, and of these those that are listed, each once; what is
    stale; and what is left out."""

    broken: List[Broken]
    lacking: List[Unfit]
    passed_over: List[Unfit]
    stale: List[Stale]
    left_out: List[LeftOut]


class Extent(NamedTuple):
    """How many mails, main scripts and verdicts there are."""

    mails: int
    mains: int
    verdicts: int


class Found(NamedTuple):
    """What a check has found, in a site or in a part of it: the cases in the order of the mails, the users and the main scripts, what belongs to
    none of them, the files of the mails without an envelope, and how long it took."""

    cases: List[Case]
    extent: Extent
    beside: Beside
    bare: List[bytes]
    seconds: float


NOTHING = Beside([], [], [], [], [])


def kind_of(case: Case) -> str:
    """Of which kind a case is."""
    if case.unjudged:
        return PASSED_OVER if case.skipped else UNJUDGED
    agrees = case.agrees()
    return UNEXPECTED if agrees is None else AGREES if agrees else DISAGREES


class Checked:
    """The results of a check, and whether it has failed: all forms in which they are told have that from here."""

    def __init__(self, found: Found, lax: bool, each: bool) -> None:
        self.found, self.each = found, each
        self.cases, self.beside = found.cases, found.beside
        self.fails = FAILING if lax else (*FAILING, *STRICT)
        kinds: Dict[str, List[Case]] = {}
        for case in self.cases:
            kinds.setdefault(kind_of(case), []).append(case)
        self.agreeing = len(kinds.get(AGREES, []))
        self.wrong, self.unjudged = kinds.get(DISAGREES, []), kinds.get(UNJUDGED, [])
        self.skipped, self.unexpected = kinds.get(PASSED_OVER, []), kinds.get(UNEXPECTED, [])
        self.failed = any(self.level(kind) == ERROR for kind in (*kinds, *kinds_beside(self.beside)))

    def level(self, kind: str) -> Optional[str]:
        """How what is of a kind counts: it fails the check, is known and passes, or is only reported. The rest isn't told."""
        return ERROR if kind in self.fails else LEVELS.get(kind)

    def counts(self) -> Dict[str, int]:
        """The counts that are always told."""
        return {
            "mails": self.found.extent.mails,
            "mains": self.found.extent.mains,
            "verdicts": len(self.cases),
            "agree": self.agreeing,
            "disagree": len(self.wrong),
            "without expectation": len(self.unexpected),
            "stale expectations": len(self.beside.stale),
            "scripts with a fault": len(self.beside.broken),
        }

    def further(self) -> Dict[str, int]:
        """The counts that are printed where they aren't 0."""
        return {
            "not judged": len(self.unjudged),
            "skipped": len(self.skipped),
            "mails without an envelope": len(self.found.bare),
            "left out": len(self.beside.left_out),
        }

    def groups(self, cases: List[Case]) -> List[Group]:
        """Cases in groups, by their differences and why they aren't judged."""
        return grouped(cases, lambda case: case.unjudged or (changes(case) if case.block else None), self.each)


def kinds_beside(beside: Beside) -> Iterator[str]:
    """The kinds of what belongs to no verdict."""
    found = {FAULT: beside.broken, UNJUDGED: beside.lacking, STALE: beside.stale}
    return (kind for kind, those in found.items() if those)


def found_in(site: Site, judged: Judged, shard: Optional[Shard] = None) -> Found:
    """What is found in a site, or in a part of it. What belongs to no verdict is that of the first part."""
    bare = [mail.path for mail in judged.bare]
    extent = extent_of(site) if shard is None else extent_of_part(judged.cases)
    beside = beside_in(site, judged) if shard is None or shard.is_first() else NOTHING
    return Found(judged.cases, extent, beside, bare, judged.seconds)


def extent_of(site: Site) -> Extent:
    """How much there is of a site."""
    users = site.users
    mails = len({mail.path for user in users for mail in user.mails})
    verdicts = sum(len(user.mains) * len(user.mails) for user in users)
    return Extent(mails, sum(len(user.mains) for user in users), verdicts)


def extent_of_part(cases: List[Case]) -> Extent:
    """How much is judged in a part of a site."""
    return Extent(len({case.mail.path for case in cases}), len({case.main.key for case in cases}), len(cases))


def beside_in(site: Site, judged: Judged) -> Beside:
    """What belongs to no verdict."""
    stale = [*stale_in(site), *stale_list(site, judged)]
    return Beside(broken_in(site, judged), lacking_in(site, judged), skipped_in(site, judged), stale, site.left_out)


def broken_in(site: Site, judged: Judged) -> List[Broken]:
    """The scripts with a fault, each once."""
    found = [it for user, survey in zip(site.users, judged.surveys) for it in survey.broken(user)]
    once = {script.path: (script, fault) for script, fault in found}
    return [Broken(path, *fault, sentence_of(script, *fault)) for path, (script, fault) in once.items()]


def lacking_in(site: Site, judged: Judged) -> List[Unfit]:
    """The scripts that can't be judged and aren't listed, each once."""
    return each_once(it for user, survey in zip(site.users, judged.surveys) for it in survey.unjudged(user))


def skipped_in(site: Site, judged: Judged) -> List[Unfit]:
    """The scripts that are listed and can't be judged, each once."""
    return each_once(it for user, survey in zip(site.users, judged.surveys) for it in survey.skipped(user))


def each_once(found: Iterable[Noted]) -> List[Unfit]:
    """Scripts of which something is said, each once."""
    return list({script.path: Unfit(script.path, line, why) for script, line, why in found}.values())


def stale_list(site: Site, judged: Judged) -> List[Stale]:
    """The lines that list what can be judged or isn't there, where all is looked at."""
    if site.wanted.users or site.wanted.mains or not site.listed.entries:
        return []
    used = {entry.line for survey in judged.surveys for entry in survey.listed.values()}
    there = {site.listed.word_of(script) for user in site.users for script in user.scripts}
    there.update(user.name for user in site.users)
    return [
        Stale(site.listed.path, it.line, (it.word,), JUDGED if it.word in there else NOWHERE)
        for it in site.listed.entries.values()
        if it.line not in used
    ]


def stale_in(site: Site) -> List[Stale]:
    """What is expected under main scripts that there aren't, where all are looked at, and files of mails that aren't there."""
    lost = [Stale(path, 0, ()) for path in site.lost]
    if site.wanted.mains or site.wanted.users:
        return lost
    used: Dict[bytes, Set[Key]] = {}
    mails: Dict[bytes, Mail] = {}
    for user in site.users:
        for mail in user.mails:
            mails[mail.path] = mail
            used.setdefault(mail.path, set()).update(mail.expected.headings(user.mains))
    named = [(path, key, block) for path, mail in mails.items() for key, block in mail.expected.blocks.items()]
    return [Stale(block.path, block.number, key) for path, key, block in named if key not in used[path]] + lost
