"""What a part of a check leaves in its object for the others, and one result of what all parts left."""

from __future__ import annotations

import json
from typing import Any, Dict, List, NamedTuple, Optional, Tuple

from .checked import Beside, Broken, Extent, Found, Stale, Unfit, extent_of
from .ends import refuse
from .envelopes import Envelope
from .expected import Block
from .files import octets_of
from .findings import PLAIN
from .folder import Site, User
from .headings import Expected
from .judge import Case
from .mails import Mail, mail_path
from .mains import Main
from .program import Line, Place, Verdict
from .shards import Shard, digest_of
from .shown import octets_named
from .words import quoted

# What a file may turn out to be that isn't what a part left.
NO_PART = (ValueError, LookupError, TypeError, AttributeError, RecursionError)


class Part(NamedTuple):
    """A part of the check of a site, by a version of this tool."""

    shard: Shard
    site: Site
    version: str

    def object_of(self, found: Found) -> Dict[str, object]:
        """What the others need beside what is printed of any site."""
        mains = [main.key for user in self.site.users for main in user.mains]
        numbers = {key: number for number, key in enumerate(mains)}
        return {
            "version": self.version,
            "number": self.shard.number,
            "of": self.shard.of,
            "site": digest_of(self.site),
            "folder": PLAIN.name(self.site.wanted.folder),
            "extent": extent_of(self.site),
            "mains": [[PLAIN.name(word) for word in key] for key in mains],
            "bare": [PLAIN.name(path) for path in found.bare],
            "seconds": found.seconds,
            "cases": [more_of(case, numbers[case.main.key]) for case in found.cases],
            "sentences": [it.sentence for it in found.beside.broken],
            "skipped": [it.why for it in found.beside.passed_over],
            "stale": [[it.line, PLAIN.name(b" ".join(it.key)), it.sentence] for it in found.beside.stale],
        }


def more_of(case: Case, number: int) -> List[object]:
    """Of a case the number of its line of main scripts, where something is expected of it, why it isn't judged, how long it took, and of one
    that fails the script that was looked up last."""
    block, reads = case.block, case.verdict.reads
    failed = any(line.text.startswith(b"error ") for line in case.verdict.lines)
    (place, name), _ = reads[-1] if failed and reads else (("", b""), False)
    expects = [PLAIN.name(block.path), block.number] if block else None
    return [number, expects, case.unjudged, case.seconds, [place, PLAIN.name(name)] if place else None]


class Left(NamedTuple):
    """What a part left: the file, the part, what says of which site it is, how much there is of this, and what was found, each case with
    the number of its line of main scripts."""

    path: bytes
    shard: Shard
    site: str
    extent: Extent
    found: Found
    numbers: List[int]

    def told(self) -> str:
        """Which part it is."""
        return f"{quoted(self.path)} is shard {self.shard.spelled()}"


class Reader(User):
    """In place of all users: what entered a line is known by its file."""

    def path_of(self, place: Place) -> bytes:
        """The file."""
        return place[1]


READER = Reader(b"", b"", [], [], [])


class Cases:
    """Makes cases of what was written of them. Many have the same mail or the same verdict."""

    def __init__(self, folder: bytes, mains: List[Main]) -> None:
        self.folder, self.mains = folder, mains
        self.mails: Dict[str, Mail] = {}
        self.verdicts: Dict[Tuple[object, ...], Verdict] = {}

    def case_of(self, told: Any, more: Any) -> Case:
        """A case."""
        number, place, why, seconds, last = more
        block = Block(octets_named(place[0]), place[1], lines_in(told["expected"])) if place else None
        verdict = self.verdict_of(told["verdict"], told["lines"], last)
        mail = self.mail_of(told["mail"])
        return Case(READER, self.mains[number], mail, verdict, why, seconds, block, told["skipped"])

    def mail_of(self, shown: str) -> Mail:
        """A mail by its name."""
        if shown not in self.mails:
            name = octets_named(shown)
            path = mail_path(self.folder, name)
            self.mails[shown] = Mail(path, name, 0, Envelope(), None, Expected({}, False))
        return self.mails[shown]

    def verdict_of(self, texts: List[str], places: List[Optional[str]], last: Any) -> Verdict:
        """A verdict by its lines, what entered each, and the script that was looked up last, where that is known."""
        key = (*texts, *places, *(last or ()))
        if key not in self.verdicts:
            lines = tuple(Line(text, entered_by(it)) for text, it in zip(lines_in(texts), places))
            self.verdicts[key] = Verdict(lines, (((last[0], octets_named(last[1])), True),) if last else ())
        return self.verdicts[key]


def lines_in(texts: List[str]) -> Tuple[bytes, ...]:
    """The lines of a verdict."""
    return tuple(text.encode("latin-1") for text in texts)


def entered_by(shown: Optional[str]) -> Optional[Tuple[Place, int]]:
    """The file and the line that entered a line of a verdict."""
    if shown is None:
        return None
    name, _, number = shown.rpartition(":")
    return ("", octets_named(name)), int(number)


def beside_of(told: Any, part: Any) -> Beside:
    """What belongs to no verdict."""
    return Beside(
        [
            Broken(octets_named(it["script"]), it["line"], it["word"], sentence)
            for it, sentence in pairs(told["faults"], part["sentences"])
        ],
        [Unfit(octets_named(it["script"]), it["line"], it["why"]) for it in told["not judged"]],
        [Unfit(octets_named(it["script"]), it["line"], why) for it, why in pairs(told["skipped"], part["skipped"])],
        [
            Stale(octets_named(it["file"]), line, (octets_named(name),), sentence)
            for it, (line, name, sentence) in pairs(told["stale"], part["stale"])
        ],
        [(octets_named(it["file"]), it["why"]) for it in told["left out"]],
    )


def pairs(first: List[Any], second: List[Any]) -> "zip[Tuple[Any, Any]]":
    """What two lists have of the same things."""
    if len(first) != len(second):
        raise ValueError
    return zip(first, second)


def left_at(path: bytes, version: str) -> Left:
    """What a part left in a file."""
    octets = octets_of(path)
    try:
        told = json.loads(octets)
        part = told["shard"]
        if part["version"] == version:
            return left_of(path, told, part)
    except NO_PART:
        refuse(f"{quoted(path)} isn't what `check --shard K/N --json` prints")
    refuse(f"{quoted(path)} is of sievebench-site {part['version']}, and this is {version}")


def left_of(path: bytes, told: Any, part: Any) -> Left:
    """What a part left, as it is written."""
    shard, extent = Shard(part["number"], part["of"]), Extent(*part["extent"])
    if not 1 <= shard.number <= shard.of:
        raise ValueError
    mains = [Main(tuple(map(octets_named, words)), (), None, ()) for words in part["mains"]]
    made = Cases(octets_named(part["folder"]), mains)
    cases = [made.case_of(it, more) for it, more in pairs(told["cases"], part["cases"])]
    found = Found(cases, extent, beside_of(told, part), [octets_named(it) for it in part["bare"]], part["seconds"])
    return Left(path, shard, part["site"], extent, found, [more[0] for more in part["cases"]])


def refuse_unfit(parts: List[Left]) -> None:
    """Refuses parts that aren't all parts of one site, each once."""
    first = parts[0]
    seen = {first.shard: first}
    for it in parts[1:]:
        if it.shard.of != first.shard.of:
            refuse(f"{first.told()}, and {it.told()}: these don't make one site")
        if (it.site, it.extent) != (first.site, first.extent):
            refuse(f"{quoted(first.path)} and {quoted(it.path)} are of different sites, or of one that changed")
        if it.shard in seen:
            refuse(f"{seen[it.shard].told()}, and so is {quoted(it.path)}")
        seen[it.shard] = it
    whole = [Shard(number, first.shard.of) for number in range(1, first.shard.of + 1)]
    lost = [it.spelled() for it in whole if it not in seen]
    if lost:
        refuse(f"shard{'s' if len(lost) > 1 else ''} {', '.join(lost)} missing: all {first.shard.of} make one result")
    judged = sum(len(it.found.cases) for it in parts)
    if judged != first.extent.verdicts:
        refuse(f"the shards of {quoted(first.path)} have {judged} verdicts, and the site has {first.extent.verdicts}")


def merged(paths: List[bytes], version: str) -> Found:
    """What all parts found, as one check of the whole site finds it."""
    if not paths:
        refuse("the files of all shards are wanted; see --help")
    parts = [left_at(path, version) for path in paths]
    refuse_unfit(parts)
    numbered = [pair for it in parts for pair in zip(it.numbers, it.found.cases)]
    numbered.sort(key=lambda pair: (pair[1].mail.path, pair[0]))
    (first,) = (it for it in parts if it.shard.is_first())
    bare = sorted({path for it in parts for path in it.found.bare})
    seconds = sum(it.found.seconds for it in parts)
    return Found([case for _, case in numbered], first.extent, first.found.beside, bare, seconds)
