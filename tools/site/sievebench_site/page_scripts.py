"""The part of a page that shows each script: its lines, the mails that come to each, and what is wrong or unnoticed there."""

from __future__ import annotations

from typing import Dict, Iterator, List, Set, Tuple

from .changes import Command
from .findings import PLAIN
from .groups import counted
from .mains import Script
from .markup import Inside, Markup, joined, link, listed, table, tag
from .page_places import Places, verdict_text
from .report import Came, Visits
from .traces import point_of

# So many verdicts are shown of a line.
VERDICTS = 10
FAULT, SKIPPED, UNNOTICED = "fault", "skipped", "unnoticed"
SIGNS = {FAULT: "✗ ", SKIPPED: "? ", UNNOTICED: "△ "}
# A kind of remark, as a class of the page's style, and the remark.
Remark = Tuple[str, str]


def scripts_part(places: Places) -> Markup:
    """All scripts, each with its lines."""
    remarks = remarks_of(places)
    return joined(
        ScriptPart(places, script, remarks.get(path, {})).made() for path, script in places.facts.scripts.items()
    )


def remarks_of(places: Places) -> Dict[bytes, Dict[int, List[Remark]]]:
    """What is said of lines of scripts: faults, what can't be judged, and changes that no mail notices."""
    found: Dict[bytes, Dict[int, List[Remark]]] = {}

    def add(path: bytes, line: int, *remark: str) -> None:
        found.setdefault(path, {}).setdefault(line, []).append((remark[0], remark[1]))

    beside = places.facts.checked.beside
    for broken in beside.broken:
        add(broken.path, broken.line, FAULT, f"{broken.word}: {broken.sentence}")
    for unfit in beside.lacking:
        add(unfit.path, unfit.line, FAULT, f"not judged: {unfit.why}")
    for unfit in beside.passed_over:
        add(unfit.path, unfit.line, SKIPPED, f"skipped: {PLAIN.line(unfit.why.encode())}")
    for path, left in places.facts.left.items():
        for tried in left:
            add(path, tried.change.line, UNNOTICED, tried.why(PLAIN))
    return found


class ScriptPart:
    """A script on the page."""

    def __init__(self, places: Places, script: Script, remarks: Dict[int, List[Remark]]) -> None:
        self.places, self.script, self.remarks = places, script, remarks
        self.id = places.scripts[script.path]
        self.cannot_run = any(kind in (FAULT, SKIPPED) for told in remarks.values() for kind, _ in told)
        self.asked = script.path in places.facts.visits and not self.cannot_run
        # Most lines have mails in common with others.
        self.told: Dict[Visits, Tuple[int, Markup]] = {}
        self.commands: Dict[int, List[Command]] = {}
        for command in places.facts.commands[script.path]:
            self.commands.setdefault(command.line(), []).append(command)

    def made(self) -> Markup:
        """The script."""
        lines = self.script.text.split(b"\n")
        lines = lines[:-1] if not lines[-1] and len(lines) > max(self.remarks, default=1) else lines
        rows = (self.row(number, line) for number, line in enumerate(lines, 1))
        head = tag("h3", tag("code", self.places.name(self.script.path)), id=f"{self.id}-head")
        listing = table(
            f"Lines of {self.places.name(self.script.path)}", ("Line", "Mails", "Script"), rows, class_="listing"
        )
        return tag(
            "section", head, self.summary(), listing, id=self.id, class_="script", aria_labelledby=f"{self.id}-head"
        )

    def summary(self) -> Markup:
        """How many mails come to the script."""
        if self.cannot_run:
            return tag("p", "It can't be run, as is said below.")
        if not self.asked:
            return tag("p", "No verdict looks it up.")
        mails, _ = self.of_visits(tuple(self.places.facts.visits[self.script.path]))
        left = len(self.places.facts.left.get(self.script.path, []))
        noticed = f"No mail notices {counted(left, 'change')} of it." if left else "Each change of it is noticed."
        return tag("p", f"{counted(mails, 'mail')} {comes(mails)} here. {noticed}")

    def row(self, number: int, line: bytes) -> Markup:
        """A line."""
        found = [it for it in self.commands.get(number, []) if it.name() != b"require"]
        kinds = dict.fromkeys(kind for kind, _ in self.remarks.get(number, []))
        told = self.mails(found) if found and self.asked else Markup()
        missed = self.asked and any(not self.visits_to(it) for it in found)
        text = PLAIN.text(line.rstrip(b"\r").expandtabs(8))
        place = f"{self.id}-{number}"
        script = joined([tag("code", text), listed(self.remark(it) for it in self.remarks.get(number, []))])
        classes = " ".join([*kinds, *(["missed"] if missed else [])])
        return tag(
            "tr",
            tag("th", link(place, str(number)), scope="row"),
            tag("td", told),
            tag("td", script),
            id=place,
            class_=classes or None,
        )

    def remark(self, remark: Remark) -> Markup:
        """What is said of a line."""
        kind, text = remark
        return tag("span", tag("span", SIGNS[kind], aria_hidden="true"), text, class_=kind)

    def visits_to(self, *found: Command) -> Visits:
        """The visits that come to one of some commands."""
        points = [point for point in map(point_of, found) if point is not None]
        return self.places.facts.visits_to(self.script.path, points)

    def of_visits(self, visits: Visits) -> Tuple[int, Markup]:
        """How many mails these visits have, and with which verdicts."""
        if visits not in self.told:
            came = self.places.facts.came(visits)
            mails = {mail for found in came.values() for mail in found}
            self.told[visits] = len(mails), self.verdicts(came)
        return self.told[visits]

    def mails(self, found: List[Command]) -> Markup:
        """How many mails come to the commands of a line, and with which verdicts; of branches how many take them."""
        mails, verdicts = self.of_visits(self.visits_to(*found))
        told = joined(self.counts(found[0], mails), ", ")
        return tag("details", tag("summary", told), verdicts) if mails else tag("span", told, class_="none")

    def counts(self, first: Command, mails: int) -> Iterator[str]:
        """The counts of a line in words."""
        begins = point_of(first) != first.block
        if begins:
            yield f"{mails:,} {comes(mails)}" if mails else "none comes here"
        if first.block is not None and (mails or not begins):
            taken, _ = self.of_visits(self.places.facts.visits_to(self.script.path, [first.block]))
            yield f"{taken:,} {'takes' if taken == 1 else 'take'} it" if taken else "none takes it"

    def verdicts(self, came: Came) -> Markup:
        """Verdicts with the numbers of their mails, the most frequent first, each with a link to its first mail."""
        ranked = sorted(came.items(), key=lambda it: (-len(it[1]), min(it[1])))
        told: List[Inside] = [self.verdict(lines, mails) for lines, mails in ranked[:VERDICTS]]
        more = len(ranked) - VERDICTS
        return listed([*told, *([f"and {counted(more, 'other verdict')}"] if more > 0 else [])])

    def verdict(self, lines: Tuple[bytes, ...], mails: Set[int]) -> Markup:
        """A verdict, and the mails that have it."""
        text = "; ".join(map(verdict_text, lines)) or "nothing"
        example = self.places.facts.mails[min(mails)]
        first = joined(["as ", self.places.mail_link(example)])
        return joined([f"{len(mails):,}: ", tag("code", text), " ", first])


def comes(count: int) -> str:
    """The word for so many mails."""
    return "comes" if count == 1 else "come"
