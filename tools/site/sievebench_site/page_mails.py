"""The part of a page that shows each mail: its verdicts beside what is expected, and why they are so."""

from __future__ import annotations

from typing import Dict, Iterator, List

from .findings import PLAIN, Finding
from .groups import changes, counted
from .judge import Case
from .mails import Mail
from .markup import Inside, Markup, joined, listed, table, tag
from .page_overview import sign
from .page_places import Places, code_of, verdict_text
from .program import Line
from .report_rows import Row, outcome_of
from .traces import Trace, Visit
from .why import error_of

# So many mails of a row are shown from the start.
OPEN = 5
MARKS = {"-": ("del", "− "), "+": ("ins", "+ "), " ": ("span", "")}


def mails_part(places: Places) -> Markup:
    """The rows of mails, each with its verdicts."""
    told = Telling(places)
    return joined(told.row(number, row) for number, row in enumerate(places.facts.rows, 1))


class Telling:
    """Tells the verdicts on mails. What many runs have in common is made once."""

    def __init__(self, places: Places) -> None:
        self.places = places
        self.visits: Dict[Visit, Markup] = {}

    def row(self, number: int, row: Row) -> Markup:
        """Mails of which all is equal."""
        head = tag("h3", self.places.title_of(row), id=f"r{number}-head")
        heads = ("Main script", "Result", "Verdict", "Expected", "Scripts that were looked up, and branches taken")
        verdicts = table("Verdicts", heads, (self.case(case) for case in row.cases))
        parts = [head, verdicts, self.mails(row)]
        return tag("section", *parts, id=f"r{number}", class_="row", aria_labelledby=f"r{number}-head")

    def mails(self, row: Row) -> Markup:
        """The mails of a row with their addresses."""
        heads = ("Subject", "From", "To", "Sender and recipient", "File")
        rows = (self.mail(mail) for mail in row.mails)
        made = table(counted(len(row.mails), "mail"), heads, rows, class_="mails")
        if len(row.mails) <= OPEN:
            return made
        return tag("details", tag("summary", f"{len(row.mails):,} mails with these verdicts"), made)

    def mail(self, mail: Mail) -> Markup:
        """A mail."""
        head, addresses = self.places.facts.heads[mail.path]
        told = (head.sender, head.recipients, addresses, self.places.name(mail.path))
        subject = tag("th", head.subject or "no subject", scope="row")
        return tag("tr", subject, *(tag("td", it) for it in told), id=self.places.mails[mail.path])

    def case(self, case: Case) -> Markup:
        """The verdict under a main script."""
        outcome = outcome_of(case)
        cells = (sign(outcome, outcome.word), self.verdict(case), self.expected(case), self.why(case))
        return tag("tr", tag("th", self.places.label(case), scope="row"), *(tag("td", it) for it in cells))

    def verdict(self, case: Case) -> Markup:
        """The lines of a verdict, each with the command that entered it and the branch in which that is, and what a server may do otherwise."""
        found = self.places.facts.cautions[case.mail.path, case.main.key]
        others = [tag("p", "What a server may do otherwise:"), listed(map(self.caution, found))] if found else []
        if case.unjudged:
            return joined([tag("span", f"not judged: {case.unjudged}"), *others])
        return joined([listed((self.line(case, line) for line in case.verdict.lines), class_="verdict"), *others])

    def caution(self, it: Finding) -> Markup:
        """What a server may do otherwise, with a link to the line that it is about where that is one of a script."""
        place = [self.places.line_link(it.path, it.line), ": "] if it.path else []
        return tag("span", *place, f"{it.kind}: {PLAIN.line(it.text.encode('latin-1'))}", class_="caution")

    def line(self, case: Case, line: Line) -> Markup:
        """A line of a verdict."""
        at = line.at or error_of(case.verdict._replace(lines=(line,)))
        if at is None:
            return code_of(line)
        path, number = self.places.path_of(case.user, at[0]), at[1]
        branches = joined(self.branches(self.trace(case), path, number), "; ")
        told: List[Inside] = [code_of(line), " ", self.places.line_link(path, number)]
        return joined([*told, ", in ", branches] if branches else told)

    def trace(self, case: Case) -> Trace:
        """Where the run of a case comes."""
        return self.places.facts.traces.get((case.mail.path, case.main.key), ())

    def branches(self, trace: Trace, path: bytes, line: int) -> Iterator[Inside]:
        """The branches in which the commands of a line are to which a run comes."""
        visit = next((it for it in trace if it.path == path), None)
        found = [it for it in self.places.commands_on(path, line) if visit and visit.takes(it)]
        for block in dict.fromkeys(it.inside for it in found):
            branch = None if block is None else self.places.branch_link(path, block)
            if branch is not None:
                yield branch

    def expected(self, case: Case) -> Markup:
        """What is expected, line by line against the verdict where that is another."""
        if case.block is None:
            return tag("span", "nothing", class_="none")
        if case.agrees() is not False:
            return listed((tag("code", verdict_text(line)) for line in case.block.lines), class_="verdict")
        told = ((*MARKS[mark], verdict_text(text)) for mark, text in changes(case))
        return listed((tag(name, tag("code", mark + text)) for name, mark, text in told), class_="verdict difference")

    def why(self, case: Case) -> Markup:
        """The scripts that were looked up, each with the branches that were taken in it."""
        visits = {visit.path: visit for visit in self.trace(case)}
        told: List[Inside] = []
        for place, there in case.verdict.reads:
            path = self.places.path_of(case.user, place)
            if path in visits:
                told.append(self.visit(visits[path]))
            else:
                told.append(joined([self.places.script_link(path), "" if there else ": there is none"]))
        return listed(told, class_="why")

    def visit(self, visit: Visit) -> Markup:
        """A script that was looked up."""
        if visit not in self.visits:
            branches = filter(None, (self.places.branch_link(visit.path, it) for it in sorted(visit.places)))
            below = listed(branches)
            self.visits[visit] = joined([self.places.script_link(visit.path), below])
        return self.visits[visit]
