"""The part of a page that says how a check went, and shows the mails by main scripts."""

from __future__ import annotations

from collections import Counter
from typing import Iterator, List

from .check import findings_of
from .checked import Checked
from .findings import Finding
from .groups import counted
from .judge import Case
from .markup import Inside, Markup, joined, link, listed, table, tag
from .page_places import Places, verdict_text
from .report_rows import OUTCOMES, UNJUDGED, Column, Outcome, Row, columns_of, outcome_of


def overview_part(places: Places) -> Markup:
    """The counts, what belongs to no verdict, and the table of mails."""
    return joined([counts(places.facts.checked), beside(places), legend(), table_of(places)])


def counts(checked: Checked) -> Markup:
    """The counts of a check in a line."""
    further = {what: count for what, count in checked.further().items() if count}
    told = ", ".join(f"{count:,} {what}" for what, count in [*checked.counts().items(), *further.items()])
    passes = "passes" if not checked.failed else "fails"
    return tag("p", tag("strong", f"The check {passes}: "), told, class_=f"counts {passes}")


def beside(places: Places) -> Markup:
    """What a check finds that belongs to no verdict."""
    checked = places.facts.checked
    alone = Checked(checked.found._replace(cases=[]), False, False)
    return listed((finding(places, it) for it in findings_of(alone)), class_="beside")


def finding(places: Places, it: Finding) -> Markup:
    """What is found, with a link to the line of a script."""
    where = places.line_link(it.path, it.line) if it.line else places.name(it.path)
    return joined([where, f": {it.kind}: {it.text}"])


def legend() -> Markup:
    """What the signs stand for."""
    return tag("p", joined((sign(it, it.word) for it in reversed(OUTCOMES)), " "), class_="legend")


def sign(outcome: Outcome, *told: Inside) -> Markup:
    """An outcome by its sign, its colour and in words."""
    return tag("span", tag("span", outcome.sign, aria_hidden="true"), " ", *told, class_=f"outcome {outcome.kind()}")


def table_of(places: Places) -> Markup:
    """The mails by main scripts, those in one row of which all is equal."""
    facts = places.facts
    columns = columns_of(facts.site)
    caption = f"{counted(len(facts.mails), 'mail')} in {counted(len(facts.rows), 'row')}"
    heads = ["Mails", "Count", *(column.title for column in columns)]
    rows = (tag("tr", *cells(places, number, row, columns)) for number, row in enumerate(facts.rows, 1))
    return table(f"{caption}, by main scripts", heads, rows, id="table")


def cells(places: Places, number: int, row: Row, columns: List[Column]) -> Iterator[Markup]:
    """The cells of a row."""
    yield tag("th", link(f"r{number}", places.title_of(row)), scope="row")
    yield tag("td", f"{len(row.mails):,}", data_rank=-len(row.mails), class_="number")
    for column in columns:
        cases = [case for case in row.cases if case.main.key in column.keys]
        ranks = [outcome_of(case).rank for case in cases]
        of = f"{places.label(cases[0])}: " if len(cases) == 1 and len(column.keys) > 1 else ""
        yield tag("td", of, cell(cases), data_rank=min(ranks, default=len(OUTCOMES)))


def cell(cases: List[Case]) -> Markup:
    """How the verdicts under the main scripts of a column went: of one also what it is."""
    if not cases:
        return tag("span", "not for this one", class_="none")
    if len(cases) == 1 and cases[0].unjudged:
        return sign(UNJUDGED, UNJUDGED.word)
    if len(cases) == 1:
        told = "; ".join(map(verdict_text, cases[0].lines()[:3])) + (" .." if len(cases[0].lines()) > 3 else "")
        return joined([sign(outcome_of(cases[0]), outcome_of(cases[0]).word), " ", tag("code", told)])
    found = Counter(map(outcome_of, cases))
    return joined((sign(it, f"{found[it]:,} {it.words}") for it in OUTCOMES if found[it]), " ")
