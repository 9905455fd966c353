"""The part of a page that shows what an edit changes, as `diff` says it."""

from __future__ import annotations

from typing import Iterator, List

from .findings import PLAIN
from .groups import Group, changes, counted, grouped, places_of
from .judge import Case
from .markup import Inside, Markup, joined, listed, table, tag
from .page_mails import MARKS
from .page_places import Places, verdict_text

# So many lines are linked that entered a line of a verdict.
LINES = 3


def edit_part(places: Places) -> Markup:
    """What the edit changes; nothing where none is asked for."""
    edit = places.facts.edit
    if edit is None:
        return Markup()
    told = [tag("p", tag("strong", edit.summary()), class_="counts")]
    told.append(listed([*edit.notes(PLAIN), *edit.faults(PLAIN)], class_="beside"))
    groups = edit.groups(False)
    unjudged = grouped(edit.unjudged, lambda case: case.unjudged, False)
    if groups or unjudged:
        rows = [*(changed(places, it) for it in groups), *(not_judged(places, it) for it in unjudged)]
        told.append(table("Verdicts that the edit changes", ("Mails", "Verdicts before (−) and now (+)"), rows))
    return joined(told)


def changed(places: Places, group: Group) -> Markup:
    """Verdicts that change in the same way."""
    told = (difference(places, group, mark, text) for mark, text in changes(group.cases[0]))
    return row(places, group, listed(told, class_="verdict difference"))


def difference(places: Places, group: Group, mark: str, text: bytes) -> Markup:
    """A line of a difference, and what entered it if it is there now."""
    name, sign = MARKS[mark]
    made = tag(name, tag("code", sign + verdict_text(text)))
    return joined([made, *entered(places, group, text)]) if mark == "+" else made


def entered(places: Places, group: Group, text: bytes) -> Iterator[Inside]:
    """Links to the lines that entered a line of a verdict that is there now, or where there are many to the first of them."""
    lines = dict.fromkeys(
        at for case in group.cases for line in case.verdict.lines for at in places_of(case, line, text)
    )
    for path, number in list(lines)[:LINES]:
        yield " "
        yield places.line_link(path, number)
    if len(lines) > LINES:
        yield f" and {counted(len(lines) - LINES, 'other line')}"


def not_judged(places: Places, group: Group) -> Markup:
    """Verdicts that can't be judged, before or now."""
    return row(places, group, tag("span", f"not judged: {group.cases[0].unjudged}"))


def row(places: Places, group: Group, told: Markup) -> Markup:
    """A row of the table: the first mails with their main scripts, all others folded, and what is told of them."""
    first, rest = group.first(), group.cases[len(group.first()) :]
    more = tag("details", tag("summary", f"and {counted(len(rest), 'more verdict')}"), listed(names(places, rest)))
    mails = joined([listed(names(places, first)), *([more] if rest else [])])
    return tag("tr", tag("th", mails, scope="row"), tag("td", told))


def names(places: Places, cases: List[Case]) -> Iterator[Inside]:
    """Cases by their mails and main scripts."""
    for case in cases:
        yield joined([places.mail_link(case.mail), f" under {places.label(case)}"])
