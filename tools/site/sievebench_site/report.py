"""The command report: all that the other commands find in a site, for a page that shows it."""

from __future__ import annotations

import itertools
import os
from typing import Dict, Iterable, List, Optional, Set, Tuple

from . import cautions
from .changes import Command, commands
from .checked import Checked, found_in
from .diff import Diff
from .ends import refuse
from .expected import Key
from .files import OUTPUTS, octets_of, refuse_unwritable
from .findings import Finding
from .folder import Site
from .judge import Case
from .letterheads import Letterhead, letterhead_of
from .mails import Mail
from .mains import Script
from .program import Program
from .report_rows import Row, rows_of
from .traces import Traced, Visit
from .untested import Tried
from .words import quoted, word_of

# The verdicts of mails that come to a place, each with the numbers of the mails.
Came = Dict[Tuple[bytes, ...], Set[int]]
Visits = Tuple[Visit, ...]


class Facts:
    """What is found in a site: what `check` compares, where each run comes, what `untested` leaves, and what an edit changes, if one is asked
    for."""

    def __init__(self, site: Site, program: Program, jobs: int, edit: Optional[Diff] = None) -> None:
        self.site, self.edit = site, edit
        traced = Traced(site, program, jobs)
        self.judge, self.traces = traced.judge, traced.traces
        self.checked = Checked(found_in(site, self.judge.judged(traced.found)), False, False)
        # Of each mail its head and the addresses of its envelope as words, and what a server may do otherwise under each main script.
        self.heads: Dict[bytes, Tuple[Letterhead, str]] = {}
        self.cautions: Dict[Tuple[bytes, Key], Tuple[Finding, ...]] = {}
        # The scripts of each user that ask for what the site lacks: most have none.
        self.asking: Dict[bytes, List[Script]] = {}
        for user in site.users:
            self.asking[user.name] = [it for it in user.scripts if any(cautions.of_scripts(site, [it]))]
        for _, cases in itertools.groupby(self.checked.cases, lambda case: case.mail.path):
            self.take_mail(list(cases))
        self.rows: List[Row] = rows_of(self.checked.cases, self.traces, self.cautions)
        self.mails: List[Mail] = [mail for row in self.rows for mail in row.mails]
        self.scripts: Dict[bytes, Script] = {it.path: it for user in site.users for it in user.scripts}
        self.commands: Dict[bytes, List[Command]] = {path: commands(it.text) for path, it in self.scripts.items()}
        self.left: Dict[bytes, List[Tried]] = {}
        for tried in traced.left():
            self.left.setdefault(tried.script.path, []).append(tried)
        # Of each script that runs look up what comes of these runs: the mails by their verdicts, of each visit.
        self.visits: Dict[bytes, Dict[Visit, Came]] = {}
        self.take_traces()

    def take_traces(self) -> None:
        """Tells where the mails come."""
        numbers = {mail.path: number for number, mail in enumerate(self.mails)}
        for case in self.checked.cases:
            number, lines = numbers[case.mail.path], case.lines()
            for visit in self.traces.get((case.mail.path, case.main.key), ()):
                found = self.visits.setdefault(visit.path, {}).setdefault(visit, {})
                found.setdefault(lines, set()).add(number)

    def visits_to(self, path: bytes, points: Iterable[int]) -> Visits:
        """The visits of a script that come to one of some places."""
        return tuple(visit for visit in self.visits.get(path, ()) if not visit.places.isdisjoint(points))

    def came(self, visits: Visits) -> Came:
        """The mails of some visits of a script, by their verdicts."""
        found: Came = {}
        for visit in visits:
            for lines, mails in self.visits[visit.path][visit].items():
                found.setdefault(lines, set()).update(mails)
        return found

    def take_mail(self, cases: List[Case]) -> None:
        """Tells what is read from the mail of some cases."""
        mail = cases[0].mail
        octets = octets_of(mail.path)
        envelope = self.judge.envelope_of(mail, octets)
        addresses = f"{word_of(envelope.sender or b'')} {word_of(envelope.recipient or b'')}"
        self.heads[mail.path] = letterhead_of(octets), addresses
        for case in cases:
            scripts = self.asking.get(case.user.name, [])
            found = cautions.of_case(self.site, case.user, scripts, case.verdict, envelope, octets)
            self.cautions[mail.path, case.main.key] = tuple(dict.fromkeys([*cautions.of_mail(b"", octets), *found]))


def refuse_place(path: bytes, folder: bytes) -> None:
    """Refuses a file for the page that can't be written, or is one of the site's."""
    if path in OUTPUTS:
        return
    place, site = os.path.realpath(path), os.path.realpath(folder)
    if os.path.commonpath([place, site]) == site:
        refuse(f"{quoted(path)} is inside of {quoted(folder)}: the page goes to another folder than the site's")
    refuse_unwritable(path)
