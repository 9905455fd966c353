"""What the parts of a page have in common: names, and links to mails and to lines of scripts."""

from __future__ import annotations

import functools
import os
from typing import Dict, List, Optional, Tuple

from .changes import Command
from .findings import PLAIN
from .folder import User
from .groups import counted
from .judge import Case
from .letterheads import cut
from .mails import Mail
from .markup import Inside, Markup, joined, link, tag
from .program import Line, Place
from .report import Facts
from .report_rows import Row

# So much is shown of a line of a verdict, and of a command in a link.
VERDICT, COMMAND = 400, 80


class Places:
    """The ids of what a page has, and links to them."""

    def __init__(self, facts: Facts) -> None:
        self.facts = facts
        self.folder = facts.site.wanted.folder
        self.title = PLAIN.name(os.path.basename(os.path.abspath(self.folder)))
        self.mails = {mail.path: f"m{number}" for number, mail in enumerate(facts.mails, 1)}
        self.scripts = {path: f"s{number}" for number, path in enumerate(facts.scripts, 1)}
        self.paths: Dict[Tuple[bytes, Place], bytes] = {}
        self.branch_link = functools.lru_cache(maxsize=None)(self.made_branch_link)

    def name(self, path: bytes) -> str:
        """The name of a file of the site, from its folder on."""
        inside = self.folder.rstrip(b"/") + b"/"
        return PLAIN.name(path[len(inside) :] if path.startswith(inside) else path)

    def subject(self, mail: Mail) -> str:
        """What a mail is called: by its subject, or where it has none by its file."""
        return self.facts.heads[mail.path][0].subject or self.name(mail.path)

    def label(self, case: Case) -> str:
        """What the line of main scripts of a case is called."""
        return PLAIN.name(case.main.label())

    def title_of(self, row: Row) -> str:
        """What a row is called."""
        more = len(row.mails) - 1
        return self.subject(row.mails[0]) + (f" and {counted(more, 'more mail')}" if more else "")

    def mail_link(self, mail: Mail) -> Markup:
        """A link to a mail."""
        return link(self.mails[mail.path], self.subject(mail))

    def path_of(self, user: User, place: Place) -> bytes:
        """The file of a script of a user, or its name where there is none."""
        if (user.name, place) not in self.paths:
            self.paths[user.name, place] = user.path_of(place)
        return self.paths[user.name, place]

    def script_link(self, path: bytes) -> Inside:
        """A link to a script, or its name where it isn't on the page."""
        return link(self.scripts[path], self.name(path)) if path in self.scripts else self.name(path)

    def line_link(self, path: bytes, line: int, *inside: Inside) -> Inside:
        """A link to a line of a script, or its name where it isn't on the page."""
        if line < 1:
            return self.script_link(path)
        told = joined(inside or [f"{self.name(path)}:{line}"])
        return link(f"{self.scripts[path]}-{line}", told) if path in self.scripts else told

    def command_text(self, path: bytes, command: Command) -> str:
        """A command on one line."""
        return cut(PLAIN.text(command.shown(self.facts.scripts[path].text)), COMMAND)

    def made_branch_link(self, path: bytes, block: int) -> Optional[Inside]:
        """A link to the branch whose block begins at a place."""
        found = next((it for it in self.facts.commands.get(path, []) if it.block == block), None)
        if found is None:
            return None
        return self.line_link(path, found.line(), f"line {found.line()}: {self.command_text(path, found)}")

    def commands_on(self, path: bytes, line: int) -> List[Command]:
        """The commands that begin on a line."""
        return [it for it in self.facts.commands.get(path, []) if it.line() == line]


def verdict_text(text: bytes) -> str:
    """A line of a verdict."""
    return cut(PLAIN.line(text), VERDICT)


def code_of(line: Line) -> Markup:
    """A line of a verdict, as code."""
    return tag("code", verdict_text(line.text))
