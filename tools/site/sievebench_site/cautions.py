"""What a server may do otherwise than a verdict says, and what a site lacks for its scripts: reported, and no fault."""

from __future__ import annotations

import functools
import re
from typing import FrozenSet, Iterable, Iterator, List, NamedTuple, Optional, Tuple

from .chains import store_parts
from .envelopes import Envelope, fields_of
from .findings import NOTE, Finding
from .folder import Site, User
from .mains import Script
from .program import Line, Verdict
from .recognized import remark_on
from .sieve_text import lines_with
from .texts import mark_of
from .words import lines_of, quoted, unquoted

ANSWER = b"vacation "
ANY = re.compile(b".*", re.S)
# Fields by whose values a mail isn't answered (RFC 5230, section 4.6; RFC 3834, section 2), as Pigeonhole 0.5.19 has them.
UNANSWERED = [
    (re.compile(rb"auto-submitted"), re.compile(rb"(?!no$).*", re.I | re.S)),
    (re.compile(rb"list-(?:id|owner|subscribe|post|unsubscribe|archive|help)"), ANY),
    (re.compile(rb"precedence"), re.compile(rb"bulk|junk|list", re.I)),
    (re.compile(rb"x-auto-response-suppress"), re.compile(rb"(?:.*,)?\s*(?:all|oof)\s*(?:,.*)?", re.I | re.S)),
]
PROGRAMS = re.compile(rb"(?:mailer-daemon|listserv|majordomo|owner-.*|.*-request)@.*", re.I | re.S)


class Lack(NamedTuple):
    """What a site may lack: the test that asks for it, what that is called, and what is said of it."""

    word: bytes
    kind: str
    text: str


CLOCK = Lack(b"currentdate", "no-clock", "It asks for the current date, and the site has no clock.")
BOXES = Lack(b"mailboxexists", "no-mailboxes", "It asks whether a mailbox exists, and the site has no mailboxes.")


def of_case(
    site: Site, user: User, scripts: List[Script], verdict: Verdict, envelope: Envelope, octets: bytes
) -> Iterator[Finding]:
    """What a server may do otherwise with a mail of these octets, and what the site lacks for those of some scripts that were looked up."""
    answers = any(line.text.startswith(ANSWER) for line in verdict.lines)
    yield from of_verdict(site, user, verdict, why_no_answer(envelope, octets) if answers else None)
    yield from of_scripts(site, [script for script in scripts if (script.at(), True) in verdict.reads])


def of_scripts(site: Site, scripts: Iterable[Script]) -> Iterator[Finding]:
    """Where scripts ask for what the site lacks."""
    lacks = [it for it, has in ((CLOCK, site.clock is not None), (BOXES, bool(site.mailboxes))) if not has]
    for script in scripts:
        for lack in lacks:
            for line in lines_with(script.text, lack.word):
                yield Finding(script.path, line, lack.kind, lack.text, NOTE)


def of_store(site: Site, path: bytes, line: int, name: bytes, use: bool) -> Iterator[Finding]:
    """What is said of a store into a mailbox that nothing makes. One of a special use goes to this mailbox where none has the use (RFC 8579,
    section 4)."""
    if site.mailboxes and name.upper() != b"INBOX" and name not in names_in(site.mailboxes):
        unless = "unless a mailbox has the special use, " if use else ""
        text = (
            f"No line of mailboxes is {quoted(name)}, and nothing makes it: {unless}the server keeps the mail in INBOX."
        )
        yield Finding(path, line, "no-mailbox", text, NOTE)


@functools.lru_cache(maxsize=1)
def names_in(mailboxes: bytes) -> FrozenSet[bytes]:
    """The names of a list of mailboxes."""
    return frozenset(lines_of(mailboxes))


def of_verdict(site: Site, user: User, verdict: Verdict, why_unanswered: Optional[str]) -> Iterator[Finding]:
    """What is said of the lines of a verdict."""
    for line in verdict.lines:
        if site.mailboxes and line.text.startswith(b"store "):
            words, _, asks = store_parts(line.text)
            if b"create" not in asks:
                yield from of_store(site, *entered_by(user, line), unquoted(words[1]), b"special-use" in asks)
        elif line.text.startswith(ANSWER) and why_unanswered:
            yield no_answer(*entered_by(user, line), why_unanswered)


def no_answer(path: bytes, line: int, why: str) -> Finding:
    """What is said of a response that isn't sent."""
    return Finding(path, line, "no-answer", f"The server doesn't answer this mail: {why}.", NOTE)


def of_mail(path: bytes, octets: bytes) -> Iterator[Finding]:
    """What is said of the octets of a mail."""
    if mark_of(octets):
        yield Finding(path, 1, "byte-order-mark", f"It {remark_on(octets)}.", NOTE)


def entered_by(user: User, line: Line) -> Tuple[bytes, int]:
    """The file and the line of the command that entered a line of a verdict."""
    return (user.path_of(line.at[0]), line.at[1]) if line.at else (b"", 0)


def why_no_answer(envelope: Envelope, octets: bytes) -> Optional[str]:
    """Why servers don't answer a mail, if they don't."""
    if envelope.sender == b"":
        return "its sender is empty"
    if envelope.sender and PROGRAMS.fullmatch(envelope.sender):
        return f"its sender {quoted(envelope.sender)} is a program"
    for name, value in fields_of(octets):
        if any(field.fullmatch(name) and wrong.fullmatch(value) for field, wrong in UNANSWERED):
            return f"it has the field {quoted(name + b': ' + value)}"
    return None
