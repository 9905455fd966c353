"""What people read at the top of a mail: its subject and its addresses, as mail programs show them."""

from __future__ import annotations

import email.errors
import email.header
from typing import Dict, NamedTuple

from .envelopes import fields_of
from .findings import PLAIN

# So much of a field is shown.
SHOWN = 200


class Letterhead(NamedTuple):
    """The first subject, sender and recipients of a mail's header, each empty where it has none."""

    subject: str
    sender: str
    recipients: str


def letterhead_of(octets: bytes) -> Letterhead:
    """The head of a mail."""
    found: Dict[bytes, bytes] = {}
    for name, value in fields_of(octets):
        found.setdefault(name, value)
    return Letterhead(*(readable(found.get(name, b"")) for name in (b"subject", b"from", b"to")))


def readable(value: bytes) -> str:
    """A field's value with the characters that its encoded words stand for, where the standard library knows them. What would move the
    cursor or turn the text around is escaped."""
    octets = value
    if b"=?" in value:
        try:
            decoded = email.header.make_header(email.header.decode_header(value.decode("latin-1")))
            octets = str(decoded).encode("utf-8", "surrogateescape")
        except (email.errors.MessageError, LookupError, ValueError):
            pass
    return cut(PLAIN.text(octets), SHOWN)


def cut(text: str, most: int) -> str:
    """So much of a text."""
    return text if len(text) <= most else f"{text[:most]} .."
