"""The envelope of a mail: by its file, by its fields, or by that of the site."""

from __future__ import annotations

import os
import re
from typing import Dict, List, NamedTuple, Optional, Tuple

from .ends import refuse
from .texts import text_of
from .words import ADDRESS_LIMIT, quoted, unquoted, words_in

FIELD = re.compile(rb"([!-9;-~]+)[ \t]*:(.*)", re.S)
LOCAL = re.compile(rb'[^\x00-\x20"(),:;<>@\[\\\]\x7f]+|"(?:[^\x00-\x1f"\\\x7f]|\\[ -~])*"')
DOMAIN = re.compile(rb'[^\x00-\x20"(),;<>@\\\x7f]+')
END, FOLD = re.compile(rb"\n\r?\n|\A\r?\n"), re.compile(rb"\r?\n(?=[ \t])")
SENDER, RECIPIENTS = b"return-path", (b"delivered-to", b"x-original-to", b"envelope-to")
FIELDS = (SENDER, *RECIPIENTS)
# Most mails that a person has saved have none of these fields.
LEFT = re.compile(rb"^(?:" + b"|".join(FIELDS) + rb")[ \t]*:", re.M | re.I)


class Envelope(NamedTuple):
    """The addresses of a mail's sender and recipient, each where it is known. That of a bounce is empty."""

    sender: Optional[bytes] = None
    recipient: Optional[bytes] = None

    def known(self) -> bool:
        """Whether both are."""
        return self.sender is not None and self.recipient is not None

    def over(self, other: "Envelope") -> "Envelope":
        """Each address, or that of another envelope where it isn't known."""
        sender = other.sender if self.sender is None else self.sender
        return Envelope(sender, other.recipient if self.recipient is None else self.recipient)


def wrong_with(address: bytes) -> Optional[str]:
    """Why a text is no address; nothing where it is one, or empty."""
    if not address:
        return None
    local, at, domain = address.rpartition(b"@")
    if not at:
        return "has no @"
    if len(address) > ADDRESS_LIMIT:
        return f"has more than {ADDRESS_LIMIT:,} octets"
    if not LOCAL.fullmatch(local):
        return "has something before its @ that is no local part"
    return None if DOMAIN.fullmatch(domain) else "has something after its @ that is no domain"


def envelope_in(path: bytes) -> Envelope:
    """The envelope of a file, which has two addresses. The empty sender of a bounce may be `<>` (RFC 5321, section 4.5.5)."""
    words = words_in(text_of(path))
    if words is None or len(words) != 2:
        refuse(f"{quoted(path)} isn't two addresses, the sender's and the recipient's")
    sender, recipient = (unquoted(word) for word in words)
    if sender == b"<>":
        sender = b""
    for what, address in (("sender", sender), ("recipient", recipient)):
        wrong = wrong_with(address)
        if wrong:
            refuse(f"{quoted(path)}: the {what} {quoted(address[:100])} is no address: it {wrong}")
    return Envelope(sender, recipient)


def envelope_if_any(path: bytes) -> Envelope:
    """The same, or no address where there is no such file."""
    return envelope_in(path) if os.path.lexists(path) else Envelope()


def envelope_of(octets: bytes) -> Envelope:
    """The envelope that the program which delivered a mail left in its fields, as far as they have one."""
    sender: Optional[bytes] = None
    recipients: Dict[bytes, bytes] = {}
    header = header_of(octets)
    for name, value in fields_in(header) if LEFT.search(header) else []:
        address = address_in(value) if name in FIELDS else None
        if name == SENDER and sender is None:
            sender = address
        elif name in RECIPIENTS and address:
            recipients.setdefault(name, address)
    return Envelope(sender, next((recipients[name] for name in RECIPIENTS if name in recipients), None))


def fields_of(octets: bytes) -> List[Tuple[bytes, bytes]]:
    """The fields of a mail's header: their names in small letters, and their values as they are written."""
    return fields_in(header_of(octets))


def header_of(octets: bytes) -> bytes:
    """The header of a mail, each field on a line."""
    end = END.search(octets)
    return FOLD.sub(b"", octets[: end.start() + 1 if end else len(octets)])


def fields_in(header: bytes) -> List[Tuple[bytes, bytes]]:
    """The fields of such a header."""
    found = (FIELD.match(line) for line in header.split(b"\n"))
    return [(it[1].lower(), it[2].strip(b" \t\r")) for it in found if it]


def address_in(value: bytes) -> Optional[bytes]:
    """The address that a field's value is, with or without angle brackets; none where it is something else."""
    bracketed = re.fullmatch(rb"<(.*)>", value, re.S)
    address = bracketed[1].strip(b" \t") if bracketed else value
    return None if wrong_with(address) or not (address or bracketed) else address
