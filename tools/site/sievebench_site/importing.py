"""The command import: mails of mailboxes and files into a site, under short names and with their envelopes."""

from __future__ import annotations

import hashlib
import mailbox
import os
from typing import Dict, Iterator, List, NamedTuple, Optional

from .envelopes import Envelope, address_in, envelope_of
from .files import files_in, is_plain, names_in, octets_of, reading, write_new
from .groups import counted
from .recognized import MAIL_FOLDERS, remark_on, why_no_mail
from .shown import Look
from .words import MESSAGE_LIMIT, quoted


class Found(NamedTuple):
    """A mail that was found: what it is called where it was, its octets, and the sender that its mailbox has."""

    name: bytes
    octets: bytes
    sender: Optional[bytes] = None


def found_in(path: bytes) -> Iterator[Found]:
    """The mails of a Maildir, of an mbox file or of a file of one mail."""
    if os.path.isdir(path):
        yield from in_maildir(path)
        return
    with reading(path), open(path, "rb") as file:
        start = file.read(5)
    if start == b"From ":
        yield from in_mbox(path)
    else:
        yield Found(path, octets_of(path))


def in_maildir(path: bytes) -> Iterator[Found]:
    """The mails of a Maildir, in the order of their names."""
    folders = [os.path.join(path, name) for name in MAIL_FOLDERS]
    files = [os.path.join(folder, name) for folder in folders if os.path.isdir(folder) for name in names_in(folder)]
    for file in sorted(files, key=os.path.basename):
        if not os.path.basename(file).startswith(b".") and is_plain(file):
            yield Found(file, octets_of(file))


def folders_of(path: bytes) -> List[bytes]:
    """The further folders of a Maildir, which are Maildirs themselves."""
    if not os.path.isdir(path):
        return []
    return [
        it for it in (os.path.join(path, name) for name in names_in(path)) if os.path.isdir(os.path.join(it, b"cur"))
    ]


def in_mbox(path: bytes) -> Iterator[Found]:
    """The mails of an mbox file, as the file has them."""
    box = mailbox.mbox(os.fsdecode(path), create=False)
    try:
        for number, key in enumerate(box.keys(), 1):
            whole = box.get_bytes(key, from_=True)
            first, _, octets = whole.partition(b"\n")
            words = first.split()
            sender = words[1] if len(words) > 1 else b""
            name = path + b", mail " + str(number).encode()
            yield Found(name, octets, b"" if sender == b"MAILER-DAEMON" else address_in(sender))
    finally:
        box.close()


class Import:
    """The mails of a site's folder, and those that come to it."""

    def __init__(self, folder: bytes, look: Look) -> None:
        self.folder, self.look = folder, look
        self.number = self.written = self.seen = self.left = self.bare = 0
        self.told: List[str] = []
        self.known: Dict[bytes, bytes] = {}
        for name in files_in(folder, b".eml"):
            self.known.setdefault(digest(octets_of(os.path.join(folder, name))), name)

    def take(self, found: Found) -> None:
        """Writes a mail, or says why it is left out."""
        self.seen += 1
        why = self.why_not(found.octets)
        if why:
            self.leave_out(found.name, why)
            return
        name = self.write(found.octets)
        self.known[digest(found.octets)] = name
        self.written += 1
        remark = remark_on(found.octets)
        if remark:
            self.told.append(f"{self.look.name(found.name)}: taken as {self.look.name(name)}: it {remark}")
        self.write_envelope(found, name)

    def why_not(self, octets: bytes) -> Optional[str]:
        """Why a mail isn't taken, if it isn't."""
        if len(octets) > MESSAGE_LIMIT:
            return f"it has {len(octets):,} octets, and a mail has at most {MESSAGE_LIMIT:,}"
        there, wrong = self.known.get(digest(octets)), why_no_mail(octets)
        if there is not None:
            return f"it is {self.look.name(there)}, octet by octet"
        return f"it {wrong}" if wrong else None

    def write_envelope(self, found: Found, name: bytes) -> None:
        """Writes the envelope next to a mail, if both addresses are known."""
        envelope = envelope_of(found.octets).over(Envelope(found.sender))
        if envelope.sender is None or envelope.recipient is None:
            self.bare += 1
            return
        words = b"%s %s\n" % (spelled(envelope.sender), spelled(envelope.recipient))
        write_new(os.path.join(self.folder, name + b".envelope"), words)

    def write(self, octets: bytes) -> bytes:
        """Writes a mail under the next name that is free, and gives the name."""
        while True:
            self.number += 1
            name = b"%04d.eml" % self.number
            path = os.path.join(self.folder, name)
            beside = any(os.path.lexists(path + end) for end in (b".envelope", b".expect", b".users"))
            if not beside and write_new(path, octets):
                return name

    def leave_out(self, name: bytes, why: str) -> None:
        """Tells a mail or a folder that isn't taken."""
        self.left += 1
        self.told.append(f"{self.look.name(name)}: left out: {why}")

    def pass_over(self, folder: bytes) -> None:
        """Tells a folder that isn't taken."""
        self.leave_out(folder, "it is a mailbox by itself: name it to take it")

    def lines(self) -> List[str]:
        """What is printed: the mails that are left out or odd, and the counts."""
        counts = f"{counted(self.seen, 'mail')}, {self.written} written, {self.left} left out"
        return [*self.told, counts + (f", {self.bare} without an envelope" if self.bare else "")]


def import_mails(sources: List[bytes], folder: bytes, look: Look) -> List[str]:
    """Takes the mails of mailboxes and files into a folder, and gives what is printed."""
    taking = Import(folder, look)
    for source in sources:
        for found in found_in(source):
            taking.take(found)
        for other in folders_of(source):
            taking.pass_over(other)
    return taking.lines()


def digest(octets: bytes) -> bytes:
    """What two mails have in common only where they are the same."""
    return hashlib.sha256(octets).digest()


def spelled(address: bytes) -> bytes:
    """An address as the file of an envelope has it."""
    return address if address and b'"' not in address and b"\\" not in address else quoted(address).encode()
