"""What a file is that was meant as a mail, by its octets."""

from __future__ import annotations

import os
import re
from typing import Optional

from .ends import refuse
from .envelopes import fields_of
from .files import is_plain, names_in, reading
from .texts import mark_of
from .words import quoted

# What packs a file so that it begins like this, and how others begin that are no mails.
PACKED = [
    (re.compile(rb"\x1f\x8b"), "gzip"),
    (re.compile(rb"\x28\xb5\x2f\xfd"), "zstd"),
    (re.compile(rb"BZh[1-9](?:1AY&SY|\x17rE8P\x90)"), "bzip2"),
    (re.compile(rb"\xfd7zXZ\x00"), "xz"),
    (re.compile(rb"\x04\x22\x4d\x18"), "lz4"),
    (re.compile(rb"PK(?:\x03\x04|\x05\x06)"), "zip"),
]
OTHERS = [
    (re.compile(rb"CRYPTED\x03\x07"), "is encrypted by Dovecot: let the server read it out"),
    (re.compile(rb"\x7fELF|#!|MZ[^\n]{0,62}\x00|\xca\xfe\xba\xbe|[\xce\xcf]\xfa\xed\xfe", re.S), "is a program"),
]
NO_MAILS = [
    *((pattern, f"is packed by {packer}: unpack it, and take what comes of it") for pattern, packer in PACKED),
    *OTHERS,
]
START = 64
MAIL_FOLDERS = (b"cur", b"new")


def why_no_mail(octets: bytes) -> Optional[str]:
    """What a file is by its first octets, if that is no mail."""
    return next((what for pattern, what in NO_MAILS if pattern.match(octets)), None)


def remark_on(octets: bytes) -> Optional[str]:
    """What is odd about a mail that is taken."""
    mark = mark_of(octets)
    if mark:
        return f"begins with a byte order mark, the octets {mark.octets}, so that its first line is no field"
    return None if fields_of(octets) else "has no field: is it a mail?"


def refuse_no_box(path: bytes) -> None:
    """Refuses what is neither a Maildir, nor an mbox file, nor a mail, and what has no mail in it."""
    if os.path.isdir(path):
        refuse_no_maildir(path)
        return
    if os.path.exists(path) and not is_plain(path):
        refuse(f"cannot read {quoted(path)}: it is no plain file")
    with reading(path), open(path, "rb") as file:
        start = file.read(START)
    why = why_no_mail(start) if start else "is empty: there is no mail in it"
    if why:
        refuse(f"{quoted(path)} {why}")


def refuse_no_maildir(path: bytes) -> None:
    """Refuses a folder that is no Maildir, or has no mail."""
    folders = [it for it in (os.path.join(path, name) for name in MAIL_FOLDERS) if os.path.isdir(it)]
    if not folders:
        refuse(f"{quoted(path)} is no Maildir: it has neither cur nor new")
    if all(name.startswith(b".") for folder in folders for name in names_in(folder)):
        refuse(f"{quoted(path)} is empty: there is no mail in its folders cur and new")
