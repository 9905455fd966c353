"""The mails of a folder, and what in it is left out."""

from __future__ import annotations

import os
import re
from typing import FrozenSet, List, NamedTuple, Optional, Tuple

from .ends import refuse
from .envelopes import Envelope, envelope_in
from .files import Entries, entries_in, is_file, is_plain, names_in, size_in
from .headings import Expected, expected_at, expected_in
from .texts import text_of
from .words import MESSAGE_LIMIT, quoted, unquoted, words_in

# What may stand beside a mail.
ENVELOPE, EXPECT, USERS = ENDS = (b".envelope", b".expect", b".users")
NOTHING, NOWHERE = Expected({}, False), Envelope()
FILES = (b".eml", *(b".eml" + end for end in ENDS))
MAILDIR_NAME = re.compile(rb"[0-9]{9,}\.\S+|.*:2,[A-Za-z]*", re.S)
LeftOut = Tuple[bytes, str]


class Mail(NamedTuple):
    """A mail: its file, its name, its size, and what stands beside it. Its octets are read when they are sent."""

    path: bytes
    name: bytes
    size: int
    envelope: Envelope
    users: Optional[FrozenSet[bytes]]
    expected: Expected

    def expect_path(self) -> bytes:
        """The file or the folder of what is expected of it."""
        return self.path + EXPECT


def mail_path(site: bytes, name: bytes) -> bytes:
    """The file of a mail of a site by its name."""
    user, slash, own = name.partition(b"/")
    return os.path.join(site, b"users", user, b"mails", own) if slash else os.path.join(site, b"mails", name)


def mail_names(folder: bytes) -> List[bytes]:
    """The names of a folder's mails, in the order of their octets."""
    return mails_among(entries_in(folder))


def mails_among(there: Entries) -> List[bytes]:
    """The names of the mails among what is in a folder, in the same order."""
    return [name for name, it in there.items() if name.endswith(b".eml") and not name.startswith(b".") and is_file(it)]


def mail_at(folder: bytes, name: bytes, user: bytes, has_users: bool, there: Entries, wanted: bool = True) -> Mail:
    """A mail, with what stands beside it in the folder, if that is wanted. One of a user's own has the user's name before its own."""
    path, called = os.path.join(folder, name), user + b"/" + name if user else name
    size = size_in(there[name])
    users = users_in(path + USERS) if name + USERS in there else None
    if not wanted:
        return Mail(path, called, size, NOWHERE, users, NOTHING)
    envelope = envelope_in(path + ENVELOPE) if name + ENVELOPE in there else NOWHERE
    expects = there.get(name + EXPECT)
    read = expected_in if expects and is_file(expects) else expected_at
    return Mail(path, called, size, envelope, users, read(path + EXPECT, has_users) if expects else NOTHING)


def users_in(place: bytes) -> FrozenSet[bytes]:
    """The users whom a file names."""
    words = words_in(text_of(place))
    if not words:
        refuse(f"{quoted(place)} names no users: it has their names, with blanks or line ends between them")
    return frozenset(unquoted(word) for word in words)


def too_large(mail: Mail) -> Optional[str]:
    """Why a mail is left out by its size, if it is."""
    return (
        f"it has {mail.size:,} octets, and a mail has at most {MESSAGE_LIMIT:,}" if mail.size > MESSAGE_LIMIT else None
    )


def passed_over(folder: bytes, there: Entries) -> List[LeftOut]:
    """The files of a folder that look like mails and aren't taken, and why. Most folders have nothing but mails and what stands beside them."""
    if all(is_usual(it) for it in there.values()):
        return []
    found: List[LeftOut] = []
    for place, folders, names in os.walk(folder):
        folders[:] = sorted(name for name in folders if not name.endswith(b".eml" + EXPECT))
        found += no_files(place, b".eml", folders)
        for name in sorted(names):
            path = os.path.join(place, name)
            why = why_not(path, place != folder) if looks_like_mail(name) else None
            if why:
                found.append((path, why))
    return found


def is_usual(entry: "os.DirEntry[bytes]") -> bool:
    """Whether what is in a folder is a file of a mail, or one beside it."""
    return entry.name.endswith(FILES) and entry.is_file(follow_symlinks=False)


def no_files(folder: bytes, end: bytes, names: Optional[List[bytes]] = None) -> List[LeftOut]:
    """What in a folder has a name with this end, be it among these names, and leads to no plain file, and why it is left out."""
    found = []
    for name in names_in(folder) if names is None else names:
        path = os.path.join(folder, name)
        if name.endswith(end) and not name.startswith(b".") and not is_plain(path):
            found.append((path, "it is a folder" if os.path.isdir(path) else "it leads to no plain file"))
    return found


def looks_like_mail(name: bytes) -> bool:
    """Whether a file of this name is meant as a mail."""
    if name.startswith(b".") or name.endswith(FILES[1:]):
        return False
    return name.lower().endswith(b".eml") or MAILDIR_NAME.fullmatch(name) is not None


def why_not(path: bytes, inside: bool) -> Optional[str]:
    """Why a file that looks like a mail isn't taken; nothing where it is."""
    if inside:
        return "it is in a folder inside of mails"
    if path.endswith(b".eml"):
        return None if is_plain(path) else "it leads to no plain file"
    if path.lower().endswith(b".eml"):
        return "its name doesn't end by .eml, in small letters"
    return "it has the name of a Maildir's file: `import` takes it"


def lost_in(folder: bytes, there: Entries) -> List[bytes]:
    """The files beside mails that aren't there."""
    names = [(end, name) for end in ENDS for name in there if name.endswith(b".eml" + end)]
    lost = [(end, os.path.join(folder, name)) for end, name in names if not is_mail(name[: -len(end)], there)]
    return [path for end, path in lost if is_plain(path) or (end == EXPECT and os.path.isdir(path))]


def is_mail(name: bytes, there: Entries) -> bool:
    """Whether a file of this name that ends by .eml is there."""
    return name in there and name != b".eml" and is_file(there[name])
