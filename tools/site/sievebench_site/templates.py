"""Paths with users' names in them, as a server's settings have them."""

from __future__ import annotations

import glob
import os
import re
from typing import Dict, Iterator, List, NamedTuple, Optional, Tuple

from .ends import refuse
from .words import quoted

# A user's whole name, its part before the `@`, and its domain.
WHOLE, LOCAL, DOMAIN = "u", "n", "d"
VARIABLE = re.compile(rb"%L?(?:([und])|\{L?(user|username|domain)\})")
LONG = {b"user": WHOLE, b"username": LOCAL, b"domain": DOMAIN}
HOME = re.compile(rb"~(?=/|$)|%h|%\{home\}")


class Piece(NamedTuple):
    """A piece of a path: octets as they are, or where there are none, a part of a user's name."""

    octets: bytes
    part: str = ""


class Template(NamedTuple):
    """A path with parts of a user's name in it."""

    pieces: Tuple[Piece, ...]

    def users(self) -> Iterator[Tuple[bytes, bytes]]:
        """The names of the users for whom there is such a path, in the order of their octets, each with the path."""
        pattern = b"".join(b"*" if it.part else glob.escape(it.octets) for it in self.pieces)
        named = re.compile(b"".join(self.patterns()), re.S)
        for path in sorted(glob.glob(pattern)):
            found = named.fullmatch(path)
            if found:
                yield name_of(found.groupdict()), path

    def patterns(self) -> Iterator[bytes]:
        """What matches each piece. A part that comes again is the same."""
        seen = set()
        for it in self.pieces:
            if not it.part:
                yield re.escape(it.octets)
            else:
                yield (b"(?P=%s)" if it.part in seen else b"(?P<%s>[^/]+)") % it.part.encode()
                seen.add(it.part)

    def filled(self, user: bytes) -> bytes:
        """The path of a user."""
        local, _, domain = user.partition(b"@")
        parts = {WHOLE: user, LOCAL: local, DOMAIN: domain}
        return b"".join(parts[it.part] if it.part else it.octets for it in self.pieces)

    def has_user(self) -> bool:
        """Whether it has a part of a user's name."""
        return any(it.part for it in self.pieces)


def name_of(parts: "Dict[str, bytes]") -> bytes:
    """A user's name by its parts."""
    if WHOLE in parts:
        return parts[WHOLE]
    return parts[LOCAL] + b"@" + parts[DOMAIN] if DOMAIN in parts and LOCAL in parts else b"".join(parts.values())


def template_of(text: bytes, home: Optional[Template] = None) -> Optional[Template]:
    """The path that a setting has; none where it needs a home that isn't known, or has another variable."""
    pieces: List[Piece] = []
    start = HOME.match(text)
    if start and home is None:
        return None
    if start and home:
        pieces, text = list(home.pieces), text[start.end() :]
    at = 0
    for it in VARIABLE.finditer(text):
        pieces += [Piece(text[at : it.start()]), Piece(b"", LONG[it[2]] if it[2] else it[1].decode())]
        at = it.end()
    pieces.append(Piece(text[at:]))
    if any(b"%" in it.octets for it in pieces) or not (pieces[0].octets or pieces[-1].octets).startswith(b"/"):
        return None
    return Template(tuple(pieces))


def pattern_of(text: bytes) -> Tuple[Template, bytes]:
    """The folders of users that a pattern names, and what stands after them in it: `*` is a user, or with two, a domain and a user's name in it."""
    parts = os.path.abspath(text).split(b"/") if text else []
    stars = [number for number, part in enumerate(parts) if part == b"*"]
    if len(stars) not in (1, 2) or any(re.search(rb"[*?\[]", part) for part in parts if part != b"*"):
        refuse(f"--users {quoted(text)} isn't a path with * in the place of a user's name, as '/srv/vmail/*/sieve'")
    names = {stars[0]: WHOLE} if len(stars) == 1 else {stars[0]: DOMAIN, stars[1]: LOCAL}
    pieces: List[Piece] = []
    for number, part in enumerate(parts[: stars[-1] + 1]):
        before = [Piece(b"/")] if number else []
        pieces += [*before, Piece(b"", names[number]) if number in names else Piece(part)]
    return Template(tuple(pieces)), b"/".join(parts[stars[-1] + 1 :])
