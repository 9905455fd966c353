"""How names and lines are shown to people."""

from __future__ import annotations

import os
import re
import sys
from typing import NamedTuple

ESCAPES = re.compile(rb'\\["\\]|(?:\\x[0-9a-f]{2})+')
HERE = re.compile(rb"\A(?:\./+)+")
NAMED = re.compile(r"\\x([0-9a-f]{2})|\\(\\)|([^\\]+)")
COLOURS = {"-": "31", "+": "32"}


class Look(NamedTuple):
    """Whether octets of UTF-8 are shown as characters, whether lines have colours, and whether paths are without `./`."""

    utf8: bool
    colours: bool = False
    bare: bool = False

    def name(self, octets: bytes) -> str:
        """A name: what would move the cursor is escaped, and all else but ASCII unless it is UTF-8 and that is wanted."""
        octets = HERE.sub(b"", octets) if self.bare else octets
        return self.line(octets.replace(b"\\", b"\\\\"))

    def line(self, line: bytes) -> str:
        """The same of a line in which octets are escaped already, as verdicts have them."""
        if self.utf8 and b"\\" in line:
            line = ESCAPES.sub(lambda it: octets_meant(it[0]), line)
        return self.text(line)

    def text(self, octets: bytes) -> str:
        """The same of octets in which nothing is escaped, as those of a script."""
        text = octets.decode("utf-8", "surrogateescape") if self.utf8 else octets.decode("latin-1")
        if text.isascii() and text.isprintable():
            return text
        return "".join(it if is_shown(it, self.utf8) else escaped(it, self.utf8) for it in text)

    def mark(self, text: str, kind: str) -> str:
        """A line of a difference, in the colour of its kind."""
        return f"\x1b[{COLOURS[kind]}m{text}\x1b[0m" if self.colours and kind in COLOURS else text


def look_of(utf8: object) -> Look:
    """How this output is shown: characters where that is said, or where the terminal has them; colours on a terminal alone."""
    terminal = sys.stdout.isatty()
    coloured = terminal and "NO_COLOR" not in os.environ and os.environ.get("TERM") != "dumb"
    return Look(terminal and "utf-8" in (sys.stdout.encoding or "").lower() if utf8 is None else bool(utf8), coloured)


def is_shown(character: str, utf8: bool) -> bool:
    """Whether a character stands for itself."""
    return " " <= character <= "~" or (utf8 and character.isprintable())


def octets_named(shown: str) -> bytes:
    """The octets of a name that is shown with its characters of UTF-8."""
    return b"".join(bytes.fromhex(it[1]) if it[1] else (it[2] or it[3]).encode() for it in NAMED.finditer(shown))


def octets_meant(spelled: bytes) -> bytes:
    """The octets of an escape, where they are characters that can be shown, or the escape."""
    octets = bytes.fromhex(spelled.replace(b"\\x", b"").decode()) if spelled.startswith(b"\\x") else b""
    text = octets.decode("utf-8", "replace")
    return octets if octets and text.isprintable() and "\ufffd" not in text and not text.isascii() else spelled


def escaped(character: str, utf8: bool) -> str:
    """The octets of a character, each as an escape."""
    octets = character.encode("utf-8" if utf8 else "latin-1", "surrogateescape")
    return "".join(f"\\x{octet:02x}" for octet in octets)
