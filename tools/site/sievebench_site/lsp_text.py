"""The text of a document, and its positions: lines from 0, and in a line units of UTF-16 or octets of UTF-8 from 0."""

from __future__ import annotations

import bisect
import re
from typing import NamedTuple, Optional, Tuple

UTF8, UTF16 = "utf-8", "utf-16"
LINE_END = re.compile(r"\r\n|\n|\r")
# Halves of characters of UTF-16.
HALF = re.compile("[\ud800-\udfff]")
PASS = "surrogatepass"


class Position(NamedTuple):
    """A place between two characters."""

    line: int
    character: int


class Span(NamedTuple):
    """All between two places."""

    start: Position
    end: Position


class Text:
    """A text, whose places are told in an encoding."""

    def __init__(self, text: str, encoding: str) -> None:
        self.text, self.encoding = text, encoding
        self.octets = text.encode("utf-8", PASS)
        self.starts = [0, *(it.end() for it in LINE_END.finditer(text))]

    def cut(self, place: Position) -> Tuple[str, str]:
        """The text before a place, and that after it. Past the end of a line is its end, and past the last line that of the text."""
        if place.line >= len(self.starts):
            return self.text, ""
        start = self.starts[place.line]
        end = LINE_END.search(self.text, start)
        line = self.text[start : end.start() if end else None]
        before, after = halves(line, place.character, self.encoding)
        return self.text[:start] + before, after + self.text[start + len(line) :]

    def edited(self, span: Optional[Span], new: str) -> "Text":
        """The text with another one in a span, or in place of all of it."""
        if span is None:
            return Text(joined(new), self.encoding)
        start, end = min(span), max(span)
        return Text(joined(self.cut(start)[0] + new + self.cut(end)[1]), self.encoding)

    def octet_at(self, place: Position) -> int:
        """How many octets of UTF-8 stand before a place."""
        return len(self.cut(place)[0].encode("utf-8", PASS))

    def position_at(self, octet: int) -> Position:
        """The place before an octet of UTF-8, or before the character that it is inside of."""
        front = len(self.octets[: boundary(self.octets, octet)].decode("utf-8", PASS))
        line = bisect.bisect_right(self.starts, front) - 1
        return Position(line, size(self.text[self.starts[line] : front], self.encoding))

    def span_of(self, start: int, end: int) -> Span:
        """All between two octets."""
        return Span(self.position_at(start), self.position_at(end))


def halves(line: str, character: int, encoding: str) -> Tuple[str, str]:
    """A line before and after a unit. Of a character of two units of UTF-16 each half may be cut off, and of one of several octets none."""
    if line.isascii():
        return line[:character], line[character:]
    if encoding == UTF16:
        units = line.encode("utf-16-le", PASS)
        return units[: 2 * character].decode("utf-16-le", PASS), units[2 * character :].decode("utf-16-le", PASS)
    octets = line.encode("utf-8", PASS)
    at = boundary(octets, character)
    return octets[:at].decode("utf-8", PASS), octets[at:].decode("utf-8", PASS)


def boundary(octets: bytes, at: int) -> int:
    """The last beginning of a character of UTF-8 that isn't after this octet."""
    at = min(at, len(octets))
    while 0 < at < len(octets) and octets[at] & 0xC0 == 0x80:
        at -= 1
    return at


def size(text: str, encoding: str) -> int:
    """How many units a text has."""
    return len(text.encode("utf-8", PASS)) if encoding == UTF8 else len(text.encode("utf-16-le", PASS)) // 2


def joined(text: str) -> str:
    """A text in which two halves that meet are one character."""
    return text.encode("utf-16-le", PASS).decode("utf-16-le", PASS) if HALF.search(text) else text
