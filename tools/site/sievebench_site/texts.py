"""Files of a site that people write, and what their editors put at the beginning."""

from __future__ import annotations

import codecs
import os
from typing import NamedTuple, Optional

from .ends import refuse
from .files import octets_of
from .words import quoted


class Mark(NamedTuple):
    """A byte order mark: its octets, and how to save a file without one."""

    octets: str
    save: str

    def advice(self) -> str:
        """What it is and what to do."""
        return f"a byte order mark, the octets {self.octets}: {self.save}"


MARKS = {
    codecs.BOM_UTF8: Mark("EF BB BF", "save it without one"),
    codecs.BOM_UTF16_LE: Mark("FF FE", "save it as UTF-8 and without one"),
    codecs.BOM_UTF16_BE: Mark("FE FF", "save it as UTF-8 and without one"),
}


def mark_of(octets: bytes) -> Optional[Mark]:
    """The byte order mark with which a file begins, if it does."""
    return next((mark for start, mark in MARKS.items() if octets.startswith(start)), None)


def text_of(path: bytes) -> bytes:
    """What is in a file that people write, which mustn't begin with a byte order mark."""
    octets = octets_of(path)
    mark = mark_of(octets)
    if mark:
        refuse(f"{quoted(path)}, line 1: it begins with {mark.advice()}")
    return octets


def text_if_any(path: bytes) -> bytes:
    """The same, or nothing where there is no such name."""
    return text_of(path) if os.path.lexists(path) else b""
