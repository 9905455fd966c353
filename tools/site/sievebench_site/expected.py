"""What is expected of a mail: blocks of lines, one for each of the names in brackets."""

from __future__ import annotations

import functools
import re
from typing import Dict, Iterable, List, NamedTuple, NoReturn, Optional, Tuple

from .ends import refuse
from .words import lines_of, quoted, unquoted, word_of, words_of

KINDS = (b"store", b"redirect", b"discard", b"vacation", b"reject", b"ereject", b"implicit", b"error")
# What stands under a mail in a report too, and is no line of its verdict.
BESIDE = (b"envelope", b"at", b"read", b"expected", b"unexpected")
# The words between brackets: what a line of main scripts is called, or once the names of all its scripts. Where a site has users, the
# first has the user's name and a slash before it.
Key = Tuple[bytes, ...]


class Block(NamedTuple):
    """What is expected under a heading, and the file and the line that have it."""

    path: bytes
    number: int
    lines: Tuple[bytes, ...]


Blocks = Dict[Key, Block]


def blocks_of(path: bytes, octets: bytes) -> Blocks:
    """The blocks of a file. Comments, empty lines and what else stands in a report aren't part of them."""
    found: Dict[Key, Tuple[int, List[bytes]]] = {}
    lines: Optional[List[bytes]] = None
    for number, line in enumerate(lines_of(octets), 1):
        if line.startswith(b"["):
            key, lines = key_of(line), []
            if not key:
                wrong_at(path, number, "between the brackets stands no name of a main script")
            if key in found:
                wrong_at(path, number, f"{shown_key(key)} stood there before")
            found[key] = number, lines
            continue
        text = told_by(line)
        if text is None:
            wrong_at(path, number, "these aren't words, or a quote isn't closed")
        if not text:
            continue
        if lines is None:
            wrong_at(path, number, "before it stands no name of a main script in brackets")
        if text.partition(b" ")[0] not in KINDS:
            first = (words_of(line) or [b""])[0]
            wrong_at(path, number, f"no line of a verdict begins with {quoted(first)}")
        lines.append(text)
    return {key: Block(path, number, tuple(lines)) for key, (number, lines) in found.items()}


def wrong_at(path: bytes, number: int, what: str) -> NoReturn:
    """Refuses a file for one of its lines."""
    refuse(f"{quoted(path)}, line {number}: {what}")


def key_of(line: bytes) -> Key:
    """The words between brackets; none where that isn't what stands there."""
    inner = re.fullmatch(rb'\[((?:"(?:[^"\\]|\\.)*"|[^"\]])*)\][ \t]*(?:#.*)?', line, re.S)
    words = words_of(inner[1]) if inner else None
    return tuple(unquoted(word) for word in words or ())


# Most mails have the same few lines.
@functools.lru_cache(maxsize=4096)
def told_by(line: bytes) -> Optional[bytes]:
    """The line of a verdict that a line is, as verdicts spell it; empty where it says nothing, and none where it isn't words."""
    words = words_of(line)
    if words is None:
        return None
    return b" ".join(map(spelled, words)) if words and words[0] not in BESIDE else b""


def spelled(word: bytes) -> bytes:
    """A word as a verdict spells it."""
    return quoted(unquoted(word)).encode() if word.startswith(b'"') else word


def shown_key(key: Key) -> str:
    """The names between brackets as they are written."""
    return f"[{' '.join(word_of(name) for name in key)}]"


def text_of(blocks: Dict[Key, Tuple[bytes, ...]]) -> bytes:
    """The blocks as this tool writes them, in the order of the names."""
    return b"".join(block_text(key, lines) for key, lines in sorted(blocks.items()))


def block_text(key: Key, lines: Iterable[bytes]) -> bytes:
    """A block as this tool writes it."""
    return shown_key(key).encode() + b"\n" + b"".join(line + b"\n" for line in lines)
