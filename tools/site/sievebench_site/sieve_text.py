"""The text of a Sieve script: its tokens, what it requires, and texts that are made from it without moving a line."""

from __future__ import annotations

import functools
import re
from typing import Iterable, Iterator, List, NamedTuple, Optional, Tuple

# White space and comments; then what a token is, the multi-line string before the identifier that it begins like.
BLANK = re.compile(rb"(?:[ \t\r\n]|#[^\n]*(?:\n|$)|/\*.*?\*/)+", re.S)
TOKEN = re.compile(
    rb'(?P<string>"(?:[^"\\]|\\.)*"|text:[ \t]*(?:#[^\n]*|\r)?\n(?:.*?\n)??\.\r?\n)'
    rb"|(?P<tag>:[a-z_][a-z0-9_]*)|(?P<word>[a-z_][a-z0-9_]*)|(?P<number>[0-9]+[kmg]?)|(?P<mark>[;{}()\[\],])",
    re.S | re.I,
)
ACTIONS = (b"keep", b"fileinto", b"redirect", b"discard")


class Token(NamedTuple):
    """A token: its kind, where it stands, and its octets, those of a word in small letters."""

    kind: str
    start: int
    end: int
    octets: bytes


def tokens(text: bytes) -> Iterator[Token]:
    """The tokens of a script, up to the first octets that are none."""
    at = 0
    while True:
        blank = BLANK.match(text, at)
        at = blank.end() if blank else at
        found = TOKEN.match(text, at)
        if found is None or found.lastgroup is None:
            return
        at = found.end()
        octets = found[0].lower() if found.lastgroup in ("word", "tag") else found[0]
        yield Token(found.lastgroup, found.start(), at, octets)


def line_at(text: bytes, place: int) -> int:
    """The line of an octet."""
    return text.count(b"\n", 0, place) + 1


# Of the scripts of many mails this is asked for each mail.
@functools.lru_cache(maxsize=1024)
def lines_with(text: bytes, word: bytes) -> List[int]:
    """The lines that have this word of a command or a test, each once."""
    if word not in text.lower():
        return []
    return sorted({line_at(text, it.start) for it in tokens(text) if it.kind == "word" and it.octets == word})


def string_meant(spelled: bytes) -> bytes:
    """The octets that a quoted string stands for."""
    return re.sub(rb"\\(.)", rb"\1", spelled[1:-1], flags=re.S)


def required(text: bytes) -> Tuple[int, List[bytes]]:
    """The end of the commands `require` that stand before all others, and the capabilities that they name."""
    end, names = 0, []
    command: List[Token] = []
    for token in tokens(text):
        command.append(token)
        if command[0].octets != b"require" or token.octets in (b"{", b"}"):
            break
        if token.octets == b";":
            names += [string_meant(it.octets) for it in command if it.octets.startswith(b'"')]
            end, command = token.end, []
    return end, names


def line_requiring(text: bytes, name: bytes) -> int:
    """The line on which a script requires a capability."""
    strings = [it for it in tokens(text[: required(text)[0]]) if it.octets.startswith(b'"')]
    return next((line_at(text, it.start) for it in strings if string_meant(it.octets) == name), 1)


def with_flags(text: bytes, flags: Iterable[bytes]) -> bytes:
    """The script with these internal flags from its start on. They are added after its leading `require` commands, on their line."""
    flags = tuple(flags)
    if not flags:
        return text
    end, names = required(text)
    spelled = b", ".join(b'"' + it.replace(b"\\", b"\\\\").replace(b'"', b'\\"') + b'"' for it in flags)
    require = b"" if b"imap4flags" in names else b' require "imap4flags";'
    return text[:end] + require + b" addflag [" + spelled + b"];" + text[end:]


def without_actions(text: bytes) -> bytes:
    """The script without its stores, redirects and discards: blanks stand for them, and their line ends stay."""
    made, start = [], 0
    begun: Optional[int] = None
    for token in tokens(text):
        if begun is None and token.kind == "word" and token.octets in ACTIONS:
            begun = token.start
        elif begun is not None and token.octets == b";":
            made += [text[start:begun], re.sub(rb"[^\n]", b" ", text[begun : token.end])]
            begun, start = None, token.end
    return b"".join(made) + text[start:]
