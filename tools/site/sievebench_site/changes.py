"""The commands of a script, and what can be changed in it so that all other lines stay where they are."""
from __future__ import annotations

import functools
import re
from typing import Iterable, Iterator, List, NamedTuple, Optional, Tuple

from .tokens import (
    BAD,
    CLOSE_BRACE,
    CLOSE_BRACKET,
    IDENTIFIER,
    MULTI_LINE,
    NUMBER,
    OPEN_BRACE,
    OPEN_BRACKET,
    SEMICOLON,
    STRINGS,
    TAG,
    Token,
    tokens,
)

# Commands that say what holds for a text, and those that have a block. All others act.
DECLARATIONS = (b"require", b"global")
BRANCHES = (b"if", b"elsif", b"else")
# Commands that the report of a run tells as actions.
ACTIONS = (b"keep", b"fileinto", b"redirect", b"discard", b"vacation", b"reject", b"ereject")
WITH_CONDITION = "with its condition "
UNITS = {b"k": 1 << 10, b"m": 1 << 20, b"g": 1 << 30}


class Command(NamedTuple):
    """A command: its tokens up to its `;` or its block, where it ends, where its block begins if it has one, and where the block begins
    in which it is, if it is in one."""

    tokens: Tuple[Token, ...]
    end: int
    block: Optional[int]
    inside: Optional[int]

    def name(self) -> bytes:
        """Its name."""
        return self.tokens[0].octets

    def line(self) -> int:
        """The line of its name."""
        return self.tokens[0].line

    def start(self) -> int:
        """Where its name begins."""
        return self.tokens[0].start

    def acts(self) -> bool:
        """Whether it does something when a run comes to it."""
        return self.block is None and self.name() not in DECLARATIONS

    def condition(self) -> Optional[Tuple[int, int]]:
        """Where its test begins and ends, if it is an `if` or an `elsif`."""
        if self.block is None or self.name() not in (b"if", b"elsif") or len(self.tokens) < 2:
            return None
        return self.tokens[1].start, self.tokens[-1].end

    def shown(self, text: bytes) -> bytes:
        """It on one line, without comments and without its block. Of a multi-line string only the beginning is shown."""
        made, at = [], self.start()
        for token in self.tokens:
            made.append(b" " if token.start > at else b"")
            made.append(b"text: .." if token.kind == MULTI_LINE else text[token.start : token.end])
            at = token.end
        return b"".join(made) + (b";" if self.block is None else b"")


class Change(NamedTuple):
    """A change: the command that it is in, the line where it is, what it does in words, and the octets that come in place of others."""

    command: Command
    line: int
    how: str
    start: int
    end: int
    octets: bytes

    def of(self, text: bytes) -> bytes:
        """The text with this change."""
        return text[: self.start] + self.octets + text[self.end :]

    def denies(self) -> bool:
        """Whether it makes a condition false."""
        return self.how == WITH_CONDITION + "false"

    def is_none(self, text: bytes) -> bool:
        """Whether it leaves the script as it is."""
        return text[self.start : self.end].strip().lower() == self.octets.strip()


# Of most scripts they are asked for several times.
@functools.lru_cache(maxsize=1024)
def commands(text: bytes) -> List[Command]:
    """The commands of a script in the order of their names, also those in blocks; of one with a fault of syntax up to the fault."""
    found: List[Command] = []
    begun: List[Token] = []
    blocks: List[int] = []
    for token in tokens(text):
        if token.kind == SEMICOLON and begun:
            found.append(Command(tuple(begun), token.end, None, blocks[-1] if blocks else None))
            begun = []
        elif token.kind == OPEN_BRACE and begun:
            found.append(Command(tuple(begun), begun[-1].end, token.end, blocks[-1] if blocks else None))
            blocks, begun = [*blocks, token.end], []
        elif token.kind == CLOSE_BRACE and blocks and not begun:
            blocks.pop()
        elif token.kind in (SEMICOLON, OPEN_BRACE, CLOSE_BRACE, BAD) or (not begun and token.kind != IDENTIFIER):
            break
        else:
            begun.append(token)
    return found


def changes(text: bytes, keys: bool, numbers: bool) -> List[Change]:
    """The changes of a script: each command that acts taken out, each condition made true and false, and where it is wanted each
    string of a longer list taken out, and each limit of `size` moved by one."""
    found: List[Change] = []
    for it in commands(text):
        if it.acts():
            found.append(Change(it, it.line(), "without", it.start(), it.end, blank(text[it.start() : it.end])))
        condition = it.condition()
        for word in ("true", "false") if condition else ():
            assert condition
            start, end = condition
            octets = word.encode() + b"\n" * text.count(b"\n", start, end)
            found.append(Change(it, it.line(), WITH_CONDITION + word, start, end, octets))
        if keys and it.name() not in DECLARATIONS:
            found += keys_of(text, it)
        if numbers:
            found += limits_of(it)
    return found


def keys_of(text: bytes, command: Command) -> Iterator[Change]:
    """Each string of a list of two or more taken out."""
    opened: Optional[int] = None
    for at, token in enumerate(command.tokens):
        if token.kind == OPEN_BRACKET:
            opened = at + 1
        elif token.kind == CLOSE_BRACKET and opened is not None:
            inner, opened = command.tokens[opened:at], None
            strings = [it for it, other in enumerate(inner) if other.kind in STRINGS]
            if len(strings) > 1 and len(inner) == 2 * len(strings) - 1:
                yield from (without_key(text, command, inner, it) for it in strings)


def without_key(text: bytes, command: Command, inner: Tuple[Token, ...], at: int) -> Change:
    """One of the strings between brackets taken out, with the comma after it, or of the last one that before it."""
    key = inner[at]
    last = at + 1 == len(inner)
    start, end = (inner[at - 1].start, key.end) if last else (key.start, inner[at + 1].end)
    shown = b"text: .." if key.kind == MULTI_LINE else text[key.start : key.end]
    return Change(command, key.line, f"without {shown.decode('latin-1')} in", start, end, blank(text[start:end]))


def limits_of(command: Command) -> Iterator[Change]:
    """Each limit of `size` moved by one, up and down."""
    for name, tag, number in zip(command.tokens, command.tokens[1:], command.tokens[2:]):
        if (name.kind, name.octets, tag.kind, number.kind) == (IDENTIFIER, b"size", TAG, NUMBER):
            value = value_of(number.octets)
            for moved in (value + 1, value - 1):
                if moved >= 0:
                    octets = str(moved).encode()
                    yield Change(command, number.line, f"with {moved} in", number.start, number.end, octets)


def value_of(spelled: bytes) -> int:
    """The value of a number."""
    unit = UNITS.get(spelled[-1:].lower())
    return int(spelled[:-1]) * unit if unit else int(spelled)


def blank(octets: bytes) -> bytes:
    """As many blanks, with the line ends where they are."""
    return re.sub(rb"[^\n]", b" ", octets)


def with_inserted(text: bytes, pieces: Iterable[Tuple[int, bytes]]) -> bytes:
    """The text with pieces put into it, each at its place. Of two at one place the first stays in front."""
    made, at = [], 0
    for place, piece in sorted(pieces, key=lambda it: it[0]):
        made += [text[at:place], piece]
        at = place
    return b"".join(made) + text[at:]
