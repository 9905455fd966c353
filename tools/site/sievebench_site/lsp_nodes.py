"""The commands and tests of a script that may be half written, each with its own tokens, and what they need."""

from __future__ import annotations

import re
from typing import Iterator, List, NamedTuple, Optional, Set, Tuple

from .sieve_text import TOKEN, Token, required, string_meant
from .vocabulary import CAPABILITIES, PLAIN_COMPARATORS, WORDS, Tag, Word

# After white space a comment or a token; or else the beginning of a comment or a string that nothing closes, the end of the text, or an
# octet that begins none of these.
PIECE = re.compile(
    rb"[ \t\r\n]*(?:(?P<comment>#[^\n]*\n|/\*.*?\*/)|" + TOKEN.pattern + rb'|(?P<open>#|/\*|")|(?P<end>\Z)|(?P<bad>.))',
    re.S | re.I,
)
# The identifier that a multi-line string begins with which nothing closes, up to the end of its line or of the text.
BEGUN = re.compile(rb"text:[ \t]*(?:#[^\n]*|\r)?(?:\n|\Z)", re.I)
ENDS = (b";", b"{", b"}", b"(", b")")


class Scan(NamedTuple):
    """The tokens of a text, octets that are none among them, and where a comment or a string begins that nothing closes, if one does."""

    tokens: List[Token]
    open: Optional[int]


def scanned(text: bytes) -> Scan:
    """The tokens of a text, without an end before its own."""
    found: List[Token] = []
    for piece in PIECE.finditer(text):
        kind = piece.lastgroup or "end"
        start, octets = piece.start(kind), piece[kind]
        if kind == "open" or (kind == "word" and BEGUN.match(text, start)):
            return Scan(found, start)
        if kind not in ("comment", "end"):
            found.append(Token(kind, start, piece.end(), octets.lower() if kind in ("word", "tag") else octets))
    return Scan(found, None)


class Argument(NamedTuple):
    """An argument: its first token, and the tag that it belongs to, if it belongs to one."""

    token: Token
    tag: Optional[Tag]


class Need(NamedTuple):
    """A token, and the capability that it needs."""

    token: Token
    name: str


class Node:
    """A command or a test: its name, the tokens that follow up to its tests, its block or its end, and whether it has no end."""

    def __init__(self, name: Token) -> None:
        self.name = name
        self.word: Optional[Word] = WORDS.get(name.octets.decode())
        self.tokens: List[Token] = []
        # How many lists are open, and whether it has no end.
        self.depth, self.open = 0, True

    def tag_of(self, token: Token) -> Optional[Tag]:
        """The tag of the table that a token is here, if it is one."""
        return self.word.tag(token.octets.decode()) if self.word and token.kind == "tag" else None

    def arguments(self) -> Iterator[Argument]:
        """Its arguments but for tags: a list is one."""
        tag: Optional[Tag] = None
        depth = 0
        for token in self.tokens:
            if token.octets == b"]" and token.kind == "mark":
                depth -= 1
            elif token.kind == "tag":
                tag = self.tag_of(token)
            elif depth <= 0 and token.octets != b",":
                yield Argument(token, tag if tag and tag.takes else None)
                tag = None
            if token.octets == b"[" and token.kind == "mark":
                depth += 1

    def needs(self) -> Iterator[Need]:
        """All that needs a capability, in the order of the text."""
        if self.word:
            yield from (Need(self.name, name) for name in self.word.needs)
            found = [*self.tag_needs(), *self.comparator_needs(), *self.front_needs(self.word)]
            yield from sorted(found, key=lambda it: it.token.start)

    def tag_needs(self) -> Iterator[Need]:
        """Those of its tags."""
        for token in self.tokens:
            tag = self.tag_of(token)
            if tag and tag.needs:
                yield Need(token, tag.needs)

    def comparator_needs(self) -> Iterator[Need]:
        """Those of its comparators."""
        for token, tag in self.arguments():
            if tag and tag.name == ":comparator":
                name = string_meant(token.octets).decode("latin-1")
                if name not in PLAIN_COMPARATORS and f"comparator-{name}" in CAPABILITIES:
                    yield Need(token, f"comparator-{name}")

    def front_needs(self, word: Word) -> Iterator[Need]:
        """That of the name of a variable before its other arguments."""
        own = [it.token for it in self.arguments() if not it.tag]
        if word.front and len(own) > len(word.arguments):
            yield Need(own[0], "variables")


def nodes_of(tokens: List[Token]) -> List[Node]:
    """The commands and tests that have these tokens, in their order. At most the last one has no end."""
    found: List[Node] = []
    node: Optional[Node] = None
    for token in tokens:
        mark = token.octets if token.kind == "mark" else b""
        if token.kind == "word" or mark in ENDS or (mark == b"," and not (node and node.depth)):
            if node:
                node.open = False
            node = Node(token) if token.kind == "word" else None
            found += [node] if node else []
        elif node:
            node.depth = max(0, node.depth + {b"[": 1, b"]": -1}.get(mark, 0))
            node.tokens.append(token)
    return found


def unmet(node: Node, names: Set[str], known: Set[str]) -> List[Need]:
    """All that a command or a test needs of the capabilities that are known, and that isn't among these names."""
    return [it for it in node.needs() if it.name in known and it.name not in names]


def names_required(text: bytes) -> Set[str]:
    """The capabilities that a script requires."""
    return {name.decode("utf-8", "replace") for name in required(text)[1]}


def line_span(text: bytes, line: int) -> Tuple[int, int]:
    """Where a line begins and ends without its blanks, as the program counts lines: from 1, each of which ends by an LF. A line of 0 is the
    first."""
    start = 0
    for _ in range(line - 1):
        start = text.find(b"\n", start) + 1 or len(text)
    whole = text[start:].partition(b"\n")[0]
    front = len(whole) - len(whole.lstrip())
    return start + front, start + max(front, len(whole.rstrip()))
