"""The tokens of a whole script, as the program cuts it: what can't be cut is one bad token, to the end of the text."""
from __future__ import annotations

from typing import List, NamedTuple

from . import sieve_text
from .sieve_text import BLANK

IDENTIFIER, TAG, NUMBER, QUOTED, MULTI_LINE, BAD = "Identifier", "Tag", "Number", "Quoted", "MultiLine", "Bad"
SEMICOLON, COMMA, OPEN_BRACE, CLOSE_BRACE = "Semicolon", "Comma", "OpenBrace", "CloseBrace"
OPEN_BRACKET, CLOSE_BRACKET = "OpenBracket", "CloseBracket"
OPEN_PARENTHESIS, CLOSE_PARENTHESIS = "OpenParenthesis", "CloseParenthesis"
WORDS = {"word": IDENTIFIER, "tag": TAG, "number": NUMBER}
MARKS = {
    b";": SEMICOLON,
    b",": COMMA,
    b"{": OPEN_BRACE,
    b"}": CLOSE_BRACE,
    b"[": OPEN_BRACKET,
    b"]": CLOSE_BRACKET,
    b"(": OPEN_PARENTHESIS,
    b")": CLOSE_PARENTHESIS,
}
STRINGS = (QUOTED, MULTI_LINE)


class Token(NamedTuple):
    """A token: its kind, where it begins and ends in the text, the line on which it begins, and its octets, those of an identifier or
    a tag in small letters."""

    kind: str
    start: int
    end: int
    line: int
    octets: bytes


def tokens(text: bytes) -> List[Token]:
    """All tokens of a text."""
    found: List[Token] = []
    at, line = 0, 1
    for it in sieve_text.tokens(text):
        line += text.count(b"\n", at, it.start)
        at = it.start
        found.append(Token(kind_of(it), it.start, it.end, line, it.octets))
    end = found[-1].end if found else 0
    blank = BLANK.match(text, end)
    start = blank.end() if blank else end
    if start < len(text):
        found.append(Token(BAD, start, len(text), line + text.count(b"\n", at, start), text[start:]))
    return found


def kind_of(token: sieve_text.Token) -> str:
    """The kind of a token, as the program calls it."""
    if token.kind == "string":
        return QUOTED if token.octets.startswith(b'"') else MULTI_LINE
    return WORDS.get(token.kind) or MARKS[token.octets]
