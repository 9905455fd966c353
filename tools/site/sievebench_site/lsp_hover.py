"""The meaning of a word of a script: its form, its purpose, where it is defined, and the capabilities that it needs."""

from __future__ import annotations

from typing import Iterable, NamedTuple, Optional

from .lsp_complete import meaning
from .lsp_nodes import Node, nodes_of, scanned
from .sieve_text import Token, string_meant
from .vocabulary import CAPABILITIES, COMPARATORS, PLAIN_COMPARATORS


class Meaning(NamedTuple):
    """A word's octets, its form, and its meaning."""

    start: int
    end: int
    form: str
    text: str


def meaning_at(text: bytes, at: int) -> Optional[Meaning]:
    """The meaning of the word at an octet, or of that which ends before it."""
    tokens = scanned(text).tokens
    token = next((it for it in tokens if it.start <= at < it.end), None)
    token = token or next((it for it in tokens if it.end == at), None)
    if not token:
        return None
    node = next((it for it in nodes_of(tokens) if token is it.name or any(token is own for own in it.tokens)), None)
    return of_token(node, token) if node else None


def of_token(node: Node, token: Token) -> Optional[Meaning]:
    """The meaning of a token of a command or a test."""
    if token is node.name:
        word = node.word
        return told(token, word.usage(), word.says, word.source, word.needs) if word else None
    if token.kind == "tag":
        tag = node.tag_of(token)
        return told(token, tag.usage(), tag.says, tag.source, [tag.needs] if tag.needs else []) if tag else None
    return of_string(node, token) if token.kind == "string" else None


def of_string(node: Node, token: Token) -> Optional[Meaning]:
    """The meaning of a string: of a capability in a `require`, or of a comparator."""
    name = string_meant(token.octets).decode("latin-1")
    compares = any(it.token is token and it.tag and it.tag.name == ":comparator" for it in node.arguments())
    names = COMPARATORS if compares else CAPABILITIES if node.name.octets == b"require" else {}
    found = names.get(name)
    needs = [f"comparator-{name}"] if compares and name not in PLAIN_COMPARATORS else []
    return told(token, f'"{name}"', found.says, found.source, needs) if found else None


def told(token: Token, form: str, says: str, source: str, needs: Iterable[str]) -> Meaning:
    """The meaning of a token."""
    return Meaning(token.start, token.end, form, meaning(says, source, needs))
