"""The edit of a script by which it requires more."""

from __future__ import annotations

from typing import List, NamedTuple, Optional, Set

from .lsp_nodes import Node, names_required, nodes_of, scanned, unmet
from .sieve_text import Token, required


class Edit(NamedTuple):
    """Another text in place of some octets."""

    start: int
    end: int
    new: bytes


def lacking(text: bytes, place: int, known: Set[str]) -> List[str]:
    """The capabilities that a command or a test needs and the script doesn't require, each once. It is the one that needs a capability at this
    octet, or else the first on the line of the octet that lacks one."""
    names, nodes = names_required(text), nodes_of(scanned(text).tokens)
    start, end = text.rfind(b"\n", 0, place) + 1, text.find(b"\n", place)
    here = [node for node in nodes if start <= node.name.start < (end if end >= 0 else len(text))]
    found = {node: unmet(node, names, known) for node in nodes}
    meant = [node for node in nodes if any(it.token.start == place for it in found[node])]
    first = next((node for node in [*meant, *here] if found[node]), None)
    return list(dict.fromkeys(it.name for it in found[first])) if first else []


def requiring(text: bytes, names: List[str]) -> Edit:
    """The edit by which a script requires these capabilities too: in its first `require`, or in a new one before its first token."""
    tokens = scanned(text).tokens
    if required(text)[0]:
        return added(text, nodes_of(tokens)[0], names)
    spelled = strings(names) if len(names) == 1 else b"[%s]" % strings(names)
    first = tokens[0].start if tokens else len(text)
    start = text.rfind(b"\n", 0, first) + 1
    if text[start:first].strip():
        return Edit(first, first, b"require %s; " % spelled)
    return Edit(start, start, b"require %s;%s" % (spelled, line_end(text)))


def added(text: bytes, node: Node, names: List[str]) -> Edit:
    """The edit that adds names to a `require`."""
    last = [it for it in node.tokens if it.kind == "string"][-1]
    before = token_before(node, last)
    if before is None:
        return Edit(last.start, last.end, b"[%s, %s]" % (last.octets, strings(names)))
    return Edit(last.end, last.end, b"," + gap(text[before.end : last.start]) + strings(names))


def token_before(node: Node, token: Token) -> Optional[Token]:
    """The token of a command before one of its tokens, if there is one."""
    at = node.tokens.index(token)
    return node.tokens[at - 1] if at else None


def gap(blank: bytes) -> bytes:
    """The white space between strings of a list: a line's end and blanks, where the last one stands so."""
    front, newline, line = blank.rpartition(b"\n")
    if not newline:
        return b" "
    end = b"\r\n" if front.endswith(b"\r") else b"\n"
    return end + line[: len(line) - len(line.lstrip(b" \t"))]


def strings(names: List[str]) -> bytes:
    """Names as strings of a list."""
    return b", ".join(b'"%s"' % name.encode() for name in names)


def line_end(text: bytes) -> bytes:
    """How the first line of a text ends."""
    first = text.partition(b"\n")[0]
    return b"\r\n" if first.endswith(b"\r") else b"\n"
