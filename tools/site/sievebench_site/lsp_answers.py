"""The answers to requests about a document, and its diagnostics, as the protocol has them."""

from __future__ import annotations

from typing import Dict, List, Optional, Set

from .lsp_client import Client
from .lsp_complete import Scripts, offer
from .lsp_fix import lacking, requiring
from .lsp_hover import meaning_at
from .lsp_remarks import UNREQUIRED, Remark
from .lsp_source import Document
from .lsp_text import Position, Text
from .lsp_values import items, member, span_in, text_in, told_span

NAME = "sievebench"
QUICK_FIX = "quickfix"
Told = Dict[str, object]
# Marks of Markdown.
MARKS = str.maketrans({it: f"\\{it}" for it in "\\`*_<>[]#&~|"})


def diagnostic(text: Text, it: Remark) -> Told:
    """A remark as it is told."""
    span = told_span(text.span_of(it.start, it.end))
    return {"range": span, "severity": it.severity, "code": it.kind, "source": NAME, "message": it.text}


def completion(document: Document, place: Position, known: Set[str], scripts: Scripts) -> Told:
    """The words that may stand at a place."""
    text, at = document.text, document.text.octet_at(place)
    found = offer(text.octets, at, known, scripts)
    span = told_span(text.span_of(found.start, at))
    told: List[Told] = []
    for it in found.items:
        item: Told = {"label": it.label, "kind": it.kind, "detail": it.detail, "documentation": it.meaning}
        told.append({**item, "textEdit": {"range": span, "newText": it.new}})
    return {"isIncomplete": False, "items": told}


def hover(document: Document, place: Position, client: Client) -> Optional[Told]:
    """The meaning of the word at a place, if it has one."""
    text = document.text
    found = meaning_at(text.octets, text.octet_at(place))
    if not found:
        return None
    value = f"{found.form}\n\n{found.text}"
    if client.markdown:
        value = f"```sieve\n{found.form}\n```\n{found.text.translate(MARKS)}"
    contents = {"kind": "markdown" if client.markdown else "plaintext", "value": value}
    return {"contents": contents, "range": told_span(text.span_of(found.start, found.end))}


def actions(document: Document, context: object, known: Set[str], client: Client) -> List[Told]:
    """The edits by which diagnostics come to an end, where such ones are asked for."""
    only = member(context, "only")
    if not client.actions or not (only is None or "" in items(only) or QUICK_FIX in items(only)):
        return []
    ours = [it for it in items(member(context, "diagnostics")) if is_unrequired(it)]
    return [action for action in (fix(document, it, known, client) for it in ours) if action]


def is_unrequired(told: object) -> bool:
    """Whether a diagnostic is one that an edit brings to an end."""
    return member(told, "source") == NAME and member(told, "code") == UNREQUIRED


def fix(document: Document, told: object, known: Set[str], client: Client) -> Optional[Told]:
    """The edit by which a diagnostic comes to an end; none where the script requires all by now."""
    text, span = document.text, span_in(member(told, "range"))
    names = lacking(text.octets, text.octet_at(span.start), known)
    if not names:
        return None
    edit = requiring(text.octets, names)
    change = {"range": told_span(text.span_of(edit.start, edit.end)), "newText": edit.new.decode("utf-8", "replace")}
    resolved = {"range": told_span(span), "code": UNREQUIRED, "source": NAME, "message": text_in(told, "message")}
    title = "Require " + " and ".join(f'"{it}"' for it in names)
    action: Told = {"title": title, "kind": QUICK_FIX, "diagnostics": [resolved], "isPreferred": True}
    return {**action, "edit": whole_edit(document, change, client)}


def whole_edit(document: Document, change: object, client: Client) -> Told:
    """A change of a document, by its version where the client takes that."""
    if not client.versions:
        return {"changes": {document.uri: [change]}}
    name = {"uri": document.uri, "version": document.version}
    return {"documentChanges": [{"textDocument": name, "edits": [change]}]}
