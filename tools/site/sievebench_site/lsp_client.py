"""The client of a language server."""

from __future__ import annotations

from typing import NamedTuple

from .lsp_text import UTF8, UTF16
from .lsp_values import items, member


class Client(NamedTuple):
    """How places are told, and whether it takes Markdown, actions with edits, and edits of versions."""

    encoding: str = UTF16
    markdown: bool = False
    actions: bool = False
    versions: bool = False


def client_of(told: object) -> Client:
    """The client that tells its capabilities."""
    document = member(told, "textDocument")
    return Client(
        UTF8 if UTF8 in items(member(told, "general", "positionEncodings")) else UTF16,
        "markdown" in items(member(document, "hover", "contentFormat")),
        isinstance(member(document, "codeAction", "codeActionLiteralSupport"), dict),
        member(told, "workspace", "workspaceEdit", "documentChanges") is True,
    )
