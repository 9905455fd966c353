"""Values of messages, whose types nobody has checked before."""

from __future__ import annotations

from typing import List, Optional

from .lsp_messages import INVALID_PARAMS, Failure, is_integer
from .lsp_text import Position, Span

# The largest number of a line or of a character (uinteger of the protocol).
LARGEST = (1 << 31) - 1


def member(value: object, *names: str) -> object:
    """The member that these names lead to; nothing where there is none."""
    for name in names:
        value = value.get(name) if isinstance(value, dict) else None
    return value


def items(value: object) -> List[object]:
    """The items of an array; none of anything else."""
    return value if isinstance(value, list) else []


def wrong(what: str) -> Failure:
    """The failure of parameters that aren't so."""
    return Failure(INVALID_PARAMS, f"wrong parameters: {what}")


def text_in(value: object, *names: str) -> str:
    """A string."""
    found = member(value, *names)
    if not isinstance(found, str):
        raise wrong(f"{'.'.join(names)} is a string")
    return found


def number_in(value: object, name: str) -> int:
    """A number of a line or of a character."""
    found = member(value, name)
    if not isinstance(found, int) or not is_integer(found) or not 0 <= found <= LARGEST:
        raise wrong(f"{name} is a number from 0 to {LARGEST}")
    return found


def version_in(value: object) -> Optional[int]:
    """The version of a document, if it has one."""
    found = member(value, "version")
    return found if isinstance(found, int) and is_integer(found) else None


def place_in(value: object) -> Position:
    """A position."""
    return Position(number_in(value, "line"), number_in(value, "character"))


def span_in(value: object) -> Span:
    """A range."""
    return Span(place_in(member(value, "start")), place_in(member(value, "end")))


def told_span(span: Span) -> object:
    """A range as it is told."""
    return {"start": span.start._asdict(), "end": span.end._asdict()}
