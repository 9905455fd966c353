"""Remarks about a document: a finding in it, and the octets that it is about."""

from __future__ import annotations

from typing import List, NamedTuple, Optional, Set, Tuple

from .faults import LACKING
from .findings import ERROR, Finding
from .lsp_nodes import Need, Node, line_span, names_required, nodes_of, scanned, unmet
from .sieve_text import Token, string_meant

# How editors call what is wrong, what can't be judged, and what is only said.
WRONG, DOUBTFUL, SAID = 1, 2, 3
UNJUDGED, UNKNOWN, UNREQUIRED, REFUSED = "not judged", "unknown-command", "not-required", "refused"


class Remark(NamedTuple):
    """The octets from which and up to which it is about, what it is called and says, and how grave it is."""

    start: int
    end: int
    kind: str
    text: str
    severity: int


def remarks(text: bytes, findings: List[Finding], known: Set[str]) -> List[Remark]:
    """The remarks of some findings in a text, in their order. A finding has a line: where one word of it is meant, that is looked for, by
    the capabilities that are known."""
    reading = Reading(text, known) if findings else None
    return sorted({reading.remark(it) for it in findings}) if reading else []


class Reading:
    """A text that is read once for all its findings."""

    def __init__(self, text: bytes, known: Set[str]) -> None:
        self.text, self.known = text, known
        self.tokens = scanned(text).tokens
        self.nodes = nodes_of(self.tokens)

    def remark(self, finding: Finding) -> Remark:
        """The remark of a finding. One that needs capabilities names them."""
        start, end = line_span(self.text, finding.line)
        lacks = self.lacks(start, end) if finding.kind == UNREQUIRED else []
        token = lacks[0].token if lacks else self.meant(finding.kind, start, end)
        place = (token.start, token.end) if token else self.narrowed(start, end)
        names = ", ".join(dict.fromkeys(it.name for it in lacks))
        said = f"{finding.text[:-1]}: {names}." if names else finding.text
        severity = DOUBTFUL if finding.kind in (UNJUDGED, REFUSED) else WRONG if finding.level == ERROR else SAID
        return Remark(*place, finding.kind, said, severity)

    def narrowed(self, start: int, end: int) -> Tuple[int, int]:
        """The tokens of a line, or all of it where it has none."""
        here = [it for it in self.tokens if start <= it.start < end]
        return (here[0].start, min(here[-1].end, end)) if here else (start, end)

    def lacks(self, start: int, end: int) -> List[Need]:
        """All that the first command or test of a line lacks that lacks something."""
        names = names_required(self.text)
        here = (unmet(node, names, self.known) for node in self.nodes if start <= node.name.start < end)
        return next(filter(None, here), [])

    def meant(self, kind: str, start: int, end: int) -> Optional[Token]:
        """The token of a line that a finding is about, where it is about one."""
        if kind == UNKNOWN:
            names = (node.name for node in self.nodes if not self.is_there(node))
            return next((it for it in names if start <= it.start < end), None)
        if kind in (LACKING, UNJUDGED):
            return next((it for it in self.strange() if start <= it.start < end), None)
        return None

    def is_there(self, node: Node) -> bool:
        """Whether there is such a command or test."""
        return node.word is not None and self.known.issuperset(node.word.needs)

    def strange(self) -> List[Token]:
        """The strings of all `require` that name no capability that is known."""
        strings = [
            it for node in self.nodes if node.name.octets == b"require" for it in node.tokens if it.kind == "string"
        ]
        return [it for it in strings if string_meant(it.octets).decode("latin-1") not in self.known]
