"""What is found, each with a file and a line, and how build servers get it."""

from __future__ import annotations

import json
import urllib.parse
import xml.etree.ElementTree as tree
from typing import Dict, Iterable, List, NamedTuple, Optional

from .shown import HERE, Look

# A finding that fails the run, one that is only reported, and one of what is known and passes; how GitHub calls them.
ERROR, NOTE, SKIPPED = "error", "note", "skipped"
GITHUB = {ERROR: "error", NOTE: "notice", SKIPPED: "notice"}
SARIF = "https://json.schemastore.org/sarif-2.1.0.json"
# What is shown in files that a program reads.
PLAIN = Look(True)
# The same in annotations of lines, whose paths are those of a repository.
ANNOTATED = Look(True, bare=True)


class Finding(NamedTuple):
    """What was found, where, of which kind, and whether it fails the run. A line of 0 is the whole file."""

    path: bytes
    line: int
    kind: str
    text: str
    level: str = ERROR


class Test(NamedTuple):
    """A test as servers count them: how long it took, and why it failed or was skipped."""

    group: str
    name: str
    seconds: float = 0.0
    failure: Optional[str] = None
    text: str = ""
    skipped: bool = False


def github(findings: Iterable[Finding]) -> str:
    """Annotations of GitHub's."""
    lines = []
    for it in findings:
        at = {"file": ANNOTATED.name(it.path), **({"line": str(it.line)} if it.line else {}), "title": it.kind}
        values = ",".join(f"{name}={percent(value, ':,')}" for name, value in at.items())
        lines.append(f"::{GITHUB[it.level]} {values}::{percent(it.text, '')}\n")
    return "".join(lines)


def percent(text: str, marks: str) -> str:
    """A text in which what ends it is escaped."""
    return "".join(f"%{ord(it):02X}" if it in "%\r\n" + marks else it for it in text)


def sarif(findings: Iterable[Finding], version: str) -> str:
    """The findings as SARIF has them."""
    found = list(findings)
    rules = [{"id": kind} for kind in dict.fromkeys(it.kind for it in found)]
    driver = {"name": "sievebench-site", "version": version, "rules": rules}
    results = [result(it) for it in found]
    return (
        json.dumps({"$schema": SARIF, "version": "2.1.0", "runs": [{"tool": {"driver": driver}, "results": results}]})
        + "\n"
    )


def result(it: Finding) -> Dict[str, object]:
    """A finding as SARIF has it. What is known and passes is suppressed."""
    told = {"ruleId": it.kind, "level": NOTE if it.level == SKIPPED else it.level, "message": {"text": it.text}}
    passes = {"suppressions": [{"kind": "external", "justification": it.text}]} if it.level == SKIPPED else {}
    return {**told, "locations": [location(it)], **passes}


def location(it: Finding) -> Dict[str, object]:
    """Where a finding is."""
    place: Dict[str, object] = {"artifactLocation": {"uri": urllib.parse.quote(HERE.sub(b"", it.path))}}
    if it.line:
        place["region"] = {"startLine": it.line}
    return {"physicalLocation": place}


def findings_json(passed: bool, findings: Iterable[Finding]) -> str:
    """The findings as one object."""
    told = [
        {"file": PLAIN.name(it.path), "line": it.line, "kind": it.kind, "level": it.level, "text": it.text}
        for it in findings
    ]
    return json.dumps({"passed": passed, "findings": told}) + "\n"


def junit(tests: List[Test], seconds: float) -> bytes:
    """The tests as servers read them that build."""
    failed, skipped = sum(it.failure is not None for it in tests), sum(it.skipped for it in tests)
    numbers = {"tests": len(tests), "failures": failed, "skipped": skipped}
    suite = tree.Element("testsuite", {"name": "sievebench-site", **{name: str(it) for name, it in numbers.items()}})
    suite.set("time", f"{seconds:.3f}")
    for it in tests:
        case = tree.SubElement(suite, "testcase", classname=it.group, name=it.name, time=f"{it.seconds:.3f}")
        if it.failure is not None:
            tree.SubElement(case, "failure", message=it.failure).text = it.text or it.failure
        elif it.skipped:
            tree.SubElement(case, "skipped", {"message": it.text} if it.text else {})
        case.tail = "\n"
    suite.text = suite.tail = "\n"
    text: str = tree.tostring(suite, "unicode")
    return f'<?xml version="1.0" encoding="UTF-8"?>\n{text}'.encode()
