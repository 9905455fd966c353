"""The command check: compares the verdicts with what is expected, and tells the results in the form that is wanted."""

from __future__ import annotations

import json
from typing import Dict, Iterator, List, Optional, Tuple

from . import findings
from .checked import (
    AGREES,
    DISAGREES,
    EXPECTS_NOTHING,
    FAULT,
    LEFT_OUT,
    PASSED_OVER,
    STALE,
    UNEXPECTED,
    UNJUDGED,
    Checked,
    kind_of,
)
from .findings import ANNOTATED, ERROR, PLAIN, Finding, Test
from .groups import FIRST, Group, difference, name_of
from .judge import Case
from .mails import LeftOut
from .merge import Part
from .shards import Shard
from .shown import Look


def text_of(checked: Checked, look: Look, quiet: bool, shard: Optional[Shard] = None) -> str:
    """The results for people, of a site or of one of its parts."""
    beside = checked.beside
    told = [f"{look.name(it.path)}:{it.line}: {it.word}: {it.sentence}" for it in beside.broken]
    told += [f"{look.name(it.path)}:{it.line}: not judged: {it.why}" for it in beside.lacking]
    if not quiet:
        told += [f"{look.name(it.path)}:{it.line}: skipped: {look.line(it.why.encode())}" for it in beside.passed_over]
    for group in checked.groups(checked.wrong):
        told += heads(group, look, "") + [f"  {line}" for line in difference(group, look)]
    for group in checked.groups(checked.unjudged):
        told += heads(group, look, f": not judged: {group.cases[0].unjudged}")
    if checked.level(UNEXPECTED):
        for group in checked.groups(checked.unexpected):
            told += heads(group, look, f": {EXPECTS_NOTHING}")
    if checked.level(STALE):
        told += [f"{look.name(it.path)}: {it.why(look)}" for it in beside.stale]
    if not quiet:
        told += left_out(beside.left_out, look, checked.each)
        further = {what: count for what, count in checked.further().items() if count}
        counts = ", ".join(f"{count} {what}" for what, count in [*checked.counts().items(), *further.items()])
        told.append(f"shard {shard.spelled()}: {counts}" if shard else counts)
    return "".join(f"{line}\n" for line in told)


def heads(group: Group, look: Look, end: str) -> List[str]:
    """The first cases of a group, and how many there are, but where few lines say each by itself."""
    told = [name_of(case, look) + end for case in group.first()]
    sizes = group.more() if len(group.cases) > FIRST or not end else None
    return told if sizes is None else [*told, sizes + end]


def left_out(found: List[LeftOut], look: Look, each: bool, what: str = "left out") -> List[str]:
    """What is left out, or other files with a reason: the first ones of each reason, and how many there are."""
    reasons: Dict[str, List[bytes]] = {}
    for path, why in found:
        reasons.setdefault(why, []).append(path)
    told = []
    for why, paths in reasons.items():
        told += [f"{look.name(path)}: {what}: {why}" for path in (paths if each else paths[:FIRST])]
        if len(paths) > FIRST and not each:
            told.append(f"and {len(paths) - FIRST} more: {why}")
    return told


def findings_of(checked: Checked) -> Iterator[Finding]:
    """The results that are told, each with a file and a line, and as what it counts."""
    for kind, finding in found_by(checked):
        level = checked.level(kind)
        if level:
            yield finding._replace(level=level)


def found_by(checked: Checked) -> Iterator[Tuple[str, Finding]]:
    """All results, each with its kind."""
    beside = checked.beside
    for fault in beside.broken:
        yield FAULT, Finding(fault.path, fault.line, fault.word, fault.sentence)
    for path, line, why in beside.lacking:
        yield UNJUDGED, Finding(path, line, UNJUDGED, why)
    for path, line, why in beside.passed_over:
        yield PASSED_OVER, Finding(path, line, PASSED_OVER, ANNOTATED.line(why.encode()))
    for group in checked.groups(checked.wrong):
        block = group.cases[0].block
        text = "\n".join([*heads(group, ANNOTATED, ""), *difference(group, ANNOTATED)])
        if block:
            yield DISAGREES, Finding(block.path, block.number, DISAGREES, text)
    for kind, cases in ((UNJUDGED, checked.unjudged), (PASSED_OVER, checked.skipped), (UNEXPECTED, checked.unexpected)):
        for group in checked.groups(cases):
            case = group.cases[0]
            text = "\n".join(heads(group, ANNOTATED, f": {case.unjudged or EXPECTS_NOTHING}"))
            yield kind, Finding(case.mail.path, 0, kind, text)
    for it in beside.stale:
        yield STALE, Finding(it.path, it.line, STALE, it.why(ANNOTATED))
    for path, why in beside.left_out:
        yield LEFT_OUT, Finding(path, 0, LEFT_OUT, why)


def tests_of(checked: Checked) -> Iterator[Test]:
    """A test for each mail under each main script, and for what else is told."""
    for case in checked.cases:
        yield test_of(checked, case)
    for kind, test in tests_beside(checked):
        level = checked.level(kind)
        if level:
            yield test if level == ERROR else test._replace(failure=None, skipped=True)


def tests_beside(checked: Checked) -> Iterator[Tuple[str, Test]]:
    """A test for each of what belongs to no verdict, with its kind."""
    name, beside = "sievebench-site", checked.beside
    for fault in beside.broken:
        yield FAULT, Test(name, PLAIN.name(fault.path), 0, f"line {fault.line} {fault.word}", fault.sentence)
    for path, line, why in beside.lacking:
        yield UNJUDGED, Test(name, PLAIN.name(path), 0, f"line {line} not judged", why)
    for path, _, why in beside.passed_over:
        yield PASSED_OVER, Test(name, PLAIN.name(path), 0, None, PLAIN.line(why.encode()))
    for it in beside.stale:
        yield STALE, Test(name, PLAIN.name(it.path), 0, it.why(PLAIN))


def test_of(checked: Checked, case: Case) -> Test:
    """The test of a case, which fails where the check does so by it, and is skipped where it says nothing."""
    kind = kind_of(case)
    fails = checked.level(kind) == ERROR
    why, text = EXPECTS_NOTHING, ""
    if kind == DISAGREES:
        why, text = "the verdict isn't as expected", "\n".join(difference(Group([case]), PLAIN))
    elif case.unjudged:
        why = f"not judged: {case.unjudged}"
        text = "" if fails else why
    skipped = not fails and kind != AGREES
    return Test(
        PLAIN.name(case.main.label()), PLAIN.name(case.mail.name), case.seconds, why if fails else None, text, skipped
    )


def object_of(checked: Checked) -> Dict[str, object]:
    """The results as one object."""
    beside = checked.beside
    return {
        "passed": not checked.failed,
        "counts": {**checked.counts(), **checked.further()},
        "cases": [case_object(case) for case in checked.cases],
        "faults": [{"script": PLAIN.name(it.path), "line": it.line, "word": it.word} for it in beside.broken],
        "not judged": [{"script": PLAIN.name(path), "line": line, "why": why} for path, line, why in beside.lacking],
        "skipped": [
            {"script": PLAIN.name(path), "line": line, "why": PLAIN.line(why.encode())}
            for path, line, why in beside.passed_over
        ],
        "stale": [{"file": PLAIN.name(it.path), "why": it.why(PLAIN)} for it in beside.stale],
        "left out": [{"file": PLAIN.name(path), "why": why} for path, why in beside.left_out],
    }


def case_object(case: Case) -> Dict[str, object]:
    """A case as an object."""
    block = case.block
    told: Dict[str, object] = {
        "mail": PLAIN.name(case.mail.name),
        "main": PLAIN.name(case.main.label()),
        "agrees": case.agrees(),
        "skipped": case.skipped,
    }
    told["expected"] = None if block is None else [line.decode("latin-1") for line in block.lines]
    told["verdict"] = [line.decode("latin-1") for line in case.lines()]
    told["lines"] = [
        PLAIN.name(case.user.path_of(it.at[0])) + f":{it.at[1]}" if it.at else None for it in case.verdict.lines
    ]
    return told


def results(checked: Checked, form: str, look: Look, quiet: bool, version: str, part: Optional[Part] = None) -> str:
    """The results in a form, of a site or of one of its parts."""
    if form == "json":
        more: Dict[str, object] = {"shard": part.object_of(checked.found)} if part else {}
        return json.dumps({**object_of(checked), **more}) + "\n"
    if form == "junit":
        return junit_of(checked).decode()
    if form == "github":
        return findings.github(findings_of(checked))
    if form == "sarif":
        return findings.sarif(findings_of(checked), version)
    return text_of(checked, look, quiet, part.shard if part else None)


def junit_of(checked: Checked) -> bytes:
    """The results as servers read them that build."""
    return findings.junit(list(tests_of(checked)), checked.found.seconds)
