"""Main scripts that run one after another: the next one where the one before kept the mail, with the internal flags of its end."""

from __future__ import annotations

import contextlib
import functools
from typing import Dict, Iterable, Iterator, List, Optional, Set, Tuple

from .program import Fault, Line, Place, Session, Verdict
from .sieve_text import with_flags, without_actions
from .words import quoted, unquoted, words_of

INBOX = b"INBOX"
# A mailbox that no script can name, since none may have such an octet: what is stored there was kept.
KEPT = b"\x01kept"
Flags = Tuple[bytes, ...]
NOTHING = Verdict((), ())


class Bench:
    """Scripts in a session, and the mails that were put there."""

    def __init__(self, session: Session, scripts: Dict[Place, bytes]) -> None:
        self.session, self.scripts = session, scripts
        self.box = INBOX
        self.main: Optional[Place] = None
        # The faults of the scripts in the last report.
        self.faults: Dict[Place, Optional[Fault]] = {}

    def run(self, place: Place, box: bytes = INBOX) -> Dict[bytes, Verdict]:
        """The verdict on each mail under a main script, where it is kept in that mailbox."""
        if place != self.main:
            self.session.edit(f"main {place[0]}", [place[1]], None, "the main script")
            self.main = place
        if box != self.box:
            self.session.edit("mailbox", [box], None, "the mailbox")
            self.box = box
        report = self.session.report()
        self.faults = report.faults
        return report.verdicts

    @contextlib.contextmanager
    def changed(self, texts: Dict[Place, bytes]) -> Iterator[None]:
        """Other texts of scripts, for as long as the block lasts."""
        texts = {place: text for place, text in texts.items() if text != self.scripts[place]}
        self.put(texts)
        yield
        self.put({place: self.scripts[place] for place in texts})

    def put(self, texts: Dict[Place, bytes], paths: Optional[Dict[Place, bytes]] = None) -> None:
        """Puts the texts of scripts, which are called by their files where these are known."""
        for place, text in texts.items():
            self.session.script(place, text, f"the script {quoted((paths or {}).get(place, place[1]))}")

    def replace(self, place: Place, text: bytes) -> None:
        """Another text of a script, from now on."""
        if self.scripts[place] != text:
            self.put({place: text})
            self.scripts[place] = text

    def become(self, scripts: Dict[Place, bytes], paths: Optional[Dict[Place, bytes]] = None) -> None:
        """Puts other scripts in place of all that are there. Those that stay as they are aren't touched."""
        for place in self.scripts:
            if place not in scripts:
                self.session.edit(
                    f"drop-script {place[0]}", [place[1]], None, f"the end of the script {quoted(place[1])}"
                )
        self.put({place: text for place, text in scripts.items() if self.scripts.get(place) != text}, paths)
        self.scripts = dict(scripts)


class Course:
    """What became of some mails until now: what scripts did, and the flags of the last `keep`, which an implicit one after it doesn't
    change."""

    def __init__(self, ids: Iterable[bytes]) -> None:
        self.told = dict.fromkeys(ids, NOTHING)
        self.kept: Dict[bytes, Flags] = {}

    def add(self, name: bytes, verdict: Verdict) -> None:
        """Adds what a script did with a mail."""
        self.told[name] = joined(self.told[name], verdict)

    def end(self, name: bytes, verdict: Verdict) -> None:
        """Adds what the last one did."""
        failed = any(line.text.startswith(b"error ") for line in verdict.lines)
        flags = None if failed else self.kept.get(name)
        self.add(name, verdict if flags is None else with_kept(verdict, flags))


def chained(bench: Bench, places: Tuple[Place, ...], ids: Iterable[bytes]) -> Dict[bytes, Verdict]:
    """The verdict on each mail under scripts that run one after another: all that they did."""
    if len(places) == 1:
        alone = bench.run(places[0])
        return {name: alone[name] for name in ids}
    course = Course(ids)
    waiting: Dict[Flags, Set[bytes]] = {(): set(course.told)}
    for place in places[:-1]:
        following: Dict[Flags, Set[bytes]] = {}
        for flags, group in waiting.items():
            for name, ends in step(bench, place, flags, group, course).items():
                following.setdefault(ends, set()).add(name)
        waiting = following
    for flags, group in waiting.items():
        with bench.changed({places[-1]: with_flags(bench.scripts[places[-1]], flags)}):
            found = bench.run(places[-1])
        for name in group:
            course.end(name, found[name])
    return course.told


def step(bench: Bench, place: Place, flags: Flags, group: Set[bytes], course: Course) -> Dict[bytes, Flags]:
    """Runs a script that others follow, adds what it did, and gives the mails that it kept and the internal flags of its end."""
    text = with_flags(bench.scripts[place], flags)
    with bench.changed({place: text}):
        found = bench.run(place, KEPT)
    going, asked = {}, set()
    for name in group:
        kept = kept_in(found[name])
        if kept is None:
            course.add(name, renamed(found[name]))
            continue
        line, rest = kept
        course.add(name, rest)
        going[name] = flags_of(line)
        if line.text.startswith(b"store "):
            asked.add(name)
            course.kept[name] = going[name]
    if asked:
        ends = ends_of(bench, place, text, {at for name in asked for at, there in found[name].reads if there})
        going.update({name: ends[name] for name in asked})
    return going


def ends_of(bench: Bench, place: Place, text: bytes, reads: Set[Place]) -> Dict[bytes, Flags]:
    """The internal flags at the end of each run of a script. A store by command has those of its own time, so the scripts run again
    without stores, redirects and discards, which no flag depends on: then the implicit keep stands, and has the flags of the end.
    """
    bare = {at: without_actions(text if at == place else bench.scripts[at]) for at in reads}
    with bench.changed(bare):
        found = bench.run(place, KEPT)
    return {name: flags for name, verdict in found.items() for flags in map(flags_of, filter(is_kept, verdict.lines))}


# Many mails have the same verdict.
@functools.lru_cache(maxsize=1024)
def kept_in(verdict: Verdict) -> Optional[Tuple[Line, Verdict]]:
    """What says that a script kept the mail, and what it did beside; nothing where it didn't, or failed."""
    kept = [line for line in verdict.lines if is_kept(line)]
    if not kept or any(line.text.startswith(b"error ") for line in verdict.lines):
        return None
    return kept[0], Verdict(tuple(line for line in verdict.lines if not is_kept(line)), verdict.reads)


def is_kept(line: Line) -> bool:
    """Whether a line of a verdict says that the mail is kept, by command or implicitly."""
    words = words_of(line.text) or [b""]
    return words[0] in (b"store", b"implicit") and unquoted(words[1]) == KEPT


def flags_of(line: Line) -> Flags:
    """The flags of a store."""
    return tuple(unquoted(word) for word in (words_of(line.text) or [])[2:] if word.startswith(b'"'))


def with_kept(verdict: Verdict, flags: Flags) -> Verdict:
    """The verdict in which the implicit keep has these flags."""
    lines = []
    for line in verdict.lines:
        words = words_of(line.text) or [b""]
        if words[0] == b"implicit":
            line = Line(b" ".join([*words[:2], *(quoted(flag).encode() for flag in flags)]), line.at)
        lines.append(line)
    return Verdict(tuple(lines), verdict.reads)


def renamed(verdict: Verdict) -> Verdict:
    """The verdict with the mailbox by its name."""
    box, kept = quoted(INBOX).encode(), quoted(KEPT).encode()
    return Verdict(
        tuple(Line(it.text.replace(kept, box, 1), it.at) if is_kept(it) else it for it in verdict.lines), verdict.reads
    )


@functools.lru_cache(maxsize=1024)
def joined(before: Verdict, after: Verdict) -> Verdict:
    """All that two scripts did. What adds nothing within a run adds nothing here: a store into the same mailbox brings its flags to
    the first, and a redirect to the same address, a discard or a response that follows another changes nothing."""
    if before == NOTHING:
        return after
    lines = list(before.lines)
    for line in after.lines:
        at = next((it for it, other in enumerate(lines) if action_of(other) == action_of(line)), None)
        if at is None or action_of(line) is None:
            lines.append(line)
        elif line.text.startswith(b"store "):
            lines[at] = Line(stores_joined(lines[at].text, line.text), lines[at].at)
    return Verdict(tuple(lines), tuple(dict.fromkeys(before.reads + after.reads)))


def action_of(line: Line) -> Optional[List[bytes]]:
    """What makes two actions one; nothing for what is never one with another."""
    words = words_of(line.text) or [b""]
    if words[0] in (b"store", b"redirect"):
        return words[:2]
    return words[:1] if words[0] in (b"discard", b"vacation") else None


def stores_joined(first: bytes, second: bytes) -> bytes:
    """Two stores into one mailbox as one: the flags of both, and what either asks for of the mailbox."""
    (store, flags, asks), (_, more, others) = store_parts(first), store_parts(second)
    known = {flag.lower() for flag in flags}
    flags += [flag for flag in more if flag.lower() not in known]
    for name, words in others.items():
        asks.setdefault(name, words)
    made = [word for name in (b"create", b"special-use") for word in asks.get(name, [])]
    return b" ".join([*store, *flags, *made])


def store_parts(text: bytes) -> "Tuple[List[bytes], List[bytes], Dict[bytes, List[bytes]]]":
    """The mailbox of a store with the word before it, its flags, and the words of each thing that it asks for."""
    words = words_of(text) or []
    bare = next((it for it in range(2, len(words)) if not words[it].startswith(b'"')), len(words))
    asks = {
        words[it]: words[it : it + (2 if words[it] == b"special-use" else 1)]
        for it in range(bare, len(words))
        if not words[it].startswith(b'"')
    }
    return words[:2], words[2:bare], asks
