"""Where runs come to, asked of the program: by marks, which are flags of a store of their own, and by an error on a line of its own."""
from __future__ import annotations

from typing import Dict, FrozenSet, Iterable, List, Optional, Set, Tuple

from .chains import Bench, chained
from .changes import ACTIONS, BRANCHES, DECLARATIONS, Command, with_inserted
from .mains import Main
from .program import Place, Verdict
from .sieve_text import required
from .words import quoted

# So many places are asked for at once: a script has room for that.
AT_ONCE = 1_000
BOX = b"reached.invalid"
# What a mark requires. The program always knows it.
REQUIRED = (b"fileinto", b"copy", b"imap4flags")
# What stands before an `elsif` or an `else` belongs to the branch before it, and before a `require` no command may stand.
NO_START = (b"elsif", b"else", b"require")
# After these a run goes on, if it doesn't fail.
GOES_ON = (*ACTIONS, *BRANCHES, *DECLARATIONS, b"set", b"setflag", b"addflag", b"removeflag")
# Of each script its places, each with the first to which a run comes as often.
Places = Dict[Place, Dict[int, int]]
# Of each script the places to which a run came.
Came = Dict[Place, FrozenSet[int]]


def own_box(texts: Iterable[bytes]) -> bytes:
    """A mailbox of which no script speaks."""
    box, whole = BOX, b"\n".join(texts).lower()
    while box in whole:
        box = b"x" + box
    return box


def mark(number: int) -> bytes:
    """A mark, as the line of a store has it."""
    return b'"%d"' % number


def marked(text: bytes, places: Iterable[Tuple[int, int]], box: bytes) -> bytes:
    """The script with a mark at each of these places, by its number. A copy of the mail is stored once, whatever marks it gets: that is one
    of the 32 actions of a run, and changes nothing of what else the script does."""
    end, names = required(text)
    lacks = b", ".join(b'"%b"' % name for name in REQUIRED if name not in names)
    front = [(end, b" require [%b];" % lacks)] if lacks else []
    asked = [(at, b' fileinto :copy :flags %b "%b"; ' % (mark(number), box)) for at, number in places]
    return with_inserted(text, [*front, *asked])


def marks_in(verdict: Verdict, box: bytes) -> Optional[List[bytes]]:
    """The marks to which a run came, in the order in which it came there first; nothing where it failed, which drops them."""
    texts, store = verdict.texts(), b"store %b " % quoted(box).encode()
    if any(text.startswith(b"error ") for text in texts):
        return None
    return next((text[len(store) :].split() for text in texts if text.startswith(store)), [])


def places_of(found: Iterable[Command]) -> Dict[int, int]:
    """All places of a script's commands that a run may come to, each with the first place to which it comes as often unless it fails: a run
    goes on in a block, up to a command that may end it."""
    first: Dict[int, int] = {}
    # Of each block where the run has gone on since, and the block around it.
    since: Dict[Optional[int], Optional[int]] = {None: None}
    around: Dict[int, Optional[int]] = {}
    for it in found:
        if it.name() not in NO_START:
            start = since[it.inside]
            since[it.inside] = first[it.start()] = it.start() if start is None else start
        if it.block is not None:
            first[it.block] = since[it.block] = it.block
            around[it.block] = it.inside
        if it.name() not in GOES_ON:
            block = it.inside
            while block is not None:
                since[block], block = None, around[block]
            since[None] = None
    return first


def with_end(text: bytes, command: Command) -> Tuple[bytes, int]:
    """The script with an error before a command, which drops all else, on a line that no other error can have; and this line. What
    stands before an `elsif` is at the start of its block, and its condition is true."""
    condition, place = command.condition(), command.start()
    if command.name() == b"elsif" and condition and command.block is not None:
        start, end = condition
        octets = b"true" + b"\n" * text.count(b"\n", start, end)
        text = text[:start] + octets + text[end:]
        place = command.block + len(octets) - (end - start)
    return with_error(text, place)


def with_error(text: bytes, place: int) -> Tuple[bytes, int]:
    """The script with such an error at a place, and its line."""
    lines = text.count(b"\n") + 1
    line = text.count(b"\n", 0, place) + 1 + lines
    return with_inserted(text, [(place, b"\n" * lines + b'redirect "";\n')]), line


class Reach:
    """Asks to which places of scripts the runs of some mails come, under a main script."""

    def __init__(self, bench: Bench, ids: List[bytes], main: Main) -> None:
        self.bench, self.ids, self.main = bench, ids, main

    def came(self, places: Places) -> Dict[bytes, Optional[Came]]:
        """Of each mail those of some places to which its run comes; nothing where the run fails."""
        asked = [(script, at) for script, found in places.items() for at in sorted(set(found.values()))]
        numbers = {point: number for number, point in enumerate(asked)}
        marks: Dict[Place, Dict[bytes, List[int]]] = {script: {} for script in places}
        for script, found in places.items():
            for at, first in found.items():
                marks[script].setdefault(mark(numbers[script, first]), []).append(at)
        told: Dict[bytes, Optional[FrozenSet[bytes]]] = dict.fromkeys(self.ids, frozenset())
        for start in range(0, len(asked), AT_ONCE):
            for name, more in self.marks(asked[start : start + AT_ONCE], start).items():
                before = told[name]
                told[name] = None if before is None or more is None else before | more
        # Many runs come to the same places.
        same: Dict[FrozenSet[int], FrozenSet[int]] = {}
        known: Dict[Optional[FrozenSet[bytes]], Optional[Came]] = {None: None}
        for got in set(told.values()):
            if got is not None:
                came = {
                    script: frozenset(at for word in it.keys() & got for at in it[word]) for script, it in marks.items()
                }
                known[got] = {script: same.setdefault(it, it) for script, it in came.items()}
        return {name: known[got] for name, got in told.items()}

    def marks(self, asked: List[Tuple[Place, int]], first: int) -> Dict[bytes, Optional[FrozenSet[bytes]]]:
        """The marks that each mail's run gets at these places, of which the first has this number; nothing where it fails."""
        box = own_box(self.bench.scripts.values())
        points: Dict[Place, List[Tuple[int, int]]] = {}
        for number, (script, at) in enumerate(asked, first):
            points.setdefault(script, []).append((at, number))
        verdicts = self.verdicts({it: marked(self.bench.scripts[it], found, box) for it, found in points.items()})
        told = {verdict: marks_in(verdict, box) for verdict in set(verdicts.values())}
        known = {verdict: None if found is None else frozenset(found) for verdict, found in told.items()}
        return {name: known[verdict] for name, verdict in verdicts.items()}

    def ended(self, script: Place, text: bytes, line: int) -> Set[bytes]:
        """The mails whose runs end by an error of a script that has this text, on this line of it."""
        end = f"error {script[0]} {quoted(script[1])} line {line} bad-address".encode()
        return {name for name, verdict in self.verdicts({script: text}).items() if end in verdict.texts()}

    def verdicts(self, texts: Dict[Place, bytes]) -> Dict[bytes, Verdict]:
        """The verdicts with these texts of scripts."""
        before = {script: self.bench.scripts[script] for script in texts}
        for script, text in texts.items():
            self.bench.replace(script, text)
        found = chained(self.bench, self.main.scripts, self.ids)
        for script, text in before.items():
            self.bench.replace(script, text)
        return found
