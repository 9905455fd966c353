"""The names for --with: those that the program takes, and sets of them."""

from __future__ import annotations

import difflib
from typing import Dict, Iterator, List, NamedTuple, Set

from .ends import refuse
from .words import lines_of, quoted

# Each name that the program takes, and whether Pigeonhole 0.5.19 by default knows what it adds.
NAMES: Dict[bytes, bool] = {
    b"body": True,
    b"charsets": True,
    b"comparator-i;ascii-numeric": True,
    b"date": True,
    b"duplicate": True,
    b"encoded-character": True,
    b"envelopes": False,
    b"ereject": False,
    b"lines": False,
    b"mailbox": True,
    b"reject": True,
    b"relational": True,
    b"special-use": False,
    b"subaddress": True,
    b"unused": False,
    b"vacation": True,
}
SETS: Dict[bytes, List[bytes]] = {
    b"pigeonhole": [name for name, there in NAMES.items() if there],
    b"all": list(NAMES),
}
# What needs no name.
ALWAYS = (
    b"comparator-i;ascii-casemap",
    b"comparator-i;octet",
    b"copy",
    b"envelope",
    b"fileinto",
    b"imap4flags",
    b"include",
    b"variables",
)


class Named(NamedTuple):
    """A name in a file, and its line."""

    name: bytes
    line: int


def names_asked(path: bytes, text: bytes) -> List[bytes]:
    """The names that a file has, one a line, each once and those of a set one by one; refused where one isn't taken."""
    found: Dict[bytes, None] = {}
    for it in named_in(text):
        if it.name not in NAMES and it.name not in SETS:
            refuse(f"{quoted(path)}, line {it.line}: {wrong_with(it.name)}")
        found.update(dict.fromkeys(SETS.get(it.name, [it.name])))
    return list(found)


def named_in(text: bytes) -> Iterator[Named]:
    """The names of a text as they are written, without blanks and comments."""
    for number, line in enumerate(lines_of(text), 1):
        name = line.partition(b"#")[0].strip()
        if name:
            yield Named(name, number)


def wrong_with(name: bytes) -> str:
    """What is wrong with a name that isn't taken, and what to write in its place."""
    if name in ALWAYS:
        return f"{quoted(name)} is always known: remove this line"
    if b"," in name:
        return f"{quoted(name)} can't be asked for: each name stands on a line of its own"
    known = [it.decode() for it in (*NAMES, *SETS)]
    near = difflib.get_close_matches(name.decode("latin-1").lower(), known, 1)
    meant = f"did you mean {near[0]}?" if near else f"the names are {', '.join(known[:-1])} and {known[-1]}"
    return f"{quoted(name)} can't be asked for: {meant}"


def spelled(names: Set[bytes]) -> List[bytes]:
    """The lines of a file that asks for these names: the set that Pigeonhole has where they have all of it, and the others."""
    whole = set(SETS[b"pigeonhole"])
    return [b"pigeonhole", *sorted(names - whole)] if whole <= names else sorted(names)
