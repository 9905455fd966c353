"""The scripts of a site that can't be judged yet, as its file `unjudged` lists them."""

from __future__ import annotations

import os
from typing import Dict, List, NamedTuple, Optional

from .ends import refuse
from .mains import Script
from .texts import text_if_any
from .words import BY_HAND, lines_of, quoted, unquoted, word_of

NAME = b"unjudged"


class Entry(NamedTuple):
    """A line of the file: its number, the path of a script or the name of a user, and why."""

    line: int
    word: bytes
    why: bytes


class Listed:
    """What the file lists."""

    def __init__(self, folder: bytes) -> None:
        self.folder, self.path = folder, os.path.join(folder, NAME)
        self.entries: Dict[bytes, Entry] = {}
        for entry in entries_in(self.path):
            self.entries[entry.word] = entry

    def entry_of(self, user: bytes, script: Script) -> Optional[Entry]:
        """The line that lists a script of a user, by its path or with all of the user's."""
        return self.entries.get(self.word_of(script)) or (self.entries.get(user) if user else None)

    def word_of(self, script: Script) -> bytes:
        """The path of a script as the file has it."""
        return os.path.relpath(script.path, self.folder)

    def line_for(self, script: Script, why: str) -> str:
        """The line that would list a script."""
        return f"{word_of(self.word_of(script))} {why}"


def entries_in(path: bytes) -> List[Entry]:
    """The lines of a file: a word, and then why."""
    found: List[Entry] = []
    for number, text in enumerate(lines_of(text_if_any(path)), 1):
        text = text.strip(b" \t")
        if not text or text.startswith(b"#"):
            continue
        word = BY_HAND.match(text)
        why = text[word.end() :].strip(b" \t") if word else b""
        if not word or word[0] == b'""' or not why:
            refuse(f"{quoted(path)}, line {number}: this isn't the path of a script or a user's name, and then why")
        found.append(Entry(number, os.path.normpath(unquoted(word[0])), why))
    return found
