"""Which block of a mail's file says what is expected of it under a line of main scripts."""

from __future__ import annotations

import os
from typing import Dict, Iterable, List, Optional, Set

from .ends import refuse
from .expected import Block, Blocks, Key, blocks_of, shown_key
from .files import names_in
from .mains import Line, Main, of_user
from .texts import text_of
from .words import quoted


class Expected:
    """What is expected of a mail: the files that say it, as they were read, whether there is a folder of them, one for each user, and their
    blocks by their headings."""

    def __init__(self, files: Dict[bytes, bytes], users: bool, folder: bool = False) -> None:
        self.files, self.folder = files, folder
        self.blocks: Blocks = {}
        for path, octets in files.items():
            for key, block in blocks_of(path, octets).items():
                if key in self.blocks:
                    before = quoted(self.blocks[key].path)
                    refuse(f"{quoted(path)}, line {block.number}: {shown_key(key)} stood in {before} before")
                self.blocks[key] = block
        # The headings that name several scripts, by the main one of these.
        self.chains: Dict[Key, List[Key]] = {}
        for key in self.blocks:
            if len(key) > 1:
                self.chains.setdefault(main_script(key, users), []).append(key)

    def heading(self, main: Main) -> Optional[Key]:
        """The heading under which a line stands: what it is called, or what stands for it too. The only line for its main script also has
        the heading of several scripts of which this is the main one, if there is one such."""
        if main.key in self.blocks:
            return main.key
        chains = self.chains.get(main.script, []) if main.script else []
        keys = [*main.also, *(chains if len(chains) == 1 else [])]
        return next((key for key in keys if key in self.blocks), None)

    def headings(self, mains: Iterable[Main]) -> Set[Key]:
        """The headings under which some line stands."""
        found = map(self.heading, mains)
        return {key for key in found if key}

    def block(self, main: Main) -> Optional[Block]:
        """What is expected under a line."""
        key = self.heading(main)
        return self.blocks[key] if key else None


def expected_at(place: bytes, users: bool) -> Expected:
    """What a file expects, or a folder of files; nothing where there is none."""
    if not os.path.lexists(place):
        return Expected({}, users)
    if not os.path.isdir(place):
        return expected_in(place, users)
    if not users:
        refuse(f"{quoted(place)} is a folder, which has files of users, and the site has no users: make it one file")
    names = [name for name in names_in(place) if not name.startswith(b".")]
    return Expected({path: text_of(path) for path in (os.path.join(place, name) for name in names)}, users, True)


def expected_in(place: bytes, users: bool) -> Expected:
    """What a file expects."""
    return Expected({place: text_of(place)}, users)


def main_script(key: Key, users: bool) -> Key:
    """The main script of a heading that names several: where there are users, that of one of theirs."""
    user, _, first = key[0].partition(b"/") if users else (b"", b"", key[0])
    return of_user(user, (Line("", b"", (first, *key[1:])).script(),))
