"""Main scripts: which they are, what they are called, and which run one after another."""

from __future__ import annotations

import collections
import os
import re
from typing import Callable, Dict, Iterable, Iterator, List, NamedTuple, Optional, Tuple

from .ends import refuse
from .expected import Key
from .files import files_in, is_plain, octets_of
from .program import Place
from .texts import text_of
from .words import lines_of, quoted, unquoted, words_of

SCRIPT_END = b".sieve"
# Folders of a site that have no scripts to name in a line of main ones.
OTHERS = (b"", b"users", b"mails")
PERSONAL = b"personal/"
OUTSIDE = "a line has NAME of personal or FOLDER/NAME of the site, but not of users, of mails or where FOLDER begins with a dot"
# The folders of scripts that run before and after the main one.
AROUND = (b"before/", b"after/")
# A line that names itself before a colon.
NAMED = re.compile(rb'[ \t]*("(?:[^"\\]|\\.)*"|[^\x00-\x20"\\\x7f:]+):[ \t]+(.*)', re.S)


class Script(NamedTuple):
    """A script: its place and its name in a session, its file and its text."""

    place: str
    name: bytes
    path: bytes
    text: bytes

    def at(self) -> Place:
        """Where it stands in a session."""
        return self.place, self.name


class Line(NamedTuple):
    """A line of main scripts as it is written: where it stands, its name before a colon if it has one, and the names of its scripts."""

    place: str
    name: bytes
    names: Tuple[bytes, ...]

    def where(self) -> str:
        """The begin of a refusal."""
        return f"{self.place}: " if self.place else ""

    def script(self) -> bytes:
        """The main one of its scripts: the first of the user's own, or else the first that is in no folder before or after, or else the last."""
        own = [name for name in self.names if b"/" not in name or name.startswith(PERSONAL)]
        between = [name for name in self.names if not name.startswith(AROUND)]
        found = [*own, *between, self.names[-1]][0]
        return found[len(PERSONAL) :] if found.startswith(PERSONAL) else found


class Called(NamedTuple):
    """A line, the words that it is called by, others that stand for it too, and whether no other line is for its main script."""

    line: Line
    key: Key
    also: Tuple[Key, ...]
    alone: bool


class Main(NamedTuple):
    """A line of main scripts of a user, which run one after another: the words between brackets, others that stand for it too, its main
    script if no other line is for that, and where its scripts stand in a session."""

    key: Key
    also: Tuple[Key, ...]
    script: Optional[Key]
    scripts: Tuple[Place, ...]

    def label(self) -> bytes:
        """What it is called."""
        return b" ".join(self.key)

    def is_also(self, other: "Main") -> bool:
        """Whether it is called as another one, or both are the only ones for one script."""
        return self.key == other.key or (self.script is not None and self.script == other.script)


class Shelf:
    """The scripts that everybody has: the global ones, and those of folders that lines of main scripts name."""

    def __init__(self, folder: bytes) -> None:
        self.folder = folder
        there = os.path.lexists(os.path.join(folder, b"global"))
        self.shared = scripts_in("global", b"", os.path.join(folder, b"global")) if there else []
        self.others: Dict[bytes, List[Script]] = {}
        # The lines of files of main scripts: most users have the same one.
        self.lines: Dict[bytes, List[Tuple[int, bytes]]] = {}

    def path_of(self, name: bytes, home: bytes) -> bytes:
        """The file of a script that a line names: FOLDER/NAME is of the site's folder of that name, and NAME the user's own."""
        folder, slash, rest = name.rpartition(b"/")
        if not slash:
            return os.path.join(home, b"personal", name + SCRIPT_END)
        return os.path.join(home if folder == b"personal" else self.folder, folder, rest + SCRIPT_END)

    def place_of(self, name: bytes, home: bytes) -> Optional[Place]:
        """Where it stands in a session, if there is one."""
        folder, slash, rest = name.rpartition(b"/")
        if not is_inside(name) or not is_plain(self.path_of(name, home)):
            return None
        if not slash or folder == b"personal":
            return "personal", rest
        if folder == b"global":
            return "global", rest
        if folder not in self.others:
            self.others[folder] = scripts_in("personal", folder + b"/", os.path.join(self.folder, folder))
        return "personal", name

    def main_of(self, called: Called, user: bytes, home: bytes) -> Main:
        """The main script that a line names, or several; refused where one isn't there."""
        names = called.line.names
        places = [self.place_of(name, home) for name in names]
        for name, place in zip(names, places):
            if place is None:
                why = f"there is no {quoted(self.path_of(name, home))}" if is_inside(name) else OUTSIDE
                refuse(f"{called.line.where()}no main script {quoted(name)}: {why}")
        script = of_user(user, (called.line.script(),)) if called.alone else None
        also = tuple(of_user(user, key) for key in called.also)
        return Main(of_user(user, called.key), also, script, tuple(place for place in places if place))

    def line_of(self, text: bytes, place: str, home: bytes) -> Line:
        """A line as it is written. It is one name where there is a script of the user's that is called so."""
        if b"/" not in text and self.place_of(text, home):
            return Line(place, b"", (text,))
        named = NAMED.fullmatch(text)
        if named:
            return self.line_of(named[2], place, home)._replace(name=unquoted(named[1]))
        words = words_of(text)
        if not words:
            why = "a name with blanks stands between quotes" if text.strip() else "after the colon stands none"
            refuse(f"{Line(place, b'', ()).where()}no main script {quoted(text)}: {why}")
        return Line(place, b"", tuple(unquoted(word) for word in words))

    def lines_in(self, path: bytes, home: bytes) -> List[Line]:
        """The lines of a file of main scripts."""
        if path not in self.lines:
            self.lines[path] = list(lines_in(path))
        return [self.line_of(text, f"{quoted(path)}, line {number}", home) for number, text in self.lines[path]]


def is_inside(name: bytes) -> bool:
    """Whether a name is that of a script that may run: the user's own, or one of a folder of the site."""
    folder, slash, _ = name.rpartition(b"/")
    return b"\0" not in name and (not slash or not (folder in OTHERS or b"/" in folder or folder.startswith(b".")))


def of_user(user: bytes, key: Key) -> Key:
    """The words that something of a user's is called by: the first has the user's name and a slash before it, where there are users."""
    return (user + b"/" + key[0], *key[1:]) if user else key


def called(lines: Iterable[Line]) -> List[Called]:
    """What lines are called, each once: by their names, or else by their main scripts. Where several without names are for one script,
    they are called by all their scripts. What another line isn't called stands for a line too: all its scripts, as headings once were, and
    its main script, if no other line is for that."""
    once = list({(line.name, line.names): line for line in lines}.values())
    scripts = collections.Counter(line.script() for line in once)
    bare = collections.Counter(line.script() for line in once if not line.name)
    keys: Dict[Key, Line] = {}
    for line in once:
        key = (line.name,) if line.name else (line.script(),) if bare[line.script()] == 1 else line.names
        if key in keys:
            shown = quoted(b" ".join(key))
            refuse(f"{line.where()}another line is called {shown} too: another name before a colon, as other: main")
        keys[key] = line
    found = []
    for key, line in keys.items():
        alone = scripts[line.script()] == 1 and keys.get((line.script(),), line) is line
        also = (line.names, *([(line.script(),)] if alone else []))
        found.append(Called(line, key, tuple(it for it in also if it not in keys), alone))
    return found


def chosen(own: List[Line], texts: List[bytes], line_of: Callable[[bytes], Line]) -> List[Called]:
    """Of lines that are asked for those of a user's file that are called so or have these scripts, and where there is none, they."""
    there, found = called(own), []
    for text in texts:
        same = [it for it in there if it.key == (text,)]
        line = same[0].line if same else line_of(text)
        same += [it for it in there if not line.name and line.names in (it.key, it.line.names)]
        found.append(same[0] if same else called([*own, line])[-1])
    return list(dict.fromkeys(found))


def scripts_in(place: str, prefix: bytes, folder: bytes) -> List[Script]:
    """The scripts of a folder, in the order of the octets of their files' names."""
    paths = [os.path.join(folder, name) for name in files_in(folder, SCRIPT_END)]
    names = [prefix + os.path.basename(path)[: -len(SCRIPT_END)] for path in paths]
    return [Script(place, name, path, octets_of(path)) for name, path in zip(names, paths)]


def lines_in(path: bytes) -> Iterator[Tuple[int, bytes]]:
    """The lines of a file that aren't empty and no comments, each with its number."""
    for number, line in enumerate(lines_of(text_of(path)), 1):
        if line.strip() and words_of(line) != []:
            yield number, line
