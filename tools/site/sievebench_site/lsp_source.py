"""The source of remarks: the program's first fault of a script that is open in an editor, and the findings of lint in it."""

from __future__ import annotations

import collections
import contextlib
from typing import Callable, Dict, Iterator, List, NamedTuple, Optional, Sequence, Set, Tuple

from .code import Code
from .ends import Refusal
from .extensions import OURS
from .faults import sentence_of
from .findings import NOTE, Finding
from .folder import site_of
from .lint import Actions, Linted
from .lsp_place import Home, Places, names_of, scripts_beside, wanted
from .lsp_remarks import REFUSED, UNJUDGED, Remark, remarks
from .lsp_text import Text
from .mains import Script
from .names import ALWAYS
from .program import Place, Program
from .seats import Seat
from .survey import judged, requires, survey

# So many sessions are held at most. A site without another user has one, and so have scripts of no site.
SESSIONS = 4
ALONE: Place = ("personal", b"main")
Key = Tuple[bytes, bytes, Tuple[bytes, ...]]
Operations = Dict[Place, Optional[List[bytes]]]


class Document(NamedTuple):
    """A script that is open: its name there, its version if it has one, its text, and its path if it is a file."""

    uri: str
    version: Optional[int]
    text: Text
    path: Optional[bytes]


class Held:
    """A session that is held, and what was found of actions there."""

    def __init__(self, program: Program) -> None:
        self.seat = Seat(program)
        self.session, self.bench = self.seat.session, self.seat.bench
        self.actions = Actions(self.session)


class Source:
    """Finds remarks by sessions that are held. All that editors show of scripts comes from `remarks`."""

    def __init__(self, program: Callable[[List[bytes]], Program], names: List[bytes], places: Places) -> None:
        self.program, self.names, self.places = program, names, places
        self.held: "collections.OrderedDict[Key, Held]" = collections.OrderedDict()
        self.programs: Dict[Tuple[bytes, ...], Program] = {}

    def remarks(self, document: Document, others: Sequence[Document]) -> List[Remark]:
        """The remarks about a document, with the texts of others in place of their files. They are about its octets of UTF-8."""
        known = self.known(document)
        try:
            found = self.findings(document, others)
        except Refusal as refusal:
            if refusal.status != 2:
                raise
            found = [refused(refusal)]
        return remarks(document.text.octets, found, known)

    def findings(self, document: Document, others: Sequence[Document]) -> List[Finding]:
        """The findings in a document. Where its site can't be read, that is said, and it is judged alone."""
        home = self.home_of(document)
        if home is None:
            return self.alone(document)
        try:
            return self.in_site(home, document, others)
        except Unread as unread:
            return [refused(unread.refusal), *self.alone(document)]

    def in_site(self, home: Home, document: Document, others: Sequence[Document]) -> List[Finding]:
        """The findings of lint in a document."""
        try:
            owner = home.owner()
            site = site_of(wanted(home.folder, owner))
        except Refusal as refusal:
            raise Unread(refusal) from None
        scripts = {script.at(): script for script in site.users[0].scripts}
        for it in [*others, document]:
            there = self.home_of(it)
            if there and there.folder == home.folder and there.user in (None, owner):
                at = there.place
                path = scripts[at].path if at in scripts else it.path or b""
                scripts[at] = Script(*at, path, it.text.octets)
        with self.holding((home.folder, owner), site.names) as held:
            put(held, scripts)
            told = held.session.report().faults
            operations = reached(held, scripts, home.place)
            user = site.users[0]._replace(scripts=[scripts[at] for at in operations])
            found = survey(site, user, held.session.program, {at: told[at] for at in operations})
            linted = Linted(site, user, found, operations, held.actions)
        path = scripts[home.place].path
        return [it for it in [*linted.faults, *linted.unjudged, *linted.notes()] if it.path == path]

    def alone(self, document: Document) -> List[Finding]:
        """The findings in a document that has no others beside it."""
        script = Script(*ALONE, b"", document.text.octets)
        with self.holding((b"", b""), self.asked(document)) as held:
            put(held, {ALONE: script})
            fault, lacks = judged(held.session.program, script, held.session.report().faults[ALONE])
            if fault and lacks:
                return [Finding(b"", fault[0], UNJUDGED, f"The script {requires(lacks)}: it isn't known here.")]
            if fault:
                return [Finding(b"", *fault, sentence_of(script, *fault))]
            return list(held.actions.faults(Code([script], reached(held, {ALONE: script}, ALONE), {ALONE})))

    def home_of(self, document: Document) -> Optional[Home]:
        """The home of a document, if it is a script of a site."""
        return self.places.home_of(document.path) if document.path else None

    def asked(self, document: Document) -> List[bytes]:
        """The names that are asked for: those of its site, where it lies in one."""
        home = self.home_of(document)
        folder = home.folder if home else self.places.site_above(document.path) if document.path else None
        with contextlib.suppress(Refusal):
            return names_of(folder) if folder else self.names
        return self.names

    def known(self, document: Document) -> Set[str]:
        """The capabilities that a document may require."""
        return {it.decode() for it in (*ALWAYS, *self.asked(document)) if it not in OURS}

    @contextlib.contextmanager
    def holding(self, place: Tuple[bytes, bytes], names: List[bytes]) -> Iterator[Held]:
        """A session for the scripts of a place under these names, which is held afterwards unless it failed."""
        key = (*place, tuple(names))
        if key not in self.held:
            self.held[key] = Held(self.program_of(names))
        self.held.move_to_end(key)
        while len(self.held) > SESSIONS:
            self.held.popitem(last=False)[1].seat.drop()
        try:
            yield self.held[key]
        except BaseException:
            self.held.pop(key).seat.drop()
            raise

    def program_of(self, names: List[bytes]) -> Program:
        """The program under these names, which is asked once what it knows."""
        key = tuple(names)
        if key not in self.programs:
            self.programs[key] = self.program(names)
        return self.programs[key]

    def beside(self, document: Document, others: Sequence[Document], place: str) -> List[bytes]:
        """The names of the scripts that a document can include from a place."""
        home = self.home_of(document)
        if not home:
            return []
        names = scripts_beside(home, place)
        for it in others:
            there = self.home_of(it)
            if there and (there.folder, there.place[0]) == (home.folder, place) and b"/" not in there.place[1]:
                names.append(there.place[1])
        return [name for name in dict.fromkeys(names) if (place, name) != home.place]

    def stop(self) -> None:
        """Kills the programs of the sessions, so that nobody waits for them."""
        for held in list(self.held.values()):
            held.session.child.kill()

    def close(self) -> None:
        """Ends the sessions, however far they are."""
        while self.held:
            self.held.popitem()[1].seat.drop()


class Unread(Exception):
    """A site that can't be read."""

    def __init__(self, refusal: Refusal) -> None:
        super().__init__(refusal.sentence)
        self.refusal = refusal


def put(held: Held, scripts: Dict[Place, Script]) -> None:
    """Puts scripts in place of those that are there."""
    texts = {at: script.text for at, script in scripts.items()}
    held.bench.become(texts, {at: script.path for at, script in scripts.items()})


def reached(held: Held, scripts: Dict[Place, Script], start: Place) -> Operations:
    """The operations of a script and of those that it comes to."""
    code = Code(list(scripts.values()), {}, set())
    left = [start]
    while left:
        at = left.pop()
        if at in scripts and at not in code.operations:
            code.operations[at] = held.session.dump(at)
            left += [it.place for it in code.includes(at)]
    return code.operations


def refused(refusal: Refusal) -> Finding:
    """The finding that says why something can't be done."""
    return Finding(b"", 0, REFUSED, f"{refusal.sentence[0].upper()}{refusal.sentence[1:]}.", NOTE)
