"""The program, and a session with it that is held: commands are written, and replies read as they come."""

from __future__ import annotations

import collections
import contextlib
import functools
import os
import re
import subprocess
import sys
from typing import IO, Deque, Dict, FrozenSet, Iterator, List, NamedTuple, NoReturn, Optional, Set, Tuple

from .ends import CHILDREN, Refusal, fail, ran, refuse
from .files import temporary
from .words import ADDRESS_LIMIT, MAIL_LIMIT, MESSAGE_LIMIT, SCRIPT_LIMIT, TEXT_LIMIT, line, quoted, unquoted

# Replies wait in a pipe until they are read: so many edits fill none.
PENDING = 1_000
# So many octets of replies are read at once, or as many as there are.
OCTETS = 1 << 16
GIBIBYTE = 1 << 30
SCRIPT_LINE = re.compile(rb"script ([a-z]+) (\".*\") (?:ok|line ([0-9]+) ([a-z-]+))")
READ_LINE = re.compile(rb"  read ([a-z]+) (\".*?\")( missing)?")
# The names that the help lists, a line each.
OFFERED = re.compile(rb"--with <NAME> .*\n((?:  {12,}[a-z]\S*  .*\n)+)")
AT_LINE = re.compile(rb"  at ([a-z]+) (\".*\") line ([0-9]+)")
LIMITS = {
    "script": f"a script's text has at most {TEXT_LIMIT:,} octets, and its name {ADDRESS_LIMIT:,}",
    "message": f"a mail has at most {MESSAGE_LIMIT:,} octets",
    "message-envelope": f"an address has at most {ADDRESS_LIMIT:,} octets",
    "mailboxes": f"a list of mailboxes has at most {TEXT_LIMIT:,} octets",
    "full": f"a session has at most {SCRIPT_LIMIT:,} scripts and {MAIL_LIMIT:,} mails",
}
NO_MEMORY = "the program has no memory for it: --memory gives more"
# A script in a session: its place and its name.
Place = Tuple[str, bytes]
Fault = Tuple[int, str]


class NoMemory(Refusal):
    """Memory was refused to the program, for an edit or for a report."""


class Line(NamedTuple):
    """A line of a verdict, and the script and the line that entered it."""

    text: bytes
    at: Optional[Tuple[Place, int]] = None


class Verdict(NamedTuple):
    """What became of a mail, and the scripts that were looked up, each with whether it was there."""

    lines: Tuple[Line, ...]
    reads: Tuple[Tuple[Place, bool], ...]

    def texts(self) -> Tuple[bytes, ...]:
        """The lines without what entered them."""
        return tuple(line.text for line in self.lines)


class Report(NamedTuple):
    """The fault of each script, if any, and the verdict on each mail by its id."""

    faults: Dict[Place, Optional[Fault]]
    verdicts: Dict[bytes, Verdict]


class Program:
    """The program, what is asked of it beyond what it always knows, and the memory that each of its processes may take."""

    def __init__(self, path: Optional[bytes], names: List[bytes], memory: int = 4 * GIBIBYTE) -> None:
        self.path = path if path is not None else found_program()
        self.asked, self.memory = names, memory
        self.profile = b"--with=" + b",".join([*names, b"envelopes", b"lines"])
        # Of capabilities whether they aren't there, and what may be asked for, once that is known.
        self.unknown: Dict[bytes, bool] = {}
        self.offered: Optional[FrozenSet[bytes]] = None
        # Whether it can be run is asked once, before a session is wanted.
        self.version = self.first_line_of([self.path, b"--version"])

    def first_line_of(self, words: List[bytes]) -> str:
        """What it says first."""
        try:
            done = ran(words)
        except OSError as error:
            fail(f"cannot run {quoted(self.path)}: {error.strerror}")
        return done.stdout.split(b"\n")[0].decode("latin-1")

    def names(self) -> FrozenSet[bytes]:
        """The names that may be asked for, as its help lists them."""
        if self.offered is None:
            found = OFFERED.search(ran([self.path, b"help", b"session"]).stdout)
            self.offered = frozenset(it.split()[0] for it in found[1].splitlines()) if found else frozenset()
        return self.offered

    def missing(self, names: List[bytes]) -> Set[bytes]:
        """Those of some capabilities that aren't there: a script that requires one alone has a fault, where it may not be unused."""
        asked = [name for name in dict.fromkeys(names) if name not in self.unknown]
        if asked:
            plain = Program(self.path, [name for name in self.asked if name != b"unused"], self.memory)
            with plain.session() as session:
                places = {name: ("personal", b"%d" % number) for number, name in enumerate(asked)}
                for name, place in places.items():
                    spelled = name.replace(b"\\", b"\\\\").replace(b'"', b'\\"')
                    session.script(place, b'require "' + spelled + b'";', "a script of one capability")
                faults = session.report().faults
            self.unknown.update({name: bool(faults[place]) for name, place in places.items()})
        return {name for name in names if self.unknown[name]}

    @contextlib.contextmanager
    def session(self) -> Iterator["Session"]:
        """A new session, which ends with the block and mustn't have failed by then."""
        with temporary() as errors:
            with CHILDREN.held(lambda: self.started(errors)) as child:
                limit_memory(child.pid, self.memory)
                session = Session(self, child, errors)
                yield session
                session.end()

    def started(self, errors: IO[bytes]) -> "subprocess.Popen[bytes]":
        """A new process, which Ctrl-C on a terminal reaches by this tool alone."""
        words, pipe = [self.path, b"session", self.profile], subprocess.PIPE
        try:
            return subprocess.Popen(words, stdin=pipe, stdout=pipe, stderr=errors, start_new_session=True)
        except OSError as error:
            fail(f"cannot run {quoted(self.path)}: {error.strerror}")


def found_program() -> bytes:
    """The program beside this tool, or by its name that of the path."""
    beside = os.path.join(os.path.dirname(os.path.realpath(os.fsencode(sys.argv[0]))), b"sievebench")
    return beside if os.access(beside, os.X_OK) and os.path.isfile(beside) else b"sievebench"


class Session:
    """A session of the program, for as many edits and reports as are wanted."""

    def __init__(self, program: Program, child: "subprocess.Popen[bytes]", errors: IO[bytes]) -> None:
        assert child.stdin and child.stdout
        self.program, self.child, self.errors = program, child, errors
        self.input, self.output = child.stdin, child.stdout
        self.pending: List[Tuple[str, str]] = []
        # Lines of replies that were read and not looked at yet, and the beginning of the next one.
        self.lines: Deque[bytes] = collections.deque()
        self.begun: List[bytes] = []
        # Many verdicts are the same one, and many reports after an edit are that before it.
        self.known: Dict[bytes, Verdict] = {}
        self.report_of = functools.lru_cache(maxsize=4)(self.made_report)

    def end(self) -> None:
        """Ends the session, which mustn't have failed until now."""
        self.drain()
        with contextlib.suppress(BrokenPipeError):
            self.input.close()
        self.output.read()
        self.child.wait()
        if self.child.returncode or self.said():
            self.fail()

    def said(self) -> str:
        """What is on its standard error."""
        self.errors.seek(0)
        return quoted(self.errors.read(500).rstrip())[1:-1]

    def fail(self) -> NoReturn:
        """Says why there is no reply."""
        self.output.close()
        self.child.wait()
        said, status = self.said(), self.child.returncode
        if status == 2 and said:
            names = f"{quoted(self.program.profile)}, of the site's file with and what this tool adds"
            refuse(f'the program doesn\'t take {names}: "{said}"')
        if status or said:
            fail(f'{quoted(self.program.path)} ended with status {status}: "{said}"')
        fail("the program answered too little")

    def write(self, octets: bytes) -> None:
        """Writes a line, with what it counts. Where nobody reads it, what was replied until then says why."""
        with contextlib.suppress(BrokenPipeError):
            self.input.write(octets)

    def line(self) -> bytes:
        """The next line of the replies, without its end."""
        while not self.lines:
            octets = os.read(self.output.fileno(), OCTETS)
            if not octets:
                self.fail()
            first, *others = octets.split(b"\n")
            self.begun.append(first)
            if others:
                self.lines.extend([b"".join(self.begun), *others[:-1]])
                self.begun = others[-1:]
        return self.lines.popleft()

    def flush(self) -> None:
        """Sends what was written."""
        with contextlib.suppress(BrokenPipeError):
            self.input.flush()

    def edit(self, command: str, words: List[bytes], octets: Optional[bytes], what: str) -> None:
        """An edit, whose reply is read later and mustn't be a refusal of what it is."""
        self.write(line(command, words, octets))
        self.pending.append((command, what))
        if len(self.pending) >= PENDING:
            self.drain()

    def drain(self) -> None:
        """Reads the replies to the edits until now."""
        self.flush()
        pending, self.pending = self.pending, []
        for command, what in pending:
            reply = self.line()
            if reply == b"no no-memory":
                raise NoMemory(f"{what} is refused: {NO_MEMORY}")
            if reply != b"ok":
                refuse(f"{what} is refused: {reason(command, reply[3:].decode('latin-1'))}")

    def words(self, command: str, words: List[bytes], what: str) -> None:
        """An edit whose words must stand without quotes."""
        self.write(b" ".join([command.encode(), *words]) + b"\n")
        self.pending.append((command, what))

    def script(self, place: Place, text: bytes, what: str) -> None:
        """Puts a script's text."""
        self.edit(f"script {place[0]}", [place[1]], text, what)

    def dump(self, place: Place) -> Optional[List[bytes]]:
        """The operations of a script, or none where it has a fault."""
        self.drain()
        self.write(line(f"dump {place[0]}", [place[1]]))
        self.flush()
        operations: List[bytes] = []
        while True:
            found = self.line()
            if found == b"ok":
                return operations
            if found.startswith(b"no "):
                return None
            operations.append(found)

    def report(self) -> Report:
        """The faults of the scripts and the verdicts on the mails."""
        self.drain()
        self.write(b"report\n")
        self.flush()
        return self.report_of(self.told())

    def made_report(self, told: bytes) -> Report:
        """What a report tells."""
        head, *mails = told.split(b"\nmessage ")
        verdicts: Dict[bytes, Verdict] = {}
        for mail in mails:
            name, _, lines = mail.partition(b"\n")
            if lines:
                verdicts[unquoted(name)] = self.verdict(lines)
        return Report(faults_in(head), verdicts)

    def told(self) -> bytes:
        """All that a report tells but for its last line, after an LF."""
        octets = bytearray(b"".join([b"\n", *(it + b"\n" for it in self.lines), *self.begun]))
        self.lines.clear()
        self.begun = []
        while True:
            last = octets.rfind(b"\n", 0, -1) + 1 if octets.endswith(b"\n") else 0
            if octets.startswith(b"no ", last):
                raise NoMemory(f"the report is refused: {NO_MEMORY}")
            if octets.startswith(b"total ", last):
                return bytes(octets[: last - 1])
            more = os.read(self.output.fileno(), OCTETS)
            if not more:
                self.fail()
            octets += more

    def verdict(self, lines: bytes) -> Verdict:
        """What the lines of a mail tell, of which the first may be its envelope."""
        lines = lines.partition(b"\n")[2] if lines.startswith(b"  envelope ") else lines
        if lines not in self.known:
            self.known[lines] = verdict_of(lines.split(b"\n"))
        return self.known[lines]


@functools.lru_cache(maxsize=64)
def faults_in(head: bytes) -> Dict[Place, Optional[Fault]]:
    """The fault of each script, if any, by what a report tells before the mails."""
    found = filter(None, map(SCRIPT_LINE.fullmatch, head.split(b"\n")))
    return {(it[1].decode(), unquoted(it[2])): (int(it[3]), it[4].decode()) if it[3] else None for it in found}


def verdict_of(told: List[bytes]) -> Verdict:
    """The verdict that the lines of a mail tell."""
    lines: List[Line] = []
    reads = []
    for found in told:
        at, read = at_in(found), read_in(found)
        if at:
            lines[-1] = Line(lines[-1].text, at)
        elif read:
            reads.append(read)
        elif not found.startswith(b"  envelope "):
            lines.append(Line(found[2:]))
    return Verdict(tuple(lines), tuple(reads))


# Many verdicts have the same lines.
@functools.lru_cache(maxsize=1024)
def at_in(found: bytes) -> Optional[Tuple[Place, int]]:
    """The script and the line that a line of a verdict tells, if it does."""
    at = AT_LINE.fullmatch(found)
    return ((at[1].decode(), unquoted(at[2])), int(at[3])) if at else None


@functools.lru_cache(maxsize=1024)
def read_in(found: bytes) -> Optional[Tuple[Place, bool]]:
    """The script that was looked up, and whether it was there, if a line of a verdict tells that."""
    read = READ_LINE.fullmatch(found)
    return ((read[1].decode(), unquoted(read[2])), not read[3]) if read else None


def reason(command: str, kind: str) -> str:
    """Why an edit is refused, with the limit where it is one."""
    if kind == "too-large":
        return LIMITS.get(command.split()[0], kind)
    return LIMITS.get(kind, f"no {kind}")


def limit_memory(process: int, octets: int) -> None:
    """Limits the memory of a process, where the system can."""
    try:
        import resource

        resource.prlimit(process, resource.RLIMIT_AS, (octets, octets))
    except (ImportError, AttributeError, OSError, ValueError):
        pass
