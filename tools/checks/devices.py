"""What the program does where its input, its output, a file or a folder fails, in each way that the system has; when it reads and when it writes;
and what it says of names that no file system has. The program runs with `devices.c` before its C library. What it must do is written from its
help: a reply is written before the next read, and an output that has failed isn't used again.
"""
import concurrent.futures
import errno
import os
import pathlib
import subprocess

from .amounts import NAME_LIMIT, TEXT_LIMIT
from .files import write
from .runs import SECONDS, Run, lines, report

SOURCE = pathlib.Path(__file__).with_name("devices.c")
# All errors of the system but an interruption, after which a call is made again.
FAULTS = sorted(set(errno.errorcode) - {errno.EINTR})
# Those that say of a path that it leads to no file.
NOWHERE = {errno.ENOENT, errno.ENOTDIR, errno.ELOOP}
# That of a folder which is removed while it is listed: its names end there.
GONE = {errno.ENOENT}
EMPTY = lines("main none", 'envelope "" "" mailbox "INBOX"', "total 0 messages 0 errors")
THREE, REFUSED = lines(*["no-main"] * 3), lines("no-main", "frobnicate")
UNREAD, UNWRITTEN, OUT = (f"sievebench: {it}\n".encode() for it in ("cannot read standard input", "cannot write", "out of memory"))
# The letters of a name in a folder, and how many of them the program sees: more than a name may have.
SHORT, LONG = "n" * 100, "n" * (NAME_LIMIT + 1)


def unreadable(path):
    """What is said of a file or a folder that can't be read."""
    return f'sievebench: cannot read "{path}"\n'.encode()


def too_large(path):
    """What is said of a file that is too large, or whose name is."""
    return f'sievebench: too large "{path}"\n'.encode()


class Device:
    """What the calls of a program are made to do, as words before a command line."""

    def __init__(self, room, library):
        self.room, self.library = room, library

    def words(self, command, **settings):
        """A command line of the program under these settings."""
        told = " ".join(f"{name}={value}" for name, value in settings.items())
        return f"LD_PRELOAD={self.library} {told} sievebench {command}"

    def run(self, title, command, output=b"", error=b"", status=0, **settings):
        """A run under these settings."""
        return Run(title, self.room, self.words(command, **settings), output, error, status)

    def logged(self, title, command, steps, output=b"", error=b"", status=0, **settings):
        """A run whose reads and writes are told, in turn, on standard error after what the program says there."""
        log = f"{len(list(self.room.glob('*.log')))}.log"
        (self.room / log).touch()
        words = f"{self.words(command, LOG=log, **settings)}; status=$?; cat {log} >&2; exit $status"
        return Run(title, self.room, words, output, error + lines(*steps), status)


class EachError:
    """A run whose call fails, once by each error: what it writes, what it says, and its status."""

    def __init__(self, device, title, command, error, status, output=b"", apart=(), **settings):
        self.title, self.command = f"each error: {title}", f"sievebench {command}"
        self.runs = [device.run(self.title, command, output, error, status, FAULT=it, **settings) for it in FAULTS if it not in apart]

    def differences(self, path):
        """What comes of an error that must not."""
        with concurrent.futures.ThreadPoolExecutor(os.cpu_count()) as pool:
            found = pool.map(lambda run: [f"{run.command}: {it}" for it in run.differences(path)], self.runs)
            return [why for it in found for why in it][:3]


class Among:
    """A session whose replies are more than are held, to an output of which the second write fails: what the first one wrote stays, and there is
    no third."""

    title, command, count = "a write that fails among many replies", "sievebench session", 2_000

    def __init__(self, device):
        self.device = device

    def differences(self, path):
        """What is otherwise."""
        log, octets = self.device.room / "among.log", b"report\n" * self.count
        env = {**os.environ, "PATH": path, "LD_PRELOAD": str(self.device.library), "CALL": "write", "AFTER": "1", "LOG": str(log)}
        done = subprocess.run(["sievebench", "session"], input=octets, env=env, capture_output=True, timeout=SECONDS)
        writes = [int(line.split()[1]) for line in log.read_text().splitlines() if line.startswith("wrote ")]
        found = [] if (done.stderr, done.returncode) == (UNWRITTEN, 3) else [f"status {done.returncode}, {done.stderr!r:.300}"]
        found += [] if done.stdout and (EMPTY * self.count).startswith(done.stdout) else [f"{len(done.stdout)} octets that aren't the first replies"]
        return found + ([] if writes == [len(done.stdout), 0] else [f"the writes take {writes} octets"])


def of_inputs(device):
    """Sessions whose input fails."""
    write(device.room, {"none": b"", "cut": b"message m 0\nreport", "three": THREE})
    yield EachError(device, "a read of standard input", "session < none", UNREAD, 3, CALL="read")
    yield EachError(device, "a read after a whole command", "session < cut", UNREAD, 3, lines("ok"), CALL="read", AFTER=1)
    interrupted = [*["read 0"] * 201, "wrote 9", *["read 9"]]
    yield device.logged("reads that are interrupted", "session < three", interrupted, lines(*["ok"] * 3), CALL="read", FAULT=errno.EINTR, TIMES=200)


def of_outputs(device):
    """Sessions whose output fails: the first write that does is the last one, and nothing is read after it."""
    write(device.room, {"three": THREE, "refused": REFUSED, "one": b"no-main\n", "report": b"report\n"})
    for name, piece, after, output, steps in [
        ("three", 8, 0, b"", ["read 0", "wrote 0"]),
        ("three", 8, 1, lines("ok"), ["read 0", "wrote 3", "read 3", "wrote 0"]),
        ("three", 8, 2, lines("ok", "ok"), ["read 0", "wrote 3", "read 3", "wrote 3", "read 6", "wrote 0"]),
        ("three", 100, 0, b"", ["read 0", "wrote 0"]),
        ("refused", 100, 0, b"", ["read 0", "wrote 0"]),
        ("refused", 8, 1, lines("ok"), ["read 0", "wrote 3", "read 3", "read 3", "wrote 0"]),
    ]:
        title = f"write {after + 1} fails, pieces of {piece} octets of {name}"
        yield device.logged(title, f"session < {name}", steps, output, UNWRITTEN, 3, CALL="write", AFTER=after, PIECE=piece)
    yield EachError(device, "a write of a session", "session < one", UNWRITTEN, 3, CALL="write")
    interrupted = ["read 0", *["wrote 0"] * 200, f"wrote {len(EMPTY)}", f"read {len(EMPTY)}"]
    yield device.logged("writes that are interrupted", "session < report", interrupted, EMPTY, CALL="write", FAULT=errno.EINTR, TIMES=200)
    yield Among(device)
    yield from of_rooms(device)


def of_rooms(device):
    """Outputs without room for all that is written."""
    whole = b"script personal main 9\ndiscard;\nmessage m1 0\nmain personal main\nreport\n"
    write(device.room, {"unended": b"report", "refusal": b"frobnicate\n", "whole": whole, "many": b"no-main\n" * 30_000, "a.sieve": b"discard;"})
    yield device.run("no room for a report at the end of the input", "session < unended", b"", UNWRITTEN, 3, ROOM=0)
    yield device.run("no room for a refusal", "session < refusal", b"", UNWRITTEN, 3, ROOM=0)
    yield device.run("room for three replies alone", "session < whole", lines(*["ok"] * 3), UNWRITTEN, 3, ROOM=9, PIECE=8)
    yield device.run("no room for more replies than are held", "session < many", b"", UNWRITTEN, 3, ROOM=0)
    yield device.logged("a dump is written once", "dump a.sieve", ["wrote 0"], b"", UNWRITTEN, 3, CALL="write")


def of_replies(device):
    """Replies are written before the next read, those to what one read gave together."""
    write(device.room, {"three": THREE})
    for piece, steps in [
        (8, ["read 0", "wrote 3", "read 3", "wrote 3", "read 6", "wrote 3", "read 9"]),
        (16, ["read 0", "wrote 6", "read 6", "wrote 3", "read 9"]),
        (100, ["read 0", "wrote 9", "read 9"]),
    ]:
        yield device.logged(f"replies to pieces of {piece} octets", "session < three", steps, lines(*["ok"] * 3), PIECE=piece)


def of_unreadable(device):
    """Files and folders that can't be opened, looked at or read to their end."""
    write(device.room, {"c.sieve": b"keep;", "a.sieve": b"stop;", "m": b"", "p/a.sieve": b"", "p/b.sieve": b"stop;"})
    no_memory, trial = {errno.ENOMEM}, "test --personal p a.sieve m"
    for title, command, settings, path, apart in [
        ("a script that is opened", "dump c.sieve", {"CALL": "open", "AT": "c.sieve"}, "c.sieve", ()),
        ("a script that is read", "dump c.sieve", {"CALL": "file", "AT": "c.sieve"}, "c.sieve", ()),
        ("a script after its last octet", "dump c.sieve", {"CALL": "file", "AT": "c.sieve", "OCTETS": 5}, "c.sieve", ()),
        ("a mail that is read", trial, {"CALL": "file", "AT": "m"}, "m", ()),
        ("a folder that is opened", trial, {"CALL": "open", "AT": "p/"}, "p", ()),
        ("a folder that is listed", trial, {"CALL": "list", "AT": "p/"}, "p", GONE),
        ("a folder after its last name", trial, {"CALL": "list", "AT": "p/", "AFTER": 1}, "p", GONE),
        ("a script of a folder that is looked at", trial, {"CALL": "look", "AT": "p/a.sieve"}, "p/a.sieve", NOWHERE),
        ("a script of a folder that is opened", trial, {"CALL": "open", "AT": "p/a.sieve"}, "p/a.sieve", ()),
        ("a script of a folder that is read", trial, {"CALL": "file", "AT": "p/a.sieve"}, "p/a.sieve", ()),
    ]:
        yield EachError(device, title, command, unreadable(path), 3, apart=no_memory.union(apart), **settings)
        # What was refused when out of memory is no file that can't be read.
        yield device.run(f"out of memory: {title}", command, b"", OUT, 4, FAULT=errno.ENOMEM, **settings)
    told = report(['personal "a" ok', 'personal "b" ok'], "a", "m", ['implicit "INBOX"'])
    for fault in sorted(NOWHERE):
        title = f"a name that leads nowhere, error {fault}"
        yield device.run(title, trial, told, CALL="look", AT="p/a.sieve", FAULT=fault)


def of_sizes(device):
    """A file is read to one octet past the limit, and no further; and names past theirs."""
    write(device.room, {"large": b" " * (TEXT_LIMIT + 2), "a.sieve": b"stop;", f"long/{SHORT}.sieve": b"stop;", f"{SHORT}.sieve": b"stop;", SHORT: b""})
    yield device.run("a file that fails past its limit", "dump large", b"", too_large("large"), 2, CALL="file", AT="large", OCTETS=TEXT_LIMIT + 1)
    for title, words, path in [
        ("a script in a folder", f"--personal long {LONG}.sieve {LONG}", f"long/{LONG}.sieve"),
        ("a main script", f"{LONG}.sieve {LONG}", f"{LONG}.sieve"),
        ("a mail", f"a.sieve {LONG}", LONG),
    ]:
        yield device.run(f"{title} whose name is past its limit", f"test {words}", b"", too_large(path), 2, LONG=len(LONG))


def of_devices(room):
    """All of them."""
    room, library = room / "devices", room / "devices.so"
    room.mkdir()
    yield Run("what lets calls fail is built", room, f"cc -shared -fPIC -O2 -o {library} {SOURCE}")
    device = Device(room, library)
    for part in (of_inputs, of_outputs, of_replies, of_unreadable, of_sizes):
        yield from part(device)
