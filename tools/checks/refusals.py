"""Sessions whose requests for memory are refused one by one, whose reads give an octet each, whose reads and writes fail one by one, and that
have no more memory than a limit. The program runs with `refuse.c` before its C library. What a session must answer after a refusal is
what it answers without the command that was refused: so both are compared, and what sessions answer is compared with the rules elsewhere."""
import itertools
import os
import pathlib
import re
import subprocess

from .runs import Run, SECONDS, lines, put

SOURCE = pathlib.Path(__file__).with_name("refuse.c")
REFUSED = b"no no-memory\n"
# These take no memory.
NEVER_REFUSED = (b"drop-message ", b"no-main", b"no-expect ")
INCLUDES = b'require "include"; if header "Subject" "one" { include :optional "x"; }'
SHARES = b'require ["variables", "include", "fileinto"]; global "box"; include "lib"; fileinto "${box}";'
SESSIONS = {
    "one script and one message": [put(b"script personal main", b"discard;\n"), b"message m1 0\n", b"main personal main\n", b"report\n"],
    "an optional include, and the main script renamed": [
        put(b"script personal main", INCLUDES),
        put(b"message m1", b"Subject: one\n\n"),
        put(b"message m2", b"Subject: two\n\n"),
        b"main personal main\n",
        b"report\n",
        put(b"script personal x", b"discard;"),
        b"report\n",
        b"rename personal main personal old\n",
        b"report\n",
        b"rename personal old personal main\n",
        b"report\n",
    ],
    "variables that scripts share": [
        put(b"script personal main", SHARES),
        put(b"script personal lib", b'require ["variables", "include"]; set "global.box" "Lists"; return;'),
        b"main personal main\n",
        b"message m 0\n",
        b"report\n",
    ],
    "quoted words, and a line that says nothing": [b'drop-message "a\\x20b"\n', b"rename personal p personal q\n", b"frobnicate\n", b"report\n"],
    "each command": [
        put(b"script personal main", b'require ["fileinto", "imap4flags"]; addflag "\\\\Seen"; if header :matches "subject" "*a*" { fileinto :flags "x" "A"; }'),
        put(b"script global other", b"keep;"),
        put(b"message m1", b"Subject: =?utf-8?q?an=20a?=\n\n"),
        put(b"message m2", b"Subject: =?utf-8?b?Yg==?=\n =?iso-8859-1?q?=E9a?=\nTo: a@b.example\n b\n\n"),
        put(b"expect m1", b'store "A" "x"\n'),
        b"main personal main\n",
        b"envelope a@b.example c@d.example\n",
        b"mailbox Box\n",
        b"report\n",
        b"dump personal main\n",
        put(b"expect m2", b"discard\n"),
        b"report\n",
        b"no-expect m1\n",
        b"drop-script global other\n",
        b"rename personal main personal new\n",
        b"drop-message m1\n",
        b"report\n",
        b"no-main\n",
        b"report\n",
    ],
}


def served(octets, path, **settings):
    """The process of a session."""
    env = {**os.environ, "PATH": path, **settings}
    return subprocess.run(["sievebench", "session"], input=octets, env=env, capture_output=True, timeout=SECONDS)


def answered(octets, path, **settings):
    """What the program answers to a session, and its status."""
    done = served(octets, path, **settings)
    return done.stdout, done.returncode


class Refusals:
    """A session under each refusal in turn."""

    def __init__(self, room, library, title, commands):
        self.room, self.library, self.commands = room, library, commands
        self.title, self.command = f"each request refused in turn: {title}", "sievebench session"

    def allowed(self, path):
        """What may be answered: all, or for each command that may be refused, what is answered without it and that it was."""
        whole = answered(b"".join(self.commands), path)
        told = {whole}
        for at, command in enumerate(self.commands):
            if command.startswith(NEVER_REFUSED):
                continue
            front, _ = answered(b"".join(self.commands[:at]), path)
            others, status = answered(b"".join(self.commands[:at] + self.commands[at + 1 :]), path)
            told.add((others[: len(front)] + REFUSED + others[len(front) :], status))
        return whole, told

    def differences(self, path):
        whole, told = self.allowed(path)
        counted, octets = self.room / "requests", b"".join(self.commands)
        found = answered(octets, path, LD_PRELOAD=str(self.library), REQUESTS=str(counted))
        if found != whole:
            return [f"wanted {whole!r}, got {found!r}"]
        count = int(counted.read_text())
        if count < len(self.commands):
            return [f"only {count} requests"]
        wrong, refused = [], 0
        for number in range(1, count + 1):
            done = served(octets, path, LD_PRELOAD=str(self.library), REFUSE=str(number))
            found = done.stdout, done.returncode
            refused += found != whole
            if found not in told and (done.stdout, done.stderr, done.returncode) != Words.OUT:
                wrong.append(f"request {number} of {count} refused: got {found!r:.2000}")
        return wrong[:3] + ([] if refused else [f"none of {count} refusals is reported"])


class Words:
    """What words of the command line ask for, where one request is refused, or it and all after it: the whole answer, or none and that
    memory is out."""

    OUT = b"", b"sievebench: out of memory\n", 4

    def __init__(self, room, library, words):
        self.room, self.library, self.words = room, library, words
        self.title, self.command = f"each request refused in turn: {words[0]}", " ".join(["sievebench", *words])

    def answer(self, path, **settings):
        """What comes of them."""
        env = {**os.environ, "PATH": path, **settings}
        done = subprocess.run(["sievebench", *self.words], cwd=self.room, env=env, stdin=subprocess.DEVNULL, capture_output=True, timeout=SECONDS)
        return done.stdout, done.stderr, done.returncode

    def differences(self, path):
        counted, whole = self.room / "requests", self.answer(path)
        found = self.answer(path, LD_PRELOAD=str(self.library), REQUESTS=str(counted))
        if found != whole or not whole[0] or whole[1]:
            return [f"wanted {whole!r}, got {found!r}"]
        wrong, most = [], int(counted.read_text())
        wrong += [] if most else ["no requests"]
        for number, name in itertools.product(range(1, most + 1), ("REFUSE", "REFUSE_FROM")):
            found = self.answer(path, LD_PRELOAD=str(self.library), **{name: str(number)})
            if found not in (whole, self.OUT) or (found == whole and name == "REFUSE_FROM" and number == 1):
                wrong.append(f"{name} {number} of {most}: got {found!r:.1000}")
        return wrong[:3]


class Complaint(Words):
    """What words ask for that name a file that isn't there. Where there is no memory for its name in quotes, it is left out."""

    WITHOUT = b"", b"sievebench: cannot read\n", 3

    def differences(self, path):
        counted = self.room / "requests"
        whole = b"", b'sievebench: cannot read "%s"\n' % os.fsencode(self.words[-1]), 3
        found = self.answer(path, LD_PRELOAD=str(self.library), REQUESTS=str(counted))
        told = [self.answer(path, LD_PRELOAD=str(self.library), REFUSE=str(number)) for number in range(1, int(counted.read_text()) + 1)]
        wrong = [f"got {it!r:.1000}" for it in [found, *told] if it not in (whole, self.WITHOUT, self.OUT)]
        return wrong[:3] + [f"never got {it!r}" for it in (whole, self.WITHOUT, self.OUT) if it not in [found, *told]]


class Pieces:
    """A session whose reads give an octet each."""

    def __init__(self, library, title, octets, wanted=None, **settings):
        self.library, self.octets, self.wanted, self.settings = library, octets, wanted, settings
        self.title, self.command = f"an octet for each read: {title}", "sievebench session"

    def differences(self, path):
        wanted = self.wanted or answered(self.octets, path)
        found = answered(self.octets, path, LD_PRELOAD=str(self.library), READ="1", **self.settings)
        if found != wanted:
            return [f"wanted {wanted!r:.2000}, got {found!r:.2000}"]
        # So many reads are made where each gives an octet, and where each other one is interrupted too; else there are fewer.
        reads = 2 * len(self.octets) if self.settings else 10
        found = answered(self.octets, path, LD_PRELOAD=str(self.library), READ="1", **self.settings, FAIL_READ=str(reads))
        return [] if found[1] == 3 else [f"there are less than {reads} reads: status {found[1]}"]


class Failing:
    """A session whose reads, an octet each, fail one by one, and then its writes. Of a read that fails there must come what the commands
    that were whole before it answer, and of a write a front of what the session answers. So it is where a write takes nothing: nothing
    is written after it, and standard error says so."""

    def __init__(self, library, title, commands):
        self.library, self.commands = library, commands
        self.title, self.command = f"reads and writes that fail: {title}", "sievebench session"

    def differences(self, path):
        octets, ends = b"".join(self.commands), list(itertools.accumulate(map(len, self.commands)))
        fronts = [answered(b"".join(self.commands[:count]), path)[0] for count in range(len(ends) + 1)]
        wrong = []
        for number in range(1, len(octets) + 2):
            wanted = fronts[sum(end < number for end in ends)], 3
            found = answered(octets, path, LD_PRELOAD=str(self.library), READ="1", FAIL_READ=str(number))
            wrong += [] if found == wanted else [f"read {number} failed: wanted {wanted!r:.1000}, got {found!r:.1000}"]
        whole, last, number = (fronts[-1], 0), b"", 1
        while (found := answered(octets, path, LD_PRELOAD=str(self.library), READ="1", FAIL_WRITE=str(number))) != whole and number <= len(octets):
            if found[1] != 3 or not (whole[0].startswith(found[0]) and found[0].startswith(last)):
                wrong.append(f"write {number} failed: got {found!r:.1000}")
            done = served(octets, path, LD_PRELOAD=str(self.library), READ="1", NO_WRITE=str(number))
            if (done.stdout, done.returncode, done.stderr) != (*found, b"sievebench: cannot write\n"):
                wrong.append(f"write {number} took nothing: got {done!r:.1000}")
            last, number = found[0], number + 1
        return wrong[:3] + ([] if number > len(self.commands) // 2 else [f"only {number - 1} writes"])


class Narrow:
    """A session of more messages than there is memory for: each that is refused is as if it had never been sent, and what is dropped makes
    room again."""

    COUNT, SIZE, KILOBYTES = 60, 2_000_000, 65_536
    title, command = "more messages than there is memory for", f"ulimit -v {KILOBYTES}; sievebench session"

    def differences(self, path):
        names = [b"m%d" % number for number in range(self.COUNT)]
        mail = b"Subject: one\n\n" + b"x" * self.SIZE
        octets = b"".join(put(b"message " + name, mail) for name in names)
        octets += b"".join(b"drop-message " + name + b"\n" for name in names[::2]) + b"report\n" + b"".join(put(b"message " + name, b"") for name in names) + b"report\n"
        env = {**os.environ, "PATH": path}
        done = subprocess.run(["sh", "-c", self.command], input=octets, env=env, capture_output=True, timeout=SECONDS)
        replies = re.split(rb"(?<=\n)", done.stdout)
        puts, rest = replies[: self.COUNT], b"".join(replies[self.COUNT :])
        if done.returncode != 0 or not set(puts) == {b"ok\n", REFUSED}:
            return [f"status {done.returncode}, {set(puts)!r:.500}, {done.stderr!r:.500}"]
        kept = [name for name, reply in zip(names, puts) if reply == b"ok\n"]
        wanted = b"".join(b"ok\n" if name in kept else b"no no-such-message\n" for name in names[::2])
        kept = [name for name in kept if name not in names[::2]]
        wanted += self.report(kept) + b"ok\n" * self.COUNT + self.report(kept + [name for name in names if name not in kept])
        return [] if rest == wanted else [f"wanted {wanted!r:.2000}, got {rest!r:.2000}"]

    def report(self, names):
        """The report of these messages, which no script judges."""
        told = [line for name in names for line in (f'message "{name.decode()}"', '  implicit "INBOX"')]
        return lines("main none", 'envelope "" "" mailbox "INBOX"', *told, f"total {len(names)} messages 0 errors")


# Each refused at once: octets that aren't held, a line that doesn't end, and a string whose length is known before its first octet.
LARGE = 100_000_000
MATCHES = b'require "variables"; if header :matches "subject" "*" { if string "' + b"${0}" * 200_000 + b'" "y" {} }'
BOUNDED = {
    "octets of a put that is refused": (put(b"message m", b"x" * LARGE) + b"no-main\n", lines("no too-large", "ok"), 0),
    "a line without an end": (b" " * LARGE, lines("no syntax"), 2),
    "a string of 800 gigabytes": (
        put(b"script personal main", MATCHES) + put(b"message m", b"Subject: " + b"a" * 4_000_000 + b"\n\n") + b"main personal main\nreport\nno-main\n",
        lines("ok", "ok", "ok", "no no-memory", "ok"),
        0,
    ),
}


class Bounded:
    """A session that would take more memory than there is, if it took what its octets say."""

    command = Narrow.command

    def __init__(self, title):
        self.title, (self.octets, *self.wanted) = f"little memory: {title}", BOUNDED[title]

    def differences(self, path):
        done = subprocess.run(["sh", "-c", self.command], input=self.octets, env={**os.environ, "PATH": path}, capture_output=True, timeout=SECONDS)
        found = [done.stdout, done.returncode]
        return [] if found == self.wanted else [f"wanted {self.wanted!r}, got {found!r:.1000}"]


def of_sessions(room):
    """All of them."""
    library = room / "refuse.so"
    build = f"cc -shared -fPIC -O2 -o {library} {SOURCE}"
    yield Run("what refuses requests is built", room, build)
    for title, commands in SESSIONS.items():
        yield Refusals(room, library, title, commands)
        yield Pieces(library, title, b"".join(commands))
    title = "each command"
    yield Failing(library, title, SESSIONS[title])
    yield Pieces(library, f"{title}, with each other read and write interrupted", b"".join(SESSIONS[title]), None, INTERRUPT="1")
    # As many reads as this would end a session that lets a million be made.
    long = 1_100_000
    yield Pieces(library, "more than a million", put(b"message m", b"x" * long) + b"report\n", (lines("ok") + Narrow().report(["m".encode()]), 0))
    script, mail = room / "main.sieve", room / "mail"
    script.write_bytes(SHARES)
    mail.write_bytes(b"Subject: one\n\n")
    (room / "lib").mkdir()
    (room / "lib/lib.sieve").write_bytes(b'require ["variables", "include"]; set "global.box" "Lists";')
    yield Words(room, library, ["dump", script.name])
    yield Words(room, library, ["test", "-f", "a@b.example", "--personal", "lib", script.name, mail.name])
    yield Complaint(room, library, ["dump", "gone.sieve"])
    yield Complaint(room, library, ["test", script.name, "gone"])
    yield Narrow()
    yield from map(Bounded, BOUNDED)
