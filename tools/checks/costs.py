"""What answers rightly and costs too much: work that is done again, more reads and writes than there need be, and memory for what is gone.

Of two sessions the one with more octets may take so many times more processor time as it has more octets, and LEEWAY times that, since all of
it is linear in what is given: each is the least of three runs. What is made again for each test, report or key takes as many times more as
there are tests, reports or keys. The bounds on reads, writes and memory are reckoned from the octets that are given and answered.
"""
import os
import pathlib
import subprocess

from .runs import Run, lines, put

SOURCE = pathlib.Path(__file__).with_name("refuse.c")
LEEWAY, RUNS, SECONDS, KILOBYTES = 4, 3, 30, 32_768
# A read asks for 65,536 octets without those of a line that isn't whole yet, which are 16,386 at most; so much is held of replies, too.
ROOM, LINE = 65_536, 16_386
# So many verdicts are kept at once in that memory.
VERDICTS = 14_000


class Linear:
    """Two sessions of one kind that report so many mails, with little and with much of something."""

    def __init__(self, room, title, sessions, mails=1, names=""):
        asked = f" --with '{names}'" if names else ""
        self.title, self.command, self.sessions = f"no work is done again: {title}", f"sievebench session{asked}", sessions
        self.last = lines(f"total {mails} messages 0 errors")
        self.paths = [room / f"{len(list(room.iterdir()))}.{number}" for number in range(2)]

    def spent(self, path, name):
        """The processor time of a session, in seconds, or what is wrong with it."""
        with name.open("rb") as given, name.with_suffix(".replies").open("w+b") as replies:
            command, env = ["sh", "-c", f"ulimit -t {SECONDS}; exec {self.command}"], {**os.environ, "PATH": path}
            done = subprocess.Popen(command, stdin=given, stdout=replies, env=env)
            _, status, usage = os.wait4(done.pid, 0)
            done.returncode = os.waitstatus_to_exitcode(status)
            replies.seek(0)
            told = replies.read()
        if done.returncode or not told.endswith(self.last) or b"no no-memory" in told:
            raise ValueError(f"status {done.returncode}, and at the end {told[-200:]!r}")
        return usage.ru_utime + usage.ru_stime

    def differences(self, path):
        """The times, if the second is past its bound."""
        for name, octets in zip(self.paths, self.sessions):
            name.write_bytes(octets)
        try:
            few, many = (min(self.spent(path, name) for _ in range(RUNS)) for name in self.paths)
        except ValueError as fault:
            return [str(fault)]
        more = LEEWAY * len(self.sessions[1]) / len(self.sessions[0])
        told = f"{few:.4f} seconds for {len(self.sessions[0])} octets, {many:.4f} for {len(self.sessions[1])}"
        return [] if many <= more * few else [f"{told}, which is {many / few:.1f} times as much, where {more:.1f} are allowed"]


def judged(script, mails, reports=1):
    """A session of a main script, mails and so many reports."""
    puts = b"".join(put(b"message m%d" % number, mail) for number, mail in enumerate(mails))
    return put(b"script personal main", script) + puts + b"main personal main\n" + b"report\n" * reports


def anyof(test, count):
    """A script with so many tests, of which none holds."""
    return b"if anyof (%s) { discard; }" % b", ".join(test % number for number in range(count))


def of_times(room):
    """Tests, keys, flags, reports and tokens: many of each, over what a test, a key, a flag, a report or a token must not make again."""
    mail = [b"To: (" + b"a" * 1_000_000 + b") a@b.example\n\n"]
    yield Linear(room, "the addresses of a field for each test", [judged(anyof(b'address "to" "%d"', count), mail) for count in (3, 300)])
    mail = [b"Subject: =?utf-8?q?a?=" + b"=" * 1_000_000 + b"\n\n"]
    yield Linear(room, "the value of a field for each test", [judged(anyof(b'header "subject" "%d"', count), mail) for count in (3, 300)])
    mail = [b"Subject: " + b"=?x-none?q?a?= " * 60_000 + b"\n\n"]
    yield Linear(room, "a value without a known word for each test", [judged(anyof(b'header "subject" "%d"', count), mail) for count in (3, 300)])
    mail = [b"".join(b"x" * 5_000 + b"%04d: v\n" % number for number in range(1_000))]
    names = [b'exists "' + b"x" * 5_000 + b'y%03d"' % number for number in range(60)]
    yield Linear(room, "the octets of names for each name", [judged(b"if anyof (%s) {}" % b", ".join(names[:count]), mail) for count in (2, 60)])
    mails = [b"A: b\n\n"] * 2_000
    yield Linear(room, "the hash of a name for each run", [judged(b'if exists "' + b"x" * size + b'" {}', mails) for size in (1, 500_000)], len(mails))
    script = b'require "variables"; set "a" "x"; if header "x" "' + b"${a}" * 20_000 + b'" { discard; }'
    yield Linear(room, "a key for each value", [judged(script, [b"X: v\n" * count]) for count in (3, 1_500)])
    kinds = b", ".join(b'header %s "x" ["${1}${1}", "${1}-${1}"]' % kind for kind in (b":is", b":contains", b":matches"))
    script = b'require "variables"; if header :matches "subject" "*" { if anyof (%s) { discard; } }' % kinds
    mails = [b"Subject: " + b"x" * 2_000_000 + b"\n" + b"X: v\n" * count + b"\n" for count in (3, 1_500)]
    yield Linear(room, "a key of two or three parts for each value", [judged(script, [mail]) for mail in mails])
    keys = [b'if header "x" [%s] { discard; }' % b", ".join(b'"%d"' % number for number in range(count)) for count in (3, 3_000)]
    yield Linear(room, "a value for each key", [judged(script, [b"X: " + b"v" * 5_000_000 + b"\n\n"]) for script in keys])
    one, count = (b"message m%d 0\n", b"drop-message m%d\n"), 20_000
    in_turn = b"".join(line % number for number in range(count) for line in one)
    at_last = b"".join(line % number for line in one for number in range(count))
    yield Linear(room, "the messages that stay for each that is dropped", [in_turn + b"report\n", at_last + b"report\n"], 0)
    require = b'require ["imap4flags", "variables"];\n'
    stores = [require + b"".join(b'addflag "flag%d"; keep;\n' % number for number in range(count)) for count in (500, 10_000)]
    yield Linear(room, "flags that a store has for each store", [judged(script, [b""]) for script in stores])
    flags = b'setflag ["%s"]; if hasflag [' % b" ".join(b"a-flag-of-many-octets%d" % number for number in range(10_000, 15_000))
    keys = [b'"a-flag-of-many-octets%d"' % number for number in range(20_000, 23_000)]
    tests = [require + flags + b", ".join(keys[:count]) + b"] { discard; }" for count in (3, 3_000)]
    yield Linear(room, "a comparison with each flag for each key", [judged(script, [b""]) for script in tests])
    yield Linear(room, "a message for each report", [judged(b"", [b"x" * 10_000_000], count) for count in (3, 300)])
    yield Linear(room, "a script for each report", [judged(b"keep;\n" * 100_000, [b""], count) for count in (3, 300)])
    yield Linear(room, "the lines of a text for each token", [judged(b"keep;\n" * count, [b""]) for count in (1_000, 50_000)])
    for title, text in ("an open sequence", b"${hex:"), ("a long number that is none", b"0"), ("octets of a sequence", b"41 "), ("sequences", b"${unicode:41}"):
        front, end = (b"${unicode:", b"") if text == b"0" else (b"${hex:", b"}") if text == b"41 " else (b"", b"")
        strings = [b'require "encoded-character"; if header "x" "' + front + text * (size // len(text)) + end + b'" { discard; }' for size in (10_000, 900_000)]
        yield Linear(room, f"{title} for each octet of a string", [judged(script, [b""]) for script in strings], names="encoded-character")
    names, require = "comparator-i;ascii-numeric,relational", b'require ["comparator-i;ascii-numeric", "relational"];\n'
    compared = b'header :value "gt" :comparator "i;ascii-numeric" "x" "%s"'
    numbers = [require + b"if anyof (%s) { discard; }" % b", ".join([compared % (b"1" * size)] * 20) for size in (500, 40_000)]
    yield Linear(room, "the digits of a number", [judged(script, [b"X: %s\n\n" % (b"1" * size)]) for script, size in zip(numbers, (500, 40_000))], names=names)
    mail = [b"To: " + b"a@b.example," * 100_000 + b"\n\n"]
    counts = [require + anyof(b'address :count "lt" :comparator "i;ascii-numeric" "to" "%d"', count) for count in (3, 300)]
    yield Linear(room, "the addresses of a field for each count", [judged(script, mail) for script in counts], names=names)
    dated = b'require ["date", "relational"]; if date :value "ge" "date" "year" "2026" { discard; }'
    for title, front, end in ("open comments", b"(", b")"), ("signs before the date", b";", b""), ("words", b"a 1 ", b""), ("digits", b"0", b""):
        fields = [b"Date: " + front * size + end * size + b"03 Aug 2026 09:12 +0100\n\n" for size in (3_000, 900_000)]
        yield Linear(room, f"{title} for each octet of a date", [judged(dated, [field]) for field in fields], names="date,relational")
    sizes = [(b"a" * size, b"a" * 10 * size) for size in (1_000, 20_000)]
    for title, search in ("a long key", b':contains "subject" "%sb"'), ("a long part of a pattern", b':matches "subject" "*%sb*"'):
        searches = [judged(b"if header " + search % key + b" { discard; }", [b"Subject: %s\n\n" % value]) for key, value in sizes]
        yield Linear(room, f"{title} at each place of a value", searches)


def of_bodies(room):
    """Mails whose entities are many, or hard to find: all that a test of a body does is linear in the mail."""
    script = b'require "body"; if body :content "" :contains "absent" { discard; }'
    multipart, near = b"Content-Type: multipart/mixed; boundary=b\n\n", b"--" + b"b" * 69
    encoded = b"Content-Transfer-Encoding: %s\n\n"
    for title, front, piece, end in (
        ("delimiters", multipart, b"--b\n", b""),
        ("lines that are nearly delimiters", b"Content-Type: multipart/mixed; boundary=" + b"b" * 70 + b"\n\n", near + b"\n", b""),
        ("lines of a multipart whose end never comes", multipart + b"--b\n\n", b"a\n", b""),
        ("multiparts in parts", multipart, b"--b\n" + multipart, b""),
        ("octets in base64", encoded % b"base64", b"YWJj", b"="),
        ("octets outside of base64", encoded % b"base64", b"*\n", b""),
        ("escapes", encoded % b"quoted-printable", b"=41", b""),
        ("blanks before the end of a line", encoded % b"quoted-printable", b" ", b"\n"),
        ("soft line ends", encoded % b"quoted-printable", b"=\n", b""),
        ("parameters of a type", b"Content-Type: text/plain", b"; a=b", b"\n\n"),
        ("comments in a type", b"Content-Type: text/plain ", b"(", b"\n\n"),
        ("lines of a header section", b"", b"Content-Type: a/b\n", b"\n"),
    ):
        mails = [front + piece * (size // len(piece)) + end for size in (200_000, 16_000_000)]
        yield Linear(room, f"{title} for each octet of a body", [judged(script, [mail]) for mail in mails], names="body")
    mail = [b"Content-Type: text/" + b"()" * 1_000_000 + b"plain\n\n"]
    tests = [b'require "body"; ' + anyof(b'body :content "text" "%d"', count) for count in (3, 300)]
    yield Linear(room, "the entities of a mail for each test", [judged(script, mail) for script in tests], names="body")


class Devices:
    """A session whose input comes at once makes so few reads and writes that one after these fails unseen."""

    command = "sievebench session"

    def __init__(self, library, title, octets, replies):
        self.title, self.library, self.octets, self.replies = f"few reads and writes: {title}", library, octets, replies

    def differences(self, path):
        """What came where a read or a write failed that need not have been made."""
        reads = len(self.octets) // (ROOM - LINE) + 2
        given, found = self.library.with_name("devices"), []
        given.write_bytes(self.octets)
        for name, count in ("FAIL_READ", reads), ("FAIL_WRITE", reads + len(self.replies) // ROOM + 1):
            env = {**os.environ, "PATH": path, "LD_PRELOAD": str(self.library), name: str(count + 1)}
            with given.open("rb") as octets:
                done = subprocess.run(["sievebench", "session"], stdin=octets, env=env, capture_output=True, timeout=SECONDS)
            if done.returncode or done.stdout != self.replies:
                found.append(f"{name} {count + 1}: status {done.returncode}, {len(done.stdout)} octets of {len(self.replies)}, {done.stderr!r:.200}")
            with given.open("rb") as octets:
                done = subprocess.run(["sievebench", "session"], stdin=octets, env={**env, name: "1"}, capture_output=True, timeout=SECONDS)
            found += [] if done.returncode == 3 else [f"{name} 1: status {done.returncode}, so no call fails"]
        return found


def of_devices(library):
    """Much input with short replies, and little with a long one."""
    yield Devices(library, "much input", put(b"message m", b"x" * 4_000_000) + b"no-main\n" * 100_000, lines(*["ok"] * 100_001))
    mails = 4_000
    told = ['main personal "main"', 'envelope "" "" mailbox "INBOX"', 'script personal "main" ok']
    told += [line for number in range(mails) for line in (f'message "m{number}"', '  implicit "INBOX"', '  read personal "main"')]
    replies = lines(*["ok"] * (mails + 2), *told, f"total {mails} messages 0 errors")
    yield Devices(library, "a long report", judged(b"", [b""] * mails), replies)


def of_memory(room):
    """What is replaced or dropped makes room again, and what is put takes no more than its octets: each session puts more than the memory
    that it has, or what code of that size is made of, or nearly as much. Of many scripts no more is kept than their octets and their code:
    what their trees took serves the next one."""
    script, expected = put(b"script personal a", b"#" * 1_000_000), put(b"expect m", b"x" * 65_536)
    code = put(b"script personal a", b"if size :over 1 { keep; }\n" * 5_000)
    main, mailbox = b"main personal %s\n" % (b"n" * 1_024), b"mailbox %s\n" % (b"b" * 255)
    envelope = b"envelope %s %s\n" % (b"a" * 1_024, b"b" * 1_024)
    for title, commands, count in [
        ("a script that is replaced", [script], 50),
        ("the code of a script that is replaced", [code], 50),
        ("a script that is dropped", [script, b"drop-script personal a\n"], 50),
        ("a script that is renamed and dropped", [script, b"rename personal a global b\n", b"drop-script global b\n"], 50),
        ("a message that is replaced", [put(b"message m", b"x" * 1_000_000)], 50),
        ("an expected text that is replaced", [expected], 750),
        ("an expected text that is dropped", [expected, b"no-expect m\n"], 750),
        ("the name of a main script that is replaced", [main], 50_000),
        ("the name of a main script that is taken back", [main, b"no-main\n"], 50_000),
        ("an envelope that is replaced", [envelope], 50_000),
        ("a mailbox that is replaced", [mailbox], 200_000),
    ]:
        yield bounded(room, title, [b"message m 0\n", *commands * count])
    yield bounded(room, "messages as large as nearly all memory", [put(b"message m%d" % number, b"x" * 8_500_000) for number in range(3)])
    # A verdict takes no more than what it has: these take two thirds of the memory with their messages, and room for 32 actions in each would
    # take twice as much.
    for script, action in (b"", 'implicit "INBOX"'), (b"discard;", "discard"), (b'require "fileinto"; fileinto "a";', 'store "a"'):
        told = [line for number in range(VERDICTS) for line in (f'message "m{number}"', f"  {action}", '  read personal "main"')]
        told = ['main personal "main"', 'envelope "" "" mailbox "INBOX"', 'script personal "main" ok', *told, f"total {VERDICTS} messages 0 errors"]
        yield limited(room, f"verdicts that are kept: {action}", judged(script, [b""] * VERDICTS), lines(*["ok"] * (VERDICTS + 2), *told))
    # A run has a place of five words for each field up to the last that it looks at, and a message six words for each.
    mail = b"a:\n" * 240_000 + b"z: v\n\n"
    told = ['main personal "main"', 'envelope "" "" mailbox "INBOX"', 'script personal "main" ok', 'message "m0"', "  discard", '  read personal "main"']
    yield limited(room, "a field after many", judged(b'if header "z" "v" { discard; }', [mail]), lines(*["ok"] * 3, *told, "total 1 messages 0 errors"))
    # Of a mail of eight parts, whose octets in UTF-8 take twice as many, one part at a time is decoded.
    part = b"--b\nContent-Type: text/plain; charset=iso-8859-1\nContent-Transfer-Encoding: base64\n\n" + b"6enp" * 450_000 + b"\n"
    mail = b"Content-Type: multipart/mixed; boundary=b\n\n" + part * 8
    told = ['main personal "main"', 'envelope "" "" mailbox "INBOX"', "with body", 'script personal "main" ok', 'message "m0"', '  implicit "INBOX"', '  read personal "main"']
    script, replies = b'require "body"; if body :contains "absent" { discard; }', lines(*["ok"] * 3, *told, "total 1 messages 0 errors")
    yield limited(room, "the parts of a mail", judged(script, [mail]), replies, "body")
    for title, script, count in [
        ("rules", b"".join(b'if header :contains "subject" "word%d" { discard; }\n' % number for number in range(1_800)), 80),
        ("keep", b"keep;\n" * 16_000, 70),
        ("set", b'require "variables";\n' + b'set "a" "b";\n' * 7_000, 46),
        ("set of two parts", b'require "variables";\n' + b'set"a""x${b}";' * 4_000, 66),
        ("hasflag", b'require "imap4flags";\n' + b'if hasflag "a" {}\n' * 5_000, 51),
        ("addflag", b'require "imap4flags";\n' + b'addflag"a";' * 6_000, 66),
        ("exists", b'if exists"a"{}' * 4_500, 64),
    ]:
        yield bounded(room, f"{count} scripts of {title}", [put(b"script personal s%d" % number, script) for number in range(count)])


def limited(room, title, session, replies, names=""):
    """A session with little memory."""
    path = room / f"{len(list(room.iterdir()))}.session"
    path.write_bytes(session)
    asked = f" --with {names}" if names else ""
    return Run(f"memory for {title}", room, f"ulimit -v {KILOBYTES}; sievebench session{asked} < {path.name}", replies)


def bounded(room, title, commands):
    """A session with little memory of which no command is refused."""
    return limited(room, title, b"".join(commands), lines("ok") * len(commands))


def of_sessions(room):
    """All of them."""
    room = room / "costs"
    room.mkdir()
    library = room / "refuse.so"
    yield Run("what lets reads and writes fail is built", room, f"cc -shared -fPIC -O2 -o {library} {SOURCE}")
    yield from of_times(room)
    yield from of_bodies(room)
    yield from of_devices(library)
    yield from of_memory(room)
