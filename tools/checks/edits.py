"""Random edits of a bench with a report after each, beside benches that are made anew for each report: the texts must be the same. Half of
them are of benches of the empty profile, and half of benches that have the names by which there are more edits."""
import concurrent.futures
import os
import random
import subprocess

from . import runs
from .runs import put, wanted_and_got

WALKS, STEPS = 12, 250
PROFILE = ["date", "envelopes", "lines", "mailbox"]
NAMES = [b"main", b"a", b"b", b"c", b'd "e"']
IDS = [b"m1", b"m2", b"m3", b"m 4"]
SUBJECTS = [b"one", b"two", b"one two", b""]
ADDRESSES = [(b"", b""), (b"a@b.example", b""), (b"a@b.example", b"c d"), (b"x", b"c@d.example")]
LISTS = [b"", b"Lists\n", b"one\r\n\nLists", b"lists\nLists\nLists\n"]
CLOCKS = [b"0 +0000", b"1783245600 +0200", b"1783245600 -0700", b"253402300799 -0000"]
TEXTS = [b"", b"discard\n", b'implicit "INBOX"\n', b'implicit "Lists"\r\n', b'store "two"', b'implicit "INBOX"\nerror personal "main" line 0 missing-script\n']


def quoted(octets):
    """A word of a session."""
    return b'"' + octets.replace(b"\\", b"\\\\").replace(b'"', b'\\"') + b'"'


def text_of(dice, has_names):
    """A script: it may include others that are there or not, by what a message or the envelope is like, and it may have a fault."""
    lines = [b'require ["include", "fileinto", "envelope", "variables"%s];' % (b', "mailbox", "date"' if has_names else b"")]
    for _ in range(dice.randrange(4)):
        name, subject = dice.choice(NAMES), dice.choice(SUBJECTS)
        place = dice.choice([b"", b":global "])
        include = b"include %s%s%s%s;" % (place, dice.choice([b"", b":once "]), dice.choice([b"", b":optional ", b":optional "]), quoted(name))
        lines.append(
            dice.choice(
                [
                    b'if header :contains "Subject" %s { %s }' % (quoted(subject), include),
                    b'if envelope "from" "a@b.example" { %s }' % include,
                    include,
                    b'if header :matches "Subject" "* *" { fileinto "${1}"; }',
                    b'set "global.x" "${global.x}y"; if string "${global.x}" "yy" { discard; }',
                    b"return;",
                    b"keep;",
                    b"kep;",
                    *([b'if mailboxexists ["INBOX", "Lists"] { fileinto :create "Lists"; }'] * 3 if has_names else []),
                    *([b'if currentdate "iso8601" "2026-07-05T12:00:00+02:00" { fileinto "then"; }'] * 2 if has_names else []),
                ]
            )
        )
    return b"\n".join(lines) + b"\n"


class Bench:
    """What a bench of some names holds, by the rules of its edits: of each message the octets, what is expected and its own addresses."""

    # How often edits are made that few verdicts notice: renames, and those that only some names bring.
    often = 1

    def __init__(self, names):
        self.names, self.scripts, self.messages = names, {}, {}
        self.main, self.envelope, self.mailbox, self.mailboxes, self.clock = None, (b"", b""), b"INBOX", b"", None

    def text(self, dice):
        """A script to put."""
        return text_of(dice, bool(self.names))

    def mail(self, dice):
        """A message to put."""
        return b"Subject: " + dice.choice(SUBJECTS) + b"\n\n"

    def edit(self, dice):
        """Makes an edit, and gives its octets and the reply that is due."""
        kinds = ["script"] * 6 + ["rename"] * 3 + ["message"] * 3 + ["drop-script", "drop-script", "drop-message", "main", "main", "no-main", "envelope", "mailbox", "expect", "expect", "no-expect"]
        kinds += ["rename"] * (2 * self.often - 2) + ["mailboxes"] * self.often * ("mailbox" in self.names)
        kinds += ["message-envelope", "message-envelope", "no-message-envelope"] * ("envelopes" in self.names)
        kind = dice.choice(kinds + ["clock", "no-clock"] * self.often * ("date" in self.names))
        place, name = dice.choice([b"personal", b"personal", b"global"]), dice.choice(NAMES)
        words = place + b" " + quoted(name)
        key, at = (place != b"personal", name), dice.choice(IDS)
        if kind in ("script", "rename", "drop-script"):
            return self.edit_of_script(dice, kind, key, words)
        if kind in ("message-envelope", "no-message-envelope"):
            return self.edit_of_addresses(dice, kind, at)
        if kind in ("message", "expect", "no-expect", "drop-message"):
            return self.edit_of_message(dice, kind, at)
        if kind == "main":
            self.main = words
            return b"main " + words + b"\n", b"ok"
        if kind == "no-main":
            self.main = None
            return b"no-main\n", b"ok"
        if kind == "envelope":
            self.envelope = dice.choice([b"", b"a@b.example"]), dice.choice([b"", b"c@d.example"])
            return b"envelope %s %s\n" % tuple(quoted(it) for it in self.envelope), b"ok"
        if kind in ("clock", "no-clock"):
            self.clock = dice.choice(CLOCKS) if kind == "clock" else None
            return b"no-clock\n" if self.clock is None else b"clock %s\n" % self.clock, b"ok"
        if kind == "mailboxes":
            self.mailboxes = dice.choice(LISTS)
            return put(b"mailboxes", self.mailboxes), b"ok"
        self.mailbox = dice.choice([b"INBOX", b"Lists"])
        return b"mailbox " + self.mailbox + b"\n", b"ok"

    def edit_of_message(self, dice, kind, at):
        """Makes an edit of a message, by its id."""
        if kind == "message":
            octets = self.mail(dice)
            self.messages[at] = octets, *self.messages.get(at, (b"", None, None))[1:]
            return put(b"message " + quoted(at), octets), b"ok"
        if kind == "drop-message":
            there = self.messages.pop(at, None) is not None
            return b"drop-message " + quoted(at) + b"\n", b"ok" if there else b"no no-such-message"
        text = dice.choice(TEXTS) if kind == "expect" else None
        line = b"no-expect " + quoted(at) + b"\n" if text is None else put(b"expect " + quoted(at), text)
        if at not in self.messages:
            return line, b"no no-such-message"
        self.messages[at] = self.messages[at][0], text, self.messages[at][2]
        return line, b"ok"

    def edit_of_addresses(self, dice, kind, at):
        """Makes an edit of a message's own addresses."""
        own = dice.choice(ADDRESSES) if kind == "message-envelope" else None
        line = b"no-message-envelope " + quoted(at) + b"\n" if own is None else addressed(at, own)
        if at not in self.messages:
            return line, b"no no-such-message"
        self.messages[at] = *self.messages[at][:2], own
        return line, b"ok"

    def edit_of_script(self, dice, kind, key, words):
        """Makes an edit of a script, by its place and name, and by the words for these."""
        if kind == "script":
            text = self.scripts.get(key, b"") if dice.random() < 0.1 else self.text(dice)
            self.scripts[key] = text
            return put(b"script " + words, text), b"ok"
        if kind == "drop-script":
            there = self.scripts.pop(key, None) is not None
            return b"drop-script " + words + b"\n", b"ok" if there else b"no no-such-script"
        other = dice.choice([b"personal", b"personal", b"global"]), dice.choice(NAMES)
        new = (other[0] != b"personal", other[1])
        line = b"rename %s %s %s\n" % (words, other[0], quoted(other[1]))
        if key not in self.scripts:
            return line, b"no no-such-script"
        if new in self.scripts:
            return line, b"no name-taken"
        self.scripts[new] = self.scripts.pop(key)
        return line, b"ok"

    def anew(self):
        """The edits that make a new bench of this."""
        edits = [b"envelope %s %s\n" % tuple(quoted(it) for it in self.envelope), b"mailbox " + self.mailbox + b"\n"]
        edits += [put(b"mailboxes", self.mailboxes)] * ("mailbox" in self.names)
        edits += [] if self.clock is None else [b"clock %s\n" % self.clock]
        edits += [put(b"script %s %s" % (b"global" if shared else b"personal", quoted(name)), text) for (shared, name), text in self.scripts.items()]
        for at, (octets, text, own) in self.messages.items():
            edits += [put(b"message " + quoted(at), octets)]
            edits += [] if text is None else [put(b"expect " + quoted(at), text)]
            edits += [] if own is None else [addressed(at, own)]
        return edits + ([] if self.main is None else [b"main " + self.main + b"\n"])


def addressed(at, own):
    """A line that gives a message these addresses."""
    return b"message-envelope %s %s %s\n" % tuple(quoted(it) for it in (at, *own))


def served(path, octets, names):
    """What the program replies to a session."""
    env = {**os.environ, "PATH": path}
    words = ["sievebench", "session", *([f"--with={','.join(names)}"] if names else [])]
    return subprocess.run(words, input=octets, env=env, capture_output=True, timeout=runs.SECONDS, check=True).stdout


def fresh(path, edits, questions, names):
    """What a new bench replies to questions after these edits, of which none is refused."""
    told, replies = b"ok\n" * len(edits), served(path, b"".join(edits) + questions, names)
    return replies[len(told) :] if replies.startswith(told) else b"not all edits are made: " + replies


class Walk:
    """So many edits in turn."""

    def __init__(self, number):
        self.number, self.names = number, PROFILE if number % 2 else []
        self.title, self.command = f"{STEPS} random edits, each with a report", f"number {number}"

    def differences(self, path):
        """What is other than on a bench that is made anew."""
        dice, bench, session, made, anew = random.Random(self.number), Bench(self.names), [], [], []
        for _ in range(STEPS):
            octets, reply = bench.edit(dice)
            session.append(octets + b"report\n")
            made.append(reply + b"\n")
            anew.append(bench.anew())
        with concurrent.futures.ThreadPoolExecutor(os.cpu_count()) as pool:
            reports = pool.map(lambda edits: fresh(path, edits, b"report\n", self.names), anew)
            wanted = [reply + report for reply, report in zip(made, reports)]
        got = served(path, b"".join(session), self.names)
        for step, reply in enumerate(wanted):
            if not got.startswith(reply):
                return [f"at edit {step}: {wanted_and_got(reply, got[: len(reply)])}"]
            got = got[len(reply) :]
        return [f"more after the last report: {got!r:.2000}"] if got else []


def of_benches():
    """All walks."""
    for number in range(WALKS):
        yield Walk(number)
