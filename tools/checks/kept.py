"""Sessions at random under profiles at random: what a bench keeps of verdicts between its reports, beside benches that are made anew.

A session puts, renames and drops scripts and mails of all words that the language has, changes all else that a session can change, and asks for
reports and dumps in between. Each of these must be, octet for octet, that of a bench of the same profile which gets only what is there then;
and the verdict of a mail, which is chosen anew each time, must be that of a run of its own, by `sievebench test` where it can be. Each script
that was written without a fault must have none, and each other one the fault that was written into it; a run that must end in an error of the
table of faults does so there.

All sessions together must have each word of the sources' tables of commands, tests, tags, capabilities and so on, and each tag with each command
and test that has it in `docs/LANGUAGE.md`; and their reports must have each fault, each error and each line that the documents list.
"""
import concurrent.futures
import os
import pathlib
import random
import re
import shutil
import subprocess
import tempfile

from . import edits, grammar, runs
from .edits import fresh, quoted, served
from .homes import FORMATS, LANGUAGE, rows, text_of, words
from .runs import Reading, put, wanted_and_got

WALKS, REPORTS = 16, 50
# Of so many reports one is compared with that of a bench that is made anew, and one verdict with that of its own run.
EVERY = 1
# So many scripts are written until one has a word that is looked for.
TRIES = 9
NAMES = words("crates/sieve_profile/src/extension.rt")
TABLE = grammar.table()
# A reply ends by such a line, and has no other one.
REPLY = re.compile(rb"(?:.*\n)*?(?:ok|no .*|total .*)\n")
MAIN = b'personal "main"'
ACTION = rb"^  (?:store|redirect|discard|vacation|reject|ereject)\b"
OWN_LINES = (b"  envelope ", b"  expected\n", b"  unexpected\n")


class Bench(edits.Bench):
    """A bench whose scripts and mails are of all words. `faults` has the fault that is wanted of each text, or `ok`, or `fault` where it isn't
    known which one."""

    often = 5

    def __init__(self, names, covered):
        super().__init__(names)
        self.covered, self.faults = covered, {}

    def text(self, dice):
        """A script: mostly one without a fault."""
        kind = dice.random()
        if kind < 0.06:
            return self.wrong(dice, dice.choice(TABLE))[0]
        return self.beyond(dice) if kind < 0.14 and len(self.names) < len(NAMES) else self.sound(dice, self.names)

    def mail(self, dice):
        """A mail."""
        return grammar.mail(dice, self.covered)

    def sound(self, dice, names, name=None):
        """A script that has no fault where all of this is known, and that needs this name where one is given, if one comes soon."""
        for _ in range(TRIES):
            author = grammar.Author(dice, names)
            author.required.update([grammar.UNKNOWN] * author.is_rare(0.05))
            text = author.script()[0].encode()
            if name is None or name in author.required:
                break
        self.covered.update(author.words)
        unknown = author.required - grammar.ALWAYS - set(self.names) - ({grammar.UNKNOWN} if "unused" in self.names else set())
        self.faults[text] = b"fault" if unknown else b"ok"
        return text

    def beyond(self, dice):
        """A script that needs a name which this bench isn't asked for."""
        name = dice.choice([name for name in NAMES if name not in self.names])
        return self.sound(dice, [*self.names, name], name)

    def wrong(self, dice, row, at_top=False):
        """A script with a line of the table of faults, and the number of that line."""
        author = grammar.Author(dice, self.names, grammar.BARRED.get(row["word"], ()))
        text, line = author.script(row, at_top)
        text = text.encode()
        self.covered.update(author.words)
        is_known = set(filter(None, row["with"].split(","))) <= set(self.names)
        if not row["told"].startswith("script ") or row["word"] == "unknown-capability" and "unused" in self.names:
            self.faults[text] = b"ok" if is_known else b"fault"
        else:
            self.faults[text] = f"line {line} {row['word']}".encode() if is_known else b"fault"
        return text, line

    def put_script(self, key, text):
        """The edit that puts a script."""
        self.scripts[key] = text
        return put(b"script %s %s" % (b"global" if key[0] else b"personal", quoted(key[1])), text), b"ok"

    def put_main(self):
        """The edit that makes the main script main."""
        self.main = MAIN
        return b"main " + MAIN + b"\n", b"ok"

    def scene(self, dice, row):
        """Edits by which the main script has a line of the table, with the scripts that it needs, and the error that every verdict has then."""
        made = [self.put_script((False, name.encode()), text.encode()) for name, text in (it.split(": ", 1) for it in row["scripts"].split(" & ") if it)]
        text, line = self.wrong(dice, row, at_top=True)
        made.append(self.put_script((False, b"main"), text))
        made.append(self.put_main())
        while not self.messages:
            made.append(self.edit_of_message(dice, "message", dice.choice(edits.IDS)))
        is_error = row["told"].startswith("error ") and self.faults[text] == b"ok"
        return made, re.sub('"main" line [0-9]+', f'"main" line {line}', row["told"]).encode() if is_error else None

    def is_sound(self):
        """Whether there is a main script, and it has no fault."""
        return self.main == MAIN and self.faults.get(self.scripts.get((False, b"main"))) == b"ok"

    def again(self, dice):
        """Edits by which the main script is there and has no fault."""
        return [self.put_script((False, b"main"), self.sound(dice, self.names)), self.put_main()]

    def start(self, dice):
        """Edits by which there are some scripts and mails."""
        scripts = [self.put_script((dice.random() < 0.2, name), self.text(dice)) for name in edits.NAMES[1:]]
        return scripts + self.again(dice) + [self.edit_of_message(dice, "message", at) for at in edits.IDS]

    def alone(self, at):
        """What makes a bench anew that has this mail alone: files and words for `sievebench test`, or no files and edits where the main
        script isn't a personal one that is there."""
        name = next((name for shared, name in self.scripts if not shared and b"personal " + quoted(name) == self.main), None)
        octets, _, own = self.messages[at]
        if name is None:
            other = Bench(self.names, set())
            other.__dict__.update(self.__dict__, messages={at: (octets, None, own)})
            return {}, other.anew()
        files = {f"{'global' if shared else 'personal'}/{name.decode()}.sieve": text for (shared, name), text in self.scripts.items()}
        sender, recipient = self.envelope if own is None else own
        given = [b"--personal", b"personal", b"--global", b"global", b"-f", sender, b"--to", recipient, b"-m", self.mailbox]
        given += [b"--with", ",".join(self.names).encode()] if self.names else []
        given += [] if self.clock is None else [b"--clock", self.clock.replace(b" ", b"")]
        given += [b"--mailboxes", b"list"] if "mailbox" in self.names else []
        return {**files, "mail": octets, "list": self.mailboxes}, [*given, b"personal/" + name + b".sieve", b"mail"]


class Step:
    """Edits with their replies, questions, what they are asked of, and what is wanted of their answers."""

    def __init__(self, bench, dice, made, error):
        self.edits, self.error = made, error
        self.questions = [b"dump %s %s\n" % (dice.choice([b"personal", b"global"]), quoted(dice.choice(edits.NAMES))) for _ in range(dice.choice([0, 0, 1]))]
        self.questions.append(b"report\n")
        self.anew = bench.anew()
        self.faults = {b"script %s %s " % (b"global" if shared else b"personal", quoted(name)): bench.faults.get(text) for (shared, name), text in bench.scripts.items()}
        self.at = dice.choice([None, *bench.messages]) if bench.messages else None
        self.alone = None if self.at is None else bench.alone(self.at)


class Walk(Reading):
    """A session under a profile: the empty one, all names, or some."""

    def __init__(self, room, number, covered):
        dice = random.Random(number)
        self.names = [[], NAMES][number] if number < 2 else [name for name in NAMES if dice.random() < 0.5]
        self.title, self.command = f"a random session with {','.join(self.names) or 'no names'}", f"number {number}"
        self.room, self.number, self.dice, self.covered = room, number, dice, covered

    def steps(self):
        """The session. The bench that is asked for all names has each line of the table of faults once."""
        bench = Bench(self.names, self.covered)
        scenes = [row for row in TABLE if self.number == 1 or self.dice.random() < 0.1]
        self.covered.update(f"with {name}" for name in self.names)
        error = None
        yield Step(bench, self.dice, bench.start(self.dice), error)
        for row in self.dice.sample([*scenes, *[None] * REPORTS], len(scenes) + REPORTS):
            # Mostly there is one edit alone, which must not be missed, and a main script without a fault that it may change.
            is_idle = error or not bench.is_sound()
            made = bench.again(self.dice) if self.dice.random() < (0.8 if is_idle else 0.1) else []
            made += [bench.edit(self.dice) for _ in range(self.dice.choice([0, 1, 1, 1, 1, 1, 1, 2, 3, 5]))]
            scene, error = bench.scene(self.dice, row) if row else ([], None)
            self.covered.update(f"line {octets.split()[0].decode()}" for octets, _ in [*made, *scene])
            step = Step(bench, self.dice, made + scene, error)
            self.covered.update(f"line {question.split()[0].decode()}" for question in step.questions)
            yield step

    def found(self, path):
        """What is other than on benches that are made anew, or than it is written."""
        steps = list(self.steps())
        replies = served(path, b"".join(b"".join([*(octets for octets, _ in step.edits), *step.questions]) for step in steps), self.names)
        got = REPLY.findall(replies)
        with concurrent.futures.ThreadPoolExecutor(os.cpu_count()) as pool:
            some = range(self.number % EVERY, len(steps), EVERY)
            anew = {at: pool.submit(fresh, path, steps[at].anew, b"".join(steps[at].questions), self.names) for at in some}
            alone = {at: pool.submit(self.verdict_alone, path, steps[at]) for at in some if steps[at].alone}
        place = 0
        for at, step in enumerate(steps):
            middle, end = place + len(step.edits), place + len(step.edits) + len(step.questions)
            found = self.of_edits(step, got[place:middle]) + self.of_answers(step, got[middle:end], anew.get(at), alone.get(at))
            if found:
                return [f"at report {at}: {line}" for line in found]
            place = end
        return [] if b"".join(got[:place]) == replies else [f"more after the last report: {got[place:]!r:.2000}"]

    def of_edits(self, step, got):
        """What is other than it must be in the replies to a step's edits."""
        wanted = [reply + b"\n" for _, reply in step.edits]
        return [] if got == wanted else [f"edits: {wanted_and_got(wanted, got)}"]

    def of_answers(self, step, got, anew, alone):
        """What is other than it must be in the answers to a step's questions, of which the last is a report."""
        report = got[-1] if got else b""
        verdicts = dict(re.findall(rb"^message (.*)\n((?:  .*\n)*)", report, re.M))
        found = [wanted_and_got(anew.result(), b"".join(got))] if anew and anew.result() != b"".join(got) else []
        if alone:
            verdict = verdict_of(verdicts.get(quoted(step.at), b"none"))
            found += [] if alone.result() == verdict else [f"of {step.at!r} alone: {wanted_and_got(alone.result(), verdict)}"]
        for line, fault in step.faults.items():
            told = re.findall(rb"^%s(.*)" % re.escape(line), report, re.M)
            is_so = told == [fault] if fault != b"fault" else len(told) == 1 and told != [b"ok"]
            found += [] if fault is None or is_so else [f"{line!r}: wanted {fault!r}, got {told}"]
        found += [f"without {step.error!r}: {verdict!r}" for verdict in verdicts.values() if step.error and step.error not in verdict]
        self.looked += 1 + bool(anew) + bool(alone) + len(step.faults)
        self.covered.update(f"told {word.decode()}" for words in re.findall(rb"^  ([a-z]+)| line [0-9]+ ([a-z-]+)$", report, re.M) for word in words)
        return found + self.of_names(report)

    def of_names(self, report):
        """What is other in a report than the names say."""
        told, wanted = re.findall(rb"^with (.*)", report, re.M), [" ".join(self.names).encode()] if self.names else []
        actions, lines = (len(re.findall(pattern, report, re.M)) for pattern in (ACTION, rb"^  at "))
        found = [] if told == wanted else [f"with {told}"]
        return found + ([] if lines == actions * ("lines" in self.names) else [f"{lines} lines of {actions} actions: {report!r:.2000}"])

    def verdict_alone(self, path, step):
        """The verdict of a mail alone."""
        files, given = step.alone
        if not files:
            return verdict_of(fresh(path, given, b"report\n", self.names))
        folder = pathlib.Path(tempfile.mkdtemp(dir=self.room))
        for name in ("personal", "global"):
            (folder / name).mkdir()
        for name, octets in files.items():
            (folder / name).write_bytes(octets)
        done = subprocess.run(["sievebench", "test", *given], cwd=folder, env={**os.environ, "PATH": path}, stdin=subprocess.DEVNULL, capture_output=True, timeout=runs.SECONDS)
        shutil.rmtree(folder)
        return verdict_of(done.stdout) if not done.stderr else done.stderr


def verdict_of(report):
    """The lines of the one verdict of a report, or of a verdict, without those that its session alone has."""
    lines = report.splitlines(True)
    return b"".join(line for line in lines if line.startswith(b"  ") and not line.startswith(OWN_LINES))


class Covered(Reading):
    """Whether the sessions had all words."""

    title, command = "random sessions: words", "what the sources and the documents list"

    def __init__(self, covered):
        self.covered = covered

    def found(self, path):
        """The words that no session had."""
        wanted = set(wanted_words())
        self.looked = len(wanted)
        return [f"no session has `{word}`" for word in sorted(wanted - self.covered)]


def names_in(path, pattern=r'\bb"([a-z;-]+)"'):
    """The names that a source spells."""
    return re.findall(pattern, text_of(path))


def wanted_words():
    """All words, as the sessions note them."""
    for file in ("command_rows", "test_rows"):
        yield from names_in(f"crates/sieve_table/src/{file}.rt")
    yield from (f":{name}" for name in names_in("crates/sieve_table/src/table.rt"))
    yield from (f"require {name}" for name in words("crates/sieve_table/src/capability.rt"))
    address, part = re.findall(r": \[&\[u8\]; \d+\] = \[(.*?)\];", text_of("crates/sieve_table/src/address.rt"), re.S)
    for kind, names in [("ADDRESS_FIELDS", address), ("ENVELOPE_PARTS", part)]:
        yield from (f"{kind} {name}" for name in re.findall(r'b"(.*?)"', names))
    yield from (f"with {name}" for name in NAMES)
    charsets = next(row[1] for row in rows(LANGUAGE, "\n## Extensions") if row[0] == "`charsets`")
    yield from (f"charset {name}" for name in re.findall(r"`(.*?)`", charsets))
    yield from tags_in("\n## Commands")
    yield from tags_in("\n## Tests")
    yield from (f"line {row[0].strip('`').split()[0]}" for row in rows(FORMATS, "A line without words has no reply"))
    for row in rows(FORMATS, "Lines of a verdict begin with two spaces"):
        yield from (f"told {it.split()[0]}" for it in re.findall(r"`(\w.*?)`", row[0]))
    yield from (f"told {row['word']}" for row in TABLE)


def tags_in(heading):
    """The tags of each command or test of a table of the language, with its name; C, M and P stand for several."""
    several = {"C": [":comparator"], "M": [":is", ":contains", ":matches", ":value", ":count"], "P": [":all", ":localpart", ":domain", ":user", ":detail"]}
    for row in rows(LANGUAGE, heading):
        names, tags = re.findall(r"`([a-z]+)`", row[0]), re.findall(r"`(:[a-z]+)`", row[0])
        for letter in re.findall(r"\b[CMP]\b", row[0]):
            tags += several[letter]
        yield from (f"{name} {tag}".strip() for name in names for tag in ["", *tags])


def of_sessions(room):
    """All sessions, and whether they had all words."""
    covered = set()
    for number in range(WALKS):
        yield Walk(room, number, covered)
    yield Covered(covered)
