"""`tools/edits`: whether the must-fail edits are those that its rule wants, whether the lock is of what is here, and what comes of tries, over a
small crate and with a program in the place of `rt` that says what a file tells it to say."""
import os
import pathlib
import shutil
import subprocess

from editing import lock, rule
from editing.files import Edit, all_edits

from . import audits
from .runs import LeftOut, Reading, Run

TOP = pathlib.Path(__file__).resolve().parent.parent.parent
PROVED = "docs/PROVED.md"
# The rule, broken: the edits that are left out or made, and part of what is said.
BROKEN = {
    "an edit that shows nothing": ([], {"bench/new__x": "file: src/bench.rt\nold: run_stale(self.alloc, &site, &mut self.messages, meter)\nnew: x"}, "it shows nothing"),
    "an old text that isn't there": ([], {"bench/new__x": "shows: crate\nfile: src/bench.rt\nold: no such text\nnew: x"}, "an old text isn't once in the code"),
    "a kind that isn't known": ([], {"bench/new__x": "shows: law x\nfile: src/bench.rt\nold: return Err(ReportFault::NoMemory);\nnew: x"}, "`shows: law` isn't known"),
    "a promise of another function": (
        [],
        {"bench/new__x": "shows: promise Bench::set_main\nfile: src/bench.rt\nold: return Err(ReportFault::NoMemory);\nnew: x"},
        "it doesn't change Bench::set_main",
    ),
    "a promise that isn't there": (
        [],
        {"bench/new__x": "shows: promise Bench::code\nfile: src/bench.rt\nold: return Err(ReportFault::NoMemory);\nnew: x"},
        "no row of docs/PROVED.md names Bench::code",
    ),
    "a fifth edit of a promise": (
        [],
        {"bench/new__x": "shows: promise Bench::report\nfile: src/bench.rt\nold: return Err(ReportFault::NoMemory);\nnew: x"},
        "5 edits show the row of Bench::report, and 4 are enough",
    ),
    "a rule without an edit": (["sieve_check/is_bad_relation__accepts_an_unknown_relation"], {}, "rule BadRelation: no edit shows it"),
    "a column without an edit": (["sieve_table/else_row__takes_a_test"], {}, "column Row.tests: no edit shows it"),
    "an error without an edit": (["sieve_run/include__goes_one_less_deep"], {}, "error IncludeDepth: no edit shows it"),
    "an error that isn't there": (
        [],
        {"sieve_run/new__x": "shows: error NoError\nfile: src/steps.rt\nold: if running.depth == 0 {\nnew: x"},
        "there is no error NoError",
    ),
    "a rule with two edits": (
        [],
        {"sieve_check/new__x": "shows: rule BadRelation\nfile: src/arguments.rt\nold: relation_named(octets).is_none()\nnew: x"},
        "rule BadRelation: 2 edits show it",
    ),
    "a relation without an edit": (["sieve_syntax/tokens__leaves_commas_out"], {}, "a public clause asserts the relation Spells, and no edit is of such a function"),
    "a relation that others touch": (
        [],
        {"sieve_syntax/new__x": "shows: relation Spells\nfile: src/token.rt\nold: pub fn tokens\nnew: x"},
        "it shows a relation Spells that others touch",
    ),
    "a relation of no clause": (
        [],
        {"sieve_run/new__x": "shows: relation Writes\nfile: src/steps.rt\nold: if running.depth == 0 {\nnew: x"},
        "no clause of what it changes asserts a relation Writes",
    ),
    "a crate with one edit": (["octets/cmp__compares_lengths"], {}, "edits/octets: it has 1, and a crate that has edits has 2"),
    "a third edit that shows nothing else": (
        [],
        {"octets/new__x": "shows: crate\nfile: src/line.rt\nold: pub fn without_return\nnew: x"},
        "edits/octets: there are 3 edits, so those that show nothing else go",
    ),
}


class Rule(Reading):
    """Whether the edits are those that the rule wants. It looks at each."""

    title, command = "must-fail edits by their rule", "edits"

    def found(self, path):
        """What is otherwise."""
        edits = all_edits(TOP)
        self.looked = len(edits)
        return list(rule.Shown(audits.crates(), (TOP / PROVED).read_text(encoding="utf-8"), edits).faults())[:5]


class Broken(Reading):
    """Whether the rule refuses edits that it doesn't want, and lacks those that it does."""

    def __init__(self, room, title):
        self.title, self.command, self.room = f"must-fail edits: {title}", "edits", room
        self.less, self.more, self.wanted = BROKEN[title]

    def found(self, path):
        """What isn't said."""
        edits = [it for it in all_edits(TOP) if f"{it.crate}/{it.path.stem}" not in self.less]
        for name, text in self.more.items():
            file = self.room / f"{name.partition('/')[2]}.edit"
            file.write_text(text + "\n", encoding="utf-8")
            edits.append(Edit(name.partition("/")[0], file))
        told = list(rule.Shown(audits.crates(), (TOP / PROVED).read_text(encoding="utf-8"), edits).faults())
        self.looked = len(told)
        return [] if any(self.wanted in it for it in told) else [f"wanted {self.wanted!r}, got {told!r:.2000}"]


class Lock(Reading):
    """Whether each crate with edits has its line in the lock, with the sum of what is here. It looks at each line."""

    title, command = "the lock of must-fail edits", "edits.lock"

    def found(self, path):
        """The lines that are wrong."""
        self.looked = len(lock.read(TOP))
        # What is put before Python's own modules for the program isn't for `rt`.
        env = {name: value for name, value in os.environ.items() if name != "PYTHONPATH"}
        kit = subprocess.run(["rt", "version"], env=env, capture_output=True, text=True, check=True).stdout.strip()
        return list(lock.faults(TOP, kit).values())


NAMES = ["high", "low", "middle", "other"]
FILES = {
    "HANDLES": "Handles allowed: none.\n",
    "crates.txt": "low:\nmiddle: low smallvec\nhigh: low middle\nother:\n",
    "docs/PROVED.md": "",
    **{f"crates/{it}/src/lib.rt": f"#[cycle(turns)]\npub fn {it}() -> u8 {{\n    1\n}}\n\npub fn calls() -> u8 {{\n    {it}()\n}}\n" for it in NAMES},
    **{f"crates/{it}/{part}.antt": "" for it in NAMES for part in ("specs/Lib", f"proofs/{it}/Answers")},
    **{
        f"edits/{it}/{name}.edit": f"shows: crate\nfile: src/lib.rt\nold:     1\nnew:     {number}\n"
        for it in NAMES
        for number, name in ((2, "gives__two"), (3, "gives__three"))
    },
}
# A change of a file, and the crates whose sums it changes.
CHANGES = {
    "crates/low/src/lib.rt": {"low", "middle", "high"},
    "crates/middle/specs/Lib.antt": {"middle", "high"},
    "crates/low/proofs/low/Answers.antt": {"low", "middle", "high"},
    "crates/high/src/lib.rt": {"high"},
    "edits/low/gives__two.edit": {"low"},
    "crates.txt": {"low", "middle", "high", "other"},
    "HANDLES": {"low", "middle", "high", "other"},
    "docs/PROVED.md": set(),
}


def made(room):
    """The folder of a small repository."""
    room.mkdir()
    for name, text in FILES.items():
        path = room / name
        path.parent.mkdir(parents=True, exist_ok=True)
        path.write_text(text, encoding="utf-8")
    return room


class Sums(Reading):
    """Whether a changed octet changes the sums of the crate in which it stands and of those above it, and no others."""

    title, command = "sums of must-fail edits", "edits.lock"

    def __init__(self, top):
        self.top = top

    def found(self, path):
        """The changes that other sums follow."""
        return [why for name, wanted in CHANGES.items() for why in self.after(name, wanted)] + self.of_kits()

    def of_kits(self):
        """The kits that other sums follow: two of one logic have the same, and one of another logic has others."""
        one, same, other = (lock.sums(self.top, f"kit-{number} logic {name}") for number, name in ((1, "a"), (2, "a"), (2, "b")))
        found = [] if one == same else ["kits of one logic have several sums"]
        return found + ([] if not set(one.values()) & set(other.values()) else ["kits of two logics have one sum"])

    def after(self, name, wanted):
        """Whether another octet in a file changes these sums."""
        before, file = lock.sums(self.top, "kit"), self.top / name
        text = file.read_text(encoding="utf-8")
        # A line of crates.txt counts by its words: each gets another library of the kit.
        file.write_text(text.replace(":", ": memchr") if name == "crates.txt" else text + " ", encoding="utf-8")
        found = lock.sums(self.top, "kit")
        file.write_text(text, encoding="utf-8")
        differ = {it for it in before if before[it] != found[it]}
        self.looked += len(before)
        return [] if differ == wanted else [f"{name}: the sums of {sorted(differ)} have changed, and not of {sorted(wanted)}"]


# What stands for `rt`: it says of each edit that lies in the crates what the file `fates` has, or that it is refused.
RT = r"""#!/usr/bin/env python3
import os, pathlib, sys
if sys.argv[1:] == ["version"]:
    print("kit")
    sys.exit(0)
fates = dict(line.split(" ", 1) for line in pathlib.Path(os.environ["FATES"]).read_text().splitlines())
assert "CI" not in os.environ
if "kit" in fates:
    if len(sys.argv) > 2:
        print("usage")
        sys.exit(2)
    there = sorted(it.split(":")[0] for it in pathlib.Path("crates.txt").read_text().splitlines())
    assert there == fates["kit"].split() == sorted(os.listdir("crates"))
for path in sorted(pathlib.Path("crates").glob("*/must-fail/*.edit")):
    assert "shows" not in path.read_text()
    name = f"{path.parts[1]}/{path.name}"
    fate = fates.get(name, "refused, as it must be: note: src/lib.rt:3:5: it is not proved (`returns`)")
    if fate != "silent":
        print(f"rt: must-fail {name}: {fate}")
print("1 passed, 0 failed")
sys.exit(int(fates.get("status", "0")))
"""
# A commit whose hash, 9d2aed5e24d5f991f305c98135ed80431a1109f4, is a multiple of 3 and of 4: the first crate of so many is drawn.
COMMIT = (
    "export GIT_AUTHOR_DATE=2026-01-01T00:00:00Z GIT_COMMITTER_DATE=2026-01-01T00:00:00Z; "
    "git init -q . && git -c user.name=x -c user.email=x@x.example commit -q --allow-empty -m begin"
)
REFUSED = "refused, as it must be"
# Words, what becomes of edits, a line of the lock that is made wrong before, the crates tried, how many lines the lock has lost after it, and what
# is said on standard error; none: all is well.
TRIES = {
    "of all crates": (["--all"], {}, "", "high, low, middle, other", 0, ""),
    "of one": (["low"], {}, "", "low", 0, ""),
    "refused where it is called": (["low"], {"low/gives__two.edit": f"{REFUSED}: src/lib.rt:7:5: error: it is not proved"}, "", "low", 0, ""),
    "refused by an answer of a cycle": (["low"], {"low/gives__two.edit": f"{REFUSED}: ./proofs/+turns/Answers.antt:5:13: error: `low-returns`: no proof"}, "", "low", 0, ""),
    "refused by an answer of another function of the cycle": (
        ["low"],
        {"low/gives__two.edit": f"{REFUSED}: ./proofs/+turns/Answers.antt:5:13: error: `lower-returns`: no proof"},
        "",
        "low",
        1,
        "edits/low/gives__two.edit: it is refused at a goal of something else",
    ),
    "refused by an answer of another cycle": (
        ["low"],
        {"low/gives__two.edit": f"{REFUSED}: ./proofs/+others/Answers.antt:5:13: error: `low-returns`: no proof"},
        "",
        "low",
        1,
        "edits/low/gives__two.edit: it is refused at a goal of something else",
    ),
    "refused by an answer": (["low"], {"low/gives__two.edit": f"{REFUSED}: ./proofs/low/Answers.antt:5:13: error: no proof"}, "", "low", 0, ""),
    "refused elsewhere": (
        ["low"],
        {"low/gives__two.edit": f"{REFUSED}: ./proofs/main/Answers.antt:5:13: error: no proof"},
        "",
        "low",
        1,
        "edits/low/gives__two.edit: it is refused at a goal of something else",
    ),
    "refused for a name": (
        ["low"],
        {"low/gives__two.edit": f"{REFUSED} (only because a proof file names what the edit took away): x"},
        "",
        "low",
        1,
        "edits/low/gives__two.edit: change one value and keep the names",
    ),
    "not refused": (["low"], {"low/gives__two.edit": "NOT REFUSED: the crate is still proved"}, "", "low", 1, "edits/low/gives__two.edit: NOT REFUSED"),
    "that can't be applied": (["low"], {"low/gives__two.edit": "BAD EDIT: it changes nothing"}, "", "low", 1, "edits/low/gives__two.edit: BAD EDIT"),
    "that was killed": (["low"], {"low/gives__two.edit": "NOT TRIED: it was killed"}, "", "low", 1, "edits/low/gives__two.edit: NOT TRIED"),
    "of which nothing is said": (["low"], {"low/gives__two.edit": "silent"}, "", "low", 1, "edits/low/gives__two.edit: it wasn't tried"),
    "of a crate that isn't proved": (["low"], {"status": "1"}, "", "low", 1, "edits/low: rt ci failed"),
    "by a kit whose rt ci takes no crates": (["middle"], {"kit": "low middle"}, "", "middle", 0, ""),
    "by a kit whose rt ci takes no crates, of one that is above another twice": (["high"], {"kit": "high low middle"}, "", "high", 0, ""),
    "by a kit whose rt ci takes no crates, and of all": (["--all"], {"kit": "high low middle other"}, "", "high, low, middle, other", 0, ""),
    "of a crate without edits": (["none"], {}, "", None, 0, "none has no edits"),
    "one drawn": ([], {}, "", "high", 0, ""),
    "one drawn whose line is false": ([], {f"{it}/gives__two.edit": "NOT REFUSED" for it in NAMES}, "", "high", 1, "edits/high/gives__two.edit: NOT REFUSED"),
    "a wrong sum": ([], {}, "low 00 2", "high, low", 0, "edits.lock: the line of low isn't of what is here: commit the lock as it is now"),
    "a wrong number": ([], {}, "low SUM 3", "high, low", 0, "edits.lock: the line of low isn't of what is here"),
    "no line": ([], {}, "low", "high, low", 0, "edits.lock: low has edits and no line"),
    "a line without edits": ([], {}, "gone 00 2", "high", 0, "edits.lock: gone has a line and no edits"),
}


class Try(Reading):
    """Edits of a small repository, tried by a copy of the tool: what it tries, what it says, and what it leaves in the lock."""

    def __init__(self, top, title):
        self.title, self.command, self.top = f"must-fail edits, tried: {title}", "tools/edits", top
        self.words, self.fates, self.line, self.crates, self.lost, self.wanted = TRIES[title]

    def found(self, path):
        """What is otherwise."""
        sums = lock.sums(self.top, "kit")
        right = {crate: lock.line_of(self.top, crate, sum) for crate, sum in sums.items()}
        crate, *rest = self.line.replace("SUM", sums["low"]).split() or [""]
        lock.write(self.top, {it: line for it, line in {**right, crate: tuple(rest)}.items() if line})
        (self.top / "fates").write_text("".join(f"{name} {fate}\n" for name, fate in self.fates.items()), encoding="utf-8")
        env = {**os.environ, "PATH": f"{self.top / 'bin'}{os.pathsep}{path}", "FATES": str(self.top / "fates"), "CI": "true"}
        done = subprocess.run([self.top / "tools/edits", *self.words], env=env, stdin=subprocess.DEVNULL, capture_output=True, text=True)
        self.looked = 1
        return [*self.said(done), *self.left(right)]

    def said(self, done):
        """What is said or answered otherwise."""
        if self.wanted not in done.stderr or bool(done.stderr) != bool(self.wanted) or bool(done.returncode) != bool(self.wanted):
            yield f"wanted {self.wanted!r}, got {done.stderr!r:.2000} and status {done.returncode}"
        if self.crates is not None and f"tried: {self.crates}" not in done.stdout:
            yield f"wanted crates {self.crates!r} tried, got {done.stdout!r:.2000}"

    def left(self, right):
        """What is wrong with the lock after it: a line that isn't right, or as many as should be lost that aren't."""
        lines = lock.read(self.top)
        yield from (f"the lock has a wrong line of {crate}" for crate, line in lines.items() if line != right.get(crate))
        if len(right) - len(lines) != self.lost:
            yield f"the lock has {len(lines)} lines of {len(right)}"


class Drawn(Reading):
    """Whether each crate is drawn by some commit."""

    title, command = "must-fail edits: crates drawn", "tools/edits"

    def found(self, path):
        """The crates that none draws."""
        found = {lock.drawn(NAMES, f"{number:040x}") for number in range(len(NAMES))}
        self.looked = len(found)
        return [] if found == set(NAMES) else [f"only {sorted(found)} are drawn"]


def tool(top):
    """A small repository with a copy of the tool, and a program in the place of `rt`."""
    (made(top) / "tools").mkdir()
    for name in ("edits", "command.py"):
        shutil.copy(TOP / "tools" / name, top / "tools")
    for name in ("editing", "auditing", "tabling"):
        shutil.copytree(TOP / "tools" / name, top / "tools" / name)
    (top / "bin").mkdir()
    (top / "bin/rt").write_text(RT, encoding="utf-8")
    (top / "bin/rt").chmod(0o755)
    return top


def of_edits(room):
    """All of them."""
    yield Rule()
    yield from (Broken(room, title) for title in BROKEN)
    yield Sums(made(room / "sums"))
    yield Lock() if shutil.which("rt") else LeftOut(Lock.title, "since there is no rt, whose line the sums hold")
    yield Drawn()
    top = tool(room / "tries")
    yield Run("a commit that draws", top, COMMIT)
    yield from (Try(top, title) for title in TRIES)
