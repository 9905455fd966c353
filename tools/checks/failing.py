"""Whether the checks notice what is wrong: each part over a program that answers nothing, each kind of run where something else comes than is wanted,
and what begins the checks where one of them fails."""
import importlib.machinery
import importlib.util
import itertools
import pathlib
import re
import shlex
import shutil
import subprocess
import tempfile
from unittest import mock

from . import bodies, charsets, dates, edits, kept, near, questions, runs
from .files import write
from .runs import Nothing, Reading, Run, lines

TOP = pathlib.Path(__file__).resolve().parent.parent.parent
# It answers nothing, in the place of the program and of what makes the libraries' calls.
SILENT = "#!/bin/sh\n"
# Parts that run other programs, and how many of a part's first runs may pass over one that answers nothing.
OTHERS = ("measures.of_measures", "site_chains.of_chains", "unproved.of_tests")
PASSING = 40


class Noticed(Reading):
    """Whether a part fails over a program that answers nothing."""

    def __init__(self, part, path):
        self.title, self.command, self.part, self.path = f"a program that answers nothing: {runs.name_of(part)}", "sh", part, path

    def found(self, path):
        """That none of its first runs does."""
        for run in itertools.islice(self.part, PASSING):
            self.looked += 1
            if runs.differences(run, self.path):
                return []
        return [f"none of {self.looked} runs fails"]


def of_parts(room, parts_over):
    """Each of the parts that come of such a program, or of its file in the place of what makes calls."""
    silent = room / "silent"
    silent.write_text(SILENT)
    silent.chmod(0o755)
    path = runs.path_to(silent, room)
    yield from (Noticed(part, path) for part in parts_over(silent) if runs.name_of(part) not in OTHERS)


class Idle(Reading):
    """It finds so much, and looks at so many things."""

    def __init__(self, told, looks):
        self.title, self.command, self.told, self.looks = "idle", "none", told, looks

    def found(self, path):
        """What it was given."""
        self.looked = self.looks
        return self.told


class Raising:
    """It ends by an exception."""

    title, command = "raising", "none"

    def __init__(self, error):
        self.error = error

    def differences(self, path):
        """Nothing: it is raised."""
        raise self.error


def kinds(room):
    """Runs and readings, each with what must be told of it."""
    yield Run("", room, "echo a", b"a\n"), []
    yield Run("", room, "printf 'a\\nb\\n'", b"a\nc\n"), ["standard output: after 2 octets wanted b'c\\n', got b'b\\n'"]
    yield Run("", room, "printf 'a\\nb\\n'", b"a\n"), ["standard output: after 2 octets wanted b'', got b'b\\n'"]
    yield Run("", room, "printf 'b\\na\\n'", b"a\n"), ["standard output: after 0 octets wanted b'a\\n', got b'b\\na\\n'"]
    yield Run("", room, "echo a", b""), ["standard output: after 0 octets wanted b'', got b'a\\n'"]
    yield Run("", room, "echo a >&2"), ["standard error: after 0 octets wanted b'', got b'a\\n'"]
    yield Run("", room, "exit 3"), ["status: wanted 0, got 3"]
    yield Run("", room, "true", status=1), ["status: wanted 1, got 0"]
    yield Run("", room, "echo ab", [b"b", b"a"]), []
    yield Run("", room, "echo ab", [b"a", b"c"]), ["standard output: wanted [b'a', b'c'], got b'ab\\n'"]
    yield Run("", room, "true", [b"a"]), ["standard output: wanted [b'a'], got b''"]
    yield Run("", room, "echo a", []), ["standard output: wanted [], got b'a\\n'"]
    yield Run("", room, "true", []), []
    yield Idle([], 1), []
    yield Idle([], 0), ["it has looked at nothing"]
    yield Idle(["a"], 1), ["a"]
    yield Nothing(""), ["nothing is run or read here"]
    yield Raising(subprocess.TimeoutExpired("a", 2)), ["no end in 2 seconds"]
    yield Raising(ValueError("a")), ["ValueError: a"]


class Kinds(Reading):
    """What is told of each."""

    title, command = "what is told of runs and readings that are wrong", "none"

    def __init__(self, room):
        self.room = room

    def found(self, path):
        """Where that is something else, and parts without a run."""
        wrong = []
        for run, wanted in kinds(self.room):
            self.looked += 1
            got = runs.differences(run, path)
            wrong += [] if got == wanted else [f"{vars(run)}: wanted {wanted}, got {got}"]
        with mock.patch.object(runs, "SECONDS", 0.1):
            late = Run("", self.room, "exec sleep 9").differences(path)
        wrong += [] if late == ["no end in 0.1 seconds"] else [f"a run that is late: {late}"]
        empty, full = list(runs.some("none", iter(()))), list(runs.some("one", iter([1])))
        wrong += [] if [type(it) for it in empty] == [Nothing] and full == [1] else [f"parts without a run and with one: {empty}, {full}"]
        return wrong


class Whole(Reading):
    """Whether `tools/check` has each part: a function `of_..` of a module here that nothing here calls."""

    title, command = "parts that aren't run", "tools/check"

    def __init__(self, room):
        self.room = room

    def found(self, path):
        """Those that it hasn't."""
        loader = importlib.machinery.SourceFileLoader("whole", str(TOP / "tools/check"))
        whole = importlib.util.module_from_spec(importlib.util.spec_from_loader("whole", loader))
        loader.exec_module(whole)
        with tempfile.TemporaryDirectory(dir=self.room) as room:
            there = {runs.name_of(part) for tests in ([], [None]) for part in whole.parts(pathlib.Path(room), "calls", tests)}
        texts = {it.stem: it.read_text(encoding="utf-8") for it in sorted(pathlib.Path(__file__).parent.glob("*.py"))}
        made = [(module, name) for module, text in texts.items() for name in re.findall(r"^def (of_\w+)", text, re.M)]
        alone = [f"{module}.{name}" for module, name in made if len(re.findall(rf"\b{name}\b", texts[module])) == 1]
        wanted = {it for it in alone if not any(re.search(rf"(?<![\w\"]){re.escape(it)}\b", text) for text in texts.values())}
        self.looked = len(wanted)
        return [f"it has no {it}" for it in sorted(wanted - there)]


class Amounts(Reading):
    """Whether parts make so much at random, also where programs are tried, and look at each octet of a charset."""

    title, command = "how much is made at random", "tools/check"
    least = {bodies: {"SESSIONS": 1, "MAILS": 100}, dates: {"SESSIONS": 1, "MESSAGES": 100, "CLOCKS": 100}, edits: {"WALKS": 2, "STEPS": 100}}
    least.update({kept: {"WALKS": 2, "REPORTS": 10}, near: {"SOME": 10}, questions: {"RANDOM_TEXTS": 100}})

    def found(self, path):
        """The amounts that are less."""
        amounts = [(f"{module.__name__}.{name}", getattr(module, name), count) for module, counts in self.least.items() for name, count in counts.items()]
        amounts += [("octets of a charset", len(charsets.OCTETS), 256), ("reports of 16 that are compared", 16 // kept.EVERY, 1)]
        self.looked = len(amounts)
        return [f"{what}: {got}, and {count} are wanted at least" for what, got, count in amounts if got < count]


# A run of tools/check with other parts, which end as they are called.
WHOLE = """\
import importlib.machinery
import importlib.util
import sys

sys.dont_write_bytecode = True
tool, program, *names = sys.argv[1:]
sys.path.insert(0, tool.rpartition("/")[0])
loader = importlib.machinery.SourceFileLoader("whole", tool)
whole = importlib.util.module_from_spec(importlib.util.spec_from_loader("whole", loader))
loader.exec_module(whole)
from checks import failing, runs


def sound():
    yield runs.Run("sound", ".", "sievebench", b"so\\n")


def wrong():
    yield runs.Run("wrong", ".", "sievebench", b"other\\n")


def idle():
    yield failing.Idle([], 0)


def empty():
    yield from ()


whole.parts = lambda room, caller, tests: [globals()[name]() for name in names]
sys.argv[1:] = [program, program]
whole.main()
"""
ENDS = {
    "sound": lines("1 passed, 0 failed"),
    "sound wrong": lines("wrong: sievebench", "  standard output: after 0 octets wanted b'other\\n', got b'so\\n'", "1 passed, 1 failed"),
    "idle sound": lines("idle: none", "  it has looked at nothing", "1 passed, 1 failed"),
    "empty": lines("whole.empty: nothing", "  nothing is run or read here", "0 passed, 1 failed"),
}


def of_check(room):
    """How `tools/check` ends where a run is wrong, a reading has looked at nothing, and a part has no run."""
    write(room, {"whole.py": WHOLE.encode(), "program": b"#!/bin/sh\necho so\n"})
    (room / "program").chmod(0o755)
    for parts, told in ENDS.items():
        command = f"python3 whole.py {shlex.quote(str(TOP / 'tools/check'))} ./program {parts}"
        yield Run(f"tools/check over parts: {parts}", room, command, told, status=int(parts != "sound"))


TEST = 'import unittest\n\n\nclass One(unittest.TestCase):\n    def test_one(self) -> None:\n        self.assertTrue(%s)\n'
BLACK = '#!/bin/sh\n[ "$1" != --version ] || { echo "black, 23.1.0 (compiled: no)"; exit; }\necho black >> ran\n%s\n'
MYPY = "#!/bin/sh\necho mypy >> ran\n%s\n"
# What the package has, what checks its types and its format, the status, and what ran then.
PACKAGES = {
    "nothing is wrong": (TEST % "True", "true", "true", 0, ["mypy", "black"]),
    "a unit test fails": (TEST % "False", "true", "true", 1, []),
    "a unit test can't be read": ("import nothing_of_this_name\n", "true", "true", 1, []),
    "there is no unit test": ("", "true", "true", 1, []),
    "types are wrong": (TEST % "True", "exit 1", "true", 1, ["mypy"]),
    "the format is wrong": (TEST % "True", "true", "exit 1", 1, ["mypy", "black"]),
}


def of_package(room):
    """How `tools/site/check` ends."""
    for number, (title, (test, types, form, status, ran)) in enumerate(PACKAGES.items()):
        top = room / str(number)
        write(top, {"tools/site/tests/__init__.py": b"", "tools/site/tests/test_one.py": test.encode(), "kit/mypy": (MYPY % types).encode(), "kit/black": (BLACK % form).encode()})
        for name in ("command.sh", "site/check"):
            shutil.copy(TOP / "tools" / name, top / "tools" / name)
        for name in ("mypy", "black"):
            (top / "kit" / name).chmod(0o755)
        command = 'PATH="$PWD/kit:$PATH" tools/site/check > told 2>&1; echo $?; cat tools/site/ran 2> none'
        yield Run(f"tools/site/check where {title}", top, command, lines(status, *ran), status=0 if ran else 1)


STEP = '#!/bin/sh\necho "${0##*/} $*"\n[ "$FAILS" != "${0##*/} $*" ]\n'
STEPS = {"tools/site/check": "check ", "kit/rt": "rt ci", "tools/edits": "edits ", "tools/check": "check --requests"}


def of_gate(room):
    """How `.ci/run` ends where one of its steps fails: no other comes after it."""
    write(room, {name: STEP.encode() for name in STEPS})
    (room / ".ci").mkdir()
    shutil.copy(TOP / ".ci/run", room / ".ci/run")
    for name in STEPS:
        (room / name).chmod(0o755)
    steps = list(STEPS.values())
    for number, step in enumerate([*steps, "none"], 1):
        command = f'FAILS={shlex.quote(step)} PATH="$PWD/kit:$PATH" .ci/run 2> times'
        yield Run(f".ci/run where this fails: {step}", room, command, lines(*steps[:number]), status=int(step != "none"))


def of_checks(room):
    """All of them but those over a program that answers nothing."""
    yield Kinds(room)
    yield Whole(room)
    yield Amounts()
    for part in (of_check, of_package, of_gate):
        (room / part.__name__).mkdir()
        yield from part(room / part.__name__)
