"""Sessions with the program."""

import contextlib
import os
import pathlib
import resource
import signal
import subprocess
import threading
import time
from typing import List
from unittest import mock

from sievebench_site import ends
from sievebench_site.ends import CHILDREN, Refusal
from sievebench_site.program import Line, Program, verdict_of
from sievebench_site.words import MESSAGE_LIMIT

from .room import FAKE, Room


class Programs(Room):
    """A session that is held."""

    def test_many_requests(self) -> None:
        with self.program().session() as session:
            for number in range(3_000):
                session.edit("message", [b"%d" % number], b"", "a mail")
            session.script(("personal", b"a"), b"discard;", "a script")
            session.edit("main personal", [b"a"], None, "the main script")
            report = session.report()
            self.assertEqual(len(report.verdicts), 3_000)
            self.assertEqual(report.verdicts[b"7"].lines, (Line(b"discard", (("personal", b"a"), 1)),))
            self.assertIs(report.verdicts[b"7"], report.verdicts[b"8"])
            self.assertEqual(report.faults, {("personal", b"a"): None})
            session.script(("personal", b"a"), b"\nkep;", "a script")
            self.assertEqual(session.report().faults, {("personal", b"a"): (2, "unknown-command")})
            self.assertEqual((session.dump(("personal", b"a")), session.dump(("global", b"x"))), (None, None))
            child = session.child
        self.assertEqual((child.poll(), CHILDREN.running), (0, set()))

    def test_a_refused_edit(self) -> None:
        with self.assertRaises(Refusal) as caught, self.program().session() as session:
            session.edit("message", [b"1"], b"x" * (MESSAGE_LIMIT + 1), "the mail")
            session.report()
        self.assertEqual(caught.exception.sentence, "the mail is refused: a mail has at most 16,777,216 octets")

    def failing(self, text: str, *names: bytes) -> Refusal:
        """How a program ends that is this script."""
        self.write({"p": f"#!/bin/sh\n{text}\n"})
        (self.room / "p").chmod(0o755)
        with self.assertRaises(Refusal) as caught, Program(bytes(self.room / "p"), list(names)).session() as session:
            session.edit("no-main", [], None, "nothing")
            session.report()
        return caught.exception

    def test_failures(self) -> None:
        rows = [
            ("exit 0", 3, "the program answered too little"),
            ("echo ok", 3, "the program answered too little"),
            ("printf ok", 3, "the program answered too little"),
            ("echo no no-memory", 2, "nothing is refused: the program has no memory for it: --memory gives more"),
            (
                "echo ok; echo no no-memory",
                2,
                "the report is refused: the program has no memory for it: --memory gives more",
            ),
            ("echo ouch >&2; exit 5", 3, f'"{self.room}/p" ended with status 5: "ouch"'),
            (f'{FAKE} "$@"; echo ouch >&2', 3, f'"{self.room}/p" ended with status 0: "ouch"'),
            ("kill -9 $$", 3, f'"{self.room}/p" ended with status -9: ""'),
        ]
        for text, status, sentence in rows:
            with self.subTest(text):
                found = self.failing(text)
                self.assertEqual((found.sentence, found.status), (sentence, status))
        found = self.failing("[ $1 = --version ] || { echo no such name >&2; exit 2; }", b"x")
        self.assertIn('"--with=x,envelopes,lines", of the site\'s file with', found.sentence)
        with self.assertRaises(Refusal) as caught:
            Program(b"/nowhere/x", [])
        self.assertEqual(caught.exception.status, 3)

    def test_memory(self) -> None:
        with Program(os.fsencode(FAKE), [], 1 << 33).session() as session:
            self.assertEqual(resource.prlimit(session.child.pid, resource.RLIMIT_AS), (1 << 33, 1 << 33))
        with mock.patch("sievebench_site.program.limit_memory") as limits:
            Program(os.fsencode(FAKE), [], 1 << 33).missing([b"regex"])
        self.assertEqual([call.args[1] for call in limits.call_args_list], [1 << 33])

    def test_verdict(self) -> None:
        told = [
            b'  envelope "a" "b"',
            b'  store "x"',
            b'  at personal "m \\" n" line 12',
            b"  discard",
            b'  at global "g" line 3',
        ]
        told += [b'  implicit "y"', b'  read personal "m\\" missing" missing', b'  read global "g"']
        verdict = verdict_of(told)
        store, discard = Line(b'store "x"', (("personal", b'm " n'), 12)), Line(b"discard", (("global", b"g"), 3))
        self.assertEqual(verdict.lines, (store, discard, Line(b'implicit "y"')))
        self.assertEqual(verdict.reads, ((("personal", b'm" missing'), False), (("global", b"g"), True)))


class Ends(Room):
    """Signals."""

    def test_signals(self) -> None:
        self.write({"personal/a.sieve": 'sleep "30";', "mains": "a\n", "mails/1.eml": "", "envelope": '"" ""'})
        for command in ("check", "record"):
            for number, status in ((2, 130), (15, 143)):
                with self.subTest(command=command, number=number), self.started(command, ".") as child:
                    self.await_file(child, "asleep")
                    (self.room / "asleep").unlink()
                    started, below = time.monotonic(), children_of(child.pid)
                    child.send_signal(number)
                    self.assertEqual(child.communicate(), (b"", b""))
                    self.assertEqual(child.returncode, status)
                    self.assertLess(time.monotonic() - started, 5)
                    self.assertTrue(below)
                    self.assertFalse([it for it in below if os.path.exists(f"/proc/{it}")])
        self.assertEqual(sorted(os.listdir(self.room)), ["envelope", "mails", "mains", "personal"])
        self.assertEqual(os.listdir(self.room / "mails"), ["1.eml"])

    def test_ctrl_c_on_a_terminal(self) -> None:
        # It reaches the whole group: the tool, and what it runs beside the program.
        self.write({"personal/a.sieve": 'sleep "30";', "mains": "a\n", "mails/1.eml": "", "envelope": '"" ""'})
        waits = "#!/bin/sh\n: > asleep; exec sleep 30\n"
        self.write({"bin/sievec": waits.replace("asleep", f"{self.room}/asleep")})
        self.write({"bin/git": waits.replace("asleep", f"{self.room}/asleep")})
        for name in ("sievec", "git"):
            (self.room / "bin" / name).chmod(0o755)
        commands = [
            "check .",
            "record .",
            "untested .",
            "why . 1.eml",
            "watch .",
            "lint --sievec .",
            "diff --git HEAD .",
        ]
        path = f"{self.room}/bin{os.pathsep}{os.environ['PATH']}"
        for command in commands:
            with self.subTest(command), mock.patch.dict(os.environ, PATH=path):
                with self.started(*command.split(), group=True) as child:
                    self.await_file(child, "asleep")
                    (self.room / "asleep").unlink()
                    below = children_of(child.pid)
                    os.killpg(child.pid, signal.SIGINT)
                    self.assertEqual((child.communicate(), child.returncode), ((b"", b""), 130))
                self.assertTrue(below)
                self.assertFalse([it for it in below if os.path.exists(f"/proc/{it}")])
        self.assertEqual(sorted(os.listdir(self.room)), ["bin", "envelope", "mails", "mains", "personal"])
        self.assertEqual(os.listdir(self.room / "mails"), ["1.eml"])

    def test_a_session_has_its_own_group(self) -> None:
        # Ctrl-C on a terminal doesn't reach it, so that it says nothing before the tool ends it.
        with self.program().session() as session:
            self.assertNotEqual(os.getpgid(session.child.pid), os.getpgid(0))

    def test_a_signal_while_a_process_starts(self) -> None:
        children = ends.Children()
        begun: List["subprocess.Popen[bytes]"] = []

        def start() -> "subprocess.Popen[bytes]":
            begun.append(subprocess.Popen(["sleep", "30"]))
            ends.by_signal(15, None)
            return begun[0]

        with mock.patch.object(ends, "CHILDREN", children):
            with self.assertRaises(ends.Signalled) as caught, children.held(start):
                self.fail("the process runs on")
            self.assertEqual((caught.exception.status, begun[0].returncode, children.running), (143, -9, set()))
            with self.assertRaises(ends.Signalled):
                ends.by_signal(2, None)

    def test_a_signal_while_another_thread_starts_a_process(self) -> None:
        children, begun = ends.Children(), threading.Event()
        started: List["subprocess.Popen[bytes]"] = []

        def start() -> "subprocess.Popen[bytes]":
            started.append(subprocess.Popen(["sleep", "30"]))
            begun.set()
            time.sleep(0.3)
            return started[0]

        def work() -> None:
            with contextlib.suppress(ends.Signalled), children.held(start):
                time.sleep(30)

        with mock.patch.object(ends, "CHILDREN", children):
            thread = threading.Thread(target=work)
            thread.start()
            self.assertTrue(begun.wait(60))
            with self.assertRaises(ends.Signalled):
                ends.by_signal(2, None)
            children.wait()
            self.assertEqual(started[0].poll(), -9)
            thread.join(60)
            self.assertEqual((thread.is_alive(), children.running), (False, set()))

    def test_a_broken_pipe(self) -> None:
        self.write({"personal/a.sieve": "kep;", "mains": "a\n", "mails/1.eml": "", "envelope": '"" ""'})
        with self.started("check", ".") as child:
            assert child.stdout and child.stderr
            child.stdout.close()
            self.assertEqual((child.stderr.read(), child.wait()), (b"", -13))


def children_of(process: int) -> List[str]:
    """The processes below another."""
    tasks = pathlib.Path(f"/proc/{process}/task").glob("*/children")
    return [child for task in tasks for child in task.read_text().split()]
