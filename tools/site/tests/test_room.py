"""Tests that wait: each wait has an end, and the signals that are sent are heeded."""

import signal
from unittest import mock

from . import room
from .room import Files, Room

SITE: Files = {"personal/a.sieve": "keep;", "mains": "a\n", "mails/1.eml": "", "envelope": '"" ""'}


class Waits(Room):
    """Runs that a test waits for."""

    def test_a_run_without_an_end(self) -> None:
        self.write(SITE)
        with mock.patch.object(room, "PATIENCE", 0.5):
            with self.assertRaisesRegex(AssertionError, r"^watch \.: no end in 0\.5 seconds$"):
                with self.started("watch", ".") as child:
                    assert child.stderr
                    child.stderr.read()
        self.assertEqual(child.returncode, -signal.SIGKILL)

    def test_a_file_that_does_not_come(self) -> None:
        self.write(SITE)
        with self.assertRaisesRegex(AssertionError, "^the run has ended with status 1 and without a file gone$"):
            with self.started("check", ".") as child:
                self.await_file(child, "gone")
        with mock.patch.object(room, "PATIENCE", 0.5), self.assertRaisesRegex(AssertionError, "no end in 0.5 seconds"):
            with self.started("watch", ".") as child:
                self.await_file(child, "gone")

    def test_a_block_that_fails(self) -> None:
        self.write(SITE)
        with self.assertRaisesRegex(AssertionError, "^so$"), self.started("watch", ".") as child:
            self.fail("so")
        self.assertEqual(child.returncode, -signal.SIGKILL)

    def test_where_ctrl_c_is_ignored(self) -> None:
        self.write(SITE)
        before = signal.signal(signal.SIGINT, signal.SIG_IGN)
        self.addCleanup(signal.signal, signal.SIGINT, before)
        with self.started("watch", ".") as child:
            assert child.stdout
            self.assertRegex(child.stdout.readline(), rb"^1 verdict, ")
            child.send_signal(signal.SIGINT)
            self.assertEqual((child.communicate(), child.returncode), ((b"", b""), 130))
