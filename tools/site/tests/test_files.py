"""Files that are written whole or not at all, and the lock."""

import contextlib
import errno
import io
import os
import pathlib
import stat
import tempfile
from typing import Callable, ContextManager, List
from unittest import mock

from sievebench_site import files
from sievebench_site.ends import Refusal
from sievebench_site.main import status_of

from .room import Room


class Files(Room):
    """Files of a folder."""

    def test_write(self) -> None:
        self.write({"old": "a", "there": "b"})
        (self.room / "old").chmod(0o604)
        (self.room / "link").symlink_to("there")
        for name in ("old", "new", "link"):
            files.write_file(bytes(self.room / name), b"x")
            self.assertEqual((self.room / name).read_bytes(), b"x")
        self.assertEqual(stat.S_IMODE((self.room / "old").stat().st_mode), 0o604)
        self.assertEqual(stat.S_IMODE((self.room / "new").stat().st_mode), 0o666 & ~files.umask())
        self.assertTrue((self.room / "link").is_symlink())
        self.assertEqual(sorted(os.listdir(self.room)), ["link", "new", "old", "there"])

    def test_write_over_a_file_system(self) -> None:
        shared = pathlib.Path("/dev/shm")
        if not shared.is_dir() or shared.stat().st_dev == self.room.stat().st_dev:
            self.skipTest("there is no other file system")
        with tempfile.TemporaryDirectory(dir=shared) as other:
            (self.room / "link").symlink_to(pathlib.Path(other, "x"))
            files.write_file(bytes(self.room / "link"), b"x")
            self.assertEqual(os.listdir(other), ["x"])

    def test_a_write_that_fails(self) -> None:
        self.write({"old": "a"})
        with mock.patch("os.replace", side_effect=OSError(28, "No space left on device")):
            with self.assertRaises(Refusal) as caught:
                files.write_file(bytes(self.room / "old"), b"x")
        self.assertIn("No space left on device", caught.exception.sentence)
        self.assertEqual((os.listdir(self.room), (self.room / "old").read_bytes()), (["old"], b"a"))

    def test_write_new(self) -> None:
        path = bytes(self.room / "x")
        self.assertEqual([files.write_new(path, octets) for octets in (b"a", b"b")], [True, False])
        self.assertEqual((self.room / "x").read_bytes(), b"a")
        self.assertEqual(os.listdir(self.room), ["x"])

    def test_unwritable(self) -> None:
        self.write({"there": "a"})
        for name in ("there", "new"):
            files.refuse_unwritable(bytes(self.room / name))
        self.assertEqual((self.room / "there").read_bytes(), b"a")
        for name in ("no/x", "there/x", "."):
            with self.subTest(name), self.assertRaises(Refusal):
                files.refuse_unwritable(bytes(self.room / name))
        self.assertEqual(os.listdir(self.room), ["there"])

    def test_lock(self) -> None:
        folder = bytes(self.room)
        with files.locked(folder):
            with self.assertRaises(Refusal) as caught, files.locked(folder):
                self.fail("both hold it")
            self.assertIn(f"process {os.getpid()} of ", caught.exception.sentence)
            self.assertEqual(os.listdir(self.room), [".sievebench-site.lock"])
        self.assertEqual(os.listdir(self.room), [])
        # Another run ends between the two looks at its file.
        gone = mock.patch("fcntl.flock", side_effect=lambda *_: os.unlink(self.room / ".sievebench-site.lock"))
        with gone, self.assertRaisesRegex(Refusal, "was being written until now: try again"), files.locked(folder):
            self.fail("the file isn't there")
        # One that is left of a run that was killed holds nothing.
        self.write({".sievebench-site.lock": "process 1 of nobody on nowhere"})
        with files.locked(folder):
            self.assertNotIn("nowhere", (self.room / ".sievebench-site.lock").read_text())

    def test_files_in(self) -> None:
        self.write({".x": "", "b.x": "", "a.x": "", "a-b.x": "", "c": "", "d.x/e": "", "A.X": ""})
        (self.room / "f.x").symlink_to("b.x")
        (self.room / "g.x").symlink_to("nowhere")
        self.assertEqual(files.files_in(bytes(self.room), b".x"), [b"a-b.x", b"a.x", b"b.x", b"f.x"])
        with self.assertRaises(Refusal):
            files.files_in(bytes(self.room / "c"), b".x")


class Refusals(Room):
    """What names the file and the reason."""

    def refused(self, block: Callable[[], ContextManager[object]]) -> str:
        """Why something is refused for which there is no space."""
        full = OSError(errno.ENOSPC, os.strerror(errno.ENOSPC))
        names = ("tempfile.TemporaryFile", "tempfile.TemporaryDirectory", "tempfile.mkstemp")
        with contextlib.ExitStack() as room:
            for name in names:
                room.enter_context(mock.patch(name, side_effect=full))
            with self.assertRaises(Refusal) as caught, block():
                pass
        return caught.exception.sentence

    def test_no_space(self) -> None:
        path = bytes(self.room / "x")
        here = f'cannot write "{self.room}/x": No space left on device'
        calls: List[Callable[[], object]] = [
            lambda: files.write_file(path, b""),
            lambda: files.write_new(path, b""),
            lambda: files.write_folder(path, {}),
        ]
        for call in calls:
            self.assertEqual(self.refused(lambda: contextlib.nullcontext(call())), here)
        with mock.patch.dict(os.environ, TMPDIR="/room"):
            for block in (files.temporary, files.temporary_folder):
                self.assertEqual(self.refused(block), 'cannot write "/room": No space left on device')

    def test_a_folder_that_cannot_be_put(self) -> None:
        self.write({"x": "old"})
        rename = os.rename

        def refuses(old: bytes, new: bytes) -> None:
            if old.endswith(b"/new"):
                raise OSError(errno.EIO, os.strerror(errno.EIO))
            rename(old, new)

        with mock.patch("os.rename", refuses), self.assertRaises(Refusal):
            files.write_folder(bytes(self.room / "x"), {b"a": b"b"})
        self.assertEqual(((self.room / "x").read_text(), os.listdir(self.room)), ("old", ["x"]))

    def test_what_nobody_thought_of(self) -> None:
        for error, sentence in [
            (OSError(errno.EIO, "bad", b"a\xff"), 'cannot read "a\\xff": bad'),
            (OSError(errno.ENOSPC, "full"), "cannot write standard output: full"),
        ]:
            told = io.StringIO()
            with mock.patch("sievebench_site.main.main", side_effect=error), mock.patch("sys.stderr", told):
                self.assertEqual(status_of([]), 2)
            self.assertEqual(told.getvalue(), f"sievebench-site: {sentence}\n")
