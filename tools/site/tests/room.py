"""A folder of files that are made for a test, and the fake program."""

import contextlib
import os
import pathlib
import signal
import subprocess
import sys
import tempfile
import threading
import time
import unittest
from typing import Dict, Iterator, List, Tuple, Union

from sievebench_site.program import Program

HERE = pathlib.Path(__file__).resolve().parent
FAKE = HERE / "fake_sievebench.py"
# So many seconds a run of the tool has.
PATIENCE = 120.0
Files = Dict[str, Union[bytes, str]]
# One mail whose envelope is known.
MAIL: Files = {"mails/1.eml": "Subject: one\n\n", "envelope": '"" ""\n'}


class Room(unittest.TestCase):
    """A test in a folder of its own."""

    def setUp(self) -> None:
        room = tempfile.TemporaryDirectory()
        self.addCleanup(room.cleanup)
        self.room = pathlib.Path(os.path.realpath(room.name))

    def write(self, files: Files) -> bytes:
        """Makes files, and gives the folder."""
        for name, text in files.items():
            path = self.room / name
            path.parent.mkdir(parents=True, exist_ok=True)
            path.write_bytes(text if isinstance(text, bytes) else text.encode())
        return bytes(self.room)

    def program(self, *names: bytes) -> Program:
        """The fake program."""
        return Program(os.fsencode(FAKE), list(names))

    @contextlib.contextmanager
    def started(
        self, *words: str, heeded: signal.Handlers = signal.SIG_DFL, group: bool = False
    ) -> "Iterator[subprocess.Popen[bytes]]":
        """The tool with these words, in the folder, which heeds Ctrl-C or ignores it, maybe in a group of processes of its own. It is killed at
        the end of the block, and before that where the block takes too long, which fails the test."""
        command, rest = words[:1], words[1:]
        runs = command[0] != "import" and "--merge" not in rest
        program = ["--program", str(FAKE)] if runs and "--program" not in rest else []
        whole = [sys.executable, "-B", str(HERE.parent), *command, *program, *rest]
        pipe, late = subprocess.PIPE, threading.Event()

        def ends() -> None:
            late.set()
            child.kill()

        def begins() -> None:
            # Where the tests run in the background, Ctrl-C may be ignored.
            signal.signal(signal.SIGINT, heeded)
            if group:
                os.setpgid(0, 0)

        with subprocess.Popen(
            whole, cwd=self.room, stdin=subprocess.DEVNULL, stdout=pipe, stderr=pipe, preexec_fn=begins
        ) as child:
            timer = threading.Timer(PATIENCE, ends)
            timer.start()
            try:
                yield child
            finally:
                timer.cancel()
                child.kill()
                if late.is_set():
                    self.fail(f"{' '.join(words)}: no end in {PATIENCE} seconds")

    def await_file(self, child: "subprocess.Popen[bytes]", name: str) -> None:
        """Waits until a process that runs has made a file of the folder."""
        while not (self.room / name).exists():
            if child.poll() is not None:
                self.fail(f"the run has ended with status {child.returncode} and without a file {name}")
            time.sleep(0.01)

    def ran(self, *words: str) -> Tuple[int, List[str], str]:
        """The status, the lines of standard output, and what is on standard error."""
        with self.started(*words) as child:
            output, error = child.communicate()
        return child.returncode, output.decode().splitlines(), error.decode()
