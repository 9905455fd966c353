"""How a run ends: by a sentence and a status, or by a signal, with no child and no half-written file left."""

from __future__ import annotations

import contextlib
import os
import signal
import subprocess
import threading
import time
from types import FrameType
from typing import Callable, Dict, Iterator, NoReturn, Optional, Sequence, Set, Union

Word = Union[bytes, str]


class Refusal(Exception):
    """What ends a run with a sentence: misuse, unless another status is given."""

    def __init__(self, sentence: str, status: int = 2) -> None:
        super().__init__(sentence)
        self.sentence, self.status = sentence, status


class Signalled(BaseException):
    """A signal has ended the run."""

    def __init__(self, status: int) -> None:
        super().__init__(status)
        self.status = status


class Children:
    """The processes that run now. None is begun once a signal has come."""

    def __init__(self) -> None:
        self.running: Set["subprocess.Popen[bytes]"] = set()
        self.starting: Set[int] = set()
        self.status: Optional[int] = None

    @contextlib.contextmanager
    def held(self, start: "Callable[[], subprocess.Popen[bytes]]") -> Iterator["subprocess.Popen[bytes]"]:
        """A process that is started, and ends with the block at the latest. A signal that comes while it starts waits until it is
        known here."""
        self.starting.add(threading.get_ident())
        try:
            child = start()
            self.running.add(child)
        finally:
            self.starting.discard(threading.get_ident())
        try:
            if self.status is not None:
                raise Signalled(self.status)
            yield child
        finally:
            child.kill()
            child.wait()
            for pipe in (child.stdin, child.stdout, child.stderr):
                with contextlib.suppress(OSError):
                    pipe and pipe.close()
            self.running.discard(child)

    def kill(self) -> None:
        """Ends them all at once."""
        for child in list(self.running):
            child.kill()

    def wait(self) -> None:
        """Waits until they have ended, which doesn't take long where they were killed, and first for those that start at this moment."""
        end = time.monotonic() + 1
        while self.starting and time.monotonic() < end:
            time.sleep(0.01)
        for child in list(self.running):
            with contextlib.suppress(subprocess.TimeoutExpired):
                child.wait(1)


CHILDREN = Children()


def ran(
    words: Sequence[Word], folder: Optional[bytes] = None, env: Optional[Dict[str, str]] = None
) -> "subprocess.CompletedProcess[bytes]":
    """Another program that has run to its end, without an input, and what it wrote. A signal ends it too."""
    pipe, none = subprocess.PIPE, subprocess.DEVNULL
    start = lambda: subprocess.Popen(words, cwd=folder, env=env, stdin=none, stdout=pipe, stderr=pipe)  # noqa: E731
    with CHILDREN.held(start) as child:
        output, error = child.communicate()
    return subprocess.CompletedProcess(words, child.returncode, output, error)


def refuse(sentence: str) -> NoReturn:
    """Ends the run with a sentence, as misuse."""
    raise Refusal(sentence)


def fail(sentence: str) -> NoReturn:
    """Ends the run with a sentence, since another program can't be run."""
    raise Refusal(sentence, 3)


def by_signal(number: int, frame: Optional[FrameType]) -> None:
    """Ends the children, and unwinds the run."""
    CHILDREN.status = 128 + number
    CHILDREN.kill()
    if threading.get_ident() not in CHILDREN.starting:
        raise Signalled(CHILDREN.status)


def arm() -> None:
    """Lets Ctrl-C and SIGTERM end the run, where they aren't ignored from its start."""
    for number in (signal.SIGINT, signal.SIGTERM):
        if signal.getsignal(number) != signal.SIG_IGN:
            signal.signal(number, by_signal)


def pipe_broke() -> NoReturn:
    """The quiet end where nobody reads on."""
    signal.signal(signal.SIGPIPE, signal.SIG_DFL)
    os.kill(os.getpid(), signal.SIGPIPE)
    os._exit(141)
