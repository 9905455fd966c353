"""The command lsp: a server of the Language Server Protocol 3.17 over standard input and output."""

from __future__ import annotations

import os
import sys
import threading
from typing import Callable

from .ends import refuse
from .lsp_frames import Frames
from .lsp_server import Server

# So many octets of messages are read at once.
OCTETS = 1 << 16


def serve(read: Callable[[], bytes], server: Server) -> int:
    """Takes messages until one ends the run or no more come, and gives the status."""
    frames = Frames()
    try:
        for octets in iter(read, b""):
            for piece in frames.feed(octets):
                server.take(piece)
                if server.status is not None:
                    return server.status
        return int(not server.is_shut)
    finally:
        server.end()


def standard_input() -> bytes:
    """The next octets of standard input."""
    try:
        return os.read(0, OCTETS)
    except OSError as error:
        refuse(f"cannot read standard input: {error.strerror or error}")


class Output:
    """Standard output, to which two threads write whole messages."""

    def __init__(self) -> None:
        self.lock = threading.Lock()

    def write(self, octets: bytes) -> None:
        """Writes a message."""
        with self.lock:
            sys.stdout.buffer.write(octets)
            sys.stdout.buffer.flush()
