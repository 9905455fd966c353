"""An editor that speaks with the command lsp."""

import json
import queue
import signal
import subprocess
import sys
import threading
from types import TracebackType
from typing import Any, Dict, List, Optional, Type

from .room import FAKE, HERE, PATIENCE

Json = Dict[str, Any]


class Editor:
    """The tool in a process of its own, with a folder to run in. It is killed at the end of the block."""

    def __init__(self, folder: object, *words: str, program: object = FAKE) -> None:
        command = [sys.executable, "-B", str(HERE.parent), "lsp", "--program", str(program), *words]
        pipe = subprocess.PIPE
        # Where the tests run in the background, Ctrl-C may be ignored.
        heeds = lambda: signal.signal(signal.SIGINT, signal.SIG_DFL)  # noqa: E731
        self.process = subprocess.Popen(
            command, cwd=str(folder), stdin=pipe, stdout=pipe, stderr=pipe, preexec_fn=heeds
        )
        self.read: "queue.Queue[Optional[Json]]" = queue.Queue()
        self.number = 0
        self.timer = threading.Timer(PATIENCE, self.process.kill)
        self.thread = threading.Thread(target=self.reads, daemon=True)

    def __enter__(self) -> "Editor":
        self.timer.start()
        self.thread.start()
        return self

    def __exit__(self, kind: Optional[Type[BaseException]], error: object, trace: Optional[TracebackType]) -> None:
        self.timer.cancel()
        self.process.kill()
        self.process.wait()
        self.thread.join()
        for pipe in (self.process.stdin, self.process.stdout, self.process.stderr):
            assert pipe
            try:
                pipe.close()
            except BrokenPipeError:
                pass

    def reads(self) -> None:
        """Reads messages to the end."""
        output = self.process.stdout
        assert output
        for line in iter(output.readline, b""):
            assert line.startswith(b"Content-Length: ") and line.endswith(b"\r\n"), line
            assert output.readline() == b"\r\n"
            self.read.put(json.loads(output.read(int(line[16:]))))
        self.read.put(None)

    def write(self, octets: bytes) -> None:
        """Writes octets."""
        assert self.process.stdin
        self.process.stdin.write(octets)
        self.process.stdin.flush()

    def send(self, message: Json) -> None:
        """Sends a message."""
        body = json.dumps({"jsonrpc": "2.0", **message}).encode()
        self.write(b"Content-Length: %d\r\n\r\n%s" % (len(body), body))

    def next(self) -> Json:
        """The next message of the server's."""
        found = self.read.get(timeout=PATIENCE)
        if found is None:
            raise AssertionError(f"no message comes any more: {self.said()}")
        return found

    def said(self) -> str:
        """All that is on standard error, once the process has ended."""
        assert self.process.stderr
        return self.process.stderr.read().decode()

    def ask(self, method: str, params: object = None) -> Any:
        """The result of a request, or its error."""
        self.number += 1
        self.send({"id": self.number, "method": method, "params": params})
        found = self.next()
        while found.get("id") != self.number:
            found = self.next()
        return found["result"] if "result" in found else found["error"]

    def tell(self, method: str, **params: object) -> None:
        """Sends a notification."""
        self.send({"method": method, "params": params})

    def begin(self, **capabilities: object) -> Any:
        """Begins."""
        params = {"processId": None, "rootUri": None, "capabilities": capabilities}
        result = self.ask("initialize", params)
        self.tell("initialized")
        return result

    def open(self, uri: str, text: str) -> None:
        """Opens a document."""
        told = {"uri": uri, "languageId": "sieve", "version": 1, "text": text}
        self.tell("textDocument/didOpen", textDocument=told)

    def change(self, uri: str, version: int, *changes: Json) -> None:
        """Changes a document."""
        told = {"uri": uri, "version": version}
        self.tell("textDocument/didChange", textDocument=told, contentChanges=list(changes))

    def diagnostics(self, uri: str) -> List[Json]:
        """The next diagnostics of a document."""
        while True:
            found = self.next()
            if found.get("method") == "textDocument/publishDiagnostics" and found["params"]["uri"] == uri:
                told: List[Json] = found["params"]["diagnostics"]
                return told

    def end(self) -> int:
        """Shuts the server down, and gives the status."""
        self.ask("shutdown")
        self.tell("exit")
        return self.process.wait(PATIENCE)
