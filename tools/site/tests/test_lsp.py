"""The command lsp in a process of its own, by the fake program: a client speaks with it."""

import os
import pathlib
import signal
import subprocess
import sys
import time
from typing import Any, Dict, List

from .editor import Editor
from .room import FAKE, HERE, PATIENCE, Room

MESSAGE = b'{"jsonrpc":"2.0","id":1,"method":"initialize","params":{"capabilities":{}}}'
# A program that tells its version, and begins no session.
STUCK = f'#!/bin/sh\n[ "$1" != --version ] || exec {FAKE} --version\n: > asleep\nexec sleep 100\n'
DYING = f'#!/bin/sh\n[ "$1" != --version ] || exec {FAKE} --version\necho so >&2\nexit 4\n'


def children(process: int) -> List[str]:
    """The processes below another."""
    return [it for task in pathlib.Path(f"/proc/{process}/task").glob("*/children") for it in task.read_text().split()]


class Speaks(Room):
    """Whole conversations."""

    def uri(self, path: str) -> str:
        """The URI of a file."""
        return (self.room / path).as_uri()

    def made(self, text: str) -> pathlib.Path:
        """Another program."""
        path = self.room / "program"
        path.write_text(text)
        path.chmod(0o755)
        return path

    def test_a_conversation(self) -> None:
        self.write({"site/mains": "main\n", "site/personal/main.sieve": "", "site/with": "vacation\n"})
        uri = self.uri("site/personal/main.sieve")
        actions = {"codeAction": {"codeActionLiteralSupport": {"codeActionKind": {"valueSet": ["quickfix"]}}}}
        with Editor(self.room) as editor:
            self.assertEqual(editor.begin(textDocument=actions)["capabilities"]["hoverProvider"], True)
            editor.open(uri, "# \U0001f600\nkep;\n")
            (told,) = editor.diagnostics(uri)
            place = {"start": {"line": 1, "character": 0}, "end": {"line": 1, "character": 3}}
            self.assertEqual((told["range"], told["code"], told["severity"]), (place, "unknown-command", 1))
            editor.change(uri, 2, {"range": place, "text": "keep"})
            self.assertEqual(editor.diagnostics(uri), [])
            editor.change(uri, 3, {"text": 'fileinto :copy "a";'})
            at: Dict[str, Any] = {"textDocument": {"uri": uri}, "position": {"line": 0, "character": 2}}
            self.assertIn("RFC 5228, section 4.1", editor.ask("textDocument/hover", at)["contents"]["value"])
            labels = {it["label"] for it in editor.ask("textDocument/completion", at)["items"]}
            self.assertLessEqual({"fileinto", "vacation", "require"}, labels)
            place = {"start": {"line": 0, "character": 0}, "end": {"line": 0, "character": 8}}
            fault: Dict[str, Any] = {"source": "sievebench", "code": "not-required", "message": "", "range": place}
            params = {**at, "range": fault["range"], "context": {"diagnostics": [fault]}}
            (action,) = editor.ask("textDocument/codeAction", params)
            (edit,) = action["edit"]["changes"][uri]
            self.assertEqual(edit["newText"], 'require ["fileinto", "copy"];\n')
            editor.tell("textDocument/didSave", textDocument={"uri": uri})
            editor.tell("textDocument/didClose", textDocument={"uri": uri})
            self.assertEqual(editor.diagnostics(uri), [])
            self.assertEqual((editor.end(), editor.said()), (0, ""))

    def test_the_scripts_of_a_site(self) -> None:
        self.write({"site/mains": "main\n", "site/personal/part.sieve": "keep;"})
        main, part = (self.uri(f"site/personal/{name}.sieve") for name in ("main", "part"))
        text = 'require "include"; include "part";'
        self.write({"site/personal/main.sieve": text})
        with Editor(self.room) as editor:
            editor.begin()
            editor.open(main, text)
            self.assertEqual(editor.diagnostics(main), [])
            # The document's text counts, which isn't saved, and the script that includes it is looked at again.
            editor.open(part, "kep;")
            self.assertEqual([it["code"] for it in editor.diagnostics(main)], ["invalid-script"])
            editor.change(part, 2, {"text": "stop;"})
            self.assertEqual(editor.diagnostics(main), [])
            os.unlink(self.room / "site/personal/part.sieve")
            editor.tell("textDocument/didClose", textDocument={"uri": part})
            self.assertEqual([it["code"] for it in editor.diagnostics(main)], ["missing-script"])
            self.assertEqual(editor.end(), 0)

    def test_octets_one_at_a_time(self) -> None:
        with Editor(self.room, "--stdio") as editor:
            for octet in b"Content-Length: %d\r\n\r\n%s" % (len(MESSAGE), MESSAGE):
                editor.write(bytes([octet]))
            self.assertEqual(editor.next()["id"], 1)
            self.assertEqual(editor.end(), 0)

    def test_hostile_octets(self) -> None:
        with Editor(self.room) as editor:
            editor.write(b"\xff\xfe" * 5_000 + b"\r\n\r\nContent-Length: 99999999999999999999\r\n\r\n")
            editor.write(b"Content-Length: 100000\r\n\r\n" + b"[" * 100_000)
            editor.write(b'Content-Length: 3\r\n\r\n"\xff"')
            codes = [editor.next()["error"]["code"] for _ in range(3)]
            self.assertEqual(codes, [-32700] * 3)
            editor.begin()
            editor.open("untitled:1", "\ud800\x00 kep; \uffff")
            editor.diagnostics("untitled:1")
            self.assertEqual(editor.end(), 0)

    def test_ends(self) -> None:
        with Editor(self.room) as editor:
            editor.begin()
            editor.tell("exit")
            self.assertEqual(editor.process.wait(PATIENCE), 1)
        with Editor(self.room) as editor:
            assert editor.process.stdin
            editor.process.stdin.close()
            self.assertEqual((editor.process.wait(PATIENCE), editor.said()), (1, ""))

    def test_signals(self) -> None:
        for number in (signal.SIGINT, signal.SIGTERM):
            with Editor(self.room) as editor:
                editor.begin()
                editor.open("untitled:1", "kep;")
                editor.diagnostics("untitled:1")
                below = children(editor.process.pid)
                editor.process.send_signal(number)
                self.assertEqual((editor.process.wait(PATIENCE), editor.said()), (128 + number, ""))
                self.assertEqual([it for it in below if os.path.exists(f"/proc/{it}")], [])
                self.assertEqual(len(below), 1)

    def test_nobody_reads(self) -> None:
        words = [sys.executable, "-B", str(HERE.parent), "lsp", "--program", str(FAKE)]
        pipe = subprocess.PIPE
        with subprocess.Popen(words, cwd=self.room, stdin=pipe, stdout=pipe, stderr=pipe) as child:
            assert child.stdin and child.stdout and child.stderr
            child.stdout.close()
            child.stdin.write(b"Content-Length: %d\r\n\r\n%s" % (len(MESSAGE), MESSAGE))
            child.stdin.flush()
            self.assertEqual((child.wait(PATIENCE), child.stderr.read()), (-signal.SIGPIPE, b""))

    def test_a_program_that_hangs(self) -> None:
        program = self.made(STUCK)
        with Editor(self.room, program=program) as editor:
            editor.begin()
            editor.open("untitled:1", "keep;")
            while not (self.room / "asleep").exists():
                time.sleep(0.01)
            at = {"textDocument": {"uri": "untitled:1"}, "position": {"line": 0, "character": 0}}
            self.assertIn("keep", editor.ask("textDocument/hover", at)["contents"]["value"])
            began = time.monotonic()
            self.assertEqual(editor.end(), 0)
            self.assertLess(time.monotonic() - began, 10)

    def test_a_program_that_fails(self) -> None:
        with Editor(self.room, program=self.made(DYING)) as editor:
            editor.begin()
            editor.open("untitled:1", "kep;")
            found = editor.next()
            self.assertEqual((found["method"], found["params"]["type"]), ("window/showMessage", 1))
            self.assertIn('ended with status 4: "so"', found["params"]["message"])
            self.assertEqual(editor.diagnostics("untitled:1"), [])
            self.assertEqual(editor.end(), 0)

    def test_words(self) -> None:
        rows: Dict[str, List[str]] = {
            'argument --with: "vacatio" can\'t be asked for: did you mean vacation?': ["lsp", "--with", "body,vacatio"],
            'argument --with: "fileinto" is always known': ["lsp", "--with=fileinto"],
            f'no folder "{self.room}/gone": the site is one': ["lsp", "gone"],
            "one folder is wanted, the site": ["lsp", "a", "b"],
            "unrecognized arguments: --lax": ["lsp", "--lax"],
        }
        for sentence, words in rows.items():
            with self.subTest(words=words):
                status, told, error = self.ran(*words)
                self.assertEqual((status, told), (2, []))
                self.assertTrue(error.startswith(f"sievebench-site: {sentence}"), error)
        status, _, error = self.ran("lsp", "--program", "./gone")
        self.assertEqual((status, error), (3, 'sievebench-site: cannot run "./gone": No such file or directory\n'))
        self.assertEqual(self.ran("lsp"), (1, [], ""))

    def test_a_site_and_names_that_are_given(self) -> None:
        self.write({"site/personal/main.sieve": ""})
        uri = self.uri("site/personal/main.sieve")
        with Editor(self.room, "--with", "mailbox", "site") as editor:
            editor.begin()
            editor.open(uri, 'require "include"; include "gone";')
            self.assertEqual([it["code"] for it in editor.diagnostics(uri)], ["missing-script"])
            editor.open("untitled:1", 'require "vacation";')
            self.assertEqual([it["code"] for it in editor.diagnostics("untitled:1")], ["not judged"])
            editor.change("untitled:1", 2, {"text": 'require "mailbox";'})
            self.assertEqual(editor.diagnostics("untitled:1"), [])
            self.assertEqual(editor.end(), 0)
