"""A language server by itself: its answers to messages, over remarks that are made up."""

import json
import queue
import threading
from typing import Any, Dict, List, Optional, Sequence, Tuple, Union
from unittest import mock

from sievebench_site.lsp import serve
from sievebench_site.lsp_frames import Broken, framed
from sievebench_site.lsp_place import Places
from sievebench_site.lsp_remarks import Remark
from sievebench_site.lsp_server import Server
from sievebench_site.lsp_source import Document, Source
from sievebench_site.program import Program

from .room import Room

URI = "file:///nowhere/main.sieve"
SECONDS = 20.0
FACE = "\U0001f600"
Json = Dict[str, Any]
ACTIONS: Json = {
    "textDocument": {"codeAction": {"codeActionLiteralSupport": {"codeActionKind": {"valueSet": ["quickfix"]}}}}
}


def no_program(names: List[bytes]) -> Program:
    """No program is asked here."""
    raise AssertionError(names)


class Stub(Source):
    """Finds each `kep` once it may, and counts its looks."""

    def __init__(self) -> None:
        super().__init__(no_program, [b"vacation", b"mailbox"], Places(None))
        self.free = threading.Event()
        self.free.set()
        self.begun = threading.Event()

    def remarks(self, document: Document, others: Sequence[Document]) -> List[Remark]:
        """The remarks about a document."""
        self.begun.set()
        self.free.wait(SECONDS)
        at = document.text.octets.find(b"kep")
        return [Remark(at, at + 3, "unknown-command", "There is none.", 1)] if at >= 0 else []


def at(line: int, character: int) -> Json:
    """A position."""
    return {"line": line, "character": character}


def between(line: int, character: int, last: int, end: int) -> Json:
    """A range."""
    return {"start": at(line, character), "end": at(last, end)}


class Talk(Room):
    """A server, and the messages that it sends."""

    def setUp(self) -> None:
        super().setUp()
        self.source = Stub()
        self.sent: "queue.Queue[Json]" = queue.Queue()
        self.server = Server(self.write_message, self.source, "1.2.3", 0.01)
        self.addCleanup(self.server.end)
        self.addCleanup(self.source.free.set)
        self.number = 0

    def write_message(self, octets: bytes) -> None:
        """Keeps a message that is sent."""
        header, _, body = octets.partition(b"\r\n\r\n")
        self.assertEqual(header, b"Content-Length: %d" % len(body))
        self.sent.put(json.loads(body))

    def take(self, message: Json) -> None:
        """Has a message taken."""
        self.server.take(json.dumps({"jsonrpc": "2.0", **message}).encode())

    def ask(self, method: str, params: object = None) -> Json:
        """The answer to a request."""
        self.number += 1
        self.take({"id": self.number, "method": method, "params": params})
        found = self.next()
        self.assertEqual(found.pop("id"), self.number)
        self.assertEqual(found.pop("jsonrpc"), "2.0")
        return found

    def code(self, method: str, params: object = None) -> object:
        """The code of the error to a request."""
        return self.ask(method, params)["error"]["code"]

    def next(self) -> Json:
        """The next message that is sent."""
        return self.sent.get(timeout=SECONDS)

    def begin(self, capabilities: Optional[Json] = None) -> Json:
        """Begins, with the client's capabilities."""
        return self.ask("initialize", {"processId": None, "rootUri": None, "capabilities": capabilities or {}})

    def tell(self, method: str, **params: object) -> None:
        """Has a notification taken."""
        self.take({"method": method, "params": params})

    def open(self, text: str, version: int = 1, uri: str = URI) -> None:
        """Opens a document."""
        told = {"uri": uri, "languageId": "sieve", "version": version, "text": text}
        self.tell("textDocument/didOpen", textDocument=told)

    def change(self, version: int, *changes: Json) -> None:
        """Changes the document."""
        told = {"uri": URI, "version": version}
        self.tell("textDocument/didChange", textDocument=told, contentChanges=list(changes))

    def diagnostics(self) -> Any:
        """The next diagnostics."""
        found = self.next()
        self.assertEqual(found["method"], "textDocument/publishDiagnostics")
        return found["params"]


class Life(Talk):
    """How a server begins and ends (Language Server Protocol 3.17, server lifecycle)."""

    def test_initialize(self) -> None:
        found = self.begin()
        sync = {"openClose": True, "change": 2, "save": {"includeText": False}}
        provides = {
            "positionEncoding": "utf-16",
            "textDocumentSync": sync,
            "completionProvider": {"triggerCharacters": [":", '"']},
            "hoverProvider": True,
            "codeActionProvider": False,
        }
        server = {"name": "sievebench-site", "version": "1.2.3"}
        self.assertEqual(found, {"result": {"capabilities": provides, "serverInfo": server}})
        self.assertEqual(self.code("initialize", {"capabilities": {}}), -32600)

    def test_what_the_client_takes(self) -> None:
        rows: List[Tuple[Json, str, object]] = [
            ({"general": {"positionEncodings": ["utf-16", "utf-8"]}}, "utf-8", False),
            ({"general": {"positionEncodings": ["utf-32", "utf-16"]}}, "utf-16", False),
            ({"general": {"positionEncodings": "utf-8"}}, "utf-16", False),
            (ACTIONS, "utf-16", {"codeActionKinds": ["quickfix"]}),
            ({"general": 1, "textDocument": [], "workspace": None}, "utf-16", False),
        ]
        for capabilities, encoding, provider in rows:
            with self.subTest(capabilities=capabilities):
                self.setUp()
                told = self.begin(capabilities)["result"]
                found = told["capabilities"]
                self.assertEqual((found["positionEncoding"], found["codeActionProvider"]), (encoding, provider))

    def test_before_the_beginning(self) -> None:
        for method in ("textDocument/hover", "shutdown", "nothing"):
            self.assertEqual(self.code(method, {}), -32002)
        self.open("kep;")
        self.tell("initialized")
        self.assertTrue(self.sent.empty())
        self.tell("exit")
        self.assertEqual(self.server.status, 1)

    def test_the_end(self) -> None:
        self.begin()
        self.assertEqual(self.ask("shutdown"), {"result": None})
        for method in ("textDocument/hover", "shutdown", "initialize", "nothing"):
            self.assertEqual(self.code(method, {}), -32600)
        self.open("kep;")
        self.assertIsNone(self.server.status)
        self.tell("exit")
        self.assertEqual(self.server.status, 0)
        self.assertTrue(self.sent.empty())

    def test_statuses(self) -> None:
        """The status is 0 after shutdown, and 1 otherwise."""
        begin: Json = {"id": 1, "method": "initialize", "params": {"capabilities": {}}}
        shut: Json = {"id": 2, "method": "shutdown"}
        leave: Json = {"method": "exit"}
        rows: List[Tuple[List[Json], int]] = [
            ([], 1),
            ([begin], 1),
            ([begin, shut], 0),
            ([begin, shut, leave], 0),
            ([begin, leave, shut], 1),
            ([leave], 1),
        ]
        for messages, status in rows:
            with self.subTest(messages=messages):
                self.setUp()
                octets = b"".join(framed(json.dumps({"jsonrpc": "2.0", **it}).encode()) for it in messages)
                pieces = iter([octets[:10], octets[10:]])
                self.assertEqual(serve(lambda: next(pieces, b""), self.server), status)


class Errors(Talk):
    """Messages that are answered by errors, or by nothing."""

    def test_codes(self) -> None:
        self.begin()
        self.assertEqual(self.code("textDocument/definition", {}), -32601)
        self.assertEqual(self.code("$/anything", {}), -32601)
        self.assertEqual(self.code("textDocument/didOpen", {}), -32601)
        self.assertEqual(self.code("exit"), -32601)
        self.assertIsNone(self.server.status)
        pieces: List[Tuple[Union[bytes, Broken], int]] = [
            (b"{", -32700),
            (Broken("so"), -32700),
            (b"[]", -32600),
            (b"[" * 100_000, -32700),
        ]
        for piece, code in pieces:
            self.server.take(piece)
            found = self.next()
            self.assertEqual((found["id"], found["error"]["code"]), (None, code))

    def test_wrong_parameters(self) -> None:
        self.begin(ACTIONS)
        self.open("keep;")
        self.diagnostics()
        name = {"uri": URI}
        rows: List[Any] = [None, {}, [], [1], {"textDocument": name}, {"textDocument": name, "position": 1}]
        wrong: List[object] = [-1, 1.5, True, "1", None, 2**31, 10**30, [], {}]
        rows += [{"textDocument": name, "position": {"line": it, "character": 0}} for it in wrong]
        rows += [{"textDocument": name, "position": {"line": 0, "character": it}} for it in wrong]
        names: List[object] = [None, 1, "x", [], {}, {"uri": 1}, {"uri": None}]
        rows += [{"textDocument": it, "position": at(0, 0)} for it in names]
        for params in rows:
            for method in ("textDocument/hover", "textDocument/completion", "textDocument/codeAction"):
                with self.subTest(params=params, method=method):
                    self.assertEqual(self.code(method, params), -32602)
        ours: Json = {"source": "sievebench", "code": "not-required", "message": "so"}
        for told in (ours, {**ours, "range": 1}, {**ours, "range": {"start": at(0, 0)}}):
            params = {"textDocument": name, "range": between(0, 0, 0, 0), "context": {"diagnostics": [told]}}
            self.assertEqual(self.code("textDocument/codeAction", params), -32602)

    def test_wrong_notifications(self) -> None:
        self.begin()
        self.open("keep;")
        self.diagnostics()
        change: List[object] = [1, {"text": 1}, {"range": 1, "text": ""}, {"range": between(0, 0, 0, -1), "text": "x"}]
        for it in change:
            told = {"uri": URI, "version": 2}
            self.tell("textDocument/didChange", textDocument=told, contentChanges=[{"text": "kep;"}, it])
            self.assertEqual(self.next()["method"], "window/logMessage")
        wrong: List[Json] = [{}, {"textDocument": 1}, {"textDocument": {"uri": 1}}]
        for method in ("didOpen", "didClose", "didSave", "didChange"):
            for params in wrong:
                self.tell(f"textDocument/{method}", **params)
                self.assertEqual(self.next()["method"], "window/logMessage")
        self.assertEqual(self.server.diagnoses.documents[URI].text.text, "keep;")
        self.tell("textDocument/didChange", textDocument={"uri": URI, "version": {}}, contentChanges=7)
        self.assertEqual(self.diagnostics(), {"uri": URI, "diagnostics": []})

    def test_what_says_nothing(self) -> None:
        self.begin()
        self.tell("initialized")
        self.tell("$/cancelRequest", id=1)
        self.tell("workspace/didChangeConfiguration", settings=None)
        self.tell("textDocument/hover")
        self.tell("textDocument/didClose", textDocument={"uri": URI})
        self.change(2, {"text": "kep;"})
        self.take({"id": 9, "result": None})
        self.take({"id": None, "error": {"code": 1, "message": "so"}})
        self.assertTrue(self.sent.empty())

    def test_requests_about_what_is_not_open(self) -> None:
        self.begin()
        params = {"textDocument": {"uri": "file:///x"}, "position": at(0, 0), "range": between(0, 0, 0, 0)}
        for method in ("hover", "completion", "codeAction"):
            self.assertEqual(self.ask(f"textDocument/{method}", params), {"result": None})

    def test_a_fault_of_the_server(self) -> None:
        self.begin()
        self.open("keep;")
        self.diagnostics()
        params = {"textDocument": {"uri": URI}, "position": at(0, 0)}
        with mock.patch.object(self.source, "known", side_effect=ValueError("so")):
            self.assertEqual(self.code("textDocument/completion", params), -32603)
        self.assertEqual(self.ask("textDocument/hover", params)["result"] is None, False)


class Documents(Talk):
    """Documents that are opened, changed and closed, and their diagnostics."""

    def test_diagnostics(self) -> None:
        self.begin()
        self.open(f"# {FACE}\n/* {FACE} */ kep;")
        told: Json = {"severity": 1, "code": "unknown-command", "source": "sievebench", "message": "There is none."}
        wanted = {"range": between(1, 9, 1, 12), **told}
        self.assertEqual(self.diagnostics(), {"uri": URI, "version": 1, "diagnostics": [wanted]})
        self.change(2, {"range": between(1, 9, 1, 12), "text": "keep"})
        self.assertEqual(self.diagnostics(), {"uri": URI, "version": 2, "diagnostics": []})

    def test_octets_of_utf_8(self) -> None:
        self.begin({"general": {"positionEncodings": ["utf-8"]}})
        self.open(f"/* {FACE} */ kep;")
        found = self.diagnostics()
        self.assertEqual(found["diagnostics"][0]["range"], between(0, 11, 0, 14))
        self.change(2, {"range": between(0, 3, 0, 7), "text": "x"})
        self.diagnostics()
        self.assertEqual(self.server.diagnoses.documents[URI].text.text, "/* x */ kep;")

    def test_changes(self) -> None:
        """Several changes are made one after another, each to what the one before left; one without a range is of all."""
        self.begin()
        self.open("a\nb\n")
        self.change(
            2,
            {"range": between(0, 0, 0, 1), "rangeLength": 1, "text": f"{FACE}{FACE}"},
            {"range": between(0, 2, 0, 4), "text": "c\r\n"},
            {"range": between(1, 0, 2, 0), "text": ""},
        )
        self.assertEqual(self.server.diagnoses.documents[URI].text.text, f"{FACE}c\r\nb\n")
        self.change(3, {"text": "x"}, {"range": between(0, 1, 9, 9), "text": "y"})
        self.assertEqual(self.server.diagnoses.documents[URI].text.text, "xy")
        self.assertEqual(self.server.diagnoses.documents[URI].version, 3)

    def test_a_document_that_changes_while_it_is_looked_at(self) -> None:
        self.begin()
        self.source.free.clear()
        self.open("kep;")
        self.source.begun.wait(SECONDS)
        self.change(2, {"text": "\nkep;"})
        # Requests are answered meanwhile, of the text as it is now.
        found = self.ask("textDocument/hover", {"textDocument": {"uri": URI}, "position": at(1, 0)})
        self.assertEqual(found, {"result": None})
        self.source.free.set()
        told = self.diagnostics()
        self.assertEqual((told["version"], told["diagnostics"][0]["range"]), (2, between(1, 0, 1, 3)))

    def test_closing(self) -> None:
        self.begin()
        self.open("kep;")
        self.diagnostics()
        self.tell("textDocument/didClose", textDocument={"uri": URI})
        self.assertEqual(self.diagnostics(), {"uri": URI, "diagnostics": []})
        self.assertEqual(self.server.diagnoses.documents, {})

    def test_saving(self) -> None:
        self.begin()
        self.open("kep;")
        self.diagnostics()
        for method in ("textDocument/didSave", "workspace/didChangeWatchedFiles"):
            self.source.begun.clear()
            self.tell(method, textDocument={"uri": URI}, changes=[])
            self.assertTrue(self.source.begun.wait(SECONDS))
        self.assertTrue(self.sent.empty())

    def test_halves_of_characters(self) -> None:
        self.begin()
        self.open("# \ud800\nkep; \udfff", uri="untitled:\ud800")
        told = self.diagnostics()
        self.assertEqual((told["uri"], told["diagnostics"][0]["range"]), ("untitled:?", between(1, 0, 1, 3)))


class Requests(Talk):
    """Completion, hover and quick fixes."""

    def asked(self, method: str, line: int, character: int) -> Any:
        """The result of a request about a place of the document."""
        params = {"textDocument": {"uri": URI}, "position": at(line, character)}
        return self.ask(f"textDocument/{method}", params)["result"]

    def test_completion(self) -> None:
        self.begin()
        self.open(f'/* {FACE} */ require ["vac"]; fileinto :cr')
        found = self.asked("completion", 0, 22)
        self.assertIs(found["isIncomplete"], False)
        items = {it["label"]: it for it in found["items"]}
        self.assertEqual(items["vacation"]["textEdit"], {"range": between(0, 19, 0, 22), "newText": "vacation"})
        self.assertEqual((items["vacation"]["kind"], items["vacation"]["detail"]), (9, "RFC 5230"))
        self.assertNotIn("date", items)
        found = self.asked("completion", 0, 38)
        self.assertEqual([it["label"] for it in found["items"]], [":flags", ":copy", ":create"])
        self.assertEqual(found["items"][2]["textEdit"], {"range": between(0, 35, 0, 38), "newText": ":create"})
        self.assertEqual(found["items"][2]["documentation"][-38:], 'RFC 5490, section 3.2. It needs "mailbox".'[-38:])

    def test_hover(self) -> None:
        self.begin()
        self.open(f"/* {FACE} */ keep;")
        told = "keep [:flags flags]\n\nStores the message in the user's main mailbox. RFC 5228, section 4.3."
        wanted = {"contents": {"kind": "plaintext", "value": told}, "range": between(0, 9, 0, 13)}
        self.assertEqual(self.asked("hover", 0, 10), wanted)
        self.assertIsNone(self.asked("hover", 0, 4))

    def test_hover_in_markdown(self) -> None:
        self.begin({"textDocument": {"hover": {"contentFormat": ["markdown", "plaintext"]}}})
        self.open('if header :matches "a" "b" {}')
        found = self.asked("hover", 0, 12)
        value = (
            "```sieve\n:matches\n```\nThe value fits the key, in which \\* stands for any text and ? for one character."
        )
        self.assertEqual(found["contents"], {"kind": "markdown", "value": f"{value} RFC 5228, section 2.7.1."})

    def fixes(self, text: str, *diagnostics: Json, **context: object) -> Any:
        """The quick fixes of a text."""
        self.open(text, 4)
        self.diagnostics()
        told: Json = {"diagnostics": list(diagnostics), **context}
        params = {"textDocument": {"uri": URI}, "range": between(0, 0, 9, 0), "context": told}
        return self.ask("textDocument/codeAction", params)["result"]

    def test_quick_fix(self) -> None:
        self.begin(ACTIONS)
        told: Json = {"source": "sievebench", "code": "not-required", "message": "so"}
        fault: Json = {**told, "severity": 1, "range": between(1, 6, 1, 14), "data": {"x": 1}}
        (action,) = self.fixes(f"# {FACE}\n/*{FACE}*/fileinto :create 'x';", fault)
        edit = {"range": between(1, 6, 1, 6), "newText": 'require ["fileinto", "mailbox"]; '}
        wanted = {
            "title": 'Require "fileinto" and "mailbox"',
            "kind": "quickfix",
            "diagnostics": [{**told, "range": between(1, 6, 1, 14)}],
            "isPreferred": True,
            "edit": {"changes": {URI: [edit]}},
        }
        self.assertEqual(action, wanted)
        self.assertEqual(self.fixes('require "fileinto"; fileinto "x";', {**fault, "range": between(0, 20, 0, 28)}), [])

    def test_edits_of_versions(self) -> None:
        self.begin({**ACTIONS, "workspace": {"workspaceEdit": {"documentChanges": True}}})
        fault: Json = {"source": "sievebench", "code": "not-required", "message": "so", "range": between(0, 0, 0, 8)}
        (action,) = self.fixes('fileinto "x";', fault)
        edit = {"range": between(0, 0, 0, 0), "newText": 'require "fileinto";\n'}
        change = {"textDocument": {"uri": URI, "version": 4}, "edits": [edit]}
        self.assertEqual(action["edit"], {"documentChanges": [change]})

    def test_what_is_asked_for(self) -> None:
        self.begin(ACTIONS)
        fault: Json = {"source": "sievebench", "code": "not-required", "message": "so", "range": between(0, 0, 0, 8)}
        rows = [(["quickfix"], 1), ([""], 1), (["refactor"], 0), ([], 0), (["quickfix.all"], 0), ([1], 0)]
        for only, count in rows:
            with self.subTest(only=only):
                found = self.fixes('fileinto "x";', fault, only=only)
                self.assertEqual(len(found), count)
        others: List[Json] = [{"source": "other"}, {"code": "syntax"}, {"code": 1}]
        for other in others:
            self.assertEqual(self.fixes('fileinto "x";', {**fault, **other}), [])

    def test_a_client_without_such_actions(self) -> None:
        self.begin()
        fault: Json = {"source": "sievebench", "code": "not-required", "message": "so", "range": between(0, 0, 0, 8)}
        self.assertEqual(self.fixes('fileinto "x";', fault), [])
