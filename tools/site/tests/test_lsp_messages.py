"""Messages of JSON-RPC, sound and hostile."""

import json
import time
import unittest
from typing import Dict, Optional, Tuple, Union

from sievebench_site.lsp_messages import Call, Failure, answer, call_in, failed, notice, octets_of

Outcome = Tuple[int, Optional[Union[int, str]]]


def fails(body: bytes) -> Outcome:
    """The code and the id with which a body is answered."""
    try:
        return 0, str(call_in(body))
    except Failure as failure:
        return failure.code, failure.id


class Messages(unittest.TestCase):
    """Calls (JSON-RPC 2.0; Language Server Protocol 3.17, base protocol)."""

    def test_calls(self) -> None:
        rows: Dict[bytes, Optional[Call]] = {
            b'{"jsonrpc": "2.0", "id": 1, "method": "a", "params": {"b": [1.5]}}': Call("a", {"b": [1.5]}, 1),
            b'{"jsonrpc": "2.0", "id": "1", "method": "a", "params": []}': Call("a", [], "1"),
            b'{"jsonrpc": "2.0", "id": 0, "method": "a"}': Call("a", None, 0),
            b'{"jsonrpc": "2.0", "id": "", "method": "a", "params": null}': Call("a", None, ""),
            b'{"jsonrpc": "2.0", "method": "$/x", "params": {}}': Call("$/x", {}, None),
            b'{"jsonrpc": "2.0", "id": 1, "result": null}': None,
            b'{"jsonrpc": "2.0", "id": null, "error": {"code": 1, "message": ""}}': None,
        }
        for body, wanted in rows.items():
            with self.subTest(body=body):
                self.assertEqual(call_in(body), wanted)

    def test_examples_of_the_specification(self) -> None:
        """Section 7 of JSON-RPC 2.0. Several calls in one array aren't taken."""
        self.assertEqual(fails(b'{"jsonrpc": "2.0", "method": "foobar, "params": "bar", "baz]'), (-32700, None))
        self.assertEqual(fails(b'{"jsonrpc": "2.0", "method": 1, "params": "bar"}'), (-32600, None))
        self.assertEqual(fails(b"[]"), (-32600, None))
        self.assertEqual(fails(b"[1]"), (-32600, None))
        self.assertEqual(fails(b'[{"jsonrpc": "2.0", "method": "sum", "id": "1"}]'), (-32600, None))

    def test_invalid_requests(self) -> None:
        rows: Dict[bytes, Outcome] = {
            b"1": (-32600, None),
            b"null": (-32600, None),
            b'"method"': (-32600, None),
            b"{}": (-32600, None),
            b'{"id": 1, "method": "a"}': (-32600, 1),
            b'{"jsonrpc": "1.0", "id": 1, "method": "a"}': (-32600, 1),
            b'{"jsonrpc": 2.0, "id": 1, "method": "a"}': (-32600, 1),
            b'{"jsonrpc": "2.0", "id": "x"}': (-32600, "x"),
            b'{"jsonrpc": "2.0", "id": 7, "method": null}': (-32600, 7),
            b'{"jsonrpc": "2.0", "id": 7, "method": ["a"]}': (-32600, 7),
            b'{"jsonrpc": "2.0", "id": 7, "method": "a", "params": "b"}': (-32600, 7),
            b'{"jsonrpc": "2.0", "id": 7, "method": "a", "params": 0}': (-32600, 7),
            b'{"jsonrpc": "2.0", "id": null, "method": "a"}': (-32600, None),
            b'{"jsonrpc": "2.0", "id": true, "method": "a"}': (-32600, None),
            b'{"jsonrpc": "2.0", "id": 1.5, "method": "a"}': (-32600, None),
            b'{"jsonrpc": "2.0", "id": {}, "method": "a"}': (-32600, None),
        }
        for body, wanted in rows.items():
            with self.subTest(body=body):
                self.assertEqual(fails(body), wanted)

    def test_bodies_that_cannot_be_read(self) -> None:
        deep, call = 1_000_000, b'{"jsonrpc": "2.0", "id": 1, "method": "a", "params": '
        for body in (
            b"",
            b"{",
            b"\xff",
            b"\xef\xbb\xbf{}",
            call + b'["\xfc"]}',
            call + b'["\xed\xa0\x80"]}',
            '{"jsonrpc"'.encode("utf-16"),
            b"[" * deep,
            b"[" * deep + b"]" * deep,
            b'{"a":' * deep + b"1" + b"}" * deep,
            call + b"[" * deep + b"]" * deep + b"}",
            call + b"[NaN]}",
            call + b"[Infinity]}",
            call + b"[" + b"9" * 1_000_000 + b"]}",
            call + b"[0." + b"9" * 1_000_000 + b"]}",
            call + b"[1]}}",
        ):
            with self.subTest(body=body[:100]):
                began = time.monotonic()
                self.assertEqual(fails(body), (-32700, None))
                self.assertLess(time.monotonic() - began, 10)

    def test_halves_of_characters(self) -> None:
        call = call_in(b'{"jsonrpc": "2.0", "id": "\\ud83d", "method": "\\ude00", "params": ["\\ud83d\\ude00"]}')
        self.assertEqual(call, Call("\ude00", ["\U0001f600"], "\ud83d"))
        assert call
        self.assertEqual(
            octets_of(answer(call.id, ["\ud800a\U0001f600"])).decode(),
            '{"jsonrpc":"2.0","id":"?","result":["?a\U0001f600"]}',
        )

    def test_answers(self) -> None:
        self.assertEqual(json.loads(octets_of(answer(1, None))), {"jsonrpc": "2.0", "id": 1, "result": None})
        error = {"jsonrpc": "2.0", "id": None, "error": {"code": -32700, "message": "so"}}
        self.assertEqual(json.loads(octets_of(failed(Failure(-32700, "so")))), error)
        self.assertEqual(json.loads(octets_of(notice("a", [1]))), {"jsonrpc": "2.0", "method": "a", "params": [1]})
