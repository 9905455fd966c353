"""The code of scripts, as it is dumped."""

import unittest

from sievebench_site.code import Code
from sievebench_site.mains import Script

SCRIPT = Script("personal", b"a", b"a.sieve", b"")


class Codes(unittest.TestCase):
    """What operations do."""

    def test_actions(self) -> None:
        rows = [
            (b'3: fileinto "" internal @2', [(2, b'require "fileinto"; fileinto "";')]),
            (b'3: fileinto "" flags ["a", "b"] @2', [(2, b'require "fileinto"; fileinto "";')]),
            (
                b'3: fileinto "a]" flags ["b"] create special-use "x"+local(y) copy @2',
                [(2, b'require "fileinto"; fileinto "a]";')],
            ),
            (b'3: fileinto "a"+local(y) internal @2', []),
            (b'3: redirect "" copy @7', [(7, b'redirect "";')]),
            (b'3: vacation "x" @7', []),
        ]
        for operation, wanted in rows:
            with self.subTest(operation=operation):
                code = Code([SCRIPT], {SCRIPT.at(): [operation]}, set())
                self.assertEqual([(it.line, it.shown) for it in code.actions()], wanted)

    def test_plain_stores(self) -> None:
        rows = [
            (b'3: fileinto "A" internal @2', [(2, b"A", False)]),
            (b'3: fileinto "A" flags ["a"] copy @7', [(7, b"A", False)]),
            (b'3: fileinto "A" internal special-use "\\\\Junk" @2', [(2, b"A", True)]),
            (b'3: fileinto "A" flags ["a"] special-use "x"+local(y) copy @2', [(2, b"A", True)]),
            (b'3: fileinto "A" internal create @2', []),
            (b'3: fileinto "A" internal create special-use "\\\\Junk" @2', []),
            (b'3: fileinto "a"+local(y) internal @2', []),
        ]
        for operation, wanted in rows:
            with self.subTest(operation=operation):
                code = Code([SCRIPT], {SCRIPT.at(): [operation]}, set())
                self.assertEqual([(it.line, it.mailbox, it.use) for it in code.plain_stores()], wanted)
