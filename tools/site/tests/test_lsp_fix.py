"""The edit by which a script requires more. `tools/checks` asks the program of scripts that are edited so."""

import unittest
from typing import Dict, List, Tuple

from sievebench_site.lsp_fix import lacking, requiring
from sievebench_site.sieve_text import required
from sievebench_site.vocabulary import CAPABILITIES

ALL = set(CAPABILITIES)


def edited(text: bytes, *names: str) -> bytes:
    """The text after its edit."""
    edit = requiring(text, list(names))
    return text[: edit.start] + edit.new + text[edit.end :]


class Requires(unittest.TestCase):
    """Scripts that are edited."""

    def test_one_that_requires(self) -> None:
        rows: Dict[bytes, bytes] = {
            b'require "a"; keep;': b'require ["a", "copy"]; keep;',
            b'require ["a"]; keep;': b'require ["a", "copy"]; keep;',
            b'require ["a", "b"];': b'require ["a", "b", "copy"];',
            b'require ["a","b"];': b'require ["a","b", "copy"];',
            b'REQUIRE["a"];': b'REQUIRE["a", "copy"];',
            b'# c\nrequire "a"; # d\nrequire "b";': b'# c\nrequire ["a", "copy"]; # d\nrequire "b";',
            b'require [\n  "a",\n  "b"\n];\n': b'require [\n  "a",\n  "b",\n  "copy"\n];\n',
            b'require [\r\n\t"a",\r\n\t"b"];\r\n': b'require [\r\n\t"a",\r\n\t"b",\r\n\t"copy"];\r\n',
            b'require [ # x\n  "a", # one\n  "b" # two\n];': b'require [ # x\n  "a", # one\n  "b",\n  "copy" # two\n];',
            b"require text:\na\n.\n;": b'require [text:\na\n.\n, "copy"];',
            b'require ["a" /* ] */ ];': b'require ["a", "copy" /* ] */ ];',
        }
        for text, wanted in rows.items():
            with self.subTest(text=text):
                self.assertEqual(edited(text, "copy"), wanted)
                self.assertIn(b"copy", required(edited(text, "copy"))[1])

    def test_one_that_does_not(self) -> None:
        rows: Dict[bytes, bytes] = {
            b"keep;": b'require "copy";\nkeep;',
            b"": b'require "copy";\n',
            b"# rules of Ada\n\nkeep;\n": b'# rules of Ada\n\nrequire "copy";\nkeep;\n',
            b"/* rules\n   of Ada */\nkeep;": b'/* rules\n   of Ada */\nrequire "copy";\nkeep;',
            b"/* c */ keep;": b'/* c */ require "copy"; keep;',
            b"# c\r\nkeep;\r\n": b'# c\r\nrequire "copy";\r\nkeep;\r\n',
            b"  keep;": b'require "copy";\n  keep;',
            b'keep; require "a";': b'require "copy";\nkeep; require "a";',
        }
        for text, wanted in rows.items():
            with self.subTest(text=text):
                self.assertEqual(edited(text, "copy"), wanted)
                self.assertEqual(required(edited(text, "copy"))[1], [b"copy"])

    def test_several(self) -> None:
        self.assertEqual(edited(b"keep;", "include", "variables"), b'require ["include", "variables"];\nkeep;')
        self.assertEqual(edited(b'require "a";', "include", "variables"), b'require ["a", "include", "variables"];')


class Lacking(unittest.TestCase):
    """The capabilities that a script lacks at a place."""

    def test_lacking(self) -> None:
        script = b'require "copy";\nfileinto :copy "a"; keep :flags "b"; addflag\n"x" "y";\nredirect :copy "c"; stop;\n'
        rows: List[Tuple[bytes, List[str]]] = [
            (b"fileinto", ["fileinto"]),
            (b":flags", ["imap4flags"]),
            (b"addflag", ["imap4flags", "variables"]),
            (b'"x"', ["imap4flags", "variables"]),
            (b":copy", ["fileinto"]),
            (b'"b"', ["fileinto"]),
            (b"redirect", []),
            (b"stop", []),
            (b"require", []),
        ]
        for word, wanted in rows:
            with self.subTest(word=word):
                self.assertEqual(lacking(script, script.index(word), ALL), wanted)

    def test_what_is_not_known(self) -> None:
        self.assertEqual(lacking(b'fileinto :create "a";', 0, ALL - {"mailbox"}), ["fileinto"])
        self.assertEqual(lacking(b'vacation "a";', 0, ALL - {"vacation"}), [])

    def test_any_place(self) -> None:
        text = b'\xff"\\":;:::{}[]( require "a\xff"; fileinto text: /* # \n "\xc3'
        for at in range(len(text) + 2):
            requiring(text[:at], lacking(text, at, ALL) or ["copy"])
