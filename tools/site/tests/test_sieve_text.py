"""Texts of scripts, and what is made from them."""

import unittest

from sievebench_site.sieve_text import lines_with, required, with_flags, without_actions

SCRIPT = b"""# require "x";
require "fileinto"; /* ; */ require [
  "imap4flags", "a\\"b"
]; keep;
if header "subject" text: # keep
keep;
..
.
{ Keep :flags "a;b"; fileinto text:
;
.
; stop; }
"""


class Texts(unittest.TestCase):
    """Tokens, and texts in which no line moves."""

    def test_required(self) -> None:
        end, names = required(SCRIPT)
        self.assertEqual(names, [b"fileinto", b"imap4flags", b'a"b'])
        self.assertEqual(SCRIPT[:end][-2:], b"];")
        for text in (b"", b'keep; require "a";', b'require "a" {', b'require "a"', b'"a";'):
            with self.subTest(text=text):
                self.assertEqual(required(text), (0, []))

    def test_with_flags(self) -> None:
        text = with_flags(SCRIPT, (b"$X", b"\\Seen"))
        self.assertIn(b'\n]; addflag ["$X", "\\\\Seen"]; keep;\n', text)
        self.assertEqual(text.count(b"\n"), SCRIPT.count(b"\n"))
        self.assertEqual(with_flags(SCRIPT, ()), SCRIPT)
        self.assertEqual(with_flags(b"# a\nkeep;", [b"a"]), b' require "imap4flags"; addflag ["a"];# a\nkeep;')
        text = with_flags(b'require "fileinto";\nkeep;', [b"a"])
        self.assertEqual(text, b'require "fileinto"; require "imap4flags"; addflag ["a"];\nkeep;')

    def test_without_actions(self) -> None:
        text = without_actions(SCRIPT)
        self.assertEqual(text.count(b"\n"), SCRIPT.count(b"\n"))
        self.assertNotIn(b"fileinto text", text)
        self.assertNotIn(b"Keep", text)
        for kept in (b'require "fileinto";', b"text: # keep\nkeep;\n..\n.\n", b"stop; }", b"# require"):
            self.assertIn(kept, text)
        text = without_actions(b'discard; redirect :copy "a"; vacation "keep;"; reject "x"; if true {fileinto\n"A";}')
        self.assertEqual(text.split(), [b"vacation", b'"keep;";', b"reject", b'"x";', b"if", b"true", b"{", b"}"])

    def test_lines_with(self) -> None:
        text = b'# currentdate\nif CurrentDate "a" {} /* currentdate\n*/ elsif "currentdate" currentdate {}\n'
        self.assertEqual(lines_with(text, b"currentdate"), [2, 3])
