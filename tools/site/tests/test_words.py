"""Words of sessions, by hand and by the tool."""

import unittest
from typing import List, Optional, Tuple

from sievebench_site import words


class Words(unittest.TestCase):
    """What is quoted and what is read."""

    def test_words_of(self) -> None:
        rows: List[Tuple[bytes, Optional[List[bytes]]]] = [
            (b"", []),
            (b"  # store", []),
            (b'  store "A b" "\\\\Seen" # that is all', [b"store", b'"A b"', b'"\\\\Seen"']),
            (b'store "#1"#x', [b"store", b'"#1"']),
            (b'store "B\xc3\xbcro"\r', [b"store", b'"B\xc3\xbcro"']),
            (b"b\xc3\xbcro a#b", [b"b\xc3\xbcro", b"a#b"]),
            (b'store "A', None),
            (b'store "\\n"', None),
            (b'store"A"', None),
            (b'""a', None),
            (b"a\x00", None),
        ]
        for text, wanted in rows:
            with self.subTest(text=text):
                self.assertEqual(words.words_of(text), wanted)

    def test_unquoted(self) -> None:
        for word, wanted in [
            (b"a", b"a"),
            (b'""', b""),
            (b'"\\xC3\\xbc\\"\\\\"', b'\xc3\xbc"\\'),
            (b'"\\\\x41"', b"\\x41"),
        ]:
            with self.subTest(word=word):
                self.assertEqual(words.unquoted(word), wanted)

    def test_word_of(self) -> None:
        rows = [(b"a/b-1", "a/b-1"), (b"", '""'), (b"a b", '"a b"'), (b"[a]", '"[a]"'), (b"#a", '"#a"'), (b"a#", "a#")]
        for octets, wanted in [*rows, (b"\xc3\x9f\n", '"\\xc3\\x9f\\x0a"'), (b'"\\', '"\\"\\\\"')]:
            with self.subTest(octets=octets):
                self.assertEqual(words.word_of(octets), wanted)
                self.assertEqual(words.unquoted(wanted.encode()), octets)

    def test_quoted(self) -> None:
        for octets, wanted in [(b" ~", '" ~"'), (b"\x1f\x7f\x80\xff", '"\\x1f\\x7f\\x80\\xff"'), (b'"\\', '"\\"\\\\"')]:
            with self.subTest(octets=octets):
                self.assertEqual(words.quoted(octets), wanted)

    def test_line(self) -> None:
        self.assertEqual(words.line("message", [b"a b"], b"x\n"), b'message "a b" 2\nx\n')
        self.assertEqual(words.line("message", [b"a"], b""), b'message "a" 0\n')
        self.assertEqual(words.line("report", []), b"report\n")

    def test_lines_of(self) -> None:
        self.assertEqual(words.lines_of(b"a\r\n\nb\r\r\nc\r"), [b"a", b"", b"b\r", b"c\r"])
        self.assertEqual(words.lines_of(b""), [])
