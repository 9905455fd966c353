"""Tokens of scripts."""
import unittest
from typing import List

from sievebench_site.tokens import tokens


def told(text: bytes) -> List[str]:
    """The tokens, each with its octets and its line."""
    return [f"{it.kind} {text[it.start:it.end].decode('latin-1')} {it.line}" for it in tokens(text)]


class Tokens(unittest.TestCase):
    """What the program cuts alike."""

    def test_kinds(self) -> None:
        rows = {
            b"If:Is 10K7kx": ["Identifier If 1", "Tag :Is 1", "Number 10K 1", "Number 7k 1", "Identifier x 1"],
            b';,{}[]()"a"': [
                "Semicolon ; 1",
                "Comma , 1",
                "OpenBrace { 1",
                "CloseBrace } 1",
                "OpenBracket [ 1",
                "CloseBracket ] 1",
                "OpenParenthesis ( 1",
                "CloseParenthesis ) 1",
                'Quoted "a" 1',
            ],
            b'"a\n\\"b" # c\n/* \n */x': ['Quoted "a\n\\"b" 1', "Identifier x 4"],
            b"TEXT: \t# a\n..\n.\r\n;": ["MultiLine TEXT: \t# a\n..\n.\r\n 1", "Semicolon ; 4"],
            b"text:\n.\nx": ["MultiLine text:\n.\n 1", "Identifier x 3"],
            b"text:\r\n.": ["Identifier text 1", "Bad :\r\n. 1"],
            b"text:a": ["Identifier text 1", "Tag :a 1"],
            b"a#b": ["Identifier a 1"],
            b"a\n/* b *c": ["Identifier a 1", "Bad /* b *c 2"],
            b"\n/*/": ["Bad /*/ 2"],
            b'a\n"b\n': ["Identifier a 1", 'Bad "b\n 2'],
            b"\n'a b\n": ["Bad 'a b\n 2"],
            b"a\n\xff;": ["Identifier a 1", "Bad \xff; 2"],
            b"a\x0cb": ["Identifier a 1", "Bad \x0cb 1"],
            b":1": ["Bad :1 1"],
            b"a '": ["Identifier a 1", "Bad ' 1"],
            b" \t\r\n": [],
            b"": [],
        }
        for text, wanted in rows.items():
            with self.subTest(text=text):
                self.assertEqual(told(text), wanted)

    def test_small_letters(self) -> None:
        self.assertEqual([it.octets for it in tokens(b'Keep :Copy "A" 1K')], [b"keep", b":copy", b'"A"', b"1K"])
