"""Positions in texts, and edits."""

import random
import unittest
from typing import List, Tuple

from sievebench_site.lsp_text import UTF8, UTF16, Position, Span, Text

# The example of the protocol's specification: DESERET CAPITAL LETTER LONG I is outside of the Basic Multilingual Plane.
EXAMPLE = "a\U00010400b"
FACE = "\U0001f600"


def span(*numbers: int) -> Span:
    """A range."""
    return Span(Position(*numbers[:2]), Position(*numbers[2:]))


class Places(unittest.TestCase):
    """Positions (Language Server Protocol 3.17, text documents and position)."""

    def test_the_example_of_the_specification(self) -> None:
        rows = {UTF16: (0, 1, 3, 4), UTF8: (0, 1, 5, 6)}
        for encoding, characters in rows.items():
            text = Text(EXAMPLE, encoding)
            for character, octet in zip(characters, (0, 1, 5, 6)):
                with self.subTest(encoding=encoding, octet=octet):
                    self.assertEqual(text.octet_at(Position(0, character)), octet)
                    self.assertEqual(text.position_at(octet), Position(0, character))

    def test_line_ends(self) -> None:
        """A line ends by LF, CR LF or CR."""
        text = Text("a\nb\r\nc\rd\n\re\n", UTF16)
        self.assertEqual(len(text.starts), 7)
        for line, octet in enumerate((0, 2, 5, 7, 9, 10, 12)):
            with self.subTest(line=line):
                self.assertEqual(text.octet_at(Position(line, 0)), octet)
                self.assertEqual(text.position_at(octet), Position(line, 0))

    def test_past_the_end(self) -> None:
        """A character past the end of a line is the end of the line."""
        for encoding in (UTF8, UTF16):
            text = Text(f"ab\r\n{FACE}\n", encoding)
            rows = {
                (0, 2): 2,
                (0, 3): 2,
                (0, 2**31 - 1): 2,
                (1, 99): 8,
                (2, 0): 9,
                (2, 5): 9,
                (3, 0): 9,
                (2**31 - 1, 7): 9,
            }
            for place, octet in rows.items():
                with self.subTest(encoding=encoding, place=place):
                    self.assertEqual(text.octet_at(Position(*place)), octet)

    def test_inside_of_a_character(self) -> None:
        text = Text(EXAMPLE, UTF8)
        self.assertEqual([text.octet_at(Position(0, it)) for it in range(7)], [0, 1, 1, 1, 1, 5, 6])
        self.assertEqual([text.position_at(it).character for it in range(7)], [0, 1, 1, 1, 1, 5, 6])

    def test_an_empty_text(self) -> None:
        text = Text("", UTF16)
        self.assertEqual((text.octet_at(Position(0, 0)), text.octet_at(Position(1, 1))), (0, 0))
        self.assertEqual(text.position_at(0), Position(0, 0))

    def test_all_places_of_a_text(self) -> None:
        whole = f"\ufeffü{FACE}\r\n\n{FACE}{FACE}\r\u20ac\ud800x"
        for encoding in (UTF8, UTF16):
            text = Text(whole, encoding)
            for at in range(len(whole) + 1):
                octet = len(whole[:at].encode("utf-8", "surrogatepass"))
                if whole[at - 1 : at + 1] != "\r\n":
                    with self.subTest(encoding=encoding, at=at):
                        self.assertEqual(text.octet_at(text.position_at(octet)), octet)


class Edits(unittest.TestCase):
    """Changes of a document (textDocument/didChange)."""

    def test_edits(self) -> None:
        rows: List[Tuple[str, Span, str, str]] = [
            ("keep;\n", span(0, 0, 0, 0), "x", "xkeep;\n"),
            ("keep;\n", span(0, 4, 0, 5), "", "keep\n"),
            ("keep;\nstop;\n", span(0, 5, 1, 0), "", "keep;stop;\n"),
            ("keep;\r\nstop;", span(0, 5, 1, 4), " ", "keep; ;"),
            ("a\nb", span(1, 1, 1, 1), "\n", "a\nb\n"),
            ("a\nb", span(0, 0, 2, 0), "c", "c"),
            ("a\nb", span(5, 0, 6, 0), "c", "a\nbc"),
            ("a\nb", span(1, 0, 0, 1), "", "ab"),
            (f"{FACE}a{FACE}", span(0, 2, 0, 3), "b", f"{FACE}b{FACE}"),
            (f"{FACE}a{FACE}", span(0, 3, 0, 5), "", f"{FACE}a"),
        ]
        for text, place, new, wanted in rows:
            with self.subTest(text=text, place=place):
                self.assertEqual(Text(text, UTF16).edited(place, new).text, wanted)

    def test_all_of_it(self) -> None:
        self.assertEqual(Text("keep;", UTF16).edited(None, "stop;\n").text, "stop;\n")

    def test_octets_of_utf_8(self) -> None:
        self.assertEqual(Text(f"{FACE}aü", UTF8).edited(span(0, 4, 0, 5), "b").text, f"{FACE}bü")
        self.assertEqual(Text(f"{FACE}aü", UTF8).edited(span(0, 5, 0, 7), "").text, f"{FACE}a")

    def test_half_of_a_character(self) -> None:
        """U+1F600 is D83D DE00 in UTF-16, and U+1F601 is D83D DE01: an edit may have the second half alone."""
        text = Text(FACE, UTF16).edited(span(0, 1, 0, 2), "\ude01")
        self.assertEqual((text.text, text.octets), ("\U0001f601", b"\xf0\x9f\x98\x81"))
        text = Text(FACE, UTF16).edited(span(0, 1, 0, 2), "")
        self.assertEqual(text.text, "\ud83d")
        self.assertEqual(text.edited(span(0, 1, 0, 1), "\ude00").text, FACE)

    def test_edits_at_random(self) -> None:
        """Units of UTF-16 are cut as such."""
        chance, text, units = random.Random(1), Text("", UTF16), b""
        for _ in range(500):
            size = len(units) // 2
            start, end = sorted(chance.randint(0, size) for _ in range(2))
            new = "".join(chance.choice(["a", "ü", FACE]) for _ in range(chance.randint(0, 3)))
            text = text.edited(span(0, start, 0, end), new)
            units = units[: 2 * start] + new.encode("utf-16-le") + units[2 * end :]
            self.assertEqual(text.text, units.decode("utf-16-le", "surrogatepass"))
