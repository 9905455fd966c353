"""What is expected, as it is written by hand and by the tool."""

import unittest

from sievebench_site.ends import Refusal
from sievebench_site.expected import Block, blocks_of, text_of


class Expected(unittest.TestCase):
    """Blocks of lines."""

    def refused(self, octets: bytes) -> str:
        """Why a file is refused."""
        with self.assertRaises(Refusal) as caught:
            blocks_of(b"x", octets)
        return caught.exception.sentence

    def test_by_hand(self) -> None:
        octets = b'\r\n# all\n\n[ada] # her\r\n  store "B\xc3\xbcro" "\\\\Seen"\r\n    read personal "ada"\n  at personal "ada" line 3\n'
        octets += (
            b'  envelope "a" "b"\n  unexpected\n\n["a b" main]\n\nstore "\\xC3\\xBC"  # capitals\nimplicit "INBOX"'
        )
        blocks = blocks_of(b"x", octets)
        self.assertEqual(blocks[(b"ada",)], Block(b"x", 4, (b'store "B\\xc3\\xbcro" "\\\\Seen"',)))
        self.assertEqual(blocks[b"a b", b"main"], Block(b"x", 11, (b'store "\\xc3\\xbc"', b'implicit "INBOX"')))

    def test_lines_of_verdicts(self) -> None:
        lines = [
            b'store "A" "x" create',
            b'redirect "a@b"',
            b"discard",
            b'vacation "x" days 7',
            b'reject "x"',
            b'ereject "x"',
        ]
        lines += [b'implicit "A"', b'error personal "a" line 1 bad-mailbox']
        self.assertEqual(blocks_of(b"x", b"\n".join([b"[a]", *lines]))[(b"a",)].lines, tuple(lines))

    def test_refusals(self) -> None:
        self.assertEqual(
            self.refused(b"# a\n\ndiscard\n"), '"x", line 3: before it stands no name of a main script in brackets'
        )
        self.assertEqual(self.refused(b"[a]\nkeep\n"), '"x", line 2: no line of a verdict begins with "keep"')
        self.assertEqual(self.refused(b'[a]\nstore "\n'), "\"x\", line 2: these aren't words, or a quote isn't closed")
        self.assertEqual(self.refused(b"[a b]\n[a  b]\n"), '"x", line 2: [a b] stood there before')
        for line in (b"[]", b"[a", b"[a] b", b'["\\n"]', b"[ # a]"):
            with self.subTest(line=line):
                self.assertEqual(
                    self.refused(line), '"x", line 1: between the brackets stands no name of a main script'
                )

    def test_written(self) -> None:
        text = text_of({(b"b",): (b"discard",), (b"a", b"c d"): (), (b"]",): (b"x",)})
        self.assertEqual(text, b'["]"]\nx\n[a "c d"]\n[b]\ndiscard\n')
        self.assertEqual(
            {key: block.lines for key, block in blocks_of(b"x", b"[b]\ndiscard\n").items()}, {(b"b",): (b"discard",)}
        )
