"""Messages as octets that come in any pieces."""

import unittest
from typing import List, Union

from sievebench_site.lsp_frames import BODY_LIMIT, DROP_LIMIT, HEADER_LIMIT, Broken, Frames, framed

Found = List[Union[bytes, Broken]]
TWO = b"Content-Length: 2\r\n\r\n{}Content-Length: 3\r\nContent-Type: application/vscode-jsonrpc; charset=utf-8\r\n\r\n[1]"


def fed(*pieces: bytes) -> Found:
    """All that pieces have."""
    frames = Frames()
    return [it for piece in pieces for it in frames.feed(piece)]


def in_pieces(octets: bytes, size: int) -> Found:
    """All that octets have which come so many at once."""
    return fed(*(octets[at : at + size] for at in range(0, len(octets), size)))


class Whole(unittest.TestCase):
    """Messages that are sound (Language Server Protocol 3.17, base protocol)."""

    def test_any_pieces(self) -> None:
        for size in (1, 2, 3, 7, 20, 21, 22, 23, 24, len(TWO)):
            with self.subTest(size=size):
                self.assertEqual(in_pieces(TWO, size), [b"{}", b"[1]"])

    def test_lengths_count_octets(self) -> None:
        body = '"\U00010400ü"'.encode()
        self.assertEqual(in_pieces(framed(body) * 2, 1), [body, body])
        self.assertEqual(framed(body), b"Content-Length: 8\r\n\r\n" + body)

    def test_headers(self) -> None:
        for header in (
            b"content-length: 2",
            b"CONTENT-LENGTH:2",
            b"Content-Length: \t2 ",
            b"Content-Length: 0000002",
            b"X-Other: 9\r\nContent-Length: 2\r\nX-More: 8",
            b"Content-Length: 2\r\nContent-Type: application/vscode-jsonrpc; charset=utf8",
            b'Content-Length: 2\r\nContent-Type: application/json; charset="UTF-8"',
            b"Content-Length: 2\r\nContent-Type: application/json",
        ):
            with self.subTest(header=header):
                self.assertEqual(fed(header + b"\r\n\r\n{}"), [b"{}"])

    def test_an_empty_body_and_one_with_line_ends(self) -> None:
        self.assertEqual(fed(framed(b""), framed(b"\r\n\r\n"), framed(b"x")), [b"", b"\r\n\r\n", b"x"])

    def test_the_largest_body(self) -> None:
        body = b"x" * BODY_LIMIT
        self.assertEqual(fed(framed(body), TWO), [body, b"{}", b"[1]"])

    def test_a_body_that_has_no_end_yet(self) -> None:
        self.assertEqual(fed(b"Content-Length: 3\r\n\r\n{}"), [])


class Hostile(unittest.TestCase):
    """Messages that aren't: each is said to be broken once, and the next one is read."""

    def broken(self, octets: bytes, *after: bytes) -> None:
        """Reads a message after broken octets, which come at once and in pieces."""
        for size in (1, 100, len(octets + TWO)):
            with self.subTest(octets=octets[:100], size=size):
                found = in_pieces(octets + TWO, size)
                self.assertEqual(
                    [isinstance(it, Broken) for it in found], [True, *(False for _ in after), False, False]
                )
                self.assertEqual(found[1:], [*after, b"{}", b"[1]"])

    def test_a_body_past_the_limit(self) -> None:
        size = BODY_LIMIT + 1
        found = fed(b"Content-Length: %d\r\n\r\n" % size, *(b"{" * 65_536 for _ in range(size // 65_536)), b"{" + TWO)
        self.assertEqual(found, [Broken("a message has at most 8,388,608 octets"), b"{}", b"[1]"])

    def test_octets_that_are_dropped_are_not_kept(self) -> None:
        frames = Frames()
        list(frames.feed(b"Content-Length: %d\r\n\r\n" % DROP_LIMIT))
        for _ in range(100):
            self.assertEqual(list(frames.feed(b"Content-Length: 2\r\n\r\n{}" * 1_000)), [])
            self.assertEqual(len(frames.octets), 0)

    def test_lengths_that_are_none(self) -> None:
        for length in (b"", b"-1", b"x", b"2x", b"1e3", b"0x10", b"9" * 15, b"9" * 30, b"9" * 4_000, b"1.5"):
            self.broken(b"Content-Length: " + length + b"\r\n\r\n{}")

    def test_no_length(self) -> None:
        self.broken(b"\r\n\r\n")
        self.broken(b"\r\n\r\n\r\n\r\n")
        self.broken(b"Content-Type: application/json\r\n\r\n")
        self.broken(b"GET / HTTP/1.1\r\nHost: x\r\n\r\n")

    def test_what_is_no_header(self) -> None:
        self.broken(b"\xff\x00" * 10_000)
        self.broken(b"{}\n" * (HEADER_LIMIT + 1))

    def test_octets_before_a_header(self) -> None:
        for octets in (b"\xff\xfe", b"{}", b"noise\r\n"):
            with self.subTest(octets=octets):
                self.assertEqual(fed(octets + TWO), [b"{}", b"[1]"])

    def test_another_charset(self) -> None:
        self.broken(b"Content-Length: 4\r\nContent-Type: application/json; charset=utf-16\r\n\r\n{\0}\0")

    def test_no_header_grows(self) -> None:
        frames = Frames()
        found = [it for _ in range(1_000) for it in frames.feed(b"x" * 1_000)]
        self.assertEqual(found, [Broken("a header has at most 4,096 octets")])
        self.assertLessEqual(len(frames.octets), HEADER_LIMIT)
