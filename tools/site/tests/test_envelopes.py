"""Envelopes, by files and by fields."""

import pathlib
import tempfile
import unittest

from sievebench_site.ends import Refusal
from sievebench_site.envelopes import Envelope, envelope_in, envelope_of, wrong_with


class Envelopes(unittest.TestCase):
    """Addresses of a sender and a recipient."""

    def test_addresses(self) -> None:
        good = [
            b"",
            b"a@b",
            b"a.b+c@d.example",
            b'"a b"@c',
            b"j\xc3\xbcrgen@b\xc3\xbc.example",
            b"a@[192.0.2.1]",
            b'"@"@c',
        ]
        for address in good:
            with self.subTest(address=address):
                self.assertIsNone(wrong_with(address))
        bad = [b"ada", b"a b@c", b"<a@b>", b"a@b@c", b"@b", b"a@", b"a@b c", b"a@b,c", b"a\n@b", b"a" * 1_023 + b"@b"]
        for address in bad:
            with self.subTest(address=address):
                self.assertIsNotNone(wrong_with(address))

    def test_file(self) -> None:
        with tempfile.TemporaryDirectory() as room:
            path = pathlib.Path(room, "x")
            path.write_bytes(b'# from\n""\r\n  "\\"c d\\"@e"  # to\n')
            self.assertEqual(envelope_in(bytes(path)), Envelope(b"", b'"c d"@e'))
            path.write_bytes(b"<> a@b\n")
            self.assertEqual(envelope_in(bytes(path)), Envelope(b"", b"a@b"))
            for octets in (b"", b"a@b", b"a@b c@d e@f", b'""a@b', b"a@b c", b"a@b <>"):
                path.write_bytes(octets)
                with self.subTest(octets=octets), self.assertRaises(Refusal):
                    envelope_in(bytes(path))

    def test_fields(self) -> None:
        rows = [
            (b"Return-Path: <>\r\nDelivered-To: a@b\r\n\r\n", Envelope(b"", b"a@b")),
            (b"RETURN-PATH:\n <a@b>\nX-Original-To: c@d\n\nDelivered-To: e@f\n", Envelope(b"a@b", b"c@d")),
            (b"Envelope-To: c@d\nX-Original-To: e@f\nDelivered-To: g@h\nDelivered-To: i@j\n", Envelope(None, b"g@h")),
            (b"Return-Path: <a@b>\nReturn-Path: <c@d>\n", Envelope(b"a@b", None)),
            (b"Return-Path: broken\nDelivered-To:\nEnvelope-To: <e@f>\n", Envelope(None, b"e@f")),
            (b"\nReturn-Path: <a@b>\n", Envelope()),
            (b"\r\nReturn-Path: <a@b>\n", Envelope()),
            (b"", Envelope()),
        ]
        for octets, wanted in rows:
            with self.subTest(octets=octets):
                self.assertEqual(envelope_of(octets), wanted)

    def test_over(self) -> None:
        self.assertEqual(Envelope(b"").over(Envelope(b"a", b"b")), Envelope(b"", b"b"))
        self.assertFalse(Envelope(b"a").known())
        self.assertTrue(Envelope(b"", b"").known())
