"""How names and lines are shown."""

import io
import os
import unittest
from unittest import mock

from sievebench_site import findings
from sievebench_site.findings import Finding, Test, github, junit
from sievebench_site.shown import Look, look_of


class Terminal(io.StringIO):
    """An output that is a terminal."""

    encoding = "utf-8"

    def isatty(self) -> bool:
        return True


class Shown(unittest.TestCase):
    """Octets for people."""

    def test_names(self) -> None:
        rows = [
            (b"a b", "a b", "a b"),
            (b"B\xc3\xbc\\", "B\\xc3\\xbc\\\\", "B\xfc\\\\"),
            (b"\xff\n\x1b\x7f", "\\xff\\x0a\\x1b\\x7f", "\\xff\\x0a\\x1b\\x7f"),
            # It would turn the text around.
            ("a\u202eb".encode(), "a\\xe2\\x80\\xaeb", "a\\xe2\\x80\\xaeb"),
        ]
        for octets, plain, utf8 in rows:
            with self.subTest(octets=octets):
                self.assertEqual((Look(False).name(octets), Look(True).name(octets)), (plain, utf8))

    def test_lines(self) -> None:
        rows = [
            (b'store "B\\xc3\\xbc" "\\\\Seen"', 'store "B\xfc" "\\\\Seen"'),
            (b'store "\\xe4\\xc3"', 'store "\\xe4\\xc3"'),
            (b'store "\\x41\\x0a"', 'store "\\x41\\x0a"'),
            (b'store "\\xe2\\x80\\xae"', 'store "\\xe2\\x80\\xae"'),
        ]
        for line, utf8 in rows:
            with self.subTest(line=line):
                self.assertEqual((Look(False).line(line), Look(True).line(line)), (line.decode(), utf8))

    def test_colours(self) -> None:
        self.assertEqual(Look(False, True).mark("- a", "-"), "\x1b[31m- a\x1b[0m")
        self.assertEqual(Look(False, True).mark("  a", " "), "  a")
        self.assertEqual(Look(False).mark("+ a", "+"), "+ a")
        with mock.patch("sys.stdout", Terminal()), mock.patch.dict(os.environ, {"TERM": "xterm"}, clear=True):
            self.assertEqual((look_of(None), look_of(False)), (Look(True, True), Look(False, True)))
            for name, value in (("NO_COLOR", ""), ("TERM", "dumb")):
                with mock.patch.dict(os.environ, {name: value}):
                    self.assertEqual(look_of(None), Look(True, False))
        with mock.patch("sys.stdout", io.StringIO()):
            self.assertEqual((look_of(None), look_of(True)), (Look(False), Look(True)))

    def test_servers(self) -> None:
        found = [Finding(b"a,b:%\xc3\xbc", 0, "k", "x\ny%", findings.NOTE)]
        self.assertEqual(github(found), "::notice file=a%2Cb%3A%25\xfc,title=k::x%0Ay%25\n")
        text = junit([Test("\u202e<", "&", 1.5, "a\nb"), Test("g", "n", skipped=True)], 2).decode()
        self.assertIn('<testsuite name="sievebench-site" tests="2" failures="1" skipped="1" time="2.000">', text)
        self.assertIn(
            'classname="\u202e&lt;" name="&amp;" time="1.500"><failure message="a&#10;b">a\nb</failure>', text
        )
