"""The octets that remarks are about, of which the program tells the line."""

import unittest
from typing import List, Tuple

from sievebench_site.findings import ERROR, NOTE, SKIPPED, Finding
from sievebench_site.lsp_remarks import DOUBTFUL, SAID, WRONG, remarks
from sievebench_site.vocabulary import CAPABILITIES

SCRIPT = b"""require ["fileinto",
  "vacation", "gone"]; # keep
if header :is "a" "b" { vacation "c"; kep; fileinto "d"; kep; }
fileinto
  :copy "e"; keep :flags "f";
  redirect "";  # so
"""
KNOWN = set(CAPABILITIES) - {"vacation"}


class Places(unittest.TestCase):
    """The word that is meant, or all tokens of a line."""

    def test_places(self) -> None:
        rows: List[Tuple[int, str, bytes, str]] = [
            (2, "unknown-capability", b'"vacation"', "So."),
            (1, "unknown-capability", b'require ["fileinto",', "So."),
            (2, "not judged", b'"vacation"', "So."),
            (3, "unknown-command", b"vacation", "So."),
            (4, "not-required", b":copy", "So: copy."),
            (5, "not-required", b":flags", "So: imap4flags."),
            (6, "not-required", b'redirect "";', "So."),
            (6, "bad-address", b'redirect "";', "So."),
            (5, "unknown-command", b':copy "e"; keep :flags "f";', "So."),
            (0, "refused", b'require ["fileinto",', "So."),
            (7, "syntax", b"", "So."),
            (99, "syntax", b"", "So."),
        ]
        for line, kind, octets, text in rows:
            with self.subTest(line=line, kind=kind):
                (found,) = remarks(SCRIPT, [Finding(b"", line, kind, "So.")], KNOWN)
                self.assertEqual((SCRIPT[found.start : found.end], found.kind, found.text), (octets, kind, text))

    def test_several_capabilities(self) -> None:
        (found,) = remarks(b'global "a";', [Finding(b"", 1, "not-required", "So.")], KNOWN)
        self.assertEqual((found.start, found.end, found.text), (0, 6, "So: include, variables."))

    def test_how_grave_they_are(self) -> None:
        rows = [("syntax", ERROR, WRONG), ("no-clock", NOTE, SAID), ("skipped", SKIPPED, SAID)]
        rows += [("not judged", ERROR, DOUBTFUL), ("refused", NOTE, DOUBTFUL)]
        for kind, level, severity in rows:
            with self.subTest(kind=kind):
                (found,) = remarks(SCRIPT, [Finding(b"", 1, kind, "So.", level)], KNOWN)
                self.assertEqual(found.severity, severity)

    def test_their_order(self) -> None:
        found = remarks(SCRIPT, [Finding(b"", line, "syntax", "So.") for line in (6, 3, 6, 1)], KNOWN)
        self.assertEqual([it.start for it in found], sorted({it.start for it in found}))
        self.assertEqual(len(found), 3)
        self.assertEqual(remarks(SCRIPT, [], KNOWN), [])

    def test_any_text(self) -> None:
        text = b'\xff"\\":;:::{}[]( require "a\xff"; fileinto text: /* # \n "\xc3'
        for kind in ("not-required", "unknown-command", "unknown-capability", "syntax"):
            for line in range(4):
                remarks(text, [Finding(b"", line, kind, "So.")], KNOWN)
