"""The meanings of words."""

import unittest
from typing import Dict, Optional, Tuple

from sievebench_site.lsp_hover import meaning_at

SCRIPT = b"""require ["fileinto", "comparator-i;ascii-numeric", "gone"]; # keep
IF not address :User :comparator "i;ascii-numeric" "from" "fileinto" {
  fileinto :copy "keep"; unknown; vacation :days 3 "text"; keep :nothing; duplicate :handle "a";
}
"""


def meaning(word: bytes, after: bytes = b"", end: bool = False) -> Optional[Tuple[bytes, str]]:
    """The octets and the meaning of a word, the first after others, at its first octet or behind its last."""
    place = SCRIPT.index(word, SCRIPT.index(after))
    found = meaning_at(SCRIPT, place + (len(word) if end else 0))
    return (SCRIPT[found.start : found.end], f"{found.form}: {found.text}") if found else None


class Meanings(unittest.TestCase):
    """Each word's form, its RFC and section, and the capability that it needs."""

    def test_words(self) -> None:
        rows: Dict[bytes, str] = {
            b"require": "require capabilities: Names the extensions that the script uses. RFC 5228, section 3.2.",
            b"IF": "if test { .. }: Runs its block if its test holds. RFC 5228, section 3.1.",
            b"not": "not test: Holds if its test doesn't. RFC 5228, section 5.8.",
            b":User": ':user: The local part up to its first +. RFC 5233, section 4. It needs "subaddress".',
            b":copy": ':copy: Leaves the implicit keep as it is. RFC 3894, section 3. It needs "copy".',
            b":days": ":days days: A sender is answered once in so many days. RFC 5230, section 4.1.",
            b":handle": ":handle handle: Messages are compared with those of the same handle. RFC 7352, section 3.2.",
            b":comparator": ":comparator comparator: Names the comparator. RFC 5228, section 2.7.3.",
        }
        for word, wanted in rows.items():
            for end in (False, True):
                with self.subTest(word=word, end=end):
                    self.assertEqual(meaning(word, end=end), (word, wanted))

    def test_a_command(self) -> None:
        found = meaning(b"fileinto", b"  fileinto")
        form = "fileinto [:flags flags] [:copy] [:create] [:specialuse use] mailbox"
        text = 'Stores the message in a mailbox. RFC 5228, section 4.1. It needs "fileinto".'
        self.assertEqual(found, (b"fileinto", f"{form}: {text}"))

    def test_strings(self) -> None:
        named = b'"comparator-i;ascii-numeric"'
        numbers = "Compares the numbers with which texts begin. RFC 4790, section 9.1."
        self.assertEqual(
            meaning(b'"fileinto"'), (b'"fileinto"', '"fileinto": The command fileinto. RFC 5228, section 4.1.')
        )
        self.assertEqual(meaning(named), (named, f'"comparator-i;ascii-numeric": {numbers}'))
        wanted = f'"i;ascii-numeric": {numbers} It needs "comparator-i;ascii-numeric".'
        self.assertEqual(meaning(b'"i;ascii-numeric"'), (b'"i;ascii-numeric"', wanted))

    def test_none(self) -> None:
        for word, after in (
            (b'"gone"', b""),
            (b"keep", b"#"),
            (b'"fileinto"', b'"from"'),
            (b'"keep"', b":copy"),
            (b"unknown", b""),
            (b":nothing", b""),
            (b"3", b":days"),
            (b"{", b""),
            (b'"text"', b""),
        ):
            with self.subTest(word=word):
                self.assertIsNone(meaning(word, after))
        self.assertIsNone(meaning_at(SCRIPT, len(SCRIPT)))
        self.assertIsNone(meaning_at(b"", 0))

    def test_any_place(self) -> None:
        text = b'\xff"\\":;:::{}[]( require :comparator text: /* # \n "\xc3'
        for at in range(len(text) + 1):
            meaning_at(text, at)
