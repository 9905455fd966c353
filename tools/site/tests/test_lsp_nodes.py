"""Commands and tests of scripts that may be half written."""

import unittest
from typing import Dict, List, Tuple

from sievebench_site import sieve_text
from sievebench_site.lsp_nodes import line_span, names_required, nodes_of, scanned, unmet
from sievebench_site.vocabulary import CAPABILITIES


def cut(text: bytes) -> List[bytes]:
    """The tokens of a text."""
    return [text[it.start : it.end] for it in scanned(text).tokens]


def told(text: bytes) -> List[Tuple[bytes, bytes, bool]]:
    """The commands and tests of a text: each name, its tokens, and whether it has no end."""
    nodes = nodes_of(scanned(text).tokens)
    return [(it.name.octets, b" ".join(token.octets for token in it.tokens), it.open) for it in nodes]


def needs(text: bytes) -> List[Tuple[bytes, str]]:
    """All that a text needs, with the octets that need it."""
    nodes = nodes_of(scanned(text).tokens)
    return [(text[it.token.start : it.token.end], it.name) for node in nodes for it in node.needs()]


class Tokens(unittest.TestCase):
    """Tokens, also behind octets that are none."""

    def test_sound_texts(self) -> None:
        text = b'require ["a", "b"]; # c "\n/* keep; */ if not size :over 10K { fileinto text:\nx\n.\n; } keep;'
        self.assertEqual(scanned(text), (list(sieve_text.tokens(text)), None))

    def test_octets_that_are_none(self) -> None:
        self.assertEqual(cut(b"keep \xff\xfe; :"), [b"keep", b"\xff", b"\xfe", b";", b":"])
        self.assertEqual(cut(b"a-b \x00 c"), [b"a", b"-", b"b", b"\x00", b"c"])

    def test_what_nothing_closes(self) -> None:
        rows: Dict[bytes, int] = {
            b'keep; "': 6,
            b'keep "a" "b\n;': 9,
            b'"a\\"': 0,
            b"keep; # c": 6,
            b"keep; #": 6,
            b"keep; /* c\n": 6,
            b"/*/": 0,
            b"reject text:": 7,
            b"reject text: # c\nso\n": 7,
            b"reject text:\nso\n.": 7,
            b'/* " */ "': 8,
        }
        for text, place in rows.items():
            with self.subTest(text=text):
                self.assertEqual(scanned(text).open, place)

    def test_what_is_closed(self) -> None:
        for text in (
            b'keep; "a"',
            b"keep; # c\n",
            b"/* c */",
            b"text:\n.\n",
            b'"#"',
            b'"/*"',
            b"",
            b" ",
            b'# "\n',
            b"texts:",
        ):
            with self.subTest(text=text):
                self.assertIsNone(scanned(text).open)


class Nodes(unittest.TestCase):
    """Commands and tests with their own tokens."""

    def test_nodes(self) -> None:
        text = b'if allof (not header :is ["a", "b"] "c", size :over 1K) { fileinto :copy "d"; stop; } else {'
        self.assertEqual(
            told(text),
            [
                (b"if", b"", False),
                (b"allof", b"", False),
                (b"not", b"", False),
                (b"header", b':is [ "a" , "b" ] "c"', False),
                (b"size", b":over 1K", False),
                (b"fileinto", b':copy "d"', False),
                (b"stop", b"", False),
                (b"else", b"", False),
            ],
        )

    def test_one_without_an_end(self) -> None:
        self.assertEqual(told(b'keep; require ["a",'), [(b"keep", b"", False), (b"require", b'[ "a" ,', True)])
        self.assertEqual(told(b"} ; , keep"), [(b"keep", b"", True)])


class Needs(unittest.TestCase):
    """The capabilities that commands and tests need, as their RFCs have it."""

    def test_needs(self) -> None:
        rows: Dict[bytes, List[Tuple[bytes, str]]] = {
            b"keep; discard; stop;": [],
            b'fileinto "a";': [(b"fileinto", "fileinto")],
            b'FileInto :Copy "a";': [(b"FileInto", "fileinto"), (b":Copy", "copy")],
            b'keep :flags ["a", "b"];': [(b":flags", "imap4flags")],
            b'redirect "a" :copy;': [(b":copy", "copy")],
            b'global "a";': [(b"global", "include"), (b"global", "variables")],
            b'header :comparator "i;octet" "a" "b"': [],
            b'header :comparator "i;ascii-numeric" :count "eq" "a" "b"': [
                (b'"i;ascii-numeric"', "comparator-i;ascii-numeric"),
                (b":count", "relational"),
            ],
            b'header :comparator "i;none" "a" "b"': [],
            b'address :user "from" "a"': [(b":user", "subaddress")],
            b'setflag "a";': [(b"setflag", "imap4flags")],
            b'setflag "a" "b";': [(b"setflag", "imap4flags"), (b'"a"', "variables")],
            b'setflag "a" ["b", "c"];': [(b"setflag", "imap4flags"), (b'"a"', "variables")],
            b'setflag ["b", "c"];': [(b"setflag", "imap4flags")],
            b'hasflag :contains ["a"] ["b"]': [(b"hasflag", "imap4flags"), (b"[", "variables")],
            b'hasflag :comparator "i;octet" "b"': [(b"hasflag", "imap4flags")],
            b'vacation :days 3 :handle "a" "b";': [(b"vacation", "vacation")],
            b'unknown :copy "a";': [],
        }
        for text, wanted in rows.items():
            with self.subTest(text=text):
                self.assertEqual(needs(text), wanted)

    def test_unmet(self) -> None:
        (node,) = nodes_of(scanned(b'fileinto :create :copy "a"').tokens)
        known = set(CAPABILITIES)
        self.assertEqual([it.name for it in unmet(node, set(), known)], ["fileinto", "mailbox", "copy"])
        self.assertEqual([it.name for it in unmet(node, {"fileinto"}, known - {"mailbox"})], ["copy"])

    def test_names_required(self) -> None:
        self.assertEqual(
            names_required(b'require ["a", "\xff"]; require "c"; keep; require "d";'), {"a", "\ufffd", "c"}
        )


class Lines(unittest.TestCase):
    """Lines as the program counts them."""

    def test_line_span(self) -> None:
        text = b"a;\n  b \r\n\r \nc"
        rows = {0: b"a;", 1: b"a;", 2: b"b", 3: b"", 4: b"c", 5: b"", 9: b""}
        for line, wanted in rows.items():
            with self.subTest(line=line):
                start, end = line_span(text, line)
                self.assertEqual(text[start:end], wanted)
        self.assertEqual(line_span(b"a;\n", 2), (3, 3))
        self.assertEqual(line_span(b"", 1), (0, 0))
