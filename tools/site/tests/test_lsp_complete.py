"""Completion: the words that may stand at a place."""

import unittest
from typing import Dict, List, Set, Tuple

from sievebench_site.lsp_complete import Offer, offer
from sievebench_site.vocabulary import CAPABILITIES

ALL = set(CAPABILITIES)
PLAIN = {"fileinto", "envelope", "variables", "imap4flags", "include", "copy"}
CONTROL = ["if", "stop"]
MATCH = [":is", ":contains", ":matches"]


def scripts(place: str) -> List[bytes]:
    """Scripts of a site."""
    return [b"main", b'a "b"', b"\xff"] if place == "personal" else [b"lists"]


def offered(marked: str, known: Set[str] = ALL) -> Offer:
    """The words at the mark | of a text."""
    front, _, back = marked.partition("|")
    return offer((front + back).encode(), len(front.encode()), known, scripts)


def labels(marked: str, known: Set[str] = ALL) -> List[str]:
    """The words as they are shown."""
    return [it.label for it in offered(marked, known).items]


class Commands(unittest.TestCase):
    """Places of commands (RFC 5228, sections 2.9 and 8.2)."""

    def test_places(self) -> None:
        rows = ["|", "ke|", "  |", "keep; |", "keep; f|", "if true { |", "if true { keep; |}", "# c\n|", '"é" ; |']
        for text in [*rows, "/* c */ |", "keep\n|", 'fileinto "a"\nk|', "if true { stop\n  |"]:
            with self.subTest(text=text):
                found = labels(text)
                self.assertLessEqual({"if", "keep", "fileinto", "vacation"}, set(found))
                self.assertEqual({"header", "true", ":copy", "else"}.intersection(found), set())

    def test_none(self) -> None:
        rows = ["# k|", "# keep;|\n", "/* k|", "/* k| */", 'fileinto "k|', 'fileinto "k|"', "reject text:\nk|\n.\n;"]
        rows += [
            "reject text:|",
            "keep k|",
            "size :over 1|",
            "size :over 10K|",
            'fileinto "a"|',
            'if header "a"\n|',
            "if\nexists\n|",
        ]
        for text in rows:
            with self.subTest(text=text):
                self.assertEqual(labels(text), [])

    def test_require_comes_first(self) -> None:
        """RFC 5228, section 3.2."""
        for text in ("|", 'require "a"; |', "# c\nre|"):
            self.assertIn("require", labels(text))
        for text in ("keep; |", 'require "a"; keep; |', "if true { |"):
            self.assertNotIn("require", labels(text))

    def test_branches_follow_blocks(self) -> None:
        """RFC 5228, section 3.1."""
        for text in ("if true {} |", "if true { keep; }\ne|"):
            self.assertLessEqual({"elsif", "else", "keep"}, set(labels(text)))

    def test_what_is_known(self) -> None:
        found = labels("|", PLAIN)
        self.assertEqual({"vacation", "reject", "ereject"}.intersection(found), set())
        self.assertLessEqual({"fileinto", "set", "include", "global"}, set(found))

    def test_what_is_replaced(self) -> None:
        rows = {"keep; fil|einto": 6, "|": 0, "keep; |": 6, "é; k|": 4}
        for text, start in rows.items():
            self.assertEqual(offered(text).start, start, text)


class Tests(unittest.TestCase):
    """Places of tests (RFC 5228, section 2.7; 8.2)."""

    def test_places(self) -> None:
        rows = [
            "if |",
            "if h|",
            "elsif |",
            "if not |",
            "if\n|",
            "if allof (|",
            "if anyof (true, |",
            "if anyof(true,\n e|",
        ]
        for text in [*rows, 'if allof (header ["a", "b"] "c", |', "if allof (not |", "if not allof (anyof (|"]:
            with self.subTest(text=text):
                found = labels(text)
                self.assertLessEqual({"header", "not", "allof", "size", "body"}, set(found))
                self.assertEqual({"keep", "if", ":is"}.intersection(found), set())

    def test_what_is_known(self) -> None:
        self.assertEqual({"body", "date", "currentdate", "duplicate"}.intersection(labels("if |", PLAIN)), set())
        self.assertLessEqual({"envelope", "string", "hasflag"}, set(labels("if |", PLAIN)))


class Tags(unittest.TestCase):
    """Tags of a command or a test, which come before its other arguments."""

    def test_tags(self) -> None:
        rows: Dict[str, List[str]] = {
            "fileinto |": [":flags", ":copy", ":create", ":specialuse"],
            "fileinto :|": [":flags", ":copy", ":create", ":specialuse"],
            'fileinto :c| "a"': [":flags", ":copy", ":create", ":specialuse"],
            "fileinto :copy |": [":flags", ":create", ":specialuse"],
            'fileinto :flags "a" |': [":copy", ":create", ":specialuse"],
            'fileinto :flags ["a", "b"] :|': [":copy", ":create", ":specialuse"],
            "fileinto :flags |": [],
            "fileinto :flags :|": [],
            'fileinto "a" |': [],
            'fileinto "a" :|': [],
            "keep |": [":flags"],
            "redirect :|": [":copy"],
            "stop |": [],
            "if size |": [":over", ":under"],
            "if size :over |": [],
            "include :global |": [":once", ":optional", "lists"],
            "set :lower |": [":lowerfirst", ":upperfirst", ":quotewildcard", ":length"],
            "if header :is |": [":comparator"],
            'if header :value "gt" :|': [":comparator"],
            "if address :domain :|": [":comparator", *MATCH, ":value", ":count"],
            "if not exists |": [],
            "unknown :|": [],
            ":|": [],
            "; :|": [],
        }
        for text, wanted in rows.items():
            with self.subTest(text=text):
                self.assertEqual(labels(text), wanted)

    def test_what_is_known(self) -> None:
        self.assertEqual(labels("fileinto :|", PLAIN), [":flags", ":copy"])
        self.assertEqual(labels("if header :|", PLAIN), [":comparator", *MATCH])
        self.assertEqual(labels("if address :|", PLAIN), [":comparator", *MATCH, ":all", ":localpart", ":domain"])

    def test_what_is_replaced(self) -> None:
        rows: Dict[str, Tuple[int, str]] = {
            "fileinto :c|": (9, ":flags"),
            "fileinto :|": (9, ":flags"),
            "keep |": (5, ":flags"),
        }
        for text, (start, new) in rows.items():
            found = offered(text)
            self.assertEqual((found.start, found.items[0].new), (start, new))


class Strings(unittest.TestCase):
    """Strings of which it is known what they may be."""

    def test_capabilities(self) -> None:
        for text in (
            'require "|',
            'require "|"',
            'require ["|',
            'require [ "f|"]',
            "require |",
            "require [|",
            "require\n[\n  |",
        ):
            with self.subTest(text=text):
                self.assertEqual(set(labels(text)), ALL)
        found = labels('require ["fileinto", "|"')
        self.assertEqual(set(found), ALL - {"fileinto"})
        self.assertEqual(set(labels('require ["copy",\n|', PLAIN)), PLAIN - {"copy"})
        self.assertEqual(labels('fileinto "|'), [])
        self.assertEqual(labels('require "copy"; "|'), [])
        # An edit of a completion stands on one line.
        self.assertEqual(labels('require "\nf|'), [])

    def test_how_they_are_written(self) -> None:
        rows: Dict[str, Tuple[int, str]] = {
            'require "|"': (9, "copy"),
            'require "co|': (9, "copy"),
            "require |": (8, '"copy"'),
            "require [|": (9, '"copy"'),
        }
        for text, wanted in rows.items():
            with self.subTest(text=text):
                found = offered(text)
                self.assertEqual((found.start, next(it.new for it in found.items if it.label == "copy")), wanted)

    def test_scripts(self) -> None:
        self.assertEqual(labels('include "|'), ["main", 'a "b"'])
        self.assertEqual(labels('include :optional "|"'), ["main", 'a "b"'])
        self.assertEqual(labels('include :once :global "l|"'), ["lists"])
        self.assertEqual(labels('include "a" "|'), [])
        self.assertEqual([it.new for it in offered('include "|').items], ["main", 'a \\"b\\"'])
        self.assertEqual([it.new for it in offered("include |").items][-2:], ['"main"', '"a \\"b\\""'])

    def test_comparators(self) -> None:
        """RFC 5228, section 2.7.3; the third has to be asked for."""
        both = ["i;octet", "i;ascii-casemap"]
        self.assertEqual(labels('if header :comparator "|', PLAIN), both)
        self.assertEqual(labels('if header :comparator "|"'), [*both, "i;ascii-numeric"])
        self.assertEqual(labels("if header :comparator |", PLAIN), both)

    def test_meanings(self) -> None:
        (item,) = [it for it in offered("|").items if it.label == "fileinto"]
        self.assertEqual(item.meaning, 'Stores the message in a mailbox. RFC 5228, section 4.1. It needs "fileinto".')
        self.assertTrue(item.detail.startswith("fileinto [:flags flags] [:copy]"))


class Hostile(unittest.TestCase):
    """Texts that are no scripts."""

    def test_any_place(self) -> None:
        text = b'\xff\x00"\\":;:::{{}}[]][((,,)) require include :comparator :global text: /* # \n "\xc3'
        for at in range(len(text) + 1):
            with self.subTest(at=at):
                found = offer(text, at, ALL, scripts)
                self.assertLessEqual(found.start, at)
