"""Commands of scripts, and changes of them."""
import unittest
from typing import Dict, List

from sievebench_site.changes import changes, commands, with_inserted

SCRIPT = b"""require ["fileinto", "variables"]; global ["a", "b"];
if anyof (header :contains "Subject" ["x", # one
    "y"],
    size :over 1K) { fileinto
    "A"; } elsif true { set "b" text:
;
.
; stop; }
else { /* ; */ discard /**/ ; if FALSE {} }
"""


class Commands(unittest.TestCase):
    """What a text is made of."""

    def test_commands(self) -> None:
        found = [(it.line(), it.shown(SCRIPT).decode()) for it in commands(SCRIPT)]
        wanted = [
            (1, 'require ["fileinto", "variables"];'),
            (1, 'global ["a", "b"];'),
            (2, 'if anyof (header :contains "Subject" ["x", "y"], size :over 1K)'),
            (4, 'fileinto "A";'),
            (5, "elsif true"),
            (5, 'set "b" text: ..;'),
            (8, "stop;"),
            (9, "else"),
            (9, "discard;"),
            (9, "if FALSE"),
        ]
        self.assertEqual(found, wanted)
        self.assertEqual(
            [it.name() for it in commands(SCRIPT) if it.acts()], [b"fileinto", b"set", b"stop", b"discard"]
        )

    def test_faults_of_syntax(self) -> None:
        rows = {b"keep; ; stop;": 1, b"keep; { stop; }": 1, b"keep; stop }": 1, b"keep; 'stop;": 1, b"1; keep;": 0}
        for text, count in rows.items():
            with self.subTest(text=text):
                self.assertEqual(len(commands(text)), count)


class Changes(unittest.TestCase):
    """Texts in which no other line moves."""

    def told(self, text: bytes, keys: bool = False, numbers: bool = False) -> Dict[str, bytes]:
        """The changes by their words, each with the text that it makes."""
        return {
            f"{it.line} {it.how}: {it.command.shown(text).decode()}": it.of(text) for it in changes(text, keys, numbers)
        }

    def test_lines_stay(self) -> None:
        for it in changes(SCRIPT, True, True):
            with self.subTest(how=it.how, line=it.line):
                self.assertEqual(it.of(SCRIPT).count(b"\n"), SCRIPT.count(b"\n"))
                after = len(SCRIPT) - it.end
                self.assertEqual(it.of(SCRIPT)[-after:], SCRIPT[-after:])
                self.assertEqual(it.of(SCRIPT)[: it.start], SCRIPT[: it.start])

    def test_changes(self) -> None:
        told = self.told(SCRIPT)
        self.assertEqual(len(told), 4 + 6)
        condition = 'if anyof (header :contains "Subject" ["x", "y"], size :over 1K)'
        head, tail = SCRIPT.split(b"if anyof")[0], b" { fileinto" + SCRIPT.split(b" { fileinto")[1]
        self.assertEqual(told[f"2 with its condition true: {condition}"], head + b"if true\n\n" + tail)
        self.assertEqual(told[f"2 with its condition false: {condition}"], head + b"if false\n\n" + tail)
        self.assertIn(b" {         \n         } elsif", told['4 without: fileinto "A";'])
        self.assertIn(b"/* ; */                if", told["9 without: discard;"])
        self.assertIn(b"elsif true {              \n \n \n  stop;", told['5 without: set "b" text: ..;'])
        self.assertEqual(list(self.told(b"stop; keep;")), ["1 without: stop;", "1 without: keep;"])

    def test_keys_and_numbers(self) -> None:
        text = b'require ["a", "b"]; if header ["a"] ["b" , text: # c\nd\n.\n,"e"] { addflag ["f", "g"]; }'
        told = self.told(text, keys=True)
        found = {name.split(":")[0]: made for name, made in told.items() if " in:" in name or "without text" in name}
        self.assertEqual(
            [it.how for it in changes(text, True, False) if " in" in it.how],
            list(
                map(
                    str, ['without "b" in', "without text: .. in", 'without "e" in', 'without "f" in', 'without "g" in']
                )
            ),
        )
        self.assertIn(b'["a"] [      text: # c\nd\n.\n,"e"]', found['1 without "b" in'])
        self.assertIn(b'["b" ,          \n \n \n "e"]', found["1 without text"])
        self.assertIn(b'["b" , text: # c\nd\n.\n    ]', found['4 without "e" in'])
        self.assertIn(b'["f"     ]', found['4 without "g" in'])
        limits = {"with 1025 in": b"if size :over 1025 {}", "with 1023 in": b"if size :over 1023 {}"}
        found_limits = [(it.how, it.of(b"if size :over 1K {}")) for it in changes(b"if size :over 1K {}", False, True)]
        self.assertEqual(dict(found_limits[2:]), limits)
        self.assertEqual([it.how for it in changes(b"if size :under 0 {}", False, True)][2:], ["with 1 in"])
        self.assertEqual([it.how for it in changes(b'vacation :days 7 "x";', True, True)], ["without"])

    def test_what_is_none(self) -> None:
        text = b"if TRUE { keep; } elsif not true {} elsif false {}"
        found: List[str] = [f"{it.how} {it.start}" for it in changes(text, True, True) if it.is_none(text)]
        self.assertEqual(found, ["with its condition true 3", "with its condition false 42"])

    def test_with_inserted(self) -> None:
        self.assertEqual(with_inserted(b"abc", [(3, b"!"), (1, b"-"), (1, b"+"), (0, b"?")]), b"?a-+bc!")
