"""What lines of main scripts are called, and which block of a mail's file is theirs."""

from typing import Dict, List, Tuple

from sievebench_site.ends import Refusal
from sievebench_site.folder import Wanted, site_of
from sievebench_site.headings import Expected
from sievebench_site.mains import Main

from .room import Files, Room

SCRIPTS: Files = {f"personal/{name}.sieve": "" for name in ("main", "other", "a b", "Re: mails")}
SCRIPTS.update({f"{name}.sieve": "" for name in ("before/10", "before/15", "after/90", "global/main", "global/g")})
# The lines of mains, and what they are called.
CALLED: List[Tuple[str, List[str]]] = [
    ("main", ["main"]),
    ("before/10 main after/90", ["main"]),
    ("personal/main", ["main"]),
    ("before/10 global/g after/90", ["global/g"]),
    ("before/10 after/90", ["after/90"]),
    ("a b", ["a b"]),
    ("Re: mails", ["Re: mails"]),
    ("sales: before/10 main after/90", ["sales"]),
    ('"my sales": "a b" other # mine', ["my sales"]),
    ("sales: before/10 main\nplain: main\nother", ["sales", "plain", "other"]),
    # Without a name, lines for one script are called by all their scripts.
    ("before/10 main\nmain\nother", ["before/10 main", "main", "other"]),
    ("sales: before/10 main\nmain", ["sales", "main"]),
    ("main\nmain", ["main"]),
]
# A line of mains, the headings of a file, and which of them is its own.
FOUND: List[Tuple[str, str, List[str], str]] = [
    ("the name", "before/10 main", ["main", "before/10 main"], "main"),
    ("all scripts, as once", "before/10 main", ["before/10 main", "other"], "before/10 main"),
    ("other scripts of the chain", "before/10 before/15 main", ["before/10 main", "after/90 other"], "before/10 main"),
    ("no chain any more", "main", ["before/10 main after/90"], "before/10 main after/90"),
    ("two chains of one script", "main", ["before/10 main", "after/90 main"], ""),
    ("a name that is new", "sales: before/10 main", ["main"], "main"),
    ("another script", "before/10 main", ["before/10 other", "after/90"], ""),
    ("the folder personal", "personal/main", ["personal/main"], "personal/main"),
]


class Headings(Room):
    """Lines of main scripts and their blocks."""

    def mains(self, lines: str, *asked: str) -> List[Main]:
        """The main scripts of a site with these lines."""
        self.write({**SCRIPTS, "mains": lines})
        return site_of(Wanted(bytes(self.room), [it.encode() for it in asked], [], [], None)).users[0].mains

    def expected(self, headings: List[str], users: bool = False) -> Expected:
        """A file with these headings."""
        return Expected({b"x": "".join(f"[{it}]\n" for it in headings).encode()}, users)

    def test_called(self) -> None:
        for lines, wanted in CALLED:
            with self.subTest(lines):
                self.assertEqual([it.label().decode() for it in self.mains(lines)], wanted)

    def test_asked_for(self) -> None:
        rows: Dict[Tuple[str, ...], List[str]] = {
            ("sales",): ["sales"],
            ("before/10 main",): ["sales"],
            ("other",): ["other"],
            ("sales", "before/10 main"): ["sales"],
            # It isn't the line that is called so, and so it isn't called by its main script.
            ("after/90 other",): ["after/90 other"],
            ("before/15 global/g",): ["global/g"],
            ("what: before/15 main",): ["what"],
        }
        for asked, wanted in rows.items():
            with self.subTest(asked):
                found = self.mains("sales: before/10 main\nbefore/10 other after/90", *asked)
                self.assertEqual([it.label().decode() for it in found], wanted)
        self.assertEqual([it.label() for it in self.mains('"my sales": other', "my sales")], [b"my sales"])
        (chain,) = self.mains("sales: before/10 main\nbefore/10 other after/90", "other")
        self.assertEqual(len(chain.scripts), 3)

    def test_refusals(self) -> None:
        rows = {
            "x: main\nx: other": 'line 2: another line is called "x" too: another name before a colon, as other: main',
            "main: other\nmain": 'line 2: another line is called "main" too: another name before a colon',
            "# one\nx: gone": 'line 2: no main script "gone": there is no "',
            "x: #": 'line 1: no main script "#": a name with blanks stands between quotes',
        }
        for lines, sentence in rows.items():
            with self.subTest(lines), self.assertRaises(Refusal) as caught:
                self.mains(lines)
            self.assertTrue(caught.exception.sentence.startswith(f'"{self.room}/mains", {sentence}'), caught.exception)

    def test_found(self) -> None:
        for title, line, headings, wanted in FOUND:
            with self.subTest(title):
                (main,) = self.mains(line)
                found = self.expected(headings).heading(main)
                self.assertEqual(b" ".join(found or ()).decode(), wanted)

    def test_several_lines_for_one(self) -> None:
        chain, plain = self.mains("before/10 main\nmain")
        expected = self.expected(["before/10 main"])
        self.assertEqual((expected.heading(chain), expected.heading(plain)), ((b"before/10", b"main"), None))
        # What another line is called isn't taken for all scripts of this one.
        named, plain = self.mains("main: before/10 main\nplain: main")
        expected = self.expected(["main"])
        self.assertEqual((expected.heading(named), expected.heading(plain)), ((b"main",), None))
        expected = self.expected(["before/10 main"])
        named, plain = self.mains("sales: before/10 before/15 main\nmain")
        self.assertEqual((expected.heading(named), expected.heading(plain)), (None, None))

    def test_users(self) -> None:
        self.write({"users/ada/personal/main.sieve": "", "users/eva/personal/main.sieve": ""})
        self.write({**SCRIPTS, "mains": "before/10 before/15 main"})
        ada, eva = site_of(Wanted(bytes(self.room), [], [], [], None)).users
        self.assertEqual([user.mains[0].label() for user in (ada, eva)], [b"ada/main", b"eva/main"])
        expected = self.expected(["ada/before/10 main", "eva/main"], True)
        found = [expected.heading(user.mains[0]) for user in (ada, eva)]
        self.assertEqual(found, [(b"ada/before/10", b"main"), (b"eva/main",)])
        self.assertEqual(expected.headings(ada.mains), {(b"ada/before/10", b"main")})
