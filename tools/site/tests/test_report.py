"""The command report, by the fake program: the rows of mails, where runs come, and what is text."""

import pathlib
import re
import subprocess
import sys
from typing import Dict, List, Tuple
from unittest import mock
from xml.etree.ElementTree import Element

sys.path.insert(0, str(pathlib.Path(__file__).resolve().parent.parent.parent))

from page_tree import text_of, tree_of, with_class, with_id  # noqa: E402

from sievebench_site.folder import Wanted, site_of, take_mails  # noqa: E402
from sievebench_site.letterheads import letterhead_of, readable  # noqa: E402
from sievebench_site.markup import joined, shown, tag  # noqa: E402
from sievebench_site.page import page_of  # noqa: E402
from sievebench_site.report import Facts  # noqa: E402

from .room import Files, Room  # noqa: E402

STYLE = pathlib.Path(__file__).resolve().parent.parent / "sievebench_site/page.css"
MAIN = """require ["fileinto", "include", "copy"];
if header "subject" "k1" { fileinto "A"; include "part"; }
elsif header "subject" "k2" { discard; stop; }
else { keep; }
if header "subject" "fails" { redirect :copy "a@b.example"; redirect ""; }
redirect :copy "c@d.example";
"""
# The colours of texts, and those that may be behind them; each outcome has its own.
TEXTS, BACKS = ("text", "soft", "link", "disagrees", "nothing-expected", "not-judged"), ("back", "band", "target")
OUTCOMES = ("agrees", "disagrees", "not-judged", "nothing-expected")


class Pages(Room):
    """A page as a tree."""

    def page(self, *words: str) -> Element:
        """The page of the site in the folder `site`."""
        told = self.ran("report", "site", "-o", "page.html", *words)
        self.assertEqual(told, (0, [], ""))
        return tree_of((self.room / "page.html").read_text(encoding="utf-8"))

    def site(self, files: Files) -> None:
        """Makes the site."""
        whole: Files = {"envelope": '"" ""', **files}
        self.write({f"site/{name}": text for name, text in whole.items()})

    def table(self, page: Element) -> List[List[str]]:
        """The table of mails: its head and its rows."""
        return [[text_of(cell) for cell in row] for row in with_id(page, "table").iter("tr")]

    def lines(self, page: Element, name: str) -> Dict[int, Tuple[str, str]]:
        """The lines of a script: how many mails come there, and what is said of them."""
        (script,) = (it for it in with_class(page, "script") if text_of(it[0]) == name)
        found = {}
        for row in script.iter("tr"):
            if row[0].tag == "th" and row[0].get("scope") == "row":
                counts = next(row[1].iter("summary"), row[1])
                found[int(text_of(row[0]))] = text_of(counts), " ".join(text_of(it) for it in row[2].iter("li"))
        return found


class Rows(Pages):
    """Mails of which all is equal stand in one row, and the worst come first."""

    def test_rows(self) -> None:
        mails: Files = {f"mails/{number}.eml": f"Subject: k{number % 3}\n\n" for number in range(7)}
        expects: Files = {
            "mails/1.eml.expect": '[main]\nstore "A"\nredirect "c@d.example"\n',
            "mails/2.eml.expect": '[main]\nstore "B"\n',
            "mails/4.eml.expect": '[main]\nstore "A"\nredirect "c@d.example"\n',
        }
        self.site({"personal/main.sieve": MAIN, "personal/part.sieve": "", "mains": "main\n", **mails, **expects})
        page = self.page()
        kept = '○ nothing expected store "INBOX"; redirect "c@d.example"'
        wanted = [
            ["Mails", "Count", "main"],
            ["k2", "1", "✗ disagrees discard"],
            ["k0 and 2 more mails", "3", kept],
            ["k2", "1", "○ nothing expected discard"],
            ["k1 and 1 more mail", "2", '✓ agrees store "A"; redirect "c@d.example"'],
        ]
        self.assertEqual(self.table(page), wanted)
        (counts,) = with_class(page, "counts")
        self.assertIn("The check fails: 7 mails, 1 mains, 7 verdicts, 2 agree, 1 disagree", text_of(counts))
        difference = [
            [(it.tag, text_of(it)) for it in item.iter() if it.tag in ("del", "ins")] for item in page.iter("td")
        ]
        self.assertIn([("del", '− store "B"'), ("ins", "+ discard")], difference)

    def test_many_rows(self) -> None:
        tests = "".join(f'if header "subject" "k{number:02}" {{ fileinto "{number}"; }}\n' for number in range(12))
        subjects = [*(f"k{number:02}" for number in range(12)), *["x"] * 7]
        mails: Files = {f"mails/{number}.eml": f"Subject: {it}\n\n" for number, it in enumerate(subjects)}
        self.site({"personal/main.sieve": f'require "fileinto";\n{tests}', "mains": "main\n", **mails})
        page = self.page()
        self.assertEqual(sorted(int(row[1]) for row in self.table(page)[1:]), [1] * 12 + [7])
        self.assertEqual(len(list(with_class(page, "row"))), 13)
        shown = [text_of(cell) for row in page.iter("tr") if re.match("m[0-9]", row.get("id", "")) for cell in row]
        self.assertEqual(sorted(it for it in shown if it.startswith("mails/")), sorted(mails))

    def test_a_check_that_is_not_lax(self) -> None:
        self.site({"personal/main.sieve": "discard;", "mains": "main\n", "mails/1.eml": "", "mails/2.eml.expect": ""})
        page = self.page()
        self.assertTrue([text_of(it) for it in with_class(page, "fails")][0].startswith("The check fails: "))
        told = [text_of(it) for part in with_class(page, "beside") for it in part]
        self.assertEqual(told, ["mails/2.eml.expect: stale: its mail isn't there"])

    def test_the_worst_of_several_lines(self) -> None:
        self.site({"personal/a.sieve": "keep;", "personal/b.sieve": "discard;", "mains": "a\nb\n"})
        self.write({f"site/mails/{number}.eml": f"Subject: k{number}\n\n" for number in (1, 2)})
        self.write({"site/mails/2.eml.expect": '[a]\nstore "INBOX"\n[b]\nstore "INBOX"\n'})
        self.assertEqual([row[0] for row in self.table(self.page())[1:]], ["k2", "k1"])

    def test_an_edit(self) -> None:
        self.site({"personal/main.sieve": "keep;", "personal/other.sieve": "keep;", "mains": "main\nother\n"})
        self.write({f"site/mails/{number}.eml": f"Subject: k{number}\n\n" for number in range(5)})
        names = ["-c", "user.name=a", "-c", "user.email=a@b.example"]
        for words in (["init", "-q"], ["add", "-A"], ["commit", "-qm", "one"]):
            subprocess.run(["git", *names, *words], cwd=self.room / "site", check=True)
        self.write({"site/personal/main.sieve": "discard;", "site/personal/other.sieve": 'require "regex";'})
        rows = [
            row for row in with_id(self.page("--against", "HEAD"), "edit").iter("tr") if row[0].get("scope") == "row"
        ]
        for row, told in zip(rows, ('− store "INBOX"', 'not judged: personal "other" requires regex')):
            self.assertEqual([text_of(it) for it in row[0].iter("a")], [f"k{number}" for number in range(5)])
            self.assertIn(told, text_of(row[1]))
        self.assertEqual(len(rows), 2)

    def test_columns(self) -> None:
        mains = {"a": "x\ny\n", "b": "x\n", "c": "x\n"}
        users: Files = {f"users/{user}/mains": text for user, text in mains.items()}
        scripts: Files = {f"users/{user}/personal/{name}.sieve": "discard;" for user in mains for name in "xy"}
        self.site({"mails/1.eml": "Subject: all\n\n", "users/b/mails/2.eml": "Subject: own\n\n", **users, **scripts})
        one, none, blank = "○ nothing expected discard", "○ 2 nothing expected", "not for this one"
        wanted = {
            4: [["a/x", "a/y", "b/x", "c/x"], [one] * 4, [blank, blank, one, blank]],
            3: [["a", "b", "c"], [none, one, one], [blank, one, blank]],
            2: [["All main scripts"], ["○ 4 nothing expected"], [f"b/x: {one}"]],
        }
        site = site_of(Wanted(bytes(self.room / "site"), [], [], [], None))
        take_mails(site)
        facts = Facts(site, self.program(), 1)
        for columns, table in wanted.items():
            with self.subTest(columns=columns), mock.patch("sievebench_site.report_rows.COLUMNS", columns):
                page = tree_of(page_of(facts, "0").decode())
                self.assertEqual([row[2:] for row in self.table(page)], table)

    def test_no_memory(self) -> None:
        self.site(
            {
                "personal/main.sieve": "discard;",
                "mains": "main\n",
                "mails/1.eml": "no memory to run",
                "mails/2.eml": "Subject: b\n\n",
                "mails/3.eml": "Subject: no memory to ask\n\n",
            }
        )
        page = self.page()
        judged = "○ nothing expected discard"
        self.assertEqual([row[2] for row in self.table(page)[1:]], ["? not judged", judged, judged])
        self.assertIn("--memory gives more", " ".join(text_of(it) for it in with_class(page, "row")))
        self.assertEqual(self.lines(page, "personal/main.sieve")[1][0], "1 comes")


class Lines(Pages):
    """Where runs come."""

    def test_failing_runs(self) -> None:
        mails: Files = {f"mails/{name}.eml": f"Subject: {name}\n\n" for name in ("k1", "k2", "k3 fails", "k4")}
        self.site({"personal/main.sieve": MAIN, "personal/part.sieve": "keep;", "mains": "main\n", **mails})
        page = self.page()
        counts = {number: count for number, (count, _) in self.lines(page, "personal/main.sieve").items()}
        wanted = {1: "", 2: "4 come, 1 takes it", 3: "1 takes it", 4: "2 take it", 5: "3 come, 1 takes it", 6: "2 come"}
        self.assertEqual(counts, wanted)
        told = " ".join(text_of(it) for it in with_class(page, "verdict"))
        self.assertIn('error personal "main" line 5 bad-address personal/main.sieve:5, in line 5: if header', told)

    def test_scripts_in_sequence(self) -> None:
        first = (
            'require "imap4flags";\nif header "subject" "k1" { addflag "x"; }\nif header "subject" "k2" { discard; }'
        )
        main = 'require "imap4flags";\nif hasflag "x" { discard; }\nelse { keep; }'
        mails: Files = {f"mails/{number}.eml": f"Subject: k{number}\n\n" for number in (1, 2, 3)}
        self.site({"before/first.sieve": first, "personal/main.sieve": main, "mains": "before/first main\n", **mails})
        page = self.page()
        self.assertEqual(
            [count for count, _ in self.lines(page, "before/first.sieve").values()],
            ["", "3 come, 1 takes it", "3 come, 1 takes it"],
        )
        self.assertEqual(
            [count for count, _ in self.lines(page, "personal/main.sieve").values()],
            ["", "2 come, 1 takes it", "1 takes it"],
        )

    def test_remarks(self) -> None:
        files: Files = {
            "personal/main.sieve": 'require "include";\nif false { stop; }\ninclude :optional "none";\n',
            "personal/wrong.sieve": "\nkep;\n",
            "personal/late.sieve": 'require "regex"; keep;',
            "personal/idle.sieve": "keep;",
            "unjudged": "personal/late.sieve since\n",
        }
        self.site({**files, "mains": "main\n", "mails/1.eml": ""})
        page = self.page()
        self.assertEqual(
            self.lines(page, "personal/wrong.sieve")[2], ("", "✗ unknown-command: There is no such command or test.")
        )
        self.assertEqual(self.lines(page, "personal/late.sieve")[1], ("", "? skipped: since"))
        count, remarks = self.lines(page, "personal/main.sieve")[2]
        self.assertEqual(count, "1 comes, none takes it")
        self.assertIn("△ no mail notices without: stop; (reached by no mail)", remarks)
        said = {text_of(it[0]): text_of(it[1]) for it in with_class(page, "script")}
        self.assertEqual(said["personal/idle.sieve"], "No verdict looks it up.")
        self.assertEqual(said["personal/wrong.sieve"], "It can't be run, as is said below.")


class Cautions(Pages):
    """What a server may do otherwise, as `why` says it."""

    def test_cautions(self) -> None:
        main = 'require "fileinto"; fileinto "<b>Gone";\nif false { currentdate "year" "1"; }'
        mails: Files = {
            "1.eml": "Subject: a\n\n",
            "2.eml": b"\xef\xbb\xbfX: y\nSubject: b\n\n",
            "3.eml": "Subject: c\n\n",
        }
        self.site({"personal/main.sieve": main, "mains": "main\n", "with": "mailbox\n", "mailboxes": "Work\n"})
        self.site({f"mails/{name}": octets for name, octets in mails.items()})
        gone = (
            'no-mailbox: No line of mailboxes is "<b>Gone", and nothing makes it: the server keeps the mail in INBOX.'
        )
        clock = "no-clock: It asks for the current date, and the site has no clock."
        wanted = [f"personal/main.sieve:1: {gone}", f"personal/main.sieve:2: {clock}"]
        page = self.page()
        rows = [[text_of(it) for it in with_class(row, "caution")] for row in with_class(page, "row")]
        self.assertEqual([row[0] for row in self.table(page)[1:]], ["a and 1 more mail", "b"])
        mark = "byte-order-mark: It begins with a byte order mark, the octets EF BB BF, so that its first line is no field."
        self.assertEqual(rows, [wanted, [mark, *wanted]])
        links = [
            text_of(with_id(page, it.get("href", "")[1:])[2][0])
            for it in with_class(page, "caution")
            for it in it.iter("a")
        ]
        self.assertEqual(links, main.split("\n") * 2)
        for name, told in (("1.eml", rows[0]), ("2.eml", rows[1])):
            lines = self.ran("why", "site", name)[1]
            start, end = (
                lines.index(f"  {it}:") for it in ("what a server may do otherwise", "scripts that are looked up")
            )
            said = [line.strip().replace("site/", "", 1) for line in lines[start + 1 : end]]
            self.assertEqual(said, [it if it != mark else f"mails/{name}:1: {mark}" for it in told])


class Texts(Room):
    """What mails and scripts say is text."""

    def test_markup(self) -> None:
        made = tag("a", "<b>&", joined(["'", tag("i", '"')], ">"), href='"><x', data_rank=0, hidden=True, class_=None)
        self.assertEqual(
            made, '<a href="&quot;&gt;&lt;x" data-rank="0" hidden>&lt;b&gt;&amp;&#x27;&gt;<i>&quot;</i></a>'
        )
        self.assertEqual(shown(shown("<")), "&lt;")

    def test_letterheads(self) -> None:
        rows = {
            b"=?utf-8?Q?B=C3=BCro?= =?iso-8859-1?B?5A==?=": "Büroä",
            b"=?none?Q?x?=": "=?none?Q?x?=",
            b"=?utf-8?B?a?=": "=?utf-8?B?a?=",
            "Büro \u202e\x1b[1m".encode(): "Büro \\xe2\\x80\\xae\\x1b[1m",
            b"\xff": "\\xff",
            b"x" * 201: "x" * 200 + " ..",
        }
        for value, wanted in rows.items():
            with self.subTest(value=value):
                self.assertEqual(readable(value), wanted)
        self.assertEqual(letterhead_of(b"To: a\nSUBJECT : b\n c\nsubject: d\n\nFrom: e"), ("b c", "", "a"))

    def test_contrast(self) -> None:
        light, dark = (
            dict(re.findall(r"--([a-z-]+): (#[0-9a-f]+);", it)) for it in STYLE.read_text().split("@media")[:2]
        )
        self.assertEqual(light.keys(), dark.keys())
        pairs = [(text, back) for text in TEXTS for back in BACKS] + [(it, f"{it}-back") for it in OUTCOMES]
        for colours in (light, dark):
            for text, back in pairs:
                with self.subTest(text=colours[text], back=colours[back]):
                    self.assertGreaterEqual(contrast(colours[text], colours[back]), 4.5)


def contrast(one: str, other: str) -> float:
    """The contrast of two colours, as the guidelines for accessible pages have it (WCAG 2)."""
    low, high = sorted(map(luminance, (one, other)))
    return (high + 0.05) / (low + 0.05)


def luminance(colour: str) -> float:
    """How light a colour is."""
    digits = colour[1:] if len(colour) == 7 else "".join(2 * it for it in colour[1:])
    parts = [int(digits[at : at + 2], 16) / 255 for at in (0, 2, 4)]
    red, green, blue = (it / 12.92 if it <= 0.04045 else ((it + 0.055) / 1.055) ** 2.4 for it in parts)
    return float(0.2126 * red + 0.7152 * green + 0.0722 * blue)
