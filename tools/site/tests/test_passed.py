"""Whether a check has failed is one fact: the object, the annotations, SARIF, the tests of JUnit and the status say the same."""

import contextlib
import io
import json
import os
import re
import xml.etree.ElementTree as tree
from typing import Callable, List, NamedTuple, Optional, Tuple
from unittest import mock

from sievebench_site import main as module
from sievebench_site.main import status_of

from .room import FAKE, Files, Room

SITE: Files = {
    "personal/main.sieve": "discard;",
    "mains": "main\n",
    "envelope": '"" ""',
    "mails/1.eml": "a",
    "mails/1.eml.expect": "[main]\ndiscard\n",
}
REGEX = 'require "regex";'
NO_MEMORY = "not judged: the program has no memory for it: --memory gives more"
LISTED: Files = {"personal/other.sieve": REGEX, "unjudged": "personal/other.sieve so\n", "mains": "main\nother\n"}


class Row(NamedTuple):
    """What a site has besides, the kind and the message of each result that fails the check, and whether --lax passes them."""

    title: str
    files: Files
    failing: List[Tuple[str, str]]
    lax: bool = False


ROWS = [
    Row("all agree", {}, []),
    Row("a verdict disagrees", {"mails/1.eml.expect": "[main]\n"}, [("disagrees", "the verdict isn't as expected")]),
    Row("nothing is expected", {"mails/2.eml": ""}, [("nothing-expected", "nothing is expected")], True),
    Row("a mail that isn't there", {"mails/2.eml.expect": ""}, [("stale", "its mail isn't there")], True),
    Row(
        "a line that isn't there",
        {"mails/1.eml.expect": "[gone]\n[main]\ndiscard\n"},
        [("stale", "no main script is called gone")],
        True,
    ),
    Row(
        "a script that is listed and can be judged",
        {"unjudged": "personal/main.sieve so\n"},
        [("stale", "personal/main.sieve can be judged")],
        True,
    ),
    Row("a fault", {"personal/other.sieve": "kep;"}, [("unknown-command", "line 1 unknown-command")]),
    Row("a script that can't be judged", {"personal/other.sieve": REGEX}, [("not-judged", "line 1 not judged")]),
    Row(
        "a verdict that can't be judged",
        {"personal/other.sieve": REGEX, "mains": "main\nother\n"},
        [("not-judged", "line 1 not judged"), ("not-judged", 'not judged: personal "other" requires regex')],
    ),
    Row(
        "memory is refused",
        {"mails/2.eml": "no memory to run", "mails/2.eml.expect": "[main]\ndiscard\n"},
        [("not-judged", NO_MEMORY)],
    ),
    Row("what can't be judged and is listed", LISTED, []),
    Row("a file that is left out", {"mails/2.EML": ""}, []),
    Row(
        "several",
        {"personal/other.sieve": "kep;", "mails/1.eml.expect": "[main]\n", "mails/2.eml.expect": ""},
        [
            ("unknown-command", "line 1 unknown-command"),
            ("disagrees", "the verdict isn't as expected"),
            ("stale", "its mail isn't there"),
        ],
    ),
]


class Forms(Room):
    """A check of a site in all forms."""

    def told(self, *words: str) -> Tuple[int, str, str]:
        """The status of a check, and what is on its outputs."""
        output, error = io.StringIO(), io.StringIO()
        program = [] if "--program" in words else ["--program", str(FAKE)]
        with contextlib.redirect_stdout(output), contextlib.redirect_stderr(error):
            status = status_of(["check", *program, *words, str(self.room / "site")])
        return status, output.getvalue(), error.getvalue()

    def make(self, files: Files) -> None:
        """Makes a site that has these files besides, and none of an earlier row."""
        for path in sorted(self.room.rglob("*"), reverse=True):
            path.rmdir() if path.is_dir() else path.unlink()
        self.write({f"site/{name}": text for name, text in {**SITE, **files}.items()})

    def compare(self, failing: List[Tuple[str, str]], *words: str) -> None:
        """Looks at what each form says of a site of which this fails."""
        kinds, status = sorted(kind for kind, _ in failing), int(bool(failing))
        junit = self.room / "out.xml"
        ended, object_of, error = self.told("--json", "--junit", str(junit), *words)
        found = json.loads(object_of)
        self.assertEqual((ended, found["passed"], error), (status, not failing, ""))
        suite = tree.parse(junit).getroot()
        messages = [it.get("message") for it in suite.iter("failure")]
        self.assertEqual(sorted(it or "" for it in messages), sorted(message for _, message in failing))
        self.assertEqual(suite.get("failures"), str(len(failing)))
        ended, sarif, error = self.told("--format", "sarif", *words)
        results = json.loads(sarif)["runs"][0]["results"]
        self.assertEqual((ended, error), (status, ""))
        self.assertEqual(sorted(it["ruleId"] for it in results if it["level"] == "error"), kinds)
        ended, github, error = self.told("--format", "github", *words)
        self.assertEqual((ended, error), (status, ""))
        self.assertEqual(sorted(re.findall(r"^::error .*?title=([a-z-]+)::", github, re.M)), kinds)
        self.assertEqual(self.told("-q", *words)[0], status)

    def test_ways_to_fail(self) -> None:
        for row in ROWS:
            with self.subTest(row.title):
                self.make(row.files)
                self.compare(row.failing)
            with self.subTest(f"{row.title}, --lax"):
                (self.room / "out.xml").unlink()
                strictly = [it for it in row.failing if it[0] not in ("stale", "nothing-expected")]
                self.compare([] if row.lax else strictly, "--lax")

    def test_ways_to_end(self) -> None:
        def broken() -> None:
            (self.room / "site/mails/1.eml.expect").unlink()
            (self.room / "site/mails/1.eml.expect").symlink_to("nowhere")

        def ending() -> None:
            self.write({"p": "#!/bin/sh\n[ $1 = --version ] || exit 4\n"})
            (self.room / "p").chmod(0o755)

        rows: List[Tuple[str, Optional[Callable[[], None]], List[str], int]] = [
            ("a file that isn't there", broken, [], 2),
            ("no mails", lambda: (self.room / "site/mails/1.eml").unlink(), [], 2),
            ("no such mail", None, ["--only", "2.eml"], 2),
            ("no such line", None, ["--main", "x"], 2),
            ("no such program", None, ["--program", str(self.room / "x")], 3),
            ("a program that ends", ending, ["--program", str(self.room / "p")], 3),
        ]
        for title, change, words, status in rows:
            for form in ("text", "json"):
                with self.subTest(title, form=form):
                    self.make({})
                    if change:
                        change()
                    self.write({"out.xml": "of an earlier run"})
                    self.refused(status, "--format", form, "--junit", str(self.room / "out.xml"), *words)

    def test_misuse(self) -> None:
        self.make({})
        for words in (["--jobs", "0"], ["--lxa"], ["more"]):
            for form in ("text", "json", "junit", "github", "sarif"):
                with self.subTest(words, form=form):
                    self.refused(2, "--format", form, "--junit", str(self.room / "out.xml"), *words)

    def test_out_of_memory(self) -> None:
        self.make({})
        for name in ("found_in", "site_of", "Checked"):
            with self.subTest(name), mock.patch.object(module, name, side_effect=MemoryError):
                self.write({"out.xml": "of an earlier run"})
                error = self.refused(3, "--json", "--junit", str(self.room / "out.xml"))
                self.assertEqual(error, "sievebench-site: this tool is out of memory\n")

    def refused(self, status: int, *words: str) -> str:
        """A check that ends so says nothing in any form, and leaves no file of results; what is on its standard error."""
        ended, output, error = self.told(*words)
        self.assertEqual((ended, output), (status, ""))
        self.assertRegex(error, r"^sievebench-site: .+\n$")
        self.assertFalse(os.path.lexists(self.room / "out.xml"))
        return error
