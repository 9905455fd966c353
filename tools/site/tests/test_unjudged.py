"""Scripts that can't be judged, the file that lists them, and what is said of names that aren't known."""

import json
import xml.etree.ElementTree as tree
from typing import Dict, List, Tuple

from sievebench_site.capabilities import NEEDS, REGISTERED, WORDS
from sievebench_site.faults import Use, sentence_of, strangers, use_at
from sievebench_site.mains import Script

from .room import Files, Room

OLD = 'require "regex"; discard;'
SITE: Files = {
    "personal/main.sieve": "discard;",
    "personal/old.sieve": f"# old\n{OLD}",
    "mains": "main\nold\n",
    "envelope": '"" ""',
    "mails/1.eml": "",
    "mails/1.eml.expect": "[main]\ndiscard\n",
}
COUNTS = "1 mails, 2 mains, 2 verdicts, 1 agree, 0 disagree, 0 without expectation, {} stale expectations, 0 scripts with a fault"
# What a script requires, beside `unused` or not, and what lint says.
NAMES: List[Tuple[str, str, str]] = [
    ("vacation", "not judged", "requires vacation: add it to the file with"),
    ("mailbox vacation", "not judged", "requires mailbox, vacation: add them to the file with"),
    (
        "regex",
        "not judged",
        "requires regex: it isn't supported yet; list the script in unjudged: personal/x.sieve requires regex",
    ),
    (
        "vnd.dovecot.pipe vnd.cyrus.log",
        "not judged",
        "requires vnd.dovecot.pipe, vnd.cyrus.log: they aren't supported yet; list the script in unjudged: "
        "personal/x.sieve requires vnd.dovecot.pipe, vnd.cyrus.log",
    ),
    (
        "regex vacation",
        "not judged",
        "requires vacation: add it to the file with; requires regex: it isn't supported yet; "
        "list the script in unjudged: personal/x.sieve requires regex",
    ),
    ("imap4flag", "unknown-capability", "imap4flag: no such extension; did you mean imap4flags?"),
    ("FileInto", "unknown-capability", "FileInto: no such extension; did you mean fileinto?"),
    ("regex imap4flag", "unknown-capability", "imap4flag: no such extension; did you mean imap4flags?"),
    ("qwx", "unknown-capability", "qwx: no such extension"),
]


class Names(Room):
    """What is said of a name that isn't known."""

    def test_answers(self) -> None:
        for names, kind, answer in NAMES:
            required = ", ".join(f'"{name}"' for name in names.split())
            self.write({"personal/x.sieve": f"# x\nrequire [{required}];\nkeep;"})
            with self.subTest(names):
                self.assertEqual(self.ran("lint", "."), (1, [f"./personal/x.sieve:2: {kind}: {answer}"], ""))

    def test_unused(self) -> None:
        self.write({"personal/a.sieve": 'require "regex";\nkeep;', "with": "unused\n", **SITE})
        self.write({"personal/old.sieve": 'require "fileinto";\nrequire "imap4flag";\ndiscard;'})
        fault = "./personal/old.sieve:2: unknown-capability: imap4flag: no such extension; did you mean imap4flags?"
        for command in ("lint", "check", "record"):
            with self.subTest(command):
                status, told, _ = self.ran(command, ".")
                self.assertEqual((status, told[0]), (1, fault))
        used = '# a\nif header :regex "subject" "x" { keep; }'
        self.write({"personal/old.sieve": 'require "regex"; ' + used})
        told = self.ran("lint", "-q", ".")[1]
        why = "it isn't supported yet; list the script in unjudged: personal/old.sieve requires regex"
        self.assertEqual(told, [f"./personal/old.sieve:2: not judged: :regex needs regex: {why}"])
        self.write({"personal/old.sieve": used, "with": ""})
        sentence = "This tag isn't taken here, or not in this place, or not with another one."
        fault = f"bad-tag: {sentence} :regex needs regex, which the script doesn't require."
        self.assertIn(f"./personal/old.sieve:2: {fault}", self.ran("lint", ".")[1])

    def test_sentences(self) -> None:
        rows: Dict[Tuple[bytes, int, str], str] = {
            (b"\naddheader", 2, "unknown-command"): "addheader needs editheader, which the script doesn't require.",
            (b"kep;\naddheader", 1, "unknown-command"): "There is no such command or test.",
            (b"keep :fcc\n:mime", 1, "bad-tag"): ":fcc needs fcc, which the script doesn't require.",
            (b"vacation", 1, "bad-tag"): "or not with another one.",
            (b'require "fcc"; keep :fcc', 1, "bad-tag"): "or not with another one.",
        }
        for (text, line, word), end in rows.items():
            with self.subTest(text):
                self.assertTrue(sentence_of(Script("personal", b"x", b"x", text), line, word).endswith(end))
        self.assertEqual(use_at(b"reject", (1, "syntax")), None)
        self.assertEqual(strangers(b'require ["a", "copy", "b"]; require "a";'), (b"a", b"b"))

    def test_uses(self) -> None:
        rows: Dict[Tuple[bytes, str], Use] = {
            (b'require "notify"; notify;', "unknown-command"): Use(b"notify", b"notify"),
            (b"notify;", "unknown-command"): Use(b"notify", b"enotify"),
            (b'if string "${ENV.x}" "" {}', "bad-namespace"): Use(b"${env.", b"vnd.dovecot.environment"),
            (b'if header :comparator "i;unicode-casemap" "a" "b" {}', "unknown-comparator"): Use(
                b'"i;unicode-casemap"', b"comparator-i;unicode-casemap"
            ),
        }
        for (text, kind), wanted in rows.items():
            with self.subTest(text):
                self.assertEqual(use_at(text, (1, kind)), wanted)
                self.assertEqual(use_at(text, (2, kind)), None)

    def test_tables(self) -> None:
        self.assertTrue(set(WORDS) <= REGISTERED)
        words = {word for words in WORDS.values() for word in words}
        comparators = {b'"i;ascii-casemap"', b'"i;ascii-numeric"', b'"i;octet"', b'"i;unicode-casemap"'}
        self.assertEqual(set(NEEDS), words | comparators)
        self.assertEqual({name for names in NEEDS.values() for name in names} - REGISTERED, set())
        self.assertEqual([it for it in REGISTERED if it != it.lower()], [])


class Listed(Room):
    """The file `unjudged`."""

    def test_not_listed(self) -> None:
        self.write(SITE)
        answer = (
            "requires regex: it isn't supported yet; list the script in unjudged: personal/old.sieve requires regex"
        )
        wanted = [f"./personal/old.sieve:2: not judged: {answer}"]
        case = './mails/1.eml under old: not judged: personal "old" requires regex'
        self.assertEqual(self.ran("check", "."), (1, [*wanted, case, COUNTS.format(0) + ", 1 not judged"], ""))
        self.assertEqual(self.ran("lint", "."), (1, wanted, ""))
        # It fails also where no mail comes to it.
        self.write({"mains": "main\n"})
        self.assertEqual(self.ran("check", "-q", "."), (1, wanted, ""))
        self.write({"unjudged": answer.rpartition("unjudged: ")[2]})
        self.assertEqual(self.ran("check", "-q", "."), (0, [], ""))

    def test_listed(self) -> None:
        self.write({**SITE, "unjudged": "# so\n\n  ./personal/old.sieve\tuntil \u00fc #1 \n"})
        why = "./personal/old.sieve:2: skipped: until \\xc3\\xbc #1"
        self.assertEqual(self.ran("check", "."), (0, [why, COUNTS.format(0) + ", 1 skipped"], ""))
        self.assertEqual(self.ran("check", "-q", "."), (0, [], ""))
        self.assertEqual(self.ran("check", "--utf8", ".")[1][0], why.replace("\\xc3\\xbc", "\u00fc"))
        self.assertEqual(self.ran("lint", "--utf8", "."), (0, [why.replace("\\xc3\\xbc", "\u00fc")], ""))
        self.assertEqual(self.ran("record", "."), (0, ["1 mails, 0 written, 0 left"], ""))

    def test_forms(self) -> None:
        self.write({**SITE, "unjudged": "personal/old.sieve until then\n"})
        found = json.loads("".join(self.ran("check", "--json", ".")[1]))
        self.assertEqual((found["passed"], found["counts"]["skipped"], found["not judged"]), (True, 1, []))
        self.assertEqual([case["skipped"] for case in found["cases"]], [False, True])
        self.assertEqual(found["skipped"], [{"script": "./personal/old.sieve", "line": 2, "why": "until then"}])
        for command in ("check", "lint"):
            suite = tree.fromstring("\n".join(self.ran(command, "--format", "junit", ".")[1]))
            skipped = [it.get("message") for it in suite.iter("skipped")]
            numbers = [suite.get(name) for name in ("failures", "skipped")]
            self.assertEqual(numbers, ["0", str(len(skipped))])
            self.assertIn("until then", skipped[-1] or "")
            run = json.loads("".join(self.ran(command, "--format", "sarif", ".")[1]))["runs"][0]
            (first, *_) = run["results"]
            self.assertEqual((first["ruleId"], first["level"]), ("skipped", "note"))
            self.assertEqual(first["suppressions"], [{"kind": "external", "justification": "until then"}])
            told = self.ran(command, "--format", "github", ".")[1][0]
            self.assertTrue(told.startswith("::notice file=") and told.endswith("title=skipped::until then"), told)

    def test_users(self) -> None:
        users: Files = {
            f"users/{name}/personal/main.sieve": OLD if name == "ada" else "keep;" for name in ("ada", "eva")
        }
        self.write({**users, "mains": "main", "mails/1.eml": "", "envelope": '"" ""'})
        self.write({"mails/1.eml.expect": '[eva/main]\nstore "INBOX"\n', "unjudged": "ada hers wait\n"})
        told = self.ran("check", ".")
        self.assertEqual((told[0], told[1][0]), (0, "./users/ada/personal/main.sieve:1: skipped: hers wait"))
        self.write(
            {"unjudged": "eva all is well\nusers/ada/personal/main.sieve x\nbob x\n", "users/ada/personal/b.sieve": OLD}
        )
        wanted = ["./unjudged: eva can be judged", "./unjudged: no script and no user is called bob"]
        told = self.ran("check", ".")
        self.assertEqual((told[0], [line for line in told[1] if line.startswith("./unjudged")]), (1, wanted))
        # What isn't looked at isn't stale.
        self.assertEqual(self.ran("check", "-q", "--user", "eva", ".")[:2], (0, []))

    def test_stale(self) -> None:
        self.write({**SITE, "unjudged": "personal/old.sieve x\npersonal/main.sieve x\npersonal/gone.sieve x\n"})
        wanted = [
            "./unjudged: personal/main.sieve can be judged",
            "./unjudged: no script and no user is called personal/gone.sieve",
        ]
        self.assertEqual(self.ran("check", "-q", "."), (1, wanted, ""))
        self.assertEqual(self.ran("check", "-q", "--lax", "."), (0, [], ""))
        self.assertIn(f"{COUNTS.format(2)}, 1 skipped", self.ran("check", ".")[1])

    def test_a_run_that_comes_to_both(self) -> None:
        self.write({**SITE, "before/10.sieve": OLD, "before/20.sieve": OLD, "mains": "before/10 before/20 main"})
        self.write({"personal/old.sieve": "", "unjudged": "before/10.sieve x\n"})
        self.assertEqual(self.ran("check", ".")[0], 1)
        self.write({"unjudged": "before/10.sieve x\nbefore/20.sieve y\n"})
        self.assertEqual(self.ran("check", ".")[0], 0)

    def test_refusals(self) -> None:
        for text in ("personal/old.sieve", "# a\n\n  ada  \n", '"ada why\n', '"" why'):
            self.write({**SITE, "unjudged": text})
            with self.subTest(text):
                status, told, error = self.ran("check", ".")
                self.assertEqual((status, told), (2, []))
                self.assertIn('sievebench-site: "./unjudged", line ', error)
                self.assertIn("isn't the path of a script or a user's name, and then why", error)
