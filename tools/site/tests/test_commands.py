"""The commands, by the fake program: what is printed, what is written, and the status."""

import json
import os
import signal
import xml.etree.ElementTree as tree

from sievebench_site.options import parsed

from .room import Files, Room

LACKS = "requires regex: it isn't supported yet; list the script in unjudged: {}.sieve requires regex"
COUNTS = (
    "mails",
    "mains",
    "verdicts",
    "agree",
    "disagree",
    "without expectation",
    "stale expectations",
    "scripts with a fault",
)


def counted(*numbers: int) -> str:
    """The last line of a check."""
    return ", ".join(f"{number} {what}" for number, what in zip(numbers, COUNTS))


class Checks(Room):
    """The command check."""

    def setUp(self) -> None:
        super().setUp()
        mails: Files = {f"mails/{number}.eml": "" for number in range(5)}
        mails.update({f"mails/{number}.eml.expect": "[a]\ndiscard\n[b]\ndiscard\n" for number in range(4)})
        self.write(
            {
                "personal/a.sieve": "\nkeep;",
                "personal/b.sieve": "keep;",
                "mains": "a\nb\n",
                "envelope": '"" ""',
                **mails,
            }
        )

    def test_groups(self) -> None:
        status, told, error = self.ran("check", ".")
        wanted = [f"./mails/{mail}.eml under {main}" for mail, main in (("0", "a"), ("0", "b"), ("1", "a"))]
        wanted += ["and 5 more: 8 verdicts in all, of 4 mails under 2 mains", "  - discard"]
        wanted += ['  + store "INBOX"  (./personal/a.sieve:2 and 1 other line)']
        wanted += ["./mails/4.eml under a: nothing is expected", "./mails/4.eml under b: nothing is expected"]
        self.assertEqual((status, told, error), (1, [*wanted, counted(5, 2, 10, 0, 8, 2, 0, 0)], ""))
        told = self.ran("check", "--all", "--main", "a", ".")[1]
        self.assertEqual(
            told[3:6], ["./mails/1.eml under a", "  - discard", '  + store "INBOX"  (./personal/a.sieve:2)']
        )
        self.assertEqual(len(told), 4 * 3 + 2)

    def test_differences_that_begin_alike(self) -> None:
        self.write({"personal/a.sieve": 'require "fileinto"; if header "subject" "one" { fileinto "A"; } keep;'})
        self.write({"mails/0.eml": "one", "mails/1.eml": "two", "mails/2.eml": "one"})
        words = ("check", "--main=a", *(f"--only={number}.eml" for number in range(3)), ".")
        change = ["  - discard", '  + store "A"  (./personal/a.sieve:1)', '  + store "INBOX"  (./personal/a.sieve:1)']
        wanted = [
            "./mails/0.eml under a",
            "./mails/2.eml under a",
            "2 verdicts in all, of 2 mails under 1 main",
            *change,
        ]
        wanted += ["./mails/1.eml under a", change[0], change[2]]
        self.assertEqual(self.ran(*words)[1][:-1], wanted)

    def test_few_alike(self) -> None:
        told = self.ran("check", "--main=a", "--only=0.eml", "--only=1.eml", ".")[1]
        self.assertEqual(
            told[:3], ["./mails/0.eml under a", "./mails/1.eml under a", "2 verdicts in all, of 2 mails under 1 main"]
        )

    def test_an_include_that_fails(self) -> None:
        self.write({"personal/a.sieve": 'require "include"; include :optional "x"; include "y";'})
        told = self.ran("check", "--main=a", "--only=0.eml", ".")[1]
        self.assertTrue(told[3].startswith("  + error ") and told[3].endswith(' missing-script  (personal "y")'), told)

    def test_lax_and_quiet(self) -> None:
        self.write(
            {
                "mails/9.eml.expect": "",
                "mails/x.EML": "",
                "personal/c.sieve": 'require "regex";',
                "unjudged": "personal/c.sieve so it is\n",
            }
        )
        self.assertEqual(self.ran("check", "--lax", "--only", "4.eml", ".")[0], 0)
        self.assertEqual(self.ran("check", "--only", "4.eml", ".")[0], 1)
        for number in range(5):
            self.write({f"mails/{number}.eml.expect": '[a]\nstore "INBOX"\n[b]\nstore "INBOX"\n'})
        status, told, _ = self.ran("check", ".")
        wanted = ["./personal/c.sieve:1: skipped: so it is", "./mails/9.eml.expect: its mail isn't there"]
        wanted += ["./mails/x.EML: left out: its name doesn't end by .eml, in small letters"]
        self.assertEqual((status, told), (1, [*wanted, counted(5, 2, 10, 10, 0, 0, 1, 0) + ", 1 left out"]))
        self.assertEqual(self.ran("check", "-q", "."), (1, wanted[1:2], ""))
        self.assertEqual(self.ran("check", "-q", "--lax", "."), (0, [], ""))
        (self.room / "envelope").unlink()
        self.assertEqual(
            self.ran("check", "--lax", ".")[1][-1],
            counted(5, 2, 10, 10, 0, 0, 1, 0) + ", 5 mails without an envelope, 1 left out",
        )

    def test_what_is_stale_of_some_mails(self) -> None:
        self.write({"mails/0.eml.expect": '[a]\nstore "INBOX"\n[b]\nstore "INBOX"\n[lost]\ndiscard\n'})
        self.write({"mails/9.eml.expect": "", "unjudged": "personal/a.sieve so\n"})
        stale = ["./mails/0.eml.expect: no main script is called lost", "./unjudged: personal/a.sieve can be judged"]
        self.assertEqual(self.ran("check", "-q", "--only", "0.eml", "."), (1, stale, ""))
        self.assertEqual(self.ran("check", "-q", "--lax", "--only", "0.eml", "."), (0, [], ""))
        told = ["./mails/0.eml.expect: stale: no main script is called lost"]
        told += ["1 mails, 0 written, 0 left, 1 stale: --prune takes them out"]
        self.assertEqual(self.ran("record", "--only", "0.eml", "."), (0, told, ""))
        self.assertEqual(self.ran("check", "-q", "--only", "0.eml", "--main", "a", "."), (0, [], ""))

    def test_scripts_beside_some_mails(self) -> None:
        # No mail comes to these scripts.
        self.write({"mails/0.eml.expect": '[a]\nstore "INBOX"\n[b]\nstore "INBOX"\n'})
        self.write({"personal/c.sieve": 'require "regex";', "personal/d.sieve": "kep;"})
        wanted = ["./personal/d.sieve:1: unknown-command: There is no such command or test."]
        wanted.append(f"./personal/c.sieve:1: not judged: {LACKS.format('personal/c')}")
        for words in (["--only", "0.eml"], ["--only", "0.eml", "--main", "a", "--lax"]):
            with self.subTest(words):
                self.assertEqual(self.ran("check", "-q", *words, "."), (1, wanted, ""))

    def test_unjudged(self) -> None:
        self.write({"personal/a.sieve": 'require ["regex", "fileinto"];'})
        status, told, _ = self.ran("check", "--lax", "--main", "a", ".")
        self.assertEqual(
            told[:2],
            [
                f"./personal/a.sieve:1: not judged: {LACKS.format('personal/a')}",
                './mails/0.eml under a: not judged: personal "a" requires regex',
            ],
        )
        self.assertEqual(
            (status, told[-2]),
            (1, 'and 2 more: 5 verdicts in all, of 5 mails under 1 main: not judged: personal "a" requires regex'),
        )
        self.assertEqual(told[-1], counted(5, 1, 5, 0, 0, 0, 0, 0) + ", 5 not judged")

    def test_memory(self) -> None:
        self.write({"personal/main.sieve": "discard;", "mains": "main\n", "envelope": '"" ""\n'})
        self.write({f"mails/{number}.eml": "no memory to run" if number == 1 else "" for number in range(5)})
        self.write({f"mails/{number}.eml.expect": "[main]\ndiscard\n" for number in range(5)})
        counts = "5 mails, 1 mains, 5 verdicts, 4 agree, 0 disagree, 0 without expectation"
        counts += ", 0 stale expectations, 0 scripts with a fault, 1 not judged"
        why = "not judged: the program has no memory for it: --memory gives more"
        self.assertEqual(self.ran("check", "."), (1, [f"./mails/1.eml under main: {why}", counts], ""))
        written = "5 mails, 0 written, 0 left, 1 verdicts not judged"
        self.assertEqual(self.ran("record", "."), (0, [written], ""))

    def test_forms(self) -> None:
        self.write({"personal/c.sieve": "\n\nkep;", "mails/x.EML": "", "mails/9.eml.expect": ""})
        found = json.loads("".join(self.ran("check", "--format", "json", ".")[1]))
        self.assertEqual((found["passed"], found["counts"]["disagree"], found["counts"]["left out"]), (False, 8, 1))
        self.assertEqual(
            found["cases"][0],
            {
                "mail": "0.eml",
                "main": "a",
                "agrees": False,
                "skipped": False,
                "expected": ["discard"],
                "verdict": ['store "INBOX"'],
                "lines": ["./personal/a.sieve:2"],
            },
        )
        suite = tree.fromstring("\n".join(self.ran("check", "--format", "junit", ".")[1]))
        self.assertEqual([suite.get(name) for name in ("tests", "failures", "skipped")], ["12", "12", "0"])
        failure = suite.find("testcase/failure")
        assert failure is not None
        self.assertEqual(failure.attrib, {"message": "the verdict isn't as expected"})
        told = self.ran("check", "--format", "github", ".")[1]
        self.assertEqual(
            told[0], "::error file=personal/c.sieve,line=3,title=unknown-command::There is no such command or test."
        )
        self.assertTrue(
            told[1].startswith(
                "::error file=mails/0.eml.expect,line=1,title=disagrees::mails/0.eml under a%0Amails/0.eml under b%0A"
            )
        )
        self.assertEqual(
            told[-1], "::notice file=mails/x.EML,title=left-out::its name doesn't end by .eml, in small letters"
        )
        self.write({"personal/z.sieve": 'require "regex";'})
        lacking = "file=personal/z.sieve,line=1,title=not-judged::requires regex"
        told = self.ran("check", "--format", "github", ".")[1]
        self.assertEqual([line for line in told if lacking in line][0].split(": it")[0], f"::error {lacking}")

    def test_sarif(self) -> None:
        self.write({"personal/c.sieve": "\n\nkep;", "mails/x.EML": "", "mails/9.eml.expect": ""})
        run = json.loads("".join(self.ran("check", "--format", "sarif", ".")[1]))["runs"][0]
        self.assertEqual(
            [it["ruleId"] for it in run["results"]],
            ["unknown-command", "disagrees", "nothing-expected", "stale", "left-out"],
        )
        place = run["results"][0]["locations"][0]["physicalLocation"]
        self.assertEqual(place, {"artifactLocation": {"uri": "personal/c.sieve"}, "region": {"startLine": 3}})


class Records(Room):
    """The command record."""

    def test_what_is_written(self) -> None:
        self.write(
            {
                "personal/a.sieve": "discard;",
                "personal/z.sieve": 'require "regex";',
                "mains": "a\nz\n",
                "envelope": '"" ""',
            }
        )
        self.write({f"mails/{number}.eml": "" for number in range(4)})
        hand = "# by hand\n[a]\nkeep\n".replace("keep", 'store "K"')
        self.write(
            {
                "mails/1.eml.expect": hand,
                "mails/2.eml.expect": "# fine\n[a]\ndiscard\n",
                "mails/3.eml.expect": "[a]\ndiscard\n",
            }
        )
        status, told, _ = self.ran("record", ".")
        left = "left, since it isn't as this tool writes it: --force writes it anew, without its comments"
        wanted = [
            f"./personal/z.sieve:1: not judged: {LACKS.format('personal/z')}",
            "./mails/0.eml.expect: new",
            f"./mails/1.eml.expect: {left}",
        ]
        self.assertEqual((status, told), (1, [*wanted, "4 mails, 1 written, 1 left, 4 verdicts not judged"]))
        self.assertEqual((self.room / "mails/1.eml.expect").read_text(), hand)
        self.assertEqual(
            self.ran("record", "-q", ".")[:2],
            (1, [wanted[0], wanted[2], "4 mails, 0 written, 1 left, 4 verdicts not judged"]),
        )
        status, told, _ = self.ran("record", "--force", ".")
        self.assertEqual((status, told[1:3]), (0, ["./mails/1.eml.expect: changed", "./mails/2.eml.expect: changed"]))
        for number in range(4):
            self.assertEqual((self.room / f"mails/{number}.eml.expect").read_text(), "[a]\ndiscard\n")
        self.assertEqual(self.ran("record", "-q", "."), (0, [], ""))

    def test_two_at_once(self) -> None:
        self.write({"personal/a.sieve": 'sleep "30";', "mains": "a\n", "envelope": '"" ""', "mails/1.eml": ""})
        with self.started("record", ".") as first:
            self.await_file(first, ".sievebench-site.lock")
            status, told, error = self.ran("record", ".")
            first.terminate()
            first.communicate()
        self.assertEqual((status, told), (2, []))
        self.assertIn(f'"." is being written by process {first.pid} of ', error)
        self.write({"personal/a.sieve": ""})
        self.assertEqual(self.ran("record", ".")[0], 0)
        self.assertNotIn(".sievebench-site.lock", os.listdir(self.room))

    def test_signals_that_are_ignored(self) -> None:
        self.write({"personal/a.sieve": 'sleep "0.5";', "mains": "a\n", "envelope": '"" ""', "mails/1.eml": ""})
        with self.started("record", ".", heeded=signal.SIG_IGN) as child:
            self.await_file(child, "asleep")
            child.send_signal(signal.SIGINT)
            child.communicate()
        self.assertEqual(child.returncode, 0)


class Lints(Room):
    """The command lint."""

    def test_users(self) -> None:
        self.write({f"users/{name}/personal/m.sieve": "\nkep;" for name in "ab"})
        self.write(
            {
                "mains": "m",
                "global/g.sieve": "kep;",
                "global/v.sieve": 'require "regex";',
                "users/a/personal/x.sieve": "",
            }
        )
        status, told, _ = self.ran("lint", ".")
        fault = "unknown-command: There is no such command or test."
        wanted = [f"./global/g.sieve:1: {fault}", *(f"./users/{name}/personal/m.sieve:2: {fault}" for name in "ab")]
        self.assertEqual((status, told), (1, [*wanted, f"./global/v.sieve:1: not judged: {LACKS.format('global/v')}"]))
        self.write({"mails/1.eml": "", "envelope": '"" ""'})
        self.assertEqual(sorted(line for line in self.ran("check", ".")[1] if line.endswith(fault)), sorted(wanted))
        for name in "ab":
            self.write({f"users/{name}/personal/m.sieve": ""})
        told = self.ran("lint", ".")[1]
        places = ["users/a/personal/x.sieve", "global/g.sieve", "global/v.sieve"]
        self.assertEqual(told[2:], [f"./{place}:0: unreached: No main script comes to it." for place in places])
        self.write({"users/a/personal/m.sieve": 'require "include"; include :global "g";', "global/g.sieve": ""})
        self.assertNotIn("global/g.sieve", "".join(self.ran("lint", ".")[1]))

    def test_forms(self) -> None:
        self.write(
            {"personal/a.sieve": "\nkep;", "personal/b.sieve": "", "personal/c.sieve": 'require "regex";', "mains": "b"}
        )
        found = json.loads("".join(self.ran("lint", "--format", "json", ".")[1]))
        self.assertEqual(
            (found["passed"], [it["level"] for it in found["findings"]]), (False, ["error", "error", "note", "note"])
        )
        suite = tree.fromstring("\n".join(self.ran("lint", "--format", "junit", ".")[1]))
        self.assertEqual([suite.get(name) for name in ("tests", "failures")], ["3", "2"])
        self.assertEqual(
            self.ran("lint", "--format", "github", ".")[1][0],
            "::error file=personal/a.sieve,line=2,title=unknown-command::There is no such command or test.",
        )
        self.assertEqual(
            self.ran("lint", "-q", ".")[1],
            [
                "./personal/a.sieve:2: unknown-command: There is no such command or test.",
                f"./personal/c.sieve:1: not judged: {LACKS.format('personal/c')}",
            ],
        )


class Imports(Room):
    """The command import."""

    def test_import(self) -> None:
        mail = "Return-Path: <a@b>\nDelivered-To: c@d\n\nx\n"
        box = f"From e@f Mon Jan  1 00:00:00 2026\nDelivered-To: c@d\n\nx\n\nFrom MAILER-DAEMON Mon Jan  1 00:00:00 2026\nEnvelope-To: c@d\n\ny\n\nFrom e@f x\n\nno\n"
        self.write(
            {"site/mails/0001.eml": "there", "site/mails/0003.eml.expect": "", "one": mail, "box": box, "two": "there"}
        )
        self.write(
            {
                "md/cur/2.x:2,S": mail.replace("x", "second"),
                "md/new/1.x": "large" * 4_000_000,
                "md/tmp/3.x": "no",
                "md/.Sent/cur/4.x": "no",
                "md/cur/.5": "no",
            }
        )
        status, told, error = self.ran("import", "one", "box", "md", "two", "one", "site")
        wanted = ["box, mail 3", "md/1.x", "md/.Sent", "two", "one"]
        self.assertEqual([line.split(": ")[0].replace("/new", "") for line in told[:-1]], wanted)
        self.assertEqual(
            told[3:5],
            ["two: left out: it is 0001.eml, octet by octet", "one: left out: it is 0002.eml, octet by octet"],
        )
        self.assertEqual((status, told[-1], error), (0, "8 mails, 5 written, 4 left out, 1 without an envelope", ""))
        names = sorted(os.listdir(self.room / "site/mails"))
        mails = [name for name in names if name.endswith(".eml")]
        self.assertEqual(mails, ["0001.eml", "0002.eml", "0004.eml", "0005.eml", "0006.eml", "0007.eml"])
        envelopes = {
            name: (self.room / f"site/mails/{name}").read_text() for name in names if name.endswith(".envelope")
        }
        wanted_envelopes = ["a@b c@d\n", "e@f c@d\n", '"" c@d\n', "a@b c@d\n"]
        self.assertEqual(list(envelopes.values()), wanted_envelopes)
        self.assertEqual((self.room / "site/mails/0002.eml").read_text(), mail)
        self.assertEqual((self.room / "site/mails/0004.eml").read_text(), "Delivered-To: c@d\n\nx\n")
        self.assertEqual((self.room / "site/mails/0001.eml").read_text(), "there")
        self.assertEqual(sorted(os.listdir(self.room / "site")), ["mails"])

    def test_what_stands_beside_no_mail(self) -> None:
        beside = {"0001.eml.envelope": "x@y.example z@y.example\n", "0002.eml.expect": "", "0003.eml.users": "ada\n"}
        self.write({f"site/mails/{name}": text for name, text in beside.items()})
        self.write({"one": "From: a@b\n\nx\n", "two": "From: a@b\n\ny\n", "site/mains": "main\n"})
        self.assertEqual(self.ran("import", "one", "two", "site")[0], 0)
        there = {it.name: it.read_text() for it in (self.room / "site/mails").iterdir()}
        mails = {"0004.eml": "From: a@b\n\nx\n", "0005.eml": "From: a@b\n\ny\n"}
        self.assertEqual(there, {**beside, **mails})

    def test_a_mail_that_begins_as_a_mailbox(self) -> None:
        self.write({"one": "From: a@b\n\nx\n", "site/mails/z": ""})
        told = self.ran("import", "one", "site")
        wanted = ["site/with: new, with pigeonhole", "1 mail, 1 written, 0 left out, 1 without an envelope"]
        self.assertEqual(told, (0, wanted, ""))
        self.assertEqual((self.room / "site/mails/0001.eml").read_text(), "From: a@b\n\nx\n")

    def test_refusals(self) -> None:
        self.write({"x": "A: b\n", "d/y": "", "site/mails/z": ""})
        rows = [
            (("x",), "mailboxes or files are wanted, and then the site; see --help"),
            (("x", "d"), 'no folder "d/mails": mails go there'),
            (("d", "site"), '"d" is no Maildir: it has neither cur nor new'),
            (("gone", "site"), 'cannot read "gone": No such file or directory'),
            (("--user", "u", "x", "site"), 'no folder "site/users/u/mails": mails go there'),
        ]
        for words, sentence in rows:
            with self.subTest(words=words):
                self.assertEqual(self.ran("import", *words), (2, [], f"sievebench-site: {sentence}\n"))


class Words(Room):
    """The words of the command line."""

    def test_refusals(self) -> None:
        rows = [
            (("check", "--jobs", "0", "x"), "argument --jobs: '0' isn't a number from 1 to 9999"),
            *(
                (("check", f"--memory={size}", "x"), f"argument --memory: '{size}' isn't a number of octets, as 512M")
                for size in ("1T", "0", "0M", "1k", "1KB", "1.5G", "-1", "", " 1", "1 M", "9999999999")
            ),
            (("check", "--format", "xml", "x"), "argument --format: invalid choice: 'xml'"),
            (("check", "--json", "--format", "junit", "x"), "argument --format: not allowed with argument --json"),
            (("check", "--utf8", "--no-utf8", "x"), "argument --no-utf8: not allowed with argument --utf8"),
            (("lint", "--lax", "x"), "unrecognized arguments: --lax; see --help"),
            (("check", "--li", "x"), "unrecognized arguments: --li; see --help"),
        ]
        for words, sentence in rows:
            with self.subTest(words=words):
                status, told, error = self.ran(*words)
                self.assertEqual((status, told), (2, []))
                self.assertIn(f"sievebench-site: {sentence}", error)

    def test_memory(self) -> None:
        rows = {"4096": 4_096, "1K": 1_024, "3M": 3_145_728, "2G": 2_147_483_648, "007": 7}
        for word, octets in rows.items():
            for command in ("check", "lint", "untested", "diff", "why", "watch", "record"):
                self.assertEqual(parsed(command, ["--memory", word, "x"]).memory, octets)
        self.assertEqual(parsed("check", ["x"]).memory, 4_294_967_296)
