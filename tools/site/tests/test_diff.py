"""The command diff, by the fake program."""
import os
import subprocess
from unittest import mock

from sievebench_site.diff import code, git

from .room import Files, Room

MAILS: Files = {"envelope": '"" ""', "mains": "main\n", "mails/1.eml": "subject: k1", "mails/2.eml": "subject: k2"}


class Folders(Room):
    """Two folders."""

    def site(self, name: str, **scripts: str) -> None:
        """Makes a site."""
        files: Files = {f"{name}/{path}": text for path, text in MAILS.items()}
        self.write({**files, **{f"{name}/personal/{it}.sieve": text for it, text in scripts.items()}})

    def test_groups(self) -> None:
        self.site("old", main='if header "subject" "k1" { discard; }\nkeep;')
        self.site("new", main='redirect :copy "a@b.example";\n\nkeep;')
        wanted = [
            "new/mails/1.eml under main",
            "  - discard",
            '  + redirect "a@b.example"  (new/personal/main.sieve:1)',
            '    store "INBOX"',
            "new/mails/2.eml under main",
            '  + redirect "a@b.example"  (new/personal/main.sieve:1)',
            '    store "INBOX"',
            "2 of 2 verdicts changed",
        ]
        self.assertEqual(self.ran("diff", "old", "new"), (1, wanted, ""))
        self.assertEqual(self.ran("diff", "-q", "old", "new"), (1, wanted[:-1], ""))
        self.assertEqual(self.ran("diff", "new", "new"), (0, ["0 of 2 verdicts changed"], ""))
        backwards = self.ran("diff", "new", "old")[1]
        self.assertEqual(
            backwards[:3],
            ["old/mails/1.eml under main", '  - redirect "a@b.example"', "  + discard  (old/personal/main.sieve:1)"],
        )

    def test_several_mails(self) -> None:
        self.site("old", main="keep;")
        self.site("new", main="discard;")
        told = self.ran("diff", "old", "new")[1]
        self.assertEqual(told[:2], ["new/mails/1.eml under main", "new/mails/2.eml under main"])
        self.assertEqual(told[2:4], ["2 verdicts in all, of 2 mails under 1 main", '  - store "INBOX"'])
        self.assertEqual(len(self.ran("diff", "--all", "old", "new")[1]), 7)
        self.assertEqual(self.ran("diff", "--only", "1.eml", "old", "new")[1][-1], "1 of 1 verdict changed")

    def test_markdown(self) -> None:
        self.site("old", main='require "fileinto"; fileinto "`";', other="")
        self.site("new", main='require "fileinto"; fileinto "``` `";', other="kep;")
        wanted = [
            "**2 of 2 verdicts changed**",
            "",
            "- ``new/personal/other.sieve:1: unknown-command: There is no such command or test.``",
            "",
            "- `new/mails/1.eml under main`",
            "- `new/mails/2.eml under main`",
            "- `2 verdicts in all, of 2 mails under 1 main`",
            "",
            "````diff",
            '- store "`"',
            '+ store "``` `"  (new/personal/main.sieve:1)',
            "````",
        ]
        wanted[2] = wanted[2].replace("``", "`")
        self.assertEqual(self.ran("diff", "--format", "markdown", "old", "new"), (1, wanted, ""))
        for line, spelled in (("a", "`a`"), ("a`b", "``a`b``"), ("`a", "`` `a ``"), ("a``", "``` a`` ```")):
            self.assertEqual(code(line), spelled)

    def test_scripts_that_come_and_go(self) -> None:
        include = 'require "include"; include "part";'
        self.site("old", main=include, part="discard;", gone="keep;")
        self.site("new", main=include, new="keep;")
        told = self.ran("diff", "old", "new")[1]
        self.assertIn("  - discard", told)
        self.assertEqual(told[-1], "2 of 2 verdicts changed")
        told = self.ran("diff", "new", "old")[1]
        self.assertIn("  + discard  (old/personal/part.sieve:1)", told)
        self.assertEqual(told[-1], "2 of 2 verdicts changed")
        self.write({"new/mains": "main\nnew\n", "old/mains": "main\ngone\n"})
        told = self.ran("diff", "old", "new")[1]
        self.assertEqual(told[0], "new: not compared: its scripts weren't all there before")
        self.assertEqual(told[-1], "2 of 2 verdicts changed")

    def test_chains(self) -> None:
        self.site("old", main="keep;")
        self.site("new", main="keep;")
        self.write({f"{name}/before/10.sieve": "" for name in ("old", "new")})
        self.write({"new/before/15.sieve": 'if header "subject" "k2" { discard; }', "old/mains": "before/10 main"})
        wanted = [
            "new/mails/2.eml under main",
            '  - store "INBOX"',
            "  + discard  (new/before/15.sieve:1)",
            "1 of 2 verdicts changed",
        ]
        for line in ("before/10 before/15 main", "sales: before/15 main"):
            with self.subTest(line):
                self.write({"new/mains": line})
                named = line.startswith("sales")
                told = ["sales: compared with main, as it was called before"] if named else []
                told += [wanted[0].replace("main", "sales") if named else wanted[0], *wanted[1:]]
                self.assertEqual(self.ran("diff", "old", "new"), (1, told, ""))
        self.write({"new/mains": "before/15 main\nplain: before/10 main"})
        told = self.ran("diff", "old", "new")[1]
        self.assertEqual(told[-1], "1 of 4 verdicts changed")
        # The only line is compared with the only one.
        self.write({"new/mains": "before/15 other", "new/personal/other.sieve": "keep;"})
        told = self.ran("diff", "old", "new")[1]
        self.assertEqual((told[0], told[-1]), ("other: compared with main, as it was called before", wanted[-1]))
        # What is asked for is compared with the same scripts.
        self.write({"old/personal/main.sieve": "discard;"})
        told = self.ran("diff", "--main", "before/10 main", "old", "new")[1]
        self.assertEqual(told[-1], "2 of 2 verdicts changed")

    def test_what_is_not_judged(self) -> None:
        self.site("old", main='require "regex"; discard;', other="kep;")
        self.site("new", main="discard;", other="kep;")
        told = self.ran("diff", "old", "new")
        self.assertEqual(
            told[:2],
            (
                0,
                [
                    'new/mails/1.eml under main: not judged: before, personal "main" requires regex',
                    'new/mails/2.eml under main: not judged: before, personal "main" requires regex',
                    "0 of 0 verdicts changed, 2 not judged",
                ],
            ),
        )
        told = self.ran("diff", "new", "old")
        self.assertIn('old/mails/1.eml under main: not judged: personal "main" requires regex', told[1])
        self.site("old", main='require "include"; include "part";', part='require "regex";')
        told = self.ran("diff", "old", "new")
        self.assertIn('new/mails/1.eml under main: not judged: before, personal "part" requires regex', told[1])
        self.assertEqual(told[1][-1], "0 of 0 verdicts changed, 2 not judged")

    def test_memory(self) -> None:
        self.site("old", main="keep;")
        self.site("new", main="discard;")
        self.write({"new/mails/2.eml": "no memory to run", "new/mails/3.eml": "no memory to put"})
        why = "not judged: the program has no memory for it: --memory gives more"
        wanted = [
            "new/mails/1.eml under main",
            '  - store "INBOX"',
            "  + discard  (new/personal/main.sieve:1)",
            f"new/mails/2.eml under main: {why}",
            f"new/mails/3.eml under main: {why}",
            "1 of 1 verdict changed, 2 not judged",
        ]
        status, told, error = self.ran("diff", "old", "new")
        self.assertEqual((status, told, error), (1, wanted, ""))

    def test_settings(self) -> None:
        said = "{}: it was another, and is taken for both".format
        same = ["0 of 2 verdicts changed"]
        for name in ("old", "new"):
            self.site(name, main="keep;")
            self.write({f"{name}/with": "mailbox\ndate\n", f"{name}/mailboxes": "A\n", f"{name}/clock": "1 +0000\n"})
        self.assertEqual(self.ran("diff", "old", "new"), (0, same, ""))
        self.write({"new/with": "# both\ndate\nmailbox\n"})
        self.assertEqual(self.ran("diff", "old", "new"), (0, same, ""))
        self.write({"new/clock": "2 +0000\n"})
        self.assertEqual(self.ran("diff", "old", "new"), (0, [said("new/clock"), *same], ""))
        # A clock that is given is that of both.
        self.assertEqual(self.ran("diff", "--clock", "1", "old", "new"), (0, same, ""))
        self.write({"new/mailboxes": "B\n"})
        (self.room / "new/clock").unlink()
        self.assertEqual(self.ran("diff", "old", "new")[1], [said("new/mailboxes"), said("new/clock"), *same])
        # Files that nothing asks for aren't taken.
        self.write({"new/with": "vacation\n"})
        self.assertEqual(self.ran("diff", "old", "new")[1], [said("new/with"), *same])

    def test_faults_that_became_others(self) -> None:
        rows = [
            ("kep;", "\nkep;", "2: unknown-command: There is no such command or test."),
            ('require "imap4flag";', "kep;", "1: unknown-command: There is no such command or test."),
            (
                'require "regex";',
                'require "imap4flag";',
                "1: unknown-capability: imap4flag: no such extension; did you mean imap4flags?",
            ),
            (
                'require "FileInto";',
                'require "imap4flag";',
                "1: unknown-capability: imap4flag: no such extension; did you mean imap4flags?",
            ),
            ("kep;", "kep; ", ""),
        ]
        for before, now, told in rows:
            with self.subTest(before=before, now=now):
                self.site("old", main="keep;", other=before)
                self.site("new", main="keep;", other=now)
                wanted = [f"new/personal/other.sieve:{told}"] if told else []
                self.assertEqual(self.ran("diff", "old", "new"), (0, [*wanted, "0 of 2 verdicts changed"], ""))

    def test_users(self) -> None:
        for name, text in (("old", "keep;"), ("new", "discard;")):
            self.write({f"{name}/users/ada/personal/m.sieve": text, f"{name}/mails/1.eml": "", f"{name}/mains": "m"})
        self.write({"new/users/eva/personal/m.sieve": "keep;", "new/with": "date\n"})
        told = self.ran("diff", "old", "new")[1]
        self.assertEqual(
            told[:3],
            [
                "eva/m: not compared: its scripts weren't all there before",
                "new/with: it was another, and is taken for both",
                "new/mails/1.eml under ada/m",
            ],
        )
        self.assertEqual(told[-1], "1 of 1 verdict changed")

    def test_misuse(self) -> None:
        self.site("new", main="keep;")
        for words in ("new", "a b new", "--git=HEAD a new", ""):
            self.assertEqual(self.ran("diff", *words.split())[0], 2)
        self.assertEqual(
            self.ran("diff", "nowhere", "new")[2],
            'sievebench-site: cannot read "nowhere/personal": No such file or directory\n',
        )


class Revisions(Room):
    """A folder in git."""

    def git(self, *words: str) -> None:
        """A command of git in the test's folder."""
        names = ["-c", "user.name=a", "-c", "user.email=a@b.example", "-c", "init.defaultBranch=main"]
        subprocess.run(["git", *names, *words], cwd=self.room, check=True, stdout=subprocess.DEVNULL)

    def setUp(self) -> None:
        super().setUp()
        self.git("init", "-q")
        self.write({"readme": ""})
        self.git("add", "-A")
        self.git("commit", "-qm", "one")
        files: Files = {f"a/s \u00fc/{path}": text for path, text in MAILS.items()}
        self.write({**files, "a/s \u00fc/personal/link.sieve": "keep;"})
        os.symlink("link.sieve", self.room / "a/s \u00fc/personal/main.sieve")
        self.git("add", "-A")
        self.git("commit", "-qm", "two")
        self.write({"a/s \u00fc/personal/link.sieve": "discard;"})

    def settings(self, site: str) -> None:
        """Settings are said to have changed where they did."""
        self.write({f"{site}/with": "mailbox\n", f"{site}/mailboxes": "A\n"})
        self.git("add", "-A")
        self.git("commit", "-qm", "four")
        self.assertEqual(self.ran("diff", "--git", "HEAD", site)[1], ["0 of 2 verdicts changed"])
        self.write({f"{site}/mailboxes": "B\n"})
        shown = site.replace("\u00fc", "\\xc3\\xbc")
        wanted = [f"{shown}/mailboxes: it was another, and is taken for both", "0 of 2 verdicts changed"]
        self.assertEqual(self.ran("diff", "--git", "HEAD", site)[1], wanted)
        self.git("checkout", "-q", "--", ".")

    def test_revision(self) -> None:
        site = "a/s \u00fc"
        told = self.ran("diff", "--git", "HEAD", site)
        self.assertEqual((told[0], told[1][-1]), (1, "2 of 2 verdicts changed"))
        self.assertEqual(self.ran("diff", f"--git={'HEAD'}", "--utf8", site)[1][0], f"{site}/mails/1.eml under main")
        self.git("commit", "-qam", "three")
        self.assertEqual(self.ran("diff", "--git", "main", site)[1], ["0 of 2 verdicts changed"])
        self.assertEqual(self.ran("diff", "--git", "main~1", site)[0], 1)
        self.settings(site)
        with mock.patch.dict(os.environ, GIT_DIR="/nowhere", GIT_INDEX_FILE="/nowhere/index"):
            self.assertEqual(self.ran("diff", "--git", "main", site)[0], 0)

    def test_links_that_lead_out(self) -> None:
        site = "a/s \u00fc"
        self.write({"shared.sieve": "keep;"})
        (self.room / site / "personal/out.sieve").symlink_to(self.room / "shared.sieve")
        self.git("add", "-A")
        self.git("commit", "-qm", "three")
        self.assertEqual(self.ran("diff", "--git", "HEAD", site), (0, ["0 of 2 verdicts changed"], ""))

    def test_refusals(self) -> None:
        site = "a/s \u00fc"
        shown = '"a/s \\xc3\\xbc"'
        rows = [
            ("HEAD~1", site, f'the revision "HEAD~1" has no folder {shown}'),
            ("x", site, f'no revision "x" in the repository of {shown}'),
            ("-x", site, f'no revision "-x" in the repository of {shown}'),
            ("HEAD", "b", 'cannot read "b/personal": No such file or directory'),
        ]
        for revision, folder, sentence in rows:
            with self.subTest(revision=revision):
                told = self.ran("diff", f"--git={revision}", folder)
                self.assertEqual(told, (2, [], f"sievebench-site: {sentence}\n"))
        with mock.patch.dict(os.environ, GIT_CEILING_DIRECTORIES=str(self.room.parent)):
            os.rename(self.room / ".git", self.room / "git")
            told = self.ran("diff", "--git=HEAD", site)
            self.assertEqual(told, (2, [], f"sievebench-site: {shown} is in no repository of git\n"))
        self.assertIsNone(git(bytes(self.room), ["no-such-command"]))
