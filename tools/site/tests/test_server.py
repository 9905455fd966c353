"""A site that is made of a server, and what it gets."""

import os
from typing import Dict

from .room import Files, Room
from .test_doveconf import PRINTED

REPORTS = [
    "conf:16: sieve_spamtest_status_type: not taken: spamtest and virustest aren't known here",
    "conf:17: sieve_url: not taken",
    "conf:3: mail_location: not taken: mails of a user are in ~/Maildir: import --user NAME takes them",
]


class Made(Room):
    """The site that is made."""

    def setUp(self) -> None:
        super().setUp()
        home = "vmail/a.example"
        self.write(
            {
                "conf": PRINTED.replace("ROOM", str(self.room)),
                "before.d/10-a.sieve": "# a",
                "before.d/20-b.sieve": "# b",
                "before.d/no": "",
                "spam.sieve": "# spam",
                "after.d/90-z.sieve": "# z",
                "global/lists.sieve": "# lists",
                f"{home}/ada/sieve/own.sieve": "# ada",
                f"{home}/ada/sieve/other.sieve": "# other",
                f"{home}/bob/sieve/own.sieve": "# bob",
                f"{home}/eva/x": "",
                f"{home}/lea/.dovecot.sieve": "# lea",
                f"{home}/.hidden/x": "",
            }
        )
        for name in ("ada", "bob"):
            os.symlink("sieve/own.sieve", self.room / home / name / ".dovecot.sieve")

    def files(self) -> Dict[str, str]:
        """The files of the site with their texts."""
        site = self.room / "site"
        paths = [path for path in site.rglob("*") if path.is_file()]
        return {str(path.relative_to(site)): path.read_text() for path in paths}

    def test_all_of_it(self) -> None:
        status, told, error = self.ran("import", "--doveconf", "conf", "site")
        self.assertEqual((status, told, error), (0, [*REPORTS, "4 users, 13 files written"], ""))
        wanted = {
            "before/10-a.sieve": "# a",
            "before/20-b.sieve": "# b",
            "before/spam.sieve": "# spam",
            "after/90-z.sieve": "# z",
            "global/lists.sieve": "# lists",
            "mains": "before/10-a before/20-b before/spam own after/90-z\n",
            "with": "pigeonhole\n",
            "users/ada@a.example/personal/own.sieve": "# ada",
            "users/ada@a.example/personal/other.sieve": "# other",
            "users/bob@a.example/personal/own.sieve": "# bob",
            "users/eva@a.example/mains": "before/10-a before/20-b before/spam after/90-z\n",
            "users/lea@a.example/personal/main.sieve": "# lea",
            "users/lea@a.example/mains": "before/10-a before/20-b before/spam main after/90-z\n",
        }
        self.assertEqual(self.files(), wanted)
        self.assertEqual(os.listdir(self.room / "site/mails"), [])

    def test_it_is_checked(self) -> None:
        self.write({"one": "Subject: one\n\n"})
        told = self.ran("import", "--doveconf", "conf", "one", "site")[1]
        self.assertEqual(told[-1], "1 mail, 1 written, 0 left out, 1 without an envelope")
        self.assertEqual(self.ran("record", "site")[0], 0)
        status, told, _ = self.ran("check", "site")
        self.assertEqual((status, told[-1].split(", ")[:4]), (0, ["1 mails", "4 mains", "4 verdicts", "4 agree"]))

    def test_nothing_that_is_there_changes(self) -> None:
        self.ran("import", "--doveconf", "conf", "site")
        before = self.files()
        self.assertEqual(self.ran("import", "--doveconf", "conf", "site")[1][-1], "4 users, 0 files written")
        self.write({"site/before/10-a.sieve": "# ours", "site/with": "all", "spam.sieve": "# changed"})
        told = self.ran("import", "--doveconf", "conf", "site")[1]
        for name, source in [
            ("before/10-a.sieve", f"{self.room}/before.d/10-a.sieve"),
            ("before/spam.sieve", f"{self.room}/spam.sieve"),
            ("with", "conf"),
        ]:
            self.assertIn(f"site/{name}: left as it is, and {source} is another: remove it to take that one", told)
        self.assertEqual(self.files(), {**before, "before/10-a.sieve": "# ours", "with": "all"})

    def test_a_pattern(self) -> None:
        rows = [
            (f"{self.room}/vmail/*/*/sieve", ["ada@a.example", "bob@a.example", "eva@a.example", "lea@a.example"]),
            (f"{self.room}/vmail/a.example/*/sieve", ["ada", "bob", "eva", "lea"]),
            ("vmail/a.example/*/sieve", ["ada", "bob", "eva", "lea"]),
        ]
        for number, (pattern, names) in enumerate(rows):
            with self.subTest(pattern=pattern):
                site = f"site{number}"
                self.assertEqual(self.ran("import", "--doveconf", "conf", "--users", pattern, site)[0], 0)
                self.assertEqual(sorted(os.listdir(self.room / site / "users")), names)
                own = (self.room / site / "users" / names[0] / "personal/own.sieve").read_text()
                self.assertEqual(own, "# ada")

    def test_a_pattern_alone(self) -> None:
        status, told, _ = self.ran("import", "--users", "vmail/a.example/*/sieve", "site")
        left = f"{self.room}/vmail/a.example/eva/sieve: left out: no script of its user is active, and none runs before or after"
        wanted = ["site/with: new, with pigeonhole", left, "3 users, 6 files written"]
        self.assertEqual((status, told), (0, wanted))
        self.assertEqual((self.room / "site/mains").read_text(), "own\n")
        self.assertEqual((self.room / "site/users/lea/mains").read_text(), "main\n")

    def test_a_file_of_each_user(self) -> None:
        self.ran("import", "--users", "vmail/a.example/*/.dovecot.sieve", "site")
        found = {path: text for path, text in self.files().items() if path.startswith("users/")}
        wanted = {f"users/{name}/personal/main.sieve": f"# {name}" for name in ("ada", "bob", "lea")}
        self.assertEqual(found, wanted)

    def test_a_script_of_those_who_have_none(self) -> None:
        text = (
            (self.room / "conf")
            .read_text()
            .replace("sieve_url = ", f"sieve_default = {self.room}/spam.sieve\n  sieve_url = ")
        )
        self.write({"conf": text})
        self.ran("import", "--doveconf", "conf", "site")
        line = (self.room / "site/users/eva@a.example/mains").read_text()
        self.assertEqual(line, "before/10-a before/20-b before/spam default/spam after/90-z\n")

    def test_links_that_lead_elsewhere(self) -> None:
        home = self.room / "vmail/a.example"
        (home / "bob/.dovecot.sieve").unlink()
        os.symlink("/nowhere/sieve/own.sieve", home / "bob/.dovecot.sieve")
        os.symlink("sieve/gone.sieve", home / "eva/.dovecot.sieve")
        told = self.ran("import", "--doveconf", "conf", "site")[1]
        lost = f"{home}/eva/.dovecot.sieve: leads to no script: its user is taken as one without a script"
        self.assertEqual([line for line in told if "leads to" in line], [lost])
        self.assertEqual((self.room / "site/mains").read_text(), "before/10-a before/20-b before/spam own after/90-z\n")
        self.assertFalse((self.room / "site/users/bob@a.example/mains").exists())

    def test_names_that_meet(self) -> None:
        (self.room / "spam.sieve").rename(self.room / "10-a.sieve")
        text = (self.room / "conf").read_text().replace("/spam.sieve", "/10-a.sieve")
        self.write({"conf": text})
        self.ran("import", "--doveconf", "conf", "site")
        self.assertEqual((self.room / "site/before/10-a-2.sieve").read_text(), "# spam")
        self.assertEqual(
            (self.room / "site/mains").read_text(), "before/10-a before/20-b before/10-a-2 own after/90-z\n"
        )

    def test_a_script_that_runs_twice(self) -> None:
        text = (self.room / "conf").read_text().replace("/spam.sieve", "/before.d/10-a.sieve")
        self.write({"conf": text})
        self.ran("import", "--doveconf", "conf", "site")
        self.assertEqual((self.room / "site/mains").read_text(), "before/10-a before/20-b before/10-a own after/90-z\n")

    def test_users_scripts_that_are_no_files(self) -> None:
        text = (self.room / "conf").read_text().replace("file:~/sieve;active=~/.dovecot.sieve", "ldap:/x")
        self.write({"conf": text})
        for words in ((), ("--users", "vmail/a.example/*/sieve")):
            told = self.ran("import", "--doveconf", "conf", *words, f"site{len(words)}")[1]
            self.assertIn("conf:12: sieve: not taken: its scripts are no files", told)
        self.assertEqual(sorted(os.listdir(self.room / "site2/users")), ["ada", "bob", "eva", "lea"])

    def test_users_that_are_not_known(self) -> None:
        text = (self.room / "conf").read_text().replace("driver = static", "driver = passwd")
        self.write({"conf": text})
        told = self.ran("import", "--doveconf", "conf", "site")[1]
        where = "site/personal: no scripts, as it isn't known where users are: --users names their folders"
        self.assertEqual((told[0], told[-1]), (where, "7 files written"))
        self.assertEqual(
            (self.room / "site/mains").read_text(), "before/10-a before/20-b before/spam main after/90-z\n"
        )

    def test_scripts_that_are_not_taken(self) -> None:
        text = (self.room / "conf").read_text()
        for value, why in [
            (f"{self.room}/gone", f'there is no "{self.room}/gone"'),
            ("~/before", "it is another file for each user"),
            ("file:/x/%u.sieve", "it is another file for each user"),
            ("dict:x", "its scripts are no files"),
        ]:
            with self.subTest(value=value):
                self.write({"conf": text.replace(f"{self.room}/before.d", value)})
                told = self.ran("import", "--doveconf", "conf", "site")[1]
                self.assertEqual(told[0], f"conf:13: sieve_before: not taken: {why}")

    def test_mails_of_a_user(self) -> None:
        self.write({"one": "Subject: one\n\n"})
        self.ran("import", "--doveconf", "conf", "site")
        told = self.ran("import", "--user", "eva@a.example", "one", "site")
        self.assertEqual(told, (0, ["1 mail, 1 written, 0 left out, 1 without an envelope"], ""))
        self.assertTrue((self.room / "site/users/eva@a.example/mails/0001.eml").exists())

    def test_refusals(self) -> None:
        star = "isn't a path with * in the place of a user's name, as '/srv/vmail/*/sieve'"
        self.write({"file": ""})
        rows = [
            (("--users", "vmail", "site"), f'--users "vmail" {star}'),
            (("--users", "", "site"), f'--users "" {star}'),
            (("--users", "a/*/*/*", "site"), f'--users "a/*/*/*" {star}'),
            (("--users", "a/x*/sieve", "site"), f'--users "a/x*/sieve" {star}'),
            (("--users", "gone/*/sieve", "site"), '--users "gone/*/sieve": there are no such folders'),
            (("--doveconf", "gone", "site"), 'cannot read "gone": No such file or directory'),
            (("--doveconf", "conf"), "mailboxes or files are wanted, and then the site; see --help"),
            (("--doveconf", "conf", "file"), 'cannot write "file": File exists'),
        ]
        for words, sentence in rows:
            with self.subTest(words=words):
                self.assertEqual(self.ran("import", *words), (2, [], f"sievebench-site: {sentence}\n"))


class Bare(Room):
    """A user without scripts."""

    def test_the_chain_without_it(self) -> None:
        files: Files = {"mails/1.eml": "", "envelope": '"" ""', "before/a.sieve": "discard;", "mains": "main\n"}
        self.write({**files, "users/ada/personal/main.sieve": "keep;", "users/eva/mains": "before/a\n"})
        self.write({"mails/1.eml.expect": '[ada/main]\nstore "INBOX"\n[eva/before/a]\ndiscard\n'})
        self.assertEqual(self.ran("check", ".")[0], 0)
