"""The names that a site asks for, and what a new site gets."""

from typing import List, Set, Tuple

from sievebench_site.names import NAMES, SETS, names_asked, spelled

from .room import MAIL, Files, Room

PIGEONHOLE = [
    b"body",
    b"charsets",
    b"comparator-i;ascii-numeric",
    b"date",
    b"duplicate",
    b"encoded-character",
    b"mailbox",
    b"reject",
    b"relational",
    b"subaddress",
    b"vacation",
]
OTHERS = [b"envelopes", b"ereject", b"lines", b"special-use", b"unused"]


class Names(Room):
    """Names by themselves and in sets."""

    def test_sets(self) -> None:
        self.assertEqual(names_asked(b"with", b"pigeonhole\n"), PIGEONHOLE)
        self.assertEqual(sorted(names_asked(b"with", b"all")), sorted(PIGEONHOLE + OTHERS))

    def test_lines(self) -> None:
        rows = [
            (b"", []),
            (b"body\r\n\n  date\t\nbody\n", [b"body", b"date"]),
            (b"# ours\nereject # wanted\npigeonhole\n", [b"ereject", *PIGEONHOLE]),
            (b"vacation\npigeonhole\n", [b"vacation", *PIGEONHOLE[:-1]]),
        ]
        for text, wanted in rows:
            with self.subTest(text=text):
                self.assertEqual(names_asked(b"with", text), wanted)

    def test_spelled(self) -> None:
        whole = set(PIGEONHOLE)
        rows: List[Tuple[Set[bytes], List[bytes]]] = [
            (whole, [b"pigeonhole"]),
            (whole | {b"special-use"}, [b"pigeonhole", b"special-use"]),
            ({b"body"}, [b"body"]),
            (whole - {b"body"}, [name for name in PIGEONHOLE if name != b"body"]),
            (set(), []),
        ]
        for names, wanted in rows:
            with self.subTest(wanted=wanted):
                self.assertEqual(spelled(names), wanted)

    def test_refusals(self) -> None:
        rows = [
            ("body\nsub address\n", 'line 2: "sub address" can\'t be asked for: did you mean subaddress?'),
            ("Body", 'line 1: "Body" can\'t be asked for: did you mean body?'),
            ("\n\npigeon hole", 'line 3: "pigeon hole" can\'t be asked for: did you mean pigeonhole?'),
            ("fileinto", 'line 1: "fileinto" is always known: remove this line'),
            ("body,date", 'line 1: "body,date" can\'t be asked for: each name stands on a line of its own'),
            ("xyz", 'line 1: "xyz" can\'t be asked for: the names are body, charsets, '),
            ("xyz", "subaddress, unused, vacation, pigeonhole and all\n"),
        ]
        for text, sentence in rows:
            with self.subTest(text=text):
                self.write({**MAIL, "personal/main.sieve": "keep;", "mains": "main\n", "with": text})
                status, told, error = self.ran("check", ".")
                self.assertEqual((status, told), (2, []))
                self.assertTrue(error.startswith('sievebench-site: "./with", '), error)
                self.assertIn(sentence, error)

    def test_the_program_is_asked_for_the_names_of_a_set(self) -> None:
        self.write({**MAIL, "personal/main.sieve": 'require "vacation"; discard;', "mains": "main\n"})
        self.write({"with": "pigeonhole", "mails/1.eml.expect": "[main]\ndiscard\n"})
        self.assertEqual(self.ran("check", ".")[0], 0)
        self.write({"with": "ereject"})
        self.assertIn(
            "./personal/main.sieve:1: not judged: requires vacation: add it to the file with", self.ran("check", ".")[1]
        )

    def test_no_name_is_always_known_or_a_set(self) -> None:
        self.assertEqual(set(NAMES) & set(SETS), set())


class Begun(Room):
    """The names of a site to which its first mails come."""

    def begun(self, files: Files) -> str:
        """What the site asks for after an import."""
        self.write({"one": "From: a@b\n\nx\n", "site/mails/z": "", **files})
        self.assertEqual(self.ran("import", "one", "site")[0], 0)
        path = self.room / "site/with"
        return path.read_text() if path.exists() else "nothing"

    def test_a_new_site(self) -> None:
        self.write({"one": "From: a@b\n\nx\n", "site/mails/z": ""})
        told = ["site/with: new, with pigeonhole", "1 mail, 1 written, 0 left out, 1 without an envelope"]
        self.assertEqual(self.ran("import", "one", "site"), (0, told, ""))
        self.assertEqual((self.room / "site/with").read_text(), "pigeonhole\n")

    def test_one_that_asks_for_names(self) -> None:
        self.assertEqual(self.begun({"site/with": ""}), "")

    def test_one_that_has_mails(self) -> None:
        self.assertEqual(self.begun({"site/mails/1.eml": ""}), "nothing")

    def test_one_whose_users_have_mails(self) -> None:
        self.assertEqual(self.begun({"site/users/ada/mails/1.eml": ""}), "nothing")

    def test_one_to_which_no_mail_comes(self) -> None:
        self.write({"box/cur/1": "#!/bin/sh", "site/mails/z": ""})
        self.assertEqual(self.ran("import", "box", "site")[0], 0)
        self.assertFalse((self.room / "site/with").exists())
