"""What editors put at the beginning of files, and what has a name of a script or a mail and is no file."""

import os

from sievebench_site.folder import Wanted, site_of, take_mails
from sievebench_site.texts import mark_of

from .room import MAIL, Files, Room

SITE: Files = {**MAIL, "personal/main.sieve": "keep;", "mains": "main\n", "with": "date\nmailbox\n"}


class Marks(Room):
    """Byte order marks."""

    def test_marks(self) -> None:
        rows = [
            (b"\xef\xbb\xbfmain", "a byte order mark, the octets EF BB BF: save it without one"),
            (b"\xff\xfem\x00", "a byte order mark, the octets FF FE: save it as UTF-8 and without one"),
            (b"\xfe\xff\x00m", "a byte order mark, the octets FE FF: save it as UTF-8 and without one"),
            (b"main\n\xef\xbb\xbf", None),
            (b"", None),
        ]
        for octets, wanted in rows:
            with self.subTest(octets=octets):
                mark = mark_of(octets)
                self.assertEqual(mark and mark.advice(), wanted)

    def test_files(self) -> None:
        names = ["mains", "with", "mailboxes", "clock", "envelope"]
        for name in [*names, *(f"mails/1.eml.{end}" for end in ("envelope", "expect", "users"))]:
            with self.subTest(name=name):
                self.write({**SITE, name: b"\xef\xbb\xbfmain\n"})
                sentence = (
                    f'"./{name}", line 1: it begins with a byte order mark, the octets EF BB BF: save it without one'
                )
                self.assertEqual(self.ran("check", "."), (2, [], f"sievebench-site: {sentence}\n"))
                (self.room / name).unlink()

    def test_a_mail(self) -> None:
        self.write({**SITE, "mails/1.eml": b"\xef\xbb\xbfSubject: one\n\n"})
        sentence = "It begins with a byte order mark, the octets EF BB BF, so that its first line is no field."
        self.assertIn(f"    ./mails/1.eml:1: byte-order-mark: {sentence}", self.ran("why", ".", "1.eml")[1])


class NoFiles(Room):
    """Links that lead nowhere, and folders."""

    def test_they_are_left_out(self) -> None:
        self.write({**SITE, "personal/dir.sieve/x": "", "mails/2.eml/3.eml": "", "global/x": ""})
        for name in (
            "personal/gone.sieve",
            "global/gone.sieve",
            "personal/.#main.sieve",
            "personal/other",
            "mails/4.eml",
        ):
            os.symlink("nowhere", self.room / name)
        site = site_of(Wanted(bytes(self.room), [], [], [], None))
        take_mails(site)
        lost, folder = "it leads to no plain file", "it is a folder"
        wanted = {
            "global/gone.sieve": lost,
            "personal/gone.sieve": lost,
            "personal/dir.sieve": folder,
            "mails/2.eml": folder,
            "mails/2.eml/3.eml": "it is in a folder inside of mails",
            "mails/4.eml": lost,
        }
        found = {os.path.relpath(os.fsdecode(path), self.room): why for path, why in site.left_out}
        self.assertEqual(found, wanted)

    def test_those_of_users(self) -> None:
        self.write({"mails/1.eml": "", "users/ada/personal/main.sieve": "keep;", "mains": "main\n"})
        os.symlink("nowhere", self.room / "users/ada/personal/gone.sieve")
        told = self.ran("lint", ".")[1]
        self.assertEqual(told, ["./users/ada/personal/gone.sieve:0: left-out: It leads to no plain file."])


class Clocks(Room):
    """The zone of a clock."""

    def test_without_a_zone(self) -> None:
        for text in ("1783245600", " 1783245600 \n", "1783245600 +0000\n"):
            with self.subTest(text=text):
                self.write({**SITE, "clock": text})
                self.assertEqual(site_of(Wanted(bytes(self.room), [], [], [], None)).clock, [b"1783245600", b"+0000"])
