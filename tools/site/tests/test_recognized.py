"""What import knows of files that were meant as mails."""

import bz2
import gzip
import lzma
import os
import zipfile

from sievebench_site.recognized import remark_on, why_no_mail

from .room import Room

MAIL = b"Subject: one\n\ntext\n"
UNPACK = "unpack it, and take what comes of it"


class Recognized(Room):
    """Octets by themselves."""

    def test_what_is_no_mail(self) -> None:
        with zipfile.ZipFile(self.room / "zip", "w") as archive:
            archive.writestr("mail", MAIL)
        rows = [
            (gzip.compress(MAIL), f"is packed by gzip: {UNPACK}"),
            (b"\x28\xb5\x2f\xfd\x04\x58", f"is packed by zstd: {UNPACK}"),
            (bz2.compress(MAIL), f"is packed by bzip2: {UNPACK}"),
            (bz2.compress(b""), f"is packed by bzip2: {UNPACK}"),
            (lzma.compress(MAIL), f"is packed by xz: {UNPACK}"),
            (b"\x04\x22\x4d\x18\x64\x40", f"is packed by lz4: {UNPACK}"),
            ((self.room / "zip").read_bytes(), f"is packed by zip: {UNPACK}"),
            (b"\x7fELF\x02\x01", "is a program"),
            (b"MZ\x90\x00\x03", "is a program"),
            (b"#!/bin/sh\n", "is a program"),
            (b"CRYPTED\x03\x07\x02\x00", "is encrypted by Dovecot: let the server read it out"),
            (MAIL, None),
            (b"MZ: a\n\n", None),
            (b"BZh9: a\n\n", None),
            (b"", None),
        ]
        for octets, wanted in rows:
            with self.subTest(octets=octets[:20]):
                self.assertEqual(why_no_mail(octets), wanted)

    def test_remarks(self) -> None:
        mark = "begins with a byte order mark, the octets EF BB BF, so that its first line is no field"
        rows = [
            (MAIL, None),
            (b"hello world\n", "has no field: is it a mail?"),
            (b"", "has no field: is it a mail?"),
            (b"\nSubject: late\n", "has no field: is it a mail?"),
            (b"no field\nSubject: one\n\n", None),
            (b"\xef\xbb\xbfSubject: one\nTo: a@b\n\n", mark),
        ]
        for octets, wanted in rows:
            with self.subTest(octets=octets[:20]):
                self.assertEqual(remark_on(octets), wanted)


class Taken(Room):
    """What becomes of them."""

    def test_nothing_is_taken_where_one_is_refused(self) -> None:
        packed = gzip.compress(MAIL)
        self.write({"one": MAIL, "two.gz": packed, "tool": "#!/bin/sh\n", "empty": "", "site/mails/z": ""})
        self.write({"md/cur/.x": "", "md/tmp/1": MAIL})
        os.mkfifo(self.room / "pipe")
        rows = [
            ("two.gz", f'"two.gz" is packed by gzip: {UNPACK}'),
            ("tool", '"tool" is a program'),
            ("empty", '"empty" is empty: there is no mail in it'),
            ("md", '"md" is empty: there is no mail in its folders cur and new'),
            ("pipe", 'cannot read "pipe": it is no plain file'),
        ]
        for name, sentence in rows:
            with self.subTest(name=name):
                self.assertEqual(self.ran("import", "one", name, "site"), (2, [], f"sievebench-site: {sentence}\n"))
                self.assertEqual(os.listdir(self.room / "site/mails"), ["z"])

    def test_in_a_maildir(self) -> None:
        self.write({"md/cur/1": gzip.compress(MAIL), "md/cur/2": MAIL, "md/cur/3": "text", "site/mails/z": ""})
        wanted = [
            "site/with: new, with pigeonhole",
            f"md/cur/1: left out: it is packed by gzip: {UNPACK}",
            "md/cur/3: taken as 0002.eml: it has no field: is it a mail?",
            "3 mails, 2 written, 1 left out, 2 without an envelope",
        ]
        self.assertEqual(self.ran("import", "md", "site"), (0, wanted, ""))
        self.assertEqual((self.room / "site/mails/0002.eml").read_text(), "text")
