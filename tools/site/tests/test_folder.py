"""Sites: users, main scripts and mails."""

import os
from typing import Tuple

from sievebench_site.ends import Refusal
from sievebench_site.folder import Site, Wanted, refuse_no_mains, site_of, take_mails

from .room import Files, Room

USERS: Files = {
    "users/ada/personal/main.sieve": "keep;",
    "users/bob/personal/main.sieve": "discard;",
    "users/bob/personal/two words.sieve": "",
    "users/bob/mains": 'main\n"two words" # his own\n',
    "users/bob/mails/9.eml": "",
    "users/notes": "",
    "mains": "before/10-spam main global/lists\n",
    "before/10-spam.sieve": "",
    "before/20-other.sieve": "",
    "global/lists.sieve": "",
    "mails/1.eml": "",
    "mails/2.eml": "",
    "mails/2.eml.users": "bob\n",
}


class Folder(Room):
    """What is read of a folder."""

    def site(self, mains: Tuple[bytes, ...] = (), mails: Tuple[bytes, ...] = (), users: Tuple[bytes, ...] = ()) -> Site:
        """The site in the test's folder."""
        site = site_of(Wanted(bytes(self.room), list(mains), list(mails), list(users), None))
        refuse_no_mains(site)
        take_mails(site)
        return site

    def refused(self, *mains: bytes, mails: Tuple[bytes, ...] = (), users: Tuple[bytes, ...] = ()) -> str:
        """Why the site is refused."""
        with self.assertRaises(Refusal) as caught:
            self.site(mains, mails, users)
        return caught.exception.sentence.replace(f"{self.room}/", "")

    def test_users(self) -> None:
        self.write(USERS)
        ada, bob = self.site().users
        self.assertEqual((ada.name, bob.name), (b"ada", b"bob"))
        self.assertEqual([main.key for main in ada.mains], [(b"ada/main",)])
        places = (("personal", b"before/10-spam"), ("personal", b"main"), ("global", b"lists"))
        self.assertEqual(ada.mains[0].scripts, places)
        self.assertEqual([main.key for main in bob.mains], [(b"bob/main",), (b"bob/two words",)])
        self.assertEqual([mail.name for mail in ada.mails], [b"1.eml"])
        self.assertEqual([mail.name for mail in bob.mails], [b"1.eml", b"2.eml", b"bob/9.eml"])
        shared = {b"before/10-spam", b"before/20-other", b"lists"}
        self.assertEqual({script.name for script in ada.scripts}, {b"main"} | shared)
        self.assertEqual(bob.path_of(("personal", b"main")), bytes(self.room / "users/bob/personal/main.sieve"))
        self.assertEqual(bob.path_of(("personal", b"before/10-spam")), bytes(self.room / "before/10-spam.sieve"))

    def test_some_users(self) -> None:
        self.write(USERS)
        self.assertEqual([user.name for user in self.site(users=(b"bob",)).users], [b"bob"])
        ada, bob = self.site(mains=(b'"two words" main',)).users
        places = (("personal", b"two words"), ("personal", b"main"))
        self.assertEqual((ada.mains, [main.scripts for main in bob.mains]), ([], [places]))
        ada, bob = self.site(mains=(b"personal/main",)).users
        self.assertEqual([user.mains[0].scripts for user in (ada, bob)], [(("personal", b"main"),)] * 2)
        self.assertEqual([user.mails == [] for user in self.site(mails=(b"9.eml",)).users], [True, False])
        self.assertIn('no user "eve"', self.refused(users=(b"eve",)))
        self.assertIn('no main script "x": there is no "users/ada/personal/x.sieve"', self.refused(b"x"))
        self.write({"mails/1.eml.users": "bob eve"})
        self.assertIn('"mails/1.eml.users" names "eve"', self.refused())
        self.write({"mails/1.eml.users": "# all\n"})
        self.assertIn('"mails/1.eml.users" names no users', self.refused())
        self.write({"personal/x.sieve": "", "mails/1.eml.users": "bob"})
        self.assertEqual([path for path, _ in self.site().left_out], [bytes(self.room / "personal")])
        self.write({"users/bob/mails/x.EML": "", "users/bob/mails/8.eml.expect": ""})
        site = self.site(users=(b"bob",))
        self.assertEqual([os.path.basename(path) for path, _ in site.left_out], [b"personal", b"x.EML"])
        self.assertEqual([os.path.basename(path) for path in site.lost], [b"8.eml.expect"])

    def test_mains(self) -> None:
        self.write(
            {
                "personal/a b.sieve": "",
                "personal/a.sieve": "",
                "personal/b.sieve": "",
                "x/c.sieve": "",
                "x/.d.sieve": "",
                "mails/1.eml": "",
            }
        )
        rows = {
            b"a b": [b"a b"],
            b"b a": [b"b", b"a"],
            b'"a b" x/c': [b"a b", b"x/c"],
            b"personal/a": [b"a"],
            b"a": [b"a"],
        }
        for line, wanted in rows.items():
            with self.subTest(line=line):
                found = self.site(mains=(line,)).users[0].mains[0].scripts
                self.assertEqual(found, tuple(("personal", name) for name in wanted))
        self.assertEqual(self.site(mains=(b"personal/a",)).users[0].mains[0].scripts, (("personal", b"a"),))
        for line, sentence in [
            (b"a c", 'no main script "c": there is no "personal/c.sieve"'),
            (b"a x/e", 'no main script "x/e": there is no "x/e.sieve"'),
            (b"x/../x/c", 'no main script "x/../x/c"'),
            (b"../x", 'no main script "../x"'),
            (b"mails/1", 'no main script "mails/1"'),
            (b'"a', 'no main script "\\"a": a name with blanks stands between quotes'),
        ]:
            with self.subTest(line=line):
                self.assertIn(sentence, self.refused(line))
        self.write({"mains": "# mine\nb\n\na\r\nb"})
        self.assertEqual([main.key for main in self.site().users[0].mains], [(b"b",), (b"a",)])

    def test_mails(self) -> None:
        names = [
            "1.eml",
            ".2.eml",
            "3.EML",
            "4.eml.bak",
            "1795931695.M1P2.host,S=3:2,S",
            "x:2,",
            "sub/5.eml",
            "sub/deep/1795931695.x",
            "sub/y",
            "readme",
        ]
        self.write({"personal/a.sieve": "", "mains": "a", **{f"mails/{name}": "" for name in names}})
        self.write({"mails/6.eml.expect": "", "mails/6.eml.users": "", "mails/7.eml": b"x" * 16_777_217})
        (self.room / "mails/8.eml").symlink_to("nowhere")
        (self.room / "mails/sub/mails").symlink_to("..")
        site = self.site()
        self.assertEqual([mail.name for mail in site.users[0].mails], [b"1.eml"])
        left = {path[len(bytes(self.room)) + 7 :].decode(): why for path, why in site.left_out}
        wanted = {
            "7.eml": "it has 16,777,217 octets, and a mail has at most 16,777,216",
            "1795931695.M1P2.host,S=3:2,S": "it has the name of a Maildir's file: `import` takes it",
            "x:2,": "it has the name of a Maildir's file: `import` takes it",
            "3.EML": "its name doesn't end by .eml, in small letters",
            "8.eml": "it leads to no plain file",
            "sub/5.eml": "it is in a folder inside of mails",
            "sub/deep/1795931695.x": "it is in a folder inside of mails",
        }
        self.assertEqual(left, wanted)
        self.assertEqual([path[-12:] for path in site.lost], [b"6.eml.expect", b"/6.eml.users"])
        self.assertEqual(self.site(mails=(b"1.eml",)).lost, [])
