"""Where documents lie."""

import os
from typing import Dict, Optional

from sievebench_site.ends import Refusal
from sievebench_site.lsp_place import Home, Places, names_of, path_of, scripts_beside

from .room import Room


class Paths(Room):
    """The paths that URIs name (RFC 8089; RFC 3986, section 2.1)."""

    def test_paths(self) -> None:
        rows: Dict[str, Optional[bytes]] = {
            "file:///a/b.sieve": b"/a/b.sieve",
            "file://localhost/a/b.sieve": b"/a/b.sieve",
            "FILE:///a": b"/a",
            "file:/a/b": b"/a/b",
            "file:///a%20b/%C3%BC.sieve": b"/a b/\xc3\xbc.sieve",
            "file:///%ff%FE": b"/\xff\xfe",
            "file:///a/../b/./c": b"/b/c",
            "file:///ü": b"/\xc3\xbc",
            "file:///a%00b": None,
            "file:///\x00": None,
            "file://elsewhere/a": None,
            "file:a": None,
            "untitled:Untitled-1": None,
            "https://a.example/b.sieve": None,
            "file://[/a": None,
            "file:///\ud800": None,
            "": None,
            "/a/b.sieve": None,
        }
        for uri, wanted in rows.items():
            with self.subTest(uri=uri):
                self.assertEqual(path_of(uri), wanted)


class Homes(Room):
    """The homes of scripts."""

    def home(self, path: str, given: Optional[str] = None) -> Optional[Home]:
        """The home of a file, with its folder as one below that of the test."""
        places = Places(None if given is None else os.fsencode(self.room / given))
        found = places.home_of(os.fsencode(self.room / path))
        return found and found._replace(folder=os.path.relpath(found.folder, bytes(self.room)))

    def test_a_site_without_users(self) -> None:
        self.write({"site/mains": "main\n"})
        rows: Dict[str, Optional[Home]] = {
            "site/personal/main.sieve": Home(b"site", b"", ("personal", b"main")),
            "site/personal/a b.sieve": Home(b"site", b"", ("personal", b"a b")),
            "site/global/lists.sieve": Home(b"site", None, ("global", b"lists")),
            "site/before/10-spam.sieve": Home(b"site", None, ("personal", b"before/10-spam")),
            "site/personal/main.txt": None,
            "site/personal/.sieve": None,
            "site/main.sieve": None,
            "site/mails/main.sieve": None,
            "site/users/main.sieve": None,
            "site/.git/main.sieve": None,
            "site/personal/deep/main.sieve": None,
            "other/personal/main.sieve": None,
        }
        for path, wanted in rows.items():
            with self.subTest(path=path):
                self.assertEqual(self.home(path), wanted)

    def test_a_site_of_users(self) -> None:
        self.write({"site/users/ada/mains": "main\n", "site/users/eva/personal/x.sieve": ""})
        for user in ("ada", "eva", "new"):
            home = Home(b"site", user.encode(), ("personal", b"main"))
            self.assertEqual(self.home(f"site/users/{user}/personal/main.sieve"), home)
        self.assertEqual(self.home("site/global/g.sieve"), Home(b"site", None, ("global", b"g")))
        self.assertIsNone(self.home("site/personal/main.sieve"))
        self.assertIsNone(self.home("site/users/.hidden/personal/main.sieve"))
        self.assertIsNone(self.home("site/users/ada/global/main.sieve"))

    def test_marks_of_a_site(self) -> None:
        for number, mark in enumerate(("mains", "with", "users/ada/mains")):
            self.write({f"{number}/{mark}": ""})
            self.assertIsNotNone(self.home(f"{number}/global/a.sieve"), mark)
        self.write({"no/mails/1.eml": "", "no/users/ada/personal/x.sieve": "", "no/mail/x": ""})
        for path in ("no/global/a.sieve", "no/mail/a.sieve", "no/users/ada/personal/x.sieve"):
            self.assertIsNone(self.home(path))
            self.assertIsNotNone(self.home(path, "no"))
        os.symlink("no", self.room / "link")
        self.assertIsNotNone(self.home("link/global/a.sieve", "no"))
        self.assertIsNone(self.home("no/global/a.sieve", "gone"))

    def test_the_site_above(self) -> None:
        self.write({"site/mains": "", "site/users/ada/mains": "", "site/deep/personal/x.sieve": "", "x.sieve": ""})
        places, room = Places(None), bytes(self.room)
        for path in (b"deep/personal/x.sieve", b"users/ada/drafts/x.sieve", b"x.sieve", b"a/b/c/d.sieve"):
            self.assertEqual(places.site_above(room + b"/site/" + path), room + b"/site", path)
        self.assertIsNone(places.site_above(b"/nowhere/x.sieve"))

    def test_names(self) -> None:
        self.write({"site/with": "body # so\n", "bad/with": "bodi\n", "none/mains": ""})
        room = bytes(self.room)
        self.assertEqual(names_of(room + b"/site"), [b"body"])
        self.assertEqual(names_of(room + b"/none"), [])
        with self.assertRaises(Refusal):
            names_of(room + b"/bad")

    def test_scripts_beside(self) -> None:
        self.write(
            {"site/mains": "", "site/personal/a.sieve": "", "site/personal/b.txt": "", "site/global/g.sieve": ""}
        )
        home = Home(bytes(self.room) + b"/site", b"", ("personal", b"main"))
        self.assertEqual(scripts_beside(home, "personal"), [b"a"])
        self.assertEqual(scripts_beside(home, "global"), [b"g"])
        self.write({"many/users/eva/personal/e.sieve": "", "many/users/ada/personal/a.sieve": ""})
        home = Home(bytes(self.room) + b"/many", None, ("global", b"g"))
        self.assertEqual(scripts_beside(home, "personal"), [b"a"])
        self.assertEqual(scripts_beside(home._replace(user=b"eva"), "personal"), [b"e"])
        self.assertEqual(scripts_beside(home, "global"), [])
