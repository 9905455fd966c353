"""What completes words of the command line."""

from typing import Dict, List

from sievebench_site.completion import completed
from sievebench_site.ends import Refusal

from .room import Files, Room

SITE: Files = {"personal/main.sieve": "", "personal/a b.sieve": "", "before/10.sieve": "", "mails/1.eml": ""}


class Completion(Room):
    """Users, main scripts and mails of a site."""

    def test_no_users(self) -> None:
        rows: Dict[str, List[bytes]] = {
            "main\n": [b"main"],
            "sales: before/10 main\na b": [b"sales", b"a b"],
            'before/10 "a b"\na b\nmain': [b'before/10 "a b"', b"a b", b"main"],
            "": [],
        }
        for lines, wanted in rows.items():
            self.write({**SITE, "mains": lines})
            with self.subTest(lines):
                self.assertEqual(completed("mains", bytes(self.room)), wanted)
        self.assertEqual(completed("users", bytes(self.room)), [])
        self.assertEqual(completed("mails", bytes(self.room)), [b"1.eml"])
        self.assertEqual(completed("others", bytes(self.room)), [])

    def test_users(self) -> None:
        self.write({f"users/{name}/personal/main.sieve": "" for name in ("eva", "ada")})
        self.write({"mains": "main", "users/eva/mails/2.eml": "", "users/ada/mails/2.eml": "", "mails/1.eml": ""})
        self.write({"users/ada/mails/.3.eml": ""})
        folder = bytes(self.room)
        found = {kind: completed(kind, folder) for kind in ("users", "mains", "mails")}
        self.assertEqual(found, {"users": [b"ada", b"eva"], "mains": [b"main"], "mails": [b"1.eml", b"2.eml"]})
        with self.assertRaises(Refusal):
            completed("mains", folder + b"/nowhere")
