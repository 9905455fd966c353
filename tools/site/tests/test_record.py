"""The command record, by the fake program: the new form of headings, and what is stale."""

import os
from typing import Dict, List
from unittest import mock

from sievebench_site.ends import Signalled
from sievebench_site.files import write_file, write_folder
from sievebench_site.folder import Wanted, site_of, take_mails
from sievebench_site.judge import Judge
from sievebench_site.main import status_of
from sievebench_site.record import record
from sievebench_site.shown import Look

from .room import FAKE, Files, Room

LEFT = "left, since it isn't as this tool writes it: --force writes it anew, without its comments"
SITE: Files = {
    "personal/main.sieve": "discard;",
    "before/10.sieve": "",
    "before/15.sieve": "",
    "mains": "before/10 before/15 main\n",
    "envelope": '"" ""',
    "mails/1.eml": "",
}


class Headings(Room):
    """Headings of both forms."""

    def recorded(self, expected: str, *words: str) -> str:
        """What a mail's file has after it was recorded."""
        self.write({**SITE, "mails/1.eml.expect": expected})
        self.assertEqual(self.ran("record", *words, ".")[0], 0)
        return (self.room / "mails/1.eml.expect").read_text()

    def test_new_form(self) -> None:
        rows = {
            "[main]\ndiscard\n": "[main]\ndiscard\n",
            "[before/10 main]\ndiscard\n": "[main]\ndiscard\n",
            '[before/10 before/15 main]\nimplicit "INBOX"\n': "[main]\ndiscard\n",
            # What is stale stays.
            "[before/10 main]\n[gone]\ndiscard\n": "[gone]\ndiscard\n[main]\ndiscard\n",
            "[before/10 main]\n[main]\ndiscard\n": "[before/10 main]\n[main]\ndiscard\n",
        }
        for expected, wanted in rows.items():
            with self.subTest(expected):
                self.assertEqual(self.recorded(expected), wanted)

    def test_comments(self) -> None:
        commented = "# mine\n[before/10 main]\ndiscard\n"
        self.assertEqual(self.recorded(commented), commented)
        self.assertEqual(self.recorded(commented, "--force"), "[main]\ndiscard\n")
        self.write({"mails/1.eml.expect": commented.replace("discard", 'store "A"')})
        self.assertEqual(self.ran("record", ".")[0], 1)

    def test_checked_before_it_is_recorded(self) -> None:
        self.write({**SITE, "mails/1.eml.expect": "[before/10 main]\ndiscard\n"})
        self.assertEqual(self.ran("check", "-q", "."), (0, [], ""))

    def test_what_is_not_judged_stays(self) -> None:
        self.write(
            {**SITE, "personal/main.sieve": 'require "regex";', "mails/1.eml.expect": "[before/10 main]\ndiscard\n"}
        )
        self.assertEqual(self.ran("record", ".")[0], 0)
        self.assertEqual((self.room / "mails/1.eml.expect").read_text(), "[main]\ndiscard\n")

    def test_a_line_that_is_not_in_mains(self) -> None:
        wanted = '[after/90 main]\ndiscard\n[main]\nredirect "a@b"\n'
        self.write({"after/90.sieve": ""})
        self.assertEqual(self.recorded('[main]\nredirect "a@b"\n', "--main", "after/90 main"), wanted)


class Pruned(Room):
    """What is stale."""

    def setUp(self) -> None:
        super().setUp()
        users: Files = {f"users/{name}/personal/main.sieve": "discard;" for name in ("ada", "eva")}
        self.write({**users, "mains": "main\n", "envelope": '"" ""', "mails/1.eml": "", "mails/2.eml": ""})
        self.files: Dict[str, str] = {
            "1.eml.expect": "[ada/main]\ndiscard\n[ada/old]\ndiscard\n[bob/main]\ndiscard\n[eva/main]\ndiscard\n",
            "2.eml.expect": "# both\n[ada/main]\ndiscard\n[bob/main]\n[eva/main]\ndiscard\n",
            "3.eml.envelope": '"" ""\n',
            "3.eml.expect": "[ada/main]\ndiscard\n",
            "4.eml.expect": "# hers\n[eva/main]\n",
        }
        self.write({f"mails/{name}": text for name, text in self.files.items()})

    def left(self) -> Dict[str, str]:
        """The files beside mails."""
        return {it.name: it.read_text() for it in sorted((self.room / "mails").iterdir()) if it.suffix != ".eml"}

    def test_it_is_reported(self) -> None:
        status, told, _ = self.ran("record", ".")
        lost = [
            f"./mails/{name}: stale: its mail isn't there"
            for name in ("3.eml.envelope", "3.eml.expect", "4.eml.expect")
        ]
        wanted = [
            "./mails/1.eml.expect: stale: no main script is called ada/old",
            "./mails/1.eml.expect: stale: no main script is called bob/main",
            "./mails/2.eml.expect: stale: no main script is called bob/main",
            *lost,
            "2 mails, 0 written, 0 left, 6 stale: --prune takes them out",
        ]
        self.assertEqual((status, told), (0, wanted))
        self.assertEqual(self.left(), self.files)

    def test_it_is_taken_out(self) -> None:
        status, told, _ = self.ran("record", "--prune", ".")
        wanted = [
            "./mails/1.eml.expect: changed, without 2 stale",
            f"./mails/2.eml.expect: {LEFT}",
            *(f"./mails/3.eml.{end}: taken out: its mail isn't there" for end in ("envelope", "expect")),
            f"./mails/4.eml.expect: {LEFT}",
            "2 mails, 1 written, 2 left, 2 taken out",
        ]
        self.assertEqual((status, told), (1, wanted))
        kept = {name: self.files[name] for name in ("2.eml.expect", "4.eml.expect")}
        both = "[ada/main]\ndiscard\n[eva/main]\ndiscard\n"
        self.assertEqual(self.left(), {"1.eml.expect": both, **kept})
        self.assertEqual(self.ran("record", "--prune", "--force", ".")[0], 0)
        self.assertEqual(self.left(), {f"{number}.eml.expect": both for number in (1, 2)})
        self.assertEqual(self.ran("check", "-q", "."), (0, [], ""))

    def test_a_file_of_which_nothing_is_left(self) -> None:
        self.write(
            {"mails/2.eml.users": "ada", "users/ada/mains": "two", "users/ada/personal/two.sieve": 'require "regex";'}
        )
        self.write({"mails/2.eml.expect": "[eva/main]\ndiscard\n"})
        told = self.ran("record", "--prune", ".")[1]
        self.assertIn("./mails/2.eml.expect: taken out", told)
        self.assertNotIn("2.eml.expect", self.left())

    def test_refusals(self) -> None:
        rows: List[List[str]] = [["--user", "ada"], ["--main", "main"], ["--only", "1.eml"]]
        for words in rows:
            with self.subTest(words):
                wanted = "sievebench-site: --prune looks at the whole site: without --user, --main and --only\n"
                self.assertEqual(self.ran("record", "--prune", *words, "."), (2, [], wanted))


class Folders(Room):
    """A folder with a file of each user."""

    def setUp(self) -> None:
        super().setUp()
        self.users = [f"user{number:02}" for number in range(21)]
        users: Files = {f"users/{name}/personal/main.sieve": "discard;" for name in self.users}
        self.write({**users, "mains": "main\n", "envelope": '"" ""', "mails/1.eml": "", "mails/2.eml": ""})
        self.write({"mails/2.eml.users": " ".join(self.users[:20]), "users/user03/mails/3.eml": ""})

    def files(self) -> Dict[str, str]:
        """The files of the first mail's folder."""
        return {it.name: it.read_text() for it in sorted((self.room / "mails/1.eml.expect").iterdir())}

    def wanted(self) -> Dict[str, str]:
        """What they have at first."""
        return {name: f"[{name}/main]\ndiscard\n" for name in self.users}

    def test_many_users(self) -> None:
        wanted = ["./mails/1.eml.expect: new, a folder of 21 files", "./mails/2.eml.expect: new"]
        wanted += ["./users/user03/mails/3.eml.expect: new", "3 mails, 3 written, 0 left"]
        self.assertEqual(self.ran("record", "."), (0, wanted, ""))
        self.assertEqual(self.files(), self.wanted())
        self.assertEqual(self.ran("check", "-q", "."), (0, [], ""))
        self.assertEqual(self.ran("record", "."), (0, ["3 mails, 0 written, 0 left"], ""))
        self.assertEqual([it.name for it in (self.room / "mails").iterdir() if it.name.startswith(".")], [])

    def test_one_file_of_them(self) -> None:
        self.ran("record", ".")
        self.write({"users/user05/personal/main.sieve": "keep;"})
        told = self.ran("check", ".")[1]
        self.assertEqual(told[:2], ["./mails/1.eml under user05/main", "./mails/2.eml under user05/main"])
        told = self.ran("check", "--format", "github", "--only", "1.eml", ".")[1]
        self.assertIn("mails/1.eml.expect/user05,line=1,", told[0])
        told = self.ran("record", "--only", "1.eml", ".")[1]
        self.assertEqual(told, ["./mails/1.eml.expect/user05: changed", "1 mails, 1 written, 0 left"])
        self.assertEqual(self.files(), {**self.wanted(), "user05": '[user05/main]\nstore "INBOX"\n'})

    def test_a_file_becomes_a_folder(self) -> None:
        old = (
            '[bob/main]\nstore "A"\n[user00/before/10 main]\ndiscard\n[user07/main]\nstore "B"\n[user07/old]\ndiscard\n'
        )
        self.write({"mails/1.eml.expect": "# mine\n" + old})
        self.assertEqual(self.ran("record", "--only", "1.eml", ".")[0], 1)
        self.assertEqual((self.room / "mails/1.eml.expect").read_text(), "# mine\n" + old)
        self.write({"mails/1.eml.expect": old})
        # One user's run leaves what is expected of the others as it was.
        told = self.ran("record", "--only", "1.eml", "--user", "user00", ".")[1]
        self.assertEqual(
            told[-2:], ["./mails/1.eml.expect: changed, a folder of 3 files", "1 mails, 1 written, 0 left"]
        )
        hers = '[user07/main]\nstore "B"\n[user07/old]\ndiscard\n'
        kept = {"bob": '[bob/main]\nstore "A"\n', "user07": hers}
        self.assertEqual(self.files(), {**kept, "user00": self.wanted()["user00"]})
        self.ran("record", ".")
        kept["user07"] = hers.replace('store "B"', "discard")
        self.assertEqual(self.files(), {**self.wanted(), **kept})
        told = self.ran("record", "--prune", ".")[1]
        self.assertIn("./mails/1.eml.expect/bob: taken out", told)
        self.assertEqual(self.files(), self.wanted())

    def test_lost(self) -> None:
        self.ran("record", ".")
        (self.room / "mails/1.eml").unlink()
        self.assertEqual(self.ran("check", "-q", "."), (1, ["./mails/1.eml.expect: its mail isn't there"], ""))
        status, told, _ = self.ran("record", "--prune", ".")
        self.assertEqual((status, told[-1]), (0, "2 mails, 0 written, 0 left, 21 taken out"))
        self.assertFalse((self.room / "mails/1.eml.expect").exists())

    def test_names_of_which_no_file_is_made(self) -> None:
        self.write({"mails/1.eml.expect": "[.x/main]\ndiscard\n"})
        self.ran("record", "--only", "1.eml", ".")
        self.assertTrue(
            (self.room / "mails/1.eml.expect").read_text().startswith("[.x/main]\ndiscard\n[user00/main]\n")
        )

    def test_by_hand(self) -> None:
        self.write({"mails/2.eml.expect/user00": "[user00/main]\ndiscard\n", "mails/2.eml.expect/.x": "no"})
        self.write({"mails/2.eml.expect/user01": "# hers\n[user01/main]\ndiscard\n"})
        self.assertEqual(self.ran("check", "-q", "--lax", "--only", "2.eml", ".")[0], 0)
        self.assertEqual(self.ran("record", "--only", "2.eml", ".")[1][-1], "1 mails, 18 written, 0 left")
        self.write({"mails/2.eml.expect/user01": "[user00/main]\n"})
        error = '"./mails/2.eml.expect/user01", line 1: [user00/main] stood in "./mails/2.eml.expect/user00" before'
        self.assertEqual(self.ran("check", "."), (2, [], f"sievebench-site: {error}\n"))

    def test_no_users(self) -> None:
        self.write({"single/personal/main.sieve": "", "single/mains": "main", "single/mails/1.eml": ""})
        self.write({"single/mails/1.eml.expect/main": "[main]\n"})
        error = '"single/mails/1.eml.expect" is a folder, which has files of users, and the site has no users'
        self.assertIn(error, self.ran("check", "single")[2])


class Meanwhile(Room):
    """What somebody else does while verdicts are recorded, and a run that ends by itself."""

    def setUp(self) -> None:
        super().setUp()
        self.write({"personal/a.sieve": "", "mains": "a\n", "envelope": '"" ""'})
        self.write({f"mails/{number}.eml": "" for number in range(1, 6)})
        self.write({f"mails/{number}.eml.expect": "[a]\ndiscard\n" for number in range(2, 6)})
        self.write({"mails/5.eml.expect": "# mine\n[a]\ndiscard\n", "mails/9.eml.expect": "[a]\n"})

    def edit(self) -> None:
        """Makes a file, changes two, takes one out, and puts a folder in the place of one."""
        self.write({f"mails/{number}.eml.expect": "# hers\n[b]\ndiscard\n" for number in (1, 2, 5)})
        (self.room / "mails/3.eml.expect").unlink()
        (self.room / "mails/4.eml.expect").unlink()
        self.write({"mails/4.eml.expect/ada": "# hers\n"})

    def test_another_edit(self) -> None:
        site = site_of(Wanted(bytes(self.room), [], [], [], None))
        take_mails(site)
        judged = Judge(site, self.program(), 1).all()
        self.edit()
        for force in (False, True):
            told, whole = record(site, judged, Look(False), force, False)
            left = [f"{self.room}/mails/{it}.eml.expect: left, since it was changed meanwhile" for it in range(1, 6)]
            left[4] = left[4] if force else f"{self.room}/mails/5.eml.expect: {LEFT}"
            self.assertEqual((whole, told[1:]), (False, [*left, "5 mails, 0 written, 5 left, " + self.stale()]))
            for number in (1, 2, 5):
                text = (self.room / f"mails/{number}.eml.expect").read_text()
                self.assertEqual(text, "# hers\n[b]\ndiscard\n")
            self.assertFalse((self.room / "mails/3.eml.expect").exists())
            self.assertEqual((self.room / "mails/4.eml.expect/ada").read_text(), "# hers\n")

    def test_another_edit_of_what_is_taken_out(self) -> None:
        self.write({"personal/a.sieve": 'require "regex";', "mails/2.eml.expect": "[gone]\ndiscard\n"})
        site = site_of(Wanted(bytes(self.room), [], [], [], None))
        take_mails(site)
        judged = Judge(site, self.program(), 1).all()
        self.write({"mails/2.eml.expect": "# hers\n[b]\ndiscard\n"})
        told, whole = record(site, judged, Look(False), False, True)
        self.assertIn(f"{self.room}/mails/2.eml.expect: left, since it was changed meanwhile", told)
        self.assertFalse(whole)
        self.assertEqual((self.room / "mails/2.eml.expect").read_text(), "# hers\n[b]\ndiscard\n")

    def stale(self) -> str:
        """The end of the last line."""
        return "1 stale: --prune takes them out"

    def test_no_memory(self) -> None:
        written: List[bytes] = []

        def write(path: bytes, octets: bytes) -> None:
            if written:
                raise MemoryError
            written.append(path)
            write_file(path, octets)

        words = ["record", "--force", "--program", str(FAKE), str(self.room)]
        with mock.patch("sievebench_site.record.write_file", write), mock.patch("sys.stderr") as error:
            self.assertEqual(status_of(words), 3)
        said = "".join(call.args[0] for call in error.write.call_args_list)
        self.assertEqual(said, "sievebench-site: this tool is out of memory\n")
        kept = 'implicit "INBOX"\n'
        self.assertEqual((self.room / "mails/1.eml.expect").read_text(), f"[a]\n{kept}")
        self.assertEqual((self.room / "mails/2.eml.expect").read_text(), "[a]\ndiscard\n")
        self.assertEqual((self.room / "mails/5.eml.expect").read_text(), "# mine\n[a]\ndiscard\n")
        self.assertEqual([it.name for it in self.room.rglob(".*")], [])
        self.assertEqual(self.ran("record", "--force", ".")[1][-1], f"5 mails, 4 written, 0 left, {self.stale()}")

    def test_threads_that_do_not_start(self) -> None:
        words = ["check", "--program", str(FAKE), str(self.room)]
        full = mock.patch("threading.Thread.start", side_effect=RuntimeError("can't start new thread"))
        with full, mock.patch("sys.stderr") as error:
            self.assertEqual(status_of(words), 3)
        said = "".join(call.args[0] for call in error.write.call_args_list)
        self.assertEqual(said, "sievebench-site: cannot run several jobs at once: can't start new thread\n")

    def test_a_folder_that_ends_halfway(self) -> None:
        place = self.room / "mails/2.eml.expect"
        for ending in (MemoryError(), Signalled(130), OSError(28, "no room")):
            for number in (1, 2):
                with self.subTest(ending=ending, number=number):
                    calls: List[bytes] = []

                    def rename(old: bytes, new: bytes) -> None:
                        calls.append(new)
                        if len(calls) == number:
                            raise ending
                        os.replace(old, new)

                    with mock.patch("os.rename", rename), self.assertRaises(BaseException):
                        write_folder(bytes(place), {b"ada": b"[ada/a]\n"})
                    self.assertEqual(place.read_text(), "[a]\ndiscard\n")
        write_folder(bytes(place), {b"ada": b"[ada/a]\n"})
        self.assertEqual((place / "ada").read_text(), "[ada/a]\n")
