"""The command watch, by the fake program: looks without pauses, and the command itself."""
import os
import pathlib
import re
import shutil
import signal
from typing import List
from unittest import mock

from sievebench_site import watch as module
from sievebench_site.ends import CHILDREN, Refusal
from sievebench_site.folder import Wanted
from sievebench_site.shown import Look
from sievebench_site.watch import Watch

from .room import Files, Room

INCLUDE = 'require "include"; include "part";'
FAULT = "1: unknown-command: There is no such command or test."


class Looks(Room):
    """What is printed of each look."""

    def setUp(self) -> None:
        super().setUp()
        mails: Files = {f"site/mails/{number}.eml": f"subject: k{number}" for number in (1, 2)}
        self.write({"site/personal/main.sieve": INCLUDE, "site/personal/part.sieve": "discard;", **mails})
        self.write({"site/mains": "main\n", "site/envelope": '"" ""', "site/mails/1.eml.expect": "[main]\ndiscard\n"})
        patched = mock.patch.object(module, "SETTLING", 0.0)
        patched.start()
        self.addCleanup(patched.stop)
        wanted = Wanted(bytes(self.room / "site"), [], [], [], None)
        self.watch = Watch(wanted, lambda site: self.program(*site.names), 2, Look(False), False)
        self.addCleanup(self.watch.close)

    def look(self) -> List[str]:
        """What is printed, without the folder and the times."""
        folder = f"{self.room}/site/"
        return [re.sub(r", [0-9]+\.[0-9]{2} seconds$", "", line).replace(folder, "") for line in self.watch.lines()]

    def saved(self, files: Files) -> List[str]:
        """What is printed where these files are saved, without the heading."""
        self.write({f"site/{name}": text for name, text in files.items()})
        return [line for line in self.look() if not line.endswith((": saved", ": gone"))]

    def test_changes(self) -> None:
        self.assertEqual(self.look(), ["2 verdicts"])
        self.assertEqual(self.look(), [])
        self.write({"site/personal/part.sieve": "\nkeep;", "site/notes.txt": "x"})
        self.assertEqual(
            self.look(),
            [
                "personal/part.sieve: saved",
                "mails/1.eml under main: no longer as expected",
                "  - discard",
                '  + store "INBOX"  (personal/part.sieve:2)',
                "mails/2.eml under main",
                "  - discard",
                '  + store "INBOX"  (personal/part.sieve:2)',
                "2 of 2 verdicts changed, 1 not as expected",
            ],
        )
        self.assertEqual(self.saved({"notes.txt": "y"}), [])
        self.assertEqual(
            self.saved({"personal/part.sieve": "\nkeep; "}), ["0 of 2 verdicts changed, 1 not as expected"]
        )
        self.assertEqual(
            self.saved({"personal/part.sieve": 'redirect "a@b.example";'}),
            [
                "mails/1.eml under main",
                "mails/2.eml under main",
                "2 verdicts in all, of 2 mails under 1 main",
                '  - store "INBOX"',
                '  + redirect "a@b.example"  (personal/part.sieve:1)',
                "mails/1.eml under main: not as expected",
                "  - discard",
                '  + redirect "a@b.example"  (personal/part.sieve:1)',
                "2 of 2 verdicts changed, 1 not as expected",
            ],
        )
        told = self.saved({"personal/part.sieve": "discard;"})
        self.assertEqual(told[0], "mails/1.eml under main: now as expected")
        self.assertEqual(told[-1], "2 of 2 verdicts changed")

    def test_faults(self) -> None:
        self.look()
        part = f"personal/part.sieve:{FAULT} The verdicts of its last text stand."
        self.assertEqual(self.saved({"personal/part.sieve": "kep;"}), [part, "0 of 2 verdicts changed"])
        self.assertEqual(self.saved({"mails/2.eml.expect": "[main]\ndiscard\n"}), ["0 of 2 verdicts changed"])
        self.assertEqual(
            self.saved({"personal/main.sieve": INCLUDE + " keep;"})[-1], "2 of 2 verdicts changed, 2 not as expected"
        )
        self.assertEqual(self.saved({"personal/part.sieve": "stop;"})[0], "personal/part.sieve: no fault any more")
        self.assertEqual(
            self.saved({"personal/new.sieve": "kep;"}),
            [f"personal/new.sieve:{FAULT}", "0 of 2 verdicts changed, 2 not as expected"],
        )

    def test_what_is_required_and_lacks(self) -> None:
        self.look()
        told = self.saved({"personal/part.sieve": 'require "regex"; keep;'})
        self.assertEqual(told[-1], "0 of 2 verdicts changed")
        self.assertTrue(told[0].endswith("There is no such extension here. The verdicts of its last text stand."))

    def test_faults_from_the_start(self) -> None:
        self.write(
            {
                "site/personal/part.sieve": "kep;",
                "site/personal/other.sieve": 'require "regex";',
                "site/mains": "main\nother\n",
            }
        )
        told = self.look()
        lacking = "personal/other.sieve:1: unknown-capability: There is no such extension here."
        self.assertEqual(told[:2], [lacking, f"personal/part.sieve:{FAULT}"])
        self.assertEqual(told[-1], "4 verdicts, 1 not as expected, 2 not judged")

    def test_mails_and_expectations(self) -> None:
        self.look()
        self.assertEqual(
            self.saved({"mails/3.eml": "subject: k3", "mails/3.eml.expect": '[main]\nstore "A"\n'}),
            [
                "mails/3.eml under main: not as expected",
                '  - store "A"',
                "  + discard  (personal/part.sieve:1)",
                "0 of 3 verdicts changed, 1 new, 1 not as expected",
            ],
        )
        self.assertEqual(self.saved({"mails/3.eml.expect": '[main]\nstore "B"\n'})[1], '  - store "B"')
        self.assertEqual(self.saved({"mails/3.eml.expect": "[main]\ndiscard\n"}), ["0 of 3 verdicts changed"])
        self.write({"site/personal/part.sieve": 'if header "subject" "k4" { keep; }'})
        self.look()
        self.assertEqual(self.saved({"mails/2.eml": "subject: k4"})[0], "mails/2.eml under main")
        os.unlink(self.room / "site/mails/2.eml")
        os.unlink(self.room / "site/mails/3.eml")
        os.unlink(self.room / "site/mails/3.eml.expect")
        self.assertEqual(self.look()[-1], "0 of 1 verdict changed, 2 gone, 1 not as expected")
        self.assertEqual([len(desk.mails) for desk in self.watch.desks.values()], [1])

    def test_envelopes(self) -> None:
        self.write({"site/personal/part.sieve": 'require "envelope"; if envelope "from" "a@b" { discard; }'})
        self.look()
        self.assertEqual(self.saved({"envelope": "a@b c@d"})[-1], "2 of 2 verdicts changed")
        self.assertEqual(
            self.saved({"mails/1.eml.envelope": '"" ""'})[-1], "1 of 2 verdicts changed, 1 not as expected"
        )
        os.unlink(self.room / "site/mails/1.eml.envelope")
        self.assertEqual(self.look()[-1], "1 of 2 verdicts changed")
        self.assertEqual(self.saved({"envelope": '"" ""'})[-1], "2 of 2 verdicts changed, 1 not as expected")

    def test_mains_and_names(self) -> None:
        self.look()
        self.assertEqual(
            self.saved({"personal/second.sieve": "keep;", "mains": "main\nsecond\n"})[-1],
            "0 of 4 verdicts changed, 2 new",
        )
        self.assertEqual(self.saved({"mains": "second\nsecond main"})[-1], "0 of 4 verdicts changed, 2 new, 2 gone")
        self.assertEqual(len(CHILDREN.running), 2)
        self.assertEqual(
            self.saved({"with": "date\n", "personal/second.sieve": 'require "date"; discard;'})[-1],
            "2 of 4 verdicts changed",
        )
        self.assertEqual(len(CHILDREN.running), 2)

    def test_what_cannot_be_read(self) -> None:
        self.look()
        stand = ": the last verdicts stand"
        told = self.saved({"mails/1.eml.expect": "discard\n"})
        self.assertEqual(
            told,
            [
                f'"{self.room}/site/mails/1.eml.expect", line 1: before it stands no name of a main script in brackets'.replace(
                    f"{self.room}/site/", ""
                )
                + stand
            ],
        )
        self.assertEqual(self.look(), [])
        self.assertEqual(self.saved({"personal/part.sieve": "discard; "}), told)
        os.rename(self.room / "site", self.room / "away")
        self.assertEqual(self.look()[-1], 'cannot read "personal": No such file or directory' + stand)
        self.assertEqual(self.look(), [])
        os.rename(self.room / "away", self.room / "site")
        self.assertTrue(self.look()[-1].startswith('"mails/1.eml.expect", line 1'))
        told = self.saved({"mails/1.eml.expect": "[main]\ndiscard\n", "personal/part.sieve": "keep;"})
        self.assertEqual(told[-1], "2 of 2 verdicts changed, 1 not as expected")
        shutil.rmtree(self.room / "site/mails")
        self.assertEqual(self.look()[-1], 'cannot read "mails": No such file or directory' + stand)
        self.write({"site/mails/1.eml": ""})
        self.assertEqual(self.look()[-1], "0 of 1 verdict changed, 1 gone")

    def test_a_script_that_is_refused(self) -> None:
        self.look()
        told = self.saved({"personal/part.sieve": "keep; #" + "x" * 1_048_576})
        self.assertTrue(
            told[-1].endswith("octets, and its name 1,024: the last verdicts stand") or "changed" in told[-1]
        )
        self.assertEqual(self.saved({"personal/part.sieve": "keep;"})[-1].rpartition(", ")[2], "1 not as expected")

    def test_a_program_that_ends(self) -> None:
        self.look()
        for child in list(CHILDREN.running):
            child.kill()
        self.write({"site/personal/part.sieve": "keep;"})
        with self.assertRaisesRegex(Refusal, "ended with status -9") as caught:
            self.look()
        self.assertEqual((caught.exception.status, CHILDREN.running), (3, set()))

    def test_each_file_of_a_site(self) -> None:
        self.look()
        files = {"with": "date\nmailbox\n", "clock": "1 +0000\n", "mailboxes": "A\n", "unjudged": "ada so\n"}
        for name, text in {**files, "mains": "# one\nmain\n", "envelope": "a@b c@d"}.items():
            with self.subTest(name):
                self.write({f"site/{name}": text})
                self.assertEqual(self.look()[:1], [f"{name}: saved"])

    def test_ways_to_save(self) -> None:
        self.look()
        self.write({"site/personal/.part.new": "keep;"})
        os.replace(self.room / "site/personal/.part.new", self.room / "site/personal/part.sieve")
        self.assertEqual(self.look()[-1], "2 of 2 verdicts changed, 1 not as expected")
        place = self.room / "site/personal/part.sieve"
        status = place.stat()
        place.write_text("stop;")
        os.utime(place, ns=(status.st_atime_ns, status.st_mtime_ns + 1))
        self.assertEqual(self.look()[-1], "2 of 2 verdicts changed, 1 not as expected")
        # One of the same size and time, in the same place, and then another one that has its place.
        self.rewritten(place, b"keep;")
        self.assertEqual(self.look()[-1], "2 of 2 verdicts changed, 1 not as expected")
        self.write({"site/personal/.part.new": "stop;"})
        status = place.stat()
        os.replace(self.room / "site/personal/.part.new", place)
        os.utime(place, ns=(status.st_atime_ns, status.st_mtime_ns))
        self.assertEqual(self.look()[-1], "2 of 2 verdicts changed, 1 not as expected")
        os.unlink(place)
        self.assertIn("personal/part.sieve: gone", self.look())
        os.symlink("other", place)
        self.write({"site/personal/other": "stop;"})
        self.assertEqual(self.look()[-1], "2 of 2 verdicts changed, 1 not as expected")

    def rewritten(self, place: pathlib.Path, octets: bytes) -> None:
        """Writes other octets into a file, which has its size and its time afterwards."""
        status = place.stat()
        self.assertEqual(status.st_size, len(octets))
        place.write_bytes(octets)
        os.utime(place, ns=(status.st_atime_ns, status.st_mtime_ns))

    def test_a_mail_of_the_same_size_and_time(self) -> None:
        self.write({"site/personal/part.sieve": 'if header "subject" "k7" { keep; } discard;'})
        self.look()
        self.rewritten(self.room / "site/mails/2.eml", b"subject: k7")
        self.assertEqual(self.look()[-1], "1 of 2 verdicts changed")
        self.rewritten(self.room / "site/mails/1.eml.expect", b"[main]\n# none \n")
        self.assertEqual(self.look()[-1], "0 of 2 verdicts changed, 1 not as expected")

    def test_users(self) -> None:
        shutil.rmtree(self.room / "site/personal")
        self.write({"site/users/ada/personal/main.sieve": "keep;", "site/users/ada/mails/3.eml": ""})
        self.look()
        self.assertEqual(self.saved({"users/ada/personal/main.sieve": "discard;"})[-1], "3 of 3 verdicts changed")
        self.assertEqual(self.saved({"users/ada/mails/4.eml": ""})[-1], "0 of 4 verdicts changed, 1 new")
        (self.room / "site/mails/2.eml.expect").unlink(missing_ok=True)
        told = self.saved({"mails/2.eml.expect/ada": '[ada/main]\nstore "A"\n'})
        self.assertIn("mails/2.eml under ada/main: not as expected", told)
        self.assertIn('  - store "B"', self.saved({"mails/2.eml.expect/ada": '[ada/main]\nstore "B"\n'}))
        self.assertIn(", 2 new, ", self.saved({"users/eva/personal/main.sieve": "keep;"})[-1])
        self.assertIn(", 1 gone, ", self.saved({"mails/1.eml.users": "eva\n"})[-1])

    def test_files_that_settle(self) -> None:
        self.look()
        place = self.room / "site/personal/part.sieve"
        writes = [b"kep;", b"kep; ", b"keep;"]

        def pause(seconds: float) -> None:
            if writes:
                place.write_bytes(writes.pop(0))

        with mock.patch("time.sleep", pause):
            place.write_bytes(b"")
            told = self.look()
        self.assertEqual((told[-1], writes), ("2 of 2 verdicts changed, 1 not as expected", []))
        self.assertNotIn("unknown-command", "".join(told))

    def test_a_site_that_is_wrong_from_the_start(self) -> None:
        self.write({"site/mains": "x\n"})
        with self.assertRaises(Refusal):
            self.look()
        self.assertEqual(CHILDREN.running, set())


class Ends(Room):
    """The command."""

    def test_signals(self) -> None:
        self.write({"personal/a.sieve": "keep;", "mains": "a\n", "mails/1.eml": "", "envelope": '"" ""'})
        for number, status in ((signal.SIGINT, 130), (signal.SIGTERM, 143)):
            with self.started("watch", ".") as child:
                assert child.stdout and child.stderr
                self.assertRegex(child.stdout.readline(), rb"^1 verdict, [0-9.]+ seconds\n$")
                self.write({"personal/a.sieve": "discard;" + " " * status})
                told = [child.stdout.readline() for _ in range(5 if status == 130 else 2)]
                self.assertEqual(told[0], b"./personal/a.sieve: saved\n")
                self.assertRegex(
                    told[-1] if status == 130 else told[1], rb"^[01] of 1 verdict changed, [0-9.]+ seconds\n$"
                )
                child.send_signal(number)
                self.assertEqual((child.communicate(), child.returncode), ((b"", b""), status))

    def test_a_wrong_site(self) -> None:
        self.assertEqual(self.ran("watch", "nowhere")[0], 2)
