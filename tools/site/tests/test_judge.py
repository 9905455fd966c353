"""Verdicts, by sessions of batches."""

import io
import subprocess
import unittest
from typing import List, Tuple
from unittest import mock

from sievebench_site import judge as module
from sievebench_site.ends import CHILDREN, Refusal
from sievebench_site.envelopes import Envelope
from sievebench_site.folder import Site, Wanted, site_of, take_mails
from sievebench_site.headings import Expected
from sievebench_site.judge import Judge, Judged, batches_of
from sievebench_site.mails import Mail
from sievebench_site.program import NO_MEMORY, NoMemory, Program, Session
from sievebench_site.seats import Seats

from .room import Files, Room
from .test_shown import Terminal


class Verdicts(Room):
    """Judges sites by the fake program."""

    def judged(self, jobs: int = 4) -> Judged:
        """The cases of the site in the test's folder."""
        return Judge(self.site(), self.program(), jobs).all()

    def site(self) -> Site:
        """The site in the test's folder."""
        site = site_of(Wanted(bytes(self.room), [], [], [], None))
        take_mails(site)
        return site

    def told(self, judged: Judged) -> List[Tuple[str, str, List[str]]]:
        """Each case by its mail and main script, and its verdict."""
        return [
            (it.mail.name.decode(), it.main.label().decode(), [line.decode() for line in it.lines()])
            for it in judged.cases
        ]

    def test_order(self) -> None:
        mails: Files = {f"mails/{number:03}.eml": f"subject: x{number}\n" for number in range(120)}
        self.write(
            {
                "personal/b.sieve": 'if header :contains "subject" "x77" { discard; }',
                "personal/a.sieve": "discard;",
                "mains": "b\na\n",
                **mails,
            }
        )
        with mock.patch.object(module, "FEW_MAILS", 7):
            told = self.told(self.judged())
        wanted = [
            (f"{number:03}.eml", main, ["discard" if main == "a" or number == 77 else 'implicit "INBOX"'])
            for number in range(120)
            for main in "ba"
        ]
        self.assertEqual(told, wanted)
        self.assertEqual(told, self.told(self.judged(1)))

    def test_users(self) -> None:
        self.write(
            {
                "users/a/personal/m.sieve": "discard;",
                "users/b/personal/m.sieve": "keep;",
                "mains": "m",
                "mails/1.eml": "",
                "users/a/mails/1.eml": "",
            }
        )
        wanted = [("1.eml", "a/m", ["discard"]), ("1.eml", "b/m", ['store "INBOX"']), ("a/1.eml", "a/m", ["discard"])]
        self.assertEqual(self.told(self.judged()), wanted)

    def test_sessions_that_are_held(self) -> None:
        users = [f"u{number:02}" for number in range(12)]
        includes = 'require "include"; include :optional "own"; if header "subject" "x" { discard; }'
        self.write({f"users/{name}/personal/m.sieve": includes for name in users})
        # What is of one user alone: a script that is included, and a mail with an envelope, which others have under the same name.
        self.write({"users/u03/personal/own.sieve": 'redirect "a@b.example";', "users/u04/personal/other.sieve": ""})
        self.write({"users/u05/mails/2.eml": "", "users/u06/mails/2.eml": ""})
        self.write({"users/u05/mails/2.eml.envelope": "a@b c@d"})
        self.write({"mains": "m", "mails/1.eml": "subject: x\n", "global/g.sieve": ""})
        with mock.patch("subprocess.Popen", wraps=subprocess.Popen) as started:
            with mock.patch.object(Session, "edit", autospec=True, side_effect=Session.edit) as edited:
                judged = self.judged(1)
        # The version, the surveys, and the verdicts.
        self.assertEqual(started.call_count, 3)
        puts = [call.args[2][0] for call in edited.call_args_list if call.args[1] == "message"]
        self.assertEqual(puts, [b"1", b"2", b"3"])
        told = [(mail, main, lines) for mail, main, lines in self.told(judged)]
        wanted = [("1.eml", f"{name}/m", ["discard"]) for name in users]
        wanted[3] = ("1.eml", "u03/m", ['redirect "a@b.example"', "discard"])
        wanted += [(f"{name}/2.eml", f"{name}/m", ['implicit "INBOX"']) for name in ("u05", "u06")]
        self.assertEqual(told, wanted)
        reads = {it.user.name: it.verdict.reads for it in judged.cases}
        self.assertEqual(reads[b"u03"], ((("personal", b"m"), True), (("personal", b"own"), True)))
        self.assertEqual(reads[b"u04"], ((("personal", b"m"), True), (("personal", b"own"), False)))
        self.assertEqual([mail.name for mail in judged.bare], [b"1.eml", b"u06/2.eml"])

    def test_sessions_that_fail(self) -> None:
        self.write({"personal/a.sieve": "", "mains": "a", "mails/1.eml": ""})
        seats = Seats(self.program())
        with seats:
            with self.assertRaises(NoMemory), seats.taken(False) as first:
                raise NoMemory("no memory")
            with seats.taken(False) as second:
                self.assertEqual((second is first, first.session.child.poll()), (False, -9))
            with seats.taken(False) as third, seats.taken(False) as fourth:
                self.assertEqual((third is second, fourth is second), (True, False))
            with seats.taken(True) as fresh:
                self.assertNotIn(fresh, (third, fourth))
        held = (third, fourth, fresh)
        self.assertEqual([it.session.child.poll() for it in held], [0, 0, 0])
        with self.assertRaises(ZeroDivisionError), seats:
            with seats.taken(False) as last:
                pass
            raise ZeroDivisionError
        self.assertEqual((last.session.child.poll(), seats.idle), (-9, []))
        # One that is given back after the others ended has no use any more.
        with seats.taken(False) as late:
            pass
        self.assertEqual((late.session.child.poll(), seats.idle), (-9, []))

    def test_a_program_that_ends(self) -> None:
        self.write({"personal/a.sieve": "keep;", "mains": "a\n", "mails/1.eml": "x"})
        self.write({"p": '#!/bin/sh\n[ "$1" = --version ] || exit 5\n'})
        (self.room / "p").chmod(0o755)
        with self.assertRaisesRegex(Refusal, "ended with status 5") as caught:
            Judge(self.site(), Program(bytes(self.room / "p"), []), 2)
        self.assertEqual((caught.exception.status, CHILDREN.running), (3, set()))

    def test_batches(self) -> None:
        mail = Mail(b"", b"", 0, Envelope(), None, Expected({}, False))
        mails = [mail._replace(size=size) for size in [1] * 60 + [9 << 20, 1, 10 << 20, 10 << 20]]
        self.write({"personal/a.sieve": "", "mains": "a", "mails/1.eml": ""})
        site = self.site()
        site.users[0].mails[:] = mails
        self.assertEqual([len(batch.mails) for batch in batches_of(site, 4)], [50, 10, 1, 1, 1, 1])
        self.assertEqual([it for batch in batches_of(site, 4) for it in batch.mails], mails)
        # Each of the four jobs gets as many mails, in batches of at most 500.
        for count, batches in ((2_000, [500] * 4), (3_000, [375] * 8)):
            site.users[0].mails[:] = [mail] * count
            self.assertEqual([len(batch.mails) for batch in batches_of(site, 4)], batches)

    def test_envelopes(self) -> None:
        test = 'require "envelope"; if envelope "from" "{}@x" {{ if envelope "to" "{}@x" {{ discard; }} }}'
        mains = {"own": "ab", "field": "cd", "site": "ef", "both": "cf"}
        fields = "Return-Path: <c@x>\nDelivered-To: d@x\n\n"
        self.write({f"personal/{name}.sieve": test.format(*words) for name, words in mains.items()})
        self.write(
            {"mails/1.eml": fields, "mails/2.eml": fields, "mails/3.eml": "\n", "mails/4.eml": fields[:20] + "\n"}
        )
        self.write({"mails/1.eml.envelope": "a@x b@x", "envelope": "e@x f@x", "mains": "\n".join(mains)})
        judged = self.judged()
        found = [(mail, main) for mail, main, lines in self.told(judged) if lines == ["discard"]]
        self.assertEqual(found, [("1.eml", "own"), ("2.eml", "field"), ("3.eml", "site"), ("4.eml", "both")])
        self.assertEqual(judged.bare, [])
        (self.room / "envelope").unlink()
        self.write(
            {"personal/from.sieve": 'require "envelope"; if envelope "from" "c@x" { discard; }', "mains": "from"}
        )
        judged = self.judged()
        self.assertEqual([mail.name for mail in judged.bare], [b"3.eml", b"4.eml"])
        self.assertEqual([mail for mail, _, lines in self.told(judged) if lines == ["discard"]], ["2.eml", "4.eml"])

    def test_unjudged(self) -> None:
        self.write(
            {
                "personal/a.sieve": 'require "include"; if header "subject" "x" { include "b"; }',
                "personal/b.sieve": 'require ["fileinto", "index", "ihave"];',
                "personal/c.sieve": 'require "regex";',
            }
        )
        self.write({"mains": "a\n", "mails/1.eml": "x", "mails/2.eml": "", "mails/1.eml.expect": "[a]\ndiscard\n"})
        judged = self.judged()
        self.assertEqual(
            [(it.unjudged, it.agrees()) for it in judged.cases],
            [('personal "b" requires index, ihave', None), (None, None)],
        )
        self.assertEqual(
            judged.surveys[0].lacking, {("personal", b"b"): [b"index", b"ihave"], ("personal", b"c"): [b"regex"]}
        )

    def test_memory(self) -> None:
        refused = {1: "no memory to put", 4: "no memory to run", 9: "no memory to run"}
        self.write({f"mails/{number}.eml": refused.get(number, "") + "\n" for number in range(10)})
        self.write({"personal/a.sieve": "discard;", "personal/b.sieve": "keep;", "mains": "a\nboth: b a\n"})
        for few in (1, 3, 50):
            with self.subTest(few=few), mock.patch.object(module, "FEW_MAILS", few):
                judged = self.judged(2)
                verdicts = {"a": ["discard"], "both": ["discard"]}
                wanted = [
                    (f"{number}.eml", main, [] if number in refused else verdicts[main])
                    for number in range(10)
                    for main in verdicts
                ]
                self.assertEqual(self.told(judged), wanted)
                unjudged = {it.mail.name: it.unjudged for it in judged.cases if it.unjudged}
                self.assertEqual(unjudged, {b"%d.eml" % number: NO_MEMORY for number in refused})
                self.assertEqual(len(judged.bare), 7)

    def test_memory_for_scripts(self) -> None:
        self.write({"personal/a.sieve": "", "mains": "a\n", "mails/1.eml": ""})
        refuses = mock.patch.object(Session, "line", return_value=b"no no-memory")
        with refuses, self.assertRaisesRegex(
            Refusal, "the script .*a.sieve.* is refused: the program has no memory for it"
        ):
            self.judged()

    def test_a_mail_that_is_gone(self) -> None:
        self.write({"personal/a.sieve": "keep;", "mains": "a\n", "mails/1.eml": "x"})
        site = self.site()
        (self.room / "mails/1.eml").unlink()
        with self.assertRaisesRegex(Refusal, "No such file or directory"):
            Judge(site, self.program(), 2).all()


class Told(unittest.TestCase):
    """How many mails are judged until now."""

    def test_progress(self) -> None:
        for output, seconds, wanted in [
            (Terminal(), 2, "\r3 of 10 mails\r10 of 10 mails\n"),
            (Terminal(), 0.5, ""),
            (io.StringIO(), 2, ""),
        ]:
            with self.subTest(seconds=seconds), mock.patch("sys.stderr", output):
                progress = module.Progress(10)
                progress.began -= seconds
                progress.add(3)
                progress.add(7)
                progress.end()
                self.assertEqual(output.getvalue(), wanted)
