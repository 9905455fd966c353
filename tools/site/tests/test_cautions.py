"""What a server may do otherwise, and what a site lacks."""

from typing import List, Optional, Tuple

from sievebench_site.cautions import BOXES, CLOCK, of_scripts, of_store, why_no_answer
from sievebench_site.envelopes import Envelope
from sievebench_site.folder import Site, Wanted
from sievebench_site.listed import Listed
from sievebench_site.mains import Script

from .room import Files, Room

ADA = Envelope(b"a@b.example", b"c@d.example")


def site(mailboxes: bytes = b"", clock: bool = False) -> Site:
    """A site with these mailboxes."""
    return Site(
        Wanted(b"site", [], [], [], None),
        [],
        mailboxes,
        [b"1", b"+0000"] if clock else None,
        [],
        [],
        [],
        Listed(b"site"),
    )


class Cautions(Room):
    """Each by itself."""

    def test_mails_that_pigeonhole_does_not_answer(self) -> None:
        # As sieve-test -e of Pigeonhole 0.5.19 answers or not.
        rows = [
            (b"", False),
            (b"Auto-Submitted: no", False),
            (b"Auto-Submitted: No", False),
            (b"Auto-Submitted: no (really)", True),
            (b"Auto-Submitted: auto-generated", True),
            (b"Auto-Submitted: auto-replied; x=y", True),
            (b"Auto-Submitted:", True),
            (b"List-Id: <x.y>", True),
            (b"List-Post: <mailto:x@y>", True),
            (b"List-Unsubscribe: <mailto:x@y>", True),
            (b"List-Help: <mailto:x@y>", True),
            (b"Precedence: bulk", True),
            (b"Precedence: junk", True),
            (b"Precedence: LIST", True),
            (b"Precedence: first-class", False),
            (b"X-Auto-Response-Suppress: OOF", True),
            (b"X-Auto-Response-Suppress: All", True),
            (b"X-Auto-Response-Suppress: DR, OOF", True),
            (b"X-Spam-Flag: YES", False),
        ]
        for field, wanted in rows:
            with self.subTest(field=field):
                found = why_no_answer(ADA, b"From: a@b.example\n" + field + b"\nSubject: one\n\nList-Id: no\n")
                self.assertEqual(found is not None, wanted)
                self.assertTrue(found is None or found.startswith('it has the field "'))

    def test_senders_that_are_not_answered(self) -> None:
        rows: List[Tuple[Optional[bytes], Optional[str]]] = [
            (b"", "its sender is empty"),
            (None, None),
            (b"a@b.example", None),
            (b"MAILER-DAEMON@b.example", 'its sender "MAILER-DAEMON@b.example" is a program'),
            (b"owner-x@b.example", 'its sender "owner-x@b.example" is a program'),
            (b"x-request@b.example", 'its sender "x-request@b.example" is a program'),
        ]
        for sender, wanted in rows:
            with self.subTest(sender=sender):
                self.assertEqual(why_no_answer(Envelope(sender, b"c@d.example"), b"A: b\n\n"), wanted)

    def test_stores(self) -> None:
        rows = [
            (b"Work\r\nHome", b"Work", False),
            (b"Work\r\nHome", b"Home", False),
            (b"Work\r\nHome", b"work", True),
            (b"Work\r\nHome", b"inbox", False),
            (b"", b"Gone", False),
        ]
        for mailboxes, name, wanted in rows:
            with self.subTest(name=name):
                for use, unless in ((False, ""), (True, "unless a mailbox has the special use, ")):
                    found = list(of_store(site(mailboxes), b"m.sieve", 3, name, use))
                    text = f'No line of mailboxes is "{name.decode()}", and nothing makes it: {unless}the server keeps the mail in INBOX.'
                    told = [(it.line, it.kind, it.text) for it in found]
                    self.assertEqual(told, [(3, "no-mailbox", text)] if wanted else [])

    def test_what_is_asked_for(self) -> None:
        text = b'# currentdate\nif currentdate "year" "1" {}\nif mailboxexists "currentdate" {}\n'
        script = Script("personal", b"main", b"main.sieve", text)
        rows = [
            (site(), [(2, CLOCK.text), (3, BOXES.text)]),
            (site(clock=True), [(3, BOXES.text)]),
            (site(b"A"), [(2, CLOCK.text)]),
            (site(b"A", True), []),
        ]
        for made, wanted in rows:
            self.assertEqual([(it.line, it.text) for it in of_scripts(made, [script])], wanted)

    def test_answers_that_are_expected(self) -> None:
        self.write({"personal/main.sieve": 'require "vacation"; keep;', "mains": "main\n", "with": "pigeonhole\n"})
        answer = '[main]\n# away\nvacation "away"\nimplicit "INBOX"\n'
        mails = {
            "list": "List-Id: <a.b>",
            "person": "From: a@b.example",
            "bounce": "From: a@b.example",
            "other": "List-Id: <a.b>",
        }
        self.write({f"mails/{name}.eml": f"{field}\n\n" for name, field in mails.items()})
        self.write({f"mails/{name}.eml.expect": answer for name in ("list", "person", "bounce")})
        self.write({"mails/bounce.eml.envelope": "<> c@d.example", "envelope": "a@b.example c@d.example"})
        self.write({"mails/other.eml.expect": "[main]\ndiscard\n"})
        said = "no-answer: The server doesn't answer this mail:"
        wanted = [
            f"./mails/bounce.eml.expect:3: {said} its sender is empty.",
            f'./mails/list.eml.expect:3: {said} it has the field "list-id: <a.b>".',
        ]
        self.assertEqual(self.ran("lint", "."), (0, wanted, ""))
        self.write({"personal/main.sieve": "keep;"})
        self.assertEqual(self.ran("lint", "."), (0, [], ""))

    def test_answers_of_users(self) -> None:
        files: Files = {
            "users/ada/personal/main.sieve": 'require "vacation"; keep;',
            "mains": "main\n",
            "with": "vacation\n",
        }
        self.write({**files, "users/ada/mails/1.eml": "Precedence: bulk\n\n"})
        self.write({"users/ada/mails/1.eml.expect/ada": '[ada/main]\nvacation "away"\n'})
        self.assertEqual(
            [line.split(": ")[0] for line in self.ran("lint", ".")[1]], ["./users/ada/mails/1.eml.expect/ada:2"]
        )

    def test_in_an_answer(self) -> None:
        script = 'require "fileinto"; fileinto "Gone"; if false { currentdate "year" "1"; }'
        self.write({"personal/main.sieve": script, "mains": "main\n", "with": "pigeonhole\n", "mailboxes": "Work"})
        self.write({"mails/1.eml": "", "envelope": '"" ""'})
        status, told, _ = self.ran("why", ".", "1.eml")
        wanted = [
            '    store "Gone"  (./personal/main.sieve:1)',
            "  what a server may do otherwise:",
            '    ./personal/main.sieve:1: no-mailbox: No line of mailboxes is "Gone", and nothing makes it: the server keeps the mail in INBOX.',
            f"    ./personal/main.sieve:1: no-clock: {CLOCK.text}",
            "  scripts that are looked up:",
        ]
        self.assertEqual((status, told[2:7]), (0, wanted))
