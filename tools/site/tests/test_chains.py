"""Scripts that run one after another."""

from typing import Dict, List, Tuple

from sievebench_site import chains
from sievebench_site.chains import Bench, chained, joined, stores_joined
from sievebench_site.program import Line, Verdict

from .room import Room

FLAGGED = 'require "imap4flags"; addflag "$X";'
KEEPS = 'require "imap4flags"; keep :flags "$%s";'
ADDS_Y = 'require "imap4flags"; addflag "$Y";'
HAS_Y = 'require ["imap4flags", "fileinto"]; if hasflag "$Y" { fileinto "HAD"; }'
HAS_X = 'require ["imap4flags", "fileinto"]; if hasflag "$X" { fileinto "HAD"; }'
ROWS: List[Tuple[str, List[str], List[str]]] = [
    ("the implicit keep goes on", ["", "discard;"], ["discard"]),
    ("a keep goes on", ["keep;", "discard;"], ["discard"]),
    ("so it does after stop", ["keep; stop; discard;", 'require "fileinto"; fileinto "A";'], ['store "A"']),
    ("a discard ends", ["discard;", "keep;"], ["discard"]),
    ("a redirect ends", ['redirect "a@b";', "keep;"], ['redirect "a@b"']),
    ("a store ends", ['require "fileinto"; fileinto "INBOX";', "discard;"], ['store "INBOX"']),
    (
        "a store and a keep go on",
        ['require "fileinto"; fileinto "INBOX"; keep;', "discard;"],
        ['store "INBOX"', "discard"],
    ),
    ("a copy goes on", ['require ["fileinto", "copy"]; fileinto :copy "A";', "discard;"], ['store "A"', "discard"]),
    ("a store again is one", ['require ["fileinto", "copy"]; fileinto :copy "INBOX";', "keep;"], ['store "INBOX"']),
    ("flags go on", [FLAGGED, HAS_X], ['store "HAD" "$X"']),
    ("over a script that names none", [FLAGGED, "keep;", HAS_X], ['store "HAD" "$X"']),
    ("into the last keep", [FLAGGED, ""], ['implicit "INBOX" "$X"']),
    ("flags after a keep go on", ['require "imap4flags"; keep; addflag "$X";', HAS_X], ['store "HAD" "$X"']),
    ("flags of a keep don't", [KEEPS % "Y", HAS_Y], ['implicit "INBOX" "$Y"']),
    ("a keep has the flags of its time", ["keep;", FLAGGED], ['implicit "INBOX"']),
    ("so it has over a script", [FLAGGED + " keep;", ADDS_Y, ADDS_Y], ['implicit "INBOX" "$X"']),
    ("another keep has its own", [FLAGGED + " keep;", ADDS_Y + " keep;"], ['store "INBOX" "$X" "$Y"']),
    ("the last keep counts", [KEEPS % "X", KEEPS % "Y", FLAGGED], ['implicit "INBOX" "$Y"']),
    ("a discard after a keep", [FLAGGED + "keep;", "discard;"], ["discard"]),
    (
        "an error after a keep leaves no flags",
        [FLAGGED + "keep;", 'redirect "";'],
        ['implicit "INBOX"', 'error personal "1" line 1 bad-address'],
    ),
    ("removed flags don't", [FLAGGED, 'require "imap4flags"; removeflag "$X";', HAS_X], ['implicit "INBOX"']),
    (
        "an error ends",
        ['require "fileinto"; fileinto "";', "discard;"],
        ['implicit "INBOX"', 'error personal "0" line 1 bad-mailbox'],
    ),
    (
        "an error of the last drops its own",
        ['require ["fileinto", "copy"]; fileinto :copy "A";', '\nredirect "b@c";\nredirect "";'],
        ['store "A"', 'implicit "INBOX"', 'error personal "1" line 3 bad-address'],
    ),
    ("a fault ends", ["kep;", "discard;"], ['implicit "INBOX"', 'error personal "0" line 0 invalid-script']),
]


class Chains(Room):
    """What several scripts do with mails."""

    def told(self, scripts: List[str], mails: Dict[bytes, bytes]) -> Dict[bytes, Verdict]:
        """The verdict on each mail."""
        texts = {("personal", str(at).encode()): text.encode() for at, text in enumerate(scripts)}
        with self.program().session() as session:
            for place, text in texts.items():
                session.script(place, text, "a script")
            for name, octets in mails.items():
                session.edit("message", [name], octets, "a mail")
            return chained(Bench(session, texts), tuple(texts), mails)

    def test_rows(self) -> None:
        for title, scripts, wanted in ROWS:
            with self.subTest(title):
                verdict = self.told(scripts, {b"1": b""})[b"1"]
                self.assertEqual([line.text.decode() for line in verdict.lines], wanted)

    def test_mails_part(self) -> None:
        first = 'require "imap4flags"; if header :contains "subject" "x" { addflag "$X"; } if header :contains "subject" "d" { discard; }'
        mails = {b"1": b"x", b"2": b"y", b"3": b"d", b"4": b"x"}
        told = self.told([first, HAS_X], mails)
        found = {name: [line.text for line in verdict.lines] for name, verdict in told.items()}
        store = [b'store "HAD" "$X"']
        self.assertEqual(found, {b"1": store, b"2": [b'implicit "INBOX"'], b"3": [b"discard"], b"4": store})
        self.assertEqual([place for place, _ in told[b"1"].reads], [("personal", b"0"), ("personal", b"1")])
        self.assertEqual(told[b"1"].lines[0].at, (("personal", b"1"), 1))

    def test_includes(self) -> None:
        texts = ['require "include"; include "2"; stop;', HAS_X, "keep; " + FLAGGED]
        with self.program().session() as session:
            scripts = {("personal", str(at).encode()): text.encode() for at, text in enumerate(texts)}
            for place, text in scripts.items():
                session.script(place, text, "a script")
            session.edit("message", [b"1"], b"", "a mail")
            bench = Bench(session, scripts)
            told = chained(bench, (("personal", b"0"), ("personal", b"1")), [b"1"])
            self.assertEqual([line.text for line in told[b"1"].lines], [b'store "HAD" "$X"'])
            # The texts are as they were, and so is the mailbox.
            self.assertEqual(bench.run(("personal", b"2"))[b"1"].lines[0].text, b'store "INBOX"')

    def test_joined(self) -> None:
        rows: List[Tuple[List[bytes], List[bytes], List[bytes]]] = [
            ([b'store "A" "x"'], [b'store "A" "X" "y" create'], [b'store "A" "x" "y" create']),
            ([b'store "A"'], [b'store "B"'], [b'store "A"', b'store "B"']),
            (
                [b'redirect "a"', b"discard"],
                [b"discard", b'redirect "a"', b'redirect "b"'],
                [b'redirect "a"', b"discard", b'redirect "b"'],
            ),
            ([b'vacation "a"'], [b'vacation "b" days 7', b'reject "c"'], [b'vacation "a"', b'reject "c"']),
            ([], [b'implicit "A"', b'error personal "a" line 1 x'], [b'implicit "A"', b'error personal "a" line 1 x']),
        ]
        for before, after, wanted in rows:
            with self.subTest(after=after):
                one, other = (Verdict(tuple(Line(text) for text in texts), ()) for texts in (before, after))
                self.assertEqual([line.text for line in joined(one, other).lines], wanted)
        entered = (("personal", b"0"), 2)
        one, other = Verdict((Line(b'store "A"', entered),), ()), Verdict(
            (Line(b'store "A"', (("personal", b"1"), 1)),), ()
        )
        self.assertEqual(joined(one, other).lines[0].at, entered)
        first, second = b'store "A" "x" special-use "\\\\Junk"', b'store "A" create special-use "\\\\Trash"'
        self.assertEqual(stores_joined(first, second), b'store "A" "x" create special-use "\\\\Junk"')

    def test_kept_has_no_name(self) -> None:
        # A store into it by a script is an error, since it has an octet that no mailbox may have.
        self.assertTrue(any(octet < 32 for octet in chains.KEPT))
