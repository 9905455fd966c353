"""Questions to the program: the texts that ask, and what is known by the answers."""

import itertools
import re
from typing import Dict, List, Optional
from unittest import mock

from sievebench_site.chains import Bench
from sievebench_site.changes import commands
from sievebench_site.mains import Main
from sievebench_site.program import Line, Place, Verdict
from sievebench_site.reach import Reach, marked, marks_in, own_box, places_of, with_end

from .room import Room

TEXT = b'require "fileinto"; if\ntrue { keep; }\nelsif not\nfalse { stop; }'
MAIN, PART = ("personal", b"main"), ("personal", b"part")
SCRIPTS = {
    MAIN: b'require "include";\nif header "subject" "k1" { include "part"; }\nelsif header "subject" "k2" { stop; }\nkeep;',
    PART: b'discard;\nif header "subject" "fails" { redirect ""; }',
}


class Questions(Room):
    """What stands before commands, and where runs come by it."""

    def test_marks(self) -> None:
        asked = b' fileinto :copy :flags "%d" "b"; '
        fronts = {
            b"keep; stop;": b' require ["fileinto", "copy", "imap4flags"];',
            b'require "copy";keep; stop;': b' require ["fileinto", "imap4flags"];',
            b'require ["imap4flags", "copy", "fileinto"]; keep; stop;': b"",
        }
        for text, front in fronts.items():
            with self.subTest(text=text):
                end = text.find(b";") + 1 if text.startswith(b"require") else 0
                first, second = [it.start() for it in commands(text) if it.acts()]
                wanted = (
                    text[:end] + front + text[end:first] + asked % 3 + text[first:second] + asked % 0 + text[second:]
                )
                self.assertEqual(marked(text, [(first, 3), (second, 0)], b"b"), wanted)

    def test_marks_of_verdicts(self) -> None:
        store, other = b'store "b" "3" "0"', b'store "a" "7"'
        rows: Dict[Optional[str], List[bytes]] = {
            '"3" "0"': [other, store, b'implicit "INBOX"'],
            "": [other],
            None: [store, b'error personal "main" line 1 bad-address'],
        }
        for wanted, lines in rows.items():
            with self.subTest(lines=lines):
                found = marks_in(Verdict(tuple(map(Line, lines)), ()), b"b")
                self.assertEqual(found, None if wanted is None else wanted.encode().split())

    def test_ends(self) -> None:
        found = {it.name(): with_end(TEXT, it) for it in commands(TEXT)}
        lines = b"\n" * 4
        keep, line = found[b"keep"]
        self.assertEqual(keep, TEXT.replace(b"keep;", lines + b'redirect "";\nkeep;'))
        self.assertEqual((line, keep.split(b"\n")[line - 1]), (6, b'redirect "";'))
        branch, line = found[b"elsif"]
        self.assertEqual(branch, TEXT.replace(b"not\nfalse {", b"true\n {" + lines + b'redirect "";\n'))
        self.assertEqual((line, branch.split(b"\n")[line - 1]), (8, b'redirect "";'))

    def test_own_box(self) -> None:
        self.assertEqual(own_box([b"a@b.example"]), b"reached.invalid")
        self.assertEqual(own_box([b"a@Reached.Invalid", b"xreached.invalid"]), b"xxreached.invalid")

    def test_places(self) -> None:
        # A letter stands before each place: a small one where a run comes that came to the place of the large one.
        rows = [
            b"<A>keep; <a>discard; <a>stop; <B>keep; <b>keep;",
            b'require "include"; <A>include "x"; <B>keep; <b>return; <C>keep;',
            b"<A>if true {<B> <b>keep;} <a>if true {<C> <c>keep;} elsif true {<D>} else {<E> <e>stop;} <F>keep;",
            b"<A>if true {<B> <b>if true {<C> <c>if true {<D> <d>stop;} <E>keep;} <F>keep;} <G>if true {<H>} <g>keep;",
        ]
        for row in rows:
            with self.subTest(row=row):
                cut = re.split(rb"<(.)>", row)
                ends = list(itertools.accumulate(len(it) for it in cut[::2]))
                found = list(zip(cut[1::2], ends))
                firsts = {letter: at for letter, at in found if letter.isupper()}
                wanted = {at: firsts[letter.upper()] for letter, at in found}
                self.assertEqual(places_of(commands(b"".join(cut[::2]))), wanted)

    def test_runs(self) -> None:
        places = {script: places_of(commands(text)) for script, text in SCRIPTS.items()}
        main, part = SCRIPTS[MAIN], SCRIPTS[PART]
        start, first, second, last = (main.index(it) for it in (b"if header", b" include", b" stop", b"keep"))
        wanted: Dict[bytes, Optional[Dict[Place, List[int]]]] = {
            b"k1": {
                MAIN: [start, first, first + 1, last],
                PART: [0, part.index(b"if header")],
            },
            b"k2": {MAIN: [start, second, second + 1], PART: []},
            b"k3": {MAIN: [start, last], PART: []},
            b"k1 fails": None,
        }
        with self.program().session() as session:
            bench = Bench(session, {})
            bench.become(SCRIPTS)
            for name in wanted:
                session.edit("message", [name], b"Subject: " + name, "a mail")
            reach = Reach(bench, list(wanted), Main((b"main",), (), None, (MAIN,)))
            # All places of both scripts are asked for at once, or so many at a time.
            whole = sum(len(set(it.values())) for it in places.values())
            for most, reports in ((1_000, 1), (whole - 1, 2), (1, whole)):
                with self.subTest(most=most), mock.patch("sievebench_site.reach.AT_ONCE", most):
                    with mock.patch.object(session, "report", wraps=session.report) as report:
                        told = reach.came(places)
                    self.assertEqual(report.call_count, reports)
                    found = {
                        name: None if came is None else {script: sorted(it) for script, it in came.items()}
                        for name, came in told.items()
                    }
                    self.assertEqual(found, wanted)
            self.assertEqual(bench.scripts, SCRIPTS)
