"""The remarks about documents, by the fake program and a site's files."""

import os
from typing import Dict, List, Optional, Tuple

from sievebench_site.ends import CHILDREN, Refusal
from sievebench_site.lsp_place import Places, path_of
from sievebench_site.lsp_remarks import DOUBTFUL, SAID, WRONG
from sievebench_site.lsp_source import SESSIONS, Document, Source
from sievebench_site.lsp_text import UTF16, Text
from sievebench_site.names import SETS
from sievebench_site.program import Program

from .room import FAKE, Files, Room

# The fake program tells of each include that it stands on the first line.
INCLUDE = 'require "include"; include "part";\n'
SITE: Files = {"site/mains": "main\n", "site/personal/main.sieve": INCLUDE, "site/personal/part.sieve": "keep;"}
NO_COMMAND = "There is no such command or test."
# A remark: its octets, what it is called and says, and how grave it is.
Told = Tuple[bytes, str, str, int]


class Remarks(Room):
    """The remarks about open documents."""

    def setUp(self) -> None:
        super().setUp()
        self.begin(None)

    def begin(self, given: Optional[bytes], names: List[bytes] = SETS[b"pigeonhole"]) -> None:
        """Begins anew with a site that is given, and names for scripts of no site."""
        self.source = Source(lambda asked: Program(os.fsencode(FAKE), asked), names, Places(given))
        self.addCleanup(self.source.close)

    def document(self, path: str, text: str) -> Document:
        """A document."""
        uri = path if ":" in path else f"file://{self.room}/{path}"
        return Document(uri, 1, Text(text, UTF16), path_of(uri))

    def told(self, path: str, text: str, others: Optional[Dict[str, str]] = None) -> List[Told]:
        """The remarks about a text, beside others that are open."""
        document = self.document(path, text)
        found = self.source.remarks(document, [self.document(*it) for it in (others or {}).items()])
        return [(document.text.octets[it.start : it.end], it.kind, it.text, it.severity) for it in found]

    def test_a_fault(self) -> None:
        self.write(SITE)
        for path in (
            "site/personal/main.sieve",
            "site/personal/new.sieve",
            "site/global/new.sieve",
            "alone.sieve",
            "untitled:1",
        ):
            with self.subTest(path=path):
                self.assertEqual(
                    self.told(path, "keep;\n  kep; # so\n"), [(b"kep", "unknown-command", NO_COMMAND, WRONG)]
                )
                self.assertEqual(self.told(path, "keep;"), [])

    def test_includes(self) -> None:
        self.write(SITE)
        missing = [(INCLUDE.strip().encode(), "missing-script", 'There is no script personal "part".', WRONG)]
        invalid = [(INCLUDE.strip().encode(), "invalid-script", 'The script personal "part" has a fault.', WRONG)]
        recursive = [(INCLUDE.strip().encode(), "recursive-include", 'The script personal "part" runs already.', WRONG)]
        path, part = "site/personal/main.sieve", "site/personal/part.sieve"
        self.assertEqual(self.told(path, INCLUDE), [])
        self.assertEqual(self.told(path, INCLUDE, {part: "kep;"}), invalid)
        self.assertEqual(self.told(path, INCLUDE, {part: 'require "include"; include "main";'}), recursive)
        self.assertEqual(self.told(path, INCLUDE), [])
        self.write({part: "kep;"})
        self.assertEqual(self.told(path, INCLUDE), invalid)
        self.assertEqual(self.told(path, INCLUDE, {part: "keep;"}), [])
        os.unlink(self.room / part)
        self.assertEqual(self.told(path, INCLUDE), missing)
        self.assertEqual(self.told(path, INCLUDE, {part: "keep;"}), [])
        self.assertEqual(self.told(path, INCLUDE, {"elsewhere/personal/part.sieve": "keep;"}), missing)

    def test_scripts_of_users_and_of_everybody(self) -> None:
        self.write({"site/mains": "", "site/users/ada/personal/a.sieve": "", "site/users/eva/personal/e.sieve": ""})
        self.write({"site/global/g.sieve": ""})
        rows = {"users/ada/personal/x": ["e"], "users/eva/personal/x": ["a"], "global/x": ["e"]}
        for path, missing in rows.items():
            found = self.told(f"site/{path}.sieve", 'require "include"; include "a"; include "e"; include :global "g";')
            wanted = [f'There is no script personal "{name}".' for name in missing]
            self.assertEqual([it[2] for it in found], wanted, path)

    def test_what_is_required(self) -> None:
        self.write({**SITE, "site/with": "mailbox\n"})
        path, asks = "site/personal/main.sieve", 'require ["fileinto",\n"vacation"];'
        add = "requires vacation: add it to the file with"
        self.assertEqual(self.told(path, asks), [(b'"vacation"', "not judged", add, DOUBTFUL)])
        self.assertEqual(self.told("alone.sieve", asks), [])
        self.assertEqual(self.told("site/drafts/old/x.sieve", asks)[0][1], "not judged")
        self.write({"site/with": "vacation\n"})
        self.assertEqual(self.told(path, asks), [])
        self.write({"site/unjudged": "personal/main.sieve it waits\n"})
        self.assertEqual(self.told(path, 'require "regex";'), [(b'require "regex";', "skipped", "it waits", SAID)])
        here = "The script requires regex: it isn't known here."
        self.assertEqual(self.told("alone.sieve", 'require "regex";'), [(b'"regex"', "not judged", here, DOUBTFUL)])
        wrong = (b'"regexx"', "unknown-capability", "regexx: no such extension; did you mean regex?", WRONG)
        for at in (path, "alone.sieve"):
            self.assertEqual(self.told(at, 'require "regexx";'), [wrong])

    def test_names_for_scripts_of_no_site(self) -> None:
        self.begin(None, [])
        self.assertEqual(self.told("alone.sieve", 'require "vacation";')[0][1], "not judged")

    def test_what_the_site_lacks(self) -> None:
        self.write({**SITE, "site/with": "mailbox\n"})
        found = self.told("site/personal/main.sieve", 'require "mailbox"; if mailboxexists "A" {}')
        self.assertEqual([(it[1], it[3]) for it in found], [("no-mailboxes", SAID)])

    def test_a_site_that_cannot_be_read(self) -> None:
        self.write({**SITE, "site/mains": "gone\n"})
        first, second = self.told("site/personal/main.sieve", "\nkep;")
        self.assertEqual(
            (first[1], first[3], second), ("refused", DOUBTFUL, (b"kep", "unknown-command", NO_COMMAND, WRONG))
        )
        self.assertIn('no main script "gone": there is no ', first[2])
        self.write({"site/mains": "main\n", "site/with": "bodi\n"})
        (first,) = self.told("site/personal/main.sieve", 'require "vacation";')
        self.assertIn('"bodi" can\'t be asked for: did you mean body?', first[2])
        self.write({"site/with": ""})
        self.assertEqual(self.told("site/personal/main.sieve", "keep;"), [])

    def test_a_site_that_is_given(self) -> None:
        self.write({"site/personal/main.sieve": "", "site/personal/part.sieve": ""})
        self.assertEqual(self.told("site/personal/main.sieve", INCLUDE), [])
        self.assertEqual(self.told("site/personal/main.sieve", INCLUDE.replace("part", "gone")), [])
        self.begin(os.fsencode(self.room / "site"))
        self.assertEqual(self.told("site/personal/main.sieve", INCLUDE), [])
        self.assertEqual(self.told("site/personal/main.sieve", INCLUDE.replace("part", "gone"))[0][1], "missing-script")

    def test_files_that_are_not_utf_8(self) -> None:
        self.write({**SITE, "site/personal/part.sieve": b"# \xff\xfe\nkep;", "site/personal/\udcff.sieve": b"\xff"})
        self.assertEqual(self.told("site/personal/main.sieve", INCLUDE)[0][1], "invalid-script")
        self.assertEqual(self.told("site/personal/part.sieve", "# \ud800 \U0001f600\nkep;")[0][0], b"kep")

    def test_sessions_are_held(self) -> None:
        self.write({f"{number}/mains": "" for number in range(SESSIONS + 3)})
        self.write({f"{number}/personal/main.sieve": "" for number in range(SESSIONS + 3)})
        before = len(CHILDREN.running)
        for number in [*range(SESSIONS + 3), 0, 1]:
            self.assertEqual(self.told(f"{number}/personal/main.sieve", "kep;")[0][0], b"kep")
        self.assertEqual(len(CHILDREN.running) - before, SESSIONS)
        self.source.close()
        self.assertEqual(len(CHILDREN.running), before)
        self.assertEqual(self.told("0/personal/main.sieve", "keep;"), [])

    def test_a_session_that_ends(self) -> None:
        self.write(SITE)
        self.assertEqual(self.told("site/personal/main.sieve", "keep;"), [])
        self.source.stop()
        with self.assertRaises(Refusal) as raised:
            self.told("site/personal/main.sieve", "kep;")
        self.assertEqual(raised.exception.status, 3)
        self.assertEqual(self.told("site/personal/main.sieve", "kep;")[0][0], b"kep")

    def test_scripts_to_include(self) -> None:
        self.write({**SITE, "site/global/g.sieve": "", "site/before/10.sieve": ""})
        main = self.document("site/personal/main.sieve", "")
        others = [
            self.document(f"site/{name}.sieve", "")
            for name in ("personal/new", "global/n", "before/20", "personal/main")
        ]
        others.append(self.document("elsewhere/personal/x.sieve", ""))
        self.assertEqual(self.source.beside(main, others, "personal"), [b"part", b"new"])
        self.assertEqual(self.source.beside(main, others, "global"), [b"g", b"n"])
        self.assertEqual(self.source.beside(self.document("alone.sieve", ""), others, "personal"), [])

    def test_what_may_be_required(self) -> None:
        self.write({**SITE, "site/with": "vacation\nlines\n"})
        known = self.source.known(self.document("site/personal/main.sieve", ""))
        always = {"fileinto", "envelope", "variables", "imap4flags", "include", "copy"}
        comparators = {"comparator-i;octet", "comparator-i;ascii-casemap"}
        self.assertEqual(known, {"vacation", *always, *comparators})
        self.assertIn("body", self.source.known(self.document("untitled:1", "")))
