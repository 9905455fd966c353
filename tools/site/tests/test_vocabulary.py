"""The table of words by itself. `tools/checks` compares it with the program."""

import re
import unittest

from sievebench_site.capabilities import NEEDS
from sievebench_site.extensions import OURS
from sievebench_site.names import ALWAYS, NAMES
from sievebench_site.vocabulary import CAPABILITIES, COMMANDS, COMPARATORS, PLAIN_COMPARATORS, TESTS, WORDS

SOURCE = re.compile(r"RFC [0-9]{4}(, section [0-9]+(\.[0-9]+)*)?")


class Table(unittest.TestCase):
    """Words, tags and capabilities."""

    def test_capabilities_are_those_that_may_be_known(self) -> None:
        names = {it.decode() for it in (*ALWAYS, *NAMES) if it not in OURS}
        self.assertEqual(set(CAPABILITIES), names)

    def test_needs_are_capabilities(self) -> None:
        for word in WORDS.values():
            needs = {*word.needs, *(tag.needs for tag in word.tags() if tag.needs)}
            self.assertEqual(needs - set(CAPABILITIES), set(), word.name)

    def test_words_of_the_other_table(self) -> None:
        """A word that a capability alone gives needs it here."""
        for word in WORDS.values():
            names = {it.encode() for it in word.needs}
            if word.name.encode() in NEEDS:
                self.assertTrue(names.intersection(NEEDS[word.name.encode()]), word.name)
            for tag in word.tags():
                for name in NEEDS.get(tag.name.encode(), ()) if tag.needs else ():
                    self.assertIn(tag.needs.encode(), NEEDS[tag.name.encode()], f"{word.name} {tag.name} {name!r}")

    def test_names(self) -> None:
        self.assertEqual(len(WORDS), len(COMMANDS) + len(TESTS))
        for word in WORDS.values():
            self.assertRegex(word.name, "^[a-z]+$")
            names = [tag.name for tag in word.tags()]
            self.assertEqual(len(names), len(set(names)), word.name)
            for name in names:
                self.assertRegex(name, "^:[a-z]+$")

    def test_where_words_are_defined(self) -> None:
        told = [(it.source, it.says) for it in (*CAPABILITIES.values(), *COMPARATORS.values())]
        told += [(it.source, it.says) for it in WORDS.values()]
        told += [(tag.source, tag.says) for word in WORDS.values() for tag in word.tags()]
        for source, says in told:
            self.assertRegex(source, f"^{SOURCE.pattern}$")
            self.assertRegex(says, r"^[A-Z$].*[^.]\.$")

    def test_forms(self) -> None:
        """As RFC 5228 has them: sections 4.1, 3.1 and 5.2; and RFC 5232, section 3.1."""
        copies = "[:flags flags] [:copy] [:create] [:specialuse use]"
        self.assertEqual(WORDS["fileinto"].usage(), f"fileinto {copies} mailbox")
        self.assertEqual(WORDS["if"].usage(), "if test { .. }")
        self.assertEqual(WORDS["else"].usage(), "else { .. }")
        self.assertEqual(WORDS["allof"].usage(), "allof (test, ..)")
        self.assertEqual(WORDS["setflag"].usage(), "setflag [variable] flags")
        self.assertEqual(WORDS["size"].usage(), "size [:over | :under] limit")

    def test_comparators(self) -> None:
        """RFC 5228, section 2.7.3: both are there without a require."""
        self.assertEqual(set(PLAIN_COMPARATORS), {"i;octet", "i;ascii-casemap"})
        self.assertTrue(set(PLAIN_COMPARATORS) < set(COMPARATORS))
