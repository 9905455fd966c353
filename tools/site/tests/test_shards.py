"""Parts of a site that are judged apart: which verdicts each has, and what is made of what all of them left."""

import json
import os
import random
import re
import xml.etree.ElementTree as tree
from typing import Dict, List, Optional, Tuple

from sievebench_site import check
from sievebench_site.checked import Checked, Found, found_in
from sievebench_site.ends import Refusal
from sievebench_site.folder import Site, Wanted, site_of, take_mails
from sievebench_site.judge import Judge
from sievebench_site.mails import mail_path
from sievebench_site.merge import Part, merged
from sievebench_site.options import FORMS
from sievebench_site.program import Program
from sievebench_site.shards import Shard, digest_of
from sievebench_site.shown import Look, octets_named

from .room import MAIL, Files, Room

VERSION = "1.2.3"
# The part of a mail of an owner, by sha256sum and bc: the first 16 hexadecimal digits of the hash of both, with an octet 0 between them.
PARTS: List[Tuple[bytes, bytes, Dict[int, int]]] = [
    (b"ada", b"1.eml", {3: 3, 4: 3, 7: 1}),
    (b"bob", b"1.eml", {3: 1, 4: 4, 7: 1}),
    (b"ada", b"ada/2.eml", {3: 3, 4: 1, 7: 2}),
    (b"eva", b"02-offer.eml", {3: 2, 4: 1, 7: 3}),
]
SCRIPTS = [
    "discard;",
    "keep;",
    'require "fileinto";\nfileinto "A";',
    'require "fileinto"; fileinto "\u00fc"; keep;',
    'if header "subject" "x" { discard; }\nkeep;',
    'require "include"; include :global "g";',
    'require "include"; include "gone";',
    'require "include"; include :optional "gone"; include :global "old";',
    'require "regex"; discard;',
    "\nkep;",
    'redirect "";',
]
BODIES = ["", "subject: x\n", "Return-Path: <a@b>\nDelivered-To: c@d\n\n", "no memory to run"]
VERDICTS = ["discard\n", 'store "INBOX"\n', 'store "A"\n', 'store "\u00fc"\nstore "INBOX"\n', ""]
LISTS = ["", "global/old.sieve waits for \u00fc\n", "ada all\neve x\n"]
LISTS.append("personal/a.sieve x\nusers/ada/personal/a.sieve y\n")
# Whether it is lax, prints each difference, and shows characters of UTF-8 and colours, and whether it is quiet.
WORDS = [(False, False, False, False), (True, True, True, False), (False, True, True, True)]
USERS: List[List[str]] = [[], ["ada", "bob"], ["ada", "b\u00fc b", "eva"]]


def site_of_chance(chance: random.Random) -> Files:
    """The files of a site."""
    users = chance.choice(USERS)
    files: Files = {"global/g.sieve": chance.choice(SCRIPTS[:5]), "global/old.sieve": 'require "regex";'}
    files["mains"] = chance.choice(["a\n", "b\na\n", "c: before/1 a\na\n", "before/1 a\nb\n"])
    files["before/1.sieve"] = chance.choice(["", "keep;", "discard;"])
    files["unjudged"] = chance.choice(LISTS)
    for home in [f"users/{name}/" for name in users] or [""]:
        files.update({f"{home}personal/{name}.sieve": chance.choice(SCRIPTS) for name in "ab"})
    if chance.random() < 0.5:
        files["envelope"] = '"" ""\n'
    homes = ["", *(f"users/{name}/" for name in users if chance.random() < 0.5)]
    for place in (f"{home}mails/{number}.eml" for home in homes for number in range(chance.randrange(1, 5))):
        files.update(mail_of_chance(chance, place, users))
    files.update({f"mails/{number}.eml.expect": "" for number in (8, 9) if chance.random() < 0.3})
    files.update({f"mails/{number}.EML": "" for number in range(5) if chance.random() < 0.3})
    return files


def mail_of_chance(chance: random.Random, place: str, users: List[str]) -> Files:
    """A mail with what stands beside it."""
    files: Files = {place: chance.choice(BODIES)}
    owners = [f"{name}/" for name in users] or [""]
    headings = [f"{owner}{name}" for owner in owners for name in ("a", "b", "c", "gone")]
    blocks = [f'["{it}"]\n{chance.choice(VERDICTS)}' for it in headings if chance.random() < 0.5]
    if blocks:
        files[f"{place}.expect"] = "# by hand\n" * chance.randrange(2) + "".join(blocks)
    if chance.random() < 0.2:
        files[f"{place}.envelope"] = "a@b c@d\n"
    if users and place.startswith("mails/") and chance.random() < 0.3:
        files[f"{place}.users"] = f'"{chance.choice(users)}"\n'
    return files


class Parted(Room):
    """A site in parts."""

    def site(self, shard: Optional[Shard] = None) -> Site:
        """The site in the test's folder, as a part reads it."""
        site = site_of(Wanted(bytes(self.room), [], [], [], None))
        take_mails(site, *([shard.wants(site)] if shard else []))
        return site

    def left(self, program: Program, shard: Shard, lax: bool = False) -> bytes:
        """What a part leaves, in a file."""
        site = self.site(shard)
        found = found_in(site, Judge(site, program, 2, shard).all(), shard)
        checked, part = Checked(found, lax, False), Part(shard, site, VERSION)
        text = check.results(checked, "json", Look(False), False, VERSION, part)
        path = self.room / f"{shard.number} of {shard.of}.json"
        path.write_text(text)
        return bytes(path)

    def all_left(self, of: int) -> List[bytes]:
        """What all parts leave."""
        program = self.program()
        return [self.left(program, Shard(number, of)) for number in range(1, of + 1)]

    def refused(self, paths: List[bytes], version: str = VERSION) -> str:
        """Why what parts left is refused."""
        with self.assertRaises(Refusal) as caught:
            merged(paths, version)
        self.assertEqual(caught.exception.status, 2)
        return caught.exception.sentence.replace(f"{self.room}/", "")


class Shards(Parted):
    """Which verdicts a part has."""

    def test_hash(self) -> None:
        for owner, mail, parts in PARTS:
            for of, wanted in parts.items():
                with self.subTest(owner=owner, mail=mail, of=of):
                    there = [number for number in range(1, of + 1) if Shard(number, of).has(owner, mail)]
                    self.assertEqual(there, [wanted])

    def cases(self, shard: Shard) -> List[Tuple[bytes, Tuple[bytes, ...]]]:
        """The mails that a part has, each with what a line of main scripts is called."""
        parts = (part for user in self.site().users for part in shard.parts_of(user))
        return [(mail.name, main.key) for mains, mails in parts for main in mains for mail in mails]

    def test_what_else_there_is(self) -> None:
        self.write({"personal/a.sieve": "", "personal/b.sieve": "", "mains": "a\nb\n"})
        self.write({f"mails/{number}.eml": "" for number in range(20)})
        before = [self.cases(Shard(number, 3)) for number in (1, 2, 3)]
        self.assertEqual(len(set(sum(before, []))), 40)
        self.assertEqual(sum(map(len, before)), 40)
        self.assertTrue(all(before))
        # Another line for the script changes what a line is called, and nothing else.
        self.write({"before/1.sieve": "", "mains": "c: b\nbefore/1 b\na\n", "mails/x.eml": ""})
        after = [self.cases(Shard(number, 3)) for number in (1, 2, 3)]
        for old, new in zip(before, after):
            stays = [(mail, (b"c",) if key == (b"b",) else key) for mail, key in old]
            self.assertEqual(set(stays) - set(new), set())

    def test_users(self) -> None:
        self.write({f"users/{name}/personal/{main}.sieve": "" for name in ("ada", "bob") for main in "ab"})
        self.write({"mains": "a\nb\n", "users/ada/mails/2.eml": "", "mails/1.eml": ""})
        rows = [(b"1.eml", b"ada/", 3), (b"1.eml", b"bob/", 1), (b"ada/2.eml", b"ada/", 3)]
        for number in (1, 2, 3):
            wanted = [(mail, (owner + main,)) for mail, owner, it in rows if it == number for main in (b"a", b"b")]
            self.assertEqual(sorted(self.cases(Shard(number, 3))), sorted(wanted))

    def test_what_is_read(self) -> None:
        # What is expected of a mail is read by the part that has it, and by the first one.
        self.write({f"users/{name}/personal/a.sieve": "" for name in ("ada", "bob")})
        self.write({"mains": "a\n", "users/ada/mails/2.eml": "", "users/ada/mails/2.eml.expect": "x\n"})
        self.assertEqual([self.is_read(Shard(number, 3)) for number in (1, 2, 3)], [True, False, True])
        self.assertEqual([self.is_read(Shard(number, 4)) for number in (1, 2, 3, 4)], [True, False, False, False])
        # One of all users is read by each.
        self.write({"users/ada/mails/2.eml.expect": "", "mails/1.eml": "", "mails/1.eml.expect": "x\n"})
        self.assertEqual([self.is_read(Shard(number, 3)) for number in (1, 2, 3)], [True] * 3)

    def test_what_is_read_without_users(self) -> None:
        # By sha256sum and bc, the part of four that has 1.eml under a is the second, and under before/1 b the third.
        self.write({"personal/a.sieve": "", "personal/b.sieve": "", "before/1.sieve": "", "mains": "a\n"})
        self.write({"mails/1.eml": "", "mails/1.eml.expect": "x\n"})
        self.assertEqual([self.is_read(Shard(number, 4)) for number in (1, 2, 3, 4)], [True, True, False, False])
        self.write({"mains": "a\nbefore/1 b\n"})
        self.assertEqual([self.is_read(Shard(number, 4)) for number in (1, 2, 3, 4)], [True, True, True, False])

    def is_read(self, shard: Shard) -> bool:
        """Whether a part reads a file that is refused."""
        try:
            self.site(shard)
        except Refusal:
            return True
        return False

    def test_what_is_printed(self) -> None:
        self.write({"users/ada/personal/a.sieve": "discard;", "users/bob/personal/a.sieve": "kep;", "mains": "a\n"})
        self.write({**MAIL, "mails/1.eml.expect": "[bob/a]\ndiscard\n[eva/a]\ndiscard\n", "mails/x.EML": ""})
        fault = "./users/bob/personal/a.sieve:1: unknown-command: There is no such command or test."
        wrong = ["./mails/1.eml under bob/a", "  - discard", '  + implicit "INBOX"']
        wrong.append('  + error personal "a" line 0 invalid-script  (personal "a")')
        stale = ["./mails/1.eml.expect: no main script is called eva/a"]
        stale.append("./mails/x.EML: left out: its name doesn't end by .eml, in small letters")
        counts = "{0} mails, {0} mains, {0} verdicts, 0 agree, {1} disagree, {2} without expectation"
        counts += ", {3} stale expectations, {3} scripts with a fault"
        first = f"shard 1/3: {counts.format(1, 1, 0, 1)}, 1 left out"
        self.assertEqual(self.ran("check", "--shard", "1/3", "."), (1, [fault, *wrong, *stale, first], ""))
        self.assertEqual(self.ran("check", "--shard", "2/3", "."), (0, [f"shard 2/3: {counts.format(0, 0, 0, 0)}"], ""))
        self.assertEqual(self.ran("check", "-q", "--shard=2/3", "."), (0, [], ""))
        third = ["./mails/1.eml under ada/a: nothing is expected", f"shard 3/3: {counts.format(1, 0, 1, 0)}"]
        self.assertEqual(self.ran("check", "--shard", "3/3", "."), (1, third, ""))
        self.assertEqual(self.ran("check", "--lax", "-q", "--shard", "3/3", "."), (0, [], ""))
        suite = tree.fromstring("\n".join(self.ran("check", "--format", "junit", "--shard", "3/3", ".")[1]))
        self.assertEqual([(it.get("classname"), it.get("name")) for it in suite.iter("testcase")], [("ada/a", "1.eml")])
        last = "1 mails, 2 mains, 2 verdicts, 0 agree, 1 disagree, 1 without expectation"
        last += ", 1 stale expectations, 1 scripts with a fault, 1 left out"
        for number in (1, 2, 3):
            status, told, error = self.ran("check", "--json", "--shard", f"{number}/3", ".")
            self.assertEqual((status, error), (int(number != 2), ""))
            (self.room / f"{number}.json").write_text("\n".join(told))
        files = [f"{number}.json" for number in (2, 3, 1)]
        self.assertEqual(self.ran("check", "--merge", *files), (1, [fault, *wrong, third[0], *stale, last], ""))
        self.assertEqual(self.ran("check", "--lax", "--quiet", "--merge", *files), (1, [fault, *wrong], ""))

    def test_misuse(self) -> None:
        self.write({"personal/a.sieve": "", "mains": "a\n", **MAIL})
        for value in ("0/3", "4/3", "1/0", "2", "1/2/3", "a/b", "-1/3", "1/10000", "", "1/2 "):
            with self.subTest(value):
                status, told, error = self.ran("check", f"--shard={value}", ".")
                self.assertEqual((status, told), (2, []))
                self.assertIn(f"argument --shard: {value!r} isn't K/N, as 2/4, with K from 1 to N", error)
        judges = "--merge judges nothing: it goes without --user, --main, --only, --clock, --program, --shard"
        for words in (["--user", "a"], ["--main=a"], ["--only", "1.eml"], ["--clock", ""], ["--shard", "1/2"]):
            with self.subTest(words):
                found = self.ran("check", *words, "--merge", "x.json")
                self.assertEqual(found, (2, [], f"sievebench-site: {judges}\n"))


class Merges(Parted):
    """One result of what all parts left."""

    def test_sites_of_chance(self) -> None:
        # Of these some have users, several lines, faults, lists of what can't be judged, and mails for which memory is refused.
        for seed in range(6, 12):
            chance = random.Random(seed)
            files = site_of_chance(chance)
            with self.subTest(seed=seed):
                self.compare(files, chance, [1 + seed % 5, 1 + (seed + 2) % 5])

    def compare(self, files: Files, chance: random.Random, parts: List[int]) -> None:
        """A site, and its parts, in each form."""
        home, self.room = self.room, self.room / f"site {chance.random()}"
        self.write(files)
        site, program = self.site(), self.program()
        whole = found_in(site, Judge(site, program, 2).all())
        for of in parts:
            shards = [Shard(number, of) for number in range(1, of + 1)]
            paths = [self.left(program, shard, chance.random() < 0.5) for shard in shards]
            chance.shuffle(paths)
            found = merged(paths, VERSION)
            self.assertEqual(found.extent, whole.extent)
            for form in FORMS:
                for options in WORDS:
                    self.assertEqual(self.told(whole, form, *options), self.told(found, form, *options))
        self.room = home

    def told(self, found: Found, form: str, lax: bool, each: bool, utf8: bool, quiet: bool) -> Tuple[str, bool]:
        """The results without how long they took, and whether the check failed."""
        checked = Checked(found, lax, each)
        text = check.results(checked, form, Look(utf8, utf8), quiet, VERSION)
        return re.sub(r' time="[0-9.]+"', "", text), checked.failed

    def test_paths_of_mails(self) -> None:
        self.write({"users/ada/personal/a.sieve": "", "mains": "a\n", "users/ada/mails/2.eml": "", "mails/1.eml": ""})
        mails = self.site().users[0].mails
        self.assertEqual([mail_path(bytes(self.room), mail.name) for mail in mails], [mail.path for mail in mails])

    def test_refusals(self) -> None:
        self.write({"personal/a.sieve": "discard;", "mains": "a\n", **MAIL})
        two, three = self.all_left(2), self.all_left(3)
        self.assertEqual(self.refused([]), "the files of all shards are wanted; see --help")
        self.assertEqual(self.refused(two[:1]), "shard 2/2 missing: all 2 make one result")
        self.assertEqual(self.refused(three[1:2]), "shards 1/3, 3/3 missing: all 3 make one result")
        twice = '"1 of 2.json" is shard 1/2, and so is "1 of 2.json"'
        self.assertEqual(self.refused([*two, two[0]]), twice)
        mixed = '"1 of 2.json" is shard 1/2, and "2 of 3.json" is shard 2/3: these don\'t make one site'
        self.assertEqual(self.refused([two[0], three[1]]), mixed)
        self.assertEqual(self.refused(two, "1.2.4"), '"1 of 2.json" is of sievebench-site 1.2.3, and this is 1.2.4')
        self.assertIn('cannot read "x.json"', self.refused([os.path.join(bytes(self.room), b"x.json")]))
        empty, full = (json.loads((self.room / f"{number} of 2.json").read_text()) for number in (1, 2))
        self.assertEqual([len(it["cases"]) for it in (empty, full)], [0, 1])
        spoilt: List[object] = [{**full, "cases": []}, {**full, "shard": {**full["shard"], "number": 3}}]
        spoilt += [{name: it for name, it in full.items() if name != "shard"}, {**full, "faults": [1]}]
        spoilt += [[full], None, "x"]
        for text in ["", "x", '{"shard": {', *map(json.dumps, spoilt)]:
            with self.subTest(text[:100]):
                (self.room / "spoilt.json").write_text(text)
                wanted = '"spoilt.json" isn\'t what `check --shard K/N --json` prints'
                self.assertEqual(self.refused([two[0], os.path.join(bytes(self.room), b"spoilt.json")]), wanted)
        lost = {**full, "cases": [], "shard": {**full["shard"], "cases": []}}
        (self.room / "2 of 2.json").write_text(json.dumps(lost))
        self.assertEqual(self.refused(two), 'the shards of "1 of 2.json" have 0 verdicts, and the site has 1')

    def test_other_sites(self) -> None:
        files: Files = {"personal/a.sieve": "discard;", "mains": "a\n", **MAIL, "mails/1.eml.expect": "[a]\ndiscard\n"}
        files.update({"with": "date\nmailbox\n", "clock": "1 +0000\n", "mailboxes": "A\n"})
        self.write(files)
        program = self.program()
        first = self.left(program, Shard(1, 2))
        others: List[Files] = [
            {"personal/a.sieve": "keep;"},
            {"personal/b.sieve": ""},
            {"global/a.sieve": ""},
            {"mails/2.eml": ""},
            {"mails/1.eml": "Subject: other\n\n"},
            {"mails/1.eml.expect": "[a]\nkeep\n".replace("keep", 'store "A"')},
            {"mails/1.eml.envelope": "a@b c@d"},
            {"mains": "a\nb: a\n"},
            {"with": "date\nmailbox\nvacation\n"},
            {"clock": "2 +0000\n"},
            {"mailboxes": "B\n"},
            {"envelope": "a@b c@d"},
            {"unjudged": "personal/a.sieve x\n"},
        ]
        for other in others:
            with self.subTest(other):
                self.write({**files, **other})
                second = self.left(program, Shard(2, 2))
                wanted = '"1 of 2.json" and "2 of 2.json" are of different sites, or of one that changed'
                self.assertEqual(self.refused([first, second]), wanted)
            for name in set(other) - set(files):
                (self.room / name).unlink()
        self.write(files)
        self.assertEqual(len(merged([first, self.left(program, Shard(2, 2))], VERSION).cases), 1)

    def test_seconds(self) -> None:
        self.write({"personal/a.sieve": "discard;", "mains": "a\n", **MAIL})
        paths = self.all_left(2)
        for path, seconds in zip(paths, (1.5, 2.25)):
            with open(path, "r+") as file:
                told = json.load(file)
                told["shard"]["seconds"] = seconds
                file.seek(0)
                file.truncate()
                json.dump(told, file)
        self.assertEqual(merged(paths, VERSION).seconds, 3.75)

    def test_what_says_of_which_site_a_part_is(self) -> None:
        self.write({"personal/a.sieve": "", "mains": "a\n", **MAIL, "mails/x.EML": ""})
        wanted = Wanted(bytes(self.room), [], [], [], None)
        asked = [wanted, wanted._replace(mains=[b"a"]), wanted._replace(mails=[b"1.eml"])]
        self.assertEqual(len({digest_of(site_of(it)) for it in asked}), 3)
        before = digest_of(self.site())
        self.assertEqual(digest_of(self.site()), before)
        (self.room / "personal/left.sieve").symlink_to("nowhere")
        self.assertNotEqual(digest_of(self.site()), before)

    def test_names(self) -> None:
        chance = random.Random(3)
        pieces = [b"\\", b"\\x", b"41", b'"', b"\n", b"\xc3\xbc", b"\xc3", b"\xe2\x80\xae", b" ", b"\xff", b":"]
        for _ in range(500):
            name = b"".join(chance.choices(pieces, k=chance.randrange(8)))
            self.assertEqual(octets_named(Look(True).name(name)), name)
