"""The command why, by the fake program."""
import os
from typing import List

from .room import FAKE, Files, Room

MAIN = """require ["fileinto", "include"];
if header "subject" "k1" { fileinto "A"; include "part"; }
elsif header "subject" "k2" { discard; }
else { keep; }
if true { if header "subject" "k9" {} else { stop; } }
if true { discard; }
"""
PART = """if true { redirect "a@b.example"; }
if false { } elsif header "subject" "k1" { fileinto "B"; }
"""


class Answers(Room):
    """What is printed of a mail."""

    def setUp(self) -> None:
        super().setUp()
        mails: Files = {f"mails/{number}.eml": f"subject: k{number}" for number in (1, 2, 3)}
        self.write(
            {"personal/main.sieve": MAIN, "personal/part.sieve": PART, "mains": "main\n", "envelope": '"" ""', **mails}
        )

    def told(self, *words: str) -> List[str]:
        """What is printed where all is well."""
        status, told, error = self.ran("why", *words)
        self.assertEqual((status, error), (0, ""))
        return told

    def branches(self, *words: str) -> List[str]:
        """The branches that are told, without the folder, and what follows them."""
        told = self.told(*words)
        start = next(it for it, line in enumerate(told) if "branch" in line)
        return [line.strip().replace("./personal/", "") for line in told[start:]]

    def test_whole(self) -> None:
        wanted = [
            "./mails/1.eml under main",
            "  what becomes of it:",
            '    store "A"  (./personal/main.sieve:2)',
            '    redirect "a@b.example"  (./personal/part.sieve:1)',
            '    store "B"  (./personal/part.sieve:2)',
            "  scripts that are looked up:",
            "    ./personal/main.sieve",
            "    ./personal/part.sieve",
            "  branches that are taken:",
            '    ./personal/main.sieve:2: if header "subject" "k1"',
            "    ./personal/part.sieve:1: if true",
            '    ./personal/part.sieve:2: elsif header "subject" "k1"',
            "    ./personal/main.sieve:5: if true",
            "    ./personal/main.sieve:5: else",
        ]
        self.assertEqual(self.told(".", "1.eml"), wanted)
        self.assertEqual(self.told(".", "mails/1.eml"), wanted)

    def test_other_branches(self) -> None:
        rest = ["main.sieve:5: if true", "main.sieve:5: else"]
        head = "branches that are taken:"
        self.assertEqual(self.branches(".", "2.eml"), [head, 'main.sieve:3: elsif header "subject" "k2"', *rest])
        self.assertEqual(self.branches(".", "3.eml"), [head, "main.sieve:4: else", *rest])
        self.write({"personal/main.sieve": "if false { discard; }"})
        self.assertEqual(self.branches(".", "3.eml"), ["no branch is taken"])

    def test_many_branches(self) -> None:
        blocks = "".join(f'if header "subject" "k1" {{ if size :over {number} {{ }} }}\n' for number in range(25))
        part = "if true { }\n" * 3
        self.write(
            {
                "personal/main.sieve": 'require "include";\n' + blocks + 'include "part";\nif true {}',
                "personal/part.sieve": part,
            }
        )
        few = "".join(f"if size :over {number} {{ }}\n" for number in range(30))
        wanted = [
            it
            for number in range(2, 27)
            for it in (
                f'main.sieve:{number}: if header "subject" "k1"',
                f"main.sieve:{number}: if size :over {number - 2}",
            )
        ]
        wanted = [it for it in wanted if "over" not in it or int(it.rpartition(" ")[2]) < len("subject: k1")]
        wanted += [f"part.sieve:{number}: if true" for number in (1, 2, 3)] + ["main.sieve:28: if true"]
        self.assertEqual(self.branches(".", "1.eml")[1:], wanted)
        self.write({"personal/main.sieve": few + "if true {}\n"})
        wanted = [f"main.sieve:{number + 1}: if size :over {number}" for number in range(11)] + [
            "main.sieve:31: if true"
        ]
        self.assertEqual(self.branches(".", "1.eml")[1:], wanted)

    def test_few_of_many_branches(self) -> None:
        never = "if false {}\n"
        main = 'require "include";\n' + never * 15 + 'if true {}\ninclude "part";\nif true {}\n'
        self.write({"personal/main.sieve": main, "personal/part.sieve": never * 9 + "if true {}\n"})
        wanted = ["main.sieve:17: if true", "part.sieve:10: if true", "main.sieve:19: if true"]
        self.assertEqual(self.branches(".", "1.eml")[1:], wanted)

    def test_an_error(self) -> None:
        self.write(
            {
                "personal/part.sieve": 'if true { discard; } redirect "a@b.example"; if true { redirect ""; redirect ""; } if true {}'
            }
        )
        self.assertEqual(
            self.branches(".", "1.eml"),
            [
                "branches that are taken:",
                'main.sieve:2: if header "subject" "k1"',
                "part.sieve:1: if true",
                "part.sieve:1: if true",
                'taken out for this question, since it fails: part.sieve:1: redirect "";',
            ],
        )
        self.write({"personal/main.sieve": "if true {\nkep; }"})
        self.assertEqual(
            self.branches(".", "1.eml"), ["the branches aren't known: the run fails, whatever is taken out"]
        )

    def test_chains(self) -> None:
        self.write(
            {
                "before/first.sieve": 'require "imap4flags";\nif header "subject" "k1" { addflag "x"; }\nif header "subject" "k2" { discard; }',
                "personal/main.sieve": 'require "imap4flags";\nif hasflag "x" { redirect :copy "a@b.example"; }\n else { keep; }',
                "mains": "before/first main\n",
            }
        )
        self.assertEqual(
            self.branches(".", "1.eml")[1:],
            ['./before/first.sieve:2: if header "subject" "k1"', 'main.sieve:2: if hasflag "x"'],
        )
        self.assertEqual(self.branches(".", "2.eml")[1:], ['./before/first.sieve:3: if header "subject" "k2"'])
        self.assertEqual(self.branches(".", "3.eml")[1:], ["main.sieve:3: else"])

    def test_several_mains_and_users(self) -> None:
        os.rename(self.room / "personal", self.room / "own")
        self.write(
            {
                "users/a/personal/m.sieve": "",
                "users/b/personal/m.sieve": 'require "include"; include "x";\nrequire "regex";',
                "mains": "m",
                "mails/1.eml.users": "b a",
            }
        )
        told = self.told(".", "1.eml")
        self.assertEqual(
            [line for line in told if not line.startswith(" ")], ["./mails/1.eml under a/m", "./mails/1.eml under b/m"]
        )
        self.write({"users/b/personal/m.sieve": 'require "regex"; keep;'})
        told = self.told("--user", "b", ".", "1.eml")
        self.assertEqual(told[:2], ["./mails/1.eml under b/m", '  not judged: personal "m" requires regex'])
        self.write({"users/b/personal/m.sieve": 'require "include"; if true { include "x"; }'})
        told = self.told("--user", "b", ".", "1.eml")
        self.assertIn("    personal/x: there is none", told)

    def test_misuse(self) -> None:
        for words in ("", ".", ". mails/", ". 1.eml 2.eml", ". 9.eml"):
            with self.subTest(words=words):
                self.assertEqual(self.ran("why", *words.split())[0], 2)
        self.assertEqual(self.ran("why", "--main", "x", "--program", str(FAKE), ".", "1.eml")[0], 2)
