"""The command untested, by the fake program."""
import json

from .room import Files, Room

MAIN = """require ["fileinto", "include"];
if header "subject" "k1" {
    fileinto "A"; fileinto "A";
    stop;
} elsif header "subject" ["k2", "k3"] {
    fileinto "B";
    if true { include "other"; }
} elsif header "subject" "k4" { discard; }
"""
OTHER = """if size :over 100 { discard; }
redirect "";
redirect "a@b.example";
"""

LACKS = "requires regex: it isn't supported yet; list the script in unjudged: personal/lacking.sieve requires regex"


class Commands(Room):
    """What is printed of a site."""

    def setUp(self) -> None:
        super().setUp()
        mails: Files = {
            "mails/1.eml": "subject: k1",
            "mails/2.eml": "subject: k2",
            "envelope": '"" ""',
            "mains": "main\n",
        }
        self.write(
            {"personal/main.sieve": MAIN, "personal/other.sieve": OTHER, "personal/lost.sieve": "keep;", **mails}
        )

    def test_text(self) -> None:
        main, other = "./personal/main.sieve", "./personal/other.sieve"
        come, none = "  (mails come there)", "  (reached by no mail)"
        wanted = [
            f'{main}:3: no mail notices without: fileinto "A";{come}',
            f'{main}:3: no mail notices without: fileinto "A";{come}',
            f"{main}:4: no mail notices without: stop;{come}",
            f'{main}:5: no mail notices with its condition true: elsif header "subject" ["k2", "k3"]{come}',
            f'{main}:6: no mail notices without: fileinto "B";{come}',
            f'{main}:8: no mail notices with its condition true: elsif header "subject" "k4"{none}',
            f'{main}:8: no mail notices with its condition false: elsif header "subject" "k4"{none}',
            f"{main}:8: no mail notices without: discard;{none}",
            f"{other}:1: no mail notices with its condition true: if size :over 100{come}",
            f"{other}:1: no mail notices with its condition false: if size :over 100{come}",
            f"{other}:1: no mail notices without: discard;{none}",
            f'{other}:3: no mail notices without: redirect "a@b.example";{none}',
            "./personal/lost.sieve: no verdict looks it up",
            "6 of 18 changes are noticed, 1 change nothing",
        ]
        status, told, error = self.ran("untested", "--jobs=1", ".")
        self.assertEqual((status, sorted(told), error), (0, sorted(wanted), ""))
        self.assertEqual(told[-1], wanted[-1])
        self.assertEqual(self.ran("untested", ".")[1], told)
        self.assertEqual(self.ran("untested", "-q", ".")[1], told[:-2])

    def test_memory(self) -> None:
        self.write({"mails/3.eml": "no memory to run", "mails/4.eml": "no memory to put"})
        why = "the program has no memory for it: --memory gives more"
        told = self.ran("untested", ".")[1]
        self.assertEqual(
            [line for line in told if why in line], [f"./mails/{it}.eml: not judged: {why}" for it in "34"]
        )
        self.assertRegex(told[-1], r"^[1-9]\d* of \d+ changes are noticed")
        lost = json.loads(self.ran("untested", "--json", ".")[1][0])["not judged"]
        self.assertEqual(lost, [{"mail": f"./mails/{it}.eml", "why": why} for it in "34"])

    def test_percent(self) -> None:
        for percent, status in (("0", 0), ("33.3", 0), ("33.4", 1), ("100", 1)):
            with self.subTest(percent=percent):
                self.assertEqual(self.ran("untested", "-q", "--fail-under", percent, ".")[0], status)
        for word in ("101", "x", "-1"):
            self.assertEqual(self.ran("untested", f"--fail-under={word}", ".")[0], 2)
        self.write({"personal/main.sieve": ""})
        self.assertEqual(self.ran("untested", "--fail-under=100", ".")[:2][0], 0)

    def test_keys_and_numbers(self) -> None:
        self.write({"mails/3.eml": "subject: k3"})
        told = self.ran("untested", "--keys", "--numbers", ".")[1]
        self.assertEqual(
            [line for line in told if " in: " in line],
            [
                f"./personal/other.sieve:1: no mail notices with {number} in: if size :over 100  (mails come there)"
                for number in (101, 99)
            ],
        )
        (self.room / "mails/3.eml").unlink()
        key = './personal/main.sieve:5: no mail notices without "k3" in: elsif header "subject" ["k2", "k3"]  (mails come there)'
        self.assertIn(key, self.ran("untested", "--keys", ".")[1])

    def test_json(self) -> None:
        self.write({"personal/wrong.sieve": "\nkep;", "personal/lacking.sieve": 'require "regex";'})
        self.write({"personal/late.sieve": 'require "index"; keep;', "unjudged": "personal/late.sieve so"})
        status, told, _ = self.ran("untested", "--json", "--fail-under=50", ".")
        found = json.loads("".join(told))
        self.assertEqual(
            (status, found["passed"], found["counts"]),
            (1, False, {"noticed": 6, "changes": 18, "leave a fault": 0, "change nothing": 1}),
        )
        self.assertEqual(found["faults"], [{"script": "./personal/wrong.sieve", "line": 2, "word": "unknown-command"}])
        self.assertEqual(found["not judged"], [{"script": "./personal/lacking.sieve", "line": 1, "why": LACKS}])
        self.assertIn(
            {"script": "./personal/main.sieve", "line": 8, "change": "without", "text": "discard;", "reached": False},
            found["unnoticed"],
        )
        self.assertEqual(
            set(found["not looked up"]), {f"./personal/{name}.sieve" for name in ("wrong", "lacking", "late", "lost")}
        )
        lines = self.ran("untested", ".")[1]
        self.assertEqual(lines[0], "./personal/wrong.sieve:2: unknown-command: There is no such command or test.")
        self.assertEqual(lines[1], f"./personal/lacking.sieve:1: not judged: {LACKS}")
        self.assertIn("./personal/late.sieve:1: skipped: so", lines)

    def test_what_a_verdict_is(self) -> None:
        self.write({"personal/main.sieve": 'require "fileinto"; fileinto "A";\nfileinto "A";'})
        told = self.ran("untested", "-q", ".")[1]
        self.assertEqual([line.split(": ")[0] for line in told], [f"./personal/main.sieve:{line}" for line in (1, 2)])
        self.write({"personal/main.sieve": 'if true {\nif header "subject" "k2" { discard; } }'})
        told = self.ran("untested", ".")[1]
        self.assertEqual(told[-1], "4 of 4 changes are noticed, 1 change nothing")

    def test_several_mains(self) -> None:
        self.write(
            {
                "personal/second.sieve": 'require "include"; include "other";',
                "mains": "main\nsecond\n",
                "personal/other.sieve": "discard;\nkeep;",
            }
        )
        (self.room / "mails/2.eml").unlink()
        told = self.ran("untested", ".")[1]
        self.assertEqual([line for line in told if "other.sieve" in line], [])
        (self.room / "mains").write_text("main\n")
        self.assertIn("./personal/other.sieve: no verdict looks it up", self.ran("untested", ".")[1])


class Parts(Room):
    """Many mails, in parts."""

    def test_parts(self) -> None:
        mails: Files = {f"mails/{number:03}.eml": f"subject: x{number:03}" for number in range(130)}
        rules = "".join(f'if header "subject" "x{number:03}" {{ discard; }}\n' for number in range(0, 140, 10))
        self.write({"personal/main.sieve": rules, "mains": "main\n", "envelope": '"" ""', **mails})
        for jobs in ("1", "2", "3"):
            told = self.ran("untested", "--jobs", jobs, ".")[1]
            self.assertEqual(
                [line.partition(": ")[2] for line in told[:-1]],
                [
                    'no mail notices with its condition false: if header "subject" "x130"  (mails come there)',
                    "no mail notices without: discard;  (reached by no mail)",
                ],
            )
            self.assertEqual(told[-1], "40 of 42 changes are noticed")
