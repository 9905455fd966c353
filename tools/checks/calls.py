"""The calls of the libraries, each made by itself while each of its requests for memory is refused in turn, once and with all after it.

`crates/one_call` makes them, as its words name them. The program runs with `refuse.c` before its C library, which tells the requests of
the call by the marks around it. A call whose request is refused answers that, and leaves what was there before; a request before it
ends the program's preparation, and one after it the report that is made there. What is answered is written here by the rules.
"""
import concurrent.futures
import os
import pathlib
import subprocess

from .runs import Run, SECONDS, lines

SOURCE = pathlib.Path(__file__).with_name("refuse.c")
UNPREPARED, REFUSED = lines("prepare: no memory"), lines("no memory")


def quoted(octets):
    """The quoted form of octets."""
    return '"' + "".join(f"\\{chr(it)}" if it in b'"\\' else chr(it) if 32 <= it < 127 else f"\\x{it:02x}" for it in octets) + '"'


def each(*octets):
    """A line for each of these octets."""
    return lines(*map(quoted, octets))


def reported(messages, main="personal \"main\"", envelope='"" "" mailbox "INBOX"', scripts=("personal \"main\" ok",), errors=0, total=""):
    """A report, and that it was made: each message with the lines of its verdict."""
    told = [line for name, verdict in messages for line in (f'message "{name}"', *(f"  {it}" for it in verdict))]
    heads = [f"main {main}", f"envelope {envelope}", *(f"script {it}" for it in scripts)]
    return lines(*heads, *told, f"total {len(messages)} messages {errors} errors{total}", "ok")


def runs(count):
    """How many runs the meter counts."""
    return lines(f"runs {count}")


class Told:
    """What a call may tell: the answer, what it leaves, and where its requests are refused, what stands after that it was; further answers
    that a refusal may have; and where requests after the call may be refused, what stands after the answer then."""

    def __init__(self, answer, left=b"", kept=(b"",), others=(), after=()):
        self.whole = answer + left
        self.refused = {self.whole, *others, *(REFUSED + it for it in kept), *(answer + it for it in after)}
        self.after = {self.whole, *(answer + it for it in after)}


# The bench on which edits are made, after the report that made its verdict: a message that the main script discards, as is expected.
DISCARDED = ["discard", 'read personal "main"']
AGREES = " 0 unexpected"
BEFORE = reported([("m", DISCARDED + ["expected"])], total=AGREES)
# The same where the script keeps the message, or can't run.
KEPT = ['implicit "INBOX"', 'read personal "main"', "unexpected"]
DIFFERS = " 1 unexpected"


def missing(name):
    """The verdict where the main script isn't there."""
    return ['implicit "INBOX"', f'error personal "{name}" line 0 missing-script', f'read personal "{name}" missing', "unexpected"]


def edited(report, stale=True):
    """An edit that takes memory. Behind it the message is stale or not."""
    after = [REFUSED + runs(2)] if stale else []
    return Told(lines("ok"), report + runs(2 if stale else 1), [BEFORE + runs(1)], after=after)


VALUE = b"The quick brown fox jumps over the lazy dog, and then over the lazy cat, twice."
FLAGS = [rb"\Seen", b"a", b"$Label"]
ADDED = [b"$Work", b"other-flag-of-many-octets"]
MAIL = (
    b"From: Ann <ann@a.example>\r\nSubject: =?utf-8?q?caf=C3=A9_?=\r\n =?iso-8859-1?B?6Q==?= late\r\n"
    b"To: b@c.example,\r\n\td@e.example\r\nX-Plain: plain\r\n\r\nbody\r\n"
)
# Each address, its local part and its domain, and its user, which is its local part where there is no detail.
ADDRESSES = [(local + b"@" + domain, local, domain, local) for local, domain in ((b"a b", b"b.example"), (b"c", b"d.example"), (b"e", b"f.example"))]
TOKENS = lines(
    "Identifier 0 2 1",
    "Identifier 3 4 1",
    "OpenParenthesis 4 5 1",
    "OpenBracket 6 7 2",
    "Quoted 7 10 2",
    "Comma 10 11 2",
    "MultiLine 12 20 2",
    "CloseBracket 20 21 4",
    "CloseParenthesis 21 22 4",
    "OpenBrace 23 24 4",
    "Identifier 25 29 4",
    "Tag 30 32 4",
    "Number 33 35 4",
    "Semicolon 35 36 4",
    "CloseBrace 37 38 4",
    "Bad 41 42 5",
)
# The line and the name of each command, and how many arguments and tests it has.
COMMANDS = lines(
    "1 require 1 0",
    "2 global 1 0",
    "3 if 0 1",
    "4 set 3 0",
    "5 if 0 1",
    "6 elsif 0 1",
    "7 redirect 1 0",
    "11 else 0 0",
    "12 include 2 0",
    "14 addflag 2 0",
)
CODE = lines(
    '0: header contains casemap ["Subject", "X-A-Long-Field-Name"] ["sale"]',
    "1: not",
    "2: jump-if-true 6",
    "3: size over 2048",
    "4: jump-if-false 6",
    '5: exists ["To"]',
    "6: jump-if-false 12",
    '7: set local(name) upper "to "+match(1)+" and "+global(shared_by_all_of_them) @4',
    "8: true",
    "9: jump-if-false 11",
    r'10: fileinto "Lists/"+local(name) flags ["\\Seen", "a"] copy @5',
    "11: jump 17",
    '12: address matches casemap domain ["From"] ["*.example"]',
    "13: jump-if-false 16",
    r'14: redirect "a@b.example\x0d\x0a" @7',
    "15: jump 17",
    '16: include personal once "lib" @12',
    '17: addflag local(name) ["a", "b"] @14',
)


def run_of(*verdict):
    """A run, which the meter counts also where it is refused."""
    return Told(lines(*verdict), runs(1), [runs(1)])


def report_of():
    """A report on three messages, and the next one. Where the first is refused in its third run, say, it has counted that one too, and the
    next one runs the third message again; where that is refused too, it has counted one more."""
    report = reported([("m", DISCARDED + ["expected"]), ("n", DISCARDED), ("o", DISCARDED)], total=AGREES)
    kept = [runs(it) + report + runs(4) for it in (1, 2, 3)] + [runs(it) + REFUSED + runs(it + 1) for it in (1, 2, 3)]
    return Told(report + runs(3), report + runs(3), kept)


def test_of():
    """A test of a mail. Where it is refused, nothing was written, and its run was begun or not."""
    verdict = ['store "Box"', 'read personal "main"']
    report = reported([("m", verdict)], envelope='"a@b.example" "" mailbox "Box"').removesuffix(lines("ok"))
    return Told(report + lines("Clean"), runs(1), [runs(0), runs(1)])


def session_of():
    """A session of two commands: one may be refused, the other never is; or the session is, before it has read anything."""
    empty, left = (reported([], main="none", envelope=f'"" "" mailbox "{it}"', scripts=[]) + runs(0) for it in ("INBOX", "Box"))
    return Told(lines("ok", "ok", "Done"), left, [empty], others=[lines("no no-memory", "ok", "Done") + empty])


CALLS = {
    # Texts, flags and mails.
    "contains_in": Told(lines("true")),
    # After a search that is out of memory the next one makes the copy of the value.
    "SearchedValue::contains": Told(lines("true"), lines("true"), [lines("true"), REFUSED]),
    "matches": Told(each(VALUE, b"quick brown", b"s", b" the lazy dog, and then over the lazy ", b"wice.")),
    "replaced": Told(each("é, € and ${hex:4".encode())),
    "flags_of": Told(each(*FLAGS)),
    "union": Told(each(*FLAGS, *ADDED)),
    "without": Told(each(b"a")),
    "FlagList::add": Told(lines("ok"), each(*FLAGS, *ADDED), [each(*FLAGS, *ADDED[:it]) for it in range(2)]),
    "FlagList::add_text": Told(lines("ok"), each(*FLAGS, *ADDED), [each(*FLAGS, *ADDED[:it]) for it in range(2)]),
    "Message::new": Told(each(b"From", b"Subject", b"To", b"X-Plain"), kept=[each(MAIL)]),
    "Message::value": Told(each(b"b@c.example,\td@e.example")),
    "Message::decoded": Told(each("café é late".encode())),
    "decoded_value": Told(each(b"a b c")),
    "addresses": Told(b"".join(each(*it) + lines("none") for it in ADDRESSES)),
    "entities_of": Told(each(b"before", b"after", b"\xc1", b"Subject: held\r\nContent-Transfer-Encoding: base64\r\n", b"aGVsZA==")),
    "TransferEncoding::octets_of": Told(each("café at ten".encode())),
    "Entity::text": Told(each("а".encode())),
    "date": Told(lines("Sun, 05 Jul 2026 12:00:00 +0200")),
    "clock": Told(lines("2026-07-05T12:00:00+02:00")),
    # Scripts, variables and runs.
    "tokens": Told(TOKENS),
    "parse": Told(COMMANDS),
    "parse/faulty": Told(lines("line 2: not a script")),
    "check": Told(lines("2")),
    "judge": Told(lines("2")),
    "judge/faulty": Told(lines("3 unknown-command")),
    "compile": Told(CODE),
    "dump_text": Told(CODE + lines("Clean")),
    "parts_of_text": Told(lines('"to be put beside "', "local a_name_of_more_octets_than_sixteen", '", "', "global b", "match 1")),
    "Values::set": Told(lines("ok"), each(b"its value"), [each(b"")]),
    "Values::expanded_string": Told(each(b"to be put beside its value, ")),
    "Values::join": Told(each(b"to be put beside its value, ")),
    "Shelf::add": Told(lines("ok"), lines("4 operations"), [lines("invalid")]),
    "run/tests": run_of(r'store "\xc3\xa9, at ten"', 'read personal "main"'),
    "run/body": run_of('store "Box"', 'read personal "main"'),
    "run/variables": run_of(r'store "again/FIRST OF ALL\\*/14"', 'redirect "again@b.example"', 'read personal "main"'),
    "run/flags": run_of(r'store "Box" "y" "z" "\\Seen" "b" "c" "D"', r'implicit "INBOX" "\\Seen" "b" "c" "D"', 'read personal "main"'),
    "run/includes": run_of('store "ListsLists kept"', 'read personal "main"', 'read personal "lib"', 'read global "gone" missing'),
    "run/error": run_of('implicit "INBOX"', 'error personal "lib" line 2 bad-address', 'read personal "main"', 'read personal "lib"'),
    # Edits and reports of a bench, and what the program calls besides.
    "put_script": edited(reported([("m", KEPT)], total=DIFFERS)),
    "put_script/new": edited(
        reported([("m", DISCARDED + ["expected"])], scripts=['personal "main" ok', 'personal "other" line 2 unknown-command'], total=AGREES), stale=False
    ),
    "put_message": edited(BEFORE),
    "put_message/new": edited(reported([("m", DISCARDED + ["expected"]), ("new", DISCARDED)], total=AGREES)),
    "rename_script": edited(reported([("m", missing("main"))], scripts=['personal "other" ok'], errors=1, total=DIFFERS)),
    "Bench::new": Told(reported([], main="none", scripts=[]) + runs(0)),
    "report": report_of(),
    "test_bench": test_of(),
    "session": session_of(),
    "command_of": Told(lines("main mail", "a", "none", "Box")),
    "command_of/mistake": Told(lines("error: unrecognized subcommand 'frobnicate'", "", "Usage: sievebench <COMMAND>", "", "For more information, try '--help'.")),
}
# These take no memory, and so are never refused.
UNREFUSED = {
    "is": Told(lines("false")),
    "stands": Told(lines("true false")),
    "replaced/plain": Told(each(b"${hex:400}")),
    "contains": Told(lines("true")),
    "contains_in/short": Told(lines("true")),
    "SearchedValue::contains/short": Told(lines("true"), lines("true"), after=[REFUSED]),
    "Captures": Told(lines("4", '"quick brown"')),
    "FlagList::add/held": Told(lines("ok"), each(*FLAGS)),
    "FlagList::add_text/held": Told(lines("ok"), each(*FLAGS)),
    "FlagList": Told(lines("true Some(1)", r'"\\Seen"', '"$Label"')),
    "Message::new/bare": Told(b""),
    "Message": Told(lines(f"{len(MAIL)} 4 Some(3)")),
    "Message::value/unfolded": Told(each(b"plain")),
    "Message::decoded/plain": Told(each(b"plain")),
    "decoded_value/unknown": Told(each(b"=?koi8-r?Q?a_b?= c")),
    "Address": Told(each(b"a b", b"b.example")),
    "Entity": Told(lines("true true"), each(b"\xc1")),
    "Checked": Told(lines("2")),
    "Code": Told(CODE + lines("18")),
    "write_quoted": Told(each(b'a "\\\0\xff')),
    "Values": Told(lines("true", '"its value"')),
    "Shelf": Told(lines("4 operations")),
    "Verdict": Told(lines("0 0 true false true")),
    "set_main": edited(reported([("m", missing("other"))], main='personal "other"', errors=1, total=DIFFERS)),
    "set_envelope": edited(reported([("m", DISCARDED + ["expected"])], envelope='"a@b.example" "c@d.example" mailbox "INBOX"', total=AGREES)),
    "set_mailbox": edited(reported([("m", DISCARDED + ["expected"])], envelope='"" "" mailbox "Box"', total=AGREES)),
    "set_mailboxes": edited(BEFORE),
    "set_message_envelope": edited(reported([("m", ['envelope "a@b.example" "c@d.example"', *DISCARDED, "expected"])], total=AGREES)),
    "set_expected": edited(reported([("m", DISCARDED + ["unexpected"])], total=DIFFERS), stale=False),
    "remove_script": edited(reported([("m", missing("main"))], scripts=[], errors=1, total=DIFFERS)),
    "remove_message": edited(reported([]), stale=False),
    "clear_main": edited(reported([("m", ['implicit "INBOX"', "unexpected"])], main="none", total=DIFFERS)),
    "clear_expected": edited(reported([("m", DISCARDED)]), stale=False),
    "clear_message_envelope": edited(BEFORE),
    "set_clock": edited(BEFORE),
    "clear_clock": edited(BEFORE),
    "report/kept": Told(BEFORE + runs(1)),
    "verdict": Told(lines(*DISCARDED)),
    "code": Told(lines("1 operations")),
    "status_of": Told(lines("4")),
}


class Call:
    """A call under each refusal in turn, alone and with all after it. `requests` are how many it makes, once it was made."""

    def __init__(self, room, library, program, word, told, takes):
        self.room, self.library, self.program, self.word, self.told, self.takes = room, library, program, word, told, takes
        self.title, self.command, self.requests = "each request of a call refused in turn", f"one_call {word}", None

    def answered(self, **settings):
        """What the program tells, with its status where that isn't 0."""
        env = {"LD_PRELOAD": str(self.library), **settings}
        done = subprocess.run([self.program, self.word], env=env, capture_output=True, timeout=SECONDS)
        return done.stdout if done.returncode == 0 else (done.stdout, done.returncode)

    def allowed(self, number, before, count):
        """What may be answered where the request of that number is refused, of so many in all, and so many before the call. A refusal may go
        unfelt: a list that is refused room ahead makes do with less."""
        if number <= before:
            return {UNPREPARED, self.told.whole}
        if number <= before + self.requests:
            return self.told.refused
        return self.told.after if number <= count else {self.told.whole}

    def differences(self, path):
        marks = self.room / "marks"
        found = self.answered(MARKS=str(marks))
        if found != self.told.whole:
            return [f"wanted {self.told.whole!r}, got {found!r}"]
        before, self.requests, count, made = map(int, marks.read_text().split())
        if made < 2:
            return ["no call is marked"]
        if bool(self.requests) != self.takes:
            return [f"{self.requests} requests"]
        # One more than there are: then nothing is refused.
        refusals = [(mode, number) for mode in ("REFUSE", "REFUSE_FROM") for number in range(1, count + 2)]
        with concurrent.futures.ThreadPoolExecutor(os.cpu_count()) as pool:
            told = list(pool.map(lambda it: self.answered(**{it[0]: str(it[1])}), refusals))
        wrong = [
            f"{mode}={number} of {count}, {before} before the call: got {found!r:.2000}"
            for (mode, number), found in zip(refusals, told)
            if found not in self.allowed(number, before, count)
        ]
        if self.takes and not set(told) & self.told.refused - {self.told.whole}:
            wrong.append("no refusal is reported")
        return wrong[:3]


class Words:
    """Whether the program tells the words of all calls that are made here, and no others."""

    title, command = "the words of the calls", "one_call"

    def __init__(self, program):
        self.program = program

    def differences(self, path):
        done = subprocess.run([self.program], capture_output=True, timeout=SECONDS)
        told, wanted = done.stdout.decode().split(), [*CALLS, *UNREFUSED]
        return [] if sorted(told) == sorted(wanted) else [f"{sorted(set(told) ^ set(wanted))} are reported or made alone"]


def of_calls(room, program):
    """All of them, by the program that makes them."""
    room = room / "calls"
    room.mkdir()
    library = room / "refuse.so"
    yield Run("what refuses requests is built", room, f"cc -shared -fPIC -O2 -o {library} {SOURCE}")
    yield Words(program)
    for word, told in CALLS.items():
        yield Call(room, library, program, word, told, takes=True)
    for word, told in UNREFUSED.items():
        yield Call(room, library, program, word, told, takes=False)
