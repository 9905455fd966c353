"""What is asked of a site's scripts under `sievebench-site`: what no mail notices, what an edit changes, why a mail goes where it goes,
and what is reported while files are saved. What each must say of the sites that are made here is written from the rules."""
import json
import os
import queue
import random
import re
import shlex
import shutil
import signal
import subprocess
import sys
import threading
import time

from . import rows
from .runs import SECONDS, Reading, Run, heeds, lines, some, wanted_and_got
from .site import TOOL, run, site, told, write

TOP = TOOL.parent.parent
EXAMPLES, PAGE = TOP / "examples", TOP / "docs/SITE.md"
sys.path.insert(0, str(TOP / "tools/site"))

from sievebench_site.changes import changes  # noqa: E402
from sievebench_site.tokens import tokens  # noqa: E402

COMES, NONE = "  (mails come there)", "  (reached by no mail)"
RANDOM_TEXTS, TEXTS_AT_ONCE = 3_000, 250
# Of what random texts are made: what tokens and white space are spelled with, and what spoils them, which is taken less often.
WHOLE = [b"if", b"text", b"_a1", b":is", b":Text", b"10", b"7K", b"2g9", b'"a"', b'"\\"\n"', b'""', b"text:\n.\n", b"TEXT:\t \na.\n..\n.\r\n", b"text: # c\n.x\n.\n", b"text:\r\n. \n.\n", b"# c\n", b"/* \n**/", b"/**/", b" ", b"\n", b"\r\n", b"\t", b"\r", *(b"%c" % mark for mark in b";{}()[],")]
SPOILT = [b":", b"text:", b'"', b"\\", b"#", b"/*", b"*/", b"/", b"*", b".", b".\n", b"\x00", b"\x7f", b"\xc3\xbc", b"'", b"-", b"\x0b"]
WEIGHTS = [40] * len(WHOLE) + [3] * len(SPOILT)


class Cut(Reading):
    """Texts that the tool's tokenizer has to cut as the program does."""

    def __init__(self, title, caller, texts):
        self.title, self.command, self.caller, self.texts = f"tokens: {title}", f"{caller} tokens", caller, texts

    def found(self, path):
        """The first text that is cut otherwise."""
        for text in self.texts:
            self.looked += 1
            done = subprocess.run([self.caller, "tokens", text.hex()], stdin=subprocess.DEVNULL, capture_output=True, timeout=SECONDS)
            wanted = lines(*(f"{it.kind} {it.start} {it.end} {it.line}" for it in tokens(text)))
            if (done.stdout, done.returncode) != (wanted, 0):
                return [f"{text!r:.300}: status {done.returncode}, {wanted_and_got(done.stdout, wanted)}"]
        return []


def texts_of_rows():
    """The texts of scripts in the rows of the examples."""
    for path in sorted((EXAMPLES / "rows").iterdir()):
        front = b""
        for title, paragraph in rows.paragraphs(path) if path.suffix in (".rows", ".faults") else ():
            if path.suffix == ".rows":
                yield rows.Case(title, paragraph, "|@%+>!=").octets.get("|", b"")
                continue
            front = rows.Case(title, [line for line in paragraph if line[:1] in ("|", "+")], "|+").octets.get("|", front)
            yield from (front + rows.unescaped(line if line != "\\" else "") for line in paragraph if line[:1] not in ("|", "+"))


def of_tokens(caller):
    """All scripts of the examples, and random texts."""
    yield Cut("the scripts of the examples", caller, [path.read_bytes() for path in sorted(EXAMPLES.rglob("*.sieve"))])
    yield Cut("the texts of the rows", caller, list(texts_of_rows()))
    chosen = random.Random(7)
    texts = [b"".join(chosen.choices(WHOLE + SPOILT, WEIGHTS, k=chosen.randrange(1, 25))) for _ in range(RANDOM_TEXTS)]
    for at in range(0, RANDOM_TEXTS, TEXTS_AT_ONCE):
        yield Cut(f"random texts from {at} on", caller, texts[at : at + TEXTS_AT_ONCE])


def unnoticed(path, *told_of):
    """The lines of changes of a script that nothing notices, each by its line, its words, and whether mails come there."""
    return [f"{path}:{line}: no mail notices {what}{'' if comes is None else COMES if comes else NONE}" for line, what, comes in told_of]


def of_untested(room):
    """What no mail notices."""
    main = b'require ["fileinto", "reject"];\nif header "subject" "a" {\n  fileinto "A";\n  stop;\n} elsif anyof (header "subject" "b",\n  size :over 1K) { reject "no"; discard;\n} elsif header "subject" "c" { keep; }\nelse { redirect ""; keep; }\n'
    mails = {f"{name}.eml": b"subject: %s\n\n" % name.encode() for name in "abd"}
    write(room / "branches", {**site(mails, main=main), "with": b"reject\n"})
    wanted = unnoticed(
        "branches/personal/main.sieve",
        (4, "without: stop;", True),
        (7, 'with its condition false: elsif header "subject" "c"', True),
        (7, "without: keep;", False),
        (8, "without: keep;", False),
    )
    # A mail `a` that isn't filed is kept, and its `stop` stands before nothing. A rejection and a discard go together.
    yield run("branches, and runs that end by an error", room, "untested branches", lines(*wanted, "9 of 13 changes are noticed"))
    parts = b'require "include"; include "part";\n'
    write(room / "mains", {**site({"1.eml": b"Subject: a\n\n"}, one=parts + b"discard;", two=parts), "personal/part.sieve": b'if header "subject" "b" {\n  discard;\n}\nkeep;\n', "personal/lost.sieve": b"keep;"})
    wanted = unnoticed("mains/personal/part.sieve", (1, 'with its condition false: if header "subject" "b"', True), (2, "without: discard;", False))
    yield run("a script that two main ones include", room, "untested mains", lines(*wanted, "mains/personal/lost.sieve: no verdict looks it up", "5 of 7 changes are noticed"))
    yield run("under one of them", room, "untested -q --main one mains", lines(*wanted))
    limit = b'if size :over 18446744073709551615 { discard; }\nif size :under 12 { keep; }\nif header ["a", "b"] ["1", "2"] { discard; }\nif true { stop; }'
    write(room / "limits", site({"1.eml": b"a: 1\nb: 2\n\n", "2.eml": b"\n", "3.eml": b"b: 2\n" + b"\n" * 7}, main=limit))
    wanted = unnoticed(
        "limits/personal/main.sieve",
        (1, "with its condition false: if size :over 18446744073709551615", True),
        (1, "with 18446744073709551614 in: if size :over 18446744073709551615", True),
        (1, "without: discard;", False),
        (3, 'without "a" in: if header ["a", "b"] ["1", "2"]', True),
        (3, 'without "1" in: if header ["a", "b"] ["1", "2"]', True),
        (4, "with its condition false: if true", True),
        (4, "without: stop;", True),
    )
    yield run("strings and limits, and changes that leave a fault or nothing", room, "untested --keys --numbers limits", lines(*wanted, "11 of 18 changes are noticed, 1 leave a fault, 1 change nothing"))
    variables = b'require ["variables", "fileinto"];\nif allof (header :matches "subject" "x*", exists "none") {\n  discard;\n}\nfileinto "B${1}";\n'
    write(room / "set", site({"1.eml": b"Subject: xyz\n\n"}, main=variables))
    yield run("a condition that sets variables and doesn't hold", room, "untested set", lines(*unnoticed("set/personal/main.sieve", (3, "without: discard;", False)), "3 of 4 changes are noticed"))
    others = [(1, "with its condition false: if size :over 18446744073709551615", True), (1, "without: discard;", False), (4, "with its condition false: if true", True), (4, "without: stop;", True)]
    yield run("enough are noticed", room, "untested -q --fail-under 50 limits", lines(*unnoticed("limits/personal/main.sieve", *others)))
    objects = [{"script": "limits/personal/main.sieve", "line": line, "change": what.partition(": ")[0], "text": what.partition(": ")[2], "reached": comes} for line, what, comes in others]
    counts = {"noticed": 7, "changes": 11, "leave a fault": 0, "change nothing": 1}
    few = {"passed": False, "counts": counts, "unnoticed": objects, "faults": [], "not judged": [], "not looked up": []}
    yield run("too few are noticed", room, "untested --json --fail-under 90 limits", lines(json.dumps(few)), status=1)
    yield run("a number that isn't one", room, "untested --fail-under x limits", b"", told("argument --fail-under: 'x' isn't a number from 0 to 100; see --help"), 2)


def of_chains(room):
    """Scripts that run one after another."""
    files = {"before/10.sieve": b'require "imap4flags";\nif header "subject" "a" { addflag "$A"; }\nif header "subject" "b" { discard; }\n', "mains": b"before/10 main\n"}
    files["personal/main.sieve"] = b'require ["imap4flags", "fileinto"];\nif hasflag "$A" { fileinto "A"; }\nelsif header "subject" "b" { keep; }\n'
    mails = {f"{name}.eml": b"Subject: %s\n\n" % name.encode() for name in "abc"}
    write(room / "chained", {**site(mails), **files})
    wanted = unnoticed("chained/personal/main.sieve", (3, 'with its condition false: elsif header "subject" "b"', True), (3, "without: keep;", False))
    yield run("what isn't tested of a chain", room, "untested chained", lines(*wanted, "10 of 12 changes are noticed"))
    yield run("why a chain goes on", room, "why chained a.eml | sed -n '/branches/,$p'", lines("  branches that are taken:", '    chained/before/10.sieve:2: if header "subject" "a"', '    chained/personal/main.sieve:2: if hasflag "$A"'))
    yield run("why it ends", room, "why chained b.eml | sed -n '/branches/,$p'", lines("  branches that are taken:", '    chained/before/10.sieve:3: if header "subject" "b"'))
    shutil.copytree(room / "chained", room / "rechained")
    write(room / "rechained", {"before/10.sieve": files["before/10.sieve"].replace(b'"b"', b'"c"')})
    wanted = ["rechained/mails/b.eml under main", "  - discard", '  + implicit "INBOX"', "rechained/mails/c.eml under main", '  - implicit "INBOX"', "  + discard  (rechained/before/10.sieve:3)", "2 of 3 verdicts changed"]
    wanted[2] = '  + store "INBOX"  (rechained/personal/main.sieve:3)'
    yield run("what an edit changes of a chain", room, "diff chained rechained", lines(*wanted), status=1)
    shutil.copytree(room / "chained", room / "longer")
    write(room / "longer", {"before/05.sieve": b'if header "subject" "c" {\n  redirect "x@y.example";\n}\n', "mains": b"before/05 before/10 main\n"})
    wanted = ["longer/mails/c.eml under main", '  - implicit "INBOX"', '  + redirect "x@y.example"  (longer/before/05.sieve:2)', "1 of 3 verdicts changed"]
    yield run("what a script changes that is new before others", room, "diff chained longer", lines(*wanted), status=1)


def of_diffs(room):
    """What an edit changes."""
    mails = {f"{number}.eml": b"Subject: %d\n\n" % number for number in range(1, 6)}
    write(room / "old", {**site(mails, main=b"discard;"), "personal/gone.sieve": b"keep;"})
    write(room / "new", {**site(mails, main=b'if header "subject" "3" { keep; } else {\n  discard; }'), "personal/bad.sieve": b"kep;"})
    fault = "new/personal/bad.sieve:1: unknown-command: There is no such command or test."
    wanted = ["new/mails/3.eml under main", "  - discard", '  + store "INBOX"  (new/personal/main.sieve:1)']
    yield run("an edit", room, "diff old new", lines(fault, *wanted, "1 of 5 verdicts changed"), status=1)
    yield run("the same the other way round", room, "diff -q new old", lines("old/mails/3.eml under main", '  - store "INBOX"', "  + discard  (old/personal/main.sieve:1)"), status=1)
    yield run("nothing", room, "diff old old", lines("0 of 5 verdicts changed"))
    markdown = ["**1 of 5 verdicts changed**", "", f"- `{fault}`", "", f"- `{wanted[0]}`", "", "```diff", *(line[2:] for line in wanted[1:]), "```"]
    yield run("for a merge request", room, "diff --format markdown old new", lines(*markdown), status=1)
    write(room / "all", site(mails, main=b"keep;"))
    heads = [f"all/mails/{number}.eml under main" for number in (1, 2, 3)] + ["and 2 more: 5 verdicts in all, of 5 mails under 1 main"]
    yield run("many alike", room, "diff old all", lines(*heads, "  - discard", '  + store "INBOX"  (all/personal/main.sieve:1)', "5 of 5 verdicts changed"), status=1)
    yield run("one folder alone", room, "diff old", b"", told("two folders are wanted, or with --git one; see --help"), 2)
    write(room / "asks", {**site({"1.eml": b""}, main=b'require "vacation"; vacation "x";'), "with": b"vacation\n"})
    write(room / "asks-not", site({"1.eml": b""}, main=b"discard;"))
    yield run("what can't be judged", room, "diff asks asks-not", lines("asks-not/with: it was another, and is taken for both", 'asks-not/mails/1.eml under main: not judged: before, personal "main" requires vacation', "0 of 0 verdicts changed, 1 not judged"))


def of_revisions(room):
    """What an edit changes since a revision."""
    where = room / "repository"
    write(where, {"readme": b""})
    commit = "git add -A && git -c user.name=a -c user.email=a@b.example commit -qm"
    begin = f"git init -q . && {commit} one"
    yield Run("a repository", where, begin)
    folder = where / "s\u00fc"
    write(folder, site({"1.eml": b""}, main=b'require "include"; include "part";', part=b"keep;"))
    (folder / "mains").write_text("main\n")
    (folder / "personal/part.sieve").unlink()
    (folder / "personal/part.sieve").symlink_to("../parts")
    (folder / "parts").write_text("keep;")
    yield Run("a site in it", where, f"{commit} two && printf 'discard;' > s\u00fc/parts")
    wanted = lines("s\u00fc/mails/1.eml under main", '  - store "INBOX"', "  + discard  (s\u00fc/personal/part.sieve:1)", "1 of 1 verdict changed")
    yield run("since a revision", where, "diff --utf8 --git HEAD s\u00fc", wanted, status=1)
    inside = wanted.replace("s\u00fc/".encode(), b"./")
    yield run("in a folder inside, as a hook has it", folder, "diff --utf8 --git HEAD .", inside, status=1)
    yield Run("sievebench-site: under the environment of a hook", where, f"GIT_DIR=.git GIT_INDEX_FILE=.git/index python3 {shlex.quote(str(TOOL))} diff --utf8 --git HEAD s\u00fc", wanted, status=1)
    (folder / "with").write_text("vacation\n")
    told_of = "s\u00fc/with: it was another, and is taken for both\n".encode()
    yield run("settings that changed since a revision", where, "diff --utf8 --git HEAD s\u00fc", told_of + wanted, status=1)
    yield Run("a commit of them", where, f"{commit} three")
    yield run("settings that didn't", where, "diff --utf8 --git HEAD s\u00fc", lines("0 of 1 verdict changed"))
    yield run("a revision that lacks the site", where, "diff --git HEAD~2 s\u00fc", b"", told('the revision "HEAD~2" has no folder "s\\xc3\\xbc"'), 2)
    yield run("a revision that there isn't", where, "diff --git=-x s\u00fc", b"", told('no revision "-x" in the repository of "s\\xc3\\xbc"'), 2)
    write(room / "outside", site({"1.eml": b""}, main=b""))
    outside = f"GIT_CEILING_DIRECTORIES={shlex.quote(str(room))} python3 {shlex.quote(str(TOOL))} diff --git HEAD outside"
    yield Run("sievebench-site: a site outside of a repository", room, outside, b"", told('"outside" is in no repository of git'), 2)


def answer(mail, main, verdict, reads, branches, *more):
    """What is said of a mail under a main script."""
    taken = ["  branches that are taken:", *(f"    {it}" for it in branches)] if branches else ["  no branch is taken"]
    return lines(f"{mail} under {main}", "  what becomes of it:", *(f"    {it}" for it in verdict), "  scripts that are looked up:", *(f"    {it}" for it in reads), *taken, *more)


def of_answers(room):
    """Why a mail goes where it goes."""
    main = b'require ["fileinto", "include", "reject"];\nif header "subject" "a" { include "part"; }\nif not header "subject" "a" { reject "no"; }\nelsif true { include :optional "gone"; include "part";\n fileinto "A"; if false {} else { stop; } }\nif true { discard; }\n'
    part = b'require "variables"; global "x";\nset "x" "y";\nif true { redirect "a@b.example"; }\n'.replace(b' global "x";', b"")
    files = {**site({"a.eml": b"Subject: a\n\n", "b.eml": b"Subject: b\n\n"}, main=main), "personal/part.sieve": part, "with": b"reject\n"}
    write(room / "why", files)
    at = "why/personal/main.sieve"
    verdict = ['redirect "a@b.example"  (why/personal/part.sieve:3)', f'store "A"  ({at}:5)']
    reads = [at, "why/personal/part.sieve", "personal/gone: there is none"]
    branches = [f'{at}:2: if header "subject" "a"', "why/personal/part.sieve:3: if true", f"{at}:4: elsif true", f"{at}:5: else"]
    yield run("a mail", room, "why why a.eml", answer("why/mails/a.eml", "main", verdict, reads, branches))
    verdict = [f'reject "no"  ({at}:3)', f"discard  ({at}:6)"]
    branches = [f'{at}:3: if not header "subject" "a"', f"{at}:6: if true"]
    yield run("a rejection, which no redirect goes with", room, "why why mails/b.eml", answer("why/mails/b.eml", "main", verdict, [at], branches))
    # The 33rd redirect fails, and so the second branch of the last line isn't taken.
    many = b"".join(b'if true { redirect "%d@b.example"; }\n' % number for number in range(33)) + b"if true { keep; }\n"
    few = b"".join(many.splitlines(True)[:31]) + b"if true { keep; }\n"
    write(room / "many", site({"1.eml": b""}, main=many, few=few))
    at = "many/personal/main.sieve"
    wanted = answer("many/mails/1.eml", "main", ['implicit "INBOX"', 'error personal "main" line 33 too-many-actions'], [at], [f"{at}:{number}: if true" for number in range(1, 34)], f'  taken out for this question, since it fails: {at}:33: redirect "32@b.example";')
    yield run("an action that is one too many", room, "why --main main many 1.eml", wanted)
    at = "many/personal/few.sieve"
    yield run("as many actions as there may be", room, "why --main few many 1.eml | tail -n 33", lines("  branches that are taken:", *(f"    {at}:{number}: if true" for number in range(1, 33))))
    fails = b'require "include"; keep;\nif true { stop; } keep;\n'
    write(room / "fails", site({"1.eml": b""}, main=b'require ["include", "fileinto"];\nif true { fileinto "A"; include "main"; include "gone"; if true {} }\nif true {}\n', other=fails, wrong=b"kep;"))
    at = "fails/personal/main.sieve"
    wanted = answer("fails/mails/1.eml", "main", ['implicit "INBOX"', 'error personal "main" line 2 recursive-include'], [at], [f"{at}:2: if true"], f'  taken out for this question, since it fails: {at}:2: include "main";')
    yield run("an include that fails", room, "why --main main fails 1.eml", wanted)
    yield run("a script with a fault", room, "why --main wrong fails 1.eml | tail -n 1", lines("  the branches aren't known: the run fails, whatever is taken out"))
    twice = b'require "include"; include "part"; if true {} include "part";\n'
    write(room / "twice-included", {**site({"1.eml": b""}, main=twice), "personal/part.sieve": b'require "reject"; if true { reject "a"; }', "with": b"reject\n"})
    at, part = "twice-included/personal/main.sieve", "twice-included/personal/part.sieve"
    ends = [f'  taken out for this question, since it fails: {part}:1: reject "a";', "  a script is included again: the branches end where the run first comes to this command"]
    verdict = ['implicit "INBOX"', 'error personal "part" line 1 conflicting-actions']
    yield run("a command that fails where it is done again", room, "why twice-included 1.eml", answer("twice-included/mails/1.eml", "main", verdict, [at, part], [f"{part}:1: if true"], *ends))
    yield run("no such mail", room, "why why x.eml", b"", told('no mail "why/mails/x.eml"'), 2)
    yield run("no mail", room, "why why", b"", told("a site and a mail are wanted; see --help"), 2)


class Watched:
    """A site that is watched: what is done, each after the report of what was done before, and the lines of all reports. A number of
    seconds is `N` in them."""

    ENDS = re.compile(r", [0-9.]+ seconds$")

    def __init__(self, title, room, folder, steps, wanted, seconds=SECONDS):
        self.title, self.room, self.folder, self.steps, self.wanted, self.seconds = f"sievebench-site: {title}", room, folder, steps, wanted, seconds
        self.command = f"{TOOL} watch {folder}"

    def differences(self, path):
        """What is reported otherwise, or too late."""
        read, got = queue.Queue(), []
        command, pipe = [sys.executable, str(TOOL), "watch", self.folder], subprocess.PIPE
        with subprocess.Popen(command, cwd=self.room, env={**os.environ, "PATH": path}, stdin=subprocess.DEVNULL, stdout=pipe, stderr=pipe, text=True, preexec_fn=heeds) as child:
            threading.Thread(target=lambda: [read.put(line) for line in child.stdout], daemon=True).start()
            try:
                for step in [lambda: None, *self.steps]:
                    step()
                    self.wait(read, got, time.monotonic() + self.seconds)
                time.sleep(1)
                child.send_signal(signal.SIGINT)
                child.wait(self.seconds)
                said = child.stderr.read()
            except queue.Empty:
                return [f"no report in {self.seconds} seconds after {got[-3:]}"]
            except subprocess.TimeoutExpired:
                return [f"no end in {self.seconds} seconds after Ctrl-C"]
            finally:
                child.kill()
        got += [read.get() for _ in range(read.qsize())]
        found = [self.ENDS.sub(", N seconds", line.rstrip("\n")) for line in got]
        others = [] if (said, child.returncode) == ("", 130) else [f"status {child.returncode}, {said!r:.300}"]
        return others + ([] if found == self.wanted else [wanted_and_got(lines(*self.wanted), lines(*found))])

    def wait(self, read, got, end):
        """Reads up to the end of a report."""
        while True:
            got.append(read.get(timeout=max(0, end - time.monotonic())))
            if self.ENDS.search(got[-1].rstrip("\n")) or got[-1].endswith("verdicts stand\n"):
                return


def of_watching(room):
    """What is reported while files are saved."""
    part = room / "watched/personal/part.sieve"
    files = site({"1.eml": b"Subject: a\n\n", "1.eml.expect": b"[main]\ndiscard\n", "2.eml": b"\n"}, main=b'require "include"; include "part";')
    write(room / "watched", {**files, "personal/part.sieve": b"discard;"})

    def in_two_writes():
        with open(part, "wb") as file:
            file.write(b"kee")
            file.flush()
            time.sleep(0.03)
            file.write(b"p;")

    def renamed_over():
        write(room / "watched", {"personal/.part.new": b"\n\ndiscard;"})
        os.replace(room / "watched/personal/.part.new", part)

    def restored():
        os.rename(room / "away", room / "watched/personal")

    changed = ["watched/mails/1.eml under main: no longer as expected", "  - discard", '  + store "INBOX"  (watched/personal/part.sieve:1)']
    changed += ["watched/mails/2.eml under main", *changed[1:]]
    back = ["watched/mails/1.eml under main: now as expected", '  - store "INBOX"', "  + discard  (watched/personal/part.sieve:3)"]
    saved, fault = "watched/personal/part.sieve: saved", "watched/personal/part.sieve:1: unknown-command: There is no such command or test. The verdicts of its last text stand."
    stand = 'cannot read "watched/personal": No such file or directory: the last verdicts stand'
    names = ["watched/personal/main.sieve", "watched/personal/part.sieve"]
    steps = [
        in_two_writes,
        renamed_over,
        lambda: part.write_bytes(b"kep;"),
        lambda: os.rename(room / "watched/personal", room / "away"),
        restored,
        lambda: part.write_bytes(b"discard; "),
        lambda: write(room / "watched", {"mails/3.eml": b"", "mails/3.eml.expect": b"[main]\ndiscard\n"}),
        lambda: (room / "watched/mails/2.eml").unlink(),
        lambda: write(room / "watched", {"mails/1.eml.expect": b'[main]\nstore "A"\n'}),
    ]
    wanted = ["2 verdicts, N seconds"]
    wanted += [saved, *changed, "2 of 2 verdicts changed, 1 not as expected, N seconds"]
    wanted += [saved, *back, "watched/mails/2.eml under main", *back[1:], "2 of 2 verdicts changed, N seconds"]
    wanted += [saved, fault, "0 of 2 verdicts changed, N seconds"]
    wanted += [*(f"{name}: gone" for name in names), stand]
    wanted += [*(f"{name}: saved" for name in names), "0 of 2 verdicts changed, N seconds"]
    wanted += [saved, "watched/personal/part.sieve: no fault any more", "0 of 2 verdicts changed, N seconds"]
    wanted += ["watched/mails/3.eml: saved", "watched/mails/3.eml.expect: saved", "0 of 3 verdicts changed, 1 new, N seconds"]
    wanted += ["watched/mails/2.eml: gone", "0 of 2 verdicts changed, 1 gone, N seconds"]
    wanted += ["watched/mails/1.eml.expect: saved", "watched/mails/1.eml under main: not as expected", '  - store "A"', "  + discard  (watched/personal/part.sieve:1)", "0 of 2 verdicts changed, 1 not as expected, N seconds"]
    yield Watched("saves of all kinds", room, "watched", steps, wanted)
    yield run("a site that can't be read from the start", room, "watch nowhere", b"", told('cannot read "nowhere/personal": No such file or directory'), 2)


def of_many(room):
    """Three thousand mails, of which one in a hundred comes to an include."""
    mails = {f"{number:04}.eml": b"Subject: word%d\n\n" % (number % 100) for number in range(3_000)}
    main = b'require "include"; if header "subject" "word7" { include "part"; }'
    write(room / "many-mails", {**site(mails, main=main), "personal/part.sieve": b"discard;"})
    heads = [f"many-mails/mails/{number:04}.eml under main" for number in (7, 107, 207)] + ["and 27 more: 30 verdicts in all, of 30 mails under 1 main"]
    wanted = [*heads, "  - discard", '  + store "INBOX"  (many-mails/personal/part.sieve:1)', "30 of 3,000 verdicts changed, N seconds"]
    yield Watched("three thousand mails", room, "many-mails", [lambda: write(room / "many-mails", {"personal/part.sieve": b"keep;"})], ["3,000 verdicts, N seconds", "many-mails/personal/part.sieve: saved", *wanted])
    yield run("what isn't tested of them", room, "untested many-mails", lines("4 of 4 changes are noticed"))


class Tried(Reading):
    """The changes of a site, each written into a copy of it and checked against what was recorded: what isn't noticed so is what `untested`
    says. Of scripts that no mail comes to it says nothing."""

    def __init__(self, title, room, folder):
        self.title, self.room, self.folder, self.command = f"sievebench-site: {title}", room, folder, f"{TOOL} untested {folder}"

    def found(self, path):
        """What is said otherwise."""
        env, wanted, copy = {**os.environ, "PATH": path}, [], self.room / "copy"
        shutil.copytree(self.folder, copy)
        subprocess.run([sys.executable, str(TOOL), "record", "--force", str(copy)], env=env, capture_output=True, timeout=SECONDS)
        done = subprocess.run([sys.executable, str(TOOL), "untested", "--json", "--keys", "--numbers", str(self.folder)], env=env, capture_output=True, timeout=SECONDS)
        if done.returncode:
            return [f"status {done.returncode}: {done.stderr!r:.300}"]
        found = json.loads(done.stdout)
        for script in sorted(self.folder.rglob("*.sieve")):
            text, place = script.read_bytes(), copy / script.relative_to(self.folder)
            for it in changes(text, True, True) if str(script) not in found["not looked up"] else ():
                self.looked += 1
                place.write_bytes(it.of(text))
                done = subprocess.run([sys.executable, str(TOOL), "check", "-q", str(copy)], env=env, capture_output=True, timeout=SECONDS)
                wanted += [] if done.returncode or it.is_none(text) else [f"{script}:{it.line} {it.how}"]
            place.write_bytes(text)
        shutil.rmtree(copy)
        got = [f"{it['script']}:{it['line']} {it['change']}" for it in found["unnoticed"]]
        return [] if sorted(got) == sorted(wanted) else [wanted_and_got(lines(*sorted(wanted)), lines(*sorted(got)))]


def of_pages(room):
    """The example, and what the page of sites says of it."""
    shutil.copytree(EXAMPLES / "site", room / "page/site")
    yield Tried("the changes of the example", room, room / "page/site")
    for name in ("branches", "limits", "chained"):
        yield Tried(f"the changes of {name}", room, room / name)
    blocks = [block for kind, block in re.findall(r"^```(\w*)\n(.*?)^```$", PAGE.read_text(encoding="utf-8"), re.S | re.M) if not kind]
    find = {name: next(block for block in blocks if f"$ sievebench-site {name}" in block) for name in ("untested", "diff --git", "why")}
    yield run("untested, as the page has it", room / "page", "untested site", find["untested"].partition("\n")[2].encode())
    yield run("why, as the page has it", room / "page", "why --main sales site 04-order.eml", find["why"].partition("\n")[2].encode())
    begin = "git init -q . && git add -A && git -c user.name=a -c user.email=a@b.example commit -qm one"
    edit = "sed -i 's/ :flags \"$Order\"//' site/personal/sales.sieve"
    yield Run("the page's repository", room / "page", begin)
    yield Run("sievebench-site: diff, as the page has it", room / "page", f"{edit}; python3 {shlex.quote(str(TOOL))} diff --git HEAD site", find["diff --git"].partition("\n")[2].encode(), status=1)


def of_sites(room):
    """All of them but those of tokens."""
    room = room / "questions"
    room.mkdir()
    for part in (of_untested, of_chains, of_diffs, of_revisions, of_answers, of_watching, of_many, of_pages):
        yield from some(part.__name__, part(room))
