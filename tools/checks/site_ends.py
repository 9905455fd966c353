"""How runs of `sievebench-site` end and what they leave, what they take of a machine, mails that are imported, and what
`examples/ci` has for servers."""
import os
import pathlib
import re
import shlex
import shutil
import signal
import subprocess
import sys
import time

from . import site_cautions
from .runs import SECONDS, LeftOut, Run, heeds, lines, some
from .site import PACK, TOOL, counted, run, site, told, write

DISCARDS = b"[main]\ndiscard\n"
SERVERS = TOOL.parent.parent / "examples/ci"
# A step of a file for servers that runs the tool.
STEP = r"^ *- (?:run: )?(bin/sievebench-site (?:lint|check) .*)"
# A program that says that it sleeps, in a file, before it answers anything.
SLOW = b'#!/bin/sh\n[ "$1" = --version ] || { : > asleep; exec sleep 30; }\nexec sievebench "$@"\n'
MEBIBYTE = 1 << 20
WRITTEN = ["envelope", "mails", "mails/1.eml", "mains", "personal", "personal/main.sieve", "program"]


class Ended:
    """A run that a signal ends at once, with its children, and quietly."""

    def __init__(self, title, room, words, number):
        self.title, self.command, self.room, self.words, self.number = title, words, room, words.split(), number

    def differences(self, path):
        """What is otherwise."""
        command = [sys.executable, "-B", str(TOOL), *self.words]
        with subprocess.Popen(command, cwd=self.room, env={**os.environ, "PATH": path}, stdout=subprocess.PIPE, stderr=subprocess.PIPE, preexec_fn=heeds) as child:
            try:
                end = time.monotonic() + SECONDS
                while not (self.room / "asleep").exists():
                    if child.poll() is not None or time.monotonic() > end:
                        return [f"no run sleeps in {SECONDS} seconds: status {child.poll()}"]
                    time.sleep(0.01)
                below = children(child.pid)
                child.send_signal(self.number)
                began = time.monotonic()
                got = child.communicate(timeout=SECONDS), child.returncode
                seconds = time.monotonic() - began
            finally:
                child.kill()
        found = [] if got == ((b"", b""), 128 + self.number) else [f"got {got}"]
        found += [] if below and seconds < 5 else [f"{len(below)} children, ended in {seconds:.1f} seconds"]
        found += [f"process {it} is left" for it in below if os.path.exists(f"/proc/{it}")]
        (self.room / "asleep").unlink()
        return found + ([] if listed(self.room) == WRITTEN else [f"files: {listed(self.room)}"])


def children(process):
    """The processes below another."""
    try:
        return [child for task in pathlib.Path(f"/proc/{process}/task").glob("*/children") for child in task.read_text().split()]
    except OSError:
        return []


def listed(room):
    """All files below a folder."""
    return sorted(str(path.relative_to(room)) for path in room.rglob("*"))


def of_ends(room):
    """Signals, the lock, and files that can't be written."""
    write(room / "slow", {**site({"1.eml": b""}, main=b"discard;"), "program": SLOW})
    (room / "slow/program").chmod(0o755)
    for command in ("check", "record"):
        for number in (signal.SIGINT, signal.SIGTERM):
            yield Ended(f"sievebench-site: {command} is ended by signal {number:d}", room / "slow", f"{command} --program ./program .", number)
    write(room / "held", site({"1.eml": b"a: b\n\n", "1.eml.expect": DISCARDS}, main=b"discard;"))
    holds = f"python3 -c 'import fcntl, os, subprocess, sys; file = open(\"held/.sievebench-site.lock\", \"w\"); fcntl.flock(file, fcntl.LOCK_EX); file.write(\"process 1 of ada on mail\"); file.flush(); sys.exit(subprocess.run(sys.argv[1:]).returncode)' python3 {shlex.quote(str(TOOL))}"
    for words in ("record held", "import held/mails/1.eml held"):
        yield Run(f"sievebench-site: somebody holds the site: {words}", room, f"{holds} {words}", b"", told('"held" is being written by process 1 of ada on mail: "held/.sievebench-site.lock"'), 2)
    yield run("a lock that is left of a run that was killed, which ends with the next", room, "record held; ls -A held", lines("1 mails, 0 written, 0 left", "envelope", "mails", "mains", "personal"))
    if os.path.ismount("/dev/shm"):
        write(room / "linked", site({"1.eml": b""}, main=b"discard;"))
        far = pathlib.Path(f"/dev/shm/sievebench-site.{os.getpid()}")
        (room / "linked/mails/1.eml.expect").symlink_to(far)
        far.touch()
        yield Run("sievebench-site: a link into another file system", room, f"python3 {shlex.quote(str(TOOL))} record linked; cat {far}; test -L linked/mails/1.eml.expect && rm {far}", lines("linked/mails/1.eml.expect: changed", "1 mails, 1 written, 0 left") + DISCARDS)
    else:
        yield LeftOut("sievebench-site: a link into another file system", "since /dev/shm is none")
    closed = f"python3 {shlex.quote(str(TOOL))} check slow --program sievebench >&-; echo $?"
    yield Run("sievebench-site: an output that is closed from the start", room, f"{{ {closed}; }} 2>&1 >told; cat told", lines("1"))
    yield run("colours are none where there is no terminal, and -q", room, "check -q slow --program sievebench", lines("slow/mails/1.eml under main: nothing is expected"), status=1)


def of_colours(room):
    """Lines on a terminal."""
    write(room / "tones", site({"1.eml": b"", "1.eml.expect": b'[main]\nredirect "a"\n'}, main=b"discard;"))
    terminal = "python3 -c 'import pty, sys; sys.exit(pty.spawn(sys.argv[1:]) >> 8)'"
    tool = f"python3 {shlex.quote(str(TOOL))} check tones"
    yield Run("sievebench-site: colours on a terminal", room, f"TERM=xterm {terminal} {tool} | tr -d '\\r'", lines("tones/mails/1.eml under main", '  \x1b[31m- redirect "a"\x1b[0m', "  \x1b[32m+ discard\x1b[0m  (tones/personal/main.sieve:1)", counted(1, 1, 1, 0, 1, 0, 0, 0)))
    for setting in ("NO_COLOR=1 TERM=xterm", "TERM=dumb"):
        yield Run(f"sievebench-site: no colours, {setting}", room, f"{setting} {terminal} {tool} | tr -d '\\r' | grep -c '^  - redirect \"a\"$'", b"1\n")


class Sized:
    """A run over large mails that takes no more memory than this, over all its processes."""

    def __init__(self, room, most):
        self.title, self.command, self.room, self.most = "sievebench-site: large mails", "check --lax --jobs 4 large", room, most

    def differences(self, path):
        """What is otherwise."""
        command = [sys.executable, "-B", str(TOOL), *self.command.split()]
        with subprocess.Popen(command, cwd=self.room, env={**os.environ, "PATH": path}, stdout=subprocess.PIPE) as child:
            most, end = 0, time.monotonic() + SECONDS
            while child.poll() is None:
                if time.monotonic() > end:
                    child.kill()
                    return [f"no end in {SECONDS} seconds"]
                most = max(most, sum(resident(it) for it in (child.pid, *map(int, children(child.pid)))))
                time.sleep(0.02)
            output = child.stdout.read()
        wanted = lines(counted(24, 2, 48, 0, 0, 48, 0, 0))
        found = [] if (output, child.returncode) == (wanted, 0) else [f"status {child.returncode}, {output!r:.500}"]
        return found if most < self.most else [*found, f"{most // MEBIBYTE} MiB"]


def resident(process):
    """The memory that a process has, as far as it is there."""
    try:
        text = pathlib.Path(f"/proc/{process}/status").read_text()
    except OSError:
        return 0
    found = re.search(r"VmRSS:\s*(\d+)", text)
    return int(found[1]) * 1024 if found else 0


def of_sizes(room):
    """What runs take of a machine."""
    write(room / "large", site({"00.eml": b"Subject: a\n\n" + b"text and more text\n" * 550_000}, main=b'if header "subject" "b" { discard; }', other=b""))
    for number in range(1, 24):
        (room / f"large/mails/{number:02}.eml").symlink_to("00.eml")
    yield Sized(room, 500 * MEBIBYTE)
    unjudged = [f"large/mails/00.eml under {main}: not judged: the program has no memory for it: --memory gives more" for main in ("main", "other")]
    end = "1 mails, 2 mains, 2 verdicts, 0 agree, 0 disagree, 0 without expectation, 0 stale expectations, 0 scripts with a fault, 2 not judged"
    yield run("a process that may take little memory", room, "check --memory 8M --only 00.eml large", lines(*unjudged, end), status=1)
    # Of the second mail a string of 400,000,000 octets is made: it is left out, and the others are judged.
    makes = b'require "variables"; if header :matches "subject" "*" { if string "' + b"${1}" * 40 + b'" "x" {} } discard;'
    mails = {f"{number}.eml": b"Subject: " + b"a" * size + b"\n\n" for number, size in enumerate((1, 10_000_000, 2), 1)}
    write(room / "scarce", site({**mails, **{f"{number}.eml.expect": DISCARDS for number in (1, 2, 3)}}, main=makes))
    refused = "scarce/mails/2.eml under main: not judged: the program has no memory for it: --memory gives more"
    yield run("a mail for which memory is refused", room, "check --memory 200M scarce", lines(refused, counted(3, 1, 3, 2, 0, 0, 0, 0, further=["1 not judged"])), status=1)
    yield run("it is left out of what is recorded", room, "record --memory 200M scarce", lines("3 mails, 0 written, 0 left, 1 verdicts not judged"))
    yield run("with more memory it is judged", room, "check --memory 2G scarce", lines(counted(3, 1, 3, 3, 0, 0, 0, 0)))
    yield run("several jobs", room, "check --lax --jobs 3 --only 00.eml --only 01.eml large", lines(counted(2, 2, 4, 0, 0, 4, 0, 0)))


def of_imports(room):
    """Mails that are imported."""
    mail = b"Return-Path: <a@b.example>\nDelivered-To: c@d.example\nSubject: one\n\n"
    write(room / "taken", {"site/mails/x": b"", "md/cur/1795931695.M1.host:2,S": mail, "md/new/1795931696.M2.host": mail + b"two", "md/tmp/x": b"", "box": b"From e@f.example Mon Jan  1 00:00:00 2026\n" + mail + b"three\n\nFrom a@b Mon\nSubject: four\n\nfour\n"})
    yield run("a Maildir and an mbox file", room / "taken", "import md box site; cat site/mails/*.envelope; ls site/mails", lines("site/with: new, with pigeonhole", "4 mails, 4 written, 0 left out, 1 without an envelope", *["a@b.example c@d.example"] * 3, *(f"{number:04}.eml{end}" for number in (1, 2, 3) for end in ("", ".envelope")), "0004.eml", "x"))
    yield run("none twice", room / "taken", "import md box md/cur/1795931695.M1.host:2,S site", lines("md/cur/1795931695.M1.host:2,S: left out: it is 0001.eml, octet by octet", "md/new/1795931696.M2.host: left out: it is 0002.eml, octet by octet", *(f"box, mail {number}: left out: it is {number + 2:04}.eml, octet by octet" for number in (1, 2)), "md/cur/1795931695.M1.host:2,S: left out: it is 0001.eml, octet by octet", "5 mails, 0 written, 5 left out"))
    yield Run("sievebench-site: the octets are the same", room / "taken", "cmp md/cur/* site/mails/0001.eml && cmp md/new/* site/mails/0002.eml && cat site/mails/0004.eml", lines("Subject: four", "", "four"))
    for pack, name in (("gzip -k", "gz"), ("bzip2 -k", "bz2"), ("xz -k", "xz"), ("zstd -q", "zst")):
        if shutil.which(pack.split()[0]):
            packed = f"{pack} box && python3 {shlex.quote(str(TOOL))} import md box.{name} site; status=$?; ls site/mails | wc -l; exit $status"
            yield Run(f"sievebench-site: what is packed by {pack.split()[0]} is refused, and nothing is taken", room / "taken", packed, lines("8"), told(f'"box.{name}" is packed by {pack.split()[0]}: unpack it, and take what comes of it'), 2)
    yield run("a program and an empty file are refused", room / "taken", "import $(command -v python3) site; touch empty; python3 %s import empty site" % shlex.quote(str(TOOL)), b"", [b'" is a program\n', b'"empty" is empty: there is no mail in it\n'], 2)


COMPLETION = TOOL.parent / "completion.bash"
COMPLETES = """bash -c 'source "$0"; COMP_WORDS=("$@"); COMP_CWORD=$(($# - 1)); _sievebench "$1" "${@: -1}" "${@: -2:1}"; printf "%s\\n" "${COMPREPLY[@]}"' """


def of_completion(room):
    """What bash completes."""
    chain = {"mains": b"sales: before/10 main\nbefore/10 \"a b\"\n", "before/10.sieve": b"", "mails/1.eml": b"", "mails/2 a.eml": b""}
    users = {f"users/{name}/personal/{script}.sieve": b"" for name in ("ada", "eva") for script in ("main", "a b")}
    write(room / "offers", {**chain, **users, "users/eva/mails/3.eml": b""})
    for words, wanted in [
        ("check offers --user ''", ["ada", "eva"]),
        ("check offers --main ''", ["sales", "a b"]),
        ("check offers --main s", ["sales"]),
        ("record offers --only ''", ["1.eml", "2 a.eml", "3.eml"]),
        ("why offers 2", ["2 a.eml"]),
        ("why of", ["offers"]),
        ("check offers --ut", ["--utf8"]),
        ("check offers --no", ["--no-utf8"]),
        ("check offers --mem", ["--memory"]),
        ("check offers --mer", ["--merge"]),
        ("import offers --me", []),
        ("record offers --", ["--help", "--utf8", "--no-utf8", "--user", "--main", "--clock", "--program", "--memory", "--quiet", "--only", "--jobs", "--force", "--prune"]),
        ("check nowhere --user ''", []),
    ]:
        yield Run(f"completion of sievebench-site {words}", room, f"{COMPLETES} {shlex.quote(str(COMPLETION))} {shlex.quote(str(TOOL))} {words}", lines(*(wanted or [""])))


def of_servers(room):
    """What is there for servers."""
    room = room / "repository"
    write(room, {"bin/x": b"", **{f"site/{name}": octets for name, octets in site({"1.eml": b"Subject: a\r\n\r\n", "1.eml.expect": DISCARDS}, main=b"discard;").items()}, ".gitattributes": (SERVERS / "gitattributes").read_bytes()})
    made = f'test -e bin/sievebench || {{ ln -s "$(readlink -f "$(command -v sievebench)")" bin/sievebench; python3 {shlex.quote(str(PACK))} bin/sievebench-site; }}'
    found = f'{made}; export PATH="$PWD/bin:$PATH";'
    shutil.copy(SERVERS / "check.sh", room)
    agree = lines(counted(1, 1, 1, 1, 0, 0, 0, 0))
    yield Run("examples for servers: check.sh", room, f"{found} rm -f results.xml; ./check.sh && head -c 5 results.xml", agree + b"<?xml")
    for form in ("github", "gitlab"):
        steps = re.findall(STEP, (SERVERS / f"{form}.yml").read_text(encoding="utf-8"), re.M)
        assert steps, f"examples for servers: {form}.yml has no step"
        yield Run(f"examples for servers: {form}.yml", room, f"{found} {' && '.join(steps)}", agree if form == "gitlab" else b"")
    yield from of_parts(room, found, agree)
    if not shutil.which("git"):
        yield LeftOut("examples for servers: hooks", "since git isn't installed")
        return
    name = "git config user.name a && git config user.email a@b.example"
    for hook in ("pre-commit", "pre-receive"):
        shutil.copy(SERVERS / hook, room)
    start = f"{found} git init -q . && {name} && git config core.autocrlf true && git add site .gitattributes 2> /dev/null && git commit -qm one && git cat-file -s HEAD:site/mails/1.eml"
    yield Run("examples for servers: line ends of mails in git", room, start, b"14\n")
    hook = "install -m 755 pre-commit .git/hooks/pre-commit && printf 'keep;' > site/personal/main.sieve && git add site && printf 'discard;' > site/personal/main.sieve"
    wrong = ["site/mails/1.eml under main", "  - discard", '  + store "INBOX"  (site/personal/main.sieve:1)']
    yield Run("examples for servers: its hook before a commit", room, f"{found} {hook} && git commit -qm two; echo $?; git add site && git commit -q --allow-empty -m two; echo $?", lines("1", "0"), [line.encode() for line in wrong])
    server = f"{found} git init -q --bare ../server && install -m 755 pre-receive ../server/hooks/pre-receive && git push -q ../server HEAD:main && printf 'keep;' > site/personal/main.sieve && git commit -qnam three && git push -q ../server HEAD:main; echo $?; git -C ../server log --format=%s main"
    yield Run("examples for servers: its hook of a server", room, server, lines("1", "two", "one"), [line[-12:].encode() for line in wrong])
    lint = f"{found} printf 'discard;' > site/personal/main.sieve && printf 'redirect \"x\";' > site/personal/other.sieve && git add site && git commit -qnm four && git push -q ../server HEAD:main; echo $?"
    yield Run("examples for servers: its hook finds faults that no mail comes to", room, lint, lines("1"), [b"site/personal/other.sieve:1: bad-address: This isn't one address."])
    bare = f"{found} git rm -qr site && git commit -qnm five && git push -q ../server HEAD:pages; echo $?; git -C ../server log --format=%s -n 1 pages"
    yield Run("examples for servers: its hook passes a branch without a site", room, bare, lines("0", "five"), [b"refs/heads/pages has no folder site: no filters are checked"])


def of_parts(room, found, agree):
    """What is there for servers on which several jobs share a site: each of them, and then the one that makes one result of theirs."""
    for form, jobs in (("github", "shard: [1, 2, 3, 4]"), ("gitlab", "parallel: 4\n")):
        text = (SERVERS / f"{form}-shards.yml").read_text(encoding="utf-8")
        shared, *rest = re.findall(STEP, text, re.M)
        assert jobs in text and " --shard " in shared and len(rest) == 2, f"examples for servers: {form}-shards.yml"
        parts = [f"{{ CI_NODE_INDEX={number}; CI_NODE_TOTAL=4; {shared.replace('${{ matrix.shard }}', str(number))}; }}" for number in range(1, 5)]
        steps = " && ".join([*parts, *rest])
        copied = f"{found} mkdir parts && cp -R bin site parts && cd parts"
        yield Run(f"examples for servers: {form}-shards.yml", room, f"{copied} && {steps}", agree if form == "gitlab" else b"")
        place, store = "site/mails/1.eml under main", '+ store "INBOX"  (site/personal/main.sieve:1)'
        wrong = lines(f"::error file=site/mails/1.eml.expect,line=1,title=disagrees::{place}%0A- discard%0A{store}")
        wrong = wrong if form == "github" else lines(place, "  - discard", f"  {store}", counted(1, 1, 1, 0, 1, 0, 0, 0))
        changed = "cd parts && printf 'keep;' > site/personal/main.sieve"
        yield Run(f"examples for servers: {form}-shards.yml, where a verdict disagrees", room, f"{changed}; {steps}; status=$?; cd .. && rm -r parts; exit $status", wrong, status=1)


def of_sites(room):
    """All of them."""
    room = room / "ends of sites"
    room.mkdir()
    for part in (of_ends, of_colours, of_sizes, of_imports, of_completion, of_servers, site_cautions.of_sites):
        yield from some(part.__name__, part(room))
