"""Scripts of a site that run one after another: what becomes of a mail is compared with what `sieve-test -s` of Pigeonhole says, where that is
installed. What differs is named here, and stands in `docs/SITE.md`.
"""
import concurrent.futures
import itertools
import json
import os
import pathlib
import re
import shutil
import subprocess
import sys
import tempfile

from .files import write
from .runs import SECONDS, LeftOut
from .site_flags import MAIL, Stored, configured

TOOL = pathlib.Path(__file__).resolve().parent.parent / "sievebench-site"
# What a script of a chain does, by a name: each kind of action, flags, and an error of a run.
ACTS = {
    "nothing": "",
    "stop": "stop; discard;",
    "keep": "keep;",
    "keep-flags": 'keep :flags "$Y";',
    "keep-stop": "keep; stop; discard;",
    "discard": "discard;",
    "discard-keep": "discard; keep;",
    "store": 'fileinto "A";',
    "inbox": 'fileinto "INBOX";',
    "inbox-keep": 'fileinto "INBOX"; keep;',
    "store-keep": 'fileinto "A"; keep;',
    "copy": 'fileinto :copy "A";',
    "copy-inbox": 'fileinto :copy "INBOX";',
    "redirect": 'redirect "x@y.example";',
    "redirect-copy": 'redirect :copy "x@y.example";',
    "flag": 'addflag "$X";',
    "flag-keep": 'addflag "$X"; keep;',
    "keep-flag": 'keep; addflag "$X";',
    "flag-copy": 'addflag "$X"; fileinto :copy "A";',
    "unflag": 'setflag ["$X", "$Y"]; removeflag "$X"; keep;',
    "seen": 'setflag "\\\\Seen";',
    "error": 'fileinto :copy "B"; addflag "$X"; set "none" ""; redirect "a${none}";',
    "answer": 'vacation "away";',
    "reject": 'reject "no";',
    "shows": 'if hasflag "$X" { fileinto :copy "had-x"; } if hasflag "$Y" { fileinto :copy "had-y"; }',
}
FEW = ("nothing", "keep-flag", "keep-flags", "copy", "redirect-copy", "discard", "unflag", "inbox-keep", "error")
# What a script does that an earlier one did is dropped there, with its flags, and cancels nothing. Here flags are added, and a script that keeps nothing
# ends the chain.
DIFFER = {
    ("discard-keep", "discard"),
    ("inbox-keep", "inbox"),
    ("store-keep", "store"),
    ("store-keep", "flag-copy"),
    ("copy", "store"),
    ("copy", "flag-copy"),
    ("copy-inbox", "inbox"),
    ("redirect-copy", "redirect"),
    ("flag-copy", "store"),
    # A mail that was answered is discarded there, and not rejected.
    ("answer", "reject"),
}
# A word of a script, and the extension that it needs.
NEEDS = {"fileinto": "fileinto", ":copy": "copy", "flag": "imap4flags", "set ": "variables", "vacation": "vacation", "reject": "reject"}


def chains():
    """The chains that are compared: of two scripts all, and of three some."""
    yield from itertools.product(ACTS, repeat=2)
    yield from itertools.product(FEW, FEW, ("shows", "nothing", "error"))


def text(act, number):
    """The script: what it requires stands in one line, or in several with a comment before them."""
    names = ", ".join(f'"{name}"' for word, name in NEEDS.items() if word in ACTS[act])
    front = f"# {number}\nrequire [ # ;\n{names}];" if number % 2 else f"require [{names}];"
    return f"{front if names else ''} {ACTS[act]}\n".encode()


def there(output):
    """What becomes of the mail by what sieve-test prints: the actions but the keeps of scripts that others follow. An implicit keep after one by command
    is printed with the flags of its own time, and stores with those of the command (`site_flags`)."""
    told, kept, commanded = [], [], None
    for part in output.split("## Executing script: ")[1:]:
        # A script that fails prints nothing, and the mail is kept.
        kept = [] if "Implicit keep:" in part else [("implicit", "INBOX", "")]
        for section, kind in zip(part.split("Implicit keep:"), ("store", "implicit")):
            for action, beside in re.findall(r"^ \* (.*)\n((?:        \+ .*\n)*)", section, re.M):
                flags = " ".join(re.findall(r"add IMAP flags: (.*)", beside))
                found = re.fullmatch(r"(store|redirect|reject) message (?:in folder|to|with reason): <?(.*?)>?", action)
                if action == "keep":
                    commanded = flags if kind == "store" else commanded
                    kept.append((kind, "INBOX", flags if commanded is None else commanded))
                else:
                    told.append((found[1], found[2], flags) if found else (action.replace("send vacation message:", "vacation"), "", ""))
    return meaning(told + kept)


def here(verdict):
    """The same by the lines of a verdict."""
    told = []
    for line in verdict:
        what, *words = re.findall(r'"(?:[^"\\]|\\.)*"|\S+', line)
        words = [json.loads(word) for word in words if word.startswith('"')]
        if what != "error":
            told.append((what, words[0] if words and what != "vacation" else "", " ".join(words[1:])))
    return meaning(told)


def meaning(told):
    """Each action with its target, and the flags of all that are the same one."""
    found = {}
    for what, target, flags in told:
        found.setdefault((what, target), set()).update(flags.lower().split())
    return found


class Compared:
    """Whether chains come out as there, but for those that are known to differ, which do."""

    title, command = "sievebench-site: chains as in sieve-test", "sieve-test -s"

    def differences(self, path):
        """The chains that come out otherwise, or the same where they are named as others."""
        with tempfile.TemporaryDirectory(dir="/tmp") as room:
            room = pathlib.Path(room)
            room.chmod(0o755)
            made = list(chains())
            acts = {(number, act) for chain in made for number, act in enumerate(chain)}
            write(room, {f"site/personal/{number}-{act}.sieve": text(act, number) for number, act in acts})
            names = [[f"{number}-{act}" for number, act in enumerate(chain)] for chain in made]
            write(room, {"site/mains": "".join(f"{' '.join(it)}\n" for it in names).encode(), "site/mails/1.eml": MAIL, "site/with": b"vacation\nreject\n", "conf": configured(room)})
            command = [sys.executable, "-B", str(TOOL), "check", "--lax", "--json", "site"]
            done = subprocess.run(command, cwd=room, env={**os.environ, "PATH": path}, capture_output=True, timeout=SECONDS)
            cases = json.loads(done.stdout)["cases"] if done.returncode == 0 else []
            if [case["main"] for case in cases] != [" ".join(it) for it in names]:
                return [f"status {done.returncode}, {len(cases)} of {len(names)} cases: {done.stderr!r:.1000}"]
            with concurrent.futures.ThreadPoolExecutor(os.cpu_count()) as pool:
                outputs = list(pool.map(lambda it: run_there(room, it), names))
        told = [(chain, here(case["verdict"]), there(output)) for chain, case, output in zip(made, cases, outputs)]
        return [f"{chain}: here {one}, there {other}" for chain, one, other in told if (one == other) == (chain in DIFFER)]


def run_there(room, names):
    """What sieve-test prints of a chain."""
    *before, last = [f"site/personal/{name}.sieve" for name in names]
    scripts = [word for name in before for word in ("-s", name)]
    command = ["sieve-test", "-c", "conf", "-f", "a@b.example", "-a", "c@d.example", *scripts, last, "site/mails/1.eml"]
    return subprocess.run(command, cwd=room, stdout=subprocess.PIPE, stderr=subprocess.DEVNULL, timeout=SECONDS).stdout.decode()


def of_chains():
    """The comparisons, where there is something to compare with."""
    for made in (Compared, Stored):
        yield made() if shutil.which("sieve-test") else LeftOut(made.title, "since it isn't installed")
