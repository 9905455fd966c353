"""Flags of scripts of a site that run one after another: what is stored of a mail, and with which flags, is compared with what `sieve-test -e -s` of
Pigeonhole stores, in chains that are made at random, where that is installed.
"""
import concurrent.futures
import json
import os
import pathlib
import random
import re
import subprocess
import sys
import tempfile

from .files import write
from .runs import SECONDS

TOOL = pathlib.Path(__file__).resolve().parent.parent / "sievebench-site"
MAIL = b"From: a@b.example\nTo: c@d.example\nSubject: one\n\ntext\n"
CHAINS, SCRIPTS, SEED = 600, 60, 8
FLAGS = ("$A", "$B", "$C", "\\\\Seen")
MARKS = {"S": "\\seen", "F": "\\flagged", "R": "\\answered", "T": "\\deleted", "D": "\\draft"}
REQUIRES = 'require ["imap4flags", "fileinto", "copy"];\n'


def chains(source):
    """The chains, each another one of two to four scripts by their numbers."""
    made = {}
    while len(made) < CHAINS:
        made[tuple(source.sample(range(SCRIPTS), source.randint(2, 4)))] = None
    return list(made)


def script(source, number):
    """A script of some commands, which stores into a mailbox of its own. It keeps by command once at most, since the flags of two stores into one
    mailbox are added here."""
    acts = [act(source) for _ in range(source.randint(0, 3))]
    if source.random() < 0.5:
        acts.insert(source.randint(0, len(acts)), keep(source))
    if source.random() < 0.3:
        acts.insert(source.randint(0, len(acts)), f'fileinto :copy{tagged(source)} "M{number}";')
    return REQUIRES + "\n".join(acts) + "\n"


def act(source):
    """A command that changes the internal flags, maybe by what they are."""
    change = f'{source.choice(["addflag", "addflag", "setflag", "removeflag"])} "{source.choice(FLAGS)}";'
    return f'if hasflag "{source.choice(FLAGS)}" {{ {change} }}' if source.random() < 0.3 else change


def keep(source):
    """A `keep`, maybe with flags, and maybe where a flag is set."""
    keeps = f"keep{tagged(source)};"
    return f'if hasflag "{source.choice(FLAGS)}" {{ {keeps} }}' if source.random() < 0.2 else keeps


def tagged(source):
    """The tag of flags, or none."""
    flags = ", ".join(f'"{it}"' for it in source.sample(FLAGS, source.randint(0, 2)))
    return f" :flags [{flags}]" if flags and source.random() < 0.5 else ""


def here(verdict):
    """What is stored by a verdict: the mailboxes, each with its flags."""
    words = [re.findall(r'"(?:[^"\\]|\\.)*"|\S+', line) for line in verdict]
    return sorted([json.loads(it[1]), sorted(json.loads(flag).lower() for flag in it[2:])] for it in words if it[0] in ("store", "implicit"))


def there(folder):
    """The same by the files of a Maildir."""
    stored = []
    for path in (it for it in folder.rglob("*") if it.parent.name in ("cur", "new")):
        box = path.parent.parent
        listed = box / "dovecot-keywords"
        keywords = dict(line.split(" ", 1) for line in listed.read_text().splitlines()) if listed.exists() else {}
        marks = path.name.partition(":2,")[2]
        flags = sorted(MARKS[it] if it in MARKS else keywords[str(ord(it) - ord("a"))].lower() for it in marks)
        stored.append(["INBOX" if box == folder else box.name.lstrip("."), flags])
    return sorted(stored)


def configured(room):
    """Settings for sieve-test: it runs as nobody where it can't as this user."""
    user = "mail_uid = nobody\nmail_gid = nogroup\n" if os.getuid() == 0 else ""
    return f"{user}mail_location = maildir:{room}/mail\npostmaster_address = postmaster@office.example\n".encode()


class Stored:
    """Whether chains of flags come out as there."""

    title, command = f"sievebench-site: {CHAINS} chains of flags as sieve-test stores them", "sieve-test -e -s"

    def differences(self, path):
        """The chains that come out otherwise."""
        with tempfile.TemporaryDirectory(dir="/tmp") as room:
            room = pathlib.Path(room)
            room.chmod(0o777)
            source = random.Random(SEED)
            scripts = [script(source, number) for number in range(SCRIPTS)]
            names = [[str(it) for it in chain] for chain in chains(source)]
            write(room, {f"site/personal/{number}.sieve": text.encode() for number, text in enumerate(scripts)})
            write(room, {"site/mains": "".join(f"{' '.join(it)}\n" for it in names).encode(), "site/mails/1.eml": MAIL})
            verdicts = verdicts_of(room, path)
            if len(verdicts) != len(names):
                return [f"{len(verdicts)} of {len(names)} cases"]
            with concurrent.futures.ThreadPoolExecutor(os.cpu_count()) as pool:
                stored = list(pool.map(lambda it: stored_by(room, *it), enumerate(names)))
        told = [(chain, here(verdict), other) for chain, verdict, other in zip(names, verdicts, stored)]
        return [f"{[scripts[int(it)] for it in chain]}: here {one}, there {other}" for chain, one, other in told if one != other]


def verdicts_of(room, path):
    """The verdicts of the tool, in the order of the main scripts; fewer where it fails."""
    command = [sys.executable, "-B", str(TOOL), "check", "--lax", "--json", "site"]
    done = subprocess.run(command, cwd=room, env={**os.environ, "PATH": path}, capture_output=True, timeout=SECONDS)
    return [case["verdict"] for case in json.loads(done.stdout)["cases"]] if done.returncode == 0 else []


def stored_by(room, number, names):
    """What sieve-test stores under a chain."""
    own = room / f"there{number}"
    for folder in (own / "mail", *(own / f"mail/.M{name}/{part}" for name in names for part in ("cur", "new", "tmp"))):
        folder.mkdir(parents=True)
    for folder in (own, *own.rglob("*")):
        folder.chmod(0o777)
    (own / "conf").write_bytes(configured(own))
    *before, last = [f"../site/personal/{name}.sieve" for name in names]
    words = ["sieve-test", "-e", "-c", "conf", *(word for name in before for word in ("-s", name)), last, "../site/mails/1.eml"]
    subprocess.run(words, cwd=own, stdout=subprocess.DEVNULL, stderr=subprocess.DEVNULL, timeout=SECONDS)
    return there(own / "mail")
