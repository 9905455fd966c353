"""The names that a site's file `with` may have are those that the program takes, and the set `pigeonhole` is what Pigeonhole knows by default,
where that is installed.
"""
import os
import pathlib
import re
import shutil
import subprocess
import sys
import tempfile

from .runs import SECONDS, LeftOut, Reading

TOP = pathlib.Path(__file__).resolve().parent.parent
LISTED = """import sys
sys.path.insert(0, "site")
from sievebench_site.names import NAMES
print(*(f"{name.decode()} {int(there)}" for name, there in NAMES.items()))
"""
SETS = ("all", "pigeonhole")
# A charset of those that `charsets` adds, which is no extension that a script may require: this is its letter.
CHARSET = b"Subject: =?windows-1252?Q?=80?=\n\n"
DECODES = 'require "fileinto"; if header :is "subject" "\u20ac" { fileinto "decoded"; }'.encode()
USER = "mail_uid = nobody\nmail_gid = nogroup\n" if os.getuid() == 0 else ""


def ours():
    """The names, each with whether Pigeonhole is said to know it."""
    done = subprocess.run([sys.executable, "-B", "-c", LISTED], cwd=TOP, capture_output=True, text=True, check=True, timeout=SECONDS)
    words = done.stdout.split()
    names = {}
    for name, there in zip(words[::2], words[1::2]):
        names[name] = there == "1"
    return names


class Taken(Reading):
    """Whether the program takes these names and no others."""

    title, command = "sievebench-site: the names of the file with are the program's", "sievebench dump --with"

    def found(self, path):
        """The names that only one of them has."""
        env = {**os.environ, "PATH": path}
        done = subprocess.run(["sievebench", "dump", "--with", "none", "script"], env=env, capture_output=True, text=True, timeout=SECONDS)
        (listed,) = re.findall(r"\[possible values: (.*)\]", done.stderr)
        self.looked = len(ours())
        return [f"only one has {name}" for name in sorted(set(listed.split(", ")) ^ {*ours(), *SETS})]


class Stands(Reading):
    """Whether a set stands for the same names in the program and in the file `with`."""

    title, command = "sievebench-site: the sets of the file with are the program's", "sievebench session --with"

    def found(self, path):
        """The names that only one of them has."""
        env = {**os.environ, "PATH": path}
        names = ours()
        wrong = []
        for it in SETS:
            done = subprocess.run(["sievebench", "session", "--with", it], env=env, input="report\n", capture_output=True, text=True, timeout=SECONDS)
            (listed,) = re.findall(r"(?m)^with (.*)$", done.stdout)
            wanted = {name for name, there in names.items() if there or it == "all"}
            self.looked += len(wanted)
            wrong += [f"only one has {name} in {it}" for name in sorted(set(listed.split()) ^ wanted)]
        return wrong


class KnownThere(Reading):
    """Whether Pigeonhole knows what the set says."""

    title, command = "sievebench-site: the set pigeonhole is what it knows", "sievec"

    def found(self, path):
        """The names of which something else is said."""
        with tempfile.TemporaryDirectory(dir="/tmp") as room:
            room = pathlib.Path(room)
            room.chmod(0o755)
            there = {name: decodes(room) if name == "charsets" else compiles(room, name) for name in ours()}
        self.looked = len(there)
        return [f"{name}: it is {knows}, and said to be {not knows}" for name, knows in there.items() if knows != ours()[name]]


def compiles(room, name):
    """Whether sievec compiles a script that requires a name."""
    (room / "main.sieve").write_text(f'require "{name}";\n')
    done = subprocess.run(["sievec", room / "main.sieve", room / "main.svbin"], capture_output=True, timeout=SECONDS)
    return done.returncode == 0


def decodes(room):
    """Whether encoded words of a further charset are decoded."""
    files = {"conf": f"{USER}mail_location = maildir:{room}/mail\n".encode(), "main.sieve": DECODES, "1.eml": CHARSET}
    for name, octets in files.items():
        (room / name).write_bytes(octets)
    done = subprocess.run(["sieve-test", "-c", "conf", "main.sieve", "1.eml"], cwd=room, capture_output=True, timeout=SECONDS)
    return b"in folder: decoded" in done.stdout


def of_names(room):
    """Both comparisons, the second where there is something to compare with."""
    yield Taken()
    yield Stands()
    yield KnownThere() if shutil.which("sievec") else LeftOut(KnownThere.title, "since it isn't installed")
