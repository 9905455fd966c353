"""The commands of the README, run at the top of the repository as they stand there.

A block ```` ```sh ```` holds commands, and the block without a word that follows it holds what they print. Commands that prove or install
have none: they aren't run, but files of the repository must be executable, and a package is of the newest version. In the place of `rt try`, which builds a program without proofs and runs it in
a folder of its own, stands a script that runs the program that is tested.
"""
import os
import pathlib
import re
import shlex

from .packages import VERSION
from .runs import Reading, Run

TOP = pathlib.Path(__file__).resolve().parent.parent.parent
PROVE = ["tools/install", "tools/package", ".ci/run", "tools/check"]
INSTALL = f"sudo apt install ./sievebench_{VERSION}_amd64.deb"
BLOCK = re.compile(r"^```sh\n(.*?)^```\n(?:\n```\n(.*?)^```\n)?", re.M | re.S)
TRY = """#!/bin/sh
[ "${PWD##*/} $1 $2" = "sievebench_cli try --" ] || exit 70
shift 2
cd "${0%/*}" && exec sievebench "$@"
"""


class Proving:
    """A command that isn't run."""

    def __init__(self, command):
        self.title, self.command = "README", command

    def differences(self, path):
        """What is missing for it to be run, or to be reported."""
        if self.command == INSTALL:
            return []
        file = shlex.split(self.command, comments=True)[0]
        if file not in PROVE:
            return ["no block after it holds what it prints"]
        return [] if os.access(TOP / file, os.X_OK) else [f"{file} can't be executed"]


class Blocks(Reading):
    """Whether each block of the page is one of commands, or one of what commands print."""

    title, command = "README", "its blocks"

    def found(self, path):
        """What else stands between fences."""
        text = (TOP / "README.md").read_text(encoding="utf-8")
        self.looked = len(BLOCK.findall(text))
        return [f"a fence stands alone: {line}" for line in BLOCK.sub("", text).splitlines() if line.startswith("```")]


def of_blocks(room):
    """The commands of all blocks."""
    yield Blocks()
    kit = room / "kit"
    kit.mkdir()
    (kit / "rt").write_text(TRY)
    (kit / "rt").chmod(0o755)
    for commands, printed in BLOCK.findall((TOP / "README.md").read_text(encoding="utf-8")):
        if printed:
            yield Run("README", TOP, f"PATH={shlex.quote(str(kit))}:$PATH\n{commands}", printed.encode())
        else:
            yield from map(Proving, commands.splitlines())
