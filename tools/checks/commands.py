"""How each tool takes its words: `--help` prints its text, and words that it doesn't take end it before it does anything, with a line on standard
error and status 2. Beside it nothing is in the path but what prints its text, so that whatever else it began would fail."""
import os
import pathlib
import shlex
import shutil
import sys

from .files import write
from .runs import Reading, Run, lines

TOOLS = pathlib.Path(__file__).resolve().parent.parent
COMMANDS = ["bash", "dirname", "sed"]
# Of each tool how its text begins, its usage, and words that are too few or too many for it, with what it takes.
TEXTS = {
    "audit": ("Prints what a promise stands on: ", ["tools/audit [--count] NAME.."], {"": ("few", "NAME.."), "--count": ("few", "NAME..")}),
    "bench": ("Measures the built program: ", ["tools/bench [--peers] [PROGRAM]"], {"--peers a b": ("many", "[PROGRAM]")}),
    "check": (
        "Runs the built program over the examples, ",
        ["tools/check [--requests] [PROGRAM [CALLS]]", "tools/check --try [--requests]"],
        {"a b c": ("many", "[PROGRAM [CALLS]]"), "--try a": ("many", "none"), "--requests --try a": ("many", "none")},
    ),
    "edits": ("Tries the must-fail edits: ", ["tools/edits [CRATE..]", "tools/edits --all", "tools/edits --list"], {"--all a": ("many", "none")}),
    "install": ("Proves and builds the program, and installs it.", ["tools/install [PREFIX]"], {"a b": ("many", "[PREFIX]")}),
    "make-session": (
        "Writes a session for `sievebench session`: ",
        ["tools/make-session [--main NAME] [--global DIR] [--envelope FROM TO] [--mailbox BOX] SCRIPTS MAILS | sievebench session"],
        {"a": ("few", "SCRIPTS MAILS"), "a b c": ("many", "SCRIPTS MAILS")},
    ),
    "manual": ("Makes the pages of the manual.", ["tools/manual FOLDER PROGRAM"], {"": ("few", "FOLDER PROGRAM"), "a": ("few", "FOLDER PROGRAM"), "a b c": ("many", "FOLDER PROGRAM")}),
    "package": ("Makes a package for Debian and its kin, ", ["tools/package [OUT]"], {"a b": ("many", "[OUT]")}),
    "programs": ("Proves and builds the program, and makes one file ", ["tools/programs FOLDER"], {"": ("few", "FOLDER"), "a b": ("many", "FOLDER")}),
    "tables": ("Makes docs/CLAUSES.md and docs/RULES.md from the sources, ", ["tools/tables"], {"a": ("many", "none")}),
    "try-rows": ("Runs the rows of `examples/rows` by a program that isn't proved, ", ["tools/try-rows [WORD..]"], {}),
    "site/check": ("Tests the package in this folder: ", ["tools/site/check"], {"a": ("many", "none")}),
    "site/pack.py": ("Makes one executable file of the tool for sites. ", ["tools/site/pack.py FILE"], {"": ("few", "FILE"), "a b": ("many", "FILE")}),
}
# A tool of several forms, and what comes of words: what it prints, or its sentence.
SAMPLE = '''#!/usr/bin/env python3
"""Prints what it is given.

    tools/sample [--count] [--between FROM TO] NAME..
    tools/sample --all [--count] | cat
"""
import sys

sys.dont_write_bytecode = True

from command import given

print(*given(__doc__))
'''
SAMPLES = {
    "a": "{} ['a']",
    "a --count b": "{'--count': []} ['a', 'b']",
    "--between --count -- a": "{'--between': ['--count', '--']} ['a']",
    "--count -- a --count -- --help": "{'--count': []} ['a', '--count', '--', '--help']",
    "--all": "{'--all': []} []",
    "--count --all": "{'--count': [], '--all': []} []",
}
REFUSED = {
    "": "too few words: it takes NAME..",
    "--count": "too few words: it takes NAME..",
    "--all a": "too many words: it takes none",
    "--all --between a b": "--all and --between don't go together",
    "a --between b": "too few words after --between",
    "a --count --count": "--count stands twice",
    "a -c": "there is no option -c",
    "a -": "there is no option -",
    "a --counts": "there is no option --counts",
    "a --count=1": "there is no option --count=1",
    "--none --help": "there is no option --none",
    "--m\u00e4in": "there is no option --m\\xc3\\xa4in",
}


class Listed(Reading):
    """Whether each tool that can be run stands above. That for sites has its own help and its own checks."""

    title, command = "tools whose words are checked", "tools"

    def found(self, path):
        """Those that don't, and those that aren't there."""
        files = [it for folder in (TOOLS, TOOLS / "site") for it in folder.iterdir() if it.is_file() and os.access(it, os.X_OK)]
        tools = {str(it.relative_to(TOOLS)) for it in files} - {"sievebench-site"}
        self.looked = len(tools)
        return [f"tools/{it}: it stands in one of TEXTS and the folder alone" for it in sorted(tools ^ set(TEXTS))]


def of_tools(room):
    """The text of each, and what it refuses."""
    yield Listed()
    (room / "kit").mkdir()
    (room / "kit/python3").symlink_to(sys.executable)
    for command in COMMANDS:
        (room / "kit" / command).symlink_to(shutil.which(command))
    for tool, (begin, usage, amounts) in TEXTS.items():
        run = f"PATH={shlex.quote(str(room / 'kit'))} {shlex.quote(str(TOOLS / tool))}"
        name, see = tool.rpartition("/")[2], f"; see tools/{tool} --help"
        for word in ("--help", "-h"):
            yield Run(f"tools/{tool} {word}", room, f"{run} {word}", [begin.encode(), "".join(["\n\n", *(f"    {line}\n" for line in usage)]).encode()])
        for word in ("--none", "-x", "a --none"):
            yield Run(f"tools/{tool} {word}", room, f"{run} {word}", b"", lines(f"{name}: there is no option {word.split()[-1]}{see}"), 2)
        for words, (amount, takes) in amounts.items():
            yield Run(f"tools/{tool} {words}", room, f"{run} {words}", b"", lines(f"{name}: too {amount} words: it takes {takes}{see}"), 2)


def of_samples(room):
    """What a tool is given, and what it never is."""
    write(room, {"tools/sample": SAMPLE.encode(), "tools/command.py": (TOOLS / "command.py").read_bytes()})
    run = f"{shlex.quote(sys.executable)} tools/sample"
    for words, told in SAMPLES.items():
        yield Run(f"words that are taken: {words}", room, f"{run} {words}", lines(told))
    for words, sentence in REFUSED.items():
        yield Run(f"words that aren't taken: {words}", room, f"{run} {words}", b"", lines(f"sample: {sentence}; see tools/sample --help"), 2)
    text = SAMPLE.split('"""')[1].encode()
    for words in ("--help", "a -h", "--count --help --none"):
        yield Run(f"words that ask for the text: {words}", room, f"{run} {words}", text)


def of_words(room):
    """All of them."""
    yield from of_tools(room)
    yield from of_samples(room)
