"""Tries edits in a copy of the checkout, by `rt ci`: some kits take crates there, and begin with the libraries that an earlier run on this machine
proved; for others the copy has just these crates and those below them, which are proved once more, side by side.

(`rt must-fail` would prove all libraries below once more under each kit, one after the other.)
"""
import os
import pathlib
import re
import shutil
import subprocess
import sys
import tempfile

from . import lock
from .files import at, changed, end_of

TOLD = re.compile(r"must-fail (\w+)/(\S+\.edit): (.*)")
# The status of `rt` where it can't take its words.
MISUSE = 2
REFUSED = re.compile(r"refused, as it must be: (?:note: )?(?:\./)?(src|proofs)/(\S+?):(\d+):\d+: (?:error: `([^`]*)`)?")


def copied(top, room, edits):
    """Copies what `rt` reads to a folder, with these edits where it looks for them."""
    shutil.copytree(top / "crates", room / "crates", ignore=shutil.ignore_patterns("out", "must-fail"))
    for name in ("crates.txt", "HANDLES"):
        shutil.copy(top / name, room / name)
    # It is the top of a repository.
    (room / ".git").mkdir()
    for edit in edits:
        folder = room / "crates" / edit.crate / "must-fail"
        folder.mkdir(exist_ok=True)
        (folder / edit.name).write_text(edit.text(), encoding="utf-8")


def tried(index, top, edits):
    """Tries edits, and gives what is wrong with each crate's, by crate: sentences, none where all its edits are refused at their own goals."""
    with tempfile.TemporaryDirectory(prefix="sievebench-edits-") as room:
        copied(top, pathlib.Path(room), edits)
        told, whole = run(pathlib.Path(room), sorted({it.crate for it in edits}))
    found = {edit.crate: [] for edit in edits}
    for edit in edits:
        why = fault(index, edit, told.get((edit.crate, edit.name)))
        found[edit.crate] += [f"{edit.place()}: {why}"] if why else []
    if not whole:
        found = {crate: why or [f"edits/{crate}: rt ci failed"] for crate, why in found.items()}
    return found


def run(room, crates):
    """Runs `rt ci` over crates in a folder, and gives what it says of each edit, and whether it passed."""
    told, status = told_by(["rt", "ci", *crates], room)
    if status == MISUSE and not told:
        leave(room, crates)
        told, status = told_by(["rt", "ci"], room)
    if status:
        print(f"edits: rt ci ended with status {status}", file=sys.stderr)
    return told, not status


def leave(room, crates):
    """Leaves only these crates in a folder, and those below them."""
    rows = lock.below(room)
    wanted = with_below(rows, crates)
    (room / "crates.txt").write_text("".join(f"{rows[it][0]}: {' '.join(rows[it][1])}\n" for it in wanted), encoding="utf-8")
    for path in (room / "crates").iterdir():
        if path.name not in wanted:
            shutil.rmtree(path)


def with_below(rows, crates):
    """These crates and those of this repository below them, each once, by the rows of `crates.txt`."""
    found, waiting = [], list(crates)
    while waiting:
        crate = waiting.pop()
        if crate not in found:
            found.append(crate)
            waiting += rows[crate][2]
    return found


def told_by(words, room):
    """Runs a command of `rt` in a folder, shows what it says of its own, and gives what it says of each edit, and its status."""
    env = {name: value for name, value in os.environ.items() if name != "CI"}
    told = {}
    with subprocess.Popen(
        words, cwd=room, env=env, stdin=subprocess.DEVNULL, stdout=subprocess.PIPE, stderr=subprocess.STDOUT, text=True, errors="replace"
    ) as ran:
        for line in ran.stdout:
            it = TOLD.search(line)
            if it:
                told[it[1], it[2]] = it[3]
            if line.startswith("rt: "):
                print(line.rstrip("\n"), flush=True)
    return told, ran.returncode


def fault(index, edit, told):
    """What is wrong with how a try of an edit ended, if anything."""
    if told is None:
        return "it wasn't tried"
    it = REFUSED.match(told)
    if not it:
        return f"change one value and keep the names: {told}" if told.startswith("refused") else told
    part, file, line, goal = it[1], it[2], int(it[3]), it[4] or ""
    goals = proved_by(index, edit.crate, file, goal) if part == "proofs" else there(index, edit.crate, file, line)
    return None if is_own(changed(index, edit), goals) else f"it is refused at a goal of something else: {told}"


def there(index, crate, file, line):
    """The item of the code that stands at a line of a file, if there is one."""
    for source in index.sources.values():
        if source.file == f"crates/{crate}/src/{file}":
            lines = source.text.split("\n")[:line]
            item = at(source, len("\n".join(lines)) - len(lines[-1].lstrip()))
            return [item] if item else []
    return []


def proved_by(index, crate, file, goal):
    """The functions to which a goal in a file of proofs may belong. Its folders end in their type, which may have more words, and their name; those
    that call one another have one folder, which is named by their cycle, and there the goal begins with the function."""
    *around, name, _ = file.split("/")
    functions = [it for source in index.sources.values() if source.crate == crate for it in source.functions]
    if name.startswith("+"):
        cycle = f"#[cycle({name[1:]})]"
        return [it for it in functions if cycle in it.source.text[it.start : it.head] and goal.startswith(f"{it.name}-")]
    return [it for it in functions if it.name == name and (not it.around or around and around[-1].startswith(it.around.owner))]


def is_own(items, goals):
    """Whether one of these items with goals is one that an edit changes, or names one of these."""
    names = re.compile("|".join(rf"\b{re.escape(it.name)}\b" for it in items))
    return any(it in items or names.search(it.source.text[it.start : end_of(it)]) for it in goals)
