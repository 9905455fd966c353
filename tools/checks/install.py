"""What `tools/install` does, in copies of the files that it needs. In the place of `rt` stands a script, so that nothing is proved."""
import os
import pathlib
import shutil
import sys

from .files import write
from .runs import Run, lines

TOOLS = pathlib.Path(__file__).resolve().parent.parent
# What it and the script for `rt` call: nothing else is in the path that it is given.
COMMANDS = ["bash", "cat", "chmod", "dirname", "install", "mkdir", "mktemp", "mv", "realpath", "rm", "sed"]
INSTALL = 'PATH="$PWD/kit" tools/install'
BUILDS = b"""#!/bin/sh
echo "rt $*, in ${PWD##*/}"
mkdir -p out
printf '#!/bin/sh\\necho new "$@"\\n' > out/sievebench_cli
chmod 700 out/sievebench_cli
"""
OLD = {"p/bin/sievebench": b"#!/bin/sh\necho old\n"}
# The tool for sites, with what makes one file of it, and what stands for the maker of the manual, and for lowdown, which it needs.
PACK = "tools/site/pack.py"
SCRIPTS = ["tools/install", "tools/programs", PACK]
COMMAND = ["tools/command.sh", "tools/command.py"]
SITE = {**{it: (TOOLS.parent / it).read_bytes() for it in SCRIPTS + COMMAND}, "tools/completion.bash": b"completion\n", "tools/site/__main__.py": b"import sievebench_site\n", "tools/site/sievebench_site/__init__.py": b'print("site")\n', "tools/site/other.py": b""}
PAGES = ["sievebench.1", "sievebench-site.1", "sievebench-session.5"]
MAKER = b'#!/bin/sh\nmkdir "$1"\nfor page in %s; do "$2" "$page" > "$1/$page"; done\n' % " ".join(PAGES).encode()
MANUAL = {"tools/manual": MAKER, "kit/lowdown": b"#!/bin/sh\n"}


def copy(room, rt, files):
    """A folder with what is needed of a repository, a script for `rt`, if any, and other files."""
    top = room / str(len(list(room.iterdir())))
    write(top, {"crates/sievebench_cli/args": b"", **SITE, **({"kit/rt": rt} if rt else {}), **files})
    (top / "kit").mkdir(exist_ok=True)
    for command in COMMANDS:
        (top / "kit" / command).symlink_to(shutil.which(command))
    (top / "kit/python3").symlink_to(sys.executable)
    for path in [*SCRIPTS, *MANUAL, "kit/rt", "p/bin/sievebench"]:
        if (top / path).is_file():
            (top / path).chmod(0o755)
    return top


def of_prefixes(room):
    """All of them."""
    room = room / "install"
    room.mkdir()
    yield from of_successes(room)
    yield from of_failures(room)


def of_successes(room):
    """What is installed, and what is printed of it."""
    top = copy(room, BUILDS, {})
    here = os.fsencode(os.path.realpath(top))
    used = "find 'a b' -type f | LC_ALL=C sort; 'a b/bin/sievebench' x; eval \"$(grep export told)\"; sievebench y; sievebench-site"
    completions = [f"share/bash-completion/completions/{name}" for name in ("sievebench", "sievebench-site")]
    found = lines("0", "a b/bin/sievebench", "a b/bin/sievebench-site", *(f"a b/{it}" for it in completions), "new x", "new y", "site")
    yield Run("an install into a folder that isn't there", top, f"{INSTALL} 'a b' > told; echo $?; {used}", found)
    told = [b"installed as %s/a b/bin/sievebench.\n" % here, b"28 minutes", b"6 GB of disk", b"3 GB of memory"]
    told += [b"rt run -- --version, in sievebench_cli\n", b"The program is %s/a b/bin/sievebench.\n" % here, b"Beside it is sievebench-site"]
    told += [b"The path does not have it.", b"No manual is installed: there is no lowdown in the path, which makes its pages.\n"]
    yield Run("what an install tells", top, "cat told", told)
    yield Run("an install where nothing is named", top, f"HOME=home {INSTALL} > told; home/.local/bin/sievebench x", b"new x\n")
    has = b"The path has it: sievebench --help tells how it is used.\n"
    yield Run("an install again, into a folder of the path", top, 'PATH="$PWD/kit:$PWD/home/.local/bin" tools/install home/.local | tail -n 1', has)
    (top / "link").symlink_to("home")
    yield Run("an install into a folder that the path has by a link", top, 'PATH="$PWD/kit:$PWD/link/.local/bin" tools/install home/.local | tail -n 1', has)
    for word in ("-h", "--help"):
        yield Run(f"the help by {word}", top, f"{INSTALL} {word}", [b"tools/install [PREFIX]\n", b"PREFIX is ~/.local if none is given."])
    top = copy(room, BUILDS, {**OLD, **MANUAL})
    here = os.fsencode(os.path.realpath(top))
    other = b"The path has another one before it, %s/p/bin/sievebench.\n" % here
    yield Run("an install where the path has another", top, 'PATH="$PWD/kit:$PWD/p/bin" tools/install q | tail -n 1', other)
    pages = [*(f"p/{it}" for it in completions), *sorted(f"p/share/man/man{it[-1]}/{it}" for it in PAGES)]
    found = lines("0", "p/bin/sievebench", "p/bin/sievebench-site", *pages, "new x", *(f"new {it}" for it in PAGES))
    used = "find p -type f | LC_ALL=C sort; p/bin/sievebench x; cd p/share/man; cat man1/sievebench.1 man1/sievebench-site.1 man5/*"
    yield Run("an install over an older one, with pages of the manual", top, f"{INSTALL} p > told; echo $?; {used}", found)
    modes = f"umask 077; {INSTALL} r > told; find r -type f -perm 755 | LC_ALL=C sort; find r -type f -perm 644 | LC_ALL=C sort"
    yield Run("an install for all users, whatever the mask", top, modes, lines(*(f"r{path[1:]}" for path in ["p/bin/sievebench", "p/bin/sievebench-site", *pages])))


def of_failures(room):
    """What isn't installed: what was there before stays as it was."""
    fails, calls = b"#!/bin/sh\nexit 7\n", b"#!/bin/sh\necho called\n"
    failed = [b"install: tools/programs failed with status 7, so nothing is installed\n"]
    old = lines("p/bin/sievebench") + OLD["p/bin/sievebench"]
    used = "find p -type f; cat p/bin/*"
    for title, rt, files, words, output, error in [
        ("proofs fail", fails, {}, "p > told; echo $?; find . -name p", b"7\n", failed),
        ("proofs fail, over an older one", fails, OLD, f"p > told; echo $?; {used}", b"7\n" + old, failed),
        ("no program is built", b"#!/bin/sh\n", OLD, f"p > told; echo $?; {used}", b"1\n" + old, [b"out/sievebench_cli", b"status 1"]),
        ("the manual can't be made", BUILDS, {**OLD, **MANUAL, "tools/manual": b"#!/bin/sh\necho no >&2\nexit 5\n"}, f"p > told; echo $?; {used}", b"5\n" + old, [b"no\n", b"tools/manual failed with status 5"]),
        ("the manual lacks a page", BUILDS, {**OLD, **MANUAL, "tools/manual": MAKER.replace(b" sievebench-site.1", b"")}, f"p > told; echo $?; {used}", b"1\n" + old, [b"man/sievebench-site.1"]),
        ("the tool for sites can't be made", BUILDS, {**OLD, PACK: b"#!/bin/sh\necho no >&2\nexit 5\n"}, f"p > told; echo $?; {used}", b"5\n" + old, [b"no\n", b"status 5"]),
        ("the folder of pages is a file", calls, {**OLD, **MANUAL, "p/share": b""}, "p; echo $?; find p -type f | sort", lines("1", "p/bin/sievebench", "p/share"), [b"install: cannot write to ", b"/p/share\n"]),
        ("the place of the tool for sites is a folder", calls, {"p/bin/sievebench-site/x": b""}, "p; echo $?; find p -type f", b"1\np/bin/sievebench-site/x\n", [b"/p/bin/sievebench-site is a folder\n"]),
        ("there is no rt", None, OLD, f"p; echo $?; {used}", b"1\n" + old, [b"install: there is no rt in the path"]),
        ("a folder is a file", calls, OLD, f"p/bin/sievebench; echo $?; {used}", b"1\n" + old, [b"install: cannot write to ", b"/p/bin/sievebench\n"]),
        ("the program's place is a folder", calls, {"p/bin/sievebench/x": b""}, "p; echo $?; find p -type f", b"1\np/bin/sievebench/x\n", [b"/p/bin/sievebench is a folder\n"]),
        ("an option is unknown", calls, {}, "--prefix=p; echo $?; find . -path ./kit -prune -o -name '*p' -print", b"2\n", b"install: there is no option --prefix=p; see tools/install --help\n"),
        ("two words are given", calls, {}, "p q; echo $?; find . -name p -o -name q", b"2\n", b"install: too many words: it takes [PREFIX]; see tools/install --help\n"),
    ]:
        yield Run(f"no install where {title}", copy(room, rt, files), f"{INSTALL} {words}", output, error)
    # It is seen before anything is proved, so that `rt` isn't called.
    for link in ("p/bin", "p/share", "p/share/man", "p/share/man/man1"):
        for goal in ("nowhere", "tools/manual/x", link):
            top = copy(room, calls, MANUAL)
            (top / link).parent.mkdir(parents=True)
            (top / link).symlink_to(top / goal)
            yield Run(f"no install where {link} is a link to {'itself' if goal == link else goal}", top, f"{INSTALL} p; echo $?; find . -name nowhere", b"1\n", [b"install: cannot write to ", f"/{link}\n".encode()])
