"""What `tools/package` makes, and what it is to install, run, upgrade and remove it, in copies of the repository; and the versions of programs.

In the place of `rt` stands a script that hands on the program of the path, with the version of the copy, so that nothing is proved.
"""
import os
import pathlib
import re
import shutil
import subprocess
import sys

from .runs import Run, lines

TOP = pathlib.Path(__file__).resolve().parent.parent.parent
VERSION = re.search(r"^## \[(\d\S*)\]", (TOP / "CHANGELOG.md").read_text(encoding="utf-8"), re.M)[1]
NEXT = f"{VERSION[:-1]}{(int(VERSION[-1]) + 1) % 10}"
COMMANDS = "crates/command_line/src/commands.rt"
PARTS = ["CHANGELOG.md", "CONTRIBUTING.md", "README.md", "docs", "examples", "tools", COMMANDS]
# The versions have as many octets, so that one can stand for the other in a program.
HANDS_ON = rf"""#!/bin/sh
mkdir -p out
version=$(sed -nE 's/^const VERSION: &str = "([^" ]*).*/\1/p' ../command_line/src/commands.rt)
LC_ALL=C sed "s/{re.escape(VERSION)}/$version/g" "$(command -v sievebench)" > out/sievebench_cli
chmod 700 out/sievebench_cli
"""
SAYS = r"""#!/bin/sh
mkdir -p out
sed -nE 's/^const VERSION: &str = "(.*)";/#!\/bin\/sh\necho "sievebench \1"/p' ../command_line/src/commands.rt > out/sievebench_cli
chmod 700 out/sievebench_cli
"""
GIT = "git -c user.name=Ada -c user.email=ada@a.example -c commit.gpgsign=false"
# A folder that dpkg takes for a system: what the package depends on is there, as on this machine.
SYSTEM = r"""
mkdir -p root/var/lib/dpkg/info root/var/lib/dpkg/updates
touch root/var/lib/dpkg/info/libc6.list root/var/lib/dpkg/info/python3.list
for it in "libc6 $(getconf GNU_LIBC_VERSION | cut -d ' ' -f 2)" "python3 $(python3 -c 'import platform; print(platform.python_version())')"; do
    printf 'Package: %s\nStatus: install ok installed\nMaintainer: Ada <ada@a.example>\nArchitecture: all\nVersion: %s\nDescription: a stand-in\n\n' $it
done > root/var/lib/dpkg/status
"""
# What is proved is kept beside, and not where a user keeps it.
ENV = 'XDG_CACHE_HOME="$PWD/cache" PATH="$PWD/kit:$PATH"'
DPKG = 'PATH="$PATH:/usr/sbin:/sbin" dpkg --root="$PWD/root" --force-not-root --force-bad-path --log=/dev/null'
SITE = "6 mails, 2 mains, 12 verdicts, 12 agree, 0 disagree, 0 without expectation, 0 stale expectations, 0 scripts with a fault"
COMPLETES = """bash -c 'source "$0"; COMP_WORDS=("$@"); COMP_CWORD=$(($# - 1)); _sievebench "$1" "${@: -1}" "${@: -2:1}"; printf "%s\\n" "${COMPREPLY[@]}"' """


def copy(room, rt):
    """A repository of one commit with the parts that a package is made of."""
    top = room / str(len(list(room.iterdir())))
    for part in PARTS:
        place = top / part
        place.parent.mkdir(parents=True, exist_ok=True)
        ignored = shutil.ignore_patterns("__pycache__", "out")
        shutil.copytree(TOP / part, place, ignore=ignored) if (TOP / part).is_dir() else shutil.copy(TOP / part, place)
    (top / "crates/sievebench_cli").mkdir()
    (top / "crates/sievebench_cli/args").write_text("session\n")
    (top / ".gitignore").write_text("out/\nkit/\nroot/\ncache/\ntold\n")
    (top / "kit").mkdir()
    (top / "kit/rt").write_text(rt)
    (top / "kit/rt").chmod(0o755)
    env = {**os.environ, "GIT_AUTHOR_DATE": "1783245600 +0200", "GIT_COMMITTER_DATE": "1783245600 +0200"}
    subprocess.run(f"git init -q -b main; git add -A; {GIT} commit -q -m one", shell=True, cwd=top, env=env, check=True)
    return top


def of_packages(room):
    """All of them. Where there is no dpkg or no lowdown, packages are left out."""
    room = room / "packages"
    room.mkdir()
    yield from of_versions(room)
    missing = [it for it in ("dpkg-deb", "lowdown") if not shutil.which(it)]
    if missing:
        print(f"there is no {missing[0]}: packages are left out", file=sys.stderr)
        return
    yield from of_made(room)
    yield from of_installed(room)
    yield from of_refusals(room)


def of_versions(room):
    """Both programs have the version of the newest changes, and where they are built of a commit, they say which."""
    says = rf"{re.escape(VERSION)}( \([0-9a-f]{{12}}(-dirty)?\))?"
    yield Run("the version of the program", room, f"sievebench --version | grep -cxE 'sievebench {says}'", b"1\n")
    site = TOP / "tools/sievebench-site"
    yield Run("the version of the tool for sites", room, f"'{site}' --version | grep -cxE 'sievebench-site {says}, with sievebench {says}'", b"1\n")
    named = "grep -ohE 'sievebench[-_][0-9]+\\.[0-9]+\\.[0-9]+' README.md docs/SITE.md | sort -u"
    yield Run("the version that documents name", TOP, named, lines(f"sievebench-{VERSION}", f"sievebench_{VERSION}"))
    top = copy(room, SAYS)
    builds = f'mkdir -p out; {ENV} tools/programs out > told && {{ out/sievebench --version; out/sievebench-site --version; }}'
    both = f"commit=$(git rev-parse --short=12 HEAD); {builds} | sed s/$commit/COMMIT/g"
    told = lines(f"sievebench {VERSION} (COMMIT)", f"sievebench-site {VERSION} (COMMIT), with sievebench {VERSION} (COMMIT)")
    yield Run("the commit of programs", top, both, told)
    yield Run("nothing is changed in the files that are built of a commit", top, "git status --porcelain; git stash list")
    changed = f"echo '# more' >> tools/site/sievebench_site/why.py; {both}; tail -n 1 tools/site/sievebench_site/why.py"
    yield Run("the commit of programs with changes", top, changed, told.replace(b"COMMIT", b"COMMIT-dirty") + b"# more\n")
    without = f"rm -rf .git; {builds}"
    yield Run("programs without a repository", top, without, lines(f"sievebench {VERSION}", f"sievebench-site {VERSION}, with sievebench {VERSION}"))


def of_made(room):
    """Equal commits give equal octets, and the package says what it needs."""
    one, other = copy(room, HANDS_ON), copy(room, HANDS_ON)
    makes = f'{ENV} tools/package > told'
    made = [f"sievebench-{VERSION}-linux-ARCH.tar.gz", f"sievebench_{VERSION}_ARCH.deb"]
    sums = "export LC_ALL=C; ls | sed s/$(dpkg --print-architecture)/ARCH/; cut -c 67- SHA256SUMS | sort | sed s/$(dpkg --print-architecture)/ARCH/; sha256sum --quiet -c SHA256SUMS"
    yield Run("a package, and the sums of all its files", one, f"{makes}; echo $?; cd out && {sums}", lines("0", "SHA256SUMS", *made, *made))
    again = f"umask 077; sleep 1; find . -name .git -prune -o -exec touch {{}} +; {makes}; cmp out/SHA256SUMS {one}/out/SHA256SUMS && cmp out/*.deb {one}/out/*.deb && cmp out/*.gz {one}/out/*.gz"
    yield Run("the same package of the same commit elsewhere, later and with another mask", other, again)
    glibc, python = re.search(r"It needs glibc (\S+) or newer, and `sievebench-site` Python (\S+);", (TOP / "README.md").read_text(encoding="utf-8")).groups()
    yield Run("what a package depends on, as the README says", one, "dpkg-deb --field out/*.deb Depends", lines(f"libc6 (>= {glibc}), python3 (>= {python})"))
    newest = "objdump -T \"$(command -v sievebench)\" | grep -oE 'GLIBC_[0-9.]+' | sort -Vu | tail -n 1 | cut -c 7-"
    if shutil.which("objdump"):
        yield Run("the glibc that a package asks for is that of the program's newest symbol", one, f"dpkg-deb --field out/*.deb Depends | grep -cF \"(>= $({newest}))\"", b"1\n")
    if shutil.which("lintian"):
        # Whoever builds it has no address of the archive's maintainers, and no licence has been chosen.
        yield Run("lintian finds no error", one, "LC_ALL=C lintian --allow-root --fail-on error --tag-display-limit 0 out/*.deb > lintian.told 2>&1 || cat lintian.told")
    unpacked = "mkdir p && tar -C p --strip-components=1 -xf out/*.tar.gz && p/bin/sievebench-site check p/share/doc/sievebench/examples/site; find p -type f -perm /022; ls p p/share/man/*"
    pages = ["p/share/man/man1:", "sievebench-site.1.gz", "sievebench.1.gz", "", "p/share/man/man5:", "sievebench-session.5.gz"]
    yield Run("the archive over a prefix", one, f"LC_ALL=C; export LC_ALL; {unpacked}", lines(SITE, "p:", "bin", "share", "", *pages))
    named = r"cd p/share/doc/sievebench && grep -oE '\b(docs/\w+\.\w+|[A-Z]+\.md|examples[a-z./]*[a-z])' README.md | sort -u > ../named; xargs -n 1 test -e < ../named && grep -c docs/ ../named"
    of_readme = len(set(re.findall(r"\bdocs/\w+\.\w+", (TOP / "README.md").read_text(encoding="utf-8"))))
    yield Run("the documents and examples that the README of a package names are there", one, named, lines(str(of_readme)))
    completes = f"{COMPLETES} p/share/bash-completion/completions/sievebench"
    for words, wanted in [
        ("p/bin/sievebench d", ["dump"]),
        ("p/bin/sievebench dump --w", ["--with"]),
        ("p/bin/sievebench test --with body,date,e", ["body,date,encoded-character", "body,date,envelopes", "body,date,ereject"]),
        ("p/bin/sievebench-site unt", ["untested"]),
        ("p/bin/sievebench-site check --format s", ["sarif"]),
    ]:
        yield Run(f"completion of {words}", one, f"{completes} {words}", lines(*wanted))


def of_installed(room):
    """A package in a system of its own: installed, run, upgraded and removed."""
    top = copy(room, HANDS_ON)
    makes = f'{ENV} tools/package > told'
    checks = 'PATH="$PWD/root/usr/bin:$PATH" root/usr/bin/sievebench-site check root/usr/share/doc/sievebench/examples/site'
    yield Run("a package is installed and run", top, f"{makes}; {SYSTEM} {DPKG} -i out/*.deb > told && {checks} && for it in $(find root/usr/share/man -name '*.gz'); do man -l $it | grep -c '^NAME'; done", lines(SITE, "1", "1", "1"))
    newer = f"sed -i s/{re.escape(VERSION)}/{NEXT}/ CHANGELOG.md {COMMANDS} tools/site/sievebench_site/main.py; rm out/*; {GIT} commit -qam two; {makes}"
    yield Run("it is upgraded", top, f"{newer}; {DPKG} -i out/*.deb > told && root/usr/bin/sievebench --version | cut -c 1-{len('sievebench ') + len(NEXT)} && {checks}", lines(f"sievebench {NEXT}", SITE))
    left = f"{DPKG} --purge sievebench > told; find root -path root/var/lib/dpkg -prune -o ! -type d -print; find root -name '*sievebench*'"
    yield Run("it is removed, and nothing of it is left", top, left)


def of_refusals(room):
    """What no package is made of."""
    made = f'{ENV} tools/package {{}}; echo $?; find . -name "*.deb"'
    differ = b"package: tracked files differ from the commit, or this is no repository of git: a package is made of a commit\n"
    for title, before, words, status, error in [
        ("files differ from the commit", "echo >> README.md", "", 1, differ),
        ("changes are staged", "echo >> README.md; git add README.md", "", 1, differ),
        ("there is no repository", "rm -rf .git", "", 1, differ),
        ("proofs fail", "printf '#!/bin/sh\\nexit 7\\n' > kit/rt", "", 7, [b"package: tools/programs failed with status 7, so nothing is packed\n"]),
        ("an option is unknown", ":", "--deb", 2, b"package: there is no option --deb; see tools/package --help\n"),
        ("two words are given", ":", "a b", 2, b"package: too many words: it takes [OUT]; see tools/package --help\n"),
    ]:
        yield Run(f"no package where {title}", copy(room, HANDS_ON), f"{before}; {made.format(words)}", lines(status), error)
    top = copy(room, HANDS_ON)
    others = 'mkdir bin; for it in env python3 git strip dpkg dpkg-deb; do ln -s "$(command -v $it)" bin; done'
    yield Run("no package without lowdown", top, f'{others}; PATH="$PWD/bin:$PWD/kit" tools/package; echo $?', lines("1"), b"package: there is no lowdown in the path\n")
