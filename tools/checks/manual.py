"""The pages of the manual, which `tools/manual` makes of the documents and of the programs' help: each option of the help has an item in its page,
and no page has an option that there isn't; all words of what a page is made of stand in it; and it refers to pages that there are. Where mandoc is
installed, it warns of nothing.

Faults are planted in copies of the tool, and each has to be noticed.
"""
import functools
import os
import pathlib
import re
import shlex
import shutil
import subprocess
import sys

from .runs import SECONDS, LeftOut, Reading, Run, lines

TOP = pathlib.Path(__file__).resolve().parent.parent.parent
MAKER, SITE_TOOL = TOP / "tools/manual", TOP / "tools/sievebench-site"
COMMANDS = ("check", "record", "lint", "import", "untested", "diff", "why", "watch", "report", "lsp")
# Each page, the document that it is made of, and the help that it is made of.
PAGES = [
    ("sievebench.1", None, [["sievebench", *words] for words in (["--help"], ["help", "test"], ["help", "dump"], ["help", "session"])]),
    ("sievebench-site.1", "docs/SITE.md", [[sys.executable, "-B", str(SITE_TOOL), *words] for words in (["--help"], *([it, "--help"] for it in COMMANDS))]),
    ("sievebench-session.5", "docs/FORMATS.md", []),
]
LISTED = r"^ +(-[^\s,]+)(?:, (--[a-z-]+))?"
# Words of the help that no page needs: where it says where more is said, and how argparse says what a command takes.
ELSEWHERE = {"project", "positional", "arguments", "usage", "formats"}
# Faults of the tool: a text that it has once, and what stands in its place.
PLANTED = [
    ('section("OPTIONS", *options_of(commands), ', 'section("OPTIONS", *list(options_of(commands))[1:], '),
    ("for it in notes))", "for it in notes[1:]))"),
    ('return section("DESCRIPTION", "".join(parts))', 'return section("DESCRIPTION", "".join(parts[::2]))'),
    ("for command, sentence, usage, rest in helps:", "for command, sentence, usage, rest in helps[1:]:"),
    ('(("FILES", files), ("EXIT STATUS", statuses))', '(("FILES", files),)'),
    ('yield section("SEE ALSO", "sievebench(1), sievebench-site(1)")', 'yield section("SEE ALSO", "sievebench(1), sievebench-mails(1)")'),
    ('f"section={number}"', '"section=7"'),
    ('(r"\\\\f(?:C|', '(r"\\\\f(?:X|'),
    ("(?:  +|\\n +)", "(?:  +)"),
    ("last.below.append(entry)", "pass"),
]


@functools.lru_cache(None)
def told_by(path, *command):
    """What a command prints."""
    env = {**os.environ, "PATH": path, "COLUMNS": "1000"}
    return subprocess.run(command, cwd=TOP, env=env, stdin=subprocess.DEVNULL, capture_output=True, timeout=SECONDS).stdout.decode()


def words_of(text):
    """The words of a text, in small letters."""
    return set(re.findall(r"[a-z0-9]+", text.lower()))


def plain(roff):
    """The words of a page without its macros and fonts."""
    text = re.sub(r"\\f[BIRC]|^\.[A-Z][A-Z]\b", " ", roff, flags=re.M)
    return re.sub(r"\\\((?:dq|aq|ga|bu)|\\[e&]", " ", text)


class Page(Reading):
    """Whether a page is as what it is made of."""

    title = "the manual"

    def __init__(self, folder, name, document, helps):
        self.folder, self.command, self.document, self.helps = folder, name, document, helps

    def found(self, path):
        """What the page has otherwise."""
        helps = [told_by(path, *it) for it in self.helps]
        file, (name, number) = self.folder / self.command, self.command.rsplit(".", 1)
        if not file.is_file():
            return ["it isn't made"]
        roff = file.read_text(encoding="utf-8")
        options = {name for text in helps for match in re.findall(LISTED, text, re.M) for name in match if name}
        items = {name for line in re.findall(r"^\.TP.*\n\\fB(-.*)\\fR$", roff, re.M) for name in re.findall(r"(?<!\S)--?[A-Za-z][a-z0-9-]*", line)}
        found = [] if items == options else [f"its items are {sorted(items)}, the options of the help {sorted(options)}"]
        document = re.sub(r"^```\w*", "", (TOP / self.document).read_text(encoding="utf-8"), flags=re.M) if self.document else ""
        lost = words_of("\n".join([document.partition("\n")[2], *helps])) - ELSEWHERE - words_of(plain(roff))
        found += [f"it lacks the words {sorted(lost)}"] if lost else []
        heads = (rf'\.TH "{name.upper()}" "{number}" "\d{{4}}-\d\d-\d\d" "sievebench" ""$', rf"\.SH NAME\n{name} - [a-z]")
        found += [f"it has no line {head}" for head in heads if not re.search(rf"^{head}", roff, re.M)]
        others = {f"{other}.{section}" for other, section in re.findall(r"(sievebench[a-z-]*)\((\d)\)", roff)}
        found += [f"it refers to {other}" for other in sorted(others) if other not in {page for page, *_ in PAGES}]
        self.looked = len(options) + len(words_of(document)) if len(others) > 1 else 0
        if shutil.which("mandoc"):
            found += subprocess.run(["mandoc", "-T", "lint", "-W", "warning", file], capture_output=True, text=True, timeout=SECONDS).stdout.splitlines()
        return found


class Planted(Reading):
    """Whether a fault of the tool is noticed in some page."""

    title = "a fault that is planted in the tool of the manual"

    def __init__(self, room, old, new):
        self.room, self.command, self.old, self.new = room, new, old, new

    def found(self, path):
        """That it isn't, or can't be planted."""
        text = MAKER.read_text(encoding="utf-8")
        self.looked = text.count(self.old)
        if self.looked != 1:
            return [f"the tool has {self.looked} times {self.old!r}"]
        (self.room / "tools").mkdir()
        (self.room / "docs").symlink_to(TOP / "docs")
        for name in ("sievebench-site", "site", "command.py"):
            (self.room / "tools" / name).symlink_to(TOP / "tools" / name)
        tool = self.room / "tools/manual"
        tool.write_text(text.replace(self.old, self.new), encoding="utf-8")
        subprocess.run([sys.executable, "-B", tool, "man", shutil.which("sievebench", path=path)], cwd=self.room, capture_output=True, timeout=SECONDS)
        return [] if any(Page(self.room / "man", *row).found(path) for row in PAGES) else ["no page shows it"]


def of_pages(room):
    """The pages, what the tool refuses, and faults that are planted in it."""
    room = room / "manual"
    room.mkdir()
    tool = shlex.quote(str(MAKER))
    refused = b"manual: there is no lowdown in the path: it turns Markdown into pages of the manual\n"
    (room / "kit").mkdir()
    (room / "kit/python3").symlink_to(sys.executable)
    yield Run("no manual without lowdown", room, f'PATH="$PWD/kit" python3 -B {tool} man sievebench; ls', lines("kit"), refused)
    if not shutil.which("lowdown"):
        yield LeftOut("the pages of the manual", "since lowdown isn't installed")
        return
    yield Run("the pages of the manual", room, f'{tool} man "$(command -v sievebench)" && ls man', lines(*sorted(name for name, *_ in PAGES)))
    yield Run("the date of the pages", room, f"TZ=EAST-14 SOURCE_DATE_EPOCH=1783245600 {tool} dated \"$(command -v sievebench)\" && grep -ch '^\\.TH .* \"2026-07-05\"' dated/*", lines(1, 1, 1))
    yield Run("no pages of a program that isn't there", room, f"{tool} none ./none; echo $?; ls", lines(1, "dated", "kit", "man"), b"manual: cannot run ./none: No such file or directory\n")
    yield Run("no pages of a program that fails", room, f"{tool} none \"$(command -v false)\"; echo $?", lines(1), [b" ended with status 1\n"])
    yield Run("no pages in a file", room, f"{tool} man/sievebench.1 \"$(command -v sievebench)\"; echo $?", lines(1), [b"manual: man/sievebench.1: "])
    if not shutil.which("mandoc"):
        yield LeftOut("the form of the pages", "since mandoc isn't installed")
    yield from (Page(room / "man", *row) for row in PAGES)
    for number, row in enumerate(PLANTED):
        (room / str(number)).mkdir()
        yield Planted(room / str(number), *row)
