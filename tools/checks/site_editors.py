"""Editors that `sievebench-site lsp` serves: its table of words is compared with the program and the sources, its quick fixes are judged by the
program, and an editor speaks with it."""
import json
import os
import queue
import re
import shutil
import subprocess
import sys
import threading
import time

from .runs import SECONDS, LeftOut, Reading
from .site import TOOL, site, write

TOP = TOOL.parent.parent
TABLE, EXAMPLES = TOP / "crates/sieve_table/src", TOP / "examples"
sys.path.insert(0, str(TOP / "tools/site"))

from sievebench_site.findings import Finding  # noqa: E402
from sievebench_site.lsp_fix import lacking, requiring  # noqa: E402
from sievebench_site.lsp_remarks import UNREQUIRED, remarks  # noqa: E402
from sievebench_site.names import NAMES  # noqa: E402
from sievebench_site.sieve_text import required as required_by  # noqa: E402
from sievebench_site.vocabulary import CAPABILITIES, COMPARATORS, PLAIN_COMPARATORS, TESTS, WORDS  # noqa: E402

KNOWN = set(CAPABILITIES)
ASKED = {name.decode() for name in NAMES}
# The text that stands for an argument of each name; a string of one letter stands for all others.
SAMPLES = {
    "fields": '"From"',
    "parts": '"from"',
    "part": '"year"',
    "limit": "1K",
    "days": "7",
    "seconds": "9",
    "relation": '"gt"',
    "comparator": '"i;octet"',
    "capabilities": '"fileinto"',
    "types": '["text"]',
}
# A line of the sources that tells where a word or a tag is defined, and the word.
DEFINED = r"^ *///? `{}.*?\((RFC \d+), (?:section )?([\d.]+)\)"
ROW = re.compile(DEFINED.format(r"(\w+)`") + r"\.\n(?:(?!\n\n)(?:.|\n))*?name: b\"(\w+)\"", re.M)
TAG = re.compile(DEFINED.format(r":(\w+)`") + r"\.\n +(\w+),", re.M)
LISTED = re.compile(r"^script personal \"(\d+)\" (?:ok|line (\d+) (\S+))$", re.M)
ROUNDS = 12


def sampled(name):
    """The text that stands for an argument."""
    return SAMPLES.get(name, '"a"')


def written(word, tags="", front=""):
    """A script of a command or a test alone."""
    parts = [word.name, tags, front, *map(sampled, word.arguments)]
    text = " ".join(part for part in parts if part) + {"one": " true", "many": " (true)", "": ""}[word.inner]
    if word in TESTS:
        return f"if {text} {{}}"
    before = "if true {} " if word.name in ("elsif", "else") else ""
    return f"{before}{text} {{}}" if word.block else f"{text};"


def tagged(tag):
    """A tag with its argument."""
    return f"{tag.name} {sampled(tag.takes)}" if tag.takes else tag.name


def required(names):
    """A `require` of some names, if there are any."""
    return f"require [{', '.join(json.dumps(it) for it in sorted(names))}]; " if names else ""


def faults(path, scripts, names="all"):
    """The line and the fault of each script, or nothing, in one session."""
    octets = [it if isinstance(it, bytes) else it.encode() for it in scripts]
    puts = [b"script personal %d %d\n%s" % (number, len(it), it) for number, it in enumerate(octets)]
    words = ["sievebench", "session", *(["--with", names] if names else [])]
    done = subprocess.run(words, input=b"".join([*puts, b"report\n"]), env={**os.environ, "PATH": path}, capture_output=True, timeout=SECONDS)
    found = {int(number): (int(line), kind) if kind else None for number, line, kind in LISTED.findall(done.stdout.decode())}
    return [found[number] for number in range(len(octets))]


class Compared(Reading):
    """Whether scripts have the faults that the table of words says."""

    def __init__(self, title, rows, names="all"):
        self.title, self.command, self.rows, self.names = f"sievebench-site: the table of words, {title}", "sievebench session", list(rows), names

    def found(self, path):
        """The scripts that have another fault."""
        self.looked = len(self.rows)
        told = faults(path, [text for text, _ in self.rows], self.names)
        return [f"{text}: wanted {wanted}, got {fault}" for (text, wanted), fault in zip(self.rows, told) if (fault and fault[1]) != wanted]


def uses():
    """A use of each word, of each with each of its tags, of each with the name of a variable, and of each comparator: the text, and the
    capabilities that it needs, each once."""
    for word in WORDS.values():
        yield written(word), list(word.needs)
        for tag in word.tags():
            yield written(word, tagged(tag)), list(dict.fromkeys([*word.needs, *([tag.needs] if tag.needs else [])]))
            if tag.name == ":comparator":
                for name in COMPARATORS:
                    needs = [] if name in PLAIN_COMPARATORS else [f"comparator-{name}"]
                    yield written(word, f':comparator "{name}"'), [*word.needs, *needs]
        if word.front:
            yield written(word, front='"a"'), [*word.needs, "variables"]


def sound():
    """The uses that are whole: `size` needs a tag."""
    return [(text, needs) for text, needs in uses() if not text.startswith("if size 1K")]


def without():
    """Uses with all that they need but for one capability."""
    for text, needs in sound():
        yield required(needs) + text, None
        for name in needs:
            yield required(set(needs) - {name}) + text, UNREQUIRED


def unknown():
    """Uses under no names: of those that are asked for there is no such word, tag or comparator. Where a tag isn't known, its argument is one of
    the word's own, and so the name of a variable."""
    for text, needs in sound():
        word = WORDS[text.split()[1 if text.startswith("if ") else 0].rstrip(";")]
        names = set(needs) - ASKED | ({"variables"} if word.front else set())
        kind = "unknown-command" if ASKED.intersection(word.needs) else "unknown-comparator" if "i;ascii-numeric" in text else "bad-tag"
        if ASKED.intersection(needs):
            yield required(names) + text, kind


def strangers():
    """Each word with each tag that isn't its own."""
    tags = {tagged(tag): tag.name for word in WORDS.values() for tag in word.tags()}
    for word in WORDS.values():
        own = {tag.name for tag in word.tags()}
        for text, name in tags.items():
            if name not in own:
                yield required(KNOWN) + written(word, text), "bad-tag"


class Sources(Reading):
    """Whether the words, and where they are defined, are those of the program's sources."""

    title, command = "sievebench-site: the table of words as in the sources", str(TABLE.relative_to(TOP))

    def found(self, path):
        """The words and places that only one of them has."""
        texts = {name: (TABLE / f"{name}.rt").read_text(encoding="utf-8") for name in ("command_rows", "test_rows", "tag", "capability")}
        rows = {(name, f"{rfc}, section {section}") for text in (texts["command_rows"], texts["test_rows"]) for _, rfc, section, name in ROW.findall(text)}
        tags = {(f":{name}", f"{rfc}, section {section}") for name, rfc, section, _ in TAG.findall(texts["tag"])}
        own = {(word.name, word.source) for word in WORDS.values()}
        own_tags = {(tag.name, tag.source) for word in WORDS.values() for tag in word.tags()}
        names = set(re.findall(r'=> b"([^"]*)"', texts["capability"]))
        self.looked = len(rows) + len(tags) + len(names)
        return [f"only one has {it}" for it in sorted((rows ^ own) | (tags ^ own_tags)) + sorted(names ^ KNOWN)]


def stripped():
    """Scripts that require too little: those of the examples without what they require, and uses of words, which have no other fault."""
    for path in sorted(EXAMPLES.rglob("*.sieve")):
        text = path.read_bytes()
        yield text[required_by(text)[0] :], False
    for text, _ in sound():
        for front in ("", "# A comment\n\n", 'require "body";\n', 'require [\n  "body",\n  "date"\n];\n', "/* c */ "):
            yield f"{front}{text}\n".encode(), True


class Fixed(Reading):
    """Whether quick fixes, one after another, leave nothing that isn't required, and no other fault where there was none."""

    title, command = "sievebench-site: quick fixes of what isn't required", "sievebench session"

    def found(self, path):
        """The scripts of which that isn't so."""
        texts, whole = map(list, zip(*stripped()))
        edits = 0
        for _ in range(ROUNDS):
            told = faults(path, texts)
            before, texts = texts, [fixed(text, *fault) if fault and fault[1] == UNREQUIRED else text for text, fault in zip(texts, told)]
            edits += sum(text != last for text, last in zip(texts, before))
        self.looked = edits
        told = [fault and fault[1] for fault in faults(path, texts)]
        return [f"{text!r:.300}: {kind}" for text, is_whole, kind in zip(texts, whole, told) if kind == UNREQUIRED or (kind and is_whole)]


def fixed(text, line, kind):
    """A script after the quick fix of a fault."""
    (remark,) = remarks(text, [Finding(b"", line, kind, ".")], KNOWN)
    names = lacking(text, remark.start, KNOWN)
    edit = requiring(text, names)
    return text[: edit.start] + edit.new + text[edit.end :] if names else text


class Talk(Reading):
    """A conversation of an editor's with the tool, over the program."""

    title, command = "sievebench-site: a conversation with an editor", f"{TOOL} lsp"
    CHANGES = 20

    def __init__(self, room):
        self.room = room

    def found(self, path):
        """The messages that are others, or come too late."""
        words = [sys.executable, "-B", str(TOOL), "lsp"]
        with subprocess.Popen(words, cwd=self.room, env={**os.environ, "PATH": path}, stdin=subprocess.PIPE, stdout=subprocess.PIPE) as child:
            self.child, self.read = child, queue.Queue()
            threading.Thread(target=self.reads, daemon=True).start()
            try:
                found = [f"{what}: wanted {wanted}, got {got}" for what, wanted, got in self.talked() if wanted != got]
                status = child.wait(SECONDS)
            finally:
                child.kill()
        return found + ([f"status {status}"] if status else [])

    def reads(self):
        """Reads the messages that the tool sends, each with its time."""
        for line in iter(self.child.stdout.readline, b""):
            self.child.stdout.readline()
            self.read.put((time.monotonic(), json.loads(self.child.stdout.read(int(line.split()[1])))))

    def send(self, method, params, **more):
        """Sends a message."""
        body = json.dumps({"jsonrpc": "2.0", "method": method, "params": params, **more}).encode()
        self.child.stdin.write(b"Content-Length: %d\r\n\r\n%s" % (len(body), body))
        self.child.stdin.flush()

    def ask(self, method, params):
        """The result of a request."""
        self.send(method, params, id=method)
        while True:
            _, message = self.read.get(timeout=SECONDS)
            if message.get("id") == method:
                return message["result"]

    def diagnostics(self):
        """The next diagnostics, and when they came."""
        moment, message = self.read.get(timeout=SECONDS)
        return moment, [(it["range"]["start"]["line"], it["range"]["start"]["character"], it["code"]) for it in message["params"]["diagnostics"]]

    def talked(self):
        """Of each message its name, the one that is wanted and the one that comes."""
        uri = (self.room / "site/personal/main.sieve").as_uri()
        self.ask("initialize", {"capabilities": {}})
        self.send("initialized", {})
        texts = [
            ('/* \U0001f600 */ fileinto "a";\n', [(0, 9, "not-required")]),
            ('require "fileinto";\nfileinto ["a"];\n', [(1, 0, "bad-arguments")]),
            ('require ["include", "fileinto"];\ninclude "gone";\ninclude :global "lists";\n', [(1, 0, "missing-script")]),
            ("keep;\n\nredirect \"a\";\n", [(2, 0, "bad-address")]),
            ("if true { keep }\n", [(0, 0, "syntax")]),
            ('require "fileinto"; fileinto "C";\n', [(0, 0, "no-mailbox")]),
            ('require ["mailbox", "fileinto"];\nif true {\n  fileinto :create "C"; }\n', []),
            ('require "vacation";\n', [(0, 8, "not judged")]),
        ]
        self.send("textDocument/didOpen", {"textDocument": {"uri": uri, "languageId": "sieve", "version": 0, "text": "keep;"}})
        yield "a sound script", [], self.diagnostics()[1]
        for version, (text, wanted) in enumerate(texts, 1):
            self.send("textDocument/didChange", {"textDocument": {"uri": uri, "version": version}, "contentChanges": [{"text": text}]})
            yield text, wanted, self.diagnostics()[1]
        waits = []
        for version in range(self.CHANGES):
            began = time.monotonic()
            self.send("textDocument/didChange", {"textDocument": {"uri": uri, "version": 100 + version}, "contentChanges": [{"text": "kep;" * version}]})
            waits.append(self.diagnostics()[0] - began)
        # Other work of the machine may hold up some of them.
        yield f"diagnostics within a tenth of a second, after {min(waits):.3f} at the least", True, min(waits) < 0.1
        self.looked = len(texts) + len(waits)
        yield "shutdown", None, self.ask("shutdown", None)
        self.send("exit", None)


# Has Neovim 0.7 or a later one open a script, and print the remarks that it shows.
OPENS = """\
local client = vim.lsp.start_client({{ name = "sievebench", cmd = {{ "{}", "-B", "{}", "lsp" }}, root_dir = vim.fn.getcwd() }})
vim.cmd("edit x.sieve")
vim.lsp.buf_attach_client(0, client)
vim.wait({}, function() return #vim.diagnostic.get(0) > 0 end)
for _, it in ipairs(vim.diagnostic.get(0)) do print(it.lnum, it.col, it.code) end
vim.cmd("qa!")
"""


class Neovim(Reading):
    """Whether Neovim shows a fault of a script that it opens."""

    title, command = "sievebench-site lsp: Neovim shows a fault", "nvim --headless"

    def __init__(self, room):
        self.room = room

    def found(self, path):
        """What it shows otherwise."""
        write(self.room, {"open.lua": OPENS.format(sys.executable, TOOL, SECONDS * 1000).encode(), "x.sieve": b"keep;\nif true { kep; }\n"})
        words = ["nvim", "--headless", "-u", "NONE", "-i", "NONE", "-S", "open.lua"]
        done = subprocess.run(words, cwd=self.room, env={**os.environ, "PATH": path}, capture_output=True, text=True, timeout=2 * SECONDS)
        self.looked = 1
        shown = (done.stdout + done.stderr).split()
        return [] if shown == ["1", "10", "unknown-command"] else [f"wanted 1 10 unknown-command, got {shown}"]


def of_editors(room):
    """All of them."""
    room = room / "editors"
    write(room / "site", {**site({}, main=b"keep;"), "global/lists.sieve": b"keep;", "with": b"mailbox\n", "mailboxes": b"A\n"})
    yield Compared("what is required", without())
    yield Compared("what isn't asked for", unknown(), names="")
    yield Compared("tags that aren't a word's own", strangers())
    yield Sources()
    yield Fixed()
    yield Talk(room)
    (room / "nvim").mkdir()
    yield Neovim(room / "nvim") if shutil.which("nvim") else LeftOut(Neovim.title, "since it isn't installed")
