"""What pages say and a machine can compare with its home: names, fields and limits of the language, statuses of the tool for sites, options, the
clock that is shown beside its `date`, files that servers keep, the oldest Python, and what the gate runs.

Faults are planted in what is read, and each has to be noticed.
"""
import pathlib
import re
import sys
from unittest import mock

from . import homes
from .manual import COMMANDS, SITE_TOOL, TOP, told_by
from .runs import LeftOut, Reading, Run, lines

README, GATE, SERVERS = "README.md", "docs/GATE.md", sorted(str(it.relative_to(TOP)) for it in (TOP / "examples/ci").glob("*.yml"))
# Pages that tools make of the sources.
MADE = ("docs/CLAUSES.md", "docs/RULES.md")
SHOWN = [README, "CONTRIBUTING.md", *sorted(f"docs/{it.name}" for it in (TOP / "docs").glob("*.md") if f"docs/{it.name}" not in MADE), *SERVERS]
CODE = re.compile(r"^```\w*\n(.*?)^```|`([^`\n]+)`", re.M | re.S)
OPTION = re.compile(r"(?<![\w-])--?[A-Za-z][a-z0-9-]*")
ZONES = pathlib.Path("/usr/share/zoneinfo/Europe/Berlin")


def code(text):
    """What stands between marks of code."""
    return re.findall(r"`([^`]+)`", text)


def part(path, pattern):
    """The only part of a file that a pattern finds."""
    (found,) = re.findall(pattern, homes.text_of(path), re.S)
    return found


def names(path):
    """The capabilities that are always known, and the names that are asked for; rows of lines that need a name have all others."""
    asked = homes.words("crates/sieve_profile/src/extension.rt")
    known = [it for it in homes.words("crates/sieve_table/src/capability.rt") if it not in asked]
    yield "always known in the README", [it for it in known if not it.startswith("comparator-")], code(part(README, r"\*\*Extensions\.\*\* (.*?) are always known"))
    yield "asked for in the README", asked, code(part(README, r"These are off unless asked for.*?: (.*?)\. "))
    for file, name in ("clock", "date"), ("envelopes", "envelopes"), ("mailbox", "mailbox"):
        told = [it.split() for it in re.findall(r"^\+ (.*)", homes.text_of(f"examples/rows/{file}.sessions"), re.M)]
        yield from ((f"all names but {name} in {file}.sessions", [it for it in asked if it != name], it) for it in told if name not in it and len(it) > 4)
    yield "always known in the language", known, code(part(homes.LANGUAGE, r"\*\*Always known\*\* are (.*?)\. "))


def fields(path):
    """The fields that `address` may name."""
    alone, others = part(homes.LANGUAGE, r"`address` may name (.*?), also with `Resent-` before them, (.*?)\. ")
    alone, others = (re.findall(r"[A-Z][\w-]*", it) for it in (alone, others))
    told = [*alone, *(f"Resent-{it}" for it in alone), *others]
    yield "fields of addresses", re.findall(r'b"([^"]+)"', part("crates/sieve_table/src/address.rt", r"ADDRESS_FIELDS: .*?= \[(.*?)\];")), [it.lower() for it in told]


def limits(path):
    """The limits of the language, in the order of its table."""
    found = {**homes.sourced(homes.SOURCES), **{name: homes.sourced(home).get(name) for name, home in homes.HOMES.items()}, "NUMBER": 2**64 - 1}
    of = "MAX_OPEN_BLOCKS MAX_TEST_DEPTH NUMBER MAX_VALUE MAX_LOCALS MAX_MATCH MAX_GLOBALS MAX_ACTIONS MAX_MAILBOX MAX_INCLUDE_DEPTH MAX_INCLUDES MAX_NAME DEPTH_LIMIT"
    told = [homes.number(it) for row in homes.rows(homes.LANGUAGE, "\n## Limits") for it in re.findall(r"\d[\d,]*", row[1])]
    yield "the limits of the language", [found[it] for it in of.split()], told


def statuses(path):
    """The statuses of a check on servers, and of one and of `diff` where verdicts are others."""
    told = re.findall(r"(\d) ((?:if|after) .*?)(?=,|$)", part(homes.SITE, r"\nThe status is (.*?)\. "))
    words = {**homes.SITE_STATUSES, "0": ["all is as expected"], "1": ["if not"]}
    yield "how many statuses a check has", ["0", "1", "2", "3"], [status for status, _ in told]
    differs = re.findall(r"(?:`check` ends with status|The status is) (\d)(?=:| if a verdict)", homes.text_of(homes.SITE))
    yield "the statuses of a difference", ["1", "1"], differs
    yield "the statuses of a check", [], homes.Statuses("SITE", words, told, is_list=False).found(path)


def oldest(path):
    """The oldest Python that the tool for sites runs on."""
    python = part(README, r"`sievebench-site` Python (\d\.\d+)")
    for file, pattern in [("tools/package", r"python3 \(>= (.*?)\)"), ("tools/package", r"sievebench-site Python (\d\.\d+)"), ("tools/site/check", r"--python-version (\S+)")]:
        yield f"the oldest Python in {file}", python, part(file, pattern)
    yield "the oldest Python of black", python.replace(".", ""), part("tools/site/check", r"--target-version py(\d+)")


def gate(path):
    """What the gate runs, in its order, and how many edits there are."""
    steps = re.findall(r"^(?:time |exec )?((?:rt|tools/)\S*(?: ci)?)", homes.text_of(".ci/run"), re.M)
    yield "what the gate runs", steps, code(part(GATE, r"`\.ci/run` runs (.*?), and prints"))
    yield "how many edits there are", str(len(list((TOP / "edits").glob("*/*.edit")))), part(GATE, r"\| all (\d+) edits,")
    crates = [it for row in homes.rows(GATE, "The costliest") for it in code(row[0])]
    yield "crates that cost most and aren't there", [], [it for it in crates if not (TOP / "crates" / it).is_dir()]


def uploads(path):
    """Files that a job of a server keeps and no step of it writes. What stands for a number differs."""
    for file in SERVERS:
        for job in re.split(rf"^(?={'  ' if 'github' in file else ''}\w+:$)", homes.text_of(file), flags=re.M):
            job = re.sub(r"\$\{\{.*?\}\}|\$\w+", "*", job)
            kept = re.findall(r"^ *(?:path|junit|sarif_file): (.*)", job, re.M) + [it for several in re.findall(r"^ *paths: \[(.*)\]", job, re.M) for it in several.split(", ")]
            if kept:
                yield f"{file} keeps what isn't written", [], sorted(set(kept) - set(re.findall(r"(?:> |-o |--junit )(\S+)", job)))


def commands(text, is_code):
    """The words of each command that a page shows."""
    shown = [text] if is_code else [block or span for block, span in CODE.findall(text)]
    yield from (line.split() for it in shown for line in re.split(r"\n|\||&&|;", it))


def helped(path, words):
    """The help for a command, and its words from the program on; nothing where that is another project's. An option alone may be that of any
    command, and a word alone a command of the tool for sites."""
    site, ours = (sys.executable, "-B", str(SITE_TOOL)), ("test", "session", "dump")
    if OPTION.match(words[0]):
        return "".join([*(told_by(path, "sievebench", "help", it) for it in ours), *(told_by(path, *site, it, "--help") for it in COMMANDS)]), words
    if words[0] in COMMANDS:
        return told_by(path, *site, words[0], "--help"), words
    for at, (word, more) in enumerate(zip(words, [*words[1:], ""])):
        name = word.rpartition("/")[2]
        if name == "sievebench-site":
            return told_by(path, *site, *([more] if more in COMMANDS else []), "--help"), words[at:]
        if name == "sievebench":
            return told_by(path, "sievebench", *(["help", more] if more in ours else ["--help"])), words[at:]
        if word.startswith("tools/"):
            return told_by(path, str(TOP / word), "--help"), words[at:]
    return None


def options(path):
    """Options of commands that stand in no help."""
    for page in SHOWN:
        for words in commands(homes.text_of(page), page in SERVERS):
            # Those of one letter are `sieve-test`'s there.
            is_other = page == "docs/FROM_SIEVE_TEST.md" and re.match("-[a-zA-Z]", " ".join(words))
            found = not is_other and OPTION.search(" ".join(words)) and helped(path, words)
            if found:
                given = set(OPTION.findall(" ".join(found[1]))) - {"-h", "--help", "--version"}
                yield f"{page} has options of `{' '.join(words)}` that no help has", [], sorted(given - set(OPTION.findall(found[0])))


class Compared(Reading):
    """Whether what pages say is as in its home."""

    def __init__(self, compare, changed=None):
        self.title, self.command, self.compare, self.changed = f"what pages say: {compare.__name__}", "docs", compare, changed

    def found(self, path):
        """What they say otherwise."""
        told = list(self.compare(path))
        self.looked = len(told)
        return [f"{what}: wanted {wanted}, got {got}" for what, wanted, got in told if wanted != got]


# What is wrong in a file: a text that it has, and what stands in its place.
PLANTED = [
    (names, README, "`include` and `copy` are always", "`include` are always"),
    (names, README, "`lines`, `mailbox`, ", "`mailbox`, "),
    (names, homes.LANGUAGE, "`include` (RFC 6609), `copy`", "`copy`"),
    (names, "examples/rows/clock.sessions", "lines mailbox reject", "lines reject"),
    (fields, homes.LANGUAGE, "Errors-To, ", ""),
    (fields, homes.LANGUAGE, "From, To, Cc, Bcc,", "From, To, Cc,"),
    (limits, homes.LANGUAGE, "| 4,096 octets | cut", "| 4,095 octets | cut"),
    (statuses, homes.SITE, "1 if not, 2 after misuse", "2 if not, 1 after misuse"),
    (statuses, homes.SITE, ", and 3 if the program can't be run.", "."),
    (statuses, homes.SITE, "The status is 1 if a verdict changed", "The status is 2 if a verdict changed"),
    (statuses, homes.SITE, "`check` ends with status 1:", "`check` ends with status 2:"),
    (oldest, README, "Python 3.8", "Python 3.9"),
    (oldest, "tools/package", "python3 (>= 3.8)", "python3 (>= 3.7)"),
    (oldest, "tools/site/check", "--target-version py38", "--target-version py39"),
    (gate, GATE, "`rt ci` (proofs, tests, two compilers' programs), `tools/edits`", "`tools/edits`, `rt ci`"),
    (gate, GATE, "| all 138 edits", "| all 136 edits"),
    (gate, GATE, "| `sieve_code` |", "| `sieve_coding` |"),
    (uploads, "examples/ci/github.yml", "path: report.html", "path: page.html"),
    (uploads, "examples/ci/gitlab-shards.yml", "paths: [part-*.json]", "paths: [parts-*.json]"),
    (options, README, "tools/sievebench-site report examples/site -o", "tools/sievebench-site report examples/site -p"),
    (options, README, "tools/check --try", "tools/check --tried"),
    (options, homes.SITE, "check --shard 2/4", "check --part 2/4"),
    (options, homes.SITE, "`--fail-under 80`", "`--fail-below 80`"),
    (options, homes.SITE, "`-q` prints only", "`-s` prints only"),
    (options, "docs/FORMATS.md", "tools/make-session --main main", "tools/make-session --mains main"),
    (options, "examples/ci/gitlab.yml", "diff --git FETCH_HEAD", "diff --all-of FETCH_HEAD"),
]


class Noticed(Reading):
    """Whether it is noticed where a file is otherwise."""

    def __init__(self, compare, file, old, new):
        self.title, self.command, self.compare, self.file, self.old, self.new = "what is wrong in a page", f"{file}: {new}", compare, file, old, new

    def found(self, path):
        """That it isn't, or can't be planted."""
        text_of = homes.text_of
        self.looked = text_of(self.file).count(self.old)
        changed = lambda file: text_of(file).replace(self.old, self.new) if file == self.file else text_of(file)
        with mock.patch.object(homes, "text_of", changed):
            return [] if self.looked and Compared(self.compare).found(path) else [f"{self.file} has {self.looked} times {self.old!r}, and nothing says that it is wrong"]


def of_pages(room):
    """All of them."""
    for compare in (names, fields, limits, statuses, oldest, gate, uploads, options):
        yield Compared(compare)
    yield from (Noticed(*it) for it in PLANTED)
    date, seconds, zone = part(homes.SITE, r"`(TZ=\S+ date [^`]*)` writes it\. `--clock (\d+)([+-]\d+)`")
    if ZONES.is_file():
        (room / "site").mkdir()
        yield Run("the time of a site's clock, as `date` writes it", room, f"{date}; cat site/clock", lines(f"{seconds} {zone}"))
    else:
        yield LeftOut("the time of a site's clock", "since no time zones are installed")
