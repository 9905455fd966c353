"""What stands in several places has one home, and is the same in each other one.

- A limit has its home in the sources, as a constant: `sieve_limits` has most. It stands in the documents, the help, the table of
  faults, and the tools.
- What a status means has its home in the help of a program: each status has words of its own, which stand there and in the help of its commands,
  and in no other status.
- The lines of a session and the words of its refusals have their home in `docs/FORMATS.md`, and the names that are asked for, the rules and the
  errors of a run in `docs/LANGUAGE.md`: the help and the sources have the same ones. The help has what the sources say on standard error.
"""
import ast
import pathlib
import re
from unittest import mock

from .runs import Reading

TOP = pathlib.Path(__file__).resolve().parent.parent.parent
FORMATS, LANGUAGE, SITE = (f"docs/{name}.md" for name in ("FORMATS", "LANGUAGE", "SITE"))
FAULTS, FRONT = "docs/faults.tsv", "docs/ARCHITECTURE.md"
HELP, OPTIONS = "crates/command_line/src/help.rt", "tools/site/sievebench_site/options.py"
SOURCES, SAYS = "crates/sieve_limits/src/lib.rt", "crates/sievebench_cli/src"
AMOUNTS, BODIES, SITE_DATES, TOOL, CLOCK = "tools/checks/amounts.py", "tools/checks/bodies.py", "tools/checks/dates.py", "tools/site/sievebench_site/words.py", "tools/site/sievebench_site/clock.py"
NUMBER = r"(\d[\d,_]*\d|\d|[Tt]en)"
# Of each limit the places beside its home: a file and a pattern, whose groups are numbers, each of them the limit; or the name of a constant of a
# file of Python. What is printed as one past the limit has a third part.
PLACES = {
    "MAX_TEXT": [
        (FORMATS, rf"\| a script's text, the list of mailboxes \| {NUMBER} octets"),
        (HELP, rf"Limits: {NUMBER} octets a script "),
        (HELP, rf"a script past\n{NUMBER} octets"),
        (AMOUNTS, "TEXT_LIMIT"),
        (TOOL, "TEXT_LIMIT"),
    ],
    "MAX_MAILBOXES": [
        (FORMATS, rf"\| a script's text, the list of mailboxes \| {NUMBER} octets"),
        (HELP, rf"Limits: {NUMBER} octets a script and the list of mailboxes"),
        (AMOUNTS, "MAILBOXES_LIMIT"),
        # The tool says it of a list of mailboxes too.
        (TOOL, "TEXT_LIMIT"),
    ],
    "MAX_MESSAGE": [
        (FORMATS, rf"\| a message \| {NUMBER} octets"),
        (FRONT, rf"`Message::new`, which refuses more than {NUMBER} octets"),
        ("docs/PROVED.md", rf"A message is refused exactly past {NUMBER} octets"),
        (HELP, rf"Limits: [^.]*?, {NUMBER} the mail"),
        (AMOUNTS, "MESSAGE_LIMIT"),
        (TOOL, "MESSAGE_LIMIT"),
    ],
    "MAX_EXPECTED": [
        (FORMATS, rf"\| an expected text \| {NUMBER} octets"),
        (AMOUNTS, "EXPECTED_LIMIT"),
    ],
    "MAX_NAME": [
        (FORMATS, rf"\| a script's name, a message's id, an address of the envelope \| {NUMBER} octets"),
        (LANGUAGE, rf"\| an included script's name \| {NUMBER} octets"),
        (HELP, rf"octets or a name past {NUMBER},"),
        (HELP, rf"; {NUMBER} a name, an\naddress and the word MAIL"),
        (AMOUNTS, "NAME_LIMIT"),
    ],
    "MAX_ID": [
        (FORMATS, rf"\| a script's name, a message's id, an address of the envelope \| {NUMBER} octets"),
    ],
    "MAX_ADDRESS": [
        (FORMATS, rf"\| a script's name, a message's id, an address of the envelope \| {NUMBER} octets"),
        (TOOL, "ADDRESS_LIMIT"),
    ],
    "MAX_MAILBOX": [
        (FORMATS, rf"\| the mailbox \| {NUMBER} octets"),
        (LANGUAGE, rf"\| a mailbox's name \| {NUMBER} octets"),
        (HELP, rf"; {NUMBER} the mailbox"),
        (AMOUNTS, "MAILBOX_LIMIT"),
        (TOOL, "MAILBOX_LIMIT"),
    ],
    "MAX_SCRIPTS": [
        (FORMATS, rf"\| scripts, messages \| {NUMBER} and"),
        (HELP, rf"; {NUMBER} scripts\."),
        (AMOUNTS, "SCRIPT_LIMIT"),
        (TOOL, "SCRIPT_LIMIT"),
    ],
    "MAX_MESSAGES": [
        (FORMATS, rf"\| scripts, messages \| [\d,]+ and {NUMBER} "),
        (AMOUNTS, "MAIL_LIMIT"),
        (TOOL, "MAIL_LIMIT"),
    ],
    "MAX_LINE": [
        (FORMATS, rf"\| a session's line \| {NUMBER} octets"),
        (FORMATS, rf"A line has at most {NUMBER} octets\."),
        (AMOUNTS, "LINE_LIMIT"),
    ],
    "SESSION_TURNS": [
        (FORMATS, rf"\| reads in a session of the program \| {NUMBER} \|"),
        (HELP, rf"a session made {NUMBER} reads"),
    ],
    "LAST_SECOND": [
        (FORMATS, rf"up to {NUMBER}, the end of the year 9999"),
        (AMOUNTS, "LAST_SECOND"),
        (SITE_DATES, "LAST_CLOCK"),
        (CLOCK, "LAST_SECOND"),
    ],
    "MAX_ACTIONS": [
        (LANGUAGE, rf"\| actions in a run \| {NUMBER} \|"),
        (SITE, rf"\| actions of several scripts \| {NUMBER} in each script \| {NUMBER} in all"),
        ("docs/PROVED.md", rf"A verdict has at most {NUMBER} actions"),
        (FAULTS, rf"A run has {NUMBER} actions at most"),
    ],
    "MAX_LOCALS": [
        (LANGUAGE, rf"\| variables of its own that [^|]* \| {NUMBER} \|"),
        (FAULTS, rf"The script sets more than {NUMBER} variables of its own"),
    ],
    "MAX_GLOBALS": [
        (LANGUAGE, rf"\| shared variables set in a run \| {NUMBER} \|"),
        (FAULTS, rf"A run sets {NUMBER} variables at most that scripts share"),
    ],
    "MAX_MATCH": [
        (LANGUAGE, rf"\| match variables \| `\$\{{{NUMBER}\}}` \|"),
        (FAULTS, rf"There is no match variable past `\$\{{{NUMBER}\}}`"),
    ],
    "MAX_VALUE": [
        (LANGUAGE, rf"\| a variable's value \| {NUMBER} octets"),
        ("docs/PROVED.md", rf"the value is cut at {NUMBER} octets"),
        (AMOUNTS, "VALUE_LIMIT"),
    ],
    "MAX_INCLUDE_DEPTH": [
        (LANGUAGE, rf"\| scripts that run below the main one \| {NUMBER} \|"),
        ("docs/PROVED.md", rf"at most {NUMBER} include the running one"),
        (FAULTS, rf"{NUMBER} scripts below the main one run already"),
    ],
    "MAX_INCLUDES": [
        (LANGUAGE, rf"\| scripts entered below the main one \| {NUMBER} \|"),
        ("docs/PROVED.md", rf"A run runs the main script, and others {NUMBER} times at most"),
        ("docs/PROVED.md", rf"A run enters at most {NUMBER} scripts besides the main one"),
        (FAULTS, rf"The run has entered {NUMBER} scripts below the main one"),
    ],
    "MAX_OPEN_BLOCKS": [(LANGUAGE, rf"\| blocks in one another; tests in one another \| {NUMBER};")],
    "MAX_TEST_DEPTH": [(LANGUAGE, rf"; tests in one another \| [^|]*; {NUMBER} \|")],
    "DEPTH_LIMIT": [
        (LANGUAGE, rf"\| entities in one another, with the message \| {NUMBER} \|"),
        ("docs/PROVED.md", rf"from outer to inner ones, {NUMBER} in one another at most"),
        (BODIES, "DEPTH"),
    ],
}
# The homes of the limits that aren't among the others.
HOMES = {"SESSION_TURNS": "crates/sievebench_cli/src/main.rt", "LAST_SECOND": "crates/date_text/src/clock.rt", "DEPTH_LIMIT": "crates/mime_text/src/entities.rt"}
# What each status has, as patterns, and no other status of the same place.
STATUSES = {
    "0": [r"[Dd]one|help or the version"],
    "1": [r"has a fault|verdict is an error|message an error"],
    "2": [r"mistake in the command line|as above", r"too large|past the limit|past\n", r"too many scripts", r"no syntax", r"no truncated"],
    "3": [r"be read\b|not be written|could not be read|the input or the output failed", r"too many reads|session made too many"],
    "4": [r"memory"],
}
SITE_STATUSES = {
    "0": [r"verdicts agree", r"no fault", r"no verdict changed", r"after shutdown"],
    "1": [r"without shutdown", r"disagrees", r"can't be judged", r"verdict\s+that changed", r"fewer", r"a script has a fault", r"left a file", r"is stale"],
    "2": [r"misuse", r"no mails", r"be read or written"],
    "3": [r"sievec", r"can't be run"],
    "130": [r"Ctrl-C"],
    "143": [r"SIGTERM"],
}


def text_of(path):
    """The octets of a file as a text."""
    return (TOP / path).read_text(encoding="utf-8")


def number(word):
    """The number that a word spells."""
    return 10 if word.lower() == "ten" else int(re.sub("[,_]", "", word))


def constants(path):
    """The numbers that a file of Python gives names to."""
    found = {}
    for it in ast.parse(text_of(path)).body:
        names, values = (part.elts if isinstance(part, ast.Tuple) else [part] for part in (it.targets[0], it.value)) if isinstance(it, ast.Assign) else ((), ())
        found.update({name.id: value.value for name, value in zip(names, values) if isinstance(name, ast.Name) and isinstance(value, ast.Constant)})
    return found


def sourced(path):
    """The constants of a source."""
    return {name: number(value) for name, value in re.findall(r"^ *(?:pub )?const (\w+): \w+ = ([\d_]+);", text_of(path), re.M)}


class Limit(Reading):
    """Whether a limit is the same in all its places as in its home."""

    def __init__(self, name):
        self.name, self.home = name, HOMES.get(name, SOURCES)
        self.title, self.command = f"the limit {name}", self.home

    def found(self, path):
        """The places that have another number, or none."""
        limit = sourced(self.home).get(self.name)
        found = [] if limit else [f"{self.home} has no {self.name}"]
        for file, pattern, *more in PLACES[self.name]:
            wanted = (limit or 0) + sum(more)
            told = [constants(file).get(pattern)] if file.endswith(".py") else [number(word) for it in re.finditer(pattern, text_of(file)) for word in it.groups()]
            self.looked += len(told)
            found += [] if told and set(told) == {wanted} else [f"{file} has {told} for `{pattern}`, and {wanted} is wanted"]
        return found


class Gone(Reading):
    """Whether it is noticed where a limit is gone from a place."""

    title, command = "limits that are gone from their places", SOURCES

    def found(self, path):
        """The limits of which it isn't."""
        gone = {name: [(file, f"(?!){pattern}", *more) for file, pattern, *more in places] for name, places in PLACES.items()}
        self.looked = sum(map(len, gone.values()))
        with mock.patch.dict(PLACES, gone):
            return [f"{name} is gone from a place, and nothing says so" for name in gone if len(Limit(name).found(path)) != len(gone[name])]


class Limits(Reading):
    """Whether each limit of the sources has its places, and the lists of limits have no number beside them."""

    title, command = "the lists of limits", SOURCES
    LISTS = [
        (FORMATS, r"\n## Limits\n(.*?)\n## ", "MAX_TEXT MAX_MESSAGE MAX_EXPECTED MAX_NAME MAX_MAILBOX MAX_SCRIPTS MAX_MESSAGES MAX_LINE SESSION_TURNS"),
        (HELP, r"\nLimits: (.*?)\n\n", "MAX_TEXT MAX_MESSAGE MAX_NAME MAX_MAILBOX MAX_SCRIPTS"),
    ]

    def found(self, path):
        """What is missing, and the lists that are otherwise."""
        limits = {**sourced(SOURCES), **{name: sourced(home).get(name) for name, home in HOMES.items()}}
        self.looked = len(limits)
        found = [f"{name} has no places" for name in limits if name not in PLACES] + [f"no source has {name}" for name in PLACES if name not in limits]
        for file, pattern, names in self.LISTS:
            told = re.search(pattern, text_of(file), re.S)
            told = [number(word) for word in re.findall(r"\d[\d,]*\d", told[1])] if told else []
            wanted = [limits[name] for name in names.split()]
            found += [] if told == wanted else [f"{file} has {told}, and {wanted} are wanted"]
        return found


def rows(path, heading):
    """The rows of the first table after a heading: each with its cells."""
    text = text_of(path).partition(heading)[2]
    return [re.split(r" \| ", line.strip("| ")) for line in re.findall(r"^\|(?!---).*", text.partition("\n\n|")[2].partition("\n\n")[0], re.M)]


def helped(function):
    """The text that a function of the help gives."""
    return re.search(rf"fn {function}\(.*?\"\\\n(.*?)\"\n\}}", text_of(HELP), re.S)[1].replace('\\"', '"').replace("\\\\", "\\")


def sentence(text):
    """The statuses of a sentence of a help text."""
    told = re.search(r"Exit status: (.*?)(?:\. |\Z)", text, re.S)[1]
    return re.findall(r"(\d) (.*?)(?=,\s\d |\Z)", told, re.S)


class Statuses(Reading):
    """Whether each status has its own words in a place: all of them in a list, one of them at least in a sentence, and no others'."""

    def __init__(self, title, words, told, is_list=True):
        self.title, self.command, self.words, self.told, self.is_list = f"statuses: {title}", title, words, told, is_list

    def found(self, path):
        """The words that are missing, or stand at another status."""
        told = [(status, text) for head, text in self.told for status in re.split(r" ?, ", head)]
        self.looked = len(told)
        found = [] if not self.is_list or [status for status, _ in told] == list(self.words) else [f"it has the statuses {[status for status, _ in told]}"]
        for status, text in told:
            has = {other: [bool(re.search(word, text)) for word in words] for other, words in self.words.items()}
            own = has.pop(status, [])
            if not (all(own) if self.is_list else any(own)) and not (status in ("130", "143") and any(own)):
                found.append(f"{status} lacks words of its own: {text!r:.300}")
            found += [f"{status} has words of {other}: {text!r:.300}" for other, those in has.items() if any(those) and {status, other} != {"130", "143"}]
        return found


def of_statuses():
    """Each place that says what statuses mean."""
    program = helped("of_program").partition("\n\n")[0]
    yield Statuses("the help of the program", STATUSES, re.findall(r"^  (\d)  (.*?)(?=^  \d|\Z)", f"{program}\n", re.M | re.S))
    for function in ("of_session", "of_dump", "of_test"):
        yield Statuses(f"the help, {function}", STATUSES, sentence(helped(function)), is_list=False)
    told = re.search(r'STATUS = """\\\nExit status:\n(.*?)"""', text_of(OPTIONS), re.S)[1]
    yield Statuses("the help of the tool for sites", SITE_STATUSES, re.findall(r"^  (\d+) +(.*?)(?=^  \d|\Z)", told, re.M | re.S))


def words(path):
    """The words that a function of a source gives, in its order."""
    return re.findall(r'=> b"([^"]*)"', text_of(path))


class Same(Reading):
    """Whether a list is in other places as in its home."""

    def __init__(self, title, home, wanted, others):
        self.title, self.command, self.wanted, self.others = f"{title}, as in {home}", home, wanted, others

    def found(self, path):
        """The lists that are others."""
        self.looked = len(self.wanted)
        return [f"{place} has {got}, and {self.wanted} is wanted" for place, got in self.others.items() if got != self.wanted]


def of_lists():
    """The lines of sessions, why edits are refused, what is said on standard error, and names."""
    lines = [row[0].strip("`") for row in rows(FORMATS, "A line without words has no reply")]
    helps = re.findall(r"^  ([a-z-]+(?: [A-Z]+)*)  ", helped("of_session").partition("\n\nPLACE is")[0], re.M)
    yield Same("the lines of a session", FORMATS, sorted(lines), {HELP: sorted(helps)})
    kinds = [row[0].strip("`") for row in rows(FORMATS, "the first reason that holds")]
    told = re.search(r"A reply is ok, or no and why, and the session goes on: (.*?)\. ", helped("of_session"), re.S)[1]
    yield Same("why an edit is refused", FORMATS, sorted(kinds), {HELP: sorted(re.split(r",\s", told))})
    said = re.findall(r"^  (\S.*?)  +\S", helped("of_program").partition("Standard error")[2].partition("\nA mistake")[0], re.M)
    sources = "\n".join(text_of(it.relative_to(TOP)) for it in sorted((TOP / SAYS).glob("*.rt")))
    told = {f'{word} "PATH"' if of else word for of, word in re.findall(r'complain(_of)?\(\s*rt,\s*"([^"]*)"', sources)}
    told |= set(re.findall(r'=> Some\("([^"]*)"\)', sources))
    yield Same("what is said on standard error", HELP, sorted(said), {SAYS: sorted(told)})
    # No run makes as many reads as there may be.
    told = dict(re.findall(r'SessionEnd::(\w+) => Some\("([^"]*)"\)', sources))
    wanted = {"Read": "cannot read standard input", "Write": "cannot write", "TurnLimit": "too many reads", "NoMemory": "out of memory"}
    yield Same("what is said of each end of a session", "the statuses of the help", wanted, {SAYS: told})
    names = [row[0].strip("`") for row in rows(LANGUAGE, "\n## Extensions")]
    known = words("crates/sieve_profile/src/extension.rt")
    yield Same("the names that are asked for", LANGUAGE, names, {"the sources": known})
    rules = [row[0].strip("`") for row in rows(LANGUAGE, "\n## Faults")]
    yield Same("the rules, in order", LANGUAGE, rules, {"the sources": words("crates/sieve_table/src/rule.rt")})
    errors = [word for row in rows(LANGUAGE, "\n### Errors") for word in re.findall(r"`([a-z-]+)`", row[0])]
    yield Same("the errors of a run", LANGUAGE, sorted(errors), {"the sources": sorted(words("crates/sieve_delivery/src/error.rt"))})


def of_places():
    """All of them."""
    for name in PLACES:
        yield Limit(name)
    yield Gone()
    yield Limits()
    yield from of_statuses()
    yield from of_lists()
