"""The table of faults, `docs/faults.tsv`, whose columns `docs/LANGUAGE.md` tells: each of its lines is run, and it has a line for each
word of a fault or an error that the sources have, in their order, and no other. It is the home of sentences and causes: each has words of its
own, which stand here a second time and at no other fault, and what `tools/site` says of a fault is what the table says.
"""
import pathlib
import re

from .runs import Reading, Run, lines

TOP = pathlib.Path(__file__).resolve().parent.parent.parent
TABLE, TOOL = TOP / "docs/faults.tsv", TOP / "tools/site/sievebench_site/faults.py"
COLUMNS = ["word", "sentence", "wrong", "right", "cause", "told", "front", "scripts", "with"]
# The functions that give the words, in the order in which the table has them.
SOURCES = [TOP / "crates" / path for path in ("sieve_check/src/judged.rt", "sieve_table/src/rule.rt", "sieve_delivery/src/error.rt")]
WORD = re.compile(r'=> b"([a-z-]+)"')
SENTENCE = re.compile(r'^    "([a-z-]+)": "(.*)",$', re.M)
SERIES = re.compile(r"([^;]*?)(\d+)([^;]*;) \.\. \1(\d+)\3")


# Of each fault a few words of its sentence, and a few of its causes, that no other one has.
OWN = {
    "syntax": ("can't follow", "a brace, a bracket or a quote is missing"),
    "require-place": ("before all other commands", "put after another one with its `require`"),
    "unknown-capability": ("no such extension here", "as `regex`"),
    "unknown-command": ("no such command or test", "a command of an extension that isn't there"),
    "not-required": ("that the script doesn't require", "the `require` is missing"),
    "else-place": ("In front of this branch", "a second `else`"),
    "bad-tag": ("This tag isn't taken here", "tags come first"),
    "bad-arguments": ("The arguments, the tests or the block", "the next name is taken for a test"),
    "unknown-comparator": ("no such comparator", "a comparator that isn't there"),
    "bad-variable-name": ("No variable can have this name", "a dash, a dot or a digit in front"),
    "global-after-set": ("before it declares it global", "the `global` stands too late"),
    "bad-namespace": ("no such namespace", "`global.` is there only with it"),
    "match-index": ("no match variable past", "weren't meant as a match variable"),
    "number-too-large": ("fit in 64 bits", "a digit too many"),
    "bad-envelope-part": ("An envelope has no such part", "`from` and `to` alone"),
    "not-address-header": ("can't look at this field", "`header` looks at any field"),
    "too-many-variables": ("variables of its own", "each name counts once"),
    "bad-character": ("no such character", "those from D800 to DFFF"),
    "bad-relation": ("no such relation", "`gt`, `ge`, `lt`, `le`, `eq` or `ne`"),
    "unfit-comparator": ("Numbers have no parts", "was meant for another match type"),
    "bad-date-part": ("no such part of a date", "`julian`"),
    "missing-script": ("no script of this name", "without `:optional`"),
    "invalid-script": ("The script of this name has a fault", "the report has the fault"),
    "recursive-include": ("The script of this name runs already", "two scripts include each other"),
    "include-depth": ("below the main one run already", "a long chain of scripts"),
    "include-count": ("The run has entered", "`:once` enters one once"),
    "bad-address": ("This isn't one address", "two addresses in one string"),
    "too-many-actions": ("actions at most", "or many that are included"),
    "too-many-globals": ("variables at most that scripts share", "keep what they know in shared variables"),
    "bad-mailbox": ("A mailbox can't have this name", "a value with a tab in it", "a string of `:specialuse`"),
    "second-vacation": ("answered already", "two rules answer the same message"),
    "conflicting-actions": ("A message that is rejected", "the other rejects"),
}


class Table(Reading):
    """Whether the table has the columns and the words that it must have."""

    title, command = "the table of faults", "docs/faults.tsv"

    def found(self, path):
        """What the table has otherwise."""
        columns, *table = cells()
        self.looked = len(table)
        found = [] if columns == COLUMNS else [f"its columns are {columns}"]
        found += [f"a line of {len(row)} cells: {row}" for row in table if len(row) != len(COLUMNS)]
        found += [f"`{row[0]}` has an empty cell" for row in table if not all(row[: COLUMNS.index("front")])]
        wanted, got = [word for source in SOURCES for word in WORD.findall(source.read_text())], [row[0] for row in table]
        found += [] if got == wanted and wanted else [f"its words are {got}, those of the sources {wanted}"]
        return found + self.others(table) + self.told(table)

    def others(self, table):
        """The sentences and causes that lack words of their own, or have those of another fault."""
        found = [f"no words of its own are known of {row[0]}" for row in table if row[0] not in OWN]
        for word, (sentence, *causes) in OWN.items():
            for name, own in (("sentence", sentence), *(("cause", it) for it in causes)):
                those = [row[0] for row in table if own in row[COLUMNS.index(name)]]
                found += [] if those == [word] else [f"`{own}` belongs to the {name} of {word}, and {those} have it"]
        return found

    def told(self, table):
        """What the tool for sites says otherwise: of each fault of a text, and of the errors that it looks for."""
        sentences = {row[0]: row[1] for row in table}
        said = dict(SENTENCE.findall(re.search(r"^SENTENCES = {\n(.*?)^}", TOOL.read_text(encoding="utf-8"), re.M | re.S)[1]))
        found = [f"{TOOL.name} says of {word}: {sentence}" for word, sentence in said.items() if sentences.get(word) != sentence]
        texts = [row[0] for row in table if row[COLUMNS.index("told")].startswith("script ")]
        return found + [f"{TOOL.name} says nothing of {word}" for word in texts if word not in said]


def cells():
    """The cells of each line of the table, the columns' names first."""
    return [line.split("\t") for line in TABLE.read_text(encoding="utf-8").splitlines()]


def spelled(text):
    """A line with what ` .. ` stands for."""
    return SERIES.sub(lambda it: " ".join(f"{it[1]}{number}{it[3]}" for number in range(int(it[2]), int(it[4]) + 1)), text)


def of_table(room):
    """The table, and the runs of its lines: what is printed of a text by `dump`, and what is printed of a run by `test`."""
    yield Table()
    for row in cells()[1:]:
        it = dict(zip(COLUMNS, row))
        for kind in ("wrong", "right"):
            folder = room / "faults" / it["word"] / kind
            folder.mkdir(parents=True)
            scripts = [script.split(": ", 1) for script in it["scripts"].split(" & ") if script]
            scripts.append(["main", "".join(f"{line}\n" for line in (it["front"], spelled(it[kind])) if line)])
            for name, text in scripts:
                (folder / f"{name}.sieve").write_text(text)
            (folder / "mail").write_bytes(b"")
            yield run(f"docs/faults.tsv, {it['word']}, {kind}", folder, it["told"], kind == "wrong", it["with"])


def run(title, folder, told, wrong, names):
    """The run of a script that is reported so, or of the one that isn't wrong."""
    asked = f" --with '{names}'" if names else ""
    test = f"sievebench test{asked} --personal . main.sieve mail"
    if told.startswith("script "):
        sound = [lines('script personal "main" ok'), lines("total 1 messages 0 errors")]
        return Run(title, folder, f"sievebench dump{asked} main.sieve", lines(told), status=1) if wrong else Run(title, folder, test, sound)
    if wrong:
        return Run(title, folder, f"{test} | grep '^  error '", lines(f"  {told}"))
    return Run(title, folder, f"{test} | tail -n 1", lines("total 1 messages 0 errors"))
