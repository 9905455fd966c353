"""Whether each sentence of `docs/LANGUAGE.md` on what a script does names what fails where it is false. `docs/language.tsv` has a line for each
sentence and each row of a table, in their order: it, and after tabs rows of `examples/rows`, each by the title of its run, and checks, each by
its module and words that stand there; or `-` where it says nothing of a script. What a sentence has between marks of code stands in something
that it names.
"""
import pathlib
import re

from . import rows
from .runs import Reading

TOP = pathlib.Path(__file__).resolve().parent.parent.parent
PAGE, TABLE, ROWS, CHECKS = TOP / "docs/LANGUAGE.md", TOP / "docs/language.tsv", TOP / "examples/rows", TOP / "tools/checks"
# A stop outside of code ends a sentence. Paths, names of the page's own and what it leaves out stand in no row.
END, CODE, OTHER = re.compile(r"(?<=\.) (?=(?:[^`]*`[^`]*`)*[^`]*$)"), re.compile(r"`([^`]+)`"), re.compile(r"^docs/|^examples/|NAME|\.\.")
# What is wrong in the page or in the table: a text that one of them has, and what stands in its place.
WRONG = [
    (PAGE, "An *error* ends a run.", "An *error* ends nothing."),
    (PAGE, "An *error* ends a run. ", ""),
    (PAGE, "An *error* ends a run.", "An *error* ends a run. All is well."),
    (PAGE, "| `bad-tag` | `not-required` |", "| `bad-tag` | `bad-tag` |"),
    (TABLE, "\tflags.rows, the tag changes no internal flag", ""),
    (TABLE, "\tflags.rows, the tag changes no internal flag", "\tflags.rows, the tag changes no flag"),
    (TABLE, "\ttranscripts.py, commands of", "\ttranscripts.py, commands from"),
    (TABLE, "\ttranscripts.py, commands of", "\ttranscript.py, commands of"),
    (TABLE, "\tlanguage.faults, line 1 bad-arguments: keep discard;", "\tlanguage.faults, line 1 bad-tag: if header :regex \"a\" \"b\" {}"),
    (TABLE, "An *error* ends a run.", "The page ends.\t-\nAn *error* ends a run."),
]


def sentences(text):
    """Each sentence, and each row of a table in one or more, without the column of the standards. Headings say nothing."""
    for block in text.split("\n\n"):
        told = block.splitlines()
        if block.startswith("|"):
            head, _, *told = [line.strip("| ").split(" | ") for line in told]
            told = [" | ".join(row[: len(head) - (head[-1] == "Standard")]) for row in told]
        for line in told:
            yield from () if line.startswith("#") else END.split(re.sub(r"^(?:-|\d\.) ", "", line))


def texts_of(room):
    """What each row is and answers, by its title."""
    found = {}
    for run in rows.of_files(ROWS, room):
        asked = re.search(r"< (\S+)$", run.command)
        parts = [run.command.encode(), (run.folder / asked[1]).read_bytes() if asked else b"", run.output, run.error]
        found[run.title] = found.get(run.title, "") + b"\n".join(parts).decode(errors="replace").lower()
    return found


def text_of(name, texts):
    """That of a row, or of a module that has these words, or nothing."""
    file, _, part = name.partition(", ")
    path = CHECKS / file
    text = path.read_text(encoding="utf-8") if name not in texts and path.suffix == ".py" and path.is_file() else ""
    return texts.get(name) or (text.lower() if part and part in text else "")


def wrong(page, table, texts):
    """What the table has otherwise than the page, and what it names that isn't there or doesn't have the words of its sentence."""
    table = [line.split("\t") for line in table.splitlines()[1:]]
    wanted, got = list(sentences(page)), [it for it, *_ in table]
    found = [f"{TABLE.name} lacks: {it}" for it in wanted if it not in got] + [f"{PAGE.name} doesn't say: {it}" for it in got if it not in wanted]
    found += [] if found or got == wanted else [f"{TABLE.name} has another order than {PAGE.name}"]
    for it, *names in (row for row in table if row[1:] != ["-"]):
        told = [text_of(name, texts) for name in names]
        found += [] if names else [f"it names nothing: {it}"]
        found += [f"there is no {name}" for name, text in zip(names, told) if not text]
        found += [f"nothing that it names has `{word}`: {it}" for word in CODE.findall(it) if not OTHER.search(word) and not any(word.lower() in text for text in told)]
    return found


class Sentences(Reading):
    """Whether the table is as the page, and names what is there; and whether that is noticed where it isn't."""

    title, command = "the sentences of the language", TABLE.name

    def __init__(self, room):
        self.room = room

    def found(self, path):
        """What is otherwise."""
        pages, texts = {it: it.read_text(encoding="utf-8") for it in (PAGE, TABLE)}, texts_of(self.room)
        self.looked = len(texts)
        found = wrong(*pages.values(), texts)
        for file, old, new in WRONG:
            changed = {**pages, file: pages[file].replace(old, new)}
            found += [] if pages[file].count(old) == 1 and wrong(*changed.values(), texts) != found else [f"it isn't noticed where {file.name} has {new!r} for {old!r}"]
        return found


def of_sentences(room):
    """All of them."""
    yield Sentences(room)
