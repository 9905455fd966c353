"""What comments of the crates must not have."""
import pathlib
import re
import tempfile
from unittest import mock

from .files import write
from .runs import Reading

TOP = pathlib.Path(__file__).resolve().parent.parent.parent
MARKED = re.compile(r"\s*(?P<mark>///?|//!|--)(?: (?P<words>.*)|$)")
COLUMNS, WORDS = 100, 20
SENTENCES = re.compile(r"(?<=[.!?])\s+")
CODE = re.compile(r"`[^`]*`")
SAMPLE = """\
-- What a lexer reads. It takes no memory.
one = 1
-- A sentence of more than twenty words is too long, since whoever reads it has forgotten by its end how it began, or why.
two = 2
-- A sentence of code, `What it is` for one, counts it as a word. It ends here.
//! What a crate is.
/// What a function does.
// What a line does.
"""
FOUND = ["1: begins with What", "1: says once more that no memory is taken", "3: has 122 columns", "3: has a sentence of 24 words"]
FOUND += [f"{line}: begins with What" for line in (6, 7, 8)]
# The files of a small crate that has these comments.
FILES = ["crates/low/proofs/low/Answers.antt", "crates/low/specs/Lib.antt", "crates/low/src/lib.rt"]


def comments(text):
    """The comments of a text: the number of the first line, and its lines with their words."""
    found, mark, at = [], None, 0
    for number, line in enumerate([*text.split("\n"), ""], 1):
        it = MARKED.fullmatch(line)
        if found and (not it or it["mark"] != mark):
            yield at, found
            found = []
        if it:
            at, mark = (number, it["mark"]) if not found else (at, mark)
            found.append((line, it["words"] or ""))


def faults(text):
    """What is wrong with the comments of a text, each with the number of a line."""
    for number, lines in comments(text):
        words = CODE.sub("code", " ".join(told for _, told in lines))
        sentences = SENTENCES.split(words.strip())
        yield from (f"{number}: begins with What" for it in sentences if re.match(r"What\b", it))
        if re.search(r"\btakes no memory\b", words, re.I):
            yield f"{number}: says once more that no memory is taken"
        yield from (f"{number + place}: has {len(line)} columns" for place, (line, _) in enumerate(lines) if len(line) > COLUMNS)
        yield from (f"{number}: has a sentence of {len(it.split())} words" for it in sentences if len(it.split()) > WORDS)


class Plain(Reading):
    """Comments are short: lines of 100 columns, and sentences of 20 words, of which none begins with `What`. That a call takes no memory stands
    in docs/ARCHITECTURE.md."""

    title = "comments are short and plain"
    command = "sources, definitions and proofs of all crates"

    def found(self, path):
        """The places that aren't so."""
        wrong = []
        for file in sorted(it for kind in ("rt", "antt") for it in (TOP / "crates").rglob(f"*.{kind}") if "out" not in it.parts):
            text = file.read_text(encoding="utf-8")
            self.looked += sum(1 for _ in comments(text))
            wrong += [f"{file.relative_to(TOP)}:{it}" for it in faults(text)]
        return wrong


class Noticed(Reading):
    """Whether it is noticed where comments of a small crate aren't so."""

    title, command = "comments that aren't short and plain", "a small crate"

    def found(self, path):
        """Where something else is told."""
        with tempfile.TemporaryDirectory() as room, mock.patch(f"{__name__}.TOP", pathlib.Path(room)):
            write(pathlib.Path(room), {file: SAMPLE.encode() for file in FILES})
            got = sorted(Plain().found(path))
        wanted = sorted(f"{file}:{it}" for file in FILES for it in FOUND)
        self.looked = len(wanted)
        return [] if got == wanted else [f"wanted {wanted}, got {got}"]


def of_crates():
    """The comments of all crates, and whether what is wrong in some is noticed."""
    yield Plain()
    yield Noticed()
