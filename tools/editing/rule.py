"""Which must-fail edits there are: what each shows, and what has to be shown.

An edit shows something that a proof alone doesn't say. Each has lines `shows: KIND WORD`:

- `promise FUNCTION`: a function that a row of `docs/PROVED.md` names, and that the edit changes. Four edits are enough for a row.
- `relation NAME`: a relation other than an equation. A clause of a function that the edit changes asserts it, no other edit of the crate shows it,
  and none changes such a function that shows anything but relations. Each relation that a public clause asserts has an edit of such a function.
- `rule NAME`, `error NAME`, `column TYPE.FIELD`: a rule of the validator, a kind of error of a run, a column of the table. One edit shows each.
- `crate`: nothing of these. A crate that has edits has two, and only then.

A function whose clause is an equation of its answer needs none: no other answer can pass.
"""
import re

from auditing.specs import DECLARED, SIGNED, pieces_of
from tabling import promises

from .files import changed

ENOUGH, LEAST = 4, 2
# The types that list what one edit each shows: variants, or columns with the name of their type.
LISTS = {"rule": ["Rule"], "error": ["ErrorKind"], "column": ["Row", "Slot", "TagRow"]}
NAME = re.compile(r"(?<![\w.'])[A-Z][\w']*")


class Shown:
    """What the edits show, of the sources, and of the text of what is proved."""

    def __init__(self, index, proved, edits):
        self.index, self.edits = index, edits
        self.rows = [{name.partition(".")[0] for name in row} for row in promises.rows(proved)]
        self.relations = relations(index)
        self.traits = of_traits(index)
        self.listed = {kind: listed(index, types) for kind, types in LISTS.items()}

    def faults(self):
        """What is otherwise than the rule says: sentences."""
        for edit in self.edits:
            yield from (f"{edit.place()}: {why}" for why in self.faults_of(edit))
        yield from self.too_many()
        for kind, words in self.listed.items():
            yield from self.not_once(kind, words)
        yield from self.relations_not_once()
        yield from self.crates()

    def faults_of(self, edit):
        """What is wrong with an edit alone."""
        items = changed(self.index, edit)
        if len(items) < len(edit.changes) or not items:
            yield "an old text isn't once in the code, in a function or a constant"
        if not edit.shows:
            yield "it shows nothing: say what by a line `shows: KIND WORD`, or take it out"
        for kind, word in edit.shows:
            yield from self.wrong(kind, word, items)

    def wrong(self, kind, word, items):
        """Why an edit of these items doesn't show this, if it doesn't."""
        functions = [it for it in items if it.kind == "fn"]
        if kind == "promise":
            if not any(word in row for row in self.rows):
                yield f"no row of docs/PROVED.md names {word}"
            elif not any(is_named(it, word) for it in functions):
                yield f"it doesn't change {word}"
        elif kind == "relation":
            if not any(word in self.asserted(it) for it in functions):
                yield f"no clause of what it changes asserts a relation {word}"
        elif kind in self.listed:
            if word not in self.listed[kind]:
                yield f"there is no {kind} {word}"
        elif kind != "crate":
            yield f"`shows: {kind}` isn't known"

    def asserted(self, function):
        """The relations that the clauses of a function assert, or those of the trait's that it stands for."""
        if function.kind != "fn":
            return set()
        of = [function, *self.traits.get(function.name, [])] if function.around and function.around.of else [function]
        texts = [it.source.text[a:b] for it in of for word, _, _, a, b in it.clauses if word == "ensures"]
        return {name for text in texts for name in NAME.findall(text) if name in self.relations}

    def too_many(self):
        """The rows of what is proved that more edits show than are enough."""
        for row in self.rows:
            names = [it.place() for it in self.edits if any(kind == "promise" and word in row for kind, word in it.shows)]
            if len(names) > ENOUGH:
                yield f"docs/PROVED.md: {len(names)} edits show the row of {', '.join(sorted(row))}, and {ENOUGH} are enough: {', '.join(names)}"

    def not_once(self, kind, words):
        """The words of a list that no edit shows, or several."""
        for word in words:
            names = [it.place() for it in self.edits if (kind, word) in it.shows]
            if len(names) != 1:
                yield f"{kind} {word}: " + (f"{len(names)} edits show it: {', '.join(names)}" if names else "no edit shows it")

    def relations_not_once(self):
        """The relations that an edit shows and another one too, or touches; and those of public clauses that none touches."""
        touched = {}
        for edit in self.edits:
            for word in {word for function in changed(self.index, edit) for word in self.asserted(function)}:
                touched.setdefault((edit.crate, word), []).append(edit)
        for edit in self.edits:
            for word in (word for kind, word in edit.shows if kind == "relation"):
                others = [it.place() for it in touched.get((edit.crate, word), []) if it is not edit and is_enough(it, word)]
                if others:
                    yield f"{edit.place()}: it shows a relation {word} that others touch: {', '.join(others)}"
        for crate, word in sorted(self.asked() - set(touched)):
            yield f"edits/{crate}: a public clause asserts the relation {word}, and no edit is of such a function"

    def asked(self):
        """The relations that clauses of public functions with bodies assert, each with its crate, of crates that have edits."""
        crates = {it.crate for it in self.edits}
        return {
            (crate, word)
            for (crate, module), source in self.index.sources.items()
            if crate in crates and module[-1:] != ("laws",) and module[:1] != ("tests",)
            for function in source.functions
            if function.is_public and source.plain[function.end] == "{"
            for word in self.asserted(function)
        }

    def crates(self):
        """The crates with too few edits, and edits that are there for their crate alone where it has enough without them."""
        for crate in sorted({it.crate for it in self.edits}):
            found = [it for it in self.edits if it.crate == crate]
            alone = [it.place() for it in found if all(kind == "crate" for kind, _ in it.shows)]
            if len(found) < LEAST:
                yield f"edits/{crate}: it has {len(found)}, and a crate that has edits has {LEAST}"
            elif alone and len(found) > LEAST:
                yield f"edits/{crate}: there are {len(found)} edits, so those that show nothing else go: {', '.join(alone)}"


def is_enough(edit, word):
    """Whether an edit that touches a relation leaves no place for one that shows it: it shows it too, or something that is no relation."""
    return ("relation", word) in edit.shows or any(kind != "relation" for kind, _ in edit.shows)


def is_named(function, word):
    """Whether a path of the code is the end of a function's, with its crate before it or not."""
    path, words = function.path(), word.split("::")
    return path[-len(words) :] == words or words[0] == path[0] and path[1:][-len(words[1:]) :] == words[1:]


def listed(index, types):
    """The variants of types, or their fields after the type's name."""
    found = [it for source in index.sources.values() for it in source.items.values() if it.name in types and it.kind in ("enum", "struct")]
    return [name for it in found for name in it.variants] + [f"{it.name}.{name}" for it in found for name in it.members]


def of_traits(index):
    """The functions of traits, by their names."""
    found = {}
    for source in index.sources.values():
        for function in source.functions:
            if function.around and function.around.is_trait:
                found.setdefault(function.name, []).append(function)
    return found


def relations(index):
    """The names of definitions that hold or don't hold of what they are given."""
    return {name for specs in index.specs.values() for name in relations_of(pieces_of(specs.lines, 1, 0))}


def relations_of(pieces):
    """The names of relations among the definitions of a file."""
    for piece in pieces:
        signed, declared = SIGNED.match(piece.text), DECLARED.match(piece.text)
        if re.match(r"(?:\w+ )*mutual\b|module _ ", piece.text):
            yield from relations_of(piece.inside())
        elif signed and holds(piece.text[signed.end() :].split(f"\n{signed[1]} ")[0]):
            yield signed[1]
        elif declared and is_relation(re.split(r"\bwhere\b", piece.text)[0]):
            yield declared[2]


def holds(text):
    """Whether what a definition gives, by its type, is a statement."""
    return bool(re.search(r"→ Type(?: 0)?$", " ".join(text.split())))


def is_relation(head):
    """Whether a declared type speaks of values: its head takes one that is no type."""
    kinds = re.findall(r"\(\w[^:()]* : ([^()]*)\)", " ".join(head.split()))
    return holds(head) or any(not kind.startswith("Type") for kind in kinds)
