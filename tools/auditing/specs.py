"""The definitions of a file `*.antt`, and what its words stand for."""
import re

from .units import Part, Unit
from .words import Reader, pieces

MARKS = r"(?:pattern |unfoldable |abbrev |pub |axiom )*"
DECLARED = re.compile(rf"{MARKS}(data|record) (\S+)")
SIGNED = re.compile(rf"{MARKS}(?!use |mod |data |record |mutual\b|module |unfolding )(\S+)(?: \{{[^}}]*\}})? :(?=\s)")
USED = re.compile(r"(?:pub )?use ([^\s{}]+?)(?:\.\{(.*)\}| as (\S+))?$", re.S)
# What a pattern doesn't bind of what the toolchain defines, beside its operators and what begins with a capital.
CONSTRUCTORS = set("true false zero suc pos negsuc tt refl inl inr yes no".split())
OUTER = ("Rattle", "lib", "denote", "Prim", "mathlib", "base")


def brought(path, names, alias):
    """What a `use` line brings: names with where they come from, and other names of modules."""
    if names is None:
        return [], [(alias or path.rsplit(".", 1)[-1], path)]
    found, modules = [], []
    for it in filter(None, (it.strip() for it in names.split(","))):
        name, _, other = it.partition(" as ")
        (modules if name.strip() == "self" else found).append((other.strip() or name.strip(), (path, name.strip())))
    return found, [(name, path) for name, _ in modules]


class Names:
    """The names that a file's `use` lines bring, and those of other modules."""

    def __init__(self):
        self.items, self.modules = {}, {}

    def bring(self, text):
        """Takes what a `use` line brings, without the word `ghost` and its end. Whether it could be read."""
        line = USED.match(" ".join(text.split()))
        if not line:
            return False
        found, modules = brought(*line.groups())
        for name, target in found:
            for word in pieces(name):
                self.items[word] = target
        self.modules.update(modules)
        return True


class Piece:
    """What begins at a line: its number, the lines of the comment before it, its own lines, their depth, and its text."""

    def __init__(self, line, comment, lines, depth):
        self.line, self.comment, self.lines, self.depth = line, comment, lines, depth
        self.text = "\n".join(lines)[depth:]

    def inside(self):
        """What begins within it, one step deeper."""
        return pieces_of(self.lines[1:], self.line + 1, self.depth + 2)


def begins(line, depth):
    """Whether something begins at a line of this depth."""
    return not line[:depth].strip() and len(line) > depth and line[depth] not in " )]}" and not line.startswith("--", depth)


def pieces_of(lines, first, depth):
    """What begins in lines at a depth, of which the first has this number."""
    starts = [at for at, line in enumerate(lines) if begins(line, depth)]
    for start, end in zip(starts, [*starts[1:], len(lines)]):
        while not lines[end - 1].strip() or lines[end - 1].strip().startswith("--"):
            end -= 1
        comment = start
        while comment > 0 and lines[comment - 1].startswith(" " * depth + "--"):
            comment -= 1
        yield Piece(first + start, lines[comment:start], lines[start:end], depth)


class Specs:
    """A file of definitions: its units, the names that it defines and the unit of each, and the names that others define."""

    def __init__(self, index, crate, module, path):
        self.index, self.crate, self.module = index, crate, module
        self.file, self.lines = str(path.relative_to(index.top)), path.read_text(encoding="utf-8").split("\n")
        self.names, self.exports, self.own, self.makes, self.fields, self.units, self.wrong = Names(), {}, {}, set(), set(), [], []
        self.block(pieces_of(self.lines, 1, 0), [])

    # How the file is read

    def block(self, pieces, params, within=None):
        """Reads pieces. Within a unit, what is defined belongs to it. Parameters are those of modules around: texts with their lines."""
        unit, name = within, None
        for piece in pieces:
            text = piece.text
            signed, declared = SIGNED.match(text), DECLARED.match(text)
            if USED.match(" ".join(text.split())):
                self.bring(piece)
            elif re.match(rf"{MARKS}mutual\b", text):
                self.block(piece.inside(), params, within or self.unit(piece, params))
            elif text.startswith("module _ "):
                head = text[len("module _ ") :].split(" where\n")[0]
                self.block(piece.inside(), [*params, (head, piece.line)])
            elif signed or declared:
                unit = within or self.unit(piece, params)
                name = signed[1] if signed else declared[2]
                self.define(unit, name)
                unit.names.append(name)
                self.signed(unit, signed, piece, params) if signed else self.declared(unit, declared, piece, params)
            elif name and re.match(rf"{re.escape(name)}(?=\s)", text):
                if not within:
                    unit.parts[0].text = self.lines[unit.parts[0].line - 1 : piece.line - 1 + len(piece.lines)]
                self.clause(unit, name, piece, params)
            elif not re.match(r"unfolding |(?:pub )?mod ", text):
                self.wrong.append((self.file, piece.line, text.split("\n")[0]))

    def unit(self, piece, params):
        """A new unit, of a piece that modules with parameters may be around."""
        around = [f"module _ {head} where" for head, _ in params]
        unit = Unit(self.crate, Part(self.file, piece.line, piece.comment, piece.lines, around), [], [])
        self.units.append(unit)
        return unit

    def define(self, unit, name):
        """A name is that of this unit."""
        unit.paths.append(f"{self.module}.{name}")
        for word in pieces(name):
            self.own[word] = unit

    def bring(self, piece):
        """A `use` line, which may define what it brings for others."""
        self.names.bring(piece.text.removeprefix("pub "))
        if piece.text.startswith("pub "):
            path, names, alias = USED.match(" ".join(piece.text.split())).groups()
            self.exports.update(brought(path, names, alias)[0])

    def signed(self, unit, head, piece, params):
        """The type of a definition."""
        text = piece.text[head.end() :]
        unit.readers.append(lambda it: self.term(it, text, piece.line, self.bound(it, params)))

    def clause(self, unit, name, piece, params):
        """A clause of a definition: a pattern for each argument, and a term."""

        def read(it):
            text, bound = piece.text[len(name) :], self.bound(it, params)
            reader = Reader(text, 0, self.is_constructor)
            at = reader.pattern(0, bound, ("=",))
            reader.term(at + 1, bound)
            self.take(it, reader, text, piece.line)

        unit.readers.append(read)

    def declared(self, unit, head, piece, params):
        """A type with its constructors, or a record with its fields, which those after them may name."""
        is_record, members = head[1] == "record", []
        for it in piece.inside():
            names, _, of = it.text.removeprefix("pub ").partition(" :")
            members.append((names.split(), of, it.line))
            if is_record:
                self.fields.update(names.split())
            else:
                self.makes.update(names.split())
                self.define(unit, names.split()[0])
        top = piece.text[head.end() :].split(" where", 1)[0]

        def read(it):
            bound = self.term(it, top, piece.line, self.bound(it, params))
            for names, of, line in members:
                self.term(it, of, line, bound)
                bound = bound | set(names) if is_record else bound

        unit.readers.append(read)

    # What its terms use, once all files are read

    def bound(self, unit, params):
        """What the parameters of modules around bind."""
        bound = set()
        for head, line in params:
            bound = self.term(unit, head, line, bound)
        return bound

    def term(self, unit, text, line, bound):
        """Adds what a term uses to a unit. Gives what is bound at its end."""
        reader = Reader(text, 0, self.is_constructor)
        _, bound = reader.term(0, bound)
        self.take(unit, reader, text, line)
        return bound

    def take(self, unit, reader, text, line):
        """Adds what was read to what a unit uses."""
        for path, at in reader.used:
            unit.add(self.find(path), self.file, line + text.count("\n", 0, at), ".".join(path))
        for field, at in reader.fields:
            if not self.index.has_field(field):
                unit.add(None, self.file, line + text.count("\n", 0, at), f".{field}")

    def is_constructor(self, word):
        """Whether a word of a pattern is a constructor, and so isn't bound."""
        if word in self.own:
            return word in self.makes
        return word in self.names.items and self.index.makes(*self.names.items[word])

    def find(self, path):
        """What a path stands for in this file: units, a pair of the toolchain, or nothing."""
        head = path[0]
        if head in self.names.modules and len(path) > 1:
            found = self.index.member(self.names.modules[head], path[1:])
            if found is not None:
                return found
        if head in self.own:
            return [self.own[head]]
        if head in self.names.items:
            return self.index.member(self.names.items[head][0], self.names.items[head][1:])
        if head in OUTER and len(path) > 1:
            return self.index.at(path)
        section = head.strip("◌")
        return self.find((section, *path[1:])) if section and section != head else None
