"""What is printed as one: a definition with its clauses, definitions in one `mutual` block, a type of the code with its model, or a contract."""
import re


class Part:
    """Lines of a file: those of what is around it, the comment before the text, and the text, and the number of its first line."""

    def __init__(self, file, line, comment, text, around=()):
        self.file, self.line, self.comment, self.text, self.around = file, line, comment, text, around

    def shown(self):
        """All of it, with its place."""
        return [f"{self.file}:{self.line}", *self.around, *self.comment, *self.text]

    def size(self):
        """How many lines there are without comments and blank lines."""
        return sum(bool(it.strip()) and not re.match(r" *(?:--|//)", it) for it in self.text)


class Unit:
    """Its crate, its parts, the names that it defines, their full paths, and the terms in it, of which it is known later what they use."""

    def __init__(self, crate, part, names, paths):
        self.crate, self.parts, self.names, self.paths = crate, [part] if part else [], names, paths
        self.readers = []
        self.known = None

    def place(self):
        """Its file and line."""
        return f"{self.parts[0].file}:{self.parts[0].line}"

    def size(self):
        """How many definitions and lines it has."""
        return len(self.names), sum(it.size() for it in self.parts)

    def uses(self):
        """The units that it uses, what it uses of the toolchain, as pairs of name and module, and the words that nothing defines."""
        if self.known is None:
            self.known = ({}, {}, [])
            for reader in self.readers:
                reader(self)
        return self.known

    def add(self, found, file, line, word):
        """A word is used that stands for this: units, a pair of the toolchain, or nothing at all."""
        units, tools, wrong = self.known
        if found is None:
            wrong.append((file, line, word))
        elif isinstance(found, tuple):
            tools[found] = True
        else:
            units.update((it, True) for it in found if it is not self)
