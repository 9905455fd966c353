"""What is printed of types, traits, constants and contracts of the code, and what their words stand for."""
import re

from .code import File, Item, split
from .units import Part, Unit
from .words import Reader

PATH = re.compile(r"(?<!['\w.])(?:crate::|self::|super::)*[A-Za-z_]\w*(?:::[A-Za-z_]\w*)*")
PRIMITIVES = set("bool char str u8 u16 u32 u64 u128 usize i8 i16 i32 i64 i128 isize f32 f64".split())
PRELUDE = {
    *"Option Some None Result Ok Err Vec Box String Iterator IntoIterator Fn FnMut FnOnce Copy Clone Default From Into AsRef AsMut ToOwned".split(),
    *"PartialEq Eq PartialOrd Ord Drop Drops Send Sync Sized AllocGlobal Input Print Eprint HostRuntime".split(),
}
KEYWORDS = set("struct enum type trait pub crate mut dyn impl for where const fn as in ref move static true false ghost unsafe".split())
# What a module of a declared type has, beside its own name and its variants.
MADE = re.compile(r"(?:out|fold|Held|Row_of|end_of|more_of|size|view|rec)-|\S+'$|\S+-F$|(?:Inside|enum|the_type|the_row)$|The\w+$")


class Source(File):
    """A file of code, of which units are made."""

    def __init__(self, index, crate, module, path):
        super().__init__(index, crate, module, path)
        self.made = {}

    def part(self, start, head, shown, around=()):
        """The lines of these pieces of the file, with the comment before them, without attributes."""
        comment = [it for it in self.text[start:head].split("\n") if it.strip().startswith("//")]
        lines = []
        for begin, end in shown:
            before = self.text.rfind("\n", 0, begin) + 1
            text = self.text[begin if self.text[before:begin].strip() else before : end].strip("\n")
            lines += [it for it in text.split("\n") if not re.match(r"\s*#!?\[.*\]$", it)]
        return Part(self.file, self.line(head), comment, lines, around)

    def unit_of(self, item):
        """The unit of a type, a trait or a constant."""
        if item.made is None:
            path = item.path()
            declared = ".".join(["Rattle", self.crate, "specs.declared", *self.module, item.name])
            shown = self.of_trait(item) if item.kind == "trait" else [(item.head, item.end)]
            item.made = Unit(self.crate, self.part(item.start, item.head, shown), [item.name], ["::".join(path), declared])
            item.made.readers.append(lambda it: self.use_item(it, item))
            for around, start, head, end in self.impls_of(item, "Model"):
                self.show_impl(item.made, around, start, head, end, ("Value", "view"))
        return item.made

    def of_trait(self, item):
        """The places of what is printed of a trait: its head, its ghost members, and its functions without their bodies."""
        inside = [(start, end + 1) for _, start, _, end in item.own.members] + [(it.start, self.end_of(it)) for it in self.functions if it.around is item.own]
        return [(item.head, self.plain.index("{", item.head) + 1), *sorted(inside), (item.end - 1, item.end)]

    def end_of(self, function):
        """Where the contract of a function ends."""
        return max([function.signature[1], *(it[4] + 1 for it in function.clauses)])

    def impls_of(self, item, trait):
        """Each `impl` of a trait for a type in this file."""
        return [it for it in self.impls if it[0].owner == item.name and it[0].of[1] == trait]

    def show_impl(self, unit, around, start, head, end, names):
        """Adds an `impl` to a unit, with these of its ghost members."""
        wanted = [it for it in around.members if it[0] in names]
        shown = [(head, self.plain.index("{", head) + 1), *((member[1], member[3] + 1) for member in wanted), (end - 1, end)]
        unit.parts.append(self.part(start, head, shown))
        unit.readers.append(lambda it: self.use_members(it, around, wanted, ()))

    def impl_of(self, item, trait):
        """The units of what a type has by an `impl` of a trait."""
        found = []
        for around, start, head, end in self.impls_of(item, trait):
            if start not in self.made:
                unit = self.made[start] = Unit(self.crate, None, [f"{trait} for {item.name}"], [])
                self.show_impl(unit, around, start, head, end, [it[0] for it in around.members])
            found.append(self.made[start])
        return found

    def use_code(self, unit, text, at):
        """What code in a term names: types, and what a type has by an `impl`."""
        for it in PATH.finditer(text):
            if it[0] not in KEYWORDS:
                unit.add(self.index.code(self, it[0].split("::")), self.file, self.line(at), it[0])
        named = re.match(r"⟦\s*<\s*([\w:]+).*\sas\s+(?:\w+::)*(\w+)", text)
        item = named and self.index.item(self, named[1].split("::"), 0)
        if isinstance(item, Item):
            unit.add(item.source.impl_of(item, named[2]), self.file, self.line(at), text)

    def use_item(self, unit, item):
        """What a type, a trait or a constant uses."""
        if item.kind == "trait":
            self.use_trait(unit, item)
        elif item.kind == "enum":
            head = self.plain.find("{", item.head, item.end)
            self.use_types(unit, item.head, head, item)
            for start, end in item.variants.values():
                self.use_fields(unit, start, end, item)
        elif item.kind == "struct":
            head = self.plain.find("{", item.head, item.end)
            self.use_types(unit, item.head, item.end if head < 0 else head, item)
            for start, end in item.members.values():
                self.use_field(unit, start, end, item)
        else:
            at = self.plain.find(":", item.head, item.end)
            self.use_types(unit, at if at >= 0 else item.head, item.end, item)

    def use_fields(self, unit, start, end, item):
        """What the fields of a variant use."""
        at = min((it for it in (self.plain.find(mark, start, end) for mark in "({") if it >= 0), default=-1)
        while at >= 0 and "#" in self.plain[start:at]:
            start = self.close(self.plain.index("[", start))
            at = min((it for it in (self.plain.find(mark, start, end) for mark in "({") if it >= 0), default=-1)
        if at >= 0:
            for begin, stop in self.parts(at + 1, self.close(at) - 1):
                self.use_field(unit, begin, stop, item)

    def use_field(self, unit, start, end, item):
        """What the type of a field uses, or the fact of a ghost field."""
        name = re.match(r"(?:\s*#\[[^\]]*\])*\s*(?:pub(?:\([^)]*\))?\s+)?(ghost\s+)?\w+\s*:(?!:)", self.plain[start:end])
        begin = start + (name.end() if name else 0)
        if name and name[1]:
            brace = self.plain.index("{", begin)
            self.use_term(unit, brace + 1, self.close(brace) - 1, set(item.members) | self.generics(item), None)
        else:
            self.use_types(unit, begin, end, item)

    def use_trait(self, unit, item):
        """What the ghost members and the contracts of a trait use."""
        around = item.own
        self.use_types(unit, item.head + len("trait"), self.plain.index("{", item.head), item)
        names = {name for name, _, _, _ in around.members}
        self.use_members(unit, around, around.members, names)
        for function in self.functions:
            if function.around is around:
                self.use_contract(unit, function, function.clauses)

    def use_members(self, unit, around, members, names):
        """What ghost members of an `impl` or a trait use. There the members that are named are bound."""
        bound = {"Self", "self", "Value", *names, *re.findall(r"\w+", around.head)}
        for _, _, head, end in members:
            brace = self.plain.index("{", head)
            self.use_term(unit, brace + 1, self.close(brace) - 1, bound, around.names)

    def generics(self, item):
        """The parameters of a type or a function, and of what is around it."""
        found = set()
        heads = [self.plain[item.signature[0] : item.signature[1]] if item.kind == "fn" else self.plain[item.head : self.until(item.head, "{;")]]
        heads += [item.around.head] if item.around else []
        for head in heads:
            at = head.find("<")
            if at >= 0 and (item.kind != "fn" or head is not heads[0] or "(" not in head[:at]):
                depth, end = 0, at
                for end in range(at, len(head)):
                    depth += (head[end] == "<") - (head[end] == ">" and head[end - 1] != "-")
                    if not depth:
                        break
                for start, stop in split(head[at + 1 : end]):
                    found.update(re.findall(r"^\s*(?:const )?(\w+)", head[at + 1 : end][start:stop]))
        return found

    def use_types(self, unit, start, end, item, labels=()):
        """What the types between two places use, where some words are names of parameters."""
        bound = {"self", "Self", item.name, *self.generics(item)}
        for it in PATH.finditer(self.plain, start, end):
            path = it[0].split("::")
            after = self.plain[it.end() : it.end() + 3].lstrip()
            is_label = after.startswith(":") and not after.startswith("::") or after.startswith("=") and item.kind not in ("const", "static")
            if path[0] in bound or path[0] in KEYWORDS or is_label or it[0] in labels:
                continue
            unit.add(self.index.code(self, path), self.file, self.line(it.start()), it[0])

    def contract(self, item, name=None):
        """The unit of a function's contract, or of its clauses of a name."""
        if (item, name) in self.made:
            return self.made[item, name]
        clauses = [it for it in item.clauses if name is None or it[0] != "ensures" or it[1] == name]
        shown = [(item.head, item.signature[1]), *((it[2], it[4] + 1) for it in clauses)]
        around = [" ".join(self.text[slice(*self.head_of(item))].split())] if item.around else []
        path = "::".join(item.path()) + (f".{name}" if name else "")
        unit = self.made[item, name] = Unit(self.crate, self.part(item.start, item.head, shown, around), [item.name], [path])
        unit.readers.append(lambda it: self.use_contract(it, item, clauses))
        return unit

    def use_contract(self, unit, item, clauses):
        """What a contract uses: the types of the function, and its clauses."""
        start, end = item.signature
        opens = self.plain.index("(", start)
        generic = self.plain.find("<", start, opens)
        self.use_types(unit, generic if generic >= 0 else opens, end, item, self.parameters(item))
        if item.around and not item.around.is_trait:
            self.use_head(unit, item)
        bound = {"self", "Self", "result", *self.generics(item), *self.parameters(item)}
        bound |= {clause[1] for clause in item.clauses if clause[0] == "ghost"}
        if item.around and item.around.is_trait:
            bound |= {name for name, _, _, _ in item.around.members}
        for _, _, _, begin, stop in clauses:
            self.use_term(unit, begin, stop, bound, item.around and item.around.names)

    def use_head(self, unit, item):
        """What the head of an `impl` around a function names: its type, and the bounds of its parameters."""
        start, end = self.head_of(item)
        self.use_types(unit, start + item.around.head.index("impl") + len("impl"), end, item)

    def head_of(self, item):
        """Where the head of what is around a function stands."""
        start = self.plain.rfind(item.around.head, 0, item.head)
        return start, start + len(item.around.head)

    def parameters(self, item):
        """The names of a function's parameters."""
        opens = self.plain.index("(", self.plain.index(item.name, item.signature[0]) + len(item.name))
        while self.generic_depth(item.signature[0], opens):
            opens = self.plain.index("(", opens + 1)
        found = set()
        for start, end in self.parts(opens + 1, self.close(opens) - 1):
            found.update(re.findall(r"\b[a-z_]\w*", self.plain[start:end].split(":")[0]))
        return found

    def generic_depth(self, start, end):
        """How many angles are open between two places."""
        text = self.plain[start:end].replace("->", "  ")
        return text.count("<") - text.count(">")

    def use_term(self, unit, start, end, bound, block):
        """What a term uses. Names are those of the block around first, then those of the file, and of the code."""
        scope = Scope(self, block)
        reader = Reader(self.text[start:end], start, scope.is_constructor)
        reader.term(0, bound)
        for path, at in reader.used:
            unit.add(scope.find(path), self.file, self.line(at), ".".join(path))
        for text, at in reader.code:
            self.use_code(unit, text, at)
        for field, at in reader.fields:
            if not self.index.has_field(field):
                unit.add(None, self.file, self.line(at), f".{field}")


class Scope:
    """The names that a term of a file of code may use."""

    def __init__(self, source, block):
        self.source, self.index = source, source.index
        self.names = [it for it in (block, source.names) if it]

    def is_constructor(self, word):
        """Whether a word of a pattern is a constructor."""
        return any(word in it.items and self.index.makes(*it.items[word]) for it in self.names)

    def find(self, path):
        """What a path stands for."""
        head = path[0]
        for names in self.names:
            if head in names.modules and len(path) > 1:
                found = self.index.member(names.modules[head], path[1:])
                if found is not None:
                    return found
            if head in names.items:
                return self.index.member(names.items[head][0], names.items[head][1:])
        if head in PRIMITIVES:
            return (head, "std")
        if head in ("Rattle", "lib", "denote", "Prim"):
            return self.index.at(path)
        return self.index.code(self.source, [head])
