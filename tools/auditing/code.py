"""The items of a file `*.rt`: its types, traits, constants and functions with their contracts, and what its `use` lines bring."""
import re

from .specs import Names

PLAIN = re.compile(r"""//[^\n]*|/\*.*?\*/|b?r(#*)".*?"\1|b?"(?:\\.|[^"\\])*"|b?'(?:\\[^']*|[^'\\\n])'""", re.S)
ITEM = re.compile(
    r"(pub(?:\([^)]*\))?\s+)?(?:unsafe\s+|const\s+(?=fn\b)|async\s+)*(ghost use|use|mod|fn|struct|enum|trait|impl|const|static|type|ghost)\b\s*(\w*)"
)
CLAUSE = re.compile(r"\s*(requires|ensures|ghost)\b\*?\s*(\w*)\s*:?\s*(?=\{)")
OPENS = "([{"


def blank(found):
    """As many spaces, and the ends of lines."""
    return re.sub(r"[^\n]", " ", found[0])


def split(text, mark=","):
    """The places of the parts of a text between marks that stand in no brackets: pairs of start and end."""
    start = depth = 0
    for at, it in enumerate(text):
        depth += (it in "([{<") - (it in ")]}" or it == ">" and text[at - 1] != "-" and text[at - 1] != "=")
        if it == mark and depth == 0:
            yield start, at
            start = at + 1
    if text[start:].strip():
        yield start, len(text)


class Item:
    """A type, trait, constant or function of the code: its kind and name, the module and the names around, where it stands, and its unit."""

    def __init__(self, source, kind, name, start, head, end, around):
        self.source, self.kind, self.name, self.start, self.head, self.end, self.around = source, kind, name, start, head, end, around
        self.variants, self.members, self.is_public, self.made, self.own = {}, {}, False, None, None

    def path(self):
        """Its full path."""
        return [self.source.crate, *self.source.module, *(it for it in [self.around and self.around.owner] if it), self.name]


class Around:
    """What stands around a function: an `impl` or a trait, its type, the words that it binds, and the names that it brings."""

    def __init__(self, owner, head, is_trait, is_public=False):
        self.owner, self.head, self.is_trait, self.is_public = owner, head, is_trait, is_public
        self.names, self.members, self.of = Names(), [], None


class File:
    """A file of code: its items by name, its functions, what its `use` lines bring, and the names of its modules."""

    def __init__(self, index, crate, module, path):
        self.index, self.crate, self.module, self.path = index, crate, module, path
        self.file, self.text = str(path.relative_to(index.top)), path.read_text(encoding="utf-8")
        self.plain = PLAIN.sub(blank, self.text)
        self.names, self.uses, self.items, self.functions, self.impls, self.modules, self.wrong = Names(), {}, {}, [], [], [], []
        self.read(0, len(self.plain), None)

    def close(self, at):
        """The place after the bracket that closes the one at a place."""
        depth = 0
        for it in re.finditer(r"[(\[{)\]}]", self.plain[at:]):
            depth += 1 if it[0] in OPENS else -1
            if not depth:
                return at + it.end()
        return len(self.plain)

    def until(self, at, marks):
        """The place of the first of these marks that stands in no brackets; brackets are skipped but where they are marks."""
        while at < len(self.plain) and self.plain[at] not in marks:
            at = self.close(at) if self.plain[at] in OPENS else at + 1
        return at

    def read(self, at, end, around):
        """Reads the items from a place to another."""
        while True:
            start = at
            while at < end and (self.plain[at].isspace() or self.plain[at] == "#"):
                at = self.close(self.plain.index("[", at)) if self.plain[at] == "#" else at + 1
            if at >= end:
                return
            it = ITEM.match(self.plain, at)
            if it:
                is_test = re.search(r"#\[(?:cfg\()?test", self.plain[start:at])
                at = self.item(it, start, around, is_test)
            else:
                at = self.until(at, ";{")
                at = self.close(at) if at < end and self.plain[at] == "{" else at + 1

    def item(self, it, start, around, is_test):
        """Reads an item; gives the place after it."""
        kind, name = it[2], it[3]
        if kind in ("use", "ghost use"):
            end = self.plain.index(";", it.end())
            self.use(kind, it.start(), end, around)
        elif kind == "mod":
            end = self.until(it.end(), ";{")
            self.modules += [] if is_test or self.plain[end] != ";" else [name]
            end = end if self.plain[end] == ";" else self.close(end) - 1
        elif kind == "fn":
            return self.function(it, start, around)
        elif kind == "ghost":
            end = self.until(it.end(), ";")
            around.members += [(name, start, it.start(), end)]
        elif kind in ("impl", "trait"):
            return self.impl(it, start)
        else:
            end = self.until(it.end(), ";{" if kind in ("struct", "enum") else ";")
            end = self.close(end) - 1 if self.plain[end] == "{" else end
            item = Item(self, kind, name, start, it.start(), end + 1, around)
            item.is_public = bool(it[1])
            if name != "_" and (kind != "type" or not around):
                self.keep(item)
        return end + 1

    def keep(self, item):
        """Takes an item under its name, with the variants or fields that it has."""
        if item.around:
            self.items.setdefault(f"{item.around.owner}.{item.name}", item)
        else:
            self.items[item.name] = item
        if item.kind in ("struct", "enum"):
            at = self.plain.find("{", item.head, item.end)
            body = (at + 1, item.end - 1) if at >= 0 else (item.head, item.head)
            for start, end in self.parts(*body):
                name = re.match(r"(?:\s*#\[[^\]]*\])*\s*(?:pub(?:\([^)]*\))?\s+)?(ghost\s+)?(\w+)", self.plain[start:end])
                if name:
                    (item.variants if item.kind == "enum" else item.members)[name[2]] = (start, end)

    def parts(self, start, end):
        """The places of the parts between commas."""
        return [(start + a, start + b) for a, b in split(self.plain[start:end])]

    def use(self, kind, start, end, around):
        """A `use` line, of definitions or of code."""
        if kind == "ghost use":
            names = around.names if around else self.names
            if not names.bring(" ".join(self.text[start:end].split()).removeprefix("ghost ")):
                self.wrong.append((self.file, self.line(start), self.text[start:end]))
        else:
            text = re.sub(r"\s+", "", re.sub(r"^(?:pub(?:\([^)]*\))?\s+)?use\s+", "", self.plain[start:end]).replace(" as ", "@"))
            self.bring(text, [])

    def bring(self, text, before):
        """What a `use` line of code brings, with the path before it."""
        head, brace, rest = text.partition("{")
        if not brace:
            path, _, alias = text.partition("@")
            path = [*before, *path.split("::")]
            path = path[:-1] if path[-1] == "self" else path
            self.uses[alias or path[-1]] = path
            return
        before = [*before, *filter(None, head.split("::"))]
        for start, end in split(rest[: rest.rindex("}")]):
            self.bring(rest[start:end], before)

    def impl(self, it, start):
        """An `impl` or a trait, with what is in it."""
        body = self.until(it.end(2), "{")
        end = self.close(body)
        head = self.plain[it.start() : body]
        if it[2] == "trait":
            around = Around(it[3], head, True, bool(it[1]) and "(" not in it[1])
            item = Item(self, "trait", it[3], start, it.start(), end, None)
            item.is_public = bool(it[1])
            self.items[it[3]] = item
        else:
            named = re.sub(r"^.*?\bfor\s+(?!<)", "", self.bare(head)) if re.search(r"\bfor\s+(?!<)", self.bare(head)) else self.bare(head)
            owner = re.search(r"\w+(?:::\w+)*", re.sub(r"^&?(?:mut )?", "", named.strip()))
            around = Around(owner[0].split("::")[-1] if owner else "", head, False)
            around.of = re.match(r"\s*(\w+)", self.bare(head)) if " for " in head else None
        self.read(body + 1, end - 1, around)
        if it[2] == "trait":
            item.own = around
        elif around.of:
            self.impls.append((around, start, it.start(), end))
        return end

    def bare(self, head):
        """The head of an `impl` without its word, parameters and conditions."""
        text = re.sub(r"^\s*(?:unsafe\s+)?impl\s*", "", head)
        if text.startswith("<"):
            depth = 0
            for at, it in enumerate(text):
                depth += (it == "<") - (it == ">" and text[at - 1] != "-")
                if not depth:
                    text = text[at + 1 :]
                    break
        return re.split(r"\bwhere\b", text)[0]

    def function(self, it, start, around):
        """A function with its contract; gives the place after its body."""
        item = Item(self, "fn", it[3], start, it.start(), None, around)
        item.is_public = bool(it[1]) and "(" not in it[1] or bool(around and (around.is_public or around.of))
        at = it.end()
        while self.plain[at] not in ";{" and not CLAUSE.match(self.plain, at):
            at = self.close(at) if self.plain[at] in OPENS else at + 1
        item.signature, item.clauses = (it.start(2), at), []
        while clause := CLAUSE.match(self.plain, at):
            at = self.close(clause.end())
            item.clauses.append((clause[1], clause[2], clause.start(), clause.end() + 1, at - 1))
        at = self.until(at, ";{")
        item.end = at
        self.functions.append(item)
        return at + 1 if self.plain[at] == ";" else self.close(at)

    def line(self, at):
        """The number of a place's line."""
        return 1 + self.text.count("\n", 0, at)

    def fields(self):
        """The names of the fields of its types, and of what its traits have that is ghost."""
        found = set()
        for item in self.items.values():
            found.update(item.members, (it[0] for it in item.own.members) if item.own else ())
            for start, end in item.variants.values():
                found.update(re.findall(r"(?<!:)\b(\w+)\s*:(?!:)", self.plain[start:end]))
        return found
