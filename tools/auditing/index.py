"""All definitions, types and contracts of the crates, by their names."""
import os
import pathlib
import re
import shutil

from .sources import MADE, PRELUDE, PRIMITIVES, Source
from .specs import CONSTRUCTORS, Specs

OWN = "Rattle."
# The modules that are made of types of the code.
MADE_OF_CODE = re.compile(r"\.specs\.(?:declared|contracts)\b")
# What a contract sees of an argument, and fields that the toolchain's records and traits have.
FIELDS = {
    *"now old new entry cmp eq D make Denot".split(),
    *"has_globals has_version subcommand_required arg_required_else_help value_names long short write".split(),
}


def libraries():
    """The names of the toolchain's libraries, or none where there is no toolchain."""
    kit = pathlib.Path(os.path.realpath(shutil.which("rt") or "rt")).parent.parent
    return {it.stem for it in (kit / "rlibs").glob("*.rlib")}


class Index:
    """What stands in the crates of a folder. What isn't theirs is the toolchain's."""

    def __init__(self, top):
        self.top, self.libraries = top, libraries()
        self.crates = sorted(it.name for it in (top / "crates").iterdir() if (it / "src").is_dir())
        self.specs, self.sources, self.known_fields = {}, {}, set()
        for crate in self.crates:
            self.read(crate, top / "crates" / crate)
        for it in self.specs.values():
            self.known_fields |= it.fields
        for it in self.sources.values():
            self.known_fields |= it.fields()

    def read(self, crate, folder):
        """Reads the files of a crate."""
        for path in sorted((folder / "specs").rglob("*.antt")):
            module = ".".join(["Rattle", crate, *path.relative_to(folder).with_suffix("").parts])
            self.specs[module] = Specs(self, crate, module, path)
        for root in ("lib.rt", "main.rt"):
            if (folder / "src" / root).is_file():
                self.source(crate, (), folder / "src" / root)

    def source(self, crate, module, path):
        """Reads a file of code, and the modules in it."""
        source = self.sources[crate, module] = Source(self, crate, module, path)
        below = path.parent if path.stem in ("lib", "main", "mod") else path.parent / path.stem
        for name in source.modules:
            for file in (below / f"{name}.rt", below / name / "mod.rt"):
                if file.is_file():
                    self.source(crate, (*module, name), file)

    # What words stand for

    def has_field(self, field):
        """Whether a field is one of some record, or of the toolchain's."""
        return field in self.known_fields or field in FIELDS or field.isdigit()

    def is_own(self, module):
        """Whether a module is one of these crates."""
        return module.startswith(OWN) and module.split(".")[1] in self.crates

    def is_toolchain(self, module):
        """Whether a module that isn't of these crates is one of a library that the toolchain has. Where there is no toolchain all are."""
        return not module.startswith(OWN) or not self.libraries or module.split(".")[1] in self.libraries

    def member(self, module, path):
        """What the first name of a path stands for in a module, whose other names are fields: units, a pair of the toolchain, or nothing."""
        name = path[0]
        if not self.is_own(module):
            return (name, module) if self.is_toolchain(module) else None
        if MADE_OF_CODE.search(module):
            return self.declared(module.split("."), path)
        specs = self.specs.get(module)
        if specs is None:
            return self.member(f"{module}.{name}", path[1:]) if len(path) > 1 else None
        if name in specs.own:
            return [specs.own[name]]
        if name in specs.exports:
            return self.member(specs.exports[name][0], specs.exports[name][1:])
        return None

    def at(self, path):
        """What a whole path stands for: of the modules that begin it the longest has the name that comes after it."""
        for end in range(len(path) - 1, 0, -1):
            module = ".".join(path[:end])
            if not self.is_own(module) or module in self.specs or MADE_OF_CODE.search(module):
                found = self.member(module, path[end:])
                if found is not None:
                    return found
        return None

    def makes(self, module, name):
        """Whether a name of a module is a constructor."""
        if not self.is_own(module):
            return name in CONSTRUCTORS or "◌" in name or name[:1].isupper() or name == "[]"
        if MADE_OF_CODE.search(module):
            item, _ = self.declared_item([*module.split("."), name])
            return bool(item) and item.kind in ("struct", "enum")
        specs = self.specs.get(module)
        if specs is None:
            return False
        if name in specs.exports:
            return self.makes(*specs.exports[name])
        return name in specs.makes

    def declared(self, words, path):
        """What a name of the module of a declared type stands for: the type, or a constant."""
        item, names = self.declared_item([*words, *path])
        if item is None or item.kind in ("struct", "enum") and not self.is_made(item, names):
            return None
        return [item.source.unit_of(item)]

    def declared_item(self, words):
        """The type or the constant to which a path of a declared module leads, and the names after it."""
        crate, rest = words[1], words[4:]
        for end in range(len(rest), 0, -1):
            source = self.sources.get((crate, tuple(rest[: end - 1])))
            name, names = rest[end - 1], rest[end:]
            if source and name == "TheConstants" and names:
                return source.items.get(".".join(names[:2])) or source.items.get(names[0]), []
            item = source and source.items.get(name)
            if item and item.kind in ("struct", "enum"):
                return item, names
        return None, []

    def is_made(self, item, names):
        """Whether names are what the module of a declared type has: the type, its variants, and what is made for it."""
        names = [it for it in names if not it.startswith("The")]
        return not names or names[0] == item.name or names[0] in item.variants or bool(MADE.match(names[0]))

    def code(self, source, path):
        """What a path stands for in a file of code."""
        item = self.item(source, path, 0)
        if isinstance(item, tuple) or item is None:
            return item
        return [item.source.unit_of(item)]

    def item(self, source, path, depth):
        """The item of a path in a file of code, a pair of the toolchain, or nothing."""
        head, rest = path[0], path[1:]
        if depth > 20:
            return None
        if head in ("crate", "self", "super"):
            module = () if head == "crate" else source.module if head == "self" else source.module[:-1]
            return self.item(self.sources[source.crate, module], rest, depth + 1) if rest else None
        if head in source.items:
            return source.items[head]
        if (source.crate, (*source.module, head)) in self.sources and head in source.modules and rest:
            return self.item(self.sources[source.crate, (*source.module, head)], rest, depth + 1)
        if head in source.uses and source.uses[head] != path:
            return self.item(source, [*source.uses[head], *rest], depth + 1)
        if head in self.crates and rest and (head, ()) in self.sources:
            return self.item(self.sources[head, ()], rest, depth + 1)
        if head in PRIMITIVES or head in PRELUDE or rest and head not in self.crates and (not self.libraries or head in {"alloc", *self.libraries}):
            return ("::".join(path), "code")
        return None
