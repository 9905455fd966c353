"""What the sources of the libraries must not have."""
import pathlib
import re
import tempfile
from unittest import mock

from .files import write
from .runs import Reading

TOP = pathlib.Path(__file__).resolve().parent.parent.parent


def files_of(library):
    """The sources of a library."""
    return sorted((TOP / "crates" / library / "src").rglob("*.rt"))


class Without(Reading):
    """No file of these libraries has what the words are that patterns find, each of which finds some in another library. The libraries have no
    tests of their own."""

    def __init__(self, title, libraries, patterns):
        self.title, self.command, self.libraries = title, ", ".join(libraries), libraries
        self.patterns = {re.compile(pattern, re.M): library for pattern, library in patterns.items()}

    def found(self, path):
        """The places that have it."""
        found = []
        for library in self.libraries:
            files = files_of(library)
            self.looked += len(files)
            found += [] if files else [f"{library} has no sources"]
            found += [f"{it.relative_to(TOP)} has {word}" for it in files for words in self.patterns for word in words.findall(it.read_text(encoding="utf-8"))]
        idle = [(words, library) for words, library in self.patterns.items() if not any(words.search(it.read_text(encoding="utf-8")) for it in files_of(library))]
        return found + [f"{library} has nothing that `{words.pattern}` finds" for words, library in idle]


class OneName(Reading):
    """A name of a definition is one within its crate, and no file brings two definitions of one name. The tree that is generic in its
    strings, and the tree of a text that is one of it, have the same names."""

    title = "a name is one within its crate, and where it is used"
    command = "specs of all crates"
    told = re.compile(r"^(?:abbrev |unfoldable )?pub (?:data |record )?(?!mod )([A-Za-z_][\w-]*)", re.M)
    brought = re.compile(r"^(?:ghost )?use Rattle\.(\w+\.specs\.[\w.]+)\.\{([^}]*)\}", re.M)

    def found(self, path):
        """The names that stand twice."""
        found, modules, uses = [], {}, 0
        for crate in sorted(it for it in (TOP / "crates").iterdir() if (it / "specs").is_dir()):
            places = {}
            for file in sorted((crate / "specs").rglob("*.antt")):
                module = f"{crate.name}.{'.'.join(file.relative_to(crate).with_suffix('').parts)}"
                modules[module] = set(self.told.findall(file.read_text(encoding="utf-8")))
                self.looked += len(modules[module])
                for name in modules[module]:
                    places.setdefault(name, []).append(module)
            for name, where in places.items():
                found += [f"{name} stands in {' and '.join(where)}"] if len(where) > 1 else []
        for file in sorted(it for kind in ("rt", "antt") for it in (TOP / "crates").rglob(f"*.{kind}") if "out" not in it.parts):
            seen = {}
            for module, names in self.brought.findall(file.read_text(encoding="utf-8")):
                for name in (it.strip() for it in names.split(",")):
                    if " as " not in name and name in modules.get(module, ()):
                        seen.setdefault(name, set()).add(module)
                        uses += 1
            found += [f"{file.relative_to(TOP)} brings {name} of {' and '.join(sorted(of))}" for name, of in seen.items() if len(of) > 1]
        return found + ([] if uses else ["no file brings a definition"])


class OneType(Reading):
    """No two crates have a type of one name. Where a type of code and one of a definition have one, they stand in one crate and mean one thing.
    Crates of tests have types of their own, and so have proofs."""

    title = "a name of a type is one within the repository"
    command = "sources and specs of all crates"
    tests = {"bench_tests", "library_tests", "one_call", "text_tests"}
    told = {
        "rt": re.compile(r"^\s*(?:pub(?:\(\w+\))? )?(?:struct|enum|trait|type) ([A-Z]\w*)", re.M),
        "antt": re.compile(r"^\s*(?:(?:pub )?(?:data|record) ([A-Z]\w*)|(?:abbrev |unfoldable )?pub ([A-Z]\w*) : .*Type 0$)", re.M),
    }
    # Types that a trait of the toolchain names.
    named = {"Err", "Item"}

    def found(self, path):
        """The names that two crates have."""
        places = {}
        for crate in sorted(it for it in (TOP / "crates").iterdir() if it.name not in self.tests):
            for folder, kind in (("src", "rt"), ("specs", "antt")):
                for file in sorted((crate / folder).rglob(f"*.{kind}")):
                    for it in self.told[kind].finditer(file.read_text(encoding="utf-8")):
                        places.setdefault(next(name for name in it.groups() if name), set()).add(crate.name)
        self.looked = len(places)
        return [f"{name} stands in {' and '.join(sorted(where))}" for name, where in sorted(places.items()) if len(where) > 1 and name not in self.named]


# Two crates that have what they must not, and what is told of it.
FILES = {
    "crates/low/src/lib.rt": "pub struct Bag {\n    read_some(bag)\n",
    "crates/low/specs/Lib.antt": "pub first : ℕ\n",
    "crates/low/specs/More.antt": "abbrev pub first : ℕ\n",
    "crates/high/src/lib.rt": "pub enum Bag {\n    read_some(bag)\n",
    "crates/high/specs/Lib.antt": "use Rattle.low.specs.Lib.{first}\nuse Rattle.low.specs.More.{first}\n",
}
TOLD = [
    "crates/high/src/lib.rt has read_some(",
    "first stands in low.specs.Lib and low.specs.More",
    "crates/high/specs/Lib.antt brings first of low.specs.Lib and low.specs.More",
    "Bag stands in high and low",
]


class Noticed(Reading):
    """Whether it is noticed where sources have what they must not."""

    title, command = "what sources must not have", "two small crates"

    def found(self, path):
        """Where something else is told."""
        with tempfile.TemporaryDirectory() as room, mock.patch(f"{__name__}.TOP", pathlib.Path(room)):
            write(pathlib.Path(room), {name: text.encode() for name, text in FILES.items()})
            got = [line for it in (Without("", ["high"], {r"\bread_some\(": "low"}), OneName(), OneType()) for line in it.found(path)]
        self.looked = len(TOLD)
        return [] if got == TOLD else [f"wanted {TOLD}, got {got}"]


def of_libraries():
    """Reports and sessions count their runs with the meter that they are handed, and nothing evaluates but `run`: no library above it makes a
    meter, looks at an operation, or names what operations do, outside of contracts. And a session reads by `session_text` alone."""
    yield Without("no library runs by itself", ["bench", "session_server", "session_text", "command_line"], {r"Meter::new": "one_call", r"\.op\(": "sieve_run", r"^(?!ghost ).*\b(?:packed_strings|sieve_delivery|sieve_conditions)::": "sieve_run"})
    yield Without("no library reads by itself", ["bench", "session_server", "command_line"], {r"\bread_some\(": "session_text"})
    yield OneName()
    yield OneType()
    yield Noticed()
