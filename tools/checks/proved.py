"""Whether `docs/CLAUSES.md` and `docs/RULES.md` are what `tools/tables` makes, and whether `docs/PROVED.md` and `docs/ADDING.md` name what there is.

In what is proved, each row names contracts, clauses or laws as `tools/audit` takes them, and says on how many definitions and lines they stand;
other names are words of the sources or of the checks, or files. An addition has its places in the crate of its row, in words or in names of
files, but for tests; other names stand somewhere. What isn't a name, as `i;ascii-casemap`, isn't looked for.
"""
import pathlib
import re

from auditing.listing import Unknown
from tabling import clauses, promises, rules

from . import audits
from .runs import Reading, some

TOP = pathlib.Path(__file__).resolve().parent.parent.parent
PROVED, CLAUSES, RULES, ADDING = (TOP / "docs" / name for name in ("PROVED.md", "CLAUSES.md", "RULES.md", "ADDING.md"))
NAME = r"[A-Za-z_][A-Za-z0-9_]*"
# What defines a name in a file of definitions or proofs.
DEFINED = rf"^ *(?:pub |data |record |abbrev |unfoldable )*({NAME})"
# How files end.
FILES = "rt|antt|py|md|tsv|rows|faults|sessions"


def text_of(paths):
    """The octets of files."""
    return "\n".join(path.read_text(encoding="utf-8") for path in paths)


class Made(Reading):
    """Whether a page is what the tool makes of the sources. It looks at the rows."""

    def __init__(self, path, made):
        self.title, self.command, self.path, self.made = "what tools/tables makes", path.name, path, made

    def found(self, path):
        """The first line that is otherwise, or why nothing is made."""
        got = self.path.read_text(encoding="utf-8").split("\n") if self.path.is_file() else []
        try:
            wanted = self.made(audits.crates()).split("\n")
        except rules.Unnamed as why:
            return [str(why)]
        self.looked = sum(bool(re.match(r"\| [`\w]", line)) for line in wanted)
        return differences(got, wanted)[:1]


def differences(got, wanted):
    """The lines of a page that are otherwise, each with what it should be."""
    rest = ["nothing"] * abs(len(got) - len(wanted))
    pairs = zip([*got, *rest], [*wanted, *rest])
    lines = ((at, has, should) for at, (has, should) in enumerate(pairs, 1) if has != should)
    return [f"line {at}: run tools/tables\n{beside(has, should)}" for at, has, should in lines]


def beside(has, should):
    """Two lines from shortly before the place where they differ."""
    at = next((at for at, (a, b) in enumerate(zip(has, should)) if a != b), min(len(has), len(should)))
    start = max(0, at - 60)
    dots = "..." if start else ""
    return f"    it says  {dots}{has[start:]:.200}\n    should   {dots}{should[start:]:.200}"


class Promises(Reading):
    """Whether each row of what is proved names contracts or laws that there are, and has their counts. It looks at these names."""

    title, command = "promises with their contracts", PROVED.name

    def found(self, path):
        """Rows that can't be read and names of nothing, or else the lines with other counts."""
        text = PROVED.read_text(encoding="utf-8")
        names = [name for row in promises.rows(text) for name in row]
        self.looked = len(names)
        unread = [f"this row has no contract with counts: {line}" for line in promises.unread(text)]
        wrong = unread + [why for why in map(self.unknown, names) if why]
        return wrong or differences(text.split("\n"), promises.counted(audits.crates(), text).split("\n"))

    def unknown(self, name):
        """Why a name isn't that of a contract, if it isn't."""
        try:
            promises.contract(audits.crates(), name)
        except Unknown as why:
            return str(why)


class Unread(Reading):
    """Whether a row without counts is noticed, wherever it stands in its table."""

    title, command = "promises without counts", PROVED.name

    def found(self, path):
        """The rows that aren't."""
        row, other = "| It ends. | `it_ends` | 1 | 2 |", "| It begins. | it is said | 1 | 2 |"
        tables = [["| Promise | Contract |", "|---|---|", *([row] * at), other, *([row] * (2 - at))] for at in range(3)]
        self.looked = len(tables)
        return [f"row {at} isn't" for at, lines in enumerate(tables) if promises.unread("\n".join([*lines, ""])) != [other]]


class Named(Reading):
    """Whether what a part of a document names is there: some names at least."""

    def __init__(self, title, wanted, there, document=PROVED):
        self.title, self.command, self.wanted, self.there = f"what is said: {title}", document.name, wanted, there

    def found(self, path):
        """The names of nothing."""
        self.looked = len(set(self.wanted))
        return [f"nothing is called {name}" for name in dict.fromkeys(self.wanted) if name not in self.there]


def of_promises():
    """The rows of what is proved, and all other names."""
    yield Promises()
    yield Unread()
    folders = [TOP, *(TOP / it for it in ("docs", "examples/rows", "tools", "tools/checks", "crates"))]
    there = places(TOP / "crates") | places(TOP / "tools/checks") | {path.name for folder in folders for path in folder.iterdir()}
    yield Named("other names of promises", parts_of_names(promises.ROW.sub("", PROVED.read_text(encoding="utf-8"))), there)


def places(folder):
    """The words of the files in a folder, and the names of these and of their folders, but for what is built."""
    files = [path for path in sorted(folder.rglob("*")) if path.suffix in (".rt", ".antt", ".edit", ".py", ".tsv") and "out" not in path.parts]
    names = {part for path in files for part in (*path.parts, path.stem)}
    return names | set(re.findall(NAME, text_of(files)))


def declared_in(folder):
    """What the files in a folder define or declare, and their names."""
    code, terms = ([path for path in sorted(folder.rglob(f"*{end}")) if "out" not in path.parts] for end in (".rt", ".antt"))
    items = re.findall(rf"\b(?:fn|struct|enum|const|trait|type) ({NAME})", text_of(code))
    return {*items, *re.findall(DEFINED, text_of(terms), re.M), *(part for path in code + terms for part in (path.name, path.stem))}


def of_additions():
    """The lists of each crate: its definitions; its code; its proofs. Each name is declared there. And all other names."""
    crates = {path.name: path for path in (TOP / "crates").iterdir() if path.is_dir()}
    pages = (path.name for folder in ("docs", "examples/rows") for path in (TOP / folder).iterdir())
    tools = (places(TOP / "tools" / it) for it in ("checks", "editing", "site"))
    anywhere = set().union(*map(places, crates.values()), *tools, ("docs", "tools", "checks", "tsv"), pages)
    lists, others = {}, []
    for line in ADDING.read_text(encoding="utf-8").splitlines():
        listed = re.match(rf"- `({NAME})`[^`]*?: (.*)", line)
        if listed and listed[1] in crates:
            specs, src, proofs, *more = [*listed[2].split("; "), "", ""]
            for part, names in (("specs", specs), ("src", src), ("proofs", proofs)):
                lists.setdefault((listed[1], part), []).append(names)
            others += more
        else:
            others.append(line)
    named = ((crate, part, parts_of_names("\n".join(names))) for (crate, part), names in lists.items())
    yield from some("additions to crates", (Named(f"additions to {part} of {crate}", names, declared_in(crates[crate] / part), ADDING) for crate, part, names in named if names))
    yield Named("other names of additions", parts_of_names("\n".join(others)), anywhere | set(crates), ADDING)


def parts_of_names(text):
    """The names and the files between backquotes, each part of a path or of a qualified name by itself."""
    paths = [path for path in re.findall(r"`([^` ]+)`", text) if re.fullmatch(rf"\+?{NAME}(?:(?:::|\.|/)\+?{NAME})*", path)]
    return [part for path in paths for part in re.split(rf"::|/|\.(?!(?:{FILES})$)", path)]


def of_documents():
    """The pages that are made, the promises, and the additions."""
    yield Made(CLAUSES, clauses.page)
    yield Made(RULES, rules.page)
    yield from of_promises()
    yield from of_additions()
