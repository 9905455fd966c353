"""The page of the sections of RFCs, each with the definitions, the code and the tests whose comments name it."""
import bisect
import pathlib
import re

from auditing.specs import DECLARED, MARKS, SIGNED, pieces_of

from .clauses import in_a_cell

HEAD = """\
# Sections of the standards, and what names them

Made by `tools/tables`. Change a comment and run it again.

Each section of an RFC that a comment names has a row. "In words" has the shortest comment of code or a definition that names it: first those about
that section alone, and last those of variants. A definition is in `specs/` of its crate: `Module.name`, or `Module` if the comment is at the top of
the file. Code is in `src/`: a function, a type or a variant, or `file.rt` if the comment is at the top. Tests are functions in crates of tests, and
files of `examples/rows`. The row "whole" is for comments that name an RFC and no section. `tools/audit NAME` prints a definition with all that it
stands on. `LANGUAGE.md` lists the differences from the standards.
"""
NUMBER = r"(?:[A-Z]\.)?\d+(?:\.\d+)*"
LIST = rf"{NUMBER}(?:(?:, and |, | and | or | to ){NUMBER})*"
CITED = re.compile(
    rf"RFC (?P<rfc>\d+)(?:, (?P<bare>{LIST})(?![\w.]*\w))?|\b(?:section|appendix) (?P<one>{NUMBER})|\b(?:sections|appendices) (?P<many>{LIST})"
)
# Comments of code, definitions and rows.
MARKED = {".rt": re.compile(r"\s*(///?!?)\s?"), ".antt": re.compile(r"\s*(--)\s?")}
ROWS = re.compile(r"(#|==)\s?")
SENTENCES = re.compile(r"(?<=[.])\s+(?=[A-Z`])")
BESIDE = re.compile(r"\s*\([^()]*\b(?:RFC|sections?|appendix)\b[^()]*\)")


class Unnamed(Exception):
    """Sections of no RFC: a sentence for each, with its place."""


class Comment:
    """The text of a comment, its file and the number of its first line."""

    def __init__(self, path, line, words):
        self.path, self.line, self.text = path, line, " ".join(" ".join(words).split())


class Cited:
    """A section that something names: the RFC or nothing, the section or nothing, the comment, what kind of thing names it, its crate or
    nothing, its name, and the sentence with the number of sections in it."""

    def __init__(self, rfc, section, comment, kind, crate, name, words, beside):
        self.rfc, self.section, self.comment = rfc, section, comment
        self.kind, self.crate, self.name, self.words, self.beside = kind, crate, name, words, beside


def comments(path, lines, marked):
    """The comments of a file: lines of one mark, one after another."""
    found, mark, words = 0, None, []
    for number, line in enumerate([*lines, ""], 1):
        it = marked.match(line)
        if words and (not it or it[1] != mark):
            yield Comment(path, found, words)
            words = []
        if it:
            found, mark, words = (number, it[1], [line[it.end() :]]) if not words else (found, mark, [*words, line[it.end() :]])


def sections(text, rfc=None):
    """The sections that a text names, each with its RFC, and an RFC of which it names none. A section is of the RFC before it, which may stand
    before the text."""
    whole = False
    for it in CITED.finditer(text):
        if it["rfc"]:
            if whole:
                yield rfc, ""
            rfc, whole = int(it["rfc"]), not it["bare"]
        for section in spread(it["bare"] or it["one"] or it["many"] or ""):
            whole = False
            yield rfc, section
    if whole:
        yield rfc, ""


def spread(text):
    """The sections of a list, and of a range those within it."""
    for part in re.split(r", and |, | and | or ", text) if text else []:
        first, _, last = part.partition(" to ")
        yield first
        if last:
            head, _, number = first.rpartition(".")
            yield from (f"{head}.{it}".lstrip(".") for it in range(int(number) + 1, int(last.rpartition(".")[2]) + 1))


def cited(found, places, kind, crate, file):
    """What the comments of a file name, each by the thing at which it stands. A section alone is of the RFC named before it in its comment."""
    starts = [it[0] for it in places]
    for it in found:
        at = bisect.bisect_right(starts, it.line) - 1
        name, rfc = places[at][1] if at >= 0 else file, None
        for sentence in SENTENCES.split(it.text):
            named = list(sections(sentence, rfc))
            for rfc, section in named:
                yield Cited(rfc, section, it, kind, crate, name, BESIDE.sub("", sentence).rstrip(".;:"), len(named))


def of_definitions(specs):
    """What the comments of a file of definitions name."""
    module = specs.module.split(".specs.")[1]
    places = [(line, f"{module}.{name}", name) for line, name in defined(specs.lines, 1, 0)]
    return cited(comments(specs.file, specs.lines, MARKED[".antt"]), places, "definition", specs.crate, module)


def defined(lines, first, depth):
    """The definitions in lines, each with the line of the comment before it."""
    for piece in pieces_of(lines, first, depth):
        signed, declared = SIGNED.match(piece.text), DECLARED.match(piece.text)
        start = piece.line - len(piece.comment)
        if re.match(rf"{MARKS}mutual\b|module _ ", piece.text):
            inside = list(defined(piece.lines[1:], piece.line + 1, depth + 2))
            yield from [(start, inside[0][1]), *inside[1:]] if inside else []
        elif signed or declared:
            yield start, signed[1] if signed else declared[2]


def of_code(source, kind):
    """What the comments of a file of code name."""
    lines, file = source.text.split("\n"), pathlib.Path(source.file).relative_to(f"crates/{source.crate}/src").as_posix()
    found = list(comments(source.file, lines, MARKED[".rt"]))
    inner = [it for it in found if lines[it.line - 1].strip().startswith("//!")]
    places = sorted(((line, *names) for line, *names in in_code(source)), key=lambda it: it[0])
    yield from cited(inner, [], kind, source.crate, file)
    yield from cited([it for it in found if it not in inner], places, kind, source.crate, file)


def in_code(source):
    """The items of a file of code: each with the first line after what is before it, its name, and the name of what it belongs to."""
    for item in [*source.items.values(), *source.functions]:
        name = "::".join(item.path()[len(source.module) + 1 :])
        shown = f"{source.module[-1]}::{name}" if source.module and not item.around and item.kind == "fn" else name
        yield source.line(skipped(source, item.start)), shown, name
        for variant, (start, end) in item.variants.items():
            yield source.line(skipped(source, start)), f"{name}::{variant}", name
        if item.variants:
            yield source.line(item.end - 1), shown, name


def skipped(source, at):
    """The first place from one on at which no space stands."""
    return at + len(source.text[at:]) - len(source.text[at:].lstrip())


def of_rows(top):
    """What the comments and titles of rows name."""
    for path in sorted((top / "examples/rows").iterdir()):
        if path.suffix != ".words":
            lines = path.read_text(encoding="utf-8").split("\n")
            yield from cited(comments(path.relative_to(top), lines, ROWS), [], "test", None, path.name)


def all_cited(index):
    """All that comments name."""
    for specs in index.specs.values():
        yield from of_definitions(specs)
    for source in index.sources.values():
        is_test = source.crate.endswith("_tests") or source.module[:1] == ("tests",)
        yield from of_code(source, "test" if is_test else "code")
    yield from of_rows(index.top)


def all_named(index):
    """All that comments name. Raises `Unnamed` where a section is of no RFC."""
    found = list(all_cited(index))
    wrong = [f"{it.comment.path}:{it.comment.line}: name the RFC of section {it.section} before it in this comment" for it in found if it.rfc is None]
    if wrong:
        raise Unnamed("\n".join(wrong))
    return found


def page(index):
    """The text of the page."""
    rows = {}
    for it in all_named(index):
        rows.setdefault(it.rfc, {}).setdefault(it.section, []).append(it)
    parts = [HEAD]
    for rfc in sorted(rows):
        parts.append(f"\n## RFC {rfc}\n\n| Section | In words | Definitions | Code | Tests |\n|---|---|---|---|---|\n")
        parts += [row(section, rows[rfc][section]) for section in sorted(rows[rfc], key=by_number)]
    return "".join(parts)


def row(section, found):
    """The row of a section."""
    cells = (cell(it for it in found if it.kind == kind) for kind in ("definition", "code", "test"))
    return f"| {' | '.join((section or 'whole', words(found), *cells))} |\n"


def words(found):
    """The words of the shortest comment of a definition or of code: those about the section alone come first, and those of variants last."""
    told = [it for it in found if it.kind != "test" and it.words and not it.words.isupper() and not it.words.startswith("RFC ")]
    least = min(told, key=lambda it: (it.beside > 1, is_variant(it.name), len(it.words)), default=None)
    return in_a_cell(least.words) if least else ""


def by_number(section):
    """What sections go by: numbers before letters, and a whole RFC first."""
    return [(0, int(it), "") if it.isdigit() else (1, 0, it) for it in section.split(".") if it]


def is_variant(name):
    """Whether a name is that of a variant of a type."""
    return "::" in name and name.rpartition("::")[2][:1].isupper()


def cell(found):
    """The names of a cell, by crate."""
    crates = {}
    for it in found:
        crates.setdefault(it.crate, {})[f"`{it.name}`"] = True
    return "; ".join(f"{f'{crate}: ' if crate else ''}{', '.join(names)}" for crate, names in crates.items())
