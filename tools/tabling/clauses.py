"""The page of the public functions and laws of each crate: what each answers, the names of its clauses, and what it does."""
import re

from auditing.listing import Unknown, asked

HEAD = """\
# Public functions and laws, with the names of their clauses

Made by `tools/tables`. Change the sources and run it again.

`tools/audit` takes each name, and each name with a clause: `tools/audit Bench::report.ok`. "Answers" has the type that a function returns.
"One unnamed" is a clause without a name, and "requires" begins the conditions that a caller must meet. The last column has the first sentence
of the comment, and "Takes no memory" if the comment says so. A function of a trait keeps its contract in each `impl` of the trait. A law does
nothing: its contract speaks of definitions alone. A refusal or an end has its number, if the sources have one. `PROVED.md` has the promises that
an auditor looks at first.
"""
COUNTS = "no one two three four five six".split()
SENTENCE = re.compile(r".*?[.](?=\s+[^a-z]|$)")


def page(index):
    """The text of the page."""
    parts = [HEAD]
    for crate in index.crates:
        found = functions(index, crate)
        if found:
            parts += [f"\n## {crate}\n", *calls(index, found), *laws(index, found), *refusals(index, crate, found)]
    return "".join(parts)


def functions(index, crate):
    """The public functions of a crate, each with its file; of those that an `impl` of a trait has, those with clauses of their own."""
    files = [source for (name, _), source in index.sources.items() if name == crate and source.module[:1] != ("tests",)]
    return [(source, it) for source in files for it in source.functions if it.is_public and (it.clauses or not is_of_trait(it))]


def is_of_trait(function):
    """Whether a function stands in an `impl` of a trait."""
    return bool(function.around and function.around.of)


def is_law(source):
    """Whether a file has laws."""
    return source.module[-1:] == ("laws",)


def calls(index, found):
    """The table of functions that aren't laws."""
    rows = [
        f"| `{name_of(index, source, it)}` | {answer(source, it)} | {clauses(it)} | {says(source, it)} |\n"
        for source, it in found
        if not is_law(source)
    ]
    return ["\n| Function | Answers | Clauses | What it does |\n|---|---|---|---|\n", *rows] if rows else []


def laws(index, found):
    """The table of laws."""
    rows = [f"| `{name_of(index, source, it)}` | {clauses(it)} | {says(source, it)} |\n" for source, it in found if is_law(source)]
    return ["\n| Law | Clauses | What it says |\n|---|---|---|\n", *rows] if rows else []


def refusals(index, crate, found):
    """The table of the refusals that a crate's functions answer, and of their other answers that have numbers."""
    answers = "\n".join(answer(source, it) for source, it in found)
    rows = []
    for (owner, _), source in index.sources.items():
        for item in source.items.values():
            if owner == crate and item.kind == "enum" and re.search(rf"\b{item.name}\b", answers):
                numbers = [number(source, *place) for place in item.variants.values()]
                if any(numbers) or re.search(rf"Result<.*, {item.name}>", answers):
                    rows += [variant(source, item, *it) for it in zip(item.variants, numbers)]
    return ["\n| Refusal or end | Number | What it says |\n|---|---|---|\n", *rows] if rows else []


def number(source, start, end):
    """The number of a variant: its own, or that with which its comment begins."""
    own = re.search(r"=\s*(\d+)\s*$", source.plain[start:end]) or re.match(r"\s*/// (\d+): ", source.text[start:end])
    return own[1] if own else ""


def variant(source, item, name, number):
    """The row of a variant."""
    says = sentence(source.text[slice(*item.variants[name])]).removeprefix(f"{number}: ")
    return f"| `{item.name}::{name}` | {number} | {says[:1].upper()}{says[1:]} |\n"


def name_of(index, source, function):
    """The shortest name of a function that `tools/audit` takes for it alone, with its type where it has one."""
    path, place = function.path(), source.contract(function, None).place()
    for size in range(2 if function.around else 1, len(path) + 1):
        name = "::".join(path[-size:])
        try:
            if asked(index, name).place() == place:
                return name
        except Unknown:
            pass
    return "::".join(path)


def answer(source, function):
    """The type that a function returns."""
    start, end = function.signature
    opens = source.plain.index("(", source.plain.index(function.name, start) + len(function.name))
    while source.generic_depth(start, opens):
        opens = source.plain.index("(", opens + 1)
    rest = re.split(r"\bwhere\b", source.text[source.close(opens) : end])[0].strip().removeprefix("->")
    return f"`{' '.join(rest.split())}`" if rest else ""


def clauses(function):
    """The names of a function's clauses."""
    needs = list(listed(it[1] for it in function.clauses if it[0] == "requires"))
    gives = list(listed(it[1] for it in function.clauses if it[0] == "ensures"))
    return "; ".join([", ".join(gives) or "none", *([f"requires {', '.join(needs)}"] if needs else [])])


def listed(names):
    """Names, and how many lack one."""
    names = list(names)
    yield from (f"`{it}`" for it in names if it)
    unnamed = names.count("")
    if unnamed:
        yield f"{COUNTS[unnamed]} unnamed"


def says(source, function):
    """What the comment of a function says first, and whether it takes no memory."""
    text = source.text[function.start : function.head]
    first = sentence(text)
    takes_none = re.search(r"Takes no memory\.", " ".join(comment(text)))
    return f"{first} Takes no memory." if takes_none and "Takes no memory" not in first else first


def comment(text):
    """The lines of the documentation in a text, without their marks."""
    return [it.strip().removeprefix("///").strip() for it in text.split("\n") if it.strip().startswith("///")]


def sentence(text):
    """The first sentence of the documentation in a text."""
    words = " ".join(" ".join(comment(text)).split())
    first = SENTENCE.match(words)
    return in_a_cell(first[0] if first else words)


def in_a_cell(words):
    """Words as they stand in a cell of a table, without links."""
    return re.sub(r"\[(`[^`]*`)\](?:\([^)]*\))?", r"\1", words).replace("|", "\\|")
