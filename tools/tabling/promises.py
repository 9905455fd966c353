"""The promises of `docs/PROVED.md`: rows of a promise in words, the contracts or laws that say it, and how many definitions and lines these
stand on."""
import re

from auditing.listing import Unknown, asked, groups, named_in_code

ROW = re.compile(r"^(\| [^|]+ \| )(`[^|]+`)( \| )[\d,]+ \| [\d,]+ \|$", re.M)
ALL = re.compile(r"(All rows together stand on )[\d,]+ definitions of [\d,]+ lines")


def names(text):
    """The names in backquotes."""
    return re.findall(r"`([^`]+)`", text)


def rows(text):
    """The names of the contracts and laws of each row."""
    return [names(it[2]) for it in ROW.finditer(text)]


def unread(text):
    """The lines of tables of promises that are no such rows."""
    tables = re.findall(r"^\| Promise \|.*\n\|[-|]*\n((?:\|.*\n)*)", text, re.M)
    return [line for table in tables for line in table.splitlines() if not ROW.match(line)]


def contract(index, name):
    """The unit of a contract or of one clause of it. Raises `Unknown` where that isn't what a name stands for."""
    unit = asked(index, name)
    if unit.place() not in {it.place() for _, it in named_in_code(index, name)}:
        raise Unknown(f"{name}: this is no contract, but the definition at {unit.place()}")
    return unit


def sizes(index, wanted):
    """How many definitions and lines these contracts stand on, themselves among them."""
    found = [it.size() for group in groups([contract(index, it) for it in wanted]) for it in group]
    return [f"{sum(it):,}" for it in zip(*found)]


def counted(index, text):
    """The text with the numbers of each row, and of all rows together, as they are."""

    def row(it):
        return it[1] + it[2] + it[3] + " | ".join(sizes(index, names(it[2]))) + " |"

    definitions, lines = sizes(index, [name for it in rows(text) for name in it]) or ("0", "0")
    return ALL.sub(rf"\g<1>{definitions} definitions of {lines} lines", ROW.sub(row, text))
