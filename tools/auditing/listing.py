"""What is asked for by name, and what it stands on, in an order in which nothing is used before it is printed."""
import difflib
import re

# What stands between the parts of a path.
PART = r"::|\."
# How much of a name that isn't known those near it have.
NEAR = 0.75


class Unknown(Exception):
    """A name that isn't known, or that several things have: a sentence."""


def ends_with(path, words):
    """Whether words are the last of a path."""
    return path[len(path) - len(words) :] == words and bool(words)


def units_of(index):
    """The units of all definitions and types, with each path of theirs."""
    for it in [unit for specs in index.specs.values() for unit in specs.units] + types(index):
        yield from ((path, it) for path in it.paths)


def functions_of(index):
    """The functions of the code."""
    return [it for source in index.sources.values() for it in source.functions]


def definitions(index, name):
    """The units of the definitions and types of a name, with the path of each."""
    crate, _, rest = name.rpartition("/")
    return [(path, it) for path, it in units_of(index) if ends_with(path.split("."), rest.split(".")) and crate in ("", it.crate)]


def types(index):
    """The units of the types, traits and constants of the code."""
    return [source.unit_of(item) for source in index.sources.values() for item in source.items.values()]


def named_in_code(index, name):
    """The units of the types and of the contracts of a name that is a path of the code, which may end with the name of a clause."""
    path, _, clause = name.partition(".")
    words = path.split("::")
    for source in index.sources.values():
        for item in [*source.items.values(), *source.functions]:
            whole = item.path()
            if ends_with(whole, words) or words[0] == whole[0] and len(words) > 1 and ends_with(whole[1:], words[1:]):
                if item.kind != "fn":
                    yield "::".join(whole), source.unit_of(item)
                elif not clause or any(clause == it[1] for it in item.clauses):
                    yield "::".join(whole), source.contract(item, clause or None)


def asked(index, name):
    """The unit of a name. Raises `Unknown` where there is none, or more than one."""
    found = definitions(index, name) if "::" not in name else []
    found = found or list(named_in_code(index, name.replace("/", "::")))
    units = {it.place(): (path, it) for path, it in reversed(found)}
    if not units:
        raise Unknown(f"{name}: no definition, type or contract has this name{clauses(index, name) or near(index, name)}")
    if len(units) > 1:
        lines = "".join(f"\n  {path}  {it.place()}" for path, it in sorted(units.values(), key=lambda it: it[0]))
        raise Unknown(f"{name}: several have this name; ask for one by a longer path:{lines}")
    return next(iter(units.values()))[1]


def clauses(index, name):
    """The names of a function's clauses, where it is only the name of the clause that isn't known."""
    path, _, clause = name.partition(".")
    found = [it for it in functions_of(index) if clause and ends_with(it.path(), path.split("::"))]
    names = sorted({it[1] for function in found for it in function.clauses if it[0] == "ensures" and it[1]})
    return f"; clauses of {path}: {', '.join(names) or 'none has a name'}" if found else ""


def full_paths(index):
    """The full paths of all definitions, types and functions, and of clauses after their function; with the crate of each."""
    yield from ((path, it.crate) for path, it in units_of(index))
    for it in functions_of(index):
        path = "::".join(it.path())
        yield path, it.source.crate
        yield from ((f"{path}.{clause[1]}", it.source.crate) for clause in it.clauses if clause[0] == "ensures" and clause[1])


def near(index, name):
    """The names that are almost this one, which isn't known: the ends of full paths that have as many parts."""
    front, mark, name = name.rpartition("/")
    size = 2 * len(re.split(PART, name)) - 1
    known = {"".join(re.split(f"({PART})", path)[-size:]) for path, crate in full_paths(index) if front in ("", crate)}
    found = difflib.get_close_matches(name, sorted(known), cutoff=NEAR)
    return f"; names near it: {', '.join(front + mark + it for it in found)}" if found else ""


def groups(units):
    """These units and all that they stand on, those that use one another together, and each group after those that it uses (Tarjan)."""
    number, low, open_units, found = {}, {}, [], []
    for first in units:
        calls = [] if first in number else [(first, None)]
        while calls:
            unit, rest = calls.pop()
            if rest is None:
                number[unit] = low[unit] = len(number)
                open_units.append(unit)
                rest = iter(unit.uses()[0])
            for used in rest:
                if used not in number:
                    calls += [(unit, rest), (used, None)]
                    break
                if low[used] is not None:
                    low[unit] = min(low[unit], low[used])
            else:
                if low[unit] == number[unit]:
                    start = open_units.index(unit)
                    found.append(sorted(open_units[start:], key=lambda it: (it.parts[0].file, it.parts[0].line)))
                    del open_units[start:]
                    low.update((it, None) for it in found[-1])
                if calls:
                    above = calls[-1][0]
                    low[above] = low[above] if low[unit] is None else min(low[above], low[unit])
    return found


def shown(group):
    """The lines of a group."""
    if len(group) > 1:
        yield f"These name one another: {', '.join(name for it in group for name in it.names)}."
        yield ""
    for unit in group:
        for part in unit.parts:
            yield from part.shown()
            yield ""


def toolchain(units):
    """The line that names what is used of the toolchain."""
    names = sorted({f"{name} ({module})" if module != "code" else name for unit in units for name, module in unit.uses()[1]})
    return f"toolchain: {', '.join(names) or 'nothing'}"


def counted(units):
    """The lines that say how many definitions and lines there are, by crate and in all."""
    crates = {}
    for unit in units:
        before, size = crates.get(unit.crate, (0, 0)), unit.size()
        crates[unit.crate] = tuple(a + b for a, b in zip(before, size))
    rows = [*sorted(crates.items()), ("all", tuple(map(sum, zip(*crates.values()))))]
    return [f"{crate:20} {names:5} definitions {lines:6} lines" for crate, (names, lines) in rows]


def unresolved(units):
    """The words that nothing defines: each with its file and line."""
    return [f"{file}:{line}: nothing is known as {word}" for unit in units for file, line, word in unit.uses()[2]]
