"""`edits.lock`: for each crate with edits, a sum over all that a try of them reads, and how many were refused.

The sum is over the logic that the kit's line names, `HANDLES`, the crate's edits without what they show, and the sources, definitions and proofs
of the crate and of those below it. So a line says that the edits of a crate were refused on exactly these octets. Machines have kits of several
numbers and of one logic: a line made by one of them stands on the others, and the crate that is drawn is tried by each.
"""
import hashlib

from .files import all_edits

HEAD = """\
# Made by tools/edits: the crate, a sum over all that a try of its edits reads, and how many were refused on exactly that.
"""
PARTS = ("src", "specs", "proofs")


def below(top):
    """The crates of this repository that each uses, by `crates.txt`."""
    lines = [line.split("#")[0] for line in (top / "crates.txt").read_text(encoding="utf-8").splitlines()]
    rows = {name.split()[0]: (name, uses.split()) for name, colon, uses in (line.partition(":") for line in lines) if colon}
    return {name: (head, uses, [it for it in uses if it in rows]) for name, (head, uses) in rows.items()}


def sums(top, kit):
    """The sum of each crate that has edits."""
    crates, known, edits = below(top), {}, {}
    for edit in all_edits(top):
        edits.setdefault(edit.crate, []).append((edit.name, edit.text()))
    handles = (top / "HANDLES").read_text(encoding="utf-8")

    def of(crate):
        if crate not in known:
            head, uses, libraries = crates[crate]
            known[crate] = digest(head, uses, list(files_of(top, crate)), [of(it) for it in sorted(libraries)])
        return known[crate]

    return {crate: digest(logic_of(kit), handles, of(crate), found) for crate, found in edits.items() if crate in crates}


def logic_of(kit):
    """The logic that a kit's line names, as `logic 0123` in `a-kit-1 logic 0123`; of a line without one, all of it."""
    _, word, name = kit.partition(" logic ")
    return f"logic {name}" if word else kit


def files_of(top, crate):
    """The files that a check of a crate reads, each with the digest of its octets."""
    for part in PARTS:
        for path in sorted((top / "crates" / crate / part).rglob("*")):
            if path.is_file():
                yield str(path.relative_to(top)), hashlib.sha256(path.read_bytes()).hexdigest()


def digest(*parts):
    """A digest of values, by how they are written."""
    return hashlib.sha256(repr(parts).encode()).hexdigest()


def read(top):
    """The lines of the lock: for each crate its sum and its number."""
    path = top / "edits.lock"
    lines = path.read_text(encoding="utf-8").splitlines() if path.is_file() else []
    return {words[0]: tuple(words[1:]) for words in (it.split() for it in lines) if words and not words[0].startswith("#")}


def write(top, lines):
    """Writes the lines of the lock, by crate."""
    text = HEAD + "".join(f"{crate} {' '.join(lines[crate])}\n" for crate in sorted(lines))
    (top / "edits.lock").write_text(text, encoding="utf-8")


def line_of(top, crate, sum):
    """The line that a crate has once all its edits were refused."""
    return sum, str(len(list((top / "edits" / crate).glob("*.edit"))))


def drawn(crates, commit):
    """One of the crates, by the hash of a commit."""
    return sorted(crates)[int(commit, 16) % len(crates)]


def faults(top, kit):
    """What is wrong with the lock: a sentence by crate."""
    lines, wanted = read(top), sums(top, kit)
    found = {crate: f"edits.lock: {crate} has edits and no line" for crate in wanted if crate not in lines}
    for crate, line in lines.items():
        if crate not in wanted:
            found[crate] = f"edits.lock: {crate} has a line and no edits"
        elif line != line_of(top, crate, wanted[crate]):
            found[crate] = f"edits.lock: the line of {crate} isn't of what is here"
    return found
