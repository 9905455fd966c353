"""The must-fail edits: files of `edits/CRATE`, what each says that it shows, and which items of the code it changes."""
import re

LINE = re.compile(r"(file|old|new|shows): ?(.*)")


class Edit:
    """An edit of a crate: its file, pairs of a kind and a word that it shows, and its changes, each of a file, an old and a new text."""

    def __init__(self, crate, path):
        self.crate, self.path, self.name = crate, path, path.name
        self.shows, self.changes = [], []
        file = old = None
        for it in filter(None, map(LINE.fullmatch, path.read_text(encoding="utf-8").split("\n"))):
            key, text = it.groups()
            if key == "shows":
                kind, _, word = text.partition(" ")
                self.shows.append((kind, word))
            elif key == "file":
                file = text.strip()
            elif key == "old":
                old = text
            else:
                self.changes.append((file, old, text))

    def text(self):
        """What `rt` reads of it: all but what it shows."""
        lines = self.path.read_text(encoding="utf-8").split("\n")
        return "\n".join(line for line in lines if not line.startswith("shows:"))

    def place(self):
        """Its file, from the top on."""
        return f"edits/{self.crate}/{self.name}"


def all_edits(top):
    """The edits of all crates that have any, by crate and name."""
    return [Edit(path.parent.name, path) for path in sorted((top / "edits").glob("*/*.edit"))]


def changed(index, edit):
    """The items of the code that an edit changes: functions, and constants and types outside of them."""
    found = []
    for file, old, _ in edit.changes:
        for source in index.sources.values():
            if source.file == f"crates/{edit.crate}/{file}" and source.text.count(old) == 1:
                item = at(source, source.text.index(old))
                found += [item] if item else []
    return found


def at(source, place):
    """The item at a place of a file: the innermost function, or else a constant or a type."""
    inside = [it for it in source.functions if it.start <= place < end_of(it)]
    others = [it for it in source.items.values() if it.start <= place < it.end]
    return inside[-1] if inside else others[0] if others else None


def end_of(item):
    """The place after an item; for a function, after its body."""
    source = item.source
    if item.kind != "fn":
        return item.end
    return source.close(item.end) if source.plain[item.end : item.end + 1] == "{" else item.end + 1
