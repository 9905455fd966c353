"""The words that may stand at a place of a script: commands, tests, tags, capabilities and names of scripts."""

from __future__ import annotations

from typing import Callable, Iterable, List, NamedTuple, Optional, Set

from .lsp_nodes import Node, nodes_of, scanned
from .sieve_text import Token, string_meant
from .vocabulary import CAPABILITIES, COMMANDS, COMPARATORS, INNER, PLAIN_COMPARATORS, TESTS, Named, Tag, Word

# Kinds of completions, as the protocol numbers them.
FUNCTION, MODULE, PROPERTY, VALUE, KEYWORD, FILE = 3, 9, 10, 12, 14, 17
# The names of the scripts of a place.
Scripts = Callable[[str], List[bytes]]


class Item(NamedTuple):
    """A word: as it is shown and as it is written, of which kind it is, its form, and its meaning."""

    label: str
    new: str
    kind: int
    detail: str = ""
    meaning: str = ""


class Offer(NamedTuple):
    """Words, and the octet from which on they take the place of what is written."""

    start: int
    items: List[Item]


class Cursor:
    """A place of a script: the tokens before it, of which the last may be half written."""

    def __init__(self, text: bytes) -> None:
        scan = scanned(text)
        tokens = scan.tokens
        last = tokens[-1] if tokens and tokens[-1].end == len(text) else None
        # The kind of the word that is half written, if one is: nothing completes comments, numbers, whole strings and strings of several lines.
        self.kind, self.start = "none", len(text)
        if scan.open is not None:
            is_string = text.startswith(b'"', scan.open) and b"\n" not in text[scan.open :]
            self.kind, self.start = ("string", scan.open + 1) if is_string else ("other", len(text))
        elif last and (last.kind in ("word", "tag") or last.octets == b":"):
            self.kind, self.start = "word" if last.kind == "word" else "tag", last.start
            tokens = tokens[:-1]
        elif last and last.kind in ("string", "number"):
            self.kind = "other"
        self.tokens = tokens
        self.before: Optional[Token] = tokens[-1] if tokens else None
        self.nodes = nodes_of(tokens)
        self.node: Optional[Node] = self.nodes[-1] if self.nodes and self.nodes[-1].open else None
        self.begins_line = not text[text.rfind(b"\n") + 1 : self.start].strip()

    def is_after(self, *marks: bytes) -> bool:
        """Whether one of these marks stands before it."""
        return self.before is not None and self.before.kind == "mark" and self.before.octets in marks

    def wants_command(self) -> bool:
        """Whether a command may begin here. On a new line one that has all its arguments may lack its end."""
        unended = self.node is not None and self.begins_line and is_whole(self.node)
        return self.before is None or self.is_after(b";", b"{", b"}") or unended

    def wants_test(self) -> bool:
        """Whether a test may begin here."""
        if self.node:
            return self.node.word is not None and self.node.word.inner in INNER and not self.node.tokens
        return self.is_after(b"(", b",")

    def free_tags(self, known: Set[str]) -> List[Tag]:
        """The tags that may follow: tags come before other arguments, and of those that exclude one another there is one at most."""
        word, tokens = (self.node.word, self.node.tokens) if self.node else (None, [])
        if not self.node or not word or any(it.tag is None for it in self.node.arguments()):
            return []
        last = self.node.tag_of(tokens[-1]) if tokens else None
        given = {it.octets.decode() for it in tokens if it.kind == "tag"}
        free = [tag for choice in word.choices if not given.intersection(tag.name for tag in choice) for tag in choice]
        return [] if last and last.takes else [tag for tag in free if not tag.needs or tag.needs in known]


def is_whole(node: Node) -> bool:
    """Whether a command has all its arguments, and no test or block is to come."""
    word, given = node.word, [it for it in node.arguments() if not it.tag]
    if not word or word in TESTS or word.inner or word.block or node.depth:
        return False
    return len(given) >= len(word.arguments)


def offer(text: bytes, at: int, known: Set[str], scripts: Scripts) -> Offer:
    """The words that may stand at an octet of a script, of the capabilities that are known."""
    cursor = Cursor(text[:at])
    return Offer(cursor.start, list(items(cursor, known, scripts)))


def items(cursor: Cursor, known: Set[str], scripts: Scripts) -> Iterable[Item]:
    """The words that may stand at a place."""
    if cursor.kind == "string":
        return [item._replace(new=inner(item.label)) for item in strings(cursor, known, scripts)]
    if cursor.kind == "tag":
        return tags(cursor, known)
    if cursor.kind == "other":
        return []
    if cursor.wants_test():
        return [of_word(it, FUNCTION) for it in TESTS if known.issuperset(it.needs)]
    if cursor.wants_command():
        return commands(cursor, known)
    return [*tags(cursor, known), *strings(cursor, known, scripts)] if cursor.kind == "none" else []


def commands(cursor: Cursor, known: Set[str]) -> List[Item]:
    """The commands: `require` only before all others, and a branch only after a block."""
    late = any(node.name.octets != b"require" for node in cursor.nodes)
    found = [it for it in COMMANDS if known.issuperset(it.needs)]
    found = [it for it in found if it.name != "require" or not late]
    return [of_word(it, KEYWORD) for it in found if it.name not in ("elsif", "else") or cursor.is_after(b"}")]


def tags(cursor: Cursor, known: Set[str]) -> List[Item]:
    """The tags of the command or the test."""
    return [
        Item(it.name, it.name, PROPERTY, it.usage(), meaning(it.says, it.source, [it.needs] if it.needs else []))
        for it in cursor.free_tags(known)
    ]


def strings(cursor: Cursor, known: Set[str], scripts: Scripts) -> List[Item]:
    """The strings that are known of an argument: capabilities, comparators, or names of scripts."""
    node = cursor.node
    if not node:
        return []
    last = node.tag_of(node.tokens[-1]) if node.tokens else None
    if last and last.name == ":comparator":
        usable = [it for it in COMPARATORS if it in PLAIN_COMPARATORS or f"comparator-{it}" in known]
        return [of_name(name, COMPARATORS[name], VALUE) for name in usable]
    if node.name.octets == b"require":
        given = {string_meant(it.octets).decode("latin-1") for it in node.tokens if it.kind == "string"}
        return [of_name(name, it, MODULE) for name, it in CAPABILITIES.items() if name in known - given]
    if node.name.octets == b"include" and not (last and last.takes) and not list(node.arguments()):
        place = "global" if any(it.octets == b":global" for it in node.tokens) else "personal"
        return [Item(name, quoted(name), FILE, f"{place} script") for name in readable(scripts(place))]
    return []


def readable(names: Iterable[bytes]) -> List[str]:
    """Those names that are UTF-8."""
    texts = (name.decode("utf-8", "replace") for name in names)
    return [text for text in texts if "\ufffd" not in text]


def of_word(word: Word, kind: int) -> Item:
    """A command or a test as it is offered."""
    return Item(word.name, word.name, kind, word.usage(), meaning(word.says, word.source, word.needs))


def of_name(name: str, named: Named, kind: int) -> Item:
    """A capability or a comparator as it is offered."""
    return Item(name, quoted(name), kind, named.source, named.says)


def meaning(says: str, source: str, needs: Iterable[str]) -> str:
    """The purpose of a word, where it is defined, and the capabilities that it needs."""
    names = " and ".join(f'"{name}"' for name in needs)
    return f"{says} {source}.{f' It needs {names}.' if names else ''}"


def inner(name: str) -> str:
    """A name as it stands between quotes."""
    return name.replace("\\", "\\\\").replace('"', '\\"')


def quoted(name: str) -> str:
    """A name between quotes."""
    return f'"{inner(name)}"'
