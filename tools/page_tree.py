"""A page of HTML as a tree, for what looks at one: every element that isn't empty has to be closed in its order."""

from __future__ import annotations

import html.parser
import xml.etree.ElementTree as tree
from typing import Iterator, List, Optional, Tuple

EMPTY = ("meta",)


class Reader(html.parser.HTMLParser):
    """Makes the tree."""

    def __init__(self) -> None:
        super().__init__()
        self.builder = tree.TreeBuilder()

    def handle_starttag(self, name: str, attributes: List[Tuple[str, Optional[str]]]) -> None:
        """Begins an element."""
        self.builder.start(name, {word: value or "" for word, value in attributes})
        if name in EMPTY:
            self.builder.end(name)

    def handle_endtag(self, name: str) -> None:
        """Ends the element that began last."""
        self.builder.end(name)

    def handle_data(self, text: str) -> None:
        """Adds text."""
        self.builder.data(text)


def tree_of(page: str) -> tree.Element:
    """The element `html` of a page."""
    reader = Reader()
    reader.feed(page.partition("\n")[2].rstrip("\n"))
    return reader.builder.close()


def text_of(element: tree.Element) -> str:
    """The text of an element, with one blank for each gap."""
    return " ".join("".join(element.itertext()).split())


def with_class(element: tree.Element, name: str) -> Iterator[tree.Element]:
    """The elements in another that have this class."""
    return (it for it in element.iter() if name in it.get("class", "").split())


def with_id(element: tree.Element, name: str) -> tree.Element:
    """The element in another that has this id, and the only one."""
    (found,) = (it for it in element.iter() if it.get("id") == name)
    return found
