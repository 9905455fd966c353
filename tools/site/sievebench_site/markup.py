"""HTML that is made of plain texts: each is escaped by one function, and nothing else makes markup of a text."""

from __future__ import annotations

import functools
import html
from typing import Iterable, Union

# Elements without an end.
EMPTY = ("col", "meta")


class Markup(str):
    """A text that is HTML."""


Inside = Union[str, Markup]


def shown(text: Inside) -> Markup:
    """A text as a page shows it, in which nothing is markup; markup as it is."""
    return text if isinstance(text, Markup) else escaped(text)


# Most texts stand in a page many times.
@functools.lru_cache(maxsize=4096)
def escaped(text: str) -> Markup:
    """A text in which nothing is markup."""
    return Markup(html.escape(text))


def joined(parts: Iterable[Inside], between: Inside = "") -> Markup:
    """Texts and markup one after another, with something between them."""
    return Markup(shown(between).join(map(shown, parts)))


def tag(name: str, /, *inside: Inside, **attributes: object) -> Markup:
    """An element. Its attributes are those that aren't none or false; one that is true has no value. `_` stands for `-`, and one at the end of
    a name for nothing."""
    words = [name]
    for word, value in attributes.items():
        spelled = word.rstrip("_").replace("_", "-")
        if value is True:
            words.append(spelled)
        elif value is not None and value is not False:
            words.append(f'{spelled}="{shown(str(value))}"')
    end = "" if name in EMPTY else f"{joined(inside)}</{name}>"
    return Markup(f"<{' '.join(words)}>{end}")


def link(goal: str, *inside: Inside, **attributes: object) -> Markup:
    """A link to a place of the same page."""
    return tag("a", *inside, href=f"#{goal}", **attributes)


def listed(items: Iterable[Inside], **attributes: object) -> Markup:
    """A list; nothing where there are no items."""
    told = [tag("li", it) for it in items]
    return tag("ul", *told, **attributes) if told else Markup()


def table(caption: Inside, heads: Iterable[Inside], rows: Iterable[Markup], **attributes: object) -> Markup:
    """A table with the heads of its columns, in a frame that can be moved where it is wider than the page."""
    head = tag("tr", *(tag("th", it, scope="col") for it in heads))
    body = tag("tbody", *rows)
    made = tag("table", tag("caption", caption), tag("thead", head), body, **attributes)
    return tag("div", made, class_="frame", tabindex=0, role="region", aria_label=caption)
