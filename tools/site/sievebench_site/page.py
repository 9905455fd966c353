"""One page of HTML with all that is found in a site."""

from __future__ import annotations

import base64
import hashlib
import pkgutil
from typing import Iterator

from .markup import Markup, joined, link, tag
from .page_edit import edit_part
from .page_mails import mails_part
from .page_overview import overview_part
from .page_places import Places
from .page_scripts import scripts_part
from .report import Facts


def page_of(facts: Facts, version: str) -> bytes:
    """The page."""
    places = Places(facts)
    title = f"Filters of {places.title}"
    parts = {
        "overview": ("Overview", overview_part(places)),
        "edit": ("The edit", edit_part(places)),
        "mails": ("Mails", mails_part(places)),
        "scripts": ("Scripts", scripts_part(places)),
    }
    there = {name: part for name, part in parts.items() if part[1]}
    skips = joined((tag("li", link(name, head)) for name, (head, _) in there.items()))
    sections = (
        tag("section", tag("h2", head, id=f"{name}-head"), part, id=name, aria_labelledby=f"{name}-head")
        for name, (head, part) in there.items()
    )
    top = tag("header", tag("h1", title), tag("nav", tag("ul", skips), aria_label="Parts of this page"))
    foot = tag("footer", tag("p", f"Made by sievebench-site {version}. Nothing was delivered."))
    body = tag("body", top, tag("main", *sections), foot, tag("script", own("page.js")))
    return f"<!DOCTYPE html>\n{tag('html', head_of(title), body, lang='en')}\n".encode()


def head_of(title: str) -> Markup:
    """The head of the page. Its policy lets nothing be loaded, and nothing run but its own script."""
    policy = "; ".join(["default-src 'none'", *sources(), "base-uri 'none'", "form-action 'none'"])
    return tag(
        "head",
        tag("meta", charset="utf-8"),
        tag("meta", http_equiv="Content-Security-Policy", content=policy),
        tag("meta", name="viewport", content="width=device-width, initial-scale=1"),
        tag("meta", name="color-scheme", content="light dark"),
        tag("title", title),
        tag("style", own("page.css")),
    )


def own(name: str) -> Markup:
    """A file of this package that stands in the page as it is."""
    return Markup((pkgutil.get_data(__package__, name) or b"").decode())


def sources() -> Iterator[str]:
    """The style and the script that are taken, by their digests."""
    for what, name in (("style", "page.css"), ("script", "page.js")):
        digest = base64.b64encode(hashlib.sha256(own(name).encode()).digest()).decode()
        yield f"{what}-src 'sha256-{digest}'"
