"""What a new site gets: the file with the names of what its server knows."""

from __future__ import annotations

import os
from typing import Iterator, List

from .files import names_in, write_new
from .shown import Look

# What most servers run, and what a site that is begun asks for.
USUAL = [b"pigeonhole"]


def is_new(site: bytes) -> bool:
    """Whether a site has neither a mail nor a file that asks for names."""
    return not os.path.lexists(os.path.join(site, b"with")) and not any(map(has_mail, mail_folders(site)))


def has_begun(site: bytes) -> bool:
    """Whether a site has a mail, or main scripts."""
    return os.path.lexists(os.path.join(site, b"mains")) or any(map(has_mail, mail_folders(site)))


def mail_folders(site: bytes) -> Iterator[bytes]:
    """The folders of a site in which mails may be."""
    users = os.path.join(site, b"users")
    names = names_in(users) if os.path.isdir(users) else []
    for home in (site, *(os.path.join(users, name) for name in names)):
        folder = os.path.join(home, b"mails")
        if os.path.isdir(folder):
            yield folder


def has_mail(folder: bytes) -> bool:
    """Whether a folder has a mail."""
    return any(name.endswith(b".eml") and not name.startswith(b".") for name in names_in(folder))


def ask_for(site: bytes, names: List[bytes], look: Look) -> List[str]:
    """Makes a site ask for these names, and tells it, where it doesn't ask for any yet."""
    path = os.path.join(site, b"with")
    if not names or not write_new(path, b"".join(name + b"\n" for name in names)):
        return []
    return [f"{look.name(path)}: new, with {', '.join(name.decode() for name in names)}"]
