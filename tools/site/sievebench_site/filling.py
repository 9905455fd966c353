"""A site's folder that is filled: files come to it, and none that is there changes."""

from __future__ import annotations

import os
from typing import List

from .ends import refuse
from .files import octets_of, write_new
from .shown import Look
from .words import quoted


class Filling:
    """A site's folder, what was told of it, and how many files came to it."""

    def __init__(self, site: bytes, look: Look) -> None:
        self.site, self.look = site, look
        self.told: List[str] = []
        self.written = 0

    def tell(self, path: bytes, what: str) -> None:
        """Tells something of a file."""
        self.told.append(f"{self.look.name(path)}: {what}")

    def put(self, name: bytes, octets: bytes, source: bytes) -> None:
        """Writes a file of the site, as that of the server is. One that is there stays, and where it is another that is told."""
        path = os.path.join(self.site, name)
        make_folder(os.path.dirname(path))
        if write_new(path, octets):
            self.written += 1
        elif octets_of(path) != octets:
            self.tell(path, f"left as it is, and {self.look.name(source)} is another: remove it to take that one")


def make_folder(path: bytes) -> None:
    """Makes a folder where there is none."""
    try:
        os.makedirs(path, exist_ok=True)
    except OSError as error:
        refuse(f"cannot write {quoted(path)}: {error.strerror}")
