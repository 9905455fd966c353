"""Parts of a site that are judged apart, as by several machines: which verdicts each has, and whether parts are of one site."""

from __future__ import annotations

import hashlib
import os
from typing import Iterator, List, NamedTuple, Set, Tuple

from .files import entries_in, is_file, octets_if_any, size_in
from .folder import Site, User, Wants
from .mails import Mail
from .mains import Main


class Shard(NamedTuple):
    """One of the parts: its number, from 1 on, and how many there are."""

    number: int
    of: int

    def spelled(self) -> str:
        """It as an option has it."""
        return f"{self.number}/{self.of}"

    def has(self, owner: bytes, mail: bytes) -> bool:
        """Whether it has this mail of this owner. That is the same on every machine, whatever else the site has."""
        digest = hashlib.sha256(owner + b"\0" + mail).digest()
        return int.from_bytes(digest[:8], "big") % self.of + 1 == self.number

    def is_first(self) -> bool:
        """Whether it also tells what belongs to no verdict."""
        return self.number == 1

    def wants(self, site: Site) -> Wants:
        """Whether it has a mail of somebody. The first one looks at what stands beside all mails, for what is stale."""
        first, owners = self.is_first(), [scripts_of(main) for main in site.users[0].mains]

        def wanted(owner: bytes, name: bytes) -> bool:
            if first or owner:
                return first or self.has(owner, owner + b"/" + name)
            return bool(site.users[0].name) or any(self.has(it, name) for it in owners)

        return wanted

    def parts_of(self, user: User) -> Iterator[Tuple[List[Main], List[Mail]]]:
        """What it has of a user: lines of main scripts, each with the same mails. A site without users is cut by these lines too."""
        if user.name:
            yield user.mains, [mail for mail in user.mails if self.has(user.name, mail.name)]
            return
        for main in user.mains:
            owner = scripts_of(main)
            yield [main], [mail for mail in user.mails if self.has(owner, mail.name)]


def scripts_of(main: Main) -> bytes:
    """The scripts of a line of main scripts, whatever the line is called: that depends on other lines."""
    return b"\0".join(place.encode() + b" " + name for place, name in main.scripts)


def digest_of(site: Site) -> str:
    """What says that two parts are of one site: all that its files say, but of the mails, and of what stands beside them, only the names and
    sizes, since a part doesn't read those of others."""
    digest = hashlib.sha256()
    for fact in facts_of(site):
        digest.update(repr(fact).encode())
    return digest.hexdigest()


def facts_of(site: Site) -> Iterator[object]:
    """What the files of a site say, and what was asked for of it."""
    folder = site.wanted.folder
    yield tuple(site.wanted), site.names, site.mailboxes, site.clock, site.left_out, site.lost
    yield octets_if_any(os.path.join(folder, b"envelope")), [tuple(it) for it in site.listed.entries.values()]
    seen: Set[bytes] = set()
    for user in site.users:
        yield user.name, [(main.key, main.scripts) for main in user.mains]
        for script in user.scripts:
            if script.path not in seen:
                seen.add(script.path)
                yield tuple(script)
    for home in dict.fromkeys([folder, *(user.home for user in site.users)]):
        yield from sizes_in(os.path.join(home, b"mails"))


def sizes_in(folder: bytes) -> Iterator[object]:
    """The names in a folder, if there is one, with the sizes of its files, and those in its folders."""
    for entry in entries_in(folder).values() if os.path.isdir(folder) else []:
        yield entry.path, size_in(entry) if is_file(entry) else None
        if entry.is_dir(follow_symlinks=False):
            yield from sizes_in(entry.path)
