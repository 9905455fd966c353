"""What completes a word of the command line: the users, the main scripts and the mails of a site."""

from __future__ import annotations

import os
from typing import Callable, Dict, List

from .expected import shown_key
from .folder import Wanted, site_of, user_names
from .mails import mail_names
from .mains import Main


def wanted(folder: bytes) -> Wanted:
    """All of a site."""
    return Wanted(folder, [], [], [], None)


def users_in(folder: bytes) -> List[bytes]:
    """The names of the users."""
    return [name for name in user_names(wanted(folder)) if name]


def mains_in(folder: bytes) -> List[bytes]:
    """What lines of main scripts are called, without the names of users."""
    site = site_of(wanted(folder))
    return [word_for(main, user.name) for user in site.users for main in user.mains]


def word_for(main: Main, user: bytes) -> bytes:
    """What --main takes for a line."""
    first = main.key[0][len(user) + 1 :] if user else main.key[0]
    return first if len(main.key) == 1 else shown_key((first, *main.key[1:]))[1:-1].encode()


def mails_in(folder: bytes) -> List[bytes]:
    """The names of the mails."""
    homes = [folder, *(os.path.join(folder, b"users", name) for name in users_in(folder))]
    folders = [os.path.join(home, b"mails") for home in homes]
    return [name for it in folders if os.path.isdir(it) for name in mail_names(it)]


KINDS: Dict[str, Callable[[bytes], List[bytes]]] = {"users": users_in, "mains": mains_in, "mails": mails_in}


def completed(kind: str, folder: bytes) -> List[bytes]:
    """All words of a kind, each once; none of a kind that there isn't."""
    return list(dict.fromkeys(KINDS[kind](folder))) if kind in KINDS else []
