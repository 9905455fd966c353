"""The users of a server, with their scripts and the one that is active."""

from __future__ import annotations

import os
import re
from typing import Dict, List, NamedTuple, Optional

from .doveconf import Setting, alone
from .ends import refuse
from .files import files_in, is_plain, octets_of
from .mains import SCRIPT_END
from .templates import Piece, Template, pattern_of, template_of
from .words import quoted

# Where Pigeonhole looks for scripts if no setting says it.
USUAL_SCRIPTS, USUAL_ACTIVE = b"~/sieve", b"~/.dovecot.sieve"
# The script of a user who has one alone.
ALONE = b"main"
# A place with what kind it is.
KIND = re.compile(rb"([a-z]+):(.*)", re.S)


class Location(NamedTuple):
    """Where scripts are, and the link to the one that is active, if that is said."""

    path: bytes
    active: Optional[bytes]


USUAL = Location(USUAL_SCRIPTS, USUAL_ACTIVE)


class Account(NamedTuple):
    """A user: the name, the folder or the file of the scripts, and the link to the one that is active."""

    name: bytes
    scripts: bytes
    active: bytes


class Holding(NamedTuple):
    """The scripts of a user by their names, and the name of the one that is active, if one is."""

    scripts: Dict[bytes, bytes]
    active: Optional[bytes]


def location_of(value: bytes) -> Optional[Location]:
    """The place that a setting names; none where it is no file or folder."""
    kind = KIND.fullmatch(value)
    if kind and kind[1] != b"file":
        return None
    path, *options = (kind[2] if kind else value).split(b";")
    return Location(path, next((it[7:] for it in options if it.startswith(b"active=")), None))


def personal_of(plugins: Dict[str, Setting]) -> Optional[Location]:
    """Where users' scripts are; none where it is no folder."""
    if "sieve" not in plugins:
        return USUAL
    found = location_of(plugins["sieve"].value)
    if found and not found.active and found.path.endswith(SCRIPT_END):
        folder = plugins["sieve_dir"].value if "sieve_dir" in plugins else USUAL_SCRIPTS
        return Location(folder, found.path)
    return Location(found.path, found.active or USUAL_ACTIVE) if found else None


def home_of(settings: List[Setting]) -> Optional[Template]:
    """The homes of users, where a setting gives them all."""
    mail_home = alone(settings).get("mail_home")
    if mail_home:
        return template_of(mail_home.value)
    static = {
        it.blocks for it in settings if it.around() == ["userdb"] and (it.name, it.value) == ("driver", b"static")
    }
    fields = [it.value for it in settings if it.blocks in static and it.name in ("args", "override_fields")]
    fields += [it.value for it in settings if it.around() == ["userdb"] and it.name == "override_fields"]
    homes = [word[5:] for value in fields for word in value.split() if word.startswith(b"home=")]
    return template_of(homes[0]) if homes else None


def accounts_of(settings: List[Setting], personal: Location) -> Optional[List[Account]]:
    """The users to whom the settings lead; none where they don't."""
    home = home_of(settings)
    scripts, active = (template_of(path or b"", home) for path in personal)
    folders = home or scripts
    if scripts is None or active is None or folders is None or not (folders.has_user() and scripts.has_user()):
        return None
    names = [name for name, path in folders.users() if is_user(path)]
    return [Account(name, scripts.filled(name), active.filled(name)) for name in names] or None


def accounts_under(pattern: bytes, personal: Location) -> List[Account]:
    """The users whose folders a pattern names."""
    folders, rest = pattern_of(pattern)
    own = re.sub(rb"^~/", b"/", personal.path)
    found = []
    for name, folder in folders.users():
        if not is_user(folder):
            continue
        scripts = os.path.join(folder, rest) if rest else folder
        home = scripts[: -len(own)] if scripts.endswith(own) else folder
        active = template_of(personal.active or USUAL_ACTIVE, Template((Piece(home),)))
        found.append(Account(name, scripts, active.filled(name) if active else b""))
    if not found:
        refuse(f"--users {quoted(pattern)}: there are no such folders")
    return found


def is_user(path: bytes) -> bool:
    """Whether a folder is that of a user."""
    return os.path.isdir(path) and not os.path.basename(path).startswith(b".")


def holding_of(account: Account) -> Holding:
    """What a user has."""
    if not os.path.isdir(account.scripts):
        if is_plain(account.scripts):
            return Holding({ALONE: octets_of(account.scripts)}, ALONE)
        return with_active({}, account)
    names = [name[: -len(SCRIPT_END)] for name in files_in(account.scripts, SCRIPT_END)]
    return with_active({it: octets_of(os.path.join(account.scripts, it + SCRIPT_END)) for it in names}, account)


def with_active(scripts: Dict[bytes, bytes], account: Account) -> Holding:
    """These scripts of a user, and the one that is active. One that isn't among them comes to them."""
    if not account.active or not os.path.lexists(account.active):
        return Holding(scripts, None)
    named = name_in(account)
    if named in scripts:
        return Holding(scripts, named)
    if not is_plain(account.active):
        return Holding(scripts, None)
    octets = octets_of(account.active)
    name = free_name(scripts, ALONE, octets)
    return Holding({**scripts, name: octets}, name)


def name_in(account: Account) -> Optional[bytes]:
    """The name of the script among a user's to which the active link leads, also where the folder was copied to another place."""
    if not os.path.islink(account.active):
        return None
    goal = os.path.realpath(account.active)
    moved = not os.path.exists(goal)
    if not goal.endswith(SCRIPT_END) or not (moved or os.path.dirname(goal) == os.path.realpath(account.scripts)):
        return None
    return os.path.basename(goal)[: -len(SCRIPT_END)]


def free_name(scripts: Dict[bytes, bytes], name: bytes, octets: bytes) -> bytes:
    """A name for a script that no other one has: the name itself, or it with a number."""
    found, number = name, 1
    while scripts.get(found, octets) != octets:
        number += 1
        found = name + b"-%d" % number
    return found
