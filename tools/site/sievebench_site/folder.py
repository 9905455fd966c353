"""A site's folder: what is everybody's, and its users with their scripts, main scripts and mails."""

from __future__ import annotations

import os
from typing import Callable, Dict, Iterable, List, NamedTuple, Optional, Set

from .clock import clock_in
from .ends import Refusal, refuse
from .files import entries_in, names_in
from .listed import Listed
from .mails import LeftOut, Mail, lost_in, mail_at, mails_among, no_files, passed_over, too_large
from .mains import SCRIPT_END, Called, Main, Script, Shelf, called, chosen, scripts_in
from .names import names_asked
from .program import Place
from .texts import text_if_any
from .words import quoted


# Whether a mail is wanted, by its owner, who is empty for one of all, and the name of its file.
Wants = Callable[[bytes, bytes], bool]


class Wanted(NamedTuple):
    """What the words of a command ask for of a site."""

    folder: bytes
    mains: List[bytes]
    mails: List[bytes]
    users: List[bytes]
    clock: Optional[bytes]


class User(NamedTuple):
    """A user: the scripts that can be run, the main ones, and the mails. A site without users has one without a name."""

    name: bytes
    home: bytes
    scripts: List[Script]
    mains: List[Main]
    mails: List[Mail]

    def path_of(self, place: Place) -> bytes:
        """The file of a script, or its name where there is none."""
        found = (script.path for script in self.scripts if script.at() == place)
        return next(found, place[0].encode() + b"/" + place[1])


class Site(NamedTuple):
    """What the folder has, as far as it is wanted: what is left out and why, the files beside mails that aren't there, and the scripts that
    are listed since they can't be judged."""

    wanted: Wanted
    names: List[bytes]
    mailboxes: bytes
    clock: Optional[List[bytes]]
    users: List[User]
    left_out: List[LeftOut]
    lost: List[bytes]
    listed: Listed

    def mailboxes_path(self) -> bytes:
        """The file of the mailboxes that there are."""
        return os.path.join(self.wanted.folder, b"mailboxes")


def site_of(wanted: Wanted) -> Site:
    """The site but for its mails."""
    folder = wanted.folder
    asking = os.path.join(folder, b"with")
    names = names_asked(asking, text_if_any(asking))
    users = users_of(wanted)
    site = Site(
        wanted, names, boxes_in(folder, names), clock_in(folder, names, wanted.clock), users, [], [], Listed(folder)
    )
    unread = os.path.join(folder, b"personal")
    if users[0].name and os.path.lexists(unread):
        site.left_out.append((unread, "each user of the site has scripts of his or her own"))
    site.left_out.extend(no_scripts(folder, users))
    return site


def no_scripts(folder: bytes, users: List[User]) -> List[LeftOut]:
    """What has the name of a script and is no file, as a broken link."""
    folders = {os.path.dirname(script.path) for script in users[0].scripts}
    folders.update(os.path.join(user.home, b"personal") for user in users)
    folders.add(os.path.join(folder, b"global"))
    return [it for path in sorted(folders) if os.path.isdir(path) for it in no_files(path, SCRIPT_END)]


def boxes_in(folder: bytes, names: List[bytes]) -> bytes:
    """The list of the mailboxes that there are, which only a site that asks for it has."""
    return text_if_any(os.path.join(folder, b"mailboxes")) if b"mailbox" in names else b""


def user_names(wanted: Wanted) -> List[bytes]:
    """The names of the users that are wanted, in the order of their octets; of a site without users the empty one."""
    folder = os.path.join(wanted.folder, b"users")
    there = os.path.lexists(folder)
    paths = {name: os.path.join(folder, name) for name in (names_in(folder) if there else [])}
    names = [name for name, path in paths.items() if os.path.isdir(path) and not name.startswith(b".")]
    for name in wanted.users:
        if name not in names:
            refuse(f"no user {quoted(name)}: there is no {quoted(os.path.join(folder, name))}")
    if there and not names:
        refuse(f"no users in {quoted(folder)}: each has a folder with scripts")
    return [name for name in names if name in wanted.users or not wanted.users] if there else [b""]


def is_name(name: bytes) -> bool:
    """Whether a user may be called so."""
    return bool(name) and not name.startswith(b".") and b"/" not in name and b"\0" not in name


def users_of(wanted: Wanted) -> List[User]:
    """The users that are wanted, with their scripts and main ones."""
    shelf, users = Shelf(wanted.folder), []
    for name in user_names(wanted):
        home = os.path.join(wanted.folder, b"users", name) if name else wanted.folder
        users.append(User(name, home, own_scripts(name, os.path.join(home, b"personal")), [], []))
    for user in users:
        user.mains.extend(mains_of(shelf, user, wanted))
    for line in wanted.mains:
        alone = wanted._replace(mains=[line])
        if not any(mains_of(shelf, user, alone) for user in users):
            shelf.main_of(called([shelf.line_of(line, "", users[0].home)])[0], users[0].name, users[0].home)
    shared = [*(script for scripts in shelf.others.values() for script in scripts), *shelf.shared]
    for user in users:
        user.scripts.extend(shared)
    return users


def own_scripts(user: bytes, folder: bytes) -> List[Script]:
    """The scripts of a user; none where one among several has no folder of them."""
    return [] if user and not os.path.lexists(folder) else scripts_in("personal", b"", folder)


def mains_of(shelf: Shelf, user: User, wanted: Wanted) -> List[Main]:
    """The main scripts of a user: those that are wanted and there, or those of the file `mains`, the user's own or everybody's."""
    paths = [os.path.join(folder, b"mains") for folder in (user.home, wanted.folder)]
    path = next((path for path in paths if os.path.isfile(path)), None)
    own = shelf.lines_in(path, user.home) if path else []
    if not wanted.mains:
        return [shelf.main_of(it, user.name, user.home) for it in called(own)]
    asked = chosen(own, wanted.mains, lambda text: shelf.line_of(text, "", user.home))
    return [main for main in (main_if_any(shelf, user, it) for it in asked) if main]


def main_if_any(shelf: Shelf, user: User, asked: Called) -> Optional[Main]:
    """The main script that a line names, if the user has all its scripts."""
    try:
        return shelf.main_of(asked, user.name, user.home)
    except Refusal:
        return None


def refuse_no_mains(site: Site) -> None:
    """Refuses a site in which nothing is to run."""
    for user in site.users:
        path = os.path.join(user.home, b"mains")
        if not user.mains and not site.wanted.mains:
            if os.path.isfile(path):
                refuse(f"no main script in {quoted(path)}")
            refuse(f"no main script: {quoted(path)} names them, one a line, or --main does")


def take_mails(site: Site, wants: Wants = lambda owner, name: True) -> None:
    """Gives each user the mails that are judged for him or her, and the site what is left out. Beside other mails than are wanted nothing
    is read, by their owners and names."""
    top = os.path.join(site.wanted.folder, b"mails")
    folders = [(b"", top)] if os.path.lexists(top) or not site.users[0].name else []
    owned = [(user.name, os.path.join(user.home, b"mails")) for user in site.users if user.name]
    folders += [(name, path) for name, path in owned if os.path.lexists(path)]
    users = {user.name: user for user in site.users}
    seen: Set[bytes] = set()
    for owner, folder in folders:
        there = entries_in(folder)
        names = mails_among(there)
        seen.update(names)
        for name in names:
            if not site.wanted.mails or name in site.wanted.mails:
                mail = mail_at(folder, name, owner, bool(site.users[0].name), there, wants(owner, name))
                give(site, users, owner, mail)
        if not site.wanted.mails:
            site.left_out.extend(passed_over(folder, there))
            site.lost.extend(lost_in(folder, there))
    for name in site.wanted.mails:
        if name not in seen:
            refuse(f"no mail {quoted(os.path.join(top, name))}")
    if not any(user.mails for user in site.users):
        refuse(f"no mails in {quoted(top)}: they are files whose names end by .eml")


def give(site: Site, users: Dict[bytes, User], owner: bytes, mail: Mail) -> None:
    """Gives a mail to those for whom it is judged."""
    why = too_large(mail)
    if why:
        site.left_out.append((mail.path, why))
        return
    unknown = sorted(name for name in mail.users or () if name not in users) if not site.wanted.users else []
    if unknown:
        refuse(f"{quoted(mail.path + b'.users')} names {quoted(unknown[0])}, and the site has no such user")
    readers: Iterable[bytes] = [owner] if owner in users else users if mail.users is None else mail.users
    for name in readers:
        if name in users:
            users[name].mails.append(mail)
