"""A site that is made of a Dovecot server: its scripts before and after those of users, the users' own, and what runs after what."""

from __future__ import annotations

import collections
import os
import re
from typing import Dict, Iterator, List, NamedTuple, Optional, Tuple

from .accounts import USUAL, Account, accounts_of, accounts_under, free_name, holding_of, location_of, personal_of
from .doveconf import Setting, alone, plugins_of, settings_in
from .extensions import Extensions
from .filling import Filling, make_folder
from .files import files_in, is_plain, octets_if_any, octets_of
from .groups import counted
from .mains import SCRIPT_END
from .names import spelled
from .untaken import of_mails, why_untaken
from .words import quoted

PLAIN_NAME = re.compile(rb"[A-Za-z0-9_.@+/-]+")


class Chain(NamedTuple):
    """The names of scripts that run before a user's and after it, and of the one that runs in its place where a user has none."""

    before: List[bytes]
    after: List[bytes]
    without: List[bytes]

    def line(self, active: Optional[bytes]) -> bytes:
        """The line of main scripts of a user, by the name of the one that is active."""
        own = self.without if active is None else [active]
        return b" ".join(name_in_line(it) for it in [*self.before, *own, *self.after])


class Server:
    """What is taken of a server: by what doveconf prints, and by a pattern of users' folders."""

    def __init__(self, filling: Filling, path: Optional[bytes], pattern: Optional[bytes]) -> None:
        self.filling, self.path, self.pattern = filling, path or b"", pattern
        self.settings = settings_in(path) if path is not None else []
        self.plugins = plugins_of(self.settings)
        self.accounts = self.all_accounts()

    def all_accounts(self) -> Optional[List[Account]]:
        """The users, where it is known where they are."""
        personal = personal_of(self.plugins)
        if personal is None:
            self.tell(self.plugins["sieve"], "not taken: its scripts are no files")
        if self.pattern is not None:
            return accounts_under(self.pattern, personal or USUAL)
        return accounts_of(self.settings, personal) if personal else None

    def take(self) -> List[str]:
        """Fills the site, and gives what is told."""
        make_folder(os.path.join(self.filling.site, b"mails"))
        chain = Chain(self.stage(b"before", "sieve_before"), self.stage(b"after", "sieve_after"), self.default())
        self.take_global()
        users = self.take_users(chain)
        if self.path:
            self.take_names()
            self.tell_untaken()
        files = f"{counted(self.filling.written, 'file')} written"
        return [*self.filling.told, f"{counted(users, 'user')}, {files}" if self.accounts is not None else files]

    def tell(self, setting: Setting, what: str) -> None:
        """Tells something of a setting."""
        self.filling.told.append(f"{self.filling.look.name(self.path)}:{setting.line}: {setting.name}: {what}")

    def stage(self, folder: bytes, name: str) -> List[bytes]:
        """Takes the scripts of the settings of a name and of the numbers after it, and gives what they are called in a line."""
        taken: Dict[bytes, bytes] = {}
        names: List[bytes] = []
        for setting in numbered(self.plugins, name):
            for stem, path in self.scripts_of(setting):
                octets = octets_of(path)
                own = free_name(taken, stem, octets)
                taken[own] = octets
                self.filling.put(folder + b"/" + own + SCRIPT_END, octets, path)
                names.append(folder + b"/" + own)
        return names

    def default(self) -> List[bytes]:
        """The script of users who have none, if there is one."""
        return self.stage(b"default", "sieve_default")[:1]

    def take_global(self) -> None:
        """Takes the scripts that others include."""
        setting = self.plugins.get("sieve_global") or self.plugins.get("sieve_global_dir")
        for stem, path in self.scripts_of(setting) if setting else []:
            self.filling.put(b"global/" + stem + SCRIPT_END, octets_of(path), path)

    def scripts_of(self, setting: Setting) -> Iterator[Tuple[bytes, bytes]]:
        """The names and the files of the scripts to which a setting leads, in the order in which they run."""
        location = location_of(setting.value)
        if location is None:
            self.tell(setting, "not taken: its scripts are no files")
        elif not location.path.startswith(b"/") or b"%" in location.path:
            self.tell(setting, "not taken: it is another file for each user")
        elif os.path.isdir(location.path):
            for name in files_in(location.path, SCRIPT_END):
                yield name[: -len(SCRIPT_END)], os.path.join(location.path, name)
        elif is_plain(location.path):
            yield re.sub(rb"\.sieve$", b"", os.path.basename(location.path)), location.path
        else:
            self.tell(setting, f"not taken: there is no {quoted(location.path)}")

    def take_users(self, chain: Chain) -> int:
        """Takes the users' scripts, and says what runs. A line that most users have is everybody's."""
        if self.accounts is None:
            self.filling.put(b"mains", chain.line(b"main") + b"\n", self.path)
            make_folder(os.path.join(self.filling.site, b"personal"))
            where = os.path.join(self.filling.site, b"personal")
            self.filling.tell(where, "no scripts, as it isn't known where users are: --users names their folders")
            return 0
        lines = {it.name: self.take_user(it, chain) for it in self.accounts}
        usual = self.usual_line([line for line in lines.values() if line])
        for account in self.accounts:
            if lines[account.name]:
                self.put_line(account, lines[account.name], usual)
        return sum(bool(line) for line in lines.values())

    def usual_line(self, lines: List[bytes]) -> bytes:
        """The line of users who have none of their own: what the site says, or else what most have."""
        there = octets_if_any(os.path.join(self.filling.site, b"mains"))
        if there or not lines:
            return there.rstrip(b"\r\n")
        usual = collections.Counter(lines).most_common(1)[0][0]
        self.filling.put(b"mains", usual + b"\n", self.path)
        return usual

    def take_user(self, account: Account, chain: Chain) -> bytes:
        """Takes a user's scripts, and gives the line of main ones, which is empty where none runs."""
        holding = holding_of(account)
        line = chain.line(holding.active)
        if holding.active is None and os.path.lexists(account.active):
            self.filling.tell(account.active, "leads to no script: its user is taken as one without a script")
        if not line:
            self.filling.tell(
                account.scripts, "left out: no script of its user is active, and none runs before or after"
            )
            return line
        for name, octets in holding.scripts.items():
            place = b"users/" + account.name + b"/personal/" + name + SCRIPT_END
            self.filling.put(place, octets, os.path.join(account.scripts, name + SCRIPT_END))
        return line

    def put_line(self, account: Account, line: bytes, usual: bytes) -> None:
        """Writes a user's line, where it isn't the usual one, another may be there, or nothing else is written of the user."""
        home = os.path.join(self.filling.site, b"users", account.name)
        is_there = os.path.isdir(os.path.join(home, b"personal")) and not os.path.lexists(os.path.join(home, b"mains"))
        if line != usual or not is_there:
            self.filling.put(b"users/" + account.name + b"/mains", line + b"\n", account.active)

    def take_names(self) -> None:
        """Makes the site ask for what the server knows."""
        extensions = Extensions(self.plugins)
        self.filling.put(b"with", b"".join(name + b"\n" for name in spelled(extensions.names)), self.path)
        for it in extensions.remarks:
            self.tell(it.setting, it.text)

    def tell_untaken(self) -> None:
        """Tells the settings that aren't taken, in the order of the file, and where mails are."""
        stages = [it.name for name in ("sieve_before", "sieve_after") for it in numbered(self.plugins, name)]
        for setting in self.settings:
            why = None if setting.name in stages else why_untaken(setting)
            if why:
                self.tell(setting, why)
        place = alone(self.settings).get("mail_location")
        if place:
            self.tell(place, of_mails(place.value))


def numbered(plugins: Dict[str, Setting], name: str) -> List[Setting]:
    """The settings of a name without a number, and with those from 2 on, up to the first that isn't there."""
    found: List[Setting] = []
    while True:
        setting = plugins.get(f"{name}{len(found) + 1}" if found else name)
        if setting is None or not setting.value:
            return found
        found.append(setting)


def name_in_line(name: bytes) -> bytes:
    """A script's name as a line of main ones has it."""
    return name if PLAIN_NAME.fullmatch(name) else quoted(name).encode()
