"""Where a document lies: the site, the user and the place of a script, by its path alone."""

from __future__ import annotations

import os
import urllib.parse
from typing import Iterable, Iterator, List, NamedTuple, Optional

from .ends import Refusal
from .files import files_in, names_in
from .folder import Wanted, is_name
from .mains import SCRIPT_END, is_inside
from .names import names_asked
from .program import Place
from .texts import text_if_any

PERSONAL, GLOBAL, USERS, MAINS = b"personal", b"global", b"users", b"mains"
# A folder that is a site has one of these. The file `mains` may also be that of a user.
MARKS = (MAINS, b"with")


class Home(NamedTuple):
    """A script of a site: the site's folder, the user whose it is, who has no name in a site without users and is none where the script is
    everybody's, and its place in a session."""

    folder: bytes
    user: Optional[bytes]
    place: Place

    def owner(self) -> bytes:
        """The user as whose script it is judged: the first, where it is everybody's."""
        return first_user(self.folder) if self.user is None else self.user


def first_user(folder: bytes) -> bytes:
    """The first user of a site, who has no name in one without users."""
    users = os.path.join(folder, USERS)
    names = names_in(users) if os.path.lexists(users) else []
    return next((name for name in names if is_name(name) and os.path.isdir(os.path.join(users, name))), b"")


def wanted(folder: bytes, user: bytes = b"") -> Wanted:
    """All of a site, or of a user of it."""
    return Wanted(folder, [], [], [user] if user else [], None)


def path_of(uri: str) -> Optional[bytes]:
    """The path that a URI names, if it names a file of this machine."""
    try:
        parts = urllib.parse.urlsplit(uri)
        path = urllib.parse.unquote_to_bytes(parts.path)
    except ValueError:
        return None
    is_ours = parts.scheme.lower() == "file" and parts.netloc.lower() in ("", "localhost")
    return os.path.normpath(path) if is_ours and path.startswith(b"/") and b"\0" not in path else None


class Places:
    """The homes of scripts. A folder that is given counts as a site, whatever it has."""

    def __init__(self, given: Optional[bytes]) -> None:
        self.given = given

    def is_site(self, folder: bytes) -> bool:
        """Whether a folder is a site."""
        return (
            has_any(folder, MARKS) or self.is_given(folder) or any(has_any(home, (MAINS,)) for home in homes_in(folder))
        )

    def is_given(self, folder: bytes) -> bool:
        """Whether a folder is the one that is given."""
        try:
            return self.given is not None and os.path.samefile(folder, self.given)
        except OSError:
            return False

    def home_of(self, path: bytes) -> Optional[Home]:
        """The home of a file, if it is a script of a site."""
        above, file = os.path.split(path)
        top, folder = os.path.split(above)
        name = file[: -len(SCRIPT_END)] if file.endswith(SCRIPT_END) else b""
        if not name or not folder:
            return None
        users, user = os.path.split(top)
        site = os.path.dirname(users)
        if os.path.basename(users) == USERS and self.is_site(site):
            return Home(site, user, ("personal", name)) if folder == PERSONAL and is_name(user) else None
        if not self.is_site(top):
            return None
        if folder == PERSONAL:
            # A site of several users has no scripts there.
            return None if os.path.lexists(os.path.join(top, USERS)) else Home(top, b"", ("personal", name))
        if folder == GLOBAL:
            return Home(top, None, ("global", name))
        inner = folder + b"/" + name
        return Home(top, None, ("personal", inner)) if is_inside(inner) else None

    def site_above(self, path: bytes) -> Optional[bytes]:
        """The nearest folder above a file that is a site, and not that of a user."""
        found = next((folder for folder in above(path) if self.is_site(folder)), None)
        users = os.path.dirname(found or b"")
        top = os.path.dirname(users)
        return top if found and os.path.basename(users) == USERS and self.is_site(top) else found


def has_any(folder: bytes, names: Iterable[bytes]) -> bool:
    """Whether a folder has one of these."""
    return any(os.path.lexists(os.path.join(folder, name)) for name in names)


def homes_in(folder: bytes) -> List[bytes]:
    """The folders of a site's users."""
    users = os.path.join(folder, USERS)
    try:
        return [os.path.join(users, name) for name in os.listdir(users)]
    except OSError:
        return []


def above(path: bytes) -> Iterator[bytes]:
    """The folders above a path, the nearest first."""
    while path != os.path.dirname(path):
        path = os.path.dirname(path)
        yield path


def names_of(folder: bytes) -> List[bytes]:
    """The names that a site asks for."""
    path = os.path.join(folder, b"with")
    return names_asked(path, text_if_any(path))


def scripts_beside(home: Home, place: str) -> List[bytes]:
    """The names of the scripts that one of a site can include from a place; none where they can't be read."""
    try:
        owner = home.owner()
        own = os.path.join(home.folder, USERS, owner) if owner else home.folder
        folder = os.path.join(home.folder if place == "global" else own, place.encode())
        return [name[: -len(SCRIPT_END)] for name in files_in(folder, SCRIPT_END)]
    except Refusal:
        return []
