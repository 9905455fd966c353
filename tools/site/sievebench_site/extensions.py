"""The names that a site asks for, by the extensions that a server's settings name."""

from __future__ import annotations

from typing import Dict, List, NamedTuple, Set

from .doveconf import Setting
from .names import ALWAYS, NAMES, SETS

# Names that aren't extensions. Of these Pigeonhole always has the charsets.
OURS, CHARSETS = (b"charsets", b"envelopes", b"lines", b"unused"), b"charsets"
SETTINGS = ("sieve_extensions", "sieve_global_extensions")


class Remark(NamedTuple):
    """What is said of a setting."""

    setting: Setting
    text: str


class Extensions:
    """The names that come of the settings, and what is said of these."""

    def __init__(self, plugins: Dict[str, Setting]) -> None:
        self.names: Set[bytes] = set(SETS[b"pigeonhole"])
        self.remarks: List[Remark] = []
        for name in SETTINGS:
            if name in plugins:
                self.take(plugins[name])

    def take(self, setting: Setting) -> None:
        """Takes a setting. A list with + and - changes what is known, one without them has all that is."""
        words = setting.value.split()
        is_change = any(word[:1] in (b"+", b"-") for word in words)
        without = [word[1:] for word in words if word.startswith(b"-")]
        wanted = [word.lstrip(b"+") for word in words if not word.startswith(b"-")]
        if not is_change and setting.name == SETTINGS[0]:
            self.names = {CHARSETS}
            without = [it for it in ALWAYS if not it.startswith(b"comparator-") and it not in wanted]
        can = [it for it in wanted if it in NAMES and it not in OURS]
        self.names = (self.names | set(can)) - set(without)
        self.remark(setting, "not known here: ", [it for it in wanted if it not in NAMES and it not in ALWAYS])
        self.remark(setting, "always known here: ", [it for it in without if it in ALWAYS])
        if setting.name == SETTINGS[1]:
            self.remark(setting, "known here to all scripts: ", can)

    def remark(self, setting: Setting, what: str, names: List[bytes]) -> None:
        """Says something of names, if there are any."""
        if names:
            self.remarks.append(Remark(setting, what + ", ".join(it.decode("latin-1") for it in names)))
