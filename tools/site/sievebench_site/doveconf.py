"""What `doveconf -n` of Dovecot 2.3 prints: settings in blocks."""

from __future__ import annotations

import re
from typing import Dict, List, NamedTuple, Tuple

from .ends import refuse
from .texts import text_of
from .words import lines_of, quoted

SETTING = re.compile(rb"([^\s={}#\"]+) =(?: (.*))?")
ESCAPE = re.compile(rb"\\(.)", re.S)
# A block: what it is called, and its first line, which tells it from others of that name.
Block = Tuple[str, int]
# What delivers mails: its settings of plugins come after those that hold for all.
DELIVERING = ("protocol lda", "protocol lmtp")
NEWER = "dovecot_config_version"


class Setting(NamedTuple):
    """A setting: the blocks around it, its name, its value and its line."""

    blocks: Tuple[Block, ...]
    name: str
    value: bytes
    line: int

    def around(self) -> List[str]:
        """What the blocks around it are called, the outer ones first."""
        return [name for name, _ in self.blocks]


def settings_in(path: bytes) -> List[Setting]:
    """The settings of a file, in its order; refused where it isn't what doveconf prints."""
    found: List[Setting] = []
    blocks: List[Block] = []
    for number, line in enumerate(lines_of(text_of(path)), 1):
        text = line.strip()
        setting = SETTING.fullmatch(text)
        if not text or text.startswith(b"#"):
            continue
        if setting:
            found.append(Setting(tuple(blocks), setting[1].decode("latin-1"), value_of(setting[2] or b""), number))
        elif text.endswith(b"{"):
            blocks.append((text[:-1].decode("latin-1").strip(), number))
        elif text == b"}" and blocks:
            blocks.pop()
        else:
            refuse(f"{quoted(path)}, line {number}: this is no setting: the file has what `doveconf -n` prints")
    refuse_others(path, found, blocks)
    return found


def refuse_others(path: bytes, found: List[Setting], open_blocks: List[Block]) -> None:
    """Refuses a file that is cut off, has no setting, or is of a newer Dovecot."""
    newer = next((it for it in found if it.name == NEWER), None)
    if newer:
        refuse(f"{quoted(path)}, line {newer.line}: only what Dovecot 2.3 prints is taken, and this is of a newer one")
    if open_blocks:
        name, line = open_blocks[-1]
        refuse(f"{quoted(path)}, line {line}: the block {name} has no end: the file is cut off")
    if not found:
        refuse(f"{quoted(path)} has no setting: it has to have what `doveconf -n` prints")


def value_of(text: bytes) -> bytes:
    """The value that is printed, maybe between quotes."""
    if len(text) > 1 and text.startswith(b'"') and text.endswith(b'"'):
        return ESCAPE.sub(lambda it: it[1], text[1:-1])
    return text


def plugins_of(settings: List[Setting]) -> Dict[str, Setting]:
    """The settings of plugins that hold where a mail is delivered."""
    of_all = [it for it in settings if it.around() == ["plugin"]]
    of_delivery = [it for it in settings for name in DELIVERING if it.around() == [name, "plugin"]]
    return {it.name: it for it in [*of_all, *of_delivery]}


def alone(settings: List[Setting]) -> Dict[str, Setting]:
    """The settings that stand in no block."""
    return {it.name: it for it in settings if not it.blocks}
