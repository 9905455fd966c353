"""The command record: writes today's verdicts as what is expected."""

from __future__ import annotations

import os
import re
from typing import Dict, Iterable, List, NamedTuple, Optional, Set, Tuple

from .check import left_out
from .checked import Stale, broken_in, lacking_in, stale_in
from .expected import Key, text_of
from .files import is_plain, octets_of, remove_empty, remove_file, write_file, write_folder
from .folder import Site, user_names
from .headings import Expected, expected_at
from .judge import Case, Judged
from .mails import EXPECT, Mail
from .shown import Look

Texts = Dict[Key, Tuple[bytes, ...]]
NOT_OURS = "left, since it isn't as this tool writes it: --force writes it anew, without its comments"
CHANGED = "left, since it was changed meanwhile"
LOST = "taken out: its mail isn't there"
# A mail of so many users has one file. Of more, each has one, so that two people don't change the same.
FEW_USERS = 20
# What may be the name of a user's file.
NAME = re.compile(rb"[^./\x00][^/\x00]{0,200}", re.S)


class Change(NamedTuple):
    """A file that is to be written, taken out, or left: what it was and becomes, none where there is no file, and what is printed of it.
    A file may become a folder of files."""

    path: bytes
    was: Optional[bytes]
    text: Optional[bytes]
    told: str
    left: bool = False
    files: Optional[Dict[bytes, bytes]] = None

    def done(self) -> "Change":
        """Makes the change, unless the file is left or isn't as it was read, and gives what became of it."""
        if self.left:
            return self
        if not self.is_as_read():
            return self._replace(told=CHANGED, left=True)
        folder = os.path.dirname(self.path)
        by_user = folder.endswith(EXPECT)
        if self.files is not None:
            write_folder(self.path, self.files)
        elif self.text is not None:
            write_file(self.path, self.text)
        else:
            remove_file(self.path)
            if by_user:
                remove_empty(folder)
        return self

    def is_as_read(self) -> bool:
        """Whether the file is as it was read, or still isn't there."""
        if not os.path.lexists(self.path):
            return self.was is None
        return is_plain(self.path) and octets_of(self.path) == self.was

    def written(self) -> bool:
        """Whether there is a file afterwards that was written."""
        return not self.left and (self.text is not None or self.files is not None)


def record(site: Site, judged: Judged, look: Look, force: bool, prune: bool) -> Tuple[List[str], bool]:
    """Writes what is to be expected, and gives what is printed and whether all of it is written."""
    faults = [f"{look.name(it.path)}:{it.line}: {it.word}: {it.sentence}" for it in broken_in(site, judged)]
    if faults:
        return faults, False
    told = [f"{look.name(it.path)}:{it.line}: not judged: {it.why}" for it in lacking_in(site, judged)]
    cases: Dict[bytes, List[Case]] = {}
    for case in judged.cases:
        cases.setdefault(case.mail.path, []).append(case)
    stale, users = stale_in(site), len(user_names(site.wanted._replace(users=[])))
    gone = {(it.path, it.key) for it in stale if it.line and prune}
    changes = [it.done() for found in cases.values() for it in changes_of(found, gone, force, users)]
    if prune:
        changes += [it.done() for stand in stale if not stand.line for it in lost_files(stand.path, force)]
    else:
        told += left_out([(it.path, it.why(look)) for it in stale], look, False, "stale")
    told += [f"{look.name(it.path)}: {it.told}" for it in changes]
    told.append(counts(len(cases), changes, [] if prune else stale, judged))
    return told, not any(it.left for it in changes)


def counts(mails: int, changes: List[Change], stale: List[Stale], judged: Judged) -> str:
    """The last line."""
    left, written = sum(it.left for it in changes), sum(it.written() for it in changes)
    further = {
        "taken out": len(changes) - left - written,
        "verdicts not judged": sum(bool(case.unjudged) and not case.skipped for case in judged.cases),
        "mails without an envelope": len(judged.bare),
        "stale: --prune takes them out": len(stale),
    }
    told = [f"{mails} mails, {written} written, {left} left"]
    return ", ".join([*told, *(f"{count} {what}" for what, count in further.items() if count)])


def changes_of(cases: List[Case], gone: Set[Tuple[bytes, Key]], force: bool, users: int) -> Iterable[Change]:
    """What becomes of a mail's files. What is expected under other lines stays, and where nothing is judged, but for what is to go."""
    mail = cases[0].mail
    expected, by_user = mail.expected, has_files_of_users(mail, users)
    before = texts_of(expected)
    after = {path: {key: it for key, it in texts.items() if (path, key) not in gone} for path, texts in before.items()}
    headings = {key: key for key in expected.blocks}
    failing = set()
    for case in cases:
        path = os.path.join(mail.expect_path(), case.user.name) if by_user else mail.expect_path()
        lines, old = case.lines(), expected.heading(case.main)
        if old:
            headings[old] = case.main.key
            after[expected.blocks[old].path].pop(old, None)
            lines = expected.blocks[old].lines if case.unjudged else lines
        if old or not case.unjudged:
            after.setdefault(path, {})[case.main.key] = lines
        if not case.unjudged and any(line.startswith(b"error ") for line in lines):
            failing.add(path)
    if by_user and not expected.folder:
        yield parted(mail, before, after, force, bool(failing))
        return
    for path, texts in after.items():
        # By hand the heading of before may stay.
        same = {headings[key]: lines for key, lines in before.get(path, {}).items()} == texts
        change = change_of(path, expected.files.get(path), before.get(path, {}), texts, force)
        if change and not (change.left and same):
            error = ", with an error" if path in failing and not change.left else ""
            yield change._replace(told=change.told + error)


def has_files_of_users(mail: Mail, users: int) -> bool:
    """Whether each user of a mail has a file of what is expected, or is to get one."""
    readers = 1 if b"/" in mail.name else users if mail.users is None else len(mail.users)
    named = all(NAME.fullmatch(user_of(key)) for key in mail.expected.blocks)
    return mail.expected.folder or (readers > FEW_USERS and named)


def user_of(key: Key) -> bytes:
    """The user of a heading."""
    return key[0].partition(b"/")[0]


def texts_of(expected: Expected) -> Dict[bytes, Texts]:
    """What is expected by each file."""
    found: Dict[bytes, Texts] = {path: {} for path in expected.files}
    for key, block in expected.blocks.items():
        found[block.path][key] = block.lines
    return found


def parted(mail: Mail, before: Dict[bytes, Texts], after: Dict[bytes, Texts], force: bool, failing: bool) -> Change:
    """The change of a file, or of nothing, into a folder of files, one for each user."""
    path = mail.expect_path()
    was = mail.expected.files.get(path)
    if was is not None and text_of(before[path]) != was and not force:
        return Change(path, was, None, NOT_OURS, True)
    texts = {os.path.basename(place): dict(found) for place, found in after.items() if place != path}
    for key, lines in after.get(path, {}).items():
        texts.setdefault(user_of(key), {})[key] = lines
    files = {user: text_of(found) for user, found in texts.items()}
    told = f"{'new' if was is None else 'changed'}, a folder of {len(files)} files"
    return Change(path, was, None, told + (", with an error" if failing else ""), False, files)


def change_of(path: bytes, was: Optional[bytes], before: Texts, after: Texts, force: bool) -> Optional[Change]:
    """What becomes of a file, if anything."""
    ours = was is None or text_of(before) == was
    if before == after and (ours or not force):
        return None
    if not ours and not force:
        return Change(path, was, None, NOT_OURS, True)
    if before and not after:
        return Change(path, was, None, "taken out")
    pruned = len(before) - len(after)
    told = "new" if was is None else f"changed, without {pruned} stale" if pruned > 0 else "changed"
    return Change(path, was, text_of(after), told)


def lost_files(place: bytes, force: bool) -> Iterable[Change]:
    """What becomes of a file of a mail that isn't there, or of a folder of them."""
    if not place.endswith(EXPECT):
        yield Change(place, octets_of(place), None, LOST)
        return
    expected = expected_at(place, True)
    for path, texts in texts_of(expected).items():
        ours = force or text_of(texts) == expected.files[path]
        yield Change(path, expected.files[path], None, LOST if ours else NOT_OURS, not ours)
