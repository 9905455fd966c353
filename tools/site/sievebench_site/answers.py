"""Mails of which an answer is expected, and that no server answers."""

from __future__ import annotations

import os
from typing import Iterator, List

from .cautions import no_answer, why_no_answer
from .envelopes import envelope_if_any, envelope_of
from .files import names_in, octets_of
from .findings import Finding
from .folder import Site
from .mails import mail_names
from .words import lines_of, words_of

ANSWER = b"vacation"


def expected_answers(site: Site) -> Iterator[Finding]:
    """Where an answer is expected that no server sends."""
    if not any(ANSWER in script.text for user in site.users for script in user.scripts):
        return
    default = envelope_if_any(os.path.join(site.wanted.folder, b"envelope"))
    homes = dict.fromkeys([site.wanted.folder, *(user.home for user in site.users)])
    for folder in (os.path.join(home, b"mails") for home in homes):
        for name in mail_names(folder) if os.path.isdir(folder) else []:
            path = os.path.join(folder, name)
            found = [(file, line) for file in expect_files(path + b".expect") for line in lines_that_answer(file)]
            if not found:
                continue
            octets = octets_of(path)
            envelope = envelope_if_any(path + b".envelope").over(envelope_of(octets)).over(default)
            why = why_no_answer(envelope, octets)
            yield from (no_answer(file, line, why) for file, line in found if why)


def expect_files(path: bytes) -> List[bytes]:
    """The files of what is expected of a mail: one, those of a folder, or none."""
    if os.path.isdir(path):
        return [it for it in (os.path.join(path, name) for name in names_in(path)) if os.path.isfile(it)]
    return [path] if os.path.isfile(path) else []


def lines_that_answer(path: bytes) -> List[int]:
    """The lines of such a file by which a mail is answered."""
    words = [words_of(line) for line in lines_of(octets_of(path))]
    return [number for number, found in enumerate(words, 1) if found and found[0] == ANSWER]
