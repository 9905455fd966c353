"""The words and lines of a session, and the limits of what a session takes."""

from __future__ import annotations

import re
from typing import List, Optional

TEXT_LIMIT, MESSAGE_LIMIT, ADDRESS_LIMIT, MAILBOX_LIMIT = 1_048_576, 16_777_216, 1_024, 255
SCRIPT_LIMIT, MAIL_LIMIT = 4_096, 65_536
# What stands between quotes for an octet, where that isn't the octet itself.
QUOTED = {
    **{octet: f"\\x{octet:02x}" for octet in [*range(32), *range(127, 256)]},
    ord('"'): '\\"',
    ord("\\"): "\\\\",
}
BARE = re.compile(rb"[!#-\[\]-~]+")
# A word by hand: as in a session, and with the octets of UTF-8 as they are. A quote that isn't closed is none.
BY_HAND = re.compile(rb'"(?:[^"\\]|\\["\\]|\\x[0-9A-Fa-f]{2})*"|[^\x00-\x20"\\\x7f]+')
ESCAPE = re.compile(rb"\\(?:x(..)|(.))", re.S)


def quoted(octets: bytes) -> str:
    """Octets as a word of a session, in which none of them can do harm."""
    return '"' + octets.decode("latin-1").translate(QUOTED) + '"'


def word_of(octets: bytes) -> str:
    """Octets as a word of a session, without quotes where none are needed, also between brackets."""
    bare = BARE.fullmatch(octets) and not octets.startswith(b"#") and not re.search(rb"[\[\]]", octets)
    return octets.decode() if bare else quoted(octets)


def unquoted(word: bytes) -> bytes:
    """The octets that a word stands for."""
    if not word.startswith(b'"'):
        return word
    if b"\\" not in word:
        return word[1:-1]
    return ESCAPE.sub(lambda it: bytes([int(it[1], 16)]) if it[1] else it[2], word[1:-1])


def words_of(text: bytes) -> Optional[List[bytes]]:
    """The words of a line that was written by hand, as they are spelled and without a comment; none where it isn't words."""
    words: List[bytes] = []
    at = 0
    while True:
        blanks = len(text) - at - len(text[at:].lstrip(b" \t\r"))
        at += blanks
        if at == len(text) or text.startswith(b"#", at):
            return words
        found = BY_HAND.match(text, at)
        if found is None or (words and not blanks):
            return None
        words.append(found[0])
        at = found.end()


def words_in(text: bytes) -> Optional[List[bytes]]:
    """The words of all lines of a text, without comments; none where one isn't words."""
    lines = [words_of(line) for line in lines_of(text)]
    return None if None in lines else [word for words in lines for word in words or []]


def line(command: str, words: List[bytes], octets: Optional[bytes] = None) -> bytes:
    """A line of a session, with the octets that it counts."""
    told = [command, *(quoted(word) for word in words), *([] if octets is None else [str(len(octets))])]
    return f"{' '.join(told)}\n".encode() + (octets or b"")


def lines_of(text: bytes) -> List[bytes]:
    """The lines of a text: each ends before an LF and a CR directly before that."""
    lines = text.split(b"\n")
    lines, last = lines[:-1], lines[-1]
    return [line[:-1] if line.endswith(b"\r") else line for line in lines] + ([last] if last else [])
