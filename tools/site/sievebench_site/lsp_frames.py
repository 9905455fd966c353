"""Messages of the Language Server Protocol as octets: a header with a length, an empty line, and a body."""

from __future__ import annotations

import re
from typing import Iterator, NamedTuple, Optional, Union

# A body has at most so many octets: JSON spells an octet of a script by six at most. Of a longer one, up to a GiB, the octets are dropped.
BODY_LIMIT, DROP_LIMIT = 8 << 20, 1 << 30
# A header has at most so many octets. Of what isn't one so many are kept, for the beginning of the next.
HEADER_LIMIT, KEPT = 4_096, 1_024
END = b"\r\n\r\n"
LENGTH = re.compile(rb"content-length:[ \t]*([0-9]{1,20})[ \t]*(?:\r\n|\Z)", re.I)
CHARSET = re.compile(rb"content-type:[^\r\n]*charset=[ \t]*\"?([a-z0-9_.:-]+)", re.I)
UTF8 = (b"utf-8", b"utf8")


class Broken(NamedTuple):
    """Octets that are no message, and why."""

    why: str


class Frames:
    """The bodies of messages whose octets come in any pieces."""

    def __init__(self) -> None:
        self.octets = bytearray()
        # How many octets the body has that comes now, and how many are dropped before the next header.
        self.length: Optional[int] = None
        self.dropping = 0
        # Whether the beginning of a header is looked for.
        self.lost = False

    def feed(self, octets: bytes) -> Iterator[Union[bytes, Broken]]:
        """The bodies that end in these octets, and what is broken there."""
        self.octets += octets
        while True:
            dropped = min(self.dropping, len(self.octets))
            del self.octets[:dropped]
            self.dropping -= dropped
            if self.length is None:
                end = -1 if self.dropping else self.octets.find(END)
                if end < 0:
                    yield from self.shortened(len(self.octets))
                    return
                if end > HEADER_LIMIT:
                    yield from self.shortened(end)
                    continue
                header = bytes(self.octets[:end])
                del self.octets[: end + len(END)]
                yield from self.begun(header)
            elif len(self.octets) < self.length:
                return
            else:
                body = bytes(self.octets[: self.length])
                del self.octets[: self.length]
                self.length = None
                yield body

    def begun(self, header: bytes) -> Iterator[Broken]:
        """Begins a body, or says why there is none."""
        found = LENGTH.findall(header)
        charset = CHARSET.search(header)
        length = int(found[-1]) if found else DROP_LIMIT + 1
        if length > DROP_LIMIT:
            yield from self.lose("a header has no length of a message")
            return
        self.lost = False
        if length > BODY_LIMIT:
            self.dropping = length
            yield Broken(f"a message has at most {BODY_LIMIT:,} octets")
        elif charset and charset[1].lower() not in UTF8:
            self.dropping = length
            yield Broken("a message is in UTF-8")
        else:
            self.length = length

    def shortened(self, size: int) -> Iterator[Broken]:
        """Drops the front of what is too long to be a header."""
        if size > HEADER_LIMIT:
            del self.octets[: size - KEPT]
            yield from self.lose(f"a header has at most {HEADER_LIMIT:,} octets")

    def lose(self, why: str) -> Iterator[Broken]:
        """Looks for the next header from now on. That is said once."""
        if not self.lost:
            self.lost = True
            yield Broken(why)


def framed(body: bytes) -> bytes:
    """A body with its header."""
    return b"Content-Length: %d\r\n\r\n%s" % (len(body), body)
