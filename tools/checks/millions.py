"""A million of what is looked at octet by octet, in values, addresses, patterns and scripts. What must come out is written from the rules."""
from .amounts import KEPT
from .most import OF_SUBJECT, subject, turns

# What a value is made of, how often, and the characters of its text with encoded words decoded. Each would take hours if each place were read to
# the end.
WORDS = [
    (b"=?", 1_000_000, 2_000_000),
    (b"=?a", 4_000_000, 12_000_000),
    (b"=?utf-8?Q?a", 1_000_000, 11_000_000),
    (b"=?utf-8?Q?a?= ", 1_000_000, 1_000_000),
    (b"=?koi8-r?Q?a?= ", 1_000_000, 14_999_999),
]
# What goes of a value's octets has no address; the inside of an angle, a literal, and octets that stand for themselves are one.
ADDRESSES = [(b"(", 0), (b",", 0), (b'"', 0), (b"<", 1), (b"[", 1), (b"a", 1), (b"@", 1)]


def of_sessions(room):
    """All of them."""
    room = room / "millions"
    room.mkdir()
    for piece, count, size in WORDS:
        yield turns(room, f"{count} times {piece.decode()}", [(OF_SUBJECT, subject(piece * count), [f'store "{size}"'])])
    # Each stands for one character.
    tabled = (OF_SUBJECT, subject(b"=?koi8-r?Q?=A3?= " * 500_000), ['store "500000"'])
    yield turns(room, "500000 words of a table", [tabled], "charsets")
    test = b'require "relational"; if address :count "eq" "to" "%d" { discard; }'
    yield turns(room, "addresses of a million octets", [(test % count, b"To: " + octet * 1_000_000 + b"\n\n", ["discard"]) for octet, count in ADDRESSES], "relational")
    stars = b'if header :matches "subject" "%s" { discard; }'
    for pattern, verdict in (b"*a" * 1_000, ["discard"]), (b"*a" * 1_000 + b"*b", KEPT):
        yield turns(room, f"{pattern.count(b'*')} stars over 100000 octets", [(stars % pattern, subject(b"a" * 100_000), verdict)])
    # As many commands and tokens as a text has: all of them are read before the first is judged.
    for text, fault in (b"a;" * 524_288, "unknown-command"), (b"a;" * 524_287 + b"a", "syntax"):
        yield turns(room, f"{len(text)} octets of commands", [(text, b"", KEPT, f"line 1 {fault}")])
