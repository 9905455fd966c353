"""What the entities of mails give that a type names, row by row: how many texts there are, and each of them. What is expected was written by hand
from RFC 2045 and RFC 2046.
"""
from .matching import flagged, string
from .runs import some

# Mails, and types with the texts that they name.
PARTS = {
    b"Content-Type: multipart/mixed; boundary=b\n\npro\n--b\n\none\n--b \nContent-Type: text/html\n\n<i>\n--bc\n--b--\nepi": [
        (b"", [b"pro", b"epi", b"one", b"<i>\n--bc"]),
        (b"multipart", [b"pro", b"epi"]),
        (b"TEXT/html", [b"<i>\n--bc"]),
        (b"text/", []),
        (b"/", []),
        (b"text/html/x", []),
    ],
    b"Content-Type: multipart/mixed; boundary=b; boundary=c\r\n\r\n--b\r\n\r\none\r\n\r\n--b--\r\n": [(b"", [b"", b"", b"one\r\n"])],
    b"Content-Type: multipart/mixed; boundary=o\n\n--o\nContent-Type: multipart/alternative; boundary=i\n\n--i\n\nx\n--o\n\ny\n--o--\n": [
        (b"", [b"", b"", b"", b"x", b"y"]),
    ],
}
HELD = {
    b'Content-Type: multipart/digest; boundary="d"\n\n--d\n\nFrom: a\n\nx\n--d--': [
        (b"", [b"", b"", b"From: a\n", b"x"]),
        (b"message/rfc822", [b"From: a\n"]),
        (b"text/plain", [b"x"]),
    ],
}
DECODED = {
    b'Content-Type: (a(b)) Text / (c) HTML ; x="a;b\\"(" ;\nContent-Transfer-Encoding: BASE64 (c)\n\nSGVs\nbG8=IQ==\n': [
        (b"text/html", [b"Hello"]),
        (b"text/plain", []),
    ],
    b"Content-Transfer-Encoding: quoted-printable\n\na=3D=\nb \t\nc=3d=x\n": [(b"", [b"a=b\nc==x\n"])],
    b"Content-Type: text/html\nContent-Transfer-Encoding: x\n\nYQ==": [(b"application/octet-stream", [b"YQ=="]), (b"text", [])],
    b"Content-Type: text\n\nx": [(b"", [b"x"]), (b"text", [])],
    b"Subject: x\n": [(b"text/plain", [b""])],
}


def literal(octets):
    """A string of octets, where an LF without a CR is an encoded character."""
    return string(octets.replace(b"\r\n", b"\0").replace(b"\n", b"${hex:0a}").replace(b"\0", b"\r\n"))


def tests(rows):
    """The tests that hold of a mail: of each type its texts, and how many there are."""
    for entry, texts in rows:
        yield b'body :count "eq" :content %s "%d"' % (string(entry), len(texts)), True
        for text in texts:
            yield b'body :comparator "i;octet" :content %s %s' % (string(entry), literal(text)), True


def of_entities(room):
    """All of them."""
    room = room / "entities"
    room.mkdir()
    for title, mails in ("parts lie between delimiters", PARTS), ("messages are held", HELD), ("contents are decoded", DECODED):
        cases = (flagged(room, title, list(tests(rows)), "body encoded-character relational", mail=mail) for mail, rows in mails.items())
        yield from some(title, cases)
