"""What Python's `email` finds in mails, at random and as mailers write them. A session has many mails, each with a
script of its own, and a report of each. A script asks by `:is` for each value that Python found, by `:count` how many
there are of each type, and for some values that it didn't find. Each test has a number, and the flags of the store
are the mail's number with those of the tests that held.

A mail at random has multiparts and messages in one another, with odd boundaries, prologues, epilogues, and maybe no
closing line; parts without a header, without an empty line, and without octets; contents of each encoding, some of
them broken; and texts of each charset, some of which aren't right in theirs. Lines end by CR LF or by LF, or now by
one and now by the other.

Python doesn't give all as it is wanted. These rules make the one of the other:

- A content in an encoding that isn't known is `application/octet-stream`.
- A multipart has an epilogue where a closing line came, also where Python says none since it has no octets.
- A message in a message gives its header section, which is put together from its fields.
- Each `message/..` but `message/rfc822` and `message/global` is a content, which is put together from what Python
  takes as messages.
- A text is put into UTF-8 where its charset is known here by that name, and all of it is right.
- What lies more than 32 deep isn't there.

What follows is in no mail here, since Python takes it otherwise, or one Python other than the next: a type that isn't
one, or has comments, or blanks beside its slash; a boundary or a charset in pieces, or with a language (RFC 2231); a
line of a header that is no field, or has blanks before its colon; no line at all between two delimiters; a multipart
without a delimiter in another one; a closing line before any delimiter; a line end at the very end where no closing
line came; a header without an empty line in a message in a message; a boundary that ends by a blank, or doesn't have
1 to 70 octets; a CR that no LF follows; an encoding with a comment or blanks after it, one of uuencode, and one that
isn't known of a multipart or a message; base64 with letters after its padding, with padding elsewhere, or with a
single digit too many; and in quoted-printable blanks at the end of a line, `==`, and an `=` at the very end.
"""
import base64
import email
import email.errors
import random
import re

from .charsets import CHARSETS
from .mailers import written
from .runs import SETTINGS, lines, put, session

SESSIONS, MAILS, DEPTH = 6, 500, 32
PROFILE = "body charsets encoded-character relational"
REQUIRE = 'require ["body", "encoded-character", "imap4flags", "relational"];\n'
ENCODINGS = ["7bit", "8bit", "binary", "base64", "quoted-printable"]
HOLDING = ["message/rfc822", "message/global"]
# What Python calls the charsets that are known, by their names here.
CODECS = {"utf-8": "utf-8", "us-ascii": "ascii", "iso-8859-1": "latin-1", **CHARSETS}


# WHAT PYTHON FINDS


def octets_of(text):
    """The octets of a text of Python's, which has none where there is no text."""
    return (text or "").encode("ascii", "surrogateescape")


def header_of(message, end):
    """The header section of a message whose lines end so."""
    return b"".join(octets_of(f"{name}: {value}") + end for name, value in message.items())


def text_of(message, end):
    """All of a message."""
    body = message.get_payload(decode=True)
    return header_of(message, end) + (end + body if body else b"")


def around(part):
    """What stands before the parts of a multipart, and after them where a closing line came."""
    if not part.is_multipart():
        # It has no boundary, or no delimiter.
        return [part.get_payload(decode=True)]
    is_open = any(isinstance(defect, email.errors.CloseBoundaryNotFoundDefect) for defect in part.defects)
    return [octets_of(part.preamble)] + [octets_of(part.epilogue)] * (not is_open)


def kind_of(part):
    """The type of a part."""
    is_known = part.get("Content-Transfer-Encoding", "7bit").lower() in ENCODINGS
    is_leaf = part.get_content_maintype() not in ("multipart", "message")
    return "application/octet-stream" if is_leaf and not is_known else part.get_content_type()


def content_of(part):
    """The content of a part that is neither a multipart nor a message."""
    octets = part.get_payload(decode=True)
    codec = CODECS.get(part.get_content_charset()) if kind_of(part).startswith("text/") else None
    try:
        return octets.decode(codec).encode() if codec else octets
    except UnicodeDecodeError:
        return octets


def values_of(part, end):
    """The values of a part."""
    if part.get_content_maintype() == "multipart":
        return around(part)
    if part.get_content_type() in HOLDING:
        return [header_of(part.get_payload(0), end)]
    if part.get_content_maintype() == "message":
        return [end.join(text_of(message, end) for message in part.get_payload())]
    return [content_of(part)]


def inner_of(part):
    """What lies directly in a part."""
    is_divided = part.get_content_maintype() == "multipart" and part.is_multipart()
    return part.get_payload() if is_divided or part.get_content_type() in HOLDING else []


def found_in(part, end, depth=1):
    """Each value of a part and of what lies in it, with its type."""
    if depth <= DEPTH:
        yield from ((kind_of(part), value) for value in values_of(part, end))
        for inner in inner_of(part):
            yield from found_in(inner, end, depth + 1)


def found(mail):
    """Each value that Python finds in a mail, with its type."""
    end = b"\r\n" if mail.partition(b"\n")[0].endswith(b"\r") else b"\n"
    return list(found_in(email.message_from_bytes(mail), end))


# WHAT A SCRIPT ASKS


def key(octets):
    """A string of octets, of which all but letters, digits and spaces are escaped."""
    return re.sub(rb"[^0-9A-Za-z ]+", lambda found: b"${hex:%s}" % found[0].hex(" ").encode(), octets).decode()


def main_of(kind):
    """A type without its subtype."""
    return kind.partition("/")[0]


def transform(dice, kind):
    """A transform that takes the values of a type, and maybe those of others."""
    entries = [f'"{kind}"', f'"{kind.upper()}"', f'["a/b/c", "{kind}"]', f'"{main_of(kind)}"', '""']
    texts = ["", ":text"] if main_of(kind) == "text" else []
    return dice.choice([f":content {entry}" for entry in entries] + texts)


def is_named(kind, entry):
    """Whether an entry names a type."""
    return entry in ("", kind, main_of(kind))


def tests_of(dice, values):
    """Tests of a body with these values, and whether each holds."""
    kinds = list(dict.fromkeys(kind for kind, value in values))
    for kind, value in dict.fromkeys(values):
        yield f'{transform(dice, kind)} :comparator "i;octet" :is "{key(value)}"', True
        other = dice.choice(kinds), dice.choice([value, value + b".", value[1:], value[:-1]])
        yield f':content "{other[0]}" :comparator "i;octet" :is "{key(other[1])}"', other in values
    for entry in dict.fromkeys(["", "none", "text", *kinds, *map(main_of, kinds)]):
        count = sum(is_named(kind, entry) for kind, value in values)
        yield f':content "{entry}" :count "eq" "{count}"', True


def of_mails(room, title, dice, mails):
    """A session of mails, each put with its script and reported."""
    assert mails, f"there are no {title}"
    octets, told = [put(b"script personal main", b""), b"main personal main\n"], ["ok"] * 2
    settings = ['main personal "main"', SETTINGS, f"with {PROFILE}", 'script personal "main" ok']
    for number, mail in enumerate(mails):
        tests = [(f"{number}.{place}", *it) for place, it in enumerate(tests_of(dice, found(mail)))]
        commands = "".join(f'if body {test} {{ addflag "{flag}"; }}\n' for flag, test, holds in tests)
        script = f"{REQUIRE}{commands}keep;\n"
        octets += [put(b"script personal main", script.encode()), put(b"message m", mail), b"report\n"]
        flags = "".join(f' "{flag}"' for flag, test, holds in tests if holds)
        told += ["ok", "ok", *settings, 'message "m"', f'  store "INBOX"{flags}', '  read personal "main"']
        told += ["total 1 messages 0 errors"]
    return session(room, f"{len(mails)} {title}", b"".join(octets), lines(*told), names=PROFILE)


# MAILS AT RANDOM

WORDS = b"a mail part -- - . .. , $ * ? { } [ ] <b> & = =41 begin 644 ${a} ${hex:41} http://a.example/?b=c".split()
WORDS += [b'"q"', b'\\"', b"\\"]
# Letters, of which each charset has some.
LETTERS = "ä€Łя“"
KINDS = [b"text/plain", b"text/html", b"Text/X-Odd", b"application/pdf", b"image/PNG", b"application/octet-stream"]
CHARSET_NAMES = [*CODECS, *(name.upper() for name in CODECS), "latin1", "iso-8859-9", "koi8-u", None, None]
ENCODING_NAMES = [*ENCODINGS, "base64", "quoted-printable", "x-gzip", "", None, None]
SUBTYPES = [b"mixed", b"alternative", b"Related", b"report", b"x-odd", b"digest", b"DIGEST"]
BOUNDARIES = [b"b%d", b"=_alternative %d_=", b"----=_Part_%04d_01DC", b"'()+_,-./:=?%d", b'a"b\\%d', b"--%d", b"%070d"]
# Lines that are nearly delimiters.
NEAR = [b" --%s", b"--%sx", b"--%s-", b"--%s .", b"-%s--"]
# `%s` is a line end.
FIELDS = [b"Subject: a", b"X-Folded: a%s\tb", b'Content-Disposition: inline; filename="a;b"', b"MIME-Version: 1.0 (a)"]
STATUS = [b"Reporting-MTA: dns; a.example", b"Date: 5 Jul 2026 12:00 +0200", b"Diagnostic-Code: smtp; 550%s (no user)"]


def quoted(value):
    """The value of a parameter in quotes."""
    return b'"%s"' % value.replace(b"\\", b"\\\\").replace(b'"', b'\\"')


def name_of(field):
    """The name of a field."""
    return field.partition(b":")[0].lower()


class Maker:
    """Makes a mail."""

    def __init__(self, dice):
        self.dice, self.end = dice, dice.choice([b"\r\n", b"\n"])
        self.ends = dice.choice([[self.end], [self.end], [b"\r\n", b"\n"]])
        # The boundaries of the multiparts that are being made, and of those that are made.
        self.open, self.made = [], []

    def is_rare(self, chance=0.1):
        """Whether something rare is done."""
        return self.dice.random() < chance

    def line_end(self):
        """A line end, where no header is."""
        return self.dice.choice(self.ends)

    def line(self):
        """A line, which may be nearly a delimiter, or that of a multipart that is made."""
        near = [form % it for it in self.open + self.made for form in NEAR]
        if near and self.is_rare():
            return self.dice.choice(near + [b"--" + it for it in self.made])
        return b" ".join(self.dice.choices(WORDS, k=self.dice.randrange(7)))

    def text(self):
        """Some lines, of which the last has no end."""
        return b"".join(self.line() + self.line_end() for _ in range(self.dice.randrange(4))) + self.line()

    def octets(self, charset):
        """A text in a charset, in which some octets may be wrong."""
        letters = LETTERS.encode(CODECS.get((charset or "").lower(), "utf-8"), "ignore") if self.is_rare(0.7) else b""
        wrong = bytes(self.dice.choices(range(128, 256), k=3)) if self.is_rare(0.2) else b""
        return self.text().replace(b"&", letters) + letters + wrong + self.dice.choice([b"", *self.ends])

    def in_base64(self, octets):
        """Octets in base64, with lines of some width, maybe without padding, or with octets that are skipped."""
        text = base64.b64encode(octets)
        text = text.rstrip(b"=") if self.is_rare() else text
        width = self.dice.choice([76, 76, 60, 4, 7, 1_000])
        text = self.end.join(text[at : at + width] for at in range(0, len(text), width))
        place = self.dice.randrange(len(text.rstrip(b"=\r\n")) + 1)
        skipped = bytes(self.dice.choices(b"!_.\x00\xe4 \t", k=3)) if self.is_rare() else b""
        return text[:place] + skipped + text[place:] + self.dice.choice([b"", self.end])

    def in_quoted_printable(self, octets):
        """Octets in quoted-printable. Blanks at the end of a line are escaped, and `-`, so no delimiter is made."""
        text = b""
        for piece in re.findall(rb"\r?\n|[ \t](?=\r?\n|\Z)|[\s\S]", octets):
            is_plain = piece in (b"\n", b"\r\n") or 32 < piece[0] < 127 and piece not in b"=-"
            escape = self.dice.choice(["=%02X", "=%02x"])
            text += piece if is_plain and not self.is_rare(0.05) else "".join(escape % it for it in piece).encode()
            # A soft line end, or what is no escape.
            text += self.dice.choice([b"=" + self.line_end(), b"=x", b"=4g"]) if self.is_rare(0.04) else b""
        return text

    def encoded(self, octets):
        """A field with an encoding, or none, and octets that are written so."""
        name = self.dice.choice(ENCODING_NAMES)
        if name is None:
            return [], octets
        if name in ("base64", "quoted-printable"):
            octets += self.dice.choice([b"", b"", bytes(self.dice.choices(range(256), k=9))])
            octets = self.in_base64(octets) if name == "base64" else self.in_quoted_printable(octets)
        shown = self.dice.choice([name, name.upper(), name.title()])
        return [b"Content-Transfer-Encoding: %s" % shown.encode()], octets

    def parameter(self, name, value):
        """A parameter, in quotes or not."""
        is_token = re.fullmatch(rb"[!#$%&'*+.^_`{|}~0-9A-Za-z-]+", value) and not self.is_rare(0.5)
        return self.dice.choice([name, name.title()]) + b"=" + (value if is_token else quoted(value))

    def kind(self, kind, *parameters):
        """A field with a type and its parameters, of which some may come twice."""
        others = [self.parameter(b"name", b"a b; c=d.txt")] * self.is_rare()
        again = [self.parameter(it.partition(b"=")[0], b"us-ascii") for it in parameters if self.is_rare()]
        gaps = [b"; ", b";", b" ; ", b";" + self.end + b"\t", b"; " + self.end + b" "]
        value = kind + b"".join(self.dice.choice(gaps) + it for it in [*others, *parameters, *again])
        name = self.dice.choice([b"Content-Type: ", b"Content-type: ", b"CONTENT-TYPE: "])
        return name + value + b";" * self.is_rare()

    def head(self, *fields):
        """A header section of fields, with others between them, and maybe with such as come twice."""
        more = [it.replace(b"%s", self.end) for it in FIELDS if self.is_rare(0.2)]
        fields = self.dice.sample([*fields, *more], len(fields) + len(more))
        again = [b"Content-Type: image/gif", b"Content-Transfer-Encoding: 8bit"] * self.is_rare()
        again = [it for it in again if name_of(it) in map(name_of, fields)]
        return b"".join(it + self.end for it in [*fields, *again])

    def leaf(self, in_digest):
        """A content."""
        kind, charset = self.dice.choice(KINDS), self.dice.choice(CHARSET_NAMES)
        fields, content = self.encoded(self.octets(charset))
        parameters = [self.parameter(b"charset", charset.encode())] if charset else []
        parameters += [b"format=flowed"] * self.is_rare()
        if parameters or in_digest or kind != b"text/plain":
            fields.append(self.kind(kind, *parameters))
        return self.head(*fields) + self.end + content

    def status(self):
        """A content whose type is one of messages that tell of another."""
        fields = [it.replace(b"%s", self.end) + self.end for it in STATUS]
        blocks = [b"".join(self.dice.sample(fields, 2)) for _ in range(2)]
        kind, content = self.dice.choice([
            (b"message/delivery-status", self.end.join(blocks)),
            (b"message/disposition-notification", blocks[0]),
            (b"message/partial", blocks[0] + self.end + b"a"),
        ])
        return self.head(self.kind(kind)) + self.end + content

    def held(self, depth, is_enclosed, in_digest):
        """An entity that holds a message."""
        kind = self.kind(self.dice.choice([b"message/rfc822", b"message/global", b"Message/RFC822"]))
        fields = [b"Content-Transfer-Encoding: quoted-printable"] * self.is_rare()
        fields += [] if in_digest and self.is_rare(0.7) else [kind]
        return self.head(*fields) + self.end + self.entity(depth + 1, is_enclosed)

    def undivided(self):
        """A multipart without a boundary, or without its delimiters."""
        parameters = self.dice.choice([[], [self.parameter(b"boundary", b"b")]])
        return self.head(self.kind(b"multipart/mixed", *parameters)) + self.end + self.text()

    def part(self, depth, in_digest):
        """A part of a multipart: an entity, or a header without an empty line, or an empty line alone."""
        if self.is_rare(0.08):
            return self.dice.choice([b"", self.head(self.kind(b"image/png"))[: -len(self.end)]])
        return self.entity(depth + 1, True, in_digest)

    def parts(self, boundary, depth, is_enclosed, in_digest):
        """The content of a multipart, which ends by no line end where it has no closing line and ends the mail."""
        parts = [self.part(depth, in_digest) for _ in range(self.dice.randrange(1, 4))]
        is_closed = not self.is_rare(0.2)
        if not is_closed and not is_enclosed:
            parts.append(self.head(self.kind(b"text/plain")) + self.end + b"last")
        text = self.dice.choice([b"", self.text() + self.line_end()])
        for part in parts:
            blanks = self.dice.choice([b"", b"", b" ", b"\t "])
            text += b"--" + boundary + blanks + self.line_end() + part + self.line_end()
        if not is_closed:
            return re.sub(rb"\r?\n\Z", b"", text)
        epilogue = self.dice.choice([b"", self.line_end(), self.line_end() + self.text()])
        return text + b"--" + boundary + b"--" + self.dice.choice([b"", b"", b" \t"]) + epilogue

    def multipart(self, depth, is_enclosed):
        """A multipart."""
        subtype = self.dice.choice(SUBTYPES)
        boundary = self.dice.choice(BOUNDARIES) % len(self.open + self.made)
        fields = [b"Content-Transfer-Encoding: base64"] * self.is_rare(0.05)
        fields.append(self.kind(b"multipart/" + subtype, self.parameter(b"boundary", boundary)))
        self.open.append(boundary)
        content = self.parts(boundary, depth, is_enclosed, subtype.lower() == b"digest")
        self.made.append(self.open.pop())
        return self.head(*fields) + self.end + content

    def entity(self, depth=1, is_enclosed=False, in_digest=False):
        """An entity so deep, by whether a delimiter follows it, and whether it lies directly in a digest."""
        if self.is_rare(0.15 * depth):
            return self.leaf(in_digest)
        if in_digest or self.is_rare(0.15):
            return self.held(depth, is_enclosed, in_digest)
        if self.is_rare(0.08):
            return self.status()
        if not is_enclosed and self.is_rare(0.05):
            return self.undivided()
        return self.multipart(depth, is_enclosed)


# MAILS IN WHICH MUCH LIES IN ONE ANOTHER


def deep(count, holds):
    """A text in so many entities, of which each holds a message, or is a multipart, by its number."""
    mail = b"Subject: inmost\r\n\r\nthe text"
    for number in range(count):
        if holds(number):
            mail = b"Content-Type: message/rfc822\r\n\r\n" + mail
        else:
            parts = b"before\r\n--b%d\r\n%s\r\n--b%d--\r\nafter" % (number, mail, number)
            mail = b"Content-Type: multipart/mixed; boundary=b%d\r\n\r\n%s" % (number, parts)
    return mail


def all_deep():
    """Mails with a text in fewer entities than are looked into, in as many, and in more."""
    for count in range(DEPTH - 2, DEPTH + 3):
        for holds in (lambda number: False, lambda number: True, lambda number: number % 2 == 0):
            yield deep(count, holds)


def of_bodies(room):
    """All of them."""
    room = room / "bodies"
    room.mkdir()
    for seed in range(SESSIONS):
        dice = random.Random(seed)
        yield of_mails(room, f"random mails, seed {seed}", dice, [Maker(dice).entity() for _ in range(MAILS)])
    dice = random.Random(SESSIONS)
    yield of_mails(room, "mails as mailers write them", dice, list(written()))
    yield of_mails(room, "mails with much in one another", dice, list(all_deep()))
