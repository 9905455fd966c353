"""Texts that `one_call` is given, row by row: what tokens a script has, what a string is with its encoded characters replaced, and how octets are
written between quotes. What is expected was written by hand from RFC 5228, sections 2.4.2.4 and 8.1.
"""
import re
import subprocess

from .calls import each
from .runs import SECONDS, Reading, lines, wanted_and_got

# Each text with its tokens: their kind, where they begin and end, and their line.
TOKENS = {
    "white space and comments": [
        (b"", ""),
        (b" \t\r\n\r", ""),
        (b"a\n\"b", "Identifier 0-1@1 Bad 2-4@2"),
        (b"#c", ""),
        (b"#c\nx", "Identifier 3-4@2"),
        (b"#\rx", ""),
        (b"#\0\xff\r\nx", "Identifier 5-6@2"),
        (b"/* a /* b */ c */", "Identifier 13-14@1 Bad 15-17@1"),
        (b"/**/x", "Identifier 4-5@1"),
        (b"/***/x", "Identifier 5-6@1"),
        (b"/*/", "Bad 0-3@1"),
        (b"/*\n\0\xff\r*/x", "Identifier 8-9@2"),
        (b"x /* y", "Identifier 0-1@1 Bad 2-6@1"),
        (b"/x", "Bad 0-2@1"),
    ],
    "identifiers tags and numbers": [
        (b"_a9Z", "Identifier 0-4@1"),
        (b"a-b", "Identifier 0-1@1 Bad 1-3@1"),
        (b":a9 :_", "Tag 0-3@1 Tag 4-6@1"),
        (b":9", "Bad 0-2@1"),
        (b":", "Bad 0-1@1"),
        (b"\"s\":t", "Quoted 0-3@1 Tag 3-5@1"),
        (b"10", "Number 0-2@1"),
        (b"10K 1m 2G", "Number 0-3@1 Number 4-6@1 Number 7-9@1"),
        (b"10Kx", "Number 0-3@1 Identifier 3-4@1"),
        (b"1KK", "Number 0-2@1 Identifier 2-3@1"),
        (b"1T", "Number 0-1@1 Identifier 1-2@1"),
    ],
    "quoted strings": [
        (b"\"\"\"a\"", "Quoted 0-2@1 Quoted 2-5@1"),
        (b"\"a\\\"b\"", "Quoted 0-6@1"),
        (b"\"a\\\\\"b", "Quoted 0-5@1 Identifier 5-6@1"),
        (b"\"\\", "Bad 0-2@1"),
        (b"\"\\\"", "Bad 0-3@1"),
        (b"\"\0\r\xff\n#/*\" x", "Quoted 0-9@1 Identifier 10-11@2"),
    ],
    "multi line strings": [
        (b"text:\n.\n", "MultiLine 0-8@1"),
        (b"text:\r\n.\r\nx", "MultiLine 0-10@1 Identifier 10-11@3"),
        (b"TeXT: \t# c\n..\n.\n", "MultiLine 0-16@1"),
        (b"text: \t\r\n.\n", "MultiLine 0-11@1"),
        (b"text:\n\0\r\xff\n.a\n. \n.\r\r\n.\n", "MultiLine 0-22@1"),
        (b"text:\n.\n.\n", "MultiLine 0-8@1 Bad 8-10@3"),
    ],
    "what begins like a multi line string": [
        (b"text:", "Identifier 0-4@1 Bad 4-5@1"),
        (b"text:\n", "Identifier 0-4@1 Bad 4-6@1"),
        (b"text:\n.", "Identifier 0-4@1 Bad 4-7@1"),
        (b"text:\n.\r", "Identifier 0-4@1 Bad 4-8@1"),
        (b"text:#", "Identifier 0-4@1 Bad 4-6@1"),
        (b"text:\r.\n", "Identifier 0-4@1 Bad 4-8@1"),
        (b"text:\r\r\n.\n", "Identifier 0-4@1 Bad 4-10@1"),
        (b"text: x\n.\n", "Identifier 0-4@1 Bad 4-10@1"),
        (b"text :\n.\n", "Identifier 0-4@1 Bad 5-9@1"),
        (b"text:x\n.\n", "Identifier 0-4@1 Tag 4-6@1 Bad 7-9@2"),
        (b"texts:\n.\n", "Identifier 0-5@1 Bad 5-9@1"),
        (b"atext:\n.\n", "Identifier 0-5@1 Bad 5-9@1"),
    ],
    "punctuation and octets that begin nothing": [
        (b";,{}()[]", "Semicolon 0-1@1 Comma 1-2@1 OpenBrace 2-3@1 CloseBrace 3-4@1 OpenParenthesis 4-5@1 CloseParenthesis 5-6@1 OpenBracket 6-7@1 CloseBracket 7-8@1"),
        (b"a\x7f", "Identifier 0-1@1 Bad 1-2@1"),
        (b"a\0;", "Identifier 0-1@1 Bad 1-3@1"),
        (b"\n\xe9;", "Bad 1-3@2"),
        (b"a\x0b;", "Identifier 0-1@1 Bad 1-3@1"),
    ],
}
# Each text with its encoded characters replaced.
REPLACED = [
    # examples are replaced
    (b"$${hex:40}", b"$@"),
    (b"${hex: 40 }", b"@"),
    (b"${HEX: 40}", b"@"),
    (b"${hex:40", b"${hex:40"),
    (b"${hex:400}", b"${hex:400}"),
    (b"${hex:4${hex:30}}", b"${hex:40}"),
    (b"${unicode:40}", b"@"),
    (b"${ unicode:40}", b"${ unicode:40}"),
    (b"${UNICODE:40}", b"@"),
    (b"${UnICoDE:0000040}", b"@"),
    (b"${Unicode:40}", b"@"),
    (b"${Unicode:Cool}", b"${Unicode:Cool}"),
    # numbers stand for octets and characters
    (b"${HEX: 40 }", b"@"),
    (b"${hex:0 00 fF Ff}", b"\x00\x00\xff\xff"),
    (b"a${hex:24 24}{hex:40}b", b"a$${hex:40}b"),
    (b"${hex:24}${hex:7b}hex:40}", b"${hex:40}"),
    (b"${unicode:20AC}", b"\xe2\x82\xac"),
    (b"${unicode:7f 80 7ff 800 ffff 10000 10FFFF}", b"\x7f\xc2\x80\xdf\xbf\xe0\xa0\x80\xef\xbf\xbf\xf0\x90\x80\x80\xf4\x8f\xbf\xbf"),
    (b"${unicode:d7ff E000}", b"\xed\x9f\xbf\xee\x80\x80"),
    (b"${unicode:000000000000000000000000000000000040}", b"@"),
    # blanks stand between numbers
    (b"${hex:4 0}", b"\x04\x00"),
    (b"${hex:\t 40\r\n41 \r\n\t42\t}", b"@AB"),
    (b"${unicode:\r\n40\t 41\r\n}", b"@A"),
    # what is not so stays
    (b"${hex:${hex:40}}", b"${hex:@}"),
    (b"${unicode:4${unicode:30}}", b"${unicode:40}"),
    (b"${${hex:40}", b"${@"),
    (b"${hex:40}}", b"@}"),
]
# Texts without one.
UNCHANGED = [
    # blanks stand between numbers
    b"${hex:40\n41}", b"${hex:40\r41}", b"${hex:40\n\r41}", b"${hex:40,41}", b"${hex:}", b"${hex: }", b"${unicode:}",
    b"${unicode:\r\n}",
    # what is not so stays
    b"", b"$", b"${", b"${}", b"${hex", b"${hex:", b"${hex40}", b"${hex :40}", b"${ hex:40}", b"$ {hex:40}",
    b"$hex:40}", b"{hex:40}", b"${hexx:40}", b"${he:40}", b"${:40}", b"${unicod:40}", b"${unicodes:40}",
    b"${hexcode:40}", b"${hex:4g}", b"${hex:40 400}", b"${hex:0x40}", b"${unicode:U+40}", b"${unicode:D80G}",
]
# Texts of which one stands for no character.
REFUSED = [
    # examples are replaced
    b"${unicode:200000}", b"${Unicode:DF01}",
    # numbers stand for octets and characters
    b"${unicode:D800}", b"${unicode:dfff}", b"${unicode:110000}", b"a${unicode:40 D800}b",
    b"${unicode:D800}${hex:40}", b"${hex:40}${unicode:110000}", b"${unicode:100000000000000000000000000000000040}",
]
# Octets, and what is written of them.
QUOTED = [
    (b"", b"\"\""),
    (b"a", b"\"a\""),
    (b"a\"b\\", b"\"a\\\"b\\\\\""),
    (b"\x00", b"\"\\x00\""),
    (b"\n", b"\"\\x0a\""),
    (b"\x1f", b"\"\\x1f\""),
    (b" ", b"\" \""),
    (b"~", b"\"~\""),
    (b"\x7f", b"\"\\x7f\""),
    (b"ab\xffcd", b"\"ab\\xffcd\""),
]


class Given(Reading):
    """A call with words of the command line after its own, and what it must print for each: where so many lines belong together, those that
    stand in some places of them."""

    def __init__(self, title, caller, word, rows, size=1, places=(0,)):
        self.title, self.command, self.caller, self.word, self.rows = f"{word}: {title}", f"one_call {word}", caller, word, list(rows)
        self.size, self.places = size, places

    def found(self, path):
        """The first row that is answered otherwise."""
        for words, wanted in self.rows:
            self.looked += 1
            done = subprocess.run([self.caller, self.word, *words], stdin=subprocess.DEVNULL, capture_output=True, timeout=SECONDS)
            told = done.stdout.splitlines(keepends=True)
            got = b"".join(line for number, line in enumerate(told) if number % self.size in self.places)
            if (got, len(told) % self.size, done.returncode) != (wanted, 0, 0):
                return [f"{words!r:.300}: status {done.returncode}, {wanted_and_got(wanted, got)}"]
        return []


def texts(rows):
    """Rows of a text and what is printed of it: a text is given in hexadecimal digits."""
    return [([text.hex()], wanted) for text, wanted in rows]


def told(tokens):
    """The lines of tokens."""
    return lines(*(f"{kind} {re.sub('[-@]', ' ', place)}" for kind, place in re.findall(r"(\S+) (\S+)", tokens)))


def of_texts(caller):
    """All of them."""
    for title, rows in TOKENS.items():
        yield Given(title, caller, "tokens", texts((text, told(tokens)) for text, tokens in rows))
    yield Given("characters", caller, "replaced", texts((text, each(wanted)) for text, wanted in REPLACED))
    yield Given("texts that stay as they are written", caller, "replaced", texts((text, each(text)) for text in UNCHANGED))
    yield Given("characters that are none", caller, "replaced", texts((text, lines("no character")) for text in REFUSED))
    yield Given("octets", caller, "write_quoted", texts((octets, lines(text.decode())) for octets, text in QUOTED))
