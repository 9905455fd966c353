"""What `docs/FROM_SIEVE_TEST.md` says of scripts that come out otherwise: each is run by both programs, where sieve-test of Pigeonhole is installed, and
has the two answers that are written here.
"""
import os
import pathlib
import re
import shutil
import subprocess
import tempfile

from .runs import SECONDS, LeftOut, Reading
from .site_flags import configured

NAMES = ["body", "comparator-i;ascii-numeric", "date", "encoded-character", "mailbox", "relational", "special-use"]
REQUIRES = ["copy", "fileinto", "imap4flags", "include", "variables"]
FAULT = "fault"
MAIL = "From: a@b.example\nTo: {to}\nSubject: one\nX-Blank: \n next\n\ntext\n"
# A script of one action, whose answer is its mailbox or the fault; what becomes of the mail here, and there.
ROWS = [
    ('set "a" "x"; set "a" "${a}"; fileinto "M${a}";', "Mx", "M"),
    ('set "a" "x"; set "a" "${a}y"; fileinto "M${a}";', "Mxy", "Mxy"),
    ('if header :matches "x-blank" "*" { fileinto "M${1}"; }', "Mnext", "M next"),
    ("if false { foo; }", FAULT, "INBOX"),
    ('if allof (false, header :foo "a" "b") { stop; }', FAULT, "INBOX"),
    ('if header :value "GE" "subject" "a" { fileinto "M"; }', "M", FAULT),
    ('if header :count "Gt" "subject" "0" { fileinto "M"; }', "M", FAULT),
    ('if header :comparator "i;OCTET" "subject" "one" { fileinto "M"; }', FAULT, "M"),
    ('if header :value "${hex:67}e" "subject" "a" { fileinto "M"; }', "M", FAULT),
    ('set "${hex:61}" "x"; fileinto "M${a}";', "Mx", FAULT),
    ('setflag "${hex:61}" "x"; fileinto "M${a}";', "Mx", FAULT),
    ('global "${hex:61}"; set "a" "x"; fileinto "M${a}";', "Mx", FAULT),
    ('addflag "a"; if hasflag :is "x a" { fileinto "M"; }', "M", "M"),
    ('addflag "a"; if hasflag :contains "x a" { fileinto "M"; }', "M", "M"),
    ('addflag "a"; if hasflag :matches "x a" { fileinto "M"; }', "M", "INBOX"),
    ('addflag "b"; if hasflag :value "eq" "a b" { fileinto "M"; }', "M", "INBOX"),
    ('addflag "a"; if hasflag :count "eq" :comparator "i;ascii-numeric" "3 1" { fileinto "M"; }', "M", "INBOX"),
    ('fileinto :specialuse "\\\\Junk" "A"; fileinto :specialuse "\\\\Trash" "A";', "A \\Junk", "A \\Trash"),
    ('if mailboxexists "" { fileinto "M"; }', "INBOX", "M"),
    ('include :once :once "x";', FAULT, "INBOX"),
    ('include :optional :optional "x";', FAULT, "INBOX"),
    ('fileinto :copy :copy "M";', FAULT, FAULT),
    *((f'if string :value "gt" "{it}" "a" {{ fileinto "M"; }}', "M", "INBOX") for it in ("[", "\\\\", "]", "^", "_", "`")),
    *((f'if string :value "gt" "{it}" "a" {{ fileinto "M"; }}', there, there) for it, there in (("@", "INBOX"), ("{", "M"))),
]
# A field To, and what `address :all` has of it here and there; nothing where it has no value.
ADDRESSES = [
    ("undisclosed-recipients:;", "none", "undisclosed-recipients:;"),
    ("foo bar (x)", "foobar", "foo bar (x)"),
    ("Foo <foo>", "foo", "Foo <foo>"),
    ("Foo <a@b.example>", "a@b.example", "a@b.example"),
    ("", "none", ""),
    ("(comment)", "none", "none"),
]
VALUE = 'if address :all :matches "to" "*" { fileinto "M${1}"; } else { fileinto "Mnone"; }'
# A time with its zone as a field Date has it, and what is shown of it here and there.
DATES = [
    ("12:00:60 +0200", "12:00:60+02:00", "12:00:59+02:00"),
    ("12:00:00+0200", "12:00:00+02:00", "none"),
    ("12:00:00 +0000", "12:00:00+00:00", "12:00:00Z"),
    ("12:00:00 PST", "12:00:00-08:00", "12:00:00-08:00"),
    ("12:00:00 pst", "12:00:00-08:00", "12:00:00Z"),
    ("12:00:00 GMT+0200", "none", "12:00:00Z"),
    ("12:00:00 +02:00", "none", "12:00:00Z"),
    ("12:00:00 +0275", "none", "12:00:00+03:15"),
    ("12:00:00 +0200 late", "none", "12:00:00+02:00"),
]
SHOWN = 'if date :originalzone :matches "date" "iso8601" "*T*" { fileinto "M${2}"; } else { fileinto "Mnone"; }'
# A condition, a mail's last fields and its body, and whether it holds here and there.
TYPES = "Content-Type: text/plain\nContent-Type: text/html\n"
CUTS = "Content-Type: multipart/mixed; boundary=a\nContent-Type: multipart/mixed; boundary=b\n"
OF_BOTH = "\n--a\n\nof a\n--a--\n--b\n\nof b\n--b--\n"
MORE = "Content-Type: multipart/mixed; boundary=a\n\n--a\n\none\n--a more\n\ntwo\n--a--\n"
HELD = "Content-Type: {}\n\nSubject: held\n\ntext\n"
CONDITIONS = [
    ('body :content "text/plain" :contains "a"', f"{TYPES}\na\n", True, False),
    ('body :content "text/html" :contains "a"', f"{TYPES}\na\n", False, True),
    ('body :content "text/plain" :contains "of a"', CUTS + OF_BOTH, True, True),
    ('body :content "text/plain" :contains "of b"', CUTS + OF_BOTH, False, False),
    ('body :content "text/plain" :contains "--a more"', MORE, True, False),
    ('body :content "message/rfc822" :contains "held"', HELD.format("message/rfc822"), True, True),
    ('body :content "message/rfc822" :contains "held"', HELD.format("MESSAGE/RFC822"), True, False),
    ('body :content "application/x" :contains "\u00e9"', "Content-Type: application/x; charset=iso-8859-1\nContent-Transfer-Encoding: quoted-printable\n\n=E9\n", False, True),
    ('body :raw :is ""', "\n", True, False),
    ('body :text :is ""', "\n", True, True),
    ('date :zone "+25" :matches "date" "hour" "*"', "Date: Sun, 05 Jul 2026 12:00:00 +0200\n\n", False, True),
    ('body :raw :contains "one\ntwo"', "\none\ntwo\n", False, False),
]


def cases():
    """The scripts, each with its mail and its two answers."""
    for script, one, other in ROWS:
        yield script, MAIL.format(to="c@d.example"), one, other
    for to, one, other in ADDRESSES:
        yield VALUE, MAIL.format(to=to), f"M{one}", f"M{other}"
    for time, one, other in DATES:
        yield SHOWN, f"Date: Sun, 05 Jul 2026 {time}\n\n", f"M{one}", f"M{other}"
    for test, mail, one, other in CONDITIONS:
        yield f'if {test} {{ fileinto "M"; }}', f"From: a@b.example\n{mail}", *("M" if it else "INBOX" for it in (one, other))


def here(room, path):
    """What becomes of a mail here."""
    command = ["sievebench", "test", "--with", ",".join(NAMES), "--personal", "sieve", "main.sieve", "1.eml"]
    told = subprocess.run(command, cwd=room, env={**os.environ, "PATH": path}, capture_output=True, text=True, timeout=SECONDS).stdout
    if "invalid-script" in told:
        return FAULT
    box, use = re.search(r'^  (?:store|implicit) "((?:[^"\\]|\\.)*)".*?(?: special-use "(.*)")?$', told, re.M).groups()
    return f"{box} {use[1:]}" if use else box


def there(room):
    """What becomes of it there."""
    command = ["sieve-test", "-c", "conf", "-x", "+special-use", "main.sieve", "1.eml"]
    done = subprocess.run(command, cwd=room, capture_output=True, text=True, timeout=SECONDS)
    if done.returncode:
        return FAULT
    box, use = re.search(r"message in folder: (.*)\n(?: +\+ use mailbox with special-use flag `(.*)')?", done.stdout).groups()
    return f"{box} {use}" if use else box


class Compared(Reading):
    """Whether both programs answer as it is written."""

    title, command = "what docs/FROM_SIEVE_TEST.md says of both programs", "sieve-test"

    def found(self, path):
        """The answers that are others."""
        wrong = []
        with tempfile.TemporaryDirectory(dir="/tmp") as room:
            room = pathlib.Path(room)
            room.chmod(0o777)
            (room / "sieve").mkdir()
            (room / "sieve/x.sieve").write_text("keep;\n")
            (room / "conf").write_bytes(configured(room) + f"plugin {{\n  sieve = file:{room}/sieve\n}}\n".encode())
            names = ", ".join(f'"{name}"' for name in REQUIRES + NAMES)
            for script, mail, one, other in cases():
                (room / "main.sieve").write_text(f"require [{names}];\n{script}\n")
                (room / "1.eml").write_text(mail)
                answers = here(room, path), there(room)
                self.looked += 1
                wrong += [f"{script}: wanted {(one, other)}, got {answers}"] if answers != (one, other) else []
        return wrong


def of_differences(room):
    """The comparison, where there is something to compare with."""
    yield Compared() if shutil.which("sieve-test") else LeftOut(Compared.title, "since it isn't installed")
