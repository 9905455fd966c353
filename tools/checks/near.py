"""Names that are nearly known: of each list of names that the language, a mail, a session or the command line has, those with a letter more, less
or other, and some at random. None of them may be known, and what happens then is written from the rules. That the names themselves are known is
shown by the rows of `examples/rows`.
"""
import random
import string

from . import dates, grammar
from .amounts import KEPT
from .runs import SETTINGS, Run, lines, profile_lines, put, reported, session

# So many scripts or mails a session: a bench holds 4,096 scripts.
MANY, SOME, SEED = 1000, 60, 20

TAGS = "all comparator contains content copy count create days detail domain flags from global handle header is last length localpart lower lowerfirst"
TAGS += " matches mime once optional originalzone over personal quotewildcard raw seconds specialuse subject text under uniqueid upper upperfirst user value zone addresses"
CAPABILITIES = "body comparator-i;ascii-casemap comparator-i;ascii-numeric comparator-i;octet copy date duplicate encoded-character envelope ereject fileinto imap4flags"
CAPABILITIES += " include mailbox reject relational special-use subaddress vacation variables"
OTHERS = "require if elsif else allof anyof not"
PROFILE = "body comparator-i;ascii-numeric date duplicate encoded-character ereject mailbox reject relational special-use subaddress vacation"
# Of each list: its names, the letters that a name of its kind may have, a script with one of them, and its fault.
LETTERS, TOKEN = string.ascii_lowercase + "_", string.ascii_lowercase + string.digits + "-"
ANY = TOKEN + ";_ "
IN_SCRIPTS = [
    ("capabilities", CAPABILITIES.split(), ANY, 'require "%s";', "unknown-capability"),
    ("commands", [*grammar.COMMAND_ROWS, *OTHERS.split()], LETTERS, "%s;", "unknown-command"),
    ("tests", [*grammar.TEST_ROWS, *OTHERS.split()], LETTERS, "if %s {}", "unknown-command"),
    ("tags of keep", TAGS.split(), LETTERS, "keep :%s;", "bad-tag"),
    ("tags of header", TAGS.split(), LETTERS, 'if header :%s "a" "b" {}', "bad-tag"),
    ("tags of address", TAGS.split(), LETTERS, 'if address :%s "to" "b" {}', "bad-tag"),
    ("modifiers", TAGS.split(), LETTERS, 'require "variables"; set :%s "a" "b";', "bad-tag"),
    ("tags of vacation", TAGS.split(), LETTERS, 'require "vacation"; vacation :%s "a";', "bad-tag"),
    ("tags of body", TAGS.split(), LETTERS, 'require "body"; if body :%s "a" {}', "bad-tag"),
    ("tags of include", TAGS.split(), LETTERS, 'require "include"; include :%s "a";', "bad-tag"),
    ("comparators", list(grammar.COMPARATORS), ANY, 'if header :comparator "%s" "a" "b" {}', "unknown-comparator"),
    ("relations", grammar.RELATIONS, ANY, 'require "relational"; if header :value "%s" "a" "b" {}', "bad-relation"),
    ("parts of a date", dates.PARTS, ANY, 'require "date"; if date "date" "%s" "b" {}', "bad-date-part"),
    ("parts of the envelope", ["from", "to"], ANY, 'require "envelope"; if envelope "%s" "b" {}', "bad-envelope-part"),
    ("fields of addresses", grammar.ADDRESS_FIELDS, ANY, 'if address "%s" "b" {}', "not-address-header"),
    ("units of a number", ["K", "M", "G"], string.ascii_uppercase, "if size :over 1%s {}", "bad-arguments"),
]
# Of each list: its names, their letters, a mail with one, and a script that discards it where the name is known.
TEXT = "MIME-Version: 1.0\n"
IN_MAILS = [
    ("encodings", "7bit 8bit binary base64 quoted-printable".split(), TOKEN, TEXT + "Content-Transfer-Encoding: %s\n\ntext\n", 'require "body"; if body :content "text" :contains "" { discard; }'),
    ("types that hold a message", ["rfc822", "global"], TOKEN, TEXT + "Content-Type: message/%s\n\nA: b\n\ntext\n", 'require "body"; if body :content "text" :contains "text" { discard; }'),
    ("types that have parts", ["multipart"], string.ascii_lowercase, TEXT + "Content-Type: %s/mixed; boundary=b\n\n--b\n\ntext\n--b--\n", 'require "body"; if body :content "text" :contains "text" { discard; }'),
    ("types of texts", ["text"], string.ascii_lowercase, TEXT + "Content-Type: %s/plain\n\ntext\n", 'require "body"; if body :content "text" :contains "text" { discard; }'),
    ("zones", "EST EDT CST CDT MST MDT PST PDT".split(), string.ascii_uppercase, "Date: Sun, 5 Jul 2026 12:00:00 %s\n\n", 'require "date"; if not date :originalzone "date" "zone" ["+0000", "-0000"] { discard; }'),
    ("months", "Jan Feb Mar Apr May Jun Jul Aug Sep Oct Nov Dec".split(), string.ascii_lowercase, "Date: 5 %s 2026 12:00:00 +0000\n\n", 'require "date"; if date :matches "date" "year" "*" { discard; }'),
    ("days", "Mon Tue Wed Thu Fri Sat Sun".split(), string.ascii_lowercase, "Date: %s, 5 Jul 2026 12:00:00 +0000\n\n", 'require "date"; if date :matches "date" "year" "*" { discard; }'),
]
LINES = "clock drop-message drop-script dump envelope expect mailbox mailboxes main message message-envelope no-clock no-expect no-main no-message-envelope rename report script"
ASKED = "body charsets comparator-i;ascii-numeric date duplicate encoded-character envelopes ereject lines mailbox reject relational special-use subaddress unused vacation all pigeonhole"


def near(names, letters, dice):
    """Names with a letter more, less or other, in two cases, and some at random. Where names differ in case alone, they are the same."""
    found = set()
    for name in names:
        for at in range(len(name) + 1):
            some = dice.sample(letters, min(3, len(letters)))
            found |= {name[:at] + name[at + 1 :], *(name[:at] + it + name[at:] for it in some), *(name[:at] + it + name[at + 1 :] for it in some)}
    longest = max(map(len, names))
    found |= {"".join(dice.choice(letters) for _ in range(dice.randint(1, longest))) for _ in range(SOME)}
    known = {it.lower() for it in names}
    return sorted(it for it in found if it.strip() == it != "" and it.lower() not in known)


def of_scripts(room, dice):
    """Scripts with such a name, so many a session: each has its fault."""
    for title, names, letters, form, fault in IN_SCRIPTS:
        found = near(names, letters, dice)
        for at in range(0, len(found), MANY):
            some = found[at : at + MANY]
            octets = b"".join(put(b"script personal n%04d" % number, (form % it).encode()) for number, it in enumerate(some))
            told = [f'script personal "n{number:04}" line 1 {fault}' for number in range(len(some))]
            replies = lines(*["ok"] * len(some), "main none", SETTINGS, *profile_lines(PROFILE), *told, "total 0 messages 0 errors")
            yield session(room, f"names that are nearly known: {title}, from {at}", octets + b"report\n", replies, names=PROFILE)


def of_mails(room, dice):
    """Mails with such a name: each is kept."""
    for title, names, letters, form, script in IN_MAILS:
        mails = [(form % it).encode() for it in near(names, letters, dice)]
        yield reported(room, f"names that are nearly known: {title}", script.encode(), mails, [KEPT] * len(mails), names="body date")


def of_words(room, dice):
    """Lines of a session, and names that are asked for on the command line: each is refused."""
    for number, (title, names, command, told) in enumerate([
        ("lines of a session", LINES, 'echo "$name" | sievebench session', "no syntax"),
        ("names that are asked for", ASKED, 'sievebench dump --with="$name" main.sieve 2>&1 | sed -n 1p', "error: invalid value '%s' for '--with <NAME>'"),
    ]):
        found, folder = near(names.split(), TOKEN, dice), room / f"words{number}"
        folder.mkdir()
        (folder / "names").write_text("".join(f"{it}\n" for it in found))
        (folder / "main.sieve").write_text("keep;")
        replies = lines(*(told % it if "%" in told else told for it in found), "done")
        yield Run(f"names that are nearly known: {title}", folder, f"while read -r name; do {command}; done < names; echo done", replies)


def of_names(room):
    """All of them."""
    dice = random.Random(SEED)
    for part in (of_scripts, of_mails, of_words):
        yield from part(room, dice)
