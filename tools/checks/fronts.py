"""Sessions that are cut off after their octets. What must come of a cut follows from the grammar of lines, which is written here once more,
as patterns, and by the replies of the whole lines, which are written out."""
import re

from .amounts import TEXT_LIMIT
from .runs import lines, put, session, some

WORD = r'(?:[!#-\[\]-~]+|"(?:[ !#-\[\]-~]|\\["\\]|\\x[0-9A-Fa-f]{2})*")'
NAME = rf"(?:personal|global) +{WORD}"
PLAIN = rf"main +{NAME}|no-main|rename +{NAME} +{NAME}|drop-script +{NAME}|drop-message +{WORD}|no-expect +{WORD}|envelope +{WORD} +{WORD}|mailbox +{WORD}|report|dump +{NAME}"
COUNTED = rf"script +{NAME}|message +{WORD}|expect +{WORD}"
LINE = re.compile(rf" *(?:(?:{PLAIN})|(?:{COUNTED}) +([0-9]{{1,9}}))? *")
# The lines that there are with three names more; of these clocks none is past the year 5000.
CLOCK = r"clock +0*[0-9]{1,11} +[+-][0-9]{2}[0-5][0-9]|no-clock"
NAMES, ASKED = "date envelopes mailbox", rf"{PLAIN}|{CLOCK}|message-envelope +{WORD} +{WORD} +{WORD}|no-message-envelope +{WORD}"
ASKED_LINE = re.compile(rf" *(?:(?:{ASKED})|(?:{COUNTED}|mailboxes) +([0-9]{{1,9}}))? *")


def report(settings):
    """The report of the session that is cut."""
    told = [f"envelope {settings}", 'script personal "a b" ok', 'message "m1"', "  discard", '  read personal "a b"', "total 1 messages 0 errors"]
    return lines('main personal "a b"', *told)


# Each line with the octets that it counts, and its reply.
STEPS = [
    (b'script personal "a b" 9\n', b"discard;\n", b"ok\n"),
    (b'message "m\\x31" 14\n', b"Subject: one\n\n", b"ok\n"),
    (b'  main  personal "a b"\n', b"", b"ok\n"),
    (b"report\n", b"", report('"" "" mailbox "INBOX"')),
    (b" \n", b"", b""),
    (b'expect "m1" 8\n', b"discard\n", b"ok\n"),
    (b'no-expect "m1"\n', b"", b"ok\n"),
    (b'dump personal "a b"\r\n', b"", b"0: discard @1\nok\n"),
    (b'envelope "" ada@x.example\n', b"", b"ok\n"),
    (b'mailbox "In\\"box\\\\" \n', b"", b"ok\n"),
    (b"report \n", b"", report('"" "ada@x.example" mailbox "In\\"box\\\\"')),
]
# The same of lines that need a name.
TOLD = ['envelope "" "" mailbox "INBOX"', f"with {NAMES}", "clock 1783245600 +0259", "mailboxes 1", 'message "m"', '  envelope "a@b.example" "c d"', '  implicit "INBOX"', "total 1 messages 0 errors"]
ASKED_STEPS = [
    (b"message m 0\n", b"", b"ok\n"),
    (b'message-envelope  "m" a@b.example "c d"\n', b"", b"ok\n"),
    (b"mailboxes 5 \n", b"Work\n", b"ok\n"),
    (b"clock  01783245600 +0259\r\n", b"", b"ok\n"),
    (b"report\n", b"", lines("main none", *TOLD)),
    (b'no-message-envelope "\\x6d"\r\n', b"", b"ok\n"),
    (b"no-clock \n", b"", b"ok\n"),
]
EMPTY, TRUNCATED, SYNTAX = (b"", 0), (b"no truncated\n", 2), (b"no syntax\n", 2)


def end_of(line, reply, pattern):
    """What comes of the front of a line after which the input ends: its reply is that of the whole line where it is a line too."""
    read = pattern.fullmatch(line.decode())
    if not read:
        return SYNTAX
    if not line.strip(b" "):
        return EMPTY
    return TRUNCATED if read[1] and int(read[1]) else (reply, 0)


def of_lines(room):
    """A session with quoted words, a report in its middle and a dump, and one of lines that need names, cut off after each octet."""
    yield from cut_off(room, STEPS, LINE, "")
    yield from cut_off(room, ASKED_STEPS, ASKED_LINE, NAMES)


def cut_off(room, steps, pattern, names):
    """A session of these lines, under a profile, cut off after each of its octets."""
    octets, replies = b"", b""
    for line, counted, reply in steps:
        for size in range(len(line)):
            told, status = end_of(line[:size], reply, pattern)
            yield session(room, f"cut off after {octets + line[:size]!r:.200}", octets + line[:size], replies + told, status, names)
        for size in range(len(counted)):
            yield session(room, f"cut off after {size} octets of {line!r}", octets + line + counted[:size], replies + TRUNCATED[0], 2, names)
        octets, replies = octets + line + counted, replies + reply
    yield session(room, "not cut off", octets, replies, names=names)


def of_texts(room):
    """A text at its limit that begins no script, and one past it, each cut off after each 100,000 octets."""
    for piece in b"[", b"(", b'"', b"{":
        octets = put(b"script personal a", piece * TEXT_LIMIT)
        told = lines("ok", "main none", 'envelope "" "" mailbox "INBOX"', 'script personal "a" line 1 syntax', "total 0 messages 0 errors")
        yield session(room, f"a text of {piece!r} at its limit", octets + b"report\n", told)
        for size in range(0, len(octets), 100_000):
            told, status = TRUNCATED if size else EMPTY
            yield session(room, f"the same, cut off after {size} octets", octets[:size], told, status)
        octets = put(b"script personal a", piece * (TEXT_LIMIT + 1)) + b"report\n"
        told = lines("no too-large", "main none", 'envelope "" "" mailbox "INBOX"', "total 0 messages 0 errors")
        yield session(room, f"a text of {piece!r} past its limit", octets, told)


def of_sessions(room):
    """All of them."""
    for part in (of_lines, of_texts):
        folder = room / f"fronts_{part.__name__}"
        folder.mkdir()
        yield from some(part.__name__, part(folder))
