"""As many of each thing as the limits of `docs/FORMATS.md` and `docs/LANGUAGE.md` allow, and as many as powers of two and one less and one
more: no count but these limits ends what a script, a mail or a command line may have, as long as there is memory. What must come out is
written from the rules.

Each session is of one kind of thing: for each count a script and a mail are put, and reported. Most scripts store into a mailbox that is
called by a length that they count. Where the limits allow less than 65,537 of a kind, its greatest count is less.
"""
from . import runs
from .amounts import EXPECTED_LIMIT, KEPT, LINE_LIMIT, MESSAGE_LIMIT, TEXT_LIMIT, VALUE_LIMIT
from .files import write
from .runs import Run, lines, put, some

# What a value's length is, as the name of a mailbox.
COUNTS = b'require ["variables", "fileinto"];\nif %s { set :length "n" "${1}"; fileinto "${n}"; }'
OF_SUBJECT = COUNTS % b'header :matches "subject" "*"'


def around(most, *powers):
    """The greatest count, and each power of two that is less, with one less and one more."""
    counts = {count for power in powers or range(8, 21) for count in (2**power - 1, 2**power, 2**power + 1)}
    return sorted(count for count in counts if count < most) + [most]


def fitting(piece, *others, limit=TEXT_LIMIT):
    """How often a piece may stand beside others within a limit."""
    return (limit - sum(map(len, others))) // len(piece)


def turns(room, title, cases, names="", sender=""):
    """A session of scripts and mails in turn, with a report of each: its cases are a script, a mail, the lines of its verdict, and the
    script's fault, if it has one."""
    octets, told = [b"main personal main\n", *([b'envelope %s ""\n' % sender.encode()] if sender else [])], ["ok"] * (2 if sender else 1)
    for script, mail, verdict, *fault in cases:
        octets += [put(b"script personal main", script), put(b"message m", mail), b"report\n"]
        verdict = [*KEPT, 'error personal "main" line 0 invalid-script'] if fault else verdict
        judged = f'script personal "main" {fault[0] if fault else "ok"}'
        told += ["ok", "ok", 'main personal "main"', runs.SETTINGS.replace('""', f'"{sender}"', 1), *runs.profile_lines(names), judged, 'message "m"', *(f"  {line}" for line in verdict)]
        told += [] if any(line.startswith("read ") for line in verdict) else ['  read personal "main"']
        told += [f'total 1 messages {sum(line.startswith("error ") for line in verdict)} errors']
    return runs.session(room, f"as many as there may be: {title}", b"".join(octets), lines(*told), names=names)


def subject(value, front=b""):
    """A mail with a subject."""
    return front + b"Subject: " + value + b"\n\n"


def of_values(room):
    """Octets, lines and encoded words of a value."""
    most = fitting(b"x", subject(b""), limit=MESSAGE_LIMIT)
    yield turns(room, "octets of a value", [(OF_SUBJECT, subject(b"x" * count), [f'store "{count}"']) for count in around(most)])
    folded = [(OF_SUBJECT, subject(b"a\n " + b"x" * (count - 2)), [f'store "{count}"']) for count in around(most - 1)]
    yield turns(room, "octets of a value of two lines", folded)
    most = fitting(b"\n x", subject(b"x"), limit=MESSAGE_LIMIT)
    yield turns(room, "lines of a value", [(OF_SUBJECT, subject(b"x" + b"\n x" * count), [f'store "{2 * count + 1}"']) for count in around(most)])
    # A letter of a word, and what stands for it.
    for charset, encoding, piece, size, names in [
        (b"utf-8", b"Q", b"x", 1, ""),
        (b"UTF-8", b"q", b"=C3=A4", 1, ""),
        (b"utf-8", b"B", b"eHh4", 3, ""),
        (b"us-ascii", b"Q", b"_", 1, ""),
        (b"us-ascii", b"b", b"eHh4", 3, ""),
        (b"iso-8859-1", b"Q", b"=E4", 1, ""),
        (b"iso-8859-1", b"B", b"5OTk", 3, ""),
        (b"windows-1252", b"Q", b"=80", 1, "charsets"),
        (b"koi8-r", b"B", b"wcHB", 3, "charsets"),
    ]:
        front = b"=?%s?%s?" % (charset, encoding)
        most = fitting(piece, subject(front + b"?="), limit=MESSAGE_LIMIT)
        words = [(OF_SUBJECT, subject(front + piece * count + b"?="), [f'store "{size * count}"']) for count in around(most, 7, 8, 9, 10, 16, 20)]
        yield turns(room, f"letters {piece.decode()} of an encoded word of {charset.decode()}", words, names)
    for title, word, size in [("encoded words", b"=?utf-8?Q?x?=", 1), ("encoded words that stay", b"=?none?Q?x?=", 13)]:
        most = fitting(word + b" ", subject(b"x"), limit=MESSAGE_LIMIT)
        joined = [(OF_SUBJECT, subject(b" ".join([word] * count)), [f'store "{count if size == 1 else 13 * count - 1}"']) for count in around(most, 8, 16)]
        yield turns(room, title, joined)


def of_fields(room):
    """Fields, their names, and addresses."""
    require = b'require "relational";\n'
    for title, test, front, piece, end in [
        ("fields", b'header :count "eq" "a" "%d"', b"", b"a:\n", b"\n"),
        ("lines that are no fields", b'header :count "eq" ["", "z"] "1" # %d\n', b"", b"a\n", b"z: v\n\n"),
        ("addresses", b'address :count "eq" "to" "%d"', b"To: ", b"a@b,", b"\n\n"),
        ("addresses of a group", b'address :count "eq" "to" "%d"', b"To: group:", b"a,", b";\n\n"),
        ("comments in one another", b'address :count "eq" "to" "1" # %d\n', b"To: a@b ", b"(", b"\n\n"),
        ("comments", b'address "to" "a@b" # %d\n', b"To: a@b ", b"()", b"\n\n"),
    ]:
        most = fitting(piece, front, end, limit=MESSAGE_LIMIT)
        told = [(require + b"if %s { discard; }" % (test % count), front + piece * count + end, ["discard"]) for count in around(most, 8, 16, 20)]
        yield turns(room, title, told, "relational")
    for title, test, front, end in [
        ("octets of a local part", b'address :localpart :matches "to" "*"', b"To: ", b"@b\n\n"),
        ("octets of a domain", b'address :domain :matches "to" "*"', b"To: a@", b"\n\n"),
        ("octets of an address in quotes", b'address :localpart :matches "to" "*"', b'To: "', b'"@b\n\n'),
    ]:
        most = fitting(b"x", front, end, limit=MESSAGE_LIMIT)
        yield turns(room, title, [(COUNTS % test, front + b"x" * count + end, [f'store "{count}"']) for count in around(most)])
    most = fitting(b"x", b"To: \n\n", limit=MESSAGE_LIMIT)
    whole = [(COUNTS % b'address :matches "to" "*"', b"To: " + b"x" * (count - 2) + b"@b\n\n", [f'store "{count}"']) for count in around(most)]
    yield turns(room, "octets of an address", whole)
    for title, form in ("octets of a field's name", b'if exists "%s" { discard; }'), ("octets of a name of `header`", b'if header "%s" "v" { discard; }'):
        most = fitting(b"x", form % b"")
        yield turns(room, title, [(form % (b"x" * count), b"X" * count + b": v\n\n", ["discard"]) for count in around(most)])


def of_keys(room):
    """Octets of keys and patterns, wildcards, and digits."""
    names = "comparator-i;ascii-numeric relational"
    require = b'require ["comparator-i;ascii-numeric", "relational"];\n'
    for title, form, piece, value in [
        ("octets of a key under :is", b'header :is :comparator "i;octet" "subject" "%s"', b"x", b"x"),
        ("octets of a key under :is, by casemap", b'header "subject" "%s"', b"x", b"X"),
        ("octets of a key under :contains", b'header :contains :comparator "i;octet" "subject" "%s"', b"x", b"x"),
        ("octets of a key under :contains, by casemap", b'header :contains "subject" "%s"', b"x", b"X"),
        ("octets of a pattern", b'header :matches "subject" "%s"', b"x", b"X"),
        ("octets of a pattern after a star", b'header :matches :comparator "i;octet" "subject" "*%s"', b"x", b"x"),
        ("octets of a pattern between stars", b'header :matches "subject" "*%s*"', b"x", b"X"),
        ("question marks of a pattern", b'header :matches "subject" "%s"', b"?", b"x"),
        ("stars of a pattern", b'header :matches "subject" "%s"', b"*", b"x"),
        ("stars of a pattern, with letters", b'header :matches "subject" "%s"', b"*a", b"ba"),
        ("octets of a key under :value", b'header :value "ge" "subject" "%s"', b"x", b"X"),
        ("digits", b'header :value "eq" :comparator "i;ascii-numeric" "subject" "%s"', b"1", b"1"),
        ("zeros before a number", b'header :value "eq" :comparator "i;ascii-numeric" "subject" "%s1"', b"0", b""),
    ]:
        value_end = b"1" if not value else b""
        most = fitting(piece, require, form % b"", b"if  { discard; }")
        told = [(require + b"if %s { discard; }" % (form % (piece * count)), subject(value * count + value_end), ["discard"]) for count in around(most, 8, 9, 12, 16, 17, 19)]
        yield turns(room, title, told, names)


def listed(piece, count, last):
    """A list of so many strings, of which the last is another."""
    return b"[" + (piece + b",") * (count - 1) + last + b"]"


def of_lists(room):
    """Strings of each list."""
    date = b"Date: 5 Jul 2026 12:00 +0200\nTo: z@z\nz: z\n\nz"
    for title, required, form, piece, last, verdict, names in [
        ("keys of header", b"", b'if header "z" %s { discard; }', b'"a"', b'"z"', ["discard"], ""),
        ("keys of header under :contains", b"", b'if header :contains "z" %s { discard; }', b'"a"', b'"z"', ["discard"], ""),
        ("keys of header under :matches", b"", b'if header :matches "z" %s { discard; }', b'"a"', b'"?"', ["discard"], ""),
        ("names of header", b"", b'if header %s "z" { discard; }', b'"a"', b'"z"', ["discard"], ""),
        ("names of exists", b"", b"if exists %s { discard; }", b'"z"', b'"to"', ["discard"], ""),
        ("keys of address", b"", b'if address "to" %s { discard; }', b'"a"', b'"z@z"', ["discard"], ""),
        ("names of address", b"", b'if address %s "z@z" { discard; }', b'"Cc"', b'"To"', ["discard"], ""),
        ("parts of envelope", b"envelope", b'if envelope %s "" { discard; }', b'"to"', b'"from"', ["discard"], ""),
        ("keys of envelope", b"envelope", b'if envelope "to" %s { discard; }', b'"a"', b'""', ["discard"], ""),
        ("values of string", b"variables", b'if string %s "z" { discard; }', b'"a"', b'"z"', ["discard"], ""),
        ("keys of string", b"variables", b'if string "z" %s { discard; }', b'"a"', b'"z"', ["discard"], ""),
        ("keys of hasflag", b"imap4flags", b'addflag "z"; if hasflag %s { discard; }', b'"a"', b'"z"', ["discard"], ""),
        ("variables of hasflag", b'imap4flags", "variables', b'addflag "z" "z"; if hasflag %s "z" { discard; }', b'"a"', b'"z"', ["discard"], ""),
        ("flags of setflag", b"imap4flags", b"setflag %s; keep;", b'"a"', b'"z"', ['store "INBOX" "a" "z"'], ""),
        ("flags of addflag", b"imap4flags", b"addflag %s; keep;", b'"a"', b'"z"', ['store "INBOX" "a" "z"'], ""),
        ("flags of removeflag", b"imap4flags", b'setflag "b z"; removeflag %s; keep;', b'"a"', b'"z"', ['store "INBOX" "b"'], ""),
        ("flags of keep", b"imap4flags", b"keep :flags %s;", b'"a"', b'"z"', ['store "INBOX" "a" "z"'], ""),
        ("names of global", b'include", "variables', b"global %s; discard;", b'"a"', b'"z"', ["discard"], ""),
        ("names of require", b"copy", b"require %s; discard;", b'"copy"', b'"fileinto"', ["discard"], ""),
        ("keys of date", b"date", b'if date "date" "year" %s { discard; }', b'"a"', b'"2026"', ["discard"], "date"),
        ("types of body", b"body", b'if body :content %s "z" { discard; }', b'"a"', b'"text"', ["discard"], "body"),
        ("keys of body", b"body", b"if body :raw %s { discard; }", b'"a"', b'"z"', ["discard"], "body"),
        ("names of mailboxexists", b"mailbox", b"if mailboxexists %s { discard; }", b'"INBOX"', b'"inbox"', ["discard"], "mailbox"),
    ]:
        front = b'require ["%s"];\n' % required if required else b""
        most = fitting(piece + b",", front, form % b"[]", last)
        cases = [(front + form % listed(piece, count, last), date, verdict) for count in around(most, 9, 12, 14, 15, 16)]
        yield turns(room, title, cases, names)
    form = b'require "vacation";\nvacation :addresses %s "x";'
    most = fitting(b'"a",', form % b"[]", b'"z"')
    told = [(form % listed(b'"a"', count, b'"z"'), b"", ['vacation "x" addresses' + ' "a"' * (count - 1) + ' "z"', *KEPT]) for count in around(most, 15, 16)]
    yield turns(room, "addresses of vacation", told, "vacation")


def of_counts(room):
    """Values that are counted: strings, addresses of the envelope, flags, and a body, which is one."""
    front = b'require ["variables", "imap4flags", "envelope", "relational", "body"];\n'
    names = "body relational"
    for title, form, piece, empty, sender in [
        ("strings that are counted", b'if string :count "eq" %s "%d" { discard; }', b'"a"', b'""', ""),
        ("addresses of the envelope that are counted", b'if envelope :count "eq" %s "%d" { discard; }', b'"from"', b'"to"', "a@b.example"),
    ]:
        most = fitting(piece + b",", front, form % (b"[]", 9_999_999), empty)
        cases = [(front + form % (listed(piece, count + 1, empty), count), b"", ["discard"]) for count in around(most, 9, 12, 15, 16, 17)]
        yield turns(room, title, cases, names, sender)
    flags = [b"f%05x" % number for number in range(fitting(b"f00000 ", front, b'setflag "";if hasflag :count "eq" "9999999" { discard; }'))]
    cases = [(front + b'setflag "%s";if hasflag :count "eq" "%d" { discard; }' % (b" ".join(flags[:count]), count), b"", ["discard"]) for count in around(len(flags), 9, 12, 15, 16)]
    yield turns(room, "flags that are counted", cases, names)
    most = fitting(b"x", b"\n", limit=MESSAGE_LIMIT)
    cases = [(front + b'if body :raw :count "eq" "1" { discard; }', b"\n" + b"x" * count, ["discard"]) for count in around(most, 8, 16, 20)]
    yield turns(room, "octets of a body that is counted", cases, names)


def of_commands(room):
    """Tests of a list, branches, commands, and what their code has."""
    sizes = 9, 11, 12, 15, 16, 17
    for title, front, piece, end, verdict in [
        ("tests of anyof", b"if anyof (", b"false,", b"true) { discard; }", ["discard"]),
        ("tests of allof", b"if allof (", b"true,", b"true) { discard; }", ["discard"]),
        ("branches", b"if false{}", b"elsif false{}", b"else { discard; }", ["discard"]),
        ("commands of a block", b"if true {", b"keep;", b"}", ['store "INBOX"']),
        ("commands of a block that doesn't run", b"if false {", b"keep;", b"} discard;", ["discard"]),
        ("commands of a branch before the one that runs", b"if false {", b"stop;", b"} else { discard; }", ["discard"]),
        ("operations", b"", b"if not true{}", b"discard;", ["discard"]),
    ]:
        most = fitting(piece, front, end)
        yield turns(room, title, [(front + piece * count + end, b"", verdict) for count in around(most, *sizes)])
    everything = b'require ["fileinto", "copy", "envelope", "variables", "imap4flags", "include", "reject", "vacation", "mailbox", "special-use", "date", "body", "duplicate", "subaddress"];\n'
    names = "body date duplicate mailbox reject special-use subaddress vacation"
    for piece, verdict in [
        (b"keep;", ['store "INBOX"']),
        (b"discard;", ["discard"]),
        (b'fileinto"a";', ['store "a"']),
        (b'fileinto:copy"a";', ['store "a"', *KEPT]),
        (b'fileinto:create"a";', ['store "a" create']),
        (b'redirect"a@b";', ['redirect "a@b"']),
        (b'set"a""b";', KEPT),
        (b'set:upper"a""${a}";', KEPT),
        (b'addflag"a";', ['implicit "INBOX" "a"']),
        (b'setflag"a""b";', KEPT),
        (b'keep:flags"a";', ['store "INBOX" "a"']),
        (b'global"a";', KEPT),
        (b'if false{reject"a";}', KEPT),
        (b'if false{vacation"a";}', KEPT),
        (b'if false{include"a";}', KEPT),
        (b'if header"a""b"{}', KEPT),
        (b'if header:matches"a""*b"{}', KEPT),
        (b'if address"to""b"{}', KEPT),
        (b'if envelope"to""b"{}', KEPT),
        (b'if exists"a"{}', KEPT),
        (b'if string"a""b"{}', KEPT),
        (b'if hasflag"a"{}', KEPT),
        (b"if size:over 9{}", KEPT),
        (b'if mailboxexists"a"{}', KEPT),
        (b"if duplicate{}", KEPT),
        (b'if date"a""day""b"{}', KEPT),
        (b'if currentdate"day""b"{}', KEPT),
        (b'if body"a"{}', KEPT),
    ]:
        most = fitting(piece, everything)
        told = [(everything + piece * count, b"", verdict) for count in around(most, 16)]
        yield turns(room, f"commands {piece.decode()}", told, names)
    yield from of_code(room)


def of_code(room):
    """Code of as many operations as a text has."""
    count = fitting(b"keep;\n", b"if false {\n", b"}\ndiscard;\n")
    text = b"if false {\n" + b"keep;\n" * count + b"}\ndiscard;\n"
    code = ["false", f"jump-if-false {count + 2}", *(f"keep internal @{line}" for line in range(2, count + 2)), f"discard @{count + 3}"]
    yield runs.dumped(room, f"as many as there may be: {len(code)} operations, printed", text, [f"{place}: {operation}" for place, operation in enumerate(code)])


def of_faults(room):
    """What stands before a fault, or has it: octets of names, arguments, tests, and commands with their blocks."""
    for title, front, piece, end, fault in [
        ("octets of a command's name", b"", b"x", b";", "unknown-command"),
        ("octets of a test's name", b"if ", b"x", b"{}", "unknown-command"),
        ("octets of a tag", b"keep :", b"x", b";", "bad-tag"),
        ("octets of a capability", b'require "', b"x", b'";', "unknown-capability"),
        ("octets of a comparator", b'if header :comparator "', b"x", b'" "a" "b"{}', "unknown-comparator"),
        ("octets of a variable's name", b'require "variables"; set "', b"-", b'" "";', "bad-variable-name"),
        ("octets of a part of the envelope", b'require "envelope"; if envelope "', b"x", b'" ""{}', "bad-envelope-part"),
        ("octets of a field of `address`", b'if address "', b"x", b'" ""{}', "not-address-header"),
        ("arguments of a command", b"keep", b" 1", b";", "bad-arguments"),
        ("lists of a command", b"keep", b'[""]', b";", "bad-arguments"),
        ("tags of a command", b"keep", b":x", b";", "bad-tag"),
        ("arguments of a test", b"if true", b" 1", b"{}", "bad-arguments"),
        ("tests in a list that aren't there", b"if anyof(", b"x,", b"x){}", "unknown-command"),
        ("commands with blocks", b"", b"x{}", b"", "unknown-command"),
    ]:
        most = fitting(piece, front, end)
        told = [(front + piece * count + end, b"", KEPT, f"line 1 {fault}") for count in around(most, 8, 10, 12, 16, 18)]
        yield turns(room, title, told)


def of_strings(room):
    """Octets of a string, by what has it in a report; of its parts; and lines of a text."""
    for title, form, told, names in [
        ("octets of a redirect", b'redirect "%s@b";', ['redirect "%s@b"'], ""),
        ("octets of a flag", b'require "imap4flags"; keep :flags "%s";', ['store "INBOX" "%s"'], ""),
        ("octets of a rejection", b'require "reject"; reject "%s";', ['reject "%s"'], "reject"),
        ("octets of an ereject", b'require "ereject"; ereject "%s";', ['ereject "%s"'], "ereject"),
        ("octets of a response", b'require "vacation"; vacation "%s";', ['vacation "%s"', *KEPT], "vacation"),
        ("octets of its subject", b'require "vacation"; vacation :subject "%s" "r";', ['vacation "r" subject "%s"', *KEPT], "vacation"),
        ("octets of its sender", b'require "vacation"; vacation :from "%s@b" "r";', ['vacation "r" from "%s@b"', *KEPT], "vacation"),
        ("octets of one of its addresses", b'require "vacation"; vacation :addresses "%s" "r";', ['vacation "r" addresses "%s"', *KEPT], "vacation"),
        ("octets of its handle", b'require "vacation"; vacation :handle "%s" "r";', ['vacation "r" handle "%s"', *KEPT], "vacation"),
        ("octets of a special use", b'require ["fileinto", "special-use"]; fileinto :specialuse "\\\\%s" "a";', ['store "a" special-use "\\\\%s"'], "special-use"),
        ("octets of an included script's name", b'require "include"; include :optional "a%s";', [*KEPT, 'read personal "main"', 'read personal "a%s" missing'], ""),
        ("octets of a mailbox that is too long", b'require "fileinto"; fileinto "%s";', [*KEPT, 'error personal "main" line 1 bad-mailbox'], ""),
    ]:
        most = fitting(b"x", form % b"")
        cases = [(form % (b"x" * count), b"", [line % ("x" * count) if "%s" in line else line for line in told]) for count in around(most, 10, 12, 16, 19)]
        yield turns(room, title, cases, names)
    require = b'require "reject"; reject '
    most = fitting(b"x\n", require, b"text:\n.\n;")
    told = [(require + b"text:\n" + b"x\n" * count + b".\n;", b"", ['reject "' + "x\\x0d\\x0a" * count + '"']) for count in around(most, 8, 16)]
    yield turns(room, "lines of a string", told, "reject")
    most = fitting(b"\n", b"redirect '';")
    for title, command, verdict, fault in [
        ("lines before a fault", b"kep;", KEPT, "line %d unknown-command"),
        ("lines before an error", b'redirect "";', [*KEPT, 'error personal "main" line %d bad-address'], None),
        ("lines before an action", b"discard;", ["discard", 'at personal "main" line %d'], None),
    ]:
        counts = around(most, 8, 15, 16, 17, 19)
        cases = [(b"\n" * count + command, b"", [line % (count + 1) if "%d" in line else line for line in verdict], *([fault % (count + 1)] if fault else [])) for count in counts]
        yield turns(room, title, cases, "lines" if "at " in verdict[-1] else "")
    require, names = b'require ["encoded-character", "reject"]; reject "', "encoded-character reject"
    for title, front, piece, end, letter in [
        ("sequences of a string", b"", b"${hex:41}", b"", "A"),
        ("octets of a sequence", b"${hex:", b"41 ", b"}", "A"),
        ("characters of a sequence", b"${unicode:", b"e4 ", b"}", "\\xc3\\xa4"),
        ("zeros of a character", b"${unicode:", b"0", b"41}", ""),
    ]:
        most = fitting(piece, require, front, end, b'";')
        cases = [(require + front + piece * count + end + b'";', b"", ['reject "' + (letter * count or "A") + '"']) for count in around(most, 8, 12, 16)]
        yield turns(room, title, cases, names)
    most = fitting(b"0", b"if size :under 1K { discard; }")
    yield turns(room, "digits of a number", [(b"if size :under " + b"0" * count + b"1K { discard; }", b"", ["discard"]) for count in around(most, 8, 16)])
    most = fitting(b"*", b"/**/discard;")
    yield turns(room, "octets of a comment", [(b"/*" + b"*" * count + b"*/discard;", b"", ["discard"]) for count in around(most, 8, 16)])


def of_references(room):
    """References of a string, and the octets that it stands for."""
    require = b'require ["variables", "fileinto"];\n'
    for size, most in (1, None), (4_096, 4_096):
        front, end = require + b'set "a" "' + b"x" * size + b'"; set :length "n" "', b'"; fileinto "${n}";'
        counts = around(most or fitting(b"${a}", front, end, b"y"), 8, 12, 16)
        cases = [(front + b"${a}" * count + more + end, b"", [f'store "{size * count + len(more)}"']) for count in counts for more in (b"", b"y")]
        yield turns(room, f"references to {size} octets", cases)
    most = fitting(b"x", subject(b""), limit=MESSAGE_LIMIT)
    for title, commands, told, most in [
        ("octets of a redirect to what a match gave", b'redirect "${1}${1}@b";', lambda count: f'redirect "{"x" * 2 * count}@b"', 2**20 + 9),
        ("octets of strings that are compared", b'if string "${1}${1}" "${1}${0}" { redirect "a@b"; }', lambda count: 'redirect "a@b"', most),
        ("octets of a key that a match gave", b'if header "subject" "${1}" { redirect "a@b"; }', lambda count: 'redirect "a@b"', most),
        ("octets that a match takes of a match", b'if string :matches "a${1}" "a*" { set :length "n" "${1}"; fileinto "${n}"; }', lambda count: f'store "{count}"', most),
    ]:
        script = require + b'if header :matches "subject" "*" { ' + commands + b" }"
        yield turns(room, title, [(script, subject(b"x" * count), [told(count)]) for count in around(most, 8, 16, 19, 20)])


def of_names(room):
    """Names that are looked up, flags of a store, and texts that are expected."""
    require = b'require "include";\n'
    cases = []
    for count in around(fitting(b'include:optional"12345";', require), 9, 10, 11, 12):
        names = [f"{number:x}" for number in range(count)]
        script = require + b"".join(b'include:optional"%s";' % name.encode() for name in names)
        cases.append((script, b"", [*KEPT, 'read personal "main"', *(f'read personal "{name}" missing' for name in names)]))
    yield turns(room, "names that are looked up", cases)
    require, cases = b'require "imap4flags";\nsetflag "', []
    for count in around(fitting(b"12345 ", require, b'"; keep;'), 9, 12, 15, 16):
        flags = [f"{number:x}" for number in range(count)]
        cases.append((require + " ".join(flags).encode() + b'"; keep;', b"", ['store "INBOX"' + "".join(f' "{flag}"' for flag in flags)]))
    yield turns(room, "flags of a store", cases)
    require, cases = b'require ["imap4flags", "variables", "fileinto"];\nsetflag "v" "', []
    end = b'"; set :length "n" "${v}"; fileinto "${n}";'
    for count in around(fitting(b"12345 ", require, end), 9, 12, 15, 16):
        text = " ".join(f"{number:x}" for number in range(count)).encode()
        cases.append((require + text + end, b"", [f'store "{min(len(text), VALUE_LIMIT)}"']))
    yield turns(room, "flags of a variable", cases)
    octets, told = [b"main personal main\nmessage m 0\n"], ["ok", "ok"]
    for count in around(EXPECTED_LIMIT, 8, 12, 15):
        address = "x" * (count - len('redirect "@b"\n')) + "@b"
        octets += [put(b"script personal main", f'redirect "{address}";'.encode()), put(b"expect m", f'redirect "{address}"\n'.encode()), b"report\n"]
        told += ["ok", "ok", 'main personal "main"', runs.SETTINGS, 'script personal "main" ok', 'message "m"', f'  redirect "{address}"', '  read personal "main"', "  expected", "total 1 messages 0 errors 0 unexpected"]
    yield runs.session(room, "as many as there may be: octets of an expected text", b"".join(octets), lines(*told))


def of_bodies(room):
    """Parts of a mail, and the octets and lines of what they hold."""
    require, names = b'require ["body", "relational"];\n', "body relational"
    multipart = b"Content-Type: multipart/mixed; boundary=b\n\n"
    for title, front, piece, end, test in [
        ("parts", multipart, b"--b\n\nx\n", b"--b--", b'body :content "text/plain" :count "eq" "%d"'),
        ("empty parts", multipart, b"--b\n", b"--b--", b'body :content "text/plain" :count "eq" "%d"'),
        ("parameters of a type", b"Content-Type: text/plain", b";a=b", b"\n\nx", b'body "x" # %d\n'),
        ("comments in one another in a type", b"Content-Type: text/plain ", b"(", b"\n\nx", b'body :content "text" :count "eq" "0" # %d\n'),
        ("fields of a part", b"", b"A: b\n", b"\nx", b'body "x" # %d\n'),
        ("lines of a body", b"\n", b"x\n", b"y", b'body :contains "x\r\ny" # %d\n'),
        ("octets of a type", b"Content-Type: text/", b"x", b"\n\nx", b'body :is "x" # %d\n'),
        ("octets of a parameter", b"Content-Type: text/plain; a=", b"x", b"\n\nx", b'body :is "x" # %d\n'),
        ("octets of a parameter in quotes", b'Content-Type: text/plain; a="', b"x", b'"\n\nx', b'body :is "x" # %d\n'),
        ("octets of a charset", b"Content-Type: text/plain; charset=", b"x", b"\n\nx", b'body :is "x" # %d\n'),
        ("octets of an encoding", b"Content-Transfer-Encoding: ", b"x", b"\n\nx", b'body :content "application/octet-stream" :is "x" # %d\n'),
    ]:
        most = fitting(piece, front, end, limit=MESSAGE_LIMIT)
        key = b'body :contains "y" # %d\n' if title == "lines of a body" else test
        cases = [(require + b"if %s { discard; }" % (key % count), front + piece * count + end, ["discard"]) for count in around(most, 8, 16)]
        yield turns(room, title, cases, names)
    kind = b"Content-Type: text/plain; charset=%s\nContent-Transfer-Encoding: %s\n\n"
    for title, charset, encoding, piece in [
        ("octets of a text in base64", b"utf-8", b"base64", b"eHh4"),
        ("octets of a text in quoted-printable", b"iso-8859-1", b"quoted-printable", b"=E4"),
        ("octets of a text that are put into UTF-8", b"iso-8859-1", b"8bit", b"\xe4"),
        ("octets of a text", b"us-ascii", b"7bit", b"x"),
    ]:
        # The front and the end of what the text stands for are known, and an octet more or less would be seen at its end.
        front, end = kind % (charset, encoding), b"eQ==" if encoding == b"base64" else b"y"
        test = 'body :matches "%s*y"' % ("x" if piece in (b"eHh4", b"x") else "\u00e4")
        most = fitting(piece, front, end, limit=MESSAGE_LIMIT)
        cases = [(require + f"if {test} {{ discard; }}".encode(), front + piece * count + end, ["discard"]) for count in around(most, 8, 9, 12, 16, 20)]
        yield turns(room, title, cases, names)


def of_words(room):
    """Words of a command line, octets of one, and words of a session's line."""
    folder = room / "words"
    write(folder, {"main.sieve": b"discard;", "mail": b""})
    told = runs.report(['personal "main" ok'], "main", "mail", ["discard", 'at personal "main" line 1'], settings=f"{runs.SETTINGS}\nwith lines")
    for count in around(40_000, 9, 10, 12, 15):
        (folder / f"{count}").write_text("--with=lines " * (count - 3) if count > 3 else "")
        yield Run(f"a command line of {count} words", folder, f"sievebench test $(cat {count}) main.sieve mail", told)
        (folder / f"{count}d").write_text("--with lines " * ((count - 2) // 2))
        yield Run(f"a command line of {count} words, for a dump", folder, f"sievebench dump $(cat {count}d) main.sieve", b"0: discard @1\n")
    # The system takes words of 131,071 octets at most.
    for count in around(21_800, 9, 12, 14):
        (folder / f"{count}w").write_text("--with=" + ",".join(["lines"] * count))
        yield Run(f"{count} names in one word", folder, f"sievebench test $(cat {count}w) main.sieve mail", told)
    for count in around(131_071, 11, 12, 13, 14, 15, 16):
        (folder / f"{count}m").write_text("x" * count)
        told = f'sievebench: too large "{"x" * count}"\n'.encode()
        yield Run(f"an option of {count} octets", folder, f"sievebench test -m $(cat {count}m) main.sieve mail", b"", told, 2)
    counts = around(LINE_LIMIT - len("envelope  "), 8, 9, 10, 12)
    octets = b"".join(b"envelope " + b" " * count + b"a b\n" for count in counts[:-1])
    yield runs.session(room, "blanks of a line", octets, b"ok\n" * (len(counts) - 1))


def of_sessions(room):
    """All of them."""
    for part in (of_values, of_fields, of_keys, of_lists, of_counts, of_commands, of_faults, of_strings, of_references, of_names, of_bodies, of_words):
        folder = room / f"most_{part.__name__}"
        folder.mkdir()
        yield from some(part.__name__, part(folder))
