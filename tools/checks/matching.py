"""How values are compared, searched and matched, and what flags are, row by row, in sessions of the program. What is expected was written by hand
from RFC 4790, section 9, RFC 5228, section 2.7, RFC 5229, RFC 5231 and RFC 5232; and matches of all short patterns are those of a slow way here,
which tries for each star all lengths from none up.
"""
import itertools

from .calls import quoted
from .runs import SETTINGS, lines, profile_lines, put, reported, session, some

CASEMAP, OCTET, NUMERIC = "i;ascii-casemap", "i;octet", "i;ascii-numeric"
# A value, a key, and whether they are equal under i;octet and under i;ascii-casemap.
EQUAL = [
    (b"", b"", True, True),
    (b"Subject", b"Subject", True, True),
    (b"Subject", b"sUBJECT", False, True),
    (b"Subject", b"Subjec", False, False),
    (b"Subjec", b"Subject", False, False),
    (b"a[b", b"A{B", False, False),
    (b"\x00\xff\xe4", b"\x00\xff\xc4", False, False),
    # What letters fold to, and what other octets do.
    (b"a", b"A", False, True),
    (b"z", b"Z", False, True),
    (b"A", b"A", True, True),
    (b"Z", b"Z", True, True),
    (b"`", b"`", True, True),
    (b"`", b"@", False, False),
    (b"{", b"{", True, True),
    (b"{", b"[", False, False),
    (b"\xe4", b"\xe4", True, True),
    (b"\xe4", b"\xc4", False, False),
]
LONG = b"ab" * 34 + b"." + b"cd" * 35
# The same of a value that contains a key; of the last ones, keys are too long to be looked for without a copy of the value, or short.
CONTAINED = [
    (b"", b"", True, True),
    (b"value", b"", True, True),
    (b"", b"key", False, False),
    (b"frobnitzm", b"frop", False, False),
    (b"...zabcz...", b"ZABCZ", False, True),
    (b"...ZABCZ...", b"zabcz", False, True),
    (b"at the end", b"end", True, True),
    (b"at the END", b"end", False, True),
    (b"at the END", b"END", True, True),
    (b"aab", b"AB", False, True),
    (b"a[b", b"{", False, False),
    (b"en", b"end", False, False),
    (b"\x00\xe4\x00", b"\xe4\x00", True, True),
    (LONG, b"AB" * 33 + b".C", False, True),
    (LONG, b"AB" * 33 + b"AC", False, False),
    (LONG, b"b.", True, True),
    (LONG, b"B." + b"CD" * 33, False, True),
    (LONG, b"d.", False, False),
    (LONG, LONG.upper(), False, True),
]
# A value, a key, and how the value stands to the key. Under i;octet the first octets that differ decide, and a front comes first.
OCTETS = [
    (b"", b"", "="),
    (b"", b"\x00", "<"),
    (b"abc", b"abc", "="),
    (b"abc", b"abd", "<"),
    (b"ab", b"abc", "<"),
    (b"b", b"abc", ">"),
    (b"a", b"B", ">"),
    (b"a", b"A", ">"),
    (b"\xff", b"\x7f", ">"),
    (b"9", b"10", ">"),
    (b"300", b"00300", ">"),
]
# Under i;ascii-casemap a to z are changed to A to Z first, so what lies between Z and a comes after all letters.
LETTERS = [
    (b"", b"", "="),
    (b"", b"a", "<"),
    (b"a", b"B", "<"),
    (b"B", b"c", "<"),
    (b"Subject", b"sUBJECT", "="),
    (b"ab", b"ABC", "<"),
    (b"abd", b"ABC", ">"),
    (b"_", b"a", ">"),
    (b"_", b"Z", ">"),
    (b"[", b"z", ">"),
    (b"{", b"_", ">"),
    (b"@", b"a", "<"),
    (b"\xe4", b"\xc4", ">"),
    (b"9", b"10", ">"),
]
NINES, POWER = b"9" * 400, b"1" + b"0" * 400
# Under i;ascii-numeric the first digits are a number, and what begins with no digit is infinite.
NUMBERS = [
    (b"1", b"1", "="),
    (b"9", b"10", "<"),
    (b"0", b"1", "<"),
    (b"0", b"000", "="),
    (b"300", b"00300", "="),
    (b"00299", b"300", "<"),
    (b"1", b"2x", "<"),
    (b"2x", b"2", "="),
    (b"2x9", b"2y1", "="),
    (b"10 apples", b"9 pears", ">"),
    (b"3.9", b"3", "="),
    (b"9223372036854775807", b"9223372036854775808", "<"),
    (b"9999999999999999999", b"10000000000000000000", "<"),
    (b"18446744073709551615", b"18446744073709551616", "<"),
    (b"18446744073709551616", b"0", ">"),
    (b"18446744073709551617", b"1", ">"),
    (b"18446744073709551616", b"100000000000000000000", "<"),
    (b"99999999999999999999", b"100000000000000000000", "<"),
    (b"100000000000000000000", b"000100000000000000000000", "="),
    (b"100000000000000000001", b"100000000000000000000", ">"),
    (b"", b"", "="),
    (b"", b"abc", "="),
    (b"abc", b"xyz", "="),
    (b"-1", b"-2", "="),
    (b"x1", b"x2", "="),
    (b"", b"0", ">"),
    (b"abc", b"0", ">"),
    (b" 5", b"5", ">"),
    (b"/", b"9", ">"),
    (b":", b"9", ">"),
    (b"abc", b"100000000000000000000", ">"),
    (NINES, NINES, "="),
    (NINES[1:] + b"8", NINES, "<"),
    (b"0" + NINES, NINES, "="),
    (POWER, NINES, ">"),
    (POWER, b"0" + NINES, ">"),
    (b"0" * 400, b"0", "="),
    (b"0" * 400, b"1", "<"),
    (NINES, b"", "<"),
]
# The relations that hold where a sign stands.
HOLDING = {"<": {"lt", "le", "ne"}, "=": {"ge", "le", "eq"}, ">": {"gt", "ge", "ne"}}
TURNED = {"<": ">", "=": "=", ">": "<"}
# A value, a pattern, and the whole value and what each wildcard takes, or nothing. A `\\` takes the meaning from the octet after it, and stands for
# itself at the end.
MATCHED = [
    (b"abcbc", b"a*b*c", b"abcbc||cb"),
    (b"aab", b"*?b", b"aab|a|a"),
    (b"ab", b"**", b"ab||ab"),
    (b"ab", b"?*", b"ab|a|b"),
    (b"abc", b"?*", b"abc|a|bc"),
    (b"abb", b"*b", b"abb|ab"),
    (b"aba", b"*b", None),
    (b"abab", b"*ab", b"abab|ab"),
    (b"abcabd", b"a*?b*", b"abcabd|bc|a|d"),
    (b"", b"", b""),
    (b"", b"*", b"|"),
    (b"", b"**", b"||"),
    (b"", b"?", None),
    (b"x", b"", None),
    (b"a", b"a*a", None),
    (b"aa", b"a*a", b"aa|"),
    (b"Frop", b"Frop", b"Frop"),
    (b"Frop", b"frop", None),
    (b"Frop!", b"Frop", None),
    (b"a*", b"a\\*", b"a*"),
    (b"ab", b"a\\*", None),
    (b"a?", b"a\\?", b"a?"),
    (b"ab", b"a\\?", None),
    (b"a\\b", b"a\\\\?", b"a\\b|b"),
    (b"ab", b"\\a\\b", b"ab"),
    (b"a\\", b"a\\", b"a\\"),
    (b"a\\", b"*\\", b"a\\|a"),
    (b"a\\", b"a\\\\", b"a\\"),
    (b"a", b"a\\", None),
]
# Under i;ascii-casemap letters match in either case, and what is taken is as the value has it.
MATCHED_LETTERS = [
    (b"bcd", b"B*", b"bcd|cd"),
    (b"BCD", b"b*d", b"BCD|C"),
    (b"Re: Hello", b"re:*", b"Re: Hello| Hello"),
    (b"[list] AbC", b"[*] ?b*", b"[list] AbC|list|A|C"),
    (b"a{", b"A[", None),
]
# A text and its flags.
FLAGS = [
    (b"", b""),
    (b"   ", b""),
    (b"\\Seen", b"\\Seen"),
    (b"\\Seen \\seen", b"\\Seen"),
    (b"\\dRaFt  \\ANSWERED \\flagged \\Deleted", b"\\dRaFt \\ANSWERED \\flagged \\Deleted"),
    (b" b a B  c A ", b"b a c"),
    (b"\\Recent a \\Junk \\ \\\\Seen \\Seenx", b"a"),
    (b"$Junk $Forwarded $MDNSent", b"$Junk $Forwarded $MDNSent"),
    (b"( ) { % * \" \\ ] } [ a(b a)b a{b a%b a*b a\"b a\\b a]b", b"} ["),
    (b"a\tb c\rd e", b"e"),
    (b"a\x7f \xc3\xa9 ok", b"ok"),
]
# Two texts, their flags joined, and those of the first that aren't in the second.
PAIRS = [
    (b"a b c", b"B", b"a b c", b"a c"),
    (b"\\Deleted", b"\\Answered \\DELETED", b"\\Deleted \\Answered", b""),
    (b"", b"x X y", b"x y", b""),
    (b"a b", b"", b"a b", b"a b"),
    (b"a", b"b c B", b"a b c", b"a"),
]
LETTERS_OF_FLAGS = b"abcdefghijklmnopqrstuvwxyz"
# So many patterns are tried in one run, and what they take stands in one string.
PATTERNS_AT_ONCE = 100


def string(octets):
    """A string of a script."""
    return b'"' + octets.replace(b"\\", b"\\\\").replace(b'"', b'\\"') + b'"'


def test(comparator, how, value, key):
    """A test of a value with a key."""
    return b"string :comparator %s %s %s %s" % (string(comparator.encode()), how.encode(), string(value), string(key))


def flagged(room, title, tests, names="", front=b"", mail=b""):
    """A session whose script has a flag for each test, and keeps those of the tests that hold: a test, and whether it does."""
    script = b"require [%s];\n" % b", ".join(string(it.encode()) for it in ("variables", "imap4flags", *names.split())) + front
    script += b"".join(b'if %s { addflag "x%d"; }\n' % (it, number) for number, (it, _) in enumerate(tests))
    flags = [f'"x{number}"' for number, (_, holds) in enumerate(tests) if holds]
    return reported(room, title, script, [mail], [[" ".join(['implicit "INBOX"', *flags])]], names=names)


def of_equality(room):
    """Values that equal or contain keys, under two comparators."""
    for title, how, rows in ("equal", ":is", EQUAL), ("contained", ":contains", CONTAINED):
        tests = [(test(by, how, value, key), holds) for value, key, *both in rows for by, holds in zip((OCTET, CASEMAP), both)]
        yield flagged(room, f"values and keys that are {title}", tests)
    # Keys are looked for one after another in one value.
    keys = [key for value, key, *_ in CONTAINED if value == LONG]
    absent = [key for value, key, _, holds in CONTAINED if value == LONG and not holds]
    tests = [(b"string :contains %s [%s]" % (string(LONG), b", ".join(map(string, [*absent, key]))), key not in absent) for key in keys]
    yield flagged(room, "one key after another", tests)


def of_orders(room):
    """How values stand to keys, from both sides, under three comparators."""
    for by, rows in (OCTET, OCTETS), (CASEMAP, LETTERS), (NUMERIC, NUMBERS):
        both = [(*row, sign) for value, key, sign in rows for row, sign in (((value, key), sign), ((key, value), TURNED[sign]))]
        tests = [(test(by, f':value "{it}"', value, key), it in HOLDING[sign]) for value, key, sign in both for it in ("gt", "ge", "lt", "le", "eq", "ne")]
        tests += [(test(by, ":is", value, key), sign == "=") for value, key, sign in both]
        yield flagged(room, f"orders under {by}", tests, f"{NUMERIC.replace('i;', 'comparator-i;')} relational")
    rows = [("v", b"007", True), ("v", b"12", True), ("v", b"8", False), ("v", rb"\Seen", True), ("w", b"$junk", False)]
    tests = [(b'hasflag :comparator "i;ascii-numeric" "%s" %s' % (name.encode(), string(key)), holds) for name, key, holds in rows]
    yield flagged(room, "flags are numbers too", tests, "comparator-i;ascii-numeric", b'setflag "v" "$junk 7 12x"; setflag "w" "7 12x";\n')


def slow(value, pattern):
    """What each wildcard takes of a value, or nothing where the pattern doesn't match."""
    if not pattern:
        return None if value else []
    first, rest = pattern[:1], pattern[1:]
    if first == b"*":
        tries = ((value[:length], slow(value[length:], rest)) for length in range(len(value) + 1))
        return next(([taken, *others] for taken, others in tries if others is not None), None)
    if first == b"?":
        others = slow(value[1:], rest) if value else None
        return None if others is None else [value[:1], *others]
    if first == b"\\" and rest:
        first, rest = rest[:1], rest[1:]
    return slow(value[1:], rest) if value[:1] == first else None


def texts_over(alphabet, most):
    """All texts of so many octets at most."""
    return [bytes(it) for length in range(most + 1) for it in itertools.product(alphabet, repeat=length)]


def of_patterns(room):
    """What wildcards take, and nothing after the last."""
    for by, rows in (OCTET, MATCHED), (CASEMAP, MATCHED_LETTERS):
        script, verdict = b'require ["variables", "fileinto"];\n', []
        for number, (value, pattern, told) in enumerate(rows):
            count = pattern.count(b"*") + pattern.count(b"?") + 1 if told is None else told.count(b"|") + 1
            name = b"|".join(b"${%d}" % it for it in range(count + 1))
            script += b'if %s { fileinto "%d:%s"; }\n' % (test(by, ":matches", value, pattern), number, name)
            verdict += [] if told is None else [f"store {quoted(b'%d:%s|' % (number, told))}"]
        yield reported(room, f"what wildcards take under {by}", script, [b""], [verdict])


def of_all_patterns(room):
    """All patterns of up to four octets against all values of up to five, as the slow way has it."""
    values, patterns = texts_over(b"ab", 5), texts_over(b"ab*?\\", 4)
    octets = [put(b"message m%d" % number, b"X: %s\n\n" % value) for number, value in enumerate(values)] + [b"main personal main\n"]
    told = ["ok"] * len(octets)
    for start in range(0, len(patterns), PATTERNS_AT_ONCE):
        some = patterns[start : start + PATTERNS_AT_ONCE]
        script = b'require ["variables", "reject"];\nset "t" "t";\n'
        for number, pattern in enumerate(some):
            names = b"|".join(b"${%d}" % it for it in range(6))
            script += b'if header :comparator "i;octet" :matches "X" %s { set "t" "${t} %d:%s"; }\n' % (string(pattern), number, names)
        octets += [put(b"script personal main", script + b'reject "${t}";\n'), b"report\n"]
        told += ["ok", 'main personal "main"', SETTINGS, *profile_lines("reject"), 'script personal "main" ok']
        for number, value in enumerate(values):
            taken = [(at, slow(value, pattern)) for at, pattern in enumerate(some)]
            reason = [b"%d:%s" % (at, b"|".join((value, *them, *[b""] * (5 - len(them))))) for at, them in taken if them is not None]
            told += [f'message "m{number}"', f"  reject {quoted(b' '.join([b't', *reason]))}", '  read personal "main"']
        told.append(f"total {len(values)} messages 0 errors")
    yield session(room, f"{len(patterns)} patterns against {len(values)} values", b"".join(octets), lines(*told), names="reject")


def stored(name, flags):
    """The line of a store with flags."""
    return " ".join([f'store "{name}"', *map(quoted, flags.split())])


def of_flags(room):
    """Lists of flags: of texts, joined, and taken from one another."""
    script, verdict = b'require ["imap4flags", "fileinto"];\n', []
    for number, (text, flags) in enumerate(FLAGS):
        script += b'setflag %s; fileinto "%d";\n' % (string(text), number)
        verdict.append(stored(number, flags))
    yield reported(room, "a text has each of its flags once", script, [b""], [verdict])
    script, verdict = b'require ["imap4flags", "fileinto"];\n', []
    for number, (first, second, both, left) in enumerate(PAIRS):
        script += b'setflag %s; addflag %s; fileinto "both %d";\n' % (string(first), string(second), number)
        script += b'setflag %s; removeflag %s; fileinto "left %d";\n' % (string(first), string(second), number)
        verdict += [stored(f"both {number}", both), stored(f"left {number}", left)]
    yield reported(room, "lists of flags are joined and taken from", script, [b""], [verdict])
    yield from of_changes(room)
    words = [bytes([first]) + bytes(rest) for first in LETTERS_OF_FLAGS + LETTERS_OF_FLAGS.upper() for rest in itertools.product(LETTERS_OF_FLAGS, repeat=2)]
    told = stored("INBOX", b" ".join(words[: len(words) // 2]))
    yield reported(room, "thousands of flags, each twice", b'require "imap4flags";\nsetflag %s; keep;' % string(b" ".join(words)), [b""], [[told]])


def of_changes(room):
    """Flags are added where they aren't there yet, in any case of letters, and taken out; the others stay in their order."""
    script = b'require ["imap4flags", "fileinto"];\nsetflag "a b"; addflag "B c"; fileinto "added";\n'
    for number, (by, flag) in enumerate([(CASEMAP, b"C"), (OCTET, b"C"), (OCTET, b"c"), (CASEMAP, b"d")]):
        script += b'if hasflag :comparator "%s" "%s" { fileinto "has %d"; }\n' % (by.encode(), flag, number)
    for number, flag in enumerate([b"B", b"b"]):
        script += b'removeflag "%s"; fileinto "removed %d";\n' % (flag, number)
    script += b'addflag " C b] $x  \\\\Recent b"; fileinto "again"; setflag ["\\\\Seen a", "", "A b"]; fileinto "several";'
    wanted = {"added": b"a b c", "has 0": b"a b c", "has 2": b"a b c", "removed 0": b"a c", "removed 1": b"a c", "again": b"a c $x b", "several": rb"\Seen a b"}
    yield reported(room, "a list of flags grows and shrinks", script, [b""], [[stored(*it) for it in wanted.items()]])


def of_modified(room):
    """A string of more than 4,096 octets is cut after all modifiers but `:length`, which counts all of it (RFC 5229, sections 4.1 and 6)."""
    value = b"a" * 4_090
    front = b'set "v" %s; set "w" "b";\nset "none" "${w}${v}${w}c${v}"; set :upper "upper" "${w}${v}${w}c${v}"; set :upper :length "length" "${w}${v}${w}c${v}";\n' % string(value)
    rows = [(b"none", b"b" + value + b"bcaaa"), (b"upper", b"B" + value.upper() + b"BCAAA"), (b"length", b"8183")]
    tests = [(b'string :comparator "i;octet" "${%s}" %s' % (name, string(wanted)), True) for name, wanted in rows]
    yield flagged(room, "modified strings that are cut", tests, front=front)


def of_matches(room):
    """All of them."""
    room = room / "matching"
    room.mkdir()
    for part in (of_equality, of_orders, of_patterns, of_all_patterns, of_flags, of_modified):
        yield from some(part.__name__, part(room))
