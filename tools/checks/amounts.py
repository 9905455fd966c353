"""Sessions that are too long for a row: many of something, long ones, and what stands at a limit or past it."""
from . import runs
from .runs import lines, put, reported, session, some

TEXT_LIMIT, MESSAGE_LIMIT, EXPECTED_LIMIT, NAME_LIMIT, MAILBOX_LIMIT, SCRIPT_LIMIT, MAIL_LIMIT, LINE_LIMIT = 1_048_576, 16_777_216, 65_536, 1_024, 255, 4_096, 65_536, 16_384
MAILBOXES_LIMIT = 1_048_576
VALUE_LIMIT = 4_096
LAST_SECOND = 253_402_300_799
KEPT = ['implicit "INBOX"']
SESSION = b"script personal main 9\ndiscard;\nmessage m1 0\nmain personal main\nreport\n"
REPORT = lines('main personal "main"', runs.SETTINGS, 'script personal "main" ok', 'message "m1"', "  discard", '  read personal "main"', "total 1 messages 0 errors")


def of_sessions(room):
    """All of them."""
    for part in (of_cuts, of_lines, of_words, of_counts, of_mails, of_keys, of_texts, of_nesting, of_actions, of_variables, of_flags, of_includes):
        folder = room / part.__name__
        folder.mkdir()
        yield from some(part.__name__, part(folder))


def of_cuts(room):
    """A session that is cut off after each of its octets."""
    ends = [(0, b"", 0), (21, b"no syntax\n", 2), (31, b"no truncated\n", 2), (32, b"ok\n", 0), (43, b"ok\nno syntax\n", 2), (45, b"ok\nok\n", 0)]
    ends += [(59, b"ok\nok\nno syntax\n", 2), (64, b"ok\nok\nok\n", 0), (69, b"ok\nok\nok\nno syntax\n", 2), (71, b"ok\nok\nok\n" + REPORT, 0)]
    for octets in range(len(SESSION) + 1):
        replies, status = next(end[1:] for end in ends if octets <= end[0])
        yield session(room, f"a session that is cut off after {octets} octets", SESSION[:octets], replies, status)


def of_lines(room):
    """Lines at their limit and past it."""
    refused = (b"no syntax\n", 2)
    for title, spaces, end, told in [
        ("a line at its limit", 0, b"\n", (b"", 0)),
        ("a line at its limit, with a CR", 0, b"\r\n", (b"", 0)),
        ("a line at its limit, without an end", 0, b"", (b"", 0)),
        ("a CR past it", 0, b"\r", refused),
        ("a CR of its own past it", 0, b"\r\r\n", refused),
        ("a line past it", 1, b"\n", refused),
        ("a line past it, without an end", 1, b"", refused),
    ]:
        yield session(room, title, b" " * (LINE_LIMIT + spaces) + end, *told)


def escaped_drop(count):
    """A line that drops the message whose id is so many octets `n`, each of them escaped."""
    return b'drop-message "%s"\n' % (b"\\x6e" * count)


def of_words(room):
    """Words at their limits and past them."""
    large, no_script, no_message = b"no too-large\n", b"no no-such-script\n", b"no no-such-message\n"
    for front, limit, end, reply, past in [
        (b"message-envelope ", NAME_LIMIT, b" a b\n", no_message, large),
        (b"message-envelope m ", NAME_LIMIT, b" b\n", no_message, large),
        (b"message-envelope m a ", NAME_LIMIT, b"\n", no_message, large),
        (b"no-message-envelope ", NAME_LIMIT, b"\n", no_message, large),
        (b"main personal ", NAME_LIMIT, b"\n", b"ok\n", large),
        (b"script personal ", NAME_LIMIT, b" 0\n", b"ok\n", large),
        (b"message ", NAME_LIMIT, b" 0\n", b"ok\n", large),
        (b"mailbox ", MAILBOX_LIMIT, b"\n", b"ok\n", large),
        (b"envelope ", NAME_LIMIT, b" b\n", b"ok\n", large),
        (b"envelope a ", NAME_LIMIT, b"\n", b"ok\n", large),
        (b"rename personal ", NAME_LIMIT, b" personal b\n", no_script, large),
        (b"rename personal a personal ", NAME_LIMIT, b"\n", no_script, large),
        (b"drop-script personal ", NAME_LIMIT, b"\n", no_script, large),
        (b"drop-message ", NAME_LIMIT, b"\n", no_message, large),
        (b"expect ", NAME_LIMIT, b" 0\n", no_message, large),
        (b"no-expect ", NAME_LIMIT, b"\n", no_message, large),
        (b"dump personal ", NAME_LIMIT, b"\n", no_script, no_script),
    ]:
        title = f"the word after `{front.decode()}`"
        names = "envelopes" if b"message-envelope " in front else ""
        yield session(room, f"{title} at its limit", front + b"n" * limit + end, reply, names=names)
        yield session(room, f"{title} past it", front + b"n" * (limit + 1) + end, past, names=names)
    long = b"n" * (NAME_LIMIT + 1)
    renames = [b"personal b personal " + long, b"personal " + long + b" personal a", b"personal b personal a", b"personal a personal a"]
    refusals = [large, large, no_script, b"no name-taken\n"]
    octets = b"script personal a 0\n" + b"".join(b"rename %s\n" % words for words in renames)
    yield session(room, "the order of a rename's refusals", octets, b"ok\n" + b"".join(refusals))
    octets = b"message %s 0\n" % (b"n" * NAME_LIMIT) + escaped_drop(NAME_LIMIT + 1) + escaped_drop(NAME_LIMIT) * 2
    yield session(room, "an id of escapes past its limit and at it", octets, b"ok\n" + large + b"ok\n" + no_message)
    name = b"n" * NAME_LIMIT
    octets = b"script global @ 8\ndiscard;message @ 0\nmain global @\nenvelope @ @\nreport\n"
    told = ["ok"] * 4 + ['main global "@"', 'envelope "@" "@" mailbox "INBOX"', 'script global "@" ok', 'message "@"', "  discard", '  read global "@"']
    replies = lines(*told, "total 1 messages 0 errors")
    yield session(room, "names at their limit", octets.replace(b"@", name), replies.replace(b"@", name))


def of_counts(room):
    """As many scripts and messages as there may be, octets past their limit, and many lines."""
    listed = b"".join(b'message "%d"\n  implicit "INBOX"\n' % i for i in range(2_000))
    octets = b"".join(b"message %d 0\n" % i for i in range(2_000)) + b"report\n"
    yield session(room, "two thousand messages", octets, b"ok\n" * 2_000 + lines("main none", runs.SETTINGS) + listed + b"total 2000 messages 0 errors\n")
    # Comparing an id that isn't there with each id would take minutes.
    octets = b"".join(b"message %d 0\n" % i for i in range(60_000)) + b'drop-message m\ndrop-message "\\x6d"\n' * 150_000
    yield session(room, "absent messages among many", octets, b"ok\n" * 60_000 + b"no no-such-message\n" * 300_000)
    octets = b"".join(b"message %d 0\n" % i for i in range(MAIL_LIMIT)) + b"message more 0\nmessage 0 1\nx"
    yield session(room, "as many messages as there may be, one more, and one again", octets, b"ok\n" * MAIL_LIMIT + b"no full\nok\n")
    octets = b"".join(b"script personal %d 0\n" % i for i in range(SCRIPT_LIMIT)) + b"script personal main 0\nscript personal 1023 5\nstop;"
    yield session(room, "as many scripts as there may be, one more, and one again", octets, b"ok\n" * SCRIPT_LIMIT + b"no full\nok\n")
    for octets, told in [
        (TEXT_LIMIT, ["ok", "main none", runs.SETTINGS, 'script personal "a" ok', "total 0 messages 0 errors"]),
        (TEXT_LIMIT + 1, ["no too-large", "main none", runs.SETTINGS, "total 0 messages 0 errors"]),
    ]:
        yield session(room, f"a script of {octets} octets", put(b"script personal a", b" " * octets) + b"report\n", lines(*told))
    octets = put(b"message m", b" " * MESSAGE_LIMIT) + put(b"message m", b" " * (MESSAGE_LIMIT + 1))
    yield session(room, "a message at its limit, and past it", octets, b"ok\nno too-large\n")
    octets = b"message m 0\n" + put(b"expect m", b" " * EXPECTED_LIMIT) + put(b"expect m", b" " * (EXPECTED_LIMIT + 1)) + put(b"expect x", b" " * (EXPECTED_LIMIT + 1))
    yield session(room, "an expected text at its limit, and past it", octets, b"ok\nok\nno too-large\nno too-large\n")
    octets = put(b"mailboxes", b"x\n" * (MAILBOXES_LIMIT // 2)) + put(b"mailboxes", b"y" * (MAILBOXES_LIMIT + 1)) + b"report\n"
    told = ["ok", "no too-large", "main none", runs.SETTINGS, "with mailbox", f"mailboxes {MAILBOXES_LIMIT // 2}", "total 0 messages 0 errors"]
    yield session(room, "a list of mailboxes at its limit, and past it", octets, lines(*told), names="mailbox")
    yield from of_clocks(room)


def of_clocks(room):
    """Clocks at their limits, and past them."""
    for title, digits, zone, is_one in [
        ("the last second", b"%d" % LAST_SECOND, b"+9959", True),
        ("a second past it", b"%d" % (LAST_SECOND + 1), b"+0000", False),
        ("zeros to the end of the longest line", b"0" * (LINE_LIMIT - 12), b"-0000", True),
        ("many zeros before the last second", b"0" * 16_000 + b"%d" % LAST_SECOND, b"+0000", True),
        ("many zeros before a second past it", b"0" * 16_000 + b"%d" % (LAST_SECOND + 1), b"+0000", False),
        ("many nines", b"9" * (LINE_LIMIT - 12), b"+0000", False),
        ("what is nought in 64 bits", b"%d" % 2**64, b"+0000", False),
        ("a minute past the last of an hour", b"0", b"+0060", False),
    ]:
        told = [b"ok\n", 0] if is_one else [b"no syntax\n", 2]
        yield session(room, f"a clock: {title}", b"clock %s %s\n" % (digits, zone), *told, names="date")


def of_mails(room):
    """Long mails."""
    for size, script in [(1_048_577, b"if size :over 1048576 { discard; }"), (MESSAGE_LIMIT, b"if size :over 16777215 { discard; }")]:
        yield reported(room, f"a mail of {size} octets", script, [b"x" * size], [["discard"]])
    for size, script, verdict in [
        (1_024, b"if size :over 1K { discard; } if size :under 1K { discard; }", KEPT),
        (1_023, b"if size :over 1K { discard; }", KEPT),
        (1_023, b"if size :under 1K { discard; }", ["discard"]),
        (1_025, b"if size :over 1K { discard; }", ["discard"]),
        (1_025, b"if size :under 1K { discard; }", KEPT),
        (1_024, b"if size :over 1023 { discard; }", ["discard"]),
        (1_024, b"if size :under 1025 { discard; }", ["discard"]),
        (4_000, b"if anyof (size :over 4000, size :under 4000) { discard; }", KEPT),
        (4_000, b"if allof (size :over 3999, size :under 4001) { discard; }", ["discard"]),
    ]:
        yield reported(room, f"the size of a mail of {size} octets", script, [b"x" * size], [verdict])
    script = b'if header "subject" "hello" { discard; }'
    yield reported(room, "a mail of many fields", script, [b"X: a\n" * 2_000 + b"Subject: hello\n\n"], [["discard"]])
    script = b'if allof (header :contains "subject" "a b", header :contains "subject" "b c") { discard; }'
    yield reported(room, "a field of many lines", script, [b"Subject: a\n" + b" b\n" * 100_000 + b" c\n\n"], [["discard"]])


def of_keys(room):
    """Keys of 50,001 octets, of which each place of the value but the last begins all but the end."""
    mail = b"Subject: " + b"a" * 500_000 + b"b\n\n"
    for last, octet, casemap in [(b"b", True, True), (b"B", False, True), (b"c", False, False)]:
        for name, holds in [(b"i;octet", octet), (b"i;ascii-casemap", casemap)]:
            script = b'if header :contains :comparator "%s" "subject" "%s" { discard; }' % (name, b"a" * 50_000 + last)
            yield reported(room, f"a long key that ends in {last!r} by {name!r}", script, [mail], [["discard"] if holds else KEPT])


def of_texts(room):
    """Long scripts, their lists and strings."""
    script = b'if header "subject" [' + b'"no", ' * 999 + b'"yes"] { discard; }'
    yield reported(room, "a list of many strings", script, [b"Subject: yes\n\n"], [["discard"]])
    yield reported(room, "a command of many arguments", b'keep "a" ["b"]' + b" 1" * 298 + b";", [b""], [[]], "line 1 bad-arguments")
    octets = b"x" * 100_000
    yield reported(room, "a string of many octets", b'if header "subject" "' + octets + b'" { discard; }', [b"Subject: " + octets + b"\n\n"], [["discard"]])
    # Each piece begins no script, however often it is repeated, and is looked at once.
    for piece in [b"[", b"(", b'"', b"{", b";", b"\x7f", b"a", b'a ["b", ', b'a "bcde"', b"text:\nx\n", b"/*\n "]:
        yield reported(room, f"a text of many {piece!r}", piece * (60_000 // len(piece)), [b""], [[]], "line 1 syntax")
    yield reported(room, "a text of line ends", b"\n" * TEXT_LIMIT, [b""], [KEPT])


def of_nesting(room):
    """Blocks and tests in each other, 32 deep and deeper."""
    turn = b"if false { stop; }\n" * 33 + b"discard;"
    yield reported(room, "many blocks in turn", turn, [b""], [["discard"]])
    for title, opened, deep, middle, closed, line, verdict in [
        ("blocks", b"if true {\n", 32, b"discard;", b"}", 33, ["discard"]),
        ("blocks without a command", b"if true {\n", 32, b"", b"}", 33, KEPT),
        ("blocks after blocks", b"if true {keep;}\nif true {", 32, b"", b"}", 33, ['store "INBOX"']),
        ("nots", b" not", 31, b" true {discard;}", b"", 1, KEPT),
        ("nots without a command", b" not", 31, b" true{}", b"", 1, KEPT),
        ("lists of tests", b" allof (", 31, b"true", b")", 1, KEPT),
        ("a list of tests in nots", b" not", 30, b" allof (true){}", b"", 1, KEPT),
    ]:
        front, end = (b"if", b"{}" if closed else b"") if opened.startswith(b" ") else (b"", b"")
        texts = [front + opened * count + middle + closed * count + end for count in (deep, deep + 1)]
        yield reported(room, f"{title}, {deep} times", texts[0], [b""], [verdict])
        yield reported(room, f"{title}, once more", texts[1], [b""], [[]], f"line {line} syntax")


def of_actions(room):
    """As many actions as a run may have, and mailboxes of long names."""
    require = b'require "fileinto";\n'
    for command, action in [(b'fileinto "%d";\n', 'store "%d"'), (b'redirect "%d@x.example";\n', 'redirect "%d@x.example"')]:
        many = require + b"".join(command % i for i in range(1, 33))
        verdict = [action % i for i in range(1, 33)]
        yield reported(room, f"as many actions as there may be: {action}", many, [b""], [verdict])
        yield reported(room, "one that is there already needs no room", many + command % 7, [b""], [verdict])
        yield reported(room, "one more", many + command % 33, [b""], [KEPT + ['error personal "main" line 34 too-many-actions']])
    many = b'require ["fileinto", "copy"];\n' + b"".join(b'fileinto :copy "%d";\n' % i for i in range(1, 33))
    verdict = [f'store "{i}"' for i in range(1, 33)]
    yield reported(room, "as many copies as there may be actions", many, [b""], [verdict + KEPT])
    yield reported(room, "a copy that is there already needs no room", many + b'fileinto :copy "7";', [b""], [verdict + KEPT])
    yield reported(room, "one copy more", many + b'fileinto :copy "33";', [b""], [KEPT + ['error personal "main" line 34 too-many-actions']])
    for size, verdict in [(MAILBOX_LIMIT, ['store "' + "b" * MAILBOX_LIMIT + '"']), (MAILBOX_LIMIT + 1, KEPT + ['error personal "main" line 1 bad-mailbox'])]:
        script = b'require "fileinto"; fileinto "' + b"b" * size + b'";'
        yield reported(room, f"a mailbox whose name has {size} octets", script, [b""], [verdict])


def of_variables(room):
    """What is too long for a row: many variables, a long value, and two mails."""
    require = b'require ["variables", "fileinto"];\n'
    many = [require + b"".join(b'set "v%d" "x";\n' % i for i in range(1, count + 1)) for count in (128, 129)]
    yield reported(room, "as many variables as a script may set", many[0], [b""], [['implicit "INBOX"']])
    yield reported(room, "one more", many[1], [b""], [[]], "line 130 too-many-variables")
    yield reported(room, "one again, in another case", many[0] + b'set "V100" "y"; fileinto "${v100}";', [b""], [['store "y"']])
    block = many[0].replace(b"\n", b"\nif false {", 1) + b"}\n"
    yield reported(room, "one that is only read doesn't count", many[0] + b'fileinto "<${other}>";', [b""], [['store "<>"']])
    yield reported(room, "one that a block sets", many[0] + b'if false {\nset "other" ""; }', [b""], [[]], "line 131 too-many-variables")
    yield reported(room, "those of a block count", block + b'set "w" "x";', [b""], [[]], "line 131 too-many-variables")
    value = require + b'set "a" "' + b"x" * 4097 + b'"; set :length "b" "${a}"; set :length "c" "${a}${a}"; fileinto "${b}|${c}";'
    yield reported(room, "a value is cut", value, [b""], [['store "4096|8192"']])
    for modifiers, count, told in [
        ("", 4_096, "4096"),
        ("", 4_097, "4096"),
        (":quotewildcard", 2_047, "4094"),
        (":quotewildcard", 2_049, "4096"),
        (":quotewildcard", 4_097, "4096"),
    ]:
        octets = require + f'set {modifiers} "b" "{"*" * count}"; set :length "c" "${{b}}"; fileinto "${{c}}";'.encode()
        yield reported(room, f"{count} stars as a value, set {modifiers}", octets, [b""], [[f'store "{told}"']])
    for modifiers, told in [(":length", "4097"), (":upper :lowerfirst :quotewildcard :length", "8194")]:
        octets = require + f'set {modifiers} "b" "{"*" * 4_097}"; fileinto "${{b}}";'.encode()
        yield reported(room, f"a long value is counted whole, set {modifiers}", octets, [b""], [[f'store "{told}"']])
    held = require + b'fileinto "<${a}${0}>"; set "a" "x"; if string :matches "y" "*" {}'
    yield reported(room, "a run begins with no variable set", held, [b"", b"Subject: x\n\n"], [['store "<>"']] * 2)


def of_flags(room):
    """What is too long for a row: many variables that hold flags, many flags, and two mails."""
    require = b'require ["variables", "fileinto", "imap4flags"];\n'
    names = b", ".join(b'"w%d"' % i for i in range(1, 200))
    many = require + b"".join(b'removeflag "v%d" "x";\n' % i for i in range(1, 129)) + b"if hasflag [" + names + b'] "x" {}\n'
    yield reported(room, "as many variables as flag commands may name", many + b'addflag "V100" "x";', [b""], [['implicit "INBOX"']])
    yield reported(room, "one more by a flag command", many + b'setflag "w" "x";', [b""], [[]], "line 131 too-many-variables")
    value = require + b'setflag "v" ["' + b"x" * 4095 + b'", "yz"]; set :length "n" "${v}"; addflag "v" "q"; keep :flags "${v}"; fileinto "${n}";'
    yield reported(room, "flags in a variable are cut", value, [b""], [['store "INBOX" "' + "x" * 4095 + '"', 'store "4096"']])
    flags = b" ".join(b"f%d" % i for i in range(60_000))
    spread = require + b'setflag ["' + flags + b'"]; removeflag "' + flags.replace(b"f9", b"g9") + b'"; if hasflag "F9" { discard; }'
    yield reported(room, "sixty thousand flags", spread, [b""], [["discard"]])
    letters = [bytes([octet]) for octet in range(33, 127) if chr(octet) not in '(){%*"\\]' and not chr(octet).isupper()]
    different = b" ".join(one + two + three for one in letters for two in letters for three in letters)
    script = require + b'setflag "' + different + b'"; if hasflag "~~~" { discard; }'
    yield reported(room, "all 216,000 flags of three octets that differ", script, [b""], [["discard"]])
    held = require + b'keep; addflag "x";'
    yield reported(room, "a run begins with no flag", held, [b"", b"Subject: x\n\n"], [['store "INBOX"']] * 2)


def of_includes(room):
    """Names at their limit and past it, and which bound of a run is reported where two are reached."""
    require = b'require ["include", "variables", "imap4flags"];\n'
    for size, told in [(NAME_LIMIT, "ok"), (NAME_LIMIT + 1, "no too-large")]:
        name = b"n" * size
        read = f'read personal "{name.decode()}"' + ("" if told == "ok" else " missing")
        for words, verdict in [(b"", [KEPT + ['error personal "main" line 2 missing-script'], ["discard"]]), (b":optional ", [KEPT, ["discard"]])]:
            scripts = [(b"main", require + b'include %s"%s";' % (words, name)), (name, b"discard;")]
            listed = [b"main", name] if told == "ok" else [b"main"]
            yield included(room, f"an include {words.decode()}of a name of {size} octets", scripts, ["ok", told], listed, verdict[told == "ok"] + ['read personal "main"', read])
    deep = [(b"s%d" % i, require + b'include "s%d";' % (i + 1)) for i in range(10)]
    down = [f'read personal "s{i}"' for i in range(11)]
    failed = 'error personal "s10" line 2 '
    for title, last, verdict in [
        ("a script that runs, where no other may be included", b'include "s3";', KEPT + [failed + "recursive-include"]),
        ("one that runs, under :once", b'include :once "s3"; discard;', ["discard"]),
        ("one that may be missing, there", b'include :optional "none"; discard;', KEPT + [failed + "include-depth"]),
    ]:
        scripts = deep + [(b"s10", require + last)]
        yield included(room, title, scripts, ["ok"] * 11, sorted(name for name, text in scripts), verdict + down)
    many = require + b'include "a";\n' * 256
    for title, last, verdict in [
        ("one include too many of a script that isn't there", b'include :optional "none";', KEPT + ['error personal "main" line 258 include-count']),
        ("of one that runs", b'include "main";', KEPT + ['error personal "main" line 258 recursive-include']),
        ("of one that was entered, under :once", b'include :once "a"; discard;', ["discard"]),
    ]:
        scripts = [(b"main", many + last), (b"a", b"")]
        yield included(room, title, scripts, ["ok"] * 2, [b"a", b"main"], verdict + ['read personal "main"', 'read personal "a"'])
    shared = require + b"".join(b'set "global.g%d" "x";\n' % i for i in range(1, 129))
    for title, last, verdict in [
        ("one shared variable too many, to nothing, by a flag command", b'removeflag "global.g129" "x";', KEPT + ['error personal "main" line 130 too-many-globals']),
        ("one that is only read", b'if string "${global.g129}" "" { discard; }', ["discard"]),
    ]:
        yield included(room, title, [(b"main", shared + last)], ["ok"], [b"main"], verdict + ['read personal "main"'])


def included(room, title, scripts, told, listed, verdict):
    """A session that reports what scripts do with an empty mail, the first of them being main: the replies to their puts, the names that
    are listed, and the lines of the verdict."""
    main = scripts[0][0]
    octets = b"".join(put(b"script personal " + name, text) for name, text in scripts) + b"message m 0\nmain personal " + main + b"\nreport\n"
    names = [f'script personal "{name.decode()}" ok' for name in listed]
    errors = sum(line.startswith("error ") for line in verdict)
    verdict = [f"  {line}" for line in verdict]
    replies = lines(*told, "ok", "ok", f'main personal "{main.decode()}"', runs.SETTINGS, *names, 'message "m"', *verdict, f"total 1 messages {errors} errors")
    return session(room, title, octets, replies)
