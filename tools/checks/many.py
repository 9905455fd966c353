"""Many of each thing that a script or a message holds: a few, some more, and as many as there may be. What must come out is written from the
rules: the report, the code, and the report once more after two renames."""
from .amounts import MAIL_LIMIT, SCRIPT_LIMIT
from .runs import SETTINGS, lines, put, session, some

COUNTS = (1, 12, 25, 60, 150, 1_200)
KEPT = ['implicit "INBOX"']


def counts(limit=None):
    """How many there are in turn."""
    return COUNTS if limit is None else (*(count for count in COUNTS if count < limit), limit)


def each(form, count, between=", "):
    """A text with each number up to a count, in turn."""
    return between.join(form % number for number in range(1, count + 1))


def listed(form, count):
    """A list of so many strings, as scripts and as code have it."""
    return "[" + each(f'"{form}"', count) + "]"


def shown(room, title, script, mail, verdict, code, scripts=(), reads=()):
    """A session that reports what a script does with a mail, renames the script twice, prints its code and reports again; the verdict's
    lines, the operations, other scripts, and the names that are looked up after the main one."""
    names = sorted(["main", *(name for name, text in scripts)])
    puts = b"".join(put(f"script personal {name}".encode(), text.encode()) for name, text in [("main", script), *scripts])
    words = lines("main personal main", "report", "rename personal main personal other", "rename personal other personal main", "dump personal main", "report")
    told = [f"  {line}" for line in [*verdict, 'read personal "main"', *reads]]
    report = ['main personal "main"', SETTINGS, *(f'script personal "{name}" ok' for name in names), 'message "m"', *told, "total 1 messages 0 errors"]
    dump = [f"{place}: {operation}" for place, operation in enumerate(code)]
    replies = lines(*["ok"] * (len(names) + 2), *report, "ok", "ok", *dump, "ok", *report)
    return session(room, title, puts + put(b"message m", mail.encode()) + words, replies)


def tested(room, title, require, test, mail, holds, operation):
    """A test of one operation, after which a message is discarded."""
    code = [operation, "jump-if-false 3", f"discard @{require.count(chr(10)) + 1}"]
    return shown(room, title, f"{require}if {test} {{ discard; }}", mail, ["discard"] if holds else KEPT, code)


def of_messages(room):
    """Fields, their lines, and addresses."""
    for count in counts():
        mail = "To: " + each("a%d@x.example", count) + "\n\n"
        for number, holds in (count, True), (count + 1, False):
            key = f'"a{number}@x.example"'
            yield tested(room, f"{count} addresses, {key}", "", f'address "to" {key}', mail, holds, f'address is casemap all ["to"] [{key}]')
        mail = each("X: v%d\n", count, "")
        yield tested(room, f"{count} fields", "", f'header "x" "v{count}"', mail, True, f'header is casemap ["x"] ["v{count}"]')
        mail = "Subject: " + each("=?utf-8?Q?w%d?=", count, " ") + "\n"
        joined = each("w%d", count, "")
        yield tested(room, f"{count} encoded words", "", f'header "subject" "{joined}"', mail, True, f'header is casemap ["subject"] ["{joined}"]')
        mail = "Subject: " + each("w%d", count, "\n ") + ";\n\n"
        yield tested(room, f"a field of {count} lines", "", f'header :matches "subject" "* w{count};"', mail, count > 1, f'header matches casemap ["subject"] ["* w{count};"]')


def of_lists(room):
    """Keys, names of fields, and strings."""
    for count in counts():
        keys = listed("k%d", count)
        yield tested(room, f"{count} keys", "", f'header "subject" {keys}', f"Subject: k{count}\n", True, f'header is casemap ["subject"] {keys}')
        yield tested(room, f"{count} names", "", f'header {keys} "v"', f"k{count}: v\n", True, f'header is casemap {keys} ["v"]')
        for size, holds in (count, True), (count - 1, False):
            yield tested(room, f"{count} names of {size} fields", "", f"exists {keys}", each("k%d: v\n", size, ""), holds, f"exists {keys}")
        yield tested(room, f"{count} strings", 'require "variables";\n', f'string {keys} "k{count}"', "", True, f'string is casemap {keys} ["k{count}"]')


def of_conditions(room):
    """Tests of a list, and branches of a choice."""
    for count in counts():
        tests = [f'header "x{number}" "v"' for number in range(1, count + 1)]
        operations = [f'header is casemap ["x{number}"] ["v"]' for number in range(1, count + 1)]
        past, mail = 2 * count - 1, each("x%d: v\n", count, "")
        for name, jump, fields in ("allof", "jump-if-false", mail), ("anyof", "jump-if-true", f"x{count}: v\n"):
            code = [line for operation in operations for line in (operation, f"{jump} {past}")][:-1]
            script = f"if {name} ({', '.join(tests)}) {{ discard; }}"
            yield shown(room, f"{count} tests of {name}", script, fields, ["discard"], [*code, f"jump-if-false {past + 2}", "discard @1"])
        script = "if " + " elsif ".join(f"{test} {{ keep; }}" for test in tests) + " else { discard; }"
        code = [line for place, operation in enumerate(operations, 1) for line in (operation, f"jump-if-false {4 * place}", "keep internal @1", f"jump {4 * count + 1}")]
        yield shown(room, f"{count} branches, of which the last holds", script, f"x{count}: v\n", ['store "INBOX"'], [*code, "discard @1"])
        yield shown(room, f"{count} branches, of which none holds", script, "", ["discard"], [*code, "discard @1"])


def of_commands(room):
    """Commands, actions, and scripts that are included."""
    for count in counts():
        code = [f"keep internal @{line}" for line in range(1, count + 1)]
        yield shown(room, f"{count} commands", "keep;\n" * count, "", ['store "INBOX"'], code)
        script = 'require "include";\n' + each('include :optional "a%d";', count, "\n")
        code = [f'include personal optional "a{number}" @{number + 1}' for number in range(1, count + 1)]
        yield shown(room, f"{count} scripts that are missing", script, "", KEPT, code, reads=[f'read personal "a{number}" missing' for number in range(1, count + 1)])
        text = "#" * (min(count, 1_048) * 1_000) + "\ndiscard;"
        yield shown(room, f"a script of {len(text)} octets", text, "", ["discard"], ["discard @2"])
    for count in counts(32):
        script = 'require "fileinto";\n' + each('fileinto "b%d";', count, "\n")
        code = [f'fileinto "b{number}" internal @{number + 1}' for number in range(1, count + 1)]
        yield shown(room, f"{count} actions", script, "", [f'store "b{number}"' for number in range(1, count + 1)], code)
    for count in counts(256):
        script = 'require "include";\n' + each('include "a%d";', count, "\n")
        code = [f'include personal "a{number}" @{number + 1}' for number in range(1, count + 1)]
        names = [f"a{number}" for number in range(1, count + 1)]
        yield shown(room, f"{count} scripts that are included", script, "", KEPT, code, [(name, "") for name in names], [f'read personal "{name}"' for name in names])


def of_variables(room):
    """Variables, the parts of a string, what it stands for, and match variables."""
    require = 'require ["variables", "fileinto", "include"];\n'
    for count in counts(128):
        for prefix, scope in ("v", "local"), ("global.v", "global"):
            script = require + each(f'set "{prefix}%d" "x";', count, "\n") + f'\nfileinto "${{{prefix}{count}}}";'
            code = [f'set {scope}(v{number}) "x" @{number + 1}' for number in range(1, count + 1)]
            yield shown(room, f"{count} {scope} variables", script, "", ['store "x"'], [*code, f"fileinto {scope}(v{count}) internal @{count + 2}"])
    for count in counts():
        script = require + 'set "a" "xy"; if string "' + "-".join(["${a}"] * count) + '" "' + "-".join(["xy"] * count) + '" { discard; }'
        parts = '+"-"+'.join(["local(a)"] * count)
        code = ['set local(a) "xy" @2', f'string is casemap [{parts}] ["{"-".join(["xy"] * count)}"]', "jump-if-false 4", "discard @2"]
        yield shown(room, f"{count} references", script, "", ["discard"], code)
        pattern, number = "-".join("*" * count), min(count, 99)
        script = require + f'if header :matches "subject" "{pattern}" {{ fileinto "${{{number}}}"; }}'
        code = [f'header matches casemap ["subject"] ["{pattern}"]', "jump-if-false 3", f"fileinto match({number}) internal @2"]
        yield shown(room, f"{count} wildcards", script, f"Subject: {each('w%d', count, '-')}\n", [f'store "w{number}"'], code)
    for count in counts(150):
        value = "x" * 4_096
        script = require + f'set "a" "{value}"; if string "{"${a}" * count}" "{value * count}" {{ discard; }}'
        code = [f'set local(a) "{value}" @2', f'string is casemap [{"+".join(["local(a)"] * count)}] ["{value * count}"]', "jump-if-false 4", "discard @2"]
        yield shown(room, f"a string of {len(value * count)} octets", script, "", ["discard"], code)


def of_flags(room):
    """Flags of a list, flags that are added and removed, and keys."""
    require = 'require "imap4flags";\n'
    for count in counts():
        flags, others, keys = listed("f%d", count), listed("g%d", count), listed("k%d", count)
        held, more = each(' "f%d"', count, ""), each(' "g%d"', count, "")
        for title, commands, code, stored in [
            ("flags", "", [], held),
            ("flags and as many more", f"addflag {others};", [f"addflag internal {others} @2"], held + more),
            ("flags that are there", f"addflag {flags};", [f"addflag internal {flags} @2"], held),
            ("flags, all removed", f"removeflag {flags};", [f"removeflag internal {flags} @2"], ""),
            ("others removed", f"removeflag {others};", [f"removeflag internal {others} @2"], held),
        ]:
            script = f"{require}setflag {flags}; {commands} keep;"
            yield shown(room, f"{count} {title}", script, "", [f'store "INBOX"{stored}'], [f"setflag internal {flags} @2", *code, "keep internal @2"])
        # A store that is joined again takes what came since it was joined last, what was removed and set again in between too.
        steps = [f'addflag "f{number}"; removeflag "f{number}"; addflag "f{number}"; keep;' for number in range(1, count + 1)]
        code = [line for number in range(1, count + 1) for line in (*(f'{command} internal ["f{number}"] @{number + 1}' for command in ("addflag", "removeflag", "addflag")), f"keep internal @{number + 1}")]
        yield shown(room, f"{count} joined stores", require + "\n".join(steps), "", [f'store "INBOX"{held}'], code)
        script = f'{require}setflag {flags}; keep; removeflag "f1"; keep; addflag ["f1", "x"]; keep;'
        code = [f"setflag internal {flags} @2", "keep internal @2", 'removeflag internal ["f1"] @2', "keep internal @2", 'addflag internal ["f1", "x"] @2', "keep internal @2"]
        yield shown(room, f"a store of {count} flags, joined after changes", script, "", [f'store "INBOX"{held} "x"'], code)
        script = f'{require}setflag "k{count}"; if hasflag {keys} {{ discard; }}'
        code = [f'setflag internal ["k{count}"] @2', f"hasflag is casemap internal {keys}", "jump-if-false 4", "discard @2"]
        yield shown(room, f"{count} keys of hasflag", script, "", ["discard"], code)
        script = f'{require}setflag {keys}; if hasflag "K{count}" {{ discard; }}'
        code = [f"setflag internal {keys} @2", f'hasflag is casemap internal ["K{count}"]', "jump-if-false 4", "discard @2"]
        yield shown(room, f"a key of hasflag and {count} flags", script, "", ["discard"], code)


def of_benches(room):
    """Scripts, messages, and texts that are expected: reported, each changed or renamed, and reported again."""
    for count in counts(SCRIPT_LIMIT):
        names = sorted(f"s{number}" for number in range(count))
        puts = b"".join(put(f"script personal {name}".encode(), b"keep;") for name in names)
        words = lines("report", *(f"rename personal {name} global {name}" for name in names), "report", *(f"drop-script global {name}" for name in names), "report")
        told = ["main none", SETTINGS]
        none, ok = "total 0 messages 0 errors", ["ok"] * count
        reports = [[*told, *(f'script {place} "{name}" ok' for name in names), none] for place in ("personal", "global")]
        yield session(room, f"{count} scripts", puts + words, lines(*ok, *reports[0], *ok, *reports[1], *ok, *told, none))
    for count in counts(MAIL_LIMIT):
        puts = b"".join(b"message m%d 0\n" % number for number in range(count))
        texts = b"".join(put(b"expect m%d" % number, b"discard\n" if number % 3 else b'implicit "INBOX"\n') for number in range(count))
        expected = ["unexpected" if number % 3 else "expected" for number in range(count)]
        plain = [line for number in range(count) for line in (f'message "m{number}"', '  implicit "INBOX"')]
        marked = [line for number in range(count) for line in (f'message "m{number}"', '  implicit "INBOX"', f"  {expected[number]}")]
        told, ok, total = ["main none", SETTINGS], ["ok"] * count, f"total {count} messages 0 errors"
        replies = lines(*ok, *told, *plain, total, *ok, *told, *marked, f"{total} {expected.count('unexpected')} unexpected")
        yield session(room, f"{count} messages, and what is expected of them", puts + b"report\n" + texts + b"report\n", replies)


def of_sessions(room):
    """All of them."""
    for part in (of_messages, of_lists, of_conditions, of_commands, of_variables, of_flags, of_benches):
        folder = room / f"many_{part.__name__}"
        folder.mkdir()
        yield from some(part.__name__, part(folder))
