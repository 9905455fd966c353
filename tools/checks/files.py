"""Runs over files that are made: by the words of the command line, with odd names, with what isn't a plain file, and with files, words
and numbers at their limits and past them."""
import os

from .amounts import MAILBOX_LIMIT, MAILBOXES_LIMIT, MESSAGE_LIMIT, NAME_LIMIT, SCRIPT_LIMIT, TEXT_LIMIT
from .runs import SETTINGS, Run, lines, report


def odd_files(folder):
    """Files with odd names, and what isn't a plain file."""
    (folder / "scripts").mkdir(parents=True)
    (folder / "a script.sieve").write_bytes(b"discard;\n")
    (folder / "b\u00fccher \"q\".sieve").write_bytes(b"keep;\n")
    (folder / "a mail\\1").write_bytes(b"Subject: one\n\n")
    (folder / "empty").write_bytes(b"")
    (folder / ".sieve").write_bytes(b"stop;\n")
    (folder / "scripts/x.sieve").write_bytes(b"")
    (folder / "scripts/.sieve").write_bytes(b"kep;\n")
    (folder / "scripts/b.sieve.txt").write_bytes(b"kep;\n")
    (folder / "scripts/folder.sieve").mkdir()
    os.mkfifo(folder / "scripts/pipe.sieve")
    (folder / "scripts/link.sieve").symlink_to("../a script.sieve")
    (folder / "scripts/lost.sieve").symlink_to("nowhere")
    (folder / "scripts/through.sieve").symlink_to("x.sieve/nowhere")
    (folder / "scripts/ring.sieve").symlink_to("ring.sieve")
    (folder / "far").mkdir()
    (folder / "far/x.sieve").symlink_to("n" * 300)


def of_odd_names(room):
    """Names with spaces, quotes and octets past 126, and what isn't a plain file."""
    folder = room / "odd"
    odd_files(folder)
    plain = 'personal "a script" ok'
    yield Run("spaces in names", folder, "sievebench test 'a script.sieve' 'a mail\\1'", report([plain], "a script", "a mail\\\\1", ["discard"]))
    yield Run(
        "octets past 126 and quotes in names",
        folder,
        "sievebench test 'b\u00fccher \"q\".sieve' empty",
        report(['personal "b\\xc3\\xbccher \\"q\\"" ok'], 'b\\xc3\\xbccher \\"q\\"', "empty", ['store "INBOX"']),
    )
    yield Run("a script whose name is empty", folder, "sievebench test .sieve empty", report(['personal "" ok'], "", "empty", ['implicit "INBOX"']))
    yield Run("an empty script is named after its file", folder, "sievebench test ./empty empty", report(['personal "empty" ok'], "empty", "empty", ['implicit "INBOX"']))
    yield Run(
        "pipes, folders, lost links and other names are passed over, links to plain files are not",
        folder,
        "sievebench test --personal scripts 'a script.sieve' empty",
        report([plain, 'personal "link" ok', 'personal "x" ok'], "a script", "empty", ["discard"]),
    )
    (folder / "linked").symlink_to("scripts")
    for words, place in ("--personal linked", "personal"), ("--global linked/", "global"):
        scripts = [plain, f'{place} "link" ok', f'{place} "x" ok']
        told = report(scripts, "a script", "empty", ["discard"])
        yield Run(f"a folder after a symbolic link: {words}", folder, f"sievebench test {words} 'a script.sieve' empty", told)
    far = b'sievebench: cannot read "far/x.sieve"\n'
    yield Run("a script of which nobody knows what it is", folder, "sievebench test --personal far 'a script.sieve' empty", b"", far, 3)
    yield Run("a word that begins with a dash", folder, "sievebench test -- -x.sieve empty", b"", b'sievebench: cannot read "-x.sieve"\n', 3)
    yield Run("a folder for a script", folder, "sievebench test scripts empty", b"", b'sievebench: cannot read "scripts"\n', 3)
    yield Run("a folder for a mail", folder, "sievebench test empty scripts", b"", b'sievebench: cannot read "scripts"\n', 3)
    yield Run("a folder that isn't there", folder, "sievebench test --personal n\u00f3 --global no empty empty", b"", b'sievebench: cannot read "n\\xc3\\xb3"\n', 3)
    yield Run("an output that is full", folder, "sievebench test empty empty > /dev/full", b"", b"sievebench: cannot write\n", 3)
    yield Run("an output and a standard error that are full", folder, "sievebench test empty empty > /dev/full 2> /dev/full", b"", b"", 3)


def limit_files(folder):
    """Files at their limits and past them."""
    (folder / "full").mkdir(parents=True)
    (folder / "over").mkdir()
    (folder / "large").mkdir()
    (folder / "at.sieve").write_bytes(b"#" * TEXT_LIMIT)
    (folder / "past.sieve").write_bytes(b"#" * (TEXT_LIMIT + 1))
    (folder / "large/past.sieve").write_bytes(b"#" * (TEXT_LIMIT + 1))
    (folder / "at.eml").write_bytes(b"x" * MESSAGE_LIMIT)
    (folder / "past.eml").write_bytes(b"x" * (MESSAGE_LIMIT + 1))
    (folder / "small.sieve").write_bytes(b"")
    (folder / "small.eml").write_bytes(b"")
    for i in range(SCRIPT_LIMIT - 1):
        (folder / f"full/{i:04}.sieve").write_bytes(b"")
    for i in range(SCRIPT_LIMIT):
        (folder / f"over/{i:04}.sieve").write_bytes(b"")


def of_limits(room):
    """Files, words and numbers at their limits and past them."""
    folder = room / "limits"
    limit_files(folder)
    address, mailbox = "a" * NAME_LIMIT, "b" * MAILBOX_LIMIT
    small = 'personal "small" ok'
    kept = ['implicit "INBOX"']
    yield Run("a script at its limit", folder, "sievebench test at.sieve small.eml", report(['personal "at" ok'], "at", "small.eml", kept))
    yield Run("a mail at its limit", folder, "sievebench test small.sieve at.eml", report([small], "small", "at.eml", kept))
    yield Run("a script past it", folder, "sievebench test past.sieve past.eml", b"", b'sievebench: too large "past.sieve"\n', 2)
    yield Run("a mail past it", folder, "sievebench test small.sieve past.eml", b"", b'sievebench: too large "past.eml"\n', 2)
    for words in ["/dev/zero small.eml", "small.sieve /dev/zero"]:
        yield Run(f"a file without an end: {words}", folder, f"ulimit -v 131072; sievebench test {words}", b"", b'sievebench: too large "/dev/zero"\n', 2)
    yield Run("a script of a folder past it", folder, "sievebench test --global large past.sieve small.eml", b"", b'sievebench: too large "large/past.sieve"\n', 2)
    yield Run("what can't be read is reported before what is too large", folder, "sievebench test past.sieve absent", b"", b'sievebench: cannot read "absent"\n', 3)
    yield Run(
        "words at their limits",
        folder,
        f"sievebench test -f {address} --to {address} -m {mailbox} small.sieve small.eml",
        report([small], "small", "small.eml", [f'implicit "{mailbox}"'], settings=f'envelope "{address}" "{address}" mailbox "{mailbox}"'),
    )
    yield Run("a sender past it", folder, f"sievebench test -f {address}a past.sieve small.eml", b"", f'sievebench: too large "{address}a"\n'.encode(), 2)
    yield Run("a recipient past it", folder, f"sievebench test --to {address}a -m {mailbox}b small.sieve small.eml", b"", f'sievebench: too large "{address}a"\n'.encode(), 2)
    long, mail = f"-m {mailbox}b --to {address}b", "past.sieve small.eml"
    yield Run("a sender past it before the others", folder, f"sievebench test {long} -f {address}a {mail}", b"", f'sievebench: too large "{address}a"\n'.encode(), 2)
    yield Run("a recipient past it before the rest", folder, f"sievebench test {long} {mail}", b"", f'sievebench: too large "{address}b"\n'.encode(), 2)
    yield Run("a mailbox past it before files", folder, f"sievebench test -m {mailbox}b {mail}", b"", f'sievebench: too large "{mailbox}b"\n'.encode(), 2)
    full = f"-m {mailbox} --to {address} -f {address} {mail}"
    yield Run("words at their limits before a script past it", folder, f"sievebench test {full}", b"", b'sievebench: too large "past.sieve"\n', 2)
    yield Run("what can't be read is reported before a word past its limit", folder, f"sievebench test -f {address}a past.sieve absent", b"", b'sievebench: cannot read "absent"\n', 3)
    yield Run("a mailbox past it", folder, f"sievebench test -m {mailbox}b small.sieve small.eml", b"", f'sievebench: too large "{mailbox}b"\n'.encode(), 2)
    path = "./" * (NAME_LIMIT // 2) + "small.eml"
    yield Run("a script past it before a mail whose path is", folder, f"sievebench test past.sieve {path}", b"", b'sievebench: too large "past.sieve"\n', 2)
    yield Run("a mail whose path is past it", folder, f"sievebench test small.sieve {path}", b"", f'sievebench: too large "{path}"\n'.encode(), 2)
    scripts = [f'personal "{i:04}" ok' for i in range(SCRIPT_LIMIT - 1)] + [small]
    yield Run("as many scripts as there may be", folder, "sievebench test --personal full small.sieve small.eml", report(scripts, "small", "small.eml", kept))
    yield Run("one more", folder, "sievebench test --personal over small.sieve small.eml", b"", b"sievebench: too many scripts\n", 2)
    count = "sievebench test --personal over over/0007.sieve small.eml | grep -c '^script personal .* ok$'"
    yield Run("one more, but for the script of the same name", folder, count, lines(SCRIPT_LIMIT))


def of_words(room):
    """The words of the command line: paths and options wherever they stand."""
    folder = room / "words"
    (folder / "p").mkdir(parents=True)
    (folder / "g").mkdir()
    for path in ["a", "m", "-a", "-m", "test", "help", "--help", "session", "a.sieve", "p/x.sieve", "g/y.sieve"]:
        (folder / path).write_bytes(b"")
    kept = ['implicit "INBOX"']
    for words, name, mail, settings in [
        ("a m", "a", "m", '"" "" mailbox "INBOX"'),
        ("test help", "test", "help", '"" "" mailbox "INBOX"'),
        ("a -m Box m --to=c@d", "a", "m", '"" "c@d" mailbox "Box"'),
        ("-f-x --to=-y -- -a -m", "-a", "-m", '"-x" "-y" mailbox "INBOX"'),
    ]:
        verdict = ['implicit "Box"'] if "Box" in words else kept
        yield Run(f"test {words}", folder, f"sievebench test {words}", report([f'personal "{name}" ok'], name, mail, verdict, settings=f"envelope {settings}"))
    yield Run(
        "all options",
        folder,
        "sievebench test -f a@b --to c@d -m Box --personal p --global g a.sieve m",
        report(['personal "a" ok', 'personal "x" ok', 'global "y" ok'], "a", "m", ['implicit "Box"'], settings='envelope "a@b" "c@d" mailbox "Box"'),
    )
    for words in ["test -f '' '' ''", "test -f '' a ''", "test --personal '' a m", "test --global '' a m", "dump ''"]:
        yield Run(f"an empty path: {words}", folder, f"sievebench {words}", b"", b'sievebench: cannot read ""\n', 3)


def of_mailboxes(room):
    """The list of mailboxes in a file, which is read before all others."""
    folder = room / "mailboxes"
    script, large = b'require "mailbox"; if mailboxexists ["INBOX", "Work"] { discard; }', b"#" * (TEXT_LIMIT + 1)
    write(folder, {"asks.sieve": script, "mail": b"", "some": b"Home\r\n\nWork", "none": b"", "at": b"x\n" * (MAILBOXES_LIMIT // 2), "past": b"x" * (MAILBOXES_LIMIT + 1), "past.sieve": large})
    for words, count, verdict in [
        ("--mailboxes some", 2, ["discard"]),
        ("--mailboxes=none", 0, ['implicit "INBOX"']),
        ("", 0, ['implicit "INBOX"']),
        ("--mailboxes at", MAILBOXES_LIMIT // 2, ['implicit "INBOX"']),
    ]:
        told = report(['personal "asks" ok'], "asks", "mail", verdict, settings=f"{SETTINGS}\nwith mailbox\nmailboxes {count}")
        yield Run(f"a list of {count} mailboxes {words}", folder, f"sievebench test --with mailbox {words} asks.sieve mail", told)
    past = "sievebench test --with mailbox --mailboxes past"
    yield Run("a list past its limit", folder, f"{past} asks.sieve mail", b"", b'sievebench: too large "past"\n', 2)
    yield Run("a list past it before scripts", folder, f"{past} past.sieve mail", b"", b'sievebench: too large "past"\n', 2)
    mailbox = "b" * (MAILBOX_LIMIT + 1)
    yield Run("a value past its limit before a list", folder, f"{past} -m {mailbox} asks.sieve mail", b"", f'sievebench: too large "{mailbox}"\n'.encode(), 2)
    yield Run("what can't be read before a list past its limit", folder, f"{past} absent mail", b"", b'sievebench: cannot read "absent"\n', 3)
    yield Run("a list without an end", folder, "ulimit -v 131072; sievebench test --with mailbox --mailboxes /dev/zero asks.sieve mail", b"", b'sievebench: too large "/dev/zero"\n', 2)
    for path in ("gone", ".", ""):
        yield Run(f"a list that can't be read: {path}", folder, f"sievebench test --with mailbox --mailboxes '{path}' --personal no absent absent", b"", f'sievebench: cannot read "{path}"\n'.encode(), 3)


def of_dumps(room):
    """The code of scripts in files: a script has the name of its file, without a final `.sieve`, and is personal."""
    folder = room / "dumps"
    for path, name in [
        ("a.sieve", "a"),
        ("home/ada/a.sieve", "a"),
        ("a.sieve.sieve", "a.sieve"),
        ("home/.sieve", ""),
        ("site.sieve/plain", "plain"),
        ("a.sieve~", "a.sieve~"),
        ("session", "session"),
        ("--help", "--help"),
    ]:
        (folder / path).parent.mkdir(parents=True, exist_ok=True)
        (folder / path).write_bytes(b"keep;\nkep;\n")
        words = f"-- {path}" if path.startswith("-") else path
        yield Run(f"the name of {path}", folder, f"sievebench dump {words}", f'script personal "{name}" line 2 unknown-command\n'.encode(), status=1)
    for path, octets in [("code", b"discard;\n"), ("none", b""), ("at", b" " * TEXT_LIMIT), ("past", b" " * (TEXT_LIMIT + 1))]:
        (folder / path).write_bytes(octets)
    yield Run("a script with code", folder, "sievebench dump code", b"0: discard @1\n")
    yield Run("code to an output that is full", folder, "sievebench dump code > /dev/full", b"", b"sievebench: cannot write\n", 3)
    yield Run("a fault to an output that is full", folder, "sievebench dump a.sieve > /dev/full", b"", b"sievebench: cannot write\n", 3)
    yield Run("no code to an output that is full", folder, "sievebench dump none > /dev/full")
    yield Run("no code", folder, "sievebench dump none")
    yield Run("no code at the limit", folder, "sievebench dump at")
    yield Run("a script past it", folder, "sievebench dump past", b"", b'sievebench: too large "past"\n', 2)
    yield Run("a script that isn't there", folder, "sievebench dump '\u00e9\".sieve'", b"", b'sievebench: cannot read "\\xc3\\xa9\\".sieve"\n', 3)


def of_trials(room):
    """Tests of a script and a mail in files: what is reported."""
    folder = room / "trials"
    write(folder, {"main.sieve": b"discard;\n", "mail.txt": b"Subject: one\n\n", "home/ada/keep.sieve": b"", "mail/1": b"", "home/.sieve": b"kep;"})
    main = ['personal "main" ok']
    yield Run(
        "a sender",
        folder,
        "sievebench test -f a@b.example main.sieve mail.txt",
        report(main, "main", "mail.txt", ["discard"], settings='envelope "a@b.example" "" mailbox "INBOX"'),
    )
    yield Run(
        "a recipient and a mailbox",
        folder,
        "sievebench test --to c@d.example -m Sent home/ada/keep.sieve mail/1",
        report(['personal "keep" ok'], "keep", "mail/1", ['implicit "Sent"'], settings='envelope "" "c@d.example" mailbox "Sent"'),
    )
    invalid = ['implicit "INBOX"', 'error personal "" line 0 invalid-script']
    fault = report(['personal "" line 1 unknown-command'], "", "mail.txt", invalid, 1)
    yield Run("a script `.sieve` with a fault", folder, "sievebench test home/.sieve mail.txt", fault, status=1)
    full = "sievebench test home/.sieve mail.txt > /dev/full"
    yield Run("a report of a fault to an output that is full", folder, full, b"", b"sievebench: cannot write\n", 3)
    words = "sievebench test --personal p --global g/ main.sieve mail.txt"
    personal = {"a.sieve": b"stop;", "b.sieve": b"stop\n", "main.sieve": b"keep;", "notes.txt": b"x", ".sieve": b"x", "folder.sieve/x": b"x", b"\xff": b"x"}
    write(folder / "p", personal)
    write(folder / "g", {"main.sieve": b"keep;", "x.sieve.sieve": b""})
    (folder / "p/link.sieve").symlink_to("nowhere")
    scripts = ['personal "a" ok', 'personal "b" line 2 syntax', *main, 'global "main" ok', 'global "x.sieve" ok']
    yield Run("the scripts of two folders", folder, words, report(scripts, "main", "mail.txt", ["discard"]), status=1)


def of_order(room):
    """Which of several files is named that can't be read, or are too large."""
    words = "sievebench test --personal p --global g/ main.sieve mail.txt"
    script = {"main.sieve": b"stop;"}
    personal = {"p/b.sieve": b"", "p/a.sieve": b"", "p/a-b.sieve": b""}
    for number, (given, broken, path) in enumerate(
        [
            ({}, [], "p"),
            ({**personal, "g/d.sieve": b"", **script}, ["p/a.sieve"], "p/a.sieve"),
            ({**personal, "g/d.sieve": b"", **script}, ["p/a.sieve", "p/a-b.sieve"], "p/a-b.sieve"),
            (personal, [], "g/"),
            ({**personal, "g/d.sieve": b"", b"g/\xff.sieve": b""}, [], "g/\\xff.sieve"),
            ({"p/x": b"", "g/x": b""}, [], "main.sieve"),
            ({"p/x": b"", "g/x": b"", **script}, [], "mail.txt"),
        ]
    ):
        case = room / f"broken{number}"
        write(case, given)
        for name in broken:
            # It is a plain file, of which nothing can be read.
            (case / name).unlink()
            (case / name).symlink_to("/proc/self/mem")
        yield Run(f"the first file that can't be read, {path}", case, words, b"", f'sievebench: cannot read "{path}"\n'.encode(), 3)
    case = room / "broken"
    write(case, {"p/x": b"", "g/x": b"", **script})
    for number in range(40):
        (case / f"p/{number:02}.sieve").symlink_to("/proc/self/mem")
    yield Run("the first of forty files that can't be read", case, words, b"", b'sievebench: cannot read "p/00.sieve"\n', 3)
    order = ["mail.txt", "main.sieve", "g/c.sieve", "p/b.sieve", "p/a.sieve"]
    for number, path in enumerate(order):
        case = room / f"large{number}"
        sizes = {name: TEXT_LIMIT + 1 if order.index(name) <= number else 0 for name in order[1:]}
        write(case, {"mail.txt": b"a" * (MESSAGE_LIMIT + 1), **{name: b" " * size for name, size in sizes.items()}})
        yield Run(f"the first file that is too large, {path}", case, words, b"", f'sievebench: too large "{path}"\n'.encode(), 2)


def of_folders(room):
    """Names of files in a folder that are taken or passed over, folders of many files with long names, and words that are empty or begin
    and end with blanks."""
    folder = room / "folders"
    folder.mkdir()
    names = {".x.sieve": ".x", "a.sieve": "a", "A.sieve": "A", " b.sieve": " b", "b .sieve": "b ", "c.sieve.sieve": "c.sieve"}
    others = ["x.SIEVE", "x.Sieve", "y.sieve ", "y.sieve~", "sieve", "z.siev", "z_sieve"]
    write(folder / "some", {name: b"" for name in [*names, *others]})
    write(folder, {"main.sieve": b"", "m": b"", " m ": b"", " n.sieve ": b"", " n.sieve": b"", "n.sieve.sieve": b""})
    kept, main = ['implicit "INBOX"'], 'personal "main" ok'
    scripts = [f'personal "{name}" ok' for name in sorted(names.values())] + [main]
    yield Run("names of a folder", folder, "sievebench test --personal some main.sieve m", report(scripts, "main", "m", kept))
    scripts = [f'global "{name}" ok' for name in sorted(names.values())]
    yield Run("names of a global folder", folder, "sievebench test --global some main.sieve m", report([main, *scripts], "main", "m", kept))
    write(folder / "many", {f"{'n' * 200}{number:04}": b"kep;" for number in range(3_000)})
    write(folder / "many", {"z.sieve": b"", "0.sieve": b""})
    scripts = ['personal "0" ok', main, 'personal "z" ok']
    yield Run("two scripts among many files", folder, "sievebench test --personal many main.sieve m", report(scripts, "main", "m", kept))
    # Names of 255 octets, and no file may have a longer one.
    write(folder / "long", {f"{'n' * 246}{number:03}.sieve": b"" for number in range(1_000)})
    scripts = [main, *(f'personal "{"n" * 246}{number:03}" ok' for number in range(1_000))]
    yield Run("many scripts with long names", folder, "sievebench test --personal long main.sieve m", report(scripts, "main", "m", kept))
    for words, script, mail, mailbox in [
        ("-m '' main.sieve m", "main", "m", ""),
        ("--to '' -f '' main.sieve m", "main", "m", "INBOX"),
        ("-m ' B ' main.sieve ' m '", "main", " m ", " B "),
        ("' n.sieve ' m", " n.sieve ", "m", "INBOX"),
        ("' n.sieve' m", " n", "m", "INBOX"),
        ("n.sieve.sieve m", "n.sieve", "m", "INBOX"),
        ("./main.sieve ./m", "main", "./m", "INBOX"),
    ]:
        told = report([f'personal "{script}" ok'], script, mail, [f'implicit "{mailbox}"'], settings=f'envelope "" "" mailbox "{mailbox}"')
        yield Run(f"test {words}", folder, f"sievebench test {words}", told)


def write(folder, files):
    """Writes files into a folder, and makes all folders that they stand in."""
    folder.mkdir(exist_ok=True)
    for path, octets in files.items():
        path = folder / os.fsdecode(path)
        path.parent.mkdir(parents=True, exist_ok=True)
        path.write_bytes(octets)


def of_sessions(room):
    """Sessions that end in each way, to an output that is full."""
    folder = room / "sessions"
    endings = {"done": b"no-main\n", "syntax": b"frobnicate\n", "truncated": b"message m 9\nab"}
    write(folder, endings)
    for name in endings:
        yield Run(f"replies to an output that is full: {name}", folder, f"sievebench session < {name} > /dev/full", b"", b"sievebench: cannot write\n", 3)


def of_files(room):
    """All of them."""
    yield from of_sessions(room)
    yield from of_trials(room)
    yield from of_mailboxes(room)
    yield from of_order(room)
    yield from of_dumps(room)
    yield from of_words(room)
    yield from of_odd_names(room)
    yield from of_folders(room)
    yield from of_limits(room)
