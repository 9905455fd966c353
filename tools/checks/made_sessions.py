"""What `tools/make-session` writes of folders with odd names and large ones, how the program answers it, and what is refused.

The sessions that are wanted are written out, octet by octet: none is made by the rules of quoting.
"""
import os
import pathlib
import shlex

from .amounts import MAILBOX_LIMIT, MESSAGE_LIMIT, NAME_LIMIT, SCRIPT_LIMIT, TEXT_LIMIT
from .files import write
from .runs import SETTINGS, Run, lines, some

TOOLS = pathlib.Path(__file__).resolve().parent.parent
MAKE = shlex.quote(str(TOOLS / "make-session"))
TOO_FEW, TOO_MANY = (f"too {amount} words: it takes SCRIPTS MAILS; see tools/make-session --help\n" for amount in ("few", "many"))
# The octets of a file that takes no room, and the memory of a run that reads some.
ENDLESS, KILOBYTES = 1 << 40, 2_000_000
# The tool with another limit of mails.
FEW = f"""import runpy, sys
sys.path[:0] = [{str(TOOLS)!r}, {str(TOOLS / "site")!r}]
from sievebench_site import words
words.MAIL_LIMIT = 2
runpy.run_path({str(TOOLS / "make-session")!r}, run_name="__main__")
"""

ODD_SCRIPTS = {
    b"-x.sieve": b"keep;",
    b".hidden.sieve": b"#",
    b"a-b.sieve": b"",
    b"a.sieve": b"stop;\n",
    b"b\xc3\xbccher.sieve": b"keep;\r\n",
    b"line\nfeed.sieve": b"\n",
    b"main.sieve": b'require "include"; include "b\xc3\xbccher"; include ".hidden";',
    b"not \xff utf.sieve": b"",
    b'q"u\\o.sieve': b"",
    b"tab\there.sieve": b"",
    b"x.sieve.sieve": b"",
    b"~\x7f\x80.sieve": b"",
    b".sieve": b"kep;",
    b"notes.txt": b"kep;",
    b"a.sieve.bak": b"kep;",
    b"A.SIEVE": b"kep;",
    b"folder.sieve/inner.sieve": b"kep;",
}
ODD_MAILS = {
    b"-1": b"a",
    b"1\n2": b"Subject: a\n\nb",
    b"J\xfcrgen.eml": b"",
    b'a "b\\c"': b"report\n",
    b"m:2,S": b"\x00\xff",
    b"z\xe2\x82\xac": b"\r\n",
    b".hidden": b"x",
    b"folder/m": b"x",
}
ODD_SESSION = (
    b'script personal "-x" 5\nkeep;'
    b'script personal ".hidden" 1\n#'
    b'script personal "a-b" 0\n'
    b'script personal "a" 6\nstop;\n'
    b'script personal "b\\xc3\\xbccher" 7\nkeep;\r\n'
    b'script personal "line\\x0afeed" 1\n\n'
    b'script personal "link" 6\nstop;\n'
    b'script personal "main" 56\nrequire "include"; include "b\xc3\xbccher"; include ".hidden";'
    b'script personal "not \\xff utf" 0\n'
    b'script personal "q\\"u\\\\o" 0\n'
    b'script personal "tab\\x09here" 0\n'
    b'script personal "x.sieve" 0\n'
    b'script personal "~\\x7f\\x80" 0\n'
    b'script global "-g" 5\nstop;'
    b'message "-1" 1\na'
    b'message "1\\x0a2" 13\nSubject: a\n\nb'
    b'message "J\\xfcrgen.eml" 0\n'
    b'message "a \\"b\\\\c\\"" 7\nreport\n'
    b'message "link" 1\na'
    b'message "m:2,S" 2\n\x00\xff'
    b'message "z\\xe2\\x82\\xac" 2\n\r\n'
    b'main personal "main"\n'
)
# By their names scripts have another order than by their files' names: `a` stands before `a-b`.
ODD_REPORT = lines(
    *["ok"] * 22,
    'main personal "main"',
    SETTINGS,
    'script personal "-x" ok',
    'script personal ".hidden" ok',
    'script personal "a" ok',
    'script personal "a-b" ok',
    'script personal "b\\xc3\\xbccher" ok',
    'script personal "line\\x0afeed" ok',
    'script personal "link" ok',
    'script personal "main" ok',
    'script personal "not \\xff utf" ok',
    'script personal "q\\"u\\\\o" ok',
    'script personal "tab\\x09here" ok',
    'script personal "x.sieve" ok',
    'script personal "~\\x7f\\x80" ok',
    'script global "-g" ok',
    *(
        line
        for name in ["-1", "1\\x0a2", "J\\xfcrgen.eml", 'a \\"b\\\\c\\"', "link", "m:2,S", "z\\xe2\\x82\\xac"]
        for line in (
            f'message "{name}"',
            '  store "INBOX"',
            '  read personal "main"',
            '  read personal "b\\xc3\\xbccher"',
            '  read personal ".hidden"',
        )
    ),
    "total 7 messages 0 errors",
)


def of_odd_names(room):
    """Names of any octets, and what isn't a plain file."""
    write(room / "-s", ODD_SCRIPTS)
    write(room / "-m", ODD_MAILS)
    write(room / "g", {"-g.sieve": b"stop;", "lost": b"x"})
    for folder, suffix in [(room / "-s", ".sieve"), (room / "-m", "")]:
        os.mkfifo(folder / f"pipe{suffix}")
        (folder / f"link{suffix}").symlink_to("a.sieve" if suffix else "-1")
        (folder / f"lost{suffix}").symlink_to("nowhere")
        (folder / f"ring{suffix}").symlink_to(f"ring{suffix}")
        (folder / f"through{suffix}").symlink_to("a.sieve/x" if suffix else "-1/x")
        (folder / f"device{suffix}").symlink_to("/dev/zero")
        (folder / f"linked pipe{suffix}").symlink_to(f"pipe{suffix}")
    yield Run("a session of odd names", room, f"{MAKE} --global g -- -s -m/", ODD_SESSION + b"report\n")
    yield Run("its replies and report", room, f"{MAKE} --global g -- -s -m/ | sievebench session", ODD_REPORT)


def of_settings(room):
    """The main script, the envelope and the mailbox."""
    write(room / "one", {"only.sieve": b""})
    write(room / "two", {"main.sieve": b"", "-other.sieve": b""})
    write(room / "m", {"1": b""})
    write(room / "site", {"1.eml": b"", "1.eml.envelope": b"a@b c@d", "1.eml.expect": b"", "1.envelope": b"", ".2.eml": b""})
    one, mail = b'script personal "only" 0\n', b'message "1" 0\n'
    two = b'script personal "-other" 0\nscript personal "main" 0\n' + mail
    for title, words, octets in [
        ("the only script is main", "one m", one + mail + b'main personal "only"\n'),
        ("of several scripts main is", "two m", two + b'main personal "main"\n'),
        ("of several scripts the one that is named", "--main -other two m", two + b'main personal "-other"\n'),
        ("global scripts count for nothing there", "one m --global two", one + two.replace(b"personal", b"global") + b'main personal "only"\n'),
        ("a folder on each side of --", "one -- m", one + mail + b'main personal "only"\n'),
        ("what a site has beside a mail is no mail", "one site", one + b'message "1.eml" 0\nmessage "1.envelope" 0\nmain personal "only"\n'),
        ("an envelope", "one m --envelope -a@b '<\u00fc \"q\\\"@c>'", one + mail + b'main personal "only"\nenvelope "-a@b" "<\\xc3\\xbc \\"q\\\\\\"@c>"\n'),
        ("a mailbox in front", "--envelope '' '' --mailbox --main one m", one + mail + b'main personal "only"\nenvelope "" ""\nmailbox "--main"\n'),
        ("an octet that isn't UTF-8", "--mailbox \"$(printf 'a\\377\\033')\" one m", one + mail + b'main personal "only"\nmailbox "a\\xff\\x1b"\n'),
    ]:
        yield Run(f"a session, {title}", room, f"{MAKE} {words}", octets + b"report\n")
    options = [b"\n--main NAME ", b"\n--global DIR ", b"\n--envelope FROM TO ", b"\n--mailbox BOX "]
    for word in ("-h", "--help"):
        yield Run(f"the help by {word}", room, f"{MAKE} {word}", [b"    tools/make-session [--main NAME] [--global DIR] [--envelope FROM TO] [--mailbox BOX] SCRIPTS MAILS | sievebench session\n", *options])
    settings = f"{MAKE} --envelope '\u00fc' c@d --mailbox 'B \"x\"' one m | sievebench session"
    told = ['main personal "only"', 'envelope "\\xc3\\xbc" "c@d" mailbox "B \\"x\\""', 'script personal "only" ok', 'message "1"', '  implicit "B \\"x\\""']
    yield Run("settings in the report", room, settings, lines(*["ok"] * 5, *told, '  read personal "only"', "total 1 messages 0 errors"))


def of_amounts(room):
    """Many files, and what is at its limit."""
    write(room / "s", {"main.sieve": b"discard;"})
    write(room / "many", {f"{number:04}": b"Subject: one\n\n" + b"x" * 2_000 for number in range(3_000)})
    many = f"timeout 5 {MAKE} s many"
    yield Run("three thousand mails within five seconds", room, f"{many} | sievebench session | tail -n 1", b"total 3000 messages 0 errors\n")
    yield Run("nobody reads on", room, f"{{ {MAKE} s many; echo $? >&2; }} | head -c 6", b"script", b"141\n")
    write(room / "full", {f"{number:04}.sieve": b"" for number in range(SCRIPT_LIMIT - 1)})
    write(room / "at", {"1": b"\n" * MESSAGE_LIMIT})
    write(room / "text", {"a.sieve": b"\n" * TEXT_LIMIT})
    address, mailbox = "a" * NAME_LIMIT, "b" * MAILBOX_LIMIT
    words = f"--main 0000 --global text --envelope {address} {address} --mailbox {mailbox} full at"
    told = [f'envelope "{address}" "{address}" mailbox "{mailbox}"', 'script global "a" ok', 'message "1"', f'  implicit "{mailbox}"', '  read personal "0000"']
    count = "sed 's/^script personal .* ok$/ok/' | uniq -c | sed 's/^ *//; s/^1 //'"
    wanted = lines(f"{SCRIPT_LIMIT + 4} ok", 'main personal "0000"', told[0], f"{SCRIPT_LIMIT - 1} ok", *told[1:], "total 1 messages 0 errors")
    yield Run("everything at its limit", room, f"{MAKE} {words} | sievebench session | {count}", wanted)


def refused_folders(room):
    """Folders of which some give no session."""
    write(room / "s", {"main.sieve": b""})
    write(room / "two", {"a.sieve": b"", "b.sieve": b""})
    write(room / "m", {"1": b""})
    write(room / "pair", {"1": b"", "2": b""})
    write(room / "crowd", {"1": b"", "2": b"", "3": b""})
    write(room / "hidden", {".1": b"", "folder/1": b""})
    write(room / "large", {"a.sieve": b"\n" * (TEXT_LIMIT + 1), "main.sieve": b""})
    write(room / "long", {"1": b"", "2\x1b[2J": b"\n" * (MESSAGE_LIMIT + 1)})
    write(room / "full", {f"{number:04}.sieve": b"" for number in range(SCRIPT_LIMIT)})
    # Files that have no end, for whoever reads them whole.
    for folder, name in [("endless", "a.sieve"), ("endless mails", "1")]:
        write(room / folder, {"main.sieve": b""} if name == "a.sieve" else {})
        with open(room / folder / name, "wb") as file:
            file.truncate(ENDLESS)
    os.mkfifo(room / "pipe")
    for folder, name in [("torn", "x.sieve"), ("broken", "z\u00fc")]:
        # It is a plain file, of which nothing can be read.
        write(room / folder, {"main.sieve": b""})
        (room / folder / name).symlink_to("/proc/self/mem")
    write(room / "far", {"main.sieve": b""})
    (room / "far/x.sieve").symlink_to("n" * 300)


def of_refusals(room):
    """What ends without a session."""
    refused_folders(room)
    address, mailbox = "a" * (NAME_LIMIT + 1), "b" * (MAILBOX_LIMIT + 1)
    for title, words, sentence in [
        ("a folder of scripts that isn't there", "'n\u00f3' m", 'cannot read "n\\xc3\\xb3": '),
        ("a folder of mails that isn't there", "s 'n\no'", 'cannot read "n\\x0ao": '),
        ("a folder of global scripts that is a file", "--global m/1 s m", 'cannot read "m/1": '),
        ("a folder without a name", "'' m", 'cannot read "": '),
        ("a script that can't be read", "torn m", 'cannot read "torn/x.sieve": '),
        ("a global script that can't be read", "--global torn/ s m", 'cannot read "torn/x.sieve": '),
        ("a script of which nobody knows what it is", "far m", 'cannot read "far/x.sieve": '),
        ("a mail that can't be read", "s broken", 'cannot read "broken/z\\xc3\\xbc": '),
        ("no mails", "s hidden", 'no mails in "hidden"\n'),
        ("no script", "m m", 'no file "m/main.sieve" for the main script'),
        ("several scripts and none called main", "two m", 'no file "two/main.sieve" for the main script'),
        ("a main script that isn't there", "--main c two m", 'no file "two/c.sieve" for the main script'),
        ("a main script by its file's name", "--main main.sieve s m", 'no file "s/main.sieve.sieve" for the main script'),
        ("a main script that is global", "--main b --global two s m", 'no file "s/b.sieve" for the main script'),
        ("a main script without a name", "--main '' s m", 'no file "s/.sieve" for the main script'),
        ("a large script", "large m", 'more than 1048576 octets in "large/a.sieve"\n'),
        ("a large global script", "--global large s m", 'more than 1048576 octets in "large/a.sieve"\n'),
        ("a large mail", "s long", 'more than 16777216 octets in "long/2\\x1b[2J"\n'),
        ("a script without an end", "endless m", 'more than 1048576 octets in "endless/a.sieve"\n'),
        ("a global script without an end", "--global endless s m", 'more than 1048576 octets in "endless/a.sieve"\n'),
        ("a mail without an end", "s 'endless mails'", 'more than 16777216 octets in "endless mails/1"\n'),
        ("a pipe for a folder of scripts", "pipe m", 'cannot read "pipe": '),
        ("a pipe for a folder of mails", "s pipe", 'cannot read "pipe": '),
        ("a device for a folder of global scripts", "--global /dev/zero s m", 'cannot read "/dev/zero": '),
        ("a long sender", f"--envelope {address} b s m", f'more than 1024 octets in "{address}"\n'),
        ("a long recipient", f"--envelope b {address} s m", f'more than 1024 octets in "{address}"\n'),
        ("a long mailbox", f"--mailbox {mailbox} s m", f'more than 255 octets in "{mailbox}"\n'),
        ("many scripts", "--global full s m", 'more than 4096 scripts in "s" and "full"\n'),
        ("one folder", "s", TOO_FEW),
        ("three folders", "s m m", TOO_MANY),
        ("three folders after --", "-- s m m", TOO_MANY),
        ("a third folder after --", "s m -- m", TOO_MANY),
        ("a word like an option after --", "s m -- --main", TOO_MANY),
        ("two folders after -- and one before", "s -- m m", TOO_MANY),
        ("one folder after --", "-- s", TOO_FEW),
        ("an unknown option", "--m\u00e4in a s m", "there is no option --m\\xc3\\xa4in; see tools/make-session --help\n"),
        ("an option again", "--global s s m --global s", "--global stands twice; see tools/make-session --help\n"),
        ("an option without its values", "s m --envelope a", "too few words after --envelope; see tools/make-session --help\n"),
        ("an output that is full", "s m > /dev/full", "cannot write: "),
    ]:
        limit = f"ulimit -v {KILOBYTES}; timeout 20 " if " without an end" in title else ""
        yield Run(f"no session of {title}", room, f"{limit}{MAKE} {words}", b"", [f"make-session: {sentence}".encode()], 2)
    # To make so many files would take longer than all else: here the limit is another.
    (room / "few").write_text(FEW)
    few = "python3 few s"
    yield Run("no session of many mails", room, f"{few} crowd", b"", b'make-session: more than 2 mails in "crowd"\n', 2)
    yield Run("a session of as many mails as there may be", room, f"{few} pair | tail -n 3", b'message "2" 0\nmain personal "main"\nreport\n')


def of_folders(room):
    """All of them."""
    for part in (of_odd_names, of_settings, of_amounts, of_refusals):
        folder = room / f"made {part.__name__}"
        folder.mkdir()
        yield from some(part.__name__, part(folder))
