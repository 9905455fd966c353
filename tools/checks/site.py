"""Sites that are made, under `sievebench-site`: what is expected of their mails is written from the rules."""
import codecs
import os
import pathlib
import shlex

from .runs import Run, lines, some

TOOL = pathlib.Path(__file__).resolve().parent.parent / "sievebench-site"
PACK = TOOL.parent / "site/pack.py"
NOBODY = b'"" ""\n'
# It answers as the program does, and writes to standard error too.
NOISY = b'#!/bin/sh\nsievebench "$@"\necho noise >&2\n'
COUNTS = ("mails", "mains", "verdicts", "agree", "disagree", "without expectation", "stale expectations", "scripts with a fault")


def write(folder, files):
    """Makes a folder of these files."""
    for name, octets in files.items():
        path = folder / name
        path.parent.mkdir(parents=True, exist_ok=True)
        path.write_bytes(octets)


def counted(*numbers, further=()):
    """The last line of a check. The last counts are printed where they aren't 0."""
    return ", ".join([*(f"{number} {what}" for number, what in zip(numbers, COUNTS)), *further])


def run(title, room, words, output=b"", error=b"", status=0):
    """The tool with these words."""
    return Run(f"sievebench-site: {title}", room, f"python3 {shlex.quote(str(TOOL))} {words}", output, error, status)


def told(sentence):
    """What is said on standard error."""
    return f"sievebench-site: {sentence}\n".encode()


def site(mails, **scripts):
    """A site of these personal scripts, all of them main, and these mails, which have an empty envelope where they have none of their own."""
    files = {f"personal/{name}.sieve": text for name, text in scripts.items()}
    files["envelope"] = NOBODY
    files["mains"] = lines(*scripts)
    files.update({f"mails/{name}": octets for name, octets in mails.items()})
    return files


def of_checks(room):
    """What agrees and what doesn't."""
    write(room / "good", site({"1.eml": b"Subject: a\n\n", "1.eml.expect": b"[main]\ndiscard\n"}, main=b"discard;"))
    yield run("all agree", room, "check good", lines(counted(1, 1, 1, 1, 0, 0, 0, 0)))
    write(room / "wrong", site({"1.eml": b"", "1.eml.expect": b'[main]\nstore "A"\ndiscard\n'}, main=b"discard;"))
    yield run("a verdict disagrees", room, "check wrong", lines("wrong/mails/1.eml under main", '  - store "A"', "    discard", counted(1, 1, 1, 0, 1, 0, 0, 0)), status=1)
    write(room / "ends", site({"1.eml": b"", "1.eml.expect": b"[main]\r\ndiscard\r\n[other]\r\nimplicit \"INBOX\""}, main=b"discard;", other=b""))
    yield run("CR LF, and no last line end", room, "check ends", lines(counted(1, 2, 2, 2, 0, 0, 0, 0)))
    write(room / "none", site({"1.eml": b"", "2.eml": b"", "2.eml.expect": b'[main]\ndiscard\n[gone]\nstore "K"\n'}, main=b"discard;"))
    yield run("nothing is expected", room, "check --lax none", lines(counted(2, 1, 2, 1, 0, 1, 1, 0)))
    write(room / "none", {"mails/3.eml.expect": b"", "mails/3.eml.envelope": b""})
    strict = ["none/mails/1.eml under main: nothing is expected", "none/mails/2.eml.expect: no main script is called gone", *(f"none/mails/3.eml.{end}: its mail isn't there" for end in ("envelope", "expect"))]
    for words in ("", "--strict"):
        yield run(f"nothing is expected, and that fails {words}", room, f"check {words} none", lines(*strict, counted(2, 1, 2, 1, 0, 1, 3, 0)), status=1)
    yield run("one mail", room, "check --strict --only=2.eml --main=main none", lines(counted(1, 1, 1, 1, 0, 0, 0, 0)))
    write(room / "empty", site({"1.eml": b"", "1.eml.expect": b"[main]\n"}, main=b"discard;"))
    yield run("the empty text agrees with no verdict", room, "check empty", lines("empty/mails/1.eml under main", "  + discard  (empty/personal/main.sieve:1)", counted(1, 1, 1, 0, 1, 0, 0, 0)), status=1)
    envelope = b'require "envelope"; if envelope "from" "" { discard; }'
    write(room / "null", site({"1.eml": b"", "1.eml.envelope": b'"" ada@home.example\n', "1.eml.expect": b"[main]\ndiscard\n", "2.eml": b"", "2.eml.envelope": b'a@b.example "\\"c d\\"@e.example"', "2.eml.expect": b'[main]\nimplicit "INBOX"\n'}, main=envelope))
    yield run("each mail in its envelope", room, "check null", lines(counted(2, 1, 2, 2, 0, 0, 0, 0)))
    write(room / "fault", site({"1.eml": b"", "1.eml.expect": b'[main]\nimplicit "INBOX"\nerror personal "main" line 0 invalid-script\n'}, main=b"kep;"))
    fault = "fault/personal/main.sieve:1: unknown-command: There is no such command or test."
    yield run("a script has a fault", room, "check fault", lines(fault, counted(1, 1, 1, 1, 0, 0, 0, 1)), status=1)
    write(room / "stale", site({"1.eml": b"", "1.eml.expect": b"[main]\ndiscard\n", "2.eml.expect": b""}, main=b"discard;"))
    yield run("all agree, but a file is stale", room, "check stale", lines("stale/mails/2.eml.expect: its mail isn't there", counted(1, 1, 1, 1, 0, 0, 1, 0)), status=1)
    yield run("an output that is closed early", room, "check --strict none | head -c 4", b"none")


def of_spellings(room):
    """Names of files that are taken or passed over, and how names and octets are shown."""
    odd = '-\u00fc "x" \\ y'
    write(room / "-odd", {f"mails/{odd}.eml": b"", f"mails/{odd}.eml.expect": f'["{odd}"]\n'.replace("\u00fc", "\\xc3\\xbc").replace(' "x" \\', ' \\"x\\" \\\\').encode() + b"discard\n", f"personal/{odd}.sieve": b"discard;", "mains": f"{odd}\n".encode(), "envelope": NOBODY})
    yield run("odd names", room, "check -- -odd", lines(counted(1, 1, 1, 1, 0, 0, 0, 0)))
    shown = "-bare/mails/-\\xc3\\xbc \"x\" \\\\ y.eml under -\\xc3\\xbc \"x\" \\\\ y: nothing is expected"
    write(room / "-bare", {f"mails/{odd}.eml": b"", f"personal/{odd}.sieve": b"discard;", "mains": f"{odd}\n".encode(), "envelope": NOBODY})
    yield run("odd names are reported", room, "check --strict --no-utf8 -- -bare", lines(shown, counted(1, 1, 1, 0, 0, 1, 0, 0)), status=1)
    write(room / "utf8", site({"\u00fc.eml": b"", "\u00fc.eml.expect": b'[main]\nstore "\\xe4" "\\\\Seen"\n'}, main='require "fileinto"; fileinto "B\u00fcro";'.encode()))
    shown = lines("utf8/mails/\u00fc.eml under main", '  - store "\\xe4" "\\\\Seen"', '  + store "B\u00fcro"  (utf8/personal/main.sieve:1)', counted(1, 1, 1, 0, 1, 0, 0, 0))
    yield run("octets of UTF-8 are shown as characters, and others as they were", room, "check --utf8 utf8", shown, status=1)
    write(room / "plain", site({"1.eml": b"", "1.eml.expect": '[main]\nstore "\u00fc"\n'.encode()}, main='require "fileinto"; fileinto "\u00fc";'.encode()))
    yield run("what is expected has characters as they are", room, "check plain", lines(counted(1, 1, 1, 1, 0, 0, 0, 0)))
    write(room / "over", site({"1.eml": b"", "1.eml.expect": b"[main]\ndiscard\n", ".2.eml": b"", "3.EML": b"", "4.eml/x": b"", ".eml": b""}, main=b"discard;"))
    write(room / "over", {"personal/.x.sieve": b"discard;", "personal/.sieve": b"kep;", "personal/x.SIEVE": b"kep;", "personal/y.sieve/x": b""})
    (room / "over/mails/5.eml").symlink_to("nowhere")
    (room / "over/mails/6.eml").symlink_to("1.eml")
    (room / "over/personal/z.sieve").symlink_to("nowhere")
    (room / "over/personal/.#z.sieve").symlink_to("ada@host.1:2")
    scripts = {"y.sieve": "it is a folder", "z.sieve": "it leads to no plain file"}
    left = [f"over/{name}: left out: it is a folder" for name in ("personal/y.sieve", "mails/4.eml")]
    left += [f"over/{name}: left out: it leads to no plain file" for name in ("personal/z.sieve", "mails/5.eml")]
    left.append("over/mails/3.EML: left out: its name doesn't end by .eml, in small letters")
    yield run("files that are passed over, and a link that isn't", room, "check --lax --main main --main .x over", lines(*left, counted(2, 2, 4, 1, 0, 3, 0, 0, further=["5 left out"])))
    told_of = [f"over/personal/{name}:0: left-out: {why[0].upper()}{why[1:]}." for name, why in scripts.items()]
    yield run("they are reported among scripts, too", room, "lint over | grep left-out", lines(*told_of))
    write(room / "names", {**site({"\n\x1f\x7f\x80\udcff.eml": b""}, main=b"discard;", other=b""), "mains": b"main\r\n\nother\r\nmain"})
    yield run("CR LF, an empty line and a name again among those of main scripts, and a mail of an odd name", room, "check --lax names", lines(counted(1, 2, 2, 0, 0, 2, 0, 0)))


def of_names(room):
    """What is asked for by a site's file `with`."""
    script = b'require ["subaddress", "fileinto", "vacation"]; if address :detail "to" "box" { fileinto "Box"; }'
    files = {**site({"1.eml": b"To: a+box@b.example\n\n"}, main=script), "mails/1.eml.expect": b'["main"]\nstore "Box"\n'}
    write(room / "asked", {**files, "with": b"subaddress\r\n\nunused"})
    yield run("names of a site", room, "check --strict asked", lines(counted(1, 1, 1, 1, 0, 0, 0, 0)))
    write(room / "unasked", files)
    yield run("no names of a site", room, "check unasked", lines("unasked/personal/main.sieve:1: not judged: requires subaddress, vacation: add them to the file with", 'unasked/mails/1.eml under main: not judged: personal "main" requires subaddress, vacation', counted(1, 1, 1, 0, 0, 0, 0, 0, further=["1 not judged"])), status=1)
    script = b'require ["mailbox", "fileinto", "envelope"]; if mailboxexists "Work" { fileinto :create "Work"; } if envelope "to" "c@d.example" { discard; }'
    files = {**site({"1.eml": b"", "1.eml.envelope": b"a@b.example c@d.example", "2.eml": b""}, main=script), "with": b"lines\nmailbox\n", "mailboxes": b"Home\r\nWork"}
    files.update({"mails/1.eml.expect": b'[main]\nstore "Work" create\ndiscard\n', "mails/2.eml.expect": b'[main]\nstore "Work" create\n'})
    write(room / "boxes", files)
    yield run("a list of mailboxes, and lines of a report that are none of a verdict", room, "check --strict boxes", lines(counted(2, 1, 2, 2, 0, 0, 0, 0)))
    write(room / "manyboxes", {**files, "mailboxes": b"x" * 1_048_577})
    yield run("a list of mailboxes that is refused", room, "check manyboxes", b"", told('the list of mailboxes "manyboxes/mailboxes" is refused: a list of mailboxes has at most 1,048,576 octets'), 2)
    write(room / "nobody", {**site({"1.eml": b"", "1.eml.expect": b"[main]\ndiscard\n"}, main=b"discard;"), "mailboxes": b"x" * 1_048_577})
    yield run("a list of mailboxes that isn't asked for", room, "check nobody", lines(counted(1, 1, 1, 1, 0, 0, 0, 0)))
    write(room / "misnamed", {**files, "with": b"sub address\n"})
    yield run("a name that there isn't", room, "check misnamed", b"", told('"misnamed/with", line 1: "sub address" can\'t be asked for: did you mean subaddress?'), 2)


def of_clocks(room):
    """The time at which a site's mails are judged, in its file `clock` or by an option."""
    script = b'require ["date", "relational", "fileinto"];\n'
    script += b'# currentdate\nif allof (currentdate :value "ge" "date" "2026-07-01",\n'
    script += b'  not currentdate :value "gt" "date" "2026-07-21") { fileinto "away"; }\n'
    mails = {"1.eml": b"Subject: currentdate\n\n", "1.eml.expect": b'[main]\nstore "away"\n'}
    files = {**site(mails, main=script), "with": b"date\nrelational\n", "clock": b"1784671199 +0200\n"}
    write(room / "timed", files)
    agree, differ = (1, 1, 1, 1, 0, 0, 0, 0), (1, 1, 1, 0, 1, 0, 0, 0)
    away = ["timed/mails/1.eml under main", '  - store "away"', '  + implicit "INBOX"', counted(*differ)]
    yield run("a clock", room, "check --strict timed", lines(counted(*agree)))
    yield run("a clock of an option", room, "check --clock 1784671200+0200 timed", lines(*away), status=1)
    yield run("a clock of an option without a zone", room, "check --clock=1784671200 timed", lines(counted(*agree)))
    written = lines("timed/mails/1.eml.expect: changed", "1 mails, 1 written, 0 left")
    yield run("verdicts of a clock", room, "record --clock 0-0130 timed", written)
    yield run("a script that asks for a clock that there is", room, "lint timed")
    untimed = {name: octets for name, octets in files.items() if name != "clock"}
    write(room / "untimed", untimed)
    note = "no-clock: It asks for the current date, and the site has no clock."
    wanted = [f"untimed/personal/main.sieve:{line}: {note}" for line in (3, 4)]
    yield run("a script that asks for a clock that there isn't", room, "lint untimed", lines(*wanted))
    yield run("a clock of an option where there is no file", room, "lint --clock 1784671199+0200 untimed")
    yield run("the same", room, "check --clock 1784671199+0200 untimed", lines(counted(*agree)))
    many = b'require "date"; if header "subject" text: # currentdate\ncurrentdate\n.\n{}\n'
    many += b'/* currentdate\n*/ if CURRENTDATE "year" "\\"currentdate" {} elsif not currentdate :is "month" "1" {}\n'
    write(room / "worded", {**site({}, main=many, other=b"# currentdate\n"), "with": b"date\n"})
    yield run("lines that ask, and words that don't", room, "lint worded", lines(f"worded/personal/main.sieve:6: {note}"))
    for number, (octets, sentence) in enumerate(
        [
            (b"", "isn't one line SECONDS [ZONE], as 1783245600 +0200"),
            (b"1783245600+0200\n", "isn't one line SECONDS [ZONE], as 1783245600 +0200"),
            (b"-1 +0200\n", "isn't one line SECONDS [ZONE], as 1783245600 +0200"),
            (b"1 +0200\n2 +0200\n", "isn't one line SECONDS [ZONE], as 1783245600 +0200"),
            (b"1783245600 CEST\n", "isn't one line SECONDS [ZONE], as 1783245600 +0200"),
            (b"253402300800 +0000\n", "is past 253402300799, the last second of the year 9999"),
            (b"9" * 5_000 + b" +0000\n", "is past 253402300799, the last second of the year 9999"),
            (b"1783245600 +0160\n", "has a zone with minutes past 59"),
        ]
    ):
        write(room / f"clock{number}", {**files, "clock": octets})
        for command in ("check", "lint"):
            wrong = told(f'"clock{number}/clock" {sentence}')
            yield run(f"no clock: {octets!r:.40}, {command}", room, f"{command} clock{number}", b"", wrong, 2)
    ends = {"mails/1.eml.expect": b'[main]\nimplicit "INBOX"\n'}
    write(room / "last", {**files, **ends, "clock": b"\r\n  000253402300799  -9959 \r\n"})
    yield run("the last second, with zeros and blanks and an empty line before it", room, "check last", lines(counted(*agree)))
    for value in ("x", "1783245600 +0200", "1783245600CEST", ""):
        wrong = told(f'--clock "{value}" isn\'t SECONDS[ZONE], as 1783245600+0200')
        yield run(f"no clock of an option: {value}", room, f"check --clock '{value}' timed", b"", wrong, 2)
    write(room / "dateless", {**site({"1.eml": b"", "1.eml.expect": b"[main]\ndiscard\n"}, main=b"discard;"), "clock": b"x"})
    yield run("a clock that isn't asked for", room, "check dateless", lines(counted(*agree)))
    wrong = told('--clock wants date in "dateless/with"')
    yield run("a clock of an option that isn't asked for", room, "check --clock 1 dateless", b"", wrong, 2)


def of_refusals(room):
    """Misuse."""
    write(room / "broken", site({"1.eml": b"", "1.eml.expect": b"discard\n"}, main=b""))
    yield run("no name before a line", room, "check broken", b"", told('"broken/mails/1.eml.expect", line 1: before it stands no name of a main script in brackets'), 2)
    write(room / "twice", site({"1.eml": b"", "1.eml.expect": b"[main]\ndiscard\n[main]\n"}, main=b""))
    yield run("a name again", room, "check twice", b"", told('"twice/mails/1.eml.expect", line 3: [main] stood there before'), 2)
    write(room / "words", site({"1.eml": b"", "1.eml.envelope": b"a b c\n"}, main=b""))
    yield run("an envelope of three words", room, "check words", b"", told('"words/mails/1.eml.envelope" isn\'t two addresses, the sender\'s and the recipient\'s'), 2)
    write(room / "lone", {"personal/main.sieve": b"", "mains": b"main\n", "mails/x.txt": b""})
    yield run("no mails", room, "check lone", b"", told('no mails in "lone/mails": they are files whose names end by .eml'), 2)
    write(room / "unnamed", {"personal/main.sieve": b"", "mails/1.eml": b""})
    yield run("no main scripts", room, "check unnamed", b"", told('no main script: "unnamed/mains" names them, one a line, or --main does'), 2)
    yield run("an unknown main script", room, "check --main x unnamed", b"", told('no main script "x": there is no "unnamed/personal/x.sieve"'), 2)
    yield run("an unknown mail", room, "check --main main --only 2.eml unnamed", b"", told('no mail "unnamed/mails/2.eml"'), 2)
    write(room / "large", site({"1.eml": b""}, main=b"#" * 1_048_577))
    yield run("a script that is refused", room, "check large", b"", told('the script "large/personal/main.sieve" is refused: a script\'s text has at most 1,048,576 octets, and its name 1,024'), 2)
    yield run("a site that isn't there", room, "check nowhere", b"", told('cannot read "nowhere/personal": No such file or directory'), 2)
    for end in ("envelope", "expect"):
        write(room / end, site({"1.eml": b""}, main=b""))
        (room / end / f"mails/1.eml.{end}").symlink_to("nowhere")
        yield run(f"a link to nothing, {end}", room, f"check {end}", b"", told(f'cannot read "{end}/mails/1.eml.{end}": No such file or directory'), 2)
    yield run("an unknown option", room, "check --no unnamed", b"", told("unrecognized arguments: --no; see --help"), 2)
    yield run("a value of an option that takes none", room, "check --strict=no good", b"", told("argument --strict: ignored explicit argument 'no'; see --help"), 2)
    yield run("the help of a command", room, "lint --help", [b"usage: sievebench-site lint ", b"--sievec", b"--program PROGRAM"])
    yield run("an option without its value", room, "check good --main", b"", told("argument --main: expected one argument; see --help"), 2)
    yield run("no command", room, "", b"", told("one of check, record, lint, import, untested, diff, why, watch, report and lsp is wanted; see --help"), 2)
    yield run("an unknown command", room, "chek good", b"", told('"chek" is none of check, record, lint, import, untested, diff, why, watch, report and lsp; see --help'), 2)
    for words in ("", "good none", "''"):
        yield run(f"one folder is wanted: {words}", room, f"check {words}", b"", told("one folder is wanted, the site; see --help"), 2)
    yield run("an option of another command", room, "lint --strict unnamed", b"", told("unrecognized arguments: --strict; see --help"), 2)
    yield run("an output that is full", room, "check good > /dev/full", b"", told("cannot write standard output: No space left on device"), 2)


def of_programs(room):
    """Programs that are beside the tool, or can't be run, or answer too little."""
    yield run("a program that isn't there", room, "check --program ./absent --main main unnamed", b"", told('cannot run "./absent": No such file or directory'), 3)
    # The program beside the tool comes before that of the path, also where a link leads to the tool; a folder is none.
    for name in ("beside", "folder"):
        write(room / name, {"sievebench" if name == "beside" else "sievebench/x": b"#!/bin/sh\necho beside >&2\nexit 4\n"})
        yield Run(f"sievebench-site: one file of it, {name}", room, f"python3 {shlex.quote(str(PACK))} {name}/sievebench-site")
    (room / "beside/sievebench").chmod(0o755)
    (room / "linked").symlink_to("beside/sievebench-site")
    beside = told(f'"{(room / "beside/sievebench").resolve()}" ended with status 4: "beside"')
    yield Run("sievebench-site: the program beside the tool", room, "python3 linked check good", b"", beside, 3)
    yield Run("sievebench-site: a folder beside the tool", room, "python3 folder/sievebench-site lint good")
    write(room / "mute", {"program": b"#!/bin/sh\n", "failing": b"#!/bin/sh\necho 'out of memory' >&2\nexit 4\n", "noisy": NOISY})
    for name, sentence in (("program", "the program answered too little"), ("failing", '"mute/failing" ended with status 4: "out of memory"'), ("noisy", '"mute/noisy" ended with status 0: "noise"')):
        (room / "mute" / name).chmod(0o755)
        yield run(f"a program that answers nothing, {name}", room, f"check --program mute/{name} good", b"", told(sentence), 3)
    # Nothing but the tool itself is in this path.
    alone = f'PATH=/nowhere "$(python3 -c "import sys; print(sys.executable)")" {shlex.quote(str(TOOL))} lint --sievec --program "$(command -v sievebench)" good'
    yield Run("sievebench-site: sievec isn't there", room, alone, b"", told('cannot run "sievec": No such file or directory'), 3)


def of_broken_files(room):
    """Files that can't be read as what they are."""
    write(room / "touch", site({"1.eml": b"", "1.eml.envelope": b'""ada@home.example\n'}, main=b""))
    yield run("an envelope of words that touch", room, "check touch", b"", told('"touch/mails/1.eml.envelope" isn\'t two addresses, the sender\'s and the recipient\'s'), 2)
    write(room / "sender", site({"1.eml": b"", "1.eml.envelope": b'"" ' + b"a" * 1_020 + b"@b.example"}, main=b""))
    yield run("an envelope that is refused", room, "check sender", b"", told(f'"sender/mails/1.eml.envelope": the recipient "{"a" * 100}" is no address: it has more than 1,024 octets'), 2)
    write(room / "bare", {**site({"1.eml": b""}, main=b""), "mains": b"\n"})
    yield run("no name of a main script", room, "check bare", b"", told('no main script in "bare/mains"'), 2)
    write(room / "escape", site({"1.eml": b"", "1.eml.expect": b'["m\\ain"]\n'}, main=b""))
    yield run("a name that is no word", room, "check escape", b"", told('"escape/mails/1.eml.expect", line 1: between the brackets stands no name of a main script'), 2)
    write(room / "pipe", site({"1.eml": b""}, main=b""))
    os.mkfifo(room / "pipe/mails/1.eml.expect")
    yield run("an expectation that is a pipe", room, "check pipe", b"", told('cannot read "pipe/mails/1.eml.expect": it is no plain file'), 2)
    write(room / "far", site({"1.eml": b""}, main=b""))
    (room / "far/mails/2.eml").symlink_to("n" * 300)
    yield run("a mail of which nobody knows what it is", room, "check far", b"", told('cannot read "far/mails/2.eml": File name too long'), 2)


# A parser tells what servers read: the elements with their attributes, without the seconds, and the first lines of their texts.
READER = """import sys, xml.etree.ElementTree as tree
for it in tree.parse(sys.argv[1]).iter():
    seconds = it.attrib.pop("time", None)
    assert it.tag not in ("testsuite", "testcase") or float(seconds) >= 0
    print(ascii([it.tag, *it.attrib.values(), (it.text or "").strip()]))
"""
SUITE = ["testsuite", "sievebench-site"]


def written(title, room, words, output, status=0):
    """The tool with these words, which make it write `out.xml`: what is read of it is of this run, since an earlier one is taken out first."""
    return Run(f"sievebench-site: {title}", room, f"rm -f out.xml; python3 {shlex.quote(str(TOOL))} {words}", output, status=status)


def of_junit(room):
    """What servers read."""
    write(room / "both", site({"1.eml": b"", "1.eml.expect": b"[main]\ndiscard\n[other]\ndiscard\n"}, main=b"discard;", other=b"keep;"))
    (room / "read").write_text(READER)
    failed = ["failure", "the verdict isn't as expected", '- discard\n+ store "INBOX"  (both/personal/other.sieve:1)']
    rows = [[*SUITE, "2", "1", "0", ""], ["testcase", "main", "1.eml", ""], ["testcase", "other", "1.eml", ""], failed]
    junit = lines(*map(ascii, rows))
    yield written("results of tests", room, "check --junit out.xml both > /dev/null; python3 read out.xml", junit)
    yield written("results of tests alone", room, "check --format junit both > out.xml; python3 read out.xml", junit)
    for words in ("--json --junit out.xml", "--junit=out.xml --format json"):
        yield written(f"results of tests beside an object: {words}", room, f"check {words} both > out.json; echo $?; python3 read out.xml; head -c 16 out.json", b"1\n" + junit + b'{"passed": false')
    wrong = lines("both/mails/1.eml under other", "  - discard", '  + store "INBOX"  (both/personal/other.sieve:1)', counted(1, 2, 2, 1, 1, 0, 0, 0))
    for output in ("/dev/stdout", "/dev/fd/1"):
        yield written(f"results of tests before the lines, by {output}", room, f"check --junit {output} both > all; sed '/^<.testsuite>/q' all > out.xml; python3 read out.xml; sed '1,/^<.testsuite>/d' all", junit + wrong)
    odd = {'<&"\u00fc.eml': b"", '<&"\u00fc.eml.expect': b'[main]\nstore "A"\n', "2\u00fc.eml.expect": b""}
    write(room / "marks", {**site(odd, main='require "fileinto"; fileinto "<&\u00fc>";'.encode(), **{"\u00f6": b""}), "personal/broken.sieve": b"kep;"})
    # Each of the files is one failure, and that nothing is expected is one too.
    wrong = [["testcase", "main", '<&"\u00fc.eml', ""], ["failure", "the verdict isn't as expected", '- store "A"\n+ store "<&\u00fc>"  (marks/personal/main.sieve:1)'], ["testcase", "\u00f6", '<&"\u00fc.eml', ""]]
    fault, stale = [["testcase", "sievebench-site", f"marks/{path}", ""] for path in ("personal/broken.sieve", "mails/2\u00fc.eml.expect")]
    wrong_file = [fault, ["failure", "line 1 unknown-command", "There is no such command or test."]]
    for title, words, rows in [
        ("with marks", "--lax", [[*SUITE, "3", "2", "1", ""], *wrong, ["skipped", ""], *wrong_file]),
        ("where all is wanted", "", [[*SUITE, "4", "4", "0", ""], *wrong, ["failure", *["nothing is expected"] * 2], *wrong_file, stale, ["failure", *["its mail isn't there"] * 2]]),
    ]:
        yield written(f"results of tests, {title}", room, f"check {words} --junit out.xml marks > /dev/null; python3 read out.xml", lines(*map(ascii, rows)))
    yield written("no results of an earlier run where there is no result", room, "check --junit out.xml both > /dev/null; python3 %s check --junit out.xml --only x.eml both 2> /dev/null; echo $?; ls out.xml 2> /dev/null" % shlex.quote(str(TOOL)), b"2\n", status=2)
    yield run("a file of results that can't be written is reported before the run", room, "check --program ./absent --junit nowhere/out.xml both", b"", told('cannot write "nowhere/out.xml": No such file or directory'), 2)
    yield run("a folder of results", room, "check --junit marks both", b"", told('cannot write "marks": Is a directory'), 2)


MORE = ("not judged", "skipped", "mails without an envelope", "left out")


def of_objects(room):
    """Objects."""
    counts = ", ".join(f'"{what}": {number}' for what, number in zip(COUNTS + MORE, (1, 2, 2, 1, 1, 0, 0, 0, 0, 0, 0, 0)))
    cases = '{"mail": "1.eml", "main": "main", "agrees": true, "skipped": false, "expected": ["discard"], "verdict": ["discard"], "lines": ["both/personal/main.sieve:1"]}, '
    cases += '{"mail": "1.eml", "main": "other", "agrees": false, "skipped": false, "expected": ["discard"], "verdict": ["store \\"INBOX\\""], "lines": ["both/personal/other.sieve:1"]}'
    empty = '"faults": [], "not judged": [], "skipped": [], "stale": [], "left out": []'
    for words in ("--json", "--format json"):
        yield run(f"an object by {words}", room, f"check {words} both", lines(f'{{"passed": false, "counts": {{{counts}}}, "cases": [{cases}], {empty}}}'), status=1)
    for words, options in (("--format junit --json", ("--json", "--format")), ("--json --format=junit", ("--format", "--json"))):
        yield run(f"two forms: {words}", room, f"check {words} both", b"", told("argument {}: not allowed with argument {}; see --help".format(*options)), 2)
    write(room / "mark", site({"\u00fc.eml": b""}, **{"\u00f6": 'require "fileinto"; fileinto "\u00e4";'.encode()}))
    counts = ", ".join(f'"{what}": {number}' for what, number in zip(COUNTS + MORE, (1, 1, 1, 0, 0, 1, 0, 0, 0, 0, 0, 0)))
    cases = '{"mail": "\\u00fc.eml", "main": "\\u00f6", "agrees": null, "skipped": false, "expected": null, "verdict": ["store \\"\\\\xc3\\\\xa4\\""], "lines": ["mark/personal/\\u00f6.sieve:1"]}'
    yield run("an object, with names as they are and verdicts as they are expected", room, "check --lax --json mark", lines(f'{{"passed": true, "counts": {{{counts}}}, "cases": [{cases}], {empty}}}'))


STALE = "stale: --prune takes them out"
LEFT = "left, since it isn't as this tool writes it: --force writes it anew, without its comments"


def of_records(room):
    """Verdicts that are written as what is expected."""
    write(room / "fresh", site({"1.eml": b"", "2.eml": b"", "2.eml.expect": b'[main]\nstore "K"\n', "3.eml": b"", "3.eml.expect": b'\n[main]\nstore "K"\n'}, main=b"discard;"))
    wanted = lines("fresh/mails/1.eml.expect: new", "fresh/mails/2.eml.expect: changed", f"fresh/mails/3.eml.expect: {LEFT}", "3 mails, 2 written, 1 left")
    yield run("verdicts are written", room, "record fresh", wanted, status=1)
    yield Run("sievebench-site: what was written", room, "cat fresh/mails/1.eml.expect fresh/mails/2.eml.expect fresh/mails/3.eml.expect", b"[main]\ndiscard\n" * 2 + b'\n[main]\nstore "K"\n')
    yield run("nothing changes", room, "record --only 1.eml fresh", lines("1 mails, 0 written, 0 left"))
    yield run("a script with a fault", room, "record fault", lines("fault/personal/main.sieve:1: unknown-command: There is no such command or test."), status=1)
    write(room / "errors", site({"1.eml": b""}, main=b'redirect "x";'))
    yield run("an error is written", room, "record errors", lines("errors/mails/1.eml.expect: new, with an error", "1 mails, 1 written, 0 left"))
    write(room / "blocks", site({"1.eml": b"", "1.eml.expect": b'[old]\nstore "A"'}, main=b"discard;"))
    yield run("a block more", room, "record blocks", lines("blocks/mails/1.eml.expect: stale: no main script is called old", f"blocks/mails/1.eml.expect: {LEFT}", f"1 mails, 0 written, 1 left, 1 {STALE}"), status=1)
    # Names go in the order of their octets, and what is expected under a main script that isn't run stays, be it right or wrong.
    write(room / "two", {**site({"1.eml": b"", "2.eml": b""}, a=b"discard;", b=b"keep;"), "mains": b"b\na\n"})
    yield run("two main scripts", room, "record two", lines("two/mails/1.eml.expect: new", "two/mails/2.eml.expect: new", "2 mails, 2 written, 0 left"))
    yield Run("sievebench-site: the order of names", room, "cat two/mails/1.eml.expect", lines("[a]", "discard", "[b]", 'store "INBOX"'))
    write(room / "two", {"mails/1.eml.expect": b'[a]\nstore "K"\n[b]\nstore "K"\n'})
    yield run("one main script of two", room, "record --main b two", lines("two/mails/1.eml.expect: changed", "2 mails, 1 written, 0 left"))
    yield Run("sievebench-site: what stays", room, "cat two/mails/1.eml.expect", lines("[a]", 'store "K"', "[b]", 'store "INBOX"'))
    write(room / "quote", site({"1.eml": b""}, **{'a"[\\]': b"discard;"}))
    yield run("a name that wants quotes", room, "record quote", lines("quote/mails/1.eml.expect: new", "1 mails, 1 written, 0 left"))
    yield Run("sievebench-site: its quotes", room, "cat quote/mails/1.eml.expect", lines('["a\\"[\\\\]"]', "discard"))
    write(room / "quote", {"mails/2.eml.expect": b"[main]\ndiscard\n"})
    yield run("what is stale is taken out", room, "record --prune quote; ls quote/mails", lines("quote/mails/2.eml.expect: taken out: its mail isn't there", "1 mails, 0 written, 0 left, 1 taken out", "1.eml", "1.eml.expect"))
    yield run("what is recorded agrees", room, "check --strict quote", lines(counted(1, 1, 1, 1, 0, 0, 0, 0)))
    write(room / "modes", site({"1.eml": b"", "2.eml": b"", "2.eml.expect": b"", "3.eml": b"", "4.eml": b"", "link": b""}, main=b"discard;"))
    (room / "modes/mails/2.eml.expect").chmod(0o604)
    (room / "modes/mails/3.eml.expect").symlink_to("link")
    modes = f"umask 027; python3 {shlex.quote(str(TOOL))} record modes > told; cd modes/mails; stat -c %A *.expect; cat link"
    yield Run("sievebench-site: the modes of new files and of old ones, and a link", room, modes, lines("-rw-r-----", "-rw----r--", "lrwxrwxrwx", "-rw-r-----", "[main]", "discard"))


def of_lints(room):
    """Faults, includes and redirects."""
    main = b'require ["include", "fileinto", "imap4flags"];\ninclude "a";\ninclude :global "there";\ninclude :global "gone";\ninclude :optional "gone";\nredirect "x";\nredirect "a@b.example";\nfileinto ""; fileinto :flags "a" "A";\n'
    write(room / "lint", {"personal/main.sieve": main, "personal/a.sieve": b'require "include"; include "main";', "personal/lost.sieve": b"kep;", "global/there.sieve": b'require "include"; include :once :personal "lost";', "mains": b"main\n", "personal/alone.sieve": b""})
    faults = [
        ("personal/a.sieve:1", "recursive-include", 'The script personal "main" runs already.'),
        ("personal/lost.sieve:1", "unknown-command", "There is no such command or test."),
        ("personal/main.sieve:2", "recursive-include", 'The script personal "a" runs already.'),
        ("personal/main.sieve:4", "missing-script", 'There is no script global "gone".'),
        ("personal/main.sieve:6", "bad-address", "This isn't one address."),
        ("personal/main.sieve:8", "bad-mailbox", "A mailbox can't have this name."),
        ("global/there.sieve:1", "invalid-script", 'The script personal "lost" has a fault.'),
    ]
    order = sorted(faults, key=lambda fault: (not fault[0].startswith("global"), fault[0]))
    wanted = [f"lint/{place}: {word}: {sentence}" for place, word, sentence in order]
    yield run("faults, and what may stand after them", room, "lint lint", lines(*wanted), status=1)
    answers = b'require ["vacation", "variables"];\nvacation :days 1 :subject "a ${b}" :from "x\\\\" :mime "a";\nvacation :from "a@b.example" "b";\nvacation :from "x${c}" "d";\nvacation :from "a, b" "\\\"";\n'
    write(room / "answers", {"personal/main.sieve": answers, "mains": b"main\n", "with": b"vacation\n"})
    yield run("senders of responses", room, "lint answers", lines(*(f"answers/personal/main.sieve:{line}: bad-address: This isn't one address." for line in (2, 5))), status=1)
    stores = b'require ["fileinto", "mailbox", "special-use", "copy"];\nfileinto :create :copy "";\nfileinto :specialuse "\\\\Junk" "\t";\n'
    write(room / "stores", {"personal/main.sieve": stores, "mains": b"main\n", "with": b"mailbox\nspecial-use\n"})
    yield run("mailboxes of stores that ask for more", room, "lint stores", lines(*(f"stores/personal/main.sieve:{line}: bad-mailbox: A mailbox can't have this name." for line in (2, 3))), status=1)
    copies = b'require ["copy", "include"];\nredirect :copy "x";\ninclude :optional "broken";\n'
    write(room / "copies", {"personal/main.sieve": copies, "personal/broken.sieve": b"\nkep;", "mains": b"main\n"})
    faults = ["broken.sieve:2: unknown-command: There is no such command or test.", "main.sieve:2: bad-address: This isn't one address.", 'main.sieve:3: invalid-script: The script personal "broken" has a fault.']
    yield run("a redirect of a copy, and an optional include of a script that has a fault", room, "lint copies", lines(*(f"copies/personal/{fault}" for fault in faults)), status=1)
    write(room / "alone", {"personal/main.sieve": b'require "include"; include :global "a";', "global/a.sieve": b"", "personal/a.sieve": b"", "mains": b"main\n"})
    yield run("a script that no main one comes to", room, "lint alone", lines("alone/personal/a.sieve:0: unreached: No main script comes to it."))
    write(room / "once", {"personal/main.sieve": b'require "include"; include "t";', "personal/t.sieve": b'require "include"; include :once "main";', "mains": b"main\n"})
    yield run("a main script is entered already", room, "lint once")
    write(room / "ring", {"personal/main.sieve": b'require "include"; include :once "t";', "personal/t.sieve": b'require "include"; include "main";', "mains": b"main\n"})
    yield run("an include once enters", room, "lint ring", lines('ring/personal/t.sieve:1: recursive-include: The script personal "main" runs already.'), status=1)
    ring = {name: f'require "include"; include "{goal}";'.encode() for name, goal in (("main", "a"), ("a", "b"), ("b", "a"))}
    write(room / "after", {f"personal/{name}.sieve": text for name, text in ring.items()})
    told_of = [f'after/personal/{name}.sieve:1: recursive-include: The script personal "{goal}" runs already.' for name, goal in ("ab", "ba")]
    yield run("a script that leads into a ring isn't in it", room, "lint after", lines(*told_of), status=1)
    write(room / "clean", {"personal/main.sieve": b"keep;", "personal/.x.sieve": b"keep;"})
    yield run("no faults", room, "lint clean")
    write(room / "marked", {"personal/main.sieve": codecs.BOM_UTF8 + b"keep;", "personal/other.sieve": b"keep;\n" + codecs.BOM_UTF8, "mains": b"main\nother\n"})
    faults = ["main.sieve:1: syntax: The file begins with a byte order mark, the octets EF BB BF: save it without one.", "other.sieve:2: syntax: What stands here can't follow what stands before it, or the text ends too early."]
    yield run("a byte order mark", room, "lint marked", lines(*(f"marked/personal/{fault}" for fault in faults)), status=1)
    write(room / "twice", {"personal/main.sieve": b'redirect "x"; redirect "x";', "mains": b"main\n"})
    yield run("a fault that stands twice on a line", room, "lint twice", lines("twice/personal/main.sieve:1: bad-address: This isn't one address."), status=1)


# In place of sievec: it compiles what has no `reject`, and is given where the scripts are that those include.
SIEVEC = '#!/bin/sh\n[ "$2 $4" = "plugin/sieve=file:$PWD/SITE/personal plugin/sieve_global=file:$PWD/SITE/global" ] || exit 9\n! grep -n reject "$5" > /dev/null || { echo "x: line 2: error: there is a reject" >&2; exit 89; }\n'


def of_sievec(room):
    """What sievec says otherwise."""
    write(room / "peer", {"bin/sievec": SIEVEC.replace("SITE", "peer").encode(), "personal/main.sieve": b'require "include"; include "a";\ninclude "gone";', "personal/a.sieve": b"\nkep;", "personal/b.sieve": b"# reject", "personal/both.sieve": b"keep;", "personal/c.sieve": b"reject;", "mains": b"main\n"})
    (room / "peer/bin/sievec").chmod(0o755)
    wanted = ["a.sieve:2: unknown-command: There is no such command or test.", "c.sieve:1: unknown-command: There is no such command or test. reject needs reject, which the script doesn't require.", 'main.sieve:1: invalid-script: The script personal "a" has a fault.', 'main.sieve:2: missing-script: There is no script personal "gone".', "a.sieve:2: sievec: It compiles this.", "b.sieve:2: sievec: there is a reject", "main.sieve:1: sievec: It compiles this."]
    yield Run("sievebench-site: where sievec says otherwise", room, f'PATH="$PWD/peer/bin:$PATH" python3 {shlex.quote(str(TOOL))} lint --sievec peer', lines(*(f"peer/personal/{line}" for line in wanted)), status=1)
    write(room / "peer", {"personal/c.sieve": b"", "personal/d.sieve": b'require "regex"; # reject', "personal/e.sieve": b'require ["regex", "include"]; include "d";', "personal/f.sieve": b'require "regex";', "personal/main.sieve": b"", "personal/a.sieve": b"", "personal/b.sieve": b"", "unjudged": b"personal/d.sieve it waits\npersonal/e.sieve it waits\npersonal/f.sieve it waits\n"})
    notes = [f"{name}.sieve:1: skipped: it waits" for name in "def"] + [f"{name}.sieve:0: unreached: No main script comes to it." for name in ("a", "b", "both", "c", "d", "e", "f")]
    yield Run("sievebench-site: what sievec says of scripts that are listed", room, f'PATH="$PWD/peer/bin:$PATH" python3 {shlex.quote(str(TOOL))} lint --sievec peer', lines(*(f"peer/personal/{line}" for line in ("d.sieve:2: sievec: there is a reject", *notes))), status=1)
    write(room / "alien", {"bin/sievec": b"#!/bin/sh\nexit 1\n", "personal/a.sieve": b"keep;"})
    (room / "alien/bin/sievec").chmod(0o755)
    yield Run("sievebench-site: where sievec alone says something", room, f'PATH="$PWD/alien/bin:$PATH" python3 {shlex.quote(str(TOOL))} lint --sievec alien', lines("alien/personal/a.sieve:0: sievec: It can't compile this."), status=1)


def of_many(room):
    """Three thousand mails under five main scripts."""
    files = {f"mails/{number:04}.eml": b"Subject: word%d\n\n" % number for number in range(3_000)}
    names = [f"main{number}" for number in range(5)]
    files.update({f"personal/{name}.sieve": b'if header "subject" "word7" { discard; }' for name in names})
    files["mains"], files["envelope"] = lines(*names), NOBODY
    files["mails/0007.eml.expect"] = b"".join(b"[%s]\ndiscard\n" % name.encode() for name in names)
    write(room / "many", files)
    yield run("three thousand mails", room, "check --lax many", lines(counted(3_000, 5, 15_000, 5, 0, 14_995, 0, 0)))


def of_sites(room):
    """All of them."""
    room = room / "sites"
    room.mkdir()
    for part in (of_checks, of_spellings, of_names, of_clocks, of_refusals, of_programs, of_broken_files, of_junit, of_objects, of_records, of_lints, of_sievec, of_many):
        yield from some(part.__name__, part(room))
