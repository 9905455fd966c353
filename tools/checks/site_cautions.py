"""Sites of which something is said that is no difference of a verdict: what stands in their files, what a server may do otherwise, and what it knows."""
import codecs

from . import site_differences, site_editors, site_names, site_servers
from .runs import lines, some
from .site import NOBODY, counted, run, site, told, write


def of_sets(room):
    """Sets of names."""
    of_set = b'require ["vacation", "comparator-i;ascii-numeric", "relational"]; if header :value "gt" :comparator "i;ascii-numeric" "x" "9" { discard; }'
    files = {**site({"1.eml": b"X: 10\n\n", "1.eml.expect": b"[main]\ndiscard\n"}, main=of_set), "with": b"pigeonhole\n"}
    write(room / "set", files)
    yield run("a set of names", room, "check --strict set", lines(counted(1, 1, 1, 1, 0, 0, 0, 0)))
    write(room / "whole", {**files, "with": b"all", "personal/main.sieve": b'require ["special-use", "ereject", "regex"]; discard;'})
    yield run("all names", room, "check --strict whole", lines(counted(1, 1, 1, 1, 0, 0, 0, 0)))


def of_zones(room):
    """Clocks without a zone."""
    agree = (1, 1, 1, 1, 0, 0, 0, 0)
    before = b'require ["date", "relational", "fileinto"]; if currentdate :value "lt" "date" "2026-07-22" { fileinto "away"; }'
    files = {**site({"1.eml": b"", "1.eml.expect": b'[main]\nstore "away"\n'}, main=before), "with": b"date\nrelational\n"}
    write(room / "zoneless", {**files, "clock": b"1784671199\n"})
    yield run("a clock without a zone", room, "check --strict zoneless", lines(counted(*agree)))
    write(room / "noon", {**files, "clock": b"1784671199\n", "personal/main.sieve": b'require ["date", "fileinto"]; if currentdate "zone" "+0000" { fileinto "away"; }'})
    yield run("it has the zone of UTC", room, "check --strict noon", lines(counted(*agree)))


def of_marks(room):
    """Byte order marks."""
    marked = {**site({"1.eml": b"", "1.eml.envelope": NOBODY, "1.eml.expect": b"[main]\n"}, main=b""), "with": b"mailbox\ndate\n", "mailboxes": b"A\n", "clock": b"1 +0000\n"}
    for number, name in enumerate(["mains", "with", "mailboxes", "clock", "envelope", "mails/1.eml.envelope", "mails/1.eml.expect", "mails/1.eml.users"]):
        write(room / f"mark{number}", {**marked, name: codecs.BOM_UTF8 + marked.get(name, b"ada\n")})
        wrong = told(f'"mark{number}/{name}", line 1: it begins with a byte order mark, the octets EF BB BF: save it without one')
        yield run(f"a byte order mark in {name}", room, f"check mark{number}", b"", wrong, 2)
    for name, mark, told_of in (("wide", codecs.BOM_UTF16_LE, "FF FE"), ("turned", codecs.BOM_UTF16_BE, "FE FF")):
        write(room / name, {"personal/main.sieve": mark + b"k\0e\0e\0p\0;\0", "mains": b"main\n"})
        yield run(f"a byte order mark, {name}", room, f"lint {name}", lines(f"{name}/personal/main.sieve:1: syntax: The file begins with a byte order mark, the octets {told_of}: save it as UTF-8 and without one."), status=1)


def of_cautions(room):
    """What a server may do otherwise, and what a site lacks."""
    uses = b'require ["fileinto", "special-use", "variables"];\nfileinto :specialuse "Junk" "A";\nfileinto :specialuse "\\\\Junk" "A";\nfileinto :specialuse "${a}" "A";\nfileinto :specialuse "\\\\" "${a}";\n'
    write(room / "uses", {"personal/main.sieve": uses, "mains": b"main\n", "with": b"special-use\n"})
    yield run("uses of mailboxes", room, "lint uses", lines(*(f"uses/personal/main.sieve:{line}: bad-mailbox: This is no use of a mailbox: one is a backslash and a word." for line in (2, 5))), status=1)
    boxes = b'require ["fileinto", "mailbox", "variables", "imap4flags"];\nfileinto "A";\nfileinto :create "B";\nfileinto :flags "c" "C";\nfileinto "${a}";\nfileinto "INBOX";\nif mailboxexists "A" {}\n'
    write(room / "boxed", {"personal/main.sieve": boxes, "mains": b"main\n", "with": b"mailbox\n", "mailboxes": b"A\nB\n"})
    junk = b'require ["fileinto", "mailbox", "special-use"];\nfileinto :specialuse "\\\\Junk" "C";\nfileinto :specialuse "\\\\Junk" "A";\nfileinto :create :specialuse "\\\\Junk" "D";\n'
    used = {**site({"1.eml": b""}, main=junk), "with": b"mailbox\nspecial-use\n", "mailboxes": b"A\n"}
    write(room / "used", used)
    lacks = 'used/personal/main.sieve:2: no-mailbox: No line of mailboxes is "C", and nothing makes it: unless a mailbox has the special use, the server keeps the mail in INBOX.'
    yield run("mailboxes of a special use that nothing makes", room, "lint used", lines(lacks))
    yield run("the same of a mail", room, "why used 1.eml | grep no-mailbox", lines(f"    {lacks}"))
    missing = 'no-mailbox: No line of mailboxes is "C", and nothing makes it: the server keeps the mail in INBOX.'
    yield run("mailboxes that nothing makes", room, "lint boxed", lines(f"boxed/personal/main.sieve:4: {missing}"))
    write(room / "unboxed", {"personal/main.sieve": boxes, "mains": b"main\n", "with": b"mailbox\n"})
    yield run("a question for mailboxes of which there is no list", room, "lint unboxed", lines("unboxed/personal/main.sieve:7: no-mailboxes: It asks whether a mailbox exists, and the site has no mailboxes."))
    answers = b'require "vacation";\nvacation "away";\n'
    write(room / "away", {**site({"1.eml": b"List-Id: <a.b>\n\n", "2.eml": b"From: a@b.example\n\n"}, main=answers), "with": b"vacation\n", "envelope": b"a@b.example c@d.example"})
    at = "away/personal/main.sieve"
    whole = ["away/mails/1.eml under main", "  what becomes of it:", f'    vacation "away"  ({at}:2)', '    implicit "INBOX"', "  what a server may do otherwise:"]
    whole += [f'    {at}:2: no-answer: The server doesn\'t answer this mail: it has the field "list-id: <a.b>".', "  scripts that are looked up:", f"    {at}", "  no branch is taken"]
    yield run("a mail that no server answers", room, "why away 1.eml", lines(*whole))
    yield run("one that servers answer", room, "why away 2.eml | grep -c server", b"0\n", status=1)
    yield run("verdicts with answers are written", room, "record -q away")
    yield run("an answer is expected that no server sends", room, "lint away", lines('away/mails/1.eml.expect:2: no-answer: The server doesn\'t answer this mail: it has the field "list-id: <a.b>".'))


def of_sites(room):
    """All of them."""
    room = room / "cautions"
    room.mkdir()
    for part in (of_sets, of_zones, of_marks, of_cautions, site_names.of_names, site_servers.of_servers, site_differences.of_differences, site_editors.of_editors):
        yield from some(part.__name__, part(room))
