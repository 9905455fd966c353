"""What the documents show: the lines of shell of `docs/FORMATS.md` that say how a session went, the contents of `docs/LANGUAGE.md`, the
caller of `docs/ARCHITECTURE.md` and the lemmas that it lets other crates cite, and what `docs/SITE.md` shows of a first check, of what is
expected of a mail and of what is reported then.
"""
import pathlib
import re
import shlex
import textwrap

from .files import write
from .runs import Reading, Run, lines, put

TOP = pathlib.Path(__file__).resolve().parent.parent.parent
FORMATS, LANGUAGE = TOP / "docs/FORMATS.md", TOP / "docs/LANGUAGE.md"
ARCHITECTURE, CALLER = TOP / "docs/ARCHITECTURE.md", TOP / "crates/library_tests/src/tests/caller.rt"
SITE, OFFICE, TOOL = TOP / "docs/SITE.md", TOP / "examples/site", TOP / "tools/sievebench-site"
# What writes the session in the document's lines; here a file has it.
MAKER = "tools/make-session --main main scripts mails"
SECTION, BLOCK = r"\n### {}\n((?:(?!\n##).)*)", r"```sh\n(.*?)```"


def blocks(title):
    """The blocks of shell under a heading of the formats' page."""
    section = re.search(SECTION.format(title), FORMATS.read_text(encoding="utf-8"), re.S)[1]
    return re.findall(BLOCK, section, re.S)


def of_replies(room):
    """A session whose sixth line with words is none, after replies of many lines, and the line that counts the replies."""
    (room / "input").write_bytes(b"message m 0\n\n" + put(b"script personal main", b"discard;\nx;\n") + b"main personal main\nreport\ndump personal gone\nfrobnicate\n")
    (count,) = blocks("Which line was refused")
    yield Run("the line of a `no syntax`", room, f"sievebench session < input > replies; {count}", lines("6"))


def of_failing(room):
    """What the lines that make a pipeline fail answer to sessions, and to a maker that fails; and the line that finds faults."""
    script, finder = blocks("When a session fails")
    text = put(b"script personal main", b'redirect "a";')
    assert script.count(MAKER) == 1, MAKER
    yield Run("the help has the same lines", room, "sievebench help session", [textwrap.indent(script.replace(MAKER, "INPUT"), "  ").encode()])
    sound, mail = put(b"script personal main", b"discard;"), b"message m 0\nmain personal main\n"
    report = mail + b"report\n"
    for number, (title, octets, end, output, status) in enumerate(
        [
            ("is sound", sound + report, "", lines("total 1 messages 0 errors"), 0),
            ("has an error", text + report, "", b"", 1),
            ("has an error and then none", text + report + sound + b"report\n", "", lines("total 1 messages 0 errors"), 0),
            ("has a verdict as expected", sound + mail + put(b"expect m", b"discard\n") + b"report\n", "", lines("total 1 messages 0 errors 0 unexpected"), 0),
            ("has another verdict than is expected", sound + mail + put(b"expect m", b"keep\n") + b"report\n", "", b"", 1),
            ("has a refused edit", sound + b"drop-message m\n" + report, "", lines("no no-such-message"), 1),
            ("ends by `no syntax`", sound + report + b"frobnicate\n", "", b"", 2),
            ("ends by `no truncated`", sound + report + b"message m 9\n", "", b"", 2),
            ("has no report", sound, "", b"", 1),
            ("is sound, of a maker that fails", sound + report, "exit 3", b"", 3),
        ]
    ):
        folder = room / f"failing{number}"
        folder.mkdir()
        (folder / "input").write_bytes(octets)
        (folder / "lines").write_text(script.replace(MAKER, "{ cat input; %s }" % (end and end + ";")))
        yield Run(f"the lines that make a pipeline fail, where the session {title}", folder, "bash lines", output, status=status)
    faulty = put(b"script personal main", b"keep;") + put(b'script personal "ok"', b"kep;") + put(b'script global "line 1 kep"', b"") + report
    (room / "faulty").write_bytes(faulty)
    yield Run("the line that finds faults", room, f"sievebench session < faulty > replies; {finder}", lines('script personal "ok" line 1 unknown-command'))


class Shown(Reading):
    """Whether what a document shows, a text or a list, is what stands elsewhere."""

    def __init__(self, title, wanted, got):
        self.title, self.command, self.wanted, self.got, self.looked = title, LANGUAGE.name, wanted, got, len(got)

    def found(self, path):
        """What is shown otherwise."""
        return [] if self.wanted == self.got else [f"wanted {self.wanted!r:.2000}, got {self.got!r:.2000}"]


def of_language():
    """The contents with their links."""
    text = LANGUAGE.read_text(encoding="utf-8")
    headings = re.findall(r"^## (.*)", text, re.M)
    wanted = [(heading, re.sub(r"[^a-z0-9 -]", "", heading.lower()).replace(" ", "-")) for heading in headings]
    yield Shown("the contents", wanted, re.findall(r"^- \[(.*?)\]\(#(.*?)\)", text, re.M))


def of_calling():
    """The caller, which is proved where it stands."""
    (shown,) = re.findall(r"```rust\n(.*?)```", ARCHITECTURE.read_text(encoding="utf-8"), re.S)
    source = CALLER.read_text(encoding="utf-8")
    yield Shown("the caller", shown, source[source.find(shown) :][: len(shown)])


def of_lemmas():
    """The modules of proofs from which other crates cite lemmas."""
    (said,) = re.findall(r"^\*\*Proofs\*\* (.*)", ARCHITECTURE.read_text(encoding="utf-8"), re.M)
    groups = re.findall(r"((?:`\w+`(?:, )?)+) \(([^)]*)\)", said)
    wanted = sorted((crate, module) for modules, of in groups for crate in re.findall(r"\w+", of) for module in re.findall(r"\w+", modules))
    got = set()
    for path in (it for it in (TOP / "crates").rglob("*") if it.suffix in (".rt", ".antt") and "out" not in it.parts):
        own = path.relative_to(TOP / "crates").parts[0]
        cited = re.findall(r"\bRattle\.(\w+)\.proofs\.(\w+)", path.read_text(encoding="utf-8"))
        got |= {(crate, module) for crate, module in cited if crate != own and (TOP / "crates" / crate).is_dir()}
    yield Shown("whose lemmas other crates cite", wanted, sorted(got))


def of_first_checks(room):
    """The lines that lead to a first check, from filters and a mailbox and from a server of Dovecot's."""
    home = room / "home"
    mail = b"Return-Path: <a@b.example>\nDelivered-To: c@d.example\nSubject: one\n\n"
    write(home, {"filters/main.sieve": b'require "envelope"; if envelope "to" "c@d.example" { discard; }', "Maildir/new/1": b"", "Maildir/cur/1795931695.M1.host:2,S": mail, "bin/x": b""})
    write(home, {"sieve/other.sieve": b"keep;", ".dovecot.sieve": b"discard;", "before.d/10-spam.sieve": b""})
    (home / "bin/sievebench-site").symlink_to(TOOL)
    shell = re.findall(BLOCK, SITE.read_text(encoding="utf-8"), re.S)
    ends = "2 mails, 1 mains, 2 verdicts, 2 agree, 0 disagree, 0 without expectation, 0 stale expectations, 0 scripts with a fault, 1 mails without an envelope"
    for number, (word, more) in enumerate([("cp ~/filters", ""), (".dovecot.sieve", "sievebench-site record site; sievebench-site check site")]):
        (text,) = (it.replace("/etc/dovecot/sieve", "~") for it in shell if word in it)
        (room / f"first{number}").mkdir()
        command = f"HOME={shlex.quote(str(home))}; export HOME; PATH=$HOME/bin:$PATH; set -e\n{text}{more}"
        yield Run(f"the lines of a first check with {word}", room / f"first{number}", command, [lines(ends)])


def of_site(room):
    """What is expected of the mail with an order, and what is printed where the script of orders sets no keyword."""
    expected, told = re.findall(r"^```\n((?:\[|site/mails/).*?)^```", SITE.read_text(encoding="utf-8"), re.S | re.M)
    yield Run("what is expected of a mail", OFFICE, "cat mails/04-order.eml.expect", expected.encode())
    changed = f"cp -R {shlex.quote(str(OFFICE))} site && sed -i 's/ :flags \"$Order\"//' site/personal/sales.sieve"
    yield Run("what is printed of a changed script", room, f"{changed} && {shlex.quote(str(TOOL))} check --strict site", told.encode(), status=1)


def of_documents(room):
    """All of them."""
    room = room / "documents"
    room.mkdir()
    yield from of_replies(room)
    yield from of_failing(room)
    yield from of_language()
    yield from of_calling()
    yield from of_lemmas()
    yield from of_first_checks(room)
    yield from of_site(room)
