"""Sites whose settings differ or change: the names that are asked for, the clock and the mailboxes, in `diff` and `watch`; and what sievec says of scripts
that the site's names don't let be judged."""
import shlex

from .questions import Watched
from .runs import Run, lines, some
from .site import SIEVEC, TOOL, run, site, write


def of_settings(room):
    """What isn't a script and differs: that of the second folder is taken for both, and that is said."""
    asks = b'require ["date", "relational"];\nif currentdate :value "lt" "date" "2026-07-22" { %s }\n'
    # The last second of 21 July, and the first one after it.
    early, late = b"1784671199 +0200\n", b"1784671200 +0200\n"
    for name, clock, does in (("early", early, b"discard;"), ("late", late, b"keep;"), ("edited", early, b"keep;")):
        write(room / name, {**site({"1.eml": b""}, main=asks % does), "with": b"date\nrelational\n", "clock": clock})
    another, none = "{}: it was another, and is taken for both".format, "0 of 1 verdict changed"
    change = ["edited/mails/1.eml under main", "  - discard", '  + store "INBOX"  (edited/personal/main.sieve:2)', "1 of 1 verdict changed"]
    yield run("a clock that is later, at which no edit shows", room, "diff early late", lines(another("late/clock"), none))
    yield run("the same the other way round", room, "diff late early", lines(another("early/clock"), "early/mails/1.eml under main", '  - store "INBOX"', "  + discard  (early/personal/main.sieve:2)", "1 of 1 verdict changed"), status=1)
    yield run("a clock that is the same", room, "diff early edited", lines(*change), status=1)
    yield run("a clock that is given", room, "diff --clock 1784671200+0200 late early", lines(none))
    exists = b'require "mailbox"; if mailboxexists "A" { %s }'
    for name, boxes, does in (("with-a", b"A\n", b"discard;"), ("with-b", b"B\n", b"keep;")):
        write(room / name, {**site({"1.eml": b""}, main=exists % does), "with": b"mailbox\n", "mailboxes": boxes})
    yield run("other mailboxes, of which no edit shows", room, "diff with-a with-b", lines(another("with-b/mailboxes"), none))
    yield run("other mailboxes, of which it does", room, "diff with-b with-a", lines(another("with-a/mailboxes"), "with-a/mails/1.eml under main", '  - store "INBOX"', "  + discard  (with-a/personal/main.sieve:1)", "1 of 1 verdict changed"), status=1)
    write(room / "with-a", {"with": b"# as ever\nmailbox\n", "mailboxes": b"B\n"})
    yield run("a comment more among the names", room, "diff with-b with-a", lines(none))


def of_watching(room):
    """A clock that goes on, stands still again and is gone, and mailboxes that come and go."""
    asks = b'require ["date", "relational", "mailbox"];\nif currentdate :value "ge" "date" "2026-07-22" { discard; }\nif mailboxexists "A" { redirect "a@b.example"; }\n'
    files = {**site({"1.eml": b""}, main=asks), "with": b"date\nmailbox\nrelational\n", "clock": b"1784671199 +0200\n"}
    write(room / "timed", files)
    steps = [
        lambda: write(room / "timed", {"clock": b"1784671200 +0200\n"}),
        lambda: write(room / "timed", {"clock": b"1784671201 +0200\n"}),
        lambda: write(room / "timed", {"mailboxes": b"A\n"}),
        lambda: (room / "timed/clock").unlink(),
        lambda: (room / "timed/mailboxes").unlink(),
    ]
    mail, kept = "timed/mails/1.eml under main", 'implicit "INBOX"'
    discard, sent = "discard  (timed/personal/main.sieve:2)", 'redirect "a@b.example"  (timed/personal/main.sieve:3)'
    one, none = "1 of 1 verdict changed, N seconds", "0 of 1 verdict changed, N seconds"
    wanted = ["1 verdict, N seconds"]
    wanted += ["timed/clock: saved", mail, f"  - {kept}", f"  + {discard}", one]
    wanted += ["timed/clock: saved", none]
    wanted += ["timed/mailboxes: saved", mail, "    discard", f"  + {sent}", one]
    wanted += ["timed/clock: gone", mail, "  - discard", "    " + sent.partition("  (")[0], one]
    wanted += ["timed/mailboxes: gone", mail, "  - " + sent.partition("  (")[0], f"  + {kept}", one]
    yield Watched("a clock and mailboxes", room, "timed", steps, wanted)


def of_sievec(room):
    """What sievec says of scripts that can't be judged, and of those that come to one."""
    texts = {"a": b'require "regex"; # reject', "b": b'require "regex";', "c": b'require "include"; include "b"; # reject', "d": b'require "include"; include "b";', "f": b"kep; # reject"}
    texts.update({name: b'require "include"; include "b"; include "f";' + end for name, end in (("e", b""), ("g", b" # reject"))})
    write(room / "lacks", {"bin/sievec": SIEVEC.replace("SITE", "lacks").encode(), "mains": b"d\n", **{f"personal/{name}.sieve": text for name, text in texts.items()}})
    (room / "lacks/bin/sievec").chmod(0o755)
    invalid, unknown = 'invalid-script: The script personal "f" has a fault.', "unknown-command: There is no such command or test."
    says = [f"lacks/personal/{name}.sieve:1: {what}" for name, what in (("e", invalid), ("f", unknown), ("g", invalid))]
    says += [f"lacks/personal/{name}.sieve:2: sievec: there is a reject" for name in "acg"]
    says += [f"lacks/personal/{name}.sieve:1: not judged: requires regex: it isn't supported yet; list the script in unjudged: personal/{name}.sieve requires regex" for name in "ab"]
    yield Run("sievebench-site: what sievec says of scripts that can't be judged, and of those that come to one", room, f'PATH="$PWD/lacks/bin:$PATH" python3 {shlex.quote(str(TOOL))} lint --sievec lacks', lines(*says), status=1)


def of_sites(room):
    """All of them."""
    room = room / "settings"
    room.mkdir()
    for part in (of_settings, of_watching, of_sievec):
        yield from some(part.__name__, part(room))
