"""Sites as servers have them: users, scripts that run one after another, envelopes, and what can't be judged."""
import shlex

from .runs import Run, lines, some
from .site import LEFT, NOBODY, STALE, TOOL, counted, run, site, told, write

DISCARDS = b"[main]\ndiscard\n"


def of_users(room):
    """Several users, with scripts of one name."""
    files = {"mains": b"main\n", "envelope": NOBODY, "global/g.sieve": b"discard;", "mails/1.eml": b"", "mails/2.eml": b"", "mails/2.eml.users": b"b\n"}
    files.update({"users/a/personal/main.sieve": b"keep;", "users/b/personal/main.sieve": b'require "include"; include :global "g";', "users/b/mails/3.eml": b""})
    write(room / "users", files)
    names = ["mails/1.eml.expect", "mails/2.eml.expect", "users/b/mails/3.eml.expect"]
    yield run("verdicts of users are written", room, "record users", lines(*(f"users/{name}: new" for name in names), "3 mails, 3 written, 0 left"))
    yield run("they agree", room, "check users; cat users/mails/*.expect users/users/b/mails/*.expect", lines(counted(3, 2, 4, 4, 0, 0, 0, 0), "[a/main]", 'store "INBOX"', *["[b/main]", "discard"] * 3))
    yield run("one user", room, "check --user b users", lines(counted(3, 1, 3, 3, 0, 0, 0, 0)))
    yield run("one mail of a user's own", room, "check --only 3.eml users", lines(counted(1, 2, 1, 1, 0, 0, 0, 0)))
    write(room / "users", {"users/a/personal/main.sieve": b"discard;", "mails/2.eml.expect": b"[a/main]\ndiscard\n[b/main]\ndiscard\n"})
    wrong = ["users/mails/1.eml under a/main", '  - store "INBOX"', "  + discard  (users/users/a/personal/main.sieve:1)"]
    stale = "users/mails/2.eml.expect: no main script is called a/main"
    yield run("a user's verdict disagrees, and one is of another user's mail", room, "check users", lines(*wrong, stale, counted(3, 2, 4, 3, 1, 0, 1, 0)), status=1)
    yield run("an unknown user", room, "check --user c users", b"", told('no user "c": there is no "users/users/c"'), 2)
    write(room / "users", {"mails/2.eml.users": b"b c"})
    yield run("a mail of an unknown user", room, "check users", b"", told('"users/mails/2.eml.users" names "c", and the site has no such user'), 2)
    many = [f"user{number:02}" for number in range(21)]
    write(room / "crowd", {"mains": b"main\n", "envelope": NOBODY, "mails/1.eml": b"", **{f"users/{name}/personal/main.sieve": b"discard;" for name in many}})
    yield run("a file of each of many users", room, "record crowd; ls crowd/mails/1.eml.expect | wc -l; cat crowd/mails/1.eml.expect/user20", lines("crowd/mails/1.eml.expect: new, a folder of 21 files", "1 mails, 1 written, 0 left", "21", "[user20/main]", "discard"))
    yield run("they agree", room, "check crowd", lines(counted(1, 21, 21, 21, 0, 0, 0, 0)))
    write(room / "single", {**site({"1.eml": b"", "1.eml.users": b"a"}, main=b""), "personal/main.sieve": b""})
    yield run("users of a site that has none", room, "check single", b"", told('"single/mails/1.eml.users" names "a", and the site has no such user'), 2)


def of_chains(room):
    """Scripts that run one after another."""
    files = {"mains": b'before/10 main "after/two words"\nmain\n', "before/10.sieve": b'require "imap4flags";\nif header "subject" "a" { addflag "$A"; }\nif header "subject" "d" { discard; }\n'}
    files.update({"after/two words.sieve": b'require ["fileinto", "imap4flags"];\nif hasflag "$A" { fileinto "Had"; }\n', "personal/main.sieve": b'redirect :copy "x@y.example";'})
    files["personal/main.sieve"] = b'require "copy";\n\nredirect :copy "x@y.example";\n'
    write(room / "chain", {**files, "envelope": NOBODY, **{f"mails/{name}.eml": b"Subject: %s\n\n" % name.encode() for name in "abd"}})
    yield run("verdicts of a chain are written", room, "record chain > told; cat chain/mails/a.eml.expect", lines("[before/10 main \"after/two words\"]", 'redirect "x@y.example"', 'store "Had" "$A"', "[main]", 'redirect "x@y.example"', 'implicit "INBOX"'))
    yield run("they agree", room, "check chain; head -n 2 chain/mails/d.eml.expect", lines(counted(3, 2, 6, 6, 0, 0, 0, 0), '[before/10 main "after/two words"]', "discard"))
    write(room / "chain", {"after/two words.sieve": b'require ["fileinto", "imap4flags"];\nif hasflag "$A" {\n  fileinto "Hat"; }\n'})
    wrong = ["chain/mails/a.eml under before/10 main after/two words", '    redirect "x@y.example"', '  - store "Had" "$A"', '  + store "Hat" "$A"  (chain/after/two words.sieve:3)']
    yield run("a chain disagrees", room, "check chain", lines(*wrong, counted(3, 2, 6, 5, 1, 0, 0, 0)), status=1)
    yield run("one chain by an option", room, "check --lax --main 'before/10 main' chain", lines(counted(3, 1, 3, 0, 0, 3, 0, 0)))
    yield run("a chain has no such script", room, "check --main 'before/20 main' chain", b"", told('no main script "before/20": there is no "chain/before/20.sieve"'), 2)
    files = {"before/10.sieve": b"", "before/15.sieve": b'if header "subject" "x" { discard; }', "personal/main.sieve": b"", "mails/1.eml": b"", "mails/2.eml": b"Subject: x\n\n", "envelope": NOBODY}
    kept = {f"mails/{number}.eml.expect": b'[before/10 main]\nimplicit "INBOX"\n' for number in (1, 2)}
    write(room / "kept", {**files, **kept, "mains": b"before/10 before/15 main\n"})
    wrong = ["kept/mails/2.eml under main", '  - implicit "INBOX"', "  + discard  (kept/before/15.sieve:1)"]
    yield run("what is expected stays where a script comes before others", room, "check kept", lines(*wrong, counted(2, 1, 2, 1, 1, 0, 0, 0)), status=1)
    yield run("it is written under the main script", room, "record kept; cat kept/mails/*.expect", lines(*(f"kept/mails/{number}.eml.expect: changed" for number in (1, 2)), "2 mails, 2 written, 0 left", "[main]", 'implicit "INBOX"', "[main]", "discard"))
    write(room / "kept", {"mains": b"all: before/10 before/15 main\nfew: before/10 main\n"})
    yield run("lines that name themselves", room, "record --prune kept; cat kept/mails/2.eml.expect", lines(*(f"kept/mails/{number}.eml.expect: changed" for number in (1, 2)), "2 mails, 2 written, 0 left", "[all]", "discard", "[few]", 'implicit "INBOX"'))
    yield run("one of them", room, "check --main few kept", lines(counted(2, 1, 2, 2, 0, 0, 0, 0)))
    write(room / "chain", {"before/30.sieve": b"\nkep;", "before/40.sieve": b'redirect "x";'})
    faults = ["before/30.sieve:2: unknown-command: There is no such command or test.", "before/40.sieve:1: bad-address: This isn't one address."]
    yield run("faults of scripts that others follow", room, "lint chain", lines(*(f"chain/{it}" for it in faults), *(f"chain/before/{it}.sieve:0: unreached: No main script comes to it." for it in (30, 40))), status=1)


def of_envelopes(room):
    """Where envelopes come from."""
    script = b'require "envelope"; if envelope "from" "" { discard; } elsif envelope "to" "c@d.example" { redirect "a@b.example"; }'
    fields = b"Return-Path: <a@b.example>\r\nX-Original-To: e@f.example\r\nDelivered-To: c@d.example\r\n\r\n"
    mails = {"1.eml": fields, "2.eml": fields, "2.eml.envelope": NOBODY, "3.eml": b"Return-Path: <>\n" + fields, "4.eml": b"Return-Path: a b\n\n"}
    files = {f"mails/{name}": octets for name, octets in mails.items()}
    files.update({f"mails/{name}.eml.expect": DISCARDS for name in "234"})
    write(room / "fields", {"personal/main.sieve": script, "mains": b"main\n", **files, "mails/1.eml.expect": b'[main]\nredirect "a@b.example"\n'})
    yield run("envelopes of fields, and a mail without one", room, "check fields", lines(counted(4, 1, 4, 4, 0, 0, 0, 0, further=["1 mails without an envelope"])))
    yield run("record reports it too", room, "record fields", lines("4 mails, 0 written, 0 left, 1 mails without an envelope"))
    write(room / "fields", {"envelope": b"x@y.example c@d.example\n", "mails/4.eml.expect": b'[main]\nredirect "a@b.example"\n'})
    yield run("the envelope of a site", room, "check fields", lines(counted(4, 1, 4, 4, 0, 0, 0, 0)))
    for octets, what, why in [
        (b"ada b@c.example", 'sender "ada"', "has no @"),
        (b'a@b.example "c d"', 'recipient "c d"', "has no @"),
        (b"a@b.example <c@d.example>", 'recipient "<c@d.example>"', "has something before its @ that is no local part"),
        (b"a@b.example c@d,e", 'recipient "c@d,e"', "has something after its @ that is no domain"),
    ]:
        for place in ("mails/1.eml.envelope", "envelope"):
            wrong = told(f'"fields/{place}": the {what} is no address: it {why}')
            command = f"check fields; status=$?; rm fields/{place}; exit $status"
            write_it = f"printf %s '{octets.decode()}' > fields/{place};"
            it = run(f"no address: {octets.decode()}, {place}", room, command, b"", wrong, 2)
            it.command = f"{write_it} {it.command}"
            yield it


def of_unjudged(room):
    """Scripts that require what isn't there."""
    main = b'require "include"; if header "subject" "x" { include "old"; } discard;'
    write(room / "old", {**site({"1.eml": b"", "1.eml.expect": DISCARDS}, main=main), "personal/old.sieve": b'# old\nrequire ["fileinto", "regex"];', "personal/older.sieve": b'require "vacation";'})
    notes = ["old/personal/old.sieve:2: not judged: requires regex: it isn't supported yet; list the script in unjudged: personal/old.sieve requires regex", "old/personal/older.sieve:1: not judged: requires vacation: add it to the file with"]
    yield run("no verdict comes to a script that can't be judged", room, "check old", lines(*notes, counted(1, 1, 1, 1, 0, 0, 0, 0)), status=1)
    yield run("it fails lint too", room, "lint old", lines(*notes), status=1)
    write(room / "old", {"unjudged": b"personal/old.sieve requires regex\npersonal/older.sieve not asked for\n"})
    skipped = ["old/personal/old.sieve:2: skipped: requires regex", "old/personal/older.sieve:1: skipped: not asked for"]
    yield run("scripts that are listed", room, "check old", lines(*skipped, counted(1, 1, 1, 1, 0, 0, 0, 0)))
    yield run("they pass lint too", room, "lint old", lines(*skipped))
    write(room / "old", {"mails/2.eml": b"Subject: x\n\n"})
    yield run("a verdict comes to one", room, "check old", lines(*skipped, counted(2, 1, 2, 1, 0, 0, 0, 0, further=["1 skipped"])))
    (room / "old/unjudged").unlink()
    why = 'not judged: personal "old" requires regex'
    yield run("a verdict comes to it", room, "check --lax old", lines(*notes, f"old/mails/2.eml under main: {why}", counted(2, 1, 2, 1, 0, 0, 0, 0, further=["1 not judged"])), status=1)
    yield run("the others are recorded", room, "record old", lines(*notes, "2 mails, 0 written, 0 left, 1 verdicts not judged"))
    write(room / "old", {"with": b"vacation\n", "personal/old.sieve": b"discard;", "unjudged": b"personal/old.sieve once\n"})
    yield run("it is asked for", room, "check --lax old", lines(counted(2, 1, 2, 1, 0, 1, 1, 0)))
    stale = "old/unjudged: personal/old.sieve can be judged"
    yield run("what can be judged is listed", room, "check --only 1.eml old", lines(stale, counted(1, 1, 1, 1, 0, 0, 1, 0)), status=1)
    write(room / "huge", {**site({"1.eml": b"", "1.eml.expect": DISCARDS, "2.eml": b"x" * 16_777_217, "3.eml": b"x" * 16_777_216, "3.eml.expect": DISCARDS}, main=b"discard;")})
    left = "huge/mails/2.eml: left out: it has 16,777,217 octets, and a mail has at most 16,777,216"
    yield run("a mail past the limit, and one at it", room, "check huge", lines(left, counted(2, 1, 2, 2, 0, 0, 0, 0, further=["1 left out"])))
    names = {f"mails/{number}.EML": b"" for number in range(5)}
    names.update({"mails/cur/1795931695.M1P2.host:2,S": b"", "mails/1795931695.M1P2.host:2,S": b""})
    write(room / "names5", {**site({"1.eml": b"", "1.eml.expect": DISCARDS}, main=b"discard;"), **names})
    first = "left out: its name doesn't end by .eml, in small letters"
    wanted = [f"names5/mails/{number}.EML: {first}" for number in range(3)] + [f"and 2 more: {first[10:]}"]
    wanted += ["names5/mails/1795931695.M1P2.host:2,S: left out: it has the name of a Maildir's file: `import` takes it"]
    wanted += ["names5/mails/cur/1795931695.M1P2.host:2,S: left out: it is in a folder inside of mails"]
    yield run("names that are reported", room, "check names5", lines(*wanted, counted(1, 1, 1, 1, 0, 0, 0, 0, further=["7 left out"])))


def of_capabilities(room):
    """Names of capabilities that aren't known."""
    told_of = {
        "unjudged: personal/main.sieve requires regex": 'require "regex"; keep;',
        "main.sieve:1: not judged: requires duplicate, body: add them to the file with": 'require ["duplicate", "body"]; keep;',
        "main.sieve:2: unknown-capability: imap4flag: no such extension; did you mean imap4flags?": 'require "copy";\nrequire "imap4flag"; keep;',
        "main.sieve:1: unknown-command: There is no such command or test. vacation needs vacation, which the script doesn't require.": 'vacation "x";',
        ":regex needs regex, which the script doesn't require.": 'if header :regex "subject" "x" { keep; }',
    }
    for number, (sentence, script) in enumerate(told_of.items()):
        write(room / f"asks{number}", site({"1.eml": b""}, main=script.encode()))
        for command in ("lint", "check"):
            yield run(f"a name that isn't known: {script}, {command}", room, f"{command} asks{number}", [f"{sentence}\n".encode()], status=1)
    write(room / "unused", {**site({"1.eml": b""}, main=b'require ["regex", "index", "copy"]; keep;'), "with": b"unused\n"})
    yield run("capabilities that aren't used", room, "lint unused")
    write(room / "unused", {"personal/main.sieve": b'require ["regex", "copies"]; keep;'})
    wrong = "unused/personal/main.sieve:1: unknown-capability: copies: no such extension; did you mean copy?"
    for command in ("lint", "record"):
        yield run(f"a capability that isn't used and isn't one, {command}", room, f"{command} unused", lines(wrong), status=1)
    write(room / "unused", {"personal/main.sieve": b'require ["regex", "editheader"];\nif header :is "x" "y" { keep; }\naddheader "a" "b";'})
    wrong = "unused/personal/main.sieve:3: not judged: addheader needs editheader: it isn't supported yet; list the script in unjudged: personal/main.sieve requires editheader"
    yield run("one that is used", room, "lint unused", lines(wrong), status=1)
    write(room / "unused", {"unjudged": b"personal/main.sieve requires editheader\n"})
    yield run("it is listed", room, "check --lax unused", lines("unused/personal/main.sieve:3: skipped: requires editheader", counted(1, 1, 1, 0, 0, 0, 0, 0, further=["1 skipped"])))


def of_expectations(room):
    """What is expected by hand."""
    script = 'require ["fileinto", "imap4flags"]; fileinto :flags ["\\\\Seen", "$A"] "B\u00fcro";'.encode()
    for name, octets in [
        ("characters", '[main]\nstore "B\u00fcro" "\\\\Seen" "$A"\n'.encode()),
        ("capitals", b'[main]\nstore "B\\xC3\\xBCro" "\\\\Seen" "$A"\n'),
        ("comments", b'# why\n[main] # it\n# so\nstore "B\\xc3\\xbcro" "\\\\Seen" "$A" # "\n'),
        ("blanks", b'\r\n\r\n[main]\r\n\r\nstore  "B\\xc3\\xbcro"   "\\\\Seen" "$A"\r\n\r\n\r\n'),
        ("two blocks", b'[other]\r\n\r\nstore "X"\r\n\r\n[main]\r\nstore "B\\xc3\\xbcro" "\\\\Seen" "$A"\r\n\r\n'),
    ]:
        write(room / f"hand {name}", {**site({"1.eml": b"", "1.eml.expect": octets}, main=script)})
        yield run(f"by hand: {name}", room, f"check --lax 'hand {name}'", lines(counted(1, 1, 1, 1, 0, 0, int(name == "two blocks"), 0)))
    paste = "(echo '[main]'; cd pasted; sievebench test --with lines personal/main.sieve mails/1.eml | grep '^  ') > pasted/mails/1.eml.expect; "
    write(room / "pasted", site({"1.eml": b""}, main=script))
    it = run("lines that are pasted", room, "check pasted", lines(counted(1, 1, 1, 1, 0, 0, 0, 0)))
    it.command = paste + it.command
    yield it
    write(room / "kind", site({"1.eml": b"", "1.eml.expect": b"[main]\n\n# so\nkeep\n"}, main=b""))
    yield run("a kind of line that there isn't", room, "check kind", b"", told('"kind/mails/1.eml.expect", line 4: no line of a verdict begins with "keep"'), 2)
    gone = "kind/mails/1.eml.expect: stale: no main script is called gone"
    write(room / "kind", {"mails/1.eml.expect": b'[main]\nimplicit "INBOX"\n # keep it\n[gone]\ndiscard'})
    yield run("a file that isn't as it is written, and agrees", room, "record kind", lines(gone, f"1 mails, 0 written, 0 left, 1 {STALE}"))
    write(room / "kind", {"personal/main.sieve": b"keep;"})
    yield run("it is left", room, "record kind", lines(gone, f"kind/mails/1.eml.expect: {LEFT}", f"1 mails, 0 written, 1 left, 1 {STALE}"), status=1)
    yield run("it is written anew", room, "record --force kind; cat kind/mails/1.eml.expect", lines(gone, "kind/mails/1.eml.expect: changed", f"1 mails, 1 written, 0 left, 1 {STALE}", "[gone]", "discard", "[main]", 'store "INBOX"'))


def of_groups(room):
    """Differences that many mails have."""
    mails = {f"{number}.eml": b"" for number in range(5)}
    mails.update({f"{number}.eml.expect": b"[b]\ndiscard\n[a]\ndiscard\n" for number in range(5)})
    write(room / "alike", {**site(mails, a=b'require "fileinto";\nfileinto "A";', b=b'require "fileinto"; fileinto "A";'), "mains": b"b\na\n"})
    heads = [f"alike/mails/{mail}.eml under {main}" for mail, main in ((0, "b"), (0, "a"), (1, "b"))]
    change = ["  - discard", '  + store "A"  (alike/personal/b.sieve:1 and 1 other line)']
    yield run("a difference of many", room, "check alike", lines(*heads, "and 7 more: 10 verdicts in all, of 5 mails under 2 mains", *change, counted(5, 2, 10, 0, 10, 0, 0, 0)), status=1)
    each = [line for mail in range(5) for main, number in (("b", 1), ("a", 2)) for line in (f"alike/mails/{mail}.eml under {main}", "  - discard", f'  + store "A"  (alike/personal/{main}.sieve:{number})')]
    yield run("each of them", room, "check --all alike", lines(*each, counted(5, 2, 10, 0, 10, 0, 0, 0)), status=1)
    write(room / "alike", {"mails/2.eml.expect": b'[b]\nstore "A"\n[a]\nstore "B"\n'})
    two = [*heads, "and 5 more: 8 verdicts in all, of 4 mails under 2 mains", *change, "alike/mails/2.eml under a", '  - store "B"', '  + store "A"  (alike/personal/a.sieve:2)']
    yield run("two differences", room, "check alike", lines(*two, counted(5, 2, 10, 1, 9, 0, 0, 0)), status=1)
    odd = {"a\u202eb.eml": b"", b"\xff.eml".decode("utf-8", "surrogateescape"): b"", "\u00fc.eml": b""}
    write(room / "turned", site(odd, main=b""))
    names = ["a\\xe2\\x80\\xaeb.eml", "\u00fc.eml", "\\xff.eml"]
    yield run("characters that turn text around, and octets that are no UTF-8", room, "check --utf8 turned", lines(*(f"turned/mails/{name} under main: nothing is expected" for name in names), counted(3, 1, 3, 0, 0, 3, 0, 0)), status=1)


def of_parts(room):
    """Parts of a site that are judged apart: one result of theirs is that of the whole, in each form."""
    files = {"mains": b"main\nlate: before/10 second\n", "before/10.sieve": b"", "global/g.sieve": b"discard;", "global/old.sieve": b'require "regex";', "unjudged": b"global/old.sieve it waits\n", "mails/x.EML": b"", "mails/9.eml.expect": b""}
    scripts = [b'require "include"; include :global "g";', b"keep;", b"\nkep;", b'require "include"; include "gone";', b'require "include"; include :global "old";']
    for number, script in enumerate(scripts):
        files.update({f"users/u{number}/personal/main.sieve": script, f"users/u{number}/personal/second.sieve": scripts[number - 1], f"users/u{number}/mails/own.eml": b"Subject: own\n\n"})
        files[f"users/u{number}/mails/own.eml.expect"] = b"[u%d/main]\ndiscard\n[u%d/gone]\ndiscard\n" % (number, number)
    for number in range(4):
        files.update({f"mails/{number}.eml": b"Return-Path: <a@b.example>\nDelivered-To: c@d.example\n\n", f"mails/{number}.eml.expect": b"".join(b'[u%d/main]\nstore "INBOX"\n' % it for it in range(number, 5))})
    write(room / "parted", files)
    tool = f"python3 {shlex.quote(str(TOOL))} check"
    parts = f"for number in 1 2 3; do {tool} --shard $number/3 --json parted > part$number.json; echo $?; done"
    yield Run("sievebench-site: the parts of a site", room, parts, lines(1, 1, 1))
    for words in ("", "--lax --all --utf8", "--json", "--format github", "--format sarif", "--format junit"):
        both = f"{tool} {words} parted > whole; echo $?; {tool} {words} --merge part3.json part1.json part2.json > merged; echo $?"
        yield Run(f"sievebench-site: one result of its parts {words}", room, f"{both}; sed -i 's/ time=\"[0-9.]*\"//' whole merged; cmp whole merged && test -s whole", lines(1, 1))
    # Each of five users has the 4 mails of all and an own one, under two lines.
    yield Run("sievebench-site: how much there is of it", room, f"{tool} --merge part?.json | tail -n 1 | cut -d, -f -3", lines("9 mails, 10 mains, 50 verdicts"))
    yield Run("sievebench-site: a part that is missing", room, f"{tool} --merge part1.json part3.json", b"", told("shard 2/3 missing: all 3 make one result"), 2)
    yield Run("sievebench-site: a site that changed", room, f"printf 'stop;' > parted/global/g.sieve; {tool} -q --shard 2/3 --json parted > part2.json; {tool} --merge part?.json", b"", told('"part1.json" and "part2.json" are of different sites, or of one that changed'), 2)


def of_sites(room):
    """All of them."""
    room = room / "users of sites"
    room.mkdir()
    for part in (of_users, of_parts, of_chains, of_envelopes, of_unjudged, of_capabilities, of_expectations, of_groups):
        yield from some(part.__name__, part(room))
