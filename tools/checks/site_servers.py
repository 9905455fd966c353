"""A site that is made of what `doveconf -n` prints of a server's settings, where that is installed: its users are judged by their chains."""
import shlex
import shutil

from .runs import LeftOut, Run, lines

TOOL = __file__.rpartition("/checks/")[0] + "/sievebench-site"
TITLE = "sievebench-site: a server as doveconf prints it"
CONF = """\
mail_location = maildir:~/Maildir
mail_home = {room}/vmail/%d/%n
recipient_delimiter = +-
plugin {{
  sieve = file:~/scripts;active=~/active.sieve
  sieve_before = {room}/before.d
  sieve_before2 = {room}/spam.sieve
  sieve_default = {room}/default.sieve
  sieve_global = {room}/global
  sieve_extensions = +special-use -body +vnd.dovecot.pipe
  sieve_spamtest_status_type = score
  sieve_max_actions = 64
}}
userdb {{
  driver = passwd
}}
protocol lmtp {{
  plugin {{
    sieve_after = {room}/after.d
  }}
}}
"""
STORES = b'require ["fileinto", "copy"]; fileinto :copy "%s";'
# The users' mails, and the stores of the scripts that come to them: of those before, of their own or of the one in its place, and of those after.
FIRST, LAST = ['store "10-one"', 'store "20-two"', 'store "spam"'], ['store "90-last"', 'implicit "INBOX"']
EXPECTED = {
    "ada@a.example": ("own", ['store "lists"', *LAST]),
    "bob@a.example": ("own", ['store "bob"', *LAST]),
    "eva@a.example": ("default/default", ['store "default"', *LAST]),
}
REPORTED = {
    "sieve_extensions": "not known here: vnd.dovecot.pipe",
    "sieve_max_actions": "not taken: docs/LANGUAGE.md has the limits that hold here",
    "sieve_spamtest_status_type": "not taken: spamtest and virustest aren't known here",
    "recipient_delimiter": "not taken: the separator of :user and :detail is + here",
    "mail_location": "not taken: mails of a user are in ~/Maildir: import --user NAME takes them",
}


def files(room):
    """The server's files, and those that the site gets beside."""
    scripts = {f"before.d/{name}.sieve": name for name in ("10-one", "20-two")}
    scripts.update({"spam.sieve": "spam", "after.d/90-last.sieve": "90-last", "global/lists.sieve": "lists", "default.sieve": "default"})
    scripts["vmail/a.example/bob/scripts/own.sieve"] = "bob"
    made = {name: STORES % text.encode() for name, text in scripts.items()}
    made["vmail/a.example/ada/scripts/own.sieve"] = b'require "include"; include :global "lists";'
    return {**made, "dovecot.conf": CONF.format(room=room).encode(), "vmail/a.example/eva/Maildir/x": b"", "one.eml": b"Subject: one\n\n"}


def expected():
    """What is expected of the mail under each user's own script, or the one in its place."""
    return lines(*(line for name, (own, told) in EXPECTED.items() for line in (f"[{name}/{own}]", *FIRST, *told)))


def of_servers(room):
    """The site of a server, and what it expects."""
    if not shutil.which("doveconf"):
        yield LeftOut(TITLE, "since it isn't installed")
        return
    room = room / "server"
    for name, octets in files(room).items():
        path = room / name
        path.parent.mkdir(parents=True, exist_ok=True)
        path.write_bytes(octets)
    for name in ("ada", "bob"):
        (room / f"vmail/a.example/{name}/active.sieve").symlink_to("scripts/own.sieve")
    imports = f"doveconf -n -c dovecot.conf > conf; python3 {shlex.quote(TOOL)} import --doveconf conf one.eml site"
    reported = [f": {name}: {what}\n".encode() for name, what in REPORTED.items()]
    yield Run(TITLE, room, imports, [*reported, b"\n3 users, 11 files written\n"])
    records = f"python3 {shlex.quote(TOOL)} record -q site && cat site/mails/0001.eml.expect"
    yield Run("sievebench-site: what becomes of a mail there", room, records, expected())
    names = ["charsets", "comparator-i;ascii-numeric", "date", "duplicate", "encoded-character", "mailbox", "reject", "relational", "special-use", "subaddress", "vacation"]
    yield Run("sievebench-site: the names of its extensions", room, "cat site/with", lines(*names))
