"""The words of the command import."""

from __future__ import annotations

import argparse

IMPORT = """\
Takes mails into a site's folder mails, as 0001.eml and on: those of Maildirs, mbox files, and files
of one mail each.

The octets stay as they are. Nothing is overwritten, and no mail is taken twice. A mail's envelope
is written next to it if both addresses are known; the sender may be that of the mbox's From line.
A site without mails and without the file with gets one with the name pigeonhole.
What is left out is reported with the reason: mails that are there already, are too large, or are
packed, and folders inside a Maildir, which are mailboxes of their own. A mail without a field is
taken and reported. If a mailbox or a file that is named is packed, a program or empty, nothing is
taken. Only one record or import may write to a site at a time.

--doveconf reads what doveconf -n of Dovecot 2.3 prints, on the server or with its files at the same
places, and --users, or a static home, leads to the users. The site, which may be a new one, gets

  before, after, default, global  the scripts of sieve_before and so on, of sieve_after and so on, of
                                  sieve_default and of sieve_global
  users/NAME/personal             a user's scripts
  mains, users/NAME/mains         what runs after what; the active script is that of the link. A user
                                  without one has sieve_default in its place, or the others alone
  with                            the names of sieve_extensions

Settings that aren't taken are printed with their lines. Two * in PATTERN are a domain and a name."""


def add_import(parser: argparse.ArgumentParser) -> None:
    """Adds the options of import."""
    parser.add_argument("--user", metavar="NAME", help="the user who gets the mails")
    parser.add_argument(
        "--doveconf", metavar="FILE", help="takes the scripts of the server of which doveconf -n prints this"
    )
    takes = "takes the scripts of the users whose folders are so, with * in the place of their names, as '/srv/vmail/*/sieve'"
    parser.add_argument("--users", metavar="PATTERN", help=takes)
