"""The words of the command report: its help, and its options."""

from __future__ import annotations

import argparse

REPORT = """\
Writes one page of HTML, which needs no network and no script to be read: a little script of its own
sorts the table of mails, and finds a mail, a user or a mailbox.

The page has the counts of check; a table of the mails by main scripts, with equal rows folded; of
each mail its subject and addresses, the verdicts beside what is expected, what a server may do
otherwise, the scripts that were looked up, and the branch that each action came from; and each
script with its faults, how many mails come to each line and with which verdicts, and the changes
that untested finds unnoticed.

--against REVISION also shows what diff --git REVISION says.

FILE is replaced whole or not at all, and may not be inside of the site. /dev/stdout prints the page.
What mails and scripts say stands there as text, and equal sites give equal pages. A page has the
subjects and addresses of all mails. Whether all is as expected, check says: the status is 0 if the
page is written."""


def add_page(parser: argparse.ArgumentParser) -> None:
    """Adds the options of report."""
    writes = "the file that gets the page"
    parser.add_argument("-o", dest="output", required=True, metavar="FILE", help=writes)
    old = "also shows what the edit since this revision of the site's repository changes"
    parser.add_argument("--against", metavar="REVISION", help=old)
