"""The words of the command check: its help, and its options for parts of a site."""

from __future__ import annotations

import argparse
import re

from .shards import Shard

CHECK = """\
Compares the verdict on each mail, under each main script, with what is expected of it.

Prints each difference with the mails that have it, the scripts that have a fault or can't be
judged, mails without expectations, stale expectations, files that are left out, and a line of
counts. An expectation is stale if its mail isn't there, which isn't looked at with --only, or if no
line of mains is called so, which isn't looked at with --user or --main.

A script that requires what isn't there can't be judged. That fails the check, unless the file
unjudged lists the script: then it is skipped, and so is each mail whose run comes to it. A line of
this file is stale if its script can be judged.

The object of --json has passed; counts; cases, each with mail, main, agrees (null if nothing is
expected or it isn't judged), skipped, expected, verdict and the lines of scripts that entered it
(null if none did); faults, each with script, line and word; not judged and skipped, each with
script, line and why; stale and left out, each with file and why.

--shard K/N judges one of N parts, so that several machines share a large site. Each pair of a user
and a mail is in exactly one part, by a hash of their names, and so in the same one whatever else
the site has; of a site without users each pair of a line of mains and a mail. What belongs to no
verdict is reported by part 1 alone: faults of scripts, scripts that can't be judged, what is stale,
and files that are left out. A part with nothing to judge passes. The object of a part also has
shard, which --merge reads.

--merge makes one result of what all N parts printed with --json: that of a check of the whole site
with the other options that are given here, as --lax or --format. Parts of different sites are
refused: their files are compared, in folders of mails only the names and sizes."""


def shard(text: str) -> Shard:
    """One of several parts."""
    found = re.fullmatch(r"([0-9]{1,4})/([0-9]{1,4})", text)
    if not found or not 1 <= int(found[1]) <= int(found[2]):
        raise argparse.ArgumentTypeError(f"{text!r} isn't K/N, as 2/4, with K from 1 to N and N up to 9999")
    return Shard(int(found[1]), int(found[2]))


def add_sharing(parser: argparse.ArgumentParser) -> None:
    """Adds the options by which several machines share a site."""
    parser.add_argument("--shard", type=shard, metavar="K/N", help="judges only part K of N parts")
    merges = "makes one result of what all parts of a site printed with --json, and reads no site"
    parser.add_argument("--merge", nargs="*", metavar="FILE", help=merges)
