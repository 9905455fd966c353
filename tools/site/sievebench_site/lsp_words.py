"""The words of the command lsp: its help, and its options."""

from __future__ import annotations

import argparse
import os
from typing import List

from .names import ALWAYS, NAMES, SETS, wrong_with
from .words import quoted

LSP = """\
Serves an editor by the Language Server Protocol 3.17, over standard input and output, until the
editor ends it. Editors start it themselves.

While a script is written it shows the first fault of the script, and all else that lint says of it,
a moment after the last key. It completes commands, tests, tags, capabilities in a require and names
of scripts in an include, shows the meaning of a word, its RFC and what it requires, and adds to the
first require what is used and isn't required. Nothing that a script says is done.

A script of a site is judged by the names of the site's file with, beside its other scripts. Those
that are open stand there with the text that the editor has. A script of everybody is judged as one
of the first user. A site is the folder above personal, global and others that has the file mains or
with, or users with a file mains, or SITE. Any other script is judged alone."""


def names(text: str) -> List[bytes]:
    """The names that are asked for."""
    found: List[bytes] = []
    for name in os.fsencode(text).split(b","):
        if name not in NAMES and name not in SETS:
            why = f"{quoted(name)} is always known" if name in ALWAYS else wrong_with(name)
            raise argparse.ArgumentTypeError(why)
        found += SETS.get(name, [name])
    return list(dict.fromkeys(found))


def add_server(parser: argparse.ArgumentParser) -> None:
    """Adds the options of a server."""
    asks = (
        "what scripts of no site may require beside what is always known, with commas between several; else pigeonhole"
    )
    parser.add_argument("--with", dest="names", type=names, default=SETS[b"pigeonhole"], metavar="NAMES", help=asks)
    takes = "takes messages from standard input, which is the default: editors may ask for it"
    parser.add_argument("--stdio", action="store_true", help=takes)
