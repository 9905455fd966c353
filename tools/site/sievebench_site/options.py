"""The words of the command line."""

from __future__ import annotations

import argparse
import os
import re
from typing import List, NoReturn, Optional

from .check_words import CHECK, add_sharing
from .ends import refuse
from .folder import Wanted
from .import_words import IMPORT, add_import
from .lsp_words import LSP, add_server
from .program import GIBIBYTE
from .report_words import REPORT, add_page
from .shown import Look

DESCRIPTION = """\
Tests a site's Sieve filters over sample mails, by the program sievebench.

Commands:
  check     compares the verdicts on the mails with what is expected of them
  record    writes today's verdicts as what is expected
  lint      reports faults of scripts, and includes and actions that must fail
  import    takes mails from mailboxes and files, and scripts from a server of Dovecot's
  untested  reports changes of the scripts that no mail notices
  diff      reports the verdicts that an edit changes
  why       says which commands entered a verdict, and which branches were taken
  watch     reports changed verdicts after each save
  report    writes one page of HTML that shows all this
  lsp       serves an editor: shows faults of a script while it is written

'sievebench-site COMMAND --help' has the options of a command, 'sievebench-site --version' prints
the versions of this tool and of the program.

A value that begins with - is joined to its option by =, and a path that begins with - stands after
--. Lines have colours only on a terminal, and none if NO_COLOR is set.

"""
SITE = """\
Files of a site:
  personal/NAME.sieve      personal scripts
  global/NAME.sieve        scripts for include :global; may be missing
  mains                    the main scripts, one a line. Several in a line run one after another, as
                           before/10-spam main after/90-lists: FOLDER/NAME is FOLDER/NAME.sieve of
                           the site. A name with blanks stands between quotes. A line may name
                           itself, as sales: before/10-spam main
  with                     names for --with of sievebench, one a line; pigeonhole stands for all
                           that Pigeonhole 0.5.19 knows by default, and all for all that there
                           are. May be missing
  unjudged                 scripts that can't be judged yet and are skipped, one a line: a path, as
                           personal/old.sieve, or a user's name, and then why; may be missing
  mailboxes                if with has mailbox: the mailboxes that exist, one a line; may be missing
  clock                    if with has date: the current time, one line of seconds since 1970-01-01
                           UTC and a zone, as 1783245600 +0200; without a zone it is +0000. The
                           zone is also that of dates that are shown without :zone and
                           :originalzone. May be missing
  envelope                 two words, the sender and the recipient of mails without their own, as
                           eva@a.example ada@b.example; \"\" is an empty one. May be missing, and
                           then both are empty, as the sender of a bounce
  mails/MAIL.eml           mails; those whose names begin with a dot are skipped. What looks like a
                           mail and isn't taken is reported: a name that ends in .EML or is that
                           of a Maildir's file, a file in a folder below, a broken link, and a mail
                           that is too large
  mails/MAIL.eml.envelope  the same of this mail. Without it, the sender is the first Return-Path
                           that is an address or <>, and the recipient the first Delivered-To that
                           is an address, or else X-Original-To, or else Envelope-To
  mails/MAIL.eml.expect    what is expected of the mail: for each line of mains its main script in
                           brackets, as [main], or its name, and the lines of the verdict. It may
                           be a folder with a file NAME of each user, as for more than 20 users
  mails/MAIL.eml.users     the users for whom the mail is judged; without it, all
  users/NAME/              a user, if there are several: personal, mains and mails, each of which may
                           be missing. The folders global and mails and the file mains at the top
                           are everybody's. Expectations stand in blocks [NAME/main]
"""
STATUS = """\
Exit status:
  0    check: all verdicts agree; lint: no fault; diff: no verdict changed; untested, why: done;
       report: the page is written; lsp: it ended after shutdown
  1    check: a verdict disagrees, a script has a fault, a verdict or a script can't be judged and
       isn't listed in unjudged, or without --lax something isn't expected or is stale; lint: a
       fault, or such a script; record: it left a file; diff: a verdict that changed; untested:
       fewer changes are noticed than --fail-under asks for; lsp: it ended without shutdown
  2    misuse: no mails, no such main script or mail, a file that can't be read or written, a
       refused edit
  3    the program, or sievec, can't be run
  130  ended by Ctrl-C
  143  ended by SIGTERM
"""
MORE = """\
'sievebench-site --help' has the files of a site and the statuses.
"""
FORMS = ("text", "json", "junit", "github", "sarif")
UNITS = {"": 1, "K": 1 << 10, "M": 1 << 20, "G": GIBIBYTE}


class Parser(argparse.ArgumentParser):
    """A parser that tells what is wrong as the rest of the tool does."""

    def error(self, message: str) -> NoReturn:
        refuse(f"{Look(False).name(os.fsencode(message))}; see --help")


def memory(text: str) -> int:
    """A number of octets, maybe with a unit."""
    found = re.fullmatch(r"([0-9]{1,9})([KMG]?)", text)
    if not found or not int(found[1]):
        raise argparse.ArgumentTypeError(f"{text!r} isn't a number of octets, as 512M or 4G")
    return int(found[1]) * UNITS[found[2]]


def jobs(text: str) -> int:
    """A number of processes."""
    if not re.fullmatch(r"[0-9]{1,4}", text) or not int(text):
        raise argparse.ArgumentTypeError(f"{text!r} isn't a number from 1 to 9999")
    return int(text)


def percent(text: str) -> float:
    """A number from 0 to 100."""
    if not re.fullmatch(r"[0-9]{1,3}(\.[0-9]{1,9})?", text) or float(text) > 100:
        raise argparse.ArgumentTypeError(f"{text!r} isn't a number from 0 to 100")
    return float(text)


DETAILS = {
    "check": CHECK,
    "record": """\
Writes today's verdicts as what is expected.

What is expected of mails and under scripts that aren't run stays, and so does what is expected of a
mail that can't be judged. What is stale stays and is reported, unless --prune takes it out. A file
that isn't as this tool writes it, for example with comments, CR LF or another order, is left and
reported, and so is one that changes meanwhile. If a script has a fault, nothing is written. Only
one record or import may write to a site at a time.""",
    "lint": """\
Reports the first fault of each script, and what must fail: includes of scripts that are missing or
have a fault, or that lead back; redirects to what isn't one address, responses from what isn't one,
and stores into what no mailbox or special use can be, if they have no variable.

A script that can't be judged, since it requires what isn't there, fails the run unless the file
unjudged lists it.

Also says which scripts no main script comes to, where scripts ask for the current date or for
mailboxes if the site has no clock or no mailboxes, where they store into a mailbox that isn't among
these and isn't made, and where an answer is expected of a mail that no server answers. These are no
faults.

Of a script that can't be judged, or comes to one, sievec alone says something. What it complains of
and compiles all the same isn't reported.""",
    "import": IMPORT,
    "untested": """\
Changes the scripts that some verdict looked up, one change after another, and reports each change
that no mail's verdict notices.

Each command that acts is taken out: all but require, global, if, elsif and else. Each condition
of an if or elsif is made true, and made false. All other lines stay where they are. A change is
noticed if the lines of a verdict differ, the script and line that entered an action apart.

  reached by no mail  no mail's run comes to the command, or asks for the condition
  mails come there    they do, but the change makes no difference to them: nothing would be done
                      after the stop, or another rule does the same

Of scripts that no verdict looked up only that is said. Changes that leave a fault and those that
change nothing are counted apart. A script with a fault isn't changed.

The object of --json has passed; counts; unnoticed, each with script, line, change, text and
reached; faults; not judged; not looked up.""",
    "diff": """\
Reports which verdicts on the mails of SITE change if its scripts replace those of OLD, or of a
revision in git.

A line of mains is compared with the line that was called so, whatever scripts ran in it, and a
user's only line with the only one before. Mails, envelopes and the files with, mailboxes and clock
are those of SITE; if one of these three was another, that is said. Lines that weren't there, and
whose scripts weren't all there, are \"not compared\". New faults are reported too. A verdict that
can't be judged, before or now, is reported and not counted as changed.""",
    "why": """\
Says of one mail's verdict which script and line entered each action, which scripts were looked up,
and which branches the run took, in order.

Also says what a server may do otherwise: it doesn't store into a mailbox that isn't there, nor
answer a mail whose sender is empty or that a list or a program sent. And it says where scripts ask
for a clock or mailboxes that the site doesn't have.

If the run ends in an error, the command that fails is taken out to find the branches, and that is
said. If its script may be included more than once, the branches end where the run first comes to
the command. A branch that is taken more than once is listed where it was taken first.""",
    "watch": """\
Looks at a site's files each half second, until Ctrl-C ends it. After a save it reports the verdicts
that changed, new faults, verdicts that are newly not as expected, and the time that it took.

The verdicts of a script that is saved with a fault stay; other scripts that were saved with it
count. Mails, main scripts and settings may come and go. If the site can't be read, the last
verdicts stay. A save counts once the files stay as they are for a twentieth of a second. Only what
a save touched is run, except main scripts that run one after another. All mails are held in memory,
once for each line of mains.""",
    "report": REPORT,
    "lsp": LSP,
}
PLACES = {"import": "[MAILBOX..] SITE", "diff": "[OLD] SITE", "why": "SITE MAIL", "lsp": "[SITE]"}


def parser_of(command: str) -> Parser:
    """The parser of a command."""
    name, form = f"sievebench-site {command}", argparse.RawDescriptionHelpFormatter
    parser = Parser(name, description=DETAILS[command], epilog=MORE, formatter_class=form, allow_abbrev=False)
    parser.add_argument("folders", nargs="*", metavar=PLACES.get(command, "SITE"))
    if command != "lsp":
        add_shown(parser)
    ADDERS[command](parser)
    return parser


def add_shown(parser: Parser) -> None:
    """Adds the options that say how names are shown."""
    group = parser.add_mutually_exclusive_group()
    shows = "shows octets of UTF-8 as characters; the default on a terminal"
    group.add_argument("--utf8", action="store_true", default=None, help=shows)
    group.add_argument(
        "--no-utf8", action="store_false", dest="utf8", help="shows them as \\xHH; the default elsewhere"
    )


def add_running(parser: Parser) -> None:
    """Adds the options of what runs the program."""
    parser.add_argument(
        "--user",
        action="append",
        default=[],
        metavar="NAME",
        help="takes only this user of the site; may be given again",
    )
    parser.add_argument(
        "--main",
        action="append",
        default=[],
        metavar="NAME",
        help="takes this line of mains alone, by its name or its scripts, or one that isn't in mains; may be given again",
    )
    parser.add_argument(
        "--clock", metavar="TIME", help="the current time, in place of the file clock, as 1783245600+0200"
    )
    add_program(parser)


def add_program(parser: Parser) -> None:
    """Adds the options of the program itself."""
    parser.add_argument(
        "--program",
        metavar="PROGRAM",
        help="the program; else sievebench next to this tool, or that of the path",
    )
    parser.add_argument(
        "--memory",
        type=memory,
        default=4 * GIBIBYTE,
        metavar="SIZE",
        help="the memory that each process of the program may take, as 512M; else 4G. A mail that needs more isn't judged",
    )


def add_quiet(parser: Parser) -> None:
    """Adds the option of what needn't be read where all is well."""
    parser.add_argument("-q", "--quiet", action="store_true", help="prints only what fails")


def add_judging(parser: Parser) -> None:
    """Adds the options of what judges mails."""
    processors = len(os.sched_getaffinity(0)) if hasattr(os, "sched_getaffinity") else os.cpu_count() or 1
    parser.add_argument(
        "--only",
        action="append",
        default=[],
        metavar="MAIL",
        help="takes only the mail of this file, as 09.eml; may be given again",
    )
    parser.add_argument(
        "--jobs",
        type=jobs,
        default=processors,
        metavar="N",
        help="how many processes of the program run at once; else as many as there are processors",
    )


def add_check(parser: Parser) -> None:
    """Adds the options of check."""
    add_running(parser)
    add_quiet(parser)
    add_judging(parser)
    lets = "passes mails without expectations, and stale expectations"
    parser.add_argument("--lax", action="store_true", help=lets)
    parser.add_argument("--strict", action="store_true", help="fails them; the default")
    tells = "prints each difference by itself, and each file that is left out"
    parser.add_argument("--all", action="store_true", help=tells)
    same = "the same as --format json"
    add_format(parser).add_argument("--json", action="store_const", const="json", dest="format", help=same)
    writes = "also writes the results to a file as JUnit has them; an earlier one is gone, however the run ends"
    parser.add_argument("--junit", metavar="FILE", help=writes)
    add_sharing(parser)


def add_record(parser: Parser) -> None:
    """Adds the options of record."""
    add_running(parser)
    add_quiet(parser)
    add_judging(parser)
    writes = "also rewrites files that aren't as this tool writes them, without their comments"
    parser.add_argument("--force", action="store_true", help=writes)
    takes = "also takes out what is stale: files of mails that aren't there, and blocks that no line of mains has"
    parser.add_argument("--prune", action="store_true", help=takes)


def add_lint(parser: Parser) -> None:
    """Adds the options of lint."""
    add_running(parser)
    add_quiet(parser)
    add_format(parser)
    runs = (
        "also runs sievec, the compiler of Dovecot's Pigeonhole, over each script, and reports where the two disagree"
    )
    parser.add_argument("--sievec", action="store_true", help=runs)


def add_format(parser: Parser) -> "argparse._MutuallyExclusiveGroup":
    """Adds the form of what is printed, and gives what excludes it."""
    how = "prints the results as text, one object of JSON, JUnit's XML, annotations of GitHub, or SARIF 2.1.0"
    group = parser.add_mutually_exclusive_group()
    group.add_argument("--format", choices=FORMS, default="text", help=how)
    return group


def add_untested(parser: Parser) -> None:
    """Adds the options of untested."""
    add_running(parser)
    add_quiet(parser)
    add_judging(parser)
    keys = "also takes out each string of a list of two or more"
    parser.add_argument("--keys", action="store_true", help=keys)
    numbers = "also moves each limit of size by one, up and down"
    parser.add_argument("--numbers", action="store_true", help=numbers)
    fails = "ends with status 1 if fewer of a hundred changes are noticed"
    parser.add_argument("--fail-under", type=percent, default=0.0, metavar="PERCENT", help=fails)
    parser.add_argument("--json", action="store_true", help="prints one object")


def add_diff(parser: Parser) -> None:
    """Adds the options of diff."""
    add_running(parser)
    add_quiet(parser)
    add_judging(parser)
    old = "compares with the site's folder in this revision of its repository"
    parser.add_argument("--git", metavar="REVISION", help=old)
    tells = "prints each difference by itself"
    parser.add_argument("--all", action="store_true", help=tells)
    how = "prints text, or Markdown for merge requests"
    parser.add_argument("--format", choices=("text", "markdown"), default="text", help=how)


def add_watch(parser: Parser) -> None:
    """Adds the options of watch."""
    add_running(parser)
    add_judging(parser)
    tells = "prints each difference by itself"
    parser.add_argument("--all", action="store_true", help=tells)


def add_report(parser: Parser) -> None:
    """Adds the options of report."""
    add_running(parser)
    add_judging(parser)
    add_page(parser)


def add_lsp(parser: Parser) -> None:
    """Adds the options of lsp."""
    add_server(parser)
    add_program(parser)


ADDERS = {
    "check": add_check,
    "record": add_record,
    "lint": add_lint,
    "import": add_import,
    "untested": add_untested,
    "diff": add_diff,
    "why": add_running,
    "watch": add_watch,
    "report": add_report,
    "lsp": add_lsp,
}


def parsed(command: str, words: List[str]) -> argparse.Namespace:
    """What the words of a command say. After `--` all are folders."""
    end = words.index("--") if "--" in words else len(words)
    options = parser_of(command).parse_intermixed_args(words[:end])
    options.folders = [*options.folders, *words[end + 1 :]]
    return options


def site_folder(words: List[str]) -> bytes:
    """The one folder that the words name."""
    if len(words) != 1 or not words[0]:
        refuse("one folder is wanted, the site; see --help")
    return os.fsencode(words[0])


def wanted(options: argparse.Namespace) -> Wanted:
    """What of a site the words ask for."""
    clock: Optional[str] = options.clock
    mains, mails, users = (
        [os.fsencode(it) for it in words] for words in (options.main, getattr(options, "only", []), options.user)
    )
    return Wanted(site_folder(options.folders), mains, mails, users, None if clock is None else os.fsencode(clock))
