"""The commands, and how a run ends."""

from __future__ import annotations

import argparse
import contextlib
import io
import os
import sys
import time
from typing import Callable, Dict, List, NoReturn, Optional, Tuple

from . import check, diff, ends, lint, lsp, page, report, untested, watch, why
from .beginning import USUAL, ask_for, has_begun, is_new
from .checked import Checked, Found, found_in
from .completion import completed
from .ends import Refusal, Signalled, refuse
from .filling import Filling, make_folder
from .files import locked, refuse_unwritable, remove_old, write_file
from .folder import Site, is_name, refuse_no_mains, site_of, take_mails
from .importing import import_mails
from .judge import Judge
from .lsp_place import Places
from .lsp_server import Server as LanguageServer
from .lsp_source import Source
from .merge import Part, merged
from .options import DESCRIPTION, SITE, STATUS, parsed, site_folder, wanted
from .program import Program
from .recognized import refuse_no_box
from .record import record
from .server import Server
from .shards import Shard
from .shown import look_of
from .words import quoted

VERSION = "0.2.0"


def program_of(options: argparse.Namespace, site: Site) -> Program:
    """The program that the words and the site ask for."""
    path = None if options.program is None else os.fsencode(options.program)
    return Program(path, site.names, options.memory)


def site_with_mails(options: argparse.Namespace, shard: Optional[Shard] = None) -> Site:
    """The site with its mails, and what stands beside those of a part."""
    site = site_of(wanted(options))
    refuse_no_mains(site)
    if shard:
        take_mails(site, shard.wants(site))
    else:
        take_mails(site)
    return site


def run_check(options: argparse.Namespace) -> int:
    """The command check."""
    junit = None if options.junit is None else os.fsencode(options.junit)
    if junit is not None:
        refuse_unwritable(junit)
        remove_old(junit)
    part, found = checked_part(options) if options.merge is None else (None, merged_parts(options))
    checked = Checked(found, options.lax, options.all)
    if junit is not None:
        write_file(junit, check.junit_of(checked))
    look = look_of(options.utf8)
    sys.stdout.write(check.results(checked, options.format, look, options.quiet, VERSION, part))
    return int(checked.failed)


def checked_part(options: argparse.Namespace) -> Tuple[Optional[Part], Found]:
    """What is found in a site, or in a part of it, and which part that is."""
    shard = options.shard
    site = site_with_mails(options, shard)
    judged = Judge(site, program_of(options, site), options.jobs, shard).all()
    return Part(shard, site, VERSION) if shard else None, found_in(site, judged, shard)


def merged_parts(options: argparse.Namespace) -> Found:
    """What the parts of a site found."""
    judging = ("user", "main", "only", "clock", "program", "shard")
    if any(getattr(options, name) not in (None, []) for name in judging):
        refuse(f"--merge judges nothing: it goes without {', '.join(f'--{name}' for name in judging)}")
    return merged([os.fsencode(it) for it in (*options.merge, *options.folders)], VERSION)


def run_record(options: argparse.Namespace) -> int:
    """The command record."""
    if options.prune and (options.user or options.main or options.only):
        refuse("--prune looks at the whole site: without --user, --main and --only")
    with locked(site_folder(options.folders)):
        site = site_with_mails(options)
        judged = Judge(site, program_of(options, site), options.jobs).all()
        told, whole = record(site, judged, look_of(options.utf8), options.force, options.prune)
    if not (options.quiet and whole):
        sys.stdout.write("".join(f"{line}\n" for line in told))
    return int(not whole)


def run_lint(options: argparse.Namespace) -> int:
    """The command lint."""
    began = time.monotonic()
    site = site_of(wanted(options))
    found = lint.lint(site, program_of(options, site), options.sievec)
    scripts = list(dict.fromkeys(script.path for user in site.users for script in user.scripts))
    tests = list(lint.tests_of(found, scripts, time.monotonic() - began))
    look = look_of(options.utf8)
    sys.stdout.write(lint.results(found, tests, options.format, look, options.quiet, VERSION))
    return int(lint.failed(found))


def run_import(options: argparse.Namespace) -> int:
    """The command import."""
    *sources, site = [os.fsencode(word) for word in options.folders] or [b""]
    serves = options.doveconf is not None or options.users is not None
    if not site or not (sources or serves):
        refuse("mailboxes or files are wanted, and then the site; see --help")
    for source in sources:
        refuse_no_box(source)
    look, told = look_of(options.utf8), []
    conf, pattern = (None if it is None else os.fsencode(it) for it in (options.doveconf, options.users))
    server = Server(Filling(site, look), conf, pattern) if serves else None
    if server:
        make_folder(site)
    folder = mails_of(site, options.user) if sources and not server else b""
    with locked(site):
        begins = is_new(site)
        if server:
            told += server.take()
        if sources:
            told += import_mails(sources, folder or mails_of(site, options.user), look)
        if begins and has_begun(site):
            told[:0] = ask_for(site, USUAL, look)
    sys.stdout.write("".join(f"{line}\n" for line in told))
    return 0


def mails_of(site: bytes, user: Optional[str]) -> bytes:
    """The folder of a site, or of a user of it, to which mails go."""
    if user is not None and not is_name(os.fsencode(user)):
        refuse(f"no user {quoted(os.fsencode(user))}: that is the name of a folder in users")
    home = site if user is None else os.path.join(site, b"users", os.fsencode(user))
    folder = os.path.join(home, b"mails")
    if user is not None and os.path.isdir(home):
        make_folder(folder)
    if not os.path.isdir(folder):
        refuse(f"no folder {quoted(folder)}: mails go there")
    return folder


def run_untested(options: argparse.Namespace) -> int:
    """The command untested."""
    site = site_with_mails(options)
    found = untested.Untested(site, program_of(options, site), options.jobs, options.keys, options.numbers)
    passed, look = found.passes(options.fail_under), look_of(options.utf8)
    sys.stdout.write(untested.json_of(found, passed) if options.json else untested.text_of(found, look, options.quiet))
    return int(not passed)


def run_diff(options: argparse.Namespace) -> int:
    """The command diff."""
    folders = [os.fsencode(word) for word in options.folders]
    wants = 1 if options.git is not None else 2
    if len(folders) != wants or not all(folders):
        refuse("two folders are wanted, or with --git one; see --help")
    options.folders = options.folders[-1:]
    site = site_with_mails(options)
    with contextlib.ExitStack() as room:
        old = folders[0] if options.git is None else room.enter_context(diff.revision(options.git, folders[0]))
        found = diff.Diff(diff.other_site(old, site), site, program_of(options, site), options.jobs)
    form = diff.markdown_of if options.format == "markdown" else diff.text_of
    sys.stdout.write(form(found, look_of(options.utf8), options.all, options.quiet))
    return int(bool(found.changed))


def run_why(options: argparse.Namespace) -> int:
    """The command why."""
    if len(options.folders) != 2:
        refuse("a site and a mail are wanted; see --help")
    *options.folders, mail = options.folders
    options.only = [os.fsdecode(why.mail_name(os.fsencode(mail)))]
    site = site_with_mails(options)
    sys.stdout.write(why.text_of(why.answers(site, program_of(options, site)), look_of(options.utf8)))
    return 0


def run_watch(options: argparse.Namespace) -> int:
    """The command watch, which a signal ends."""
    look = look_of(options.utf8)
    watch.watch(watch.Watch(wanted(options), lambda site: program_of(options, site), options.jobs, look, options.all))
    return 0


def run_report(options: argparse.Namespace) -> int:
    """The command report."""
    path, folder = os.fsencode(options.output), site_folder(options.folders)
    report.refuse_place(path, folder)
    site = site_with_mails(options)
    program = program_of(options, site)
    with contextlib.ExitStack() as room:
        edit = None
        if options.against is not None:
            old = room.enter_context(diff.revision(options.against, folder))
            edit = diff.Diff(diff.other_site(old, site), site, program, options.jobs)
    write_file(path, page.page_of(report.Facts(site, program, options.jobs, edit), VERSION))
    return 0


def run_lsp(options: argparse.Namespace) -> int:
    """The command lsp, which its client ends."""
    site = os.path.abspath(site_folder(options.folders)) if options.folders else None
    if site is not None and not os.path.isdir(site):
        refuse(f"no folder {quoted(site)}: the site is one")
    path = None if options.program is None else os.fsencode(options.program)
    source = Source(lambda names: Program(path, names, options.memory), options.names, Places(site))
    source.program_of(options.names)
    return lsp.serve(lsp.standard_input, LanguageServer(lsp.Output().write, source, VERSION))


COMMANDS: Dict[str, Callable[[argparse.Namespace], int]] = {
    "check": run_check,
    "record": run_record,
    "lint": run_lint,
    "import": run_import,
    "untested": run_untested,
    "diff": run_diff,
    "why": run_why,
    "watch": run_watch,
    "report": run_report,
    "lsp": run_lsp,
}


def main(words: List[str]) -> int:
    """Runs a command, and gives the status."""
    names = " and ".join([", ".join(list(COMMANDS)[:-1]), list(COMMANDS)[-1]])
    if not words:
        refuse(f"one of {names} is wanted; see --help")
    if words[0] in ("-h", "--help", "help"):
        sys.stdout.write(f"{DESCRIPTION}{SITE}\n{STATUS}")
        return 0
    if words[0] == "--version":
        print(f"sievebench-site {VERSION}, with {Program(None, []).version}")
        return 0
    if words[0] == "--complete" and len(words) == 3:
        sys.stdout.flush()
        sys.stdout.buffer.write(b"".join(b"%s\n" % it for it in completed(words[1], os.fsencode(words[2]))))
        return 0
    if words[0] not in COMMANDS:
        refuse(f"{quoted(os.fsencode(words[0]))} is none of {names}; see --help")
    return COMMANDS[words[0]](parsed(words[0], words[1:]))


def begin() -> NoReturn:
    """Runs the tool, also where an output is closed from the start."""
    sys.stdout, sys.stderr = sys.stdout or open(os.devnull, "w"), sys.stderr or open(os.devnull, "w")
    for output in (sys.stdout, sys.stderr):
        if isinstance(output, io.TextIOWrapper):
            output.reconfigure(errors="backslashreplace")
    ends.arm()
    os._exit(status_of(sys.argv[1:]))


def status_of(words: List[str]) -> int:
    """Runs a command with all that it writes, and gives the status."""
    try:
        try:
            status = main(words)
        except SystemExit as end:
            status = int(end.code or 0)
        sys.stdout.flush()
        return status
    except Refusal as refusal:
        return told(refusal.sentence, refusal.status)
    except Signalled as signalled:
        ends.CHILDREN.wait()
        return signalled.status
    except BrokenPipeError:
        ends.pipe_broke()
    except OSError as error:
        # Only what is printed raises one here, and what nobody thought of, which has a name.
        named = isinstance(error.filename, (str, bytes))
        what = f"read {quoted(os.fsencode(error.filename))}" if named else "write standard output"
        return told(f"cannot {what}: {error.strerror or error}", 2)
    except MemoryError:
        return told("this tool is out of memory", 3)


def told(sentence: str, status: int) -> int:
    """Ends with a sentence."""
    with contextlib.suppress(OSError):
        sys.stdout.flush()
    with contextlib.suppress(OSError):
        print(f"sievebench-site: {sentence}", file=sys.stderr, flush=True)
    return status
