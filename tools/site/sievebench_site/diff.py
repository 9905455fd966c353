"""The command diff: which verdicts on a site's mails change where its scripts take the place of others."""
from __future__ import annotations

import contextlib
import io
import os
import re
import tarfile
from typing import Dict, Iterator, List, NamedTuple, Optional, Tuple

from .chains import NOTHING, chained
from .check import heads
from .ends import fail, ran, refuse
from .expected import Block
from .faults import sentence_of
from .files import octets_if_any, temporary_folder
from .findings import PLAIN
from .folder import Site, User, Wanted, site_of
from .groups import Group, changes, counted, difference, grouped
from .judge import Batch, Case, Judge, surveys, why_unjudged
from .mains import Main
from .program import NO_MEMORY, Place, Program
from .shown import Look
from .survey import Survey
from .words import quoted

Scripts = Dict[Place, bytes]
# The files beside scripts that change verdicts too, each with the name that asks for it.
SETTINGS = ((b"mailboxes", b"mailbox"), (b"clock", b"date"))
# What an environment may say of another repository than that of the site, as git does in hooks.
ELSEWHERE = ("GIT_DIR", "GIT_WORK_TREE", "GIT_INDEX_FILE", "GIT_PREFIX")


class Former(NamedTuple):
    """What a user had in the other site: the scripts and the survey of them."""

    user: User
    survey: Survey

    def scripts(self) -> Scripts:
        """The texts of the scripts."""
        return {script.at(): script.text for script in self.user.scripts}

    def main_of(self, main: Main, mains: List[Main], asked: bool) -> Optional[Main]:
        """What ran in the place of one of a user's lines: the line that was called so, or the only one where there is one now, or the same
        scripts if they were there. These come first where they are asked for."""
        scripts = self.scripts()
        same = [main] if all(place in scripts for place in main.scripts) else []
        lines = [it for it in self.user.mains if it.is_also(main)]
        only = self.user.mains if len(self.user.mains) == len(mains) == 1 else []
        return next(iter([*same, *lines] if asked else [*lines, *only, *same]), None)


class Diff:
    """The verdicts on the mails of a site under its scripts, and before under those of another."""

    def __init__(self, old: Site, new: Site, program: Program, jobs: int) -> None:
        self.old, self.new, self.judge = old, new, Judge(new, program, jobs)
        # The other site may be gone when this is told.
        self.settings = list(other_settings(old, new))
        found = zip(old.users, surveys(old, program, jobs))
        self.former = {user.name: Former(user, survey) for user, survey in found}
        cases = [it for part in self.judge.batches(self.batch, self.refused) for it in part]
        self.cases = sorted(cases, key=lambda case: case.mail.path)
        self.unjudged = [it for it in self.cases if it.unjudged]
        self.changed = [it for it in self.cases if not it.unjudged and it.agrees() is False]

    def batch(self, batch: Batch) -> List[Case]:
        """The verdicts on some mails. What was before stands in place of what is expected."""
        cases: List[Case] = []
        former = self.former.get(batch.user.name)
        if former is None:
            return cases
        survey = self.judge.surveys[batch.number]
        with self.judge.held(batch) as held:
            now = dict(held.bench.scripts)
            for main, earlier in self.compared(batch.user):
                held.bench.become(former.scripts())
                before = chained(held.bench, earlier.scripts, held.mails)
                held.bench.become(now)
                after = chained(held.bench, main.scripts, held.mails)
                for name, mail in held.mails.items():
                    was = why_unjudged(before[name], former.survey)
                    why = f"before, {was}" if was else why_unjudged(after[name], survey)
                    block = Block(b"", 0, before[name].texts())
                    cases.append(Case(batch.user, main, mail, after[name], why, 0.0, block))
        return cases

    def compared(self, user: User) -> List[Tuple[Main, Main]]:
        """The lines of a user that can be compared, each with what ran in its place before."""
        former = self.former.get(user.name)
        asked = bool(self.new.wanted.mains)
        found = [(main, former.main_of(main, user.mains, asked)) for main in user.mains] if former else []
        return [(main, earlier) for main, earlier in found if earlier]

    def refused(self, batch: Batch) -> List[Case]:
        """The cases of mails for which memory is refused, before or now."""
        mains = [main for main, _ in self.compared(batch.user)]
        return [Case(batch.user, main, mail, NOTHING, NO_MEMORY, 0.0, None) for main in mains for mail in batch.mails]

    def groups(self, each: bool) -> List[Group]:
        """The changed verdicts in groups, by their differences."""
        return grouped(self.changed, changes, each)

    def notes(self, look: Look) -> Iterator[str]:
        """What can't be compared, and where what isn't a script differs too."""
        for user in self.new.users:
            compared = dict(self.compared(user))
            for main in user.mains:
                earlier = compared.get(main)
                if earlier is None:
                    yield f"{look.name(main.label())}: not compared: its scripts weren't all there before"
                elif earlier.key != main.key:
                    yield f"{look.name(main.label())}: compared with {look.name(earlier.label())}, as it was called before"
        for name in self.settings:
            yield f"{look.name(os.path.join(self.new.wanted.folder, name))}: it was another, and is taken for both"

    def faults(self, look: Look) -> Iterator[str]:
        """The faults that there are now and weren't before."""
        told: Dict[str, None] = {}
        for user, survey in zip(self.new.users, self.judge.surveys):
            former = self.former.get(user.name)
            before = faults_of(former.user, former.survey) if former else {}
            for at, (path, fault) in faults_of(user, survey).items():
                if at not in before or before[at][1] != fault:
                    told[f"{look.name(path)}:{fault}"] = None
        return iter(told)

    def summary(self) -> str:
        """The last line."""
        told = len(self.cases) - len(self.unjudged)
        more = f", {len(self.unjudged)} not judged" if self.unjudged else ""
        return f"{len(self.changed)} of {counted(told, 'verdict')} changed{more}"


def faults_of(user: User, survey: Survey) -> Dict[Place, Tuple[bytes, str]]:
    """The files of a user's scripts that have a fault, and what is said of it."""
    found = survey.broken(user)
    return {it.at(): (it.path, f"{line}: {word}: {sentence_of(it, line, word)}") for it, (line, word) in found}


def other_settings(old: Site, new: Site) -> Iterator[bytes]:
    """The files beside scripts that are taken for both sites and said something else in the other one."""
    if set(old.names) != set(new.names):
        yield b"with"
    for name, asks in SETTINGS:
        given = name == b"clock" and new.wanted.clock is not None
        if asks in new.names and not given and setting(old, name) != setting(new, name):
            yield name


def setting(site: Site, name: bytes) -> bytes:
    """A file of a site's settings, or nothing where there is none."""
    return octets_if_any(os.path.join(site.wanted.folder, name))


def other_site(folder: bytes, new: Site) -> Site:
    """The other site's scripts, for the users that are wanted, where they were there."""
    site = site_of(Wanted(folder, [], [], [], None))
    wanted = [user.name for user in new.users]
    site.users[:] = [user for user in site.users if user.name in wanted]
    return site


def text_of(found: Diff, look: Look, each: bool, quiet: bool) -> str:
    """The results for people."""
    told = [] if quiet else list(found.notes(look))
    told += found.faults(look)
    for group in found.groups(each):
        told += heads(group, look, "") + [f"  {line}" for line in difference(group, look)]
    for group in grouped(found.unjudged, lambda case: case.unjudged, each):
        told += heads(group, look, f": not judged: {group.cases[0].unjudged}")
    if not quiet:
        told.append(found.summary())
    return "".join(f"{line}\n" for line in told)


def markdown_of(found: Diff, look: Look, each: bool, quiet: bool) -> str:
    """The results as a merge request shows them."""
    told = [] if quiet else [f"**{found.summary()}**", ""]
    for line in [*([] if quiet else found.notes(PLAIN)), *found.faults(PLAIN)]:
        told.append(f"- {code(line)}")
    for group in found.groups(each):
        lines = difference(group, PLAIN)
        fence = "`" * max(3, longest(lines) + 1)
        told += ["", *(f"- {code(line)}" for line in heads(group, PLAIN, "")), "", f"{fence}diff", *lines, fence]
    for group in grouped(found.unjudged, lambda case: case.unjudged, each):
        told += ["", *(f"- {code(line)}" for line in heads(group, PLAIN, f": not judged: {group.cases[0].unjudged}"))]
    return "".join(f"{line}\n" for line in told)


def longest(lines: List[str]) -> int:
    """How many of these quotes stand beside each other at most."""
    return max((len(it) for line in lines for it in re.findall("`+", line)), default=0)


def code(line: str) -> str:
    """A line of which nothing is a mark."""
    quotes = "`" * (longest([line]) + 1)
    blank = " " if line.startswith("`") or line.endswith("`") else ""
    return f"{quotes}{blank}{line}{blank}{quotes}"


@contextlib.contextmanager
def revision(name: str, folder: bytes) -> Iterator[bytes]:
    """A folder as it is in a revision of its repository, for as long as the block lasts."""
    if not os.path.isdir(folder):
        refuse(f"no folder {quoted(folder)}")
    inside = git(folder, ["rev-parse", "--show-prefix"])
    if inside is None:
        refuse(f"{quoted(folder)} is in no repository of git")
    prefix = inside.rstrip(b"\n").rstrip(b"/")
    commit = git(folder, ["rev-parse", "--verify", "--quiet", "--end-of-options", name + "^{commit}"])
    if commit is None:
        refuse(f"no revision {quoted(os.fsencode(name))} in the repository of {quoted(folder)}")
    tree = os.fsdecode(commit.strip() + b":" + prefix)
    kind = git(folder, ["cat-file", "-t", tree])
    if kind != b"tree\n":
        refuse(f"the revision {quoted(os.fsencode(name))} has no folder {quoted(prefix)}")
    top = git(folder, ["rev-parse", "--show-toplevel"]) or b"."
    packed = git(top[:-1] if top.endswith(b"\n") else top, ["archive", "--format=tar", tree])
    if packed is None:
        fail(f"git can't pack {quoted(prefix)} of the revision {quoted(os.fsencode(name))}")
    with temporary_folder() as room:
        with tarfile.open(fileobj=io.BytesIO(packed)) as box:
            # Newer versions of Python ask what of an archive is trusted: this one is the repository's own.
            setattr(box, "extraction_filter", getattr(tarfile, "fully_trusted_filter", None))
            box.extractall(room)
        yield os.fsencode(room)


def git(folder: bytes, words: List[str]) -> Optional[bytes]:
    """What git prints in a folder, if it succeeds."""
    env = {name: value for name, value in os.environ.items() if name not in ELSEWHERE}
    try:
        done = ran(["git", *words], folder, env)
    except OSError as error:
        fail(f'cannot run "git": {error.strerror}')
    return None if done.returncode else done.stdout
