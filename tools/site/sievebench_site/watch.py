"""The command watch: sessions that are held, and files that are looked at again and again."""
from __future__ import annotations

import contextlib
import os
import sys
import time
from typing import Callable, Dict, FrozenSet, Iterator, List, NamedTuple, Optional, Tuple

from .chains import Bench, chained
from .check import heads
from .ends import Refusal
from .envelopes import Envelope
from .expected import Block, Key
from .faults import sentence_of
from .folder import Site, User, Wanted, refuse_no_mains, site_of, take_mails
from .groups import FIRST, changes, counted, difference, grouped
from .judge import Case, Judge, case_of, put_settings
from .mails import Mail
from .mains import SCRIPT_END, Main
from .program import Place, Program, Session, Verdict
from .seats import Dropped
from .shown import Look

# How long it waits between two looks, and how long it lets files settle that change.
PAUSE, SETTLING, SETTLES = 0.5, 0.05, 20
# The files that a site has, and in how deep folders they are.
NAMES = (b"mains", b"with", b"unjudged", b"mailboxes", b"clock", b"envelope")
EXPECTS = b".eml.expect"
MAIL_ENDS = (b".eml", b".eml.envelope", EXPECTS, b".eml.users")
ENDS = (SCRIPT_END, *MAIL_ENDS)
DEPTH = 4
# When a file was changed, and when anything about it was, how large it is, and which one.
Stamp = Tuple[int, int, int, int]
Stamps = Dict[bytes, Stamp]
Texts = Dict[Place, bytes]
# A mail, and what about it can't change without its being put again.
Held = Tuple[Mail, object]
Settings = Tuple[bytes, Optional[List[bytes]]]
# A verdict by its user, the names of its main scripts and its mail.
Which = Tuple[bytes, Key, bytes]


def stamps_in(folder: bytes, depth: int = DEPTH) -> Stamps:
    """The files of a site that are there now."""
    found: Stamps = {}
    with contextlib.suppress(OSError), os.scandir(folder) as entries:
        for entry in entries:
            with contextlib.suppress(OSError):
                if entry.is_dir():
                    found.update(stamps_in(entry.path, depth - 1) if depth > 1 else {})
                elif entry.name in NAMES or entry.name.endswith(ENDS) or folder.endswith(EXPECTS):
                    status = entry.stat()
                    found[entry.path] = status.st_mtime_ns, status.st_ctime_ns, status.st_size, status.st_ino
    return found


def is_of_mail(path: bytes) -> bool:
    """Whether a file is a mail, or stands beside one."""
    return path.endswith(MAIL_ENDS) or os.path.dirname(path).endswith(EXPECTS)


class Desk:
    """A session that is held for a line of main scripts of a user, with the mails that are in it."""

    def __init__(self, program: Program) -> None:
        self.room = contextlib.ExitStack()
        self.session: Session = self.room.enter_context(program.session())
        self.bench = Bench(self.session, {})
        self.settings: Settings = b"", None
        self.mails: Dict[bytes, Tuple[bytes, object]] = {}
        self.number = 0

    def told(self, judge: Judge, main: Main, texts: Texts, mails: List[Held]) -> Dict[bytes, Verdict]:
        """The verdict on each mail by its file, after these scripts and mails were put where they aren't there yet."""
        self.bench.become(texts)
        settings = judge.site.mailboxes, judge.site.clock
        if settings != self.settings:
            self.put_settings(judge.site)
            self.settings = settings
        for path in set(self.mails) - {mail.path for mail, _ in mails}:
            self.drop(path)
        for mail, state in mails:
            if mail.path in self.mails and self.mails[mail.path][1] != state:
                self.drop(mail.path)
            if mail.path not in self.mails:
                self.number += 1
                self.mails[mail.path] = b"%d" % self.number, state
                judge.put_mail(self.session, b"%d" % self.number, mail)
        ids = {name: path for path, (name, _) in self.mails.items()}
        return {ids[name]: verdict for name, verdict in chained(self.bench, main.scripts, ids).items()}

    def put_settings(self, site: Site) -> None:
        """Puts what is the same for all mails, also where there is nothing any more."""
        if self.settings[0] and not site.mailboxes:
            self.session.edit("mailboxes", [], b"", "the list of mailboxes")
        if self.settings[1] and site.clock is None:
            self.session.words("no-clock", [], "the clock")
        put_settings(self.session, site)

    def drop(self, path: bytes) -> None:
        """Takes a mail out."""
        name, _ = self.mails.pop(path)
        self.session.edit("drop-message", [name], None, "the end of a mail")

    def close(self) -> None:
        """Ends the session, however far it is."""
        with contextlib.suppress(Dropped), self.room:
            raise Dropped


class Seen(NamedTuple):
    """What was seen at a look: the site, the verdicts, those that aren't as expected, and the faults by the files of their scripts, each
    as it is reported."""

    users: List[User]
    cases: Dict[Which, Case]
    wrong: FrozenSet[Which]
    faults: Dict[bytes, str]


NOTHING = Seen([], {}, frozenset(), {})


class Watch:
    """A site whose files are looked at, and what was seen last."""

    def __init__(self, wanted: Wanted, program: Callable[[Site], Program], jobs: int, look: Look, each: bool) -> None:
        self.wanted, self.program, self.jobs, self.look, self.each = wanted, program, jobs, look, each
        self.files: Stamps = {}
        self.names: List[bytes] = []
        self.running: Optional[Program] = None
        self.desks: Dict[Tuple[bytes, Key], Desk] = {}
        # The last text of each script of a user that had no fault.
        self.whole: Dict[Tuple[bytes, Place], bytes] = {}
        self.seen: Optional[Seen] = None
        # Whether the last look was refused.
        self.refused = False

    def lines(self) -> List[str]:
        """What is printed of a look: nothing where no file has changed."""
        files = stamps_in(self.wanted.folder)
        if files == self.files and self.seen:
            return []
        for _ in range(SETTLES if self.seen else 0):
            time.sleep(SETTLING)
            earlier, files = files, stamps_in(self.wanted.folder)
            if earlier == files:
                break
        changed = sorted(path for path in {*files, *self.files} if files.get(path) != self.files.get(path))
        first, self.files = self.seen is None, files
        if self.seen and not changed:
            return []
        began = time.monotonic()
        try:
            now = self.read(files, changed)
        except Refusal as refusal:
            self.close()
            self.refused = True
            if first or refusal.status != 2:
                raise
            return [*self.heading(changed), f"{refusal.sentence}: the last verdicts stand"]
        before, self.seen, self.refused = self.seen or NOTHING, now, False
        found = changed_cases(before, now)
        told = list(self.differences(before, now, found))
        head = [] if first else self.heading(changed)
        return [*head, *told, f"{summary(before, now, len(found))}, {time.monotonic() - began:.2f} seconds"]

    def site(self, changed: List[bytes]) -> Site:
        """The site as its files have it. Mails are read again where one of their files has changed, or those of the users."""
        site = site_of(self.wanted)
        refuse_no_mains(site)
        mails = {user.name: user.mails for user in self.seen.users} if self.seen and not self.refused else {}
        if set(mails) == {user.name for user in site.users} and not any(map(is_of_mail, changed)):
            for user in site.users:
                user.mails.extend(mails[user.name])
        else:
            take_mails(site)
        return site

    def read(self, files: Stamps, changed: List[bytes]) -> Seen:
        """Reads the site, and brings the sessions to what it has."""
        site = self.site(changed)
        if site.names != self.names or self.running is None:
            self.close()
            self.names, self.running = site.names, self.program(site)
        judge = Judge(site, self.running, self.jobs)
        texts, faults = self.texts(judge)
        work = [(number, user, main) for number, user in enumerate(site.users) for main in user.mains]
        wanted = {(user.name, main.key) for _, user, main in work}
        for key in set(self.desks) - wanted:
            self.desks.pop(key).close()
        for key in wanted - set(self.desks):
            self.desks[key] = Desk(judge.program)

        def cases(part: Tuple[int, User, Main]) -> List[Case]:
            number, user, main = part
            mails = [(mail, state_of(mail, files, judge.default)) for mail in user.mails]
            told = self.desks[user.name, main.key].told(judge, main, texts[user.name], mails)
            # Of a script whose last text stands it doesn't matter what it requires now.
            lacking = {at: it for at, it in judge.surveys[number].lacking.items() if (user.name, at) not in self.whole}
            found = judge.surveys[number]._replace(lacking=lacking)
            return [case_of(user, main, mail, told[mail.path], found, 0.0) for mail in user.mails]

        found = [it for part in judge.each(work, cases) for it in part] if work else []
        told = {(it.user.name, it.main.key, it.mail.path): it for it in found}
        before = self.seen or NOTHING
        wrong = frozenset(which for which, case in told.items() if is_wrong(which, case, before))
        return Seen(site.users, told, wrong, faults)

    def texts(self, judge: Judge) -> Tuple[Dict[bytes, Texts], Dict[bytes, str]]:
        """The texts of each user's scripts, of one with a fault the last that had none, and the faults."""
        texts: Dict[bytes, Texts] = {}
        faults: Dict[bytes, str] = {}
        whole: Dict[Tuple[bytes, Place], bytes] = {}
        for user, survey in zip(judge.site.users, judge.surveys):
            texts[user.name] = {}
            for script in user.scripts:
                key, fault = (user.name, script.at()), survey.faults.get(script.at())
                last = self.whole.get(key) if fault else script.text
                texts[user.name][script.at()] = script.text if last is None else last
                if last is not None:
                    whole[key] = last
                if fault:
                    stands = "" if last is None else " The verdicts of its last text stand."
                    sentence = sentence_of(script, *fault)
                    faults[script.path] = f"{self.look.name(script.path)}:{fault[0]}: {fault[1]}: {sentence}{stands}"
        self.whole = whole
        return texts, faults

    def heading(self, changed: List[bytes]) -> List[str]:
        """The files that were saved, or are gone."""
        told = [self.look.name(it) + (": saved" if it in self.files else ": gone") for it in changed[:FIRST]]
        more = len(changed) - FIRST
        return told + ([f"and {counted(more, 'other file')}"] if more > 0 else [])

    def differences(self, before: Seen, now: Seen, found: List[Tuple[Case, str]]) -> Iterator[str]:
        """The faults, changed verdicts and disagreements that are new."""
        yield from (line for path, line in now.faults.items() if before.faults.get(path) != line)
        yield from (f"{self.look.name(path)}: no fault any more" for path in before.faults if path not in now.faults)
        for mark in dict.fromkeys(mark for _, mark in found):
            for group in grouped([case for case, it in found if it == mark], changes, self.each):
                yield from heads(group, self.look, mark)
                yield from (f"  {line}" for line in difference(group, self.look))
        wrong = [now.cases[it] for it in now.cases if it in now.wrong and is_news(before.cases.get(it), now.cases[it])]
        for group in grouped(wrong, changes, self.each):
            yield from heads(group, self.look, ": not as expected")
            yield from (f"  {line}" for line in difference(group, self.look))

    def close(self) -> None:
        """Ends the sessions."""
        while self.desks:
            self.desks.popitem()[1].close()


def state_of(mail: Mail, files: Stamps, default: Envelope) -> object:
    """What of a mail is in a session."""
    return files.get(mail.path), mail.envelope, default


def summary(before: Seen, now: Seen, changed: int) -> str:
    """The last line but for the time."""
    first, number = before is NOTHING, counted(len(now.cases), "verdict")
    further = {
        "new": 0 if first else len(set(now.cases) - set(before.cases)),
        "gone": len(set(before.cases) - set(now.cases)),
        "not as expected": len(now.wrong),
        "not judged": sum(bool(case.unjudged) and not case.skipped for case in now.cases.values()),
    }
    told = [number if first else f"{changed} of {number} changed"]
    return ", ".join([*told, *(f"{count} {what}" for what, count in further.items() if count)])


def is_wrong(which: Which, case: Case, before: Seen) -> bool:
    """Whether a verdict isn't as expected. What is known of one that is as it was needn't be looked at again."""
    was = before.cases.get(which)
    if was and was.verdict is case.verdict and was.mail is case.mail and was.unjudged == case.unjudged:
        return which in before.wrong
    return case.agrees() is False


def changed_cases(before: Seen, now: Seen) -> List[Tuple[Case, str]]:
    """The verdicts that changed, each with the one before in place of what is expected, and what that means for what is expected."""
    found = []
    for which, case in now.cases.items():
        was = before.cases.get(which)
        if was and was.verdict is not case.verdict and was.lines() != case.lines():
            mark = ": no longer as expected" if was.agrees() and case.agrees() is False else ""
            mark = ": now as expected" if case.agrees() and was.agrees() is False else mark
            found.append((case._replace(block=Block(b"", 0, was.lines())), mark))
    return found


def is_news(was: Optional[Case], case: Case) -> bool:
    """Whether it wasn't reported before, nor follows from a reported change, that a verdict isn't as expected."""
    if was is None or was.agrees() is None:
        return True
    same = was.lines() == case.lines()
    return (was.agrees() is True and same) or (was.agrees() is False and (not same or was.block != case.block))


def watch(looking: Watch) -> None:
    """Tells what each look finds, until a signal ends it."""
    try:
        while True:
            told = looking.lines()
            if told:
                sys.stdout.write("".join(f"{line}\n" for line in told))
                sys.stdout.flush()
            time.sleep(PAUSE)
    finally:
        looking.close()
