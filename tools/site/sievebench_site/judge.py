"""The verdict on each mail under each main script: mails go into sessions in batches, and several sessions run at once."""

from __future__ import annotations

import concurrent.futures
import contextlib
import os
import sys
import threading
import time
from typing import Callable, Dict, Iterator, List, NamedTuple, Optional, Set, Tuple, TypeVar

from .chains import NOTHING, Bench, chained
from .ends import fail
from .envelopes import Envelope, envelope_if_any, envelope_of
from .expected import Block
from .files import octets_of
from .folder import Site, User
from .mails import Mail
from .mains import Main
from .program import NO_MEMORY, Fault, NoMemory, Place, Program, Session, Verdict
from .seats import Seats
from .shards import Shard
from .survey import Survey, requires, survey
from .words import quoted

# A batch has about so many octets at most, or one mail, and so many mails.
BATCH_OCTETS, BATCH_MAILS, FEW_MAILS = 8 << 20, 500, 50
# Of a user of whom nothing is judged.
NO_SURVEY = Survey({}, {}, {}, {})
Part = TypeVar("Part")
Result = TypeVar("Result")


class Case(NamedTuple):
    """A mail under a main script: the verdict, why it isn't judged if it isn't, how long that took, what is expected, if anything, and whether
    that it isn't judged is known and passes."""

    user: User
    main: Main
    mail: Mail
    verdict: Verdict
    unjudged: Optional[str]
    seconds: float
    block: Optional[Block]
    skipped: bool = False

    def lines(self) -> Tuple[bytes, ...]:
        """The lines of the verdict."""
        return self.verdict.texts()

    def agrees(self) -> Optional[bool]:
        """Whether the verdict is as expected; nothing where nothing is expected, or it isn't judged."""
        return None if self.block is None or self.unjudged else self.block.lines == self.lines()


def case_of(user: User, main: Main, mail: Mail, verdict: Verdict, found: Survey, seconds: float) -> Case:
    """A case, with what the mail's file expects."""
    unjudged, block = why_unjudged(verdict, found), mail.expected.block(main)
    return Case(user, main, mail, verdict, unjudged, seconds, block, bool(unjudged) and is_skipped(verdict, found))


# The cases of a batch, and its mails without an envelope.
Told = Tuple[List[Case], List[Mail]]


class Judged(NamedTuple):
    """All cases, in the order of the mails, the users and the main scripts; the surveys of the users; the mails without an envelope."""

    cases: List[Case]
    surveys: List[Survey]
    bare: List[Mail]
    seconds: float


class Batch(NamedTuple):
    """Some mails of a user, the lines of main scripts under which they are judged, and whether that wants a process of their own."""

    number: int
    user: User
    mains: List[Main]
    mails: List[Mail]
    fresh: bool = False


class Held(NamedTuple):
    """A session of a user's scripts and of some mails: the mails by their ids, and those without an envelope."""

    bench: Bench
    mails: Dict[bytes, Mail]
    bare: List[Mail]


class Judge:
    """Judges a site's mails by a program, or those of one part of the site."""

    def __init__(self, site: Site, program: Program, jobs: int, shard: Optional[Shard] = None) -> None:
        self.site, self.program, self.jobs = site, program, jobs
        self.default = envelope_if_any(os.path.join(site.wanted.folder, b"envelope"))
        self.work = list(batches_of(site, jobs, shard))
        wanted = {batch.number for batch in self.work} if shard and not shard.is_first() else None
        self.surveys = surveys(site, program, jobs, wanted)
        self.seats = Seats(program, lambda session: put_settings(session, site))
        self.progress = Progress(sum(len(batch.mails) for batch in self.work))

    def all(self) -> Judged:
        """The cases of all batches."""
        return self.judged(self.batches(self.batch, self.refused))

    def judged(self, found: List[Told]) -> Judged:
        """The cases of all batches, of what comes of each."""
        cases = sorted((case for cases, _ in found for case in cases), key=lambda case: case.mail.path)
        bare = {mail.path: mail for _, mails in found for mail in mails}
        return Judged(cases, self.surveys, [bare[path] for path in sorted(bare)], self.progress.seconds())

    def batches(self, work: Callable[[Batch], Result], without: Callable[[Batch], Result]) -> List[Result]:
        """What comes of the work on each batch. One for which memory is refused gets a process of its own, and then is cut in two, again
        and again, so that one mail doesn't stop the others: what comes of that mail is said without the work."""

        def parted(batch: Batch) -> List[Result]:
            try:
                return [work(batch)]
            except NoMemory:
                if batch.fresh and len(batch.mails) == 1:
                    return [without(batch)]
            smaller = halves(batch) if batch.fresh else [batch._replace(fresh=True)]
            return [it for part in smaller for it in parted(part)]

        with self.seats:
            return [it for part in self.each(self.work, parted) for it in part]

    def each(self, parts: List[Part], work: Callable[[Part], Result]) -> List[Result]:
        """What comes of each part of the work, of which several are done at once."""
        try:
            return at_once(parts, work, self.jobs)
        finally:
            self.progress.end()

    def batch(self, batch: Batch) -> Told:
        """What is told of a batch."""
        with self.held(batch) as held:
            cases = self.cases(batch, held)
        self.progress.add(len(batch.mails))
        return cases, held.bare

    def cases(self, batch: Batch, held: Held) -> List[Case]:
        """The cases of a batch that is in a session."""
        user, found = batch.user, self.surveys[batch.number]
        cases = []
        for main in batch.mains:
            began = time.monotonic()
            told = chained(held.bench, main.scripts, held.mails)
            seconds = (time.monotonic() - began) / len(held.mails)
            for name, mail in held.mails.items():
                cases.append(case_of(user, main, mail, told[name], found, seconds))
        return cases

    def refused(self, batch: Batch) -> Told:
        """The cases of mails for which memory is refused."""
        self.progress.add(len(batch.mails))
        cases = [(main, mail, mail.expected.block(main)) for main in batch.mains for mail in batch.mails]
        return [Case(batch.user, main, mail, NOTHING, NO_MEMORY, 0.0, block) for main, mail, block in cases], []

    @contextlib.contextmanager
    def held(self, batch: Batch) -> Iterator[Held]:
        """A session with the scripts of a batch's user and with its mails, until the block ends."""
        with self.seats.taken(batch.fresh) as seat:
            seat.put_scripts(batch.user)
            mails, bare = seat.put_mails(batch.mails, self.put_mail)
            yield Held(seat.bench, mails, bare)

    def put_mail(self, session: Session, name: bytes, mail: Mail) -> bool:
        """Puts a mail with its envelope, and says whether it has one."""
        return self.put(session, name, mail, *self.read(mail))

    def read(self, mail: Mail) -> Tuple[bytes, Envelope]:
        """The octets of a mail, and its envelope."""
        octets = octets_of(mail.path)
        return octets, self.envelope_of(mail, octets)

    def put(self, session: Session, name: bytes, mail: Mail, octets: bytes, envelope: Envelope) -> bool:
        """Puts a mail of these octets with this envelope, and says whether it has one."""
        session.edit("message", [name], octets, f"the mail {quoted(mail.path)}")
        if envelope.sender or envelope.recipient:
            words = [name, envelope.sender or b"", envelope.recipient or b""]
            session.edit("message-envelope", words, None, f"the envelope of {quoted(mail.path)}")
        return envelope.known()

    def envelope_of(self, mail: Mail, octets: bytes) -> Envelope:
        """The envelope of a mail with these octets, as far as it is known."""
        envelope = mail.envelope
        return envelope if envelope.known() else envelope.over(envelope_of(octets)).over(self.default)


def at_once(parts: List[Part], work: Callable[[Part], Result], jobs: int) -> List[Result]:
    """What comes of each part of some work, of which several are done at once."""
    pool = concurrent.futures.ThreadPoolExecutor(max(1, min(jobs, len(parts))))
    tasks: List["concurrent.futures.Future[Result]"] = []
    try:
        with starting_threads():
            tasks.extend(pool.submit(work, part) for part in parts)
        return [task.result() for task in tasks]
    finally:
        for task in tasks:
            task.cancel()
        pool.shutdown(wait=False)


@contextlib.contextmanager
def starting_threads() -> Iterator[None]:
    """Refuses what can't be begun, since the system has no memory or no processes left."""
    try:
        yield
    except RuntimeError as error:
        fail(f"cannot run several jobs at once: {error}")


def surveys(site: Site, program: Program, jobs: int, wanted: Optional[Set[int]] = None) -> List[Survey]:
    """The survey of each user, or of those with these numbers."""
    seats = Seats(program)

    def faults_of(user: User, fresh: bool = False) -> Dict[Place, Optional[Fault]]:
        try:
            with seats.taken(fresh) as seat:
                seat.put_scripts(user)
                return seat.session.report().faults
        except NoMemory:
            if fresh:
                raise
        return faults_of(user, True)

    numbers = [it for it in range(len(site.users)) if wanted is None or it in wanted]
    with seats:
        told = dict(zip(numbers, at_once([site.users[it] for it in numbers], faults_of, jobs)))
    return [
        survey(site, user, program, told[number]) if number in told else NO_SURVEY
        for number, user in enumerate(site.users)
    ]


def put_settings(session: Session, site: Site) -> None:
    """Puts what is the same for all mails."""
    if site.mailboxes:
        session.edit("mailboxes", [], site.mailboxes, f"the list of mailboxes {quoted(site.mailboxes_path())}")
    if site.clock is not None:
        session.words("clock", site.clock, "the clock")


def batches_of(site: Site, jobs: int, shard: Optional[Shard] = None) -> Iterator[Batch]:
    """The mails of each user, in batches that aren't large and give each job as many."""
    for number, user in enumerate(site.users):
        for mains, mails in shard.parts_of(user) if shard else [(user.mains, user.mails)]:
            rounds = -(-len(mails) // (BATCH_MAILS * jobs))
            most = max(FEW_MAILS, -(-len(mails) // max(1, rounds * jobs)))
            for part in parts_of(mails, most):
                yield Batch(number, user, mains, part)


def parts_of(mails: List[Mail], most: int) -> Iterator[List[Mail]]:
    """Mails in parts that aren't large, with so many at most in each."""
    part: List[Mail] = []
    octets = 0
    for mail in mails:
        if part and (len(part) == most or octets + mail.size > BATCH_OCTETS):
            yield part
            part, octets = [], 0
        part.append(mail)
        octets += mail.size
    if part:
        yield part


def halves(batch: Batch) -> List[Batch]:
    """A batch in two."""
    middle = len(batch.mails) // 2
    return [batch._replace(mails=mails) for mails in (batch.mails[:middle], batch.mails[middle:])]


def why_unjudged(verdict: Verdict, found: Survey) -> Optional[str]:
    """Why a mail isn't judged: its run came to a script that requires what isn't there. One that isn't listed is named before others."""
    came = [place for place, _ in verdict.reads if place in found.lacking]
    if not came:
        return None
    place = next((it for it in came if it not in found.listed), came[0])
    return f"{place[0]} {quoted(place[1])} {requires(found.lacking[place])}"


def is_skipped(verdict: Verdict, found: Survey) -> bool:
    """Whether each of the scripts that can't be judged and to which a run came is listed."""
    return all(place in found.listed for place, _ in verdict.reads if place in found.lacking)


class Progress:
    """How many mails are judged, told on a terminal after a second."""

    def __init__(self, whole: int) -> None:
        self.whole, self.done, self.began = whole, 0, time.monotonic()
        self.lock = threading.Lock()
        self.told = False

    def seconds(self) -> float:
        """How long it takes until now."""
        return time.monotonic() - self.began

    def add(self, count: int) -> None:
        """Adds mails that are judged."""
        with self.lock:
            self.done += count
            if sys.stderr.isatty() and self.seconds() > 1:
                print(f"\r{self.done} of {self.whole} mails", end="", file=sys.stderr, flush=True)
                self.told = True

    def end(self) -> None:
        """Ends the line."""
        if self.told:
            print(file=sys.stderr)
