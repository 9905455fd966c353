"""Sessions that are held for one user after another: a process for each would take longer than what it is asked."""

from __future__ import annotations

import contextlib
from typing import Callable, Dict, Iterator, List, Optional, Set, Tuple

from .chains import Bench
from .folder import User
from .mails import Mail
from .program import Program, Session

# Puts a mail by its id, and says whether its envelope is known.
Putting = Callable[[Session, bytes, Mail], bool]


class Dropped(Exception):
    """A session isn't used any more, and needn't end well."""


class Seat:
    """A session. What is in it stays there as far as the next user has it too: the scripts and the mails of all users are put once."""

    def __init__(self, program: Program) -> None:
        self.room = contextlib.ExitStack()
        self.session: Session = self.room.enter_context(program.session())
        self.bench = Bench(self.session, {})
        # The mails by their ids, and the ids of those whose envelope isn't known.
        self.mails: Dict[bytes, Mail] = {}
        self.bare: Set[bytes] = set()
        self.number = 0

    def put_scripts(self, user: User) -> None:
        """Brings the scripts to those of a user."""
        paths = {script.at(): script.path for script in user.scripts}
        self.bench.become({script.at(): script.text for script in user.scripts}, paths)

    def put_mails(self, mails: List[Mail], put: Putting) -> Tuple[Dict[bytes, Mail], List[Mail]]:
        """Brings the mails to these, and gives them by their ids, and those without an envelope."""
        ids = {mail.path: name for name, mail in self.mails.items()}
        wanted = {ids.get(mail.path) or self.new_id(): mail for mail in mails}
        self.become(wanted, put)
        return wanted, [mail for name, mail in wanted.items() if name in self.bare]

    def new_id(self) -> bytes:
        """An id that no mail had."""
        self.number += 1
        return b"%d" % self.number

    def become(self, wanted: Dict[bytes, Mail], put: Putting) -> None:
        """Brings the mails to these."""
        for name in [it for it, mail in self.mails.items() if it not in wanted or wanted[it].path != mail.path]:
            self.session.edit("drop-message", [name], None, "the end of a mail")
            del self.mails[name]
            self.bare.discard(name)
        for name, mail in wanted.items():
            if name not in self.mails:
                self.mails[name] = mail
                if not put(self.session, name, mail):
                    self.bare.add(name)

    def end(self) -> None:
        """Ends the session, which mustn't have failed until now."""
        self.room.close()

    def drop(self) -> None:
        """Ends the session, however far it is."""
        with contextlib.suppress(Dropped), self.room:
            raise Dropped


class Seats:
    """The sessions that are held, as many as are wanted at once. They end with the block."""

    def __init__(self, program: Program, begin: Callable[[Session], None] = lambda session: None) -> None:
        self.program, self.begin = program, begin
        self.idle: List[Seat] = []
        self.open = False

    def __enter__(self) -> "Seats":
        self.open = True
        return self

    def __exit__(self, kind: object, error: object, trace: object) -> None:
        self.open = False
        if kind is not None:
            self.drop()
        while self.idle:
            self.idle.pop().end()

    @contextlib.contextmanager
    def taken(self, fresh: bool) -> Iterator[Seat]:
        """A session for as long as the block lasts: a new one where that is wanted, or none is free. One in which the block failed isn't
        used again."""
        seat = None if fresh else self.free()
        begins = seat is None
        seat = seat or Seat(self.program)
        try:
            if begins:
                self.begin(seat.session)
            yield seat
        except BaseException:
            seat.drop()
            raise
        self.idle.append(seat)
        if not self.open:
            self.drop()

    def free(self) -> Optional[Seat]:
        """A session that nobody uses, if there is one."""
        try:
            return self.idle.pop()
        except IndexError:
            return None

    def drop(self) -> None:
        """Ends those that nobody uses, however far they are."""
        for seat in iter(self.free, None):
            seat.drop()
