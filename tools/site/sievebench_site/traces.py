"""Where the runs of a site's mails come in its scripts: which commands, and which blocks of branches."""

from __future__ import annotations

from typing import Dict, FrozenSet, NamedTuple, Optional, Set, Tuple

from .changes import Command
from .expected import Key
from .folder import Site
from .judge import Batch, Told
from .mains import Main
from .program import NoMemory, Place, Program
from .reach import Came, Places, Reach, with_error
from .untested import Few, Untested, Verdicts


class Visit(NamedTuple):
    """A script that a run looked up, and where the commands and blocks begin to which it came."""

    path: bytes
    places: FrozenSet[int]

    def takes(self, command: Command) -> bool:
        """Whether the run came to a command; of a branch after the first, whether it took that."""
        return point_of(command) in self.places


Trace = Tuple[Visit, ...]


def point_of(command: Command) -> Optional[int]:
    """The place at which a run comes to a command: where it begins, or the block of a branch after the first."""
    return command.block if command.name() in (b"elsif", b"else") else command.start()


class Traced(Untested):
    """What a check finds, where the runs come, and the changes of the scripts that no mail notices: all is asked of a batch at once."""

    def __init__(self, site: Site, program: Program, jobs: int) -> None:
        self.traces: Dict[Tuple[bytes, Key], Trace] = {}
        # Many runs are the same one.
        self.known: Dict[Trace, Trace] = {}
        super().__init__(site, program, jobs, False, False)

    def refuse_batch(self, batch: Batch) -> Told:
        """What is told of a mail for which memory is refused. It is judged where that needs less than the questions."""
        try:
            return self.judge.batch(batch)
        except NoMemory:
            return super().refuse_batch(batch)

    def came(
        self, batch: Batch, few: Few, main: Main, verdicts: Verdicts, places: Places
    ) -> Dict[bytes, Optional[Came]]:
        """Of each mail those of some places to which its run comes. Those of runs that fail are asked one by one."""
        told = super().came(batch, few, main, verdicts, places)
        failing = [name for name, came in told.items() if came is None]
        if failing:
            told.update(ended(Reach(few.bench_of(failing), failing, main), places))
        paths = {script.at(): script.path for script in batch.user.scripts}
        for name, came in told.items():
            trace = tuple(Visit(paths[at], came[at]) for at, _ in verdicts[name].reads if came and at in came)
            self.traces[few.held.mails[name].path, main.key] = self.known.setdefault(trace, trace)
        return told


def ended(reach: Reach, places: Places) -> Dict[bytes, Came]:
    """Of mails whose runs fail those of some places to which they come: a run ends there by an error that is put there."""
    found: Dict[bytes, Dict[Place, Set[int]]] = {name: {script: set() for script in places} for name in reach.ids}
    for script, asked in places.items():
        for place in asked:
            for name in reach.ended(script, *with_error(reach.bench.scripts[script], place)):
                found[name][script].add(place)
    return {name: {script: frozenset(it) for script, it in came.items()} for name, came in found.items()}
