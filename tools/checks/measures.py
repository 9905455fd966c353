"""What `tools/bench` answers where there is nothing to measure: no row stands for a program that isn't there, or that fails."""
import pathlib
import shlex

from .runs import Run, lines

TOOL = shlex.quote(str(pathlib.Path(__file__).resolve().parent.parent / "bench"))


def of_measures(room):
    """All of them."""
    room = room / "measures"
    room.mkdir()
    for words in ("", "--peers"):
        yield Run(f"no measures of a program that isn't there, {words or 'without an option'}", room, f"{TOOL} {words} ./absent", b"", [b"/absent isn't there: "], 1)
    (room / "fails").write_bytes(b"#!/bin/sh\nexit 3\n")
    (room / "fails").chmod(0o755)
    head = lines("| What | Seconds | Peak MiB |", "|---|---|---|")
    yield Run("no measures of a program that fails", room, f"{TOOL} ./fails", head, [b"/fails ended with "], 1)
