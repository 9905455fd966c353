"""The transcripts of the examples.

A file `transcript` has lines `$ COMMAND`, which a shell runs in its folder, with `sievebench` for the program; after each the lines of
its standard output, then those of its standard error with `2> ` in front, then `= STATUS` where it isn't 0. A line of a comment, `# `,
and empty lines stand before a command alone.
"""
import os

from .runs import Run, some


def of_folders(here):
    """The runs of all transcripts."""
    for transcript in sorted(here.rglob("transcript")):
        title = transcript.parent.relative_to(here)
        yield from some(f"commands of {title}", runs_of(transcript, title))


def runs_of(transcript, title):
    """The runs that a transcript holds."""
    runs = []
    for number, line in enumerate(transcript.read_bytes().splitlines(keepends=True), 1):
        if line.startswith(b"$ "):
            command = os.fsdecode(line[2:].rstrip(b"\n"))
            runs.append(Run(f"{title}, line {number}", transcript.parent, command))
        elif line.startswith(b"2> "):
            runs[-1].error += line[3:]
        elif line.startswith(b"= "):
            runs[-1].status = int(line[2:])
        elif line.strip() and not line.startswith(b"# "):
            runs[-1].output += line
    return runs
