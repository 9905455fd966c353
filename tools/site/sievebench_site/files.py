"""Files that are read whole, written whole or not at all, and a lock."""

from __future__ import annotations

import contextlib
import errno
import fcntl
import os
import socket
import stat
import sys
import tempfile
from typing import IO, Dict, Iterator, List

from .ends import refuse
from .words import quoted

# What is answered of a link to nothing, through a plain file, or in a ring: such a link leads to no file.
LOST = (errno.ENOENT, errno.ENOTDIR, errno.ELOOP)
OUTPUTS = (b"/dev/stdout", b"/dev/fd/1")
Entries = Dict[bytes, "os.DirEntry[bytes]"]


@contextlib.contextmanager
def reading(path: bytes) -> Iterator[None]:
    """Refuses what can't be read, with the system's reason."""
    try:
        yield
    except OSError as error:
        refuse(f"cannot read {quoted(path)}: {error.strerror or error}")


@contextlib.contextmanager
def writing(path: bytes) -> Iterator[None]:
    """Refuses what can't be written, with the system's reason."""
    try:
        yield
    except OSError as error:
        refuse(f"cannot write {quoted(path)}: {error.strerror or error}")


def names_in(folder: bytes) -> List[bytes]:
    """All names of a folder, in the order of their octets."""
    with reading(folder):
        return sorted(os.listdir(folder))


def entries_in(folder: bytes) -> Entries:
    """What is in a folder by its name, in the order of the names' octets."""
    with reading(folder), os.scandir(folder) as found:
        return {it.name: it for it in sorted(found, key=lambda it: it.name)}


def is_file(entry: "os.DirEntry[bytes]") -> bool:
    """Whether what is in a folder leads to a plain file. The system is asked only of links."""
    try:
        return entry.is_file()
    except OSError:
        return is_plain(entry.path)


def files_in(folder: bytes, end: bytes) -> List[bytes]:
    """The names of a folder's plain files that have this end and something before it, in the order of their octets."""
    return [name for name, it in entries_in(folder).items() if name.endswith(end) and name != end and is_file(it)]


def is_plain(path: bytes) -> bool:
    """Whether a path leads to a plain file, through links too."""
    with reading(path):
        try:
            return stat.S_ISREG(os.stat(path).st_mode)
        except OSError as error:
            if error.errno not in LOST:
                raise
    return False


def octets_of(path: bytes) -> bytes:
    """What is in a plain file."""
    with reading(path):
        if stat.S_ISREG(os.stat(path).st_mode):
            with open(path, "rb", buffering=0) as file:
                return file.read()
    refuse(f"cannot read {quoted(path)}: it is no plain file")


def octets_if_any(path: bytes) -> bytes:
    """The same, or nothing where there is no such name."""
    return octets_of(path) if os.path.lexists(path) else b""


def size_in(entry: "os.DirEntry[bytes]") -> int:
    """How many octets a file of a folder has."""
    with reading(entry.path):
        return entry.stat().st_size


def umask() -> int:
    """What new files are denied."""
    mask = os.umask(0o022)
    os.umask(mask)
    return mask


@contextlib.contextmanager
def temporary() -> Iterator[IO[bytes]]:
    """A file that nobody else sees."""
    with contextlib.ExitStack() as room:
        with writing(os.fsencode(os.environ.get("TMPDIR", "/tmp"))):
            file = room.enter_context(tempfile.TemporaryFile())
        yield file


@contextlib.contextmanager
def temporary_folder() -> Iterator[str]:
    """A folder that is gone afterwards."""
    with contextlib.ExitStack() as room:
        with writing(os.fsencode(os.environ.get("TMPDIR", "/tmp"))):
            folder = room.enter_context(tempfile.TemporaryDirectory())
        yield folder


@contextlib.contextmanager
def beside(place: bytes, octets: bytes) -> Iterator[bytes]:
    """A file with these octets in the folder of a place, which is gone afterwards unless it was renamed."""
    handle, path = tempfile.mkstemp(prefix=b".", suffix=b".new", dir=os.path.dirname(place) or b".")
    try:
        with open(handle, "wb") as file:
            file.write(octets)
        yield path
    finally:
        with contextlib.suppress(FileNotFoundError):
            os.unlink(path)


def write_file(path: bytes, octets: bytes) -> None:
    """Writes a file. A plain one is written beside its place first, so that it is there whole or as it was."""
    if path in OUTPUTS:
        sys.stdout.flush()
        sys.stdout.buffer.write(octets)
        return
    place = os.path.realpath(path)
    with writing(path):
        if os.path.exists(path) and not is_plain(path):
            with open(path, "wb") as file:
                file.write(octets)
            return
        with beside(place, octets) as new:
            os.chmod(new, stat.S_IMODE(os.stat(place).st_mode) if is_plain(place) else 0o666 & ~umask())
            os.replace(new, place)


def write_folder(path: bytes, files: Dict[bytes, bytes]) -> None:
    """Puts a folder of files in the place of a file, or where there is none. It is written beside its place first, so that one of the two
    is there whole."""
    place = os.path.realpath(path)
    above = os.path.dirname(place) or b"."
    with writing(path), tempfile.TemporaryDirectory(prefix=b".", suffix=b".new", dir=above) as room:
        old, new = os.path.join(room, b"old"), os.path.join(room, b"new")
        os.mkdir(new)
        for name, octets in files.items():
            write_file(os.path.join(new, name), octets)
        with putting_back(old, place):
            if os.path.lexists(place):
                os.rename(place, old)
            os.rename(new, place)


@contextlib.contextmanager
def putting_back(old: bytes, place: bytes) -> Iterator[None]:
    """Renames a file to its place again if the block fails, or a signal ends it."""
    try:
        yield
    except BaseException:
        if os.path.lexists(old) and not os.path.lexists(place):
            os.rename(old, place)
        raise


def remove_file(path: bytes) -> None:
    """Takes out a file."""
    with writing(path):
        os.unlink(path)


def remove_old(path: bytes) -> None:
    """Takes out a plain file that is to be written anew: a run that ends before that leaves none of an earlier one."""
    place = os.path.realpath(path)
    if path not in OUTPUTS and is_plain(place):
        remove_file(place)


def remove_empty(folder: bytes) -> None:
    """Takes out a folder, if nothing is in it."""
    with contextlib.suppress(OSError):
        os.rmdir(folder)


def write_new(path: bytes, octets: bytes) -> bool:
    """Writes a file where there is none of its name, and says whether it did."""
    with writing(path), beside(path, octets) as new:
        os.chmod(new, 0o666 & ~umask())
        with contextlib.suppress(FileExistsError):
            os.link(new, path)
            return True
    return False


def refuse_unwritable(path: bytes) -> None:
    """Refuses a file that couldn't be written later."""
    if path in OUTPUTS or (os.path.exists(path) and not is_plain(path) and not os.path.isdir(path)):
        return
    with writing(path):
        if os.path.isdir(path):
            raise IsADirectoryError(errno.EISDIR, os.strerror(errno.EISDIR))
        with beside(os.path.realpath(path), b""):
            pass


def who() -> str:
    """This process, as others see it."""
    user = os.environ.get("LOGNAME") or os.environ.get("USER") or str(os.getuid())
    return f"process {os.getpid()} of {user} on {socket.gethostname()}"


@contextlib.contextmanager
def locked(folder: bytes) -> Iterator[None]:
    """Keeps others from writing into a folder meanwhile. Its file of this name says who does."""
    path = os.path.join(folder, b".sievebench-site.lock")
    with writing(path):
        handle = os.open(path, os.O_RDWR | os.O_CREAT, 0o666)
    with open(handle, "r+b") as file:
        try:
            fcntl.flock(file, fcntl.LOCK_EX | fcntl.LOCK_NB)
        except BlockingIOError:
            refuse(f"{quoted(folder)} is being written by {file.read(500).decode('latin-1')}: {quoted(path)}")
        if not os.path.exists(path) or os.fstat(handle).st_ino != os.stat(path).st_ino:
            refuse(f"{quoted(folder)} was being written until now: try again")
        try:
            with writing(path):
                file.truncate()
                file.write(who().encode())
                file.flush()
            yield
        finally:
            os.unlink(path)
