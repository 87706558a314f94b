"""A volume as it was: the prefix of its image up to a commit's last block is a volume of its own."""

from __future__ import annotations

import errno
import fcntl
import os
import shutil
import tempfile
from contextlib import contextmanager
from typing import Iterator, List, NamedTuple, Optional

from ..base.beneath import PIECE, Root, mode_for, open_medium, status_given
from ..base.errors import ProgramFailed, UsageError
from ..base.scratch import own_folder, sweep
from ..protocol import limits
from ..protocol.units import Address, Commit, Size
from ..wire.connection import run_program

CLONE = 0x40049409
"""The call of Linux by which a file shares the blocks of another (FICLONE)."""

FRONT_PREFIX = ".udfburn-front-"
"""How the names of folders with a copy begin. The next reader removes those that killed ones left."""


class LoggedCommit(NamedTuple):
    """A line of `udfburn log`: a commit, the address of its last block, and what the tree had after it."""

    number: Commit
    address: Address
    files: int
    directories: int


def commits(image: str, program: str) -> List[LoggedCommit]:
    """The commits of an image, the oldest first."""
    lines = run_program(program, ["log", os.path.abspath(image)]).split(b"\n")
    rows = [map(int, line.split()) for line in reversed(lines) if line]
    return [LoggedCommit(Commit(number), Address(address), files, directories) for number, address, files, directories in rows]


def last_block_of(image: str, program: str, commit: Commit) -> Address:
    """The address of the last block of a commit."""
    known = commits(image, program)
    for found in known:
        if found.number == commit:
            return found.address
    raise UsageError(f"{image}: has commits 0 to {known[-1].number}, and no commit {commit}")


def copy_front(source: str, target: int, size: Size) -> None:
    """Copies the beginning of a file into one that is open and empty: by shared blocks where the file system has them, else without its
    blocks of zeros."""
    with open(open_medium(source), "rb") as old, open(target, "r+b") as new:
        if not cloned(old.fileno(), new.fileno()):
            left: int = size
            while left:
                piece = old.read(min(left, PIECE))
                if not piece:
                    break
                left -= len(piece)
                if piece.count(0) == len(piece):
                    new.seek(len(piece), os.SEEK_CUR)
                else:
                    new.write(piece)
        new.truncate(size)


def cloned(old: int, new: int) -> bool:
    """Whether the whole file could be had by shared blocks."""
    try:
        fcntl.ioctl(new, CLONE, old)
        return True
    except OSError:
        return False


@contextmanager
def front(image: str, program: str, commit: Optional[Commit]) -> Iterator[str]:
    """A copy of the image as it was after a commit, or as it is now; gone at the end."""
    size = length_of(image) if commit is None else Size((last_block_of(image, program, commit) + 1) * limits.BLOCK)
    require_synced(image)
    above = copy_folder(image) or tempfile.gettempdir()
    sweep(above, FRONT_PREFIX)
    folder, lock = own_folder(above, FRONT_PREFIX)
    try:
        with Root.open(folder) as root:
            copy_front(image, root.new_file(("front.img",), mode_for(status_given(image))), size)
        yield os.path.join(folder, "front.img")
    finally:
        shutil.rmtree(folder, ignore_errors=True)
        if lock is not None:
            os.close(lock)


def length_of(image: str) -> Size:
    """The bytes of an image."""
    with open(open_medium(image), "rb") as file:
        return Size(file.seek(0, os.SEEK_END))


def require_synced(image: str) -> None:
    """Has the disk take what the system keeps of the image, and the system forget it, so that a copy reports what is stored."""
    descriptor = open_medium(image)
    try:
        try:
            os.fsync(descriptor)
        except OSError as error:
            # A disk that is only read has nothing to take.
            if error.errno not in (errno.EINVAL, errno.EROFS):
                raise
        # After a synchronisation that failed it may keep what the disk does not have.
        os.posix_fadvise(descriptor, 0, 0, os.POSIX_FADV_DONTNEED)
    except OSError as error:
        raise ProgramFailed(f"{image}: {error.strerror or error}: its disk does not have what it shows") from error
    finally:
        os.close(descriptor)


def copy_folder(image: str) -> Optional[str]:
    """Where the copy is made: beside the image, where blocks can be shared, or where temporary files are."""
    beside = os.path.dirname(os.path.abspath(image))
    return beside if os.access(beside, os.W_OK) else None
