"""Files that a command has for itself, by whole paths: those in the folder of an archive, and copies.

A path from the top of the system is taken name by name. It had no links when the folder was found, and none is followed that somebody puts
there meanwhile.
"""

from __future__ import annotations

import os
from contextlib import contextmanager
from typing import Callable, Iterator, Optional

from .beneath import PIECE, Place, Root, mode_for, names_from_top, open_own

BytesTold = Callable[[int], None]
"""Called with how many bytes more were read or written."""


def untold(count: int) -> None:
    """Nobody asks."""


@contextmanager
def from_top(path: str) -> Iterator[Place]:
    """A file by a path from the top."""
    with Root.open(os.sep) as root:
        yield Place(root, names_from_top(path))


def open_to_write(path: str) -> int:
    """A descriptor of a regular file, to read and to write it."""
    with from_top(path) as place:
        return place.root.open_file(place.names, writes=True)


def move(path: str, to: str) -> None:
    """Gives a file another name, in the place of what has that. Both folders are durable then."""
    with from_top(path) as place:
        place.root.move(place.names, names_from_top(to))


def remove(path: str) -> None:
    """Removes a file, where it is there."""
    with from_top(path) as place:
        place.unlink()


def new(path: str, mode: int) -> None:
    """Makes an empty file that was not there, with just this mode, whatever the umask is."""
    with from_top(path) as place:
        descriptor = place.root.new_file(place.names, mode)
        os.fchmod(descriptor, mode)
        os.close(descriptor)


def set_mode(path: str, mode: int) -> None:
    """Sets the mode of a regular file."""
    with from_top(path) as place:
        descriptor = place.root.open_file(place.names)
        os.fchmod(descriptor, mode)
        os.close(descriptor)


def copy_file(source: str, target: Place, most: Optional[int] = None, told: BytesTold = untold) -> None:
    """Copies a regular file, or so many of its bytes, to a new one, in the place of what has its name, and makes them durable. Nobody may
    read that who may not read the first, and it has the same times."""
    with open(open_own(source), "rb") as old:
        target.unlink()
        descriptor = target.root.new_file(target.names, mode_for(os.fstat(old.fileno())))
        with open(descriptor, "wb") as new:
            copy_bytes(old.fileno(), descriptor, most, told)
            status = os.fstat(old.fileno())
            os.utime(descriptor, ns=(status.st_atime_ns, status.st_mtime_ns))
            os.fsync(new.fileno())


def copy_bytes(old: int, new: int, most: Optional[int] = None, told: BytesTold = untold) -> None:
    """Copies the bytes of an open file, or so many of them at most, to another one. `told` is called with the bytes of each piece."""
    left = os.fstat(old).st_size if most is None else most
    while left:
        piece = os.read(old, min(left, PIECE))
        if not piece:
            return
        left -= len(piece)
        told(len(piece))
        while piece:
            piece = piece[os.write(new, piece) :]


__all__ = ["BytesTold", "copy_bytes", "copy_file", "from_top", "move", "new", "open_to_write", "remove", "set_mode", "untold"]
