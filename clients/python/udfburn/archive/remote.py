"""What a place for copies is, and how files are compared: by their length and their SHA-256."""

from __future__ import annotations

import os
from contextlib import suppress
from hashlib import sha256
from typing import IO, List, NamedTuple, Optional

from ..base.beneath import PIECE, Place, open_own
from ..base.disk import is_full
from ..base.own_files import BytesTold, untold
from ..local.sources import shown
from ..protocol import limits
from .errors import CopyFailed

BEGINNING = 257 * limits.BLOCK
"""The bytes up to the anchor in block 256: all that says which volume it is."""


class Print(NamedTuple):
    """A file's length and its SHA-256."""

    length: int
    sha256: bytes


UNREADABLE = Print(0, b"")
"""What is said of a file that is there, and of which the disk cannot read all: no file has this."""


def print_of(stream: IO[bytes], most: Optional[int] = None, told: BytesTold = untold) -> Print:
    """The length and the digest of what is left of a stream, or of so many bytes at most."""
    whole, count = sha256(), 0
    while True:
        piece = stream.read(PIECE if most is None else min(PIECE, most - count))
        if not piece:
            return Print(count, whole.digest())
        whole.update(piece)
        count += len(piece)
        told(len(piece))


def print_of_open(descriptor: int, fresh: bool = False, most: Optional[int] = None, told: BytesTold = untold) -> Print:
    """The length and the digest of a file that is open, and closed here, or of its first bytes; `fresh` reads it from the disk, and not what
    the system has in memory."""
    with open(descriptor, "rb") as file:
        if fresh:
            os.posix_fadvise(descriptor, 0, 0, os.POSIX_FADV_DONTNEED)
        return print_of(file, most, told)


def print_of_file(path: str, fresh: bool = False, most: Optional[int] = None, told: BytesTold = untold) -> Print:
    """The same of a regular file."""
    return print_of_open(open_own(path), fresh, most, told)


def failed(path: str, error: OSError) -> CopyFailed:
    """What is said of a copy that could not be made."""
    told = "the disk has no room: make room on it, and run the same command again" if is_full(error) else error.strerror or error
    return CopyFailed(f"{shown(path)}: {told}")


def last_line(text: str) -> str:
    """The last line of what a program printed."""
    lines = text.strip().splitlines()
    return lines[-1] if lines else ""


def forget(new: Place) -> None:
    """Removes what is left of a copy that failed, as far as the disk lets that be done."""
    with suppress(OSError):
        new.unlink()


class Remote:
    """A place for copies. `name` is how `archive.toml` has it, `told` is called with the bytes that were read or written."""

    grows = False
    """Whether the copy of an open image has the name already that the whole has later."""

    def __init__(self, name: str, told: BytesTold = untold):
        self.name, self.told = name, told

    def send(self, local: str, name: str) -> None:
        """Copies a file there. It gets its name once it is whole."""
        raise NotImplementedError

    def fetch(self, name: str, target: Place) -> None:
        """Copies a file from there, to a new one in the place of what has its name, and makes its bytes durable."""
        raise NotImplementedError

    def look(self, name: str) -> Optional[Print]:
        """The length and the digest of a file there, by all its bytes; None where it is not there."""
        raise NotImplementedError

    def ask(self, name: str) -> Optional[Print]:
        """The length and the digest of a file as the place itself says now; by all its bytes where it keeps no digests."""
        return self.look(name)

    def length(self, name: str) -> Optional[int]:
        """The length of a file there, of which no byte is read; None where it is not there."""
        raise NotImplementedError

    def names(self) -> List[str]:
        """The names of the files there."""
        raise NotImplementedError

    def require_own(self) -> None:
        """Raises `CopyFailed` where this is no place for copies of this archive now, as where its disk is not mounted."""

    def is_file(self, local: str, name: str) -> bool:
        """Whether a file there is a local one itself."""
        return False

    def path_of(self, name: str) -> Optional[str]:
        """The path under which this machine can read a file there; None where there is none."""
        return None

    # ---- copies of open images

    def extend(self, image: int, name: str, length: int) -> int:
        """Has the copy of an image, of which a descriptor is given, have its first so many bytes; gives how many it had. One that is no
        beginning of the image stays as it is, and is `CopyFailed`."""
        raise NotImplementedError

    def begun(self, image: int, name: str, length: int) -> Optional[int]:
        """How many bytes a copy of an image has, all of which are compared; None where there is none. `CopyFailed` where they differ."""
        raise NotImplementedError

    def grown(self, name: str) -> Optional[int]:
        """How many bytes a copy says it has, of which none is read; None where there is none."""
        raise NotImplementedError

    def fetch_grown(self, name: str, target: Place) -> None:
        """Copies what there is of an open image, as `fetch` does."""
        raise NotImplementedError

    def require_same_volume(self, image: int, name: str) -> None:
        """Raises `CopyFailed` where a copy has other first blocks than an open image: these have the label and the moment of the format."""
        wanted = os.pread(image, BEGINNING, 0)
        if self.first_bytes(name, len(wanted)) != wanted:
            raise CopyFailed(f"{name} there begins as another volume, and is left alone: move it away")

    def first_bytes(self, name: str, count: int) -> bytes:
        """The first bytes of the copy of an open image."""
        raise NotImplementedError

    def begins_as(self, local: str, name: str) -> bool:
        """Whether a file there surely is a copy of a closed image, by its first blocks. Where copies of open images have the same name it
        may be one of these."""
        return False

    def set_aside(self, name: str, end: str) -> None:
        """Gives the copy of an open image a name with another end, in which nothing looks for it."""
        raise NotImplementedError

    def complete(self, image: int, name: str, length: int) -> bool:
        """Makes the whole of the copy of an image that is closed now. Whether it can be made by what is there, which is a beginning of it."""
        return False

    def counts(self, name: str, length: int) -> bool:
        """Whether all of a file there counts, where it has this length."""
        return True

    def drop_tails(self, local: str, name: str) -> None:
        """Removes what the copy of an image was while that was open. The whole is there, and was read by this run. What is not as the image
        has it may be all that is left of something else: it stays, and is `CopyFailed`."""
