"""Local files and folders: found without following links, read as one whole, deleted only as they were read.

Each is known by its place below a folder that the user named, and is found, read and deleted by descriptors from there on.
"""

from __future__ import annotations

import os
import stat
import time
from hashlib import sha256
from typing import Dict, Generator, Iterator, List, NamedTuple, Optional, Tuple

from ..base.beneath import Place, Root, open_from_top, place_of
from ..base.errors import SourceChanged, SourceError
from ..base.escape import encode
from ..protocol import NameFault, Path, is_bytes, limits, name_fault, shown
from ..protocol.units import Moment, Size
from ..wire.operations import Origin, clamped
from .not_kept import NotKept


class FileIdentity(NamedTuple):
    """What shows whether a file is the one that was seen, as it was then."""

    device: int
    inode: int
    size: Size
    modified: int
    changed: Optional[int]

    @staticmethod
    def of(status: os.stat_result) -> "FileIdentity":
        # A link of the same file that goes changes the time of the others, so it says nothing about them.
        changed = status.st_ctime_ns if status.st_nlink == 1 else None
        return FileIdentity(status.st_dev, status.st_ino, Size(status.st_size), status.st_mtime_ns, changed)

    def still(self, status: os.stat_result) -> bool:
        """Whether a file is the one that was seen, and did not change since."""
        return (
            status.st_mtime_ns == self.modified and status.st_size == self.size
            and status.st_ino == self.inode and status.st_dev == self.device
            and (status.st_ctime_ns == self.changed or self.changed is None or status.st_nlink != 1)
        )


class Source(NamedTuple):
    """A local file, and the path that it is to have."""

    place: Place
    path: Path
    identity: FileIdentity

    @property
    def local(self) -> str:
        """Its path, to be shown to people."""
        return self.place.local()

    def moment(self) -> Moment:
        """When it was modified, in microseconds, or the nearest moment that can be said."""
        return clamped(self.identity.modified // 1000)


class Folder(NamedTuple):
    """A local folder, and the path that it is to have."""

    local: str
    path: Path
    modified: int

    def moment(self) -> Moment:
        return clamped(self.modified // 1000)


class Scan:
    """What was found: folders before what is in them, files, those that the volume has already, the pieces that it has of others, by
    their paths and numbers, each with the file's SHA-256 up to its end, unfinished files that go, and what cannot be stored, each with why."""

    def __init__(self) -> None:
        self.folders: List[Folder] = []
        self.roots: Dict[str, Root] = {}
        self.files: List[Source] = []
        self.same: List[Source] = []
        self.kept: Dict[Path, Dict[int, bytes]] = {}
        self.unfinished: List[Path] = []
        self.faults: List[str] = []
        self.skipped: List[str] = []
        self.not_kept = NotKept()


ODD_KINDS = (
    (stat.S_ISLNK, "a symbolic link"), (stat.S_ISFIFO, "a named pipe"), (stat.S_ISSOCK, "a socket"),
    (stat.S_ISBLK, "a block device"), (stat.S_ISCHR, "a character device"),
)


def odd(status: os.stat_result) -> str:
    """What a node is that is neither file nor folder."""
    return next((text for test, text in ODD_KINDS if test(status.st_mode)), "no regular file")


def why_not(name: str) -> Optional[str]:
    """Why a local name may not be in a directory of a volume."""
    if is_bytes(name):
        return "its name is not UTF-8"
    fault = name_fault(name)
    if fault is None:
        return None
    if fault is NameFault.WIDE:
        wide = next(character for character in name if name_fault(character) is NameFault.WIDE)
        return f"its name has U+{ord(wide):04X}, which compressed Unicode cannot encode"
    return f"its name {fault.value}"


def scan(local: str, path: Path, recursive: bool, skip_odd: bool, into: Scan, escape: bool = False) -> None:
    """Adds a local file or folder, and what is below it. `escape` gives names that cannot be spelled a spelling of their own."""
    try:
        place = place_of(local, into.roots)
        status = place.root.status(place.names)
    except OSError as error:
        into.faults.append(f"{shown(local)}: {error.strerror}")
        return
    scan_place(place, path, recursive, skip_odd, into, escape, status)


def scan_place(place: Place, path: Path, recursive: bool, skip_odd: bool, into: Scan, escape: bool, status: os.stat_result) -> None:
    """Adds what is at a place."""
    local = place.local()
    if stat.S_ISREG(status.st_mode):
        into.files.append(Source(place, path, FileIdentity.of(status)))
        into.not_kept.add_file(status)
    elif not stat.S_ISDIR(status.st_mode):
        leave(local, f"is {odd(status)}", "--skip-odd leaves it out", skip_odd, into)
    elif not recursive:
        into.faults.append(f"{shown(local)}: is a folder (-r stores folders)")
    else:
        into.folders.append(Folder(local, path, status.st_mtime_ns))
        into.not_kept.add_folder(status)
        # A folder that is too deep is refused as it is, however deep it goes on.
        for below, found in found_in(place, into) if len(path) <= limits.DEPTH else ():
            name = below.names[-1]
            fault = why_not(encode(name) if escape else name) or why_not(encode(name))
            if fault:
                leave(below.local(), fault, remedy(name), skip_odd, into)
            else:
                scan_place(below, path + (encode(name),), recursive, skip_odd, into, escape, found)


def leave(local: str, why: str, how: str, skip_odd: bool, into: Scan) -> None:
    """Leaves out what cannot be stored, where that is asked for; else it is a fault. It is named in both cases."""
    if skip_odd:
        into.skipped.append(f"{shown(local)}: {why}")
    else:
        into.faults.append(f"{shown(local)}: {why} ({how})")


def remedy(name: str) -> str:
    """What can be done about a name that cannot be stored."""
    if encode(name) != name and why_not(encode(name)) is None:
        return "--escape stores it under an escaped name, --skip-odd leaves it out"
    return "--skip-odd leaves it out"


def found_in(folder: Place, into: Scan) -> Iterator[Tuple[Place, os.stat_result]]:
    """What is in a folder, in an order that is always the same."""
    root, at = folder
    try:
        names = root.names_in(at)
    except OSError as error:
        into.faults.append(f"{shown(folder.local())}: {error.strerror}")
        return
    for name in names:
        below = Place(root, at + (name,))
        try:
            status = root.status(below.names)
        except OSError as error:
            into.faults.append(f"{shown(below.local())}: {error.strerror}")
            continue
        yield below, status


TICK, COARSE_TICK = 20_000_000, 2_100_000_000
"""Nanoseconds within which two changes of a file may get one time: by the clock of an older system, and of a file system that
counts by seconds."""


def await_tick(status: os.stat_result) -> None:
    """Waits where a file changed just now, so that a change after the reading gets another time, and is seen by it."""
    age = time.time_ns() - status.st_ctime_ns
    tick = TICK if status.st_ctime_ns % 1_000_000_000 else COARSE_TICK
    if 0 <= age < tick:
        time.sleep((tick - age) / 1e9)


def require_unchanged(source: Source, status: os.stat_result) -> None:
    """Raises where a file is not the one that was seen, or is not as it was."""
    if not stat.S_ISREG(status.st_mode) or not source.identity.still(status):
        raise SourceChanged(f"{shown(source.local)}: changed while it was read, or after it was first seen: store it again")


def exactly(descriptor: int, count: int) -> bytes:
    """So many bytes, or fewer where the file ends."""
    first = os.read(descriptor, count)
    if len(first) == count:
        return first
    pieces = [first]
    while pieces[-1] and sum(map(len, pieces)) < count:
        pieces.append(os.read(descriptor, count - sum(map(len, pieces))))
    return b"".join(pieces)


def open_source(source: Source) -> int:
    """Opens a file to read it."""
    return source.place.root.open_file(source.place.names, keep_access_time=True)


def read_parts(source: Source) -> Generator[bytes, None, None]:
    """The bytes of a file in parts of a mebibyte; the last is given only where the file did not change meanwhile."""
    left: int = source.identity.size
    try:
        descriptor = open_source(source)
        try:
            status = os.fstat(descriptor)
            require_unchanged(source, status)
            await_tick(status)
            while True:
                part = exactly(descriptor, min(left, limits.FILE))
                left -= len(part)
                if not left or len(part) < limits.FILE:
                    require_unchanged(source, os.fstat(descriptor))
                    if left or os.read(descriptor, 1):
                        raise SourceChanged(f"{shown(source.local)}: has another size than it says")
                    break
                yield part
        finally:
            os.close(descriptor)
    except OSError as error:
        raise SourceError(f"{shown(source.local)}: {error.strerror}") from error
    # Nothing is left to be done where nobody asks for more: an interrupt that came while Python cleared this away would be lost.
    yield part


def origin_of(source: Source, start: int) -> Origin:
    """Where the bytes of a file from one on can be read again."""
    root, names = source.place
    return Origin(os.path.join(root.real(), *names), start, source.identity.size, source.identity.modified)


class SourceAgain:
    """A local file that is read again, from a byte on: as far as it was read, and the SHA-256 of that."""

    def __init__(self, origin: Origin, before: int):
        self.begin = origin._replace(start=origin.start - before)
        self.descriptor = open_from_top(origin.local)
        self.at = 0
        self.read = sha256()

    def goes_on_with(self, origin: Origin, before: int) -> bool:
        """Whether what an origin has is read next, or later."""
        return self.begin == origin._replace(start=origin.start - before) and self.at <= before

    def next(self, count: int) -> bytes:
        """So many bytes more; raises where the file is not as it was."""
        status = os.fstat(self.descriptor)
        if (status.st_size, status.st_mtime_ns) != (self.begin.size, self.begin.modified):
            raise SourceChanged(f"{shown(self.begin.local)}: changed since it was read")
        os.lseek(self.descriptor, self.begin.start + self.at, os.SEEK_SET)
        data = exactly(self.descriptor, count)
        self.read.update(data)
        self.at += count
        return data


class SourcesAgain:
    """Local files that are read again for the data of requests. Each byte is read once where the data of a file is asked for in order."""

    def __init__(self) -> None:
        self._file: Optional[SourceAgain] = None

    def data(self, origin: Origin, before: int, count: int, digest: bytes) -> Optional[bytes]:
        """So many bytes from there, where the file is as it was, and they have this SHA-256 with so many bytes before them; else None."""
        try:
            if self._file is None or not self._file.goes_on_with(origin, before):
                self.close()
                self._file = SourceAgain(origin, before)
            while self._file.at < before:
                self._file.next(min(limits.FILE, before - self._file.at))
            data = self._file.next(count)
        except (OSError, SourceError):
            self.close()
            return None
        return data if self._file.read.digest() == digest else None

    def close(self) -> None:
        """Closes what is open."""
        if self._file is not None:
            os.close(self._file.descriptor)
        self._file = None


def delete(source: Source) -> None:
    """Deletes a file, where it is the one that was read, as it was then."""
    try:
        source.place.root.unlink(source.place.names, lambda status: require_unchanged(source, status))
    except OSError as error:
        raise SourceError(f"{shown(source.local)}: {error.strerror}") from error


__all__ = ["FileIdentity", "Folder", "Scan", "Source", "SourcesAgain", "delete", "origin_of", "read_parts", "scan", "shown"]
