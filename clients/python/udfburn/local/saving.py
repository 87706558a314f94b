"""Local files that are written whole, below a folder that the user named: each has its name once all its bytes are on the disk.

Files are written without a name where the file system can do that (O_TMPFILE of Linux), so that nothing is left of one, however the
process ends. Else they get a name that follows from their own, by which the next run finds and removes what a killed one left.
Some hundred files are synchronised at once, and each folder once at the end.
"""

from __future__ import annotations

import errno
import os
import stat
from contextlib import contextmanager, suppress
from typing import Callable, Dict, Iterable, Iterator, List, NamedTuple, Optional, Tuple

from ..base.beneath import NotFollowed, Place, RelativePath, Root, folder_mode, place_of
from ..base.disk import is_full, sync_all
from ..base.errors import DiskFull, SourceError
from ..base.locks import lock_or_close, try_lock
from ..base.own_files import from_top
from ..protocol import shown
from ..protocol.units import Moment
from .sources import odd

SYNCED_FILES, SYNCED_BYTES = 128, 1 << 26
"""Files that are synchronised at once, and their bytes."""

COPIED_KEPT = 1 << 16
"""Files of a copy that are not replaced by later ones of it, at most."""

UNNAMED: int = getattr(os, "O_TMPFILE", 0)

SAVING_PREFIX = ".udfburn-"
"""How the name of a file begins that is being written."""

UNABLE = (errno.EOPNOTSUPP, errno.EISDIR, errno.EINVAL, errno.ENOENT)
"""The errors of a file system or a kernel that has no files without a name."""


class UnnamedFile(NamedTuple):
    """A file that is written and has not its name yet: its descriptor, the path that it has meanwhile, its own, and its bytes."""

    descriptor: int
    temporary: Optional[RelativePath]
    names: RelativePath
    size: int
    named: Callable[[int], None]


class Saver:
    """Writes local files below a root. `force` replaces files and links that are there, `mode` is that of new files. `failures` has each
    file that did not get its name, with why."""

    def __init__(self, root: Root, force: bool, mode: int = 0o666):
        self.root, self.force, self.mode = root, force, mode
        self.failures: List[str] = []
        self._written: List[UnnamedFile] = []
        self._bytes = 0
        self._folders: Dict[RelativePath, None] = {}
        self._above = False
        # The last files of this copy by device and inode: a file system may take the names of two of them for one, as where case does not count.
        self._copied: Dict[Tuple[int, int], None] = {}

    def __enter__(self) -> "Saver":
        return self

    def __exit__(self, *_: object) -> None:
        for written in self._written:
            self._drop(written)
        self._written = []

    def save(self, names: RelativePath, parts: Iterable[bytes], moment: Optional[Moment], named: Callable[[int], None]) -> None:
        """Writes a file. `named` is called with its bytes once it has its name."""
        self._require_place(names)
        with full_disk(self.root.local(names)):
            descriptor, temporary = self._open_new(names)
            written = UnnamedFile(descriptor, temporary, names, 0, named)
            try:
                count = sum(write_all(descriptor, part) for part in parts)
                if moment is not None:
                    os.utime(descriptor, ns=(moment * 1000, moment * 1000))
            except BaseException:
                self._drop(written)
                raise
        self._written.append(written._replace(size=count))
        self._bytes += count
        if len(self._written) >= SYNCED_FILES or self._bytes >= SYNCED_BYTES:
            self.flush()

    def make_folder(self, names: RelativePath) -> None:
        """Makes a folder with those above it. All their names are durable at the end, and that of the root."""
        self._above = True
        with self.root.at(names, folder_mode(self.mode)):
            for depth in range(len(names) + 1):
                self.folder(names[:depth])

    def folder(self, names: RelativePath) -> None:
        """Has the names in a folder made durable at the end."""
        self._folders[names] = None

    def has_copied(self, status: os.stat_result) -> None:
        """Keeps a file of this copy from being replaced by another one of it. Of one with further names that is not known."""
        if self.force and status.st_nlink == 1:
            self._copied[status.st_dev, status.st_ino] = None
            if len(self._copied) > COPIED_KEPT:
                del self._copied[next(iter(self._copied))]

    def flush(self) -> None:
        """Makes what is written durable, and gives each file its name."""
        if not self._written:
            return
        with full_disk(self.root.local(self._written[0].names)):
            self._sync()
            while self._written:
                self._name(self._written[0])
        self._bytes = 0

    def _name(self, written: UnnamedFile) -> None:
        """Gives the first of the files its name. One whose name another has by now is a failure."""
        try:
            self._give_name(written)
        except (SourceError, NotFollowed) as error:
            self.failures.append(failure_line(self.root, written.names, error))
            self._drop(self._written.pop(0))
            return
        self._written.pop(0)
        self.has_copied(os.fstat(written.descriptor))
        os.close(written.descriptor)
        self.folder(written.names[:-1])
        written.named(written.size)

    def finish(self) -> None:
        """Makes all names durable."""
        self.flush()
        for folder in self._folders:
            self.root.sync(folder)
        if self._above and not self.root.made:
            # An interrupted run may have made it.
            self.root.sync_above()
        self._folders, self._above = {}, False

    def _sync(self) -> None:
        """Makes the bytes of all files durable. The first descriptor is called for each write that failed since it was opened."""
        devices: Dict[int, int] = {}
        for written in self._written:
            devices.setdefault(os.fstat(written.descriptor).st_dev, written.descriptor)
        if len(self._written) > 1 and all(sync_all(descriptor) for descriptor in devices.values()):
            return
        for written in self._written:
            os.fsync(written.descriptor)

    # ---- one file

    def _require_place(self, names: RelativePath) -> None:
        """Raises where a file may not have its name."""
        status, local = self.root.find(names), self.root.local(names)
        if status is None:
            return
        if not self.force:
            raise name_taken(local)
        if not stat.S_ISREG(status.st_mode) and not stat.S_ISLNK(status.st_mode):
            raise SourceError(f"{shown(local)}: is {'a folder' if stat.S_ISDIR(status.st_mode) else odd(status)}, and is not replaced")
        if (status.st_dev, status.st_ino) in self._copied:
            raise SourceError(f"{shown(local)}: is another file of this copy, since the file system takes both names for one: copy this one elsewhere")

    def _open_new(self, names: RelativePath) -> "tuple[int, Optional[RelativePath]]":
        """A new file without a name, or with one that follows from its own."""
        if UNNAMED and os.path.isdir("/proc/self/fd"):
            try:
                return self.root.unnamed_file(names[:-1], UNNAMED, self.mode), None
            except OSError as error:
                if error.errno not in UNABLE:
                    raise
        temporary = names[:-1] + (temporary_name(names[-1]),)
        remove_left(self.root, temporary)
        descriptor = self.root.new_file(temporary, self.mode)
        # By this another process knows that it is no file that was left.
        if not lock_or_close(descriptor):
            raise busy(self.root, temporary)
        return descriptor, temporary

    def _give_name(self, written: UnnamedFile) -> None:
        """Gives a file its name; if asked to, in the place of an existing file."""
        names, temporary = written.names, written.temporary
        if self.force:
            self._require_place(names)
        if temporary is None and not (self.force and self.root.find(names) is not None):
            try:
                return self.root.link_open(written.descriptor, names)
            except FileExistsError:
                raise name_taken(self.root.local(names)) from None
        if temporary is None:
            # A file is replaced by a name alone.
            temporary = names[:-1] + (temporary_name(names[-1]),)
            remove_left(self.root, temporary)
            self.root.link_open(written.descriptor, temporary)
        try:
            if self.force:
                self.root.rename(temporary, names[-1])
            else:
                self._name_new(temporary, names)
        except BaseException:
            with suppress(FileNotFoundError):
                self.root.unlink(temporary)
            raise

    def _name_new(self, made: RelativePath, names: RelativePath) -> None:
        """Gives a file a name that nothing has yet."""
        try:
            try:
                self.root.link(made, names[-1])
            except FileExistsError:
                raise
            except OSError:
                # A file system without links: the name is taken first, so that nothing is replaced that has it by now.
                os.close(self.root.new_file(names, self.mode))
                self.root.rename(made, names[-1])
            else:
                self.root.unlink(made)
        except FileExistsError:
            raise name_taken(self.root.local(names)) from None

    def _drop(self, written: UnnamedFile) -> None:
        """Closes a file, and removes the name that it had meanwhile."""
        if written.temporary is not None:
            with suppress(FileNotFoundError, NotFollowed):
                self.root.unlink(written.temporary)
        os.close(written.descriptor)


@contextmanager
def full_disk(local: str) -> Iterator[None]:
    """Reports a file system that is full as that."""
    try:
        yield
    except OSError as error:
        if not is_full(error):
            raise
        raise DiskFull(
            f"{shown(local)}: its disk is full ({error.strerror}): the files copied so far are complete; make room, and run the same command again"
        ) from error


def failure_line(root: Root, names: RelativePath, error: Exception) -> str:
    """The line of a file that was not written."""
    return f"{shown(root.local(names))}: {error.strerror}" if isinstance(error, OSError) else str(error)


def name_taken(local: str) -> SourceError:
    """What is said where another file has the name."""
    return SourceError(f"{shown(local)}: already exists (--force replaces it)")


def temporary_name(name: str) -> str:
    """The name that a file has while it is written, where it has one: always the same one."""
    from hashlib import sha256

    return SAVING_PREFIX + sha256(os.fsencode(name)).hexdigest()[:16]


def remove_left(root: Root, temporary: RelativePath) -> None:
    """Removes what a killed run left under the name of a file that is being written. Raises where a run is at it."""
    try:
        descriptor = root.open_file(temporary)
    except FileNotFoundError:
        return
    try:
        if not try_lock(descriptor):
            raise busy(root, temporary)
        opened = os.fstat(descriptor)

        def same(status: os.stat_result) -> None:
            if not os.path.samestat(opened, status):
                raise busy(root, temporary)

        root.unlink(temporary, same)
    finally:
        os.close(descriptor)


def busy(root: Root, temporary: RelativePath) -> SourceError:
    """The name of a file that is being written is another process's."""
    return SourceError(f"{shown(root.local(temporary))}: another process is writing it")


def write_all(descriptor: int, data: bytes) -> int:
    """Writes all bytes, and gives their count."""
    view = memoryview(data)
    while view:
        view = view[os.write(descriptor, view) :]
    return len(data)


def remove_leftovers(root: Root, at: RelativePath, names: Iterable[str]) -> None:
    """Removes what a killed run left of files of these names in a folder."""
    wanted = set(names)
    with suppress(FileNotFoundError):
        there = [name for name in root.names_in(at) if name.startswith(SAVING_PREFIX) and name not in wanted]
        if there:
            left = {temporary_name(name) for name in wanted}
            for name in there:
                if name in left:
                    remove_left(root, at + (name,))


def save(local: str, parts: Iterable[bytes], moment: Optional[Moment], force: bool, mode: int = 0o666) -> int:
    """Writes one file whole, and makes its name durable. Gives its bytes."""
    place = place_of(local)
    with place.root:
        return save_at(place, parts, moment, force, mode)


def save_at(place: Place, parts: Iterable[bytes], moment: Optional[Moment], force: bool, mode: int = 0o666) -> int:
    """The same, below a folder that is open."""
    counts: List[int] = []
    with Saver(place.root, force, mode) as saver:
        saver.save(place.names, parts, moment, counts.append)
        saver.finish()
    if saver.failures:
        raise SourceError(saver.failures[0])
    return counts[0]


def write_file(path: str, data: bytes, mode: int = 0o666) -> None:
    """Writes a file by its whole path, in the place of what is there: it has its name once its bytes are on the disk, and the name is on
    the disk too when this returns. It has at most the permissions of the mode."""
    with from_top(path) as place:
        save_at(place, [data], None, True, mode)


def require_own(local: str, begin: "tuple[bytes, ...]", what: str) -> None:
    """Raises where a file is there that does not begin as one of this kind, or is no regular file: it is not replaced."""
    root, names = place_of(local)
    with root:
        if root.find(names) is None:
            return
        try:
            with open(root.open_file(names), "rb") as file:
                if file.read(max(map(len, begin))) in (b"", *begin):
                    return
        except (OSError, SourceError):
            pass
    raise SourceError(f"{shown(local)}: already exists, and is not {what} of this command")


__all__ = ["Saver", "failure_line", "remove_leftovers", "require_own", "save", "save_at", "write_all", "write_file"]
