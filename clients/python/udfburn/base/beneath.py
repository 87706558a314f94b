"""Files and folders below a folder that the user named, reached by descriptors. No link below that folder is followed.

The system resolves a path anew with each call. Where others may write, a folder of the path can be a link by the next call, and lead to
files that only this user may read or delete. So the folder that the user named is opened once, and all below it is opened name by name.
A folder that was opened stays the same one, whatever gets its name. Only regular files are opened: a named pipe would wait for its other end.
"""

from __future__ import annotations

import errno
import os
import select
import stat
from contextlib import contextmanager, suppress
from threading import RLock
from typing import Any, Callable, Dict, Iterator, List, NamedTuple, Optional, Tuple

from ..protocol import shown
from .disk import sync_names
from .errors import SourceError

RelativePath = Tuple[str, ...]
"""A path below a root; none for the root itself."""

FOLDER_FLAGS = os.O_RDONLY | os.O_DIRECTORY | os.O_NOFOLLOW | os.O_NONBLOCK | os.O_CLOEXEC
READ = os.O_RDONLY | os.O_NOFOLLOW | os.O_NONBLOCK | os.O_CLOEXEC
NEW_FLAGS = os.O_RDWR | os.O_CREAT | os.O_EXCL | os.O_NOFOLLOW | os.O_CLOEXEC
NO_ACCESS_TIME: int = getattr(os, "O_NOATIME", 0)
PATH_ALONE: int = getattr(os, "O_PATH", 0)

PIECE = 1 << 20
"""Bytes of a file that are read or written at once."""

FOLDERS_OPEN = 32
"""Folders of one path that stay open, at most."""

Check = Callable[[os.stat_result], None]
"""Raises where a file is not the one that is meant."""


class NotFollowed(OSError):
    """A link has a name that a folder or a file was to have."""


class Level(NamedTuple):
    """A folder that was reached last, by its name in the one above; without a descriptor where too many would be open."""

    name: str
    descriptor: int
    owner: Any


class DescriptorOwner:
    """Closes a descriptor once nothing refers to this, where the system has no `epoll`."""

    def __init__(self, descriptor: int):
        self._descriptor = descriptor

    def close(self) -> None:
        descriptor, self._descriptor = self._descriptor, -1
        if descriptor >= 0:
            os.close(descriptor)

    __del__ = close


def descriptor_owner(descriptor: int) -> Any:
    """What closes a descriptor once nothing refers to it. An object of `epoll` takes any, and does it without a line of Python: an
    interrupt that comes in `__del__` is lost."""
    epoll: Any = getattr(select, "epoll", None)
    return epoll.fromfd(descriptor) if epoll is not None else DescriptorOwner(descriptor)


class Root:
    """A folder that the user named, and all below it. `path` is how the user named it."""

    def __init__(self, path: str, descriptor: int):
        self.path = path
        self.made = False
        """Whether it was made just now, so that its own name is durable."""
        self._descriptor, self._owner = descriptor, descriptor_owner(descriptor)
        self._levels: List[Level] = []
        self._lock = RLock()

    @staticmethod
    def open(path: str) -> "Root":
        """A folder that the user named. It may be a link."""
        return Root(path, open_searchable(path or os.curdir, FOLDER_FLAGS & ~os.O_NOFOLLOW))

    @staticmethod
    def make(path: str, mode: int = 0o777) -> "Root":
        """The same, with those above it, made where they are missing. Their names are made durable."""
        with suppress(FileNotFoundError):
            return Root.open(path)
        above, name = os.path.split(os.path.abspath(path))
        root = Root.make(above, mode)
        with root.at((name,), mode) as descriptor:
            found = os.dup(descriptor)
        with root.at(()) as descriptor:
            sync_names(descriptor)
        root.close()
        made = Root(path, found)
        made.made = True
        return made

    def close(self) -> None:
        """Closes what is open."""
        self._drop(0)
        self._owner.close()
        self._descriptor = -1

    def __enter__(self) -> "Root":
        return self

    def __exit__(self, *_: object) -> None:
        self.close()

    def real(self) -> str:
        """Its path without links, as the system has it now."""
        with suppress(OSError):
            return os.readlink(f"/proc/self/fd/{self._descriptor}")
        return os.path.realpath(self.path)

    def local(self, names: RelativePath) -> str:
        """The path of something below, to be shown to people."""
        return os.path.join(self.path, *names)

    # ---- folders

    @contextmanager
    def at(self, names: RelativePath, make: Optional[int] = None) -> Iterator[int]:
        """The descriptor of a folder below, as long as this lasts. With `make` it is made with that mode where it is missing."""
        with self._lock:
            yield self._reach(names, make)

    def _reach(self, names: RelativePath, make: Optional[int]) -> int:
        kept = 0
        for level, name in zip(self._levels, names):
            if level.name != name:
                break
            kept += 1
        if kept and self._levels[kept - 1].descriptor < 0:
            kept = 0
        self._drop(kept)
        for name in names[kept:]:
            descriptor = open_folder(name, self._last(), make)
            self._levels.append(Level(name, descriptor, descriptor_owner(descriptor)))
            if len(self._levels) > FOLDERS_OPEN:
                self._levels[-FOLDERS_OPEN].owner.close()
                self._levels[-FOLDERS_OPEN] = self._levels[-FOLDERS_OPEN]._replace(descriptor=-1)
        return self._last()

    def _last(self) -> int:
        return self._levels[-1].descriptor if self._levels else self._descriptor

    def _drop(self, kept: int) -> None:
        """Closes the levels after the first so many."""
        while len(self._levels) > kept:
            self._levels.pop().owner.close()

    def sync(self, names: RelativePath) -> None:
        """Makes the names in a folder durable, where its file system can do that and this user may."""
        with self.at(names) as descriptor:
            sync_names(descriptor)

    def sync_above(self) -> None:
        """Makes the name of the root itself durable, in the folder that it is in."""
        with self.at(()) as descriptor:
            above = open_searchable(os.pardir, FOLDER_FLAGS, descriptor)
            try:
                sync_names(above)
            finally:
                os.close(above)

    def names_in(self, names: RelativePath) -> List[str]:
        """The names in a folder, in an order that is always the same."""
        with self.at(names) as descriptor:
            try:
                return sorted(os.listdir(descriptor), key=os.fsencode)
            except OSError as error:
                if error.errno != errno.EBADF:
                    raise
                raise PermissionError(errno.EACCES, os.strerror(errno.EACCES), self.local(names)) from error

    # ---- files

    def status(self, names: RelativePath) -> os.stat_result:
        """What the system says of a file or a folder, or of a link itself."""
        if not names:
            with self.at(()) as descriptor:
                return os.fstat(descriptor)
        with self.at(names[:-1]) as descriptor:
            return os.stat(plain(names[-1]), dir_fd=descriptor, follow_symlinks=False)

    def find(self, names: RelativePath) -> Optional[os.stat_result]:
        """The same; None where nothing is there, or no folder for it."""
        try:
            return self.status(names)
        except FileNotFoundError:
            return None

    def open_file(self, names: RelativePath, keep_access_time: bool = False, writes: bool = False) -> int:
        """Opens a regular file to read it, or to write to it too. Its time of access stays, if asked for, where the system lets this user: a time that changes is
        one more thing for the disk to write."""
        with self.at(names[:-1]) as descriptor:
            return open_regular(names[-1], READ | (NO_ACCESS_TIME if keep_access_time else 0) | (os.O_RDWR if writes else 0), descriptor)

    def lock_file(self, names: RelativePath) -> int:
        """Opens a file whose lock alone counts, made where it is missing. Nothing is read of it or written to it."""
        with self.at(names[:-1]) as descriptor:
            return os.open(plain(names[-1]), os.O_RDWR | os.O_CREAT | os.O_NOFOLLOW | os.O_NONBLOCK | os.O_CLOEXEC, 0o600, dir_fd=descriptor)

    def new_file(self, names: RelativePath, mode: int = 0o666) -> int:
        """Makes a file that was not there, and opens it."""
        with self.at(names[:-1]) as descriptor:
            return os.open(plain(names[-1]), NEW_FLAGS, mode, dir_fd=descriptor)

    def unlink(self, names: RelativePath, check: Optional[Check] = None) -> None:
        """Removes a file, where `check` takes it for the one that is meant."""
        with self.at(names[:-1]) as descriptor:
            if check is not None:
                check(os.stat(plain(names[-1]), dir_fd=descriptor, follow_symlinks=False))
            os.unlink(plain(names[-1]), dir_fd=descriptor)

    def rename(self, names: RelativePath, name: str) -> None:
        """Gives a file another name in its folder, in the place of what has that."""
        with self.at(names[:-1]) as descriptor:
            os.replace(plain(names[-1]), plain(name), src_dir_fd=descriptor, dst_dir_fd=descriptor)

    def move(self, names: RelativePath, to: RelativePath) -> None:
        """Gives a file another name, maybe in another folder, in the place of what has that. Both folders are durable then."""
        with self.at(names[:-1]) as descriptor:
            first = os.dup(descriptor)
        try:
            with self.at(to[:-1]) as second:
                os.replace(plain(names[-1]), plain(to[-1]), src_dir_fd=first, dst_dir_fd=second)
                sync_names(second)
            sync_names(first)
        finally:
            os.close(first)

    def link(self, names: RelativePath, name: str) -> None:
        """Gives a file a second name in its folder, which nothing has yet."""
        with self.at(names[:-1]) as descriptor:
            os.link(plain(names[-1]), plain(name), src_dir_fd=descriptor, dst_dir_fd=descriptor, follow_symlinks=False)

    def link_open(self, opened: int, names: RelativePath) -> None:
        """Gives a name, which nothing has yet, to a file that is open and has none."""
        with self.at(names[:-1]) as descriptor:
            # With a descriptor for its folder Python follows the link of /proc, as is needed here.
            os.link(f"/proc/self/fd/{opened}", plain(names[-1]), src_dir_fd=descriptor, dst_dir_fd=descriptor, follow_symlinks=True)

    def unnamed_file(self, names: RelativePath, flag: int, mode: int = 0o666) -> int:
        """Opens a new file without a name in a folder, by the flag that the system has for it."""
        with self.at(names) as descriptor:
            return os.open(os.curdir, flag | os.O_WRONLY | os.O_CLOEXEC, mode, dir_fd=descriptor)


class Place(NamedTuple):
    """A file or a folder below a root."""

    root: Root
    names: RelativePath

    def local(self) -> str:
        """Its path, to be shown to people."""
        return self.root.local(self.names)

    def unlink(self) -> None:
        """Removes it, where it is there."""
        with suppress(FileNotFoundError):
            self.root.unlink(self.names)


def place_of(path: str, roots: Optional[Dict[str, Root]] = None) -> Place:
    """A file or a folder that the user named, in the folder that it is in. `roots` has those that are open already. A link is a folder
    where the path ends with a slash."""
    bare = path.rstrip(os.sep)
    above, name = os.path.split(bare)
    if name in ("", os.curdir, os.pardir) or bare != path and not stat.S_ISDIR(os.lstat(bare).st_mode):
        return Place(Root.open(path), ())
    found = roots.get(above) if roots is not None else None
    if found is None:
        found = Root.open(above)
        if roots is not None:
            roots[above] = found
    return Place(found, (name,))


# ---- single calls

def plain(name: str) -> str:
    """The name itself, where it leads to nothing but what has it in its folder."""
    if name in ("", os.curdir, os.pardir) or "/" in name or "\0" in name:
        raise SourceError(f"{shown(name)}: is no name of a file")
    return name


def open_folder(name: str, above: int, make: Optional[int] = None) -> int:
    """Opens a folder in another one, made with a mode where it is missing and that is given. No link is followed."""
    if make is not None:
        with suppress(FileExistsError):
            os.mkdir(plain(name), make, dir_fd=above)
    try:
        return open_searchable(plain(name), FOLDER_FLAGS, above)
    except OSError as error:
        raise link_error(error, name, above) from error


def open_searchable(path: str, flags: int, above: Optional[int] = None) -> int:
    """Opens a folder: one that this user may not list, for the names in it alone."""
    try:
        return os.open(path, flags, dir_fd=above)
    except PermissionError:
        if not PATH_ALONE:
            raise
        return os.open(path, PATH_ALONE | flags, dir_fd=above)


def open_regular(name: str, flags: int, above: int) -> int:
    """Opens a file in a folder, where it is a regular one."""
    try:
        try:
            descriptor = os.open(plain(name), flags, dir_fd=above)
        except PermissionError:
            if not flags & NO_ACCESS_TIME:
                raise
            descriptor = os.open(plain(name), flags & ~NO_ACCESS_TIME, dir_fd=above)
    except OSError as error:
        raise link_error(error, name, above) from error
    return regular(descriptor, name)


def regular(descriptor: int, name: str) -> int:
    """The descriptor itself, where it is that of a regular file; else it is closed."""
    if stat.S_ISREG(os.fstat(descriptor).st_mode):
        return descriptor
    os.close(descriptor)
    raise OSError(errno.EINVAL, "is no regular file", name)


def link_error(error: OSError, name: str, above: int) -> OSError:
    """The error, or one that says that a link is in the way."""
    if error.errno in (errno.ELOOP, errno.ENOTDIR):
        with suppress(OSError):
            if stat.S_ISLNK(os.stat(name, dir_fd=above, follow_symlinks=False).st_mode):
                return NotFollowed(errno.ELOOP, f"{shown(name)} is a symbolic link, and is not followed", name)
    if error.errno == errno.ENOTDIR:
        return NotADirectoryError(errno.ENOTDIR, "already exists, and is not a folder", name)
    return error


def open_from_top(path: str) -> int:
    """Opens a regular file by a path from the top of the system that has no links."""
    with Root.open(os.sep) as root:
        return root.open_file(names_from_top(path), keep_access_time=True)


def names_from_top(path: str) -> RelativePath:
    """The names of a path from the top of the system."""
    return tuple(name for name in path.split(os.sep) if name)


def open_given(path: str, flags: int = os.O_RDONLY) -> int:
    """Opens a regular file that the user named. It may be a link."""
    return regular(os.open(path, flags | os.O_NONBLOCK | os.O_CLOEXEC), path)


def open_medium(path: str) -> int:
    """Opens an image or a block device that the user named, to read it. It may be a link. A named pipe does not wait for its other end."""
    # An optical drive that is opened without waiting does not look for its disc.
    wait = stat.S_ISBLK(os.stat(path).st_mode)
    descriptor = os.open(path, os.O_RDONLY | os.O_CLOEXEC | (0 if wait else os.O_NONBLOCK))
    if stat.S_ISFIFO(os.fstat(descriptor).st_mode):
        os.close(descriptor)
        raise OSError(errno.ESPIPE, "Is a named pipe, and not an image", path)
    return descriptor


def open_own(path: str, flags: int = os.O_RDONLY) -> int:
    """Opens a regular file of a folder that the user named, by its path. It may not be a link."""
    try:
        return regular(os.open(path, flags | os.O_NOFOLLOW | os.O_NONBLOCK | os.O_CLOEXEC), path)
    except OSError as error:
        if error.errno == errno.ELOOP:
            raise NotFollowed(errno.ELOOP, "is a symbolic link, and is not followed", path) from error
        raise


def status_given(path: str) -> Optional[os.stat_result]:
    """What the system says of a file that the user named; None where it says nothing."""
    try:
        return os.stat(path)
    except OSError:
        return None


def new_given(path: str, mode: int) -> bool:
    """Makes an empty file that the user named, with just this mode; False where something has its name, or it cannot be made."""
    try:
        root, names = place_of(path)
        with root:
            descriptor = root.new_file(names, mode)
            # Whatever the umask is: the mode was asked for.
            os.fchmod(descriptor, mode)
            os.close(descriptor)
    except OSError:
        return False
    return True


def remove_empty(path: str) -> None:
    """Removes a file that the user named, where it is one without a byte."""
    def check(status: os.stat_result) -> None:
        if not stat.S_ISREG(status.st_mode) or status.st_size:
            raise FileExistsError

    with suppress(OSError):
        root, names = place_of(path)
        with root:
            root.unlink(names, check)


def is_own(path: str) -> bool:
    """Whether a path is that of a regular file, and of no link to one."""
    try:
        return stat.S_ISREG(os.lstat(path).st_mode)
    except OSError:
        return False


def is_there(path: str) -> bool:
    """Whether anything has a path, a link that leads nowhere too."""
    return os.path.lexists(path)


# ---- permissions

def mode_for(*statuses: Optional[os.stat_result]) -> int:
    """The mode of a file that is made from what these are of: nobody may read it who may not read each of them. The umask takes its
    part from that."""
    mode = 0o666
    for status in statuses:
        if status is not None:
            mode &= 0o600 | readers(status)
    return mode


def readers(status: os.stat_result) -> int:
    """What a mode lets the group and others do; of a socket those who may write to it read all that it answers."""
    writers = status.st_mode & 0o022
    return writers | writers << 1 if stat.S_ISSOCK(status.st_mode) else status.st_mode & 0o066


def folder_mode(mode: int) -> int:
    """The mode of a folder for files of a mode: whoever may read or write these may enter it."""
    return 0o700 | mode | (mode >> 1 | mode >> 2) & 0o011


__all__ = [
    "NotFollowed", "Place", "RelativePath", "Root", "folder_mode", "is_own", "is_there", "mode_for", "names_from_top", "new_given", "open_from_top", "open_given", "open_medium", "open_own", "place_of", "remove_empty", "status_given",
]
