"""A read-only file system of folders and files, as the kernel asks for it (FUSE), by pyfuse3.

All requests are answered in one thread. A large file that is compared gives way to other requests after each piece.
"""

from __future__ import annotations

import errno
import os
import signal
import stat
from importlib import import_module
from shutil import which
from typing import Any, Callable, Dict, List, NamedTuple, Optional, Set, Tuple

from ..base.errors import MountFailed, UdfburnError
from ..base.progress import Progress
from ..protocol import limits
from .shown_tree import Memory, NoMedium, OpenFile, ShownFile, ShownFolder, ShownItem

FUSE_DEVICE = "/dev/fuse"

ENDING_SIGNALS = (signal.SIGINT, signal.SIGTERM, signal.SIGHUP)
"""The signals that end a mount."""

TOP_NUMBER = 1
"""The number of the top folder."""

LASTING = 86_400.0
"""Seconds for which the kernel may keep what it was told of a name: nothing that is shown changes."""

TOLD = 1000
"""Failures that are told, at most."""


class KernelNode:
    """What the kernel knows by a number: a folder or a file, its name in the folder of a number, and how often the kernel was given it."""

    __slots__ = ("item", "key", "given")

    def __init__(self, item: ShownItem, key: Tuple[int, bytes]):
        self.item, self.key, self.given = item, key, 0


class Listing(NamedTuple):
    """A folder that is being listed."""

    number: int
    names: List[Tuple[bytes, ShownItem]]
    fault: Optional[str]


class Numbers:
    """The numbers of what the kernel was given. It says when it forgets one."""

    def __init__(self, top: ShownFolder):
        self.records: Dict[int, KernelNode] = {TOP_NUMBER: KernelNode(top, (0, b""))}
        self._numbers: Dict[Tuple[int, bytes], int] = {}
        self._last = TOP_NUMBER

    def of(self, parent: int, name: bytes, item: ShownItem) -> int:
        """The number of a name in a folder: the one that the kernel has, or a new one."""
        key = parent, name
        number = self._numbers.get(key)
        if number is None:
            self._last = number = self._last + 1
            self._numbers[key], self.records[number] = number, KernelNode(item, key)
        return number

    def known(self, parent: int, name: bytes) -> Optional[int]:
        """The number of a name that the kernel has."""
        return self._numbers.get((parent, name))

    def forget(self, number: int, given: int) -> None:
        """The kernel has forgotten a number so many times."""
        record = self.records.get(number)
        if record is None or number == TOP_NUMBER:
            return
        record.given -= given
        if record.given <= 0:
            del self.records[number]
            self._numbers.pop(record.key, None)


class Handlers:
    """Answers the kernel's requests. With `pyfuse3.Operations` it refuses all others."""

    supports_dot_lookup = enable_writeback_cache = enable_acl = False

    def __init__(self, top: ShownFolder, mode: int, progress: Progress):
        self.fuse: Any = import_module("pyfuse3")
        self._pause: Any = import_module("trio").lowlevel.checkpoint
        self.progress = progress
        self.ended = False
        self._numbers = Numbers(top)
        self._memory = Memory()
        self._mode = mode
        self._listings: Dict[int, Listing] = {}
        self._readings: Dict[int, OpenFile] = {}
        self._handle = 0
        self._told: Set[str] = set()

    def _error(self, error: Exception) -> Any:
        """What the kernel is told of a failure. What it is, the user reads on the standard error, once."""
        if isinstance(error, self.fuse.FUSEError):
            return error
        number = errno.ENOMEDIUM if isinstance(error, NoMedium) else errno.EIO
        text = str(error) if isinstance(error, (UdfburnError, OSError)) else f"{type(error).__name__}: {error}"
        if text not in self._told and len(self._told) <= TOLD:
            self._told.add(text)
            more = "more failures than this are not told"
            self.progress.fail(text if len(self._told) <= TOLD else more)
        return self.fuse.FUSEError(number)

    # ---- names

    def attributes(self, number: int, item: ShownItem) -> Any:
        """What the kernel is told of a folder or a file."""
        entry = self.fuse.EntryAttributes()
        is_file = isinstance(item, ShownFile)
        entry.st_ino, entry.st_nlink, entry.st_uid, entry.st_gid = number, 1 if is_file else 2, os.getuid(), os.getgid()
        entry.st_mode = stat.S_IFREG | self._mode if is_file else stat.S_IFDIR | self._mode | (self._mode & 0o444) >> 2
        entry.st_size = item.size if isinstance(item, ShownFile) else 0
        entry.st_blksize, entry.st_blocks = 1 << 20, -(-entry.st_size // 512)
        entry.st_mtime_ns = entry.st_ctime_ns = entry.st_atime_ns = item.moment * 1000
        entry.attr_timeout = entry.entry_timeout = LASTING
        return entry

    def _item(self, number: int) -> ShownItem:
        record = self._numbers.records.get(number)
        if record is None:
            raise self.fuse.FUSEError(errno.ESTALE)
        return record.item

    def _folder(self, number: int) -> ShownFolder:
        item = self._item(number)
        if not isinstance(item, ShownFolder):
            raise self.fuse.FUSEError(errno.ENOTDIR)
        return item

    def _give(self, parent: int, name: bytes, item: ShownItem) -> Tuple[int, Any]:
        number = self._numbers.of(parent, name, item)
        return number, self.attributes(number, self._numbers.records[number].item)

    async def getattr(self, number: int, ctx: Any = None) -> Any:
        return self.attributes(number, self._item(number))

    async def lookup(self, parent: int, name: bytes, ctx: Any = None) -> Any:
        known = self._numbers.known(parent, name)
        try:
            item = self._item(known) if known is not None else self._folder(parent).find(name)
        except Exception as error:
            raise self._error(error) from error
        if item is None:
            raise self.fuse.FUSEError(errno.ENOENT)
        number, entry = self._give(parent, name, item)
        self._numbers.records[number].given += 1
        return entry

    async def forget(self, gone: List[Tuple[int, int]]) -> None:
        for number, given in gone:
            self._numbers.forget(number, given)

    async def opendir(self, number: int, ctx: Any) -> int:
        folder = self._folder(number)
        try:
            names = [(name, item) for name, item in folder.names().items() if is_kernel_name(name)]
        except Exception as error:
            raise self._error(error) from error
        self._handle += 1
        self._listings[self._handle] = Listing(number, names, folder.fault)
        return self._handle

    async def readdir(self, handle: int, start: int, token: Any) -> None:
        number, names, fault = self._listings[handle]
        for index in range(start, len(names)):
            name, item = names[index]
            child, entry = self._give(number, name, item)
            if not self.fuse.readdir_reply(token, name, entry, index + 1):
                self._numbers.forget(child, 0)
                return
            self._numbers.records[child].given += 1
        if fault is not None and start == len(names):
            # After all that can be read: whoever lists the folder knows that names may be missing.
            raise self._error(UdfburnError(fault))

    async def releasedir(self, handle: int) -> None:
        self._listings.pop(handle, None)

    async def statfs(self, ctx: Any) -> Any:
        found = self.fuse.StatvfsData()
        found.f_bsize = found.f_frsize = limits.BLOCK
        found.f_namemax = 255
        return found

    # ---- bytes

    async def open(self, number: int, flags: int, ctx: Any) -> Any:
        if flags & os.O_ACCMODE != os.O_RDONLY or flags & os.O_TRUNC:
            raise self.fuse.FUSEError(errno.EROFS)
        item = self._item(number)
        if not isinstance(item, ShownFile):
            raise self.fuse.FUSEError(errno.EISDIR)
        try:
            reading = OpenFile(item, self._memory)
            for _ in reading.check():
                await self._pause()
                if self.ended:
                    raise self.fuse.FUSEError(errno.EINTR)
        except Exception as error:
            raise self._error(error) from error
        self._handle += 1
        self._readings[self._handle] = reading
        return self.fuse.FileInfo(fh=self._handle, keep_cache=True)

    async def read(self, handle: int, offset: int, size: int) -> bytes:
        try:
            return self._readings[handle].read(offset, size)
        except Exception as error:
            raise self._error(error) from error

    async def release(self, handle: int) -> None:
        self._readings.pop(handle, None)


def is_kernel_name(name: bytes) -> bool:
    """Whether the kernel takes a name. One that it does not take would hide the whole folder."""
    return name not in (b"", b".", b"..") and b"/" not in name and b"\0" not in name


# ---- mounted

def require_able(point: str) -> None:
    """Raises where this machine cannot mount, or nothing can be mounted there."""
    try:
        import_module("pyfuse3")
    except ImportError as error:
        raise MountFailed("mounting needs pyfuse3 for this Python (Debian: python3-pyfuse3)") from error
    if os.geteuid() and which("fusermount3") is None:
        raise MountFailed("mounting needs the program fusermount3 (Debian: fuse3)")
    if not os.path.exists(FUSE_DEVICE):
        raise MountFailed(f"mounting needs {FUSE_DEVICE}: the kernel has no FUSE, or its module is not loaded ('modprobe fuse')")
    try:
        taken = os.listdir(point)
    except OSError as error:
        gone = ": the process of an earlier mount is gone: 'fusermount3 -u' it first" if error.errno == errno.ENOTCONN else ""
        raise MountFailed(f"{point}: {error.strerror}{gone}") from error
    if taken:
        raise MountFailed(f"{point}: is not empty: what is in it would be hidden")


def serve(top: ShownFolder, point: str, name: str, mode: int, progress: Progress, ready: Callable[[], None]) -> None:
    """Mounts a folder, and answers until it is unmounted or a signal ends it. `mode` is that of the files. `ready` is called once it is
    mounted."""
    fuse, trio = import_module("pyfuse3"), import_module("trio")
    handlers = type("Operations", (Handlers, fuse.Operations), {})(top, mode, progress)
    options = {"ro", "default_permissions", "subtype=udfburn", "fsname=" + name.replace("\\", "\\\\").replace(",", "\\,")}
    for number in ENDING_SIGNALS:
        # Until there is somebody who waits for them: what is mounted then is unmounted, as after Ctrl-C.
        signal.signal(number, signal.default_int_handler)
    try:
        fuse.init(handlers, point, options)
    except RuntimeError as error:
        raise MountFailed(f"{point}: cannot be mounted: {error}") from error
    try:
        trio.run(answered, handlers, ready)
    finally:
        fuse.close(unmount=True)


async def answered(handlers: Any, ready: Callable[[], None]) -> None:
    """Answers requests until the end."""
    trio = import_module("trio")

    async def wait_for_signal(task_status: Any) -> None:
        with trio.open_signal_receiver(*ENDING_SIGNALS) as signals:
            task_status.started()
            async for _ in signals:
                handlers.ended = True
                handlers.fuse.terminate()

    async with trio.open_nursery() as nursery:
        await nursery.start(wait_for_signal)
        ready()
        await handlers.fuse.main()
        nursery.cancel_scope.cancel()


__all__ = ["FUSE_DEVICE", "Handlers", "Numbers", "require_able", "serve"]
