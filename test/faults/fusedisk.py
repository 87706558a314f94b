"""A file whose writes and flushes are logged in order: a disk for a loop device, of which every state after a power loss can be
made again. A write of chosen blocks may be made to fail. It is served by FUSE, in the protocol of the kernel's fuse.h, and takes root."""
from __future__ import annotations

import ctypes
import errno
import os
import struct
import time
from pathlib import Path
from typing import NamedTuple, NoReturn

from protocol import BLOCK


LOOKUP, FORGET, GETATTR, SETATTR, OPEN, READ, WRITE, STATFS, RELEASE, FSYNC, FLUSH, INIT = 1, 2, 3, 4, 14, 15, 16, 17, 18, 20, 25, 26
OPENDIR_RELEASE, INTERRUPT, DESTROY, BATCH_FORGET = 29, 36, 38, 42
WITHOUT_ANSWER = (FORGET, INTERRUPT, BATCH_FORGET)

FOLDER, DISK = 1, 2
NAME = b"disk"
# The greatest write that is asked for.
LARGEST = 1 << 20
_EVENT = struct.Struct("<cQI")


class Event(NamedTuple):
    """What reached the disk: a write of `data` at `offset`, or a flush. `end` is the size of the log after it."""

    end: int
    is_flush: bool
    offset: int
    data: bytes


def events(log: Path) -> list[Event]:
    data, found, at = log.read_bytes(), [], 0
    while at + _EVENT.size <= len(data):
        kind, offset, length = _EVENT.unpack_from(data, at)
        start = at + _EVENT.size
        if start + length > len(data):
            break
        at = start + length
        found.append(Event(at, kind == b"F", offset, data[start:at]))
    return found


def _attributes(node: int, size: int) -> bytes:
    mode = 0o100600 if node == DISK else 0o40755
    return struct.pack("<QQQQQQIIIIIIIIII", node, size if node == DISK else 0, size // 512, 0, 0, 0, 0, 0, 0, mode, 1, 0, 0, 0, 4096, 0)


def _blocks(data: bytes) -> set[bytes]:
    """The blocks of a write. Zeros are anybody's."""
    return {data[at:at + BLOCK] for at in range(0, len(data), BLOCK)} - {bytes(BLOCK)}


def _is_to_fail(failing: str, data: bytes) -> bool:
    """Whether a write brings one of the blocks of the file `failing`."""
    try:
        with open(failing, "rb") as file:
            return not _blocks(file.read()).isdisjoint(_blocks(data))
    except FileNotFoundError:
        return False


class _Server:
    """Answers the kernel's requests on a file. The next write of a block of the file `failing` is a failure, and that file goes."""

    def __init__(self, backing: str, size: int, log: str, failing: str):
        self.disk = os.open(backing, os.O_RDWR)
        self.log = os.open(log, os.O_WRONLY | os.O_CREAT | os.O_APPEND, 0o600)
        self.size = size
        self.failing = failing

    def answer(self, operation: int, node: int, body: bytes) -> bytes:
        """What a request is answered; an `OSError` is its error."""
        if operation == INIT:
            _, _, ahead, _ = struct.unpack_from("<IIII", body)
            # Version 7.31; writes of up to `LARGEST` bytes (FUSE_BIG_WRITES, FUSE_MAX_PAGES).
            return struct.pack("<IIIIHHIIHHI28x", 7, 31, ahead, (1 << 5) | (1 << 22), 16, 12, LARGEST, 1, 256, 0, 0)
        if operation == LOOKUP:
            if body.split(b"\0")[0] != NAME:
                raise OSError(errno.ENOENT, "no such file")
            return struct.pack("<QQQQII", DISK, 0, 1000, 1000, 0, 0) + _attributes(DISK, self.size)
        if operation in (GETATTR, SETATTR):
            return struct.pack("<QII", 1000, 0, 0) + _attributes(node, self.size)
        if operation == OPEN:
            return struct.pack("<QII", 1, 1, 0)
        if operation == READ:
            _, offset, length = struct.unpack_from("<QQI", body)
            return os.pread(self.disk, length, offset)
        if operation == WRITE:
            return self.write(body)
        if operation == FSYNC:
            os.write(self.log, _EVENT.pack(b"F", 0, 0))
            return b""
        if operation == STATFS:
            blocks = self.size // 4096
            return struct.pack("<QQQQQIIII24x", blocks, blocks, blocks, 10, 10, 4096, 255, 4096, 0)
        if operation in (FLUSH, RELEASE, OPENDIR_RELEASE, DESTROY):
            return b""
        raise OSError(errno.ENOSYS, "no such request")

    def write(self, body: bytes) -> bytes:
        """Writes, and logs it; or fails, where that is wanted of this data."""
        _, offset, length = struct.unpack_from("<QQI", body)
        data = body[40:40 + length]
        if _is_to_fail(self.failing, data):
            os.unlink(self.failing)
            raise OSError(errno.EIO, "a write that is to fail")
        os.write(self.log, _EVENT.pack(b"W", offset, length) + data)
        os.pwrite(self.disk, data, offset)
        return struct.pack("<II", length, 0)


def _serve(device: int, backing: str, size: int, log: str, failing: str) -> NoReturn:
    """Answers the kernel's requests until the folder is unmounted."""
    server = _Server(backing, size, log, failing)
    while True:
        try:
            request = os.read(device, LARGEST + 4096)
        except OSError as fault:
            if fault.errno == errno.ENODEV:
                os._exit(0)
            continue
        _, operation, unique, node = struct.unpack_from("<IIQQ", request)
        if operation in WITHOUT_ANSWER:
            continue
        error, answer = 0, b""
        try:
            answer = server.answer(operation, node, request[40:])
        except OSError as fault:
            error = -(fault.errno or errno.EIO)
        try:
            os.write(device, struct.pack("<IiQ", 16 + len(answer), error, unique) + answer)
        except OSError:
            # The request was interrupted.
            pass


class FuseDisk:
    """The file `disk` in a folder, mounted for as long as this is open."""

    def __init__(self, folder: Path, backing: Path, log: Path) -> None:
        self.folder = folder
        self.log = log
        self.failing = log.with_suffix(".failing")
        self.path = folder / NAME.decode()
        libc = ctypes.CDLL(None, use_errno=True)
        device = os.open("/dev/fuse", os.O_RDWR)
        try:
            options = ("fd=%d,rootmode=40000,user_id=0,group_id=0,max_read=131072" % device).encode()
            self.server = os.fork()
            if self.server == 0:
                try:
                    _serve(device, str(backing), backing.stat().st_size, str(log), str(self.failing))
                finally:
                    os._exit(1)
            if libc.mount(b"udfburn-faults", str(folder).encode(), b"fuse", 0, options):
                fault = ctypes.get_errno()
                os.kill(self.server, 9)
                os.waitpid(self.server, 0)
                raise OSError(fault, "mount: " + os.strerror(fault))
        finally:
            os.close(device)
        self._libc = libc

    def fail(self, blocks: bytes) -> None:
        """Makes the next write of one of these blocks fail. What the system writes of its own accord, as it does after half a minute,
        is none of them."""
        self.failing.write_bytes(blocks)

    def has_failed(self) -> bool:
        return not self.failing.exists()

    def size(self) -> int:
        """The size of the log: what reached the disk so far."""
        return self.log.stat().st_size if self.log.exists() else 0

    def close(self) -> None:
        for _ in range(2000):
            if not self._libc.umount2(str(self.folder).encode(), 0):
                break
            # The loop device lets go a moment after it was detached.
            time.sleep(0.05)
        else:
            self._libc.umount2(str(self.folder).encode(), 2)
        os.waitpid(self.server, 0)
