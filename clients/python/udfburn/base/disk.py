"""What a local file system does: its synchronisations, and that it is full."""

from __future__ import annotations

import errno
import os
from typing import Any, Optional

NO_ROOM = (errno.ENOSPC, errno.EDQUOT)
"""The errors of a file system that has no room, for this user at least."""

BASE_ROOM = 1 << 16
"""Bytes that SQLite needs on a file system to begin with a change: the index of its log alone has 32 KiB."""

BASE_FAULTS = ("database or disk is full", "disk I/O error", "unable to open database file")
"""What SQLite says on a file system that has no room, as well as on one that fails."""


def is_full(error: BaseException) -> bool:
    """Whether an error says that a file system is full."""
    return isinstance(error, OSError) and error.errno in NO_ROOM


def room_left(path: str) -> Optional[int]:
    """The bytes that this user may still write on the file system of a file or a folder; None where that is not known."""
    try:
        found = os.statvfs(path)
    except OSError:
        return None
    return found.f_bavail * found.f_frsize


def left_if_short(path: str, least: int) -> Optional[int]:
    """The bytes that are left on the file system of a file or a folder, where they are fewer than are needed; else None."""
    left = room_left(path)
    return left if left is not None and left < least else None


def why_base_failed(path: str, error: Exception) -> str:
    """What is said of a database's file that SQLite could not write, for this error."""
    left = left_if_short(path, BASE_ROOM) if str(error) in BASE_FAULTS else None
    return "check that its disk works and has room" if left is None else f"its disk is full: {left:,} bytes are left. Make room"


def sync_names(descriptor: int) -> None:
    """The names in an open folder are on its disk, where its file system can do that and this user may: a folder of any file system may
    be named. `sync_folder` of `durable` raises where it cannot."""
    try:
        os.fsync(descriptor)
    except OSError as error:
        if error.errno not in (errno.EINVAL, errno.EBADF):
            raise


def sync_all(descriptor: int) -> bool:
    """Makes all that a file's file system has durable. False where the system cannot do that, or does not report a write that failed:
    it reports those since this descriptor was opened."""
    call = sync_call()
    if call is None:
        return False
    import ctypes

    if call(descriptor):
        number = ctypes.get_errno()
        raise OSError(number, os.strerror(number))
    return True


_call: Any = None


def sync_call() -> Optional[Any]:
    """The call `syncfs` of Linux, which reports failed writes from 5.8 on; None where there is none."""
    global _call
    if _call is None:
        _call = find_call() or False
    return _call or None


def find_call() -> Optional[Any]:
    """Looks for the call in the C library."""
    import ctypes

    system = os.uname()
    release = system.release.split("-")[0].split(".")
    if system.sysname != "Linux" or tuple(int(number) for number in release[:2] if number.isdecimal()) < (5, 8):
        return None
    return getattr(ctypes.CDLL(None, use_errno=True), "syncfs", None)


__all__ = ["is_full", "left_if_short", "room_left", "sync_all", "sync_names", "why_base_failed"]
