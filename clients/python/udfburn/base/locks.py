"""Locks of open files and folders (flock). A lock lasts as long as its descriptor, so it ends with its process at the latest."""

from __future__ import annotations

import fcntl
import os


def try_lock(descriptor: int, shared: bool = False) -> bool:
    """Takes the lock of an open file or folder, or one that others share. False where another process has it: this never waits.
    Raises `OSError` where the file system has no locks."""
    try:
        fcntl.flock(descriptor, (fcntl.LOCK_SH if shared else fcntl.LOCK_EX) | fcntl.LOCK_NB)
        return True
    except BlockingIOError:
        return False


def lock_or_close(descriptor: int, shared: bool = False) -> bool:
    """The same. Without the lock the descriptor is closed, also where this raises."""
    taken = False
    try:
        taken = try_lock(descriptor, shared)
    finally:
        if not taken:
            os.close(descriptor)
    return taken


__all__ = ["lock_or_close", "try_lock"]
