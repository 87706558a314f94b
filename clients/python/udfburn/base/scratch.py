"""Folders for temporary files. Each has a lock that lasts as long as its process, so those that killed processes left are known."""

from __future__ import annotations

import os
from contextlib import contextmanager, suppress
from shutil import rmtree
from tempfile import mkdtemp
from typing import Iterator, Optional, Tuple

from .locks import lock_or_close


def own_folder(above: str, prefix: str) -> Tuple[str, Optional[int]]:
    """A new folder, and the descriptor that has its lock; without one where the file system has no locks."""
    while True:
        folder = mkdtemp(dir=above, prefix=prefix)
        try:
            descriptor = folder_lock(folder)
        except FileNotFoundError:
            # Somebody took it for one that was left.
            continue
        except OSError:
            return folder, None
        if descriptor is None:
            continue
        if os.path.isdir(folder):
            return folder, descriptor
        os.close(descriptor)


def folder_lock(folder: str) -> Optional[int]:
    """A descriptor with the lock of a folder; None where another process has it."""
    descriptor = os.open(folder, os.O_RDONLY | os.O_DIRECTORY | os.O_NOFOLLOW | os.O_CLOEXEC)
    return descriptor if lock_or_close(descriptor) else None


def sweep(above: str, prefix: str) -> None:
    """Removes the folders of this user that killed processes left."""
    with suppress(OSError):
        for name in os.listdir(above):
            if name.startswith(prefix):
                sweep_one(os.path.join(above, name))


def sweep_one(folder: str) -> None:
    """Removes the folder of a process that was killed."""
    with suppress(OSError):
        descriptor = folder_lock(folder)
        if descriptor is None:
            return
        try:
            if os.fstat(descriptor).st_uid == os.geteuid():
                rmtree(folder, ignore_errors=True)
        finally:
            os.close(descriptor)


@contextmanager
def room(above: str, prefix: str) -> Iterator[str]:
    """A new folder, as long as this lasts."""
    folder, lock = own_folder(above, prefix)
    try:
        yield folder
    finally:
        rmtree(folder, ignore_errors=True)
        if lock is not None:
            os.close(lock)


__all__ = ["own_folder", "room", "sweep"]
