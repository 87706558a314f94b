"""What stays after a power loss: the bytes of a file, the names in a folder. Each call holds what it says once it has returned; where the
disk does not do it, it raises `OSError`."""

from __future__ import annotations

import os
from contextlib import suppress

from .beneath import open_own


def sync_file(path: str) -> None:
    """The bytes of a file are on its disk. Its name may not be: that takes `sync_folder`."""
    descriptor = open_own(path, os.O_RDWR)
    try:
        os.fsync(descriptor)
    finally:
        os.close(descriptor)


def sync_folder(path: str) -> None:
    """The names in a folder are on its disk. `sync_names` of `disk` is for folders of which that cannot be asked for."""
    descriptor = os.open(path, os.O_RDONLY | os.O_DIRECTORY | os.O_CLOEXEC)
    try:
        os.fsync(descriptor)
    finally:
        os.close(descriptor)


def make_folder(path: str) -> None:
    """A folder is there with those above it, and the names of those that were made are on their disks."""
    if os.path.isdir(path):
        return
    make_folder(os.path.dirname(path))
    with suppress(FileExistsError):
        os.mkdir(path)
    sync_folder(os.path.dirname(path))


__all__ = ["make_folder", "sync_file", "sync_folder"]
