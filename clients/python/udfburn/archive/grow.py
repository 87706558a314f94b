"""A copy of an open image in a folder: it grows as the image does, by the blocks that were added.

At every moment it is a beginning of the image. While blocks are appended a note beside it says how many of its bytes count: what is torn by
a crash is cut off by the next run, and no reader sees it.
"""

from __future__ import annotations

import os
from contextlib import suppress
from typing import Dict, Optional, Tuple

from ..base.beneath import PIECE, Place, Root, mode_for
from ..base.disk import is_full
from ..base.locks import try_lock
from ..base.own_files import BytesTold, untold
from ..local.saving import save_at, write_all
from ..local.sources import shown
from ..protocol import limits
from .errors import CopyDiffers, CopyFailed
from .tail import tail_note

Compared = Dict[str, Tuple[int, int, int]]
"""What was compared in this run of copies, by their names: which file, by its device and inode, and how many of its bytes."""


def extend(root: Root, name: str, image: int, length: int, compared: Compared, told: BytesTold = untold) -> int:
    """Has a copy in a folder have the first so many bytes of an open image, durably; gives how many it had. It is made where it is not
    there. One that is no beginning of the image stays as it is, and is `CopyFailed`. What `compared` has of it is not read again.
    `told` gets the bytes that are written and read."""
    local = root.local((name,))
    if root.find((name,)) is None:
        compared.pop(name, None)
        _begin(root, name, image, length, told)
        return 0
    descriptor = root.open_file((name,), writes=True)
    try:
        lock(descriptor, local)
        had = begun(root, name, descriptor, image, length, compared, told)
        if had > length:
            raise CopyFailed(f"{shown(local)}: has {had} bytes, and the image {length}: the image is an older copy, or was cut short")
        cut(root, name, descriptor, had)
        if had < length:
            _append(root, name, descriptor, image, had, length, told)
            compared[name] = *compared[name][:2], length
        return had
    finally:
        os.close(descriptor)


def lock(descriptor: int, local: str) -> None:
    """Locks a copy, or raises where another process writes it."""
    if not try_lock(descriptor):
        raise CopyFailed(f"{shown(local)}: another process is writing it")


def begun(root: Root, name: str, descriptor: int, image: int, length: int, compared: Compared, told: BytesTold = untold) -> int:
    """How many bytes of a copy count, all of which are compared with the image's as the disk has them; `CopyFailed` where they differ. A
    copy that has more than the image is compared as far as the image goes."""
    local, status = root.local((name,)), os.fstat(descriptor)
    if os.path.samestat(status, os.fstat(image)):
        raise CopyFailed(f"{shown(local)}: is the image itself, and no copy")
    had = sound(root, name, descriptor)
    os.posix_fadvise(descriptor, 0, 0, os.POSIX_FADV_DONTNEED)
    *which, before = compared.get(name, (-1, -1, 0))
    start = before if which == [status.st_dev, status.st_ino] and before <= had else 0
    at = differs(descriptor, image, start, min(had, length), told)
    if at is not None:
        block = at // limits.BLOCK
        raise CopyDiffers(f"{shown(local)}: differs from the image in block {block}, and is not changed: it is damaged, or a copy of another image")
    compared[name] = status.st_dev, status.st_ino, min(had, length)
    return had


def sound(root: Root, name: str, descriptor: int) -> int:
    """How many bytes of a copy count."""
    size = os.fstat(descriptor).st_size
    note = tail_note(name)
    try:
        with open(root.open_file((note,)), "rb") as file:
            text = file.read(32).strip()
    except FileNotFoundError:
        return size
    if not text.isdigit():
        raise CopyFailed(f"{shown(root.local((note,)))}: has no length in it: the copy beside it may be torn")
    return min(size, int(text))


def differs(copy: int, image: int, start: int, end: int, told: BytesTold = untold) -> Optional[int]:
    """The first piece, by its place, in which a copy has other bytes than the image; None where it has none."""
    for at in range(start, end, PIECE):
        count = min(PIECE, end - at)
        one, other = os.pread(copy, count, at), os.pread(image, count, at)
        if one != other or len(one) != count:
            return at + next((index for index, pair in enumerate(zip(one, other)) if pair[0] != pair[1]), min(len(one), len(other)))
        told(count)
    return None


def cut(root: Root, name: str, descriptor: int, had: int) -> None:
    """Takes off a copy what a run that was cut short has appended, and has all that is left count."""
    if root.find((tail_note(name),)) is not None:
        os.ftruncate(descriptor, had)
        os.fsync(descriptor)
        _forget_note(root, name)


def _begin(root: Root, name: str, image: int, length: int, told: BytesTold) -> None:
    """Makes a copy. It has its name once it is whole and on the disk."""
    new = Place(root, (name + ".new",))
    # What is left of a copy that somebody took away says nothing of this one.
    with suppress(FileNotFoundError):
        _forget_note(root, name)
    new.unlink()
    descriptor = root.new_file(new.names, mode_for(os.fstat(image)))
    try:
        _write(root, name, descriptor, image, 0, length, told)
        root.rename(new.names, name)
        root.sync(())
    except BaseException:
        with suppress(OSError):
            new.unlink()
        raise
    finally:
        os.close(descriptor)


def _append(root: Root, name: str, descriptor: int, image: int, had: int, length: int, told: BytesTold) -> None:
    """Appends what the image has more."""
    note = Place(root, (tail_note(name),))
    save_at(note, [f"{had}\n".encode()], None, True, mode_for(os.fstat(image)))
    try:
        _write(root, name, descriptor, image, had, length, told)
    except (OSError, CopyFailed):
        # What cannot even be cut off now is cut off by the next run.
        os.ftruncate(descriptor, had)
        os.fsync(descriptor)
        _forget_note(root, name)
        raise
    _forget_note(root, name)


def _write(root: Root, name: str, descriptor: int, image: int, start: int, end: int, told: BytesTold) -> None:
    """Writes bytes of the image to a copy, and reads them back from its disk."""
    local = shown(root.local((name,)))
    os.lseek(descriptor, start, os.SEEK_SET)
    try:
        for at in range(start, end, PIECE):
            piece = os.pread(image, min(PIECE, end - at), at)
            if len(piece) != min(PIECE, end - at):
                raise CopyFailed(f"{local}: the image became shorter while it was copied: run the command again")
            write_all(descriptor, piece)
            told(len(piece))
        os.fsync(descriptor)
    except OSError as error:
        how = "the disk has no room: make room on it, and run the same command again" if is_full(error) else error.strerror
        raise CopyFailed(f"{local}: {how}") from error
    os.posix_fadvise(descriptor, 0, 0, os.POSIX_FADV_DONTNEED)
    if differs(descriptor, image, start, end, told) is not None:
        raise CopyFailed(f"{local}: what arrived is not what was sent: its disk is failing")


def _forget_note(root: Root, name: str) -> None:
    """From now on all of a copy counts."""
    root.unlink((tail_note(name),))
    root.sync(())


__all__ = ["begun", "cut", "differs", "extend", "lock", "sound"]
