"""A ledger of which only something is read."""

from __future__ import annotations

import errno
import os
import shutil
from contextlib import ExitStack, contextmanager
from tempfile import TemporaryDirectory
from typing import Iterator

from ..base.errors import LedgerError
from ..base.locks import try_lock
from ..protocol import shown
from .file import await_lock
from .ledger import Ledger

NOT_WRITABLE = (errno.EROFS, errno.EACCES, errno.EPERM)
"""Why there can be no lock beside a ledger."""


@contextmanager
def ledger_to_read(path: str, wait: float) -> Iterator[Ledger]:
    """A ledger. Where nothing can be written beside it, as on a read-only file system, a copy of it is read."""
    path = os.path.realpath(path)
    with ExitStack() as stack:
        try:
            ledger = Ledger(path, wait=wait)
        except OSError as error:
            if error.errno not in NOT_WRITABLE:
                raise
            folder = stack.enter_context(TemporaryDirectory(prefix="udfburn-ledger-"))
            with without_writers(path, wait):
                copy = copied(path, folder)
            ledger = opened_copy(path, copy)
        stack.callback(ledger.close)
        yield ledger


@contextmanager
def without_writers(path: str, wait: float) -> Iterator[None]:
    """Keeps out processes that can write the ledger, as those outside of a container for which it is read-only."""
    try:
        descriptor = os.open(path + ".lock", os.O_RDONLY | os.O_CLOEXEC)
    except FileNotFoundError:
        # Whoever has the ledger has made this file.
        yield
        return
    try:
        await_lock(lambda: is_locked(descriptor), path, wait)
        yield
    finally:
        os.close(descriptor)


def is_locked(descriptor: int) -> bool:
    """Tries to take a lock that readers share. Where there are no locks, as on a disc, nobody else has one."""
    try:
        return try_lock(descriptor, shared=True)
    except OSError:
        return True


def opened_copy(path: str, copy: str) -> Ledger:
    """The copy of a ledger, with the path of what it is a copy of in all that is said of it."""
    try:
        ledger = Ledger(copy)
    except LedgerError as error:
        raise type(error)(str(error).replace(copy, path)) from error
    ledger.path = path
    return ledger


def copied(path: str, folder: str) -> str:
    """A copy of a ledger with its log, which may have transactions that the database does not have yet."""
    copy = os.path.join(folder, "ledger.sqlite")
    try:
        for end in ("", "-wal"):
            if not end or os.path.exists(path + end):
                shutil.copyfile(path + end, copy + end)
    except OSError as error:
        raise LedgerError(f"{shown(path)}: cannot be copied to a temporary folder, where it would be read ({error.strerror or error})") from error
    return copy


__all__ = ["ledger_to_read"]
