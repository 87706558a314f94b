"""The file of a ledger: where it is, how it gets its length, and the lock beside it."""

from __future__ import annotations

import os
import sqlite3
import stat
import time
from typing import Callable

from ..base.beneath import open_given, open_own
from ..base.errors import LedgerBusy, LedgerError
from ..base.locks import try_lock


def default_path() -> str:
    """Where a user's ledger is: one a machine, since a volume keeps 64 clients for its life."""
    state = os.environ.get("XDG_STATE_HOME") or os.path.expanduser("~/.local/state")
    return os.environ.get("UDFBURN_LEDGER") or os.path.join(state, "udfburn", "ledger.sqlite")


def lengthen(path: str, size: int) -> None:
    """Gives a file so many bytes, where it has fewer, and makes them durable. What is written in their place later takes no
    change of the file system, for which a synchronisation would wait, and with it all others on the same disk."""
    descriptor = open_own(path, os.O_WRONLY)
    try:
        begin = os.fstat(descriptor).st_size
        if begin < size:
            os.pwrite(descriptor, bytes(size - begin), begin)
            os.fsync(descriptor)
    finally:
        os.close(descriptor)


def remove_if_there(path: str) -> None:
    """Removes a file that may be there."""
    try:
        os.unlink(path)
    except FileNotFoundError:
        pass


MAGIC = b"SQLite format 3\0"


def is_ledger(path: str) -> bool:
    """Whether there is a file that may be a ledger. One without a byte is none yet; what is surely no ledger is an error."""
    try:
        status = os.stat(path)
        if not stat.S_ISREG(status.st_mode):
            raise LedgerError(f"{path}: is not a ledger (not a regular file): name another with --ledger")
        if not status.st_size:
            return False
        with open(open_given(path), "rb") as file:
            if file.read(len(MAGIC)) != MAGIC:
                raise LedgerError(f"{path}: is not a ledger (not an SQLite database): name another with --ledger")
    except FileNotFoundError:
        return False
    return True


def open_private_base(path: str) -> sqlite3.Connection:
    """A base, which nobody else reads but its user. Each of its transactions is durable at its end."""
    old = os.umask(0o077)
    try:
        base = sqlite3.connect(path, isolation_level=None, timeout=5, check_same_thread=False)
    finally:
        os.umask(old)
    try:
        base.execute("PRAGMA locking_mode = EXCLUSIVE")
        base.execute("PRAGMA synchronous = FULL")
    except BaseException:
        base.close()
        raise
    return base


def await_lock(take: Callable[[], bool], path: str, wait: float) -> None:
    """Tries to take a lock of a ledger, again and again for so many seconds, and once at least."""
    limit = time.monotonic() + wait
    while not take():
        if time.monotonic() >= limit:
            raise LedgerBusy(f"{path}: another process has this ledger: wait for it, or use another with --ledger")
        time.sleep(0.05)


class Lock:
    """The lock of a ledger: a file beside it, since closing the database would give up locks on the database itself."""

    def __init__(self, path: str, wait: float):
        self.path = path + ".lock"
        await_lock(self._take, path, wait)

    def _take(self) -> bool:
        """Tries once. `made` is whether the file was not there."""
        try:
            self.descriptor = os.open(self.path, os.O_RDWR | os.O_CREAT | os.O_EXCL | os.O_NOFOLLOW | os.O_CLOEXEC, 0o600)
            self.made = True
        except FileExistsError:
            self.descriptor = os.open(self.path, os.O_RDWR | os.O_CREAT | os.O_NOFOLLOW | os.O_NONBLOCK | os.O_CLOEXEC, 0o600)
            self.made = False
        try:
            # Whoever found no ledger has taken the file away, maybe between the two calls.
            if try_lock(self.descriptor) and os.path.samestat(os.fstat(self.descriptor), os.stat(self.path)):
                return True
        except OSError:
            pass
        os.close(self.descriptor)
        return False

    def close(self, needless: bool = False) -> None:
        """Gives the lock to others. Where it was needless its file goes, if it was made for it."""
        if needless and self.made:
            remove_if_there(self.path)
        os.close(self.descriptor)


__all__ = ["Lock", "await_lock", "default_path", "is_ledger", "lengthen", "open_private_base", "remove_if_there"]
