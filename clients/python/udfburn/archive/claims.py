"""Claims on paths and volumes that die with the process that has them.

A process that adds below a path has the path for itself, and shares those above it: so two that add one path, or one above
the other, meet. With SQLite a claim is the lock of a file in the archive's folder (flock). With PostgreSQL it is the lock of
a row, held by a transaction that stays open on a connection of its own.
"""

from __future__ import annotations

import os
from hashlib import sha256
from typing import Any, List, Set

from ..base.locks import lock_or_close
from ..base.own_files import from_top
from ..protocol import Path
from .base import Base, PostgresBase, connect, trouble
from .errors import CatalogueLost, Claimed
from .names import kept_name, text_of


class Claims:
    """The claims of this process."""

    def try_path(self, path: str, alone: bool) -> bool:
        """Claims one path, without those above it."""
        raise NotImplementedError

    def try_volume(self, number: int) -> bool:
        """Claims a volume, which this process may have already; False where another one has it."""
        raise NotImplementedError

    def require(self) -> None:
        """Raises `CatalogueLost` where the claims are lost."""
        raise NotImplementedError

    def close(self) -> None:
        """Gives up all claims."""
        raise NotImplementedError

    def path(self, path: Path) -> None:
        """Claims a path and all below it, or raises `Claimed`."""
        texts = [text_of(tuple(map(kept_name, path[:depth]))) for depth in range(len(path) + 1)]
        for depth, text in enumerate(texts):
            if not self.try_path(text, alone=depth == len(path)):
                raise Claimed(f"{text}: another process adds there, or above or below it: wait for it, and run the command again")

    def volume(self, number: int, label: str) -> None:
        """Claims a volume, or raises `Claimed`."""
        if not self.try_volume(number):
            raise Claimed(f"{label}: another process has this volume: wait for it, and run the command again")


class FileClaims(Claims):
    """Claims by locks of files, on one machine."""

    def __init__(self, folder: str):
        self._folder = folder
        self._held: List[int] = []
        self._volumes: Set[int] = set()

    def _lock(self, name: str, alone: bool) -> bool:
        with from_top(os.path.join(self._folder, name)) as place:
            descriptor = place.root.lock_file(place.names)
        if lock_or_close(descriptor, shared=not alone):
            self._held.append(descriptor)
            return True
        return False

    def try_path(self, path: str, alone: bool) -> bool:
        return self._lock(f"path-{sha256(path.encode()).hexdigest()[:32]}", alone)

    def try_volume(self, number: int) -> bool:
        if number not in self._volumes and self._lock(f"volume-{number:06}", True):
            self._volumes.add(number)
        return number in self._volumes

    def require(self) -> None:
        """Locks of files stay with the process."""

    def close(self) -> None:
        for descriptor in self._held:
            os.close(descriptor)
        self._held, self._volumes = [], set()


class RowClaims(Claims):
    """Claims by locks of rows. `SKIP LOCKED` gives no row where another transaction has its lock, and waits for nobody."""

    def __init__(self, base: Base, url: str):
        self._base = base
        self._connection = connect(url)
        # Where this machine dies without a word, the server finds out in about a minute, and lets go.
        for setting, value in (("tcp_keepalives_idle", 30), ("tcp_keepalives_interval", 10), ("tcp_keepalives_count", 3)):
            self._run(f"SET {setting} = {value}", ())
        self._run("SET idle_in_transaction_session_timeout = 0", ())

    def _run(self, statement: str, values: Any) -> Any:
        import psycopg

        try:
            return self._connection.execute(statement, values)
        except psycopg.Error as error:
            raise trouble(error) from error

    def try_path(self, path: str, alone: bool) -> bool:
        self._base.run("INSERT INTO path_lock (path) VALUES (?) ON CONFLICT DO NOTHING", (path,))
        how = "UPDATE" if alone else "SHARE"
        return bool(self._run(f"SELECT path FROM path_lock WHERE path = %s FOR {how} SKIP LOCKED", (path,)).fetchall())

    def try_volume(self, number: int) -> bool:
        self._base.run("INSERT INTO volume_lock (volume) VALUES (?) ON CONFLICT DO NOTHING", (number,))
        return bool(self._run("SELECT volume FROM volume_lock WHERE volume = %s FOR UPDATE SKIP LOCKED", (number,)).fetchall())

    def require(self) -> None:
        try:
            self._run("SELECT 1", ())
        except CatalogueLost as error:
            raise CatalogueLost(f"the claims on paths and volumes were lost with the catalogue's connection ({error})") from error

    def close(self) -> None:
        self._connection.close()


def claims_of(base: Base, folder: str, url: str) -> Claims:
    """The claims of a catalogue's kind."""
    return RowClaims(base, url) if isinstance(base, PostgresBase) else FileClaims(folder)
