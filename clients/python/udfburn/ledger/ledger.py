"""The ledger: what was sent under which number, and what came back, kept through any crash.

A number and its frame are in the ledger before the frame is sent, and the reply before anything is done because of
it. So after a crash at any moment the frames without a reply are known, and are sent again under their numbers; the
volume runs each at most once. One process has a ledger at a time.
"""

from __future__ import annotations

import os
import sqlite3
import time
from contextlib import contextmanager
from typing import Any, Callable, Dict, Iterable, Iterator, List, Mapping, Optional, Sequence, Set, Tuple, TypeVar, Union

from ..base.disk import why_base_failed
from ..base.durable import make_folder, sync_file, sync_folder
from ..base.errors import LedgerError
from ..protocol import limits
from ..protocol.units import Commit
from .file import Lock, default_path, is_ledger, lengthen, open_private_base, remove_if_there
from .records import (
    FACTS, GIVEN_UP, GREATEST_NUMBER, ORIGIN, PLACES, Identity, KnownVolume, Mark, Pending, Reply, Sent, facts_row, origin_row, pending_of,
    row_reply, row_way, sent_of, volume_of, whole_number,
)
from .schema import KEPT_FRAME, LEDGER_VERSION, SCHEMA, frame_place, statements, upgrade

Made = TypeVar("Made")

SELECT_LATEST = """
SELECT max(latest, coalesce(
    (SELECT number FROM request WHERE volume = volume.id AND code IS NOT NULL ORDER BY number DESC LIMIT 1), 0))
"""
"""The latest number with a reply: that which was learnt, or a later one."""

SELECT_VOLUMES = f"""
SELECT id, volume.way, ({SELECT_LATEST}), unsettled, label, formatted, capacity, mark_commit, mark_address, mark_check FROM volume
"""

BOUND = "INSERT INTO way VALUES (?, ?) ON CONFLICT (way) DO UPDATE SET volume = excluded.volume"

IDENTIFIED = """
UPDATE volume SET label = ?, formatted = ?, capacity = ?, mark_commit = ?, mark_address = ?, mark_check = ? WHERE id = ?
"""

PENDING = f"""
SELECT number, payload, path, {', '.join((*FACTS, *ORIGIN))} FROM request JOIN frame ON frame.id = volume * {PLACES} + number % {PLACES}
WHERE volume = ?1 AND number > (SELECT max(number) FROM request WHERE volume = ?1) - {PLACES} AND code IS NULL ORDER BY number
"""
"""Requests without a reply: a payload is kept for each, in the place of an older one."""

NO_ORIGIN = f"UPDATE frame SET {', '.join(f'{name} = ?' for name in ORIGIN)} WHERE id = ?"

INSERT_REQUEST = f"INSERT INTO request (volume, number, path, {', '.join(FACTS)}) VALUES (?, ?, ?{', ?' * len(FACTS)})"

SENT_COLUMNS = ("number", "path", "code", "commit_number", "confirmed", *FACTS)

SELECT_SENT = f"SELECT {', '.join(SENT_COLUMNS)} FROM request"

COMPUTED = """
SELECT 1 FROM sqlite_master WHERE type NOT IN ('table', 'index')
UNION ALL SELECT 1 FROM sqlite_master AS made, pragma_table_xinfo(made.name) WHERE made.type = 'table' AND hidden
"""
"""Views, triggers and columns that are computed: whoever made those of a file says how long they take, and how much memory."""

LAST_COMMIT = """
SELECT max(coalesce((SELECT commit_number FROM request WHERE volume = ? AND code IS NOT NULL ORDER BY number DESC LIMIT 1), 0),
    coalesce((SELECT commit_number FROM found WHERE volume = ? ORDER BY number DESC LIMIT 1), 0))
"""

LOG_PAGES = 512
"""Pages in the database's log before they are copied into the database, and the log is written from its beginning again. That takes three
synchronisations, and a transaction of 32 requests with files of 4 KiB some 70 pages."""

LONG_LIST = 8
"""Requests in one transaction from which on more are likely to follow, so that the log gets its length at once."""

LOG_BYTES = 32 + (LOG_PAGES + 16) * (24 + 4096)
"""Bytes that such a log may take, with what the last transaction adds."""


class Ledger:
    """An open ledger. No other process has it meanwhile."""

    def __init__(self, path: str, client: Optional[int] = None, wait: float = 10.0):
        self.path = os.path.realpath(path)
        is_ledger(self.path)
        make_folder(os.path.dirname(self.path))
        self._lock = Lock(self.path, wait)
        try:
            if not is_ledger(self.path):
                self._make(client)
            self._base, self.client = self._open(client)
            # Whether the log has room for all that it gets.
            self._roomy = False
        except BaseException:
            # A ledger that was made is there, and one that is there has its lock.
            self._lock.close(needless=True)
            raise

    # ---- opening

    def _open(self, wanted: Optional[int]) -> Tuple[sqlite3.Connection, int]:
        """The database, and the client that it belongs to. A database that is not a ledger is left as it is."""
        try:
            base, client = self._begin(wanted)
            if client is None:
                # A ledger of an earlier program whose making was cut short: it has no table, and so nothing to lose.
                base.close()
                self._make(wanted)
                base, client = self._begin(wanted)
            if client is None:
                raise ValueError("it has no client, though it was just made")
            return base, client
        except (sqlite3.DatabaseError, TypeError, ValueError) as error:
            raise self.unusable(error) from error

    def _begin(self, wanted: Optional[int]) -> Tuple[sqlite3.Connection, Optional[int]]:
        base = open_private_base(self.path)
        try:
            client = self._client(base, wanted)
            if client is not None:
                base.execute("PRAGMA journal_mode = WAL")
                base.execute(f"PRAGMA wal_autocheckpoint = {LOG_PAGES}")
                base.execute("PRAGMA cache_size = -16384")
        except BaseException:
            base.close()
            raise
        return base, client

    def unusable(self, error: Exception) -> LedgerError:
        """What is reported if the database cannot be opened, or is not a ledger's."""
        if isinstance(error, sqlite3.OperationalError) and not str(error).startswith("no such"):
            return LedgerError(f"{self.path}: cannot be written ({error}): {why_base_failed(self.path, error)}")
        return LedgerError(f"{self.path}: is not a ledger ({error}): name another with --ledger")

    def _client(self, base: sqlite3.Connection, wanted: Optional[int]) -> Optional[int]:
        """The client that a database belongs to; None if it has no table at all."""
        if not base.execute("SELECT 1 FROM sqlite_master").fetchone():
            return None
        if base.execute(COMPUTED).fetchone():
            raise ValueError("it has more than tables of values")
        version, client = base.execute("SELECT version, client FROM ledger").fetchone()
        if not 0 < version <= LEDGER_VERSION:
            raise LedgerError(f"{self.path}: has version {version}, and this program knows those up to {LEDGER_VERSION}: use a newer program")
        number = whole_number(int(client), 1, limits.U64)
        if wanted is not None and wanted != number:
            raise LedgerError(
                f"{self.path}: is the ledger of client {client}, not {wanted}: leave --client out, or name another ledger"
            )
        if version < LEDGER_VERSION:
            upgrade(base, version)
        return number

    def _make(self, wanted: Optional[int]) -> None:
        """Makes the ledger under another name, and gives it its own once it is whole and durable."""
        client = 1 + int.from_bytes(os.urandom(8), "little") % GREATEST_NUMBER if wanted is None else wanted
        if not 0 < client <= limits.U64:
            raise LedgerError(f"{client} is not a client number: give one from 1 to {limits.U64}")
        new = self.path + ".new"
        # What an earlier making left; and a log without its base, which SQLite would take for the new one's.
        for path in (new, new + "-journal", new + "-wal", self.path + "-journal", self.path + "-wal"):
            remove_if_there(path)
        try:
            self._fill(new, client)
            sync_file(new)
            os.rename(new, self.path)
        except sqlite3.Error as error:
            raise self.unusable(error) from error
        finally:
            remove_if_there(new)
        sync_folder(os.path.dirname(self.path))

    def _fill(self, new: str, client: int) -> None:
        """Writes a ledger that has no request yet."""
        base = open_private_base(new)
        try:
            # A making that is cut short is thrown away, so nothing of it has to be undone.
            base.execute("PRAGMA journal_mode = MEMORY")
            base.execute("BEGIN IMMEDIATE")
            for statement in statements(SCHEMA):
                base.execute(statement)
            base.execute("INSERT INTO ledger VALUES (?, ?)", (LEDGER_VERSION, str(client)))
            base.execute("COMMIT")
            base.execute("PRAGMA journal_mode = WAL")
        finally:
            base.close()

    def files(self) -> Set[Tuple[int, int]]:
        """The device and the inode of each file that the ledger has."""
        found: Set[Tuple[int, int]] = set()
        for path in (self.path, self.path + "-wal", self._lock.path):
            try:
                status = os.stat(path)
            except FileNotFoundError:
                continue
            found.add((status.st_dev, status.st_ino))
        return found

    def close(self) -> None:
        """Gives the ledger to others."""
        self._base.close()
        self._lock.close()

    # ---- volumes

    def volume(self, way: Union[str, bytes]) -> Optional[KnownVolume]:
        """The volume that is at this way."""
        found = self._volumes("JOIN way ON way.volume = volume.id WHERE way.way = ?", way)
        return found[0] if found else None

    def volumes(self) -> List[KnownVolume]:
        """All volumes that were met, the first one first."""
        return self._volumes("ORDER BY id")

    def _volumes(self, where: str, *values: object) -> List[KnownVolume]:
        return self._read(volume_of, f"{SELECT_VOLUMES} {where}", *values)

    def _read(self, make: Callable[[Any], Made], statement: str, *values: object) -> List[Made]:
        """What the rows say that a statement gives. Raises where they are none that a ledger has."""
        try:
            return [make(row) for row in self._base.execute(statement, values).fetchall()]
        except (sqlite3.Error, ValueError) as error:
            raise self.unusable(error) from error

    def _number(self, statement: str, *values: object) -> int:
        """The number that a statement gives; 0 where it gives none."""
        return self._read(lambda row: whole_number(row[0] or 0), statement, *values)[0]

    def ways(self, volume: KnownVolume) -> List[Union[str, bytes]]:
        """The ways that lead to a volume."""
        return self._read(lambda row: row_way(row[0]), "SELECT way FROM way WHERE volume = ? ORDER BY way", volume.id)

    def learn(self, way: Union[str, bytes], latest: int, replies: Mapping[int, Tuple[int, Commit]] = {}) -> KnownVolume:
        """Keeps a volume that is met for the first time: the number that it knows of this client, and the codes and commits of the
        replies that it keeps, by their numbers."""
        if latest >= GREATEST_NUMBER - PLACES:
            raise LedgerError(f"client {self.client} has no numbers left: use a new ledger")
        with self._transaction():
            made = self._base.execute("INSERT INTO volume (way, latest, made) VALUES (?, ?, ?)", (way, latest, time.time())).lastrowid
            self._base.executemany("INSERT INTO found VALUES (?, ?, ?, ?)", [(made, number, *reply) for number, reply in replies.items()])
            self._base.execute(BOUND, (way, made))
        found = self.volume(way)
        if found is None:
            raise RuntimeError("the volume that was just added is not in the ledger")
        return found

    def bind(self, way: Union[str, bytes], volume: KnownVolume) -> KnownVolume:
        """Keeps that a way leads to a volume that is known."""
        with self._transaction():
            self._base.execute(BOUND, (way, volume.id))
        return volume

    def take_over(self, volume: KnownVolume, latest: int, replies: Mapping[int, Tuple[int, Commit]]) -> KnownVolume:
        """Goes on at the number that a volume knows, where requests that this ledger has no reply of are given up."""
        with self._transaction():
            self._base.execute("DELETE FROM request WHERE volume = ? AND code IS NULL", (volume.id,))
            self._base.execute("UPDATE volume SET latest = ? WHERE id = ?", (latest, volume.id))
            kept = {number for (number,) in self._base.execute("SELECT number FROM request WHERE volume = ?", (volume.id,))}
            rows = [(volume.id, number, *reply) for number, reply in replies.items() if number not in kept]
            self._base.executemany("INSERT OR REPLACE INTO found VALUES (?, ?, ?, ?)", rows)
        return self._volumes("WHERE id = ?", volume.id)[0]

    def identify(self, volume: KnownVolume, identity: Identity, mark: Mark) -> KnownVolume:
        """Keeps what an image says of itself, and a commit by which it is known again."""
        if (volume.identity, volume.mark) == (identity, mark):
            return volume
        with self._transaction():
            self._base.execute(IDENTIFIED, (*identity, *mark, volume.id))
        return self._volumes("WHERE id = ?", volume.id)[0]

    def begun(self, volume: KnownVolume) -> int:
        """The number that the volume knew of this client when it was first met."""
        return self._number("SELECT latest FROM volume WHERE id = ?", volume.id)

    def found(self, volume: KnownVolume) -> Dict[int, Tuple[int, Commit]]:
        """Code and commit of each reply that the volume kept when it was first met, by number."""
        statement = "SELECT number, code, commit_number FROM found WHERE volume = ?"
        return dict(self._read(lambda row: (whole_number(row[0], 1), row_reply(*row[1:])), statement, volume.id))

    # ---- requests

    def pending(self, volume: KnownVolume) -> List[Pending]:
        """The requests without a reply, in order of their numbers."""
        return self._read(pending_of, PENDING, volume.id)

    def latest(self, volume: KnownVolume) -> int:
        """The number of the last request with a reply."""
        return self._number(f"SELECT ({SELECT_LATEST}) FROM volume WHERE id = ?", volume.id)

    def last_commit(self, volume: KnownVolume) -> Commit:
        """The greatest commit that was acknowledged."""
        return Commit(self._number(LAST_COMMIT, volume.id, volume.id))

    def record(self, volume: KnownVolume, replies: Sequence[Reply], requests: Sequence[Pending]) -> None:
        """Keeps replies that came and requests that are to be sent, as one: durable when it returns."""
        if not replies and not requests:
            return
        if len(requests) >= LONG_LIST:
            self._make_room()
        with self._transaction():
            self._base.executemany(
                "UPDATE request SET code = ?, commit_number = ?, confirmed = ? WHERE volume = ? AND number = ?",
                [(int(r.code), r.commit, r.confirmed, volume.id, r.number) for r in replies],
            )
            self._base.executemany(INSERT_REQUEST, [(volume.id, r.number, r.path, *facts_row(r.facts)) for r in requests])
            self._base.executemany(KEPT_FRAME, [(frame_place(volume.id, r.number), r.payload, *origin_row(r.origin)) for r in requests])

    def _make_room(self) -> None:
        """Lengthens the log once, where it would grow by each transaction. Zeros after its last page are none to SQLite."""
        if self._roomy:
            return
        self._roomy = True
        try:
            lengthen(self.path + "-wal", LOG_BYTES)
        except OSError:
            # It grows then, or reports it if that fails too.
            pass

    @contextmanager
    def _transaction(self) -> Iterator[None]:
        """All that is done within is kept as one, or nothing of it."""
        try:
            try:
                self._base.execute("BEGIN IMMEDIATE")
                yield
                self._base.execute("COMMIT")
            finally:
                if self._base.in_transaction:
                    self._base.execute("ROLLBACK")
        except sqlite3.Error as error:
            raise self.unusable(error) from error

    def confirm(self, volume: KnownVolume, numbers: Iterable[int]) -> None:
        """Marks replies as those that the tree agrees with."""
        with self._transaction():
            self._base.executemany(
                "UPDATE request SET confirmed = 1 WHERE volume = ? AND number = ?", [(volume.id, number) for number in numbers]
            )

    def withdraw(self, volume: KnownVolume) -> List[Pending]:
        """Takes out the requests without a reply, which are known to be committed never; gives them."""
        gone = self.pending(volume)
        with self._transaction():
            self._base.execute("DELETE FROM request WHERE volume = ? AND code IS NULL", (volume.id,))
        return gone

    def give_up(self, volume: KnownVolume, waiting: Iterable[Pending]) -> None:
        """Records that the data of pending requests is no longer looked for, whatever is found at its place later."""
        with self._transaction():
            self._base.executemany(NO_ORIGIN, [(*origin_row(GIVEN_UP), frame_place(volume.id, pending.number)) for pending in waiting])

    def history(self, volume: KnownVolume) -> List[Tuple[int, str, Optional[int], Optional[Commit], bool]]:
        """Each request that is kept: number, path, code, commit, and whether the tree agreed."""
        return [(sent.number, sent.path, sent.code, sent.commit, sent.confirmed) for sent in self.sent(volume)]

    def sent(self, volume: KnownVolume, after: int = 0) -> List[Sent]:
        """Each request that is kept above a number, in order of the numbers."""
        return self._read(sent_of, f"{SELECT_SENT} WHERE volume = ? AND number > ? ORDER BY number", volume.id, after)


__all__ = ["KnownVolume", "LOG_BYTES", "Ledger", "Lock", "Pending", "Reply", "default_path"]
