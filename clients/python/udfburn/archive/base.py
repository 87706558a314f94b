"""The engines of a catalogue: SQLite in a file, PostgreSQL on a server. Both take the same statements, with `?` for values."""

from __future__ import annotations

import os
import sqlite3
from contextlib import contextmanager
from typing import Any, Dict, Iterable, Iterator, List, NamedTuple, Optional, Sequence, Tuple

from ..base.beneath import new_given
from ..base.disk import why_base_failed
from ..base.durable import sync_folder
from ..local.sources import shown
from .config import without_password
from .errors import CatalogueError, CatalogueLost
from .patterns import LIKE_ESCAPE, glob, like, match, trigrams

Row = Tuple[Any, ...]

LEAST_SQLITE = (3, 34, 0)
"""The first SQLite whose FTS5 has an index of trigrams."""

CORRUPT_INDEX = 267
"""The error of SQLite that says that a virtual table, as FTS5 makes, is damaged (SQLITE_CORRUPT_VTAB)."""

EXTENSION = "pg_trgm"
"""The extension of PostgreSQL that has an index of trigrams."""

FETCHED = 1000
"""Rows that are taken at once of a long answer."""


class Range(NamedTuple):
    """Rows of a table of names: by which column, and which."""

    column: str
    where: str
    values: Tuple[str, ...]


class Base:
    """An engine. Each transaction is durable at its end."""

    engine = text = blob = serial = ""
    in_process = False
    """Whether the engine is a file of this machine, so that claims on it are those of files."""

    has_names = False
    """Whether `by_name` and `by_ending` are tables that are written, and no views."""

    for_share = ""
    """What has the files that a statement gives stay until the transaction ends. Transactions of SQLite are one after another."""

    def run(self, statement: str, values: Sequence[Any] = ()) -> List[Row]:
        """The rows that a statement gives."""
        raise NotImplementedError

    def many(self, statement: str, rows: Sequence[Sequence[Any]]) -> None:
        """A statement for each row of values."""
        raise NotImplementedError

    def stream(self, statement: str, values: Sequence[Any] = ()) -> Iterator[Row]:
        """The rows of a long answer, as they come."""
        raise NotImplementedError

    @contextmanager
    def transaction(self) -> Iterator[None]:
        """All that is done within is kept as one, or nothing of it."""
        raise NotImplementedError
        yield

    def matching(self, pattern: str) -> Range:
        """Rows of names that have all those that a pattern matches. So in PostgreSQL, whose server uses its index of trigrams; SQLite's own asks FTS5."""
        return Range("name", f"name LIKE ? ESCAPE '{LIKE_ESCAPE}'", (like(pattern),))

    def has_whole_index(self) -> bool:
        """Whether the index of text inside names can be used. What it has not is not asked: `remake_index` sees to that."""
        return True

    def remake_index(self) -> None:
        """Makes the index of text inside names again. Only inside a transaction."""
        raise NotImplementedError

    def has_table(self, name: str) -> bool:
        """Whether there is a table."""
        raise NotImplementedError

    def close(self) -> None:
        """Ends the connection."""
        raise NotImplementedError


def backwards(text: str) -> str:
    """A text from its end."""
    return text[::-1]


class SqliteBase(Base):
    """A catalogue in a file."""

    engine, text, blob, serial = "sqlite", "TEXT", "BLOB", "INTEGER PRIMARY KEY"
    in_process = has_names = True

    def __init__(self, path: str, make: bool, mode: int = 0o600):
        if sqlite3.sqlite_version_info < LEAST_SQLITE:
            raise CatalogueError(f"the catalogue needs SQLite {'.'.join(map(str, LEAST_SQLITE))} or later, and this Python has {sqlite3.sqlite_version}")
        self.path = path
        there = os.path.lexists(path)
        if not there and not make:
            raise CatalogueError(f"{shown(path)}: the catalogue is missing: 'udfburn-archive rebuild' makes a new one from the volumes")
        if not there:
            # Its log and its index get the same permissions.
            new_given(path, mode)
        try:
            self._base = sqlite3.connect(path, isolation_level=None, timeout=60)
            self._base.execute("PRAGMA journal_mode = WAL")
            self._base.execute("PRAGMA synchronous = FULL")
            self._base.execute("PRAGMA cache_size = -65536")
            # PostgreSQL has it.
            self._base.create_function("reverse", 1, backwards, deterministic=True)
        except (sqlite3.Error, UnicodeDecodeError) as error:
            raise self._trouble(error) from error
        if not there:
            sync_folder(os.path.dirname(path))

    def _trouble(self, error: Exception) -> CatalogueError:
        told = f"{shown(self.path)}: {error}"
        if isinstance(error, sqlite3.OperationalError):
            return CatalogueError(f"{told}: {why_base_failed(self.path, error)}, and run the command again")
        return CatalogueError(f"{told}: 'udfburn-archive rebuild' rebuilds the catalogue from the volumes")

    def run(self, statement: str, values: Sequence[Any] = ()) -> List[Row]:
        try:
            return self._base.execute(statement, values).fetchall()
        except (sqlite3.Error, UnicodeDecodeError) as error:
            raise self._trouble(error) from error

    def many(self, statement: str, rows: Sequence[Sequence[Any]]) -> None:
        try:
            self._base.executemany(statement, rows)
        except (sqlite3.Error, UnicodeDecodeError) as error:
            raise self._trouble(error) from error

    def stream(self, statement: str, values: Sequence[Any] = ()) -> Iterator[Row]:
        try:
            yield from self._base.execute(statement, values)
        except (sqlite3.Error, UnicodeDecodeError) as error:
            raise self._trouble(error) from error

    @contextmanager
    def transaction(self) -> Iterator[None]:
        self.run("BEGIN IMMEDIATE")
        try:
            yield
            self.run("COMMIT")
        except BaseException:
            if self._base.in_transaction:
                self._base.execute("ROLLBACK")
            raise

    def matching(self, pattern: str) -> Range:
        if not trigrams(pattern):
            return super().matching(pattern)
        where = "name IN (SELECT name FROM known_name WHERE id IN (SELECT rowid FROM name_text WHERE name_text MATCH ?) AND name GLOB ?)"
        return Range("name", where, (match(pattern), glob(pattern)))

    def has_whole_index(self) -> bool:
        try:
            self.run("INSERT INTO name_text (name_text, rank) VALUES ('integrity-check', 1)")
            return True
        except CatalogueError as error:
            if getattr(error.__cause__, "sqlite_errorcode", None) != CORRUPT_INDEX:
                raise
            return False

    def remake_index(self) -> None:
        self.run("INSERT INTO name_text (name_text) VALUES ('delete-all')")
        self.run("DELETE FROM known_name")
        self.run("INSERT INTO known_name (name) SELECT DISTINCT name FROM by_name")

    def has_table(self, name: str) -> bool:
        return bool(self.run("SELECT 1 FROM sqlite_master WHERE type = 'table' AND name = ?", (name,)))

    def close(self) -> None:
        self._base.close()


class PostgresBase(Base):
    """A catalogue on a server. The URL may name several hosts, of which the one that takes writes is used."""

    engine, text, blob, serial = "postgresql", 'TEXT COLLATE "C"', "BYTEA", "BIGINT GENERATED BY DEFAULT AS IDENTITY PRIMARY KEY"
    for_share = " FOR SHARE OF file"

    def __init__(self, url: str):
        self.url = url
        self._base = connect(url)
        self._base.autocommit = True

    def _cursor(self, statement: str, values: Sequence[Any]) -> Any:
        import psycopg

        try:
            return self._base.execute(statement.replace("?", "%s"), values)
        except psycopg.Error as error:
            raise trouble(error) from error

    def run(self, statement: str, values: Sequence[Any] = ()) -> List[Row]:
        cursor = self._cursor(statement, values)
        rows: List[Row] = cursor.fetchall() if cursor.description else []
        return rows

    def many(self, statement: str, rows: Sequence[Sequence[Any]]) -> None:
        import psycopg

        try:
            with self._base.cursor() as cursor:
                cursor.executemany(statement.replace("?", "%s"), rows)
        except psycopg.Error as error:
            raise trouble(error) from error

    def stream(self, statement: str, values: Sequence[Any] = ()) -> Iterator[Row]:
        import psycopg

        try:
            with self._base.transaction(), self._base.cursor(name="answer") as cursor:
                cursor.itersize = FETCHED
                cursor.execute(statement.replace("?", "%s"), values)
                yield from cursor
        except psycopg.Error as error:
            raise trouble(error) from error

    @contextmanager
    def transaction(self) -> Iterator[None]:
        import psycopg

        try:
            with self._base.transaction():
                yield
        except psycopg.Error as error:
            raise trouble(error) from error

    def remake_index(self) -> None:
        self.run("REINDEX INDEX file_trigrams")

    def has_table(self, name: str) -> bool:
        found = "SELECT 1 FROM information_schema.tables WHERE table_schema = current_schema() AND table_name = ?"
        return bool(self.run(found, (name,)))

    def close(self) -> None:
        self._base.close()


CONNECTION_DEFAULTS: Dict[str, Any] = {
    "target_session_attrs": "read-write", "connect_timeout": 10, "keepalives": 1, "keepalives_idle": 10, "keepalives_interval": 5, "keepalives_count": 4,
    "tcp_user_timeout": 30_000,
}
"""How connections are made, where the URL does not say it otherwise: a server of which nothing comes ends a run within a minute."""


def connect(url: str) -> Any:
    """A connection to a server. Its driver is asked for here alone."""
    try:
        import psycopg
    except ImportError as error:
        raise CatalogueError("a catalogue on PostgreSQL needs the driver psycopg 3 (Debian: python3-psycopg)") from error
    words = {name: value for name, value in CONNECTION_DEFAULTS.items() if f"{name}=" not in url}
    try:
        connection = psycopg.connect(url, application_name="udfburn-archive", **words)
        # Whatever the server's default is: a claim is on a row that may have come after its transaction began.
        connection.isolation_level = psycopg.IsolationLevel.READ_COMMITTED
        return connection
    except psycopg.Error as error:
        raise trouble(error) from error


def trouble(error: Exception) -> CatalogueError:
    """What an error of the server's means."""
    import psycopg

    told = without_password(" ".join(str(error).split()))
    if EXTENSION in told:
        return CatalogueError(f"the catalogue: {told}: it needs PostgreSQL's extension {EXTENSION}: the owner of the database runs 'CREATE EXTENSION {EXTENSION}'")
    if isinstance(error, (psycopg.OperationalError, psycopg.InterfaceError)):
        return CatalogueLost(f"the catalogue cannot be reached or was lost: {told}: run the command again when it is there")
    return CatalogueError(f"the catalogue: {told}")


def open_base(sqlite: Optional[str], url: str, make: bool, mode: int = 0o600) -> Base:
    """The engine of a catalogue."""
    return PostgresBase(url) if sqlite is None else SqliteBase(sqlite, make, mode)


__all__ = ["Base", "Iterable", "PostgresBase", "Range", "Row", "SqliteBase", "connect", "open_base", "trouble"]
