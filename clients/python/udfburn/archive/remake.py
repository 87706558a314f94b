"""A catalogue in SQLite that is lost or damaged: it is put aside, and never deleted, and what can still be read of its copies and dates is
taken over. The files come from the volumes."""

from __future__ import annotations

import atexit
import os
import sqlite3
import time
from contextlib import closing, suppress
from shutil import rmtree
from tempfile import mkdtemp
from typing import Any, Dict, Iterator, List, NamedTuple, Optional, Sequence, Tuple

from ..base.beneath import is_there
from ..base.own_files import move
from ..local.sources import shown
from ..protocol import limits
from .base import SqliteBase
from .catalogue import STATE_CLOSED, STATE_CLOSING, STATE_FULL, STATE_NEW, STATE_OPEN, STATE_RETIRED, VOLUME, Catalogue, Copy, VolumeRow, is_disc_name
from .config import LOCAL, Config, check_remote, volume_label
from .contents import ARCHIVE, SIZE
from .errors import BadConfig, CatalogueError
from .schema import CATALOGUE_VERSION, NUMBERS
from .tell import Tell

PERM, BUSY, LOCKED, NOMEM, READONLY, INTERRUPT, IOERR, FULL_DISK, CANTOPEN = 3, 5, 6, 7, 8, 9, 10, 13, 14
TROUBLES = (PERM, BUSY, LOCKED, NOMEM, INTERRUPT, IOERR, FULL_DISK, CANTOPEN)
"""The errors of SQLite that say nothing about the file itself: the disk, the memory, another process."""

VOLUME_STATES = (STATE_NEW, STATE_OPEN, STATE_FULL, STATE_CLOSING, STATE_CLOSED, STATE_RETIRED)

INTEGERS = ("folder", "id", "size", "moment", "added")
ODD_FILES = " OR ".join(
    [f"typeof({name}) <> 'integer'" for name in INTEGERS] + ["id < 0", "size < 0", "typeof(name) <> 'text'", "typeof(sha256) <> 'blob'", "length(sha256) <> 32"]
    + [f"typeof({name}) NOT IN ('integer', 'null')" for name in ("first_part", "part_count")]
)
"""What no row of a file is, by the values that SQLite keeps."""

ODD_EVENTS = " OR ".join([f"typeof({name}) <> 'integer'" for name in ("folder", "volume", "commit_number", "since", "back")] + ["typeof(name) <> 'text'"])
"""What no row of a deletion is."""


ODD_LINES = " OR ".join(
    [f"typeof({name}) <> 'integer'" for name in ("folder", "volume", "commit_number", "size", "moment", "added", "target")]
    + ["volume < 0", "size < 0", "target < 0", "typeof(sha256) <> 'blob'", "length(sha256) <> 32", "typeof(name) <> 'text'", "typeof(target_path) <> 'text'"]
    + [f"typeof({name}) NOT IN ('integer', 'null')" for name in ("first_part", "part_count", "first_byte")] + ["first_byte < 0"]
)
"""What no row of a line or of a member of a bundle is."""

ODD_SEEN = " OR ".join(
    [f"typeof({name}) <> 'integer'" for name in ("volume", "last_commit", "length", "seen")] + ["typeof(remote) <> 'text'", f"seen NOT BETWEEN 0 AND {limits.MOMENT}"]
)
"""What no row of a copy of an open volume is."""


class KeptCatalogue(NamedTuple):
    """What could still be read of a catalogue that was put aside."""

    volumes: Dict[int, VolumeRow]
    copies: List[Copy]
    archive: Optional[str]
    aside: str


NO_CATALOGUE = KeptCatalogue({}, [], None, "")


# ---- what a row may be

def is_count(value: Any, most: int = SIZE) -> bool:
    return isinstance(value, int) and 0 <= value <= most


def is_volume(config: Config, row: VolumeRow) -> bool:
    """Whether a row may be one of a volume: each value has its type, and is within its limit."""
    counts = (
        row.last_commit, row.files, row.nodes, row.blocks, row.clients, row.manifest, row.fullest_folder, row.closed or 0, row.length or 0, row.checked or 0,
        row.data_checked or 0,
    )
    return (
        is_count(row.number, NUMBERS) and row.label == volume_label(config.label, row.number) and row.state in VOLUME_STATES and isinstance(row.holder, str)
        and is_count(row.capacity, limits.CAPACITY[1]) and is_count(row.formatted, limits.MOMENT) and all(map(is_count, counts))
        and (row.sha256 is None or isinstance(row.sha256, bytes) and len(row.sha256) == 32) and isinstance(row.trouble or "", str)
        and (row.state not in (STATE_CLOSED, STATE_RETIRED) or None not in (row.length, row.sha256, row.closed))
    )


def is_copy(copy: Copy) -> bool:
    """Whether a row may be one of a copy."""
    disc = copy.disc() if isinstance(copy.remote, str) else None
    try:
        named = isinstance(copy.remote, str) and (is_disc_name(disc) if disc is not None else check_remote(copy.remote) == copy.remote)
    except BadConfig:
        named = False
    return is_count(copy.volume, NUMBERS) and named and is_count(copy.made, limits.MOMENT) and is_count(copy.checked, limits.MOMENT) and isinstance(copy.trouble or "", str)


# ---- whether a catalogue is whole

def why_broken(config: Config, path: str) -> Optional[str]:
    """Why a file is no whole catalogue; None where it is one. Where it cannot be read now, as where the disk fails or another process has
    it, that is raised: it may well be whole."""
    try:
        with closing(SqliteBase(path, False)) as base:
            found = base.run("PRAGMA integrity_check(1)")
            return str(found[0][0]) if found != [("ok",)] else why_odd(config, base)
    except CatalogueError as error:
        code = getattr(error.__cause__, "sqlite_errorcode", None)
        # A damaged header may say that nothing can be written, where the system says that it can.
        writable = os.access(path, os.W_OK) and os.access(os.path.dirname(path), os.W_OK)
        if code is not None and (code & 0xFF in TROUBLES or code & 0xFF == READONLY and not writable):
            raise
        return str(error.__cause__ or error)
    except ValueError as error:
        return str(error)


def why_odd(config: Config, base: SqliteBase) -> Optional[str]:
    """Why rows are none of a catalogue, though SQLite can read each page."""
    if not base.has_table("archive"):
        return None
    rows = base.run("SELECT id, version, label, next_volume FROM archive")
    if len(rows) != 1 or not isinstance(rows[0][0], str) or not ARCHIVE.fullmatch(rows[0][0]) or not is_count(rows[0][1]) or not is_count(rows[0][3], NUMBERS + 1):
        return "its row of the archive is none"
    if rows[0][1] != CATALOGUE_VERSION or rows[0][2] != config.label:
        # What an older program made is converted; one of another archive is refused.
        return None if isinstance(rows[0][2], str) else "its row of the archive is none"
    for volume in base.run(f"SELECT {VOLUME} FROM volume"):
        if not is_volume(config, VolumeRow(*volume)):
            return f"a row of a volume is none: {str(volume[:3])[:80]}"
    for copy in base.run("SELECT volume, remote, made, checked, trouble FROM copy"):
        if not is_copy(Copy(*copy)):
            return f"a row of a copy is none: {str(copy[:2])[:80]}"
    if base.run(f"SELECT 1 FROM file WHERE {ODD_FILES} LIMIT 1") or base.run("SELECT 1 FROM folder WHERE typeof(path) <> 'text' LIMIT 1"):
        return "a row of a file or a folder is none"
    if base.run(f"SELECT 1 FROM gone WHERE {ODD_EVENTS} LIMIT 1"):
        return "a row of a deletion is none"
    if base.run(f"SELECT 1 FROM open_copy WHERE {ODD_SEEN} LIMIT 1"):
        return "a row of a copy of an open volume is none"
    if base.run(f"SELECT 1 FROM same WHERE {ODD_LINES} LIMIT 1"):
        return "a row of a file whose bytes are another's is none"
    # Each text has to be UTF-8. The index of names is made again if it is damaged, but it has to be one.
    for statement in ("SELECT id, host, place FROM holder", "SELECT name FROM file", "SELECT path FROM folder", "SELECT name FROM gone", "SELECT name, target_path FROM same", "SELECT remote FROM open_copy", "SELECT rowid FROM name_text LIMIT 1"):
        for _ in base.stream(statement):
            pass
    return None


# ---- put aside

def open_or_make(config: Config, tell: Tell) -> "Tuple[Catalogue, KeptCatalogue]":
    """The catalogue; a new one where it is lost. One that is damaged is put aside, with what can still be read of it."""
    path = config.sqlite()
    why = why_broken(config, path) if path is not None and os.path.isfile(path) else None
    if path is None or why is None:
        catalogue = Catalogue(config, make=True)
        catalogue.mend_index()
        return catalogue, NO_CATALOGUE
    # The user may keep it in a folder that a link leads to.
    path = os.path.join(os.path.realpath(os.path.dirname(path)), os.path.basename(path))
    aside = f"{path}.damaged-{time.time_ns()}"
    tell.note(f"{shown(path)}: is damaged ({why}); it is kept as {shown(aside)}", did="put aside", path=aside)
    for end in ("-wal", "-shm", ""):
        if is_there(path + end):
            move(path + end, aside + end)
    kept = read_kept(config, aside)
    catalogue = Catalogue(config, make=True)
    if kept.archive is not None:
        # The first volume that is read says another one, if this one was damaged.
        catalogue.base.run("UPDATE archive SET id = ?", (kept.archive,))
        catalogue.id = kept.archive
    return catalogue, kept


def open_to_compare(config: Config, tell: Tell) -> "Tuple[Catalogue, KeptCatalogue]":
    """The catalogue, for a run that changes nothing. In the place of one that is lost or damaged it is an empty one, which goes with this
    process."""
    path = config.sqlite()
    if path is None:
        return Catalogue(config), NO_CATALOGUE
    why = why_broken(config, path) if os.path.isfile(path) else "it is missing"
    if why is None:
        return Catalogue(config), NO_CATALOGUE
    tell.note(f"{shown(path)}: the catalogue cannot be used ({why}): the volumes are compared with an empty one", did="no catalogue", path=path)
    folder = os.path.realpath(mkdtemp())
    atexit.register(rmtree, folder, ignore_errors=True)
    return Catalogue(config._replace(catalogue=os.path.join(folder, LOCAL)), make=True), NO_CATALOGUE


def read_kept(config: Config, path: str) -> KeptCatalogue:
    """What can still be read of a damaged catalogue, by rows that may be rows."""
    volumes: Dict[int, VolumeRow] = {}
    copies: Dict[Tuple[int, str], Copy] = {}
    archive = None
    with suppress(sqlite3.Error, ValueError), closing(sqlite3.connect(f"file:{quoted_path(path)}?mode=ro", uri=True)) as base:
        base.text_factory = lambda data: data.decode(errors="surrogateescape")
        for row in rows_of(base, "archive", "id", "id"):
            if isinstance(row[0], str) and ARCHIVE.fullmatch(row[0]):
                archive = row[0]
        for row in rows_of(base, "volume", VOLUME, "number"):
            volume = VolumeRow(*row)
            if is_volume(config, volume) and is_clean(row):
                volumes[volume.number] = volume
        for row in rows_of(base, "copy", "volume, remote, made, checked, trouble", "volume, remote"):
            copy = Copy(*row)
            if is_copy(copy) and is_clean(row):
                copies[copy.volume, copy.remote] = copy
    return KeptCatalogue(volumes, list(copies.values()), archive, path)


def is_clean(row: Sequence[Any]) -> bool:
    """Whether all texts of a row are UTF-8."""
    return not any(isinstance(value, str) and not value.isprintable() for value in row)


def rows_of(base: sqlite3.Connection, table: str, columns: str, key: str) -> Iterator[Sequence[Any]]:
    """The rows of a table, from its beginning and from its end, each up to the first that cannot be read; then without its index."""
    order = key.replace(",", " DESC,") + " DESC"
    for statement in (f"SELECT {columns} FROM {table} ORDER BY {key}", f"SELECT {columns} FROM {table} ORDER BY {order}", f"SELECT {columns} FROM {table} NOT INDEXED"):
        # Messages of SQLite may have bytes of the file that are no text.
        with suppress(sqlite3.Error, ValueError, OverflowError):
            yield from base.execute(statement)


def quoted_path(path: str) -> str:
    """A path in a URI of SQLite."""
    from urllib.parse import quote

    return quote(os.fsencode(path))


__all__ = ["KeptCatalogue", "NO_CATALOGUE", "open_or_make", "open_to_compare", "why_broken"]
