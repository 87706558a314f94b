"""The catalogue: which file is where. It is never the truth: the volumes are, and it can be made again from them.

A version of a file is one row a volume that has bytes of it: one row for nearly all, more where its parts are on several
volumes. A row's id is `volume * COMMITS + commit`, by the commit that wrote the file, so volumes alone give the same ids.
"""

from __future__ import annotations

import socket
import uuid
from typing import Dict, Iterator, List, NamedTuple, Optional, Sequence, Tuple

from ..base.beneath import is_own, is_there
from ..protocol import Path
from ..protocol.units import Commit, Moment, Size
from . import same_rows
from .base import Base, Row, open_base
from .config import Config
from .errors import CatalogueError
from .held import (
    BYTES, COUNT, ColumnTypes, Held, as_of, below, folder_back, folder_text, has_all, held_row, is_whole, mebibytes_of, order, require_types, versions,
    volume_and_commit,
)
from .names import is_bundle, kept_name, name_back
from .schema import CATALOGUE_VERSION, COMMITS, LISTED, upgrade_statements

STATE_OPEN, STATE_FULL, STATE_CLOSING, STATE_CLOSED, STATE_NEW, STATE_RETIRED = "open", "full", "closing", "closed", "new", "retired"
"""The states of a volume. A new one has its number and maybe no image yet. A retired one is a closed one that nobody is asked for any more."""

FOLDERS_KNOWN = 100_000
"""Ids of folders that are remembered, at most."""


class VolumeRow(NamedTuple):
    """What the catalogue keeps of a volume."""

    number: int
    label: str
    state: str
    holder: str
    capacity: int
    formatted: Moment
    closed: Optional[Moment] = None
    last_commit: Commit = Commit(0)
    files: int = 0
    nodes: int = 1
    blocks: int = 0
    clients: int = 0
    manifest: int = 0
    fullest_folder: int = 0
    length: Optional[Size] = None
    sha256: Optional[bytes] = None
    checked: Optional[Moment] = None
    data_checked: Optional[Moment] = None
    trouble: Optional[str] = None


DISC = "disc:"
"""How the catalogue's word for a disc begins, before its name."""

DISC_NAME = 40
"""Letters of a disc's name: it is written by hand."""


def is_disc_name(name: str) -> bool:
    """Whether a disc can have a name."""
    return 0 < len(name) <= DISC_NAME and name.isprintable() and name == name.strip()


class Copy(NamedTuple):
    """A copy of a closed volume, on a remote or on a disc, and what was wrong with it when it was last looked at."""

    volume: int
    remote: str
    made: Moment
    checked: Moment
    trouble: Optional[str]

    def disc(self) -> Optional[str]:
        """The name of the disc; None for a copy on a remote."""
        return self.remote[len(DISC) :] if self.remote.startswith(DISC) else None


VOLUME = ", ".join(VolumeRow._fields)
VOLUME_TYPES: ColumnTypes = (
    int, str, str, str, int, int, COUNT, int, int, int, int, int, int, int, COUNT, (*BYTES, type(None)), COUNT, COUNT, (str, type(None)),
)
"""The types of the values of a row of volumes."""

KEPT_VOLUME = f"""
INSERT INTO volume ({VOLUME}) VALUES ({", ".join("?" * len(VolumeRow._fields))}) ON CONFLICT (number) DO UPDATE SET
{", ".join(f"{name} = excluded.{name}" for name in VolumeRow._fields[1:])}
"""
KEPT_FILE = """
INSERT INTO file (id, folder, name, size, moment, sha256, added, first_part, part_count) VALUES (?, ?, ?, ?, ?, ?, ?, ?, ?)
ON CONFLICT (id) DO UPDATE SET folder = excluded.folder, name = excluded.name, size = excluded.size, moment = excluded.moment,
sha256 = excluded.sha256, added = excluded.added, first_part = excluded.first_part, part_count = excluded.part_count
"""
KEPT_NAME = """
INSERT INTO {table} ({column}, path, id, part_count) VALUES (?, ?, ?, ?)
ON CONFLICT ({column}, path, id) DO UPDATE SET part_count = excluded.part_count
"""
NAME_TABLES = (("by_name", "name"), ("by_ending", "ending"))
"""The tables of names, and the column by which each is sorted: the name, and the name from its end."""
FILE_COLUMNS = "file.id, file.name, file.size, file.moment, file.sha256, file.added, file.first_part, file.part_count"


class Catalogue:
    """An open catalogue of an archive."""

    def __init__(self, config: Config, make: bool = False):
        self.config = config
        self.base: Base = open_base(config.sqlite(), config.catalogue, make, config.mode)
        self._folders: Dict[str, int] = {}
        try:
            self._open(make)
        except BaseException:
            self.base.close()
            raise

    def __enter__(self) -> "Catalogue":
        return self

    def __exit__(self, *_: object) -> None:
        self.base.close()

    # ---- tables

    def _open(self, make: bool) -> None:
        """Sees that the tables are those of this archive, and of a version that this program knows."""
        version = self._version()
        if version is None and not make:
            raise CatalogueError("the catalogue has no tables of an archive: 'udfburn-archive rebuild' makes them from the volumes")
        if version is not None and version > CATALOGUE_VERSION:
            raise CatalogueError(f"the catalogue has version {version}, and this program reads up to {CATALOGUE_VERSION}: use a newer program")
        if version is None or version < CATALOGUE_VERSION:
            self._migrate()
        self.id, label = self.base.run("SELECT id, label FROM archive")[0]
        if label != self.config.label:
            raise CatalogueError(f"the catalogue belongs to the archive {label}, but {self.config.path('archive.toml')} says {self.config.label}")
        if make:
            self._register()

    def _version(self) -> Optional[int]:
        """The version of the tables; None where there are none."""
        if not self.base.has_table("archive"):
            for name in ("file", "volume", "folder", "copy", "holder"):
                if self.base.has_table(name):
                    raise CatalogueError(f"the database has a table {name} of another program: give the archive a database of its own")
            return None
        try:
            rows = self.base.run("SELECT version FROM archive")
        except CatalogueError as error:
            raise CatalogueError(f"the database has a table 'archive' of another program ({error})") from error
        if len(rows) != 1:
            raise CatalogueError(f"the catalogue has {len(rows)} archives instead of one")
        return int(rows[0][0])

    def _migrate(self) -> None:
        """Makes this program's tables, or brings those of an older version up to it: all at once, or nothing of it."""
        try:
            with self.base.transaction():
                version = self._version() or 0
                for statement in upgrade_statements(self.base.engine, version, self.base.text, self.base.blob, self.base.serial) if version < CATALOGUE_VERSION else ():
                    self.base.run(statement)
                if not version:
                    values = (str(uuid.uuid4()), CATALOGUE_VERSION, self.config.label, 1)
                    self.base.run("INSERT INTO archive (id, version, label, next_volume) VALUES (?, ?, ?, ?)", values)
                self.base.run("UPDATE archive SET version = ?", (CATALOGUE_VERSION,))
        except CatalogueError:
            # Another process may have made them meanwhile.
            if self._version() != CATALOGUE_VERSION:
                raise

    def _register(self) -> None:
        """Keeps who this archive's folder is."""
        statement = "INSERT INTO holder (id, host, place) VALUES (?, ?, ?) ON CONFLICT (id) DO UPDATE SET host = excluded.host, place = excluded.place"
        self.base.run(statement, (self.config.id, socket.gethostname(), kept_name(self.config.folder)))

    def holders(self) -> Dict[str, str]:
        """Each archive's folder: its host and its path, by its id."""
        return {id: f"{host}:{name_back(place)}" for id, host, place in self.base.run("SELECT id, host, place FROM holder")}

    def is_here(self, volume: VolumeRow) -> bool:
        """Whether this folder of the archive has a volume, by its id now or by the one of an `archive.toml` that was lost."""
        holders = self.holders()
        return volume.holder == self.config.id or holders.get(volume.holder, "") == holders.get(self.config.id)

    # ---- volumes

    def new_number(self) -> int:
        """The number of a new volume, which nobody else gets. Only inside a transaction."""
        self.base.run("UPDATE archive SET next_volume = next_volume + 1")
        return int(self.base.run("SELECT next_volume FROM archive")[0][0]) - 1

    def keep_numbers_above(self, number: int) -> None:
        """Sees that new volumes get numbers above one that exists."""
        self.base.run("UPDATE archive SET next_volume = ? WHERE next_volume <= ?", (number + 1, number))

    def save(self, volume: VolumeRow) -> None:
        """Keeps what is known of a volume."""
        self.base.run(KEPT_VOLUME, tuple(volume))

    def volumes(self) -> List[VolumeRow]:
        """All volumes, by their numbers."""
        return [volume_row(row) for row in self.base.run(f"SELECT {VOLUME} FROM volume ORDER BY number")]

    def volume(self, number: int) -> Optional[VolumeRow]:
        """A volume, by its number."""
        rows = self.base.run(f"SELECT {VOLUME} FROM volume WHERE number = ?", (number,))
        return volume_row(rows[0]) if rows else None

    def on_remotes(self, number: int) -> List[Copy]:
        """The copies of a volume that a program can ask for, which discs are not."""
        return [copy for copy in self.copies(number) if copy.disc() is None]

    def copies(self, number: Optional[int] = None) -> List[Copy]:
        """The copies of a volume, or of all."""
        where, values = ("WHERE volume = ?", (number,)) if number is not None else ("", ())
        return [Copy(*row) for row in self.base.run(f"SELECT volume, remote, made, checked, trouble FROM copy {where} ORDER BY volume, remote", values)]

    def save_copy(self, copy: Copy) -> None:
        """Keeps what is known of a copy."""
        statement = """INSERT INTO copy (volume, remote, made, checked, trouble) VALUES (?, ?, ?, ?, ?) ON CONFLICT (volume, remote)
        DO UPDATE SET made = excluded.made, checked = excluded.checked, trouble = excluded.trouble"""
        self.base.run(statement, tuple(copy))

    def forget_copies(self, remote: str) -> None:
        """Keeps nothing of the copies on a remote."""
        for table in ("copy", "open_copy"):
            self.base.run(f"DELETE FROM {table} WHERE remote = ?", (remote,))

    def put_away(self) -> Dict[int, str]:
        """Where the user has put images away, by the numbers of their volumes."""
        return {int(number): str(place) for number, place in self.base.run("SELECT volume, place FROM put_away")}

    def save_place(self, number: int, place: Optional[str], since: int) -> None:
        """Keeps where the image of a volume is, or that nobody knows."""
        with self.base.transaction():
            self.base.run("DELETE FROM put_away WHERE volume = ?", (number,))
            if place is not None:
                self.base.run("INSERT INTO put_away (volume, place, since) VALUES (?, ?, ?)", (number, place, since))

    # ---- files

    def add(self, volume: VolumeRow, rows: Sequence[Held]) -> None:
        """Keeps files of a volume, bundles with their members, and what is known of it after them, as one."""
        with self.base.transaction():
            self._insert([row for row in rows if row.noted is None])
            same_rows.insert_lines(self, [row for row in rows if row.noted is not None])
            self.save(volume)

    def replace(self, volume: VolumeRow, rows: Sequence[Held]) -> None:
        """Has these files in the place of all that the catalogue had of a volume, as one. Rows that stay as they are are not written."""
        with self.base.transaction():
            old = {held.id(): held for held in self.of_volume(volume.number)}
            new = {held.id(): held for held in rows}
            self._delete([held for id, held in old.items() if new.get(id) != held])
            self._insert([held for id, held in new.items() if old.get(id) != held])
            self.keep_numbers_above(volume.number)
            self.save(volume)

    def _insert(self, rows: Sequence[Held]) -> None:
        # Sorted, so that two processes that make the same folders make them in one order, and none waits for the other.
        folders = {text: self.folder_id(text) for text in sorted({folder_text(row.path[:-1]) for row in rows})}
        kept = []
        for row in rows:
            folder = folders[folder_text(row.path[:-1])]
            kept.append((row.id(), folder, kept_name(row.path[-1]), row.size, row.moment, row.sha256, row.added, row.first, row.parts))
        self.base.many(KEPT_FILE, kept)
        self.keep_names(rows)

    def keep_names(self, rows: Sequence[Held]) -> None:
        """Keeps names that no file has yet for the index, and then those of the files. Only inside a transaction."""
        if not self.base.has_names:
            return
        rows = [row for row in rows if not is_bundle(row.path[-1])]
        new = "INSERT INTO known_name (name) SELECT ? WHERE NOT EXISTS (SELECT 1 FROM by_name WHERE name = ?)"
        self.base.many(new, [(name, name) for name in sorted({kept_name(row.path[-1]) for row in rows})])
        for table, column in NAME_TABLES:
            self.base.many(KEPT_NAME.format(table=table, column=column), sorted((*name_key(column, row), parts_of_name(row)) for row in rows))

    def _delete(self, rows: Sequence[Held]) -> None:
        self.base.many("DELETE FROM file WHERE id = ?", [(row.id(),) for row in rows])
        self.forget_names(rows)

    def forget_names(self, rows: Sequence[Held]) -> None:
        """Keeps no names of files. Only inside a transaction."""
        for table, column in NAME_TABLES if self.base.has_names else ():
            self.base.many(f"DELETE FROM {table} WHERE {column} = ? AND path = ? AND id = ?", [name_key(column, row) for row in rows])

    def mend_index(self) -> None:
        """Makes the index of text inside names again if it is damaged: nothing could be added."""
        with self.base.transaction():
            if not self.base.has_whole_index():
                self.base.remake_index()

    def mend_names(self) -> int:
        """Has the tables of names agree with the files, and makes the index of text inside names again; gives how many rows did not agree."""
        with self.base.transaction():
            mended = sum(self._mend(table, column) for table, column in NAME_TABLES if self.base.has_names)
            self.base.remake_index()
        return mended

    def _mend(self, table: str, column: str) -> int:
        name, back = ("name", "one.name") if column == "name" else ("reverse(name)", "reverse(one.ending)")
        files = f"""SELECT {name} AS {column}, path, file.id AS id, part_count FROM folder JOIN file ON file.folder = folder.id AND {LISTED}
        UNION ALL SELECT DISTINCT {name}, path, -(volume * {COMMITS} + commit_number), part_count * 0 FROM folder JOIN same ON same.folder = folder.id"""
        same = " AND ".join(f"one.{field} IS other.{field}" for field in (column, "path", "id", "part_count"))
        stale = f"""FROM {table} AS one WHERE NOT EXISTS (SELECT 1 FROM file JOIN folder ON folder.id = file.folder
        WHERE file.id = one.id AND {name} = one.{column} AND path = one.path AND part_count IS one.part_count AND {LISTED})
        AND NOT EXISTS (SELECT 1 FROM folder JOIN same ON same.folder = folder.id WHERE folder.path = one.path AND same.name = {back}
        AND one.id < 0 AND volume * {COMMITS} + commit_number = -one.id AND part_count * 0 IS one.part_count)"""
        missing = f"FROM ({files}) AS one WHERE NOT EXISTS (SELECT 1 FROM {table} AS other WHERE {same})"
        found = [int(self.base.run(f"SELECT count(*) {what}")[0][0]) for what in (stale, missing)]
        if any(found):
            self.base.run(f"DELETE {stale}")
            self.base.run(f"INSERT INTO {table} SELECT * {missing}")
        return max(found)

    def folder_id(self, text: str) -> int:
        """The id of a folder, which is made where it is missing."""
        if text not in self._folders:
            if len(self._folders) >= FOLDERS_KNOWN:
                self._folders.clear()
            found = self.base.run("SELECT id FROM folder WHERE path = ?", (text,))
            if not found:
                self.base.run("INSERT INTO folder (path) VALUES (?) ON CONFLICT DO NOTHING", (text,))
                # Of a transaction that is undone the folder is gone, so its id is not remembered.
                return int(self.base.run("SELECT id FROM folder WHERE path = ?", (text,))[0][0])
            self._folders[text] = int(found[0][0])
        return self._folders[text]

    def in_folder(self, path: Path) -> Dict[str, List[Held]]:
        """The rows of each name in a folder, the newest first."""
        statement = f"SELECT {FILE_COLUMNS} FROM file JOIN folder ON folder.id = file.folder WHERE folder.path = ? AND {LISTED}"
        found: Dict[str, List[Held]] = {}
        for row in self.base.run(statement, (folder_text(path),)):
            held = held_row(path, row)
            found.setdefault(held.path[-1], []).append(held)
        for held in same_rows.lines_in_folder(self.base, path):
            found.setdefault(held.path[-1], []).append(held)
        for rows in found.values():
            rows.sort(key=order, reverse=True)
        return found

    def of_path(self, path: Path) -> List[Held]:
        """The rows of a path, the newest first."""
        if not path:
            return []
        folder, name = folder_text(path[:-1]), kept_name(path[-1])
        statement = f"""SELECT {FILE_COLUMNS} FROM folder JOIN file ON file.folder = folder.id WHERE folder.path = ?
        AND file.id IN (SELECT id FROM by_name WHERE name = ? AND path = ?)"""
        rows = [held_row(path[:-1], row) for row in self.base.run(statement, (folder, name, folder))]
        return sorted(rows + same_rows.lines_of_path(self.base, path), key=order, reverse=True)

    def last_added(self, path: Path) -> Moment:
        """The latest moment at which something at a path or below it was added; 0 where nothing was."""
        held = max((row.added for row in self.of_path(path)), default=Moment(0))
        low, high = below(path)
        statement = """SELECT max(file.added) FROM folder JOIN file ON file.folder = folder.id
        WHERE folder.path = ? OR (folder.path >= ? AND folder.path < ?)"""
        found = self.base.run(statement, (folder_text(path), low, high))
        return max(held, Moment(int(found[0][0] or 0)), same_rows.last_added(self.base, path))

    def of_volume(self, number: int) -> List[Held]:
        """The rows of the files and bundles that a volume has, in order of their commits."""
        statement = f"""SELECT {FILE_COLUMNS}, folder.path FROM file JOIN folder ON folder.id = file.folder
        WHERE file.id >= ? AND file.id < ? ORDER BY file.id"""
        values = (number * COMMITS, (number + 1) * COMMITS)
        return [held_row(folder_back(row[-1]), row[:-1]) for row in self.base.run(statement, values)]

    def folders_below(self, path: Path) -> Iterator[Path]:
        """A folder and those below it that have files, in order of their paths."""
        statement = "SELECT path FROM folder WHERE path = ? OR (path >= ? AND path < ?) ORDER BY path"
        for (found,) in self.base.run(statement, (folder_text(path), *below(path))):
            yield folder_back(found)

    def children(self, path: Path) -> Iterator[str]:
        """The names of the folders in a folder, each once. What is below one of them is passed by."""
        text = folder_text(path) + "/"
        low, high, than = text, text[:-1] + "0", ">"
        seen: Dict[str, None] = {}
        while True:
            found = self.base.run(f"SELECT path FROM folder WHERE path {than} ? AND path < ? ORDER BY path LIMIT 1", (low, high))
            if not found:
                return
            name = str(found[0][0])[len(text) :].split("/")[0]
            if name not in seen:
                seen[name] = None
                yield name_back(name)
            # Other names may come between a folder and what is below it, as `a b` does.
            low, than = (text + name, ">") if found[0][0] == text + name else (text + name + "0", ">=")


def name_key(column: str, row: Held) -> Tuple[str, str, int]:
    """The key of a file in a table of names."""
    name = kept_name(row.path[-1])
    return name if column == "name" else name[::-1], folder_text(row.path[:-1]), row.id()


def parts_of_name(row: Held) -> Optional[int]:
    """The count of parts in a table of names. Of the rows of a line it says only that there are parts."""
    return row.parts if row.noted is None else None if row.parts is None else 0


def volume_row(row: Row) -> VolumeRow:
    """A row of volumes."""
    require_types(row, VOLUME_TYPES)
    found = VolumeRow(*row)
    return found._replace(sha256=None if found.sha256 is None else bytes(found.sha256))


def image_of(config: Config, row: VolumeRow) -> Optional[str]:
    """The image of a volume, where it is at hand."""
    for folder in ("closed", "open") if row.state in (STATE_CLOSED, STATE_RETIRED) else ("open", "closed"):
        image = config.path(folder, row.label + ".img")
        if is_own(image):
            return image
    return None


def odd_image(config: Config, row: VolumeRow) -> Optional[str]:
    """What has the name of a closed image and is no regular file, as a link or a named pipe: it is not read."""
    image = config.path("closed", row.label + ".img")
    return image if row.state == STATE_CLOSED and is_there(image) and not is_own(image) else None


__all__ = [
    "Catalogue", "Copy", "DISC", "DISC_NAME", "Held", "STATE_CLOSED", "STATE_CLOSING", "STATE_FULL", "STATE_NEW", "STATE_OPEN", "STATE_RETIRED", "VolumeRow", "as_of", "below", "folder_back",
    "folder_text", "has_all", "held_row", "image_of", "is_disc_name", "is_whole", "mebibytes_of", "odd_image", "versions", "volume_and_commit",
]
