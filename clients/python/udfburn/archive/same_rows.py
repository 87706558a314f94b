"""The lines of a catalogue: files whose bytes another file of the archive has, by the texts on volumes that say so."""

from __future__ import annotations

from typing import TYPE_CHECKING, Dict, Iterable, Iterator, List, NamedTuple, Sequence, Set, Tuple

from ..protocol import Path
from ..protocol.units import Commit, Moment, Size
from .base import Base, Row
from .held import BYTES, COUNT, ColumnTypes, Held, below, folder_back, folder_text, is_whole, require_types, volume_and_commit
from .names import kept_name, name_back
from .schema import COMMITS

if TYPE_CHECKING:
    from .catalogue import Catalogue

IDS_ASKED = 500
"""Ids that one statement asks for."""

LINE = """same.name, same.volume, same.commit_number, same.size, same.moment, same.sha256, same.added, same.target, same.target_path,
same.first_part, same.part_count, same.first_byte, there.id"""
THERE = """LEFT JOIN file AS there ON there.id = same.target AND CASE WHEN same.first_byte IS NULL THEN there.size = same.size AND there.sha256 = same.sha256
ELSE there.size >= same.first_byte + same.size END"""
"""The file that a line names, or the bundle, where the catalogue has it."""

MEMBER = f"same.first_byte IS NOT NULL AND same.target = same.volume * {COMMITS} + same.commit_number"
"""What the row of a member of a bundle is, beside those of lines that name bytes in bundles."""

LINE_TYPES: ColumnTypes = (str, int, int, int, int, BYTES, int, int, str, COUNT, COUNT, COUNT, COUNT)
"""The types of the values of a row of lines."""

INSERT_LINE = """
INSERT INTO same (folder, name, volume, commit_number, size, moment, sha256, added, target, target_path, first_part, part_count, first_byte)
VALUES (?, ?, ?, ?, ?, ?, ?, ?, ?, ?, ?, ?, ?) ON CONFLICT (folder, name, volume, commit_number, target) DO UPDATE SET size = excluded.size,
moment = excluded.moment, sha256 = excluded.sha256, added = excluded.added, target_path = excluded.target_path,
first_part = excluded.first_part, part_count = excluded.part_count, first_byte = excluded.first_byte
"""


def line_row(folder: Path, row: Row) -> Held:
    """A row of lines."""
    require_types(row, LINE_TYPES)
    name, number, commit, size, moment, sha256, added, target, at, first, count, start, there = row
    path, place = (*folder, name_back(name)), volume_and_commit(int(target))
    held = Held(*place, path, Size(int(size)), Moment(int(moment)), bytes(sha256), Moment(int(added)), first, count)
    return held._replace(at=folder_back(at), noted=(int(number), Commit(int(commit))), there=there is not None, start=start)


# ---- kept

def insert_lines(catalogue: "Catalogue", rows: Sequence[Held]) -> None:
    """Keeps lines. Only inside a transaction."""
    folders = {text: catalogue.folder_id(text) for text in sorted({folder_text(row.path[:-1]) for row in rows})}
    catalogue.base.many(INSERT_LINE, [
        (
            folders[folder_text(row.path[:-1])], kept_name(row.path[-1]), *row.written(), row.size, row.moment, row.sha256, row.added, row.target(),
            folder_text(row.stored_as()), row.first, row.parts, row.start,
        )
        for row in rows
    ])
    catalogue.keep_names(rows)


def replace_lines(catalogue: "Catalogue", number: int, rows: Sequence[Held]) -> None:
    """Has these lines in the place of all that the catalogue had of a volume, as one. Lines that stay as they are are not written."""
    with catalogue.base.transaction():
        old = {held.key(): held._replace(there=True) for held in of_volume(catalogue.base, number)}
        new = {held.key(): held for held in rows}
        stale = [held for key, held in old.items() if new.get(key) != held]
        statement = "DELETE FROM same WHERE folder = (SELECT id FROM folder WHERE path = ?) AND name = ? AND volume = ? AND commit_number = ? AND target = ?"
        catalogue.base.many(statement, [(folder_text(held.path[:-1]), kept_name(held.path[-1]), *held.written(), held.target()) for held in stale])
        catalogue.forget_names(stale)
        insert_lines(catalogue, [held for key, held in new.items() if old.get(key) != held])


# ---- looked up

def lines_in_folder(base: Base, path: Path) -> List[Held]:
    """The lines of a folder."""
    rows = base.run(f"SELECT {LINE} FROM folder JOIN same ON same.folder = folder.id {THERE} WHERE folder.path = ?", (folder_text(path),))
    return [line_row(path, row) for row in rows]


def lines_of_path(base: Base, path: Path) -> List[Held]:
    """The lines of a path."""
    statement = f"SELECT {LINE} FROM folder JOIN same ON same.folder = folder.id {THERE} WHERE folder.path = ? AND same.name = ?"
    return [line_row(path[:-1], row) for row in base.run(statement, (folder_text(path[:-1]), kept_name(path[-1])))]


def of_volume(base: Base, number: int) -> List[Held]:
    """The lines that a volume has, in order of their commits."""
    statement = f"SELECT {LINE}, folder.path FROM same JOIN folder ON folder.id = same.folder {THERE} WHERE same.volume = ?"
    found = [line_row(folder_back(row[-1]), row[:-1]) for row in base.run(statement, (number,))]
    return sorted(found, key=lambda held: (held.written(), held.path, held.target()))


def last_added(base: Base, path: Path) -> Moment:
    """The latest moment at which a line at a path or below it was added; 0 where none was."""
    low, high = below(path)
    statement = """SELECT max(same.added) FROM folder JOIN same ON same.folder = folder.id
    WHERE folder.path = ? OR (folder.path >= ? AND folder.path < ?)"""
    return Moment(int(base.run(statement, (folder_text(path), low, high))[0][0] or 0))


def line_runs(base: Base) -> Iterator[Tuple[Moment, int, Commit]]:
    """The moments of the runs that wrote lines, with the volume and the commit of the first of each."""
    for added, id in base.run(f"SELECT added, min(volume * {COMMITS} + commit_number) FROM same GROUP BY added, volume"):
        yield (Moment(int(added)), *volume_and_commit(int(id)))


def of_targets(base: Base, rows: Iterable[Held]) -> List[Held]:
    """The lines that name files of rows."""
    wanted = [row.target() for row in rows]
    found: List[Held] = []
    for at in range(0, len(wanted), IDS_ASKED):
        some = wanted[at : at + IDS_ASKED]
        statement = f"SELECT {LINE}, folder.path FROM same JOIN folder ON folder.id = same.folder {THERE} WHERE same.target IN ({', '.join('?' * len(some))})"
        found += [line_row(folder_back(row[-1]), row[:-1]) for row in base.run(statement, some)]
    return found


def count_named(base: Base, number: int) -> int:
    """How many files have lines that name bytes of a volume; the members of its bundles are its own files."""
    values = (number * COMMITS, (number + 1) * COMMITS)
    statement = f"SELECT DISTINCT folder, name FROM same WHERE target >= ? AND target < ? AND NOT ({MEMBER})"
    return int(base.run(f"SELECT count(*) FROM ({statement}) AS named", values)[0][0])


def count_members(base: Base, number: int) -> int:
    """How many files the bundles of a volume have."""
    return int(base.run(f"SELECT count(*) FROM same WHERE volume = ? AND {MEMBER}", (number,))[0][0])


def has_member(base: Base, size: int) -> bool:
    """Whether a bundle has a file of so many bytes."""
    return bool(base.run("SELECT 1 FROM same WHERE first_byte IS NOT NULL AND size = ? LIMIT 1", (size,)))


def members_with(base: Base, size: int, sha256: bytes, most: int) -> List[Held]:
    """Members of bundles that have these bytes, so many at most, the first that were stored first."""
    statement = f"""SELECT {LINE}, folder.path FROM same JOIN folder ON folder.id = same.folder {THERE}
    WHERE same.size = ? AND substr(same.sha256, 1, 8) = ? AND same.sha256 = ? AND {MEMBER} ORDER BY same.target LIMIT {most}"""
    rows = base.run(statement, (size, sha256[:8], sha256))
    return [held for held in (line_row(folder_back(row[-1]), row[:-1]) for row in rows) if held.there]


def kept_files(base: Base, ids: Set[int]) -> Set[int]:
    """Those of some files that the catalogue has on volumes that count. Only inside a transaction, in which nobody removes them."""
    found: Set[int] = set()
    wanted = sorted(ids)
    for at in range(0, len(wanted), IDS_ASKED):
        some = wanted[at : at + IDS_ASKED]
        statement = f"""SELECT file.id FROM file JOIN volume ON volume.number = file.id / {COMMITS}
        WHERE file.id IN ({', '.join('?' * len(some))}) AND volume.state <> 'retired' AND volume.trouble IS NULL{base.for_share}"""
        found |= {int(id) for (id,) in base.run(statement, some)}
    return found


class WithoutBytes(NamedTuple):
    """Files whose bytes are on no volume that counts: that on which they were, how many files there are, and the path of the first."""

    volume: int
    retired: bool
    files: int
    first: Path


def lacking(catalogue: "Catalogue") -> List[WithoutBytes]:
    """The files of lines that have no bytes, by the volumes that had them."""
    statement = f"""SELECT {LINE}, folder.path FROM same JOIN folder ON folder.id = same.folder {THERE}
    LEFT JOIN volume ON volume.number = same.target / {COMMITS} WHERE there.id IS NULL OR volume.state = 'retired' AND NOT ({MEMBER})"""
    retired = {int(number) for (number,) in catalogue.base.run("SELECT number FROM volume WHERE state = 'retired'")}
    found: Dict[int, Set[Path]] = {}
    for row in catalogue.base.run(statement):
        held = line_row(folder_back(row[-1]), row[:-1])
        if not has_stored_bytes(catalogue, held, retired):
            found.setdefault(held.volume, set()).add(held.path)
    return [WithoutBytes(number, number in retired, len(paths), min(paths)) for number, paths in sorted(found.items())]


def has_stored_bytes(catalogue: "Catalogue", held: Held, retired: Set[int]) -> bool:
    """Whether a version has a row whose bytes are on a volume that counts."""
    rows = [row for row in catalogue.of_path(held.path) if row.version() == held.version() and row.there and row.volume not in retired]
    return bool(rows) and is_whole(rows)


__all__ = [
    "WithoutBytes", "count_members", "count_named", "has_member", "insert_lines", "kept_files", "lacking", "last_added", "line_runs", "lines_in_folder", "lines_of_path",
    "members_with", "of_targets", "of_volume", "replace_lines",
]
