"""A row of the catalogue, a version of a file or parts of one, and what several of them make together."""

from __future__ import annotations

from typing import Dict, Iterable, List, NamedTuple, Optional, Sequence, Tuple, Union

from ..base.manifest import PERCENT
from ..protocol import Path, limits
from ..protocol.units import Commit, Moment, Size
from .base import Row
from .errors import CatalogueError
from .names import kept_name, name_back
from .schema import COMMITS

ColumnTypes = Sequence[Union[type, Tuple[type, ...]]]
"""The types that the values of a row may have, column by column."""

COUNT = (int, type(None))
"""The types of a number that may be missing."""

BYTES = (bytes, memoryview)

HELD_TYPES: ColumnTypes = (int, str, int, int, BYTES, int, COUNT, COUNT)
"""The types of the values of a row of files."""


class Held(NamedTuple):
    """A row: a version of a file, or those of its parts that a volume has.

    `volume` and `commit` say where its bytes are. `size` has bytes, `moment` and `added` are in microseconds from 1970-01-01 UTC. Of a file
    in parts `first` is the first mebibyte that is here, and `parts` how many are; both are None where the file is whole.

    A file whose bytes the archive had already has a line on a volume in the place of its bytes: `noted` is the volume and the commit of the
    line, `at` the path that has the bytes, and `there` says whether the catalogue has that file. Where the bytes are in a bundle, `start` is
    the byte of it with which they begin. The line of a member of a bundle is in the bundle's own list, so `noted` is the bundle itself.
    """

    volume: int
    commit: Commit
    path: Path
    size: Size
    moment: Moment
    sha256: bytes
    added: Moment
    first: Optional[int] = None
    parts: Optional[int] = None
    at: Optional[Path] = None
    noted: Optional[Tuple[int, Commit]] = None
    there: bool = True
    start: Optional[int] = None

    def id(self) -> int:
        """The id of the row of a file; of a line a number below 0, which those of a text have in common."""
        return self.target() if self.noted is None else -(self.noted[0] * COMMITS + self.noted[1])

    def key(self) -> Tuple[object, ...]:
        """What no two rows of a volume have in common."""
        return (self.id(),) if self.noted is None else (self.id(), self.path, self.target())

    def target(self) -> int:
        """Which file of which volume has its bytes."""
        return self.volume * COMMITS + self.commit

    def written(self) -> Tuple[int, Commit]:
        """The volume and the commit that say that the archive has it."""
        return self.noted or (self.volume, self.commit)

    def is_member(self) -> bool:
        """Whether it was stored in a bundle, and is no line that names another file."""
        return self.start is not None and self.noted == (self.volume, self.commit)

    def stored_as(self) -> Path:
        """The path that has its bytes."""
        return self.path if self.at is None else self.at

    def version(self) -> Tuple[Path, Size, Moment, bytes]:
        """What distinguishes one version from another."""
        return self.path, self.size, self.moment, self.sha256


def below(path: Path) -> Tuple[str, str]:
    """The texts of all folders below one: from the first one on, and before the second one."""
    text = folder_text(path)
    return text + "/", text + "0" if text else "0"


def folder_text(path: Path) -> str:
    """A folder as the catalogue has it: the root is the empty text."""
    return "".join("/" + kept_name(name) for name in path)


def folder_back(text: str) -> Path:
    """The folder that the catalogue has, or the path that has the bytes of a line, which may be a bundle's: that has a slash in its name."""
    require_types((text,), (str,))
    above, slashes, bundle = text.partition("//")
    return tuple(name_back(name) for name in above.split("/")[1:]) + (("/" + bundle,) if slashes else ())


def path_line(path: Path) -> str:
    """A path in a text of this program's own, where it ends a line."""
    return folder_text(path).translate(PERCENT)


def line_path(text: str) -> Path:
    """The path that such a text has, or `ValueError`. Whoever made a volume wrote it."""
    names = text.split("/")[1:]
    if text[:1] != "/" or any(name in ("", ".", "..") or "\0" in name for name in names):
        raise ValueError(f"{text[:40]!r} names no path")
    return tuple(name_back(name.replace("%0D", "\r").replace("%0A", "\n").replace("%25", "%")) for name in names)


def volume_and_commit(id: int) -> Tuple[int, Commit]:
    """The number of the volume, and the commit, in the id of a row."""
    volume, commit = divmod(id, COMMITS)
    return volume, Commit(commit)


def require_types(row: Row, types: ColumnTypes) -> None:
    """Raises where a row has values of other types: SQLite keeps any, whoever wrote them."""
    if not all(isinstance(value, wanted) for value, wanted in zip(row, types)):
        raise CatalogueError(
            f"the catalogue has a row that is none of an archive, {str(tuple(row))[:80]}: 'udfburn-archive rebuild' makes it again from the volumes"
        )


def held_row(folder: Path, row: Row) -> Held:
    """A row of files."""
    require_types(row, HELD_TYPES)
    id, name, size, moment, sha256, added, first, count = row
    path = folder + (name_back(name),)
    return Held(*volume_and_commit(int(id)), path, Size(int(size)), Moment(int(moment)), bytes(sha256), Moment(int(added)), first, count)


def order(held: Held) -> Tuple[Moment, int]:
    """By which rows of one path are older or newer: when they were added, then by volume and commit."""
    return held.added, abs(held.id())


def versions(rows: Iterable[Held]) -> List[List[Held]]:
    """The versions of one path, the newest first, each with its rows in order of their parts. One that lacks parts is left out."""
    found: Dict[Tuple[Path, Size, Moment, bytes], List[Held]] = {}
    for row in rows:
        found.setdefault(row.version(), []).append(row)
    # A row of the file's own comes before a line.
    whole = [sorted(group, key=lambda row: (row.first or 0, row.noted is not None)) for group in found.values() if is_whole(group)]
    return sorted(whole, key=lambda group: max(map(order, group)), reverse=True)


def as_of(groups: Sequence[List[Held]], moment: Optional[Moment]) -> Optional[List[Held]]:
    """The newest version, or the newest that was there at a moment; with all its rows, since bytes that came later are the same."""
    if moment is None:
        return groups[0] if groups else None
    there = versions(row for group in groups for row in group if row.added <= moment)
    return next((group for group in groups if group[0].version() == there[0][0].version()), None) if there else None


def mebibytes_of(size: int) -> int:
    """The mebibytes of a file of this size, the last of which may have fewer bytes."""
    return -(-size // limits.FILE)


def has_all(rows: Sequence[Held], known: Sequence[Held]) -> bool:
    """Whether rows of a volume are there for all that are known of it, with the same bytes."""
    return {(held.key(), held.sha256) for held in known} <= {(held.key(), held.sha256) for held in rows}


def is_whole(group: Sequence[Held]) -> bool:
    """Whether rows of one version have all its parts, or one has the file as a whole."""
    if any(row.parts is None for row in group):
        return True
    have = 0
    for row in sorted(group, key=lambda row: (row.first or 0, -(row.parts or 0))):
        if (row.first or 0) > have:
            return False
        have = max(have, (row.first or 0) + (row.parts or 0))
    return have >= mebibytes_of(group[0].size)


__all__ = [
    "BYTES", "COUNT", "ColumnTypes", "Held", "as_of", "below", "folder_back", "folder_text", "has_all", "held_row", "is_whole", "line_path", "mebibytes_of", "order",
    "path_line", "require_types", "versions", "volume_and_commit",
]
