"""Which file of the archive has the same bytes as another one, by their count and their SHA-256."""

from __future__ import annotations

from typing import Container, Dict, List, Sequence, Set

from .catalogue import FILE_COLUMNS, STATE_RETIRED, Catalogue, image_of
from .config import Config
from .held import Held, folder_back, folder_text, held_row, is_whole
from .names import kept_name
from .same_rows import has_member, members_with
from .schema import COMMITS, LISTED
from .status import is_lost

ROWS_READ = 100
"""Rows with the same bytes that are looked at, at most."""


class Content:
    """The bytes that the archive has, by the catalogue."""

    def __init__(self, config: Config, catalogue: Catalogue):
        self.config, self.catalogue = config, catalogue
        self.refused: Container[int] = ()
        """Volumes that may be damaged."""
        self._counts: Dict[int, bool] = {}
        self._sizes: Set[int] = set()
        """Sizes that files of the archive have."""

    def has_size(self, size: int) -> bool:
        """Whether the archive has a file of so many bytes."""
        base = self.catalogue.base
        if size not in self._sizes and (base.run(f"SELECT 1 FROM file WHERE size = ? AND {LISTED} LIMIT 1", (size,)) or has_member(base, size)):
            self._sizes.add(size)
        return size in self._sizes

    def find(self, size: int, sha256: bytes) -> List[Held]:
        """The rows of a file that has these bytes, on volumes that count: one, or those of all its parts; none where there is no such file."""
        statement = f"""SELECT {FILE_COLUMNS}, folder.path FROM file JOIN folder ON folder.id = file.folder
        WHERE file.size = ? AND substr(file.sha256, 1, 8) = ? AND file.sha256 = ? AND {LISTED} ORDER BY file.id LIMIT {ROWS_READ}"""
        parts: Dict[object, List[Held]] = {}
        for row in self.catalogue.base.run(statement, (size, sha256[:8], sha256)):
            held = held_row(folder_back(row[-1]), row[:-1])
            if not self.counts(held.volume):
                continue
            if held.parts is None:
                return [held]
            parts.setdefault(held.version(), []).append(held)
        found: List[Held] = next((covering(group) for group in parts.values() if is_whole(group)), [])
        return found or [held for held in members_with(self.catalogue.base, size, sha256, ROWS_READ) if self.counts(held.volume)][:1]

    def counts(self, number: int) -> bool:
        """Whether the archive has what the catalogue says of a volume: it is not retired, and neither damaged nor lost as far as that is known."""
        if number not in self._counts:
            row = self.catalogue.volume(number)
            self._counts[number] = row is not None and row.state != STATE_RETIRED and row.trouble is None and number not in self.refused and not is_lost(
                row, self.config, image_of(self.config, row) is not None, self.catalogue.put_away().get(number),
            )
        return self._counts[number]

    def version_there(self, held: Held) -> int:
        """Which version a file is at its path on its volume, by the files that the catalogue has there. A volume that lost one since says
        another number. A bundle is where its folder is, and most often in the first version of that."""
        if held.start is not None:
            return 1
        statement = "SELECT count(*) FROM by_name WHERE name = ? AND path = ? AND id >= ? AND id < ?"
        values = (kept_name(held.path[-1]), folder_text(held.path[:-1]), held.volume * COMMITS, held.target())
        return int(self.catalogue.base.run(statement, values)[0][0]) + 1


def covering(rows: Sequence[Held]) -> List[Held]:
    """Those of the rows of a file in parts that it takes, in their order."""
    have, found = 0, []
    for row in sorted(rows, key=lambda row: (row.first or 0, -(row.parts or 0))):
        if (row.first or 0) + (row.parts or 0) > have:
            have = (row.first or 0) + (row.parts or 0)
            found.append(row)
    return found


__all__ = ["Content"]
