"""What runs that were cut left on an open volume of files that take several requests.

Such a file is in the root until it is whole (`udfburn.base.unfinished`), so none of the archive's files is ever there in part. The next run
that stores it goes on with the pieces that are there, if all of them are as the source has them; else they go first.
"""

from __future__ import annotations

from contextlib import closing
from hashlib import sha256
from typing import Dict, Generator, Mapping, NamedTuple, Tuple

from ..base.errors import SourceError
from ..local.sources import Source
from ..protocol import Path
from ..protocol.units import Commit, Moment
from ..trees.growing import may_go_on
from .catalogue import Catalogue, mebibytes_of
from .contents import Contents
from .deletions import events_of_path
from .errors import VolumeDiffers


class Left(NamedTuple):
    """The SHA-256 of an unfinished file up to the end of each piece that a volume has of it, where they are those of its source; `others` says
    that it has other bytes. Further the moment of the file, the commit of its last piece, and when the run began that stored that, in microseconds."""

    digests: Tuple[bytes, ...] = ()
    others: bool = False
    moment: Moment = Moment(0)
    commit: Commit = Commit(0)
    added: Moment = Moment(0)

    def pieces(self) -> int:
        """The pieces that are there."""
        return len(self.digests)

    def is_whole(self, size: int) -> bool:
        """Whether nothing but its name is left to be given to a file of this size."""
        return 0 < self.pieces() == mebibytes_of(size)


NOTHING_LEFT, OTHERS = Left(), Left(others=True)


class Unfinished:
    """The unfinished files of a volume."""

    def __init__(self, image: str, catalogue: Catalogue, sizes: Mapping[Path, int]):
        self._image, self._catalogue = image, catalogue
        self.sizes = dict(sizes)
        """The bytes that each has, by its path."""
        self._found: Dict[Path, Left] = {}

    def take(self, path: Path) -> None:
        """From now on one is another's concern: requests for it are under way."""
        self.sizes.pop(path, None)

    def of_part(self, path: Path, pieces: Generator[bytes, None, None], size: int) -> Left:
        """What there is of a part of a file, which has so many bytes: `pieces` reads them."""
        with closing(pieces):
            there = self.sizes.get(path)
            if there is None:
                return NOTHING_LEFT
            if not may_go_on(there, size):
                return OTHERS
            if path not in self._found:
                self._found[path] = self._compared(path, pieces)
            return self._found[path]

    def of_file(self, source: Source, path: Path, pieces: Generator[bytes, None, None]) -> Left:
        """What there is of a whole file. With its last piece it has its moment, and the time at which it counts as added: where another
        version was added since, it would be taken for an older one, and is stored again; so where its path was found gone since."""
        left = self.of_part(path, pieces, source.identity.size)
        if not left.is_whole(source.identity.size):
            return left
        added = [row.added for row in self._catalogue.of_path(source.path)]
        newest = max([*added, *(event.since for event in events_of_path(self._catalogue, source.path))], default=-1)
        return left if left.moment == source.moment() and left.added > newest else OTHERS

    def _compared(self, path: Path, pieces: Generator[bytes, None, None]) -> Left:
        digests, read = [], sha256()
        with Contents(self._image) as contents:
            node = contents.nodes[path]
            try:
                for there in contents.pieces_of(node):
                    piece = next(pieces, b"")
                    if there != piece:
                        return OTHERS
                    read.update(piece)
                    digests.append(read.digest())
            except (SourceError, VolumeDiffers):
                # Whoever stores it reports that. What is there and cannot be read goes.
                return OTHERS
            commit = contents.commit_of(node)
            return Left(tuple(digests), False, node.moment or Moment(0), commit, contents.added(commit))


__all__ = ["Left", "NOTHING_LEFT", "Unfinished"]
