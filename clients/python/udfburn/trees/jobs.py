"""A file on its way to a volume, and the options and the outcome of an import."""

from __future__ import annotations

from contextlib import closing
from hashlib import sha256
from typing import Dict, Iterator, List, Literal, NamedTuple, Optional, Sequence

from ..base.errors import SourceError
from ..local.sources import Source, read_parts
from ..protocol import Answer, Data, Node, NodeKind, Path, Query, limits
from ..protocol.units import Moment
from ..wire.operations import Whole
from ..wire.pieces import and_node, is_still, queries_of


class ImportOptions(NamedTuple):
    """How folders and files are stored.

    A file whose bytes are there already is left alone, unless `rewrite`. `skip_same` is that default's own name, and changes nothing.
    With `split` a file takes the place of its parts, as earlier versions stored it; without it they stay, and are named.
    With `delete_last` nothing is deleted before `Importer.delete_kept` is called.
    """

    recursive: bool = False
    parents: bool = False
    skip_same: bool = True
    rewrite: bool = False
    split: bool = False
    skip_odd: bool = False
    escape: bool = False
    delete_source: bool = False
    delete_last: bool = False
    verify: bool = False
    dry_run: bool = False
    moment: Literal["mtime", "now"] = "mtime"
    image: Optional[str] = None


class ImportSummary:
    """What an import did: counts, and each file that was not stored or not deleted, with why."""

    def __init__(self) -> None:
        self.files = self.bytes = self.folders = self.same = self.verified = self.deleted = 0
        self.blocks: Optional[int] = None
        self.left: Optional[int] = None
        self.failures: List[str] = []
        self.skipped: List[str] = []
        self.not_kept: Dict[str, int] = {}


class Job:
    """A file on its way, with the SHA-256 of it up to the end of each piece: `same` has those of the pieces that the volume has already, by
    their numbers, and `digests` those of the pieces that were read. Further what became of it, and the moment that the volume has of an
    earlier one. One above a mebibyte grows by appends, and is `named` once it has its own path. `parts` are those that an earlier version
    stored, which are only compared."""

    def __init__(self, source: Source, same: Optional[Dict[int, bytes]] = None, parts: Sequence[Path] = ()):
        self.source = source
        self.parts = parts or [source.path]
        self.grows = source.identity.size > limits.FILE
        self.count: int = max(-(-source.identity.size // limits.FILE), 1)
        self.named = not self.grows
        self.same: Dict[int, bytes] = same or {}
        self.digests: List[bytes] = []
        self.read = sha256()
        self.done = 0
        self.moment: Optional[Moment] = None
        self.failure: Optional[str] = None

    def take(self, piece: bytes) -> bytes:
        """Takes the next piece that was read, and gives the SHA-256 of the file up to its end."""
        self.read.update(piece)
        self.digests.append(self.read.digest())
        return self.digests[-1]

    def fail(self, why: str) -> None:
        """Keeps the first reason why it was not stored."""
        self.failure = self.failure or why

    def stored(self) -> bool:
        """Whether all of its pieces are stored, under its own path."""
        return self.failure is None and self.done == self.count and self.named

    def queries(self) -> List[Query]:
        """The queries that give its pieces, and what the file is after these."""
        return and_node(queries_of(self.parts, self.source.identity.size))

    def is_still(self, answers: Iterator[Answer]) -> bool:
        """Whether others did not change it while its pieces were read, by the last answer to its queries."""
        node = Node(NodeKind.FILE, self.moment, self.source.identity.size) if self.moment is not None else None
        return is_still(queries_of(self.parts, self.source.identity.size), node, answers)

    def of_whole(self) -> Whole:
        """The whole file, once all of its pieces were read."""
        return Whole(self.source.path, self.source.identity.size, self.digests[-1])


def same_pieces(source: Source, count: int, answers: Iterator[object]) -> Dict[int, bytes]:
    """The first pieces of a file, so many at most, whose bytes answers have: by their numbers, with the SHA-256 of the file up to the end of
    each. There is an answer for each, and all are taken. Raises where the file cannot be read, or changed meanwhile."""
    same: Dict[int, bytes] = {}
    read = sha256()
    error: Optional[SourceError] = None
    with closing(read_parts(source)) as pieces:
        for index in range(count):
            answer = next(answers)
            try:
                piece = None if error else next(pieces, None)
            except SourceError as failed:
                error = failed
            if len(same) == index and error is None and isinstance(answer, Data) and answer.data == piece:
                read.update(answer.data)
                same[index] = read.digest()
    if error is not None:
        raise error
    return same


def same_bytes(source: Source, count: int, answers: Iterator[object]) -> bool:
    """Whether answers have the bytes of a file, piece by piece. As many are taken as it has pieces. Raises as `same_pieces` does."""
    return len(same_pieces(source, count, answers)) == count


def reads_back(job: Job, answers: Iterator[object]) -> bool:
    """Whether answers have the bytes that were sent, and no others after them. As many are taken as the file has queries."""
    read, same = sha256(), True
    for wanted in job.digests:
        answer = next(answers)
        if same and isinstance(answer, Data):
            read.update(answer.data)
        same = same and isinstance(answer, Data) and read.digest() == wanted
    node = next(answers) if job.grows else None
    return same and (node is None or isinstance(node, Node) and node.size == job.source.identity.size)


__all__ = ["ImportOptions", "ImportSummary", "Job", "reads_back", "same_bytes", "same_pieces"]
