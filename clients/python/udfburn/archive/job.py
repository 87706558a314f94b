"""A file on its way to a volume: what is asked of the volume for it, and what came back."""

from __future__ import annotations

import os
from contextlib import closing
from hashlib import sha256
from itertools import takewhile
from typing import Generator, Iterator, List, Optional, Tuple

from ..base.errors import SourceChanged, SourceError
from ..base.manifest import PAYLOAD_FOLDER
from ..base.unfinished import unfinished_path
from ..local.sources import Source, exactly, open_source, origin_of, read_parts, require_unchanged, shown
from ..protocol import Create, MakeDir, Path, Remove, Rename, limits
from ..protocol.units import Commit, Moment, Size
from ..trees.growing import naming, piece_request
from ..wire.operations import Operation, Whole, now
from .catalogue import Catalogue, Held, mebibytes_of
from .contents import Contents, File
from .names import DESCRIPTION, spelled, stored_folder, stored_part_name
from .tree import PlannedTree, StoredPlace
from .unfinished import NOTHING_LEFT, Left, Unfinished

WRITER = 0
"""The number in the names of unfinished files. It is no client's: a volume has one writer at a time, which goes on with what another left."""


def digest_of(source: Source) -> bytes:
    """The SHA-256 of a file as it was seen, or `SourceError`."""
    whole = sha256()
    for part in read_parts(source):
        whole.update(part)
    return whole.digest()


def description(source: Source, digest: bytes, first: int) -> bytes:
    """The text that describes a file in parts on a volume that has them from this mebibyte on."""
    text = f"size: {source.identity.size}\nmodified: {source.moment()}\nsha256: {digest.hex()}\nfirst byte: {first * limits.FILE}\n"
    return text.encode()


class Part:
    """A file on a volume: all of a file, or so many bytes of it from one on, which is a multiple of a mebibyte.

    One above a mebibyte is stored piece by piece under the path `unfinished`, where the volume may have some pieces, `left`, already.
    """

    def __init__(self, place: StoredPlace, unfinished: Path, start: int, size: Size, left: Left):
        self.place, self.unfinished = place, unfinished
        self.start, self.size, self.left = start, size, left
        self.stored = False
        self.read: Optional[Whole] = None
        """What was read of it, once all was."""

    def grows(self) -> bool:
        return self.size > limits.FILE

    def count(self) -> int:
        """Its pieces."""
        return max(mebibytes_of(self.size), 1)


class VolumeJob:
    """A file, or the part of it that goes to one volume: one that no volume has room for is in parts.

    `first` is the first mebibyte that is sent. Where the volume has a part before it already, `begun` is the first of that, `whole` the
    folder of both and `commit` that of their description, and `added` when the run began that stored it.
    """

    def __init__(self, source: Source, digest: bytes = b"", first: int = 0, in_parts: bool = False):
        self.source, self.digest, self.first, self.begun = source, digest, first, first
        self.in_parts = in_parts or source.identity.size > limits.GREATEST_FILE
        self.whole: Optional[Path] = None
        self.volume: Optional[int] = None
        """The volume that has parts before."""
        self.folders: Tuple[Path, ...] = ()
        self.parts: List[Part] = []
        self.commit = Commit(0)
        self.added: Optional[Moment] = None
        self.failure: Optional[str] = None

    def size(self) -> int:
        """The bytes that are to be sent."""
        return max(self.source.identity.size - self.first * limits.FILE, 0)

    def planned_bytes(self) -> int:
        """The bytes that are sent by what was planned."""
        return sum(part.size for part in self.parts)

    def sent_bytes(self) -> int:
        """The bytes of what is stored by now, up to the first part that is not."""
        return sum(part.size for part in takewhile(lambda part: part.stored, self.parts))

    def done(self) -> int:
        """The mebibytes of what is stored by now."""
        return mebibytes_of(self.sent_bytes())

    def stored(self) -> bool:
        """Whether all that was planned is stored."""
        return self.failure is None and self.commit > 0 and all(part.stored for part in self.parts)

    def rest(self) -> Optional["VolumeJob"]:
        """The parts that are not planned here."""
        first = self.first + mebibytes_of(self.planned_bytes())
        return VolumeJob(self.source, self.digest, first, True) if self.in_parts and first < mebibytes_of(self.source.identity.size) else None

    def again(self) -> "VolumeJob":
        """What is not stored yet, to be planned anew."""
        return VolumeJob(self.source, self.digest, self.first + (self.done() if self.in_parts else 0), self.in_parts)

    def as_parts(self) -> "VolumeJob":
        """The same file in parts, since no volume has room for all of it; or `SourceError`, since its digest comes first."""
        return VolumeJob(self.source, self.digest or digest_of(self.source), in_parts=True)

    def otherwise(self) -> List["VolumeJob"]:
        """What is stored in its place where no volume has room for it; or `SourceError`."""
        return [self.as_parts()]

    # ---- its files: one, or those of a bundle

    def files(self) -> List["VolumeJob"]:
        """The files that it stores."""
        return [self]

    def counts(self) -> List[Tuple[Path, int]]:
        """The paths of those, each with the bytes of it that are stored by now."""
        return [(self.source.path, self.sent_bytes())]

    def failures(self) -> List[Tuple["VolumeJob", str]]:
        """The files that are not stored, each with why."""
        return [] if self.failure is None else [(self, self.failure)]

    def rows(self, volume: int, added: Moment) -> List[Held]:
        """The rows of the catalogue for what is stored by now."""
        return [self.held(volume, added)]

    # ---- planned

    def plan(self, tree: PlannedTree, partly: bool, unfinished: Optional[Unfinished] = None) -> bool:
        """Plans the whole file on a volume, or, where that is allowed, as many of its bytes as fit. Whether it was planned.
        `unfinished` has what the volume has that runs left which were cut."""
        if not self.in_parts:
            return self._plan_whole(tree, unfinished)
        if self.whole is not None:
            return self._plan_rest(tree, partly, unfinished)
        place = tree.place_in_parts(self.source.path[:-1], self.source.path[-1])
        if place is None:
            return False
        self.folders, self.whole = place.folders, place.path[:-1]
        if not self._plan_rest(tree, partly, unfinished):
            tree.back()
            self.folders, self.whole = (), None
            return False
        return True

    def key(self, start: Optional[int] = None) -> Path:
        """The path that it has until it is whole, or the part of it that begins with a byte."""
        stored = (PAYLOAD_FOLDER,) + stored_folder(self.source.path[:-1]) + spelled(self.source.path[-1])
        return unfinished_path(WRITER, stored if start is None else stored + (stored_part_name(start),))

    def _plan_whole(self, tree: PlannedTree, unfinished: Optional[Unfinished]) -> bool:
        size, left = self.source.identity.size, NOTHING_LEFT
        key = self.key() if size > limits.FILE else ()
        if key and unfinished is not None:
            left = unfinished.of_file(self.source, key, mebibytes_from(self.source, 0))
        place = tree.place(self.source.path[:-1], self.source.path[-1], size, key, left.pieces())
        if place is None:
            return False
        self.parts = [Part(place, key, 0, size, left)]
        if left.is_whole(size):
            self.commit, self.added = left.commit, left.added
        return True

    def _plan_rest(self, tree: PlannedTree, partly: bool, unfinished: Optional[Unfinished]) -> bool:
        """Plans the rest of the file, or, where that is allowed, as many mebibytes of it as fit, as one part. Whether any were planned."""
        fits = self._plan_part(tree, Size(self.size()), unfinished) if self.size() <= limits.GREATEST_FILE else None
        part = self._largest(tree, unfinished) if fits is None and partly else fits
        self.parts = [part] if part is not None else []
        return part is not None

    def _plan_part(self, tree: PlannedTree, size: Size, unfinished: Optional[Unfinished]) -> Optional[Part]:
        assert self.whole
        start = self.first * limits.FILE
        key, left = self.key(start) if size > limits.FILE else (), NOTHING_LEFT
        if key and unfinished is not None:
            left = unfinished.of_part(key, mebibytes_from(self.source, self.first), size)
        place = tree.place_part(self.whole, start, size, key, left.pieces())
        return None if place is None else Part(place, key, start, size, left)

    def _largest(self, tree: PlannedTree, unfinished: Optional[Unfinished]) -> Optional[Part]:
        """The greatest part that fits, of whole mebibytes and not of all bytes that are left."""
        low, high = 0, mebibytes_of(Size(min(self.size(), limits.GREATEST_FILE))) - 1
        while low < high:
            middle = (low + high + 1) // 2
            if self._plan_part(tree, Size(middle * limits.FILE), unfinished) is None:
                high = middle - 1
            else:
                tree.back()
                low = middle
        return self._plan_part(tree, Size(low * limits.FILE), unfinished) if low else None

    # ---- stored

    def operations(self) -> Iterator[Operation]:
        """The requests but those that give names, read as they are sent. None that would make a file whole which changed meanwhile."""
        try:
            yield from self._folders(self.folders)
            if self.in_parts and not self.commit:
                assert self.whole
                text = description(self.source, self.digest, self.begun)
                yield Operation(Create, self.whole + (DESCRIPTION,), self.source.moment(), text, tag=(self, None))
            with closing(mebibytes_from(self.source, self.first) if self.in_parts else read_parts(self.source)) as pieces:
                for part in self.parts:
                    yield from self._folders(part.place.folders)
                    yield from self._pieces(part, pieces)
        except SourceError as error:
            self.fail(str(error))

    def _folders(self, folders: Tuple[Path, ...]) -> Iterator[Operation]:
        for folder in folders:
            yield Operation(MakeDir, folder, self.source.moment())

    def _pieces(self, part: Part, pieces: Iterator[bytes]) -> Iterator[Operation]:
        """The requests that store a part, piece by piece. Those that the volume has are read too: they must be those that it was
        seen to have."""
        if part.left.others:
            yield Operation(Remove, part.unfinished, now())
        read = sha256()
        for index in range(part.count()):
            data = next(pieces)
            read.update(data)
            digest = read.digest()
            if index + 1 == part.count():
                self._require_as_read(part, digest)
                part.read = Whole(part.place.path, part.size, digest)
            if index < part.left.pieces():
                if digest != part.left.digests[index]:
                    raise changed(self.source)
                continue
            origin = origin_of(self.source, part.start + index * limits.FILE)
            if part.grows():
                yield piece_request(part.unfinished, index, data, self.source.moment(), tag=(self, part), sha256=digest, origin=origin)
            else:
                yield Operation(Create, part.place.path, self.source.moment(), data, tag=(self, part), sha256=digest, origin=origin)

    def _require_as_read(self, part: Part, digest: bytes) -> None:
        """Raises where what was read of all of a file is not what was read of it before, right before its last bytes are sent."""
        if not self.in_parts:
            self.digest = digest
        elif part.size == self.source.identity.size and digest != self.digest:
            raise changed(self.source)

    def name(self, part: Part) -> Operation:
        """The request by which a part gets its own path."""
        return naming(part.unfinished, part.place.path, self.source.moment(), tag=(self, part), whole=part.read)

    def take(self, part: Optional[Part], operation: Operation, commit: Commit) -> None:
        """A request was done. The file's commit is that which wrote its entry: its description, or its last piece."""
        if part is None:
            self.commit = commit
            return
        part.stored = operation.kind is Rename or not part.grows()
        if not self.in_parts and operation.kind is not Rename:
            self.commit = commit

    def fail(self, why: str) -> None:
        self.failure = self.failure or why

    # ---- kept

    def held(self, volume: int, added: Moment) -> Held:
        """The row of the catalogue for what is stored by now."""
        source = self.source
        parts = (self.begun, self.first - self.begun + self.done()) if self.in_parts else (None, None)
        when = added if self.added is None else self.added
        return Held(volume, self.commit, source.path, source.identity.size, source.moment(), self.digest, when, *parts)

    def rows_in(self, catalogue: Catalogue) -> List[Held]:
        """The rows that a catalogue has of this version of the file, the newest first."""
        source = self.source
        key = (source.path, source.identity.size, source.moment(), self.digest)
        return [row for row in catalogue.of_path(source.path) if row.version() == key]

    def own_rows_in(self, catalogue: Catalogue) -> List[Held]:
        """Those of them that have its bytes under its own path."""
        return [row for row in self.rows_in(catalogue) if row.noted is None]


def changed(source: Source) -> SourceChanged:
    """What is said of a file whose bytes changed though its times did not."""
    return SourceChanged(f"{shown(source.local)}: changed while it was read, though its times did not: store it again")


def mebibytes_from(source: Source, first: int) -> Generator[bytes, None, None]:
    """The mebibytes of a file from one on. Each is given only as long as the file is as it was seen."""
    try:
        descriptor = open_source(source)
        try:
            require_unchanged(source, os.fstat(descriptor))
            os.lseek(descriptor, first * limits.FILE, os.SEEK_SET)
            left = max(source.identity.size - first * limits.FILE, 0)
            while left > 0:
                data = exactly(descriptor, min(left, limits.FILE))
                require_unchanged(source, os.fstat(descriptor))
                if len(data) != min(left, limits.FILE):
                    raise SourceChanged(f"{shown(source.local)}: its size is not the one that the system reports")
                left -= len(data)
                yield data
        finally:
            os.close(descriptor)
    except OSError as error:
        raise SourceError(f"{shown(source.local)}: {error.strerror}") from error


def has_same_parts(source: Source, contents: Contents, file: File) -> bool:
    """Whether the parts that a volume has are those of the file."""
    with closing(mebibytes_from(source, file.first or 0)) as pieces:
        return all(there == piece for there, piece in zip(contents.pieces(file), pieces))


def file_of_row(contents: Contents, held: Held) -> Optional[File]:
    """A file of a volume by its row; None where the volume does not have it."""
    for file in contents.files():
        if file.commit == held.commit:
            return file if (file.path, file.size, file.moment) == (held.path, held.size, held.moment) else None
    return None
