"""What a mount shows, whatever it is of: folders, and files of which no byte is given that was not compared.

A file comes in pieces of a mebibyte, as extents and parts are. One of a single piece is compared each time a piece is read. A longer one
is read as a whole when it is opened, and compared; the SHA-256 of each piece is kept, and a piece is given once it has that again. So the
memory for a file is 32 bytes a mebibyte, and what is given is what was compared, even if the medium gives other bytes the second time.
"""

from __future__ import annotations

from collections import OrderedDict
from hashlib import sha256
from typing import Any, Callable, Dict, Hashable, Iterator, List, NamedTuple, Optional, Sequence, Tuple, Union

from ..base.errors import Damaged, UdfburnError
from ..protocol.units import Moment, Size

SHOWN_PIECE = 1 << 20
"""The bytes of a piece; the last one of a file may have fewer."""

PIECES_KEPT = 16
"""The pieces that are kept in memory, of all files together."""

DIGESTS_KEPT = 1 << 16
"""The pieces of which the SHA-256 is kept, of all files that are not open."""

DIGEST = 32
"""The bytes of a SHA-256."""


class NoMedium(UdfburnError):
    """The volume that has the bytes is not at hand."""


class Sums(NamedTuple):
    """What the bytes of a file must have: the SHA-256 of all of them, and of each piece; nothing where nobody says it."""

    whole: Tuple[bytes, ...] = ()
    of_pieces: Tuple[Tuple[bytes, ...], ...] = ()


class ShownFile:
    """A file: its bytes, its moment in microseconds from 1970-01-01 UTC, and how it is called in messages."""

    size = Size(0)
    moment = Moment(0)
    cure = ""
    """What is said of a damaged one after that."""

    def key(self) -> Hashable:
        """What no other file has that is shown in the same mount."""
        raise NotImplementedError

    def name(self) -> str:
        """How it is called in messages."""
        raise NotImplementedError

    def sums(self) -> Sums:
        """What its bytes are compared with. Raises where it cannot be read."""
        raise NotImplementedError

    def ways(self) -> Sequence[Any]:
        """The places from which its bytes can be had now. Raises `NoMedium` where there is none."""
        return (None,)

    def piece(self, index: int, way: Any) -> bytes:
        """The bytes of a piece, as they are at one of these places."""
        raise NotImplementedError

    def count(self) -> int:
        """How many pieces it has."""
        return -(-self.size // SHOWN_PIECE)


class ShownFolder:
    """A folder: its moment, and what could not be read of it."""

    moment = Moment(0)
    fault: Optional[str] = None
    """Why names may be missing; None where it is whole. Known once it was listed."""

    def names(self) -> "Dict[bytes, ShownItem]":
        """What is in it, by names as this system has them."""
        raise NotImplementedError

    def find(self, name: bytes) -> "Optional[ShownItem]":
        """What has a name, also one that is not listed."""
        return self.names().get(name)


ShownItem = Union[ShownFile, ShownFolder]


class Broken(ShownFile):
    """What has a name and cannot be read."""

    def __init__(self, called: str, why: str):
        self._called, self._why = called, why

    def key(self) -> Hashable:
        return self._called, self._why

    def name(self) -> str:
        return self._called

    def sums(self) -> Sums:
        raise Damaged(f"{self._called}: {self._why}")


class BrokenFolder(ShownFolder):
    """A folder of which nothing can be read."""

    def __init__(self, called: str, why: str):
        self._text = f"{called}: {why}"

    def names(self) -> Dict[bytes, ShownItem]:
        raise Damaged(self._text)


class Memory:
    """The pieces that were read last, and the SHA-256 of the pieces of files that were compared as a whole. Both have a limit."""

    def __init__(self) -> None:
        self._pieces: "OrderedDict[Hashable, bytes]" = OrderedDict()
        self._digests: "OrderedDict[Hashable, bytes]" = OrderedDict()
        self._count = 0

    def piece(self, key: Hashable, read: Callable[[], bytes]) -> bytes:
        """A piece, which is read where it is not kept."""
        if key not in self._pieces:
            data = read()
            while len(self._pieces) >= PIECES_KEPT:
                self._pieces.popitem(last=False)
            self._pieces[key] = data
        self._pieces.move_to_end(key)
        return self._pieces[key]

    def digests(self, key: Hashable) -> Optional[bytes]:
        """The SHA-256 of a file's pieces, one after another; None where it was not compared, or so long ago that this is forgotten."""
        if key in self._digests:
            self._digests.move_to_end(key)
        return self._digests.get(key)

    def keep(self, key: Hashable, digests: bytes) -> None:
        """Keeps what `digests` gives."""
        self._count += (len(digests) - len(self._digests.pop(key, b""))) // DIGEST
        self._digests[key] = digests
        while self._count > DIGESTS_KEPT:
            self._count -= len(self._digests.popitem(last=False)[1]) // DIGEST


class OpenFile:
    """A file that is open."""

    def __init__(self, file: ShownFile, memory: Memory):
        self.file, self.memory = file, memory
        self.sums, self._ways = file.sums(), list(file.ways())
        # What is kept was compared with these sums, and not with those that another commit has of the same bytes.
        self._key = file.key(), self.sums
        self._kept: Optional[bytes] = None

    def check(self) -> Iterator[None]:
        """Compares a file of several pieces as a whole, a piece a step. Raises `Damaged` where it differs."""
        if self.file.count() < 2 or not self.sums.whole:
            return
        self._kept = self.memory.digests(self._key)
        why: Optional[Exception] = None
        while self._kept is None:
            kept: List[bytes] = []
            try:
                yield from self._check(self._ways[0], kept)
                self._kept = b"".join(kept)
                self.memory.keep(self._key, self._kept)
            except (UdfburnError, OSError) as error:
                why = why or error
                self._ways = self._ways[1:]
                if not self._ways:
                    raise why from error

    def _check(self, way: Any, kept: List[bytes]) -> Iterator[None]:
        whole = sha256()
        for index in range(self.file.count()):
            data = self._as_it_is(index, way)
            whole.update(data)
            kept.append(sha256(data).digest())
            yield
        self._require(whole.digest(), self.sums.whole)

    def read(self, offset: int, size: int) -> bytes:
        """Bytes from an offset on, each of which was compared."""
        parts, end = [], min(offset + size, self.file.size)
        while offset < end:
            index, at = divmod(offset, SHOWN_PIECE)
            part = self.memory.piece((self._key, index), lambda: self._compared(index))[at : at + end - offset]
            parts.append(part)
            offset += len(part)
        return parts[0] if len(parts) == 1 else b"".join(parts)

    def _compared(self, index: int) -> bytes:
        """A piece, which has the SHA-256 that it must have: from the place that the file was compared at, or from another one."""
        wanted = self.sums.of_pieces[index] if self.sums.of_pieces else ()
        if self.file.count() < 2:
            wanted += self.sums.whole
        elif self._kept is not None:
            wanted += (self._kept[DIGEST * index : DIGEST * (index + 1)],)
        elif self.sums.whole:
            raise RuntimeError("a file is read before it was compared")
        try:
            return self._from_any(index, wanted)
        except (UdfburnError, OSError):
            # The bytes may be elsewhere by now, as those of a volume that was closed.
            self._ways = list(self.file.ways())
            return self._from_any(index, wanted)

    def _from_any(self, index: int, wanted: Tuple[bytes, ...]) -> bytes:
        why: Optional[Exception] = None
        for way in self._ways:
            try:
                data = self._as_it_is(index, way)
                if wanted:
                    self._require(sha256(data).digest(), wanted)
                return data
            except (UdfburnError, OSError) as error:
                why = why or error
        raise why or NoMedium(f"{self.file.name()}: is not at hand")

    def _as_it_is(self, index: int, way: Any) -> bytes:
        data = self.file.piece(index, way)
        if len(data) != min(SHOWN_PIECE, self.file.size - SHOWN_PIECE * index):
            raise Damaged(f"{self.file.name()}: bytes are missing")
        return data

    def _require(self, found: bytes, wanted: Tuple[bytes, ...]) -> None:
        if any(one != found for one in wanted):
            raise Damaged(f"{self.file.name()}: is not as it was stored: its SHA-256 differs{self.file.cure}")


__all__ = ["Broken", "BrokenFolder", "Memory", "NoMedium", "OpenFile", "SHOWN_PIECE", "ShownFile", "ShownFolder", "ShownItem", "Sums"]
