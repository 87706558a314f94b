"""The bytes of a file as far as they can be had, piece by piece: a file may be larger than the memory."""

from __future__ import annotations

from typing import TYPE_CHECKING, Callable, Iterable, Iterator, List, Optional, Tuple

from ..protocol.units import Address
from ..reader import Volume
from ..reader.basics import BLOCK, EXTENT_BYTES, address_of, blocks_of
from ..reader.entry import Entry, Extent
from ..reader.notes import DamageCause

if TYPE_CHECKING:
    import hashlib

Take = Callable[[bytes], object]
"""Takes the next bytes of a file."""

Ranges = Tuple[Tuple[int, int], ...]
"""Missing bytes of a file, each by the first and the count."""


class FileReading:
    """The bytes to which an entry leads, read once. What is missing is known after the last of them."""

    def __init__(self, volume: Volume, entry: Entry):
        self.volume, self.entry = volume, entry
        self._gone: List[Tuple[int, int]] = []

    def pieces(self) -> Iterator[bytes]:
        """The bytes in order, an extent at a time, with zeros where they are missing."""
        if self.entry.inside is not None:
            yield self.entry.inside
        for index, extent in enumerate(self.entry.extents):
            data, gone = self._extent(extent)
            self._gone += [(EXTENT_BYTES * index + start, count) for start, count in gone]
            yield data

    @property
    def ranges(self) -> Ranges:
        """The bytes that are missing."""
        return joined_ranges(self._gone)

    @property
    def why(self) -> str:
        """Why the bytes are not certain; empty where they are."""
        if not self._gone:
            return doubt_of(self.entry)
        is_known = all(extent.is_known for extent in self.entry.extents)
        return "blocks of it cannot be read" if is_known else "a descriptor block of it is damaged, and where some of its bytes are is not known"

    def _extent(self, extent: Extent) -> Tuple[bytes, List[Tuple[int, int]]]:
        """The bytes of an extent, with zeros where they are missing, and the ranges of those."""
        if not extent.is_known:
            return bytes(extent.size), [(0, extent.size)]
        start = address_of(extent.first)
        run = self.volume.medium.run(start, blocks_of(extent.size))
        for at in run.missing:
            self.volume.notes.add(at, DamageCause.MISSING, "a block of a file cannot be read")
        if not run.missing and any(run.data[extent.size :]):
            self.volume.notes.add(Address(address_of(extent.end) - 1), DamageCause.TAIL, "a byte after the bytes of a file is not zero")
        begins = [(at - start) * BLOCK for at in run.missing]
        return run.data[: extent.size], [(begin, min(BLOCK, extent.size - begin)) for begin in begins]


def give(pieces: Iterable[bytes], take: Take, digest: "Optional[hashlib._Hash]") -> int:
    """Has all pieces taken, and a digest updated where one is wanted. The count of their bytes."""
    count = 0
    for data in pieces:
        count += len(data)
        if digest is not None:
            digest.update(data)
        take(data)
    return count


def dropped(data: bytes) -> None:
    """Takes bytes of which only the digest is wanted."""


def doubt_of(entry: Entry) -> str:
    """Why the bytes to which an entry leads are not certain."""
    if is_carved(entry):
        return "its entry is lost, and how many bytes it has is not known"
    if entry.descriptors is not None:
        return "" if entry.proved else "its entry or a descriptor block of it has a wrong byte, so it is not certain where its bytes are"
    return "" if entry.proved else "its entry has a wrong byte, which may be one of its own"


def is_carved(entry: Entry) -> bool:
    """Whether an entry is lost, and was made of the blocks before it."""
    return not entry.proved and not entry.check


def joined_ranges(ranges: List[Tuple[int, int]]) -> Ranges:
    """Ranges in order, those that touch as one."""
    found: List[Tuple[int, int]] = []
    for begin, count in ranges:
        if found and sum(found[-1]) == begin:
            found[-1] = (found[-1][0], found[-1][1] + count)
        else:
            found.append((begin, count))
    return tuple(found)


__all__ = ["FileReading", "Ranges", "Take", "doubt_of", "dropped", "give", "is_carved"]
