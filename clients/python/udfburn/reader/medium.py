"""A medium: an image, a block device or a disc, read block by block. What cannot be read is missing, and stops nothing."""

from __future__ import annotations

import os
from bisect import bisect_right
from typing import Iterator, List, NamedTuple, Optional, Tuple

from ..base.beneath import open_given, open_medium
from ..protocol.units import Address
from .basics import BLOCK

RUN_BLOCKS = 512
"""The blocks of one read, at most."""

STATUSES = "?*/-+"
"""The statuses of a map of ddrescue: not tried, not trimmed, not scraped, bad, and read."""


class MapError(ValueError):
    """A file is no map of ddrescue."""


class Run(NamedTuple):
    """Blocks in a row: their bytes, with zeros where a block is missing, and the addresses of those."""

    data: bytes
    missing: Tuple[Address, ...]


class RescueMap:
    """What a map of GNU ddrescue says was read. What it does not speak of was not read."""

    def __init__(self, read: List[Tuple[int, int]]):
        self._starts = [start for start, _ in read]
        self._ends = [end for _, end in read]

    @staticmethod
    def load(path: str) -> "RescueMap":
        """A map from its file; MapError where that is none."""
        with open(open_given(path), encoding="ascii", errors="replace") as file:
            lines = [line.split() for line in file if line.strip() and not line.startswith("#")]
        read: List[Tuple[int, int]] = []
        try:
            if not lines or len(lines[0]) not in (2, 3):
                raise ValueError
            int(lines[0][0], 0)
            for position, size, status in lines[1:]:
                if status not in STATUSES:
                    raise ValueError
                if status == "+":
                    join(read, int(position, 0), int(position, 0) + int(size, 0))
        except ValueError as error:
            raise MapError(f"{path}: is not a map of ddrescue") from error
        return RescueMap(read)

    def has(self, address: Address) -> bool:
        """Whether the whole block was read."""
        return self.has_bytes(address * BLOCK, (address + 1) * BLOCK)

    def has_bytes(self, start: int, end: int) -> bool:
        """Whether the bytes from one place to another were read."""
        index = bisect_right(self._starts, start) - 1
        return index >= 0 and end <= self._ends[index]


def join(ranges: List[Tuple[int, int]], start: int, end: int) -> None:
    """Puts a range after others, joined with the last one where they touch."""
    if ranges and ranges[-1][1] == start:
        ranges[-1] = (ranges[-1][0], end)
    else:
        ranges.append((start, end))


class Medium:
    """Blocks of 2,048 bytes by their addresses. Nothing is ever written.

    `blocks` is the count of whole blocks. A part of a block at the end does not count.
    `missing` has the addresses of blocks that the system could not read, as far as reads met them.
    """

    def __init__(self, path: str, rescue_map: Optional[str] = None):
        """Opens it for reading; OSError where that cannot be done, MapError where the map is none."""
        self.path = path
        self._map = RescueMap.load(rescue_map) if rescue_map is not None else None
        self._file = open_medium(path)
        try:
            self.status = os.fstat(self._file)
            # A block device has no size by fstat.
            self.size = os.lseek(self._file, 0, os.SEEK_END)
        except OSError:
            os.close(self._file)
            raise
        self.blocks = self.size // BLOCK
        self.missing: "set[Address]" = set()

    def close(self) -> None:
        """Closes it."""
        os.close(self._file)

    def __enter__(self) -> "Medium":
        return self

    def __exit__(self, *_: object) -> None:
        self.close()

    def block(self, address: Address) -> Optional[bytes]:
        """The bytes of a block; None where it is missing or past the end."""
        if not 0 <= address < self.blocks or address in self.missing:
            return None
        if self._map is not None and not self._map.has(address):
            return None
        data = self._read(address, 1)
        if data is None:
            self.missing.add(address)
        return data

    def run(self, address: Address, count: int) -> Run:
        """So many blocks from an address on."""
        if self._map is None and 0 <= address and address + count <= self.blocks:
            data = self._read(address, count)
            if data is not None:
                return Run(data, ())
        blocks = [(at, self.block(at)) for at in map(Address, range(address, address + count))]
        gone = tuple(at for at, block in blocks if block is None)
        return Run(b"".join(block or bytes(BLOCK) for _, block in blocks), gone)

    def rest(self) -> bytes:
        """The bytes after the last whole block; none where not all of them can be read."""
        begin = self.blocks * BLOCK
        try:
            data = os.pread(self._file, BLOCK - 1, begin)
        except OSError:
            return b""
        return data if self._map is None or self._map.has_bytes(begin, begin + len(data)) else b""

    def pieces(self, start: Address, end: Address) -> Iterator[Tuple[Address, Run]]:
        """All blocks from one address to another, in pieces."""
        for address in map(Address, range(start, end, RUN_BLOCKS)):
            yield address, self.run(address, min(RUN_BLOCKS, end - address))

    def _read(self, address: Address, count: int) -> Optional[bytes]:
        """Whole blocks as the system has them; None where it does not give them all."""
        want = count * BLOCK
        parts: List[bytes] = []
        while want:
            try:
                part = os.pread(self._file, want, (address + count) * BLOCK - want)
            except OSError:
                return None
            if not part:
                return None
            parts.append(part)
            want -= len(part)
        return parts[0] if len(parts) == 1 else b"".join(parts)
