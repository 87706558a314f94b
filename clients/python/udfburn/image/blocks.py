"""How many blocks an import takes, and how many an image has left: computed by the layout of docs/FORMAT.md."""

from __future__ import annotations

import os
import struct
from typing import Dict, Iterable, List, Optional, Set

from ..base.beneath import open_medium
from ..base.errors import ProgramFailed
from ..protocol import Path, limits, spelled_size
from ..protocol.units import Address, Size
from ..reader.basics import INSIDE, PARTITION
from ..reader.entry import descriptor_blocks
from ..reader.table import HEAD_SIZE
from ..wire.connection import run_program

PARENT = 40
"""Bytes of the identifier of the directory above."""

CLIENT, ENTRY = 48, 4
"""Bytes of each client in a table, and of each entry (docs/FORMAT.md, "The table")."""


def blocks_for(size: int) -> int:
    """The blocks that so many bytes take."""
    return -(-size // limits.BLOCK)


def table_blocks(clients: int, entries: int) -> int:
    """The blocks of a table with so many clients and entries."""
    return blocks_for(HEAD_SIZE + CLIENT * clients + ENTRY * entries)


def data_blocks(size: int) -> int:
    """The blocks of a file's bytes outside its entry."""
    return 0 if size <= INSIDE else blocks_for(size)


class Layout:
    """A directory's identifiers as they are laid: whole blocks, the place in the last one, and the sum of their sizes."""

    def __init__(self) -> None:
        self.full = 0
        self.at = self.sum = PARENT

    def add(self, name: str) -> None:
        """Lays one more name."""
        size = (38 + spelled_size(name) + 3) // 4 * 4
        left = limits.BLOCK - self.at - size
        if left < 0 or 0 < left < 32:
            self.full, self.at = self.full + 1, size
        else:
            self.at += size
        self.sum += size

    def blocks(self) -> int:
        """The blocks of its data, and its entry."""
        return self.full + (1 if self.at else 0) + 1

    def most(self) -> int:
        """The blocks that it may take, as the program computes them."""
        return 2 + self.sum // 1720


class Space:
    """What an image has: its capacity, the next address, and what its table takes."""

    def __init__(self, capacity: int, address: Address, clients: Set[int], entries: int = 2, nodes: int = 1):
        self.capacity, self.next = capacity, address
        self.clients, self.entries, self.nodes = clients, entries, nodes

    def left(self) -> int:
        return self.capacity - self.next


class Reckoner:
    """Blocks of requests one after another, at a state whose directories are known."""

    def __init__(self, space: Space):
        self.space = space
        self.end = space.next
        """The address up to which the program asks for room: beyond the last block that is written."""
        self.layouts: Dict[Path, Layout] = {}
        self.names: Dict[Path, List[str]] = {}

    def directory(self, path: Path, names: Iterable[str]) -> None:
        """A directory that is there, with its names in stored order."""
        self.layouts[path], self.names[path] = Layout(), list(names)
        for name in self.names[path]:
            self.layouts[path].add(name)

    def replace(self, size: int) -> bool:
        """A file's other bytes."""
        return self._write(2 * data_blocks(size) + 1, data_blocks(size) + 1)

    def create(self, path: Path, size: int) -> bool:
        """A new file. Whether it fits."""
        parent = self._named(path)
        return self._write(2 * data_blocks(size) + 1 + parent.most(), data_blocks(size) + 1 + parent.blocks())

    def append(self, offset: int, size: int) -> bool:
        """A piece at the end of a file, which is never inside its entry."""
        others = descriptor_blocks(Size(offset + size)) + 1
        return self._write(2 * blocks_for(size) + others, blocks_for(size) + others)

    def remove(self, path: Path) -> bool:
        """A file that goes."""
        parent = self._left(path)
        return self._write(parent.most(), parent.blocks())

    def rename(self, path: Path, to: Path) -> bool:
        """A file's other path."""
        parents = {path[:-1]: self._left(path), to[:-1]: self._named(to)}
        return self._write(sum(parent.most() for parent in parents.values()), sum(parent.blocks() for parent in parents.values()))

    def grow(self, path: Path, size: int, kept: int, unfinished: Path, replaces: bool) -> bool:
        """A file above a mebibyte, of which so many pieces are there: its others, and its name."""
        fits = [] if kept else [self.create(unfinished, limits.FILE)]
        fits += [self.append(at, min(size - at, limits.FILE)) for at in range(max(kept, 1) * limits.FILE, size, limits.FILE)]
        fits += [self.remove(path)] if replaces else []
        return all([*fits, self.rename(unfinished, path)])

    def make(self, path: Path) -> bool:
        """A new directory."""
        parent = self._named(path)
        self.layouts[path] = new = Layout()
        return self._write(new.most() + parent.most(), new.blocks() + parent.blocks())

    def _named(self, path: Path) -> Layout:
        self.space.nodes += 1
        self.space.entries = max(self.space.entries, self.space.nodes + 1)
        parent = self.layouts.setdefault(path[:-1], Layout())
        parent.add(path[-1])
        self.names.setdefault(path[:-1], []).append(path[-1])
        return parent

    def _left(self, path: Path) -> Layout:
        self.space.nodes -= 1
        self.directory(path[:-1], [name for name in self.names.get(path[:-1], ()) if name != path[-1]])
        return self.layouts[path[:-1]]

    def _write(self, most: int, blocks: int) -> bool:
        """Goes on by a commit; whether the program has room for the most that it may need."""
        table = table_blocks(len(self.space.clients), self.space.entries)
        end = Address(self.space.next + most + 2 * table + 1)
        self.end = max(self.end, end)
        self.space.next = Address(self.space.next + blocks + table + 1)
        return end <= self.space.capacity


def space_of(image: str, program: str, client: Optional[int]) -> Optional[Space]:
    """What an image has left, by its own blocks; None where it cannot be known."""
    try:
        newest = run_program(program, ["log", os.path.abspath(image)]).split(b"\n", 1)[0].split()
        _, at, files, directories = map(int, newest)
        with open(open_medium(image), "rb") as file:
            file.seek(34 * limits.BLOCK + 192)
            (partition,) = struct.unpack("<I", file.read(4))
            file.seek(at * limits.BLOCK + 56)
            (size,) = struct.unpack("<Q", file.read(8))
            file.seek(at * limits.BLOCK + 176)
            length, number = struct.unpack("<II", file.read(8))
            file.seek((PARTITION + number) * limits.BLOCK)
            table = file.read(length)
            blocks = os.fstat(file.fileno()).st_size // limits.BLOCK
    except (OSError, ValueError, struct.error, ProgramFailed):
        return None
    (count,) = struct.unpack_from("<H", table, 186)
    clients = {struct.unpack_from("<Q", table, HEAD_SIZE + CLIENT * index)[0] for index in range(count)}
    if client is not None:
        clients.add(client)
    entries = (size - struct.unpack_from("<H", table, 0)[0]) // ENTRY
    return Space(partition + PARTITION, Address(blocks), clients, entries, files + directories)
