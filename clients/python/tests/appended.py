"""Files of several extents, put on a volume as appends leave them: each piece by a commit of its own, with an entry that has all of them.

The blocks are those of the reader's own encoders: it shares no code with what writes volumes.
"""

from __future__ import annotations

import os
import struct
import tempfile
import unittest
from typing import Dict, List, Tuple

from udfburn.protocol.units import BlockNumber, Commit, Moment, Size, VirtualAddress
from udfburn.reader import DamageCause, FileType, Medium, Volume
from udfburn.reader.basics import BLOCK, ENTRY_DESCRIPTORS, EXTENT_BYTES, PARTITION, entity, write_dstring, write_tag
from udfburn.reader.descriptors import write_descriptors
from udfburn.reader.directory import write_identifier
from udfburn.reader.entry import END, Entry, extent_count, extent_size, read_entry, write_entry
from udfburn.reader.table import ClientRecord, KeptReply, write_client

from .forged import Forge

MOMENT = Moment(1_700_000_000_123_456)

ZEROS = bytes(BLOCK)
"""A block of a hole in the image."""


def empty_image(test: unittest.TestCase) -> str:
    """The path of an image with an empty volume, until the test ends."""
    room = tempfile.TemporaryDirectory()
    test.addCleanup(room.cleanup)
    image = os.path.join(room.name, "disc.img")
    forge = Forge()
    forge.begin()
    with open(image, "wb") as file:
        file.write(forge.image())
    return image


def marked(name: str, size: int, index: int) -> bytes:
    """The bytes of an extent of a file that `Appender.marked` makes: what it is, and zeros."""
    return f"extent {index} of {name}".encode()[: extent_size(Size(size), index)].ljust(extent_size(Size(size), index), b"\0")


def causes_in_entry(entry: Entry, *changes: Tuple[int, bytes]) -> List[DamageCause]:
    """The causes of an entry's block with other bytes at these places, and a tag that is made good."""
    block = bytearray(write_entry(entry))
    for at, data in changes:
        block[at : at + len(data)] = data
    length, = struct.unpack_from("<I", block, 172)
    end = END + length if length <= 1872 and length % 16 == 0 else END
    block[:16] = write_tag(261, bytes(block[16:end]), entry.location)
    return [fault.cause for fault in read_entry(bytes(block), entry.location)[1]]


class Appender:
    """An image whose root is the only directory."""

    def __init__(self, image: str):
        self.image = image
        with Medium(image) as medium:
            volume = Volume(medium)
            state = volume.state()
            root = state.root()
            assert root is not None and not len(volume.notes)
            self.table, self.words, self.clients = state.table, list(state.entries), state.clients
            self.names = state.names(root)
        self.label = self.table.label or ""
        self.added: List[Tuple[str, int, int]] = []
        self.blocks: List[bytes] = []
        self.begin = self.number = self.table.address + 1 - PARTITION
        self.commit, self.previous = self.table.commit, self.table.address - PARTITION
        self.unique = self.table.next_unique
        self.contents: Dict[str, Tuple[int, List[int]]] = {}
        """Of each file that was added: its size, and where its extents begin."""

    def put(self, data: bytes) -> int:
        """Puts bytes into blocks of their own, and gives the number of the first."""
        first = self.number
        self.blocks += [data[at : at + BLOCK].ljust(BLOCK, b"\0") for at in range(0, len(data), BLOCK)]
        self.number = self.begin + len(self.blocks)
        return first

    def create(self, name: str, data: bytes) -> None:
        """A commit that makes a file of at most a mebibyte in the root."""
        virtual = len(self.words)
        self.added.append((name, virtual, self.unique))
        self.unique += 1
        self.words.append(0)
        self.contents[name] = (0, [])
        self._piece(name, data)
        first = self.number
        listing = [write_identifier("", 10, VirtualAddress(1), 0, 0, BlockNumber(first))]
        listing += [write_identifier(old.name, 2 if old.is_directory else 0, old.virtual, old.unique, 0, BlockNumber(first)) for old in self.names]
        listing += [write_identifier(new, 0, VirtualAddress(at), unique, 0, BlockNumber(first)) for new, at, unique in self.added]
        spelled = b"".join(listing)
        assert len(spelled) <= BLOCK - 32, "the root's listing is one block"
        self.put(spelled)
        links = 1 + sum(old.is_directory for old in self.names)
        self.words[1] = self.put(write_entry(Entry(FileType.DIRECTORY, MOMENT, links, 0, Size(len(spelled)), BlockNumber(first), None, 1, 0, True)))
        self.commit_table()

    def append(self, name: str, data: bytes) -> None:
        """A commit that appends a piece to a file whose pieces are whole."""
        self._piece(name, data)
        self.commit_table()

    def file(self, name: str, data: bytes) -> None:
        """A file, piece by piece."""
        self.create(name, data[:EXTENT_BYTES])
        for at in range(EXTENT_BYTES, len(data), EXTENT_BYTES):
            self.append(name, data[at : at + EXTENT_BYTES])

    def marked(self, name: str, size: int, spread: int = 3) -> None:
        """A file of so many bytes that begins as one of a byte. Of each extent the first block alone is not a hole; after every few of
        them there is a block that is not the file's. It takes the commits of the last three appends: those before them left no others."""
        self.create(name, b"x")
        firsts = []
        count = extent_count(Size(size))
        for index in range(count):
            firsts.append(self.put(marked(name, size, index)[:BLOCK]))
            self.blocks += [ZEROS] * (-(-extent_size(Size(size), index) // BLOCK) - 1)
            self.blocks += [b"\xee" * BLOCK] if index % spread == 0 and index + 3 < count else []
            self.number = self.begin + len(self.blocks)
            if index + 3 >= count:
                self.extents(name, min(EXTENT_BYTES * (index + 1), size), firsts)
                self.commit_table()

    def extents(self, name: str, size: int, firsts: List[int]) -> None:
        """An entry of a file with these extents, after the descriptor blocks that it takes."""
        _, virtual, unique = next(known for known in self.added if known[0] == name)
        entry = Entry(FileType.FILE, MOMENT, 1, unique, Size(size), BlockNumber(firsts[0]), None, virtual, 0, True, tuple(map(BlockNumber, firsts[1:])))
        if len(firsts) > ENTRY_DESCRIPTORS:
            entry = entry._replace(descriptors=BlockNumber(self.number))
        for block in write_descriptors(entry):
            self.put(block)
        self.words[virtual] = self.put(write_entry(entry))
        self.contents[name] = (size, list(firsts))

    def _piece(self, name: str, data: bytes) -> None:
        old, firsts = self.contents[name]
        assert old % EXTENT_BYTES == 0 and 0 < len(data) <= EXTENT_BYTES
        self.extents(name, old + len(data), [*firsts, self.put(data)])

    def commit_table(self) -> None:
        """The table and the VAT ICB, which end a commit."""
        self.commit = Commit(self.commit + 1)
        client = next((known for known in self.clients if known.client == 7), None)
        replies = client.replies[:3] if client is not None else ()
        kept = ClientRecord(7, client.latest + 1 if client is not None else 1, (KeptReply(0, self.commit), *replies))
        self.clients = [known for known in self.clients if known.client != 7] + [kept]
        use = entity(b"*udfburn sessions") + struct.pack("<HHII", 2, len(self.clients), self.unique, self.commit)
        use += b"".join(write_client(known, 48) for known in self.clients)
        files = self.table.files + len(self.added)
        head = struct.pack("<HH", 152 + len(use), len(use)) + write_dstring(self.label, 128)
        head += struct.pack("<III4H", self.previous, files, self.table.directories, 0x201, 0x201, 0x201, 0)
        data = head + use + struct.pack(f"<{len(self.words)}I", *self.words)
        first = self.put(data)
        self.previous = self.put(write_entry(Entry(FileType.TABLE, MOMENT, 0, 0, Size(len(data)), BlockNumber(first), None, self.number, 0, True)))

    def write(self) -> None:
        """Writes the commits after those of the image."""
        with open(self.image, "r+b") as file:
            for at, block in enumerate(self.blocks, self.begin + PARTITION):
                if block is not ZEROS:
                    file.seek(at * BLOCK)
                    file.write(block)
            file.truncate((self.begin + PARTITION + len(self.blocks)) * BLOCK)


__all__ = ["MOMENT", "Appender"]
