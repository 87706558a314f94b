"""Forged images: whole by every checksum, of 3.3 MB, and they say more than any volume can have."""

from __future__ import annotations

import struct
from typing import Callable, Dict, List, NamedTuple, Optional

from udfburn.protocol.units import BlockNumber, Moment, Size, VirtualAddress
from udfburn.reader.basics import BLOCK, LONGEST_FILE, PARTITION, UNUSED, entity, write_dstring
from udfburn.reader.descriptors import write_descriptors
from udfburn.reader.directory import fits, write_identifier
from udfburn.reader.entry import Entry, FileType, write_entry, write_file_set
from udfburn.reader.front import blocks_of_front

LABEL, MOMENT, CAPACITY = "FORGED", Moment(1_600_000_000_000_000), 1_600
MEBIBYTE = 1 << 20


class Forge:
    """An image as it is made, block by block."""

    def __init__(self) -> None:
        front = blocks_of_front(LABEL, MOMENT, CAPACITY)
        self.blocks: List[bytes] = [front.get(at, bytes(BLOCK)) for at in range(PARTITION)]
        self.words: List[int] = [self.put(write_file_set(LABEL, MOMENT)), UNUSED]
        self.previous = UNUSED
        self.commit = 0

    @property
    def number(self) -> int:
        """The number of the next block."""
        return len(self.blocks) - PARTITION

    @property
    def left(self) -> int:
        """The blocks that are left of 3.3 MB."""
        return CAPACITY - len(self.blocks)

    def put(self, data: bytes) -> int:
        """Puts bytes into blocks of their own, and gives the number of the first."""
        first = self.number
        self.blocks += [data[at : at + BLOCK].ljust(BLOCK, b"\0") for at in range(0, len(data), BLOCK)]
        return first

    def node(self, kind: FileType, unique: int, size: int, first: Optional[int], virtual: int, inside: Optional[bytes] = None) -> int:
        """Puts a node's entry."""
        number = None if first is None else BlockNumber(first)
        return self.put(write_entry(Entry(kind, MOMENT, 1, unique, Size(size), number, inside, virtual, 0, True)))

    def listing(self, names: "Callable[[int], Name]", size: int = MEBIBYTE) -> int:
        """Puts the data of a directory: the parent, then names by their places, as many as there is room for."""
        first, index, data = self.number, 0, b""
        block, last = write_identifier("", 10, VirtualAddress(1), 0, 0, BlockNumber(first)), Name("", 1, 10)
        while True:
            name = names(index)
            spelled = name.spelled(first + len(data) // BLOCK)
            if fits(len(spelled), BLOCK - len(block)):
                block, last, index = block + spelled, name, index + 1
                continue
            whole = last.spelled(first + len(data) // BLOCK)
            data += block[: -len(whole)] + last.spelled(first + len(data) // BLOCK, BLOCK - len(block))
            if len(data) >= size:
                return self.put(data)
            block, last, index = names(index).spelled(first + len(data) // BLOCK), name, index + 1

    def table(self, clients: int = 1, files: int = 1, directories: int = 1, data: Optional[int] = None, size: int = 0, words: Optional[List[int]] = None) -> None:
        """Puts a table and its entry: its own data, or some that is there already."""
        if data is None:
            spelled = self.table_data(clients, files, directories, words)
            data, size = self.put(spelled), len(spelled)
        at = self.number
        self.put(write_entry(Entry(FileType.TABLE, MOMENT, 0, 0, Size(size), BlockNumber(data), None, at, 0, True)))
        self.previous, self.commit = BlockNumber(at), self.commit + 1

    def table_data(self, clients: int, files: int, directories: int, words: Optional[List[int]] = None) -> bytes:
        """The data of a table."""
        record = struct.pack("<QQHHI", 7, max(self.commit, 1), 0, 0, self.commit) + bytes(24) if self.commit else bytes(48)
        use = entity(b"*udfburn sessions") + struct.pack("<HHII", 2, clients, 16 + self.commit, self.commit) + record * clients
        head = struct.pack("<HH", (152 + len(use)) % 65536, len(use) % 65536) + write_dstring(LABEL, 128)
        head += struct.pack("<III4H", self.previous, files, directories, 0x201, 0x201, 0x201, 0)
        return head + use + struct.pack(f"<{len(words or self.words)}I", *(words or self.words))

    def begin(self) -> None:
        """The format: an empty root."""
        parent = self.put(write_identifier("", 10, VirtualAddress(1), 0, 0, BlockNumber(self.number)))
        self.words[1] = self.node(FileType.DIRECTORY, 0, 40, parent, 1)
        self.table(0, 0, 1)

    def image(self) -> bytes:
        """The whole image."""
        return b"".join(self.blocks)


class Name(NamedTuple):
    """A name of a listing: its text, the virtual address to which it leads, and its characteristics."""

    text: str
    virtual: int
    characteristics: int = 2

    def spelled(self, number: int, more: int = 0) -> bytes:
        """The identifier in the block of this number, lengthened by so many bytes."""
        return write_identifier(self.text, self.characteristics, VirtualAddress(self.virtual), 0 if self.characteristics == 10 else 16, more, BlockNumber(number))


def name_of(index: int, virtual: int, is_directory: bool = True, text: str = "") -> Name:
    """A name, by its place."""
    return Name(text or f"{index:05}", virtual, 2 if is_directory else 0)


def one_data() -> bytes:
    """A directory of 26,000 names that each of 4,000 nodes has as its data: all are one entry."""
    forge = Forge()
    forge.begin()
    first = forge.listing(lambda index: name_of(index, 2 + index % 4000))
    entry = forge.node(FileType.DIRECTORY, 16, MEBIBYTE, first, 2)
    forge.words += [entry] * 4000
    forge.words[1] = forge.node(FileType.DIRECTORY, 0, MEBIBYTE, first, 1)
    forge.table(1, 0, 4001)
    return forge.image()


def own_entries() -> bytes:
    """The same, each node with an entry of its own."""
    forge = Forge()
    forge.begin()
    first = forge.listing(lambda index: name_of(index, 2 + index % 4000))
    while forge.left > 40:
        virtual = len(forge.words)
        forge.words.append(forge.node(FileType.DIRECTORY, 16, MEBIBYTE, first, virtual))
    forge.words[1] = forge.node(FileType.DIRECTORY, 0, MEBIBYTE, first, 1)
    forge.table(1, 0, len(forge.words) - 1)
    return forge.image()


def long_paths() -> bytes:
    """Directories below one another, whose names are as long as they can be and lead to one another."""
    forge = Forge()
    forge.begin()
    first = forge.listing(lambda index: name_of(index, 2 + index % 4000, True, f"{index:04}".ljust(250, "x")))
    while forge.left > 40:
        virtual = len(forge.words)
        forge.words.append(forge.node(FileType.DIRECTORY, 16, MEBIBYTE, first, virtual))
    forge.words[1] = forge.node(FileType.DIRECTORY, 0, MEBIBYTE, first, 1)
    forge.table(1, 0, len(forge.words) - 1)
    return forge.image()


def one_file() -> bytes:
    """4,000 files that all have the same mebibyte."""
    forge = Forge()
    forge.begin()
    data = forge.put(bytes(range(256)) * 4096)
    first = forge.listing(lambda index: name_of(index, 2 + index, False), 200 * BLOCK)
    entry = forge.node(FileType.FILE, 16, MEBIBYTE, data, 2)
    forge.words += [entry] * 4000
    forge.words[1] = forge.node(FileType.DIRECTORY, 0, 200 * BLOCK, first, 1)
    forge.table(1, 4000, 1)
    return forge.image()


def one_table() -> bytes:
    """As many VAT ICBs as there is room for, of one table that says the greatest counts."""
    forge = Forge()
    forge.begin()
    forge.commit = 1
    data = forge.table_data(1300, 0xFFFFFFFF, 0xFFFFFFFF, [0] * 200_000)
    first = forge.put(data)
    while forge.left:
        forge.table(data=first, size=len(data))
    return forge.image()


def many_tables() -> bytes:
    """As many tables as there is room for, each with other words than the one before: all virtual addresses are one block."""
    forge = Forge()
    forge.begin()
    while forge.left > 12:
        entry = forge.node(FileType.FILE, 16, 0, None, 2)
        forge.words = [0, forge.words[1]] + [entry] * 4000
        forge.table(1, 4000, 1)
    return forge.image()


def great_commits() -> bytes:
    """Tables that say the greatest commit, and one before it that is far away."""
    forge = Forge()
    forge.begin()
    while forge.left > 4:
        forge.commit = 0xFFFFFFF0 - forge.left
        forge.table(1, 0, 1)
    return forge.image()


def wrong_entries() -> bytes:
    """Blocks that are nearly entries, with each field wrong."""
    forge = Forge()
    forge.begin()
    forge.words += [forge.number + index % 1200 for index in range(4000)]
    while forge.left > 20:
        block = bytearray(write_entry(Entry(FileType.DIRECTORY, MOMENT, 9, forge.number, Size(5000), BlockNumber(3), None, forge.number, 0, True)))
        for at, byte in ((9, 1), (72, 0), (82, 7), (95, 9), (35, 8), (56, 9), (57, 1), (64, 40), (172, 48), (173, 1), (48, 9)):
            block[at] ^= byte
        forge.put(bytes(block))
    forge.table(1, 0, 4001)
    return forge.image()


def wrong_names() -> bytes:
    """A directory of a mebibyte in which each identifier has wrong bytes, twice."""
    forge = Forge()
    forge.begin()
    first = forge.listing(lambda index: name_of(index, 2 + index % 4000, True, f"{index:05}" * 20))
    data = bytearray(b"".join(forge.blocks[first + PARTITION :]))
    for at in range(100, len(data) - 100, 140):
        data[at] ^= 5
        data[at + 60] ^= 9
    forge.blocks[first + PARTITION :] = []
    forge.put(bytes(data))
    while forge.left > 40:
        virtual = len(forge.words)
        forge.words.append(forge.node(FileType.DIRECTORY, 16, MEBIBYTE, first, virtual))
    forge.words[1] = forge.node(FileType.DIRECTORY, 0, MEBIBYTE, first, 1)
    forge.table(1, 0, len(forge.words) - 1)
    return forge.image()


def manifests() -> bytes:
    """Files without names that are all one manifest of 14,000 lines, and one with a name."""
    forge = Forge()
    forge.begin()
    lines = b"".join(b"%064x  %05d/a/b/c\n" % (index, index) for index in range(13_000))
    data = forge.put(lines)
    first = forge.listing(lambda index: name_of(index, 2 + index, False, "manifest-sha256.txt" if not index else ""), 20 * BLOCK)
    while forge.left > 40:
        virtual = len(forge.words)
        forge.words.append(forge.node(FileType.FILE, 16, len(lines), data, virtual))
    forge.words[1] = forge.node(FileType.DIRECTORY, 0, 20 * BLOCK, first, 1)
    forge.table(1, len(forge.words) - 2, 1)
    return forge.image()


def lost_files() -> bytes:
    """Files whose entries are lost, before each of which there are zeros, with digests of what they are not."""
    forge = Forge()
    forge.begin()
    lines = b"".join(b"%064x  %05d\n" % (index, index) for index in range(200))
    manifest = forge.put(lines)
    forge.words.append(forge.node(FileType.FILE, 16, len(lines), manifest, 2))
    first = forge.listing(lambda index: name_of(index, 2 + index, False, "" if index else "manifest-sha256.txt"), 6 * BLOCK)
    forge.words[1] = forge.node(FileType.DIRECTORY, 0, 6 * BLOCK, first, 1)
    begin = forge.number
    while forge.left > 20:
        forge.put(bytes(BLOCK))
    forge.words += [begin + 600 + 3 * index for index in range(200)]
    forge.table(1, 201, 1)
    return forge.image()


def wrong_insides() -> bytes:
    """Files inside of entries with a wrong byte, with digests of what they are not."""
    forge = Forge()
    forge.begin()
    lines = b"".join(b"%064x  %05d\n" % (index, index) for index in range(1000))
    manifest = forge.put(lines)
    forge.words.append(forge.node(FileType.FILE, 16, len(lines), manifest, 2))
    first = forge.listing(lambda index: name_of(index, 2 + index, False, "" if index else "manifest-sha256.txt"), 30 * BLOCK)
    forge.words[1] = forge.node(FileType.DIRECTORY, 0, 30 * BLOCK, first, 1)
    while forge.left > 20:
        virtual = len(forge.words)
        at = forge.node(FileType.FILE, 16, 1872, None, virtual, bytes(1872))
        block = bytearray(forge.blocks[at + PARTITION])
        block[9] ^= 0x55
        forge.blocks[at + PARTITION] = bytes(block)
        forge.words.append(at)
    forge.table(1, len(forge.words) - 2, 1)
    return forge.image()


def long_lists() -> bytes:
    """Files of 879 extents, each with an entry of its own, which all lead to the same descriptor blocks, and these to one mebibyte."""
    forge = Forge()
    forge.begin()
    firsts = (BlockNumber(forge.put(bytes(range(256)) * 4096)),) * 879
    entry = Entry(FileType.FILE, MOMENT, 1, 16, LONGEST_FILE, firsts[0], None, 2, 0, True, firsts[1:], BlockNumber(forge.number))
    for block in write_descriptors(entry):
        forge.put(block)
    first = forge.listing(lambda index: name_of(index, 2 + index, False), 40 * BLOCK)
    while forge.left > 40:
        forge.words.append(forge.put(write_entry(entry._replace(location=len(forge.words)))))
    forge.words[1] = forge.node(FileType.DIRECTORY, 0, 40 * BLOCK, first, 1)
    forge.table(1, len(forge.words) - 2, 1)
    return forge.image()


def junk_lines() -> bytes:
    """A manifest of seven mebibytes, which are all one, and millions of lines that are none."""
    forge = Forge()
    forge.begin()
    data = BlockNumber(forge.put(b"a\n" * (MEBIBYTE // 2)))
    entry = Entry(FileType.FILE, MOMENT, 1, 16, Size(7 * MEBIBYTE), data, None, 2, 0, True, (data,) * 6)
    forge.words.append(forge.put(write_entry(entry)))
    parent, name = Name("", 1, 10), Name("manifest-sha256.txt", 2, 0)
    listing = parent.spelled(forge.number) + name.spelled(forge.number)
    forge.words[1] = forge.node(FileType.DIRECTORY, 0, len(listing), forge.put(listing), 1)
    # What is larger may have more.
    forge.put(bytes(BLOCK * (forge.left - 20)))
    forge.table(1, 1, 1)
    return forge.image()


FORGED: Dict[str, Callable[[], bytes]] = {
    make.__name__: make for make in (
        one_data, own_entries, long_paths, one_file, one_table, many_tables, great_commits, wrong_entries, wrong_names, manifests, lost_files,
        wrong_insides, long_lists, junk_lines,
    )
}

__all__ = ["FORGED"]
