"""File entries (ECMA-167 4/14.9) and the file set descriptor (4/14.1)."""

from __future__ import annotations

import struct
from enum import IntEnum
from typing import Iterator, List, NamedTuple, Optional, Tuple

from ..protocol.units import BlockNumber, Moment, Size
from .basics import (
    BLOCK, BLOCK_DESCRIPTORS, BLOCK_NUMBERS, CHARACTER_SET, DEVELOPER, ENTRY_DESCRIPTORS, EXTENT_BYTES, INSIDE, LONGEST_FILE, UDF_SUFFIX, UNUSED, blocks_of, crc,
    entity, is_label, read_dstring, read_tag, read_timestamp, tag_faults, write_dstring, write_tag, write_timestamp,
)
from .notes import DamageCause, Faults, StructureFault

FILE_ENTRY, FILE_SET = 261, 256
LONG, EMBEDDED = 1, 3
"""The flags of an entry: its allocation descriptors are long ones, or its bytes are in their place."""

LEADS_ON = 3 << 30 | BLOCK
"""The length of a descriptor that leads on: its kind is 3 (ECMA-167 4/14.14.1.1), and a descriptor block is one block."""


class FileType(IntEnum):
    """The file type of an entry (ECMA-167 4/14.6.6; UDF 2.01 2.2.10 for the table)."""

    DIRECTORY = 4
    FILE = 5
    TABLE = 248


PERMISSIONS = {FileType.DIRECTORY: 0x14A5, FileType.FILE: 0x1084, FileType.TABLE: 0x1084}
FILE_TYPES = {int(kind): kind for kind in FileType}


class Extent(NamedTuple):
    """Bytes in blocks in a row: the number of the first one, and how many bytes they are."""

    first: BlockNumber
    size: Size

    @property
    def end(self) -> BlockNumber:
        """The number after the last block."""
        return BlockNumber(self.first + blocks_of(self.size))

    @property
    def is_known(self) -> bool:
        """Whether it is known where it is. Of one whose descriptor is lost it is not, and `first` is UNUSED."""
        return self.first != UNUSED


def extent_count(size: Size) -> int:
    """The extents that so many bytes are in."""
    return -(-size // EXTENT_BYTES)


def own_extents(size: Size) -> int:
    """How many of them have their descriptors in the entry: all, or where one of its descriptors leads on, those before that."""
    count = extent_count(size)
    return count if count <= ENTRY_DESCRIPTORS else ENTRY_DESCRIPTORS - 1


def descriptor_blocks(size: Size) -> int:
    """The descriptor blocks of a file of this size."""
    return max(-(-(extent_count(size) - ENTRY_DESCRIPTORS) // (BLOCK_DESCRIPTORS - 1)), 0)


def extent_size(size: Size, index: int) -> Size:
    """The bytes of an extent of a file of this size."""
    return Size(min(size - EXTENT_BYTES * index, EXTENT_BYTES))


class Entry(NamedTuple):
    """What a file entry says.

    `moment` is None where none can be read. `first` is the number of the first block of the bytes, None where they are in
    `inside` or where there are none. `location` and `check` are those of the tag: the virtual address of a node or the number of
    a VAT ICB, and the CRC. `proved` says that the CRC agrees with the fields. `others` are the numbers of the first blocks of a file's
    further extents, as far as they are known. `descriptors` is the number of the first of its descriptor blocks; None where the entry
    has all descriptors.
    """

    kind: FileType
    moment: Optional[Moment]
    links: int
    unique: int
    size: Size
    first: Optional[BlockNumber]
    inside: Optional[bytes]
    location: int
    check: int
    proved: bool
    others: Tuple[BlockNumber, ...] = ()
    descriptors: Optional[BlockNumber] = None

    @property
    def extents(self) -> Tuple[Extent, ...]:
        """Where the bytes are, in order; empty where no blocks hold them. What descriptor blocks say is among them once it was read."""
        if self.first is None:
            return ()
        firsts = (self.first, *self.others)
        return tuple(Extent(first, extent_size(self.size, index)) for index, first in enumerate(firsts))

    @property
    def end(self) -> BlockNumber:
        """The number after the last block of the bytes and of descriptors; 0 where there is none."""
        end = max((extent.end for extent in self.extents if extent.is_known), default=BlockNumber(0))
        return end if self.descriptors is None else max(end, BlockNumber(self.descriptors + descriptor_blocks(self.size)))

    @property
    def is_whole(self) -> bool:
        """Whether it has each of its extents; else those that its descriptor blocks have are missing."""
        return self.first is None or len(self.others) + 1 == extent_count(self.size)

    @property
    def blocks(self) -> int:
        """The blocks that hold the bytes."""
        return blocks_of(self.size) if self.first is not None else 0


class EntryFields(NamedTuple):
    """The fields of an entry after its tag, as they are."""

    direct: int
    strategy: int
    parameter: int
    maximum: int
    reserved: int
    type: int
    parent: bytes
    flags: int
    user: int
    group: int
    permissions: int
    links: int
    record_format: int
    display: int
    record_length: int
    size: Size
    blocks: int
    accessed: bytes
    modified: bytes
    changed: bytes
    checkpoint: int
    attributes: bytes
    implementation: bytes
    unique: int
    attributes_length: int
    allocation_length: int


ENTRY_LAYOUT = struct.Struct("<IHHHBB6sHIIIHBBIQQ12s12s12sI16s32sQII")
EXTENT = struct.Struct("<IIHIH")
END = 16 + ENTRY_LAYOUT.size


def descriptor_end(fields: EntryFields) -> int:
    """Where the descriptor ends, by its flags and the length of its allocation descriptors."""
    length = fields.allocation_length
    if fields.flags == EMBEDDED:
        return END + length if 0 < length <= INSIDE else END
    return END + length if length <= INSIDE and length % 16 == 0 else END


def is_entry_like(block: bytes) -> bool:
    """Whether the block has the first bytes of a file entry's tag."""
    return block[:4] == b"\x05\x01\x03\x00"


def read_entry(block: bytes, location: int) -> Tuple[Optional[Entry], Faults]:
    """The entry that a block is at a location, and all that is not as it must be.

    No entry where its fields make no sense together: its kind, its size, or the place of its bytes.
    """
    fields = EntryFields(*ENTRY_LAYOUT.unpack_from(block, 16))
    entry = sensible(block, fields) if fields.type in FILE_TYPES else None
    if entry is not None and is_exact(entry, block, location):
        return entry, []
    return entry, list(entry_faults(block, fields, location))


def is_exact(entry: Entry, block: bytes, location: int) -> bool:
    """Whether the block is that of the entry at a location, to the last byte."""
    if entry.moment is None or entry.location != location or entry.kind is FileType.TABLE and (entry.links or entry.unique):
        return False
    return write_entry(entry) == block


def sensible(block: bytes, fields: EntryFields) -> Optional[Entry]:
    """The entry of these fields, where its size and the place of its bytes make sense."""
    size, inside = fields.size, None
    first: Optional[BlockNumber] = None
    others: Tuple[BlockNumber, ...] = ()
    descriptors: Optional[BlockNumber] = None
    if size > greatest(FILE_TYPES[fields.type]):
        return None
    if fields.flags == EMBEDDED:
        if not 0 < size <= INSIDE or fields.type != FileType.FILE:
            return None
        inside = block[END : END + size]
    elif size:
        firsts = firsts_at(block, END, range(own_extents(size)), size)
        if firsts is None:
            return None
        first, others = firsts[0], firsts[1:]
        if descriptor_blocks(size):
            descriptors = next_at(block, size)
            if descriptors is None:
                return None
    elif fields.type != FileType.FILE:
        return None
    tag = read_tag(block)
    stamps = (read_timestamp(stamp) for stamp in (fields.modified, fields.accessed, fields.changed))
    moment = next((stamp for stamp in stamps if stamp is not None), None)
    body = block[16 : descriptor_end(fields)]
    proved = tag.crc == crc(body)
    return Entry(FILE_TYPES[fields.type], moment, fields.links, fields.unique, size, first, inside, tag.location, tag.crc, proved, others, descriptors)


def greatest(kind: FileType) -> Size:
    """The bytes of what is of a kind, at most."""
    return LONGEST_FILE if kind is FileType.FILE else EXTENT_BYTES


def firsts_at(block: bytes, at: int, extents: range, size: Size) -> Optional[Tuple[BlockNumber, ...]]:
    """The numbers of the first blocks of these extents of so many bytes, whose descriptors begin at a place of the block; None where they
    make no sense. Of one alone, its length is the size."""
    found = [EXTENT.unpack_from(block, at + EXTENT.size * place)[:2] for place in range(len(extents))]
    if any(first + blocks_of(extent_size(size, index)) > BLOCK_NUMBERS for index, (_, first) in zip(extents, found)):
        return None
    if extent_count(size) > 1 and any(length % 2**30 != extent_size(size, index) for index, (length, _) in zip(extents, found)):
        return None
    return tuple(first for _, first in found)


def next_at(block: bytes, size: Size) -> Optional[BlockNumber]:
    """The number of the first descriptor block, by the last descriptor of an entry; None where that makes no sense."""
    length, first = EXTENT.unpack_from(block, END + EXTENT.size * own_extents(size))[:2]
    return first if length % 2**30 == BLOCK and first + descriptor_blocks(size) <= BLOCK_NUMBERS else None


def entry_faults(block: bytes, fields: EntryFields, location: int) -> Iterator[StructureFault]:
    """All that is not as it must be, in the order in which `udfburn` looks for it."""
    for text in tag_faults(block[: descriptor_end(fields)], FILE_ENTRY, location):
        yield StructureFault(DamageCause.TAG, text)
    if (fields.strategy, fields.parameter, fields.maximum) != (4, 0, 1):
        yield StructureFault(DamageCause.STRATEGY, "the strategy is not 4, with at most one entry")
    if fields.type not in FILE_TYPES:
        yield StructureFault(DamageCause.KIND, f"the file type is {fields.type}")
        return
    kind = FILE_TYPES[fields.type]
    for text in fixed_faults(fields, kind):
        yield StructureFault(DamageCause.FIXED, text)
    yield from place_faults(block, fields, kind)
    if any(block[descriptor_end(fields) :]):
        yield StructureFault(DamageCause.TAIL, "a byte after the descriptor is not zero")


def fixed_faults(fields: EntryFields, kind: FileType) -> List[str]:
    """Fields that always say the same, or that follow from others, and say something else."""
    checks = (
        (fields.direct == 0 and fields.reserved == 0 and not any(fields.parent), "a field of the ICB tag is not zero"),
        (fields.user == fields.group == 0xFFFFFFFF, "the owner or the group is not none"),
        (fields.permissions == PERMISSIONS[kind], f"the permissions are {fields.permissions:x} hex, and not {PERMISSIONS[kind]:x}"),
        (fields.record_format == fields.display == fields.record_length == 0, "a field of records is not zero"),
        (fields.accessed == fields.modified == fields.changed, "the three timestamps differ"),
        (read_timestamp(fields.accessed) is not None, "a timestamp is not valid"),
        (fields.checkpoint == 1, f"the checkpoint is {fields.checkpoint}, and not 1"),
        (not any(fields.attributes) and fields.attributes_length == 0, "there are extended attributes"),
        (fields.implementation == DEVELOPER, "the implementation is not *udfburn"),
        (fields.flags == LONG or (fields.flags == EMBEDDED and kind is FileType.FILE), f"the flags are {fields.flags}"),
        (kind is not FileType.TABLE or fields.links == 0 and fields.unique == 0, "a table has links or a unique ID"),
    )
    return [text for holds, text in checks if not holds]


def place_faults(block: bytes, fields: EntryFields, kind: FileType) -> Iterator[StructureFault]:
    """What is wrong with the lengths, and with the extents."""
    size, length = fields.size, fields.allocation_length
    if fields.flags == EMBEDDED:
        if not 0 < size <= INSIDE or fields.blocks or length != size:
            yield StructureFault(DamageCause.LENGTHS, f"the size {size}, the blocks {fields.blocks} and the length {length} do not agree")
        return
    own, further = own_extents(size), descriptor_blocks(size)
    agree = size <= greatest(kind) and fields.blocks == blocks_of(size) and length == EXTENT.size * (own + (further > 0))
    agree = agree and (struct.unpack_from("<I", block, END)[0] % 2**30 == extent_size(size, 0) if size else kind is FileType.FILE)
    last = END + EXTENT.size * own
    if not agree:
        yield StructureFault(DamageCause.LENGTHS, f"the size {size}, the blocks {fields.blocks}, the length {length} and the extents do not agree")
    if size > LONGEST_FILE:
        return
    yield from extent_faults(block, END, range(own), size)
    if further:
        yield from descriptor_faults(block, last, LEADS_ON, further)


def extent_faults(block: bytes, at: int, extents: range, size: Size) -> Iterator[StructureFault]:
    """What is wrong with the descriptors of these extents of so many bytes, which begin at a place of the block."""
    for place, index in enumerate(extents):
        length = extent_size(size, index)
        yield from descriptor_faults(block, at + EXTENT.size * place, length, blocks_of(length))


def descriptor_faults(block: bytes, at: int, wanted: int, blocks: int) -> Iterator[StructureFault]:
    """What is wrong with an allocation descriptor (ECMA-167 4/14.14.2) that has to say this length, and lead to so many blocks."""
    length, first, partition, used, last = EXTENT.unpack_from(block, at)
    if length != wanted or partition or used or last:
        yield StructureFault(DamageCause.EXTENT, "an extent's kind, length, partition or implementation use is not as it must be")
    if first + blocks > BLOCK_NUMBERS:
        yield StructureFault(DamageCause.EXTENT, f"the extent from block number {first} on ends past the greatest partition")


def write_entry(entry: Entry) -> bytes:
    """The block of an entry, as docs/FORMAT.md has it. Its moment has to be known."""
    if entry.moment is None:
        raise ValueError("the moment of the entry is not known")
    stamp = write_timestamp(entry.moment)
    if entry.inside is not None:
        flags, blocks, allocation = EMBEDDED, 0, entry.inside
    else:
        flags, blocks = LONG, blocks_of(entry.size)
        allocation = b"".join(EXTENT.pack(extent.size, extent.first, 0, 0, 0) for extent in entry.extents[: own_extents(entry.size)])
        if entry.descriptors is not None:
            allocation += EXTENT.pack(LEADS_ON, entry.descriptors, 0, 0, 0)
    fields = EntryFields(
        0, 4, 0, 1, 0, entry.kind, bytes(6), flags, 0xFFFFFFFF, 0xFFFFFFFF, PERMISSIONS[entry.kind], entry.links, 0, 0, 0, entry.size,
        blocks, stamp, stamp, stamp, 1, bytes(16), DEVELOPER, entry.unique, 0, len(allocation),
    )
    body = ENTRY_LAYOUT.pack(*fields) + allocation
    return (write_tag(FILE_ENTRY, body, entry.location) + body).ljust(BLOCK, b"\0")


# ---- the file set

def write_file_set(label: str, moment: Moment) -> bytes:
    """The block of the file set descriptor, at virtual address 0."""
    body = b"".join((
        write_timestamp(moment), struct.pack("<HHIIII", 3, 3, 1, 1, 0, 0), CHARACTER_SET, write_dstring(label, 128), CHARACTER_SET,
        write_dstring(label, 32), bytes(64), struct.pack("<IIHIH", 2048, 1, 1, 0, 0), entity(b"*OSTA UDF Compliant", UDF_SUFFIX), bytes(64),
    ))
    return (write_tag(FILE_SET, body, 0) + body).ljust(BLOCK, b"\0")


def read_file_set(block: bytes) -> Tuple[Optional[str], Optional[Moment], Faults]:
    """The label and the moment of a file set descriptor, each where it can be read, and all that is not as it must be."""
    label, moment = read_dstring(block[304:336]), read_timestamp(block[16:28])
    if not is_label(label):
        label = None
    faults = [StructureFault(DamageCause.TAG, text) for text in tag_faults(block[:512], FILE_SET, 0)]
    if label is None or moment is None or write_file_set(label, moment)[16:512] != block[16:512]:
        faults.append(StructureFault(DamageCause.FIXED, "a field of the file set descriptor is not as it must be"))
    if any(block[512:]):
        faults.append(StructureFault(DamageCause.TAIL, "a byte after the descriptor is not zero"))
    return label, moment, faults
