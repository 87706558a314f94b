"""Descriptor blocks: the allocation descriptors of a file for which its entry has no room (allocation extent descriptors, ECMA-167 4/14.5).

How many there are, and which extents each has, follows from the size of the file. So what an entry says leads to seven blocks at most.
"""

from __future__ import annotations

import struct
from typing import List, NamedTuple, Optional, Sequence, Tuple

from ..protocol.units import BlockNumber, Size
from .basics import BLOCK_DESCRIPTORS, BLOCK_NUMBERS, address_of, blocks_of, descriptor, read_tag, tag_faults
from .entry import EXTENT, LEADS_ON, Entry, descriptor_blocks, descriptor_faults, extent_count, extent_faults, extent_size, firsts_at, own_extents
from .medium import Medium
from .mend import confirms
from .notes import DamageCause, Faults, Notes, StructureFault

DESCRIPTOR_BLOCK = 258
LIST_LAYOUT = struct.Struct("<II")
"""What follows the tag: the location of the block before it, which is always 0, and the length of the descriptors."""

LIST_BEGIN = 16 + LIST_LAYOUT.size


class DescriptorBlock(NamedTuple):
    """What a descriptor block says, of which this is the number.

    `firsts` are the numbers of the first blocks of its extents; None where it cannot be read, or where they make no sense. `proved` says
    that its CRC agrees with them, and its location with the block. `faults` are all that is not as it must be. `data` is the block, where
    there are some.
    """

    number: BlockNumber
    extents: range
    firsts: Optional[Tuple[BlockNumber, ...]]
    proved: bool
    faults: Faults
    data: bytes = b""


def extents_in(size: Size, index: int) -> range:
    """The extents of a file of this size whose descriptors one of its descriptor blocks has."""
    begin = own_extents(size) + (BLOCK_DESCRIPTORS - 1) * index
    left = extent_count(size) - begin
    return range(begin, begin + (left if left <= BLOCK_DESCRIPTORS else BLOCK_DESCRIPTORS - 1))


def write_descriptor_block(number: BlockNumber, size: Size, extents: range, firsts: Sequence[BlockNumber]) -> bytes:
    """The descriptor block of this number, for some extents of a file of this size, by the numbers of their first blocks."""
    listed = b"".join(EXTENT.pack(extent_size(size, index), first, 0, 0, 0) for index, first in zip(extents, firsts))
    if extents.stop < extent_count(size):
        listed += EXTENT.pack(LEADS_ON, number + 1, 0, 0, 0)
    return descriptor(DESCRIPTOR_BLOCK, LIST_LAYOUT.pack(0, len(listed)) + listed, number)


def write_descriptors(entry: Entry) -> List[bytes]:
    """The descriptor blocks of an entry that has each of its extents, in order."""
    if entry.descriptors is None:
        return []
    blocks = []
    for index in range(descriptor_blocks(entry.size)):
        extents = extents_in(entry.size, index)
        firsts = entry.others[extents.start - 1 : extents.stop - 1]
        blocks.append(write_descriptor_block(BlockNumber(entry.descriptors + index), entry.size, extents, firsts))
    return blocks


def read_descriptor_block(block: Optional[bytes], number: BlockNumber, size: Size, extents: range) -> DescriptorBlock:
    """What a block says as the descriptor block of this number, for some extents of a file of this size."""
    if block is None:
        return DescriptorBlock(number, extents, None, False, [StructureFault(DamageCause.MISSING, "a descriptor block cannot be read")])
    said = said_firsts(block, len(extents))
    firsts = firsts_at(block, LIST_BEGIN, extents, size)
    proved = is_list(block, number, size, extents, said)
    if proved and block == write_descriptor_block(number, size, extents, said):
        return DescriptorBlock(number, extents, said, True, [])
    return DescriptorBlock(number, extents, said if proved else firsts, proved, list_faults(block, number, size, extents), block)


def said_firsts(block: bytes, count: int) -> Tuple[BlockNumber, ...]:
    """The numbers of the first blocks of so many extents, as a descriptor block says them, whatever else it says of these."""
    return tuple(BlockNumber(EXTENT.unpack_from(block, LIST_BEGIN + EXTENT.size * place)[1]) for place in range(count))


def is_list(block: bytes, number: BlockNumber, size: Size, extents: range, firsts: Sequence[BlockNumber]) -> bool:
    """Whether a block was written as the descriptor block of this number with these first blocks: its CRC or its checksum says so."""
    if not all(0 <= first <= BLOCK_NUMBERS - blocks_of(extent_size(size, index)) for index, first in zip(extents, firsts)):
        return False
    written, tag = write_descriptor_block(number, size, extents, firsts), read_tag(block)
    # A block of another place has another location, and a checksum that agrees with it.
    is_here = tag.location == number or block[4] == written[4] and not tag.agrees
    return is_here and confirms(block, written)


def list_faults(block: bytes, number: BlockNumber, size: Size, extents: range) -> Faults:
    """All that is not as it must be with a descriptor block, in the order in which `udfburn` looks for it."""
    before, length = LIST_LAYOUT.unpack_from(block, 16)
    end = LIST_BEGIN + (length if length <= EXTENT.size * BLOCK_DESCRIPTORS and length % EXTENT.size == 0 else 0)
    faults = [StructureFault(DamageCause.TAG, text) for text in tag_faults(block[:end], DESCRIPTOR_BLOCK, number)]
    if before:
        faults.append(StructureFault(DamageCause.FIXED, f"the descriptor block before it would have block number {before}"))
    leads_on = extents.stop < extent_count(size)
    if length != EXTENT.size * (len(extents) + leads_on):
        faults.append(StructureFault(DamageCause.LENGTHS, f"the length {length} of its descriptors is not that of a file of {size} bytes"))
    faults += extent_faults(block, LIST_BEGIN, extents, size)
    if leads_on:
        faults += next_faults(block, LIST_BEGIN + EXTENT.size * len(extents), number)
    if any(block[end:]):
        faults.append(StructureFault(DamageCause.TAIL, "a byte after the descriptors is not zero"))
    return faults


def next_faults(block: bytes, at: int, number: BlockNumber) -> Faults:
    """What is wrong with the descriptor that leads on from a descriptor block to the next one."""
    faults = list(descriptor_faults(block, at, LEADS_ON, 1))
    following, = struct.unpack_from("<I", block, at + 4)
    if following != number + 1:
        faults.append(StructureFault(DamageCause.EXTENT, f"it leads on to block number {following}, and not to the one after it"))
    return faults


def read_descriptors(medium: Medium, entry: Entry) -> List[DescriptorBlock]:
    """The descriptor blocks of an entry, in order. None is left out: each lies right after the one before it."""
    if entry.descriptors is None:
        return []
    found = []
    for index in range(descriptor_blocks(entry.size)):
        number = BlockNumber(entry.descriptors + index)
        found.append(read_descriptor_block(medium.block(address_of(number)), number, entry.size, extents_in(entry.size, index)))
    return found


def note_descriptors(notes: Notes, blocks: Sequence[DescriptorBlock]) -> None:
    """Notes what is not as it must be with descriptor blocks, each by its own address."""
    for block in blocks:
        notes.extend(address_of(block.number), block.faults)


def with_descriptors(entry: Entry, blocks: Sequence[DescriptorBlock]) -> Optional[Entry]:
    """The entry with the extents that its descriptor blocks have; None where one of them cannot be used."""
    others = list(entry.others[: own_extents(entry.size) - 1])
    for block in blocks:
        if block.firsts is None:
            return None
        others += block.firsts
    return entry._replace(others=tuple(others))


__all__ = [
    "DESCRIPTOR_BLOCK", "DescriptorBlock", "extents_in", "is_list", "note_descriptors", "read_descriptor_block", "read_descriptors", "said_firsts", "with_descriptors",
    "write_descriptor_block", "write_descriptors",
]
