"""The volume header: blocks 0 to 256, which say the label, the moment of the format and the capacity (docs/FORMAT.md, "The volume header: blocks 0 to 256")."""

from __future__ import annotations

import struct
from typing import Callable, Dict, Iterator, List, NamedTuple, Optional, Tuple, TypeVar

from ..protocol.units import Address, Moment
from .basics import (
    BLOCK, CHARACTER_SET, DEVELOPER, GREATEST_CAPACITY, LEAST_CAPACITY, PARTITION, UDF_SUFFIX, UNUSED, crc, descriptor, entity, is_label,
    read_dstring, read_tag, read_timestamp, write_dstring, write_timestamp,
)
from .medium import Medium
from .notes import DamageCause, Notes

MAIN, RESERVE = Address(32), Address(48)
"""The addresses of the two volume descriptor sequences."""

INTEGRITY = Address(64)
ANCHOR = Address(256)

T = TypeVar("T")


class Front(NamedTuple):
    """What the volume header says; None where neither sequence says it."""

    label: Optional[str]
    moment: Optional[Moment]
    capacity: Optional[int]


def primary(label: str, moment: Moment, location: int) -> bytes:
    """The primary volume descriptor (ECMA-167 3/10.1)."""
    return descriptor(1, b"".join((
        struct.pack("<II", 1, 0), write_dstring(label, 32), struct.pack("<HHHHII", 1, 1, 2, 3, 1, 1),
        write_dstring(f"{moment:016x}{label}", 128), CHARACTER_SET, CHARACTER_SET, bytes(48), write_timestamp(moment), DEVELOPER, bytes(92),
    )), location)


def implementation(label: str, location: int) -> bytes:
    """The implementation use volume descriptor (ECMA-167 3/10.4; UDF 2.01 2.2.7)."""
    return descriptor(4, b"".join((
        struct.pack("<I", 2), entity(b"*UDF LV Info", UDF_SUFFIX), CHARACTER_SET, write_dstring(label, 128), bytes(108), DEVELOPER, bytes(128),
    )), location)


def partition(capacity: int, location: int) -> bytes:
    """The partition descriptor (ECMA-167 3/10.5)."""
    return descriptor(5, b"".join((
        struct.pack("<IHH", 3, 1, 0), entity(b"+NSR03"), bytes(128), struct.pack("<III", 2, PARTITION, capacity - PARTITION),
        DEVELOPER, bytes(284),
    )), location)


def logical_volume(label: str, location: int) -> bytes:
    """The logical volume descriptor (ECMA-167 3/10.6), with a type 1 map and a virtual partition (UDF 2.01 2.2.8)."""
    maps = struct.pack("<BBHH", 1, 6, 1, 0)
    maps += struct.pack("<BBH", 2, 64, 0) + entity(b"*UDF Virtual Partition", UDF_SUFFIX) + struct.pack("<HH", 1, 0) + bytes(24)
    return descriptor(6, b"".join((
        struct.pack("<I", 4), CHARACTER_SET, write_dstring(label, 128), struct.pack("<I", BLOCK), entity(b"*OSTA UDF Compliant", UDF_SUFFIX),
        struct.pack("<IIH6x", BLOCK, 0, 1), struct.pack("<II", len(maps), 2), DEVELOPER, bytes(128), struct.pack("<II", 8192, INTEGRITY), maps,
    )), location)


def integrity(moment: Moment, capacity: int) -> bytes:
    """The logical volume integrity descriptor (ECMA-167 3/10.10; UDF 2.01 2.2.6)."""
    return descriptor(9, b"".join((
        write_timestamp(moment), bytes(12), struct.pack("<Q", 16), bytes(24),
        struct.pack("<6I", 2, 46, capacity - 262, UNUSED, capacity - PARTITION, UNUSED), DEVELOPER, struct.pack("<IIHHH", 0, 1, 0x201, 0x201, 0x201),
    )), INTEGRITY)


def blocks_of_front(label: str, moment: Moment, capacity: int) -> Dict[int, bytes]:
    """The blocks of a volume header that are not zeros."""
    blocks = {at: (b"\0" + word + b"\1").ljust(BLOCK, b"\0") for at, word in ((16, b"BEA01"), (17, b"NSR03"), (18, b"TEA01"))}
    for at in (MAIN, RESERVE):
        blocks[at] = primary(label, moment, at)
        blocks[at + 1] = implementation(label, at + 1)
        blocks[at + 2] = partition(capacity, at + 2)
        blocks[at + 3] = logical_volume(label, at + 3)
        blocks[at + 4] = descriptor(7, struct.pack("<II", 5, 0), at + 4)
        blocks[at + 5] = descriptor(8, bytes(496), at + 5)
    blocks[INTEGRITY] = integrity(moment, capacity)
    blocks[INTEGRITY + 1] = descriptor(8, bytes(496), INTEGRITY + 1)
    blocks[ANCHOR] = descriptor(2, struct.pack("<IIII", 32768, MAIN, 32768, RESERVE) + bytes(480), ANCHOR)
    return blocks


# ---- reading it

def is_descriptor(block: bytes, identifier: int) -> bool:
    """Whether the block has a descriptor of this kind, whose CRC agrees."""
    tag = read_tag(block)
    return tag.identifier == identifier and 0 < tag.length <= BLOCK - 16 and tag.crc == crc(block[16 : 16 + tag.length])


def label_at(block: bytes) -> Optional[str]:
    """The label that a primary volume descriptor says."""
    label = read_dstring(block[24:56])
    return label if is_label(label) else None


def long_label(start: int) -> Callable[[bytes], Optional[str]]:
    """The label that is as a dstring of 128 bytes at a place."""
    def read(block: bytes) -> Optional[str]:
        label = read_dstring(block[start : start + 128])
        return label if is_label(label) else None
    return read


def moment_at(start: int) -> Callable[[bytes], Optional[Moment]]:
    """The moment whose timestamp is at a place."""
    return lambda block: read_timestamp(block[start : start + 12])


def capacity_at(start: int) -> Callable[[bytes], Optional[int]]:
    """The capacity whose partition length is at a place."""
    def read(block: bytes) -> Optional[int]:
        capacity = int(struct.unpack_from("<I", block, start)[0]) + PARTITION
        return capacity if LEAST_CAPACITY <= capacity <= GREATEST_CAPACITY else None
    return read


def said_at(medium: Medium, places: List[Tuple[Address, int, Callable[[bytes], Optional[T]]]]) -> Optional[T]:
    """What the first place says whose descriptor is whole; else the first place that says it at all."""
    loose: List[T] = []
    for at, identifier, read in places:
        block = medium.block(at)
        value = read(block) if block is not None else None
        if value is None or block is None:
            continue
        if is_descriptor(block, identifier):
            return value
        loose.append(value)
    return loose[0] if loose else None


def read_front(medium: Medium) -> Front:
    """The label, the moment and the capacity, from the main sequence or the reserve one, or unknown."""
    both = (MAIN, RESERVE)
    label = said_at(medium, [(at, 1, label_at) for at in both] + [(Address(at + 3), 6, long_label(84)) for at in both] + [(Address(at + 1), 4, long_label(116)) for at in both])
    moment = said_at(medium, [(at, 1, moment_at(376)) for at in both] + [(INTEGRITY, 9, moment_at(16))])
    capacity = said_at(medium, [(Address(at + 2), 5, capacity_at(192)) for at in both] + [(INTEGRITY, 9, capacity_at(88))])
    return Front(label, moment, capacity)


def note_front(medium: Medium, front: Front, notes: Notes) -> None:
    """Notes each block of the volume header that is not as the three values have it. What is unknown is not compared."""
    if front.label is None or front.moment is None or front.capacity is None:
        notes.add(MAIN if front.capacity is not None else Address(MAIN + 2), DamageCause.FRONT, "the volume header does not give label, moment and capacity")
    expected = blocks_of_front(front.label or "?", front.moment or Moment(0), front.capacity or LEAST_CAPACITY)
    for at, text in differing_blocks(medium, expected, set(unknown_blocks(front))):
        notes.add(at, DamageCause.MISSING if not text else DamageCause.FRONT, text or "the block cannot be read")


def unknown_blocks(front: Front) -> Iterator[int]:
    """The blocks whose bytes follow from a value that is unknown."""
    for at in (MAIN, RESERVE):
        if front.label is None or front.moment is None:
            yield at
        if front.label is None:
            yield from (at + 1, at + 3)
        if front.capacity is None:
            yield at + 2
    if front.moment is None or front.capacity is None:
        yield INTEGRITY


def differing_blocks(medium: Medium, expected: Dict[int, bytes], unknown: "set[int]") -> Iterator[Tuple[Address, str]]:
    """The blocks that differ, with the first byte that does; an empty text where a block is missing."""
    zeros = bytes(BLOCK)
    for at in map(Address, range(PARTITION)):
        block = medium.block(at)
        if block is None:
            yield at, ""
        elif at not in unknown and block != expected.get(at, zeros):
            place = next(index for index, (a, b) in enumerate(zip(block, expected.get(at, zeros))) if a != b)
            yield at, f"byte {place} is not that of the volume header of this label, moment and capacity"
