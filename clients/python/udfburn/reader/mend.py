"""Entries and identifiers with wrong bytes, mended where their own check, or what they say twice, leaves one reading alone."""

from __future__ import annotations

import struct
from itertools import product
from typing import Iterable, Iterator, List, NamedTuple, Optional, Sequence, Tuple, TypeVar

from ..protocol.units import BlockNumber, Size, VirtualAddress
from .basics import (
    BLOCK, BLOCK_NUMBERS, ENTRY_DESCRIPTORS, EXTENT_BYTES, GREATEST_CAPACITY, INSIDE, LONGEST_FILE, NODES, blocks_of, crc, expand, is_name, read_tag, read_timestamp,
    write_tag,
)
from .budget import Budget, Work
from .entry import (
    EMBEDDED, END, ENTRY_LAYOUT, EXTENT, FILE_TYPES, LONG, PERMISSIONS, Entry, EntryFields, FileType, descriptor_blocks, extent_count, extent_size, own_extents,
    read_entry, write_entry,
)

T = TypeVar("T")


class Hint(NamedTuple):
    """What is known of an entry from elsewhere: the block number at which it is, and what a table and a directory say; and the first blocks of
    extents that an earlier entry of the file has, since an append leaves these where they are."""

    number: BlockNumber
    location: Optional[int] = None
    unique: Optional[int] = None
    kind: Optional[FileType] = None
    firsts: Tuple[BlockNumber, ...] = ()


def unlike(values: Iterable[Optional[T]]) -> List[T]:
    """The values that are there, each once, in order."""
    found: List[T] = []
    for value in values:
        if value is not None and value not in found:
            found.append(value)
    return found


def mend_entry(block: bytes, hint: Hint, budget: Budget) -> Optional[Entry]:
    """The entry that a block was written as, `proved` where its CRC or its checksum says so.

    Else what its fields say, where they make sense together; None where they do not.
    """
    tag = read_tag(block)
    location = tag.location if hint.location is None else hint.location
    plain, faults = read_entry(block, location)
    if plain is not None and not faults:
        return plain
    for candidate in possible_entries(block, hint, location):
        if not budget.take(Work.MENDS):
            break
        if confirms(block, write_entry(candidate)):
            return candidate._replace(location=location if confirms_location(block, candidate, location) else tag.location)
    return None if plain is None else plain._replace(proved=False)


def confirms(block: bytes, written: bytes) -> bool:
    """Whether the block is this one with wrong bytes: by its CRC; or where that alone differs, by its checksum, with which the CRC that is
    there does not agree."""
    if block[8:10] == written[8:10]:
        return True
    return not read_tag(block).agrees and block[16:] == written[16:] and block[4] == written[4] and block[:8] + block[10:16] == written[:8] + written[10:16]


def confirms_location(block: bytes, entry: Entry, location: int) -> bool:
    """Whether the entry was written at this location: its tag says so, or its checksum where another byte of the tag is wrong."""
    tag = read_tag(block)
    return tag.location == location or block[4] == write_entry(entry._replace(location=location))[4] and not tag.agrees


def possible_entries(block: bytes, hint: Hint, location: int) -> Iterator[Entry]:
    """The entries that the block may have been, by each place that says a value."""
    fields = EntryFields(*ENTRY_LAYOUT.unpack_from(block, 16))
    extent, first = EXTENT.unpack_from(block, END)[:2]
    moments = unlike(read_timestamp(stamp) for stamp in (fields.modified, fields.accessed, fields.changed))
    kinds = unlike((FILE_TYPES.get(fields.type), hint.kind, FileType.DIRECTORY if fields.permissions == PERMISSIONS[FileType.DIRECTORY] else FileType.FILE))
    uniques = unlike((fields.unique, hint.unique, 0))
    for kind, moment, unique in product(kinds, moments, uniques):
        for size, place, inside in places(block, fields, hint, extent, first):
            for links in links_of(kind, fields.links):
                yield Entry(kind, moment, links, unique, size, place, inside, location, read_tag(block).crc, True)
        if kind is FileType.FILE:
            for size, firsts, following in lists(block, fields, hint):
                yield Entry(kind, moment, 1, unique, size, firsts[0], None, location, read_tag(block).crc, True, firsts[1:], following)


def places(
    block: bytes, fields: EntryFields, hint: Hint, extent: int, first: BlockNumber,
) -> Iterator[Tuple[Size, Optional[BlockNumber], Optional[bytes]]]:
    """The sizes, and the places of the bytes, that an entry may say. Data ends where its entry is."""
    if fields.flags != LONG or fields.blocks == 0:
        for size in unlike((fields.size, Size(fields.allocation_length))):
            if 0 < size <= INSIDE:
                yield size, None, block[END : END + size]
    if fields.flags != EMBEDDED or fields.blocks:
        if fields.size == 0 or fields.allocation_length == 0:
            yield Size(0), None, None
        for size in unlike((fields.size, Size(extent % 2**30), Size(fields.blocks * BLOCK))):
            for place in unlike((first, BlockNumber(hint.number - blocks_of(size)))):
                if 0 < size <= EXTENT_BYTES and 0 <= place <= BLOCK_NUMBERS - blocks_of(size):
                    yield size, place, None


def lists(block: bytes, fields: EntryFields, hint: Hint) -> Iterator[Tuple[Size, Tuple[BlockNumber, ...], Optional[BlockNumber]]]:
    """The sizes and the first blocks of several extents that a file's entry may say, and the number of its first descriptor block. What is
    right before the entry is its descriptor blocks, or its last extent."""
    for size in long_sizes(block, fields):
        found = [EXTENT.unpack_from(block, END + EXTENT.size * index)[1] for index in range(min(extent_count(size), ENTRY_DESCRIPTORS))]
        own, further = own_extents(size), descriptor_blocks(size)
        said = tuple(found[:own])
        before = BlockNumber(hint.number - (further or blocks_of(extent_size(size, own - 1))))
        for firsts in unlike((said, hint.firsts[:own] + said[len(hint.firsts) :])):
            for last in unlike((found[-1] if further else firsts[-1], before)):
                extents, following = (firsts, last) if further else (firsts[:-1] + (last,), None)
                is_below = all(0 <= first <= BLOCK_NUMBERS - blocks_of(extent_size(size, index)) for index, first in enumerate(extents))
                if is_below and (following is None or 0 <= following <= BLOCK_NUMBERS - further):
                    yield size, extents, following


def long_sizes(block: bytes, fields: EntryFields) -> List[Size]:
    """The sizes above a mebibyte that a file's entry may say: in their field, by its last descriptor, and by its blocks. Where descriptor
    blocks have the last descriptor, they are those that differ from the field in a bit and take the blocks."""
    found = [fields.size]
    for count in (extent_count(fields.size), fields.allocation_length // EXTENT.size):
        if 1 < count <= ENTRY_DESCRIPTORS:
            last, = struct.unpack_from("<I", block, END + EXTENT.size * (count - 1))
            found.append(Size((count - 1) * EXTENT_BYTES + last % 2**30))
    if fields.blocks != blocks_of(fields.size):
        found.append(Size(fields.blocks * BLOCK))
    changed = (Size(fields.size ^ 1 << bit) for bit in range(64))
    found += [size for size in changed if blocks_of(size) == fields.blocks and extent_count(size) > ENTRY_DESCRIPTORS]
    return [size for size in unlike(found) if EXTENT_BYTES < size <= LONGEST_FILE]


def links_of(kind: FileType, said: int) -> Sequence[int]:
    """The counts of links that an entry may have."""
    if kind is FileType.DIRECTORY:
        return unlike((said, *(said ^ (1 << bit) for bit in range(10)), 1))
    return unlike((said, 1 if kind is FileType.FILE else 0))


# ---- identifiers

class Words(NamedTuple):
    """The fields of an identifier, which its bytes spell."""

    characteristics: int
    virtual: VirtualAddress
    unique: int
    use: int
    name: bytes


def mend_identifier(data: bytes, number: BlockNumber, is_first: bool, tries_bits: bool) -> Optional[bytes]:
    """The identifier that these bytes were written as, in the block of this number; None where no one reading is left.

    First what always says the same is restored, then each bit is tried, where that is asked for.
    """
    if len(data) < 40:
        return None
    check = data[8:10]
    found = {text for text in restored(data, number, is_first) if text[8:10] == check or is_check_alone(data, text)}
    for tried in (flipped, with_other_bytes) if tries_bits else ():
        found = found or {text for text in tried(data, number) if text[8:10] == check}
    return found.pop() if len(found) == 1 else None


def is_check_alone(data: bytes, text: bytes) -> bool:
    """Whether the CRC alone is wrong, by the checksum of the tag: with the CRC that is there it is not right."""
    return not read_tag(data).agrees and data[16:] == text[16:] and data[:8] + data[10:16] == text[:8] + text[10:16]


def restored(data: bytes, number: BlockNumber, is_first: bool) -> Iterator[bytes]:
    """The identifiers of so many bytes that agree with the fields, where all else is as it always is."""
    characteristics, length = data[18], data[19]
    virtual, = struct.unpack_from("<I", data, 24)
    unique, use = struct.unpack_from("<IH", data, 32)
    if virtual > NODES or unique > GREATEST_CAPACITY:
        # There is one unique ID for each commit at most, and 261 blocks before the first.
        return
    plain = len(data) - 38
    lengths: List[int] = unlike([length, *range(max(plain - 3, 0), plain + 1)])
    kinds: List[int] = [10] if is_first else unlike([characteristics, 0, 2])
    for kind, size, more in product(kinds, lengths, unlike((use, 0, (len(data) - 38 - length) // 4 * 4))):
        if size < 256 and 0 <= more and (38 + more + size + 3) // 4 * 4 == len(data):
            name = data[38 + more : 38 + more + size]
            if kind == 10 and not name or kind in (0, 2) and is_name(expand(name) or None):
                yield identifier_bytes(Words(kind, virtual, unique, more, name), number)


def flipped(data: bytes, number: BlockNumber) -> Iterator[bytes]:
    """The identifiers that differ in one bit of the fields or the name."""
    for at, bit in product((*range(16, 38), *range(max(38, len(data) - 258), len(data))), range(8)):
        changed = bytearray(data)
        changed[at] ^= 1 << bit
        yield from restored(bytes(changed), number, changed[18] == 10)


def with_other_bytes(data: bytes, number: BlockNumber) -> Iterator[bytes]:
    """The identifiers that differ in one byte of the virtual address or the unique ID."""
    for at in (*range(24, 28), *range(32, 36)):
        for byte in range(256):
            yield from restored(data[:at] + bytes([byte]) + data[at + 1 :], number, data[18] == 10)


def identifier_bytes(words: Words, number: BlockNumber) -> bytes:
    """The bytes of an identifier."""
    use = (b"\0*udfburn" + bytes(23))[: words.use].ljust(words.use, b"\0")
    body = struct.pack("<HBBIIHHIH", 1, words.characteristics, len(words.name), BLOCK, words.virtual, 1, 0, words.unique, words.use) + use + words.name
    body = body.ljust((len(body) + 3 + 16) // 4 * 4 - 16, b"\0")
    return write_tag(257, body, number) + body


__all__ = ["Hint", "crc", "mend_entry", "mend_identifier"]
