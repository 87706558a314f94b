"""The structures of ECMA-167 and UDF 2.01 as docs/FORMAT.md has them, written from the standards alone.

Nothing here is taken from the programs: the vectors are made by it, so that they are an expectation of their own. Numbers are
little endian; a block has 2,048 bytes.
"""

import struct
from typing import List, Tuple

Changes = List[Tuple[int, int]]
"""Bytes that are changed, each at a place and to a value."""

BLOCK = 2048
EXTENT = 1_048_576
PARTITION_START = 257
NONE = 0xFFFF_FFFF
TERMINATING, FILE_SET, IDENTIFIER, DESCRIPTORS, ENTRY = 8, 256, 257, 258, 261

ENTRY_ROOM, DESCRIPTOR_ROOM = 117, 126
"""The most long_ads of an entry, and of a descriptor block: (2048 - 176) // 16 and (2048 - 24) // 16."""

GREATEST = 879 * EXTENT
"""The most bytes of a file."""

LAST = 449_742
"""The last block number of the largest partition."""


def crc(data: bytes) -> int:
    """The CRC of descriptors: x^16 + x^12 + x^5 + 1, from 0 on (ECMA-167 3/7.2.6)."""
    value = 0
    for byte in data:
        value ^= byte << 8
        for _ in range(8):
            value = (value << 1 ^ 0x1021 if value & 0x8000 else value << 1) & 0xFFFF
    return value


def checksum(tag: bytes) -> int:
    """The checksum of a tag: the sum of its other fifteen bytes modulo 256 (ECMA-167 3/7.2.3)."""
    return (sum(tag[:4]) + sum(tag[5:16])) % 256


def seal(identifier: int, location: int, descriptor: bytes) -> bytes:
    """The descriptor with its tag over its first 16 bytes (ECMA-167 3/7.2)."""
    body = descriptor[16:]
    tag = struct.pack("<HHBBHHHI", identifier, 3, 0, 0, 1, crc(body), len(body), location)
    return tag[:4] + bytes([checksum(tag)]) + tag[5:] + body


def fill(data: bytes, size: int) -> bytes:
    """The bytes with zeros after them, so that they are so many."""
    if len(data) > size:
        raise ValueError(f"{len(data)} bytes do not fit into {size}")
    return data + bytes(size - len(data))


def block(data: bytes) -> bytes:
    return fill(data, BLOCK)


def changed(data: bytes, changes: Changes) -> bytes:
    """The bytes with some of them changed, each at a place and to a value."""
    out = bytearray(data)
    for at, byte in changes:
        out[at] = byte
    return bytes(out)


def timestamp(moment: int) -> bytes:
    """The timestamp of a moment in microseconds from 1970-01-01 UTC (ECMA-167 1/7.3)."""
    import datetime

    when = datetime.datetime(1970, 1, 1) + datetime.timedelta(microseconds=moment)
    hundreds, rest = divmod(when.microsecond, 100)
    centiseconds, hundreds = divmod(hundreds, 100)
    return struct.pack("<HhBBBBBBBB", 0x1000, when.year, when.month, when.day, when.hour, when.minute, when.second,
                       centiseconds, hundreds, rest)


def spelling(text: str) -> bytes:
    """Compressed Unicode (UDF 2.01 2.1.1): one byte a character where each is at most U+00FF, else two."""
    if not text:
        return b""
    if all(ord(letter) < 256 for letter in text):
        return b"\x08" + bytes(map(ord, text))
    return b"\x10" + b"".join(struct.pack(">H", ord(letter)) for letter in text)


def dstring(text: str, size: int) -> bytes:
    """The spelling, zeros, and the count of its bytes in the last one (ECMA-167 1/7.2.12)."""
    spelled = spelling(text)
    return fill(spelled, size - 1) + bytes([len(spelled)])


def entity(identifier: bytes, suffix: bytes = b"") -> bytes:
    """An EntityID with the flags 0 (ECMA-167 1/7.4)."""
    return b"\0" + fill(identifier, 23) + fill(suffix, 8)


DEVELOPER = entity(b"*udfburn")
DOMAIN = entity(b"*OSTA UDF Compliant", b"\x01\x02")
CS0 = fill(b"\0OSTA Compressed Unicode", 64)


def extent(length: int, location: int) -> bytes:
    """An extent_ad (ECMA-167 3/7.1)."""
    return struct.pack("<II", length, location)


def long_ad(length: int, number: int, partition: int = 0, unique: int = 0) -> bytes:
    """A long_ad (ECMA-167 4/14.14.2); a unique ID is after two bytes of flags (UDF 2.01 2.3.4.3)."""
    return struct.pack("<IIHHI", length, number, partition, 0, unique)


def several(size: int, *firsts: int) -> "list[bytes]":
    """The long_ads of so many bytes in extents from these block numbers on, each but the last of a mebibyte."""
    return [long_ad(min(size - index * EXTENT, EXTENT), first) for index, first in enumerate(firsts)]


def leading(number: int) -> bytes:
    """The long_ad that leads to the descriptor block of this number: its kind is 3, its length a block (ECMA-167 4/14.14.1.1)."""
    return long_ad(3 << 30 | BLOCK, number)


def descriptor_block(number: int, listed: "list[bytes]", previous: int = 0) -> bytes:
    """The descriptor block of this number with these long_ads (ECMA-167 4/14.5)."""
    ads = b"".join(listed)
    return block(seal(DESCRIPTORS, number, bytes(16) + struct.pack("<II", previous, len(ads)) + ads))


def file_entry(kind: str, links: int, unique: int, size: int, first: "int | bytes | list[bytes] | None", location: int,
               moment: int = 0) -> bytes:
    """The block of a file entry (ECMA-167 4/14.9). Where `first` is bytes they are inside it, and a list is its long_ads."""
    file_type = {"directory": 4, "file": 5, "table": 248}[kind]
    inside = isinstance(first, bytes)
    blocks = 0 if inside or first is None else -(-size // BLOCK)
    if isinstance(first, int):
        first = [long_ad(size, first)]
    behind = first if isinstance(first, bytes) else b"".join(first or [])
    stamp = timestamp(moment)
    strategy = struct.pack("<IHHHBB", 0, 4, 0, 1, 0, file_type)
    parts = [bytes(16), strategy, bytes(6), struct.pack("<H", 3 if inside else 1), b"\xFF" * 8,
             struct.pack("<IH", 0x14A5 if kind == "directory" else 0x1084, links), bytes(6),
             struct.pack("<QQ", size, blocks), stamp * 3, struct.pack("<I", 1), bytes(16), DEVELOPER,
             struct.pack("<QII", unique, 0, len(behind)), behind]
    return block(seal(ENTRY, location, b"".join(parts)))


def file_set(label: str = "DISC", moment: int = 0) -> bytes:
    """The block of the file set descriptor (ECMA-167 4/14.1, UDF 2.01 2.3.2)."""
    parts = [bytes(16), timestamp(moment), struct.pack("<HHIIII", 3, 3, 1, 1, 0, 0), CS0, dstring(label, 128), CS0,
             dstring(label, 32), bytes(64), long_ad(BLOCK, 1, 1), DOMAIN, bytes(64)]
    return block(seal(FILE_SET, 0, b"".join(parts)))


def identifier(name: bytes, address: int, unique: int, number: int, characteristics: int = 0, use: bytes = b"",
               changes: Changes = []) -> bytes:
    """A file identifier descriptor (ECMA-167 4/14.4) for the block of this number; changes are made before it is sealed."""
    body = struct.pack("<HBB", 1, characteristics, len(name)) + long_ad(BLOCK, address, 1, unique)
    body += struct.pack("<H", len(use)) + use + name
    body += bytes(-len(body) % 4)
    return seal(IDENTIFIER, number, changed(bytes(16) + body, changes))


def parent(address: int = 1, number: int = 6, changes: Changes = []) -> bytes:
    """The identifier of the directory above, which has the characteristics 0A."""
    return identifier(b"", address, 0, number, 10, b"", changes)


def plain_size(name: bytes) -> int:
    return (38 + len(name) + 3) // 4 * 4


def lay(names: "list[tuple[str, str, int, int]]", above: int = 1, first: int = 6) -> bytes:
    """The data of a directory, its names in order, each a text, a kind, a virtual address and a unique ID.

    An identifier goes into the current block only where it fits and leaves 0 or at least 32 bytes; else the one before it is
    lengthened to the block's end by an implementation use that is the EntityID and zeros (docs/FORMAT.md).
    """
    said = [(b"", above, 0, 10)]
    said += [(spelling(text), address, unique, 2 if kind == "directory" else 0) for text, kind, address, unique in names]
    at = 0
    places: "list[tuple[int, int]]" = []
    for index, (name, _, _, _) in enumerate(said):
        size = plain_size(name)
        left = BLOCK - at % BLOCK if at % BLOCK else 0
        if left and not (size == left or left - size >= 32):
            places[-1] = (places[-1][0], left)
            at += left
        places.append((at, 0))
        at += size
    data = b""
    for (name, address, unique, characteristics), (place, longer) in zip(said, places):
        use = fill(DEVELOPER, longer) if longer else b""
        data += identifier(name, address, unique, first + place // BLOCK, characteristics, use)
    return data


def reply(code: int, commit: int, reserved: int = 0) -> bytes:
    return struct.pack("<HHI", code, reserved, commit)


def record(client: int, latest: int, replies: "list[bytes]", version: int = 2) -> bytes:
    """What is kept of a client: 48 bytes in version 2, 24 in version 1."""
    return struct.pack("<QQ", client, latest) + fill(b"".join(replies), 32 if version == 2 else 8)


def table(entries: "list[int]", previous: int = 4, files: int = 0, directories: int = 1, version: int = 2,
          clients: "int | None" = None, next_unique: int = 16, commits: int = 4, records: bytes = b"",
          label: str = "DISC") -> bytes:
    """The data of a virtual allocation table (UDF 2.01 2.2.10) with its sessions."""
    if clients is None:
        clients = len(records) // (48 if version == 2 else 24)
    use = 44 + len(records)
    head = struct.pack("<HH", 152 + use, use) + dstring(label, 128) + struct.pack("<III", previous, files, directories)
    head += struct.pack("<HHHH", 0x201, 0x201, 0x201, 0)
    sessions = entity(b"*udfburn sessions") + struct.pack("<HHII", version, clients, next_unique, commits)
    return head + sessions + records + b"".join(struct.pack("<I", entry) for entry in entries)


def front_block(number: int, label: str, moment: int, capacity: int) -> bytes:
    """A block of the volume header (ECMA-167 2/9.1, 3/10; UDF 2.01 2.2)."""
    if number in (16, 17, 18):
        return block(b"\0" + (b"BEA01", b"NSR03", b"TEA01")[number - 16] + b"\x01")
    if 32 <= number < 38 or 48 <= number < 54:
        return _sequence_block(number, label, moment, capacity)
    if number == 64:
        return _integrity(moment, capacity)
    if number == 65:
        return block(seal(TERMINATING, 65, bytes(512)))
    if number == 256:
        return block(seal(2, 256, fill(bytes(16) + extent(32_768, 32) + extent(32_768, 48), 512)))
    return bytes(BLOCK)


def _sequence_block(number: int, label: str, moment: int, capacity: int) -> bytes:
    udf_suffix = b"\x01\x02"
    place = number % 16
    head = bytes(16) + struct.pack("<I", place + 1)
    if place == 0:
        head += struct.pack("<I", 0) + dstring(label, 32) + struct.pack("<HHHHII", 1, 1, 2, 3, 1, 1)
        head += dstring(f"{moment:016x}{label}", 128) + CS0 * 2 + bytes(16) + entity(b"") + timestamp(moment) + DEVELOPER
        return block(seal(1, number, fill(head, 512)))
    if place == 1:
        head += entity(b"*UDF LV Info", udf_suffix) + CS0 + dstring(label, 128) + bytes(108) + DEVELOPER
        return block(seal(4, number, fill(head, 512)))
    if place == 2:
        head += struct.pack("<HH", 1, 0) + entity(b"+NSR03") + bytes(128)
        head += struct.pack("<III", 2, PARTITION_START, capacity - PARTITION_START) + DEVELOPER
        return block(seal(5, number, fill(head, 512)))
    if place == 3:
        virtual = b"\x02\x40\0\0" + entity(b"*UDF Virtual Partition", udf_suffix) + struct.pack("<HH", 1, 0) + bytes(24)
        head += CS0 + dstring(label, 128) + struct.pack("<I", BLOCK) + DOMAIN + long_ad(BLOCK, 0, 1)
        head += struct.pack("<II", 70, 2) + DEVELOPER + bytes(128) + extent(8_192, 64) + b"\x01\x06\x01\0\0\0" + virtual
        return block(seal(6, number, head))
    if place == 4:
        return block(seal(7, number, head + bytes(4)))
    return block(seal(TERMINATING, number, bytes(512)))


def _integrity(moment: int, capacity: int) -> bytes:
    body = bytes(16) + timestamp(moment) + struct.pack("<I", 0) + extent(0, 0) + struct.pack("<Q", 16) + bytes(24)
    body += struct.pack("<IIIIII", 2, 46, capacity - 262, NONE, capacity - PARTITION_START, NONE)
    body += DEVELOPER + struct.pack("<IIHHH", 0, 1, 0x201, 0x201, 0x201)
    return block(seal(9, 64, body))


def front(label: str = "DISC", moment: int = 0, capacity: int = 3_000) -> bytes:
    return b"".join(front_block(number, label, moment, capacity) for number in range(PARTITION_START))
