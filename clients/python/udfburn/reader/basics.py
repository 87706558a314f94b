"""What structures share: sizes, texts, timestamps, entity identifiers and tags (docs/FORMAT.md, "What structures share")."""

from __future__ import annotations

import struct
from binascii import crc_hqx
from datetime import datetime, timedelta, timezone
from typing import NamedTuple, Optional, Union

from ..protocol.units import Address, BlockNumber, Moment, Size

BLOCK = 2048
"""The bytes of a block."""

PARTITION = Address(257)
"""The address of the partition's first block: `number = address - 257`."""

LEAST_CAPACITY, GREATEST_CAPACITY = 512, 450_000
"""The blocks of a volume."""

BLOCK_NUMBERS = GREATEST_CAPACITY - PARTITION
"""The block numbers of the greatest partition are below this."""

UNUSED = BlockNumber(0xFFFFFFFF)
"""The table's word for an unused virtual address, and for no table before."""

NODES = 4_096
DIRECTORY_NAMES = 512
DEPTH = 16
EXTENT_BYTES = Size(1_048_576)
"""The bytes of an extent, at most: each of a file but its last has so many."""

ENTRY_DESCRIPTORS = 117
"""The allocation descriptors of an entry, at most. Where a file has more extents, the last of them leads on to a descriptor block."""

BLOCK_DESCRIPTORS = 126
"""The allocation descriptors of a descriptor block, at most. Where further extents remain, the last of them leads on to the next one."""

EXTENTS = 879
"""The extents of a file, at most: so many begin in the greatest partition."""

LONGEST_FILE = Size(EXTENTS * EXTENT_BYTES)
INSIDE = Size(1_872)
CLIENTS = 64
FIRST_UNIQUE = 16
MOMENTS = 4_102_444_800_000_000
"""A moment is below this many microseconds from 1970-01-01 UTC."""

TAG = struct.Struct("<HHBBHHHI")
EPOCH = datetime(1970, 1, 1, tzinfo=timezone.utc)


def number_of(address: Address) -> BlockNumber:
    """The block number of what is at an address."""
    return BlockNumber(address - PARTITION)


def address_of(number: BlockNumber) -> Address:
    """The address of what has a block number."""
    return Address(number + PARTITION)


def blocks_of(size: Size) -> int:
    """The blocks that so many bytes take."""
    return -(-size // BLOCK)


def crc(data: Union[bytes, bytearray, memoryview]) -> int:
    """The CRC of ECMA-167 3/7.2.6: polynomial x^16 + x^12 + x^5 + 1, from 0, the highest bit first."""
    return crc_hqx(data, 0)


class Tag(NamedTuple):
    """A descriptor tag (ECMA-167 3/7.2), and whether its sixteen bytes agree with themselves."""

    identifier: int
    version: int
    checksum: int
    reserved: int
    serial: int
    crc: int
    length: int
    location: int
    agrees: bool


def read_tag(data: bytes, at: int = 0) -> Tag:
    """The tag at a place of 16 or more bytes."""
    identifier, version, checksum, reserved, serial, check, length, location = TAG.unpack_from(data, at)
    total = sum(data[at : at + 16]) - checksum
    return Tag(identifier, version, checksum, reserved, serial, check, length, location, total % 256 == checksum)


def write_tag(identifier: int, body: Union[bytes, memoryview], location: int) -> bytes:
    """The tag of a descriptor with this body after it."""
    plain = TAG.pack(identifier, 3, 0, 0, 1, crc(body), len(body), location)
    return plain[:4] + bytes([sum(plain) % 256]) + plain[5:]


def descriptor(identifier: int, body: bytes, location: int) -> bytes:
    """The block of a descriptor: its tag, its body, and zeros."""
    return (write_tag(identifier, body, location) + body).ljust(BLOCK, b"\0")


def tag_faults(data: bytes, identifier: int, location: int) -> "list[str]":
    """What is wrong with the tag of a descriptor that is the whole of the data, in words."""
    body = memoryview(data)[16:]
    if data[:16] == write_tag(identifier, body, location):
        return []
    tag = read_tag(data)
    checks = (
        (tag.identifier == identifier, f"the tag's identifier is {tag.identifier}, and not {identifier}"),
        (tag.version == 3, f"the tag's version is {tag.version}, and not 3"),
        (tag.agrees, "the tag's checksum is wrong"),
        (tag.reserved == 0, "a reserved byte of the tag is not zero"),
        (tag.serial == 1, f"the tag's serial number is {tag.serial}, and not 1"),
        (tag.length == len(body), f"the tag's CRC length is {tag.length}, and not {len(body)}"),
        (tag.crc == crc_hqx(body, 0), "the CRC is wrong"),
        (tag.location == location, f"the tag's location is {tag.location}, and not {location}"),
    )
    return [text for holds, text in checks if not holds]


# ---- texts

def is_spelled(text: str) -> bool:
    """Whether each character has a spelling: 16 bits, no surrogate, no byte order mark read either way."""
    return all(c < "\ud800" or "\ue000" <= c < "\U00010000" and c not in "\ufeff\ufffe" for c in text)


def spell(text: str) -> bytes:
    """A text in compressed Unicode (UDF 2.01 2.1.1). Each text has one spelling."""
    if not text:
        return b""
    if all(c <= "\xff" for c in text):
        return b"\x08" + text.encode("latin-1")
    return b"\x10" + text.encode("utf-16-be", "surrogatepass")


def expand(data: bytes) -> Optional[str]:
    """The text whose spelling the bytes are; None where they are no spelling."""
    if not data:
        return ""
    if data[0] == 8 and len(data) > 1:
        return data[1:].decode("latin-1")
    if data[0] != 16 or len(data) % 2 == 0:
        return None
    try:
        text = data[1:].decode("utf-16-be")
    except UnicodeDecodeError:
        return None
    return text if is_spelled(text) and spell(text) == data else None


def read_dstring(field: bytes) -> Optional[str]:
    """The text of a dstring (ECMA-167 1/7.2.12); None where the field is none."""
    used = field[-1]
    if used >= len(field) or any(field[used:-1]):
        return None
    return expand(field[:used])


def write_dstring(text: str, size: int) -> bytes:
    """The dstring of so many bytes."""
    spelled = spell(text)
    return spelled.ljust(size - 1, b"\0") + bytes([len(spelled)])


def is_label(text: Optional[str]) -> bool:
    """Whether a volume may have the label: 1 to 31 bytes as it is spelled, no NUL."""
    return bool(text) and text is not None and "\0" not in text and is_spelled(text) and len(spell(text)) <= 31


def is_name(text: Optional[str]) -> bool:
    """Whether a directory may have the name."""
    if not text or text in (".", ".."):
        return False
    return "/" not in text and "\0" not in text and is_spelled(text) and len(spell(text)) <= 255


# ---- moments and entities

def write_timestamp(moment: Moment) -> bytes:
    """A moment as a timestamp (ECMA-167 1/7.3)."""
    at = EPOCH + timedelta(microseconds=moment)
    tail = (at.month, at.day, at.hour, at.minute, at.second, at.microsecond // 10_000, at.microsecond // 100 % 100, at.microsecond % 100)
    return struct.pack("<HH8B", 0x1000, at.year, *tail)


def read_timestamp(data: bytes) -> Optional[Moment]:
    """The moment of a timestamp, in microseconds from 1970-01-01 UTC; None where it is that of no moment before 2100."""
    kind, year, month, day, hour, minute, second, centi, hundreds, micro = struct.unpack("<HH8B", data)
    if kind != 0x1000 or not 1970 <= year < 2100 or max(centi, hundreds, micro) > 99:
        return None
    try:
        at = datetime(year, month, day, hour, minute, second, centi * 10_000 + hundreds * 100 + micro, timezone.utc)
    except ValueError:
        return None
    return Moment((at - EPOCH) // timedelta(microseconds=1))


def entity(identifier: bytes, suffix: bytes = b"") -> bytes:
    """An EntityID (ECMA-167 1/7.4) with flags 0."""
    return b"\0" + identifier.ljust(23, b"\0") + suffix.ljust(8, b"\0")


DEVELOPER = entity(b"*udfburn")
UDF_SUFFIX = b"\x01\x02"
CHARACTER_SET = b"\0" + b"OSTA Compressed Unicode".ljust(63, b"\0")
