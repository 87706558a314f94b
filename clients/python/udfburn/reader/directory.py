"""Directories: file identifiers one after another (ECMA-167 4/14.4; docs/FORMAT.md, "Directories")."""

from __future__ import annotations

import struct
from typing import Dict, Iterator, List, NamedTuple, Optional, Tuple

from ..protocol.units import BlockNumber, Size, VirtualAddress
from .basics import BLOCK, DEVELOPER, DIRECTORY_NAMES, NODES, crc, expand, is_name, read_tag, spell, tag_faults, write_tag
from .budget import Budget, Work
from .mend import mend_identifier
from .notes import DamageCause, Faults, StructureFault

FILE_IDENTIFIER = 257
IDENTIFIER_HEAD = 38
OF_DIRECTORY, OF_PARENT = 0x02, 0x0A
FIELDS = struct.Struct("<HBBIIHHIH")
BITS = 50
"""The identifiers of which each bit is tried, at most."""

IDENTIFIERS_KEPT = 20_000
"""The identifiers that are kept as known, at most."""


class Identifier(NamedTuple):
    """What a file identifier says: a name, what it is of, the virtual address and the unique ID of its entry.

    `proved` says that its CRC agrees with its fields, and its tag with its place.
    """

    name: str
    is_directory: bool
    virtual: VirtualAddress
    unique: int
    proved: bool


class Directory(NamedTuple):
    """A directory's data: the virtual address of the directory above, and the names in stored order.

    `complete` says that each identifier could be read, or was mended.
    """

    parent: Optional[VirtualAddress]
    names: List[Identifier]
    complete: bool


class RawIdentifier(NamedTuple):
    """An identifier as it is: its place in the data, its bytes, its fields, its implementation use and its name's spelling."""

    at: int
    data: bytes
    version: int
    characteristics: int
    length: int
    virtual: VirtualAddress
    partition: int
    flags: int
    unique: int
    use: bytes
    name: bytes


def rounded(size: int) -> int:
    """The least multiple of 4 that is no less."""
    return (size + 3) // 4 * 4


def plain_size(name_size: int) -> int:
    """The bytes of an identifier that is not lengthened."""
    return rounded(IDENTIFIER_HEAD + name_size)


def fits(size: int, room: int) -> bool:
    """Whether an identifier of so many bytes may be put where so many are left of the block."""
    return size == room or size + 32 <= room


def piece_at(data: bytes, at: int, size: int) -> Optional[RawIdentifier]:
    """The identifier at a place, by the lengths that it says; None where it passes the end of the directory or of its block."""
    if size - at < IDENTIFIER_HEAD:
        return None
    version, characteristics, name_size, length, virtual, partition, flags, unique, use_size = FIELDS.unpack_from(data, at + 16)
    end = at + rounded(IDENTIFIER_HEAD + use_size + name_size)
    if end > size or (end - 1) // BLOCK != at // BLOCK:
        return None
    name_at = at + IDENTIFIER_HEAD + use_size
    return RawIdentifier(
        at, data[at:end], version, characteristics, length, virtual, partition, flags, unique,
        data[at + IDENTIFIER_HEAD : name_at], data[name_at : name_at + name_size],
    )


def read_directory(data: bytes, size: Size, first: BlockNumber, known: Optional[KnownIdentifiers] = None) -> Tuple[Directory, Faults]:
    """The directory whose data begins at block number `first`, and all that is not as it must be.

    `data` has whole blocks. Identifiers with wrong bytes are mended where their CRC leaves one reading; what makes no sense is left
    out, and reading goes on at the next identifier whose CRC agrees.
    """
    reading = DirectoryReading(data, size, first, known if known is not None else KnownIdentifiers(Budget(0)))
    at = 0
    while at < size and len(reading.names) <= NODES:
        at = reading.step(at)
    reading.complete &= at >= size
    return reading.finish()


class KnownIdentifiers:
    """Bodies of identifiers that were read and were as they must be, so that one that is copied is not read again; and how many more
    are mended: none without a budget."""

    def __init__(self, budget: Optional[Budget]) -> None:
        self.budget, self.bits = budget, BITS
        self.bodies: Dict[bytes, Tuple[Identifier, bytes, int]] = {}

    def run(self, data: bytes, at: int, size: Size, first: BlockNumber, names: Dict[str, Identifier]) -> int:
        """Takes the identifiers in a row whose bodies are known and whose tags are as they must be, and gives the place after them."""
        bodies, end_of_block, location, total = self.bodies, -1, b"", 0
        while size - at >= IDENTIFIER_HEAD:
            if at >= end_of_block:
                location = struct.pack("<I", first + at // BLOCK)
                total, end_of_block = sum(location), (at // BLOCK + 1) * BLOCK
            end = at + (41 + data[at + 19]) // 4 * 4
            found = bodies.get(data[at + 16 : end])
            if found is None or end > size or end > end_of_block - 32:
                break
            name, middle, sum_of_rest = found
            if data[at : at + 16] != b"\x01\x01\x03\0%c%b%b" % ((sum_of_rest + total) % 256, middle, location) or name.name in names:
                break
            names[name.name] = name
            at = end
        return at

    def keep(self, piece: RawIdentifier, name: Identifier) -> None:
        """Keeps an identifier that is as it must be and is not lengthened."""
        if len(self.bodies) >= IDENTIFIERS_KEPT:
            self.bodies.clear()
        tag = piece.data[:16]
        self.bodies[piece.data[16:]] = (name, tag[5:12], sum(tag[:4]) + sum(tag[5:12]))


class DirectoryReading:
    """A directory as it is read, identifier by identifier."""

    def __init__(self, data: bytes, size: Size, first: BlockNumber, known: KnownIdentifiers):
        self.data, self.size, self.first, self.known = data, size, first, known
        self.faults: Faults = []
        self.parent: Optional[VirtualAddress] = None
        self.names: Dict[str, Identifier] = {}
        self.complete = True

    def step(self, at: int) -> int:
        """Reads what is at a place, and gives the next one."""
        if at:
            after = self.known.run(self.data, at, self.size, self.first, self.names)
            if after > at:
                return after
        piece = piece_at(self.data, at, self.size)
        met = list(piece_faults(self.data, self.size, piece, at, self.first))
        if piece is None or met:
            self.faults += met
            return self._mend(at, piece)
        name = said_by(piece, self.first)
        if name is None:
            raise ValueError("an identifier without a fault names nothing")
        if not piece.use and piece.name:
            self.known.keep(piece, name)
        return self._take(piece, name)

    def _take(self, piece: RawIdentifier, name: Identifier) -> int:
        if piece.characteristics == OF_PARENT:
            self.parent = piece.virtual if self.parent is None else self.parent
        else:
            self._add(name)
        return piece.at + len(piece.data)

    def _add(self, name: Identifier) -> None:
        if name.name in self.names:
            self.faults.append(StructureFault(DamageCause.TWICE, f"the name {name.name!r} is there twice"))
        else:
            self.names[name.name] = name

    def _mend(self, at: int, piece: Optional[RawIdentifier]) -> int:
        """Goes on where an identifier is not as it must be."""
        name = said_by(piece, self.first) if piece is not None else None
        if piece is not None and name is not None and crc(piece.data[16:]) == read_tag(piece.data).crc:
            # A tag that agrees with itself for another block was written for that one; else a byte of it is wrong.
            is_here = name.proved or not read_tag(piece.data).agrees
            self.complete &= is_here
            return self._take(piece, name._replace(proved=is_here))
        end = next_proved(self.data, at + 4, self.size, self.first)
        whole, number = None, BlockNumber(self.first + at // BLOCK)
        if end - at <= BLOCK and self.known.budget is not None and self.known.budget.take(Work.IDENTIFIERS):
            whole = mend_identifier(self.data[at:end], number, at == 0, False)
            if whole is None and self.known.bits > 0:
                self.known.bits -= 1
                whole = mend_identifier(self.data[at:end], number, at == 0, True)
        mended = piece_at(whole, 0, len(whole)) if whole is not None else None
        if whole is not None and mended is not None:
            name = said_by(mended, number)
            if name is not None:
                self._take(mended, name)
                return end
        if piece is not None and name is not None and at + len(piece.data) == end:
            return self._take(piece, name)
        self.complete = False
        return end

    def finish(self) -> Tuple[Directory, Faults]:
        """The directory."""
        names = list(self.names.values())
        if len(names) > DIRECTORY_NAMES:
            self.faults.append(StructureFault(DamageCause.END, f"there are {len(names)} names"))
        if any(self.data[self.size :]):
            self.faults.append(StructureFault(DamageCause.END, "a byte after the last identifier is not zero"))
        return Directory(self.parent, names, self.complete), self.faults


def said_by(piece: RawIdentifier, first: BlockNumber) -> Optional[Identifier]:
    """What the identifier says, where it makes sense."""
    tag = read_tag(piece.data)
    whole, here = tag.crc == crc(piece.data[16:]), tag.location == first + piece.at // BLOCK
    proved = whole and here
    if not whole and (not here or tag.identifier != FILE_IDENTIFIER) or piece.characteristics not in (0, OF_DIRECTORY, OF_PARENT):
        return None
    if piece.characteristics == OF_PARENT:
        return Identifier("", True, piece.virtual, piece.unique, proved) if not piece.name else None
    text = expand(piece.name)
    if text is None or not is_name(text):
        return None
    return Identifier(text, piece.characteristics == OF_DIRECTORY, piece.virtual, piece.unique, proved)


def next_proved(data: bytes, at: int, size: Size, first: BlockNumber) -> int:
    """The next place with an identifier that is whole; the end where there is none."""
    while at < size:
        if data[at : at + 4] == b"\x01\x01\x03\x00":
            piece = piece_at(data, at, size)
            if piece is not None and not tag_faults(piece.data, FILE_IDENTIFIER, first + at // BLOCK):
                return at
        at += 4
    return size


def piece_faults(data: bytes, size: Size, piece: Optional[RawIdentifier], at: int, first: BlockNumber) -> Iterator[StructureFault]:
    """All that is not as it must be with the identifier at a place, in the order in which `udfburn` looks for it."""
    if piece is None:
        crosses = size - at >= IDENTIFIER_HEAD and at + rounded(IDENTIFIER_HEAD + struct.unpack_from("<H", data, at + 36)[0] + data[at + 19]) <= size
        if crosses:
            yield StructureFault(DamageCause.SPAN, f"the identifier at byte {at} crosses the end of its block")
        else:
            yield StructureFault(DamageCause.END, f"the data ends inside the identifier at byte {at}")
        return
    end = at + len(piece.data)
    left = -end % BLOCK
    if 0 < left < 32:
        yield StructureFault(DamageCause.SPAN, f"the identifier at byte {at} leaves {left} bytes of its block")
    for text in tag_faults(piece.data, FILE_IDENTIFIER, first + at // BLOCK):
        yield StructureFault(DamageCause.IDENTIFIER, f"identifier at byte {at}: {text}")
    fixed = (piece.version, piece.length, piece.partition, piece.flags) == (1, BLOCK, 1, 0)
    if not fixed or piece.characteristics not in (0, OF_DIRECTORY, OF_PARENT):
        yield StructureFault(DamageCause.IDENTIFIER, f"identifier at byte {at}: a field with a fixed value has another one")
    is_parent = piece.characteristics == OF_PARENT
    if is_parent != (at == 0) or is_parent and (piece.name or piece.unique):
        yield StructureFault(DamageCause.PARENT, f"the identifier at byte {at} is not in its place, or is not that of the directory above")
    if not is_padded(data, size, piece):
        yield StructureFault(DamageCause.PADDING, f"the padding or the implementation use of the identifier at byte {at} is not as it must be")
    if not is_parent and not is_name(expand(piece.name) or None):
        yield StructureFault(DamageCause.NAME, f"the identifier at byte {at} has no name")


def is_padded(data: bytes, size: Size, piece: RawIdentifier) -> bool:
    """Whether the bytes after the name are zeros, and the implementation use lengthens the identifier where it has to be."""
    use = piece.use
    if any(piece.data[IDENTIFIER_HEAD + len(use) + len(piece.name) :]):
        return False
    if not use:
        return True
    if len(use) < 32 or len(use) % 4 or use != DEVELOPER[: len(use)].ljust(len(use), b"\0"):
        return False
    end = piece.at + len(piece.data)
    return end % BLOCK == 0 and size - end >= IDENTIFIER_HEAD and not fits(plain_size(data[end + 19]), len(use))


def write_identifier(name: str, characteristics: int, virtual: VirtualAddress, unique: int, more: int, number: BlockNumber) -> bytes:
    """An identifier as docs/FORMAT.md has it, lengthened by so many bytes, in the block of this number."""
    spelled = spell(name)
    body = FIELDS.pack(1, characteristics, len(spelled), BLOCK, virtual, 1, 0, unique, more) + DEVELOPER[:more].ljust(more, b"\0") + spelled
    body = body.ljust(rounded(len(body) + 16) - 16, b"\0")
    return write_tag(FILE_IDENTIFIER, body, number) + body
