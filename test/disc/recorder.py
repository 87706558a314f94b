"""Recorders of write-once media that answer as MMC-6 has it, for a CD-R, a DVD-R, a DVD+R or a BD-R.

Blocks are written once, in order. What is written is in the drive's buffer until SYNCHRONIZE CACHE, or until there is too much of it; a loss
of power takes it away. DVD and BD are written in units of 16 and 32 blocks: SYNCHRONIZE CACHE fills the last one up with zeros. On a CD-R a
packet ends with seven blocks that link it to the next one, and a track that is written at once with two blocks of run-out: these cannot be
read. This is a reading of the standard, and no drive.
"""

from __future__ import annotations

import struct
from random import Random
from typing import Callable, Dict, List, NamedTuple, Optional, Set, Tuple

from iscsi import CHECK_CONDITION, Answer

BLOCK = 2048

NOT_READY, MEDIUM_ERROR, HARDWARE_ERROR, ILLEGAL, ATTENTION, PROTECTED = 2, 3, 4, 5, 6, 7
"""Sense keys."""

PACKET, TRACK_AT_ONCE, SESSION_AT_ONCE = 0, 1, 2
"""Write types of the page of write parameters."""

RUN_OUT = 2
"""The blocks after a track that was written at once."""

LINK = 7
"""The blocks after a packet of a CD: run-out, link, and the run-in of the next one."""

BUFFER = 256
"""The blocks for which a drive's buffer has room."""


class Kind(NamedTuple):
    """A kind of medium: its profile, the blocks that are written at once, and how many there are."""

    profile: int
    unit: int
    blocks: int


KINDS = {
    "cdr": Kind(0x09, 1, 359_844), "dvdr": Kind(0x11, 16, 2_298_496), "dvd+r": Kind(0x1B, 16, 2_295_104), "bdr": Kind(0x41, 32, 12_219_392),
}


class Sense(Exception):
    """A command that failed: the sense key, and the additional code."""

    def __init__(self, key: int, code: int):
        super().__init__(key, code)
        self.data = bytes([0x70, 0, key, 0, 0, 0, 0, 10, 0, 0, 0, 0, code >> 8, code & 0xFF, 0, 0, 0, 0])


class Faults(NamedTuple):
    """What is wrong with a drive: the address of a block that cannot be written, and that of one that is read with a wrong bit.

    once            the first write that reaches the block fails, and what comes before its unit is on the medium
    spoils          the unit is unreadable then, and the drive goes on after it
    no_last         no last recorded address is given
    ends_early      the last link is not counted as recorded
    loses           the blocks of this synchronisation, counted from 1, are lost, which nothing says
    flips           one of them has a wrong bit
    unsynchronized  this synchronisation fails, and its blocks are on the medium
    stuck           this one and all after it fail, and the blocks stay in the buffer
    resets          the drive resets before this one, and loses its blocks
    slow            so many times a command is refused, since the drive is not ready yet
    hardware        this READ, counted from 1, and five after it fail for another reason than the medium
    flaky           what is read from a cache fails at the first try
    """

    write: Optional[int] = None
    read: Optional[int] = None
    once: bool = False
    spoils: bool = False
    no_last: bool = False
    ends_early: bool = False
    loses: int = 0
    flips: int = 0
    unsynchronized: int = 0
    stuck: int = 0
    resets: int = 0
    slow: int = 0
    hardware: int = 0
    flaky: bool = False


class PowerLost(Exception):
    """The drive has no power any more: there is no answer."""


def field(cdb: bytes, at: int, size: int) -> int:
    return int.from_bytes(cdb[at : at + size], "big")


class Recorder:
    """A drive with a disc in it, or with none."""

    def __init__(self, name: str, kind: Optional[str], blocks: Optional[int] = None, faults: Faults = Faults()):
        self.name, self.faults = name, faults
        self.kind = KINDS[kind] if kind is not None else None
        self.blocks = blocks or (self.kind.blocks if self.kind else 0)
        self.data, self.buffer = bytearray(), bytearray()
        self.links: Set[int] = set()
        self.spoiled: Set[int] = set()
        self.failed = self.damaged = self.locked = self.is_open = False
        self.synchronized = self.locks = self.unlocks = self.repairs = self.reads = 0
        self.tried: Set[Tuple[int, int]] = set()
        self.slow = faults.slow
        self.cut: Optional[int] = None
        self.cut_at: Tuple[int, ...] = ()
        self.chance = Random(name)
        self.closed = self.attention = self.new = self.asked = False
        self.page5 = bytearray(52)
        self.page5[:16] = bytes([5, 50, 0x60 | SESSION_AT_ONCE, 4, 8, 16, 0, 0, 0, 0, 0, 0, 0, 16, 0, 150])
        self.commands: Dict[int, Callable[[bytes, bytes], bytes]] = {
            0x00: self.ready, 0x03: self.sense, 0x12: self.inquiry, 0x1A: self.mode, 0x1B: self.load, 0x1E: self.lock, 0x25: self.capacity, 0x28: self.read,
            0x2A: self.write, 0x35: self.synchronize, 0x43: self.contents, 0x46: self.configuration, 0x4A: self.events, 0x51: self.disc,
            0x52: self.track, 0x53: self.ready, 0x54: self.ready, 0x55: self.select, 0x58: self.repair, 0x5A: self.mode, 0x5B: self.close,
            0x5C: self.buffered, 0x5D: self.ready, 0xA0: self.units, 0xA8: self.read, 0xAA: self.write, 0xAC: self.performance, 0xAD: self.structure,
            0xB6: self.nothing, 0xBB: self.nothing,
        }

    def command(self, cdb: bytes, data: bytes) -> Answer:
        """Does a command. Raises where the power is lost in the middle of it."""
        if self.cut is not None and (not self.cut_at or cdb[0] in self.cut_at):
            self.cut -= 1
            if self.cut < 0:
                self.lose_power(data if cdb[0] in (0x2A, 0xAA) else b"")
                raise PowerLost
        try:
            if self.attention and cdb[0] not in (0x03, 0x12, 0x46, 0x4A, 0xA0):
                self.attention = False
                # The medium may have changed.
                raise Sense(ATTENTION, 0x2800)
            run = self.commands.get(cdb[0])
            if run is None:
                raise Sense(ILLEGAL, 0x2000)
            if self.slow and cdb[0] in (0x00, 0x2A, 0x35):
                self.slow -= 1
                # It becomes ready, or is at a long write.
                raise Sense(NOT_READY, 0x0408 if cdb[0] else 0x0401)
            return 0, run(cdb, data), b""
        except Sense as sense:
            return CHECK_CONDITION, b"", sense.data

    def lose_power(self, data: bytes) -> None:
        """What was in the buffer, or on its way there, is on the medium in part, in whole units. The last of them may be spoiled."""
        kind = self.medium()
        waiting = bytes(self.buffer + data)
        units = self.chance.randint(0, len(waiting) // (kind.unit * BLOCK))
        taken = units * kind.unit
        first = self.written() - len(self.buffer) // BLOCK
        self.buffer.clear()
        self.data += waiting[: taken * BLOCK]
        if taken and self.chance.random() < 0.5:
            self.spoiled.update(range(first + taken - kind.unit, first + taken))
            self.damaged = kind.profile == 0x11
        if kind.profile == 0x09 and taken:
            self.add_link()
        self.cut, self.attention, self.is_open = None, True, False

    # ---- the drive

    def medium(self) -> Kind:
        """The medium, or the sense that there is none."""
        if self.kind is None:
            raise Sense(NOT_READY, 0x3A00)
        return self.kind

    def nothing(self, cdb: bytes, data: bytes) -> bytes:
        return b""

    def lock(self, cdb: bytes, data: bytes) -> bytes:
        """PREVENT ALLOW MEDIUM REMOVAL."""
        self.locked = bool(cdb[4] & 1)
        self.locks += self.locked
        self.unlocks += not self.locked
        return b""

    def ready(self, cdb: bytes, data: bytes) -> bytes:
        self.medium()
        return b""

    def sense(self, cdb: bytes, data: bytes) -> bytes:
        return bytes([0x70, 0, 0, 0, 0, 0, 0, 10]) + bytes(10)

    def inquiry(self, cdb: bytes, data: bytes) -> bytes:
        if cdb[1] & 1:
            if cdb[2]:
                raise Sense(ILLEGAL, 0x2400)
            # The list of the pages of vital product data: there is this one.
            return bytes([5, 0, 0, 1, 0])
        texts = b"EMULATED" + self.name.encode().ljust(16) + b"1   "
        return bytes([5, 0x80, 5, 2, 31, 0, 0, 0]) + texts

    def units(self, cdb: bytes, data: bytes) -> bytes:
        return bytes([0, 0, 0, 8, 0, 0, 0, 0, 0, 1]) + bytes(6)

    def load(self, cdb: bytes, data: bytes) -> bytes:
        """START STOP UNIT: a disc that is loaded may be another one."""
        if cdb[4] & 3 == 2 and self.locked:
            # Medium removal prevented.
            raise Sense(ILLEGAL, 0x5302)
        if cdb[4] & 3 == 3:
            self.attention = self.new = True
        return b""

    def events(self, cdb: bytes, data: bytes) -> bytes:
        """What happened to the medium since it was asked last."""
        if not cdb[1] & 1:
            raise Sense(ILLEGAL, 0x2400)
        if not cdb[4] & 0x10:
            return bytes([0, 2, 0x80, 0x10])
        event = 2 if self.new else 0
        self.new = False
        return bytes([0, 6, 4, 0x10, event, 2 if self.kind else 0, 0, 0])

    def mode(self, cdb: bytes, data: bytes) -> bytes:
        """The pages of errors, of write parameters and of capabilities."""
        speed = struct.pack(">H", 11_080)
        able = bytes([0x2A, 34, 0x3F, 0x37, 0xF1, 0x77, 0x29, 0x23]) + speed + bytes([1, 0, 8, 0]) + speed + bytes(2) + speed + speed + bytes([0, 1])
        able += bytes(4) + speed + bytes([0, 1]) + bytes(2) + speed
        pages = {1: bytes([1, 10]) + bytes(10), 5: bytes(self.page5), 0x2A: able}
        wanted = cdb[2] & 0x3F
        if wanted != 0x3F and wanted not in pages:
            raise Sense(ILLEGAL, 0x2400)
        text = b"".join(page for code, page in pages.items() if wanted in (code, 0x3F))
        if cdb[0] == 0x1A:
            return bytes([3 + len(text), 0, 0, 0]) + text
        return struct.pack(">H", 6 + len(text)) + bytes(6) + text

    def select(self, cdb: bytes, data: bytes) -> bytes:
        """Takes write parameters."""
        page = data[8 + field(data, 6, 2) :]
        if len(page) >= 16 and page[0] & 0x3F == 5:
            if page[2] & 15 > SESSION_AT_ONCE:
                raise Sense(ILLEGAL, 0x2600)
            self.page5[: len(page)] = page[: len(self.page5)]
        return b""

    def write_type(self) -> int:
        return self.page5[2] & 15

    def buffered(self, cdb: bytes, data: bytes) -> bytes:
        size = BUFFER * BLOCK
        return struct.pack(">HHII", 10, 0, size, size)

    def performance(self, cdb: bytes, data: bytes) -> bytes:
        """One speed, of writing too."""
        return struct.pack(">II", 20, 0) + struct.pack(">IIII", 0, self.blocks - 1 if self.blocks else 0, 11_080, 11_080)

    # ---- what is known of the medium

    def configuration(self, cdb: bytes, data: bytes) -> bytes:
        """GET CONFIGURATION: profiles and features, those of the medium as current."""
        profile = self.kind.profile if self.kind else 0
        unit = self.kind.unit if self.kind else 1
        dvd = profile in (0x11, 0x1B)
        listed = b"".join(struct.pack(">HBB", kind.profile, kind.profile == profile, 0) for kind in KINDS.values())
        features = [
            (0x00, True, 3, listed), (0x01, True, 0x0B, struct.pack(">II", 2, 0)), (0x02, True, 7, bytes(4)), (0x03, True, 3, bytes([0x29, 0, 0, 0])),
            (0x10, bool(profile), 0, struct.pack(">IHBB", BLOCK, 1, 0, 0)), (0x1E, profile == 0x09, 0, bytes(4)), (0x1F, dvd, 0, bytes(4)),
            (0x21, profile in (0x09, 0x11, 0x1B), 0, struct.pack(">HBBB", 1, 0, 1, unit) + bytes(3)), (0x2B, profile == 0x1B, 0, bytes([1, 0, 0, 0])),
            (0x2D, profile == 0x09, 8, bytes([0x40, 0, 0x3F, 0xFF])), (0x2E, profile == 0x09, 0, bytes([0x60, 0, 0x10, 0])),
            (0x2F, profile == 0x11, 8, bytes([0x40, 0, 0, 0])), (0x40, profile == 0x41, 0, bytes(28)), (0x41, profile == 0x41, 0, bytes(20)),
            (0x100, True, 3, b""), (0x105, True, 3, bytes(4)), (0x107, True, 0x0C, bytes(4)),
        ]
        which, start = cdb[1] & 3, field(cdb, 2, 2)
        text = b""
        for code, current, flags, more in features:
            if code < start or which == 1 and not current or which == 2 and code != start:
                continue
            text += struct.pack(">HBB", code, flags | current, len(more)) + more
        return struct.pack(">IHH", 4 + len(text), 0, profile) + text

    def written(self) -> int:
        """The blocks that are written, or in the buffer."""
        return (len(self.data) + len(self.buffer)) // BLOCK

    def image(self) -> bytes:
        """What the medium has, with zeros for what cannot be read."""
        found = bytearray(self.data)
        for at in self.links | self.spoiled:
            found[at * BLOCK : (at + 1) * BLOCK] = bytes(BLOCK)
        return bytes(found)

    def capacity(self, cdb: bytes, data: bytes) -> bytes:
        # QEMU opens no drive without a disc, so that one is asked once before it is found empty.
        if self.asked:
            self.medium()
        self.asked = True
        return struct.pack(">II", max(self.written() - 1, 0), BLOCK)

    def contents(self, cdb: bytes, data: bytes) -> bytes:
        """READ TOC: the one track, and where the disc ends."""
        self.medium()
        form = cdb[2] & 15
        if not self.written() or form > 1:
            raise Sense(ILLEGAL, 0x2400)

        def address(block: int) -> bytes:
            if not cdb[1] & 2:
                return struct.pack(">I", block)
            seconds, frames = divmod(block + 150, 75)
            return bytes([0, min(seconds // 60, 255), seconds % 60, frames])

        first = bytes([0, 0x14, 1, 0]) + address(0)
        end = bytes([0, 0x14, 0xAA, 0]) + address(self.written())
        text = bytes([1, 1]) + first + (b"" if form else end)
        return struct.pack(">H", len(text)) + text

    def disc(self, cdb: bytes, data: bytes) -> bytes:
        """READ DISC INFORMATION."""
        self.medium()
        if cdb[1] & 7:
            raise Sense(ILLEGAL, 0x2400)
        state = 0x0E if self.closed else 0x05 if self.written() else 0
        last = 0 if self.closed else self.blocks
        return struct.pack(">HBBBBBB", 32, state, 1, 1, 1, 1, 0) + bytes(12) + struct.pack(">I", last) + bytes(10)

    def track(self, cdb: bytes, data: bytes) -> bytes:
        """READ TRACK INFORMATION."""
        kind, count = self.medium(), self.written()
        if cdb[1] & 3 == 1 and field(cdb, 2, 4) not in (1, 0xFF):
            raise Sense(ILLEGAL, 0x2400)
        modes = (0 if count else 0x40) | (0x20 if self.write_type() == PACKET and not self.closed else 0) | 1
        known = (0 if self.closed or self.damaged else 1) | (2 if count and not self.faults.no_last else 0)
        head = struct.pack(">HBBBBBB", 46, 1, 1, 0, 0x20 * self.damaged | 4, modes, known)
        free = 0 if self.closed else self.blocks - count
        size = count if self.closed else self.blocks
        last = 0 if self.faults.no_last else self.last_recorded()
        return head + struct.pack(">IIIIII", 0, 0 if self.closed else count, free, kind.unit, size, last) + bytes(16)

    def last_recorded(self) -> int:
        """The last block that is no link."""
        last = self.written() - 1
        while last in self.links:
            last -= 1
        return max(last, 0)

    def repair(self, cdb: bytes, data: bytes) -> bytes:
        """REPAIR TRACK."""
        self.medium()
        self.damaged = False
        self.repairs += 1
        return b""

    def structure(self, cdb: bytes, data: bytes) -> bytes:
        """READ DISC STRUCTURE: the physical format."""
        kind = self.medium()
        if cdb[7] or kind.profile == 0x09:
            raise Sense(ILLEGAL, 0x2400)
        if kind.profile == 0x41:
            return struct.pack(">HH", 4098, 0) + b"DI\1" + bytes(5) + b"BDR" + bytes(4085)
        book = 0xA1 if kind.profile == 0x1B else 0x25
        return struct.pack(">HH", 2050, 0) + bytes([book, 0x0F, 2, 0]) + struct.pack(">III", 0x30000, 0x30000 + self.blocks - 1, 0) + bytes(2032)

    # ---- read and written

    def read(self, cdb: bytes, data: bytes) -> bytes:
        self.medium()
        address, count = self.range_of(cdb)
        end = self.last_recorded() + 1 if self.faults.ends_early and self.written() else self.written()
        if address + count > end:
            raise Sense(ILLEGAL, 0x2100)
        wanted = range(address, address + count)
        self.reads += 1
        if 0 <= self.reads - self.faults.hardware < 6 and self.faults.hardware:
            # The drive's parts do not talk to each other.
            raise Sense(HARDWARE_ERROR, 0x0800)
        if self.faults.flaky and not cdb[1] & 8 and (address, count) not in self.tried:
            self.tried.add((address, count))
            raise Sense(MEDIUM_ERROR, 0x1100)
        if any(at in self.spoiled for at in wanted):
            raise Sense(MEDIUM_ERROR, 0x1100)
        if any(at in self.links for at in wanted):
            # A packet's link is no data of the track; the run-out of a track is not readable.
            raise Sense(ILLEGAL, 0x6400) if self.write_type() == PACKET else Sense(MEDIUM_ERROR, 0x1100)
        part = slice(address * BLOCK, (address + count) * BLOCK)
        found = (self.data + self.buffer)[part] if self.buffer else self.data[part]
        if self.faults.read is not None and address <= self.faults.read < address + count:
            found[(self.faults.read - address) * BLOCK] ^= 1
        return bytes(found)

    def write(self, cdb: bytes, data: bytes) -> bytes:
        kind = self.medium()
        address, count = self.range_of(cdb)
        if kind.profile == 0x09 and address >= 1 << 31:
            # The pregap of a CD's first track.
            return b""
        if self.closed:
            raise Sense(PROTECTED, 0x2700)
        if address != self.written():
            raise Sense(ILLEGAL, 0x2102)
        if address + count > self.blocks:
            raise Sense(ILLEGAL, 0x2100)
        if len(data) != count * BLOCK:
            raise Sense(ILLEGAL, 0x2400)
        if self.damaged:
            raise Sense(ILLEGAL, 0x7200)
        if self.faults.write is not None and self.faults.write < address + count and not self.failed and (self.faults.once or address <= self.faults.write):
            self.fail_at(max(self.faults.write, address), data)
        self.buffer += data
        self.is_open = True
        if len(self.buffer) > BUFFER * BLOCK:
            whole = (self.written() - self.written() % kind.unit) * BLOCK - len(self.data)
            self.data += self.buffer[:whole]
            del self.buffer[:whole]
        return b""

    def fail_at(self, address: int, data: bytes) -> None:
        """A write that fails. What comes before its unit is on the medium, and it is the last that is; or, where it spoils the unit, that."""
        unit = self.medium().unit
        if self.faults.once:
            self.failed, self.is_open = True, False
            first = address - address % unit
            before = bytes(self.buffer + data)
            self.buffer.clear()
            self.data += before[: max(first * BLOCK - len(self.data), 0)]
            if self.faults.spoils:
                self.data += bytes((first + unit) * BLOCK - len(self.data))
                self.spoiled.update(range(first, first + unit))
            if unit == 1 and self.data:
                self.add_link()
        raise Sense(MEDIUM_ERROR, 0x0C00)

    def add_link(self) -> None:
        self.links.update(range(self.written(), self.written() + LINK))
        self.data += bytes(LINK * BLOCK)

    def range_of(self, cdb: bytes) -> "tuple[int, int]":
        """The blocks of READ and WRITE, of 10 or 12 bytes."""
        return field(cdb, 2, 4), field(cdb, 6, 4) if cdb[0] & 0x80 else field(cdb, 7, 2)

    def synchronize(self, cdb: bytes, data: bytes) -> bytes:
        """Brings the buffer to the medium, and fills the last unit up. A packet of a CD ends, and so does what is written at once."""
        kind, is_open, self.is_open = self.medium(), self.is_open, False
        self.synchronized += is_open
        if 0 < self.faults.stuck <= self.synchronized:
            raise Sense(HARDWARE_ERROR, 0x4400)
        if is_open and self.synchronized == self.faults.resets:
            self.buffer.clear()
            # Power on, or a reset.
            raise Sense(ATTENTION, 0x2900)
        if self.buffer and self.synchronized == self.faults.flips:
            self.buffer[BLOCK] ^= 1
        if not self.buffer or self.synchronized != self.faults.loses:
            self.data += self.buffer + bytes(-self.written() % kind.unit * BLOCK)
        self.buffer.clear()
        if is_open and kind.profile == 0x09 and self.write_type() == PACKET:
            self.add_link()
        if is_open and self.synchronized == self.faults.unsynchronized:
            raise Sense(MEDIUM_ERROR, 0x0C00)
        if self.data and self.write_type() == SESSION_AT_ONCE and kind.profile in (0x09, 0x11):
            self.closed = True
        return b""

    def close(self, cdb: bytes, data: bytes) -> bytes:
        """CLOSE TRACK SESSION."""
        kind = self.medium()
        self.synchronize(cdb, data)
        if kind.profile == 0x09 and self.write_type() == TRACK_AT_ONCE and not self.links and self.data:
            self.links.update(range(self.written(), self.written() + RUN_OUT))
            self.data += bytes(RUN_OUT * BLOCK)
        if cdb[2] & 7 >= 2:
            self.closed = True
        return b""


def recorders(wanted: "List[Recorder]") -> "Dict[str, Recorder]":
    """Recorders by the names of their targets."""
    return {f"iqn.2026-11.disc:{recorder.name.lower().replace(' ', '-')}": recorder for recorder in wanted}
