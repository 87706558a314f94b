"""Files whose entries lead on to descriptor blocks, on a volume: read, checked and salvaged, whole and with one fault for each rule."""

from __future__ import annotations

import hashlib
import os
import struct
import unittest
from typing import Callable, Dict, List, NamedTuple, Optional, Tuple

from udfburn.image.check_data import check_data
from udfburn.image.coverage import Coverage
from udfburn.protocol.units import Address, BlockNumber, Commit, Moment, Size
from udfburn.reader import DamageCause, FileType, Medium, Volume
from udfburn.reader.basics import BLOCK, BLOCK_NUMBERS, EXTENT_BYTES, PARTITION, write_tag
from udfburn.reader.descriptors import write_descriptors
from udfburn.reader.entry import Entry, extent_count, extent_size, write_entry
from udfburn.salvage.salvage import FILE_DAMAGED, FILE_EARLIER, FILE_UNPROVED, FILE_WHOLE, Salvage, SalvageOutcome

from .appended import Appender, empty_image, marked
from .salvaged import judged

LAST_BYTES = 5_000
OTHER = b"another file " * 400
BEGIN = 24

Change = Callable[[bytearray], None]


class Fault(NamedTuple):
    """A change of a descriptor block, the cause of its fault, whether a reader can use it, and how salvage has the file."""

    change: Change
    cause: DamageCause
    is_used: bool
    state: str
    ranges: Tuple[Tuple[int, int], ...] = ()


def put(at: int, data: bytes, *more: Tuple[int, bytes]) -> Change:
    """A change of bytes, under a tag that is made good."""
    def change(block: bytearray) -> None:
        location, = struct.unpack_from("<I", block, 12)
        for place, text in ((at, data), *more):
            block[place : place + len(text)] = text
        length, = struct.unpack_from("<I", block, 20)
        block[:16] = write_tag(258, bytes(block[16 : BEGIN + length]), location)
    return change


def other_location(block: bytearray) -> None:
    """The block of another place."""
    location, = struct.unpack_from("<I", block, 12)
    length, = struct.unpack_from("<I", block, 20)
    block[:16] = write_tag(258, bytes(block[16 : BEGIN + length]), location + 1)


def other_crc(block: bytearray) -> None:
    """A CRC that is wrong, under a checksum that is right."""
    block[8] ^= 1
    block[4] = 0
    block[4] = sum(block[:16]) % 256


class OnImage(unittest.TestCase):
    """An image with a file of so many extents, whose last three appends are commits, and another file."""

    COUNT = 118

    def setUp(self) -> None:
        self.image = empty_image(self)
        self.size = (self.COUNT - 1) * EXTENT_BYTES + LAST_BYTES
        self.appender = Appender(self.image)
        self.appender.create("other", OTHER)
        self.appender.marked("film", self.size)
        self.finish()
        self.appender.write()
        with Medium(self.image) as medium:
            volume = Volume(medium)
            entries = [(table.commit, volume.state(table.commit).entries[3]) for table in volume.chain() if table.commit > 1]
        self.entries: Dict[int, int] = {commit: number for commit, number in entries}
        """The number of the file's entry after each commit."""

    def finish(self) -> None:
        """What else the image has."""

    @property
    def entry(self) -> int:
        """The number of the file's newest entry. Its descriptor blocks lie before it."""
        return self.entries[max(self.entries)]

    def change(self, number: int, change: Optional[Change] = None) -> None:
        """Changes a block, or has it all zeros, until the end of the test."""
        with open(self.image, "r+b") as file:
            file.seek((number + PARTITION) * BLOCK)
            old = file.read(BLOCK)
            new = bytearray(old if change is not None else BLOCK)
            if change is not None:
                change(new)
            file.seek((number + PARTITION) * BLOCK)
            file.write(new)

    def piece(self, index: int, name: str = "film") -> bytes:
        return marked(name, self.size, index)

    def salvaged(self, commit: Optional[Commit] = None) -> Tuple[SalvageOutcome, bytes]:
        """What is had of the file, where the other one is whole."""
        with Medium(self.image) as medium:
            found = Salvage(medium, commit)
            given = {item.path[-1]: judged(found, item) for item in found.tree.items if item.kind is FileType.FILE}
            self.salvage_noted = [(note.block - PARTITION, note.cause) for note in found.notes]
            self.salvage_paths = found.paths()
        self.assertEqual(given["other"][1], OTHER)
        return given["film"]

    def require_pieces(self, data: bytes, missing: Tuple[Tuple[int, int], ...] = ()) -> None:
        """Each piece is as it was stored, but those that are missing, which are zeros."""
        gone = {begin // EXTENT_BYTES for begin, _ in missing}
        for index in range(extent_count(Size(len(data)))):
            begin = index * EXTENT_BYTES
            wanted = bytes(extent_size(Size(len(data)), index)) if index in gone else self.piece(index)
            self.assertTrue(data[begin : begin + EXTENT_BYTES] == wanted, index)

    def noted(self) -> List[Tuple[int, DamageCause]]:
        """The blocks and causes that a look at all states names, without what follows from them."""
        with Medium(self.image) as medium:
            return [(note.block - PARTITION, note.cause) for note in Volume(medium).check().all() if note.cause is not DamageCause.COUNTS]

    def is_there(self) -> bool:
        """Whether the newest state has the file. The other one is there."""
        with Medium(self.image) as medium:
            volume = Volume(medium)
            state = volume.state()
            other = state.find(("other",))
            assert other is not None
            self.assertEqual(volume.read(other).data, OTHER)
            return state.find(("film",)) is not None

    def require_fault(self, number: int, fault: Fault) -> None:
        """The fault is named by the block's address, and nothing else is lost."""
        self.change(number, fault.change)
        noted = self.noted()
        self.assertEqual(noted[0], (number, fault.cause))
        self.assertEqual({block for block, _ in noted}, {number})
        self.assertEqual(self.is_there(), fault.is_used)
        outcome, data = self.salvaged()
        self.assertEqual((outcome.state, outcome.ranges), (fault.state, fault.ranges), outcome.why)
        self.require_pieces(data, fault.ranges)
        self.assertIn((number, fault.cause), self.salvage_noted)
        self.assertEqual(self.salvage_paths[Address(number + PARTITION)], "/film")


class Whole(unittest.TestCase):
    """Files on both sides of each count of descriptor blocks."""

    def test_each_count(self) -> None:
        for count in (117, 118, 242, 243, 300):
            with self.subTest(count=count):
                held = OnImage()
                held.COUNT = count
                held.setUp()
                self.addCleanup(held.doCleanups)
                with Medium(held.image) as medium:
                    volume = Volume(medium)
                    node = volume.state().find(("film",))
                    assert node is not None
                    self.assertEqual((node.size, node.blocks, len(node.extents)), (held.size, (count - 1) * 512 + 3, count))
                    for index, run in enumerate(volume.pieces(node)):
                        self.assertTrue(run.data == held.piece(index) and not run.missing, index)
                    self.assertEqual([str(note) for note in volume.check().all()], [])
                    found = [volume.state(Commit(commit)).find(("film",)) for commit in sorted(held.entries)]
                    sizes = [1, (count - 2) * EXTENT_BYTES, (count - 1) * EXTENT_BYTES, held.size]
                    self.assertEqual([node.size for node in found if node is not None], sizes)
                held.doCleanups()


class OneBlock(OnImage):
    """A file of 118 extents: one descriptor block, and before it an entry that has all descriptors."""

    def require_one(self, fault: Fault) -> None:
        self.require_fault(self.entry - 1, fault)

    def lost(self) -> Tuple[Tuple[int, int], ...]:
        """The last extent, which no other entry has."""
        return ((117 * EXTENT_BYTES, LAST_BYTES),)

    def test_whole(self) -> None:
        self.assertEqual((self.noted(), self.is_there()), ([], True))
        outcome, data = self.salvaged()
        self.assertEqual((outcome.state, outcome.why, len(data)), (FILE_UNPROVED, "", self.size))
        self.require_pieces(data)
        commits = sorted(self.entries)
        outcome, data = self.salvaged(Commit(commits[-2]))
        self.assertEqual((outcome.state, len(data)), (FILE_UNPROVED, 117 * EXTENT_BYTES))

    def test_a_wrong_place_in_the_entry(self) -> None:
        """An extent would end past the partition, or past the VAT ICB. The earlier entry says where it is, and the descriptor block is read."""
        for wrong in (struct.pack("<I", BLOCK_NUMBERS), struct.pack("<I", BLOCK_NUMBERS - 600)):
            for index in (0, 3, 115):
                sound = bytearray()

                def change(block: bytearray) -> None:
                    sound[:] = block
                    block[176 + 16 * index + 4 : 176 + 16 * index + 8] = wrong

                self.change(self.entry, change)
                outcome, data = self.salvaged()
                self.assertEqual((outcome.state, outcome.ranges, outcome.why), (FILE_UNPROVED, (), ""), index)
                self.require_pieces(data)
                self.change(self.entry, lambda block: block.__setitem__(slice(None), sound))

    def test_another_location(self) -> None:
        self.require_one(Fault(other_location, DamageCause.TAG, True, FILE_DAMAGED))

    def test_another_crc(self) -> None:
        self.require_one(Fault(other_crc, DamageCause.TAG, True, FILE_DAMAGED))

    def test_a_block_before(self) -> None:
        self.require_one(Fault(put(16, b"\1"), DamageCause.FIXED, True, FILE_DAMAGED))

    def test_a_length_that_is_short(self) -> None:
        self.require_one(Fault(put(20, struct.pack("<I", 16), (BEGIN + 16, bytes(16))), DamageCause.LENGTHS, False, FILE_DAMAGED, self.lost()))

    def test_past_the_partition(self) -> None:
        past = put(BEGIN + 20, struct.pack("<I", BLOCK_NUMBERS - 1))
        self.require_one(Fault(past, DamageCause.EXTENT, False, FILE_DAMAGED, self.lost()))

    def test_a_tail(self) -> None:
        def tail(block: bytearray) -> None:
            block[-1] = 1
        self.require_one(Fault(tail, DamageCause.TAIL, True, FILE_UNPROVED))

    def test_a_wrong_byte_is_mended(self) -> None:
        """The CRC says what the bytes were that follow from the size."""
        def wrong(block: bytearray) -> None:
            block[12], block[16], block[20] = block[12] ^ 1, 7, 99
        self.require_one(Fault(wrong, DamageCause.TAG, True, FILE_UNPROVED))

    def test_a_wrong_bit_of_a_descriptor(self) -> None:
        """Lengths follow from the size, the place of the first extent is in an earlier entry, and the last one ends where the block is."""
        for at in (BEGIN, BEGIN + 2, BEGIN + 3, BEGIN + 4, BEGIN + 9, BEGIN + 16, BEGIN + 17, BEGIN + 20, BEGIN + 31):
            self.require_one(Fault(lambda block: block.__setitem__(at, block[at] ^ 1), DamageCause.TAG, True, FILE_UNPROVED))
            self.change(self.entry - 1, lambda block: block.__setitem__(at, block[at] ^ 1))
        for at in (BEGIN + 6, BEGIN + 23):
            self.change(self.entry - 1, lambda block: block.__setitem__(at, block[at] ^ 1))
            outcome, data = self.salvaged()
            self.assertEqual((outcome.state, outcome.ranges), (FILE_UNPROVED, ()), at)
            self.require_pieces(data)
            self.change(self.entry - 1, lambda block: block.__setitem__(at, block[at] ^ 1))

    def test_missing(self) -> None:
        """A block that cannot be read is named, and so is the only extent that nothing else leads to."""
        gone, size = self.entry - 1 + PARTITION, os.path.getsize(self.image)
        rescue = self.image + ".map"
        with open(rescue, "w", encoding="ascii") as file:
            file.write(f"0x0 + 1\n0x0 0x{gone * BLOCK:x} +\n0x{gone * BLOCK:x} 0x800 -\n0x{(gone + 1) * BLOCK:x} 0x{size - (gone + 1) * BLOCK:x} +\n")
        with Medium(self.image, rescue) as medium:
            found = Salvage(medium)
            outcome, data = judged(found, next(item for item in found.tree.items if item.path == ("film",)))
        self.assertEqual((outcome.state, outcome.ranges), (FILE_DAMAGED, self.lost()))
        self.assertIn((gone, DamageCause.MISSING), [(note.block, note.cause) for note in found.notes])
        self.require_pieces(data, self.lost())

    def test_above_the_table(self) -> None:
        """Descriptor blocks that do not lie below the VAT ICB are named at the entry, with cause 72."""
        appender = Appender(self.image)
        appender.added, appender.contents["film"] = [], self.appender.contents["film"]
        number = self.above(appender)
        self.assertEqual(set(self.noted()), {(number, DamageCause.RANGE)})
        self.assertFalse(self.is_there())
        outcome, data = self.salvaged()
        self.assertEqual((outcome.state, outcome.ranges), (FILE_UNPROVED, ()))
        self.require_pieces(data)

    def above(self, appender: Appender) -> int:
        """One commit more, whose entry leads to descriptor blocks after its VAT ICB. Gives the number of that entry."""
        size, firsts = self.appender.contents["film"]
        entry = Entry(
            FileType.FILE, Moment(9), 1, 17, Size(size), BlockNumber(firsts[0]), None, 3, 0, True, tuple(map(BlockNumber, firsts[1:])),
            BlockNumber(appender.number + 3),
        )
        appender.words[3] = number = appender.put(write_entry(entry))
        appender.commit_table()
        self.assertEqual(appender.number, entry.descriptors)
        for block in write_descriptors(entry):
            appender.put(block)
        appender.write()
        return number


class TwoBlocks(OnImage):
    """A file of 243 extents: two descriptor blocks."""

    COUNT = 243

    def test_it_ends_early(self) -> None:
        """In place of the descriptor that leads on there is that of an extent."""
        early = put(BEGIN + 2000, struct.pack("<II", EXTENT_BYTES, 300))
        self.require_fault(self.entry - 2, Fault(early, DamageCause.EXTENT, True, FILE_UNPROVED))

    def test_it_leads_elsewhere(self) -> None:
        elsewhere = put(BEGIN + 2004, struct.pack("<I", 300))
        self.require_fault(self.entry - 2, Fault(elsewhere, DamageCause.EXTENT, True, FILE_UNPROVED))

    def test_a_wrong_bit_of_a_descriptor(self) -> None:
        """Of each block: the first one and the last one, its length and its place."""
        for number, last in ((self.entry - 2, 124), (self.entry - 1, 1)):
            for at in (BEGIN + 1, BEGIN + 4, BEGIN + 16 * last + 1, BEGIN + 16 * last + 4):
                self.require_fault(number, Fault(lambda block: block.__setitem__(at, block[at] ^ 1), DamageCause.TAG, True, FILE_UNPROVED))
                self.change(number, lambda block: block.__setitem__(at, block[at] ^ 1))

    def test_pieces_of_earlier_entries(self) -> None:
        """What a damaged block has is taken from the newest entry before that has it, block by block."""
        before = self.entries[sorted(self.entries)[-2]]
        self.change(self.entry - 2)
        outcome, data = self.salvaged()
        self.assertEqual((outcome.state, outcome.ranges, len(data)), (FILE_UNPROVED, (), self.size))
        self.require_pieces(data)
        # The entry before has one block. That of the entry before it has all but the last two extents, and the second block has these.
        self.change(before - 1)
        outcome, data = self.salvaged()
        self.assertEqual((outcome.state, outcome.ranges, len(data)), (FILE_UNPROVED, (), self.size))
        self.require_pieces(data)
        self.change(self.entry - 1)
        lost = ((241 * EXTENT_BYTES, EXTENT_BYTES + LAST_BYTES),)
        outcome, data = self.salvaged()
        self.assertEqual((outcome.state, outcome.ranges, len(data)), (FILE_DAMAGED, lost, self.size))
        self.require_pieces(data, ((241 * EXTENT_BYTES, 0), (242 * EXTENT_BYTES, 0)))


class WithDigests(OnImage):
    """The same beside a manifest."""

    def finish(self) -> None:
        whole = hashlib.sha256()
        for index in range(self.COUNT):
            whole.update(self.piece(index))
        self.appender.create("manifest-sha256.txt", f"{whole.hexdigest()}  film\n".encode())

    def told(self) -> List[str]:
        told: List[str] = []
        with Medium(self.image) as medium:
            volume = Volume(medium)
            check_data(Coverage(volume, volume.state()), (), lambda path, how, commit: told.append(path))
        return told

    def test_each_byte_is_compared(self) -> None:
        self.assertEqual(self.told(), [])
        self.assertEqual(self.salvaged()[0].state, FILE_WHOLE)
        self.change(self.appender.contents["film"][1][117], lambda block: block.__setitem__(700, 1))
        self.assertEqual(self.told(), ["/film"])
        self.assertEqual(self.salvaged()[0].state, FILE_DAMAGED)

    def test_a_lost_block(self) -> None:
        """The last extent is found by the digest: its data ends where the descriptor blocks begin."""
        self.change(self.entry - 1)
        self.assertEqual(self.told(), ["/film"])
        outcome, data = self.salvaged()
        self.assertEqual((outcome.state, len(data)), (FILE_WHOLE, self.size))
        self.require_pieces(data)

    def test_a_lost_entry(self) -> None:
        """So it is where the entry is lost, and the descriptor block is not. Without the digest all is there but the last extent."""
        self.change(self.entry)
        outcome, data = self.salvaged()
        self.assertEqual((outcome.state, len(data)), (FILE_WHOLE, self.size))
        with Medium(self.image) as medium:
            node = Volume(medium).state().find(("manifest-sha256.txt",))
            assert node is not None and node.data is not None
        self.change(node.address - PARTITION)
        self.change(node.data - PARTITION)
        outcome, data = self.salvaged()
        self.assertEqual((outcome.state, len(data)), (FILE_EARLIER, 117 * EXTENT_BYTES))


if __name__ == "__main__":
    unittest.main()
