"""Files of more than 117 extents, whose entries lead on to descriptor blocks (ECMA-167 4/14.5): structures alone, each in both directions."""

from __future__ import annotations

import struct
import unittest
from typing import Dict, List, Tuple

from udfburn.protocol.units import BlockNumber, Moment, Size
from udfburn.reader import DamageCause, FileType
from udfburn.reader.basics import BLOCK, BLOCK_NUMBERS, EXTENT_BYTES, LONGEST_FILE, write_tag
from udfburn.reader.budget import Budget
from udfburn.reader.descriptors import DescriptorBlock, extents_in, read_descriptor_block, write_descriptors
from udfburn.reader.entry import END, EXTENT, Entry, descriptor_blocks, read_entry, write_entry
from udfburn.reader.mend import Hint, mend_entry

from .appended import causes_in_entry

FIRST = 440_000
"""The number of the first descriptor block."""

LAST = END + 116 * EXTENT.size
"""Where the descriptor is that leads on."""

BEGIN = 24
"""Where the descriptors of a descriptor block begin."""

Changes = Tuple[Tuple[int, bytes], ...]


def entry_of(count: int, last: int = EXTENT_BYTES) -> Entry:
    """A file's entry with so many extents that lie apart."""
    firsts = [BlockNumber(7 + 500 * index) for index in range(count)]
    size = Size((count - 1) * EXTENT_BYTES + last)
    return Entry(FileType.FILE, Moment(1_000_000), 1, 20, size, firsts[0], None, 30, 0, True, tuple(firsts[1:]), BlockNumber(FIRST))


def read(blocks: List[bytes], entry: Entry) -> List[DescriptorBlock]:
    """What descriptor blocks say."""
    return [
        read_descriptor_block(block, BlockNumber(FIRST + index), entry.size, extents_in(entry.size, index)) for index, block in enumerate(blocks)
    ]


def first_causes(faults: List[object]) -> List[DamageCause]:
    """The causes of faults."""
    return [getattr(fault, "cause") for fault in faults]


class Structures(unittest.TestCase):
    """Entries and descriptor blocks without a medium."""

    def test_counts(self) -> None:
        """How many descriptor blocks there are, and how many descriptors each has."""
        cases = {118: [2], 241: [125], 242: [126], 243: [125, 2], 367: [125, 126], 368: [125, 125, 2], 879: [125] * 6 + [13]}
        for count, wanted in cases.items():
            size = entry_of(count, 1).size
            self.assertEqual([len(extents_in(size, index)) for index in range(descriptor_blocks(size))], wanted)
            self.assertEqual(extents_in(size, 0).start, 116)
            self.assertEqual(extents_in(size, len(wanted) - 1).stop, count)
        self.assertEqual([descriptor_blocks(Size(count * EXTENT_BYTES)) for count in (0, 1, 116, 117)], [0] * 4)
        self.assertEqual((LONGEST_FILE, descriptor_blocks(LONGEST_FILE)), (921_698_304, 7))

    def test_both_ways(self) -> None:
        for count in (118, 241, 242, 243, 300, 367, 368, 879):
            for last in (1, 2049, EXTENT_BYTES):
                wanted = entry_of(count, last)
                block = write_entry(wanted)
                self.assertEqual(block[172:176] + block[LAST:], struct.pack("<IIIQ", 1872, 0xC0000800, FIRST, 0))
                found, faults = read_entry(block, 30)
                assert found is not None
                self.assertEqual((faults, found.is_whole, len(found.extents), found.descriptors), ([], False, 116, FIRST))
                self.assertEqual((found.blocks, struct.unpack_from("<Q", block, 64)[0]), (-(-wanted.size // BLOCK),) * 2)
                self.assertEqual(write_entry(found), block)
                listed = read(write_descriptors(wanted), wanted)
                self.assertEqual([(one.proved, one.faults) for one in listed], [(True, [])] * descriptor_blocks(wanted.size))
                others = found.others + tuple(first for one in listed for first in one.firsts or ())
                self.assertEqual(others, wanted.others)

    def test_the_bytes_of_a_block(self) -> None:
        """A descriptor block byte by byte, made here from the words of the format alone."""
        wanted = entry_of(243, 5)
        whole, short = write_descriptors(wanted)
        listed = b"".join(struct.pack("<IIHIH", EXTENT_BYTES, 7 + 500 * index, 0, 0, 0) for index in range(116, 241))
        listed += struct.pack("<IIHIH", 0xC0000800, FIRST + 1, 0, 0, 0)
        self.assertEqual((len(listed), whole[16:]), (2016, struct.pack("<II", 0, 2016) + listed + bytes(8)))
        self.assertEqual(struct.unpack_from("<HHBBHHHI", whole)[:2] + struct.unpack_from("<HHBBHHHI", whole)[6:], (258, 3, 2024, FIRST))
        self.assertEqual(struct.unpack_from("<II", short, 16), (0, 32))
        self.assertEqual(struct.unpack_from("<IIHIH", short, 40), (5, 7 + 500 * 242, 0, 0, 0))
        self.assertFalse(any(short[56:]))


class Faults(unittest.TestCase):
    """One fault for each rule, in an entry and in a descriptor block, under a tag that is made good."""

    def test_entries(self) -> None:
        entry = entry_of(118, 5000)
        further = descriptor_blocks(entry.size)
        cases: Dict[DamageCause, List[Changes]] = {
            DamageCause.LENGTHS: [
                ((64, struct.pack("<Q", 60_418)),), ((172, struct.pack("<I", 1856)), (LAST, bytes(16))),
                ((56, struct.pack("<Q", LONGEST_FILE + 1)), (64, struct.pack("<Q", 450_049))),
                ((56, struct.pack("<Q", 117 * EXTENT_BYTES)), (64, struct.pack("<Q", 117 * 512)), (172, struct.pack("<I", 1888))),
            ],
            DamageCause.EXTENT: [
                ((LAST, struct.pack("<I", EXTENT_BYTES)),), ((LAST + 3, b"\0"),), ((LAST + 3, b"\x40"),), ((LAST, struct.pack("<I", 0xC0001000)),),
                ((LAST + 8, b"\1"),), ((LAST + 10, b"\1"),), ((LAST + 15, b"\1"),),
                ((LAST + 4, struct.pack("<I", BLOCK_NUMBERS)),), ((LAST - 13, b"\x40"),), ((LAST - 16, struct.pack("<I", 5000)),),
                ((56, struct.pack("<Q", 117 * EXTENT_BYTES)), (64, struct.pack("<Q", 117 * 512))),
            ],
        }
        for cause, changes in cases.items():
            for change in changes:
                with self.subTest(cause=cause, change=change):
                    self.assertEqual(causes_in_entry(entry, *change)[:1], [cause])
        self.assertEqual(causes_in_entry(entry, (LAST + 4, struct.pack("<I", BLOCK_NUMBERS - further))), [])

    def in_block(self, entry: Entry, index: int, *changes: Tuple[int, bytes]) -> Tuple[List[DamageCause], bool]:
        """The causes of a changed descriptor block, and whether it can be used."""
        blocks = [bytearray(block) for block in write_descriptors(entry)]
        for at, data in changes:
            blocks[index][at : at + len(data)] = data
        length, = struct.unpack_from("<I", blocks[index], 20)
        end = BEGIN + length if length <= 2016 and length % 16 == 0 else BEGIN
        blocks[index][:16] = write_tag(258, bytes(blocks[index][16:end]), FIRST + index)
        found = read(list(map(bytes, blocks)), entry)[index]
        # The CRC is that of the descriptors that are there, and no one says what they were.
        self.assertEqual(found.proved, not first_causes(list(found.faults)) or found.faults[0].cause is DamageCause.TAIL)
        return first_causes(list(found.faults)), found.firsts is not None

    def test_blocks(self) -> None:
        cases: Dict[DamageCause, List[Changes]] = {
            DamageCause.FIXED: [((16, b"\1"),), ((16, struct.pack("<I", FIRST)),)],
            DamageCause.LENGTHS: [((20, struct.pack("<I", 2000)), (BEGIN + 2000, bytes(16))), ((20, struct.pack("<I", 2032)),), ((20, struct.pack("<I", 2015)),)],
            DamageCause.EXTENT: [
                ((BEGIN, struct.pack("<I", EXTENT_BYTES - 2048)),), ((BEGIN + 19, b"\x40"),), ((BEGIN + 8, b"\1"),), ((BEGIN + 13, b"\1"),),
                ((BEGIN + 4, struct.pack("<I", BLOCK_NUMBERS - 511)),), ((BEGIN + 2000, struct.pack("<I", EXTENT_BYTES)),),
                ((BEGIN + 2004, struct.pack("<I", FIRST + 2)),), ((BEGIN + 2004, struct.pack("<I", FIRST)),), ((BEGIN + 2003, b"\x40"),),
            ],
            DamageCause.TAIL: [((BEGIN + 2016, b"\1"),), ((BLOCK - 1, b"\1"),)],
        }
        for cause, changes in cases.items():
            for change in changes:
                with self.subTest(cause=cause, change=change):
                    self.assertEqual(self.in_block(entry_of(243), 0, *change)[0][:1], [cause])

    def test_the_last_block(self) -> None:
        """It has as many descriptors as remain, and a full one leads nowhere."""
        self.assertEqual(self.in_block(entry_of(243, 9), 1, (BEGIN + 16, struct.pack("<I", 8))), ([DamageCause.EXTENT], False))
        leads_on = struct.pack("<II", 0xC0000800, FIRST + 1)
        self.assertEqual(self.in_block(entry_of(242), 0, (BEGIN + 2000, leads_on))[0][:1], [DamageCause.EXTENT])
        more = self.in_block(entry_of(118), 0, (20, struct.pack("<I", 48)), (BEGIN + 32, leads_on))
        self.assertEqual(more, ([DamageCause.LENGTHS], True))

    def test_tags(self) -> None:
        """A wrong byte of the tag, a block of another place, and one that is none."""
        entry = entry_of(118)
        block, = write_descriptors(entry)
        extents = extents_in(entry.size, 0)
        for at in range(16):
            found = read_descriptor_block(block[:at] + bytes([block[at] ^ 1]) + block[at + 1 :], BlockNumber(FIRST), entry.size, extents)
            self.assertEqual((found.firsts is not None, found.proved), (True, True), at)
            self.assertEqual(set(first_causes(list(found.faults))), {DamageCause.TAG})
        moved = read_descriptor_block(block, BlockNumber(FIRST + 5), entry.size, extents)
        self.assertEqual((moved.firsts is not None, moved.proved, first_causes(list(moved.faults))), (True, False, [DamageCause.TAG]))
        for other in (bytes(BLOCK), b"\xff" * BLOCK, write_entry(entry)):
            found = read_descriptor_block(other, BlockNumber(FIRST), entry.size, extents)
            self.assertEqual((found.firsts, first_causes(list(found.faults))[:1]), (None, [DamageCause.TAG]))
        gone = read_descriptor_block(None, BlockNumber(FIRST), entry.size, extents)
        self.assertEqual((gone.firsts, first_causes(list(gone.faults))), (None, [DamageCause.MISSING]))

    def test_each_wrong_byte(self) -> None:
        """Whichever byte is wrong, there is a fault, and what is proved is what was written."""
        entry = entry_of(243, 777)
        for index, block in enumerate(write_descriptors(entry)):
            extents = extents_in(entry.size, index)
            wanted = entry.others[extents.start - 1 : extents.stop - 1]
            for at in range(BLOCK):
                for bit in (1, 128):
                    wrong = block[:at] + bytes([block[at] ^ bit]) + block[at + 1 :]
                    found = read_descriptor_block(wrong, BlockNumber(FIRST + index), entry.size, extents)
                    self.assertTrue(found.faults, at)
                    self.assertTrue(not found.proved or found.firsts == wanted, at)

    def test_wrong_bytes_are_mended(self) -> None:
        for count in (118, 243, 879):
            wanted = entry_of(count)
            short = wanted._replace(others=wanted.others[:115])
            for at in (4, 8, 12, 27, 40, 57, 64, 72, 172, 173, END + 2, LAST, LAST + 3, LAST + 9):
                block = bytearray(write_entry(wanted))
                block[at] ^= 0x41
                found = mend_entry(bytes(block), Hint(BlockNumber(9000), 30), Budget(0))
                assert found is not None, at
                self.assertEqual((found._replace(check=0), found.proved), (short, True), at)

    def test_a_wrong_bit_of_a_size_or_a_place_is_mended(self) -> None:
        """The last extent's length is in a descriptor block: what agrees with the blocks and the CRC is the size. These lie before the entry."""
        wanted = entry_of(243, 5000)
        short = wanted._replace(others=wanted.others[:115])
        hint = Hint(BlockNumber(FIRST + descriptor_blocks(wanted.size)), 30)
        for at, bit in [(56 + bit // 8, bit % 8) for bit in range(64)] + [(LAST + 4 + bit // 8, bit % 8) for bit in range(32)]:
            block = bytearray(write_entry(wanted))
            block[at] ^= 1 << bit
            found = mend_entry(bytes(block), hint, Budget(0))
            assert found is not None, (at, bit)
            self.assertEqual((found._replace(check=0), found.proved), (short, True), (at, bit))


if __name__ == "__main__":
    unittest.main()
