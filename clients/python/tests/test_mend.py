"""Entries and identifiers with wrong bytes: what is said twice, or follows, is restored, and nothing is made up."""

from __future__ import annotations

import unittest
from typing import List, Tuple

from udfburn.protocol.units import BlockNumber, Moment, Size, VirtualAddress
from udfburn.reader.basics import BLOCK, EXTENT_BYTES, write_tag
from udfburn.reader.budget import Budget, Work
from udfburn.reader.directory import KnownIdentifiers, OF_DIRECTORY, OF_PARENT, read_directory, write_identifier
from udfburn.reader.entry import EXTENT, Entry, FileType, write_entry
from udfburn.reader.mend import Hint, mend_entry, mend_identifier

NUMBER = 1000
"""The block number at which each structure is."""

VIRTUAL, UNIQUE, NAME_SIZE, USE_SIZE, NAME = range(24, 28), range(32, 36), 19, range(36, 38), 38


def identifiers() -> List[Tuple[bytes, bool, int]]:
    """Identifiers, whether each is the first of its directory, and the bytes of its implementation use."""
    named = [
        ("", OF_PARENT, 5, 0, 0), ("a", 0, 7, 300, 0), ("ab", OF_DIRECTORY, 4000, 262_000, 0), ("abc", 0, 7, 300, 0), ("abcd", 0, 7, 300, 0),
        ("\u00e9\u4e2d", 0, 9, 400, 0), ("a name", 0, 9, 400, 32), ("x" * 100, OF_DIRECTORY, 9, 400, 64), ("y" * 254, 0, 9, 400, 0),
    ]
    return [(write_identifier(name, kind, VirtualAddress(virtual), unique, more, BlockNumber(NUMBER)), kind == OF_PARENT, more) for name, kind, virtual, unique, more in named]


def with_byte(data: bytes, at: int, byte: int) -> bytes:
    return data[:at] + bytes([byte]) + data[at + 1 :]


def seems_whole(data: bytes) -> bool:
    """Whether all but the CRC agrees: one of 256 wrong bytes leaves the checksum of the tag as it is."""
    tag = write_tag(257, data[16:], NUMBER)
    return tag != data[:16] and tag[:8] + tag[10:] == data[:8] + data[10:16]


class Identifiers(unittest.TestCase):
    def test_whole(self) -> None:
        for data, is_first, _ in identifiers():
            self.assertEqual(mend_identifier(data, BlockNumber(NUMBER), is_first, False), data)
        self.assertIsNone(mend_identifier(identifiers()[0][0][:36], BlockNumber(NUMBER), True, True), "too short for one")

    def test_each_byte(self) -> None:
        """A virtual address, a unique ID, a name and, beside an implementation use, its length are said once: no reading of those is left."""
        for data, is_first, more in identifiers():
            size = data[NAME_SIZE]
            once = {*VIRTUAL, *UNIQUE, *range(NAME + more, NAME + more + size), *([NAME_SIZE] if more else [])}
            for at in range(len(data)):
                wrong = with_byte(data, at, data[at] ^ 0x5A)
                self.assertEqual(mend_identifier(wrong, BlockNumber(NUMBER), is_first, False), None if at in once else data, (size, more, at))

    def test_a_byte_that_the_checksum_does_not_show(self) -> None:
        """It is not taken for a wrong CRC: the tag agrees with itself."""
        count = 0
        for data, is_first, more in identifiers()[:6]:
            for at in (*VIRTUAL, *UNIQUE, *range(NAME + more, len(data))):
                for bits in range(1, 256):
                    wrong = with_byte(data, at, data[at] ^ bits)
                    if seems_whole(wrong):
                        count += 1
                        self.assertIn(mend_identifier(wrong, BlockNumber(NUMBER), is_first, False), (None, data), (more, at, bits))
        self.assertGreater(count, 20)

    def test_a_bit_of_each_byte(self) -> None:
        for data, is_first, more in (identifiers()[index] for index in (0, 1, 5)):
            for at in range(16, len(data)):
                wrong = with_byte(data, at, data[at] ^ 1 << at % 8)
                self.assertEqual(mend_identifier(wrong, BlockNumber(NUMBER), is_first, True), data, (data[NAME_SIZE], more, at))

    def test_a_byte_of_what_an_entry_and_a_table_say(self) -> None:
        data, is_first, _ = identifiers()[1]
        for at in (24, 25, 33):
            self.assertEqual(mend_identifier(with_byte(data, at, data[at] ^ 0x5A), BlockNumber(NUMBER), is_first, True), data, at)

    def test_two_bytes(self) -> None:
        """Of a name nothing is made up."""
        data = write_identifier("abcd", 0, VirtualAddress(7), 300, 0, BlockNumber(NUMBER))
        self.assertIsNone(mend_identifier(with_byte(with_byte(data, 39, 0x62), 40, 0x63), BlockNumber(NUMBER), False, True))

    def test_the_bits_of_few_are_tried(self) -> None:
        """To try them takes long, so it is done for so many of a medium alone."""
        names = [write_identifier(name, 0, VirtualAddress(7 + index), 300 + index, 0, BlockNumber(NUMBER)) for index, name in enumerate("aBcDeF")]
        hurt = [with_byte(name, NAME + 1, name[NAME + 1] ^ 1) if index % 2 == 0 else name for index, name in enumerate(names)]
        data = b"".join((write_identifier("", OF_PARENT, VirtualAddress(5), 0, 0, BlockNumber(NUMBER)), *hurt))
        for most in (2, 3):
            known = KnownIdentifiers(Budget(5000))
            known.bits = most
            found, _ = read_directory(data.ljust(BLOCK, b"\0"), Size(len(data)), BlockNumber(NUMBER), known)
            proved = [name.name for name in found.names if name.proved]
            self.assertEqual((proved, known.bits), (list("aBcDF") if most == 2 else list("aBcDeF"), 0))


def entries() -> List[Entry]:
    """Entries of each kind, with their bytes inside, in one extent, in several, and with none."""
    moment, inside = 1_700_000_000_123_456, bytes(range(200))
    return [
        Entry(FileType.FILE, Moment(moment), 1, 300, Size(len(inside)), None, inside, 7, 0, True),
        Entry(FileType.FILE, Moment(moment), 1, 300, Size(5000), BlockNumber(NUMBER - 3), None, 7, 0, True),
        Entry(FileType.FILE, Moment(moment), 1, 300, Size(0), None, None, 7, 0, True),
        Entry(FileType.FILE, Moment(moment), 1, 300, Size(2 * EXTENT_BYTES + 5), BlockNumber(100), None, 7, 0, True, (BlockNumber(700), BlockNumber(4000))),
        Entry(FileType.DIRECTORY, Moment(moment), 3, 300, Size(100), BlockNumber(NUMBER - 1), None, 7, 0, True),
        Entry(FileType.TABLE, Moment(moment), 0, 0, Size(5000), BlockNumber(NUMBER - 3), None, NUMBER, 0, True),
    ]


class Entries(unittest.TestCase):
    def mended(self, block: bytes, entry: Entry) -> "Entry | None":
        """What a block is taken for, with all that a table and a directory say of it."""
        hint = Hint(BlockNumber(NUMBER), entry.location, entry.unique, entry.kind)
        found = mend_entry(block, hint, Budget(5000))
        return found if found is None else found._replace(check=0)

    def test_whole(self) -> None:
        for entry in entries():
            self.assertEqual(self.mended(write_entry(entry), entry), entry)

    def test_each_byte(self) -> None:
        """Whichever byte of a descriptor is another: the rest, and what leads to the entry, leave one reading of it."""
        for entry in entries():
            block = write_entry(entry)
            for at in range(192 if entry.first is not None and not entry.others else 176):
                # How many links a directory has is said once, and each bit of it is tried.
                bits = 0x02 if entry.kind is FileType.DIRECTORY and at in (48, 49) else 0x5A
                self.assertEqual(self.mended(with_byte(block, at, block[at] ^ bits), entry), entry, (entry.kind, entry.size, at))

    def test_a_byte_of_the_bytes_inside(self) -> None:
        """They are said once: the entry is not proved."""
        entry = entries()[0]
        for at in (176, 250, 375):
            found = self.mended(with_byte(write_entry(entry), at, 0xFF), entry)
            assert found is not None
            self.assertEqual((found.size, found.proved), (entry.size, False))

    def test_several_extents(self) -> None:
        """Their places are said once, and their lengths follow from the size."""
        entry = entries()[3]
        block = write_entry(entry)
        for index in range(3):
            begin = 176 + EXTENT.size * index
            for at in (*range(begin, begin + 4), *range(begin + 8, begin + 16)):
                self.assertEqual(self.mended(with_byte(block, at, block[at] ^ 0x5A), entry), entry, at)
            found = self.mended(with_byte(block, begin + 4, block[begin + 4] ^ 1), entry)
            self.assertTrue(found is None or not found.proved, index)

    def test_another_place(self) -> None:
        """A tag that agrees with itself is that of the location that it says."""
        entry = entries()[1]
        found = mend_entry(with_byte(write_entry(entry), BLOCK - 1, 1), Hint(BlockNumber(NUMBER), 8, 300, FileType.FILE), Budget(5000))
        assert found is not None
        self.assertEqual(found.location, 7)

    def test_no_bytes_inside(self) -> None:
        """The format has no entry whose bytes are in their place and are none."""
        entry = entries()[0]._replace(size=Size(0), inside=b"")
        self.assertIsNone(self.mended(write_entry(entry), entry))

    def test_no_budget(self) -> None:
        entry, spent = entries()[1], Budget(5000)
        spent.take(Work.MENDS, 500_001)
        found = mend_entry(with_byte(write_entry(entry), 44, 1), Hint(BlockNumber(NUMBER), 7, 300, FileType.FILE), spent)
        assert found is not None
        self.assertFalse(found.proved)


if __name__ == "__main__":
    unittest.main()
