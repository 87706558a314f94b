"""Files of more than a mebibyte, which are in several extents: read, checked, salvaged, and refused where they are not as they must be."""

from __future__ import annotations

import hashlib
import os
import random
import struct
import unittest
from typing import Dict, List, Tuple
from unittest import mock

from udfburn.image.check_data import check_data
from udfburn.image.coverage import Coverage
from udfburn.protocol.units import Address, BlockNumber, Commit, Moment, Size
from udfburn.reader import DamageCause, FileType, Medium, Run, Volume
from udfburn.reader.basics import BLOCK, ENTRY_DESCRIPTORS, EXTENT_BYTES, PARTITION
from udfburn.reader.budget import Budget
from udfburn.reader.entry import END, EXTENT, Entry, read_entry, write_entry
from udfburn.reader.mend import Hint, mend_entry
from udfburn.salvage.salvage import FILE_DAMAGED, FILE_EARLIER, FILE_UNPROVED, FILE_WHOLE, Salvage

from .appended import Appender, causes_in_entry, empty_image
from .salvaged import judged

ENTRY_FILE = ENTRY_DESCRIPTORS * EXTENT_BYTES
"""The bytes of a file whose entry has all descriptors, at most."""

SIZES = {"two": EXTENT_BYTES + 1, "whole": 2 * EXTENT_BYTES, "three": 2 * EXTENT_BYTES + 777}


def entry_of(size: int, step: int = 520) -> Entry:
    """A file's entry whose extents lie apart."""
    count = -(-size // EXTENT_BYTES)
    return Entry(FileType.FILE, Moment(1_000_000), 1, 20, Size(size), BlockNumber(7), None, 30, 0, True, tuple(BlockNumber(7 + step * index) for index in range(1, count)))


class Entries(unittest.TestCase):
    """Entries alone."""

    def test_both_ways(self) -> None:
        for count in (2, 3, 116, 117):
            for last in (1, 2048, EXTENT_BYTES):
                wanted = entry_of((count - 1) * EXTENT_BYTES + last)
                read, faults = read_entry(write_entry(wanted), 30)
                assert read is not None
                self.assertEqual((read._replace(check=0), faults), (wanted, []))
                self.assertEqual([extent.size for extent in read.extents], [EXTENT_BYTES] * (count - 1) + [last])

    def test_faults(self) -> None:
        two = entry_of(EXTENT_BYTES + 5000)
        last = END + EXTENT.size
        cases: Dict[DamageCause, List[List[Tuple[int, bytes]]]] = {
            DamageCause.LENGTHS: [
                [(64, struct.pack("<Q", 512))], [(172, struct.pack("<I", 16)), (last, bytes(16))], [(END, struct.pack("<I", EXTENT_BYTES - 2048))],
                [(56, struct.pack("<Q", EXTENT_BYTES)), (64, struct.pack("<Q", 512))],
            ],
            DamageCause.EXTENT: [
                [(last, struct.pack("<I", 4999))], [(last + 3, b"\x40")], [(last + 8, b"\1")], [(last + 10, b"\1")], [(last + 15, b"\1")],
                [(END + 3, b"\x80")], [(END + 8, b"\1")], [(last + 4, struct.pack("<I", 449_743 - 2))],
            ],
            DamageCause.TAIL: [[(last + EXTENT.size, b"\1")]],
        }
        for cause, changes in cases.items():
            for change in changes:
                with self.subTest(cause=cause, change=change):
                    self.assertEqual(causes_in_entry(two, *change)[:1], [cause])
        self.assertEqual(causes_in_entry(two, (last + 4, struct.pack("<I", 449_743 - 3))), [])
        self.assertEqual(causes_in_entry(entry_of(ENTRY_FILE), (56, struct.pack("<Q", ENTRY_FILE + 1)))[:1], [DamageCause.LENGTHS])
        self.assertEqual(causes_in_entry(two, (27, b"\4"), (44, b"\xa5\x14"))[:1], [DamageCause.LENGTHS])

    def test_wrong_bytes_are_mended(self) -> None:
        for size in (EXTENT_BYTES + 1, 3 * EXTENT_BYTES, ENTRY_FILE - 5):
            wanted = entry_of(size)
            for at in (8, 27, 40, 56, 58, 64, 72, 172, 173, END):
                block = bytearray(write_entry(wanted))
                block[at] ^= 0x41
                found = mend_entry(bytes(block), Hint(BlockNumber(9000), 30), Budget(0))
                assert found is not None, at
                self.assertEqual((found._replace(check=0), found.proved), (wanted, True), at)

    def test_a_wrong_place_is_mended(self) -> None:
        """An earlier entry has the extents before the last one, and that one ends where the entry is. Else nothing says where it was."""
        for size in (EXTENT_BYTES + 1, 3 * EXTENT_BYTES, ENTRY_FILE - 5):
            wanted = entry_of(size)
            count, end = len(wanted.extents), wanted.extents[-1].end
            for index in {0, count // 2, count - 1}:
                for at in range(END + EXTENT.size * index + 4, END + EXTENT.size * index + 8):
                    block = bytearray(write_entry(wanted))
                    block[at] ^= 0x41
                    is_last = index == count - 1
                    firsts = tuple(extent.first for extent in wanted.extents[:-1])
                    for hint, is_known in (
                        (Hint(end, 30, firsts=firsts), True), (Hint(end, 30), is_last), (Hint(BlockNumber(end + 1), 30, firsts=firsts), not is_last),
                        (Hint(end, 30, firsts=(BlockNumber(5), *firsts[1:])), is_last),
                    ):
                        found = mend_entry(bytes(block), hint, Budget(0))
                        self.assertEqual(found is not None and found.proved, is_known, (size, at, hint))
                        self.assertTrue(not is_known or found is not None and found._replace(check=0) == wanted, (size, at))


class OnAVolume(unittest.TestCase):
    """Files that were appended."""

    def setUp(self) -> None:
        self.image = empty_image(self)
        chance = random.Random(5)
        self.data = {name: chance.randbytes(size) for name, size in SIZES.items()}
        appender = Appender(self.image)
        for name, data in self.data.items():
            appender.file(name, data)
        lines = "".join(f"{hashlib.sha256(data).hexdigest()}  {name}\n" for name, data in self.data.items())
        appender.create("manifest-sha256.txt", lines.encode())
        appender.write()
        self.appender = appender

    def salvaged(self, commit: "Commit | None" = None) -> Dict[str, Tuple[str, bytes, "Tuple[Tuple[int, int], ...]"]]:
        with Medium(self.image) as medium:
            found = Salvage(medium, commit)
            given = [judged(found, item) for item in found.tree.items if item.kind is FileType.FILE]
        return {outcome.path[-1]: (outcome.state, data, outcome.ranges) for outcome, data in given}

    def zero(self, number: int) -> None:
        with open(self.image, "r+b") as file:
            file.seek((number + PARTITION) * BLOCK)
            file.write(bytes(BLOCK))

    def test_read(self) -> None:
        with Medium(self.image) as medium:
            volume = Volume(medium)
            state = volume.state()
            self.assertEqual([note for note in volume.check().all() if note.cause is not DamageCause.FRONT], [])
            for name, data in self.data.items():
                node = state.find((name,))
                assert node is not None
                self.assertEqual((node.size, node.blocks, volume.read(node).data), (len(data), -(-len(data) // BLOCK), data))
                self.assertEqual(b"".join(run.data for run in volume.pieces(node)), data)

    def test_every_commit(self) -> None:
        """Each commit has the pieces that were appended until then."""
        given = self.salvaged(Commit(4))
        self.assertEqual({name: found[1] for name, found in given.items()}, {"two": self.data["two"], "whole": self.data["whole"]})
        self.assertEqual(self.salvaged(Commit(3))["whole"][1], self.data["whole"][:EXTENT_BYTES])

    def test_digests(self) -> None:
        """Each byte is compared, in the last extent too."""
        for name, (state, data, _) in self.salvaged().items():
            if name in self.data:
                self.assertEqual((state, data), (FILE_WHOLE, self.data[name]))
        self.assertEqual(self.told(), [])
        with open(self.image, "r+b") as file:
            file.seek((self.appender.contents["three"][1][2] + PARTITION) * BLOCK + 700)
            file.write(b"other")
        self.assertEqual(self.told(), ["/three"])
        self.assertEqual(self.salvaged()["three"][0], FILE_DAMAGED)

    def told(self) -> List[str]:
        told: List[str] = []
        with Medium(self.image) as medium:
            volume = Volume(medium)
            check_data(Coverage(volume, volume.state()), (), lambda path, how, commit: told.append(path))
        return told

    def test_a_wrong_place(self) -> None:
        """A wrong byte in an entry, where it says where an extent is: the file is whole, by a digest and without one."""
        with open(self.image, "rb") as file:
            sound = file.read()
        entry = (self.appender.words[4] + PARTITION) * BLOCK
        for commit, state in ((None, FILE_WHOLE), (Commit(7), FILE_UNPROVED)):
            for at in (4, 6, 16 + 5, 32 + 4, 32 + 7):
                with open(self.image, "r+b") as file:
                    file.seek(entry + END + at)
                    file.write(bytes([sound[entry + END + at] ^ 0x21]))
                self.assertEqual(self.salvaged(commit)["three"], (state, self.data["three"], ()), at)
                with open(self.image, "wb") as file:
                    file.write(sound)

    def test_a_lost_entry(self) -> None:
        """The newest entry is lost: by a digest the file is whole, and without it all is there but the last piece."""
        self.zero(self.appender.words[4])
        self.assertEqual(self.salvaged()["three"][:2], (FILE_WHOLE, self.data["three"]))
        with Medium(self.image) as medium:
            node = Volume(medium).state().find(("manifest-sha256.txt",))
            assert node is not None and node.data is not None
        self.zero(node.address - PARTITION)
        self.zero(node.data - PARTITION)
        self.assertEqual(self.salvaged()["three"][:2], (FILE_EARLIER, self.data["three"][: 2 * EXTENT_BYTES]))

    def test_a_lost_entry_whose_extents_read_otherwise(self) -> None:
        """They are read once for the digest, and again to be written: the bytes of that time decide."""
        self.zero(self.appender.words[4])
        at, read, seen = self.appender.contents["three"][1][1] + PARTITION, Medium.run, []

        def run(medium: Medium, address: Address, count: int) -> Run:
            found = read(medium, address, count)
            if (address, count) != (at, EXTENT_BYTES // BLOCK):
                return found
            seen.append(address)
            return found if len(seen) == 1 else Run(b"?" + found.data[1:], ())

        with mock.patch.object(Medium, "run", run):
            state, data, ranges = self.salvaged()["three"]
        self.assertEqual((state, ranges, len(seen)), (FILE_DAMAGED, (), 2))
        self.assertEqual(data[EXTENT_BYTES : EXTENT_BYTES + 2], b"?" + self.data["three"][EXTENT_BYTES + 1 : EXTENT_BYTES + 2])

    def test_missing_blocks(self) -> None:
        """A block of the second extent that cannot be read is named by its place in the file."""
        gone = self.appender.contents["three"][1][1] + PARTITION + 3
        rescue = self.image + ".map"
        with open(rescue, "w", encoding="ascii") as file:
            size = os.path.getsize(self.image)
            file.write(f"0x0 + 1\n0x0 0x{gone * BLOCK:x} +\n0x{gone * BLOCK:x} 0x800 -\n0x{(gone + 1) * BLOCK:x} 0x{size - (gone + 1) * BLOCK:x} +\n")
        with Medium(self.image, rescue) as medium:
            found = Salvage(medium)
            item = next(item for item in found.tree.items if item.path == ("three",))
            outcome = found.judged(item)
        self.assertEqual((outcome.state, outcome.ranges), (FILE_DAMAGED, ((EXTENT_BYTES + 3 * BLOCK, BLOCK),)))

    def test_past_the_table(self) -> None:
        """An extent that does not end below the VAT ICB is named with cause 72, and the file is not there."""
        self.appender = Appender(self.image)
        self.appender.words[4] = self.appender.put(write_entry(entry_of(2 * EXTENT_BYTES + 777, 300_000 // 2)._replace(unique=18, location=4)))
        self.appender.commit_table()
        self.appender.write()
        with Medium(self.image) as medium:
            volume = Volume(medium)
            state = volume.state()
            self.assertIsNone(state.find(("three",)))
            self.assertIn(DamageCause.RANGE, [note.cause for note in volume.notes.all()])

    def test_unproved(self) -> None:
        self.assertEqual(self.salvaged(Commit(5))["three"][0], FILE_UNPROVED)


if __name__ == "__main__":
    unittest.main()
