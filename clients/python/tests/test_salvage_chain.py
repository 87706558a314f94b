"""What tables say of virtual addresses where blocks of them are missing, and what other tables have to say to it."""

from __future__ import annotations

import os
import unittest
from array import array
from typing import Dict, List
from unittest import mock

from udfburn.protocol import Create
from udfburn.protocol.units import Address, Moment, VirtualAddress
from udfburn.reader import Medium, Volume
from udfburn.reader.chain import Chain, Link
from udfburn.reader.survey import Survey
from udfburn.salvage.salvage import Salvage

from .test_salvage import BLOCK, Damaged
from .volumes import apply_messages


class Tables(Damaged):
    def without(self, *missing: int) -> Medium:
        """The image without these blocks."""
        path = os.path.join(self.room, "map")
        with open(path, "w", encoding="ascii") as file:
            file.write("0x0 + 1\n" + "".join(
                f"{at * BLOCK:#x} {BLOCK} {'-' if at in missing else '+'}\n" for at in range(os.path.getsize(self.image) // BLOCK)
            ))
        medium = Medium(self.image, path)
        self.addCleanup(medium.close)
        return medium

    def chain(self, medium: Medium) -> Chain:
        volume = Volume(medium)
        return Chain(volume, Survey(volume))

    def test_a_block_in_the_middle_of_a_table(self) -> None:
        """What is unknown is in that block, and no more."""
        # The records of all clients take the first block and half of the second one.
        apply_messages(self.image, [Create(1 + index % 64, 1 + index // 64, Moment(5), (f"f{index}",), b"") for index in range(256)])
        chain = self.chain(self.without())
        table, whole = chain.links[0].table, chain.entries(0)[0]
        assert table is not None and BLOCK < table.length < 2 * BLOCK < table.size
        entries, unknown = self.chain(self.without(chain.links[0].start + 1))._read_entries(0)
        self.assertEqual(unknown, {virtual for virtual in range(len(whole)) if BLOCK <= table.length + 4 * virtual < 2 * BLOCK})
        self.assertEqual([entries[virtual] for virtual in range(len(whole)) if virtual not in unknown], [whole[virtual] for virtual in range(len(whole)) if virtual not in unknown])

    def test_the_first_table_cannot_be_read(self) -> None:
        """No older one has what it said: all is from what was written before it."""
        self.fill()
        chain = self.chain(self.without())
        first = len(chain.links) - 1
        damaged = self.chain(self.without(chain.links[first].start))
        self.assertIsNone(damaged.links[first].table)
        # Of the file set no other structure says where it is.
        self.assertEqual(list(damaged.entries(first)[0])[1:], list(chain.entries(first)[0])[1:])

    def test_more_nodes_than_there_may_be(self) -> None:
        """The file set, the root and its data are three blocks; a block that they leave is of no use."""
        for room, told in ((3, False), (1, True)):
            with mock.patch("udfburn.reader.audit.block_budget", lambda blocks, room=room: room):
                notes = Salvage(self.without()).notes
            self.assertEqual(any("blocks of files and directories" in str(note) for note in notes), told, room)


class Confirmed(unittest.TestCase):
    """A word of a table, where it lies below what its commit wrote."""

    def chain(self, adjacent: bool, words: Dict[int, int]) -> Chain:
        """Three tables, of which each has one word for virtual address 2, and the middle one is asked."""
        chain = Chain.__new__(Chain)
        chain.links = [Link(Address(400), None, adjacent=True), Link(Address(350), None, adjacent=adjacent), Link(Address(300), None, adjacent=True)]
        entries: List["array[int]"] = [array("I", [0, 1, words[index] - 257]) for index in range(3)]
        chain.entries = lambda index: (entries[index], set())  # type: ignore[assignment]
        return chain

    def test_by_the_table_before(self) -> None:
        for adjacent in (True, False):
            self.assertTrue(self.chain(adjacent, {0: 290, 1: 280, 2: 280}).is_confirmed(VirtualAddress(2), Address(280), 1))
            self.assertFalse(self.chain(adjacent, {0: 290, 1: 280, 2: 290}).is_confirmed(VirtualAddress(2), Address(280), 1))

    def test_by_the_table_after_it(self) -> None:
        """It is asked only where the table before is lost."""
        words = {0: 280, 1: 280, 2: 290}
        self.assertTrue(self.chain(False, words).is_confirmed(VirtualAddress(2), Address(280), 1))
        self.assertFalse(self.chain(True, words).is_confirmed(VirtualAddress(2), Address(280), 1))

    def test_by_what_the_commit_wrote(self) -> None:
        words = {0: 290, 1: 280, 2: 290}
        for address, confirmed in ((300, False), (301, True), (349, True), (350, False)):
            self.assertEqual(self.chain(True, words).is_confirmed(VirtualAddress(2), Address(address), 1), confirmed, address)


if __name__ == "__main__":
    unittest.main()
