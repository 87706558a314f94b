"""The reader beside the vectors of the medium: each structure in both directions, and the first fault of each damaged one."""

from __future__ import annotations

import os
import tempfile
import unittest
from typing import Iterable, List, Optional

from udfburn.protocol.units import BlockNumber, Size
from udfburn.reader import Medium, Volume, basics, descriptors, directory, entry, front, table

from .vectors import Answer, answers, shown, text_shown


def first(faults: Iterable[object]) -> Optional[List[str]]:
    """The first of some faults in the words of an answer, if there is one."""
    for fault in faults:
        return ["fault", str(int(getattr(fault, "cause")))]
    return None


def entry_said(read: entry.Entry) -> List[str]:
    """The words of an entry."""
    words = [read.kind.name.lower(), "links", read.links, "unique", read.unique, "moment", read.moment, "size", read.size]
    said = list(map(str, words))
    if read.inside is not None:
        return said + ["inside", *shown(read.inside)]
    if read.first is None:
        return said + ["nowhere"]
    said += ["extents", str(read.first), *map(str, read.others)] if read.others else ["extent", str(read.first)]
    return said if read.descriptors is None else said + ["next", str(read.descriptors)]


def table_said(data: bytes) -> List[str]:
    """The words of a table without a fault."""
    head = table.read_head(data)
    assert head is not None
    label = basics.read_dstring(head.label)
    assert label is not None
    previous = "none" if head.previous == basics.UNUSED else str(head.previous)
    said = ["label", *text_shown(label), "previous", previous, "files", str(head.files), "directories", str(head.directories)]
    said += ["version", str(head.version), "next-unique", str(head.next_unique), "commits", str(head.commits)]
    for client in table.read_clients(data, head.version, head.clients):
        said += ["client", str(client.client), "latest", str(client.latest), "replies"]
        said += [f"{reply.code}:{reply.commit}" for reply in client.replies]
    return said + ["entries", *entries_said(list(table.read_entries(data, head.length)))]


def entries_said(entries: List[int]) -> List[str]:
    """The entries; eight and more that are unused one after another are a run."""
    said: List[str] = []
    unused = 0
    for number in entries + [-1]:
        if number == basics.UNUSED:
            unused += 1
            continue
        said += [f"none*{unused}"] if unused >= 8 else ["none"] * unused
        unused = 0
        said.append(str(number))
    return said[:-1]


class Reader(unittest.TestCase):
    """Each file that speaks of the medium. Each has at least so many answers as it had when this was written."""

    def each(self, name: str, least: int, kind: str) -> List[Answer]:
        found = [answer for answer in answers(name) if answer.question[0] == kind]
        self.assertGreaterEqual(len(found), least)
        return found

    def test_checks(self) -> None:
        for name, least in (("tag.txt", 4), ("entry.txt", 6), ("directory.txt", 1), ("front.txt", 9), ("volume.txt", 1)):
            for case, data, _, answer in self.each(name, least, "crc"):
                with self.subTest(case):
                    self.assertEqual([f"{basics.crc(data):04X}"], answer)

    def test_tags(self) -> None:
        for case, data, question, answer in self.each("tag.txt", 34, "tag"):
            if len(data) < 16:
                continue
            with self.subTest(case):
                identifier, location = map(int, question[1:])
                self.assertEqual(bool(basics.tag_faults(data, identifier, location)), answer[0] == "fault")
                if answer[0] != "fault":
                    self.assertEqual(basics.write_tag(identifier, data[16:], location), data[:16])

    def test_timestamps(self) -> None:
        for case, data, _, answer in self.each("timestamp.txt", 12, "timestamp"):
            with self.subTest(case):
                moment = basics.read_timestamp(data)
                self.assertEqual(["none"] if moment is None else ["moment", str(moment)], answer)
                if moment is not None:
                    self.assertEqual(basics.write_timestamp(moment), data)

    def test_texts(self) -> None:
        for kind, least in (("spelling", 22), ("dstring", 11), ("label", 8), ("name", 7)):
            for case, data, question, answer in self.each("name.txt", least, kind):
                if question[1:]:
                    continue
                with self.subTest(case, kind=kind):
                    text = basics.read_dstring(data) if kind in ("dstring", "label") else basics.expand(data)
                    if kind == "label" and (len(data) not in (32, 128) or not basics.is_label(text)):
                        text = None
                    if kind == "name" and not basics.is_name(text):
                        text = None
                    if text is None:
                        self.assertIn(answer[0], ("fault", "none"))
                        continue
                    self.assertEqual(text_shown(text), answer)
                    spelled = kind in ("spelling", "name")
                    self.assertEqual(basics.spell(text) if spelled else basics.write_dstring(text, len(data)), data)

    def test_entries(self) -> None:
        for case, data, question, answer in self.each("entry.txt", 125, "entry"):
            with self.subTest(case):
                read, faults = entry.read_entry(data, int(question[1]))
                told = first(faults)
                if told is None:
                    assert read is not None
                    told = entry_said(read)
                    self.assertEqual(entry.write_entry(read), data)
                self.assertEqual(told, answer)

    def test_descriptors(self) -> None:
        for case, data, question, answer in self.each("descriptors.txt", 190, "descriptors"):
            with self.subTest(case):
                number, size = BlockNumber(int(question[1])), Size(int(question[2]))
                count = entry.extent_count(size)
                extents = range(count if count <= basics.BLOCK_DESCRIPTORS else basics.BLOCK_DESCRIPTORS - 1)
                read = descriptors.read_descriptor_block(data, number, size, extents)
                told = first(read.faults)
                if told is None:
                    assert read.firsts is not None
                    told = ["extents", *map(str, read.firsts)] + (["next", str(number + 1)] if len(extents) < count else [])
                    self.assertEqual(descriptors.write_descriptor_block(number, size, extents, read.firsts), data)
                self.assertEqual(told, answer)

    def test_file_sets(self) -> None:
        for case, data, _, answer in self.each("entry.txt", 40, "file-set"):
            with self.subTest(case):
                label, moment, faults = entry.read_file_set(data)
                told = first(faults)
                if told is None:
                    assert label is not None and moment is not None
                    told = ["label", *text_shown(label), "moment", str(moment)]
                    self.assertEqual(entry.write_file_set(label, moment), data)
                self.assertEqual(told, answer)

    def test_directories(self) -> None:
        for case, data, question, answer in self.each("directory.txt", 138, "directory"):
            with self.subTest(case):
                read, faults = directory.read_directory(data, Size(int(question[2])), BlockNumber(int(question[1])))
                told = first(faults)
                if told is None:
                    told = ["parent", str(read.parent)]
                    for name in read.names:
                        told += ["directory" if name.is_directory else "file", str(name.virtual), str(name.unique), *text_shown(name.name)]
                self.assertEqual(told, answer)

    def test_tables(self) -> None:
        for case, data, question, answer in self.each("table.txt", 120, "table"):
            with self.subTest(case):
                self.assertEqual(first(table.table_faults(data, BlockNumber(int(question[1])))) or table_said(data), answer)


class Media(unittest.TestCase):
    """Fronts and whole volumes, as images."""

    def setUp(self) -> None:
        room = tempfile.TemporaryDirectory()
        self.addCleanup(room.cleanup)
        self.image = os.path.join(room.name, "disc.img")

    def volume(self, data: bytes) -> Volume:
        with open(self.image, "wb") as file:
            file.write(data)
        return Volume(Medium(self.image))

    def test_fronts(self) -> None:
        found = [answer for answer in answers("front.txt") if answer.question == ["front"]]
        self.assertGreaterEqual(len(found), 40)
        for case, data, _, answer in found:
            with self.subTest(case):
                volume = self.volume(data)
                label, moment, capacity = volume.label, volume.moment, volume.capacity
                if answer[0] == "fault":
                    self.assertTrue(list(self.notes(volume)))
                    continue
                assert label is not None and moment is not None and capacity is not None
                self.assertEqual(["label", *text_shown(label), "moment", str(moment), "capacity", str(capacity)], answer)
                blocks = front.blocks_of_front(label, moment, capacity)
                written = b"".join(blocks.get(at, bytes(basics.BLOCK)) for at in range(basics.PARTITION))
                self.assertEqual(written, data)

    def notes(self, volume: Volume) -> Iterable[object]:
        front.note_front(volume.medium, front.read_front(volume.medium), volume.notes)
        return volume.notes.all()

    def test_last_tables(self) -> None:
        found = [answer for answer in answers("volume.txt") if answer.question == ["last"]]
        self.assertGreaterEqual(len(found), 60)
        for case, data, _, answer in found:
            with self.subTest(case):
                last = self.volume(data).last_entry()
                self.assertEqual(["none" if last is None else str(last)], answer)


if __name__ == "__main__":
    unittest.main()
