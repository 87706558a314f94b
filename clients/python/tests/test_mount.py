"""What a mount of an image shows, without a kernel: test/archive tries the mount itself."""

from __future__ import annotations

import hashlib
import io
import os
import random
import tempfile
import time
import unittest
from typing import Dict, List, Optional, Tuple
from unittest import mock

from udfburn.base.errors import Damaged
from udfburn.mounting.image_view import ImageView
from udfburn.mounting.fuse import TOP_NUMBER, Numbers
from udfburn.base.progress import Progress
from udfburn.protocol import Create, MakeDir, Message, Replace
from udfburn.reader import FileType, Medium, Run, StateNode, Volume
from udfburn.reader.basics import BLOCK, EXTENT_BYTES
from udfburn.reader.directory import write_identifier
from udfburn.mounting.shown_tree import DIGEST, DIGESTS_KEPT, Memory, OpenFile, ShownFile, ShownFolder
from udfburn.protocol.units import BlockNumber, Moment, VirtualAddress

from .appended import Appender, empty_image
from .forged import FORGED, Forge
from .model import File as ModelFile
from .volumes import Writer, apply_messages, format_image

Found = Dict[bytes, Tuple[Optional[bytes], int]]
"""The bytes of each file, None of a folder, and its moment, by its path."""


def bytes_of(file: ShownFile, memory: Optional[Memory] = None) -> bytes:
    """All bytes of a file, as the kernel asks for them."""
    reading = OpenFile(file, memory or Memory())
    for _ in reading.check():
        pass
    return b"".join(reading.read(at, 131_072) for at in range(0, max(file.size, 1), 131_072))


def at(folder: ShownFolder, *names: str) -> "ShownFile | ShownFolder":
    """What is at names below a folder."""
    item: "ShownFile | ShownFolder | None" = folder
    for name in names:
        assert isinstance(item, ShownFolder)
        item = item.find(os.fsencode(name))
    assert item is not None, names
    return item


def file_at(folder: ShownFolder, *names: str) -> ShownFile:
    found = at(folder, *names)
    assert isinstance(found, ShownFile)
    return found


def folder_at(folder: ShownFolder, *names: str) -> ShownFolder:
    found = at(folder, *names)
    assert isinstance(found, ShownFolder)
    return found


def all_of(folder: ShownFolder, above: bytes = b"") -> Found:
    """All that is in a folder, at any depth."""
    found: Found = {}
    for name, item in folder.names().items():
        path = above + b"/" + name
        found[path] = bytes_of(item) if isinstance(item, ShownFile) else None, item.moment
        if isinstance(item, ShownFolder):
            found.update(all_of(item, path))
    return found


class WithImage(unittest.TestCase):
    """A room, an image in it, and views of it."""

    def setUp(self) -> None:
        room = tempfile.TemporaryDirectory()
        self.addCleanup(room.cleanup)
        self.image = os.path.join(room.name, "disc.img")
        self.told = io.StringIO()

    def view(self) -> ImageView:
        found = ImageView(self.image, Progress(False, False, self.told, self.told))
        self.addCleanup(found.close)
        return found

    def send(self, messages: List[Message]) -> None:
        format_image(self.image)
        apply_messages(self.image, messages)

    def change(self, place: int, data: bytes) -> None:
        with open(self.image, "r+b") as file:
            file.seek(place)
            file.write(data)

    def flip(self, data: bytes) -> None:
        """Flips a bit of bytes that the image has once."""
        with open(self.image, "rb") as file:
            place = file.read().index(data)
        self.change(place, bytes([data[0] ^ 1]))


class Trees(WithImage):
    def test_each_commit(self) -> None:
        """The tree after each commit is that of the model, byte by byte."""
        writer = Writer(3)
        states: List[Found] = []
        messages: List[Message] = []
        for _ in range(60):
            messages.append(writer.request())
            states.append({
                "/".join(("", *path)).encode(): (node.data if isinstance(node, ModelFile) else None, getattr(node, "moment"))
                for path, node in writer.model.nodes.items() if path
            })
        self.send(messages)
        view = self.view()
        commits = folder_at(view, "commits").names()
        self.assertEqual(list(commits), [b"%d" % commit for commit in range(61)])
        for commit, wanted in enumerate(states, 1):
            folder = commits[b"%d" % commit]
            assert isinstance(folder, ShownFolder)
            self.assertEqual(all_of(folder), wanted)
        self.assertEqual(all_of(folder_at(view, "latest")), states[-1])
        self.assertEqual(view.names().keys(), {b"latest", b"commits"})

    def test_grows_meanwhile(self) -> None:
        self.send([Create(1, 1, Moment(5), ("a",), b"first")])
        view = self.view()
        apply_messages(self.image, [Replace(1, 2, Moment(6), ("a",), b"second"), Create(1, 3, Moment(7), ("b",), b"new")])
        self.assertEqual(all_of(folder_at(view, "latest")), {b"/a": (b"first", 5)})
        self.assertEqual(all_of(folder_at(self.view(), "latest")), {b"/a": (b"second", 6), b"/b": (b"new", 7)})

    def test_extents_are_one_file(self) -> None:
        format_image(self.image)
        appender, data = Appender(self.image), random.Random(1).randbytes(2 * EXTENT_BYTES + 777)
        appender.create("long", data[:EXTENT_BYTES])
        appender.append("long", data[EXTENT_BYTES : 2 * EXTENT_BYTES])
        appender.append("long", data[2 * EXTENT_BYTES :])
        appender.write()
        file = file_at(self.view(), "latest", "long")
        self.assertEqual((file.size, bytes_of(file)), (len(data), data))
        reading = OpenFile(file, Memory())
        self.assertEqual(reading.read(EXTENT_BYTES - 3, 7), data[EXTENT_BYTES - 3 : EXTENT_BYTES + 4])
        self.assertEqual(reading.read(len(data) - 2, 100), data[-2:])
        self.assertEqual(reading.read(len(data) + 1, 100), b"")

    def test_parts_are_one_file(self) -> None:
        """Parts beside one another and those in a folder of their own; each part is there under its own name, and not listed."""
        data = random.Random(2).randbytes(EXTENT_BYTES + 10)
        parts = [data[:EXTENT_BYTES], data[EXTENT_BYTES:]]
        messages: List[Message] = [Create(1, 1 + index, Moment(9), (f"x.{index:03}",), part) for index, part in enumerate(parts)]
        messages += [MakeDir(1, 3, Moment(9), ("y.parts",)), MakeDir(1, 4, Moment(9), ("y.parts", "00"))]
        messages += [Create(1, 5 + index, Moment(9), ("y.parts", "00", f"{index:03}"), part) for index, part in enumerate(parts)]
        self.send(messages + [MakeDir(1, 7, Moment(9), ("z.parts",)), Create(1, 8, Moment(9), ("w.000",), b"alone")])
        with mock.patch("udfburn.base.older_parts.FLAT", 1):
            latest = folder_at(self.view(), "latest")
            self.assertEqual(latest.names().keys(), {b"x", b"y", b"z.parts", b"w.000"})
            for name in ("x", "y"):
                self.assertEqual(bytes_of(file_at(latest, name)), data)
            self.assertEqual(bytes_of(file_at(latest, "x.001")), parts[1])
            self.assertEqual(bytes_of(file_at(latest, "y.parts", "00", "000")), parts[0])

    def test_names_are_bytes(self) -> None:
        self.send([Create(1, 1, Moment(5), ("caf\u241bE9",), b"1"), Create(1, 2, Moment(5), ("\u241bF0\u241b9F\u241b98\u241b80",), b"2")])
        latest = folder_at(self.view(), "latest")
        self.assertEqual(latest.names().keys(), {b"caf\xe9", "😀".encode()})
        self.assertEqual(bytes_of(file_at(latest, "caf\u241bE9")), b"1", "as a manifest has it")


class Damage(WithImage):
    FILES = {name: random.Random(name).randbytes(5000) for name in ("one", "two", "three")}

    def sealed(self, *files: Tuple[str, bytes]) -> None:
        """A volume with a manifest after its files."""
        lines = "".join(f"{hashlib.sha256(data).hexdigest()}  {name}\n" for name, data in files)
        messages: List[Message] = [Create(1, 1 + index, Moment(5), (name,), data) for index, (name, data) in enumerate(files)]
        self.send([*messages, Create(1, len(files) + 1, Moment(6), ("manifest-sha256.txt",), lines.encode())])

    def require_damaged(self, file: ShownFile, words: str, memory: Optional[Memory] = None) -> None:
        for _ in range(2):
            with self.assertRaisesRegex(Damaged, words):
                bytes_of(file, memory)

    def test_a_flipped_bit(self) -> None:
        chance = random.Random(3)
        small, large, other = chance.randbytes(90), chance.randbytes(50_000), chance.randbytes(7000)
        self.sealed(("small", small), ("large", large), ("other", other))
        self.flip(large[40_000:40_100])
        self.flip(small)
        view, memory = self.view(), Memory()
        self.require_damaged(file_at(view, "latest", "large"), "latest|commit 4: /large: is not as it was stored", memory)
        self.require_damaged(file_at(view, "latest", "small"), "commit 4: /small: its entry in block [0-9]+ is damaged", memory)
        self.assertEqual(bytes_of(file_at(view, "latest", "other"), memory), other)
        # Before the manifest was written nothing says what the bytes were; what was given then is not given as compared later.
        self.assertNotEqual(bytes_of(file_at(view, "commits", "3", "large"), memory), large)
        self.require_damaged(file_at(view, "latest", "large"), "not as it was stored", memory)

    def test_stored_again_after_the_manifest(self) -> None:
        self.sealed(("a", b"old" * 1000))
        apply_messages(self.image, [Replace(1, 3, Moment(7), ("a",), b"new" * 1000)])
        view = self.view()
        self.assertEqual(bytes_of(file_at(view, "latest", "a")), b"new" * 1000)
        self.assertEqual(bytes_of(file_at(view, "commits", "2", "a")), b"old" * 1000)

    def test_a_long_file_is_compared_first(self) -> None:
        """Of a file of several pieces nothing is given before all of it was compared, and nothing that changed since."""
        format_image(self.image)
        appender, data = Appender(self.image), random.Random(4).randbytes(2 * EXTENT_BYTES + 99)
        appender.create("long", data[:EXTENT_BYTES])
        appender.append("long", data[EXTENT_BYTES : 2 * EXTENT_BYTES])
        appender.append("long", data[2 * EXTENT_BYTES :])
        appender.create("manifest-sha256.txt", f"{hashlib.sha256(data).hexdigest()}  long\n".encode())
        appender.write()
        file, memory = file_at(self.view(), "latest", "long"), Memory()
        reading = OpenFile(file, memory)
        with self.assertRaises(RuntimeError):
            reading.read(0, 10)
        self.assertEqual(bytes_of(file, memory), data)
        with mock.patch.object(type(file), "piece", side_effect=AssertionError("it is read again")):
            list(OpenFile(file, memory).check())
        # The last piece is forgotten, as after many others.
        again = Memory()
        again.keep((file.key(), file.sums()), b"".join(hashlib.sha256(data[at : at + EXTENT_BYTES]).digest() for at in range(0, len(data), EXTENT_BYTES)))
        self.flip(data[EXTENT_BYTES + 5 : EXTENT_BYTES + 70])
        reading = OpenFile(file, again)
        list(reading.check())
        self.assertEqual(reading.read(0, 10), data[:10])
        for _ in range(2):
            with self.assertRaisesRegex(Damaged, "not as it was stored"):
                reading.read(EXTENT_BYTES, 10)
        self.require_damaged(file, "not as it was stored")

    def test_a_damaged_manifest(self) -> None:
        """A manifest that cannot be read is named, and compares nothing."""
        self.sealed(*((f"file {index}", b"%d" % index * 999) for index in range(40)))
        with Medium(self.image) as medium:
            node = Volume(medium).state().find(("manifest-sha256.txt",))
        assert node is not None
        for place, why in ((36, "has a damaged entry"), (60, "cannot be read")):
            self.change(node.address * BLOCK + place, b"\x7f")
            self.assertEqual(bytes_of(file_at(self.view(), "latest", "file 7")), b"7" * 999)
            self.assertRegex(self.told.getvalue(), f"manifest-sha256.txt {why}: what it lists is not compared")

    def with_damaged(self, *manifests: Tuple[str, bytes]) -> ShownFolder:
        """The newest tree of a bag with these manifests, in which the files `one` and `two` are damaged, and `three` is not."""
        self.image = empty_image(self)
        appender = Appender(self.image)
        for name, data in (("bagit.txt", b"a bag"), *self.FILES.items()):
            appender.create(name, data)
        for name, data in manifests:
            appender.file(name, data)
        appender.write()
        self.flip(self.FILES["one"])
        self.flip(self.FILES["two"])
        return folder_at(self.view(), "latest")

    def line(self, name: str) -> bytes:
        """The line that a manifest has of a file."""
        return f"{hashlib.sha256(self.FILES[name]).hexdigest()}  {name}\n".encode()

    def test_a_long_manifest(self) -> None:
        """One of more than a mebibyte is read to its end."""
        others = b"".join(b"%064x  data/another file %06d\n" % (index, index) for index in range(12_000))
        lines = self.line("one") + others + self.line("two") + self.line("three")
        self.assertGreater(len(lines), EXTENT_BYTES)
        latest = self.with_damaged(("manifest-sha256.txt", lines))
        for name in ("one", "two"):
            self.require_damaged(file_at(latest, name), f"/{name}: is not as it was stored")
        self.assertEqual(bytes_of(file_at(latest, "three")), self.FILES["three"])
        self.assertEqual(self.told.getvalue(), "")

    def test_manifests_that_are_too_long(self) -> None:
        """One that is longer than what is left is named and never read, and leaves it to the others."""
        whole = Volume.read
        names = ("manifest-sha256.txt", "tagmanifest-sha256.txt")
        cases = ((50, 70, names[0], "3,500 bytes, and 70 of 70", "two", "one"), (1, 139, names[1], "70 bytes, and 69 of 139", "one", "two"))
        for count, most, left_out, words, compared, other in cases:
            read: List[str] = []

            def reading(volume: Volume, node: StateNode, read: List[str] = read) -> Run:
                read.append(node.path[-1])
                return whole(volume, node)

            latest = self.with_damaged((names[0], count * self.line("one")), (names[1], self.line("two")))
            with self.subTest(most=most), mock.patch("udfburn.mounting.image_view.MANIFEST_BYTES", most), mock.patch.object(Volume, "read", reading):
                self.require_damaged(file_at(latest, compared), f"/{compared}: is not as it was stored")
                self.assertEqual(len(bytes_of(file_at(latest, other))), 5000)
                self.assertEqual(read, [name for name in names if name != left_out])
                self.assertIn(f"/{left_out} has {words} for manifests are left: what it lists is not compared", self.told.getvalue())

    def test_a_damaged_directory(self) -> None:
        """The names that can be read are there, with a word that some are not; a name without an entry is there, and cannot be read."""
        self.send([
            MakeDir(1, 1, Moment(5), ("d",)), Create(1, 2, Moment(5), ("d", "first"), b"1"), Create(1, 3, Moment(5), ("d", "second"), b"2" * 5000), Create(1, 4, Moment(5), ("d", "third"), b"3"),
        ])
        with Medium(self.image) as medium:
            state = Volume(medium).state()
            found = {node.path: node for node in state.walk()}
        folder, second = found[("d",)], found[("d", "second")]
        assert folder.data is not None
        self.change(second.address * BLOCK, bytes(BLOCK))
        latest = folder_at(self.view(), "latest", "d")
        self.assertEqual((latest.names().keys(), latest.fault), ({b"first", b"second", b"third"}, None))
        self.require_damaged(file_at(latest, "second"), "its entry cannot be read")
        self.change(folder.data * BLOCK + 40, bytes(20))
        latest = folder_at(self.view(), "latest", "d")
        self.assertEqual(latest.names().keys(), {b"second", b"third"})
        self.assertRegex(str(latest.fault), "commit 4: /d: names cannot be read")

    def test_no_volume(self) -> None:
        self.change_to(bytes(300 * BLOCK))
        with self.assertRaisesRegex(Damaged, "holds no volume"):
            self.view()

    def change_to(self, data: bytes) -> None:
        with open(self.image, "wb") as file:
            file.write(data)


class Strangers(WithImage):
    """Images that say more than a volume can have."""

    def write(self, data: bytes) -> None:
        with open(self.image, "wb") as file:
            file.write(data)

    def test_forged(self) -> None:
        """Whoever walks through all of a forged image comes to an end, and what is refused has a name."""
        for name, made in FORGED.items():
            with self.subTest(name):
                self.write(made())
                began = time.process_time()
                try:
                    latest = folder_at(self.view(), "latest")
                except Damaged as error:
                    self.assertRegex(str(error), "holds no volume")
                    continue
                names, failures = self.walked(latest)
                self.assertLessEqual(names, 4096)
                self.assertTrue(all("commit" in failure for failure in failures), failures[:2])
                self.assertLess(time.process_time() - began, 60)

    def walked(self, folder: ShownFolder) -> Tuple[int, List[str]]:
        names = 0
        failures: List[str] = []
        try:
            found = folder.names()
        except Damaged as error:
            return 0, [str(error)]
        for item in found.values():
            names += 1
            if isinstance(item, ShownFolder):
                below = self.walked(item)
                names, failures = names + below[0], failures + below[1]
        return names, failures

    def test_more_names_than_nodes(self) -> None:
        self.write(FORGED["one_data"]())
        with self.assertRaisesRegex(Damaged, "commit 1: has more than 4,096 names, which no volume has"):
            folder_at(self.view(), "latest").names()

    def forged(self, *names: Tuple[str, int, int]) -> ShownFolder:
        """The root of a volume with these names in it, each with the characteristics and the virtual address that it says."""
        forge = Forge()
        forge.begin()
        first = forge.number
        data = write_identifier("", 10, VirtualAddress(1), 0, 0, BlockNumber(first)) + b"".join(write_identifier(name, kind, VirtualAddress(virtual), 16, 0, BlockNumber(first)) for name, kind, virtual in names)
        forge.put(data)
        forge.words[1] = forge.node(FileType.DIRECTORY, 0, len(data), first, 1)
        forge.words.append(forge.node(FileType.FILE, 16, 5, None, 2, b"bytes"))
        forge.table(1, 1, 1)
        self.write(forge.image())
        return folder_at(self.view(), "latest")

    def test_names_that_lead_elsewhere(self) -> None:
        """What no directory may have as a name is never shown, and the folder says that names are missing."""
        folder = self.forged(("..", 0, 2), ("a/b", 0, 2), (".", 2, 1), ("good", 0, 2), ("..", 2, 1))
        names = folder.names()
        self.assertEqual(names.keys(), {b"good"})
        self.assertRegex(str(folder.fault), "names cannot be read")
        self.assertEqual(bytes_of(file_at(folder, "good")), b"bytes")

    def test_loops(self) -> None:
        """A second name of a file, and one of the root, are there and cannot be read."""
        folder = self.forged(("good", 0, 2), ("twice", 0, 2), ("loop", 2, 1))
        self.assertEqual(folder.names().keys(), {b"good", b"twice", b"loop"})
        self.assertEqual(bytes_of(file_at(folder, "good")), b"bytes")
        with self.assertRaisesRegex(Damaged, "/twice: another name leads to the same"):
            bytes_of(file_at(folder, "twice"))
        with self.assertRaisesRegex(Damaged, "/loop: another name leads to the same"):
            folder_at(folder, "loop").names()


class Kept(unittest.TestCase):
    """What is kept in memory has a limit."""

    def test_digests(self) -> None:
        memory = Memory()
        for index in range(100):
            memory.keep(index, bytes(DIGEST * 1000))
            memory.keep(index, bytes(DIGEST * 1000))
        kept = [index for index in range(100) if memory.digests(index) is not None]
        self.assertEqual(kept, list(range(100 - DIGESTS_KEPT // 1000, 100)))

    def test_numbers(self) -> None:
        """A name has one number for as long as the kernel knows it, and takes no memory after that."""
        top = ShownFolder()
        numbers = Numbers(top)
        one = numbers.of(TOP_NUMBER, b"a", ShownFile())
        numbers.records[one].given += 2
        self.assertEqual(numbers.of(TOP_NUMBER, b"a", ShownFile()), one)
        numbers.forget(one, 1)
        self.assertEqual(numbers.known(TOP_NUMBER, b"a"), one)
        numbers.forget(one, 1)
        self.assertIsNone(numbers.known(TOP_NUMBER, b"a"))
        numbers.forget(TOP_NUMBER, 1 << 40)
        self.assertEqual([*numbers.records], [TOP_NUMBER])
        self.assertEqual([*numbers.records], [TOP_NUMBER])
        self.assertIs(numbers.records[TOP_NUMBER].item, top)


if __name__ == "__main__":
    unittest.main()
