"""What is given back of damaged images, and what is said of it."""

from __future__ import annotations

import os
import random
import struct
import tempfile
import unittest
from contextlib import closing
from hashlib import sha256
from typing import Callable, Dict, List, Optional, Tuple
from unittest import mock

from udfburn.protocol import Create, MakeDir, Message, Path, Remove, Rename, Replace
from udfburn.protocol.units import Address, Commit
from udfburn.reader import FileType, Medium, Volume
from udfburn.salvage.salvage import (
    FILE_DAMAGED, FILE_EARLIER, FILE_LOST, FILE_NAMELESS, FILE_UNPROVED, FILE_WHOLE, UNFINISHED, NothingToSalvage, Salvage, SalvageOutcome,
)
from udfburn.salvage.write import Output

from .model import Volume as Model
from .programs import UDFBURN
from .salvaged import judged
from .volumes import Writer, apply_messages, format_image

BLOCK = 2048
Found = Dict[Path, Tuple[str, bytes, SalvageOutcome]]


class Damaged(unittest.TestCase):
    """A small volume, and copies of it with wrong bytes."""

    def setUp(self) -> None:
        if not UDFBURN:
            self.skipTest("UDFBURN names the program")
        room = tempfile.TemporaryDirectory()
        self.addCleanup(room.cleanup)
        self.room = room.name
        self.image = os.path.join(self.room, "disc.img")
        self.model = Model()
        self.number = 0
        format_image(self.image)

    # ---- making and damaging

    def send(self, kind: Callable[..., Message], *fields: object) -> None:
        self.number += 1
        message = kind(7, self.number, 1_000_000 * self.number, *fields)
        self.model.answer(message)
        apply_messages(self.image, [message])

    def fill(self) -> None:
        """Two directories, files inside entries and outside, one replaced and one renamed."""
        chance = random.Random(3)
        self.send(MakeDir, ("d",))
        self.send(Create, ("d", "large"), chance.randbytes(9000))
        self.send(Create, ("d", "small"), chance.randbytes(300))
        self.send(Create, ("top",), chance.randbytes(5000))
        self.send(MakeDir, ("d", "e"))
        self.send(Create, ("d", "e", "deep"), chance.randbytes(2500))
        self.send(Replace, ("d", "large"), chance.randbytes(7000))
        self.send(Rename, ("d", "small"), ("d", "renamed"))
        self.send(Create, ("last",), chance.randbytes(4000))

    def blocks(self) -> bytearray:
        with open(self.image, "rb") as file:
            return bytearray(file.read())

    def put(self, data: bytes) -> None:
        with open(self.image, "wb") as file:
            file.write(data)

    def damage(self, address: int, at: int, data: bytes) -> None:
        """Writes over bytes of a block."""
        image = self.blocks()
        begin = address * BLOCK + at
        image[begin : begin + len(data)] = data
        self.put(image)

    def flip(self, address: int, at: int, bit: int = 0) -> None:
        self.damage(address, at, bytes([self.blocks()[address * BLOCK + at] ^ 1 << bit]))

    def node(self, *path: str) -> Tuple[int, Optional[int], int]:
        """The address of a node's entry, that of its data, and the blocks of that."""
        with Medium(self.image) as medium:
            node = Volume(medium).state().find(path)
            assert node is not None
            return node.address, node.data, node.blocks

    def salvage(self, commit: Optional[Commit] = None) -> Tuple[Found, List[str]]:
        """All files as they come out, and the notes."""
        with Medium(self.image) as medium:
            found = Salvage(medium, commit)
            files = {}
            for item in found.tree.items:
                if item.kind is not FileType.DIRECTORY:
                    outcome, data = judged(found, item)
                    files[item.path] = (outcome.state, data, outcome)
            return files, [str(note) for note in found.notes]

    def expect_all(self, but: "Dict[Path, str]" = {}) -> List[str]:  # noqa: B006
        """Every file of the model comes out whole, but for some; the notes."""
        files, notes = self.salvage()
        for path, data in self.model.files().items():
            if path in but:
                self.assertEqual(files[path][0], but[path], (path, files[path][2], notes))
            else:
                self.assertEqual(files.get(path, ("", b""))[:2], (FILE_UNPROVED, data), (path, notes))
        return notes


class Salvaging(Damaged):
    """What comes out of damaged copies."""

    # ---- one wrong byte

    def test_sound(self) -> None:
        self.fill()
        self.assertEqual(self.expect_all(), [])

    def test_a_bit_after_a_descriptor(self) -> None:
        """The zeros after each descriptor mean nothing: each file comes out, and the block is named with cause 27."""
        self.fill()
        sound = self.blocks()
        for path in ((), ("d",), ("d", "e"), ("d", "large"), ("d", "renamed"), ("top",)):
            self.put(sound)
            address = self.node(*path)[0]
            self.flip(address, 2040)
            self.assertEqual(self.expect_all(), [f"block {address} cause 27: a byte after the descriptor is not zero"])

    def test_each_field_of_an_entry(self) -> None:
        """Whatever byte of an entry is wrong, all files come out, and the entry is named."""
        self.fill()
        sound = self.blocks()
        for path in (("d", "e"), ("d", "renamed")):
            address, data, _ = self.node(*path)
            for at in list(range(176)) + (list(range(176, 192)) if data is not None else []):
                self.put(sound)
                self.damage(address, at, bytes([sound[address * BLOCK + at] ^ 0x5A]))
                self.assertIn(f"block {address} ", " ".join(self.expect_all()), at)

    def test_each_byte_of_the_last_entry(self) -> None:
        """The newest state is found, though the program goes back to the one before."""
        self.fill()
        sound = self.blocks()
        last = len(sound) // BLOCK - 1
        for at in [*range(0, 192, 2), 500, 2047]:
            self.put(sound)
            self.damage(last, at, bytes([sound[last * BLOCK + at] ^ 0xA5]))
            self.assertIn(f"block {last} ", " ".join(self.expect_all()), at)

    def test_each_byte_of_the_last_table(self) -> None:
        """Every byte of a table's data but the clients' numbers and the label follows from elsewhere."""
        self.fill()
        with Medium(self.image) as medium:
            table = Volume(medium).state().table
        sound = self.blocks()
        for at in range(0, table.size + 4, 3):
            self.put(sound)
            self.damage(table.first + 257, at, bytes([sound[(table.first + 257) * BLOCK + at] ^ 0x81]))
            self.assertTrue(self.expect_all(), at)

    def test_each_byte_of_a_listing(self) -> None:
        """One wrong bit leaves one reading of an identifier."""
        self.fill()
        sound = self.blocks()
        _, data, _ = self.node("d")
        assert data is not None
        with Medium(self.image) as medium:
            size = next(node.size for node in Volume(medium).state().walk() if node.path == ("d",))
        for at in range(0, size, 2):
            self.put(sound)
            self.flip(data, at, at // 2 % 8)
            self.assertIn(f"block {data} ", " ".join(self.expect_all()), at)

    # ---- lost blocks

    def test_a_lost_listing(self) -> None:
        """Names come from the listing before, with the commit after their paths; what that does not have is in lost+found."""
        self.fill()
        _, data, _ = self.node("d")
        assert data is not None
        self.damage(data, 0, bytes(range(256)) * 8)
        files, _ = self.salvage()
        self.assertEqual(files["d", "large"][:2], (FILE_EARLIER, self.model.files()["d", "large"]))
        self.assertEqual(files["d", "large"][2].commit, (7, 7))
        self.assertEqual(files["d", "small"][:2], (FILE_EARLIER, self.model.files()["d", "renamed"]))
        self.assertEqual(files["d", "e", "deep"][:2], (FILE_UNPROVED, self.model.files()["d", "e", "deep"]))

    def test_a_lost_root(self) -> None:
        """Its names are read from its listing."""
        self.fill()
        address, _, _ = self.node()
        self.damage(address, 0, bytes(BLOCK))
        self.expect_all()

    def test_a_lost_entry(self) -> None:
        """A replaced file is had as it was before, a new one as its blocks, one inside its entry is lost."""
        self.fill()
        sound = self.blocks()
        for path, state in ((("d", "large"), FILE_EARLIER), (("top",), FILE_DAMAGED), (("d", "renamed"), FILE_LOST)):
            self.put(sound)
            self.damage(self.node(*path)[0], 0, bytes(BLOCK))
            self.expect_all({path: state})
            files, _ = self.salvage()
            if state == FILE_DAMAGED:
                self.assertEqual(files[path][1].rstrip(b"\0"), self.model.files()[path].rstrip(b"\0"))

    def test_the_moment_of_a_lost_entry(self) -> None:
        """A file that comes out whole by its digest has its own moment, and not that of its earlier entry."""
        self.fill()
        files = self.model.files()
        self.send(Create, ("manifest-sha256.txt",), "".join(f"{sha256(data).hexdigest()}  {'/'.join(path)}\n" for path, data in files.items()).encode())
        sound = self.blocks()
        for path, moment in ((("d", "large"), 7_000_000), (("top",), 4_000_000)):
            self.put(sound)
            self.damage(self.node(*path)[0], 0, bytes(BLOCK))
            with Medium(self.image) as medium, closing(Output(os.path.join(self.room, path[-1]))) as output:
                outcome = next(outcome for outcome in Salvage(medium).outcomes(output) if outcome.path == path)
            self.assertEqual((outcome.state, outcome.moment), (FILE_WHOLE, moment))
            assert outcome.written is not None
            written = os.stat(os.path.join(self.room, path[-1], outcome.written))
            self.assertEqual((written.st_size, written.st_mtime_ns), (len(files[path]), moment * 1000))

    def test_an_earlier_entry_in_place_of_the_last_one(self) -> None:
        """An entry of an earlier commit lies where the last one of a commit was: the table of that commit is right, and leads to the newest one."""
        self.fill()
        with Medium(self.image) as medium:
            volume = Volume(medium)
            old, root = volume.state(Commit(2)).find(("d", "large")), volume.state().root()
            assert old is not None and root is not None
            self.assertEqual(root.address + 1, volume.table().first + 257)
            earlier = medium.block(old.address)
            assert earlier is not None
        self.damage(root.address, 0, earlier)
        files, _ = self.salvage()
        self.assertEqual([path for path, data in self.model.files().items() if path not in files or files[path][:2] != (FILE_UNPROVED, data)], [])

    def test_a_node_without_a_name(self) -> None:
        """A new file whose listing is lost goes to lost+found by its unique ID."""
        self.fill()
        _, data, _ = self.node()
        assert data is not None
        self.damage(data, 0, bytes(BLOCK))
        files, _ = self.salvage()
        nameless = [(path, found[1]) for path, found in files.items() if found[0] == FILE_NAMELESS]
        self.assertEqual(nameless, [(("lost+found", "22"), self.model.files()["last",])])

    def test_removed_nodes(self) -> None:
        """What was removed is no loss."""
        self.fill()
        self.send(Remove, ("d", "large"))
        self.send(Create, ("d", "other"), struct.pack("<I", 7) * 900)
        _, data, _ = self.node("d")
        assert data is not None
        self.damage(data, 0, bytes(BLOCK))
        files, _ = self.salvage()
        self.assertNotIn(("d", "large"), files)
        self.assertEqual([found[1] for path, found in files.items() if found[0] == FILE_NAMELESS], [self.model.files()["d", "other"]])

    def test_missing_blocks(self) -> None:
        """Zeros stand for them, and the ranges are named."""
        self.fill()
        _, data, blocks = self.node("d", "large")
        assert data is not None
        read = Medium._read
        gone = {data + 1, data + blocks - 1}

        def unread(medium: Medium, address: int, count: int) -> Optional[bytes]:
            return None if gone & set(range(address, address + count)) else read(medium, Address(address), count)

        with mock.patch.object(Medium, "_read", unread):
            files, notes = self.salvage()
        state, found, outcome = files["d", "large"]
        whole = self.model.files()["d", "large"]
        self.assertEqual((state, outcome.ranges), (FILE_DAMAGED, ((2048, 2048), (6144, 856))))
        self.assertEqual(found, whole[:2048] + bytes(2048) + whole[4096:6144] + bytes(856))
        self.assertEqual([note.split(":")[0] for note in notes], [f"block {data + 1} cause 0", f"block {data + blocks - 1} cause 0"])

    def test_a_chain_that_is_broken(self) -> None:
        """A table in the middle of the chain takes nothing of the newest state, and the others are read."""
        self.fill()
        with Medium(self.image) as medium:
            chain = Volume(medium).chain()
        self.damage(chain[4].address, 0, bytes(BLOCK))
        notes = self.expect_all()
        self.assertIn(f"block {chain[4].address} ", " ".join(notes))
        for commit in range(10):
            self.salvage(Commit(commit))

    def test_cut_copies(self) -> None:
        """A copy that ends anywhere is one of the last commit that is whole in it."""
        format_image(self.image + ".2")
        states: List[Tuple[int, Dict[Path, bytes]]] = [(os.path.getsize(self.image), {})]
        writer = Writer(11, 2)
        for _ in range(25):
            apply_messages(self.image, [writer.request()])
            states.append((os.path.getsize(self.image), writer.model.files()))
        sound = self.blocks()
        for size in range(states[0][0], len(sound), 3 * BLOCK + 700):
            self.put(sound[:size])
            wanted = [files for end, files in states if end <= size][-1]
            files, notes = self.salvage()
            self.assertEqual({path: found[1] for path, found in files.items() if found[0] != UNFINISHED}, wanted)
            self.assertEqual(notes, [])

    def test_a_large_device(self) -> None:
        """What is after the volume, and what is past the greatest one, is nothing of it."""
        self.fill()
        with open(self.image, "r+b") as file:
            file.seek(0, os.SEEK_END)
            file.write(b"\xaa" * 5 * BLOCK)
            file.truncate(500_000 * BLOCK)
        self.assertEqual(self.expect_all(), [])

    def test_no_table(self) -> None:
        self.put(bytes(700_000))
        self.assertRaises(NothingToSalvage, self.salvage)
        format_image(self.image + ".3")
        self.image += ".3"
        self.assertRaises(NothingToSalvage, self.salvage, 1)

    # ---- what imitates

    def test_stale_entries(self) -> None:
        """A block of an older VAT ICB, where the newest should be, is not taken for it: its location shows it."""
        self.fill()
        with Medium(self.image) as medium:
            chain = Volume(medium).chain()
        sound = self.blocks()
        for older in chain[1:]:
            self.put(sound)
            self.damage(chain[0].address, 0, bytes(sound[older.address * BLOCK : (older.address + 1) * BLOCK]))
            self.expect_all()

    def test_a_file_that_has_entries_in_it(self) -> None:
        """A volume inside of a file is a file, whatever is damaged around it."""
        self.fill()
        inner = bytes(self.blocks()[257 * BLOCK : 300 * BLOCK])
        self.send(Create, ("inner.img",), inner)
        self.expect_all()
        address, data, _ = self.node("inner.img")
        assert data is not None
        sound = self.blocks()
        for at in (address, len(sound) // BLOCK - 1, len(sound) // BLOCK - 2):
            self.put(sound)
            self.damage(at, 60, b"\xff" * 4)
            self.expect_all()

    # ---- a commit that is not finished

    def test_unfinished(self) -> None:
        """Where the last block is zeros the state is the one before, and the new file is in lost+found."""
        self.fill()
        self.damage(len(self.blocks()) // BLOCK - 1, 0, bytes(BLOCK))
        files, notes = self.salvage()
        self.assertNotIn(("last",), files)
        state, data, outcome = files["lost+found", "22.unfinished"]
        self.assertEqual((state, data, notes), (UNFINISHED, self.model.files()["last",], []))
        self.assertIn("its name is last", outcome.why)
        # Other bytes than zeros are no cut: the state is the newest.
        self.damage(len(self.blocks()) // BLOCK - 1, 0, b"\xff" * BLOCK)
        self.assertTrue(self.expect_all())

    def test_a_table_that_is_older(self) -> None:
        """A block of an older table in the place of a newer one's does not bring the older tree back."""
        self.fill()
        with Medium(self.image) as medium:
            tables = Volume(medium).chain()
        sound = self.blocks()
        for newer in range(3):
            for older in tables[newer + 1 :]:
                self.put(sound)
                begin = (older.first + 257) * BLOCK
                self.damage(tables[newer].first + 257, 0, bytes(sound[begin : begin + BLOCK]))
                self.expect_all()
