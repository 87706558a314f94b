"""The reader beside the model of what was written, and beside `udfburn` itself."""

from __future__ import annotations

import os
import struct
import subprocess
import tempfile
import unittest
from typing import Dict

from udfburn.protocol import Create, MakeDir, Path
from udfburn.protocol.units import Address, BlockNumber, Commit, Moment, VirtualAddress
from udfburn.reader import DamageCause, FileType, MapError, Medium, NoVolume, RescueMap, State, Volume
from udfburn.reader import basics, directory, entry, front
from udfburn.reader.notes import Notes
from udfburn.salvage.salvage import Salvage

from .model import Directory, File, Volume as Model
from .programs import UDFBURN
from .volumes import Writer, apply_messages, format_image, random_volume


class Basics(unittest.TestCase):
    """What structures share, by the standards' own examples."""

    def test_crc(self) -> None:
        """The example of ECMA-167 3/7.2.6."""
        self.assertEqual(basics.crc(bytes([0x70, 0x6A, 0x77])), 0x3299)

    def test_timestamps(self) -> None:
        self.assertEqual(basics.write_timestamp(Moment(0)), bytes.fromhex("0010b2070101000000000000"))
        self.assertEqual(basics.write_timestamp(Moment(1_234_567))[-4:], bytes.fromhex("01172d43"))
        for moment in (0, 1, 1_234_567, basics.MOMENTS - 1, 951_782_400_000_000):
            self.assertEqual(basics.read_timestamp(basics.write_timestamp(Moment(moment))), moment)
        for wrong in ("0010b2070001000000000000", "0010b2070230000000000000", "0010b20701010000003c0000"[:22] + "64", "0110b2070101000000000000"):
            self.assertIsNone(basics.read_timestamp(bytes.fromhex(wrong)), wrong)

    def test_texts(self) -> None:
        for text, spelled in (("", ""), ("a", "0861"), ("é", "08e9"), ("ā", "100101"), ("aā", "1000610101")):
            self.assertEqual(basics.spell(text).hex(), spelled)
            self.assertEqual(basics.expand(bytes.fromhex(spelled)), text)
        for wrong in ("08", "10", "1041", "100041", "10d800", "10feff", "0961"):
            self.assertIsNone(basics.expand(bytes.fromhex(wrong)), wrong)
        self.assertEqual(basics.read_dstring(basics.write_dstring("DISC", 32)), "DISC")

    def test_terminating_descriptor(self) -> None:
        """Its tag, computed by hand: the CRC of zeros is zero."""
        block = front.blocks_of_front("DISC", Moment(0), 3000)[37]
        self.assertEqual(block[:16].hex(), "08000300220001000000f00125000000")


class Reader(unittest.TestCase):
    """Images by the program."""

    def setUp(self) -> None:
        if not UDFBURN:
            self.skipTest("UDFBURN names the program")
        self.room = tempfile.TemporaryDirectory()
        self.addCleanup(self.room.cleanup)
        self.image = os.path.join(self.room.name, "disc.img")

    def medium(self) -> Medium:
        medium = Medium(self.image)
        self.addCleanup(medium.close)
        return medium

    def compare(self, state: State, model: Model) -> None:
        """Every path, kind, size, moment and byte, the stored order and the clients."""
        paths: Dict[Path, object] = {}
        for node in state.walk():
            paths[node.path] = node
            known = model.nodes[node.path]
            if isinstance(known, File):
                self.assertEqual((node.kind, node.size, node.moment), (FileType.FILE, len(known.data), known.moment))
                run = state.volume.read(node)
                self.assertEqual((run.data, run.missing), (known.data, ()))
            else:
                assert isinstance(known, Directory)
                self.assertEqual((node.kind, node.moment), (FileType.DIRECTORY, known.moment))
                self.assertEqual([name.name for name in state.names(node)], known.names)
        self.assertEqual(set(paths), set(model.nodes))
        kept = {client.client: (client.latest, [(reply.code, reply.commit) for reply in client.replies]) for client in state.clients}
        said = {client: (latest, [(reply.code, reply.commit) for reply in replies]) for client, (latest, replies) in model.clients.items()}
        self.assertEqual(kept, said)

    def test_random_volumes(self) -> None:
        """Nothing is noted on what the program writes, and all is read as the model has it."""
        for seed in range(12):
            model, _ = random_volume(self.image, seed, 120, clients=1 + 20 * (seed % 4))
            volume = Volume(self.medium())
            self.assertEqual((volume.label, volume.moment, volume.capacity), ("TEST", 0, 60_000))
            self.compare(volume.state(), model)
            self.assertEqual(volume.check().all(), [])
            os.unlink(self.image)

    def test_every_state(self) -> None:
        """The state after each commit is the one that was there."""
        format_image(self.image)
        writer = Writer(99)
        states = []
        for _ in range(40):
            message = writer.request()
            apply_messages(self.image, [message])
            states.append({path: getattr(node, "data", None) for path, node in writer.model.nodes.items()})
        volume = Volume(self.medium())
        for commit, paths in enumerate(states, 1):
            state = volume.state(Commit(commit))
            read = {node.path: volume.read(node).data if node.kind is FileType.FILE else None for node in state.walk()}
            self.assertEqual(read, paths)
        self.assertRaises(NoVolume, volume.state, 41)

    def test_chain(self) -> None:
        """It is what `udfburn log` prints."""
        random_volume(self.image, 5, 200)
        said = subprocess.run([UDFBURN, "log", self.image], check=True, capture_output=True, text=True).stdout
        lines = [f"{t.commit} {t.address} {t.files} {t.directories}\n" for t in Volume(self.medium()).chain()]
        self.assertEqual("".join(lines), said)

    def test_cut_commits(self) -> None:
        """What was cut is passed by, and blocks of it are no state."""
        format_image(self.image)
        apply_messages(self.image, [Create(7, 1, Moment(5), ("a",), b"x" * 9000)])
        with open(self.image, "r+b") as file:
            file.truncate(os.path.getsize(self.image) - 2048)
        self.assertEqual(Volume(self.medium()).chain()[0].commit, 0)
        apply_messages(self.image, [Create(7, 1, Moment(5), ("b",), b"y" * 9000)])
        volume = Volume(self.medium())
        self.assertEqual([node.path for node in volume.state().walk()], [(), ("b",)])
        self.assertEqual(volume.check().all(), [])

    def test_a_file_that_imitates_a_table(self) -> None:
        """A file may have the bytes of a VAT ICB, and is none."""
        format_image(self.image)
        with open(self.image, "rb") as file:
            file.seek(261 * 2048)
            stale = file.read(2048)
        moved = basics.write_tag(entry.FILE_ENTRY, stale[16:192], 8) + stale[16:]
        apply_messages(self.image, [Create(7, 1, Moment(5), ("a",), stale * 3 + moved * 9)])
        volume = Volume(self.medium())
        self.assertEqual([table.commit for table in volume.chain()], [1, 0])
        self.assertEqual(volume.check().all(), [])

    def test_no_volume(self) -> None:
        with open(self.image, "wb") as file:
            file.write(bytes(700_000))
        self.assertRaises(NoVolume, Volume(self.medium()).chain)

    def test_written_structures(self) -> None:
        """An entry and an identifier written from what was read are the bytes that were there."""
        random_volume(self.image, 8, 60)
        medium = self.medium()
        volume = Volume(medium)
        state = volume.state()
        for node in state.walk():
            block = medium.block(node.address)
            assert block is not None
            found, faults = entry.read_entry(block, node.virtual)
            assert found is not None
            self.assertEqual((entry.write_entry(found), faults), (block, []))
            if node.kind is FileType.DIRECTORY and node.data is not None and node.size < 2048:
                data = medium.run(node.data, node.blocks).data
                laid = directory.write_identifier("", directory.OF_PARENT, node.above, 0, 0, BlockNumber(node.data - 257))
                for name in state.names(node):
                    kind = directory.OF_DIRECTORY if name.is_directory else 0
                    laid += directory.write_identifier(name.name, kind, name.virtual, name.unique, 0, BlockNumber(node.data - 257))
                self.assertEqual(laid, data[: node.size])

    def test_one_block_changed(self) -> None:
        """Each structure of a small volume, where a byte of it is changed, is noted at its block."""
        format_image(self.image)
        apply_messages(self.image, [MakeDir(7, 1, Moment(5), ("d",)), Create(7, 2, Moment(6), ("d", "f"), b"x" * 5000), Create(7, 3, Moment(7), ("g",), b"small")])
        with open(self.image, "rb") as file:
            whole = file.read()
        state = Volume(self.medium()).state()
        places = [state.table.address, state.table.first + 257, 16, 34, 50, 64, 65, 100, 256, 257]
        places += [node.address for node in state.walk()] + [node.data for node in state.walk() if node.kind is FileType.DIRECTORY and node.data]
        for at in places:
            for byte in (0, 13, 30, 100, 2047):
                with open(self.image, "wb") as file:
                    file.write(whole)
                    file.seek(at * 2048 + byte)
                    file.write(bytes([whole[at * 2048 + byte] ^ 0x40]))
                volume = Volume(self.medium())
                if at == state.table.address:
                    self.assertLess(volume.chain()[0].commit, 3)
                elif (at, byte) != (state.table.first + 257, 2047):
                    self.assertIn(at, {note.block for note in volume.check().all()}, (at, byte))

    def test_a_file_set_of_another_volume(self) -> None:
        """It is noted, also where another structure is wrong: then what structures say of each other is not compared."""
        format_image(self.image)
        with open(self.image, "rb") as file:
            whole = file.read()
        at = Volume(self.medium()).state().address(VirtualAddress(0))
        assert at is not None
        for label, moment, wrong in (("TEST", 0, False), ("OTHER", 0, True), ("TEST", 1, True)):
            for changed in (b"\0", b"x"):
                with open(self.image, "wb") as file:
                    file.write(whole)
                    file.seek(100 * 2048)
                    file.write(changed)
                    file.seek(at * 2048)
                    file.write(entry.write_file_set(label, Moment(moment)))
                expected = [(100, DamageCause.FRONT)] * (changed == b"x") + [(at, DamageCause.LABELS)] * wrong
                for notes in (Volume(self.medium()).check().all(), Salvage(self.medium()).notes):
                    self.assertEqual([(note.block, note.cause) for note in notes], expected, (label, moment))


class Fronts(unittest.TestCase):
    """Volume headers of which one place alone says a value, or none does."""

    PLACES = {"label": (32, 48, 35, 51, 33, 49), "moment": (32, 48, 64), "capacity": (34, 50, 64)}
    """The blocks that say each value, in the order in which they are asked."""

    def setUp(self) -> None:
        room = tempfile.TemporaryDirectory()
        self.addCleanup(room.cleanup)
        self.image, self.map = os.path.join(room.name, "disc.img"), os.path.join(room.name, "map")
        self.blocks = front.blocks_of_front("DISC", Moment(1_700_000_000_000_000), 50_000)

    def read(self, blocks: Dict[int, bytes], missing: "tuple[int, ...]" = ()) -> "tuple[front.Front, list[tuple[int, DamageCause]]]":
        """What a volume header with these blocks says, and what is noted of it."""
        with open(self.image, "wb") as file:
            file.write(b"".join(blocks.get(at, bytes(2048)) for at in range(257)))
        with open(self.map, "w", encoding="ascii") as file:
            file.write("0x0 + 1\n" + "".join(f"{at * 2048:#x} 2048 {'-' if at in missing else '+'}\n" for at in range(257)))
        with Medium(self.image, self.map) as medium:
            found, notes = front.read_front(medium), Notes()
            front.note_front(medium, found, notes)
        return found, [(note.block, note.cause) for note in notes.all()]

    def loose(self, block: bytes) -> bytes:
        """The block with a wrong CRC."""
        return block[:8] + bytes([block[8] ^ 1]) + block[9:]

    def test_one_place_alone(self) -> None:
        whole = front.Front("DISC", Moment(1_700_000_000_000_000), 50_000)
        self.assertEqual(self.read(self.blocks), (whole, []))
        for name, places in self.PLACES.items():
            for kept in places:
                blocks = {at: block for at, block in self.blocks.items() if at not in places or at == kept}
                self.assertEqual(self.read(blocks)[0], whole, (name, kept))
                # Also where its CRC is wrong.
                blocks[kept] = self.loose(blocks[kept])
                self.assertEqual(self.read(blocks)[0], whole, (name, kept))

    def test_one_that_is_whole_comes_first(self) -> None:
        other = front.blocks_of_front("OTHER", Moment(5), 60_000)
        for name, places in self.PLACES.items():
            blocks = {**self.blocks, **{at: self.loose(other[at]) for at in places[:-1]}}
            self.assertEqual(getattr(self.read(blocks)[0], name), getattr(self.read(self.blocks)[0], name), name)
            blocks = {**self.blocks, **{at: self.loose(self.blocks[at]) for at in places}, places[0]: self.loose(other[places[0]])}
            self.assertEqual(getattr(self.read(blocks)[0], name), getattr(self.read(other)[0], name), name)

    def test_no_place(self) -> None:
        """What follows from the value is not compared."""
        for name, at in (("label", 32), ("moment", 32), ("capacity", 34)):
            found, notes = self.read({at: block for at, block in self.blocks.items() if at not in self.PLACES[name]})
            self.assertIsNone(getattr(found, name))
            self.assertEqual(notes, [(at, DamageCause.FRONT)], name)

    def test_blocks_that_differ(self) -> None:
        self.assertEqual(self.read(self.blocks, missing=(40,))[1], [(40, DamageCause.MISSING)])
        self.assertEqual(self.read({**self.blocks, 40: b"x".ljust(2048, b"\0")})[1], [(40, DamageCause.FRONT)])


class Missing(unittest.TestCase):
    """Blocks that cannot be had."""

    def setUp(self) -> None:
        self.room = tempfile.TemporaryDirectory()
        self.addCleanup(self.room.cleanup)
        self.path = os.path.join(self.room.name, "disc.img")
        with open(self.path, "wb") as file:
            file.write(b"".join(struct.pack("<I", at) * 512 for at in range(8)) + b"rest")

    def test_short(self) -> None:
        with Medium(self.path) as medium:
            self.assertEqual(medium.blocks, 8)
            self.assertIsNone(medium.block(Address(8)))
            self.assertIsNone(medium.block(Address(-1)))
            run = medium.run(Address(6), 4)
            self.assertEqual(run.missing, (8, 9))
            self.assertEqual(run.data[:4], struct.pack("<I", 6))
            self.assertEqual(run.data[4096:], bytes(4096))

    def test_map(self) -> None:
        """A block is there where all its bytes were read."""
        rescue = os.path.join(self.room.name, "map")
        with open(rescue, "w", encoding="ascii") as file:
            file.write("# Mapfile. Created by GNU ddrescue\n0x00000000     +               1\n")
            file.write("0x00000000  0x00001000  +\n0x00001000  0x00000200  -\n0x00001200  0x00001E00  +\n0x00003000  0x00000800  ?\n0x00003800 0x00000800  +\n")
        with Medium(self.path, rescue) as medium:
            self.assertEqual([at for at in range(8) if medium.block(Address(at)) is None], [2, 6])
            self.assertEqual(medium.run(Address(0), 8).missing, (2, 6))
        with open(rescue, "w", encoding="ascii") as file:
            file.write("nothing of a map\n")
        self.assertRaises(MapError, RescueMap.load, rescue)

    def test_causes(self) -> None:
        """The numbers are those of docs/OPERATIONS.md."""
        self.assertEqual([int(cause) for cause in DamageCause], [0, *range(21, 28), *range(31, 38), *range(41, 48), *range(71, 79)])
