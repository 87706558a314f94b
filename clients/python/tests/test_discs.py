"""Images that are finished for a disc, and burned by xorriso into a file in the place of a drive."""

from __future__ import annotations

import os
import signal
import struct
import subprocess
import time
import unittest
from contextlib import suppress
from typing import Iterator, List
from unittest import mock

from udfburn.commands import cli
from udfburn.discs import burning, finish
from udfburn.base.errors import Full
from udfburn.protocol.units import Address
from udfburn.reader import Medium, Volume

from .programs import PATIENCE, UDFBURN, WithPrograms

BLOCK, PARTITION = 2048, 257


def blocks_of(path: str) -> List[bytes]:
    with open(path, "rb") as file:
        data = file.read()
    return [data[at : at + BLOCK] for at in range(0, len(data), BLOCK)]


def entry_at(block: bytes, address: int) -> bytes:
    """What a VAT ICB is at an address (ECMA-167 3/7.2): its tag's location, and the sum of the tag's other bytes."""
    tag = bytearray(block[:16])
    tag[12:16] = struct.pack("<I", address - PARTITION)
    tag[4] = 0
    tag[4] = sum(tag) % 256
    return bytes(tag) + block[16:]


def command_lines() -> Iterator[bytes]:
    """The words of each process that there is."""
    for name in filter(str.isdigit, os.listdir("/proc")):
        with suppress(OSError), open(f"/proc/{name}/cmdline", "rb") as file:
            yield file.read()


class Discs(WithPrograms):
    capacity = 3000

    def setUp(self) -> None:
        super().setUp()
        self.disc = os.path.join(self.room, "drive")
        self.device = "stdio:" + self.disc

    def command(self, *words: str, status: int = 0) -> str:
        return self.run_command(*words, where=[], status=status)

    def fill(self, files: int = 3, size: int = 5000) -> None:
        client = self.on_image()
        for index in range(files):
            client.create(f"/f{index}", bytes([index]) * size)
        client.close()

    def out(self, medium: str) -> str:
        return os.path.join(self.room, medium + ".img")

    def tree(self, image: str) -> "dict[tuple[str, ...], bytes]":
        with Medium(image) as medium:
            state = Volume(medium).state()
            return {node.path: state.volume.read(node).data for node in state.walk() if node.kind.name == "FILE"}


class Finish(Discs):
    def test_each_medium(self) -> None:
        self.fill()
        image, log = blocks_of(self.image), self.udfburn("log", self.image).splitlines()
        for medium, unit in (("cd", 1), ("dvd", 16), ("bd", 32)):
            out = self.out(medium)
            self.command("finish", self.image, out, "--medium", medium)
            found = blocks_of(out)
            self.assertEqual(found[: len(image)], image)
            self.assertEqual(len(found) % unit, 0)
            self.assertTrue(3 <= len(found) - len(image) < 3 + unit, len(found))
            for at in range(len(image), len(found)):
                self.assertEqual(found[at], entry_at(image[-1], at))
            # Every program reads it as the image.
            self.assertEqual(self.udfburn("check", out), self.udfburn("check", self.image))
            self.assertEqual(self.udfburn("log", out).splitlines()[1:], log[1:])
            self.assertEqual(self.udfburn("log", out).split()[1], b"%d" % (len(found) - 1))
            self.assertIn("is as it must be", self.command("check", out))
            self.assertEqual(self.tree(out), self.tree(self.image))
            # A commit goes on after the copies.
            client = self.on_image(os.path.join(self.room, medium + ".ledger"), out)
            client.create("/more", b"more")
            client.close()
            self.assertIn("is as it must be", self.command("check", out))
            self.assertEqual(self.udfburn("check", out), b"sound 4\n")

    def test_one_that_is_finished(self) -> None:
        """Copies of copies count."""
        self.fill()
        self.command("finish", self.image, self.out("cd"), "--medium", "cd")
        for source, medium in ((self.image, "dvd"), (self.out("cd"), "again"), (self.out("dvd"), "third")):
            self.command("finish", source, self.out(medium), "--medium", "dvd")
            self.assertEqual(blocks_of(self.out(medium)), blocks_of(self.out("dvd")))

    def test_a_file_that_is_there(self) -> None:
        out = self.write("dvd.img", b"mine")
        self.assertIn("already exists", self.command("finish", self.image, out, "--medium", "dvd", status=1))
        self.assertEqual(self.read("dvd.img"), b"mine")

    def test_what_is_no_whole_volume(self) -> None:
        self.fill()
        whole = b"".join(blocks_of(self.image))
        damaged = bytearray(whole)
        damaged[-BLOCK + 100] ^= 1
        for name, data, why in (("cut", whole[:-1], "does not end with a VAT ICB"), ("loose", whole + bytes(BLOCK), "does not end with a VAT ICB"),
                                ("damaged", bytes(damaged), ""), ("none", bytes(300 * BLOCK), "holds no volume"), ("empty", b"", "")):
            image = self.write(name, data)
            self.assertIn(why, self.command("finish", image, self.out("dvd"), "--medium", "dvd", status=1))
            self.assertFalse(os.path.exists(self.out("dvd")))
            self.assertIn(why, self.command("burn", image, "--device", self.device, status=1))
            self.assertFalse(os.path.exists(self.disc) and os.path.getsize(self.disc))

    def test_a_full_volume(self) -> None:
        """The copies are within the volume's own blocks, where readers look."""
        self.image = os.path.join(self.room, "full.img")
        self.format(515, self.image)
        client = self.on_image()
        client.create("/large", bytes(100 * BLOCK))
        with self.assertRaises(Full):
            for index in range(100):
                client.create(f"/f{index}", b"")
        client.close()
        blocks = os.path.getsize(self.image) // BLOCK
        self.assertTrue(500 <= blocks <= 512, blocks)
        self.command("finish", self.image, self.out("cd"), "--medium", "cd")
        for kind, total in (("dvd", 528), ("bd", 544)):
            told = self.command("finish", self.image, self.out(kind), "--medium", kind, status=1)
            self.assertIn(f"too full for a {kind}: with the copies of its VAT ICB it would have {total} blocks, and the volume has 515", told)
            self.assertFalse(os.path.exists(self.out(kind)))
        self.assertEqual([finish.total_of(509, Address(508), 16), finish.total_of(510, Address(509), 1), finish.total_of(510, Address(509), 32)], [512, 513, 544])


class Burn(Discs):
    def burn(self, status: int = 0) -> str:
        return self.command("burn", self.image, "--device", self.device, status=status)

    def test_burned_and_found_again(self) -> None:
        self.fill()
        told = self.burn()
        self.assertIn("every byte was read back. Write on it: TEST", told)
        disc = blocks_of(self.disc)
        self.command("finish", self.image, self.out("bd"), "--medium", "bd")
        self.assertEqual(disc, blocks_of(self.out("bd")))
        self.assertIn("is on this disc already, and every byte was compared", self.burn())
        self.assertEqual(blocks_of(self.disc), disc)

    def test_a_disc_with_something_else(self) -> None:
        self.fill()
        for data in (b"x" * 100, bytes(300 * BLOCK) + b"x" * BLOCK, b"".join(blocks_of(self.image)[:-1])):
            self.write("drive", data)
            self.assertIn("is not blank, and does not have this image", self.burn(status=1))
            self.assertEqual(self.read("drive"), data)

    def test_a_disc_that_was_burned_without_copies(self) -> None:
        self.fill()
        image = b"".join(blocks_of(self.image))
        self.write("drive", image + bytes(40 * BLOCK))
        self.assertIn(f"lastblock={len(image) // BLOCK - 1}", self.burn())

    def test_no_drive(self) -> None:
        for device, why in (("/nonexistent/sr0", "there is no such drive"), (self.room, "is no drive"), ("/dev/null", "cannot be used as a recorder"),
                            ("stdio:/dev/null", "is no drive"), ("stdio:" + self.image, "is the image itself")):
            self.assertIn(why, self.command("burn", self.image, "--device", device, status=1))

    def test_no_xorriso(self) -> None:
        with mock.patch.dict(os.environ, {"PATH": self.room}):
            self.assertIn("xorriso is not on the PATH", self.command("burn", self.image, "--device", self.device, status=1))

    def test_a_disc_that_is_too_small(self) -> None:
        self.fill()
        with mock.patch("udfburn.discs.burning.look_at", lambda device: burning.Disc("DVD+R", "dvd", True, 271)), self.assertLogs_nothing_is_burned():
            self.assertEqual(cli.main(["burn", self.image, "--program", UDFBURN, "--device", self.device]), 1)

    def assertLogs_nothing_is_burned(self) -> "mock._patch[mock.MagicMock]":  # noqa: N802
        return mock.patch("udfburn.discs.burning.burn_track", side_effect=AssertionError("a disc that is too small was burned"))

    def test_what_is_read_back_differs(self) -> None:
        """Each byte counts: of the image, and of the copies after it."""
        self.fill()
        for place in (100 * BLOCK + 7, os.path.getsize(self.image) - 1, -1):
            if os.path.exists(self.disc):
                os.unlink(self.disc)

            def damage(device: str, say: object) -> None:
                with open(self.disc, "r+b") as file:
                    at = file.seek(place, os.SEEK_END if place < 0 else os.SEEK_SET)
                    byte = file.read(1)
                    file.seek(at)
                    file.write(bytes([byte[0] ^ 1]))

            with mock.patch("udfburn.discs.burning.take_in_again", damage):
                self.assertEqual(cli.main(["burn", self.image, "--program", UDFBURN, "--device", self.device]), 1)

    def test_a_kill(self) -> None:
        """A disc that was burned in part is never taken for a whole one, nor burned again."""
        self.image = os.path.join(self.room, "large.img")
        self.format(20_000, self.image)
        self.fill(16, 1 << 20)
        size = os.path.getsize(self.image)
        whole = cut = 0
        for share in (0.0, 0.5):
            if os.path.exists(self.disc):
                os.unlink(self.disc)
            process = subprocess.Popen(
                self.words("burn", self.image, "--device", self.device, where=[]), env=self.environment(), stdout=subprocess.DEVNULL, stderr=subprocess.DEVNULL,
            )
            limit = time.monotonic() + PATIENCE
            while process.poll() is None and time.monotonic() < limit:
                if os.path.exists(self.disc) and os.path.getsize(self.disc) >= share * size:
                    process.send_signal(signal.SIGKILL)
                    break
                time.sleep(0.001)
            process.wait()
            self.await_end_of_writing()
            written = os.path.getsize(self.disc) if os.path.exists(self.disc) else 0
            same = written >= size and self.read("drive")[:size] == self.read("large.img")
            # What was cut before its first byte is blank to a file, though not to a disc.
            if same or not any(self.read("drive") if written else b""):
                self.burn()
                whole += 1
            else:
                self.assertIn("is not blank, and does not have this image", self.burn(status=1))
                cut += 1
        self.assertEqual(whole + cut, 2)

    def await_end_of_writing(self) -> None:
        """xorriso goes on for a moment, and fills the track up with zeros: until no process names the disc."""
        limit = time.monotonic() + PATIENCE
        while any(os.fsencode(self.disc) in words for words in command_lines()):
            self.assertLess(time.monotonic(), limit, "xorriso does not end")
            time.sleep(0.01)


if __name__ == "__main__":
    unittest.main()
