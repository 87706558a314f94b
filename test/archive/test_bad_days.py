"""Bad days to their end: images that are lost, volumes that are damaged everywhere, remotes that are gone, disks that are full."""

from __future__ import annotations

import os
import random
import shutil
import subprocess
import sys
from typing import List

from .support import COMMANDS, PACKAGE, PATIENCE, WithArchive, change, digests, environment, make_tree, write
from .test_remotes import WithRemotes

sys.path.insert(0, PACKAGE)

from udfburn.archive.assemble import assembled  # noqa: E402
from udfburn.archive.remotes import print_of_file  # noqa: E402

BLOCK = 2048


class WithCopies(WithArchive):
    """A closed volume with two copies in folders."""

    def setUp(self) -> None:
        super().setUp()
        self.copies = [self.path("one"), self.path("two")]
        for copy in self.copies:
            os.mkdir(copy)
        self.init("--copies", *self.copies, "--delete", "acknowledged")
        make_tree(self.source, 12, 1)
        self.data = [os.urandom(9000) for _ in range(3)]
        for index, data in enumerate(self.data):
            write(os.path.join(self.source, f"known {index}"), data)
        write(os.path.join(self.source, "big"), os.urandom(2_500_000))
        self.add()
        self.do("close")
        self.before = digests(self.source)
        self.image = self.path("archive", "closed", "T-000001.img")

    def all(self) -> List[str]:
        return [self.image, *(os.path.join(copy, "T-000001.img") for copy in self.copies)]

    def spoil(self, image: str, index: int) -> None:
        """Changes a byte of a file's data."""
        with open(image, "rb") as file:
            place = file.read().index(self.data[index][:500])
        change(image, place + 600)


class Lost(WithCopies):
    def test_a_lost_image_is_an_alarm(self) -> None:
        os.rename(self.image, self.path("shelf.img"))
        for words in (("check",), ("status",)):
            done = self.do(*words, status=1)
            self.assertIn("T-000001", done.errors)
            self.assertNotIn("everything is intact", done.output)
        self.do("put-away", "T-000001", "the shelf in the hall")
        done = self.do("check")
        self.assertIn("the shelf in the hall", done.output)
        self.assertNotIn("everything is intact", done.output)
        self.assertEqual(self.volumes()[0]["place"], "the shelf in the hall")
        self.do("status")
        self.assertEqual(self.do("repair").last()["repaired"], 0)
        self.do("put-away", "T-000001")
        self.do("status", status=1)
        self.assertEqual(self.do("repair").last()["repaired"], 1)
        self.do("status")
        self.do("check", "--data")

    def test_an_open_image_that_is_lost(self) -> None:
        write(os.path.join(self.source, "new"), b"new")
        self.add("--no-copy")
        self.do("put-away", "T-000002", "here", status=1)
        os.unlink(self.path("archive", "open", "T-000002.img"))
        for command in ("status", "repair"):
            self.assertIn("T-000002", self.do(command, status=1).errors)

    def test_no_copy_brings_it_back(self) -> None:
        for path in self.all():
            os.unlink(path)
        self.assertIn("T-000001", self.do("repair", status=1).errors)
        # It is taken out of what is asked for, and its files are stored again.
        self.do("retire", "T-000001")
        self.assertEqual(self.add().last()["files"], len(self.before))
        self.assertEqual(self.get_all(), self.before)
        for command in ("status", "check", "repair", "close"):
            self.do(command)
        self.assertEqual(self.add("--delete-source").last()["deleted"], len(self.before))

    def test_words_of_what_was_looked_at(self) -> None:
        def said(*words: str) -> str:
            return COMMANDS.run(["check", *words, "--archive", self.archive], environment(), self.room, PATIENCE).stdout.decode()

        self.assertIn("everything is intact", said())
        self.assertIn("what was looked at is intact", said("--oldest"))
        self.assertIn("what was looked at is intact", said("T-000001"))


class FromCopies(WithCopies):
    """Files that come from copies in folders."""

    def test_the_image_is_gone(self) -> None:
        os.unlink(self.image)
        self.assertEqual(self.get_all(), self.before)

    def test_each_has_other_damage(self) -> None:
        for index, image in enumerate(self.all()):
            self.spoil(image, index)
        self.assertEqual(self.get_all(), self.before)

    def test_a_folder_with_another_name(self) -> None:
        """As where another machine mounts the same disk elsewhere."""
        os.unlink(self.image)
        os.rename(self.copies[0], self.path("mounted elsewhere"))
        shutil.rmtree(self.copies[1])
        self.do("get", "/s", self.path("back"), status=1)
        self.do("remote", "add", self.path("mounted elsewhere"))
        self.assertEqual(self.get_all(), self.before)


class OnRemotes(WithRemotes):
    def test_only_a_remote_has_it(self) -> None:
        write(os.path.join(self.source, "f"), b"1")
        self.add()
        self.do("close")
        for path in (self.image(1), os.path.join(self.copies()[0], "T-000001.img")):
            os.unlink(path)
        self.assertIn("'repair T-000001' brings it back", self.do("get", "/s", self.path("back"), status=1).errors)

    def test_names_of_remotes(self) -> None:
        for name in (":local:/tmp", "here,copy_links:x", "a/b:c", " x:y", "x\n:y"):
            done = self.do("remote", "add", name, status=1)
            self.assertIn("is neither", done.errors)


class Damaged(WithCopies):
    """A volume that is damaged on every copy."""

    def test_an_image_of_several(self) -> None:
        for index, image in enumerate(self.all()):
            self.spoil(image, index)
        self.do("check", status=1)
        self.assertEqual(self.do("repair").last()["repaired"], 3)
        self.do("check", "--data", "--remotes")
        self.assertEqual(self.get_all(), self.before)

    def test_one_file_is_damaged_on_all(self) -> None:
        for image in self.all():
            self.spoil(image, 0)
        self.do("check", status=1)
        self.assertIn("retire T-000001", self.do("repair", status=1).errors)
        self.assertEqual(self.add().last()["files"], 1)
        self.assertEqual(self.get_all(), self.before)
        self.assertEqual(self.add("--delete-source").last()["deleted"], len(self.before))
        self.do("retire", "T-000001")
        self.do("status")

    def test_each_file_is_counted_once(self) -> None:
        self.spoil(self.image, 0)
        failures = self.do("check", "--data", status=1).last()["failures"]
        self.assertEqual(len([line for line in failures if "known 0 is not as it was stored" in line]), 1)
        self.assertIn("1 file is not as it was stored", " ".join(failures))

    def test_a_sound_volume_is_not_retired(self) -> None:
        self.assertIn("no damage is known", self.do("retire", "T-000001", status=1).errors)


class Assembled(WithCopies):
    """Images that are put together of damaged ones."""

    def damaged(self, chance: random.Random, count: int, owners: "List[int]", copies: int) -> "List[str]":
        """Copies of the image with so many runs of damaged blocks, none of which is damaged on all of them."""
        with open(self.image, "rb") as file:
            whole = file.read()
        images = [bytearray(whole) for _ in range(copies)]
        for index in range(count):
            at = (len(whole) // BLOCK // count * index + chance.randrange(3)) * BLOCK
            length = chance.randrange(1, 4) * BLOCK
            other = chance.choice([bytes(length), chance.randbytes(length)])
            images[owners[index % len(owners)]][at : at + length] = other[: len(whole) - at]
        return [write(self.path(f"damaged {index}"), bytes(image)) for index, image in enumerate(images)]

    def test_two_and_three_images(self) -> None:
        wanted = print_of_file(self.image)
        for copies, seed in ((2, 1), (2, 2), (2, 3), (3, 4), (3, 5)):
            with self.subTest(copies=copies, seed=seed):
                chance, target = random.Random(seed), self.path(f"made {seed}")
                images = self.damaged(chance, 9, [chance.randrange(copies) for _ in range(9)], copies)
                self.assertTrue(assembled(images, wanted, target))
                self.assertEqual(print_of_file(target), wanted)

    def test_a_block_that_none_has(self) -> None:
        images = self.damaged(random.Random(6), 9, [0, 1], 2)
        for image in images:
            change(image, 700 * BLOCK + 5)
        self.assertFalse(assembled(images, print_of_file(self.image), self.path("made")))


class FullDisk(WithArchive):
    """A disk for copies that is full."""

    def test_a_cut_copy_leaves_nothing(self) -> None:
        disk = self.path("disk")
        self.mount_memory(disk, "1m")
        self.init("--copies", disk)
        write(os.path.join(self.source, "big"), os.urandom(2_500_000))
        self.add("--no-copy")
        done = self.do("close", status=1)
        self.assertIn("make room on it, and run the same command again", done.errors)
        self.assertEqual([name for name in os.listdir(disk) if not name.startswith("udfburn-archive-")], [])
        subprocess.run(["mount", "-o", "remount,size=48m", disk], check=True)
        self.assertEqual(self.do("close").last()["copied"], 1)
