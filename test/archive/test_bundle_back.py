"""Bundles that come back: volumes that are adopted, rebuilt or repaired have each file of their bundles, and name those that are damaged."""

from __future__ import annotations

import os
import re
import shutil
from typing import Set

from .support import Done, change_in, digests, write
from .test_bundle import WithBundles


class WithTwo(WithBundles):
    """An archive whose volume has bundles and files by themselves, and a second folder of it."""

    def setUp(self) -> None:
        super().setUp()
        self.begin()
        self.make_small(300)
        self.make_small(30, 700, "more")
        write(os.path.join(self.source, "large"), self.chance.randbytes(200_000))
        self.bundle()
        self.before = digests(self.source)

    def begin(self) -> None:
        self.init("--capacity", "20000")

    def second(self) -> str:
        """Another folder of the archive, as on a machine that has the catalogue, and no image."""
        other = self.path("second")
        shutil.copytree(self.archive, other)
        toml = os.path.join(other, "archive.toml")
        with open(toml, encoding="utf-8") as file:
            text = file.read()
        write(toml, re.sub('id = "(.)', lambda found: 'id = "' + ("e" if found.group(1) == "f" else "f"), text).encode())
        for folder in ("open", "closed"):
            for name in os.listdir(os.path.join(other, folder)):
                os.unlink(os.path.join(other, folder, name))
        return other

    def damage(self, image: str, name: str = "small/00123.txt") -> None:
        """Flips a bit of a file of a bundle."""
        change_in(image, self.bytes_of(name)[:40])

    def hurt(self, done: Done, words: str = " is not as it was stored") -> Set[str]:
        """The paths of which this is said."""
        return {found.group(1) for found in re.finditer(f"(/s/[^ ]*){words}", done.errors)}

    def require_all(self) -> None:
        """Each file is known, given back byte for byte, and compared; so it is by a catalogue of the volumes alone."""
        for _ in range(2):
            self.assertEqual((self.get_all(), len(self.rows())), (self.before, len(self.before)))
            self.assertEqual(self.do("check", "--data").last()["failures"], [])
            self.require_agreed()
            self.assertEqual(self.do("add", self.source, "--at", "/s", "--bundle", "--dry-run").last()["files"], 0)
            self.lose_catalogue()
            self.do("rebuild")

    def require_but(self, path: str) -> None:
        """All is given back but one file, of which it is said that it is damaged."""
        folder = self.path(f"back-{len(os.listdir(self.room))}")
        done = self.do("get", "/s", folder, status=1)
        want = {name: found for name, found in self.before.items() if name != path.encode()}
        self.assertEqual(digests(os.path.join(folder, "s")), want)
        self.assertEqual(len(done.last()["failures"]), 1)
        self.assertIn(f"/s/{path}: its bytes do not have the SHA-256", done.last()["failures"][0])


class Adopts(WithTwo):
    def test_an_open_volume(self) -> None:
        """Its bundles are known to the folder that took it over, which goes on with them."""
        image = self.image(1, "open")
        self.archive = self.second()
        done = self.do("adopt", "T-000001", image)
        self.assertEqual((done.last()["files"], done.last()["state"]), (len(self.before), "open"))
        self.require_all()
        self.make_small(40, 900, "newer")
        self.assertEqual(self.bundle().last()["files"], 40)
        self.before = digests(self.source)
        self.assertEqual(len(self.tars(os.path.join(self.archive, "open", "T-000001.img"))), 4)
        self.require_all()
        self.do("close")
        self.require_all()

    def test_a_closed_volume(self) -> None:
        self.do("close")
        image = self.image(1)
        self.archive = self.second()
        self.assertEqual(self.do("adopt", "T-000001", image).last()["files"], len(self.before))
        self.require_all()

    def test_a_folder_whose_archive_toml_is_lost(self) -> None:
        """Made again with the same label, and the catalogue that is there."""
        os.unlink(os.path.join(self.archive, "archive.toml"))
        kept = self.path("kept")
        os.rename(self.archive, kept)
        self.init("--capacity", "20000")
        for name in os.listdir(kept):
            if name.startswith("catalogue"):
                shutil.copy(os.path.join(kept, name), self.archive)
        self.do("adopt", "T-000001", os.path.join(kept, "open", "T-000001.img"))
        self.require_all()

    def test_a_damaged_file_of_a_bundle(self) -> None:
        """The volume is taken over, and the file is named whenever it is read."""
        image = self.image(1, "open")
        self.damage(image)
        self.archive = self.second()
        self.do("adopt", "T-000001", image)
        self.require_but("small/00123.txt")
        self.assertEqual(self.hurt(self.do("check", "--data", "T-000001", status=1)), {"/s/small/00123.txt"})
        self.assertIn("without them", self.do("close", status=1).errors)

    def test_a_damaged_list(self) -> None:
        """What the catalogue has of its files is kept, and the list is named."""
        image = self.image(1, "open")
        change_in(image, b" 4096 1700000000123458 ")
        self.archive = self.second()
        done = self.do("adopt", "T-000001", image, status=1)
        self.assertEqual(self.hurt(done, ": the list of its files is damaged"), {"/s/small/=b1.tar"})
        self.assertEqual((self.get_all(), len(self.rows())), (self.before, len(self.before)))
        self.do("close", "--without-damaged")
        self.require_all()


class Rebuilds(WithTwo):
    def test_volumes_of_which_some_are_open(self) -> None:
        """Also where an image is named that is elsewhere."""
        self.do("close")
        self.make_small(200, 3000, "second")
        self.bundle()
        self.do("close")
        self.make_small(50, 3000, "third")
        self.bundle()
        self.before = digests(self.source)
        os.rename(self.image(1), self.path("elsewhere.img"))
        os.unlink(self.image(1)[:-4] + ".info")
        self.lose_catalogue()
        done = self.do("rebuild", self.path("elsewhere.img"))
        self.assertEqual((done.last()["volumes"], done.last()["files"]), (3, len(self.before)))
        os.rename(self.path("elsewhere.img"), self.image(1))
        self.require_all()

    def test_damaged_before_the_catalogue_was_lost(self) -> None:
        """A list has the SHA-256 of each file, so a catalogue of the damaged volume alone does not take it for sound."""
        image = self.image(1, "open")
        self.damage(image)
        self.lose_catalogue()
        done = self.do("rebuild", status=1)
        self.assertEqual(self.hurt(done), {"/s/small/00123.txt"})
        self.require_but("small/00123.txt")
        self.assertEqual(self.hurt(self.do("check", "--data", "T-000001", status=1)), {"/s/small/00123.txt"})
        self.assertIn("without them", self.do("close", status=1).errors)
        self.assertEqual(self.told(self.do("close", "--without-damaged"), "lacks"), {"/s/small/00123.txt"})
        self.assertEqual(self.bundle().last()["files"], 1)
        self.assertEqual(self.get_all(), self.before)

    def test_a_damaged_list_is_never_called_sound(self) -> None:
        """Neither where a catalogue was made of it. What had its files before keeps them."""
        image = self.image(1, "open")
        change_in(image, b" 4096 1700000000123458 ")
        self.assertIn("/s/small/=b1.tar: the list of its files is damaged", self.do("rebuild", status=1).errors)
        self.assertEqual((self.get_all(), len(self.rows())), (self.before, len(self.before)))
        self.assertEqual(self.hurt(self.do("check", "--data", "T-000001", status=1)), {"/s/small/=b1.tar"})
        self.assertIn("without them", self.do("close", status=1).errors)
        self.do("close", "--without-damaged")
        self.require_all()


class Repairs(WithTwo):
    """With two copies in folders."""

    def begin(self) -> None:
        self.copies = [self.path("one"), self.path("two")]
        for copy in self.copies:
            os.mkdir(copy)
        self.init("--copies", *self.copies, "--capacity", "20000")

    def copy(self, index: int) -> str:
        return os.path.join(self.copies[index], "T-000001.img")

    def test_an_open_image_that_is_lost(self) -> None:
        os.unlink(self.image(1, "open"))
        self.do("repair")
        self.require_all()

    def test_damage_that_no_copy_has(self) -> None:
        """The image is made of a copy that has all, and kept. Where none has, it stays, and so do the copies."""
        with open(self.copy(0), "rb") as file:
            good = file.read()
        self.damage(self.image(1, "open"))
        change_in(self.image(1, "open"), self.bytes_of("large")[:40])
        self.assertEqual(self.hurt(self.do("check", "--data", "T-000001", status=1)), {"/s/small/00123.txt", "/s/large"})
        for name in os.listdir(self.source):
            os.rename(os.path.join(self.source, name), self.path(name))
        self.do("repair", "T-000001")
        for name in os.listdir(self.room):
            if name in ("small", "more", "large"):
                os.rename(self.path(name), os.path.join(self.source, name))
        self.require_all()
        self.assertEqual(len([name for name in os.listdir(os.path.join(self.archive, "open")) if ".img.damaged-" in name]), 1)
        write(os.path.join(self.source, "newest"), b"newest")
        self.bundle("--no-copy")
        self.damage(self.image(1, "open"))
        done = self.do("repair", "T-000001", status=1)
        self.assertIn("is not as it was stored, and no sound copy has all of T-000001", done.errors)
        for index in range(2):
            with open(self.copy(index), "rb") as file:
                self.assertEqual(file.read(), good)

    def test_files_that_the_newest_copy_lacks(self) -> None:
        """Each file of a bundle that came later is named, and those of the others are given back."""
        self.make_small(20, 800, "later")
        self.bundle("--no-copy")
        os.unlink(self.image(1, "open"))
        done = self.do("repair", status=1)
        later = {f"/s/later/{index:05}.txt" for index in range(20)}
        self.assertEqual(self.hurt(done, " is on no copy: add it again"), later)
        self.assertEqual((self.get_all(), self.bundle().last()["files"]), (self.before, 20))
        self.before = digests(self.source)
        self.require_all()

    def test_a_copy_with_a_damaged_bundle(self) -> None:
        """It is not taken where another one is sound, also where the catalogue was made of it alone."""
        for lost in (False, True):
            with self.subTest(lost=lost):
                os.unlink(self.image(1, "open"))
                self.damage(self.copy(0))
                if lost:
                    self.lose_catalogue()
                    self.assertEqual(self.hurt(self.do("rebuild", status=1)), {"/s/small/00123.txt"})
                self.do("repair", "T-000001")
                self.assertEqual(self.get_all(), self.before)
                self.do("check", "--data", "--remotes")
                self.require_all()

    def test_adopted_from_a_copy(self) -> None:
        """The first copy is damaged, and the second folder takes the other one."""
        self.damage(self.copy(0))
        other = self.second()
        shutil.rmtree(self.archive)
        self.archive = other
        self.assertEqual(self.do("adopt", "T-000001").last()["files"], len(self.before))
        self.do("repair", "T-000001")
        self.require_all()

    def test_a_closed_volume(self) -> None:
        """By a copy, or by all that are damaged in other places."""
        self.do("close")
        self.damage(self.image(1))
        self.assertEqual(self.hurt(self.do("check", "--data", status=1)), {"/s/small/00123.txt"})
        self.assertEqual(self.get_all(), self.before)
        self.do("repair")
        self.require_all()
        # The copies are known again.
        self.do("close", "--full")
        for image, name in ((self.image(1), "small/00001.txt"), (self.copy(0), "small/00200.txt"), (self.copy(1), "more/00003.txt")):
            self.damage(image, name)
        self.do("check", "--remotes", status=1)
        self.do("repair", "T-000001")
        self.require_all()
