"""What copies of open volumes are for: they give a lost or damaged volume back, let sources go, and are adopted by another archive."""

from __future__ import annotations

import os
import shutil

from .support import change, digests, write
from .test_open_copies import BLOCK, WithOpen


class Repairs(WithOpen):
    def lose(self) -> None:
        os.unlink(self.image())

    def test_a_lost_image(self) -> None:
        self.more()
        self.add()
        before = self.read(self.image())
        self.lose()
        self.do("check", status=None)
        self.assertEqual(self.do("repair").last()["repaired"], 1)
        self.assertEqual(self.read(self.image()), before)
        self.assertEqual(self.get_all(), digests(self.source))
        self.more("again")
        self.add()
        self.assertEqual(self.get_all(), digests(self.source))
        self.require_copied()
        self.require_agreed()

    def test_the_newest_copy_that_is_sound(self) -> None:
        shutil.copy(self.copy(1), self.path("older"))
        self.more()
        self.add()
        change(self.copy(0), self.read(self.copy(0)).index(self.read(os.path.join(self.source, "d0", "e0", "file 2.bin"))))
        shutil.copy(self.path("older"), self.copy(1))
        damaged = self.read(self.image())
        change(self.image(), len(damaged) - 3 * BLOCK)
        self.lose()
        done = self.do("repair", "T-000001", status=1)
        lost = [line["message"] for line in done.objects() if line["did"] == "failed" and line["message"].endswith("is on no copy: add it again")]
        self.assertEqual(len(lost), 20)
        self.assertIn("the newest copy, on " + self.folders[1], done.errors)
        # They are stored again, and the copies go on.
        self.assertEqual(self.add(status=None).last()["files"], 20)
        self.assertEqual(self.get_all(), digests(self.source))
        self.do("repair", "T-000001")
        self.do("check", "--remotes")
        self.require_agreed()

    def test_a_damaged_image_is_kept(self) -> None:
        with open(self.image(), "r+b") as file:
            file.seek(-BLOCK, os.SEEK_END)
            file.write(os.urandom(BLOCK))
        spoilt = self.read(self.image())
        self.add(status=1)
        self.do("repair", "T-000001")
        (kept,) = [name for name in os.listdir(os.path.join(self.archive, "open")) if name.startswith("T-000001.img.damaged-")]
        self.assertEqual(self.read(os.path.join(self.archive, "open", kept)), spoilt)
        self.assertEqual(self.get_all(), digests(self.source))
        self.require_copied()

    def test_damaged_copies(self) -> None:
        change(self.copy(0), 700_000)
        os.unlink(self.copy(1))
        done = self.do("repair", "T-000001")
        self.assertEqual(done.last()["repaired"], 1)
        (kept,) = [name for name in os.listdir(self.folders[0]) if ".damaged-" in name]
        self.assertNotEqual(self.read(os.path.join(self.folders[0], kept)), self.read(self.image()))
        os.unlink(os.path.join(self.folders[0], kept))
        self.require_copied()
        # A volume of another archive has its name.
        change(self.copy(0), 32 * BLOCK + 30)
        other = self.read(self.copy(0))
        self.assertIn("begins as another volume", self.do("repair", "T-000001", status=1).errors)
        self.assertEqual(self.read(self.copy(0)), other)

    def test_no_copy(self) -> None:
        for index in range(2):
            os.unlink(self.copy(index))
        self.lose()
        self.assertIn("no copy is good", self.do("repair", status=1).errors)
        self.assertEqual(os.listdir(os.path.join(self.archive, "open")), [name for name in os.listdir(os.path.join(self.archive, "open")) if "ledger" in name])

    def test_the_folder_is_lost(self) -> None:
        self.more()
        self.add()
        before = digests(self.source)
        write(os.path.join(self.source, "late"), b"late")
        self.add("--no-copy")
        shutil.rmtree(self.archive)
        self.init("--copies", *self.folders, "--capacity", "20000")
        self.do("rebuild")
        self.do("repair")
        found = self.get_all()
        self.assertEqual(found, before)
        self.assertEqual(self.add().last()["files"], 1)
        self.assertEqual(self.get_all(), digests(self.source))
        self.require_copied()
        self.do("close")
        self.do("check", "--remotes", "--data")
        self.require_agreed()


class Deletes(WithOpen):
    """`delete = "copied"` is enough once this run has read the bytes in the copies."""

    def require_left(self, count: int, why: str) -> None:
        done = self.add("--delete-source", status=None)
        self.assertEqual(len(digests(self.source)), count, done.errors)
        self.assertTrue(all(why in line["message"] for line in done.objects() if line["did"] == "stays"), done.output)

    def test_sources_go_at_once(self) -> None:
        self.more()
        before = digests(self.source)
        last = self.add("--delete-source").last()
        self.assertEqual((last["deleted"], last["kept"], digests(self.source)), (50, 0, {}))
        self.require_copied()
        self.assertEqual(self.get_all(), before)
        # They were there for the copies alone too.
        os.unlink(self.image())
        self.do("repair")
        self.assertEqual(self.get_all(), before)

    def test_parts_on_several_volumes(self) -> None:
        write(os.path.join(self.source, "big"), os.urandom(45_000_000))
        before = digests(self.source)
        self.add("--delete-source")
        self.assertGreater(len(self.volumes()), 1)
        self.assertEqual(digests(self.source), {})
        self.assertEqual(self.get_all(), before)

    def test_not_without_the_bytes(self) -> None:
        data = self.read(os.path.join(self.source, "d0", "e0", "file 2.bin"))
        change(self.copy(1), self.read(self.copy(1)).index(data) + 5)
        self.require_left(1, "until T-000001 is on 2 remotes; the copy on")
        self.more()
        # It grows no more, so what is new is not there.
        self.require_left(21, "until T-000001 is on 2 remotes; ")
        self.do("repair", "T-000001")
        self.require_left(0, "")

    def test_not_without_a_copy(self) -> None:
        self.more()
        self.add("--no-copy", "--delete-source")
        self.assertEqual(len(digests(self.source)), 50)
        os.rename(self.folders[1], self.folders[1] + " away")
        self.require_left(50, "is not there: mount it")
        os.mkdir(self.folders[1])
        self.require_left(50, "its disk is not mounted")
        os.rmdir(self.folders[1])
        os.symlink(self.folders[0], self.folders[1])
        self.require_left(50, "")
        os.unlink(self.folders[1])
        os.rename(self.folders[1] + " away", self.folders[1])
        os.unlink(self.copy(1))
        os.link(self.copy(0), self.copy(1))
        self.require_left(50, "is the file of the image, or of another copy")
        os.unlink(self.copy(1))
        self.require_left(0, "")

    def test_one_of_two_is_wanted(self) -> None:
        toml = os.path.join(self.archive, "archive.toml")
        write(toml, self.read(toml).replace(b"copies_wanted = 2", b"copies_wanted = 1"))
        shutil.rmtree(self.folders[0])
        self.add("--delete-source", status=None)
        self.assertEqual(digests(self.source), {})


class Adopted(WithOpen):
    def test_from_a_copy(self) -> None:
        """Another folder takes the volume over where nothing but copies is left of it."""
        other = self.path("second")
        shutil.copytree(self.archive, other)
        toml = os.path.join(other, "archive.toml")
        text = self.read(toml).decode()
        number = text.index('id = "') + len('id = "')
        write(toml, (text[:number] + "f" + text[number + 1 :]).encode())
        for name in os.listdir(os.path.join(other, "open")):
            os.unlink(os.path.join(other, "open", name))
        shutil.rmtree(os.path.join(self.archive, "open"))
        done = self.run_in(other, "adopt", "T-000001")
        self.assertEqual(done.last()["files"], 30)
        self.assertEqual(self.get_all(other), digests(self.source))
        self.more()
        self.run_in(other, "add", self.source, "--at", "/s")
        self.assertEqual(self.get_all(other), digests(self.source))
        self.assertEqual(self.read(self.copy()), self.read(os.path.join(other, "open", "T-000001.img")))
