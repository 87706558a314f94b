"""Sources that are deleted: each is compared with bytes that are read, or asked for, in the same run, whatever the catalogue says."""

from __future__ import annotations

import os
import shutil
import subprocess
import sys
from typing import Dict, List

from .support import LARGE, PATIENCE, Done, WithArchive, await_programs, change, digests, environment, make_tree, write
from .test_crash import STEPS
from .test_remotes import WithRemotes

SPOILT = """
import os, sys
from udfburn.archive import delete
stored = delete.Deleter.stored
def spoilt(deleter, jobs):
    exec(os.environ["SPOIL"])
    stored(deleter, jobs)
delete.Deleter.stored = spoilt
from udfburn.archive.cli import main
sys.exit(main(sys.argv[1:]))
"""
"""Runs the command, and does something right before sources go that were stored just now."""

GONE = """
import os, sys
from udfburn.archive import delete
real = delete.delete
def first(source):
    real(source)
    for path in os.environ["IMAGES"].split(os.pathsep):
        if os.path.exists(path):
            open(path + ".other", "w").close()
            os.replace(path + ".other", path) if os.environ["OTHER"] else os.unlink(path)
delete.delete = first
from udfburn.archive.cli import main
sys.exit(main(sys.argv[1:]))
"""
"""Runs the command, and removes or replaces images once the first source is gone."""



class WithCopies(WithArchive):
    """A closed volume with two copies in folders."""

    DELETE = "acknowledged"

    def setUp(self) -> None:
        super().setUp()
        self.copies = [self.path("one"), self.path("two")]
        for copy in self.copies:
            os.mkdir(copy)
        self.init("--copies", *self.copies, "--delete", self.DELETE)
        make_tree(self.source, 12, 1)
        self.data = os.urandom(5000)
        write(os.path.join(self.source, "the one"), self.data)
        write(os.path.join(self.source, "big"), os.urandom(2_500_000))
        self.add()
        self.do("close")
        self.before = digests(self.source)
        self.image = self.path("archive", "closed", "T-000001.img")

    def copy(self, index: int) -> str:
        return os.path.join(self.copies[index], "T-000001.img")

    def spoil(self, image: str) -> None:
        """Changes a byte of one file's data."""
        with open(image, "rb") as file:
            place = file.read().index(self.data)
        change(image, place + 7)

    def require_left(self, names: List[bytes], why: str) -> Done:
        """Deletes, after which these sources are left, for a reason that is said."""
        done = self.add("--delete-source")
        self.assertEqual(sorted(digests(self.source)), sorted(names))
        self.assertEqual((done.last()["kept"], done.last()["deleted"]), (len(names), len(self.before) - len(names)))
        whys = [line["message"] for line in done.objects() if line["did"] == "stays"]
        self.assertEqual([text for text in whys if why not in text], [])
        self.assertEqual(bool(whys), bool(names))
        return done


class Acknowledged(WithCopies):
    def test_nothing_goes_where_image_and_copies_are_gone(self) -> None:
        for path in (self.image, self.copy(0), self.copy(1)):
            os.unlink(path)
        self.require_left(list(self.before), "T-000001 is not at hand")

    def test_the_image_is_read(self) -> None:
        self.spoil(self.image)
        self.require_left([b"the one"], "T-000001 does not have them as they were stored")

    def test_a_copy_is_read_where_the_image_is_gone(self) -> None:
        os.unlink(self.image)
        os.unlink(self.copy(0))
        self.spoil(self.copy(1))
        self.require_left([b"the one"], "two does not have them")
        shutil.rmtree(self.copies[1])
        self.assertEqual(self.add("--delete-source").last()["deleted"], 0)

    def test_images_that_go_meanwhile(self) -> None:
        """What is open can be read still, and is nowhere any more."""
        left = len(self.before)
        for other in ("yes", ""):
            room = {**environment(), "IMAGES": os.pathsep.join([self.image, self.copy(0), self.copy(1)]), "OTHER": other}
            kept = [shutil.copy(path, path + ".kept") for path in (self.image, self.copy(0), self.copy(1))]
            words = ["add", self.source, "--at", "/s", "--archive", self.archive, "--delete-source"]
            done = subprocess.run([sys.executable, "-c", GONE, *words], env=room, capture_output=True, text=True, timeout=PATIENCE)
            left -= 1
            self.assertEqual(len(digests(self.source)), left, done.stdout + done.stderr)
            for path in kept:
                os.replace(path, path[: -len(".kept")])

    def test_a_good_copy_is_enough(self) -> None:
        os.unlink(self.image)
        os.unlink(self.copy(0))
        self.require_left([], "")

    def test_an_image_that_cannot_be_read(self) -> None:
        os.chmod(self.image, 0o600)
        os.truncate(self.image, 5000)
        self.require_left(list(self.before), "does not have them as they were stored")
        # A file that is there, and gives an error of the disk when it is read.
        if os.geteuid() != 0 or subprocess.call(["mount", "--bind", f"/proc/{os.getpid()}/mem", self.image], stderr=subprocess.DEVNULL):
            self.skipTest("a file cannot be mounted here")
        self.addCleanup(subprocess.call, ["umount", "-l", self.image])
        self.require_left(list(self.before), "does not have them as they were stored")

    def test_no_regular_file_has_the_image_s_name(self) -> None:
        for leads_to in ("/proc/self/mem", self.copy(0), "nowhere", None):
            os.unlink(self.image)
            if leads_to is None:
                os.mkfifo(self.image)
            else:
                os.symlink(leads_to, self.image)
            self.require_left(list(self.before), "T-000001 has no regular file as its image: 'repair T-000001'")
        os.unlink(self.image)
        self.require_left([], "")

    def test_a_link_is_no_copy(self) -> None:
        os.unlink(self.copy(1))
        os.rename(self.copy(0), self.path("elsewhere"))
        os.symlink(self.path("elsewhere"), self.copy(0))
        os.unlink(self.image)
        self.require_left(list(self.before), "T-000001 is not at hand")


class Copied(WithCopies):
    """Where each copy counts."""

    DELETE = "copied"

    def test_each_copy_is_asked(self) -> None:
        os.unlink(self.copy(1))
        self.require_left(list(self.before), f"the copy on {self.copies[1]} is not there")

    def test_a_copy_that_was_cut(self) -> None:
        os.chmod(self.copy(0), 0o600)
        os.truncate(self.copy(0), os.path.getsize(self.image) - 2048)
        self.require_left(list(self.before), f"the copy on {self.copies[0]} has another length")

    def test_a_copy_that_became_the_image(self) -> None:
        os.unlink(self.copy(0))
        os.link(self.image, self.copy(0))
        self.require_left(list(self.before), "is the image itself")

    def test_a_copy_that_became_a_link_to_the_other(self) -> None:
        os.unlink(self.copy(0))
        os.symlink(self.copy(1), self.copy(0))
        self.require_left(list(self.before), f"{self.copy(0)}: is no regular file")

    def test_copies_that_are_one_file(self) -> None:
        os.unlink(self.copy(1))
        os.link(self.copy(0), self.copy(1))
        self.require_left(list(self.before), f"the copy on {self.copies[1]} is the file of another copy")
        os.unlink(self.copy(1))
        self.do("repair", "T-000001")
        self.require_left([], "")

    def test_a_disk_that_is_not_mounted(self) -> None:
        os.rename(self.copies[0], self.copies[0] + ".disk")
        os.mkdir(self.copies[0])
        self.require_left(list(self.before), "is not mounted")

    def test_all_is_well(self) -> None:
        self.require_left([], "")


class Asked(WithRemotes):
    """A volume that only remotes of rclone have: one says digests, the other has to be read."""

    def setUp(self) -> None:
        super().setUp()
        make_tree(self.source, 8, 1)
        self.add()
        self.do("close")
        for path in (self.image(1), os.path.join(self.copies()[0], "T-000001.img")):
            os.unlink(path)
        toml = self.path("archive", "archive.toml")
        with open(toml, encoding="utf-8") as file:
            text = file.read()
        write(toml, text.replace('"copied"\n', '"acknowledged"\n').encode())

    def deleted(self) -> int:
        self.asked = self.add("--delete-source")
        return int(self.asked.last()["deleted"])

    def test_a_remote_says_what_it_has(self) -> None:
        os.unlink(os.path.join(self.copies()[2], "T-000001.img"))
        change(os.path.join(self.copies()[1], "T-000001.img"), 100_000)
        self.assertEqual(self.deleted(), 0)
        (why,) = [line["message"] for line in self.asked.objects() if line["did"] == "stays"]
        self.assertIn("the copy on here:sub is not as it was closed", why)
        self.assertIn("the copy on dav:deep/er is not there", why)
        change(os.path.join(self.copies()[1], "T-000001.img"), 100_000)
        self.assertEqual(self.deleted(), 8)

    def test_a_remote_without_digests_is_read(self) -> None:
        os.unlink(os.path.join(self.copies()[1], "T-000001.img"))
        change(os.path.join(self.copies()[2], "T-000001.img"), 100_000)
        self.assertEqual(self.deleted(), 0)
        change(os.path.join(self.copies()[2], "T-000001.img"), 100_000)
        self.assertEqual(self.deleted(), 8)

    def test_a_remote_that_does_not_answer(self) -> None:
        os.environ["RCLONE_CONFIG"] = write(self.path("no.conf"), b"")
        self.assertEqual(self.deleted(), 0)
        self.assertIn("didn't find section in config file", self.asked.output)

    def test_each_remote_that_counts_is_asked(self) -> None:
        toml = self.path("archive", "archive.toml")
        with open(toml, encoding="utf-8") as file:
            text = file.read()
        write(toml, text.replace('"acknowledged"\n', '"copied"\n').replace("copies_wanted = 3", "copies_wanted = 2").encode())
        place = os.path.join(self.copies()[2], "T-000001.img")
        os.rename(place, place + ".away")
        self.assertEqual(self.deleted(), 0)
        self.assertIn("the copy on dav:deep/er is not there", self.asked.output)
        os.rename(place + ".away", place)
        self.assertEqual(self.deleted(), 8)


class Stored(WithArchive):
    """Sources of files that this run stored."""

    def add_spoilt(self, spoil: str) -> "Dict[bytes, object]":
        self.init("--delete", "acknowledged")
        make_tree(self.source, 12, 3)
        self.data = os.urandom(5000)
        write(os.path.join(self.source, "the one"), self.data)
        words = ("add", self.source, "--at", "/s", "--archive", self.archive, "--delete-source", "--json")
        room = {**environment(), "SPOIL": spoil, "IMAGE": self.path("archive", "open", "T-000001.img"), "DATA": self.data.hex()}
        done = subprocess.run([sys.executable, "-c", SPOILT, *words], env=room, capture_output=True, text=True, timeout=PATIENCE)
        self.output = done.stdout + done.stderr
        return dict(digests(self.source))

    SPOIL = """
image, data = os.environ["IMAGE"], bytes.fromhex(os.environ["DATA"])
with open(image, "r+b") as file:
    place = file.read().index(data)
    file.seek(place)
    file.write(bytes([data[0] ^ 1]))
"""

    def test_the_image_is_read_again(self) -> None:
        self.assertEqual(list(self.add_spoilt(self.SPOIL)), [b"the one"], self.output)
        self.assertIn("T-000001 does not have them as they were stored", self.output)

    def test_what_was_stored_after_a_volume_was_read(self) -> None:
        """The volume is read for a file that it has, and then gets another one."""
        self.init("--delete", "acknowledged")
        write(os.path.join(self.source, "a"), b"first")
        self.add()
        write(os.path.join(self.source, "b"), b"second")
        last = self.add("--delete-source").last()
        self.assertEqual((last["same"], last["files"], last["deleted"], last["kept"]), (1, 1, 2, 0))
        self.assertEqual(digests(self.source), {})

    def test_an_image_that_is_gone(self) -> None:
        left = self.add_spoilt('os.unlink(os.environ["IMAGE"])')
        self.assertEqual(len(left), 13)
        self.assertIn("T-000001 is not at hand", self.output)

    def test_an_image_that_another_takes_the_place_of(self) -> None:
        left = self.add_spoilt('open(os.environ["IMAGE"] + ".other", "w").close(); os.replace(os.environ["IMAGE"] + ".other", os.environ["IMAGE"])')
        self.assertEqual(len(left), 13, self.output)


class OnSeveral(WithArchive):
    """A file that takes two volumes is stored once both have their parts."""

    def setUp(self) -> None:
        super().setUp()
        self.init("--capacity", "3000", "--delete", "acknowledged")
        self.big = write(os.path.join(self.source, "big"), os.urandom(9_000_000))
        shutil.copytree(self.archive, self.path("kept"))
        shutil.copytree(self.source, self.path("kept source"))

    def test_no_kill_leaves_it_acknowledged_and_not_there(self) -> None:
        with open(self.big, "rb") as file:
            data = file.read()
        count, told = 0, 0
        while True:
            for folder, kept in ((self.archive, "kept"), (self.source, "kept source")):
                shutil.rmtree(folder)
                shutil.copytree(self.path(kept), folder)
            words = ["add", self.source, "--at", "/s", "--archive", self.archive, "--delete-source"]
            done = subprocess.run([sys.executable, "-c", STEPS, str(count), *words], env=environment(), capture_output=True, text=True, timeout=PATIENCE)
            await_programs(self.room)
            self.assertIn(done.returncode, (0, -9), done.stderr)
            if "stored /s/big" in done.stdout or not os.path.exists(self.big):
                told += 1
                folder = self.path(f"back {count}")
                self.do("get", "/s/big", folder)
                with open(os.path.join(folder, "big"), "rb") as file:
                    self.assertTrue(file.read() == data, count)
            if done.returncode == 0:
                break
            self.add("--delete-source")
            self.assertEqual(digests(self.source), {}, count)
            count += 1 if LARGE else 4
        self.assertGreater(count, 10)
        self.assertGreater(told, 0)

    def test_it_is_named_and_counted_once(self) -> None:
        done = self.add()
        self.assertEqual([line["path"] for line in done.objects() if line["did"] == "stored"], ["/s/big"])
        self.assertEqual((done.last()["files"], done.last()["bytes"]), (1, 9_000_000))
        self.assertGreater(len(self.volumes()), 1)


class InTheSource(WithCopies):
    def test_copies_are_no_source(self) -> None:
        """The folders for copies are below what is added: what is the archive's there is not stored, and never goes."""
        write(os.path.join(self.copies[1], "other"), b"other")
        os.symlink(self.copies[0], self.path("link"))
        before = {copy: set(digests(copy)) for copy in self.copies}
        done = self.do("add", self.room, "--at", "/room", "--delete-source", "--skip-odd")
        self.assertEqual((digests(self.source), done.last()["deleted"], done.last()["same_as"]), ({}, 15, 14))
        self.assertEqual(self.do("diff", self.room, "--at", "/room", status=1).last()["new"], 0)
        for copy in self.copies:
            self.assertLessEqual(before[copy] - {b"other"}, set(digests(copy)))
        self.assertEqual({row["path"] for row in self.rows() if row["path"].startswith(("/room/one", "/room/two"))}, {"/room/two/other"})
        self.assertEqual(self.get_all(), self.before)
        self.do("check", "--data", "--remotes")
