"""Bytes that change on an open volume: they are found before the volume is closed, no source goes for them, and what is whole is kept."""

from __future__ import annotations

import mmap
import os
import shutil
import sqlite3
import stat
import sys
from contextlib import closing
from typing import List

from .support import PACKAGE, WithArchive, change, change_in, digests, make_tree, write

sys.path.insert(0, PACKAGE)

from udfburn.archive.job import VolumeJob, digest_of  # noqa: E402
from udfburn.archive.scan import Walk  # noqa: E402
from udfburn.archive.tree import PlannedTree  # noqa: E402


class Damage(WithArchive):
    def setUp(self) -> None:
        super().setUp()
        self.data = os.urandom(2_500_000)
        self.big = os.path.join(self.source, "big")

    def image(self, number: int) -> str:
        return self.path("archive", "open", f"T-{number:06}.img")

    def change(self, number: int, data: bytes) -> None:
        """Changes a byte of an image, at the place of some bytes of a file."""
        change_in(self.image(number), data[:64])

    def names_of(self, failures: List[str]) -> List[str]:
        return [name for name in ("big", "file 3.bin") if any(name in failure for failure in failures)]

    def test_a_part_and_a_file_on_an_open_volume(self) -> None:
        self.init()
        make_tree(self.source, 20, 1)
        small = os.path.join(self.source, "d0", "e0", "file 3.bin")
        write(small, os.urandom(5000))
        write(self.big, self.data)
        self.add()
        before = digests(self.source)
        self.change(1, self.data[1_500_000:])
        with open(small, "rb") as file:
            self.change(1, file.read())
        done = self.do("check", "--data", "T-000001", status=1)
        self.assertEqual(self.names_of(done.last()["failures"]), ["big", "file 3.bin"])
        # The bag would say that they are well.
        self.assertIn("2 files are not as they were stored", self.do("close", status=1).errors)
        self.assertFalse(os.path.exists(self.path("archive", "closed", "T-000001.img")))
        last = self.add("--delete-source").last()
        self.assertEqual((last["deleted"], last["kept"]), (19, 2))
        taken = [line["path"] for line in self.do("close", "--without-damaged").objects() if line["did"] == "taken off"]
        self.assertEqual(sorted(taken), ["/s/big", "/s/d0/e0/file 3.bin"])
        self.require_agreed()
        self.assertEqual(self.do("check", "--data").last()["failures"], [])
        self.assertEqual(self.add("--delete-source").last()["files"], 2)
        self.assertEqual(digests(self.source), {})
        self.assertEqual(self.get_all(), before)
        self.require_agreed()

    def test_no_source_goes_for_a_volume_that_cannot_be_read(self) -> None:
        self.init()
        make_tree(self.source, 20, 1)
        self.add()
        before = digests(self.source)
        self.do("close")
        closed = self.path("archive", "closed", "T-000001.img")
        os.chmod(closed, 0o600)
        with open(closed, "r+b") as file:
            file.write(bytes(os.path.getsize(closed)))
        last = self.add("--delete-source").last()
        self.assertEqual((last["deleted"], last["kept"]), (0, 20))
        self.assertEqual(digests(self.source), before)

    def spoil(self, number: int) -> None:
        """Changes a byte that no file has, so that the program refuses the image."""
        change(self.image(number), os.path.getsize(self.image(number)) - 3 * 2048)

    def test_the_other_volumes_are_used(self) -> None:
        self.init("--capacity", "3000")
        for index in range(4):
            write(os.path.join(self.source, f"f{index}"), os.urandom(1_500_000))
        self.add()
        self.spoil(1)
        before, there = open(self.image(1), "rb").read(), digests(self.source)
        write(os.path.join(self.source, "more"), b"more")
        (first, second) = self.volumes()
        self.assertEqual([first["volume"], second["attention"]], ["T-000001", []])
        self.assertIn("its image is damaged", first["attention"][0])
        done = self.add("--delete-source", status=1)
        self.assertIn(f"{self.image(1)}: is damaged, and nothing is written to it", done.errors)
        # No source goes for what is on the damaged one.
        self.assertEqual([done.last()[name] for name in ("files", "same", "deleted", "kept")], [1, 4, 3, 2])
        self.assertIn("since T-000001 may be damaged", done.output)
        done = self.do("close", status=1)
        self.assertEqual(done.last()["closed"], 1)
        self.assertIn(f"{self.image(1)}: is damaged", done.errors)
        self.assertEqual(open(self.image(1), "rb").read(), before)
        self.assertEqual({path: there[path] for path in digests(self.source)}, digests(self.source))
        self.assertTrue(os.path.exists(self.path("archive", "closed", "T-000002.img")))

    def test_an_adoption_that_fails_leaves_what_was_there(self) -> None:
        self.init()
        write(self.big, self.data[:900_000])
        self.add()
        opened, good = self.path("archive", "open"), self.path("good.img")
        bad = {"is damaged": self.path("spoilt.img"), "is not what its ledger says": self.path("changed.img")}
        shutil.copy2(self.image(1), good)
        self.spoil(1)
        os.rename(self.image(1), bad["is damaged"])
        shutil.copy2(good, self.image(1))
        self.change(1, self.data)
        os.rename(self.image(1), bad["is not what its ledger says"])
        for is_there in (False, True):
            if is_there:
                shutil.copy2(good, self.image(1))
            before = digests(opened)
            for why, image in bad.items():
                self.assertIn(why, self.do("adopt", "T-000001", image, status=1).errors)
                self.assertEqual(digests(opened), before)
        os.unlink(self.image(1))
        self.do("adopt", "T-000001", good)
        write(os.path.join(self.source, "more"), b"more")
        self.add()
        self.assertEqual(self.get_all(), digests(self.source))
        self.require_agreed()

    def test_a_closed_volume_is_adopted_as_it_was_closed(self) -> None:
        self.init()
        write(self.big, self.data[:900_000])
        self.add()
        self.do("close")
        closed, good, changed = self.path("archive", "closed", "T-000001.img"), self.path("good.img"), self.path("changed.img")
        for copy in (good, changed):
            shutil.copyfile(closed, copy)
        change_in(changed, self.data[:64])
        os.unlink(closed)
        before = digests(self.path("archive", "closed"))
        self.assertIn("is not T-000001 as it was closed", self.do("adopt", "T-000001", changed, status=1).errors)
        self.assertEqual(digests(self.path("archive", "closed")), before)
        self.do("adopt", "T-000001", good)
        self.assertEqual(stat.S_IMODE(os.stat(closed).st_mode), 0o400)
        self.assertEqual(self.get_all(), digests(self.source))
        self.require_agreed()

    def test_the_last_commit(self) -> None:
        self.init()
        write(self.big, self.data[:900_000])
        self.add()
        self.change(1, self.data)
        write(os.path.join(self.source, "more"), b"more")
        self.assertIn("is not what its ledger says", self.add(status=1).errors)
        done = self.do("check", "--data", "T-000001", status=1)
        self.assertEqual(self.names_of(done.last()["failures"]), ["big"])
        self.assertIn("1 file is not as it was stored", done.errors)
        os.unlink(self.image(1)[: -len("img")] + "ledger")
        self.do("close", "--without-damaged")
        self.add()
        self.assertEqual(self.get_all(), digests(self.source))
        self.require_agreed()

    def test_a_part_of_a_file_on_several_volumes(self) -> None:
        remote = self.path("remote")
        os.mkdir(remote)
        self.init("--capacity", "4000", "--copies", remote)
        data = os.urandom(12_000_000)
        write(self.big, data)
        self.add("--no-copy")
        # A part of the second volume: whatever part that is, the first volume has those before it.
        (row,) = self.rows()
        first = next(place["first"] for place in row["places"] if place["volume"] == "T-000002")
        self.assertGreater(first, 0)
        self.change(2, data[first << 20 :])
        self.assertIn("/s/big", self.do("close", "T-000002", status=1).errors)
        # Without the ledger one volume alone does not show it, and all of them together do.
        os.unlink(self.image(2)[: -len("img")] + "ledger")
        self.do("close")
        self.assertEqual(self.names_of(self.do("check", "--data", status=1).last()["failures"]), ["big"])
        last = self.add("--delete-source").last()
        self.assertEqual((last["deleted"], last["kept"]), (0, 1))
        self.assertEqual(list(digests(self.source)), [b"big"])

    def with_a_damaged_part(self) -> bytes:
        """A file on several volumes, of which the second is closed and has its part damaged: the file's bytes."""
        self.init("--capacity", "4000")
        data = os.urandom(12_000_000)
        write(self.big, data)
        self.add()
        (row,) = self.rows()
        first = next(place["first"] for place in row["places"] if place["volume"] == "T-000002")
        self.do("close", "T-000002")
        change_in(self.path("archive", "closed", "T-000002.img"), data[first << 20 :][:64])
        return data

    def test_a_part_is_compared_with_the_manifest_of_its_volume(self) -> None:
        """The catalogue has no digest of a part: where one volume is read alone, its bag says which part is damaged."""
        self.with_a_damaged_part()
        done = self.do("check", "--data", "T-000002", status=1)
        self.assertEqual(self.names_of(done.last()["failures"]), ["big"])
        self.assertIn("1 file is not as it was stored", done.errors)

    def test_parts_that_an_earlier_run_stored_are_read(self) -> None:
        # The file goes from the first volume, and the second, which has the middle of it, is damaged.
        data = self.with_a_damaged_part()
        self.change(1, data)
        self.do("close", "--without-damaged", "T-000001")
        last = self.add("--delete-source").last()
        # All parts are stored again, and then the source goes.
        self.assertEqual((last["deleted"], list(digests(self.source))), (1, []))
        folder = self.path("back")
        self.do("get", "/s/big", folder)
        with open(os.path.join(folder, "big"), "rb") as file:
            self.assertEqual(file.read(), data)


class Catalogue(WithArchive):
    """A catalogue that takes no more files."""

    def test_nothing_is_reported_as_stored_that_the_catalogue_does_not_have(self) -> None:
        self.init("--delete", "acknowledged")
        make_tree(self.source, 20, 1)
        before = digests(self.source)
        with closing(sqlite3.connect(self.path("archive", "catalogue.sqlite"))) as base:
            base.execute("CREATE TRIGGER full BEFORE INSERT ON file BEGIN SELECT RAISE (ABORT, 'database or disk is full'); END")
        for told in (["opened", "failed", "add"], ["failed", "add"]):
            done = self.add("--delete-source", status=1)
            self.assertEqual([line["did"] for line in done.objects()], told)
            self.assertEqual(digests(self.source), before)
        with closing(sqlite3.connect(self.path("archive", "catalogue.sqlite"))) as base:
            base.execute("DROP TRIGGER full")
        done = self.add("--delete-source")
        self.assertEqual((done.last()["same"], done.last()["deleted"]), (20, 20))
        self.assertEqual(self.get_all(), before)


class Unreadable(WithArchive):
    """Files of which the disk gives no byte: their reads end with an error, as those of this file of the system do."""

    def setUp(self) -> None:
        super().setUp()
        self.copies = [self.path("one"), self.path("two")]
        for copy in self.copies:
            os.mkdir(copy)
        self.init("--copies", *self.copies)
        make_tree(self.source, 20, 1)
        self.add()
        self.do("close")

    def spoil(self, folder: str) -> None:
        """Has the image in a folder give an error when it is read."""
        image = os.path.join(folder, "T-000001.img")
        os.unlink(image)
        os.symlink("/proc/self/mem", image)

    def test_an_image_is_replaced_by_a_copy(self) -> None:
        before = digests(self.source)
        self.spoil(self.path("archive", "closed"))
        self.assertIn("repair T-000001", self.do("check", status=1).errors)
        self.assertEqual(self.do("repair").last()["repaired"], 1)
        self.assertEqual(self.do("check", "--remotes").last()["failures"], [])
        self.assertEqual(self.get_all(), before)

    def test_a_copy_is_replaced_by_the_image(self) -> None:
        self.spoil(self.copies[0])
        self.assertIn("repair T-000001", self.do("check", "--remotes", status=1).errors)
        self.assertEqual(self.add("--delete-source").last()["deleted"], 0)
        self.assertEqual(self.do("repair").last()["repaired"], 1)
        self.assertEqual(self.do("check", "--remotes").last()["failures"], [])
        self.assertEqual(self.add("--delete-source").last()["deleted"], 20)


class Mapped(WithArchive):
    """A file whose bytes change by a mapping, which may leave its size and its times as they are."""

    def test_a_file_in_parts(self) -> None:
        path = write(os.path.join(self.source, "large"), bytes(2_500_000))
        with open(path, "r+b") as file, mmap.mmap(file.fileno(), 0) as mapped:
            mapped[0] = 1
            (source,) = [found.files[0] for found in Walk(self.room).below(self.source, ("s",))]
            job = VolumeJob(source, digest_of(source), in_parts=True)
            self.assertTrue(job.plan(PlannedTree.empty(6000, 4096), False))
            mapped[0] = 2
            if os.stat(path).st_mtime_ns != source.identity.modified:
                self.skipTest("the times are others on this file system")
            sent = [operation for operation in job.operations() if operation.tag is not None and operation.tag[1]]
        self.assertEqual(len(sent), 2, "the last part makes it whole")
        self.assertIn("changed while it was read", job.failure or "")
