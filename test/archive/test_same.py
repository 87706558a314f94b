"""Nothing is stored twice: a file whose bytes the archive has gets a line that says where they are, and is given back from there."""

from __future__ import annotations

import os
import random
import shutil
import sqlite3
import subprocess
import sys
import unittest
from contextlib import closing
from typing import List, Set

from .servers import Server, driver, programs
from .support import PACKAGE, UDFBURN, Digests, Done, WithArchive, digests, make_tree, write
from .test_deletions import ODD, WithTree

sys.path.insert(0, PACKAGE)

from udfburn.archive.catalogue import Catalogue  # noqa: E402
from udfburn.archive.config import read  # noqa: E402
from udfburn.archive.contents import Contents  # noqa: E402

PHOTO = random.Random(5).randbytes(70_000)
BIG = random.Random(6).randbytes(2_300_000)


class WithMoved(WithArchive):
    """A tree that was stored, and then moved."""

    def moved(self, name: str = "moved") -> str:
        """Moves the source, which is the same tree at another path then."""
        os.rename(self.source, self.path(name))
        self.source = self.path(name)
        return self.source

    def add_at(self, path: str, *words: str, status: int = 0) -> Done:
        return self.do("add", self.source, "--at", path, *words, status=status)

    def got(self, path: str, *words: str) -> Digests:
        """What the archive gives back below a path."""
        folder = self.path(f"back-{len(os.listdir(self.room))}")
        self.do("get", path, folder, *words)
        return digests(os.path.join(folder, path.strip("/").split("/")[-1]))

    def lose_catalogue(self) -> None:
        for name in os.listdir(self.archive):
            if name.startswith("catalogue"):
                os.unlink(os.path.join(self.archive, name))

    def told(self, done: Done, kind: str) -> Set[str]:
        return {str(line["path"]) for line in done.objects() if line.get("did") == kind and "path" in line}

    def image(self, number: int, folder: str = "closed") -> str:
        return self.path("archive", folder, f"T-{number:06}.img")

    def node(self, image: str, folder: str) -> List[bytes]:
        """The texts of a folder of a volume."""
        with closing(Contents(image)) as contents:
            return [contents.bytes_of(node) for path, node in sorted(contents.nodes.items()) if len(path) == 2 and path[0] == folder]


class Moved(WithMoved, WithTree):
    def test_a_moved_tree(self) -> None:
        """Nothing of it is stored again, in the catalogue and on the volumes, and all commands know it."""
        write(os.path.join(self.source, "photo.jpg"), PHOTO)
        for name in ODD:
            with open(os.path.join(os.fsencode(self.source), name), "wb") as file:
                file.write(name)
        before = digests(self.source)
        self.add()
        self.do("close")
        first = self.moment()
        self.moved()
        done = self.add_at("/m/new", "--deletions", "--verbose")
        # The old paths are another folder's.
        self.assertEqual((done.last()["files"], done.last()["same_as"], done.last()["gone"]), (0, len(before), 0))
        self.assertEqual(len(self.told(done, "same as")), len(before))
        self.assertLess(os.path.getsize(self.image(2, "open")), 300 * 2048 + 25_000)
        self.require_known(before)
        self.assertEqual(self.add_at("/m/new").last()["same"], len(before))
        self.assertEqual(self.do("diff", self.source, "--at", "/m/new").last()["same"], len(before))
        self.assertEqual(self.as_of(first), before)
        self.assertEqual(set(self.listed()), {f"{top}/{shown}" for top in ("/s", "/m/new") for shown in map(self.text, before)})
        self.do("close")
        self.do("check", "--data")
        self.require_known(before)
        # Made anew of the volumes, in whichever order they come.
        for names in ((), (self.image(2), self.image(1))):
            self.lose_catalogue()
            if names:
                os.mkdir(self.path("apart"))
                for image in names:
                    shutil.move(image, self.path("apart"))
                apart = [self.path("apart", os.path.basename(image)) for image in names]
                self.do("rebuild", *apart)
                for image, there in zip(names, apart):
                    shutil.move(there, image)
            else:
                self.do("rebuild")
            self.require_known(before)
            self.require_agreed()
            self.assertNotIn("mended", [line["did"] for line in self.do("rebuild").objects()])

    def text(self, name: bytes) -> str:
        return os.fsdecode(name).encode(errors="surrogateescape").decode(errors="backslashreplace")

    def require_known(self, before: Digests) -> None:
        self.assertEqual(self.got("/m/new"), before)
        self.assertEqual(self.do("find", "photo.*").last()["files"], 2)
        self.assertEqual(self.do("find", "/m/new/*").last()["files"], len(before))
        self.assertEqual(self.do("find", "*hot*").last()["files"], 2)
        (place,) = self.do("where", "/m/new/photo.jpg").objects()[:-1]
        self.assertEqual((place["volume"], place["as"], place["noted"]["volume"]), ("T-000001", "/s/photo.jpg", "T-000002"))
        (line,) = [row for row in self.rows() if row["path"] == "/m/new/photo.jpg"]
        self.assertEqual((line["places"][0]["volume"], line["places"][0]["as"]), ("T-000001", "/s/photo.jpg"))
        self.assertEqual(self.mounted(b"latest"), {f"{top}/{os.fsdecode(name)}" for top in ("/s", "/m/new") for name in before})

    def test_a_tree_that_moves_within_what_is_added(self) -> None:
        """The old paths are gone, and the new ones there; and both as they were at each moment."""
        self.add()
        first, before = self.moment(), digests(self.source)
        os.rename(os.path.join(self.source, "folder"), os.path.join(self.source, "named otherwise"))
        done = self.add("--deletions")
        self.assertEqual((done.last()["files"], done.last()["same_as"], done.last()["gone"]), (0, 2, 2))
        after = digests(self.source)
        self.assertEqual((self.get_all(), self.as_of(first)), (after, before))
        self.assertEqual(self.mounted(b"latest"), self.listed())
        # And back again: those that were there count as there.
        second = self.moment()
        os.rename(os.path.join(self.source, "named otherwise"), os.path.join(self.source, "folder"))
        done = self.add("--deletions")
        self.assertEqual((done.last()["files"], done.last()["same_as"], done.last()["gone"], done.last()["back"]), (0, 0, 2, 2))
        self.assertEqual((self.get_all(), self.as_of(first), self.as_of(second)), (before, before, after))
        self.lose_catalogue()
        self.do("rebuild")
        self.assertEqual((self.get_all(), self.as_of(first), self.as_of(second)), (before, before, after))
        self.require_agreed()

    def test_another_time(self) -> None:
        """As after a touch, or on a file system whose clock changed."""
        self.add()
        first, before = self.moment(), digests(self.source)
        for at, _, names in os.walk(self.source):
            for name in names:
                os.utime(os.path.join(at, name), (1_700_003_600, 1_700_003_600))
        done = self.add("--trust-times")
        self.assertEqual((done.last()["files"], done.last()["same_as"]), (0, len(before)))
        self.assertEqual((self.get_all(), self.as_of(first)), (digests(self.source), before))
        self.assertEqual(len(self.do("history", "/s/folder/two").objects()[:-1]), 2)
        self.assertEqual(self.add("--trust-times").last()["same"], len(before))
        # A third time is of the stored bytes too, and not of the line.
        os.utime(os.path.join(self.source, "folder", "two"), (1_700_007_200, 1_700_007_200))
        self.assertEqual(self.add("--trust-times").last()["same_as"], 1)
        places = [line["places"][0]["commit"] for line in self.do("history", "/s/folder/two").objects()[:-1]]
        self.assertEqual((len(places), len(set(places))), (3, 1))
        # The volume says it in plain words.
        text = self.node(self.image(1, "open"), "same")[-1].decode()
        self.assertIn(f" 1 1700007200000000 /s/folder/two\n  the same as T-000001, commit {places[0]}: data/s/folder/two\n", text)


class Alike(WithMoved):
    def setUp(self) -> None:
        super().setUp()
        self.init()

    def test_equal_files_of_one_run(self) -> None:
        """The first is stored, and the others are the same as that one."""
        for name in ("a/one", "b/two", "b/three"):
            write(os.path.join(self.source, name), PHOTO)
        write(os.path.join(self.source, "c"), PHOTO[::-1])
        write(os.path.join(self.source, "empty"), b"")
        write(os.path.join(self.source, "also empty"), b"")
        would = self.add("--dry-run")
        self.assertEqual((would.last()["files"], would.last()["same_as"], would.last()["bytes"]), (4, 2, 2 * len(PHOTO)))
        done = self.add()
        self.assertEqual((done.last()["files"], done.last()["same_as"], done.last()["bytes"]), (4, 2, 2 * len(PHOTO)))
        (stored,) = self.told(done, "stored") & {"/s/a/one", "/s/b/two", "/s/b/three"}
        lines = [line for line in done.objects() if line["did"] == "same as"]
        self.assertEqual({line["as"] for line in lines}, {stored})
        steps = [(line["did"], line.get("path")) for line in done.objects()]
        self.assertLess(steps.index(("stored", stored)), steps.index(("same as", lines[0]["path"])))
        self.assertEqual(self.get_all(), digests(self.source))
        self.require_agreed()

    def test_a_first_that_is_not_stored(self) -> None:
        """What waited for it is stored itself."""
        for name in ("a", "b", "c"):
            write(os.path.join(self.source, name), PHOTO)
        fails = """
import sys
from udfburn.archive import job
from udfburn.base.errors import SourceError
real = job.VolumeJob.operations
failed = []
def operations(self):
    if not failed:
        failed.append(self.source.path)
        self.fail("a disk that fails")
        return
    yield from real(self)
job.VolumeJob.operations = operations
from udfburn.archive.cli import main
sys.exit(main(sys.argv[1:]))
"""
        words = [sys.executable, "-c", fails, "add", self.source, "--at", "/s", "--archive", self.archive, "--json"]
        done = subprocess.run(words, env={**os.environ, "PYTHONPATH": PACKAGE, "UDFBURN": UDFBURN}, capture_output=True, text=True, check=False)
        self.assertEqual(done.returncode, 1, done.stderr)
        last = Done(1, done.stdout, done.stderr).last()
        self.assertEqual((last["files"], last["same_as"], len(last["failures"])), (1, 1, 1))
        self.assertEqual(self.add().last()["same_as"], 1)
        self.assertEqual(self.get_all(), digests(self.source))

    def test_again(self) -> None:
        write(os.path.join(self.source, "a"), PHOTO)
        self.add()
        write(os.path.join(self.source, "b"), PHOTO)
        self.assertEqual(self.add().last()["same_as"], 1)
        # Also a file that has a line; and one that has its own bytes is stored once.
        done = self.add("--again")
        self.assertEqual((done.last()["files"], done.last()["same_as"], done.last()["same"]), (1, 0, 1))
        self.assertEqual(self.add("--again").last()["same"], 2)
        write(os.path.join(self.source, "c"), PHOTO)
        self.assertEqual(self.do("add", self.source, "--at", "/s", "--again", "--dry-run").last()["files"], 1)
        self.assertEqual(self.add("--again").last()["files"], 1)
        self.assertEqual(self.get_all(), digests(self.source))
        self.require_agreed()

    def test_a_file_in_parts(self) -> None:
        """Its bytes are on two volumes, and so are the places of its line; also after one of them is away."""
        self.lose_archive()
        self.init("--capacity", "1700")
        write(os.path.join(self.source, "big"), BIG)
        self.add()
        self.do("close")
        self.moved()
        done = self.add_at("/m")
        self.assertEqual((done.last()["files"], done.last()["same_as"]), (0, 1))
        self.assertEqual(self.got("/m"), digests(self.source))
        places = self.do("where", "/m/big").objects()[:-1]
        self.assertEqual([place["as"] for place in places], ["/s/big"] * len(places))
        self.assertGreater(len({place["volume"] for place in places}), 1)
        self.do("close")
        self.lose_catalogue()
        os.rename(self.image(2), self.path("away.img"))
        done = self.do("rebuild")
        self.assertEqual([line["path"] for line in done.objects() if line["did"] == "without bytes"], ["/m/big"])
        self.assertIn("/m/big", {row["path"] for row in self.rows()})
        self.assertEqual(self.do("get", "/m", self.path("none"), status=1).last()["lacking"], ["T-000002"])
        os.rename(self.path("away.img"), self.image(2))
        self.do("rebuild")
        self.assertEqual(self.got("/m"), digests(self.source))
        self.require_agreed()

    def lose_archive(self) -> None:
        shutil.rmtree(self.archive)

    def test_the_bag_of_a_volume_of_lines(self) -> None:
        """A volume may have nothing but lines. It is closed, copied and counted as the others, and its text is a tag file."""
        write(os.path.join(self.source, "a"), PHOTO)
        self.add()
        self.do("close")
        self.moved()
        self.add_at("/m")
        self.assertEqual([volume["files"] for volume in self.volumes()], [1, 1])
        self.do("close")
        with closing(Contents(self.image(2))) as contents:
            manifest, tags = contents.bytes_of(contents.nodes["manifest-sha256.txt",]), contents.bytes_of(contents.nodes["tagmanifest-sha256.txt",])
            (text,) = [path for path in contents.nodes if path[:1] == ("same",) and len(path) == 2]
            oxum = contents.bytes_of(contents.nodes["bag-info.txt",])
        self.assertEqual(manifest, b"")
        self.assertIn("/".join(text).encode(), tags)
        self.assertIn(b"Payload-Oxum: 0.0\n", oxum)
        os.unlink(self.image(2))
        self.assertEqual([volume["volume"] for volume in self.volumes() if volume["lost"]], ["T-000002"])

    def test_many_lines(self) -> None:
        """Texts end at a size, and one transaction has the lines of each."""
        make_tree(self.source, 300, 9, most=40, a_folder=100)
        before = digests(self.source)
        self.add()
        self.moved()
        done = self.add_at("/m")
        self.assertEqual(done.last()["same_as"] + done.last()["files"], len(before))
        self.assertEqual(self.got("/m"), before)

    def test_a_page(self) -> None:
        write(os.path.join(self.source, "a"), PHOTO)
        self.add()
        self.moved()
        self.add_at("/m")
        self.do("report", self.path("page.html"))
        with open(self.path("page.html"), encoding="utf-8") as file:
            text = file.read()
        self.assertIn('"same":{"1":"the same as /s/a, T-000001 commit', text)


class Bad(WithMoved):
    """Bytes that are not there any more."""

    def setUp(self) -> None:
        super().setUp()
        self.init("--delete", "acknowledged")
        write(os.path.join(self.source, "a"), PHOTO)
        self.add()
        self.do("close")
        self.moved()
        self.add_at("/m")
        self.do("close")

    def spoil(self, image: str) -> None:
        """Changes the bytes of the photo on an image."""
        os.chmod(image, 0o600)
        with open(image, "r+b") as file:
            data = file.read()
            file.seek(data.index(PHOTO[:2048]) + 100)
            file.write(b"other")

    def test_a_volume_that_is_retired(self) -> None:
        os.unlink(self.image(1))
        self.assertEqual(self.do("retire", "T-000001").last()["others"], 1)
        done = self.do("status", "--check", status=1)
        self.assertIn("/m/a: its bytes were stored on T-000001, which is retired", done.errors)
        self.assertEqual(self.do("get", "/m", self.path("none"), status=1).last()["lacking"], ["T-000001"])
        self.assertEqual(self.add_at("/m", "--dry-run").last()["files"], 1)
        done = self.add_at("/m")
        self.assertEqual((done.last()["files"], done.last()["same_as"]), (1, 0))
        self.assertEqual(self.got("/m"), digests(self.source))
        self.do("status", "--check", status=None)
        self.assertNotIn("its bytes were stored on", self.do("status", status=None).output)

    def test_a_volume_with_the_line_that_is_retired(self) -> None:
        os.unlink(self.image(2))
        self.do("retire", "T-000002")
        done = self.add_at("/m")
        self.assertEqual((done.last()["files"], done.last()["same_as"]), (0, 1))

    def test_a_volume_that_is_damaged(self) -> None:
        self.spoil(self.image(1))
        self.do("check", status=1)
        # What has a line is looked at where its bytes are, and is stored again; and no line names such a volume.
        done = self.add_at("/m")
        self.assertEqual((done.last()["files"], done.last()["same_as"]), (1, 0))
        self.assertEqual(self.got("/m"), digests(self.source))
        self.assertIn("SHA-256", self.do("get", "/s", self.path("none"), status=1).errors)

    def test_a_volume_that_is_lost(self) -> None:
        os.unlink(self.image(1))
        write(os.path.join(self.source, "b"), PHOTO)
        done = self.add_at("/m")
        self.assertEqual((done.last()["files"], done.last()["same_as"], done.last()["same"]), (1, 0, 1))
        # One that was put away counts.
        self.do("put-away", "T-000001", "the shelf")
        self.moved("third")
        self.assertEqual(self.do("add", self.source, "--at", "/third").last()["same_as"], 2)

    def test_nothing_goes_whose_bytes_are_not_seen(self) -> None:
        self.spoil(self.image(1))
        done = self.add_at("/m", "--delete-source")
        self.assertEqual((done.last()["deleted"], done.last()["kept"]), (0, 1))
        self.assertEqual(os.listdir(self.source), ["a"])

    def test_nothing_goes_whose_line_is_not_seen(self) -> None:
        os.chmod(self.image(2), 0o600)
        with open(self.image(2), "r+b") as file:
            data = file.read()
            file.seek(data.index(b"  the same as T-000001"))
            file.write(b"  the same as T-000003")
        done = self.add_at("/m", "--delete-source")
        self.assertEqual((done.last()["deleted"], done.last()["kept"]), (0, 1))

    def test_what_is_seen_goes(self) -> None:
        write(os.path.join(self.source, "b"), PHOTO)
        before = digests(self.source)
        done = self.add_at("/m", "--delete-source")
        self.assertEqual((done.last()["deleted"], done.last()["same_as"]), (2, 1))
        self.assertEqual((digests(self.source), self.got("/m")), ({}, before))

    def test_a_file_that_is_taken_off(self) -> None:
        """A line whose bytes an open volume lost is named, and its source is stored again."""
        write(os.path.join(self.source, "b"), PHOTO[::-1])
        self.add_at("/m")
        write(os.path.join(self.source, "c"), PHOTO[::-1])
        self.assertEqual(self.add_at("/m").last()["same_as"], 1)
        with open(self.image(3, "open"), "r+b") as file:
            data = file.read()
            file.seek(data.index(PHOTO[::-1][:2048]) + 100)
            file.write(b"other")
        done = self.do("close", "--without-damaged", "T-000003")
        self.assertEqual(self.told(done, "lacks"), {"/m/c"})
        self.assertIn("/m/c: its bytes were stored on T-000003", self.do("status", "--check", status=1).errors)
        done = self.add_at("/m")
        self.assertEqual((done.last()["files"], done.last()["same_as"]), (1, 1))
        self.assertEqual(self.got("/m"), digests(self.source))


    def test_a_volume_that_this_run_does_not_use(self) -> None:
        """No line names a volume that may be damaged."""
        write(os.path.join(self.source, "b"), PHOTO[::-1])
        self.add_at("/m")
        os.truncate(self.image(3, "open"), 2048 * 300)
        write(os.path.join(self.source, "c"), PHOTO[::-1])
        done = self.add_at("/m", status=1)
        self.assertEqual((done.last()["files"], done.last()["same_as"]), (1, 0))

    def test_check_compares_lines(self) -> None:
        """What the catalogue says of a line has to be on its volume."""
        self.do("check", "--data")
        with closing(sqlite3.connect(os.path.join(self.archive, "catalogue.sqlite"))) as base, base:
            base.execute("UPDATE same SET target = target + 1")
        self.assertIn("T-000002: /m/a is not as it was stored", self.do("check", "--data", "T-000002", status=1).errors)
        # The catalogue is not the truth.
        done = self.do("rebuild")
        self.assertEqual(done.last()["differences"], 2)
        self.do("check", "--data", "T-000002")

    def test_an_older_copy(self) -> None:
        """A volume that is brought back from a copy which lacks a line: it is named."""
        copies = self.path("copies")
        os.mkdir(copies)
        self.do("remote", "add", copies, "--same-device")
        write(os.path.join(self.source, "b"), PHOTO)
        self.add_at("/m")
        write(os.path.join(self.source, "c"), PHOTO)
        self.add_at("/m", "--no-copy")
        os.unlink(self.image(3, "open"))
        done = self.do("repair", status=1)
        self.assertIn("/m/c is on no copy: add it again", done.errors)
        self.assertNotIn("/m/b is on no copy", done.errors)
        self.assertEqual(self.add_at("/m").last()["same_as"], 1)
        self.assertEqual(self.got("/m"), digests(self.source))


class Copied(WithMoved):
    def test_the_copies_have_bytes_and_line(self) -> None:
        """With `delete = "copied"` a source goes once copies have both."""
        copies = self.path("copies")
        os.mkdir(copies)
        self.init("--copies", copies)
        write(os.path.join(self.source, "a"), PHOTO)
        self.add()
        self.do("close")
        self.moved()
        self.assertEqual(self.add_at("/m", "--delete-source", "--no-copy").last()["deleted"], 0)
        copy = os.path.join(copies, "T-000002.img")
        self.assertFalse(os.path.exists(copy))
        self.assertEqual(self.add_at("/m", "--delete-source").last()["deleted"], 1)
        self.assertIn(b"/m/a\n  the same as T-000001", self.node(copy, "same")[0])


@unittest.skipUnless(programs() and driver(), "PostgreSQL is not installed")
class OnServer(WithMoved):
    def test_machines_on_one_catalogue(self) -> None:
        """The bytes are on a volume of one machine, and the line on one of another; as the catalogue of a server has it."""
        server = Server(self)
        url = server.new_base("archive")
        one, two = self.path("one"), self.path("two")
        for folder in (one, two):
            self.init("--catalogue", url, archive=folder)
        make_tree(self.source, 12, 3)
        write(os.path.join(self.source, "photo.jpg"), PHOTO)
        self.run_in(one, "add", self.source, "--at", "/s")
        before = digests(self.source)
        self.moved()
        done = self.run_in(two, "add", self.source, "--at", "/m")
        self.assertEqual((done.last()["files"], done.last()["same_as"]), (0, len(before)))
        self.archive = one
        self.assertEqual(self.do("find", "photo*").last()["files"], 2)
        self.assertEqual(self.do("find", "/m/*").last()["files"], len(before))
        self.assertEqual(self.got("/m"), before)
        self.assertEqual(self.run_in(two, "get", "/m", self.path("none"), status=1).last()["lacking"], ["T-000001"])
        self.require_agreed(two)
        self.require_agreed(one)
        # What goes from one volume while the other one's line is written is not acknowledged.
        self.require_race(two)

    def require_race(self, two: str) -> None:
        with Catalogue(read(two)) as catalogue:
            from udfburn.archive.same_rows import kept_files

            (held,) = [row for row in catalogue.of_path(("s", "photo.jpg"))]
            with catalogue.base.transaction():
                self.assertEqual(kept_files(catalogue.base, {held.target(), 17}), {held.target()})
            row = catalogue.volume(held.volume)
            assert row is not None
            catalogue.save(row._replace(trouble="is damaged"))
            with catalogue.base.transaction():
                self.assertEqual(kept_files(catalogue.base, {held.target()}), set())

