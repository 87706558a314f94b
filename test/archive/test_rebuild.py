"""Which archive a catalogue that was lost was of, and what a killed run has left."""

from __future__ import annotations

import fcntl
import os
import shutil
import subprocess
from typing import List

from .support import WithArchive, change_in, write


class Chosen(WithArchive):
    """Two archives with one label, whose volumes have come into one folder. The catalogue is lost."""

    def setUp(self) -> None:
        super().setUp()
        self.other = self.path("other")
        self.copies = self.path("copies")
        os.mkdir(self.copies)

    def fill(self, archive: str, volumes: int) -> None:
        """Makes and closes so many volumes."""
        for number in range(1, volumes + 1):
            write(os.path.join(self.source, "f"), b"%s %d" % (os.path.basename(archive).encode(), number))
            self.run_in(archive, "add", self.source, "--at", f"/{os.path.basename(archive)}/{number}")
            self.run_in(archive, "close")

    def lose(self) -> None:
        for name in os.listdir(self.archive):
            if name.startswith("catalogue"):
                os.unlink(os.path.join(self.archive, name))

    def image(self, archive: str, number: int) -> str:
        return os.path.join(archive, "closed", f"T-{number:06}.img")

    def id_of(self, archive: str) -> str:
        """The archive that a volume of it names."""
        done = subprocess.run(["strings", "-n", "20", self.image(archive, 1)], capture_output=True, text=True, check=True)
        return next(line for line in done.stdout.splitlines() if line.startswith("archive: "))[len("archive: "):]

    def kept(self) -> List[str]:
        return sorted(row["path"].split("/")[1] for row in self.rows())

    def test_most_volumes_say_it(self) -> None:
        """And not the first one."""
        self.init()
        self.init(archive=self.other)
        self.fill(self.archive, 3)
        self.fill(self.other, 1)
        shutil.move(self.image(self.archive, 1), self.path("away.img"))
        shutil.copy(self.image(self.other, 1), self.image(self.archive, 1))
        self.lose()
        done = self.do("rebuild", status=1)
        self.assertEqual(self.kept(), ["archive", "archive"])
        self.assertEqual(len(done.last()["failures"]), 1)
        self.assertIn("T-000001.img: belongs to another archive", done.last()["failures"][0])
        # The volume that was away is of the archive.
        shutil.move(self.path("away.img"), self.image(self.archive, 1))
        self.do("rebuild")
        self.assertEqual(self.kept(), ["archive"] * 3)

    def test_a_marker_says_it(self) -> None:
        """Whatever most of the volumes say."""
        self.init("--copies", self.copies)
        self.init(archive=self.other)
        self.fill(self.archive, 1)
        self.fill(self.other, 3)
        for number in (2, 3):
            shutil.copy(self.image(self.other, number), self.image(self.archive, number))
        self.lose()
        # What only has the name of a marker is none, and takes nothing from the others.
        os.mkdir(os.path.join(self.copies, f"udfburn-archive-{'0' * 36}.txt"))
        done = self.do("rebuild", status=1)
        self.assertEqual(self.kept(), ["archive"])
        self.assertEqual(len([line for line in done.last()["failures"] if "belongs to another archive" in line]), 2)
        self.do("close")

    def test_nothing_says_it(self) -> None:
        """Nothing is chosen, and nothing is changed."""
        self.init()
        self.init(archive=self.other)
        self.fill(self.archive, 1)
        self.fill(self.other, 2)
        shutil.copy(self.image(self.other, 2), self.image(self.archive, 2))
        self.lose()
        for words in ((), ("--dry-run",)):
            done = self.do("rebuild", *words, status=1)
            self.assertIn("as many volumes of the archive", done.errors)
            self.assertIn("move those away", done.errors)
        self.assertEqual(self.rows(), [])
        os.unlink(self.image(self.archive, 2))
        self.do("rebuild")
        self.assertEqual(self.kept(), ["archive"])

    def test_only_copies_are_there(self) -> None:
        """In a folder that has copies of another archive too."""
        self.init("--copies", self.copies)
        self.fill(self.archive, 2)
        id = self.id_of(self.archive)
        self.init(archive=self.other)
        self.fill(self.other, 1)
        shutil.rmtree(self.archive)
        shutil.move(os.path.join(self.copies, "T-000001.img"), self.path("away.img"))
        shutil.copy(self.image(self.other, 1), os.path.join(self.copies, "T-000001.img"))
        shutil.copy(self.path("away.img"), os.path.join(self.copies, "T-000003.img"))
        self.init("--copies", self.copies)
        self.do("rebuild", status=1)
        self.assertEqual(self.kept(), ["archive"])
        markers = [name for name in os.listdir(self.copies) if name.startswith("udfburn-archive-")]
        self.assertEqual(markers, [f"udfburn-archive-{id}.txt"])


class AsClosed(WithArchive):
    def catalogue(self, source: str, target: str) -> None:
        """Copies a catalogue from one folder to another, in the place of what is there."""
        for name in os.listdir(target):
            if name.startswith("catalogue"):
                os.unlink(os.path.join(target, name))
        for name in os.listdir(source):
            if name.startswith("catalogue"):
                shutil.copy(os.path.join(source, name), target)

    def test_what_the_catalogue_does_not_know(self) -> None:
        """It came from a backup, and the volume was filled and closed since: `close` takes it for closed no more than `add` does."""
        self.init()
        os.mkdir(self.path("backup"))
        write(os.path.join(self.source, "f"), b"1")
        self.add()
        self.catalogue(self.archive, self.path("backup"))
        write(os.path.join(self.source, "g"), b"2")
        self.add()
        self.do("close")
        self.catalogue(self.path("backup"), self.archive)
        for done in (self.do("close", status=1), self.add(status=1)):
            self.assertIn("older than the volumes: run 'udfburn-archive rebuild' first", done.errors)
        self.do("rebuild")
        self.assertEqual([row["path"] for row in self.rows()], ["/s/f", "/s/g"])
        self.assertEqual(self.add().last()["same"], 2)

    def test_what_only_the_catalogue_knows(self) -> None:
        """What a damaged image has now is not taken for what it had when it was closed, where nothing beside it says that."""
        os.mkdir(self.path("copies"))
        self.init("--copies", self.path("copies"))
        data = os.urandom(5000)
        write(os.path.join(self.source, "f"), data)
        self.add()
        self.do("close")
        image = os.path.join(self.archive, "closed", "T-000001.img")
        os.unlink(image[:-4] + ".info")
        self.do("rebuild")
        change_in(image, data)
        self.assertIn("has another SHA-256 than when it was closed", self.do("rebuild", status=1).errors)
        self.do("check", status=1)
        self.do("repair")
        self.do("rebuild")
        self.assertEqual(self.do("check", "--data", "--remotes").last()["copies"], 1)


class Left(WithArchive):
    def test_folders_that_killed_runs_left(self) -> None:
        """Those of this archive whose processes have ended go; others stay."""
        self.init()
        write(os.path.join(self.source, "f"), b"1")
        self.add()
        with open(self.path("archive", "archive.toml"), encoding="utf-8") as file:
            id = next(line.split('"')[1] for line in file if line.startswith("id = "))
        for command in ("rebuild", "repair"):
            names = [f".{command}-{id}-dead", f".{command}-{id}-alive", f".{command}-other-dead", f".{command}-"]
            for name in names:
                write(self.path("archive", name, "T-000001.img"), b"left")
            lock = os.open(self.path("archive", names[1]), os.O_RDONLY)
            fcntl.flock(lock, fcntl.LOCK_EX)
            self.do(command)
            self.assertEqual([os.path.exists(self.path("archive", name, "T-000001.img")) for name in names], [False, True, True, True])
            os.close(lock)
            self.do(command)
            self.assertEqual([os.path.exists(self.path("archive", name)) for name in names], [False, False, True, True])
