"""A disk that is full at each moment of an `add`: nothing that was acknowledged is lost, no source is deleted too early, and the same
command finishes once there is room."""

from __future__ import annotations

import os
import random
import re
import shutil
from typing import List, Set

from .support import LARGE, WithArchive, digests, make_tree

STEP = 4096
"""Bytes by which rooms differ: a page of the file system."""

TRIALS = 150 if LARGE else 6
"""Rooms that are tried, at random among all up to the one that is enough."""


class WithDisk(WithArchive):
    """An archive on a file system of its own, of which the test leaves so many bytes."""

    def setUp(self) -> None:
        super().setUp()
        self.disk = self.path("disk")
        self.mount_memory(self.disk, "48m")
        self.archive = os.path.join(self.disk, "archive")
        self.filler = os.path.join(self.disk, "filler")

    def fill_but(self, room: int) -> None:
        """Takes all of the disk but so many bytes."""
        found = os.statvfs(self.disk)
        with open(self.filler, "wb") as file:
            os.posix_fallocate(file.fileno(), 0, found.f_bavail * found.f_frsize - room)

    def begin(self) -> None:
        """An archive with some files, and a source with more."""
        self.init()
        make_tree(self.source, 20, 1)
        self.add()
        make_tree(os.path.join(self.source, "more"), 24, 2)
        for path, kept in ((self.archive, self.path("kept")), (self.source, self.path("kept source"))):
            shutil.copytree(path, kept)
        self.before = digests(self.source)

    def again(self) -> None:
        for path, kept in ((self.archive, self.path("kept")), (self.source, self.path("kept source"))):
            shutil.rmtree(path)
            shutil.copytree(kept, path)


class FullDisk(WithDisk):
    """Whatever the disk has left, all goes on from there."""

    def trial(self, room: int) -> int:
        """Adds with so much room, which ends well or not; then there is room, and the same command finishes."""
        self.again()
        self.fill_but(room)
        status = self.add("--delete-source", status=None).status
        os.unlink(self.filler)
        left = digests(self.source)
        there = {os.fsencode(row["path"][len("/s/"):]): row["sha256"] for row in self.rows()}
        for path in set(self.before) - set(left):
            self.assertEqual(there.get(path), self.before[path][0], f"{path!r} was deleted at {room} bytes, and is not in the catalogue")
        # The volume may be ahead of the catalogue, and never behind it.
        differs = [line["how"] for line in self.do("rebuild", "--dry-run").objects() if line["did"] == "differs"]
        self.assertLessEqual(set(differs), {"is on the volume, and was not in the catalogue"}, room)
        self.add("--delete-source")
        self.assertEqual(digests(self.source), {}, room)
        self.assertEqual(self.get_all(), self.before, room)
        self.assertEqual(len(self.rows()), len(self.before), room)
        self.require_agreed()
        self.assertEqual([name for name in os.listdir(os.path.join(self.archive, "open")) if name.endswith(".tail")], [])
        return status

    def rooms(self) -> List[int]:
        """The rooms that are tried."""
        high = 64 * STEP
        while self.trial(high):
            high *= 2
        every = list(range(0, high, STEP))
        return sorted(random.Random(48).sample(every, min(TRIALS, len(every))))

    def test_each_room(self) -> None:
        self.begin()
        ended = [self.trial(room) for room in self.rooms()]
        self.assertIn(1, ended)


class AtOnce(WithDisk):
    """A disk that is full is named at once, with the file that it has no room for. Only a drive that fails otherwise is waited for, which
    takes ten seconds and is said."""

    def full(self, room: int) -> str:
        """The file, as an `add` with so much room names it; empty where the room is enough."""
        self.fill_but(room)
        done = self.add(status=None)
        os.unlink(self.filler)
        # What was waited for in vain says for how long. How long a command takes on a machine that is at work says nothing.
        self.assertNotIn("tried for", done.errors)
        if not done.status:
            return ""
        self.assertIn("is full", done.errors)
        names = {found.group(1) for found in re.finditer(r"/(catalogue\.sqlite|T-000001(?:\.[a-z]+)+)", done.errors)}
        self.assertEqual(len(names), 1, done.errors)
        return names.pop()

    def test_of_what_there_is(self) -> None:
        """The ledger and the image are of a volume that has files."""
        self.begin()
        met: Set[str] = set()
        for room in range(0, 100 * STEP, 4 * STEP):
            self.again()
            met.add(self.full(room))
        self.assertLessEqual(met, {"catalogue.sqlite", "T-000001.ledger", "T-000001.img"})
        self.assertEqual(len(met), 3)

    def test_of_a_new_volume(self) -> None:
        make_tree(self.source, 20, 3)
        for room in (0, 32 * STEP, 130 * STEP):
            self.init()
            self.assertIn(self.full(room), {"catalogue.sqlite", "T-000001.img.new"})
            self.add()
            self.assertEqual(self.get_all(), digests(self.source))
            shutil.rmtree(self.archive)
