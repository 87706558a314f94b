"""A catalogue in SQLite of which bytes are damaged: `rebuild` ends with a whole one, and takes over what can be read of the old one."""

from __future__ import annotations

import os
import random
import shutil
import sqlite3
from contextlib import closing
from typing import Any, Dict, List

from .support import LARGE, WithArchive, digests, make_tree, write

SAMPLE = 5
"""Damages that are tried without `--large`."""


class Pages(WithArchive):
    def setUp(self) -> None:
        super().setUp()
        self.copies = self.path("copies")
        os.mkdir(self.copies)
        self.init("--copies", self.copies, "--capacity", "3000")
        make_tree(self.source, 60, 1)
        write(os.path.join(self.source, "big"), os.urandom(3_000_000))
        self.add()
        self.do("close")
        write(os.path.join(self.source, "last"), b"last")
        self.add()
        self.do("check")
        self.base = self.path("archive", "catalogue.sqlite")
        with closing(sqlite3.connect(self.base)) as base:
            base.execute("PRAGMA wal_checkpoint(TRUNCATE)")
            base.execute("PRAGMA journal_mode = DELETE")
            (self.page,) = base.execute("PRAGMA page_size").fetchone()
        with open(self.base, "rb") as file:
            self.whole = file.read()
        self.before, self.known = self.rows(), self.state()

    def state(self) -> List[Any]:
        """What the catalogue says of volumes and copies."""
        return [(volume["volume"], volume["state"], volume["sha256"], sorted(copy["remote"] for copy in volume["copies"])) for volume in self.volumes()]

    def damaged(self, data: bytes) -> None:
        """Rebuilds a catalogue with these bytes, which ends with a whole one."""
        for name in os.listdir(self.archive):
            if name.startswith("catalogue"):
                os.unlink(os.path.join(self.archive, name))
        write(self.base, data)
        # No command ends with a traceback.
        for words in (("status",), ("ls", "-R", "/"), ("find", "*1*"), ("where", "/s/big")):
            self.assertNotIn("Traceback", self.do(*words, status=None).errors)
        done = self.do("rebuild")
        self.assertNotIn("Traceback", done.errors)
        with closing(sqlite3.connect(self.base)) as base:
            self.assertEqual(base.execute("PRAGMA integrity_check").fetchall(), [("ok",)])
        self.assertEqual(self.rows(), self.before)
        self.do("close", "--full")
        self.assertEqual(self.state(), self.known)
        self.require_agreed()
        # What was damaged is kept.
        aside = [name for name in os.listdir(self.archive) if ".damaged-" in name and not name.endswith(("-wal", "-shm"))]
        if aside:
            with open(os.path.join(self.archive, aside[0]), "rb") as file:
                self.assertEqual(len(file.read()), len(data))

    def chosen(self, every: List[Any]) -> List[Any]:
        return every if LARGE else random.Random(5).sample(every, min(SAMPLE, len(every)))

    def test_each_page_zeroed_or_overwritten(self) -> None:
        pages = range(len(self.whole) // self.page)
        for number, other in self.chosen([(number, other) for number in pages for other in (bytes(self.page), b"\xa5" * self.page)]):
            with self.subTest(page=number, other=other[0]):
                at = number * self.page
                self.damaged(self.whole[:at] + other + self.whole[at + self.page :])

    def test_random_bytes(self) -> None:
        for seed in self.chosen(list(range(25))):
            with self.subTest(seed=seed):
                chance, data = random.Random(seed), bytearray(self.whole)
                for _ in range(200):
                    data[chance.randrange(len(data))] = chance.randrange(256)
                self.damaged(bytes(data))

    def test_a_catalogue_that_was_cut(self) -> None:
        for length in (0, 1, 100, self.page, len(self.whole) // 2, len(self.whole) - 1):
            with self.subTest(length=length):
                self.damaged(self.whole[:length])

    def test_copies_and_dates_are_taken_over(self) -> None:
        remote = "here:gone"
        with closing(sqlite3.connect(self.base)) as base, base:
            base.execute("INSERT INTO copy VALUES (1, ?, 1600000000000000, 1600000000000001, 'is lost')", (remote,))
            base.execute("UPDATE volume SET checked = 1600000000000002 WHERE number = 1")
            base.execute("UPDATE file SET sha256 = 'x' WHERE id = (SELECT min(id) FROM file)")
        self.do("rebuild")
        first = self.volumes()[0] if self.volumes()[0]["volume"] == "T-000001" else self.volumes()[1]
        self.assertEqual(first["checked"], 1600000000000002)
        self.assertIn({"remote": remote, "checked": 1600000000000001, "trouble": "is lost"}, first["copies"])
        self.assertEqual(self.rows(), self.before)


class OnRemotes(WithArchive):
    """Volumes that only a folder for copies has, after the catalogue was lost."""

    def test_they_are_read_and_their_copies_are_known(self) -> None:
        copies = self.path("copies")
        os.mkdir(copies)
        self.init("--copies", copies)
        before: Dict[bytes, Any] = {}
        for seed in (1, 2):
            shutil.rmtree(self.source)
            make_tree(self.source, 9, seed)
            self.add()
            self.do("close")
            before.update(digests(self.source))
        rows = self.rows()
        for name in os.listdir(self.archive):
            if name.startswith("catalogue"):
                os.unlink(os.path.join(self.archive, name))
        for name in os.listdir(self.path("archive", "closed")):
            if name.startswith("T-000002"):
                os.unlink(self.path("archive", "closed", name))
        self.do("rebuild")
        self.assertEqual(self.rows(), rows)
        states = {volume["volume"]: [copy["remote"] for copy in volume["copies"]] for volume in self.volumes()}
        self.assertEqual(states["T-000002"], [copies])
        self.do("repair", "T-000002")
        self.require_agreed()
