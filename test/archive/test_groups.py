"""Many small files in few groups of commits: `add` that is killed at each step, and images that end with a group of which a power loss left
some marks."""

from __future__ import annotations

import os
import random
import shutil
import subprocess
import sys
from typing import Iterable, List

from .support import LARGE, PACKAGE, PATIENCE, await_programs, digests, environment
from .test_tail import BLOCK, WithTail

sys.path.insert(0, PACKAGE)

from udfburn.reader import Medium, Volume  # noqa: E402

TURNS = """
import os, sys
left = [int(sys.argv.pop(1))]
from udfburn.archive.catalogue import Catalogue
from udfburn.archive.fill import Filler
from udfburn.ledger.ledger import Ledger
from udfburn.wire.connection import ImageConnection
def step():
    if left[0] == 0:
        os.kill(os.getpid(), 9)
    left[0] -= 1
def counted(owner, name):
    call = getattr(owner, name)
    def around(*words, **fields):
        step()
        result = call(*words, **fields)
        step()
        return result
    setattr(owner, name, around)
for owner, name in ((Ledger, "record"), (Ledger, "identify"), (ImageConnection, "_write"), (Filler, "_take"), (Catalogue, "add"), (Catalogue, "replace")):
    counted(owner, name)
from udfburn.archive.cli import main
sys.exit(main(sys.argv[1:]))
"""
"""Runs the command, and kills it right before or after it sends requests, keeps them or their replies, takes an outcome, or has the
catalogue keep files."""


class Killed(WithTail):
    def killed(self, count: int) -> int:
        """Runs `add`, and kills it at a step."""
        words = ["add", self.source, "--at", "/s", "--archive", self.archive, "--quiet"]
        done = subprocess.run([sys.executable, "-c", TURNS, str(count), *words], env=environment(), capture_output=True, timeout=PATIENCE)
        await_programs(self.room)
        self.assertIn(done.returncode, (0, -9), done.stderr.decode())
        return done.returncode

    def test_each_step(self) -> None:
        count, stored = 0, set()
        while True:
            self.cut(0, noted=False)
            if self.killed(count) == 0:
                break
            # Whoever reads first sees a state of the run: the catalogue learns nothing that goes again.
            there = self.do("rebuild").last()["files"]
            stored.add(there)
            self.add()
            self.require_all()
            self.assertGreaterEqual(len(self.rows()), there)
            # Most is sent at the beginning.
            count += 1 if LARGE else 3 if count < 30 else 25
        self.assertGreater(count, 100)
        self.assertGreater(len(stored), 2)
        self.assertEqual((min(stored), max(stored)), (30, len(digests(self.source))))


class Marks(WithTail):
    """A power loss left a group with its head, and not all of its marks."""

    def setUp(self) -> None:
        super().setUp()
        with Medium(self.image()) as medium:
            self.marks: List[int] = sorted(table.address for table in Volume(medium).chain() if table.address >= self.length // BLOCK)
        self.assertTrue(40 < len(self.marks) <= 64, self.marks)

    def head(self) -> bytes:
        """The head of a group that has all of the second run, as docs/FORMAT.md and crates/settling/src/head.rt have it."""
        numbers = [self.length // BLOCK, len(self.whole) // BLOCK, len(self.marks), *self.marks, *[0] * (64 - len(self.marks))]
        told = b"UDFGROUP" + b"".join(number.to_bytes(4, "little") for number in numbers)
        total = 0x811C9DC5
        for byte in told:
            total = (total ^ byte) * 0x01000193 % (1 << 32)
        return told + total.to_bytes(4, "little")

    def lose(self, marks: Iterable[int]) -> None:
        """Has the image end with the group, without these marks."""
        self.cut(self.tail(), noted=False)
        with open(self.image(), "r+b") as file:
            for at in marks:
                file.seek(at * BLOCK)
                file.write(bytes(BLOCK))
            file.seek(0, 2)
            file.write(self.head())

    def losses(self) -> List[List[int]]:
        """Marks that are lost together."""
        chance = random.Random(64)
        return [
            self.marks[:1], self.marks[-1:], self.marks[20:21], self.marks[5:], self.marks[:-1], self.marks,
            *(chance.sample(self.marks, 10) for _ in range(20 if LARGE else 2)),
        ]

    def test_nothing_of_it_counts(self) -> None:
        remote = self.path("remote")
        os.mkdir(remote)
        for lost in self.losses():
            self.lose(lost)
            self.assertEqual(self.do("rebuild").last()["differences"], 0)
            self.assertEqual(len(self.rows()), 30)
            self.do("check", "--data")
            self.do("remote", "add", remote, "--same-device")
            self.do("copy")
            self.assertEqual(os.path.getsize(os.path.join(remote, "T-000001.img")), self.length)
            self.add()
            self.require_all()
            self.do("check", "--remotes")
            shutil.rmtree(remote)
            os.mkdir(remote)

    def test_all_of_it_counts(self) -> None:
        """No mark is lost: the head was only not cut off."""
        self.lose([])
        self.assertEqual(self.do("rebuild").last()["files"], len(digests(self.source)))
        self.assertEqual(self.add().last()["files"], 0)
        self.require_all()

    def test_what_is_no_head(self) -> None:
        """Bytes after the last block, by which no group is told, hide nothing."""
        for spoil in (b"", b"\0", self.head()[:-1], b"V" + self.head()[1:], self.head()[:-1] + bytes((self.head()[-1] ^ 1,))):
            self.cut(self.tail(), noted=False)
            with open(self.image(), "r+b") as file:
                file.seek(0, 2)
                file.write(spoil)
            self.assertEqual(self.do("rebuild").last()["files"], len(digests(self.source)))
