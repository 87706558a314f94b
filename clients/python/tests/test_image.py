"""How long a program has an image, and what is on the disk before a copy is made of it."""

from __future__ import annotations

import errno
import os
import shutil
import subprocess
import sys
import tempfile
import time
import unittest
from types import SimpleNamespace
from typing import List
from unittest import mock

from udfburn.base import errors as e
from udfburn.image import past
from udfburn.wire.connection import Connection
from udfburn.wire.endpoint import Endpoint
from udfburn.wire.retrying import BEGINNINGS, TURN, Greeter, RetryingConnection

from .programs import PACKAGE


class Image(unittest.TestCase):
    """A program that waits for the end of its input, and an image."""

    def setUp(self) -> None:
        self.room = os.path.realpath(tempfile.mkdtemp())
        self.addCleanup(shutil.rmtree, self.room)
        self.image = os.path.join(self.room, "disc.img")
        self.done: List[str] = []
        with open(self.image, "wb") as file:
            file.write(bytes(8192))

    def line(self) -> RetryingConnection:
        program = os.path.join(self.room, "program")
        with open(program, "w", encoding="ascii") as file:
            file.write("#!/bin/sh\nexec cat > /dev/null\n")
        os.chmod(program, 0o755)
        line = RetryingConnection(Endpoint(f"image:{self.image}", program), 0.2, 5.0)
        self.addCleanup(line.drop)
        return line

    def sync(self, descriptor: int) -> None:
        self.assertEqual(os.readlink(f"/proc/self/fd/{descriptor}"), self.image)
        self.done.append("synced")

    def forget(self, descriptor: int, offset: int, length: int, advice: int) -> None:
        self.assertEqual(os.readlink(f"/proc/self/fd/{descriptor}"), self.image)
        self.assertEqual((offset, length, advice), (0, 0, os.POSIX_FADV_DONTNEED))
        self.done.append("forgotten")

    def test_a_turn_is_as_long_as_a_start_asks_for(self) -> None:
        """A program that has read a full volume from a slow disk is not ended as soon as it has."""
        now = 0.0

        class Slow(Greeter):
            def greet(self, connection: Connection) -> None:
                nonlocal now
                now += took

        with mock.patch("udfburn.wire.retrying.time", SimpleNamespace(monotonic=lambda: now, sleep=time.sleep)):
            for took, turn in ((0.0, TURN), (TURN / 8, TURN), (3 * TURN, 3 * TURN * BEGINNINGS)):
                line = self.line()
                line.greeted_by(Slow())
                line.get()
                now += turn
                self.assertFalse(line.over())
                now += 0.01
                self.assertTrue(line.over())

    def test_a_copy(self) -> None:
        """What is compared beside a daemon, or where the program was refused, is on the disk."""
        with mock.patch("os.fsync", self.sync), mock.patch("os.posix_fadvise", self.forget), past.front(self.image, "", None) as copy:
            with open(copy, "rb") as file:
                self.assertEqual(file.read(), bytes(8192))
        self.assertEqual(self.done, ["synced", "forgotten"])

    def test_a_copy_from_a_system_that_does_not_forget(self) -> None:
        with mock.patch("os.posix_fadvise", side_effect=OSError(errno.EIO, "Input/output error")), self.assertRaises(e.ProgramFailed):
            with past.front(self.image, "", None):
                self.fail("a copy was made")

    def test_a_copy_from_a_disk_that_fails(self) -> None:
        """The program was refused since the sync with which it begins failed: a copy would show what is in memory alone."""
        with mock.patch("os.fsync", side_effect=OSError(errno.EIO, "Input/output error")), self.assertRaises(e.ProgramFailed):
            with past.front(self.image, "", None):
                self.fail("a copy was made")
        self.assertEqual(os.listdir(self.room), ["disc.img"])

    def test_a_copy_from_a_disk_that_is_only_read(self) -> None:
        with mock.patch("os.fsync", side_effect=OSError(errno.EINVAL, "Invalid argument")), past.front(self.image, "", None) as copy:
            self.assertEqual(os.path.getsize(copy), 8192)

    def test_copies_that_killed_readers_left(self) -> None:
        """They go when the next copy is made, and those of readers that go on stay."""
        for _ in range(2):
            left = self.left()
            with past.front(self.image, "", None) as first, past.front(self.image, "", None) as second:
                self.assertNotIn(left, self.copies())
                self.assertEqual({os.path.basename(os.path.dirname(copy)) for copy in (first, second)}, set(self.copies()))
            self.assertEqual(self.copies(), [])

    def test_a_copy_that_cannot_be_removed(self) -> None:
        """It stays until a later reader can remove it, and no reader fails for it."""
        left = self.left()
        for call in ("os.listdir", "rmtree"):
            with self.subTest(call), mock.patch(f"udfburn.base.scratch.{call}", side_effect=OSError(errno.EIO, "Input/output error")) as failing:
                with past.front(self.image, "", None) as copy:
                    self.assertEqual(os.path.getsize(copy), 8192)
            failing.assert_called()
            self.assertEqual(self.copies(), [left])
        with past.front(self.image, "", None):
            self.assertNotIn(left, self.copies())

    def test_copies_where_there_are_no_locks(self) -> None:
        with mock.patch("udfburn.base.locks.fcntl.flock", side_effect=OSError(errno.ENOLCK, "No locks available")):
            with past.front(self.image, "", None) as first, past.front(self.image, "", None) as second:
                self.assertEqual([os.path.getsize(copy) for copy in (first, second)], [8192, 8192])
        self.assertEqual(self.copies(), [])

    def left(self) -> str:
        """The folder with the copy that a reader left when it was killed."""
        script = "import os, sys\nfrom udfburn.image import past\nwith past.front(sys.argv[1], '', None):\n    os.kill(os.getpid(), 9)\n"
        subprocess.run([sys.executable, "-c", script, self.image], check=False, env={**os.environ, "PYTHONPATH": PACKAGE})
        (left,) = self.copies()
        return left

    def copies(self) -> List[str]:
        """The folders with copies that are beside the image."""
        return [name for name in os.listdir(self.room) if name.startswith(".udfburn-")]


if __name__ == "__main__":
    unittest.main()
