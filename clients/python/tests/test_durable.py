"""Locks, and what is made durable: what each call holds, and what it does where the system refuses."""

from __future__ import annotations

import errno
import os
import tempfile
import unittest
from typing import ContextManager, List
from unittest import mock

from udfburn.base.beneath import open_own
from udfburn.base.disk import sync_names
from udfburn.base.durable import make_folder, sync_file, sync_folder
from udfburn.base.locks import lock_or_close, try_lock

from .test_imports import modules


class WithFile(unittest.TestCase):
    def setUp(self) -> None:
        folder = tempfile.TemporaryDirectory()
        self.addCleanup(folder.cleanup)
        self.folder = folder.name
        self.path = os.path.join(self.folder, "file")
        with open(self.path, "wb") as file:
            file.write(b"bytes")

    def opened(self) -> int:
        descriptor = open_own(self.path)
        self.addCleanup(os.close, descriptor)
        return descriptor


def is_open(descriptor: int) -> bool:
    try:
        os.fstat(descriptor)
        return True
    except OSError:
        return False


class Locks(WithFile):
    def test_one_has_it(self) -> None:
        self.assertTrue(try_lock(self.opened()))
        other = self.opened()
        self.assertFalse(try_lock(other))
        self.assertFalse(try_lock(other, shared=True))
        self.assertTrue(is_open(other))

    def test_some_share_it(self) -> None:
        self.assertTrue(try_lock(self.opened(), shared=True))
        self.assertTrue(try_lock(self.opened(), shared=True))
        self.assertFalse(try_lock(self.opened()))

    def test_it_ends_with_its_descriptor(self) -> None:
        first = open_own(self.path)
        self.assertTrue(lock_or_close(first))
        self.assertTrue(is_open(first))
        self.assertFalse(lock_or_close(open_own(self.path)))
        os.close(first)
        self.assertTrue(lock_or_close(self.opened()))

    def test_without_it_nothing_stays_open(self) -> None:
        self.assertTrue(try_lock(self.opened()))
        other = open_own(self.path)
        self.assertFalse(lock_or_close(other))
        self.assertFalse(is_open(other))

    def test_a_file_system_without_locks(self) -> None:
        other = open_own(self.path)
        with mock.patch("udfburn.base.locks.fcntl.flock", side_effect=OSError(errno.ENOLCK, "No locks available")), self.assertRaises(OSError):
            lock_or_close(other)
        self.assertFalse(is_open(other))

    def test_no_other_module_locks(self) -> None:
        found = set()
        for name, path in modules().items():
            with open(path, encoding="utf-8") as file:
                if "flock(" in file.read():
                    found.add(name)
        self.assertEqual(found, {"udfburn.base.locks"})


class Durable(WithFile):
    def synced(self, error: int = 0) -> ContextManager[object]:
        self.seen: List[str] = []

        def fsync(descriptor: int) -> None:
            self.seen.append(os.path.relpath(os.readlink(f"/proc/self/fd/{descriptor}"), os.path.realpath(self.folder)))
            if error:
                raise OSError(error, os.strerror(error))

        return mock.patch("os.fsync", fsync)

    def test_each_folder_that_is_made(self) -> None:
        """A power loss takes none of them away: each is in a folder that was synchronised after."""
        with self.synced():
            make_folder(os.path.join(self.folder, "a", "b", "c"))
        self.assertEqual(self.seen, [".", "a", "a/b"])
        with self.synced():
            make_folder(os.path.join(self.folder, "a", "b", "c"))
        self.assertEqual(self.seen, [])

    def test_a_file_and_a_folder(self) -> None:
        with self.synced():
            sync_file(self.path)
            sync_folder(self.folder)
        self.assertEqual(self.seen, ["file", "."])

    def test_what_cannot_be_made_durable(self) -> None:
        for error in (errno.EIO, errno.EINVAL):
            with self.subTest(error=error), self.synced(error):
                self.assertRaises(OSError, sync_file, self.path)
                self.assertRaises(OSError, sync_folder, self.folder)
                self.assertRaises(OSError, make_folder, os.path.join(self.folder, f"made{error}"))

    def test_names_where_that_cannot_be_asked_for(self) -> None:
        descriptor = os.open(self.folder, os.O_RDONLY)
        self.addCleanup(os.close, descriptor)
        with self.synced(errno.EINVAL):
            sync_names(descriptor)
        with self.synced(errno.EIO):
            self.assertRaises(OSError, sync_names, descriptor)


if __name__ == "__main__":
    unittest.main()
