"""Files above a mebibyte that are read while others have their turn: what one client replaces between two pieces is not whole for another."""

from __future__ import annotations

import os
import random
import unittest
from typing import List, Optional
from unittest import mock

from udfburn import Client
from udfburn import protocol as p
from udfburn.base import errors as e
from udfburn.protocol.units import Moment
from udfburn.trees.compare import verify_tree
from udfburn.trees.fetch import Fetcher
from udfburn.trees.seal import seal_directory
from udfburn.trees.tree import ImportOptions, ImportSummary, put_all

from .model import File
from .programs import PATIENCE
from .with_files import Local

MEBIBYTE = p.limits.FILE
PATH = ("x", "big")


class Turns(Local):
    """A conversation ends after two questions, as it does after a second."""

    def setUp(self) -> None:
        super().setUp()
        self.old = random.Random(5).randbytes(5 * MEBIBYTE + 7)
        self.local = self.write("big", self.old)
        os.utime(self.local, (7, 7))
        with self.client(os.path.join(self.room, "other.sqlite")) as client:
            put_all(client, [(self.folder, ("x",))], ImportOptions(recursive=True))
        for name, value in (("TURN", -1.0), ("QUERIES_AT_ONCE", 2)):
            patch = mock.patch(f"udfburn.wire.retrying.{name}", value)
            patch.start()
            self.addCleanup(patch.stop)

    def changes(self) -> List[File]:
        """What another client may have stored: of another time, of another size at the same time."""
        other = random.Random(6).randbytes(len(self.old))
        return [File(other, 8), File(other + b"x", Moment(7_000_000)), File(self.old + b"x", 8)]

    def replaced(self, by: Optional[File], offset: int) -> None:
        """Another client replaces the file before this piece of it is read, where that begins a conversation."""
        begun, left = self.server.conversations, [by] if by is not None else []

        def before(payload: bytes) -> Optional[p.Answer]:
            message = p.decode_message(payload)
            if left and isinstance(message, p.Read) and message.offset == offset and self.server.conversations > begun + 1:
                self.volume.nodes[PATH] = left.pop()
            return None

        self.server.before = before

    def again(self) -> None:
        self.volume.nodes[PATH] = File(self.old, 7_000_000)
        self.server.before = lambda payload: None

    def put_shared(self, rewrite: bool = False) -> ImportSummary:
        """Stores the file where others may change what was stored, and deletes it."""
        options = ImportOptions(recursive=True, delete_source=True, verify=True, rewrite=rewrite)
        with Client(f"unix:{self.server.path}", ledger=self.ledger, patience=PATIENCE, timeout=PATIENCE, shared=True) as client:
            return put_all(client, [(self.folder, ("x",))], options)

    def test_get(self) -> None:
        for change in self.changes():
            for offset in (0, 2 * MEBIBYTE, 4 * MEBIBYTE):
                with self.subTest(moment=change.moment, size=len(change.data), offset=offset), self.client() as client:
                    self.again()
                    self.replaced(change, offset)
                    out = os.path.join(self.room, "out")
                    with self.assertRaisesRegex(e.Differs, "^/x/big: another client changed it while it was read"):
                        Fetcher(client).file(PATH, out)
                    self.assertFalse(os.path.exists(out))
                    Fetcher(client).file(PATH, out)
                    with open(out, "rb") as file:
                        self.assertEqual(file.read(), change.data)
                    os.unlink(out)

    def test_get_again(self) -> None:
        """Nor is a local file called the same that no file on the volume ever was."""
        out = os.path.join(self.room, "out")
        other = File(bytes(2 * MEBIBYTE) + self.old[2 * MEBIBYTE :], 8)
        with self.client() as client:
            Fetcher(client).file(PATH, out)
            self.replaced(other, 2 * MEBIBYTE)
            self.assertRaises(e.Differs, Fetcher(client).file, PATH, out)

    def test_bytes(self) -> None:
        with self.client() as client:
            self.replaced(None, 0)
            self.assertEqual(client.get("/x/big"), self.old)
            self.replaced(self.changes()[0], 2 * MEBIBYTE)
            self.assertRaises(e.Differs, client.get, "/x/big")

    def test_verify(self) -> None:
        other = File(bytes(2 * MEBIBYTE) + self.old[2 * MEBIBYTE :], 8)
        for change in (other, File(self.old + b"x", 8)):
            self.again()
            with self.client() as client:
                self.assertEqual(verify_tree(client, self.folder, ("x",)).differences, [])
                self.replaced(change, 2 * MEBIBYTE)
                self.assertEqual(verify_tree(client, self.folder, ("x",)).differences, [("/x/big", "has other bytes there")])

    def test_same(self) -> None:
        """What the volume does not have as one file is stored, and only then is its source deleted."""
        other = File(bytes(2 * MEBIBYTE) + self.old[2 * MEBIBYTE :], 8)
        for change in (other, File(self.old + b"x", 8)):
            self.again()
            self.write("big", self.old)
            os.utime(self.local, (7, 7))
            self.replaced(change, 2 * MEBIBYTE)
            summary = self.put_shared()
            self.assertEqual((summary.same, summary.files, summary.deleted, summary.failures), (0, 1, 1, []))
            self.assertEqual(self.volume.files()[PATH], self.old)

    def test_read_back(self) -> None:
        self.write("big", self.old[::-1])
        self.replaced(File(self.old[::-1] + b"x", 8), 4 * MEBIBYTE)
        summary = self.put_shared(True)
        self.assertEqual((summary.verified, summary.deleted, summary.failures), (0, 0, ["/x/big: the volume has other bytes than were stored"]))
        self.assertTrue(os.path.exists(self.local))

    def test_seal(self) -> None:
        with self.client() as client:
            self.replaced(self.changes()[0], 2 * MEBIBYTE)
            self.assertRaises(e.Differs, seal_directory, client, ("x",), True)
            self.assertEqual(list(self.volume.files()), [PATH])


if __name__ == "__main__":
    unittest.main()
