"""Files of more extents than an entry has room for, over the programs: stored as one, gone on with, and refused before anything is sent."""

from __future__ import annotations

import os
import signal
import subprocess
import time
import unittest
from threading import Thread
from typing import List

from udfburn import Client
from udfburn import protocol as p
from udfburn.base import errors as e
from udfburn.base.unfinished import is_unfinished
from udfburn.protocol.units import Size
from udfburn.reader.entry import descriptor_blocks
from udfburn.trees.tree import ImportOptions, put_all
from udfburn.wire.connection import Connection

from .programs import PATIENCE, UDFBURN, WithPrograms

MEBIBYTE = p.limits.FILE


class DescriptorBlocks(unittest.TestCase):
    def test_counts(self) -> None:
        sizes = [0, 1, 117 * MEBIBYTE, 117 * MEBIBYTE + 1, 242 * MEBIBYTE, 242 * MEBIBYTE + 1, 867 * MEBIBYTE, 867 * MEBIBYTE + 1, p.limits.GREATEST_FILE]
        self.assertEqual([descriptor_blocks(Size(size)) for size in sizes], [0, 0, 0, 1, 1, 2, 6, 7, 7])


class AnySize(WithPrograms):
    capacity = 140_000

    def sparse(self, name: str, size: int) -> str:
        """A file of zeros but for some bytes of each mebibyte."""
        local = self.write(name, b"")
        with open(local, "r+b") as file:
            file.truncate(size)
            for at in range(0, size, MEBIBYTE):
                file.seek(at)
                file.write(b"%012d" % at)
            file.truncate(size)
        return local

    def blocks(self) -> int:
        return os.path.getsize(self.image) // p.limits.BLOCK

    def test_stored_as_one(self) -> None:
        """By a request for each mebibyte and one more; the blocks that it takes are computed exactly."""
        size = 242 * MEBIBYTE + 5
        local, back = self.sparse("source/film", size), os.path.join(self.room, "back")
        client, before = self.on_image(), self.blocks()
        summary = put_all(client, [(local, ("film",))], ImportOptions(verify=True))
        self.assertEqual((summary.files, summary.verified, self.commits()), (1, 1, 244))
        self.assertEqual(self.blocks() - before, summary.blocks)
        self.assertEqual(self.udfburn("check", self.image), b"sound 244\n")
        client.close()
        self.run_command("get", "/film", back, where=["--image", self.image])
        self.assertEqual(subprocess.run(["cmp", local, back], check=False).returncode, 0)
        self.assertIn("1 were there", self.run_command("put", local, "/film", where=["--image", self.image]))

    def test_gone_on_with(self) -> None:
        """A client that is killed where an append writes the first descriptor blocks: no piece is stored twice."""
        local = self.sparse("source/film", 125 * MEBIBYTE)
        child = os.fork()
        if not child:
            try:
                self.put_until(local, 121 * MEBIBYTE)
            finally:
                os._exit(0)
        self.assertTrue(os.WIFSIGNALED(os.waitpid(child, 0)[1]))
        with self.on_image() as client:
            ((name, size),) = [(name.name, client.stat((name.name,)).size) for name in client.list("/")]
            self.assertTrue(is_unfinished((name,)) and 110 * MEBIBYTE < size < 125 * MEBIBYTE and size % MEBIBYTE == 0, (name, size))
            summary = put_all(client, [(local, ("film",))], ImportOptions(delete_source=True, verify=True))
            self.assertEqual((summary.failures, summary.deleted, client.stat("/film").size), ([], 1, 125 * MEBIBYTE))
        self.assertEqual((self.commits(), self.udfburn("check", self.image)), (126, b"sound 126\n"))

    def test_over_a_daemon(self) -> None:
        """That is killed where an append writes the first descriptor block: the same command goes on with another one."""
        local = self.sparse("source/film", 119 * MEBIBYTE)
        daemon = self.serve()

        def kill() -> None:
            while self.blocks() < 262 + 116 * 515:
                time.sleep(0.001)
            daemon.kill()

        killer = Thread(target=kill)
        killer.start()
        with self.client(patience=0.1) as client, self.assertRaises(e.UdfburnError):
            put_all(client, [(local, ("film",))], ImportOptions())
        killer.join()
        daemon.start()
        daemon.await_socket()
        self.run_command("put", "--verify", local, "/film")
        self.assertEqual((self.commits(), self.udfburn("check", self.image)), (120, b"sound 120\n"))
        self.run_command("get", "/film", os.path.join(self.room, "back"))
        self.assertEqual(subprocess.run(["cmp", local, os.path.join(self.room, "back")], check=False).returncode, 0)

    def put_until(self, local: str, stop: int) -> None:
        """Stores a file, and kills this process before it has sent so many bytes."""
        left, send = [stop], Connection.send

        def sent(connection: Connection, *pieces: bytes) -> None:
            left[0] -= sum(map(len, pieces))
            if left[0] <= 0:
                os.kill(os.getpid(), signal.SIGKILL)
            send(connection, *pieces)

        setattr(Connection, "send", sent)
        with Client(f"image:{self.image}", ledger=self.ledger, program=UDFBURN, patience=PATIENCE) as client:
            put_all(client, [(local, ("film",))], ImportOptions())

    def refused(self, locals_: List[str]) -> str:
        """Why an import is refused, of which nothing was sent."""
        with self.on_image() as client, self.assertRaises(e.DoesNotFit) as raised:
            put_all(client, [(local, (os.path.basename(local),)) for local in locals_], ImportOptions())
        self.assertEqual((self.commits(), self.blocks()), (0, 262))
        return str(raised.exception)

    def test_no_room(self) -> None:
        """The file that does not fit is named, with the bytes that are free then."""
        large, small = self.sparse("large", 300 * MEBIBYTE), self.sparse("small", 10 * MEBIBYTE)
        self.assertIn(f"/large: has {300 * MEBIBYTE} bytes, and there is no room for them: {(140_000 - 262) * 2048} are free by then\n", self.refused([large]))
        told = self.refused([small, large])
        self.assertRegex(told, rf"^/large: has {300 * MEBIBYTE} bytes, and there is no room for them: \d+ are free by then\nthe import takes \d+ blocks")
        self.assertNotIn("/small", told)

    def test_room_to_the_block(self) -> None:
        """Where it says that there is room, there is; one block less, and it is refused."""
        local = self.sparse("film", 118 * MEBIBYTE)
        low, high = 60_000, 70_000
        while low < high:
            middle = (low + high) // 2
            os.unlink(self.image)
            self.format(middle)
            with self.on_image(ledger=os.path.join(self.room, f"{middle}.sqlite")) as client:
                try:
                    put_all(client, [(local, ("film",))], ImportOptions(dry_run=True))
                    high = middle
                except e.DoesNotFit:
                    low = middle + 1
        os.unlink(self.image)
        self.format(low)
        with self.on_image(ledger=os.path.join(self.room, "last.sqlite")) as client:
            self.assertEqual(put_all(client, [(local, ("film",))], ImportOptions()).files, 1)
        os.unlink(self.image)
        self.format(low - 1)
        with self.on_image(ledger=os.path.join(self.room, "less.sqlite")) as client, self.assertRaises(e.DoesNotFit):
            put_all(client, [(local, ("film",))], ImportOptions())


if __name__ == "__main__":
    unittest.main()
