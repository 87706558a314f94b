"""Files of more than a mebibyte, which are read piece by piece."""

from __future__ import annotations

import os
import random
import unittest

from udfburn import protocol as p
from udfburn.base import errors as e
from udfburn.protocol import limits

from .model import Directory, File
from .with_server import WithServer

MEBIBYTE = limits.FILE
SIZES = {"short": 10, "one": MEBIBYTE, "more": MEBIBYTE + 1, "two": 2 * MEBIBYTE, "three": 2 * MEBIBYTE + 777}


class Pieces(WithServer):
    """A volume with large files, however they came there."""

    def setUp(self) -> None:
        super().setUp()
        chance = random.Random(3)
        self.data = {name: chance.randbytes(size) for name, size in SIZES.items()}
        self.volume.nodes["d",] = Directory(1)
        root, below = self.volume.nodes[()], self.volume.nodes["d",]
        assert isinstance(root, Directory) and isinstance(below, Directory)
        root.names.append("d")
        for name, data in self.data.items():
            self.volume.nodes["d", name] = File(data, 5_000_000)
            below.names.append(name)
        self.local = os.path.join(self.room, "out")

    def test_get(self) -> None:
        client = self.client()
        for name, data in self.data.items():
            self.assertEqual(client.get(f"/d/{name}"), data)
            self.assertEqual(b"".join(client.pieces(f"/d/{name}")), data)
        with self.assertRaises(e.TooLong):
            client.ask(p.Get(("d", "more")))
        self.assertRaises(e.IsDirectory, client.read, "/d", 0, 5)
        self.assertRaises(e.NotFound, client.read, "/x", 0, 5)

    def test_read(self) -> None:
        """The bytes there are, none past the end."""
        client, data = self.client(), self.data["three"]
        for offset, count in ((0, 0), (0, 5), (MEBIBYTE - 1, 2), (len(data) - 3, 9), (len(data), 9), (limits.U64, 9), (3, MEBIBYTE)):
            self.assertEqual(client.read("/d/three", offset, count), data[offset : offset + count])
        self.assertRaises(p.Fault, client.read, "/d/three", 0, MEBIBYTE + 1)

    def test_trees(self) -> None:
        client = self.client()
        self.assertEqual(client.get_tree("/d", self.local), len(SIZES))
        for name, data in self.data.items():
            with open(os.path.join(self.local, name), "rb") as file:
                self.assertEqual(file.read(), data)
        self.assertEqual(client.get_tree("/d", self.local), len(SIZES))

    def differences(self) -> "list[str]":
        return sorted(path for path, _ in self.client().verify_tree(self.local, "/d").differences)

    def test_verify(self) -> None:
        """Each piece is compared, and that there is no more."""
        self.client().get_tree("/d", self.local)
        self.assertEqual(self.differences(), [])
        changed = {"more": self.data["more"][:-1] + b"?", "two": self.data["two"] + b"1", "three": self.data["three"][:-1]}
        for name, data in changed.items():
            self.volume.nodes["d", name] = File(data, 5_000_000)
        self.assertEqual(self.differences(), ["/d/more", "/d/three", "/d/two"])

    def test_shorter_meanwhile(self) -> None:
        """A file that becomes shorter while it is read is no whole file."""
        client = self.client()
        with client.held():
            pieces = client.pieces("/d/three")
            self.server.before = lambda payload: p.Data(b"x") if payload[0] == p.Kind.READ else None
            self.assertRaisesRegex(e.Differs, "became shorter while it was read", lambda: list(pieces))


if __name__ == "__main__":
    unittest.main()
