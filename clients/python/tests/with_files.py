"""Local files, put on the volume of a server in this process."""

from __future__ import annotations

import os
from hashlib import sha256
from mmap import mmap

from udfburn import Client
from udfburn import protocol as p
from udfburn.base import errors as e
from udfburn.base import older_parts
from udfburn.protocol.units import Moment, Size
from udfburn.trees import tree
from udfburn.trees.tree import ImportOptions, put_all
from udfburn.wire.operations import Operation, Whole

from .with_server import WithServer


def store_in_parts(client: Client, path: p.Path, data: "bytes | mmap", moment: Moment = Moment(7)) -> None:
    """Stores a file in parts of a mebibyte, as earlier versions did, in place of one that is there in as many."""
    paths = older_parts.stored_paths(path, len(data))
    operations = [Operation(p.MakeDir, folder, moment) for folder in older_parts.part_folders(path, len(data))]
    for index, part in enumerate(paths):
        piece = data[index * p.limits.FILE : (index + 1) * p.limits.FILE]
        whole = Whole(path, Size(len(data)), sha256(data).digest()) if part == paths[-1] else None
        operations.append(Operation(p.Replace if client.find(part) else p.Create, part, moment, piece, whole=whole))
    for outcome in client.run(operations):
        assert outcome.code is p.Code.DONE, outcome


class Local(WithServer):
    def write(self, name: str, data: "bytes | bytearray" = b"data") -> str:
        local = os.path.join(self.room, "source", name)
        os.makedirs(os.path.dirname(local), exist_ok=True)
        with open(local, "wb") as file:
            file.write(data)
        return local

    @property
    def folder(self) -> str:
        return os.path.join(self.room, "source")

    def put(self, **options: object) -> tree.ImportSummary:
        with self.client() as client:
            return put_all(client, [(self.folder, ("x",))], ImportOptions(recursive=True, **options))  # type: ignore[arg-type]

    def put_older(self, name: str = "big") -> None:
        """Stores a file of the folder in parts, as earlier versions did."""
        local = os.path.join(self.folder, name)
        with self.client() as client, open(local, "rb") as file:
            client.makedirs("/x")
            store_in_parts(client, ("x", *name.split("/")), file.read(), Moment(os.stat(local).st_mtime_ns // 1000))

    def refused(self, **options: object) -> str:
        """What is reported against an import; and nothing was sent."""
        commits = self.volume.commits
        with self.assertRaises(e.DoesNotFit) as raised:
            self.put(**options)
        self.assertEqual(self.volume.commits, commits)
        return str(raised.exception)
