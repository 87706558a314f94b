"""Clients that store files above a mebibyte, killed before each call that changes the ledger, the volume or a source."""

from __future__ import annotations

import os
import random
import signal
import unittest
from contextlib import closing
from typing import Any, Dict, List, Tuple

from udfburn import Client
from udfburn import protocol as p
from udfburn.trees import tree
from udfburn.image.check_data import check_data
from udfburn.trees.compare import verify_tree
from udfburn.wire.connection import Connection
from udfburn.image.coverage import Coverage
from udfburn.wire.endpoint import image_key
from udfburn.trees.growing import piece_request
from udfburn.mounting.image_view import ImageView
from udfburn.ledger.ledger import Ledger
from udfburn.ledger.reading import ledger_to_read
from udfburn.base.progress import Progress
from udfburn.reader import FileType, Medium
from udfburn.reader import Volume as ReadVolume
from udfburn.trees.seal import seal_directory
from udfburn.mounting.shown_tree import ShownFolder
from udfburn.commands.status import of_image
from udfburn.trees.tree import ImportOptions, put_all
from udfburn.base.unfinished import is_unfinished, unfinished_path
from udfburn.protocol.units import Moment

from .model import Volume
from .programs import PATIENCE, UDFBURN, WithPrograms
from .relay import Relay
from .with_server import WithServer

PHOTOS = {name: random.Random(name).randbytes(2 * p.limits.FILE + 950_000) for name in ("a.jpg", "b.jpg")}
REQUESTS = 1 + 2 * (3 + 1)
"""One for the directory; for each photo three pieces and its name."""


def kill_before(stop: int) -> None:
    """Kills this process before the changing call of this number, counted from 1."""
    left = [stop]

    def watched(call: Any) -> Any:
        def instead(*words: Any, **named: Any) -> Any:
            left[0] -= 1
            if not left[0]:
                os.kill(os.getpid(), signal.SIGKILL)
            return call(*words, **named)

        return instead

    for owner, name in ((Ledger, "record"), (Ledger, "confirm"), (Ledger, "learn"), (Connection, "send"), (tree, "delete")):
        setattr(owner, name, watched(getattr(owner, name)))


class AtEachCall:
    """What is tried over each way to a volume."""

    room: str
    ledger: str
    way: str

    def anew(self, number: int) -> None:
        """A volume without any commit, and a ledger that knows none."""
        raise NotImplementedError

    def count(self) -> int:
        """The commits of the volume."""
        raise NotImplementedError

    def put(self, stop: int) -> bool:
        """Stores the photos in a process of its own, and deletes them. Whether it was killed."""
        child = os.fork()
        if not child:
            status = 1
            try:
                kill_before(stop)
                with Client(self.way, ledger=self.ledger, program=UDFBURN or None, patience=PATIENCE) as client:
                    summary = put_all(client, [(os.path.join(self.room, "photos"), ("x",))], ImportOptions(recursive=True, delete_source=True))
                status = len(summary.failures)
            finally:
                os._exit(status)
        ended = os.waitpid(child, 0)[1]
        assert os.WIFSIGNALED(ended) or not os.WEXITSTATUS(ended), "the import failed"
        return os.WIFSIGNALED(ended)

    def sources(self) -> None:
        os.makedirs(os.path.join(self.room, "photos"), exist_ok=True)
        for name, data in PHOTOS.items():
            with open(os.path.join(self.room, "photos", name), "wb") as file:
                file.write(data)

    def stored(self) -> Dict[p.Path, bytes]:
        """The files of the volume, as the client reads them."""
        with Client(self.way, program=UDFBURN or None, patience=PATIENCE) as client:
            return {
                at + (name.name,): client.get(at + (name.name,))
                for at, names in client.walk() for name in names if name.kind is p.NodeKind.FILE
            }

    def check(self, killed: bool) -> None:
        """A file has its path only whole, and a source is gone only if it has."""
        found = self.stored()
        whole: Dict[p.Path, bytes] = {("x", name): data for name, data in PHOTOS.items()}
        for path, data in found.items():
            assert is_unfinished(path) or whole[path] == data, path
        for name in PHOTOS:
            assert os.path.exists(os.path.join(self.room, "photos", name)) or ("x", name) in found, name
        if not killed:
            assert found == whole and not os.listdir(os.path.join(self.room, "photos"))
            assert self.count() == REQUESTS, self.count()

    def test_each_call(self) -> None:
        stop, killed = 1, True
        while killed:
            self.anew(stop)
            self.sources()
            killed = self.put(stop)
            self.check(killed)
            if killed:
                assert not self.put(0), "nobody killed it"
                self.check(False)
            stop += 1
        # Each request is kept, sent and answered, and each source goes.
        assert stop > REQUESTS, stop


class OverAModel(AtEachCall, WithServer):
    def anew(self, number: int) -> None:
        self.server.volume = Volume()
        self.ledger = os.path.join(self.room, f"{number}.sqlite")
        self.way = f"unix:{self.server.path}"

    def count(self) -> int:
        return self.volume.commits


class OnAnImage(AtEachCall, WithPrograms):
    def anew(self, number: int) -> None:
        for path in (self.image, self.ledger):
            if os.path.exists(path):
                os.unlink(path)
        self.ledger = os.path.join(self.room, f"{number}.sqlite")
        self.format(self.capacity)
        self.way = f"image:{self.image}"

    def count(self) -> int:
        assert self.udfburn("check", self.image) == b"sound %d\n" % REQUESTS
        return self.commits()

    def check(self, killed: bool) -> None:
        super().check(killed)
        if not killed:
            require_bytes(self.image)


class OverADaemon(OnAnImage):
    def anew(self, number: int) -> None:
        self.end_daemon()
        super().anew(number)
        self.daemon = self.serve()
        self.way = f"unix:{self.path}"

    def end_daemon(self) -> None:
        daemon = getattr(self, "daemon", None)
        if daemon is not None:
            daemon.kill()


class Lost(OverADaemon):
    """The same process goes on, where a conversation ends after so many answers, and all that was sent is carried out."""

    def test_each_call(self) -> None:
        """After each answer."""
        answers, cut = 0, True
        while cut:
            self.anew(answers)
            self.sources()
            relay = Relay(os.path.join(self.room, "relay"), self.path, answers)
            self.way = f"unix:{relay.path}"
            try:
                with self.subTest(answers=answers):
                    self.assertFalse(self.put(0))
            finally:
                relay.close()
            self.way = f"unix:{self.path}"
            self.check(False)
            answers, cut = answers + 1, relay.cut
        # To each request and to the question after it, and to those by which the volume is known.
        assert answers > 2 * REQUESTS, answers


class Known(WithPrograms):
    """What the ledger knows of such a file: by a digest of all its bytes it is checked, sealed and salvaged."""

    where = "image"

    def test_digests(self) -> None:
        for name, data in PHOTOS.items():
            self.write(f"photos/{name}", data)
        way = f"{self.where}:{self.image}"
        with Client(way, ledger=self.ledger, program=UDFBURN or None, patience=PATIENCE) as client:
            summary = put_all(client, [(os.path.join(self.room, "photos"), ("x",))], ImportOptions(recursive=True, verify=True))
            self.assertEqual((summary.verified, summary.failures), (2, []))
            if summary.blocks is not None:
                self.assertEqual(os.path.getsize(self.image) // p.limits.BLOCK, 262 + summary.blocks)
            self.assertEqual(seal_directory(client, ("x",), manifest_only=True).known, 2)
        require_bytes(self.image, manifest=True)
        self.assertEqual(self.told(), ([], 3))
        with open(self.image, "r+b") as file:
            at = file.read().index(PHOTOS["b.jpg"][-900_000:-898_000])
            file.seek(at + 5)
            file.write(b"other")
        self.assertEqual(self.told(), (["/x/b.jpg"], 3))
        found = self.run_command("salvage", self.image, os.path.join(self.room, "out"), "--ledger", self.ledger, status=1, where=[])
        self.assertEqual(self.read("out/x/a.jpg"), PHOTOS["a.jpg"])
        self.assertIn("b.jpg", found)

    def told(self) -> Tuple[List[str], int]:
        """The files that are not as they were stored, and how many the ledger covers."""
        told: List[str] = []
        with ledger_to_read(self.ledger, PATIENCE) as ledger, Medium(self.image) as medium:
            volume = ReadVolume(medium)
            coverage = Coverage(volume, volume.state())
            self.assertIsNotNone(coverage.take_ledger(ledger, image_key(self.image)))
            result = check_data(coverage, (), lambda path, how, commit: told.append(path))
        return told, result.by_ledger


class Left(WithPrograms):
    """A file that an interrupted command left: it is said to be one, and nobody takes it for a file of the user's."""

    def test_left(self) -> None:
        data = PHOTOS["a.jpg"]
        self.write("photos/b", b"small")
        name = unfinished_path(5, ("x", "a.jpg"))
        way = f"image:{self.image}"
        with Client(way, ledger=self.ledger, program=UDFBURN or None, patience=PATIENCE) as client:
            list(client.run([piece_request(name, 0, data[: p.limits.FILE], Moment(1)), piece_request(name, 1, data[p.limits.FILE : 2 * p.limits.FILE], Moment(1))]))
            client.create("/b", b"small")
            self.assertEqual(verify_tree(client, os.path.join(self.room, "photos"), ()).extra, [])
        self.assertIn(p.show(name), self.run_command("status", self.image, where=[]))
        self.assertEqual(of_image(self.image).unfinished, [p.show(name)])
        with closing(ImageView(self.image, Progress(False, False))) as view:
            latest = view.find(b"latest")
            assert isinstance(latest, ShownFolder)
            self.assertEqual((list(latest.names()), latest.find(name[0].encode())), ([b"b"], None))
        self.run_command("rm", p.show(name), where=["--image", self.image, "--ledger", self.ledger])
        self.assertEqual(of_image(self.image).unfinished, [])


def require_bytes(image: str, manifest: bool = False) -> None:
    """By the reader that shares no code with what writes volumes."""
    with Medium(image) as medium:
        volume = ReadVolume(medium)
        state = volume.state()
        found = {node.path: volume.read(node).data for node in state.walk() if node.kind is FileType.FILE}
        assert not manifest or found.pop(("x", "manifest-sha256.txt"))
        assert found == {("x", name): data for name, data in PHOTOS.items()}


if __name__ == "__main__":
    unittest.main()
