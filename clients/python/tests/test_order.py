"""The order of what the client does, by a log of its calls: what the ledger has on its disk when a request goes out, and when a
source is removed, wherever the power fails."""

from __future__ import annotations

import os
import random
import sqlite3
import struct
import subprocess
import sys
import unittest
from enum import IntEnum
from typing import Dict, Iterator, List, NamedTuple, Optional, Set, Tuple

from udfburn import protocol as p

from .server import request_of
from .with_server import PACKAGE, WithServer

HERE = os.path.dirname(os.path.abspath(__file__))
RECORD = struct.Struct("<4Iq")
PENDING = "SELECT number, payload, origin, start, size FROM request JOIN frame ON frame.id = volume * 64 + number % 64 WHERE code IS NULL"
CONFIRMED = "SELECT path FROM request WHERE code = 0 AND confirmed"


class Kind(IntEnum):
    """What a call did; in the order of calls.c."""

    WRITTEN = 0
    SYNCED = 1
    CUT = 2
    REMOVED = 3
    SENT = 4
    RENAMED = 5


class Call(NamedTuple):
    kind: Kind
    path: str
    offset: int
    data: bytes


def read_calls(log: str) -> Iterator[Call]:
    """The calls of a log, in order."""
    with open(log, "rb") as file:
        while True:
            head = file.read(RECORD.size)
            if not head:
                return
            kind, path, data, _, offset = RECORD.unpack(head)
            yield Call(Kind(kind), os.fsdecode(file.read(path)), offset, file.read(data))


class Kept:
    """A file: what a power loss leaves for certain, and the writes and cuts since, of which it may leave any."""

    def __init__(self) -> None:
        self.certain = bytearray()
        self.since: List[Call] = []

    def sync(self) -> None:
        self.certain = self.left(self.since)
        self.since = []

    def left(self, calls: List[Call]) -> bytearray:
        """What is there where these of the calls reached the disk."""
        found = bytearray(self.certain)
        for call in calls:
            if call.kind is Kind.CUT:
                del found[call.offset :]
                found.extend(bytes(call.offset - len(found)))
            else:
                found.extend(bytes(max(0, call.offset - len(found))))
                found[call.offset : call.offset + len(call.data)] = call.data
        return found


Files = Dict[str, bytes]


class Disk:
    """The files in a folder, as a power loss may leave them. A file that is renamed has its old name or its new one until
    the folder is synchronised."""

    def __init__(self, folder: str) -> None:
        self.folder = folder
        self.files: Dict[str, Kept] = {}
        self.renamed: Dict[str, str] = {}
        self.chance = random.Random(5)

    def take(self, call: Call) -> None:
        if call.path == self.folder:
            for new, old in self.renamed.items():
                self.files[new] = self.files.pop(old)
            self.renamed = {}
            return
        path = self.renamed.get(call.path, call.path)
        if call.kind is Kind.RENAMED:
            self.renamed[os.fsdecode(call.data)] = path
            return
        file = self.files.setdefault(path, Kept())
        if call.kind is Kind.SYNCED:
            file.sync()
        elif call.kind is Kind.REMOVED:
            del self.files[path]
        else:
            file.since.append(call)

    def states(self) -> List[Files]:
        """The disk with none of what was not synchronised, with all of it, and with some by chance."""
        return [self.left(share) for share in (0.0, 1.0, 0.5)]

    def left(self, share: float) -> Files:
        """The disk with this share of what was not synchronised."""
        files = {path: bytes(file.left([call for call in file.since if self.chance.random() < share])) for path, file in self.files.items()}
        for new, old in self.renamed.items():
            if self.chance.random() < share:
                files[new] = files.pop(old)
        return files


class Order(WithServer):
    """An import that deletes its sources, followed call by call."""

    FILES = 48
    whole = led = most = 0

    def setUp(self) -> None:
        super().setUp()
        self.room = os.path.realpath(self.room)
        self.sources = os.path.join(self.room, "sources")
        os.makedirs(self.sources)
        chance = random.Random(6)
        self.stored: Dict[str, bytes] = {}
        for index in range(self.FILES):
            # Some take one page of the ledger, some several, and some so many that it keeps only where their bytes are: one of these
            # is more than a socket takes at once.
            size = {5: 70_000, 17: 600_000, 18: 70_000}.get(index, chance.randrange(9000))
            path = os.path.join(self.sources, f"f{index}")
            self.stored[path] = chance.randbytes(size)
            with open(path, "wb") as file:
                file.write(self.stored[path])

    def logged(self, *words: str) -> List[Call]:
        """Imports in a process of its own, and gives its calls on the ledger, its removals and what it sent."""
        library, log = os.path.join(self.room, "calls.so"), os.path.join(self.room, "log")
        subprocess.run(["cc", "-O1", "-Wall", "-shared", "-fPIC", "-o", library, os.path.join(HERE, "calls.c"), "-ldl"], check=True)
        environment = {**os.environ, "PYTHONPATH": PACKAGE, "LD_PRELOAD": library, "WATCHED": self.room, "WATCHED_LOG": log}
        ledger = os.path.join(self.room, "kept", "ledger.sqlite")
        command = [sys.executable, "-m", "udfburn", "put", "-r", "--quiet", "--delete-source", *words, "--ledger", ledger]
        subprocess.run([*command, "--socket", self.server.path, self.sources, "/x"], check=True, env=environment)
        return list(read_calls(log))

    def asked(self, files: Files, words: str) -> List[Tuple[object, ...]]:
        """What a ledger has that is opened after a power loss."""
        room = os.path.join(self.room, "after")
        os.makedirs(room, exist_ok=True)
        for name in ("ledger.sqlite", "ledger.sqlite-wal"):
            data = files.get(os.path.join(self.room, "kept", name))
            if data is not None:
                with open(os.path.join(room, name), "wb") as file:
                    file.write(data)
        base = sqlite3.connect(os.path.join(room, "ledger.sqlite"))
        try:
            return base.execute(words).fetchall()
        except sqlite3.DatabaseError:
            # What was never synchronised is no ledger yet.
            return []
        finally:
            base.close()
            for name in os.listdir(room):
                os.unlink(os.path.join(room, name))

    def kept_payload(self, row: Tuple[object, ...]) -> object:
        """The payload that a row of a pending request leads to, with the data of its source where it has none itself."""
        _, payload, origin, start, size = row
        if origin is None:
            return payload
        assert isinstance(payload, bytes) and isinstance(origin, bytes) and isinstance(start, int) and isinstance(size, int)
        self.led += 1
        return payload + self.stored[os.fsdecode(origin)][start : start + size]

    def check_sent(self, states: List[Files], payload: bytes, sent: Set[int]) -> None:
        """A request that goes out is pending in every state, with at most 63 others."""
        request = request_of(payload)
        if request is None:
            return
        sent.add(request.number)
        for state in states:
            pending: Dict[object, object] = {row[0]: self.kept_payload(row) for row in self.asked(state, PENDING)}
            self.assertEqual(pending.get(request.number), payload, f"request {request.number} was sent before it was kept")
            self.assertLessEqual(len(pending), 64)
            self.most = max(self.most, len(pending))

    def check_whole(self, states: List[Files]) -> None:
        """A file of the ledger's name is a whole ledger in every state."""
        for state in states:
            if os.path.join(self.room, "kept", "ledger.sqlite") in state:
                self.assertEqual(len(self.asked(state, "SELECT client FROM ledger WHERE version = 6")), 1)
                self.whole += 1

    def follow(self, calls: List[Call]) -> "tuple[Set[int], Set[str]]":
        """Checks each call, and gives the numbers that were sent and the sources that were removed."""
        kept = os.path.join(self.room, "kept")
        disk, sent, removed = Disk(kept), set(), set()  # type: ignore[var-annotated]
        stream, begun = p.Frames(), disk.states()
        for call in calls:
            if call.kind is Kind.SENT:
                states = disk.states()
                begun = begun if stream.rest() else states
                stream.feed(call.data)
                payload: Optional[bytes] = stream.take()
                while payload is not None:
                    self.check_sent(begun, payload, sent)
                    begun, payload = states, stream.take()
            elif call.kind is Kind.REMOVED and call.path.startswith(self.sources):
                path = "/x/" + os.path.basename(call.path)
                for state in disk.states():
                    self.assertIn((path,), self.asked(state, CONFIRMED), f"{path} was removed before its reply was kept")
                removed.add(path)
            elif call.path == kept or call.path.startswith(os.path.join(kept, "ledger.sqlite")):
                disk.take(call)
                if not stream.bytes:
                    self.check_whole(disk.states())
        return sent, removed

    def check(self, *words: str) -> None:
        self.whole = self.led = self.most = 0
        sent, removed = self.follow(self.logged(*words))
        self.assertGreater(self.whole, 3)
        # Each of the three in each state in which it is pending.
        self.assertGreaterEqual(self.led, 9)
        self.assertGreater(self.most, 32)
        self.assertEqual(sent, set(range(1, self.FILES + 2)))
        self.assertEqual(removed, {f"/x/f{index}" for index in range(self.FILES)})
        self.assertEqual(len(self.volume.files()), self.FILES)

    def test_kept_then_sent_and_kept_then_removed(self) -> None:
        self.check()

    def test_also_where_bytes_are_read_back(self) -> None:
        self.check("--verify")


if __name__ == "__main__":
    unittest.main()
