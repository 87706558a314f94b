"""What a connection sends: pieces as they are, whole and in order, while answers come in."""

from __future__ import annotations

import os
import random
import shutil
import socket
import tempfile
import threading
import unittest
from collections import deque
from contextlib import suppress
from types import SimpleNamespace
from typing import Deque, List, Optional, Tuple
from unittest import mock

from udfburn import protocol as p
from udfburn.ledger.records import LARGE_DATA
from udfburn.protocol.units import Moment
from udfburn.session.in_flight import InFlightRequest
from udfburn.wire.connection import PIECES_AT_ONCE, Connection, ImageConnection, Outgoing, UnixConnection, take_out
from udfburn.wire.operations import Operation, Origin

from .programs import PATIENCE
from .server import Direct
from .with_server import WithServer

MOST_OF_SYSTEM = 1024
"""Pieces that Linux takes in one call (IOV_MAX)."""


class TakenOut(unittest.TestCase):
    PIECES: List[Outgoing] = [b"ab", b"", b"cde", b"f", memoryview(b"ghij")]

    def test_each_count(self) -> None:
        """What has not gone is left, also where more goes afterwards, and no byte of it is copied."""
        for gone in range(11):
            for more in range(11 - gone):
                left: Deque[Outgoing] = deque(self.PIECES)
                take_out(left, gone)
                take_out(left, more)
                self.assertEqual(b"".join(left), b"abcdefghij"[gone + more :])
                for piece in left:
                    self.assertTrue(any(self.owner(piece) is self.owner(whole) for whole in self.PIECES), (gone, more))

    def owner(self, piece: Outgoing) -> object:
        """The bytes that a piece shows."""
        return piece.obj if isinstance(piece, memoryview) else piece


class Narrow(Connection):
    """A connection that has room for few bytes at once, and sometimes for none."""

    def __init__(self, room: List[int]):
        super().__init__(10.0)
        self.room, self.went, self.calls = deque(room), bytearray(), 0
        self.waits: List[Tuple[float, Optional[float]]] = []

    def now(self) -> float:
        """A clock that counts the calls."""
        return float(self.calls)

    def _wait(self, limit: float, writing: bool) -> Tuple[bool, bool]:
        self.waits.append((limit, self.since))
        if self.since is None:
            self.since = self.now()
        return False, True

    def _write(self, pieces: List[Outgoing]) -> int:
        assert 0 < len(pieces) <= PIECES_AT_ONCE and all(pieces), "a call has pieces, few enough, and bytes in each"
        self.calls += 1
        room = self.room[0]
        self.room.rotate(-1)
        went = b"".join(pieces)[:room]
        self.went += went
        return len(went)


class InPieces(unittest.TestCase):
    def test_any_room(self) -> None:
        pieces = [b"%d" % index if index % 3 else b"" for index in range(4 * PIECES_AT_ONCE)] + [b""] * 2 * PIECES_AT_ONCE + [b"last"]
        for room in ([1], [0, 2, 0, 0, 5], [1, 700, 3], [1 << 20]):
            connection = Narrow(room)
            connection.send(*pieces)
            self.assertEqual(bytes(connection.went), b"".join(pieces), room)

    def test_few_calls(self) -> None:
        """Where there is room, as many pieces go at once as may be."""
        connection = Narrow([1 << 20])
        connection.send(*[b"x"] * (3 * PIECES_AT_ONCE + 1))
        self.assertEqual(connection.calls, 4)

    def test_the_wait(self) -> None:
        """A wait and its limit begin anew where something went, and go on where nothing did."""
        connection = Narrow([0, 2, 0, 0, 1])
        with mock.patch("udfburn.wire.connection.time", SimpleNamespace(monotonic=connection.now)):
            connection.send(b"ab", b"cd")
        self.assertEqual(connection.waits, [(10.0, None), (12.0, None), (12.0, 2.0), (12.0, 2.0), (15.0, None), (15.0, 5.0)])
        self.assertIsNone(connection.since)

    def test_nothing(self) -> None:
        connection = Narrow([1])
        connection.send()
        connection.send(b"", b"")
        self.assertEqual(connection.calls, 0)


class Echo:
    """Sends back what comes over a socket. It takes no more while nobody takes that."""

    def __init__(self, path: str):
        self.listener = socket.socket(socket.AF_UNIX)
        self.listener.bind(path)
        self.listener.listen(1)
        self.thread = threading.Thread(target=self.run, daemon=True)
        self.thread.start()

    def run(self) -> None:
        connection, _ = self.listener.accept()
        # Whoever waits for ever is left.
        connection.settimeout(PATIENCE)
        # As little as the system allows.
        connection.setsockopt(socket.SOL_SOCKET, socket.SO_SNDBUF, 1)
        with connection, suppress(OSError):
            piece = connection.recv(700)
            while piece:
                connection.sendall(piece)
                piece = connection.recv(700)

    def close(self) -> None:
        self.thread.join(PATIENCE)
        self.listener.close()


class OverSockets(unittest.TestCase):
    """Many pieces over a socket with little room, from which all comes back meanwhile."""

    def setUp(self) -> None:
        self.room = tempfile.mkdtemp()
        self.addCleanup(shutil.rmtree, self.room)
        patched = mock.patch("udfburn.wire.connection.SEND_BUFFER", 1)
        patched.start()
        self.addCleanup(patched.stop)
        chance = random.Random(5)
        self.payloads = [chance.randbytes(chance.choice((0, 1, 20, 3000))) for _ in range(400)]
        self.pieces = self.cut(b"".join(map(p.frame, self.payloads)), chance)
        # One that goes in many parts.
        self.payloads.append(chance.randbytes(300_000))
        self.pieces += [p.frame(self.payloads[-1]), b""]
        self.assertGreater(len([piece for piece in self.pieces if piece]), 2 * MOST_OF_SYSTEM)

    def cut(self, stream: bytes, chance: random.Random) -> List[bytes]:
        """A stream in pieces, some of which are empty."""
        pieces = [b""] * 2 * MOST_OF_SYSTEM
        while stream:
            size = chance.choice((0, 1, 5, 300))
            pieces.append(stream[:size])
            stream = stream[size:]
        return pieces

    def require_all_back(self, connection: Connection) -> None:
        """Sends the pieces. What they say comes back, most of it before the last of them went."""
        connection.send(*self.pieces)
        self.assertGreater(connection.frames.rest(), 300_000)
        for index, payload in enumerate(self.payloads):
            self.assertTrue(connection.payload() == payload, index)
        self.assertEqual((connection.ready(), connection.since), (None, None))

    def test_a_daemon(self) -> None:
        path = os.path.join(self.room, "socket")
        echo = Echo(path)
        self.addCleanup(echo.close)
        connection = UnixConnection(path, PATIENCE)
        self.addCleanup(connection.close)
        self.require_all_back(connection)

    def test_a_program(self) -> None:
        program = os.path.join(self.room, "echo")
        with open(program, "w", encoding="ascii") as file:
            file.write(f"#!/bin/sh\nexec timeout {PATIENCE} cat\n")
        os.chmod(program, 0o700)
        connection = ImageConnection(os.path.join(self.room, "disc.img"), program, PATIENCE)
        self.addCleanup(connection.close)
        self.require_all_back(connection)


class Requests(WithServer):
    """The pieces of a request."""

    def operations(self) -> List[Operation]:
        path, origin = ("d", "a"), Origin("/somewhere", 0, LARGE_DATA, 5)
        plain = [Operation(p.MakeDir, path, Moment(1)), Operation(p.Rename, path, Moment(2), to=("b",)), Operation(p.Remove, path, Moment(3))]
        data = [bytes(size) for size in (0, 1, LARGE_DATA - 1, LARGE_DATA, p.limits.FILE)]
        writing = [
            Operation(kind, path, Moment(4), some, origin=where, offset=p.limits.FILE if kind is p.Append else 0)
            for kind in (p.Create, p.Replace, p.Append) for some in data for where in (None, origin) if some or kind is not p.Append
        ]
        return plain + writing

    def test_the_stream(self) -> None:
        """It has the payload in its frame, and a question for each path. The ledger has the payload too, without data that it finds again."""
        operations = self.operations()
        self.assertEqual(len(operations), 3 + 10 + 10 + 8)
        for operation in operations:
            request = InFlightRequest(operation, 7, 9)
            payload = p.encode_message(operation.request(7, 9))
            paths = [operation.path] + ([operation.to] if operation.kind is p.Rename else [])
            questions = b"".join([p.frame(p.encode_message(p.Stat(path))) for path in paths])
            self.assertEqual(b"".join(request.frames), p.frame(payload) + questions)
            self.assertEqual((request.payload(), request.size()), (payload, len(payload) + 4 + len(questions)))
            is_found_again = operation.origin is not None and len(operation.data) >= LARGE_DATA
            self.assertEqual(request.pending.origin, operation.origin if is_found_again else None)
            self.assertEqual(request.pending.payload, payload[: len(payload) - len(operation.data)] if is_found_again else payload)

    def test_data_is_not_copied(self) -> None:
        """What goes to the socket is the very data that was given."""
        sent: List[Outgoing] = []
        write = Direct._write

        def watched(connection: Direct, pieces: List[Outgoing]) -> int:
            sent.extend(pieces)
            return write(connection, pieces)

        operations = [
            Operation(p.Create, ("a",), Moment(1), bytes(p.limits.FILE)), Operation(p.Append, ("a",), Moment(2), b"piece", offset=p.limits.FILE),
            Operation(p.Create, ("b",), Moment(3), bytes(LARGE_DATA), origin=Origin("/somewhere", 0, LARGE_DATA, 5)),
        ]
        client = self.client()
        with client, self.direct(client), mock.patch.object(Direct, "_write", watched):
            self.assertEqual([outcome.code for outcome in client.run(operations)], [p.Code.DONE] * 3)
        for operation in operations:
            self.assertTrue(any(piece is operation.data for piece in sent), operation.path)


if __name__ == "__main__":
    unittest.main()
