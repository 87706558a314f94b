"""A server in this process, which answers by the plain model of a volume, and clients of it."""

from __future__ import annotations

import os
import shutil
import sqlite3
import tempfile
import time
import unittest
from typing import Any, Callable, List, Optional
from unittest import mock

from udfburn import Client
from udfburn import protocol as p
from udfburn.protocol.units import Moment
from udfburn.wire.connection import SOCKET_PIECE
from udfburn.wire.operations import Operation

from .model import Volume
from .programs import PATIENCE
from .server import Direct, Server

PACKAGE = os.path.join(os.path.dirname(__file__), "..")


def await_true(question: Callable[[], bool]) -> None:
    """Waits for what another thread does."""
    limit = time.monotonic() + PATIENCE
    while not question():
        if time.monotonic() > limit:
            raise AssertionError("it did not come")
        time.sleep(0.001)


class WithServer(unittest.TestCase):
    def setUp(self) -> None:
        self.room = tempfile.mkdtemp()
        self.addCleanup(shutil.rmtree, self.room)
        # No pause of a loaded machine ends a turn: tests of turns set their own.
        turn = mock.patch("udfburn.wire.retrying.TURN", PATIENCE)
        turn.start()
        self.addCleanup(turn.stop)
        self.server = Server(self.room)
        self.addCleanup(lambda: self.server.close())
        self.ledger = os.path.join(self.room, "ledger.sqlite")

    def client(self, ledger: Optional[str] = None, client: Optional[int] = None, patience: float = PATIENCE) -> Client:
        made = Client(f"unix:{self.server.path}", client, ledger or self.ledger, patience=patience, timeout=PATIENCE)
        self.addCleanup(made.close)
        return made

    def direct(self, client: Client, most: int = SOCKET_PIECE) -> Any:
        """A client's conversations are held with the volume itself meanwhile, whose answers come in pieces of at most so many bytes."""
        return mock.patch.object(client.endpoint, "open", lambda *_: Direct(self.volume, most))

    def kept(self, words: str) -> "list[tuple[int, object]]":
        """What the ledger has, as another process would find it after a crash at this moment."""
        copy = os.path.join(self.room, "copy.sqlite")
        for end in ("", "-wal"):
            if os.path.exists(self.ledger + end):
                shutil.copy(self.ledger + end, copy + end)
        base = sqlite3.connect(copy)
        try:
            return base.execute(words).fetchall()
        finally:
            base.close()
            os.unlink(copy)

    @property
    def volume(self) -> Volume:
        return self.server.volume


def creates(count: int, begin: int = 0) -> List[Operation]:
    return [Operation(p.Create, (f"f{index}",), Moment(index), bytes((index % 256,)) * index) for index in range(begin, begin + count)]
