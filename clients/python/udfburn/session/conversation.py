"""The beginning and the end of a conversation: which volume of the ledger is there, and by what it is known again."""

from __future__ import annotations

import sqlite3
from contextlib import contextmanager
from typing import Iterator, Optional

from ..base.errors import ForeignReply, UdfburnError
from ..image.identity import Looked, looked_at, opened_path
from ..ledger.ledger import Ledger
from ..ledger.records import KnownVolume
from ..protocol import Committed
from ..protocol.units import Commit
from ..wire.connection import Connection, Lost
from ..wire.retrying import Greeter, RetryingConnection
from .recognition import Meeting, Recognizer, see


class Conversation(Greeter):
    """The conversations with one volume, one after another. `commit` is the last that was acknowledged."""

    def __init__(self, line: RetryingConnection, ledger: Ledger, shared: bool):
        self.line = line
        self.ledger = ledger
        self.shared = shared
        self.key = line.endpoint.key()
        self.commit = Commit(0)
        self._volume: Optional[KnownVolume] = None
        self._forgetting = False
        line.greeted_by(self)

    def greet(self, connection: Connection) -> None:
        """Finds which volume of the ledger this is, before anything else is sent."""
        seen = see(connection, self.ledger.client)
        with self._image(connection) as image:
            meeting = Meeting(Recognizer(self.ledger, str(self.line.endpoint), connection, seen, image, self.shared), self.key)
            self._volume = meeting.anew() if self._forgetting else meeting.volume()
        self.commit = self.ledger.last_commit(self._volume)

    @contextmanager
    def _image(self, connection: Connection) -> Iterator[Optional[Looked]]:
        """The image that the program of a conversation has; None over a socket."""
        if self.line.endpoint.kind != "image":
            yield None
            return
        with looked_at(opened_path(connection, self.line.endpoint.path)) as image:
            yield image

    def part(self, connection: Connection) -> None:
        """Keeps the last commit of an image, while nobody else writes to it: by that it is known again. Where this fails, it is known
        by an earlier one and by the replies."""
        volume = self._volume
        if volume is None or self.line.endpoint.kind != "image" or volume.mark is not None and volume.mark.commit >= self.commit:
            return
        try:
            if self.ledger.pending(volume):
                return
            with self._image(connection) as image:
                if image is not None and image.commit >= self.commit:
                    self._volume = self.ledger.identify(volume, image.identity, image.newest())
        except (OSError, UdfburnError, Lost, sqlite3.Error):
            pass

    def anew(self) -> None:
        """Begins one for which nothing of the volume counts that the ledger has pending, but for the number that the volume knows."""
        self._forgetting = True
        try:
            self.line.drop()
            self.line.get()
        finally:
            self._forgetting = False

    def volume(self) -> KnownVolume:
        """The volume, once a connection was made."""
        if self._volume is None:
            raise RuntimeError("no connection was made yet, so the volume is not known")
        return self._volume

    def check_commit(self, reply: Committed) -> None:
        """Replies of one client have commits that rise."""
        if reply.commit <= self.commit:
            raise ForeignReply(
                f"a reply says commit {reply.commit}, and commit {self.commit} was acknowledged before: it is the reply of"
                f" another ledger with client {self.ledger.client}. Use a new ledger with a client of its own (--ledger FILE)"
            )
        self.commit = reply.commit


__all__ = ["Conversation"]
