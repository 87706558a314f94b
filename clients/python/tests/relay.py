"""A socket before a daemon's, at which a conversation ends after so many answers."""

from __future__ import annotations

import os
import select
import socket
import threading
from typing import Optional

from udfburn.protocol import Frames, frame

QUIET = 0.3
"""Seconds after which a daemon that says nothing has carried out what came in."""


class Relay:
    """Passes conversations on, one after another. After so many answers, in all of them together, no further one passes: what the client
    sent is carried out, and the conversation ends. Later ones are passed on whole. `cut` says whether that was so."""

    def __init__(self, path: str, daemon: str, answers: int):
        self.path, self.daemon, self.left = path, daemon, answers
        self.cut = False
        self.listener = socket.socket(socket.AF_UNIX)
        if os.path.exists(path):
            os.unlink(path)
        self.listener.bind(path)
        self.listener.listen(4)
        self.thread = threading.Thread(target=self._run, daemon=True)
        self.thread.start()

    def _run(self) -> None:
        while True:
            try:
                client, _ = self.listener.accept()
            except OSError:
                return
            with client, socket.socket(socket.AF_UNIX) as daemon:
                daemon.connect(self.daemon)
                try:
                    self._pass_on(client, daemon)
                except OSError:
                    # The client has ended it.
                    pass

    def _pass_on(self, client: socket.socket, daemon: socket.socket) -> None:
        frames = Frames()
        while True:
            lost = self.left <= 0 and not self.cut
            readable, _, _ = select.select([client, daemon], [], [], QUIET if lost else None)
            if not readable:
                self.cut = True
                return
            for source in readable:
                piece = source.recv(1 << 16)
                if not piece:
                    return
                if source is client:
                    daemon.sendall(piece)
                else:
                    self._answer(client, frames, piece)

    def _answer(self, client: socket.socket, frames: Frames, piece: bytes) -> None:
        frames.feed(piece)
        payload: Optional[bytes] = frames.take()
        while payload is not None:
            if self.left > 0 or self.cut:
                client.sendall(frame(payload))
            self.left -= 1
            payload = frames.take()

    def close(self) -> None:
        self.listener.shutdown(socket.SHUT_RDWR)
        self.thread.join()
        self.listener.close()
