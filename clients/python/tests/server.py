"""A server in a thread, over the plain volume: it can lose conversations, fail, and answer nonsense. And a conversation without one,
in which nothing depends on who comes first."""

from __future__ import annotations

import os
import socket
import threading
from typing import Callable, List, Optional, Tuple

from udfburn.wire.connection import SOCKET_PIECE, Connection, Outgoing
from udfburn.protocol import Answer, Frames, Request, decode_message, encode_answer, frame

from .model import Volume

Say = Callable[[bytes, Answer], Optional[bytes]]
"""Gives the bytes to answer a payload with, by its payload and its true answer; None ends the conversation."""


def honestly(payload: bytes, answer: Answer) -> bytes:
    return frame(encode_answer(answer))


class Server:
    """Serves one conversation after another, as the daemon does."""

    def __init__(self, folder: str, volume: Optional[Volume] = None):
        self.path = os.path.join(folder, "socket")
        self.volume = volume or Volume()
        self.say: Say = honestly
        self.before: Callable[[bytes], Optional[Answer]] = lambda payload: None
        self.lost_behind: Optional[int] = None
        # Whether this conversation ends once nothing more comes, and what is done then, once.
        self.silent = False
        self.ended: Callable[[], object] = lambda: None
        # As the daemon does, all answers to what was read go out together; else each by itself.
        self.together = True
        self.requests: List[bytes] = []
        self.payloads: List[bytes] = []
        self.conversations = 0
        self.listener = socket.socket(socket.AF_UNIX)
        self.listener.bind(self.path)
        self.listener.listen(16)
        self.served = self.listener
        self.thread = threading.Thread(target=self.run, daemon=True)
        self.thread.start()

    def run(self) -> None:
        while True:
            try:
                connection, _ = self.listener.accept()
            except OSError:
                return
            self.conversations += 1
            self.served = connection
            with connection:
                try:
                    self.serve(connection)
                except OSError:
                    pass
                if self.silent:
                    self.silent = False
                    self.ended()
                    self.ended = lambda: None

    def serve(self, connection: socket.socket) -> None:
        frames, unsent = Frames(), b""
        while True:
            payload = frames.take()
            while payload is None:
                connection.sendall(unsent)
                unsent = b""
                connection.settimeout(0.03 if self.silent else None)
                piece = connection.recv(1 << 16)
                if not piece:
                    return
                frames.feed(piece)
                payload = frames.take()
            self.payloads.append(payload)
            answer = self.before(payload)
            if answer is None:
                answer = self.volume.answer_payload(payload)
            said = self.say(payload, answer)
            if said is None:
                connection.sendall(unsent)
                return
            unsent += said
            if self.lost_behind is not None:
                # After so many bytes of answers the conversation is lost.
                kept, self.lost_behind = said[: self.lost_behind], self.lost_behind - len(said)
                if self.lost_behind <= 0:
                    self.lost_behind = None
                    connection.sendall(unsent[: len(unsent) - len(said)] + kept)
                    return
            if not self.together:
                connection.sendall(unsent)
                unsent = b""

    def close(self) -> None:
        for stream in (self.listener, self.served):
            try:
                # It wakes who waits there, as closing alone does not.
                stream.shutdown(socket.SHUT_RDWR)
            except OSError:
                # The conversation is over.
                pass
        # Else it may still accept, by the descriptor of the next server.
        self.thread.join()
        self.listener.close()
        os.unlink(self.path)


class Direct(Connection):
    """A conversation with the plain volume itself: what goes out is answered at once, and comes in pieces of at most so many bytes."""

    def __init__(self, volume: Volume, most: int = SOCKET_PIECE):
        super().__init__()
        self.volume, self.most = volume, most
        self.asked, self.coming = Frames(), bytearray()

    def close(self) -> None:
        pass

    def _wait(self, limit: float, writing: bool) -> Tuple[bool, bool]:
        assert self.coming or writing, "what is waited for never comes"
        return bool(self.coming), writing

    def _read(self, most: int) -> bytes:
        piece = bytes(self.coming[: min(most, self.most)])
        del self.coming[: len(piece)]
        return piece

    def _write(self, pieces: List[Outgoing]) -> int:
        self.asked.feed(b"".join(pieces))
        payload = self.asked.take()
        while payload is not None:
            self.coming += honestly(payload, self.volume.answer_payload(payload))
            payload = self.asked.take()
        return sum(map(len, pieces))


def is_probe(payload: bytes) -> bool:
    """Whether this is a request by which a client learns its latest number or a reply that is kept: a removal of the root at moment 0."""
    return len(payload) == 26 and payload[0] == 5 and not any(payload[17:])


def request_of(payload: bytes) -> Optional[Request]:
    """The request of a payload that is one, and no probe."""
    message = decode_message(payload)
    return message if isinstance(message, Request) and not is_probe(payload) else None
