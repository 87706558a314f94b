"""A recorder for programs of this machine: it answers the commands that test/disc/sg.c takes from a program's SG_IO, over a Unix socket.

So the C library's drive is tried without a kernel, a command in some 0.1 ms: hundreds of losses of power and failed writes in the time that
a virtual machine needs to start.
"""

from __future__ import annotations

import select
import socket
import struct
import time
from threading import Lock, Thread
from typing import Optional

from recorder import PowerLost, Recorder

HEAD = struct.Struct("<B16sBII")
TAIL = struct.Struct("<BBII")


class Line:
    """Serves a recorder at a socket. One program has it at a time."""

    def __init__(self, path: str, recorder: Recorder):
        self.recorder = recorder
        self.commands = 0
        self._held = Lock()
        self._holder: Optional[socket.socket] = None
        self._socket = socket.socket(socket.AF_UNIX)
        self._socket.bind(path)
        self._socket.listen()
        Thread(target=self._accept, daemon=True).start()

    def close(self) -> None:
        # A thread that waits in accept is not woken up by close alone.
        self._socket.shutdown(socket.SHUT_RDWR)
        self._socket.close()

    def _accept(self) -> None:
        while True:
            try:
                connection = self._socket.accept()[0]
            except OSError:
                return
            Thread(target=self._serve, args=(connection,), daemon=True).start()

    def _serve(self, connection: socket.socket) -> None:
        with connection:
            free = self._taken(connection)
            try:
                connection.sendall(bytes([not free]))
                while free and self._answer(connection):
                    pass
            except (PowerLost, ConnectionError):
                pass
            finally:
                if free:
                    self._holder = None
                    self._held.release()

    def _taken(self, connection: socket.socket) -> bool:
        """Whether a program gets the recorder: not while another one has it. One that has ended may have left a command under way."""
        while not self._held.acquire(blocking=False):
            holder = self._holder
            if holder is not None and not has_left(holder):
                return False
            time.sleep(0.001)
        self._holder = connection
        return True

    def _answer(self, connection: socket.socket) -> bool:
        """Answers a command. False where there is none any more."""
        head = exactly(connection, HEAD.size)
        if head is None:
            return False
        length, block, _, room, goes = HEAD.unpack(head)
        data = exactly(connection, goes) or b""
        self.commands += 1
        status, found, sense = self.recorder.command(block[:length].ljust(16, b"\0"), data)
        found = found[:room]
        rest = room - goes if goes else room - len(found)
        connection.sendall(TAIL.pack(status, len(sense), len(found), rest) + found + sense)
        return True


def has_left(connection: socket.socket) -> bool:
    """Whether the other end is closed, whatever it sent before."""
    ready = select.poll()
    try:
        ready.register(connection, 0)
    except ValueError:
        return True
    return bool(ready.poll(0))


def exactly(connection: socket.socket, count: int) -> Optional[bytes]:
    """So many bytes; None where the other end has gone."""
    found = bytearray()
    while len(found) < count:
        piece = connection.recv(count - len(found))
        if not piece:
            return None
        found += piece
    return bytes(found)
