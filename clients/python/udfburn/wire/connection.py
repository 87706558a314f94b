"""Connections to a volume: over a daemon's socket, or to the program `udfburn apply`, which has the image."""

from __future__ import annotations

import os
import select
import socket
import struct
import time
from collections import deque
from contextlib import suppress
from itertools import islice
from typing import IO, Deque, List, Optional, Union

from ..base.errors import ProgramFailed, UsageError
from ..protocol import Answer, Frames, decode_answer, is_bytes, shown

SOCKET_PIECE = 1 << 18
"""Bytes that are read at once."""

PIECES_AT_ONCE = 512
"""Pieces that are sent at once: the system takes up to 1,024 (IOV_MAX)."""

Outgoing = Union[bytes, memoryview]
"""What is sent as it is, without a copy."""

LONGEST_WAIT = 1e6
"""The longest wait for an answer, in seconds: the system counts them in milliseconds of 32 bits."""

SEND_BUFFER = 1 << 22
"""Bytes that may be on their way to a daemon, if the system allows it: it answers what is there when it looks together."""


class Lost(Exception):
    """The conversation ended: what was sent without an answer may have been taken or not."""


class Connection:
    """A conversation: frames go out, answers come in, in order. Both directions move at once, so that neither
    side waits for the other to read.

    `since` is when the wait began in which nothing has come or gone yet; None where none is.
    """

    def __init__(self, timeout: float = 120.0) -> None:
        self.frames = Frames()
        self.timeout = timeout
        self.since: Optional[float] = None

    def send(self, *pieces: bytes) -> None:
        """Sends pieces of frames, in order, and takes what comes in meanwhile."""
        # Of empty pieces alone nothing would go, as where there is no room.
        waiting: Deque[Outgoing] = deque([piece for piece in pieces if piece])
        limit = time.monotonic() + self.timeout
        while waiting:
            gone = self._write(list(islice(waiting, PIECES_AT_ONCE)))
            take_out(waiting, gone)
            if gone:
                self.since = None
                limit = time.monotonic() + self.timeout
            if waiting:
                readable, writable = self._wait(limit, writing=True)
                if readable:
                    self._feed()

    def answer(self) -> Answer:
        """The next answer."""
        return decode_answer(self.payload())

    def payload(self) -> bytes:
        """The payload of the next answer."""
        limit = time.monotonic() + self.timeout
        while True:
            payload = self.frames.take()
            if payload is not None:
                return payload
            self._wait(limit, writing=False)
            self._feed()

    def ready(self) -> Optional[bytes]:
        """The payload of the next answer if it is here already."""
        return self.frames.take()

    def rest(self) -> None:
        """Takes what came before the conversation was lost, for `ready`."""
        with suppress(Lost):
            piece = self._read(SOCKET_PIECE)
            while piece:
                self.frames.feed(piece)
                piece = self._read(SOCKET_PIECE)

    def close(self) -> None:
        """Ends the conversation."""
        raise NotImplementedError

    def served_image(self) -> Optional[str]:
        """The image at the other end, where it is known."""
        return None

    def opener(self) -> Optional[int]:
        """The process that has the image open for this conversation. None over a socket."""
        return None

    def _feed(self) -> None:
        self._take(self._read(SOCKET_PIECE))

    def _take(self, piece: Optional[bytes]) -> None:
        if piece is None:
            return
        if not piece:
            raise self._ended()
        self.since = None
        self.frames.feed(piece)

    def _wait(self, limit: float, writing: bool) -> "tuple[bool, bool]":
        source, sink = self._descriptors()
        now = time.monotonic()
        if self.since is None:
            self.since = now
        poll = select.poll()
        poll.register(source, select.POLLIN | (select.POLLOUT if writing and sink == source else 0))
        if writing and sink != source:
            poll.register(sink, select.POLLOUT)
        found = poll.poll(max(0.0, limit - now) * 1000)
        if not found:
            raise Lost(f"nothing came for {self.timeout:.3g} seconds")
        # An end or an error is found by reading or writing.
        if not writing:
            return True, False
        return (
            any(descriptor == source and event & ~select.POLLOUT for descriptor, event in found),
            any(descriptor == sink and event & ~select.POLLIN for descriptor, event in found),
        )

    def _ended(self) -> Exception:
        return Lost("the conversation was ended")

    def _descriptors(self) -> "tuple[int, int]":
        raise NotImplementedError

    def _read(self, most: int) -> Optional[bytes]:
        raise NotImplementedError

    def _write(self, pieces: List[Outgoing]) -> int:
        """Sends as much of pieces as there is room for, and gives how many bytes went."""
        raise NotImplementedError


def take_out(pieces: Deque[Outgoing], gone: int) -> None:
    """Takes so many bytes from the beginning of pieces. Of a piece that went in part a view of its rest stays."""
    while gone:
        piece = pieces.popleft()
        if gone < len(piece):
            pieces.appendleft(memoryview(piece)[gone:])
            return
        gone -= len(piece)


class UnixConnection(Connection):
    """A conversation with a daemon over its Unix socket."""

    def __init__(self, path: str, timeout: float = 120.0):
        super().__init__(timeout)
        self.socket = socket.socket(socket.AF_UNIX, socket.SOCK_STREAM)
        # As much as may be: what is on its way while the daemon is at work need not be sent afterwards.
        self.socket.setsockopt(socket.SOL_SOCKET, socket.SO_SNDBUF, SEND_BUFFER)
        # With a limit, a daemon that has too many clients waiting is an error and no pause without an end.
        self.socket.settimeout(self.timeout)
        try:
            connect_socket(self.socket, path)
        except socket.timeout as error:
            self.socket.close()
            raise Lost(f"the daemon took no conversation for {self.timeout:.3g} seconds") from error
        except OSError as error:
            self.socket.close()
            raise Lost(error.strerror or str(error)) from error
        self.socket.setblocking(False)

    def close(self) -> None:
        self.socket.close()

    def served_image(self) -> Optional[str]:
        """The image of the daemon at the other end, as it was started with it; None where that cannot be seen."""
        try:
            process = struct.unpack("3i", self.socket.getsockopt(socket.SOL_SOCKET, socket.SO_PEERCRED, 12))[0]
            with open(f"/proc/{process}/cmdline", "rb") as words:
                program, image = words.read().split(b"\0")[:2]
            if os.path.basename(program) != b"udfburnd":
                return None
            folder = b"" if image.startswith(b"/") else os.readlink(f"/proc/{process}/cwd".encode())
        except (OSError, ValueError):
            return None
        return os.fsdecode(os.path.join(folder, image))

    def _descriptors(self) -> "tuple[int, int]":
        return self.socket.fileno(), self.socket.fileno()

    def _read(self, most: int) -> Optional[bytes]:
        try:
            return self.socket.recv(most)
        except BlockingIOError:
            return None
        except OSError as error:
            raise Lost(str(error)) from error

    def _write(self, pieces: List[Outgoing]) -> int:
        try:
            return self.socket.sendmsg(pieces)
        except BlockingIOError:
            return 0
        except OSError as error:
            raise Lost(str(error)) from error


def connect_socket(unix: socket.socket, path: str) -> None:
    """Connects to a path, also to one that is longer than a socket's address: by its folder's descriptor."""
    try:
        unix.connect(path)
    except OSError as error:
        if "too long" not in str(error):
            raise
        folder = os.open(os.path.dirname(path) or ".", os.O_PATH | os.O_DIRECTORY)
        try:
            unix.connect(f"/proc/self/fd/{folder}/{os.path.basename(path)}")
        finally:
            os.close(folder)


class ImageConnection(Connection):
    """A conversation with `udfburn apply IMAGE`, which runs as long as the conversation lasts. Its input is a socket, of which it
    answers together what is there; of a pipe it cannot see that."""

    def __init__(self, image: str, program: str, timeout: float = 120.0):
        import subprocess
        import tempfile

        super().__init__(timeout)
        # An absolute path is never the name of a volume in memory.
        self.image = os.path.abspath(image)
        self.errors: IO[bytes] = tempfile.TemporaryFile()
        self.input, theirs = socket.socketpair(socket.AF_UNIX, socket.SOCK_STREAM)
        self.input.setsockopt(socket.SOL_SOCKET, socket.SO_SNDBUF, SEND_BUFFER)
        try:
            self.process = subprocess.Popen(
                [program, "apply", self.image],
                stdin=theirs.fileno(), stdout=subprocess.PIPE, stderr=self.errors, start_new_session=True,
            )
        except OSError as error:
            self.errors.close()
            self.input.close()
            raise UsageError(f"{program}: {error.strerror or error}: name the program udfburn with --program") from error
        finally:
            theirs.close()
        if self.process.stdout is None:
            raise RuntimeError("the program has no pipe")
        self.source = self.process.stdout.fileno()
        self.input.setblocking(False)
        os.set_blocking(self.source, False)

    def close(self) -> None:
        """Ends the program's input, and waits until it has gone: it may still be at a commit."""
        self.input.close()
        if self.process.stdout:
            self.process.stdout.close()
        self._await_end()
        self.errors.close()

    def opener(self) -> Optional[int]:
        return self.process.pid

    def _await_end(self) -> None:
        """Waits for the program's end. One that does not come is killed, as by a power loss: what it answered stays."""
        import subprocess

        try:
            self.process.wait(self.timeout)
        except subprocess.TimeoutExpired:
            self.process.kill()
            # One that waits for a disk goes when the disk lets it.
            with suppress(subprocess.TimeoutExpired):
                self.process.wait(1.0)

    def _ended(self) -> Exception:
        self._await_end()
        self.errors.seek(0)
        line = self.errors.read(1 << 12).decode(errors="replace").strip()
        if line.startswith("udfburn: 64"):
            return Lost(f"{line}: the image is missing, or another program has it, or its disk failed")
        return Lost(line or f"the program ended with status {self.process.returncode}")

    def _descriptors(self) -> "tuple[int, int]":
        return self.source, self.input.fileno()

    def _read(self, most: int) -> Optional[bytes]:
        try:
            return os.read(self.source, most)
        except BlockingIOError:
            return None

    def _write(self, pieces: List[Outgoing]) -> int:
        try:
            return self.input.sendmsg(pieces)
        except BlockingIOError:
            return 0
        except ConnectionError as error:
            raise self._ended() from error


# ---- the program

def find_program(program: Optional[str] = None) -> str:
    """The program `udfburn`: as given, of the environment's UDFBURN, or on the PATH."""
    from shutil import which

    found = program or os.environ.get("UDFBURN") or which("udfburn")
    if not found:
        raise UsageError("the program udfburn is not on the PATH: name it with --program or UDFBURN")
    return os.path.abspath(found) if os.sep in found else found


def check_word(word: str) -> None:
    """Raises where the program would not take a word: it takes UTF-8."""
    if is_bytes(word):
        raise UsageError(f"{shown(word)}: is not UTF-8, and the program udfburn accepts no other path: use a link whose path is")


def run_program(program: str, words: List[str]) -> bytes:
    """What the program prints on these words, or `ProgramFailed` with its line."""
    import subprocess

    for word in words:
        check_word(word)
    try:
        done = subprocess.run([program, *words], stdin=subprocess.DEVNULL, capture_output=True, check=False)
    except OSError as error:
        raise UsageError(f"{program}: {error.strerror or error}: name the program udfburn with --program") from error
    if done.returncode:
        line = done.stderr.decode(errors="replace").strip()
        raise ProgramFailed(f"{line or f'udfburn ended with status {done.returncode}'} ({' '.join(words)})")
    return done.stdout


__all__ = ["Connection", "ImageConnection", "Lost", "Outgoing", "UnixConnection", "check_word", "find_program", "run_program", "take_out"]
