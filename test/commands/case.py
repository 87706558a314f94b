"""A test with a folder of its own, in which the two programs run as a user starts them."""
from __future__ import annotations

import fcntl
import os
import shutil
import socket
import subprocess
import tempfile
import termios
import unittest
from pathlib import Path
from typing import Any, NamedTuple

from faults.processes import PATIENCE, await_true
from protocol import BLOCK, Request, committed, encode

CREATE = encode(Request("create", 7, 1, "/a", b"hello"))
CREATED = committed(0, 1).framed()
MAKE = encode(Request("mkdir", 7, 2, "/d"))
MADE = committed(0, 2).framed()
REMOVE = encode(Request("remove", 7, 3, "/a"))
REMOVED = committed(0, 3).framed()

FORMATTED_BLOCKS = 262
"""Blocks of a new volume."""
CREATED_BLOCKS = 267
"""Blocks after the first request."""


class Told(NamedTuple):
    """What a program reported, and its status."""

    status: int
    output: bytes
    errors: bytes


def done(output: bytes = b"") -> Told:
    return Told(0, output, b"")


def refused(line: str) -> Told:
    return Told(1, b"", b"udfburn: %s\n" % line.encode())


class Case(unittest.TestCase):
    """A test with a folder of its own, in which the programs run."""

    def setUp(self) -> None:
        self.folder = Path(tempfile.mkdtemp(prefix="commands."))
        self.addCleanup(shutil.rmtree, self.folder)

    def path(self, name: str) -> Path:
        return self.folder / name

    def start(self, program: str, *words: str, **popen: Any) -> subprocess.Popen[bytes]:
        """Starts UDFBURN or UDFBURND, which is killed where it still runs when the test ends."""
        popen = {"stdin": subprocess.DEVNULL, "stdout": subprocess.PIPE, "stderr": subprocess.PIPE, **popen}
        process = subprocess.Popen([os.environ[program], *words], cwd=self.folder, **popen)
        self.addCleanup(process.communicate)
        self.addCleanup(process.kill)
        return process

    def ended(self, process: subprocess.Popen[bytes]) -> Told:
        output, errors = process.communicate(timeout=PATIENCE)
        return Told(process.returncode, output or b"", errors)

    def udfburn(self, *words: str, stdin: bytes = b"") -> Told:
        """Runs `udfburn` to its end, with an input that is a file."""
        with tempfile.TemporaryFile() as given:
            given.write(stdin)
            given.seek(0)
            return self.ended(self.start("UDFBURN", *words, stdin=given))

    def rows(self, *rows: tuple[tuple[str, ...], bytes, Told]) -> None:
        """Words and input of `udfburn`, and what it reports, one after another."""
        for number, (words, stdin, wanted) in enumerate(rows):
            with self.subTest(row=number, words=words):
                self.assertEqual(self.udfburn(*words, stdin=stdin), wanted)

    def formatted(self, image: str = "d.img", capacity: int = 3000) -> bytes:
        """Makes a volume of so many blocks, and returns its bytes."""
        self.assertEqual(self.udfburn("format", image, "DISC", "0", str(capacity)), done(b"formatted\n"))
        return self.path(image).read_bytes()

    def created(self, image: str = "d.img") -> bytes:
        """The same with the file `/a`."""
        self.formatted(image)
        self.assertEqual(self.udfburn("apply", image, stdin=CREATE), done(CREATED))
        return self.path(image).read_bytes()

    def has_blocks(self, count: int, image: str = "d.img") -> None:
        self.assertEqual(self.path(image).stat().st_size, count * BLOCK)


def is_read(end: socket.socket) -> bool:
    """Whether the other end of a Unix socket has read all that was written here."""
    return fcntl.ioctl(end, termios.TIOCOUTQ, bytes(4)) == bytes(4)


def feed(end: socket.socket, data: bytes, size: int) -> None:
    """Writes the bytes in pieces, each when the one before it was read. So each read gets one piece."""
    for at in range(0, len(data), max(size, 1)):
        end.sendall(data[at:at + size])
        if not await_true(lambda: is_read(end)):
            raise AssertionError("byte %d is not read" % at)


def received(end: socket.socket, most: int) -> bytes:
    """What comes, up to the end of the stream or to so many bytes."""
    end.settimeout(PATIENCE)
    got = b""
    while len(got) < most:
        piece = end.recv(most - len(got))
        if not piece:
            break
        got += piece
    return got
