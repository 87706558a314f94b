"""The programs under test, by the environment's UDFBURN and UDFBURND, and rooms for volumes."""

from __future__ import annotations

import os
import shutil
import signal
import socket
import subprocess
import sys
import tempfile
import time
import unittest
from typing import List, Optional

from udfburn import Client

from .forked import Commands

UDFBURN = os.environ.get("UDFBURN", "")
UDFBURND = os.environ.get("UDFBURND", "")
PACKAGE = os.path.abspath(os.path.join(os.path.dirname(__file__), ".."))
PATIENCE = 300.0
"""Seconds after which what did not come counts as missing. It is more than any machine takes."""


COMMANDS = Commands("udfburn", ["udfburn.commands.cli"])


def run_client(words: List[str], environment: "dict[str, str]", errors: str = "strict") -> "subprocess.CompletedProcess[str]":
    """Runs a command of the client to its end, and gives what it printed as text, as `subprocess` does."""
    done = COMMANDS.run(words, environment, os.getcwd())
    output, told = (data.decode("utf-8", errors).replace("\r\n", "\n").replace("\r", "\n") for data in (done.stdout, done.stderr))
    return subprocess.CompletedProcess(done.args, done.returncode, output, told)


class Daemon:
    """A daemon that can be killed and started again, as by a supervisor."""

    def __init__(self, image: str, path: str, start: bool = True):
        self.image, self.path = image, path
        self.process: Optional[subprocess.Popen] = None  # type: ignore[type-arg]
        if start:
            self.start()

    def start(self) -> None:
        if os.path.lexists(self.path):
            os.unlink(self.path)
        self.process = subprocess.Popen([UDFBURND, self.image, self.path], stderr=subprocess.DEVNULL)

    def kill(self) -> None:
        assert self.process
        self.process.send_signal(signal.SIGKILL)
        self.process.wait()

    def await_socket(self) -> None:
        """Waits until it takes connections: the path is there a moment before."""
        assert self.process
        limit = time.monotonic() + PATIENCE
        while True:
            with socket.socket(socket.AF_UNIX) as probe:
                try:
                    return probe.connect(self.path)
                except OSError:
                    if self.process.poll() is not None or time.monotonic() > limit:
                        raise
            time.sleep(0.002)


@unittest.skipUnless(UDFBURN and UDFBURND, "UDFBURN and UDFBURND name the programs")
class WithPrograms(unittest.TestCase):
    """A room with an image, a ledger and a daemon."""

    capacity = 60000

    def setUp(self) -> None:
        self.room = tempfile.mkdtemp()
        self.addCleanup(shutil.rmtree, self.room)
        self.image = os.path.join(self.room, "disc.img")
        self.path = os.path.join(self.room, "socket")
        self.ledger = os.path.join(self.room, "ledger.sqlite")
        self.format(self.capacity)

    def format(self, capacity: int, image: Optional[str] = None) -> None:
        subprocess.run([UDFBURN, "format", image or self.image, "TEST", "0", str(capacity)], check=True, stdout=subprocess.DEVNULL)

    def serve(self) -> Daemon:
        daemon = Daemon(self.image, self.path)
        self.addCleanup(daemon.kill)
        daemon.await_socket()
        return daemon

    def client(self, ledger: Optional[str] = None, patience: float = PATIENCE, client: Optional[int] = None) -> Client:
        made = Client(f"unix:{self.path}", client, ledger or self.ledger, UDFBURN, patience)
        self.addCleanup(made.close)
        return made

    def on_image(self, ledger: Optional[str] = None, image: Optional[str] = None, patience: float = PATIENCE) -> Client:
        made = Client(f"image:{image or self.image}", None, ledger or self.ledger, UDFBURN, patience)
        self.addCleanup(made.close)
        return made

    def run_command(self, *words: str, status: int = 0, where: Optional[List[str]] = None) -> str:
        """Runs the command line, and gives its output where its status is this."""
        done = run_client(self.line(*words, where=where), self.environment(), "surrogateescape")
        self.assertEqual(done.returncode, status, f"{words}: {done.stdout}{done.stderr}")
        return done.stdout + done.stderr

    def line(self, *words: str, where: Optional[List[str]] = None) -> List[str]:
        """The words of a command, with those that say where the volume is."""
        place = ["--socket", self.path] if where is None else where
        return [words[0], *place, *words[1:]]

    def words(self, *words: str, where: Optional[List[str]] = None) -> List[str]:
        """What starts a Python that runs a command."""
        return [sys.executable, "-m", "udfburn", *self.line(*words, where=where)]

    def environment(self) -> "dict[str, str]":
        return {**os.environ, "PYTHONPATH": PACKAGE, "UDFBURN": UDFBURN, "UDFBURN_LEDGER": self.ledger}

    def udfburn(self, *words: str) -> bytes:
        return subprocess.run([UDFBURN, *words], check=True, capture_output=True).stdout

    def commits(self) -> int:
        return int(self.udfburn("log", self.image).split(b" ", 1)[0])

    def write(self, name: str, data: bytes) -> str:
        local = os.path.join(self.room, name)
        os.makedirs(os.path.dirname(local), exist_ok=True)
        with open(local, "wb") as file:
            file.write(data)
        return local

    def read(self, name: str) -> bytes:
        with open(os.path.join(self.room, name), "rb") as file:
            return file.read()
