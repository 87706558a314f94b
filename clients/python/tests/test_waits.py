"""How long a command waits, and what it says of a disk that is full."""

from __future__ import annotations

import os
import resource
import signal
import socket
import subprocess
import sys
import time
import unittest
from contextlib import suppress
from typing import List, Optional
from unittest import mock

from udfburn import Client
from udfburn.base import errors as e
from udfburn import protocol as p
from udfburn.wire.connection import ImageConnection, UnixConnection

from .programs import PATIENCE, UDFBURND, Daemon, WithPrograms
from .server import request_of
from .with_files import Local

A_SECOND = r"for (1|0\.[0-9]+) seconds"
"""How long it says that it waited, or for the rest of that time. What the machine takes beside that is not looked at."""


class Stopped(WithPrograms):
    """A daemon or a program that is there and says nothing."""

    def waits_a_second(self, *words: str, where: Optional[List[str]] = None) -> str:
        """Runs a command that waits so long and no longer, and gives what it said."""
        began = time.monotonic()
        told = self.run_command(*words, "--wait", "1", where=where, status=1)
        # The pause that would have been too long is none.
        self.assertGreater(time.monotonic() - began, 0.8, words)
        return told

    def wait_a_second(self, client: Client) -> None:
        """Has a client wait no longer from now on. What it did before has had all the time that a slow machine takes."""
        client.line.get().timeout = client.line.patience.seconds = client.line.timeout = 1.0

    def test_a_daemon_that_is_stopped(self) -> None:
        """Before a conversation, whatever is asked; and once the daemon goes on, what was pending is finished."""
        daemon = self.serve()
        local = self.write("a", b"hello")
        self.run_command("put", local, "/a")
        assert daemon.process
        daemon.process.send_signal(signal.SIGSTOP)
        try:
            for words in (["ls"], ["get", "/a", "-"], ["put", local, "/b"], ["resume"], ["verify", local, "/a"], ["rm", "/a"]):
                self.assertRegex(self.waits_a_second(*words), f"nothing came {A_SECOND}")
            self.assertRegex(self.waits_a_second("status", self.path, where=[]), f"nothing came {A_SECOND}")
        finally:
            daemon.process.send_signal(signal.SIGCONT)
        self.assertEqual(self.run_command("ls"), "f a\n")

    def test_a_daemon_that_is_stopped_in_a_conversation(self) -> None:
        daemon = self.serve()
        with self.client() as client, client.held():
            client.put("/a", b"hello")
            self.wait_a_second(client)
            assert daemon.process
            daemon.process.send_signal(signal.SIGSTOP)
            try:
                with self.assertRaisesRegex(e.ConnectionFailed, f"nothing came {A_SECOND}"):
                    client.get("/a")
                with self.assertRaisesRegex(e.ConnectionFailed, f"nothing came {A_SECOND}"):
                    client.create("/b", b"")
            finally:
                daemon.process.send_signal(signal.SIGCONT)
            client.line.patience.seconds = client.line.timeout = 300.0
            self.assertIn(client.resume(), ([(2, "/b", p.Code.DONE, 2)], []))

    def test_more_clients_than_a_stopped_daemon_takes(self) -> None:
        """Where the system takes no further conversation for it either."""
        daemon = self.serve()
        assert daemon.process
        daemon.process.send_signal(signal.SIGSTOP)
        waiting: List[Client] = []
        try:
            for _ in range(400):
                client = Client(f"unix:{self.path}", patience=0.5, timeout=0.5)
                waiting.append(client)
                try:
                    client.line._connection = client.endpoint.open(0.5)
                except Exception as error:  # pylint: disable=broad-except
                    self.assertRegex(str(error), "took no conversation|temporarily unavailable")
                    break
            self.assertRegex(self.waits_a_second("ls"), f"(took no conversation|nothing came) {A_SECOND}|temporarily unavailable")
        finally:
            daemon.process.send_signal(signal.SIGCONT)
            for client in waiting:
                client.close()

    def test_a_program_that_is_stopped(self) -> None:
        """Its end is not awaited for ever: it is killed, as by a power loss, and what it answered stays."""
        with self.on_image() as client:
            with client.held():
                client.put("/a", b"hello")
                connection = client.line.get()
                assert isinstance(connection, ImageConnection)
                self.wait_a_second(client)
                connection.process.send_signal(signal.SIGSTOP)
                # Another one may answer in the little time that is left.
                with suppress(e.ConnectionFailed), mock.patch.object(connection.process, "wait", wraps=connection.process.wait) as waited:
                    client.create("/b", b"")
            self.assertEqual(waited.call_args_list[0], mock.call(1.0))
            self.assertEqual(connection.process.returncode, -signal.SIGKILL)
            client.line.patience.seconds = client.line.timeout = 300.0
            client.resume()
            self.assertEqual([client.get("/a"), client.get("/b")], [b"hello", b""])


class Clock:
    """A clock that goes on when it is told to, so that a wait takes what a test says, on any machine."""

    def __init__(self) -> None:
        self.now = 0.0

    def monotonic(self) -> float:
        return self.now

    def sleep(self, seconds: float) -> None:
        self.now += seconds


class Waiting(Local):
    def setUp(self) -> None:
        super().setUp()
        self.clock = Clock()
        for module in ("retrying", "connection"):
            patched = mock.patch(f"udfburn.wire.{module}.time", self.clock)
            patched.start()
            self.addCleanup(patched.stop)

    def test_a_daemon_that_ends_each_conversation(self) -> None:
        """What was waited for in vain counts, however often the conversation is ended."""
        def say(payload: bytes, answer: p.Answer) -> None:
            self.clock.sleep(0.3 * PATIENCE)

        self.server.say = say
        with self.client(patience=PATIENCE) as client, self.assertRaises(e.ConnectionFailed):
            client.stat("/")
        # After four the time is up; the first one may not count, where it is over before the client begins to wait.
        self.assertIn(self.server.conversations, (4, 5))

    def test_progress_is_no_wait(self) -> None:
        """A long list is read to its end, however little each answer may take."""
        def before(payload: bytes) -> None:
            self.clock.sleep(PATIENCE / 2)

        self.server.before = before
        self.server.together = False
        with self.client(patience=PATIENCE) as client, mock.patch("udfburn.wire.retrying.TURN", float("inf")):
            self.assertEqual(len(list(client.ask_all([p.Stat(())] * 60))), 60)
        self.assertGreaterEqual(self.clock.now, 30 * PATIENCE)


class FullDisks(Local):
    """What is said is that the disk is full, and where."""

    def test_of_the_image(self) -> None:
        """It is said at once, and of a drive that fails when it was waited for."""
        self.server.before = lambda payload: p.FAULT if request_of(payload) else None
        for left, patience, kind, told in (
            (1000, PATIENCE, e.DiskFull, "the disk that .*disc.img is on is full: 1,000 bytes are left. Make room; .* continues$"),
            (10**9, 0.1, e.DriveFailed, "the drive fails: .* .tried for"),
        ):
            with self.client(patience=patience) as client, mock.patch("udfburn.base.disk.room_left", lambda path, left=left: left):
                client.line.image = "/somewhere/disc.img"
                with self.assertRaisesRegex(kind, told):
                    client.create("/a", b"")
        with self.client(patience=0.1) as client, self.assertRaisesRegex(e.DriveFailed, "or its disk is full"):
            client.create("/a", b"")

    def test_a_query(self) -> None:
        """It takes no room, so it is asked again."""
        faults = [p.FAULT, p.FAULT]
        with self.client(patience=PATIENCE) as client, mock.patch("udfburn.base.disk.room_left", lambda path: 1000):
            client.create("/a", b"x")
            client.line.image = "/somewhere/disc.img"
            self.server.before = lambda payload: faults.pop() if faults and not request_of(payload) else None
            self.assertEqual(client.get("/a"), b"x")
        self.assertEqual(faults, [])

    def test_of_the_ledger(self) -> None:
        """SQLite says so, here by a limit of its own; what was not kept was not sent."""
        with self.client() as client:
            client.create("/a", b"")
            client.session().ledger._base.execute("PRAGMA max_page_count = 1")
            with self.assertRaisesRegex(e.LedgerError, "ledger.sqlite: cannot be written .database or disk is full.: check that its disk"):
                for index in range(200):
                    client.create(f"/{index}", bytes(5000))
            commits = self.volume.commits
            with mock.patch("udfburn.base.disk.room_left", lambda path: 1000):
                with self.assertRaisesRegex(e.LedgerError, "cannot be written .database or disk is full.: its disk is full: 1,000 bytes are left. Make room"):
                    client.create("/c", bytes(5000))
            self.assertEqual(self.volume.commits, commits)
        with self.client() as client:
            self.assertEqual(client.resume(), [])
            self.assertEqual(self.volume.commits, commits)
            client.create("/b", b"")


class FullDaemon(WithPrograms):
    def test_of_the_image_of_a_daemon(self) -> None:
        """The image is named, wherever the daemon was started; the drive is made to fail by a limit of the file size."""
        def limited() -> None:
            signal.signal(signal.SIGXFSZ, signal.SIG_IGN)
            resource.setrlimit(resource.RLIMIT_FSIZE, (os.path.getsize(self.image) + 2048, resource.RLIM_INFINITY))

        for image in (self.image, os.path.basename(self.image)):
            with suppress(FileNotFoundError):
                os.unlink(self.path)
            daemon = Daemon(self.image, self.path, start=False)
            daemon.process = subprocess.Popen([UDFBURND, image, self.path], cwd=self.room, stderr=subprocess.DEVNULL, preexec_fn=limited)
            self.addCleanup(daemon.kill)
            daemon.await_socket()
            for left, patience, kind in ((1000, PATIENCE, e.DiskFull), (10**9, 0.3, e.DriveFailed)):
                with self.client(patience=patience) as client, mock.patch("udfburn.base.disk.room_left", lambda path, left=left: left):
                    with self.assertRaisesRegex(kind, self.image):
                        client.create("/a", bytes(5000))
                with suppress(FileNotFoundError):
                    os.unlink(self.ledger)
            daemon.kill()

    def test_of_another_program(self) -> None:
        """What is no daemon of ours has no image that is known."""
        with socket.socket(socket.AF_UNIX) as listener:
            listener.bind(self.path)
            listener.listen()
            connection = UnixConnection(self.path)
            self.assertIsNone(connection.served_image())
            connection.close()


FULL = """
import errno, os, sys
from udfburn.commands import cli
from udfburn.local import saving
real, left = os.write, [int(sys.argv[1])]
def write(descriptor, data):
    if not os.readlink(f"/proc/self/fd/{descriptor}").startswith(sys.argv[2]):
        return real(descriptor, data)
    if not left[0]:
        raise OSError(errno.ENOSPC, os.strerror(errno.ENOSPC))
    count = real(descriptor, data[: left[0]])
    left[0] -= count
    return count
saving.os.write = write
saving.UNNAMED = saving.UNNAMED * int(sys.argv[3])
sys.exit(cli.main(sys.argv[4:]))
"""
"""The client with a disk that takes so many bytes below a folder."""


class FullTarget(WithPrograms):
    def test_of_a_copy(self) -> None:
        """What was written whole is there, nothing else is, and the same command goes on."""
        for index in range(6):
            self.write(f"source/{index}", bytes([index]) * 1000)
        where = ["--image", self.image]
        self.run_command("put", "-r", os.path.join(self.room, "source"), "/x", where=where)
        for unnamed in ("0", "1"):
            back = os.path.join(self.room, f"back{unnamed}")
            line = [sys.executable, "-c", FULL, "3500", back, unnamed, "get", "-r", *where, "/x", back]
            done = subprocess.run(line, env=self.environment(), capture_output=True, text=True, check=False)
            self.assertEqual(done.returncode, 1)
            self.assertIn(f"{back}/3: its disk is full (No space left on device)", done.stderr)
            self.assertEqual(sorted(os.listdir(back)), ["0", "1", "2"])
            self.assertIn("got 3 files, 2.9 KiB, 3 were there", self.run_command("get", "-r", "/x", back, where=where))
            self.assertEqual(subprocess.run(["diff", "-r", os.path.join(self.room, "source"), back], check=False).returncode, 0)


if __name__ == "__main__":
    unittest.main()
