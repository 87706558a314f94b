"""`udfburnd`: its words, what it opens first, and its clients."""
from __future__ import annotations

import signal
import socket
import stat
import subprocess

from commands.case import CREATE, CREATED, CREATED_BLOCKS, Case, Told, done, received
from faults.processes import await_true, stop

SOCKET = Told(1, b"", b"udfburnd: 94 Socket\n")


class Refusals(Case):
    def udfburnd(self, *words: str) -> Told:
        return self.ended(self.start("UDFBURND", *words))

    def test_other_words(self) -> None:
        for words in ((), ("i", "s", "--connections", "1000001"), ("i", "s", "t")):
            with self.subTest(words):
                self.assertEqual(self.udfburnd(*words), Told(2, b"", b"udfburnd: usage\n"))

    def test_the_image_comes_before_the_socket(self) -> None:
        self.assertEqual(self.udfburnd("d.img", "missing/s"), Told(1, b"", b"udfburnd: 64 Device\n"))
        new = self.formatted()
        self.assertEqual(self.udfburnd("d.img", "missing/s"), SOCKET)
        self.assertEqual(self.udfburnd("d.img", ""), SOCKET)
        self.assertEqual(self.path("d.img").read_bytes(), new)

    def test_no_connection_to_wait_for(self) -> None:
        """It binds the socket and ends. The socket's path stays, so the next one is refused."""
        self.formatted()
        words = ("d.img", "s", "--connections", "0")
        self.assertEqual(self.udfburnd(*words), done())
        self.assertTrue(stat.S_ISSOCK(self.path("s").stat().st_mode))
        self.assertEqual(self.udfburnd(*words), SOCKET)


class Clients(Case):
    def connect(self, daemon: subprocess.Popen[bytes]) -> socket.socket:
        """A connection, once the daemon takes them."""
        client = socket.socket(socket.AF_UNIX)
        self.addCleanup(client.close)
        if not await_true(lambda: client.connect_ex(str(self.path("s"))) == 0 or daemon.poll() is not None):
            self.fail("the daemon takes no connection")
        return client

    def is_answered(self, daemon: subprocess.Popen[bytes], frames: bytes, answers: bytes) -> None:
        """A client that sends these gets these, and nothing else."""
        client = self.connect(daemon)
        client.sendall(frames)
        client.shutdown(socket.SHUT_WR)
        self.assertEqual(received(client, len(answers) + 1), answers)

    def test_they_are_served_in_turn(self) -> None:
        """The second one repeats the request, and gets the reply that is kept."""
        self.formatted()
        daemon = self.start("UDFBURND", "d.img", "s", "--connections", "2")
        for _ in range(2):
            self.is_answered(daemon, CREATE, CREATED)
        self.assertEqual(self.ended(daemon), done())
        self.has_blocks(CREATED_BLOCKS)
        self.rows((("get", "d.img", "/a"), b"", done(b"hello")))

    def test_one_that_goes_away(self) -> None:
        """It ended before the daemon saw it: its request is done, its answer cannot be written, and the next client gets it."""
        self.formatted()
        daemon = self.start("UDFBURND", "d.img", "s", "--connections", "3")
        self.is_answered(daemon, b"", b"")
        stop(daemon.pid)
        gone = self.connect(daemon)
        gone.sendall(CREATE)
        gone.close()
        daemon.send_signal(signal.SIGCONT)
        self.is_answered(daemon, CREATE, CREATED)
        self.assertEqual(self.ended(daemon), Told(0, b"", b"udfburnd: 92 Write\n"))
        self.has_blocks(CREATED_BLOCKS)
