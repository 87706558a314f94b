"""Standard descriptors that are closed, or that take or give no bytes: no byte goes to the image that is not the volume's."""
from __future__ import annotations

import itertools
import os
import socket
import subprocess
from typing import Callable

from faults.case import Case, need_shim
from faults.machine import lacks
from faults.processes import PATIENCE
from faults.programs import built
from faults.running import Daemon, Ran
from protocol import Request, answers_of, committed, encode, frame, query


SETS = [set(closed) for count in (1, 2, 3) for closed in itertools.combinations(range(3), count)]

CREATE = encode(Request("create", 7, 1, "/a", b"hello"))
SECOND = encode(Request("mkdir", 7, 2, "/d"))


def closing(closed: set[int]) -> Callable[[], None]:
    """What a child does before it becomes the program."""
    def close() -> None:
        for descriptor in closed:
            os.close(descriptor)
    return close


def leave(daemon: Daemon) -> None:
    """A client that goes away, of which the daemon has a line to say."""
    with daemon.client() as gone:
        # It does not read its answers, which are more than a socket holds.
        gone.socket.setblocking(False)
        try:
            while True:
                gone.socket.send(query("get", "/a") * 100)
        except BlockingIOError:
            pass


class Descriptors(Case):
    def setUp(self) -> None:
        super().setUp()
        self.new = self.fresh().read_bytes()
        answered = self.apply(CREATE)
        self.assertEqual(answers_of(answered.output), [committed(0, 1)])
        self.one = self.path("d.img").read_bytes()
        self.apply(SECOND)
        self.two = self.path("d.img").read_bytes()
        self.assertEqual(len({self.new, self.one, self.two}), 3)

    def without(self, closed: set[int], *words: str, stdin: bytes = b"", **others: object) -> Ran:
        return self.udfburn(*words, stdin=stdin, preexec_fn=closing(closed), **others)

    def told(self, ran: Ran, closed: set[int], status: int, output: bytes, line: bytes) -> None:
        """What is reported where it can be."""
        self.assertEqual(ran, Ran(status, b"" if 1 in closed else output, b"" if 2 in closed else line))

    def reading(self, output: bytes, *words: str) -> None:
        for closed in SETS:
            with self.subTest(closed=closed):
                self.path("d.img").write_bytes(self.two)
                ran = self.without(closed, *words)
                if 1 in closed:
                    self.told(ran, closed, 1, b"", b"udfburn: 92 Write\n")
                else:
                    self.told(ran, closed, 0, output, b"")
                self.assertEqual(self.path("d.img").read_bytes(), self.two)

    def test_ls(self) -> None:
        self.reading(b"f a\nd d\n", "ls", "d.img", "/")

    def test_get(self) -> None:
        self.reading(b"hello", "get", "d.img", "/a")

    def test_log(self) -> None:
        output = self.udfburn("log", "d.img").output
        self.assertEqual(len(output.splitlines()), 3)
        self.reading(output, "log", "d.img")

    def test_check(self) -> None:
        self.reading(b"sound 2\n", "check", "d.img")

    def test_get_of_a_long_file(self) -> None:
        """More than any buffer holds, so that it goes out in pieces."""
        self.fresh(capacity=3000)
        data = b"0123456789abcdef" * 60000
        self.apply(encode(Request("create", 7, 1, "/a", data)))
        self.two = self.path("d.img").read_bytes()
        self.reading(data, "get", "d.img", "/a")

    def test_refusals(self) -> None:
        """Where there is nothing to write but a line, its status is reported also without the descriptors."""
        for words, status, line in (
            (("get", "d.img", "/none"), 1, b"udfburn: 96 NotFound\n"),
            (("ls", "d.img", "x"), 1, b"udfburn: 55 Path\n"),
            (("ls", "none.img", "/"), 1, b"udfburn: 64 Device\n"),
            (("format", "d.img", "OTHER", "0", "600"), 1, b"udfburn: 61 NotBlank\n"),
            (("send", "none"), 1, b"udfburn: 94 Socket\n"),
            (("what",), 2, b"udfburn: usage\n"),
        ):
            for closed in SETS:
                with self.subTest(words=words, closed=closed):
                    self.path("d.img").write_bytes(self.two)
                    self.told(self.without(closed, *words), closed, status, b"", line)
                    self.assertEqual(self.path("d.img").read_bytes(), self.two)
                    self.assertFalse(self.path("none.img").exists())

    def test_format(self) -> None:
        for name in ("new.img", "d.img"):
            for closed in SETS:
                with self.subTest(name=name, closed=closed):
                    self.path("new.img").unlink(missing_ok=True)
                    self.path("d.img").write_bytes(self.new[:100 * 2048])
                    ran = self.without(closed, "format", name, "DISC", "0", "600")
                    left = self.path(name).read_bytes() if self.path(name).exists() else b""
                    if 1 in closed:
                        self.told(ran, closed, 1, b"", b"udfburn: 92 Write\n")
                        # What a format may have come to that could not say so.
                        self.assertTrue(self.new.startswith(left))
                    else:
                        self.told(ran, closed, 0, b"formatted\n", b"")
                        self.assertEqual(left, self.new)

    def test_apply(self) -> None:
        for frames, states in ((CREATE, [self.new, self.one]), (CREATE + SECOND, [self.new, self.one, self.two])):
            for closed in SETS:
                with self.subTest(frames=len(frames), closed=closed):
                    self.path("d.img").write_bytes(self.new)
                    ran = self.without(closed, "apply", "d.img", stdin=frames)
                    left = self.path("d.img").read_bytes()
                    if 0 in closed:
                        self.assertEqual(left, self.new)
                        self.assertEqual((ran.status, ran.output), (1, b""))
                        self.assertIn(ran.errors, [b""] if 2 in closed else [b"udfburn: 91 Read\n"])
                    elif 1 in closed:
                        self.told(ran, closed, 1, b"", b"udfburn: 92 Write\n")
                        self.assertIn(left, states)
                    else:
                        output = b"".join(frame(bytes([0, 0, n, 0, 0, 0])) for n in range(1, len(states)))
                        self.told(ran, closed, 0, output, b"")
                        self.assertEqual(left, states[-1])

    def test_send(self) -> None:
        for closed in SETS:
            with self.subTest(closed=closed):
                self.path("d.img").write_bytes(self.new)
                with Daemon(self.folder) as daemon:
                    daemon.client().close()
                    ran = self.without(closed, "send", "s", stdin=CREATE)
                    # Connections are served one after another: after this one the other is over.
                    with daemon.client() as client:
                        self.assertIsNotNone(client.ask(query("list", "/")))
                left = self.path("d.img").read_bytes()
                if 0 in closed:
                    self.assertEqual((ran.status, ran.output), (1, b""))
                    self.assertIn(ran.errors, [b""] if 2 in closed else [b"udfburn: 91 Read\n"])
                    self.assertEqual(left, self.new)
                elif 1 in closed:
                    self.told(ran, closed, 1, b"", b"udfburn: 92 Write\n")
                    self.assertIn(left, [self.new, self.one])
                else:
                    self.told(ran, closed, 0, frame(bytes([0, 0, 1, 0, 0, 0])), b"")
                    self.assertEqual(left, self.one)

    def test_daemon(self) -> None:
        """A daemon serves without them, and its lines go nowhere: also that of a client that goes away."""
        for closed in SETS:
            with self.subTest(closed=closed):
                self.path("d.img").write_bytes(self.new)
                with Daemon(self.folder, stderr=subprocess.PIPE, preexec_fn=closing(closed)) as daemon:
                    assert daemon.process.stderr is not None
                    with daemon.client() as client:
                        self.assertEqual(client.ask(CREATE), committed(0, 1))
                    leave(daemon)
                    with daemon.client() as client:
                        self.assertEqual(client.ask(SECOND), committed(0, 2))
                    daemon.kill()
                    lines = daemon.process.stderr.read()
                    daemon.process.stderr.close()
                self.assertEqual(self.path("d.img").read_bytes(), self.two)
                if 2 in closed:
                    self.assertEqual(lines, b"")
                else:
                    self.assertIn(lines, [b"udfburnd: 91 Read\n", b"udfburnd: 92 Write\n"])

    def test_a_daemon_that_is_refused(self) -> None:
        for closed in SETS:
            with self.subTest(closed=closed):
                self.path("d.img").write_bytes(self.two)
                self.path("taken").write_bytes(b"")
                ran = self.program([built().udfburnd, "d.img", "taken"], preexec_fn=closing(closed))
                self.told(ran, closed, 1, b"", b"udfburnd: 94 Socket\n")
                self.assertEqual(self.path("d.img").read_bytes(), self.two)


class Untaken(Case):
    """Closed descriptors that cannot be taken, since nothing more can be opened: nothing is done then."""

    def test_it_is_refused(self) -> None:
        need_shim()
        self.fresh()
        self.apply(CREATE)
        before = self.path("d.img").read_bytes()
        daemon = (built().udfburnd, "d.img", "s")
        udfburn = built().udfburn
        for words in ((udfburn, "ls", "d.img", "/"), (udfburn, "get", "d.img", "/a"), (udfburn, "apply", "d.img"),
                      (udfburn, "format", "new.img", "DISC", "0", "600"), daemon):
            for closed in SETS:
                for number in range(1, len(closed) + 1):
                    with self.subTest(words=words[1:], closed=closed, number=number):
                        ran = self.program(words, stdin=SECOND, rules="folderopen:%d:E24" % number, preexec_fn=closing(closed))
                        self.assertEqual((ran.status, ran.output), (1, b""))
                        self.assertEqual(self.path("d.img").read_bytes(), before)
                        self.assertFalse(self.path("new.img").exists())


class Streams(Case):
    """Standard streams that are there, and fail."""

    def test_full(self) -> None:
        if not os.path.exists("/dev/full"):
            lacks("there is no /dev/full")
        self.fresh()
        self.apply(CREATE)
        before = self.path("d.img").read_bytes()
        for words in (("ls", "d.img", "/"), ("get", "d.img", "/a"), ("log", "d.img"), ("check", "d.img"),
                      ("format", "new.img", "DISC", "0", "600")):
            with self.subTest(words), open("/dev/full", "wb") as full:
                done = subprocess.run([built().udfburn, *words], cwd=self.folder, stdin=subprocess.DEVNULL, stdout=full,
                                      stderr=subprocess.PIPE)
                self.assertEqual((done.returncode, done.stderr), (1, b"udfburn: 92 Write\n"))
                self.assertEqual(self.path("d.img").read_bytes(), before)

    def test_wrong_ways(self) -> None:
        """An output that is open for reading alone, and an input that is open for writing alone."""
        self.fresh()
        self.apply(CREATE)
        before = self.path("d.img").read_bytes()
        self.path("file").write_bytes(b"kept")
        for words in (("ls", "d.img", "/"), ("get", "d.img", "/a"), ("log", "d.img"), ("check", "d.img")):
            with self.subTest(words), open(self.path("file"), "rb") as output:
                done = subprocess.run([built().udfburn, *words], cwd=self.folder, stdin=subprocess.DEVNULL, stdout=output,
                                      stderr=subprocess.PIPE)
                self.assertEqual((done.returncode, done.stderr), (1, b"udfburn: 92 Write\n"))
        with open(self.path("file"), "ab") as wrong:
            done = subprocess.run([built().udfburn, "apply", "d.img"], cwd=self.folder, stdin=wrong, capture_output=True)
        self.assertEqual((done.returncode, done.stdout, done.stderr), (1, b"", b"udfburn: 91 Read\n"))
        self.assertEqual(self.path("d.img").read_bytes(), before)
        self.assertEqual(self.path("file").read_bytes(), b"kept")

    def test_a_pipe_that_nobody_reads(self) -> None:
        """No signal ends the program, so that it says so."""
        self.fresh()
        self.apply(CREATE)
        before = self.path("d.img").read_bytes()
        for words in (("ls", "d.img", "/"), ("get", "d.img", "/a"), ("log", "d.img"), ("check", "d.img")):
            with self.subTest(words):
                read, write = os.pipe()
                os.close(read)
                done = subprocess.run([built().udfburn, *words], cwd=self.folder, stdin=subprocess.DEVNULL, stdout=write,
                                      stderr=subprocess.PIPE)
                os.close(write)
                self.assertEqual((done.returncode, done.stderr), (1, b"udfburn: 92 Write\n"))
                self.assertEqual(self.path("d.img").read_bytes(), before)

    def test_errors_that_take_nothing(self) -> None:
        """A line that the standard error does not take is lost, and nothing else: on a full disk, and in a pipe that nobody reads."""
        if not os.path.exists("/dev/full"):
            lacks("there is no /dev/full")
        self.fresh()
        self.apply(CREATE)
        full = os.open("/dev/full", os.O_WRONLY)
        self.addCleanup(os.close, full)
        read, unread = os.pipe()
        os.close(read)
        self.addCleanup(os.close, unread)
        for errors in (full, unread):
            for words, status in ((("get", "d.img", "/none"), 1), (("what",), 2)):
                with self.subTest(words, errors=errors):
                    done = subprocess.run([built().udfburn, *words], cwd=self.folder, stdin=subprocess.DEVNULL,
                                          stdout=subprocess.PIPE, stderr=errors)
                    self.assertEqual((done.returncode, done.stdout), (status, b""))
            with self.subTest("the daemon", errors=errors), Daemon(self.folder, stderr=errors) as daemon:
                leave(daemon)
                with daemon.client() as client:
                    self.assertIsNotNone(client.ask(query("list", "/")))

    def test_errors_that_wait(self) -> None:
        """A pipe that is full keeps the daemon waiting once it has a line to say. What was answered stays, and the next client is
        served when somebody reads."""
        self.fresh()
        read, write = os.pipe()
        self.addCleanup(os.close, read)
        self.addCleanup(os.close, write)
        os.set_blocking(write, False)
        try:
            while True:
                os.write(write, b"x" * 4096)
        except BlockingIOError:
            pass
        os.set_blocking(write, True)
        with Daemon(self.folder, stderr=write) as daemon:
            with daemon.client() as client:
                self.assertEqual(client.ask(CREATE), committed(0, 1))
            leave(daemon)
            with daemon.client() as client:
                client.send(SECOND)
                client.socket.settimeout(1.0)
                with self.assertRaises(socket.timeout):
                    client.answer()
                self.tell(self.udfburn("ls", "d.img", "/"), 0, b"f a\n", b"")
                os.read(read, 1 << 20)
                client.socket.settimeout(PATIENCE)
                self.assertEqual(client.answer(), committed(0, 2))
