"""Clients of the daemon that reset, flood or are many, and sockets that cannot be had: the next client is served."""
from __future__ import annotations

import os
import random
import resource
import socket
import stat
import struct
import subprocess
import threading
import time
import unittest
from pathlib import Path
from typing import Callable

from faults.case import need_shim
from faults.load_support import Case, as_nobody, descriptors_of, memory_of, seconds_of
from faults.machine import need_root
from faults.processes import PATIENCE, await_true
from faults.programs import built
from faults.running import Client, Daemon, Ran
from protocol import (
    MALFORMED, NAMES, NO_NODE, Answer, Model, Request, answers_of, encode, frame, paths_of, query,
)

EMPTY_ROOT = Answer(NAMES, b"\0\0")
TOO_LONG = Answer(MALFORMED, struct.pack("<H", 51))
CUT = Answer(MALFORMED, struct.pack("<H", 53))
READ_OR_WRITE = (b"udfburnd: 91 Read\n", b"udfburnd: 92 Write\n")


class Serving(Case):
    def setUp(self) -> None:
        super().setUp()
        self.model = Model()
        self.requests: list[Request] = []

    def request(self, data: bytes = b"") -> Request:
        number = self.model.latest.get(7, 0) + 1
        request = Request("create", 7, number, "/f%d" % number, data)
        self.requests.append(request)
        return request

    def next_is_served(self, daemon: Daemon) -> None:
        """Another client's request is committed, and all that was committed is there."""
        with daemon.client() as client:
            request = self.request(b"next")
            self.assertEqual(client.ask(encode(request)), self.model.answer(request))
            for each in self.requests:
                self.assertEqual(client.ask(query("get", each.path)), self.model.get(each.path))
        self.assertIsNone(daemon.process.poll())


class Rude(Serving):
    """Clients that do not keep to the protocol, each on a daemon that serves others before and after it."""

    def with_daemon(self, rude: Callable[[Daemon], None], lines: int) -> None:
        """At most so many lines are reported of it, each of a stream that was left."""
        self.fresh(capacity=20000)
        with Daemon(self.folder) as daemon:
            self.next_is_served(daemon)
            rude(daemon)
            self.next_is_served(daemon)
            told = daemon.errors().splitlines(True)
            self.assertLessEqual(len(told), lines)
            for line in told:
                self.assertIn(line, READ_OR_WRITE)
        self.tree_is(self.model, paths_of(self.requests))

    def test_closed_at_once(self) -> None:
        def rude(daemon: Daemon) -> None:
            for _ in range(50):
                daemon.client().close()
        self.with_daemon(rude, 0)

    def test_closed_in_a_frame(self) -> None:
        whole = encode(Request("create", 9, 1, "/never", b"x" * 3000))

        def rude(daemon: Daemon) -> None:
            for cut in (1, 2, 3, 4, 5, 20, 31, 100, len(whole) - 1):
                with daemon.client() as client:
                    client.send(whole[:cut])
        self.with_daemon(rude, 0)

    def test_no_more_is_sent_in_a_frame(self) -> None:
        """Where the stream ends inside a frame, what came before it is answered and the frame is not."""
        whole = encode(Request("create", 9, 1, "/never", b"x" * 3000))

        def rude(daemon: Daemon) -> None:
            for cut in (1, 4, 5, 100, len(whole) - 1):
                with daemon.client() as client:
                    client.send(query("get", "/none") + whole[:cut])
                    client.end()
                    self.assertEqual(client.answer(), Answer(NO_NODE))
                    self.assertIsNone(client.answer())
        self.with_daemon(rude, 0)

    def test_reset_with_answers_unread(self) -> None:
        """A client that goes away with answers waiting resets the stream. What it had committed stays."""
        def rude(daemon: Daemon) -> None:
            for number in range(10):
                with daemon.client() as client:
                    request = self.request(b"u" * number * 900)
                    client.send(encode(request) + query("get", request.path) * 5)
                    self.model.answer(request)
                    # It was committed where an answer waits.
                    client.socket.recv(1, socket.MSG_PEEK)
        self.with_daemon(rude, 10)

    def test_reset_while_answers_go_out(self) -> None:
        def rude(daemon: Daemon) -> None:
            large = self.request(b"l" * 1_000_000)
            with daemon.client() as client:
                self.assertEqual(client.ask(encode(large)), self.model.answer(large))
            for taken in (1, 5000, 300_000):
                with daemon.client() as client:
                    client.send(query("get", large.path) * 20)
                    while taken > 0:
                        taken -= len(client.socket.recv(taken))
        self.with_daemon(rude, 3)

    def test_garbage(self) -> None:
        """Bytes as a die falls: each whole frame is answered, none is a request of the model's clients that could be done."""
        fall = random.Random(7109)

        def rude(daemon: Daemon) -> None:
            for _ in range(60):
                with daemon.client() as client:
                    client.send(fall.randbytes(fall.choice([1, 4, 5, 300, 5000])))
                    client.end()
                    while client.answer() is not None:
                        pass
        self.with_daemon(rude, 60)

    def test_garbage_in_frames(self) -> None:
        """Payloads that are no message are answered 38 with a cause of docs/PROTOCOL.md, and the conversation goes on."""
        fall = random.Random(7110)

        def rude(daemon: Daemon) -> None:
            with daemon.client() as client:
                for _ in range(500):
                    kind = fall.choice([0, 7, 15, 20, 255, 1, 2, 3, 4, 5, 6, 16, 17, 18, 19])
                    # The length of the first name lies above what follows, so that no path is whole.
                    rest = fall.randbytes(24) + b"\x01\xff\xff" if kind < 16 else b"\x05\xff\xff"
                    answer = client.ask(frame(bytes([kind]) + rest + fall.randbytes(fall.randrange(200))))
                    assert answer is not None
                    self.assertEqual(answer.code, MALFORMED)
                    if kind in (0, 7, 15, 20, 255):
                        self.assertEqual(answer.rest, struct.pack("<H", 52))
                    else:
                        self.assertIn(int.from_bytes(answer.rest, "little"), (53, 56, 57, 58))
        self.with_daemon(rude, 0)

    def test_a_frame_too_long(self) -> None:
        def rude(daemon: Daemon) -> None:
            for length in (1_114_113, 1 << 31, 0xFFFFFFFF):
                with daemon.client() as client:
                    client.send(query("get", "/none") + struct.pack("<I", length))
                    # Its answer comes with its length, and the conversation is over, though the client sent no end.
                    self.assertEqual([client.answer(), client.answer(), client.answer()], [Answer(NO_NODE), TOO_LONG, None])
            with daemon.client() as client:
                never = self.model.latest[7] + 1
                client.send(struct.pack("<I", 1_114_113) + encode(Request("create", 7, never, "/never")))
                self.assertEqual([client.answer(), client.answer()], [TOO_LONG, None])
        self.with_daemon(rude, 4)

    def test_the_longest_frame(self) -> None:
        def rude(daemon: Daemon) -> None:
            with daemon.client() as client:
                self.assertEqual(client.ask(frame(b"\x00" * 1_114_112)), Answer(MALFORMED, struct.pack("<H", 52)))
                self.assertEqual(client.ask(query("get", "/none")), Answer(NO_NODE))
        self.with_daemon(rude, 0)

    def test_a_flood_of_malformed_frames(self) -> None:
        """Each gets its answer, in memory that ends long before the flood: 4 MiB are read at once, and a group keeps as many."""
        count = 200_000
        malformed = frame(bytes(100))
        bound = 9 << 10
        self.assertGreater(count * len(malformed) >> 10, 2 * bound)

        def rude(daemon: Daemon) -> None:
            with daemon.client() as client:
                # Once with less, so that what is kept for answers is there.
                for rounds in (20_000, count):
                    sender = threading.Thread(target=client.send, args=(malformed * rounds,))
                    sender.start()
                    expected = frame(struct.pack("<HH", 38, 52))
                    left = len(expected) * rounds
                    seen = bytearray()
                    while left:
                        piece = client.socket.recv(1 << 18)
                        self.assertTrue(piece, "the daemon ended the flood")
                        left -= len(piece)
                        seen += piece
                    sender.join()
                    self.assertEqual(bytes(seen), expected * rounds)
                    if rounds < count:
                        before = memory_of(daemon.process.pid)
                self.assertLess(memory_of(daemon.process.pid)["VmHWM"] - before["VmHWM"], bound)
        self.with_daemon(rude, 0)


class Many(Serving):
    def test_connections_one_after_another(self) -> None:
        """10,000 of them, a few with a commit, in constant memory and with constant descriptors."""
        self.fresh(capacity=20000)
        with Daemon(self.folder) as daemon:
            process = daemon.process.pid
            for number in range(10_000):
                with daemon.client() as client:
                    if number % 100 == 0:
                        request = self.request(b"%d" % number)
                        self.assertEqual(client.ask(encode(request)), self.model.answer(request))
                    elif number % 3 == 0:
                        self.assertEqual(client.ask(query("get", "/f1")), self.model.get("/f1"))
                    elif number % 3 == 1:
                        client.send(query("get", "/f1"))
                        client.end()
                        self.assertEqual([client.answer(), client.answer()], [self.model.get("/f1"), None])
                if number == 1000:
                    before = memory_of(process)
                    client = daemon.client()
                    self.assertEqual(client.ask(query("get", "/f1")), self.model.get("/f1"))
                    descriptors = descriptors_of(process)
                    client.close()
            with daemon.client() as client:
                self.assertEqual(client.ask(query("get", "/f1")), self.model.get("/f1"))
                self.assertEqual(descriptors_of(process), descriptors)
            behind = memory_of(process)
            for name in ("VmRSS", "VmHWM"):
                self.assertLess(behind[name] - before[name], 512, "%s grew from %r to %r" % (name, before, behind))
            # Clients that closed without a word, or with an answer unread, are no more than a line each.
            self.assertLessEqual(set(daemon.errors().splitlines(True)), set(READ_OR_WRITE))
        self.assertEqual(self.model.commits, 100)
        self.tree_is(self.model, paths_of(self.requests))

    def test_exactly_so_many(self) -> None:
        self.fresh(capacity=20000)
        for count in (1, 3, 17):
            with self.subTest(count=count), Daemon(self.folder, "d.img", "--connections", str(count)) as daemon:
                for number in range(count):
                    self.assertIsNone(daemon.process.poll())
                    with daemon.client() as client:
                        # One that says nothing counts as well.
                        if number % 3 != 1:
                            request = self.request()
                            self.assertEqual(client.ask(encode(request)), self.model.answer(request))
                self.assertEqual(daemon.wait(), 0)
                self.assertEqual(daemon.errors(), b"")
                with self.assertRaises(ConnectionRefusedError):
                    Client(daemon.path, patience=0.0)
        self.tree_is(self.model, paths_of(self.requests))

    def test_none(self) -> None:
        self.fresh()
        with Daemon(self.folder, "d.img", "--connections", "0") as daemon:
            self.assertEqual(daemon.wait(), 0)
            self.assertEqual(daemon.errors(), b"")

    def test_those_who_wait_are_served_in_turn(self) -> None:
        self.fresh(capacity=20000)
        with Daemon(self.folder, "d.img", "--connections", "40") as daemon:
            clients = [daemon.client() for _ in range(40)]
            self.requests = [Request("create", 100 + number, 1, "/f%d" % number, b"%d" % number) for number in range(40)]
            # The last to come asks first.
            for client, request in reversed(list(zip(clients, self.requests))):
                client.send(encode(request))
            for client, request in zip(clients, self.requests):
                self.assertEqual(client.answer(), self.model.answer(request))
                client.close()
            self.assertEqual(daemon.wait(), 0)
        self.tree_is(self.model, paths_of(self.requests))


    def test_many_senders_at_once(self) -> None:
        """Each with requests of its own: each gets its answers, and all is done once."""
        self.fresh(capacity=60000)
        count = 160
        frames = {client: [Request("create", 300 + client % 60, 1 + client // 60, "/f%d" % client, b"%d" % client * client)]
                  for client in range(count)}
        with Daemon(self.folder) as daemon:
            daemon.client().close()
            codes: dict[int, list[Answer]] = {}
            # A client's numbers go up from sender to sender, so those of one number are sent at once.
            for number in (1, 2, 3):
                senders = {}
                for client, requests in frames.items():
                    if requests[0].number == number:
                        stdin = encode(requests[0]) + query("get", requests[0].path)
                        process = subprocess.Popen([built().udfburn, "send", "s"], cwd=self.folder, stdin=subprocess.PIPE,
                                                   stdout=subprocess.PIPE, stderr=subprocess.PIPE)
                        assert process.stdin is not None
                        process.stdin.write(stdin)
                        process.stdin.close()
                        senders[client] = process
                for client, process in senders.items():
                    with process:
                        assert process.stdout is not None and process.stderr is not None
                        codes[client] = answers_of(process.stdout.read())
                        self.assertEqual((process.wait(PATIENCE), process.stderr.read()), (0, b""))
            self.assertEqual(daemon.errors(), b"")
        commits = sorted(answers[0].commit for answers in codes.values())
        self.assertEqual(commits, list(range(1, count + 1)))
        # In the order in which they were committed.
        for client in sorted(codes, key=lambda client: codes[client][0].commit):
            request = frames[client][0]
            self.assertEqual(codes[client], [self.model.answer(request), self.model.get(request.path)])
        self.tree_is(self.model, ["/"] + ["/f%d" % client for client in range(count)])


class Descriptors(Serving):
    """Where a connection cannot be taken this is reported once and waited out, and counts as none."""

    def lines_are(self, daemon: Daemon, most: int) -> None:
        lines = daemon.errors().splitlines(True)
        self.assertLessEqual(len(lines), most)
        self.assertGreaterEqual(len(lines), 1)
        self.assertEqual(set(lines), {b"udfburnd: 94 Socket\n"})

    def rests(self, process: int) -> None:
        """It takes next to no processor time, in one of some stretches: a machine may count its own time to a process."""
        for _ in range(5):
            before = seconds_of(process)
            time.sleep(2.0)
            if seconds_of(process) - before < 0.1:
                return
        self.fail("it takes processor time while it waits")

    def test_descriptors_that_ran_out(self) -> None:
        self.fresh(capacity=20000)
        with Daemon(self.folder, "d.img", "--connections", "6") as daemon:
            process = daemon.process.pid
            self.assertTrue(await_true(daemon.path.is_socket))
            idle = descriptors_of(process)
            self.next_is_served(daemon)
            limits = resource.prlimit(process, resource.RLIMIT_NOFILE)
            for stretch in (1, 2):
                with daemon.client() as client:
                    request = self.request(b"before")
                    self.assertEqual(client.ask(encode(request)), self.model.answer(request))
                    # The connection has the lowest number that was free, so after it none is.
                    (number,) = set(descriptors_of(process)) - set(idle)
                    resource.prlimit(process, resource.RLIMIT_NOFILE, (number, limits[1]))
                request = self.request(b"late")
                with daemon.client() as client:
                    client.send(encode(request))
                    self.assertTrue(await_true(lambda: len(daemon.errors().splitlines()) == stretch))
                    self.rests(process)
                    self.assertIsNone(daemon.process.poll())
                    self.lines_are(daemon, stretch)
                    resource.prlimit(process, resource.RLIMIT_NOFILE, limits)
                    self.assertEqual(client.answer(), self.model.answer(request))
                self.lines_are(daemon, stretch)
            # Of six connections five came.
            self.assertIsNone(daemon.process.poll())
            self.next_is_served_last(daemon)
            self.assertEqual(daemon.wait(), 0)
        self.tree_is(self.model, paths_of(self.requests))

    def next_is_served_last(self, daemon: Daemon) -> None:
        with daemon.client() as client:
            request = self.request(b"last")
            self.assertEqual(client.ask(encode(request)), self.model.answer(request))

    def test_connections_that_could_not_be_taken(self) -> None:
        """Each error of accept: no descriptor in the system, no memory, a client that went away before."""
        need_shim()
        for error in (24, 23, 12, 103):
            with self.subTest(error=error):
                self.fresh(capacity=20000)
                self.model, self.requests = Model(), []
                with Daemon(self.folder, "d.img", "--connections", "2", rules="accept:2-4:E%d" % error) as daemon:
                    self.next_is_served(daemon)
                    self.next_is_served_last(daemon)
                    self.assertEqual(daemon.wait(), 0)
                    self.lines_are(daemon, 3)

    def test_too_few_from_the_start(self) -> None:
        """Where there are fewer descriptors than a start takes the daemon ends, and says why."""
        self.fresh()
        # One is left, which the image takes, so that its folder finds none. After that the socket takes the folder's.
        ran = self.program([built().udfburnd, "d.img", "s"], preexec_fn=lambda: resource.setrlimit(resource.RLIMIT_NOFILE, (4, 4)))
        self.tell(ran, 1, b"", b"udfburnd: 64 Device\n")
        self.assertFalse(self.path("s").exists())
        self.assertEqual(self.sound(), 0)


class Paths(Case):
    """Sockets that cannot be had: 94, and nothing is made or written."""

    def there(self) -> dict[Path, int]:
        return {each: each.lstat().st_mtime_ns for each in self.folder.rglob("*")}

    def refused(self, path: str) -> None:
        before = self.there()
        image = self.path("d.img").read_bytes()
        ran = self.program([built().udfburnd, "d.img", path, "--connections", "0"])
        self.tell(ran, 1, b"", b"udfburnd: 94 Socket\n")
        self.assertEqual(self.path("d.img").read_bytes(), image)
        self.assertEqual(self.there(), before)

    def test_paths(self) -> None:
        self.fresh()
        self.path("there").write_bytes(b"a file")
        self.path("folder").mkdir()
        old = socket.socket(socket.AF_UNIX, socket.SOCK_STREAM)
        old.bind(str(self.path("left")))
        old.close()
        os.symlink("nothing", self.path("link"))
        for path in ("", "there", "folder", "left", "link", "none/s", "there/s", "folder/", "x" * 108, "x" * 109, "x" * 300, "./" * 54 + "s"):
            with self.subTest(path=path):
                self.refused(path)
        self.assertEqual(self.path("there").read_bytes(), b"a file")

    def send(self, path: str) -> Ran:
        return self.udfburn("send", path, stdin=query("list", "/"))

    def test_the_longest_path(self) -> None:
        self.fresh()
        name = "x" * 107
        process = subprocess.Popen([built().udfburnd, "d.img", name, "--connections", "1"], cwd=self.folder,
                                   stdin=subprocess.DEVNULL, stdout=subprocess.DEVNULL, stderr=subprocess.DEVNULL)
        try:
            ran = self.send(name)
            # The path is there a moment before connections are taken.
            while ran.errors == b"udfburn: 94 Socket\n" and process.poll() is None:
                time.sleep(0.01)
                ran = self.send(name)
            self.tell(ran, 0, frame(b"\x41\0\0\0"), b"")
            self.assertEqual(process.wait(PATIENCE), 0)
        finally:
            process.kill()
            process.wait()

    def test_send_to_no_daemon(self) -> None:
        self.path("there").write_bytes(b"a file")
        for path in ("", "none", "there", "none/s", "x" * 108, "x" * 300):
            with self.subTest(path=path):
                self.tell(self.send(path), 1, b"", b"udfburn: 94 Socket\n")


class Rights(Case):
    """Who may connect is decided by the socket's folder, and by the rights that the umask leaves to the socket."""

    def test_each_mask(self) -> None:
        need_root()
        self.fresh()
        room = self.path("room")
        room.mkdir()
        for mask in (0o000, 0o007, 0o022, 0o077):
            for folder in (0o777, 0o711, 0o770):
                with self.subTest(mask="%03o" % mask, folder="%03o" % folder):
                    room.chmod(folder)
                    with Daemon(self.folder, "d.img", socket_name="room/s", umask=mask) as daemon:
                        # Root may, whatever the rights are.
                        daemon.client().close()
                        self.assertEqual(stat.S_IMODE(daemon.path.stat().st_mode), 0o777 & ~mask)
                        ran = self.udfburn("send", "room/s", stdin=query("list", "/"), **as_nobody())
                        if folder & 0o001 and not mask & 0o002:
                            self.tell(ran, 0, frame(b"\x41\0\0\0"), b"")
                        else:
                            self.tell(ran, 1, b"", b"udfburn: 94 Socket\n")


if __name__ == "__main__":
    unittest.main()
