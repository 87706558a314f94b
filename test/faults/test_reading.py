"""What is read of a connection or of the standard input at once: the messages that are there are one group, and what came before a call
that fails is answered."""
from __future__ import annotations

import os
import signal
import socket
import subprocess
import tempfile
import threading
from typing import Any, Sequence

from faults.calls import Discipline
from faults.log import read_log
from faults.processes import PATIENCE, stop
from faults.programs import built
from faults.running import Client, Daemon, Ran, environment
from faults.serving import Serving
from protocol import Model, Request, answers_of, encode, paths_of

STREAM = [
    Request("create", 1, 1, "/a", b"first"),
    Request("mkdir", 2, 1, "/d"),
    Request("create", 1, 2, "/d/x", b"second" * 700),
]


def creates(begin: int, count: int, size: int) -> list[Request]:
    """So many requests of so many bytes each, with numbers from this one on."""
    return [Request("create", 1, number, "/f%d" % number, bytes([number]) * size) for number in range(begin, begin + count)]


class AtOnce(Serving):
    def syncs(self) -> int:
        return sum(record.kind == "fsync" for record in read_log(self.log_path()))

    def at_once(self, daemon: Daemon, client: Client, requests: Sequence[Request], model: Model) -> int:
        """All of these requests wait when the daemon comes to them. How many syncs they took."""
        before = self.syncs()
        stop(daemon.process.pid)
        client.send(b"".join(map(encode, requests)))
        daemon.process.send_signal(signal.SIGCONT)
        self.assertEqual([client.answer() for _ in requests], [model.answer(request) for request in requests])
        return self.syncs() - before

    def test_what_is_there_is_a_group(self) -> None:
        """With the sync of all its blocks, and that of its marks. Of a new connection 64 KiB are read at once, and what is more is a group by
        itself; from then on twice as much is."""
        length = self.fresh(capacity=self.capacity).stat().st_size
        model = Model()
        bursts = [(creates(1, 4, 15_000), [4]), (creates(5, 5, 15_000), [4, 1]), (creates(10, 5, 14_000), [5])]
        with Daemon(self.folder, log=self.new_log()) as daemon, daemon.client() as client:
            for requests, groups in bursts:
                with self.subTest(len(groups)):
                    self.assertEqual(self.at_once(daemon, client, requests, model), 2 * len(groups))
            self.assertEqual(daemon.errors(), b"")
        followed = Discipline(length, self.folder).follow(read_log(self.log_path()), daemon=True)
        self.assertEqual(followed.faults, [])
        self.assertEqual([len(marks) for marks in followed.groups], [count for _, groups in bursts for count in groups])
        self.tree_is(model, paths_of([request for requests, _ in bursts for request in requests]))

    def answered(self, client: Client, model: Model, behind: bytes = b"") -> int:
        """How many of the stream's requests are answered, each sent when the one before it is, with these bytes behind it. All are right."""
        for count, request in enumerate(STREAM):
            answer = client.ask(encode(request) + behind)
            if answer is None:
                return count
            self.assertEqual(answer, model.answer(request))
        return len(STREAM)

    def left(self, rule: str, count: int, behind: bytes) -> None:
        """A daemon under this rule answers so many requests, and leaves the connection. The next one gets the replies that are kept."""
        self.fresh(capacity=self.capacity)
        model = Model()
        with Daemon(self.folder, rules=rule) as daemon:
            with daemon.client() as client:
                self.assertEqual(self.answered(client, model, behind), count)
                self.assertEqual(model.commits, count)
            with daemon.client() as client:
                # A request that the model knows already gets its reply once more, and makes no commit.
                self.assertEqual(self.answered(client, model), len(STREAM))
            self.assertEqual(daemon.errors(), b"udfburnd: 91 Read\n")
        self.assertEqual(model.commits, len(STREAM))
        self.tree_is(model, paths_of(STREAM))

    def test_calls_that_fail(self) -> None:
        """The first call of each pair makes the socket one that does not wait, and the second one makes it wait again."""
        for rule, count in (
            ("recv:2:E5", 1),
            ("recv:3:E5", 1),
            ("ioctl:1:E5", 1),
            ("ioctl:2:E5", 1),
            ("ioctl:3:E5", 2),
            ("ioctl:4:E12", 2),
        ):
            with self.subTest(rule):
                self.left(rule, count, b"")

    def test_a_call_that_fails_after_a_beginning(self) -> None:
        """The rest of a message is waited for by another call. None of it counts."""
        self.left("recv:2:E5", 1, encode(STREAM[1])[:-1])

    def test_a_read_that_a_signal_interrupts(self) -> None:
        """That is no failure: no bytes were there."""
        beginning, rest = encode(STREAM[1])[:9], encode(STREAM[1])[9:]
        for parts in ([encode(STREAM[0]), beginning + rest], [encode(STREAM[0]) + beginning, rest]):
            with self.subTest(len(parts[0])):
                self.fresh(capacity=self.capacity)
                model = Model()
                with Daemon(self.folder, rules="recv:2:E4") as daemon, daemon.client() as client:
                    for request, part in zip(STREAM, parts):
                        self.assertEqual(client.ask(part), model.answer(request))
                    self.assertEqual(client.ask(encode(STREAM[2])), model.answer(STREAM[2]))
                    self.assertEqual(daemon.errors(), b"")
                self.tree_is(model, paths_of(STREAM))


class OfInputs(Serving):
    """What `apply` answers together: of a socket what is there, of a file and of a pipe what comes with 64 KiB."""

    REQUESTS = creates(1, 20, 7000)
    # A read of 64 KiB, and then one of twice as much.
    IN_SOCKET = [9, 11]
    IN_FILE = [9, 9, 2]

    def applied(self, given: Any, rules: str = "", **popen: Any) -> Ran:
        """Runs `apply` on what this descriptor has to give, under rules by which calls fail."""
        done = subprocess.run([built().udfburn, "apply", "d.img"], stdin=given, stderr=subprocess.PIPE, cwd=self.folder, timeout=PATIENCE,
                              env=environment("d.img", self.new_log(), rules), **popen)
        return Ran(done.returncode, done.stdout or b"", done.stderr)

    def groups(self, given: Any) -> list[int]:
        """How many commits each group has that `apply` makes of the requests, which this descriptor gives. All is as it must be."""
        length = self.fresh(capacity=self.capacity).stat().st_size
        model = Model()
        ran = self.applied(given, stdout=subprocess.PIPE)
        self.assertEqual((ran.status, ran.errors), (0, b""))
        self.assertEqual(answers_of(ran.output), [model.answer(request) for request in self.REQUESTS])
        followed = Discipline(length, self.folder).follow(read_log(self.log_path()))
        self.assertEqual(followed.faults, [])
        self.tree_is(model, paths_of(self.REQUESTS))
        return [len(marks) for marks in followed.groups]

    def in_socket(self) -> "tuple[socket.socket, socket.socket]":
        """A socket in which the requests wait, and the one at its other end, which sends no more."""
        ours, theirs = socket.socketpair()
        self.addCleanup(ours.close)
        self.addCleanup(theirs.close)
        ours.settimeout(PATIENCE)
        ours.sendall(b"".join(map(encode, self.REQUESTS)))
        ours.shutdown(socket.SHUT_WR)
        return ours, theirs

    def test_a_file(self) -> None:
        with tempfile.TemporaryFile(dir=built().room) as given:
            given.write(b"".join(map(encode, self.REQUESTS)))
            given.seek(0)
            self.assertEqual(self.groups(given), self.IN_FILE)

    def test_a_socket(self) -> None:
        self.assertEqual(self.groups(self.in_socket()[1]), self.IN_SOCKET)

    def test_a_pipe(self) -> None:
        source, sink = os.pipe()
        self.addCleanup(os.close, source)

        def give() -> None:
            with open(sink, "wb") as output:
                output.write(b"".join(map(encode, self.REQUESTS)))

        giver = threading.Thread(target=give)
        giver.start()
        groups = self.groups(source)
        giver.join(PATIENCE)
        self.assertGreaterEqual(len(groups), len(self.IN_FILE))
        self.assertEqual(sum(groups), len(self.REQUESTS))

    def test_calls_that_fail(self) -> None:
        """What came before the call is answered, and the status says that a read failed. All requests came with the second read, after which
        two calls ask for more without waiting."""
        for rule, count in (("recv:1:E5", 0), ("recv:2:E5", 9), ("recv:3:E5", 20), ("ioctl:1:E5", 20), ("ioctl:2:E5", 20)):
            with self.subTest(rule):
                self.fresh(capacity=self.capacity)
                model = Model()
                ran = self.applied(self.in_socket()[1], rule, stdout=subprocess.PIPE)
                self.assertEqual((ran.status, ran.errors), (1, b"udfburn: 91 Read\n"))
                self.assertEqual(answers_of(ran.output), [model.answer(request) for request in self.REQUESTS[:count]])
                self.tree_is(model, paths_of(self.REQUESTS))

    def test_a_socket_is_never_the_output(self) -> None:
        """A closed output stays closed: no descriptor of the socket takes its number."""
        self.fresh(capacity=self.capacity)
        ours, theirs = self.in_socket()
        ran = self.applied(theirs, preexec_fn=lambda: os.close(1))
        self.assertEqual(ran, Ran(1, b"", b"udfburn: 92 Write\n"))
        ours.setblocking(False)
        with self.assertRaises(BlockingIOError):
            ours.recv(1)
