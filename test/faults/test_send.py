"""`send` ends with status 0 where each of its complete frames got its answer, and with `91 Read` where fewer answers came back."""
from __future__ import annotations

import socket
import subprocess
import threading
from typing import Callable, Optional

from faults.case import Case, need_shim
from faults.machine import lacks
from faults.processes import PATIENCE
from faults.programs import built
from faults.running import Daemon, Ran, environment
from protocol import Request, answers_of, committed, data_answer, encode, frame, query, split_answers


READ = b"udfburn: 91 Read\n"
WRITE = b"udfburn: 92 Write\n"

CREATE = Request("create", 7, 1, "/a", b"hello")
SECOND = Request("mkdir", 7, 2, "/d")
THIRD = Request("mkdir", 7, 3, "/e")
FRAMES = [encode(CREATE), encode(SECOND), encode(THIRD)]
ANSWERS = [bytes.fromhex("06000000 0000 01000000"), bytes.fromhex("06000000 0000 02000000"), bytes.fromhex("06000000 0000 03000000")]
# A length above the limit, and what is answered to it (docs/PROTOCOL.md).
TOO_LONG = bytes.fromhex("00000080")
TOO_LONG_ANSWER = bytes.fromhex("04000000 2600 3300")


def waiting(most: int) -> int:
    """How many answers to requests a socket of this machine holds, or so many where it holds more."""
    one, other = socket.socketpair(socket.AF_UNIX)
    with one, other:
        one.setblocking(False)
        for count in range(most):
            try:
                one.send(ANSWERS[0])
            except BlockingIOError:
                return count
    return most


class Played(Case):
    """A daemon that the test plays: it reads what it likes, answers what it likes, and goes."""

    def play(self, frames: bytes, answer: bytes, reads: Optional[int] = None, resets: bool = False,
             pieces: Callable[[bytes], list[bytes]] = lambda data: [data]) -> Ran:
        """`send` of these frames, of which the daemon reads all, or `reads` bytes."""
        path = self.path("s")
        path.unlink(missing_ok=True)
        taken: list[bytes] = []
        with socket.socket(socket.AF_UNIX) as listener:
            listener.bind(str(path))
            listener.listen()
            listener.settimeout(PATIENCE)

            def serve() -> None:
                connection, _ = listener.accept()
                with connection:
                    got = b""
                    while reads is None or len(got) < reads:
                        piece = connection.recv(1 << 16 if reads is None else reads - len(got))
                        if not piece:
                            break
                        got += piece
                    taken.append(got)
                    try:
                        for piece in pieces(answer):
                            connection.sendall(piece)
                    except (BrokenPipeError, ConnectionResetError):
                        pass

            thread = threading.Thread(target=serve)
            thread.start()
            try:
                ran = self.udfburn("send", "s", stdin=frames)
            finally:
                thread.join()
        if reads is None:
            self.assertEqual(taken, [frames])
        return ran

    def test_each_answer(self) -> None:
        for count in range(len(FRAMES) + 1):
            with self.subTest(count=count):
                answer = b"".join(ANSWERS[:count])
                self.tell(self.play(b"".join(FRAMES[:count]), answer), 0, answer, b"")

    def test_fewer_answers(self) -> None:
        """None, or some, and each part of one: what came is copied, and the status reports that it is not all."""
        whole = b"".join(ANSWERS)
        for length in range(len(whole)):
            with self.subTest(length=length):
                self.tell(self.play(b"".join(FRAMES), whole[:length]), 1, whole[:length], READ)

    def test_no_answer_to_one(self) -> None:
        self.tell(self.play(FRAMES[0], b""), 1, b"", READ)

    def test_answers_in_pieces(self) -> None:
        """Answers are counted as they are, however they are cut."""
        whole = b"".join(ANSWERS)
        self.tell(self.play(b"".join(FRAMES), whole, pieces=lambda data: [data[i:i + 1] for i in range(len(data))]), 0, whole, b"")
        self.tell(self.play(b"".join(FRAMES), whole[:-1], pieces=lambda data: [data[i:i + 3] for i in range(0, len(data), 3)]), 1,
                  whole[:-1], READ)

    def test_an_answer_that_is_long(self) -> None:
        data = data_answer(b"x" * 1000000)
        whole = frame(b"\x40\x00" + data.rest)
        self.tell(self.play(query("get", "/a"), whole), 0, whole, b"")
        self.tell(self.play(query("get", "/a"), whole[:-1]), 1, whole[:-1], READ)
        self.tell(self.play(query("get", "/a") * 2, whole), 1, whole, READ)

    def test_an_input_that_ends_inside_a_frame(self) -> None:
        """That frame gets no answer, so that none is missed; those before it do."""
        whole = b"".join(FRAMES)
        for cut in (1, 3, 4, 5, 20, len(FRAMES[2]) - 1):
            sent = whole[:len(whole) - len(FRAMES[2]) + cut]
            with self.subTest(cut=cut):
                self.tell(self.play(sent, b"".join(ANSWERS[:2])), 0, b"".join(ANSWERS[:2]), b"")
                self.tell(self.play(sent, ANSWERS[0]), 1, ANSWERS[0], READ)
                self.tell(self.play(sent, b""), 1, b"", READ)

    def test_a_frame_that_is_too_long(self) -> None:
        """It gets the last answer, and what is after it none."""
        for behind in (b"", b"x", FRAMES[1] * 3):
            with self.subTest(behind=len(behind)):
                whole = ANSWERS[0] + TOO_LONG_ANSWER
                self.tell(self.play(FRAMES[0] + TOO_LONG + behind, whole), 0, whole, b"")
                self.tell(self.play(FRAMES[0] + TOO_LONG + behind, ANSWERS[0]), 1, ANSWERS[0], READ)
                self.tell(self.play(FRAMES[0] + TOO_LONG + behind, whole[:-1]), 1, whole[:-1], READ)
                self.tell(self.play(TOO_LONG + behind, TOO_LONG_ANSWER), 0, TOO_LONG_ANSWER, b"")
                self.tell(self.play(TOO_LONG + behind, b""), 1, b"", READ)

    def test_the_longest_frame(self) -> None:
        """A frame of the limit is a frame, and gets an answer."""
        longest = frame(bytes(1114112))
        answer = bytes.fromhex("04000000 2600 3400")
        self.tell(self.play(longest, answer), 0, answer, b"")
        self.tell(self.play(longest, b""), 1, b"", READ)
        self.tell(self.play(longest[:-1], b""), 0, b"", b"")

    def test_an_empty_frame(self) -> None:
        """A payload of no bytes is one that gets an answer."""
        answer = bytes.fromhex("04000000 2600 3500")
        self.tell(self.play(frame(b""), answer), 0, answer, b"")
        self.tell(self.play(frame(b"") * 3, answer * 2), 1, answer * 2, READ)

    def test_a_daemon_that_reads_a_part(self) -> None:
        """It goes in the middle of what it is sent: the status is 1, with a line that reports the stream."""
        frames = encode(CREATE._replace(data=b"x" * 1000000)) * 4
        for reads in (0, 1, 100000):
            for answer in (b"", ANSWERS[0][:5], ANSWERS[0]):
                with self.subTest(reads=reads, answer=len(answer)):
                    ran = self.play(frames, answer, reads)
                    self.assertEqual(ran.status, 1)
                    self.assertIn(ran.errors, [READ, WRITE])
                    self.assertTrue(answer.startswith(ran.output))


class Killed(Case):
    """The real daemon."""

    def test_it_answers(self) -> None:
        self.fresh()
        with Daemon(self.folder) as daemon:
            daemon.client().close()
            ran = self.udfburn("send", "s", stdin=b"".join(FRAMES))
        self.tell(ran, 0, b"".join(ANSWERS), b"")

    def test_it_is_killed_before_it_answers(self) -> None:
        """`send .. && rm source` keeps the source: the status is not 0 where an answer is missing, at each call of a commit."""
        need_shim()
        for rule in ("recv:2:k", "pwrite:1:K", "pwrite:1:k", "fsync:2:K", "fsync:2:k", "send:1:K"):
            with self.subTest(rule):
                self.fresh()
                # The first connection is the one that waits until the daemon listens.
                with Daemon(self.folder, rules=rule) as daemon:
                    client = daemon.client()
                    client.close()
                    self.tell(self.udfburn("send", "s", stdin=FRAMES[0]), 1, b"", READ)
                    self.assertEqual(daemon.process.wait(), -9)

    def test_it_is_killed_between_its_answers(self) -> None:
        """The next daemon gets all of it again, and then the status is 0."""
        need_shim()
        self.fresh()
        with Daemon(self.folder, rules="send:2:K") as daemon:
            daemon.client().close()
            process = subprocess.Popen([built().udfburn, "send", "s"], cwd=self.folder, stdin=subprocess.PIPE,
                                       stdout=subprocess.PIPE, stderr=subprocess.PIPE, env=environment())
            assert process.stdin is not None
            # In two pieces, so that the first is answered before the second is there.
            process.stdin.write(FRAMES[0])
            process.stdin.flush()
            deadline = threading.Event()
            while self.path("d.img").stat().st_size == 262 * 2048 and process.poll() is None:
                deadline.wait(0.01)
            output, errors = process.communicate(b"".join(FRAMES[1:]))
            self.assertEqual((process.returncode, errors), (1, READ))
            self.assertTrue(b"".join(ANSWERS).startswith(output))
            self.assertLess(len(output), len(b"".join(ANSWERS)))
        with Daemon(self.folder) as daemon:
            daemon.client().close()
            ran = self.udfburn("send", "s", stdin=b"".join(FRAMES))
        self.tell(ran, 0, b"".join(ANSWERS), b"")
        self.assertEqual(self.sound(), 3)

    def test_many_frames(self) -> None:
        """More than a buffer holds, in one stream."""
        self.fresh(capacity=3000)
        frames = b"".join(encode(Request("mkdir", 7, number, "/%d" % (number % 7))) for number in range(1, 301))
        with Daemon(self.folder) as daemon:
            daemon.client().close()
            ran = self.udfburn("send", "s", stdin=frames)
        self.assertEqual((ran.status, ran.errors), (0, b""))
        self.assertEqual([answer.commit for answer in answers_of(ran.output)], list(range(1, 301)))
        self.assertEqual(answers_of(ran.output)[0], committed(0, 1))

    LARGE = [Request("create", 7, number, "/%d" % number, b"%05d" % number * 14000) for number in range(1, 401)]

    def test_as_many_as_wait(self) -> None:
        """Answers that the daemon gives one by one, as many as docs/OPERATIONS.md says that the socket holds."""
        # What a kernel computes for a message differs.
        count = waiting(250)
        if count < 100:
            lacks("a socket holds no more than %d answers" % count)
        self.fresh(capacity=60000)
        with Daemon(self.folder) as daemon:
            daemon.client().close()
            ran = self.udfburn("send", "s", stdin=b"".join(map(encode, self.LARGE[:count])))
            self.assertEqual((ran.status, ran.errors), (0, b""))
            self.assertEqual([answer.commit for answer in answers_of(ran.output)], list(range(1, count + 1)))

    def test_more_than_wait(self) -> None:
        """Neither side goes on, until the daemon lets go: that is reported, and what was answered is done. The next parts go on from there."""
        self.fresh(capacity=60000)
        with Daemon(self.folder) as daemon:
            daemon.client().close()
            # The socket holds four of the answers to the queries.
            ran = self.udfburn("send", "s", stdin=b"".join(encode(request) + query("get", request.path) for request in self.LARGE))
            self.assertEqual(ran.status, 1)
            self.assertIn(ran.errors, [READ, WRITE])
            self.assertEqual(daemon.errors(), b"udfburnd: 92 Write\n")
            answers = [answer for answer in split_answers(ran.output)[0] if answer.is_commit]
            self.assertGreater(len(answers), 0)
            self.assertLess(len(answers), len(self.LARGE))
            self.assertEqual([answer.commit for answer in answers], list(range(1, len(answers) + 1)))
            # The last one whose answer came is within the replies that are kept.
            rest = self.LARGE[len(answers) - 1:]
            for part in (rest[:100], rest[100:]):
                ran = self.udfburn("send", "s", stdin=b"".join(map(encode, part)))
                self.assertEqual((ran.status, ran.errors), (0, b""))
                self.assertEqual([answer.commit for answer in answers_of(ran.output)], [request.number for request in part])
        self.assertEqual(self.sound(), len(self.LARGE))

    def test_no_daemon(self) -> None:
        self.tell(self.udfburn("send", "s", stdin=FRAMES[0]), 1, b"", b"udfburn: 94 Socket\n")
        self.path("s").write_bytes(b"")
        self.tell(self.udfburn("send", "s", stdin=FRAMES[0]), 1, b"", b"udfburn: 94 Socket\n")
        self.tell(self.udfburn("send", "", stdin=FRAMES[0]), 1, b"", b"udfburn: 94 Socket\n")
