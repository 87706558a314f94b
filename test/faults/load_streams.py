"""One list of frames, cut in any way: the answers are the same, and so is the volume."""
from __future__ import annotations

import random
import subprocess
import time
import unittest
from typing import Callable, Iterator, Union

from faults.load_support import Applying, Case, converse, during, expect_answers, spell_all, write_all
from faults.processes import PATIENCE
from faults.programs import built
from faults.running import Daemon, environment
from protocol import MALFORMED, Answer, Model, Request, answers_of, frame, paths_of

Message = Union[Request, tuple[str, str]]

MESSAGES: list[Message] = [
    ("list", "/"),
    Request("create", 7, 1, "/a", b"hello"),
    Request("create", 7, 2, "/a", b"there already"),
    Request("mkdir", 8, 1, "/d"),
    Request("create", 7, 3, "/d/b", bytes(range(256)) * 20),
    ("get", "/d/b"),
    ("get", "/none"),
    Request("rename", 7, 4, "/a", to="/d/a"),
    Request("rename", 7, 4, "/a", to="/d/a"),
    Request("remove", 7, 9, "/d/a"),
    ("list", "/d"),
    Request("replace", 8, 2, "/d/a", b""),
    Request("remove", 8, 3, "/d/b"),
    ("list", "/d"),
    ("get", "/d/a"),
]
LARGE: list[Message] = [
    Request("create", 7, 1, "/l", bytes(range(256)) * 4096),
    ("get", "/l"),
    Request("create", 7, 2, "/m", b"behind"),
    ("list", "/"),
]
# A payload of a kind that there is not, an empty one, and a length too large, with their answers; nothing is read after the last.
BAD_FRAMES = frame(b"\x09rest") + frame(b"")
MALFORMED_ANSWERS = [Answer(MALFORMED, b"\x34\0"), Answer(MALFORMED, b"\x35\0")]
TOO_LONG = b"\xff\xff\xff\xff"
# Seconds without an answer, below those after which a daemon that waits for more lets its client go.
LONGEST_WAIT = 50.0
TOO_LONG_ANSWER = Answer(MALFORMED, b"\x33\0")


def pieces(data: bytes, size: int) -> Iterator[bytes]:
    for at in range(0, len(data), size):
        yield data[at:at + size]


def send_parts(parts: list[bytes], pause: Callable[[int], float], give: Callable[[bytes], None]) -> None:
    """Gives the parts in turn, with a pause after each."""
    for number, part in enumerate(parts):
        give(part)
        wait = pause(number)
        if wait:
            time.sleep(wait)


class Cuts(Case):
    def setUp(self) -> None:
        super().setUp()
        self.fresh("new.img", capacity=4000)

    def stream(self, messages: list[Message]) -> tuple[bytes, list[Answer], Model]:
        """The frames, with malformed ones between and a length at the end that is too large; their answers; the state after."""
        model = Model()
        frames, answers = b"", []
        for number, message in enumerate(messages):
            frames += spell_all([message])
            answers += expect_answers(model, [message], [Answer(0)])
            if number % 5 == 2:
                frames += BAD_FRAMES
                answers += MALFORMED_ANSWERS
        return frames + TOO_LONG, answers + [TOO_LONG_ANSWER], model

    def by_socket(self, parts: list[bytes], pause: Callable[[int], float], name: str) -> list[Answer]:
        with Daemon(self.folder, name + ".img", "--connections", "1", socket_name=name) as daemon, daemon.client() as client:
            client.socket.settimeout(LONGEST_WAIT)
            answers = converse(lambda: send_parts(parts, pause, client.send), client.answer)
            self.assertEqual(daemon.wait(), 0)
            self.assertEqual(daemon.errors(), b"")
        return answers

    def by_pipe(self, parts: list[bytes], pause: Callable[[int], float], name: str) -> list[Answer]:
        party = Applying(self.folder, name, name + ".img")
        party.patience = LONGEST_WAIT
        try:
            answers = converse(lambda: send_parts(parts, pause, party.give), party.take)
            self.assertEqual(party.process.wait(PATIENCE), 0)
            self.assertEqual(party.errors(), b"")
            return answers
        finally:
            party.kill()

    def cut(self, messages: list[Message], sizes: list[int], pause: Callable[[int], float]) -> None:
        frames, answers, model = self.stream(messages)
        paths = paths_of([message for message in messages if isinstance(message, Request)])
        volumes = set()
        for size in sizes:
            for way in (self.by_socket, self.by_pipe):
                with during("pieces of %d, %s" % (size, way.__name__)):
                    name = "c%d%s" % (size, way.__name__)
                    image = self.path(name + ".img")
                    image.write_bytes(self.path("new.img").read_bytes())
                    self.assertEqual(way(list(pieces(frames, size)), pause, name), answers)
                    self.tree_is(model, paths, name + ".img")
                    volumes.add(image.read_bytes())
        self.assertEqual(len(volumes), 1, "the cuts are seen on the medium")

    def test_small_pieces(self) -> None:
        """With a pause now and then, so that a read ends in the middle of each field."""
        self.cut(MESSAGES, [1, 2, 3, 7, 64], lambda number: 0.002 if number % 23 == 0 else 0.0)

    def test_pieces_of_a_block(self) -> None:
        self.cut(MESSAGES, [2048, 4096, 1 << 20], lambda number: 0.002)

    def test_a_mebibyte(self) -> None:
        self.cut(LARGE, [4096, 65_536, 65_537, 1 << 20], lambda number: 0.002 if number % 17 == 0 else 0.0)

    def test_a_pause_at_each_byte(self) -> None:
        """The beginning of the stream, byte by byte, each read by itself."""
        messages = MESSAGES[:3]
        self.cut(messages, [1], lambda number: 0.002)

    def test_pieces_as_a_die_falls(self) -> None:
        fall = random.Random(7111)
        frames, answers, model = self.stream(MESSAGES)
        for number in range(20):
            with during("number %d" % number):
                name = "r%d" % number
                self.path(name + ".img").write_bytes(self.path("new.img").read_bytes())
                parts, at = [], 0
                while at < len(frames):
                    size = fall.choice([1, 3, 4, 5, 30, 700, 5000])
                    parts.append(frames[at:at + size])
                    at += size
                way = self.by_socket if number % 2 else self.by_pipe
                self.assertEqual(way(parts, lambda number: 0.001 if number % 7 == 0 else 0.0, name), answers)
                self.tree_is(model, ["/", "/a", "/d", "/d/a", "/d/b"], name + ".img")

    def test_send_in_pieces(self) -> None:
        """What `send` is given in pieces is what it sends."""
        frames, answers, model = self.stream(MESSAGES)
        frames, answers = frames[:-4], answers[:-1]
        self.path("s.img").write_bytes(self.path("new.img").read_bytes())
        with Daemon(self.folder, "s.img") as daemon:
            daemon.client().close()
            party = Sending(self)
            for part in pieces(frames, 7):
                party.give(part)
            self.assertEqual(party.end(), answers)
        self.tree_is(model, ["/", "/a", "/d", "/d/a", "/d/b"], "s.img")

    def test_any_front(self) -> None:
        """Where the stream ends early the whole frames before its end are answered, and nothing else is done."""
        frames, _, _ = self.stream(MESSAGES[:9])
        fall = random.Random(7112)
        cuts = sorted(set(fall.sample(range(len(frames) - 4), 60)) | set(range(40)))
        for cut in cuts:
            model = Model()
            at, expected = 0, []
            whole = []
            while at + 4 <= cut:
                length = int.from_bytes(frames[at:at + 4], "little")
                if at + 4 + length > cut:
                    break
                whole.append(frames[at:at + 4 + length])
                at += 4 + length
            spelled = {spell_all([message]): message for message in MESSAGES}
            for piece in whole:
                if piece in spelled:
                    expected += expect_answers(model, [spelled[piece]], [Answer(0)])
                else:
                    expected.append(MALFORMED_ANSWERS[0 if len(piece) > 4 else 1])
            self.path("f.img").write_bytes(self.path("new.img").read_bytes())
            ran = self.apply(frames[:cut], image="f.img")
            self.assertEqual((ran.status, ran.errors, answers_of(ran.output)), (0, b"", expected), "cut at %d" % cut)
            self.assertEqual(self.sound("f.img"), model.commits)


class Sending:
    """A `send` that is given its input in pieces."""

    def __init__(self, case: Case) -> None:
        self.process = subprocess.Popen([built().udfburn, "send", "s"], cwd=case.folder, stdin=subprocess.PIPE,
                                        stdout=subprocess.PIPE, bufsize=0, env=environment())

    def give(self, data: bytes) -> None:
        assert self.process.stdin is not None
        write_all(self.process.stdin.fileno(), data)

    def end(self) -> list[Answer]:
        output, _ = self.process.communicate(timeout=PATIENCE)
        if self.process.returncode != 0:
            raise AssertionError("send ended with %d" % self.process.returncode)
        return answers_of(output)


if __name__ == "__main__":
    unittest.main()
