"""Files that grow by pieces: power lost after each write of an append, calls that fail, and kills. What is left is a file of whole
pieces, none of which is missing that was answered.
"""
from __future__ import annotations

import random
from typing import Iterable, List, Sequence

from faults.calls import Discipline
from faults.case import Case, differing, need_shim
from faults.log import read_log
from faults.serving import Serving
from faults.test_power import Losing
from protocol import PIECE, Answer, Model, Request, answers_of, encode, paths_of, query, questions, read_query

CAPACITY = 4000
KILLED = -9
DATA = random.Random(20261129).randbytes(2 * PIECE + 5000)
# Files of two pieces and of three, and one that was empty. Another client's commit follows.
FIRST = [Request("create", 1, 1, "/two", DATA[:PIECE]), Request("create", 1, 2, "/empty")]
TWO = [
    Request("append", 1, 3, "/two", DATA[PIECE:PIECE + 70_000], offset=PIECE),
    Request("append", 2, 1, "/empty", DATA[:9000], offset=0),
]
THREE = [
    Request("append", 1, 3, "/two", DATA[PIECE:2 * PIECE], offset=PIECE),
    Request("append", 1, 4, "/two", DATA[2 * PIECE:], offset=2 * PIECE),
    Request("create", 2, 1, "/last", b"last"),
]


def pieces_asked(paths: Iterable[str]) -> bytes:
    """What can be seen of a tree, and of each piece of its files."""
    paths = list(paths)
    return questions(paths) + b"".join(query("stat", path) + read_query(path, at) for path in paths for at in (0, PIECE, 2 * PIECE))


def pieces_told(model: Model, paths: Iterable[str]) -> List[Answer]:
    """The answers to `pieces_asked`."""
    paths, tree = list(paths), model.tree
    return model.told(paths) + [answer for path in paths for at in (0, PIECE, 2 * PIECE) for answer in (tree.stat(path), tree.read(path, at))]


class Pieces(Case):
    """Tests on a volume that has the beginning of a file."""

    def tree_is(self, model: Model, paths: Iterable[str], image: str = "d.img") -> None:
        paths = list(paths)
        super().tree_is(model, paths, image)
        ran = self.apply(pieces_asked(paths), image)
        self.assertEqual((ran.status, ran.errors), (0, b""))
        self.assertEqual(differing(answers_of(ran.output), pieces_told(model, paths)), [])

    def begun(self) -> Model:
        """A volume that has the first requests, and its model."""
        model = Model()
        self.fresh(capacity=CAPACITY)
        ran = self.apply(b"".join(map(encode, FIRST)))
        self.assertEqual(answers_of(ran.output), [model.answer(request) for request in FIRST])
        return model


class PowerLost(Pieces, Losing):
    # Pages of half the size would double what is tried, and show no other cut of a block.
    PAGES = (4096,)

    def asked(self, requests: Sequence[Request]) -> bytes:
        return pieces_asked(paths_of([*FIRST, *requests]))

    def told(self, state: Model, requests: Sequence[Request]) -> list[Answer]:
        return pieces_told(state, paths_of([*FIRST, *requests]))

    def run_and_lose(self, requests: Sequence[Request], count: int, rules: str = "") -> None:
        begin = self.begun()
        before, model = self.path("d.img").read_bytes(), begin.copy()
        ran = self.apply(b"".join(map(encode, requests)), log=self.new_log(), rules=rules)
        self.assertEqual(answers_of(ran.output), [model.answer(request) for request in requests])
        self.lose(before, read_log(self.log_path()), requests, count, False, begin=begin)

    def test_two_pieces(self) -> None:
        self.run_and_lose(TWO, 12)
        self.assertGreater(self.images, 40)

    def test_three_pieces(self) -> None:
        self.run_and_lose(THREE, 8)
        self.assertGreater(self.images, 60)

    def test_a_sync_that_lies_is_seen(self) -> None:
        with self.assertRaises(AssertionError):
            self.run_and_lose(TWO[:1], 0, "fsync:*:L")
        self.assertGreater(self.images, 0)

    def test_a_sync_that_fails(self) -> None:
        """What a failed sync dropped is written again by the repeat."""
        self.begun()
        self.apply(b"".join(map(encode, TWO)), log=self.new_log())
        calls = sum(record.kind == "fsync" for record in read_log(self.log_path()))
        self.assertEqual(calls, 3)
        for number in range(2, calls + 1):
            for action in ("E5", "A5"):
                with self.subTest(number=number, action=action):
                    begin = self.begun()
                    before, model = self.path("d.img").read_bytes(), begin.copy()
                    frames = b"".join(encode(request) for request in TWO for _ in range(3))
                    ran = self.apply(frames, log=self.new_log(), rules="fsync:%d:%s" % (number, action))
                    answers = answers_of(ran.output)
                    self.assertEqual([answers[2], answers[5]], [model.answer(request) for request in TWO])
                    self.lose(before, read_log(self.log_path()), TWO, 0, False, begin=begin)


class Failures(Pieces, Serving):
    capacity = CAPACITY

    def test_each_write(self) -> None:
        """One that fails is no fault; one of what is then done again is."""
        requests = [*FIRST, *TWO]
        calls = self.numbers(self.run_with("", requests)[0], "pwrite")
        whole = self.path("d.img").read_bytes()
        # The first file's own writes are those of any file.
        for place, numbers in list(enumerate(calls))[1:]:
            again = "pwrite:%d:E5;pwrite:%d:" % (numbers[0], numbers[1])
            for rule in [*("pwrite:%d:" % number for number in numbers), again]:
                for action in ("E5", "P1000E28", "P3000E5", "A5"):
                    with self.subTest(place=place, rule=rule, action=action):
                        records, faults = self.run_with(rule + action, requests)
                        self.assertEqual(faults, rule == again)
                        self.cut_behind(records)
                        self.assertTrue(rule == again or self.path("d.img").read_bytes() == whole)

    def test_each_sync(self) -> None:
        """One that fails is no fault; one of what is then done again is."""
        requests = [*FIRST, *THREE]
        calls = self.numbers(self.run_with("", requests)[0], "fsync")
        whole = self.path("d.img").read_bytes()
        self.assertEqual([len(numbers) for numbers in calls], [3, 2, 2, 2, 2])
        for place, numbers in enumerate(calls):
            first, second = numbers[-2:]
            # The cut takes a sync too.
            again = "fsync:%d:E5;fsync:%d:" % (first, first + 3)
            for rule in ("fsync:%d:" % first, "fsync:%d:" % second, again):
                for action in ("E5", "A5"):
                    with self.subTest(place=place, rule=rule, action=action):
                        records, faults = self.run_with(rule + action, requests)
                        self.assertEqual(faults, rule == again)
                        self.cut_behind(records)
                        self.assertTrue(rule == again or self.path("d.img").read_bytes() == whole)

    def test_reads_of_a_file(self) -> None:
        """A read that fails ends `get`, which has printed the pieces before the one that it was of, and no byte of that one."""
        self.begun()
        self.apply(b"".join(map(encode, THREE)))
        words = ("get", "d.img", "/two")
        self.tell(self.udfburn(*words, log=self.new_log()), 0, DATA, b"")
        calls = sum(record.kind == "pread" for record in read_log(self.log_path()))
        lengths = set()
        for number in sorted({*range(1, calls, calls // 20), *range(calls - 3, calls + 1)}):
            with self.subTest(number=number):
                ran = self.udfburn(*words, rules="pread:%d:E5" % number)
                self.tell(ran, 1, DATA[:len(ran.output)], b"udfburn: 64 Device\n")
                lengths.add(len(ran.output))
        self.assertEqual(lengths, {0, PIECE, 2 * PIECE})


class Kills(Pieces):
    def setUp(self) -> None:
        super().setUp()
        need_shim()

    def killed(self, requests: Sequence[Request], rules: str) -> None:
        """Killed by these rules, and the same frames again: each piece is there once."""
        model = self.begun()
        length = self.path("d.img").stat().st_size
        frames = b"".join(map(encode, requests))
        self.assertEqual(self.apply(frames, log=self.new_log(), rules=rules).status, KILLED)
        left = self.sound()
        self.assertGreaterEqual(left, model.commits)
        ran = self.apply(frames, log=self.log_path())
        self.assertEqual((ran.status, ran.errors), (0, b""))
        self.assertEqual(answers_of(ran.output), [model.answer(request) for request in requests])
        self.assertEqual(Discipline(length, self.folder).follow(read_log(self.log_path())).faults, [])
        self.tree_is(model, paths_of([*FIRST, *requests]))

    def test_at_each_call(self) -> None:
        for requests in (TWO, THREE):
            self.begun()
            self.apply(b"".join(map(encode, requests)), log=self.new_log())
            records = read_log(self.log_path())
            for kind in ("pwrite", "fsync", "stdout"):
                calls = sum(record.kind == kind for record in records)
                self.assertGreater(calls, 0)
                for number in range(1, calls + 1):
                    for action in ("K", "P2100K") if kind == "pwrite" else ("K", "k"):
                        with self.subTest(count=len(requests), kind=kind, number=number, action=action):
                            self.killed(requests, "%s:%d:%s" % (kind, number, action))
