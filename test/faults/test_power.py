"""Power lost at every call of a stream of commits, on a model of a page cache: no acknowledged file is lost, and no volume is damaged.

The log of a run is made again call by call, and after each call the file is what some power loss leaves of it (pages.py). Such an
image must be a state of the run, and not one before the last acknowledged commit.
"""
from __future__ import annotations

import random
from typing import Callable, Dict, Optional, Sequence, Tuple

from faults.calls import told_by
from faults.case import FORMATTED_BLOCKS, Case, differing, need_shim
from faults.log import Record, read_log
from faults.pages import Disk, losses
from faults.running import Client, Daemon, Ran
from protocol import BLOCK, FAULT, Answer, Model, Request, answers_of, encode, paths_of, questions

SEED = 20261123

STREAM = [
    Request("create", 1, 1, "/a", b"first"),
    Request("mkdir", 1, 2, "/d"),
    Request("create", 2, 1, "/d/x", b"second" * 500),
    Request("rename", 1, 3, "/a", to="/d/y"),
    Request("replace", 2, 2, "/d/x", b"third"),
    Request("create", 2, 3, "/d/x", b"refused"),
    Request("create", 1, 4, "/long", bytes(range(256)) * 300),
    Request("rename", 2, 4, "/d", to="/e"),
    Request("remove", 1, 5, "/long"),
    Request("create", 2, 5, "/e/z", b"last"),
]


def states_of(requests: Sequence[Request], begin: Model) -> list[Model]:
    """The model before the first commit and after each."""
    model = begin.copy()
    states = [model.copy()]
    for request in requests:
        model.answer(request)
        states.append(model.copy())
    return states


class Losing(Case):
    """Loses power at each call of a log."""

    PAGES: Tuple[int, ...] = (4096, 2048)

    def setUp(self) -> None:
        super().setUp()
        need_shim()
        self.images = 0

    def asked(self, requests: Sequence[Request]) -> bytes:
        """What is asked of each image that is left."""
        return questions(paths_of(requests))

    def told(self, state: Model, requests: Sequence[Request]) -> list[Answer]:
        """The answers in a state of the run."""
        return state.told(paths_of(requests))

    def looked_at(self, content: bytes, states: Dict[int, list[Answer]], asked: bytes, acknowledged: int, how: str) -> None:
        """The image is a state of the run that is not before the acknowledged one, by `check` and by what can be asked of it."""
        self.images += 1
        path = self.path("left.img")
        path.write_bytes(content)
        checked = self.udfburn("check", "left.img")
        self.assertEqual((checked.status, checked.errors), (0, b""), how)
        commits = int(checked.output.split()[1])
        self.assertGreaterEqual(commits, acknowledged, how + ": an acknowledged commit is lost")
        self.assertIn(commits, states, how)
        ran = self.apply(asked, "left.img")
        self.assertEqual((ran.status, ran.errors), (0, b""), how)
        self.assertEqual(differing(answers_of(ran.output), states[commits]), [], how)

    def lose(self, before: bytes, records: Sequence[Record], requests: Sequence[Request], count: int, daemon: bool,
             seed: int = SEED, begin: Optional[Model] = None) -> None:
        """Loses power at each call of the log, on pages of both sizes. The image was in the state `begin` before."""
        begin = begin or Model()
        states = {state.commits: self.told(state, requests) for state in states_of(requests, begin)}
        asked = self.asked(requests)
        said: Dict[int, int] = {}
        for index, answer in told_by(records, daemon):
            if answer.is_commit:
                said[index] = max(said.get(index, 0), answer.commit)
        for page in self.PAGES:
            chance = random.Random(seed + page)
            # What a failed sync wrote is chosen anew in each of these.
            for on_failure in (None, chance):
                disk = Disk(before, page, on_failure)
                acknowledged = begin.commits
                seen: set[bytes] = set()
                for index, record in enumerate(records):
                    if record.kind in ("pwrite", "fsync", "ftruncate"):
                        disk.call(record)
                    elif index in said:
                        acknowledged = max(acknowledged, said[index])
                    else:
                        continue
                    for loss in losses(disk, chance, count):
                        key = bytes([acknowledged]) + loss.content
                        if key in seen:
                            continue
                        seen.add(key)
                        self.looked_at(loss.content, states, asked, acknowledged,
                                       "call %d (%s), pages of %d, %s" % (index, record.kind, page, loss.how))
                if not any(record.kind == "fsync" and record.error for record in records):
                    break
        self.assertEqual(acknowledged, begin.commits + len(requests))


class Power(Losing):
    def served(self, requests: Sequence[Request], rules: str = "") -> bytes:
        """The image before a daemon served these requests one by one, each until it was committed."""
        before = self.fresh().read_bytes()
        model = Model()
        with Daemon(self.folder, log=self.new_log(), rules=rules) as daemon, daemon.client() as client:
            for request in requests:
                self.assertEqual(self.insisted(client, request), model.answer(request))
        return before

    def insisted(self, client: Client, request: Request) -> Optional[Answer]:
        for _ in range(8):
            answer = client.ask(encode(request))
            if answer is None or answer.code != FAULT:
                break
        return answer

    def test_a_stream(self) -> None:
        before = self.served(STREAM)
        self.lose(before, read_log(self.log_path()), STREAM, 6, True)
        self.assertGreater(self.images, 200)

    def test_a_stream_of_apply(self) -> None:
        before = self.fresh().read_bytes()
        ran = self.apply(b"".join(map(encode, STREAM)), log=self.log_path())
        model = Model()
        self.assertEqual(answers_of(ran.output), [model.answer(request) for request in STREAM])
        self.lose(before, read_log(self.log_path()), STREAM, 2, False)
        self.assertGreater(self.images, 100)

    def test_a_killed_stream(self) -> None:
        """A kill at each write and sync of a short stream, the same frames again, and power lost at every call of both processes."""
        requests = STREAM[:3]
        frames = b"".join(map(encode, requests))
        model = Model()
        wanted = [model.answer(request) for request in requests]
        self.fresh()
        self.apply(frames, log=self.new_log())
        counts = {kind: sum(record.kind == kind for record in read_log(self.log_path())) for kind in ("pwrite", "fsync")}
        for kind, calls in counts.items():
            for number in range(1, calls + 1):
                for action in ("K", "k"):
                    before = self.fresh().read_bytes()
                    self.new_log()
                    killed = self.apply(frames, rules="%s:%d:%s" % (kind, number, action), log=self.log_path())
                    self.assertEqual(killed.status, -9)
                    ran = self.apply(frames, log=self.log_path())
                    self.assertEqual(answers_of(ran.output), wanted)
                    with self.subTest(kind=kind, number=number, action=action):
                        self.lose(before, read_log(self.log_path()), requests, 0, False)
        self.assertGreater(self.images, 100)

    def test_a_file_that_was_cut_inside_a_block(self) -> None:
        """The stream begins after a part of a block that an earlier power loss left."""
        requests = STREAM[:4]
        for left in (1, 700, 2047):
            before = self.fresh().read_bytes() + bytes([255]) * left
            self.path("d.img").write_bytes(before)
            model = Model()
            with Daemon(self.folder, log=self.new_log()) as daemon, daemon.client() as client:
                for request in requests:
                    self.assertEqual(client.ask(encode(request)), model.answer(request))
            self.lose(before, read_log(self.log_path()), requests, 3, True)
        self.assertGreater(self.images, 100)

    def test_a_failed_sync(self) -> None:
        """Each sync of a stream fails in turn, and its pages are lost or not. Another client's commit follows."""
        requests = STREAM[:4]
        self.served(requests)
        calls = sum(record.kind == "fsync" for record in read_log(self.log_path()))
        self.assertGreater(calls, 3)
        for number in range(2, calls + 1):
            for rule in ("fsync:%d:E5", "fsync:%d:A5"):
                with self.subTest(rule=rule % number):
                    before = self.served(requests, rule % number)
                    records = read_log(self.log_path())
                    self.assertTrue(any(record.kind == "fsync" and record.error for record in records))
                    self.lose(before, records, requests, 0, True)

    def test_a_failed_write(self) -> None:
        """Each write of a stream fails in turn, none or some of it done."""
        requests = STREAM[:4]
        self.served(requests)
        calls = sum(record.kind == "pwrite" for record in read_log(self.log_path()))
        for number in range(1, calls + 1):
            for action in ("E28", "P1000E28", "P3000E5"):
                with self.subTest(number=number, action=action):
                    before = self.served(requests, "pwrite:%d:%s" % (number, action))
                    self.lose(before, read_log(self.log_path()), requests, 0, True)

    def test_a_format(self) -> None:
        """A format whose power is lost is no volume, or the whole one; and it is finished by its words, or refused by 61."""
        self.tell(self.udfburn("format", "d.img", "DISC", "0", "600", log=self.log_path()), 0, b"formatted\n", b"")
        records = read_log(self.log_path())
        whole = self.path("d.img").read_bytes()
        self.formats(records, b"", whole)

    def test_a_format_that_is_finished(self) -> None:
        """The same where another process wrote the beginning, and synced none of it."""
        for rule in ("pwrite:1:P100000K", "pwrite:1:k", "fsync:3:K"):
            with self.subTest(rule):
                self.path("d.img").unlink(missing_ok=True)
                self.new_log()
                words = ("format", "d.img", "DISC", "0", "600")
                self.assertEqual(self.udfburn(*words, log=self.log_path(), rules=rule).status, -9)
                self.tell(self.udfburn(*words, log=self.log_path()), 0, b"formatted\n", b"")
                self.formats(read_log(self.log_path()), b"", self.path("d.img").read_bytes())

    def formats(self, records: Sequence[Record], before: bytes, whole: bytes) -> None:
        self.assertEqual(len(whole), FORMATTED_BLOCKS * BLOCK)
        for page in (4096, 2048):
            chance = random.Random(SEED + page)
            disk, is_said, seen = Disk(before, page), False, set()
            for index, record in enumerate(records):
                if record.kind in ("pwrite", "fsync", "ftruncate"):
                    disk.call(record)
                elif record.kind == "stdout":
                    is_said = True
                else:
                    continue
                for loss in losses(disk, chance, 3):
                    if (is_said, loss.content) in seen:
                        continue
                    seen.add((is_said, loss.content))
                    self.images += 1
                    how = "call %d (%s), pages of %d, %s" % (index, record.kind, page, loss.how)
                    self.path("left.img").write_bytes(loss.content)
                    checked = self.udfburn("check", "left.img")
                    allowed = [Ran(0, b"sound 0\n", b"")]
                    if not is_said:
                        allowed.append(Ran(1, b"", b"udfburn: 66 NotFormatted\n"))
                    self.assertIn(checked, allowed, how)
                    ran = self.udfburn("format", "left.img", "DISC", "0", "600")
                    if ran.status:
                        self.tell(ran, 1, b"", b"udfburn: 61 NotBlank\n")
                        self.assertEqual(self.path("left.img").read_bytes(), loss.content, how)
                        self.assertFalse(is_said, how)
                        self.assertFalse(whole.startswith(loss.content), how)
                    else:
                        self.assertEqual(self.path("left.img").read_bytes(), whole, how)
            self.assertTrue(is_said)


class Itself(Case):
    """The model of the cache: what it may lose, and that a lying sync loses an acknowledged file on it."""

    def test_pages(self) -> None:
        all_of: Callable[[int], list[bool]] = lambda n: [True] * n
        none_of: Callable[[int], list[bool]] = lambda n: [False] * n
        disk = Disk(b"A" * 8, 4)
        disk.write(6, b"BBBB")
        self.assertEqual(bytes(disk.cache), b"AAAAAABBBB")
        self.assertEqual(disk.left(none_of, 10), b"AAAAAAAA\0\0")
        self.assertEqual(disk.left(all_of, 10), b"AAAAAABBBB")
        self.assertEqual(disk.left(lambda n: [False, True], 10), b"AAAAAAAABB")
        disk.fail()
        disk.write(10, b"C")
        self.assertEqual(disk.left(all_of, 11), b"AAAAAAAABBC")
        disk.sync()
        self.assertEqual(bytes(disk.disk), b"AAAAAAAABBC")
        disk.truncate(8)
        self.assertEqual(disk.left(none_of, 8), b"AAAAAAAA")
        disk.sync()
        disk.write(8, b"D")
        disk.sync()
        # What a failed sync dropped stays lost below a cut that leaves it.
        self.assertEqual(bytes(disk.disk), b"AAAAAAAAD")
        self.assertEqual(bytes(disk.cache), b"AAAAAABBD")

    def test_a_sync_that_lies_loses_a_file(self) -> None:
        need_shim()
        requests = STREAM[:2]
        before = self.fresh().read_bytes()
        self.apply(b"".join(map(encode, requests)), rules="fsync:*:L", log=self.log_path())
        disk = Disk(before, 4096)
        for record in read_log(self.log_path()):
            disk.call(record)
        self.path("left.img").write_bytes(disk.left(lambda n: [False] * n, len(disk.cache)))
        self.assertEqual(self.udfburn("check", "left.img").output, b"sound 0\n")
