"""Killed before, inside and after each call, and then the same frames again: each request once, and nothing answered before it is on
the disk, over all processes as one."""
from __future__ import annotations

from typing import Sequence

from faults.calls import Discipline, is_entry, told_by
from faults.case import FORMATTED_BLOCKS, Case, need_shim
from faults.log import KINDS, read_log
from faults.pages import Disk
from faults.running import Daemon
from protocol import BLOCK, STALE, Answer, Model, Request, answers_of, committed, encode, paths_of

STREAM = [
    Request("create", 1, 1, "/a", b"first"),
    Request("mkdir", 1, 2, "/d"),
    Request("create", 2, 1, "/d/x", b"second" * 2000),
    Request("rename", 1, 3, "/a", to="/d/y"),
    Request("replace", 2, 2, "/d/x", b"third"),
    Request("create", 2, 3, "/d/x", b"refused"),
    Request("remove", 1, 4, "/d/y"),
    Request("create", 1, 5, "/long", bytes(range(256)) * 600),
]
FRAMES = b"".join(map(encode, STREAM))
KILLED = -9


class Kills(Case):
    def setUp(self) -> None:
        super().setUp()
        need_shim()
        # For each write and sync of the stream, how many syncs and (after the first sync) truncations are before it, and whether it is one of
        # marks.
        self.before: dict[tuple[str, int], tuple[int, int, bool]] = {}

    def wanted(self) -> tuple[Model, list[Answer]]:
        model = Model()
        return model, [model.answer(request) for request in STREAM]

    def counts(self, kinds: Sequence[str]) -> dict[str, int]:
        """How many calls of these kinds the stream takes when nothing happens to it."""
        self.fresh(capacity=2000)
        self.apply(FRAMES, log=self.new_log())
        records = read_log(self.log_path())
        self.before, seen = {}, dict.fromkeys(KINDS, 0)
        is_of_marks = False
        for record in records:
            before = seen["fsync"], seen["ftruncate"]
            seen[record.kind] += record.kind != "ftruncate" or seen["fsync"] > 0
            if record.kind == "pwrite":
                is_of_marks = record.offset % BLOCK == 0 and is_entry(record.data, record.offset // BLOCK)
            if record.kind in ("pwrite", "fsync"):
                self.before[record.kind, seen[record.kind]] = (*before, is_of_marks)
        return {kind: seen[kind] for kind in kinds}

    def again(self, length: int, model: Model, wanted: Sequence[Answer]) -> None:
        """The same frames on what a kill left."""
        ran = self.apply(FRAMES, log=self.log_path())
        self.assertEqual((ran.status, ran.errors), (0, b""))
        answers = answers_of(ran.output)
        for request, answer, want in zip(STREAM, answers, wanted):
            if answer.code == STALE:
                # Its reply fell after four later ones, so that it was committed.
                self.assertLessEqual(request.number, model.latest[request.client] - 4)
            else:
                self.assertEqual(answer, want)
        self.assertEqual(len(answers), len(wanted))
        self.assertEqual(Discipline(length, self.folder).follow(read_log(self.log_path())).faults, [])
        self.tree_is(model, paths_of(STREAM))

    def test_a_stream_of_apply(self) -> None:
        model, wanted = self.wanted()
        counts = self.counts(("pwrite", "fsync", "ftruncate", "flock", "stdout"))
        self.assertGreaterEqual(counts["pwrite"], 2 * len(STREAM))
        self.assertGreaterEqual(counts["fsync"], 1 + 2)
        for kind, calls in counts.items():
            for number in range(1, calls + 1):
                for action in ("K", "k") + (("P2100K", "P5K") if kind == "pwrite" else ()):
                    with self.subTest(kind=kind, number=number, action=action):
                        length = self.fresh(capacity=2000).stat().st_size
                        self.new_log()
                        killed = self.apply(FRAMES, rules="%s:%d:%s" % (kind, number, action), log=self.log_path())
                        self.assertEqual(killed.status, KILLED)
                        self.again(length, model, wanted)

    def test_killed_twice(self) -> None:
        """The repeat is killed too, at its first calls, and its repeat."""
        model, wanted = self.wanted()
        counts = self.counts(("pwrite", "fsync"))
        for kind, calls in counts.items():
            for number in range(1, calls + 1, 2):
                for second in ("fsync:1:K", "fsync:1:k", "pwrite:1:k", "fsync:2:K", "fsync:3:k"):
                    with self.subTest(kind=kind, number=number, second=second):
                        length = self.fresh(capacity=2000).stat().st_size
                        self.new_log()
                        for rules in ("%s:%d:k" % (kind, number), second, second):
                            self.apply(FRAMES, rules=rules, log=self.log_path())
                        self.again(length, model, wanted)

    def test_at_the_cut(self) -> None:
        """Killed at the cut of a file after a failure, and at the sync of the cut; where marks went out, at the sync of zeros in their places
        too. Where the process goes before a failed sync is followed by a cut, a real disk reports what it dropped (test_disk.py)."""
        model, wanted = self.wanted()
        counts = self.counts(("pwrite", "fsync"))
        self.assertIn(True, [is_of_marks for _, _, is_of_marks in self.before.values()])
        for kind, calls in counts.items():
            for number in range(1 if kind == "pwrite" else 2, calls + 1):
                syncs, cuts, is_of_marks = self.before[kind, number]
                # The next sync after the failed call, and the one of the cut.
                zeros = syncs + 1 + (kind == "fsync")
                ends = ["ftruncate:%d:K" % (cuts + 1), "ftruncate:%d:k" % (cuts + 1), "fsync:%d:K" % (zeros + is_of_marks)]
                for failure in ("E28", "P3000E28") if kind == "pwrite" else ("E5", "A5"):
                    for end in ends + ["fsync:%d:K" % zeros, "fsync:%d:k" % zeros] * is_of_marks:
                        with self.subTest(kind=kind, number=number, failure=failure, end=end):
                            content = self.fresh(capacity=2000).read_bytes()
                            self.new_log()
                            killed = self.apply(FRAMES, rules="%s:%d:%s;%s" % (kind, number, failure, end), log=self.log_path())
                            self.assertEqual(killed.status, KILLED)
                            self.again(len(content), model, wanted)
                            if kind == "fsync" and end not in ends[1:]:
                                continue
                            disk = Disk(content, 4096)
                            for record in read_log(self.log_path()):
                                disk.call(record)
                            self.assertEqual(bytes(disk.disk), self.path("d.img").read_bytes(), "answered, and it is not on the disk")

    def test_a_daemon(self) -> None:
        """A daemon is killed at each write, sync and answer, and the next one gets the frames from the one without an answer on."""
        model, wanted = self.wanted()
        counts = self.counts(("pwrite", "fsync"))
        for kind, calls in {**counts, "send": len(STREAM), "recv": len(STREAM)}.items():
            for number in range(1, calls + 1):
                for action in ("K", "k"):
                    with self.subTest(kind=kind, number=number, action=action):
                        length = self.fresh(capacity=2000).stat().st_size
                        self.new_log()
                        answers: list[Answer] = []
                        rules = "%s:%d:%s" % (kind, number, action)
                        for attempt in (rules, ""):
                            with Daemon(self.folder, log=self.log_path(), rules=attempt) as daemon:
                                try:
                                    client = daemon.client()
                                except (AssertionError, ConnectionError):
                                    # It was killed before it listened.
                                    self.assertEqual(daemon.process.wait(), KILLED)
                                    continue
                                with client:
                                    while len(answers) < len(STREAM):
                                        answer = client.ask(encode(STREAM[len(answers)]))
                                        if answer is None:
                                            break
                                        answers.append(answer)
                                if attempt and len(answers) < len(STREAM):
                                    self.assertEqual(daemon.process.wait(), KILLED)
                        self.assertEqual(answers, wanted)
                        followed = Discipline(length, self.folder).follow(read_log(self.log_path()), daemon=True)
                        self.assertEqual(followed.faults, [])
                        self.tree_is(model, paths_of(STREAM))

    def test_a_format(self) -> None:
        """Killed at each call of a format: its words finish it, with the same bytes, and `formatted` reports what is on the disk."""
        words = ("format", "d.img", "DISC", "0", "600")
        self.tell(self.udfburn(*words, log=self.new_log()), 0, b"formatted\n", b"")
        whole = self.path("d.img").read_bytes()
        self.assertEqual(len(whole), FORMATTED_BLOCKS * BLOCK)
        records = read_log(self.log_path())
        for kind in ("open", "stat", "flock", "fadvise", "folderopen", "foldersync", "pwrite", "fsync", "stdout"):
            for number in range(1, sum(record.kind == kind for record in records) + 1):
                for action in ("K", "k") + (("P2100K", "P5K") if kind == "pwrite" else ()):
                    with self.subTest(kind=kind, number=number, action=action):
                        self.path("d.img").unlink(missing_ok=True)
                        self.new_log()
                        killed = self.udfburn(*words, rules="%s:%d:%s" % (kind, number, action), log=self.log_path())
                        self.assertEqual(killed.status, KILLED)
                        self.tell(self.udfburn(*words, log=self.log_path()), 0, b"formatted\n", b"")
                        self.assertEqual(self.path("d.img").read_bytes(), whole)
                        followed = Discipline(0, self.folder, False, True).follow(read_log(self.log_path()))
                        self.assertEqual(followed.faults, [])
                        self.assertEqual(self.sound(), 0)

    def test_an_answer_that_was_not_sent_whole(self) -> None:
        """Killed inside an answer: the client has a part of it, and gets the whole one from the next daemon."""
        request = Request("create", 7, 1, "/a", b"hello")
        self.fresh(capacity=2000)
        with Daemon(self.folder, rules="send:1:P4K") as daemon, daemon.client() as client:
            self.assertIsNone(client.ask(encode(request)))
            self.assertEqual(client.waiting, bytes.fromhex("06000000"))
            self.assertEqual(daemon.process.wait(), KILLED)
        with Daemon(self.folder) as daemon, daemon.client() as client:
            self.assertEqual(client.ask(encode(request)), committed(0, 1))
        self.assertEqual(self.sound(), 1)

    def test_the_log_is_one(self) -> None:
        """The calls of both processes are in the log that the other tests read, and the answers of the second one."""
        self.fresh(capacity=2000)
        self.apply(FRAMES, rules="pwrite:3:k", log=self.new_log())
        self.apply(FRAMES, log=self.log_path())
        records = read_log(self.log_path())
        self.assertEqual(len({record.process for record in records}), 2)
        self.assertEqual(len(told_by(records, False)) >= len(STREAM), True)
