"""Each call on the image fails in turn: the file is cut back and synced before anything else, and what came is done one by one. Where a call
fails then too: an answer 36, the file is cut back and synced before anything else, and the repeat is done."""
from __future__ import annotations

from pathlib import Path

from faults.calls import Discipline
from faults.case import FORMATTED_BLOCKS
from faults.log import read_log
from faults.pages import Disk
from faults.programs import built
from faults.running import Daemon
from faults.serving import Serving
from protocol import BLOCK, FAULT, Answer, Model, Request, answers_of, committed, encode, frame, paths_of, query

STREAM = [
    Request("create", 1, 1, "/a", b"first"),
    Request("mkdir", 2, 1, "/d"),
    Request("create", 1, 2, "/d/x", b"second" * 700),
    Request("rename", 2, 2, "/a", to="/d/y"),
    Request("remove", 1, 3, "/d/y"),
]
# A file of 80 blocks, which goes out in more than one packet.
LONG = Request("create", 1, 1, "/long", bytes(range(256)) * 640)
DEVICE = b"udfburn: 64 Device\n"


class Failures(Serving):
    def test_each_write(self) -> None:
        for requests in (STREAM, [LONG]):
            calls = self.calls(requests, ["pwrite"])["pwrite"]
            whole = self.path("d.img").read_bytes()
            for number in range(1, calls + 1):
                for action in ("E5", "E28", "E122", "P1E28", "P2048E28", "P3000E5", "A5", "S0"):
                    with self.subTest(number=number, action=action, count=len(requests)):
                        records, faults = self.run_with("pwrite:%d:%s" % (number, action), requests)
                        self.assertEqual(faults, 0)
                        self.assertTrue(self.path("d.img").read_bytes() == whole)
                        if action != "S0":
                            self.cut_behind(records)

    def test_each_sync(self) -> None:
        first = self.opening()["fsync"]
        self.assertEqual(first, 1)
        for requests in (STREAM, [LONG]):
            calls = self.calls(requests, ["fsync"])["fsync"]
            whole = self.path("d.img").read_bytes()
            for number in range(first + 1, calls + 1):
                for action in ("E5", "A5", "E28", "E122"):
                    with self.subTest(number=number, action=action, count=len(requests)):
                        records, faults = self.run_with("fsync:%d:%s" % (number, action), requests)
                        self.assertEqual(faults, 0)
                        self.assertTrue(self.path("d.img").read_bytes() == whole)
                        self.cut_behind(records)

    def test_each_call_of_what_is_done_again(self) -> None:
        """The first write of a request fails, and then a call of the same request, which is done alone: a fault, and the repeat is done."""
        for requests in (STREAM, [LONG]):
            begun = self.numbers(self.run_with("", requests)[0], "pwrite")
            for place, first in enumerate(numbers[0] for numbers in begun):
                rule = "pwrite:%d:E5" % first
                records, _ = self.run_with(rule, requests)
                writes, syncs = self.numbers(records, "pwrite")[place][1:], self.numbers(records, "fsync")[place][-2:]
                self.assertIn(len(writes), (2, 3))
                rules = ["pwrite:%d:%s" % (number, action) for number in writes for action in ("E5", "E28", "P1E28", "P2048E28", "A5", "S0")]
                rules += ["fsync:%d:%s" % (number, action) for number in syncs for action in ("E5", "A5", "E28")]
                for again in rules:
                    with self.subTest(rule=rule, again=again, count=len(requests)):
                        records, faults = self.run_with(rule + ";" + again, requests)
                        self.assertEqual(faults, 1)
                        self.cut_behind(records)

    def test_short_and_interrupted(self) -> None:
        """A call that does less, or is interrupted, is gone on with, and nothing is answered 36."""
        calls = self.calls(STREAM, ["pwrite", "fsync", "pread"])
        for number in range(1, calls["pwrite"] + 1):
            for action in ("S1", "S2047", "S2048", "S3000", "E4"):
                with self.subTest(number=number, action=action):
                    self.assertEqual(self.run_with("pwrite:%d:%s" % (number, action), STREAM)[1], 0)
        for number in range(1, calls["fsync"] + 1):
            with self.subTest(sync=number):
                self.assertEqual(self.run_with("fsync:%d:E4" % number, STREAM)[1], 0)
        for number in (1, 2, calls["pread"] // 2, calls["pread"]):
            for action in ("S1", "S2047", "E4"):
                with self.subTest(read=number, action=action):
                    self.assertEqual(self.run_with("pread:%d:%s" % (number, action), STREAM)[1], 0)

    def test_several_in_a_row(self) -> None:
        """Each repeat fails, the cut fails, its sync fails: each of these calls is a fault, and nothing is read or written meanwhile."""
        # The second request has the writes 4, 5 and 6, the syncs 4 and 5, and the truncation 2.
        for rules, faults in (
            ("pwrite:4-8:E28", 2),
            ("pwrite:4:E28;pwrite:5:P2048E28;ftruncate:3:E5", 1),
            ("pwrite:4:E5;ftruncate:2:E5", 0),
            ("pwrite:4:E5;ftruncate:2-3:E5", 1),
            ("pwrite:4:E5;ftruncate:2-9:E5", 4),
            ("ftruncate:2:E5", 0),
            ("ftruncate:2-3:E5", 0),
            ("ftruncate:2-4:A5", 1),
            ("fsync:4-5:E5", 0),
            ("fsync:4-6:E5", 1),
            ("fsync:4:E5;ftruncate:3-4:E5", 1),
            ("fsync:4:A5;ftruncate:3:A5", 0),
            ("fsync:5:A5;pwrite:7:E5", 0),
            ("fsync:5:A5;pwrite:7-8:P100E28", 1),
            ("fsync:5:A5;fsync:6:E5", 0),
            ("fsync:5-7:A5", 1),
            ("fsync:5:A5;ftruncate:3-4:E5", 1),
            ("fsync:5-16:E5", 3),
        ):
            with self.subTest(rules):
                records, seen = self.run_with(rules, STREAM)
                self.assertEqual(seen, faults)
                self.assertGreater(self.cuts(records, FORMATTED_BLOCKS * BLOCK), 0)

    def test_while_the_cut_fails(self) -> None:
        """Requests and queries of anybody are answered 36 until the file is cut; nothing else is done to it meanwhile."""
        before = self.fresh().read_bytes()
        first, second, third = STREAM[0], STREAM[1], STREAM[2]
        # The first two make the file longer. Each message tries the cut twice.
        with Daemon(self.folder, log=self.new_log(), rules="fsync:4:E5;ftruncate:3-12:E5") as daemon, daemon.client() as client:
            self.assertEqual(client.ask(encode(first)), committed(0, 1))
            for asked in (encode(second), encode(third), query("get", "/a"), query("list", "/"), encode(second)):
                self.assertEqual(client.ask(asked), Answer(FAULT))
            self.assertEqual(client.ask(encode(second)), committed(0, 2))
            self.assertEqual(client.ask(encode(third)), committed(0, 3))
        records = read_log(self.log_path())
        self.assertEqual(Discipline(len(before), self.folder).follow(records, daemon=True).faults, [])
        failed = next(index for index, record in enumerate(records) if record.kind == "fsync" and record.error)
        cut = next(index for index, record in enumerate(records) if index > failed and record.kind == "ftruncate" and not record.error)
        meanwhile = {record.kind for record in records[failed + 1:cut]}
        self.assertIn("send", meanwhile)
        self.assertFalse(meanwhile & {"pread", "pwrite"}, meanwhile)

    def test_for_ever(self) -> None:
        """A disk that takes nothing any more: 36 each time, and the tree stays as it was."""
        for rules in ("pwrite:4+:E28", "fsync:4+:E5", "pwrite:4+:E5;ftruncate:2+:E5", "pwrite:4+:P100E28", "fsync:5+:E5", "ftruncate:2+:E5"):
            with self.subTest(rules):
                self.fresh()
                with Daemon(self.folder, rules=rules) as daemon, daemon.client() as client:
                    self.assertEqual(client.ask(encode(STREAM[0])), committed(0, 1))
                    for _ in range(20):
                        self.assertEqual(client.ask(encode(STREAM[1])), Answer(FAULT))
                model = Model()
                model.answer(STREAM[0])
                self.tree_is(model, paths_of(STREAM))
                ran = self.apply(encode(STREAM[1]))
                self.assertEqual(answers_of(ran.output), [committed(0, 2)])

    def test_each_read_of_a_stream(self) -> None:
        """Reads that fail: the request is done once more, and nothing is cut."""
        calls = self.calls(STREAM, ["pread"])["pread"]
        whole = self.path("d.img").read_bytes()
        for number in sorted({1, 2, 3, 100, 257, 258, 259, 260, 261, *range(262, calls + 1)}):
            with self.subTest(number=number):
                records, faults = self.run_with("pread:%d:E5" % number, STREAM)
                self.assertEqual((faults, self.cuts(records, FORMATTED_BLOCKS * BLOCK)), (0, 0))
                self.assertTrue(self.path("d.img").read_bytes() == whole)
        with self.subTest("in a row"):
            self.assertEqual(self.run_with("pread:100-103:E5", STREAM)[1], 2)

    def test_each_status_of_a_stream(self) -> None:
        """What is asked of the open file before a commit, and for its syncs, fails: the request is done once more."""
        first = self.opening()["fstat"]
        calls = self.calls(STREAM, ["fstat"])["fstat"]
        whole = self.path("d.img").read_bytes()
        self.assertGreaterEqual(calls - first, len(STREAM))
        for number in range(first + 1, calls + 1):
            with self.subTest(number=number):
                self.assertEqual(self.run_with("fstat:%d:E5" % number, STREAM)[1], 0)
                self.assertTrue(self.path("d.img").read_bytes() == whole)
        with self.subTest("in a row"):
            self.assertEqual(self.run_with("fstat:%d-%d:E5" % (first + 1, first + 6), STREAM)[1], 3)

    def test_opening_to_write(self) -> None:
        """A call of the opening fails: 64, nothing was read, and nothing was written."""
        before = self.fresh().read_bytes()
        opening = self.opening()
        for kind in ("stat", "open", "flock", "fsync", "fadvise"):
            self.assertGreaterEqual(opening[kind], 1, kind)
        for kind in ("stat", "open", "flock", "fsync", "fadvise", "fstat"):
            for number in range(1, opening[kind] + 1):
                rule = "%s:%d:E5" % (kind, number)
                with self.subTest(rule):
                    self.path("d.img").write_bytes(before)
                    ran = self.apply(encode(STREAM[0]), rules=rule, log=self.new_log())
                    self.tell(ran, 1, b"", DEVICE)
                    self.nothing_was_done(self.log_path(), before)
                    ran = self.program([built().udfburnd, "d.img", "s"], rules=rule, log=self.new_log())
                    self.tell(ran, 1, b"", b"udfburnd: 64 Device\n")
                    self.nothing_was_done(self.log_path(), before)
                    self.assertFalse(self.path("s").exists())

    def nothing_was_done(self, log: Path, before: bytes) -> None:
        self.assertEqual([record.kind for record in read_log(log) if record.kind in ("pread", "pwrite", "ftruncate")], [])
        self.assertEqual(self.path("d.img").read_bytes(), before)

    def test_opening_to_read(self) -> None:
        before = self.fresh().read_bytes()
        for words in (("ls", "d.img", "/"), ("get", "d.img", "/a"), ("log", "d.img"), ("check", "d.img")):
            self.udfburn(*words, log=self.new_log())
            records = read_log(self.log_path())
            for kind in ("stat", "open", "fstat", "pread"):
                calls = sum(record.kind == kind for record in records)
                for number in sorted({1, 2, 100, calls - 1, calls} & set(range(1, calls + 1))):
                    with self.subTest(words=words, kind=kind, number=number):
                        self.tell(self.udfburn(*words, rules="%s:%d:E5" % (kind, number)), 1, b"", DEVICE)
                        self.assertEqual(self.path("d.img").read_bytes(), before)

    def test_a_format(self) -> None:
        """Each call of a format fails: 64, no `formatted`, and the same words finish it."""
        words = ("format", "d.img", "DISC", "0", "600")
        self.tell(self.udfburn(*words, log=self.new_log()), 0, b"formatted\n", b"")
        whole = self.path("d.img").read_bytes()
        records = read_log(self.log_path())
        for kind in ("stat", "open", "flock", "fadvise", "fstat", "folderopen", "foldersync", "pwrite", "fsync"):
            calls = sum(record.kind == kind for record in records)
            self.assertGreaterEqual(calls, 1, kind)
            for number in range(1, calls + 1):
                for action in {"pwrite": ("E28", "P1000E28", "A5", "S0"), "fsync": ("E5", "A5")}.get(kind, ("E5",)):
                    with self.subTest(kind=kind, number=number, action=action):
                        self.path("d.img").unlink(missing_ok=True)
                        ran = self.udfburn(*words, rules="%s:%d:%s" % (kind, number, action), log=self.new_log())
                        self.tell(ran, 1, b"", DEVICE)
                        # What one process did not cut back is left to the next one.
                        failed = read_log(self.log_path())
                        self.tell(self.udfburn(*words, log=self.new_log()), 0, b"formatted\n", b"")
                        self.assertEqual(self.path("d.img").read_bytes(), whole)
                        again = read_log(self.log_path())
                        followed = Discipline(0, self.folder, False, True).follow([*failed, *again])
                        self.assertEqual(followed.faults, [])
                        disk = Disk(b"", 4096)
                        for record in [*failed, *again]:
                            disk.call(record)
                        self.assertEqual(bytes(disk.disk), whole, "formatted, and it is not on the disk")

    def test_a_file_that_was_cut_inside_a_block(self) -> None:
        """What is left after the last whole block is cut off; where what follows fails the file is cut back, and it is done anew."""
        for left in (1, 1000, 2047):
            # Where the second write fails, first that of the first one is left.
            for rule, cuts in (("", 1), ("pwrite:1:E28", 2), ("pwrite:1:P100E28", 2), ("pwrite:1:P3000E5", 2), ("ftruncate:1:E5", 2),
                               ("fsync:2:E5", 2), ("pwrite:2:E5", 3), ("fsync:3:A5", 2), ("fsync:4:A5", 2)):
                with self.subTest(left=left, rule=rule):
                    self.fresh()
                    with open(self.path("d.img"), "ab") as file:
                        file.write(b"x" * left)
                    before = self.path("d.img").read_bytes()
                    model = Model()
                    with Daemon(self.folder, log=self.new_log(), rules=rule) as daemon, daemon.client() as client:
                        for request in STREAM:
                            self.assertEqual(client.ask(encode(request)), model.answer(request))
                    self.tree_is(model, paths_of(STREAM))
                    disk = Disk(before, 2048)
                    for record in read_log(self.log_path()):
                        disk.call(record)
                    self.assertEqual(bytes(disk.disk), self.path("d.img").read_bytes())
                    self.assertEqual(self.cuts(read_log(self.log_path()), len(before)), cuts)

    def test_apply(self) -> None:
        """The same in one stream, where each frame comes three times: one failure is no fault. Of a second one a fault is answered, and then
        the reply twice."""
        frames = b"".join(encode(request) * 3 for request in STREAM)
        # What is done one by one after the first sync begins with write 13 and sync 4.
        for rule, faults in (("pwrite:4:E28", 0), ("pwrite:12:P100E28", 0), ("fsync:2:E5", 0), ("pwrite:14:P1000E5", 0), ("fsync:3:A5", 0),
                             ("fstat:6:E5", 0), ("fsync:2:E5;pwrite:14:E28", 1), ("fsync:2:E5;pwrite:18:P2048E28", 1),
                             ("fsync:2:E5;fsync:5:A5", 1), ("fsync:2:E5;fsync:8:E5", 1)):
            with self.subTest(rule):
                before = self.fresh().read_bytes()
                model = Model()
                wanted = [model.answer(request) for request in STREAM]
                ran = self.apply(frames, rules=rule, log=self.new_log())
                self.assertEqual((ran.status, ran.errors), (0, b""))
                answers = answers_of(ran.output)
                self.assertEqual(sum(answer == Answer(FAULT) for answer in answers), faults)
                for place, want in enumerate(wanted):
                    given = [answer for answer in answers[3 * place:3 * place + 3] if answer.code != FAULT]
                    self.assertEqual(set(given), {want})
                followed = Discipline(len(before), self.folder).follow(read_log(self.log_path()))
                self.assertEqual(followed.faults, [])
                self.tree_is(model, paths_of(STREAM))

    def test_it_ends_with_a_failure(self) -> None:
        """The last call of a process is a failed one: the next process answers for nothing that is not on the disk."""
        for first in ("pwrite:1:E5", "pwrite:2:E5", "fsync:2:E5", "pwrite:3:E5", "fsync:3:E5"):
            self.fresh()
            self.apply(encode(STREAM[0]), rules=first, log=self.new_log())
            calls = {kind: sum(record.kind == kind for record in read_log(self.log_path())) for kind in ("pwrite", "fsync", "ftruncate")}
            for kind in ("pwrite", "fsync"):
                # What is done alone ends with two of each.
                for number in (calls[kind] - 1, calls[kind]):
                    for cut in ("", ";ftruncate:%d+:E5" % (calls["ftruncate"] + 1)):
                        with self.subTest(first=first, kind=kind, number=number, cut=cut):
                            self.end_with("%s;%s:%d:E5%s" % (first, kind, number, cut))

    def end_with(self, rules: str) -> None:
        request, before = STREAM[0], self.fresh().read_bytes()
        ran = self.apply(encode(request), rules=rules, log=self.new_log())
        self.tell(ran, 0, frame(bytes([36, 0])), b"")
        ran = self.apply(encode(request), log=self.log_path())
        self.assertEqual(answers_of(ran.output), [committed(0, 1)])
        self.assertEqual(self.sound(), 1)
        # Where the cut failed too, a real disk reports what it has (test_disk.py).
        if "ftruncate" not in rules:
            disk = Disk(before, 4096)
            for record in read_log(self.log_path()):
                disk.call(record)
            self.assertEqual(bytes(disk.disk), self.path("d.img").read_bytes(), "answered, and it is not on the disk")
