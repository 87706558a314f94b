"""Files that go out as one run of blocks: the order of calls, power that is lost, and calls that fail inside of the run.

All blocks of a commit but the last go out as one run: the whole blocks of the file's data as they lie in the request, and up to 32 encoded
blocks in each further write, of which the last waits until it is known to be no mark, and goes out alone. One sync ends the run. The last
block goes out alone, and a second sync ends that (docs/DECISIONS.md).
"""
from __future__ import annotations

import random
from typing import List, NamedTuple, Optional, Sequence

from faults.calls import Discipline, is_entry, told_by
from faults.case import Case, need_shim
from faults.log import Record, read_log
from faults.pages import Disk, run_losses
from faults.running import Daemon
from faults.serving import Serving
from protocol import BLOCK, MOST_CLIENTS, MOST_NAMES, MOST_NODES, Answer, Model, Request, answers_of, encode, paths_of, questions

SEED = 20261127
CAPACITY = 3000
PACKET = 32
# Bytes of files: one block, those around a packet, two packets, a last block that is not whole, and the largest.
SIZES = (BLOCK, 31 * BLOCK, 32 * BLOCK, 33 * BLOCK, 64 * BLOCK - 5, 64 * BLOCK, 512 * BLOCK)
# A file of up to so many bytes has no blocks of its own (docs/FORMAT.md).
INSIDE = 1872
LONGEST_NAME = 254


def data_of(size: int) -> bytes:
    """Bytes of which no two blocks are the same."""
    return random.Random(size).randbytes(size)


class Run(NamedTuple):
    """The writes up to a sync that succeeded."""

    writes: list[Record]

    def lengths(self) -> list[int]:
        return [write.length for write in self.writes]


def runs_of(records: Sequence[Record]) -> list[Run]:
    """The runs of a log, in order."""
    runs: list[Run] = []
    writes: list[Record] = []
    for record in records:
        if record.kind == "pwrite":
            writes.append(record)
        elif record.kind == "fsync" and not record.error and writes:
            runs.append(Run(writes))
            writes = []
    return runs + ([Run(writes)] if writes else [])


def wrong_in(runs: Sequence[Run], begin: int, end: int, lent: int) -> Optional[str]:
    """What is wrong with the runs of one commit, which writes from `begin` to `end`, and lends so many whole blocks."""
    writes = [write for run in runs for write in run.writes]
    at = begin
    for write in writes:
        if write.offset != at or write.result != write.length:
            return "a write of %d bytes at %d, where the last one ended at %d" % (write.length, write.offset, at)
        at += write.length
    if at != end:
        return "the writes end at %d, and the commit at %d" % (at, end)
    if runs[-1].lengths() != [BLOCK] or not is_entry(writes[-1].data, end // BLOCK - 1):
        return "the last block is not alone in the last run"
    if len(runs) != 2:
        return "%d runs" % len(runs)
    encoded, wanted = (end - begin) // BLOCK - lent - 1, [lent]
    for first in range(0, encoded, PACKET):
        wanted += [min(encoded - first, PACKET) - 1, 1]
    if runs[0].lengths() != [blocks * BLOCK for blocks in wanted if blocks]:
        return "the first run has writes of %s bytes, and not of %s blocks" % (runs[0].lengths(), wanted)
    return None


def lent_blocks(request: Request) -> int:
    """The whole blocks of a request's data that lie outside the file's entry."""
    return len(request.data) // BLOCK if len(request.data) > INSIDE else 0


class Order(Case):
    def setUp(self) -> None:
        super().setUp()
        need_shim()

    def logged(self, requests: Sequence[Request], by_daemon: bool) -> tuple[list[Record], list[Answer]]:
        if by_daemon:
            with Daemon(self.folder, log=self.new_log()) as daemon, daemon.client() as client:
                answers = [client.ask(encode(request)) for request in requests]
            return read_log(self.log_path()), [answer for answer in answers if answer is not None]
        ran = self.apply(b"".join(map(encode, requests)), log=self.new_log())
        return read_log(self.log_path()), answers_of(ran.output)

    def follow(self, requests: Sequence[Request], length: int, by_daemon: bool, model: Model) -> list[int]:
        """Checks the calls of requests that follow one another, and gives the syncs of each."""
        wanted = [model.answer(request) for request in requests]
        records, answers = self.logged(requests, by_daemon)
        self.assertEqual(answers, wanted)
        followed = Discipline(length, self.folder).follow(records, by_daemon)
        self.assertEqual((followed.faults, followed.seen_entries), ([], len(requests)))
        said = [index for index, answer in told_by(records, by_daemon) if answer.is_commit]
        syncs, begun, at = [], 0, length
        for index, request in zip(said, requests):
            # Answers of several commits may go out together, and then all of them are on the disk before the first.
            if by_daemon:
                part = records[begun:index]
                end = max(record.offset + record.length for record in part if record.kind == "pwrite")
                self.assertIsNone(wrong_in(runs_of(part), at, end, lent_blocks(request)), request[:4])
                syncs.append(len(runs_of(part)))
                begun, at = index, end
        return syncs

    def test_two_syncs_a_commit(self) -> None:
        """Of any size: two syncs, and at most four writes."""
        requests = [Request("create", 1, number, "/f%d" % number, data_of(size)) for number, size in enumerate(SIZES, 1)]
        requests += [Request("replace", 1, len(SIZES) + number, "/f%d" % number, data_of(size + 1)) for number, size in enumerate(SIZES[:-1], 1)]
        length = self.fresh(capacity=9000).stat().st_size
        model = Model()
        self.assertEqual(self.follow(requests, length, True, model), [2] * len(requests))
        self.tree_is(model, paths_of(requests))

    def test_the_same_by_apply(self) -> None:
        for size in SIZES:
            with self.subTest(size=size):
                request = Request("create", 1, 1, "/f", data_of(size))
                length = self.fresh(capacity=CAPACITY).stat().st_size
                model = Model()
                self.follow([request], length, False, model)
                runs = runs_of(read_log(self.log_path()))
                self.assertIsNone(wrong_in(runs, length, self.path("d.img").stat().st_size, size // BLOCK))
                self.assertEqual(len(runs), 2)


class Itself(Case):
    """The rules see what is wrong in a log."""

    def setUp(self) -> None:
        super().setUp()
        need_shim()
        self.length = self.fresh().stat().st_size
        self.apply(encode(Request("create", 1, 1, "/a", data_of(33 * BLOCK))), log=self.log_path())
        self.records = read_log(self.log_path())
        self.end = self.path("d.img").stat().st_size
        # The lent blocks, the encoded ones, the last of these, and the mark.
        self.writes = [index for index, record in enumerate(self.records) if record.kind == "pwrite"]
        self.assertEqual(len(self.writes), 4)

    def wrong(self, records: Sequence[Record]) -> Optional[str]:
        return wrong_in(runs_of(records), self.length, self.end, 33)

    def test_what_is_right(self) -> None:
        self.assertIsNone(self.wrong(self.records))

    def test_a_run_without_its_sync(self) -> None:
        first = next(index for index in range(self.writes[2], self.writes[3]) if self.records[index].kind == "fsync")
        records = self.records[:first] + self.records[first + 1:]
        self.assertIsNotNone(self.wrong(records))
        self.assertTrue(any("before all else was synced" in fault for fault in Discipline(self.length, self.folder).follow(records).faults))

    def test_a_sync_between_the_slices(self) -> None:
        sync = next(record for record in self.records if record.kind == "fsync")
        self.assertIsNotNone(self.wrong(self.records[:self.writes[1]] + [sync] + self.records[self.writes[1]:]))

    def test_the_second_slice_first(self) -> None:
        records = list(self.records)
        first, second = self.writes[:2]
        records[first], records[second] = records[second], records[first]
        self.assertIsNotNone(self.wrong(records))

    def test_the_last_block_in_the_run(self) -> None:
        records = list(self.records)
        second, last = records[self.writes[2]], records[self.writes[3]]
        grown = second.length + last.length
        records[self.writes[2]] = second._replace(length=grown, result=grown, data=second.data + last.data)
        del records[self.writes[3]]
        self.assertIsNotNone(self.wrong(records))
        self.assertTrue(any("a table's entry goes out in a write of" in fault for fault in Discipline(self.length, self.folder).follow(records).faults))


def directory_blocks(names: int, letters: int) -> int:
    """The blocks of a directory of so many names. An identifier has 39 bytes beside its letters, up to a multiple of 4; that of the
    directory above has 40. One goes into a block only where it leaves 0 or at least 32 bytes (docs/FORMAT.md)."""
    blocks, left, length = 1, BLOCK - 40, -(-(39 + letters) // 4) * 4
    for _ in range(names):
        if left != length and left < length + 32:
            blocks, left = blocks + 1, BLOCK
        left -= length
    return blocks


class Loser(Case):
    """Power lost at every call of a log. What was synced before it began is kept in place, so that a long image costs its end alone."""

    images = 0
    is_checked = True

    def problem(self, states: Sequence[list[Answer]], paths: Sequence[str], acknowledged: int) -> Optional[str]:
        """Why what is left is not a state of the run, or one before the acknowledged one."""
        self.images += 1
        if self.is_checked:
            checked = self.udfburn("check", "left.img")
            if (checked.status, checked.errors) != (0, b""):
                return "check: %d %r" % (checked.status, checked.errors)
            commits = int(checked.output.split()[1])
            if not acknowledged <= commits < len(states):
                return "%d commits, and %d were acknowledged" % (commits, acknowledged)
        ran = self.apply(questions(paths), "left.img")
        if (ran.status, ran.errors) != (0, b""):
            return "apply: %d %r" % (ran.status, ran.errors)
        told = answers_of(ran.output)
        allowed = states[commits:commits + 1] if self.is_checked else states[acknowledged:]
        return None if told in allowed else "the tree is not that of a commit from %d on" % acknowledged

    def problems(self, before: bytes, records: Sequence[Record], states: Sequence[list[Answer]], paths: Sequence[str], daemon: bool,
                 count: int) -> list[str]:
        """What is wrong with any of the images that a power loss leaves."""
        said = {index: answer.commit for index, answer in told_by(records, daemon) if answer.is_commit}
        first = min(said.values()) - 1 if said else 0
        base = len(before) // 4096 * 4096
        self.path("left.img").write_bytes(before)
        found: list[str] = []
        for page in (4096, 2048):
            chance = random.Random(SEED + page)
            disk, acknowledged = Disk(before[base:], page), 0
            seen: set[tuple[int, int, bytes]] = set()
            for index, record in enumerate(records):
                if record.kind in ("pwrite", "fsync", "ftruncate"):
                    disk.call(record._replace(offset=record.offset - base))
                elif index in said:
                    acknowledged = said[index] - first
                else:
                    continue
                for loss in run_losses(disk, chance, count):
                    key = (acknowledged, len(loss.content), loss.content) if len(loss.content) < 1 << 17 else (acknowledged, len(loss.content), loss.how.encode())
                    if key in seen:
                        continue
                    seen.add(key)
                    with open(self.path("left.img"), "r+b") as left:
                        left.truncate(base)
                        left.seek(base)
                        left.write(loss.content)
                    what = self.problem(states, paths, acknowledged)
                    if what is not None:
                        found.append("call %d (%s), pages of %d, %s: %s" % (index, record.kind, page, loss.how, what))
        return found


class Power(Loser):
    def setUp(self) -> None:
        super().setUp()
        need_shim()

    def served(self, requests: Sequence[Request], rules: str = "") -> tuple[bytes, list[Record], list[list[Answer]], list[str]]:
        """The image before, the calls of `apply` on requests that come thrice each, so that one which fails is done, and what can be reported
        of the tree after each commit."""
        before = self.fresh(capacity=CAPACITY).read_bytes()
        paths, model = paths_of(requests), Model()
        states = [model.told(paths)]
        for request in requests:
            model.answer(request)
            states.append(model.told(paths))
        times = 3 if rules else 1
        ran = self.apply(b"".join(encode(request) * times for request in requests), rules=rules, log=self.new_log())
        self.assertEqual((ran.status, ran.errors), (0, b""))
        return before, read_log(self.log_path()), states, paths

    def lose(self, requests: Sequence[Request], count: int, rules: str = "") -> None:
        before, records, states, paths = self.served(requests, rules)
        self.assertEqual(self.problems(before, records, states, paths, False, count), [])

    def test_every_subset_of_a_small_run(self) -> None:
        """Each kind of commit that has at most eight pages."""
        for name, last in {
            "an empty file": Request("create", 1, 3, "/b"),
            "a file in its entry": Request("create", 1, 3, "/b", b"hello"),
            "a file of one block": Request("create", 1, 3, "/b", data_of(BLOCK)),
            "a replacement": Request("replace", 1, 3, "/d/a", data_of(BLOCK + 1)),
            "a move": Request("rename", 1, 3, "/d/a", to="/c"),
            "a removal": Request("remove", 1, 3, "/d/a"),
        }.items():
            with self.subTest(name):
                requests = [Request("mkdir", 1, 1, "/d"), Request("create", 1, 2, "/d/a", b"first")]
                before = self.fresh(capacity=CAPACITY).read_bytes()
                self.apply(b"".join(map(encode, requests)))
                before = self.path("d.img").read_bytes()
                paths, model = paths_of([*requests, last]), Model()
                for request in requests:
                    model.answer(request)
                states = [model.told(paths)]
                model.answer(last)
                states.append(model.told(paths))
                self.apply(encode(last), log=self.new_log())
                self.is_checked = False
                self.assertEqual(self.problems(before, read_log(self.log_path()), states, paths, False, 0), [])
        self.assertGreater(self.images, 200)

    def test_runs_of_each_size(self) -> None:
        for size in SIZES[1:]:
            with self.subTest(size=size):
                self.lose([Request("create", 1, 1, "/f", data_of(size))], 6)
        self.assertGreater(self.images, 400)

    def test_after_a_failure_inside_of_a_run(self) -> None:
        """A write that is short, and then has no room, in each of the slices; a failed sync. Then the same again, and power lost at
        every call of all that."""
        requests = [Request("create", 1, 1, "/f", data_of(33 * BLOCK))]
        for rules in ("pwrite:1:S5000;pwrite:2:E28", "pwrite:2:S3000;pwrite:3:E28", "pwrite:2:P4096E5", "pwrite:1:E4;pwrite:3:E28", "fsync:2:A5", "fsync:3:E5"):
            with self.subTest(rules):
                self.lose(requests, 2, rules)
                self.assertTrue(any(record.kind == "ftruncate" for record in read_log(self.log_path())))

    def test_without_a_sync(self) -> None:
        """The control: with one of the syncs left out a file is lost, whichever it is."""
        requests = [Request("create", 1, 1, "/f", data_of(33 * BLOCK))]
        for rules in ("fsync:2:L", "fsync:3:L"):
            with self.subTest(rules):
                before, records, states, paths = self.served(requests, rules)
                self.assertEqual(sum(record.kind == "fsync" for record in records), 2)
                self.assertNotEqual(self.problems(before, records, states, paths, False, 6), [])


class Largest(Loser):
    """A directory of 512 names of 254 letters on a volume with 4,096 nodes and 64 clients: more encoded blocks than one run takes."""

    is_checked = False

    def setUp(self) -> None:
        super().setUp()
        need_shim()

    def requests(self) -> list[Request]:
        """All but one name of the largest directory, all nodes but one, and all clients but one."""
        made = [("mkdir", "/" + letter) for letter in "abcdefgh"]
        made += [("create", self.long_name(number)) for number in range(MOST_NAMES - 1)]
        # The root is a node too.
        made += [("create", "/%s/%d" % ("bcdefgh"[number // MOST_NAMES], number)) for number in range(MOST_NODES - len(made) - 2)]
        requests = [Request(kind, 1, number, path) for number, (kind, path) in enumerate(made, 1)]
        return requests + [Request("remove", client, 1, "/none") for client in range(2, MOST_CLIENTS)]

    @staticmethod
    def long_name(number: int) -> str:
        return "/a/" + ("%03d" % number).ljust(LONGEST_NAME, "n")

    def test_the_largest_directory_and_table(self) -> None:
        self.fresh(capacity=200_000)
        model, requests = Model(), self.requests()
        wanted = [model.answer(request) for request in requests]
        self.assertEqual(answers_of(self.apply(b"".join(map(encode, requests))).output), wanted)
        before = self.path("d.img").read_bytes()
        last = Request("create", MOST_CLIENTS, 1, self.long_name(MOST_NAMES - 1), data_of(512 * BLOCK))
        paths = [last.path, "/a", "/h"]
        states = [model.told(paths)]
        answer = model.answer(last)
        self.assertEqual((sum(model.tree.count()), answer.code), (MOST_NODES, 0))
        states.append(model.told(paths))
        self.assertEqual(answers_of(self.apply(encode(last), log=self.new_log()).output), [answer])
        records = read_log(self.log_path())
        followed = Discipline(len(before), self.folder).follow(records)
        self.assertEqual((followed.faults, followed.seen_entries), ([], 1))
        end = self.path("d.img").stat().st_size
        runs = runs_of(records)
        self.assertIsNone(wrong_in(runs, len(before), end, 512))
        # The table takes 196 bytes, 48 a client and 4 an address; and there are three entries, one of which is the last block.
        table = 196 + 48 * MOST_CLIENTS + 4 * (MOST_NODES + 1)
        encoded = directory_blocks(MOST_NAMES, LONGEST_NAME) + -(-table // BLOCK) + 2
        self.assertEqual((end - len(before)) // BLOCK, 512 + encoded + 1)
        self.assertGreater(encoded, 3 * PACKET)
        self.assertEqual(self.problems(before, records, states, paths, False, 2), [])
        self.assertEqual(self.sound(), len(requests) + 1)


class Failures(Serving):
    capacity = CAPACITY

    def failing(self, lengths: Sequence[int], first: int, syncs: Sequence[int]) -> List[str]:
        """Rules by which a write from the first one on fails, of these lengths, or one of these syncs."""
        rules = ["pwrite:%d:%s" % (number, action) for number, length in enumerate(lengths, first)
                 for action in ("E5", "E28", "A5", "P1E28", "P%dE28" % (length // 2), "P%dE5" % (length - 1))]
        rules += ["pwrite:%d:S%d;pwrite:%d:E28" % (number, length // 2, number + 1) for number, length in enumerate(lengths, first)]
        return rules + ["fsync:%d:%s" % (number, action) for number in syncs for action in ("E5", "A5", "E28")]

    def test_each_write_and_sync(self) -> None:
        """One that fails, whole or in part: the file is cut back, and the request is done once more, with the same bytes. Where a call of that
        fails too it is a fault; the file is cut back, and the repeat is done."""
        for size in (BLOCK, 33 * BLOCK, 64 * BLOCK - 5, 512 * BLOCK):
            request = Request("create", 1, 1, "/f", data_of(size))
            records, _ = self.run_with("", [request])
            whole = self.path("d.img").read_bytes()
            lengths = [record.length for record in records if record.kind == "pwrite"]
            self.assertEqual((len(lengths), lengths[0]), (4, size // BLOCK * BLOCK))
            # The first write fails, and the sync of its cut is the second one. Then the blocks that waited go out with those before them.
            again = ["pwrite:1:E5;" + rule for rule in self.failing([lengths[0], lengths[1] + BLOCK, BLOCK], 2, (3, 4))]
            for rule in self.failing(lengths, 1, (2, 3)) + again:
                with self.subTest(size=size, rule=rule):
                    records, faults = self.run_with(rule, [request])
                    self.assertEqual(faults, rule in again)
                    self.cut_behind(records)
                    self.assertTrue(self.path("d.img").read_bytes() == whole or rule in again)

    def test_short_and_interrupted(self) -> None:
        """A write of either slice that does less, or is interrupted, is gone on with: no fault, and the same image."""
        for size in (BLOCK, 64 * BLOCK - 5):
            request = Request("create", 1, 1, "/f", data_of(size))
            self.run_with("", [request])
            whole = self.path("d.img").read_bytes()
            rules = ["pwrite:%d:%s" % (number, action) for number in (1, 2, 3) for action in ("E4", "S1", "S2047")]
            rules += ["pwrite:1:S%d" % (size // BLOCK * BLOCK - 1), "pwrite:2:S2049", "pwrite:*:S3000", "pwrite:1:S700;pwrite:2:E4;pwrite:3:S2048", "fsync:2:E4;fsync:4:E4"]
            for rule in rules:
                with self.subTest(size=size, rule=rule):
                    records, faults = self.run_with(rule, [request])
                    self.assertEqual(faults, 0)
                    self.assertEqual(self.path("d.img").read_bytes(), whole)
                    self.assertTrue(any(record.error or record.result < record.length for record in records if record.kind in ("pwrite", "fsync")))
