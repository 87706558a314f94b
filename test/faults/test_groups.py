"""Many commits in two syncs: the bytes are those of `udfburn apply`, no answer is sent before its group is on the disk, and a group in
which a call fails is taken back and done one by one."""
from __future__ import annotations

import random
import subprocess
import time
from typing import Iterator, Optional, Sequence

from faults.calls import Discipline
from faults.groups import Grouped, Item, Run, commits_of, filled, grouped, is_head, marks_of, need_groups, not_kept, replayed, running, stream_of
from faults.heads import HEAD_BYTES, head_of
from faults.log import Record, read_log
from faults.programs import built
from faults.running import environment
from protocol import (
    BLOCK, CLIENTS_FULL, DAMAGED, FAULT, FULL, GAP, MALFORMED, MOST_CLIENTS, PIECE, STALE, Answer, Model, Request, answers_of, encode, frame,
    paths_of, query, read_query,
)

SEED = 20261129
CAPACITY = 3000
SIZES = (0, 1, 100, 1871, 1872, 1873, 2047, 2048, 2049, 4096, 10_000, 30_000, 65_400, 65_536, 65_537, 100_000)


def setUpModule() -> None:  # noqa: N802
    need_groups()


def data_of(size: int) -> bytes:
    """Bytes of which no two blocks are the same."""
    return random.Random(size).randbytes(size)


def creates(sizes: Sequence[int], client: int = 1) -> list[Item]:
    return [Request("create", client, number, "/%d-%d" % (client, number), data_of(size)) for number, size in enumerate(sizes, 1)]


TREE: list[Item] = [
    Request("create", 1, 1, "/a", b"first"),
    Request("mkdir", 1, 2, "/d"),
    Request("mkdir", 1, 3, "/d/e"),
    Request("create", 1, 4, "/d/x", data_of(9000)),
    query("get", "/d/x"),
    Request("replace", 1, 5, "/d/x", data_of(3000)),
    Request("rename", 1, 6, "/a", to="/d/e/a"),
    query("list", "/d"),
    Request("create", 1, 7, "/d/x", b"it is there"),
    Request("remove", 1, 8, "/d"),
    Request("rename", 1, 9, "/d", to="/f"),
    Request("remove", 1, 10, "/f/x"),
    query("stat", "/f"),
    Request("remove", 1, 11, "/none"),
    Request("rename", 1, 12, "/f", to="/f/e/g"),
    Request("remove", 1, 13, "/"),
]

# Frames that are no messages, after which the next ones are read.
NO_MESSAGES = [
    frame(b""),
    frame(bytes([99])),
    frame(encode(Request("create", 1, 1, "/a", b"x"))[4:-1]),
    frame(encode(Request("mkdir", 1, 1, "/a"))[4:] + b"x"),
    encode(Request("mkdir", 0, 1, "/a")),
    encode(Request("mkdir", 1, 0, "/a")),
]

SESSIONS: list[Item] = [
    *creates([10, 20, 30, 40, 50, 60]),
    Request("create", 1, 5, "/1-5", data_of(50)),
    Request("create", 1, 1, "/1-1", data_of(10)),
    Request("create", 1, 9, "/gap", b"x"),
    *NO_MESSAGES,
    Request("mkdir", 1, 7, "/d"),
    Request("mkdir", 1, 7, "/d"),
    query("list", "/"),
    Request("mkdir", 2, 1, "/d"),
]

APPENDS: list[Item] = [
    Request("create", 1, 1, "/g"),
    Request("create", 1, 2, "/h", b"h"),
    Request("append", 1, 3, "/g", data_of(PIECE), offset=0),
    Request("create", 2, 1, "/i", data_of(500)),
    Request("append", 1, 4, "/g", data_of(5000), offset=PIECE),
    Request("append", 1, 4, "/g", data_of(5000), offset=PIECE),
    Request("create", 2, 2, "/j", data_of(600)),
    Request("append", 1, 5, "/g", b"wrong", offset=PIECE),
    Request("append", 1, 5, "/h", b"wrong", offset=0),
    Request("append", 1, 6, "/h", b"wrong", offset=0),
    Request("append", 1, 9, "/g", b"gap", offset=PIECE),
    read_query("/g", PIECE - 10, 100),
    Request("create", 2, 3, "/k"),
    Request("append", 2, 4, "/k", b"one", offset=0),
    Request("create", 2, 5, "/l"),
]

# Three pieces of the input: one with commits, one with none, and one with queries between commits.
QUIET: list[Item] = [
    *filled(creates([10, 3000])),
    *filled([query("list", "/"), Request("create", 1, 1, "/1-1", data_of(10)), Request("create", 1, 5, "/gap"), query("get", "/1-2")]),
    *filled([query("get", "/1-1"), Request("mkdir", 1, 3, "/d"), query("list", "/"), query("get", "/d")]),
]

# The answers to these are more than a group has.
LONG_ANSWERS: list[Item] = filled([Request("create", 1, 1, "/long", data_of(30_000))])
for _number in range(2, 14):
    LONG_ANSWERS += [Request("mkdir", 1, _number, "/d%d" % _number), query("get", "/long")]


def mixed(seed: int, count: int) -> Iterator[Item]:
    """Requests of three clients at random, with repeats, gaps, queries and frames that are no messages."""
    chance, model = random.Random(seed), Model()
    paths = ["/", "/a", "/b", "/d", "/d/x", "/d/e", "/d/e/y", "/c"]
    for _ in range(count):
        client, path = chance.randint(1, 3), chance.choice(paths)
        latest = model.latest.get(client, 0)
        number = chance.choice([latest + 1] * 8 + [max(1, latest - chance.randint(0, 6)), latest + 3])
        kind = chance.choice(["create"] * 3 + ["replace", "mkdir", "rename", "remove", "append", "query", "other"])
        if kind == "query":
            yield query(chance.choice(["get", "list", "stat"]), path)
        elif kind == "other":
            yield chance.choice(NO_MESSAGES)
        else:
            size = chance.choice([1, 50, 700, 3000, 20_000]) if kind in ("create", "replace", "append") else 0
            to = chance.choice(paths) if kind == "rename" else ""
            offset = chance.choice([0, 0, PIECE]) if kind == "append" else 0
            request = Request(kind, client, number, path, data_of(size), to, chance.randrange(1 << 40), offset)
            model.answer(request)
            yield request


class Both(Grouped):
    def both(self, items: Sequence[Item], capacity: int = CAPACITY, before: Optional[bytes] = None) -> Run:
        """The stream by `udfburn apply` and in groups, on a new volume or on this image: the same answers and bytes."""
        if before is None:
            before = self.fresh(capacity=capacity).read_bytes()
        stream = stream_of(items)
        for name in ("d.img", "one.img"):
            self.path(name).write_bytes(before)
        wanted = self.apply(stream, "one.img")
        ran = self.groups(stream, log=self.new_log())
        self.assertEqual((wanted.status, wanted.errors), (0, b""))
        self.assertEqual((ran.status, ran.errors), (0, b""))
        self.assertTrue(ran.output == wanted.output, "the answers differ")
        final = self.path("d.img").read_bytes()
        self.assertTrue(final == self.path("one.img").read_bytes(), "the images differ")
        return Run(before, final, answers_of(ran.output), read_log(self.log_path()))

    def settled(self, items: Sequence[Item], run: Run, waits: int = 0) -> Discipline:
        """Each group is what it must be, in two syncs, and the order of calls is as it must be. So often a cut is waited for."""
        followed = self.right(run)
        marks = iter(marks_of(run.final, len(run.before)))
        wanted = [[next(marks) for _ in group] for group in grouped(items, run.answers) if group]
        self.assertEqual(followed.groups, wanted)
        self.assertEqual(list(marks), [])
        self.assertEqual(followed.waits, waits)
        self.assertEqual(sum(record.kind == "fsync" for record in running(run.records)), 2 * len(wanted) + waits)
        return followed

    def tried(self, items: Sequence[Item], capacity: int = CAPACITY) -> list[int]:
        """How many commits each group has that has one. The answers are those that the protocol wants."""
        run = self.both(items, capacity)
        if Answer(FULL) not in run.answers:
            self.assertEqual(replayed(items, run.answers)[1], [])
        self.assertEqual(self.sound(), commits_of(run.final))
        return [len(marks) for marks in self.settled(items, run).groups]


class SameBytes(Both):
    def test_files_of_all_sizes(self) -> None:
        groups = self.tried(creates(SIZES))
        self.assertGreater(len(groups), 4)
        self.assertEqual(sum(groups), len(SIZES))

    def test_a_tree(self) -> None:
        """Each kind of request, and each refusal that is a commit, in one group."""
        self.assertEqual(self.tried(TREE), [13])

    def test_sessions(self) -> None:
        """Repeats, stale numbers, gaps and frames that are no messages take no sync."""
        self.assertEqual(self.tried(SESSIONS), [8])

    def test_no_commit_takes_no_sync(self) -> None:
        self.assertEqual(self.tried(QUIET), [2, 1])
        self.assertEqual(self.tried([query("list", "/"), query("get", "/a"), *NO_MESSAGES]), [])
        self.assertEqual(self.tried([]), [])

    def test_appends(self) -> None:
        """They are in groups with other requests."""
        self.assertEqual(self.tried(APPENDS), [2, 9])

    def test_long_groups(self) -> None:
        """A group ends with the 64th commit, or where its answers are long."""
        self.assertEqual(self.tried(creates([20] * 200)), [64, 64, 64, 8])
        self.assertEqual(self.tried(LONG_ANSWERS), [1, 3, 3, 3, 3])

    def test_no_room(self) -> None:
        """A medium that becomes full within a group, and clients that are too many."""
        items: list[Item] = [Request("create", 1 + number % 3, 1 + number // 3, "/%d" % number, data_of(5000)) for number in range(60)]
        self.assertGreater(len(self.tried(items, 600)), 2)
        self.assertIn(FULL, [answer.code for answer in answers_of(self.apply(stream_of(items), "d.img").output)])
        items = [Request("mkdir", client, 1, "/d%d" % client) for client in range(1, MOST_CLIENTS + 3)]
        self.assertEqual(self.tried(items), [64])
        self.assertEqual(answers_of(self.apply(stream_of(items)).output)[-1], Answer(CLIENTS_FULL))

    def test_a_frame_that_is_too_long(self) -> None:
        """What is before it is a group with it, and nothing is read after it."""
        self.assertEqual(self.tried([*creates([10, 20]), b"\0\0\0\x80"]), [2])
        run = self.both([*creates([10, 20]), b"\0\0\0\x80" + stream_of(creates([30], 2))])
        self.assertEqual([answer.code for answer in run.answers], [0, 0, MALFORMED])
        run = self.both([*creates([10, 20]), stream_of(creates([30], 2))[:-1]])
        self.assertEqual([answer.code for answer in run.answers], [0, 0])

    def test_data_that_imitates_a_mark(self) -> None:
        """It comes one block later than it would, in groups too."""
        before = self.fresh(capacity=CAPACITY).read_bytes()
        first, end = creates([10]), len(before) // BLOCK
        self.apply(stream_of(first))
        for at in range(end, end + 24):
            sealed = bytearray(before[-BLOCK:])
            sealed[12:16] = (at - 257).to_bytes(4, "little")
            sealed[4] = 0
            sealed[4] = sum(sealed[:16]) % 256
            items = [*first, Request("create", 2, 1, "/a", data_of(BLOCK) + bytes(sealed)), *creates([0, 5000], 3)]
            with self.subTest(at=at):
                self.assertEqual(self.tried(items), [4])

    def test_data_that_imitates_a_head(self) -> None:
        """Where the disk may still have the length with a head, it is made to know of the cut before such a block goes there."""
        first = filled(creates([10, 20]))
        end = len(self.both(first).final) // BLOCK
        like = head_of(end - 3, end, [end - 1])
        items = [*first, Request("create", 2, 1, "/a", like + data_of(5000))]
        self.settled(items, self.both(items), 1)
        # In the middle of a group, and after a group of one commit, no head was.
        for first in (creates([10]), filled(creates([10]))):
            items = [*first, Request("create", 2, 1, "/a", like + data_of(5000))]
            self.settled(items, self.both(items))

    def test_a_part_of_a_block(self) -> None:
        """What an earlier loss left after the last whole block."""
        before = self.fresh(capacity=CAPACITY).read_bytes()
        for left in (1, 700, 2047):
            with self.subTest(left=left):
                self.both(TREE, before=before + b"\xff" * left)
                self.both([query("list", "/")], before=before + b"\xff" * left)
                self.both(THREE, before=before + b"\xff" * left)

    def test_no_volume_and_a_damaged_one(self) -> None:
        """Each message is answered 39, and nothing is written."""
        whole = self.both(TREE).final
        for before in (b"", whole[:100 * BLOCK], whole[:-2 * BLOCK] + bytes(BLOCK) + whole[-BLOCK:]):
            run = self.both(creates([10, 20], 9), before=before)
            self.assertEqual(run.answers, [Answer(DAMAGED)] * 2)
            self.assertEqual(run.final, before)
            self.assertNotIn("pwrite", [record.kind for record in run.records])

    def test_pieces_of_a_pipe(self) -> None:
        """A group is what came together, however the input is cut: the bytes stay the same, and the order of calls is as it must be."""
        items = list(mixed(SEED, 200))
        run, stream = self.both(items), stream_of(items)
        for seed in range(5):
            chance, at = random.Random(seed), 0
            self.path("d.img").write_bytes(run.before)
            process = subprocess.Popen([built().apply_groups, "d.img"], stdin=subprocess.PIPE, stdout=subprocess.PIPE, cwd=self.folder,
                                       env=environment("d.img", self.new_log()))
            assert process.stdin is not None
            while at < len(stream):
                size = chance.choice((1, 20, 100, 3000, 30_000))
                process.stdin.write(stream[at:at + size])
                process.stdin.flush()
                at += size
                time.sleep(chance.choice((0.0, 0.001)))
            output, _ = process.communicate()
            with self.subTest(seed=seed):
                self.assertEqual((process.returncode, answers_of(output) == run.answers), (0, True))
                self.assertTrue(self.path("d.img").read_bytes() == run.final)
                self.assertEqual(self.right(run).waits, 0)

    def test_at_random(self) -> None:
        codes: set[int] = set()
        for seed in range(SEED, SEED + 12):
            with self.subTest(seed=seed):
                items = list(mixed(seed, 150))
                self.tried(items)
                codes |= {answer.code for answer in answers_of(self.apply(stream_of(items)).output)}
        self.assertLessEqual({0, 2, 3, STALE, GAP, MALFORMED}, codes)


# Three groups.
THREE: list[Item] = [
    *filled([
        Request("create", 1, 1, "/a", b"first"),
        Request("mkdir", 2, 1, "/d"),
        query("list", "/"),
        Request("create", 1, 2, "/d/x", data_of(5000)),
    ]),
    *filled([
        Request("rename", 2, 2, "/a", to="/d/y"),
        Request("create", 1, 3, "/d/x", b"refused"),
        Request("replace", 1, 4, "/d/x", b"third"),
        query("get", "/d/x"),
        Request("remove", 2, 3, "/none"),
    ]),
    *filled([
        Request("create", 1, 5, "/long", data_of(50_000)),
        Request("remove", 2, 4, "/d/y"),
        Request("create", 1, 6, "/last", b"last"),
    ]),
]
REQUESTS = [item for item in THREE if isinstance(item, Request)]
# How a call of each kind fails.
ACTIONS: dict[str, Sequence[str]] = {
    "pwrite": ("E28", "A5", "P1000E5", "E5", "P2048E28", "S0", "P3000E28"),
    "fsync": ("E5", "A5"),
    "ftruncate": ("E5", "A5", "E28"),
    "fstat": ("E5",),
    "pread": ("E5",),
}
# At most so many calls of a kind are tried, evenly among them.
MOST_CALLS = {"pwrite": 20, "fsync": 6, "ftruncate": 6, "fstat": 12, "pread": 3}


class Failures(Both):
    def cases(self, records: Sequence[Record]) -> Iterator[str]:
        """The rules by which one call fails, of those after the opening."""
        for kind, actions in ACTIONS.items():
            calls = sum(record.kind == kind for record in records)
            first = calls - sum(record.kind == kind for record in running(records)) + 1
            numbers = list(range(first, calls + 1))
            self.assertGreaterEqual(len(numbers), 3, kind)
            step = max(1, -(-len(numbers) // MOST_CALLS[kind]))
            for place, number in enumerate(numbers[::-step]):
                yield "%s:%d:%s" % (kind, number, actions[place % len(actions)])
        writes = [record for record in records if record.kind == "pwrite"]
        for number in [number for number, record in enumerate(writes, 1) if record.length == HEAD_BYTES]:
            yield from ("pwrite:%d:%s" % (number, action) for action in ("E5", "P100E28", "A5"))

    def undisturbed(self) -> Run:
        run = self.both(THREE)
        self.assertEqual([len(marks) for marks in self.settled(THREE, run).groups], [3, 4, 3])
        return run

    def has_head(self, run: Run, records: Sequence[Record]) -> bool:
        """The image has the bytes of a run in which no call failed. Only where one fails after the last sync, so that the head of the last
        group is not cut off, is that head there too."""
        image, last = self.path("d.img").read_bytes(), len(run.final)
        late = records[max(index for index, record in enumerate(records) if record.kind == "fsync"):]
        is_left = any(record.error for record in late) and not any(record.kind == "ftruncate" and not record.result for record in late)
        self.assertTrue(image[:last] == run.final, "the image has other bytes")
        self.assertEqual(len(image), last + HEAD_BYTES * is_left)
        self.assertTrue(not is_left or is_head(image[last:], run.final, last // BLOCK))
        return is_left

    def served(self, rules: str = "", begin: Optional[Model] = None) -> tuple[list[Answer], Model]:
        """Answers the stream under rules by which calls fail: each message is answered, and the tree is what the answers tell."""
        ran = self.groups(stream_of(THREE), rules=rules, log=self.new_log())
        self.assertEqual((ran.status, ran.errors), (0, b""))
        answers = answers_of(ran.output)
        model, wrong = replayed(THREE, answers, begin)
        self.assertEqual(wrong, [])
        self.tree_is(model, paths_of(REQUESTS))
        return answers, model

    def test_each_call(self) -> None:
        """One call fails: the same answers and the same bytes, and nothing is answered that the disk does not have."""
        run, heads = self.undisturbed(), 0
        cases = list(self.cases(run.records))
        self.assertLessEqual(len(cases), 50)
        for rule in cases:
            with self.subTest(rule):
                self.path("d.img").write_bytes(run.before)
                answers, _ = self.served(rule)
                records = read_log(self.log_path())
                self.assertTrue(any(record.error or record.kind == "pwrite" and not record.result for record in running(records)))
                self.assertEqual(answers, run.answers)
                heads += self.has_head(run, records)
                self.assertEqual(not_kept(run.before, records, run.final, answers), [])
        print("groups: %d calls failed, %d of them so that a head is left" % (len(cases), heads))
        self.assertGreater(heads, 0)

    def test_several(self) -> None:
        """The cut fails too, or what is done one by one after it: what is answered is what is there, and the rest can be sent again."""
        run, faults = self.undisturbed(), 0
        # The first group has seven writes of blocks, its head and three marks.
        for rules in (
            "fsync:2:E5;ftruncate:1:E5",
            "fsync:3:A5;ftruncate:1-2:E5",
            "fsync:3:A5;pwrite:12:E5",
            "fsync:3:A5;pwrite:13-14:P1000E28",
            "fsync:3-4:A5",
            "pwrite:4:P1000E28;ftruncate:1:E5",
            "pwrite:4:E5;ftruncate:1-3:E5",
            "pwrite:8:P100E28;ftruncate:1:E5",
            "fsync:4:E5;fsync:5:E5",
            "fsync:4-7:A5",
            "pwrite:10-15:E28",
            "fstat:6-12:E5",
            "fstat:20:E5;ftruncate:1:E5",
            "ftruncate:1-4:E5",
            "pwrite:3+:E28",
            "fsync:4+:E5",
            "pwrite:13+:P100E28",
            "pread:300+:E5",
        ):
            with self.subTest(rules):
                self.path("d.img").write_bytes(run.before)
                answers, model = self.served(rules)
                faults += sum(answer == Answer(FAULT) for answer in answers)
                answers, model = self.served(begin=model)
                self.assertNotIn(Answer(FAULT), answers)
                self.assertEqual(model.latest, {1: 6, 2: 4})
        self.assertGreater(faults, 10)

    def test_a_cut_that_never_works(self) -> None:
        """The last group cannot be taken back: its requests are answered 36, and the next process finds all of them done if all their marks are
        there, and otherwise none."""
        run = self.undisturbed()
        writes = sum(record.kind == "pwrite" for record in run.records)
        for rules, commits in (
            ("fsync:6:E5;ftruncate:3+:E5", 7),
            ("pwrite:%d+:E28;ftruncate:3+:E5" % (writes - 6), 7),
            # The disk has the marks. They become zeros before the cut, all, none or the first of them.
            ("fsync:7:A5;ftruncate:3+:E5", 7),
            ("fsync:7+:A5", 7),
            ("fsync:7:A5;pwrite:%d+:E5" % (writes + 1), 10),
            ("fsync:7:A5;pwrite:%d+:E5" % (writes + 2), 7),
        ):
            with self.subTest(rules):
                self.path("d.img").write_bytes(run.before)
                ran = self.groups(stream_of(THREE), rules=rules)
                answers = answers_of(ran.output)
                self.assertEqual(sum(answer == Answer(FAULT) for answer in answers), 3)
                self.groups(b"")
                self.assertEqual(self.sound(), commits)
                there, _ = replayed(REQUESTS[:commits], [answer for answer in run.answers if answer.is_commit][:commits])
                self.assertEqual(there.commits, commits)
                _, model = self.served(begin=there)
                self.assertEqual(model.commits, len(REQUESTS))

    def test_for_ever(self) -> None:
        """A disk that takes nothing any more: each request is answered 36, and nothing is done."""
        before = self.fresh(capacity=CAPACITY).read_bytes()
        for rules in ("pwrite:1+:E28", "fsync:2+:E5", "pwrite:1+:P5000E5", "fstat:4+:E5"):
            with self.subTest(rules):
                self.path("d.img").write_bytes(before)
                answers, _ = self.served(rules)
                first = {answer for item, answer in zip(THREE, answers) if isinstance(item, Request) and item.number == 1}
                self.assertEqual(first, {Answer(FAULT)})
                self.assertEqual(self.sound(), 0)


class Itself(Both):
    """What is wrong is seen."""

    def faults(self, rules: str) -> list[str]:
        run = self.both(THREE)
        self.path("d.img").write_bytes(run.before)
        self.groups(stream_of(THREE), rules=rules, log=self.new_log())
        return self.followed(run).faults

    def test_a_call_that_lies(self) -> None:
        self.assertEqual(self.faults(""), [])
        for rules, what in (
            ("fsync:2:L", "goes out before all else was synced"),
            ("fsync:3:L", "within a group"),
            ("fsync:*:L", "before its group is settled"),
            ("pwrite:1:L", "the first sync has other blocks"),
            # The head.
            ("pwrite:8:L", "the first sync has other blocks"),
            ("pwrite:9:L", "a second sync without all marks"),
            ("ftruncate:1:L", "before the head is cut off"),
        ):
            with self.subTest(rules):
                self.assertTrue(any(what in fault for fault in self.faults(rules)))

    def test_what_is_not_kept(self) -> None:
        run = self.both(THREE)
        self.assertEqual(not_kept(run.before, run.records, run.final, run.answers), [])
        unsynced = [record for record in run.records if record.kind != "fsync"]
        self.assertNotEqual(not_kept(run.before, unsynced, run.final, run.answers), [])
