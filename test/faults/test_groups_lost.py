"""Groups that are cut: power lost at every call, and kills. What is left is a state of the run, and nothing that was answered is lost.

Each image is read twice. Who knows the head of a group that is not settled finds a history without a hole, and cuts the group off. Who
does not may find a hole: a mark that is missing before one that is there. Then the state is that of the last mark, and `check` ends with
67 and cause 78. All programs know heads, so for that reading a copy ends with the last whole block, and has no head.
"""
from __future__ import annotations

import random
import re
import subprocess
import tempfile
import time
from typing import Iterator, NamedTuple, Optional, Sequence

from faults.case import differing
from faults.groups import Grouped, Item, Told, filled, marks_of, need_groups, replayed, running, stream_of
from faults.heads import counted, head_of
from faults.log import Record, read_log
from faults.pages import Disk, Loss, losses, run_losses
from faults.programs import built
from faults.running import Ran, environment
from protocol import BLOCK, Answer, Model, Request, answers_of, encode, paths_of, questions, split_answers

SEED = 20261129
KILLED = -9
HOLE = re.compile(rb"udfburn: 67 Damaged block [0-9]+ cause 78\n")


def setUpModule() -> None:  # noqa: N802
    need_groups()


def data_of(size: int) -> bytes:
    return random.Random(size).randbytes(size)


# Groups of three, five and two commits.
THREE: list[Item] = [
    *filled([
        Request("create", 1, 1, "/a", b"first"),
        Request("mkdir", 2, 1, "/d"),
        Request("create", 1, 2, "/d/x", data_of(5000)),
    ]),
    *filled([
        Request("rename", 2, 2, "/a", to="/d/y"),
        Request("create", 1, 3, "/d/x", b"refused"),
        Request("replace", 1, 4, "/d/x", b"third"),
        Request("remove", 2, 3, "/d/y"),
        Request("mkdir", 2, 4, "/e"),
    ]),
    *filled([
        Request("create", 1, 5, "/long", data_of(20_000)),
        Request("rename", 2, 5, "/d", to="/e/d"),
    ]),
]


class Left(NamedTuple):
    """An image that a power loss leaves, and the latest commit that was answered before."""

    how: str
    content: bytes
    acknowledged: int


class Cut(Grouped):
    """What is left of a stream that was cut."""

    def setUp(self) -> None:
        super().setUp()
        self.images = self.holes = self.cuts = 0

    def run_of(self, items: Sequence[Item], rules: str = "", capacity: int = 1000) -> tuple[bytes, list[Record], list[Answer]]:
        """Answers a stream: the image before, the calls after the opening, and the answers."""
        before = self.fresh(capacity=capacity).read_bytes()
        ran = self.groups(stream_of(items), rules=rules, log=self.new_log())
        self.assertEqual((ran.status, ran.errors), (0, b""))
        answers = answers_of(ran.output)
        self.assertEqual(replayed(items, answers)[1], [])
        return before, list(running(read_log(self.log_path()))), answers

    def prepared(self, items: Sequence[Item], final: bytes) -> None:
        """What `looked_at` compares with: the marks, and what can be asked after each commit."""
        self.items = items
        self.requests = requests = [item for item in items if isinstance(item, Request)]
        self.marks = [(at, final[at * BLOCK:(at + 1) * BLOCK]) for at in marks_of(final, 0)][1:]
        clients = sorted({request.client for request in requests})
        # A number far ahead is answered by the latest one.
        self.ahead = [Request("mkdir", client, (1 << 64) - 1, "/") for client in clients]
        self.paths = paths_of(requests)
        self.asked = b"".join(map(encode, self.ahead)) + questions(self.paths)
        self.assertEqual(len(self.marks), len(requests))

    def state(self, commits: int) -> Model:
        """The volume after the first commits of the stream."""
        model = Model()
        for request in self.requests[:commits]:
            model.answer(request)
        return model

    def looks(self, commits: int, ran: Ran, how: str) -> None:
        """These are the answers of this state of the run to all that can be asked of it."""
        state = self.state(commits)
        self.assertEqual((ran.status, ran.errors), (0, b""), how)
        wanted = [state.answer(request) for request in self.ahead] + state.told(self.paths)
        self.assertEqual(differing(answers_of(ran.output), wanted), [], how)

    def marks_in(self, content: bytes) -> list[bool]:
        """Which of the marks are there."""
        return [content[at * BLOCK:(at + 1) * BLOCK] == mark for at, mark in self.marks]

    def state_in(self, content: bytes) -> tuple[int, bool]:
        """The last commit whose mark is there, and whether one before it is missing."""
        there = self.marks_in(content)
        last = len(there) - there[::-1].index(True) if any(there) else 0
        return last, not all(there[:last])

    def checked(self, commits: int, has_hole: bool, image: str, how: str) -> None:
        ran = self.udfburn("check", image)
        if has_hole:
            self.assertEqual((ran.status, ran.output), (1, b""), how)
            self.assertTrue(HOLE.fullmatch(ran.errors), "%s: %r" % (how, ran.errors))
        else:
            self.assertEqual((ran.status, ran.output, ran.errors), (0, b"sound %d\n" % commits, b""), how)

    def looked_at(self, left: Left) -> None:
        """The image is a state of the run that is not before what was answered, and the same stream brings it to the end."""
        self.images += 1
        self.assertTrue(all(self.marks_in(left.content)[:left.acknowledged]), left.how + ": an acknowledged commit is lost")
        self.looked_at_without_heads(left)
        self.looked_at_by_heads(left)

    def looked_at_without_heads(self, left: Left) -> None:
        self.path("old.img").write_bytes(left.content[:len(left.content) // BLOCK * BLOCK])
        commits, has_hole = self.state_in(left.content)
        self.holes += has_hole
        self.checked(commits, has_hole, "old.img", left.how)
        self.looks(commits, self.apply(self.asked, "old.img"), left.how)
        self.again(commits, self.apply(stream_of(self.items), "old.img"), left.how)
        self.checked(len(self.marks), has_hole, "old.img", left.how)

    def looked_at_by_heads(self, left: Left) -> None:
        """There is no hole, and the file is cut back to what counts."""
        self.path("d.img").write_bytes(left.content)
        kept = counted(left.content)
        commits, has_hole = self.state_in(kept)
        self.cuts += len(kept) < len(left.content)
        self.assertFalse(has_hole, left.how)
        self.assertGreaterEqual(commits, left.acknowledged, left.how)
        self.checked(commits, False, "d.img", left.how)
        self.looks(commits, self.groups(self.asked), left.how)
        self.assertTrue(self.path("d.img").read_bytes() == kept, left.how + ": the file is not what counts")
        self.checked(commits, False, "d.img", left.how)
        self.again(commits, self.groups(stream_of(self.items)), left.how)
        self.looks(len(self.marks), self.groups(self.asked), left.how)
        self.checked(len(self.marks), False, "d.img", left.how)

    def again(self, commits: int, ran: Ran, how: str) -> None:
        """The same stream on what is left: each commit that is there is answered as before, or as stale, and the others are done."""
        self.assertEqual((ran.status, ran.errors), (0, b""), how)
        model, wrong = replayed(self.items, answers_of(ran.output), self.state(commits))
        self.assertEqual((model.commits, wrong), (len(self.marks), []), how)


class Everything(random.Random):
    """A chance by which a failed sync wrote each page."""

    def random(self) -> float:
        return 0.0


class Power(Cut):
    def lose(self, before: bytes, records: Sequence[Record], answers: Sequence[Answer], page: int, share: float,
             on_failure: Optional[random.Random] = None) -> Iterator[Left]:
        """What power losses leave, at each call; of those with no commit that was not answered only a share."""
        chance, told, output = random.Random(SEED + page), Told.of(answers), 0
        disk, seen = Disk(before, page, on_failure), set()
        for index, record in enumerate(records):
            disk.call(record)
            output += len(record.data) if record.kind == "stdout" else 0
            acknowledged = told.promised(output)
            for loss in self.losses(disk, records[index + 1:], chance):
                if (acknowledged, loss.content) in seen:
                    continue
                seen.add((acknowledged, loss.content))
                if self.state_in(loss.content)[0] > acknowledged or chance.random() < share:
                    yield Left("call %d (%s), pages of %d, %s" % (index, record.kind, page, loss.how), loss.content, acknowledged)

    def losses(self, disk: Disk, following: Sequence[Record], chance: random.Random) -> Iterator[Loss]:
        """The losses of the model, and every subset of the pages with marks before the sync of these."""
        yield from losses(disk, chance, 1)
        changing = next((record.kind for record in following if record.kind in ("pwrite", "fsync", "ftruncate")), "")
        if changing == "fsync" and self.state_in(bytes(disk.cache))[0] > self.state_in(bytes(disk.disk))[0]:
            yield from run_losses(disk, chance, 0)

    def all_looked_at(self, found: Iterator[Left]) -> None:
        for left in found:
            with self.subTest(left.how):
                self.looked_at(left)

    def counted(self, least: int) -> None:
        """Tells how many images there were, and that they were not few."""
        print("groups: %d images, %d with a hole for who knows no heads, %d with a group that is cut off" % (self.images, self.holes, self.cuts))
        self.assertGreater(self.images, least)

    def test_each_call(self) -> None:
        before, records, answers = self.run_of(THREE)
        self.prepared(THREE, self.path("d.img").read_bytes())
        for page in (4096, 2048):
            self.all_looked_at(self.lose(before, records, answers, page, 0.15))
        self.counted(100)
        self.assertGreater(self.holes, 0)
        self.assertGreater(self.cuts, self.holes)

    def test_a_failed_sync(self) -> None:
        """Each sync of a group fails, and its pages are lost or not. What is done one by one after it is lost or kept as ever."""
        before, _, _ = self.run_of(THREE)
        final = self.path("d.img").read_bytes()
        self.prepared(THREE, final)
        for rule in ("fsync:4:E5", "fsync:5:A5"):
            _, records, answers = self.run_of(THREE, rule)
            self.assertTrue(self.path("d.img").read_bytes() == final)
            self.assertTrue(any(record.kind == "fsync" and record.error for record in records))
            self.all_looked_at(self.lose(before, records, answers, 4096, 0.0, random.Random(SEED)))
        self.counted(20)

    def test_a_cut_behind_marks(self) -> None:
        """The second sync of a group fails, though the disk has the marks, and the power goes while the group is taken back: the disk has the
        page in which the file was cut, with zeros after the cut, but not yet the new length. What the marks lead to is there, or no mark is."""
        before, _, _ = self.run_of(THREE)
        self.prepared(THREE, self.path("d.img").read_bytes())
        _, records, answers = self.run_of(THREE, "fsync:5:A5")
        told, disk, output = Told.of(answers), Disk(before, 4096, Everything()), 0
        for index, record in enumerate(records):
            disk.call(record)
            output += len(record.data) if record.kind == "stdout" else 0
            if disk.cut is not None:
                content = disk.left(lambda pages: [True] * pages, len(disk.disk), is_cut=False)
                self.looked_at(Left("call %d (%s)" % (index, record.kind), content, told.promised(output)))
        self.counted(0)

    def test_a_loss_behind_a_loss(self) -> None:
        """The stream goes on after blocks of a group that was cut, and is cut again."""
        before, records, answers = self.run_of(THREE)
        self.prepared(THREE, self.path("d.img").read_bytes())
        cut = [left for left in self.lose(before, records, answers, 4096, 1.0)
               if self.state_in(left.content) == (left.acknowledged, False) and len(left.content) > len(before)]
        for left in random.Random(SEED).sample(cut, 3):
            self.path("d.img").write_bytes(left.content)
            ran = self.groups(stream_of(THREE), log=self.new_log())
            self.prepared(THREE, self.path("d.img").read_bytes())
            records = list(running(read_log(self.log_path())))
            self.all_looked_at(self.lose(left.content, records, answers_of(ran.output), 4096, 0.02))
        self.counted(20)

    def test_a_loss_in_an_opening(self) -> None:
        """What an opening cuts off is a group that was not settled. The power goes again, before the disk knows of the cut or while the
        stream goes on. Who knows heads finds the group cut off, though some of its marks are there and the blocks before them are zeros."""
        before, records, answers = self.run_of(THREE)
        final = self.path("d.img").read_bytes()
        self.prepared(THREE, final)
        torn = [left for left in self.lose(before, records, answers, 4096, 1.0)
                if len(counted(left.content)) < len(left.content) and self.state_in(left.content)[0] > left.acknowledged]
        for number, left in enumerate(random.Random(SEED).sample(torn, 12)):
            self.path("d.img").write_bytes(left.content)
            ran = self.groups(stream_of(THREE), log=self.new_log())
            self.assertTrue(self.path("d.img").read_bytes() == final)
            records = read_log(self.log_path())
            found = [Left("a cut in a page", self.with_its_old_length(left.content, records), 0)]
            if number < 4:
                found += self.lose(left.content, records, answers_of(ran.output), 4096, 0.05)
            for again in found:
                with self.subTest(again.how):
                    self.looked_at_by_heads(again._replace(acknowledged=max(left.acknowledged, again.acknowledged)))
        self.assertGreater(self.cuts, 20)

    def with_its_old_length(self, content: bytes, records: Sequence[Record]) -> bytes:
        """What is left where the disk has the page in which the file is cut, with zeros after the cut, but not yet the new length: after the
        first cut of these calls."""
        disk = Disk(content, 16384)
        for record in records[:next(index for index, record in enumerate(records) if record.kind == "ftruncate") + 1]:
            disk.call(record)
        return disk.left(lambda pages: [True] * pages, len(disk.disk), is_cut=False)

    def test_data_that_imitates_a_head(self) -> None:
        """A file's data begins as the head of a group that lacks a mark, and goes where the head of the group before it was. Nothing that was
        answered is cut off, though a power loss may leave the length with that head."""
        first: list[Item] = [Request("create", 1, 1, "/zeros", bytes(3 * BLOCK)), Request("create", 1, 2, "/a", b"first")]
        before, _, _ = self.run_of(filled(first))
        made = self.path("d.img").read_bytes()
        begin, end = len(before) // BLOCK, len(made) // BLOCK
        zeros = next(at for at in range(begin, end) if made[at * BLOCK:(at + 1) * BLOCK] == bytes(BLOCK))
        like = head_of(begin, end, [zeros, end - 1])
        self.assertEqual(len(counted(made + like)), len(before))
        items = [*filled(first), Request("create", 2, 1, "/like", like + data_of(5000)), Request("mkdir", 2, 2, "/d")]
        before, records, answers = self.run_of(items)
        self.prepared(items, self.path("d.img").read_bytes())
        for page in (4096, 2048):
            self.all_looked_at(self.lose(before, records, answers, page, 0.5))
        self.counted(50)

    def test_a_sync_that_lies_is_seen(self) -> None:
        """Without the first sync of a group there are losses that no image of it may show."""
        before, records, answers = self.run_of(THREE, "fsync:4:L")
        self.prepared(THREE, self.path("d.img").read_bytes())
        with self.assertRaises(AssertionError):
            for left in self.lose(before, records, answers, 4096, 0.0):
                self.looked_at(left)


# Groups of up to 64 small files, in five pieces of the input.
MANY: list[Item] = [Request("create", 1 + number % 2, 1 + number // 2, "/%d" % number, data_of(7 * number % 1300)) for number in range(400)]
KILLS = 30


class Kills(Cut):
    def killed(self, rules: str, seconds: Optional[float]) -> tuple[int, list[Answer]]:
        """Kills a run so many seconds after its begin, if the rules do not: its status, and what it had answered whole."""
        with tempfile.TemporaryFile(dir=built().room) as given:
            given.write(stream_of(MANY))
            given.seek(0)
            process = subprocess.Popen([built().apply_groups, "d.img"], stdin=given, stdout=subprocess.PIPE, cwd=self.folder,
                                       env=environment("d.img", None, rules))
        if seconds is not None:
            time.sleep(seconds)
            process.kill()
        output, _ = process.communicate()
        return process.returncode, split_answers(output)[0]

    def test_at_random(self) -> None:
        """The files are there that were answered, in the order of the stream, and the same stream brings all of them."""
        chance, killed, unanswered = random.Random(SEED), 0, 0
        before, records, wanted = self.run_of(MANY, capacity=9000)
        self.prepared(MANY, self.path("d.img").read_bytes())
        writes = sum(record.kind == "pwrite" for record in records)
        for number in range(KILLS):
            # Mostly at a sync, mostly at a write, and within a write.
            rules, seconds = (("fsync:*:D20", 0.4), ("pwrite:*:D1", 1.3), ("pwrite:%d:P1000K" % chance.randint(1, writes), 0.0))[number % 3]
            self.path("d.img").write_bytes(before)
            status, answers = self.killed(rules, chance.uniform(0.0, seconds) if seconds else None)
            with self.subTest(number=number, rules=rules, answered=len(answers)):
                self.assertIn(status, (0, KILLED))
                self.assertEqual(differing(answers, wanted[:len(answers)]), [])
                content = self.path("d.img").read_bytes()
                commits, has_hole = self.state_in(content)
                self.assertFalse(has_hole)
                self.looked_at(Left("kill %d" % number, content, len(answers)))
            killed += status == KILLED
            unanswered += len(answers) < commits
        print("groups: %d kills, %d of them with commits that were not answered" % (killed, unanswered))
        self.assertGreater(killed, 20)
        self.assertGreater(unanswered, 0)
