"""What counts of an image that ends with a head, or with what imitates one; and what who reads meanwhile sees of a group.

Images of volumes do not end so but after a power loss: their blocks are whole. One that is damaged or forged may.
"""
from __future__ import annotations

import signal
from typing import Iterator, Sequence

from faults.groups import Grouped, Item, Told, filled, marks_of, need_groups, replayed, stream_of
from faults.heads import HEAD_BYTES, HEAD_MAGIC, counted, head_of, with_sum
from faults.log import read_log
from faults.programs import built
from protocol import BLOCK, DAMAGED, Answer, Directory, File, Model, Request, answers_of, names_of, paths_of, questions

# Two groups of two and three commits. The first has a file whose bytes are zeros.
ITEMS: list[Item] = [
    *filled([Request("create", 1, 1, "/zeros", bytes(3 * BLOCK)), Request("mkdir", 1, 2, "/d")]),
    *filled([
        Request("create", 1, 3, "/d/a", b"third"),
        Request("create", 1, 4, "/d/b", bytes(range(256)) * 20),
        Request("rename", 1, 5, "/d/a", to="/a"),
    ]),
]
REQUESTS = [item for item in ITEMS if isinstance(item, Request)]
PATHS = paths_of(REQUESTS)


def setUpModule() -> None:  # noqa: N802
    need_groups()


def state(commits: int) -> Model:
    """The volume after the first commits."""
    model = Model()
    for request in REQUESTS[:commits]:
        model.answer(request)
    return model


class Heads(Grouped):
    def setUp(self) -> None:
        super().setUp()
        self.begun = self.fresh().read_bytes()
        ran = self.groups(stream_of(ITEMS))
        self.assertEqual(replayed(ITEMS, answers_of(ran.output))[1], [])
        self.final = self.path("d.img").read_bytes()
        self.marks = marks_of(self.final, 0)[1:]
        self.assertEqual(len(self.marks), 5)
        # Where the second group begins, and where it ends.
        self.begin, self.end = self.marks[1] + 1, len(self.final) // BLOCK
        # The image with zeros in the place of the fourth mark.
        self.lacking = self.with_block(self.marks[3], bytes(BLOCK))
        self.head = head_of(self.begin, self.end, self.marks[2:])

    def with_block(self, at: int, block: bytes) -> bytes:
        return self.final[:at * BLOCK] + block + self.final[(at + 1) * BLOCK:]

    def counts(self, image: bytes, blocks: int, commits: int) -> None:
        """So many blocks count of an image, which have so many commits. The file is cut back to these, or left as it is if all count."""
        self.path("d.img").write_bytes(image)
        ran = self.groups(questions(PATHS))
        self.assertEqual((ran.status, ran.errors), (0, b""))
        self.assertTrue(answers_of(ran.output) == state(commits).told(PATHS), "this is another state")
        kept = image if blocks == len(image) // BLOCK else image[:blocks * BLOCK]
        self.assertTrue(self.path("d.img").read_bytes() == kept, "the file has other bytes")

    def all_count(self, tail: bytes) -> None:
        """With this tail all blocks count, though a mark is missing."""
        self.counts(self.lacking + tail, len(self.lacking + tail) // BLOCK, 5)

    def test_a_head(self) -> None:
        """The group counts as a whole, or not at all."""
        self.counts(self.final + self.head, self.end, 5)
        for missing in ([0], [1], [2], [0, 1], [0, 1, 2]):
            image = self.final
            for place in missing:
                at = self.marks[2 + place]
                image = image[:at * BLOCK] + bytes(BLOCK) + image[(at + 1) * BLOCK:]
            with self.subTest(missing=missing):
                self.counts(image + self.head, self.begin, 2)
                self.assertEqual(self.sound(), 2)

    def test_a_call_that_fails_in_an_opening(self) -> None:
        """An image whose marks cannot be zeroed, or whose blocks cannot be cut off, is refused, or every question gets answer 36. Once no
        call fails the group is left out."""
        image = self.lacking + self.head
        self.path("d.img").write_bytes(image)
        self.apply(questions(PATHS), log=self.new_log())
        calls = [record.kind for record in read_log(self.log_path())]
        for kind, least in (("pwrite", 2), ("fsync", 3), ("ftruncate", 1)):
            self.assertGreaterEqual(calls.count(kind), least)
            for number in range(1, calls.count(kind) + 1):
                with self.subTest(kind=kind, number=number):
                    self.path("d.img").write_bytes(image)
                    ran = self.apply(questions(PATHS), rules="%s:%d:E5" % (kind, number))
                    self.assertIn((ran.status, ran.errors), ((0, b""), (1, b"udfburn: 64 Device\n")))
                    wanted = state(2).told(PATHS)
                    for answer, right in zip(answers_of(ran.output), wanted):
                        self.assertIn(answer, (right, Answer(36)))
                    self.assertEqual(len(answers_of(ran.output)), len(wanted) if ran.status == 0 else 0)
                    self.apply(questions(PATHS))
                    self.assertTrue(self.path("d.img").read_bytes() == image[:self.begin * BLOCK])
                    self.assertEqual(self.sound(), 2)

    def test_each_byte(self) -> None:
        """A head in which one byte is another is none."""
        for place in range(HEAD_BYTES):
            wrong = bytearray(self.head)
            wrong[place] ^= 1 << place % 8
            with self.subTest(place=place):
                self.all_count(bytes(wrong))

    def test_what_is_no_head(self) -> None:
        """Its sum is right, and it says what no head does; or the bytes are not where a head is."""
        told = self.head[:-4]
        for how, tail in (
            ("it begins as another", with_sum(b"UDFGROUp" + told[8:])),
            ("the lowest byte is last", with_sum(told)[:-4] + with_sum(told)[:-5:-1]),
            ("it begins after the end", head_of(self.end + 1, self.end, [])),
            ("it begins far after the end", head_of((1 << 32) - 1, self.end, [])),
            ("a mark is far after the end", head_of(self.begin, self.end, [self.marks[3], (1 << 32) - 1])),
            ("marks in another order", head_of(self.begin, self.end, self.marks[4:1:-1])),
            ("a mark twice", head_of(self.begin, self.end, [self.marks[3], *self.marks[3:]])),
            ("the last block is no mark", head_of(self.begin, self.end, self.marks[2:4])),
            ("a mark is before the group", head_of(self.begin, self.end, self.marks[1:])),
            ("no mark", head_of(self.begin, self.end, [])),
            ("no block is before it", head_of(0, self.end, self.marks[2:])),
            ("2^32 - 1 marks", with_sum(told[:16] + b"\xff" * 4 + told[20:])),
            ("all numbers are 2^32 - 1", with_sum(HEAD_MAGIC + b"\xff" * 268)),
            ("zeros are before it", bytes(HEAD_BYTES) + self.head),
            ("it is there twice", self.head + self.head),
            ("zeros are after it", self.head + bytes(1000)),
            ("a block begins with it", self.head.ljust(BLOCK, b"\0")),
            ("it is after a block", bytes(BLOCK) + self.head),
        ):
            with self.subTest(how):
                self.all_count(tail)

    def test_a_head_without_what_is_missing(self) -> None:
        """A head that names no place of zeros cuts nothing, whatever is missing elsewhere."""
        for how, tail in (
            ("no block and no mark", head_of(self.end, self.end, [])),
            ("another mark", head_of(self.begin, self.end, [self.marks[2], self.marks[4]])),
            ("a block that is no mark", head_of(self.begin, self.end, [self.begin, self.marks[4]])),
        ):
            with self.subTest(how):
                self.all_count(tail)

    def test_a_mark_that_is_damaged(self) -> None:
        """A mark is missing if its place is zeros. One of whose bytes any is there counts as there, as damage of a group that was settled."""
        for block in (b"\1" + bytes(BLOCK - 1), bytes(BLOCK - 1) + b"\1"):
            with self.subTest(first=block[0]):
                self.counts(self.with_block(self.marks[3], block) + self.head, self.end, 5)

    def test_a_forged_head(self) -> None:
        """What has the form of a head and names a place of zeros is believed, so a forger can hide what an image has, as by cutting it."""
        formatted = len(self.begun) // BLOCK
        zeros = next(at for at in range(formatted, self.end) if not any(self.final[at * BLOCK:(at + 1) * BLOCK]))
        for how, tail, blocks, commits in (
            ("it begins within a commit", head_of(self.marks[2] - 1, self.end, self.marks[3:]), self.marks[2] - 1, 2),
            ("it begins with the mark", head_of(self.marks[3], self.end, self.marks[3:]), self.marks[3], 3),
        ):
            with self.subTest(how):
                self.counts(self.lacking + tail, blocks, commits)
        with self.subTest("the zeros are a file's"):
            self.counts(self.final + head_of(formatted, self.end, [zeros, self.end - 1]), formatted, 0)
        for begin, marks in ((1, [zeros, self.end - 1]), (self.end - 64, list(range(self.end - 64, self.end)))):
            with self.subTest("it begins within the format", begin=begin):
                self.path("d.img").write_bytes(self.lacking + head_of(begin, self.end, marks))
                ran = self.groups(questions(PATHS))
                self.assertEqual(set(answers_of(ran.output)), {Answer(DAMAGED)})
                self.assertTrue(self.path("d.img").read_bytes() == self.final[:begin * BLOCK])


class Live(Grouped):
    """Who reads while a group is under way."""

    def calls(self, answers: Sequence[Answer]) -> Iterator[tuple[str, int]]:
        """Each call of a run that changes the file, and each answer; with the latest commit that was answered before."""
        numbers: dict[str, int] = {}
        told, output = Told.of(answers), 0
        for record in read_log(self.log_path()):
            numbers[record.kind] = numbers.get(record.kind, 0) + 1
            if record.kind in ("pwrite", "fsync", "ftruncate", "stdout"):
                yield "%s:%d:H" % (record.kind, numbers[record.kind]), told.promised(output)
            output += len(record.data) if record.kind == "stdout" else 0

    def test_each_call(self) -> None:
        """Before each call the image is a state of the run, not before what was answered, for who only reads it and for who opens a copy of it
        as a writer. Nobody counts anything of a group that is not settled."""
        before = self.fresh().read_bytes()
        answers = answers_of(self.groups(stream_of(ITEMS), log=self.new_log()).output)
        final = self.path("d.img").read_bytes()
        self.marks = marks_of(final, 0)
        seen: set[int] = set()
        for rule, acknowledged in list(self.calls(answers)):
            with self.subTest(rule):
                self.path("d.img").write_bytes(before)
                process = self.stopped([built().apply_groups, "d.img"], stream_of(ITEMS), "d.img", rule)
                try:
                    seen.add(self.looked_at(self.path("d.img").read_bytes(), acknowledged))
                finally:
                    process.send_signal(signal.SIGCONT)
                    process.communicate()
                self.assertTrue(process.returncode == 0 and self.path("d.img").read_bytes() == final)
        self.assertEqual(seen, {0, 2, 5})

    def looked_at(self, content: bytes, acknowledged: int) -> int:
        """How many commits the image shows, which has this content."""
        kept = counted(content)
        shown = self.shown("d.img", kept)
        self.assertTrue(acknowledged <= shown and shown in (0, 2, 5), (acknowledged, shown))
        self.assertTrue(self.path("d.img").read_bytes() == content)
        self.path("copy.img").write_bytes(content)
        ran = self.groups(questions(PATHS), "copy.img")
        self.assertEqual(answers_of(ran.output), state(shown).told(PATHS))
        self.assertTrue(self.path("copy.img").read_bytes() == kept)
        self.assertEqual(self.shown("copy.img", kept), shown)
        return shown

    def shown(self, image: str, kept: bytes) -> int:
        """How many commits an image shows to who only reads it, of which these blocks count: `log`, `ls`, `get` and `check` tell the state of
        the last."""
        marks = marks_of(kept, 0)
        commits = len(marks) - 1
        self.assertEqual(marks, self.marks[:commits + 1])
        lines = self.udfburn("log", image).output.decode().splitlines()
        self.assertEqual([line.split()[:2] for line in lines], [[str(number), str(at)] for number, at in reversed(list(enumerate(marks)))])
        tree = state(commits).tree
        for path in PATHS:
            node = tree.at(names_of(path))
            got, listed = self.udfburn("get", image, path), self.udfburn("ls", image, path)
            self.assertEqual((got.status == 0, got.output), (True, node.data) if isinstance(node, File) else (False, b""))
            names = node.names if isinstance(node, Directory) else {}
            lines = ["%s %s\n" % ("d" if isinstance(child, Directory) else "f", name) for name, child in names.items()]
            self.assertEqual((listed.status == 0, listed.output.decode()), (isinstance(node, Directory), "".join(lines)))
        self.assertEqual(self.sound(image), commits)
        return commits
