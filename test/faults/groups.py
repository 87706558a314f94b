"""Streams that are answered in groups: what comes into each group, and what the log of calls must show of it.

A group is what is complete in a piece of the input, up to 64 commits or 64 KiB of answers. The last block of each commit is a mark. All
other blocks of a group go to the file, where the marks' places are zeros, then its head goes after them, and both are synced. Then the
marks go there, and are synced, and the head is cut off, which is not synced. Only then is the group answered.
"""
from __future__ import annotations

from typing import Any, NamedTuple, Optional, Sequence, Union

from faults.calls import Discipline, is_entry
from faults.case import Case, need_shim
from faults.heads import head_of
from faults.log import Record, read_log
from faults.machine import leave_out
from faults.pages import Disk
from faults.programs import built
from faults.running import Ran
from protocol import BLOCK, FAULT, MALFORMED, Answer, Model, Request, encode, frame

# So many bytes of the input are read at once.
INPUT_BYTES = 65_536
# A group ends after so many commits, or so many bytes of answers.
GROUP_COMMITS = 64
GROUP_BYTES = 65_536

# A request, or the frame of something else.
Item = Union[Request, bytes]


def need_groups() -> None:
    """Leaves a module out where the program that answers in groups was not given."""
    if not built().apply_groups:
        leave_out("APPLY_GROUPS names no program that answers in groups")


def framed(item: Item) -> bytes:
    return item if isinstance(item, bytes) else encode(item)


def stream_of(items: Sequence[Item]) -> bytes:
    return b"".join(map(framed, items))


def filled(items: Sequence[Item]) -> list[Item]:
    """These items, and after them a frame that is no message and ends with a piece of the input."""
    left = -len(stream_of(items)) % INPUT_BYTES
    if left < 5:
        left += INPUT_BYTES
    return [*items, frame(bytes(left - 4))]


def grouped(items: Sequence[Item], answers: Sequence[Answer], begin: int = 0) -> list[list[int]]:
    """The groups of a stream on a volume with `begin` commits, each as the numbers of its commits."""
    groups: list[list[int]] = []
    latest, read, said, piece, is_full = begin, 0, 0, -1, True
    for item, answer in zip(items, answers):
        read += len(framed(item))
        before, piece = piece, (read - 1) // INPUT_BYTES
        if is_full or piece != before:
            groups.append([])
            said = 0
        if answer.is_commit and answer.commit > latest:
            latest = answer.commit
            groups[-1].append(latest)
        said += len(answer.framed())
        is_full = len(groups[-1]) >= GROUP_COMMITS or said >= GROUP_BYTES
    return groups


def replayed(items: Sequence[Item], answers: Sequence[Answer], begin: Optional[Model] = None) -> tuple[Model, list[str]]:
    """The volume that these answers tell, where a request with answer 36 was not carried out, and the answers that are wrong."""
    model, wrong = begin.copy() if begin else Model(), []
    if len(items) != len(answers):
        wrong.append("%d answers in place of %d" % (len(answers), len(items)))
    for index, (item, answer) in enumerate(zip(items, answers)):
        if isinstance(item, Request) and answer.code not in (FAULT, MALFORMED):
            wanted = model.answer(item)
            if answer != wanted:
                wrong.append("answer %d: %r in place of %r" % (index, answer, wanted))
    return model, wrong


def marks_of(image: bytes, begin: int) -> list[int]:
    """The addresses of the marks in an image, from a length on."""
    return [at for at in range(begin // BLOCK, len(image) // BLOCK) if is_entry(image[at * BLOCK:(at + 1) * BLOCK], at)]


def commits_of(image: bytes) -> int:
    """How many commits an image has in all: a format ends with a mark too."""
    return len(marks_of(image, 0)) - 1


def is_head(part: bytes, image: bytes, end: int) -> bool:
    """Whether this is the head of a group that ends before the block `end`, with all marks that the image has in the group."""
    begin = int.from_bytes(part[8:12], "little")
    return part == head_of(begin, end, marks_of(image[:end * BLOCK], begin * BLOCK))


class Told(NamedTuple):
    """The answers of a run, and the byte of its output with which each begins."""

    answers: Sequence[Answer]
    starts: Sequence[int]

    @staticmethod
    def of(answers: Sequence[Answer]) -> Told:
        starts, at = [], 0
        for answer in answers:
            starts.append(at)
            at += len(answer.framed())
        return Told(answers, starts)

    def promised(self, written: int) -> int:
        """The latest commit that the first bytes of the output tell of, be it by one byte of its answer."""
        return max((answer.commit for answer, start in zip(self.answers, self.starts) if start < written and answer.is_commit), default=0)


def running(records: Sequence[Record]) -> Sequence[Record]:
    """The calls of a run after its opening: from the first look at its input on."""
    return records[next((index for index, record in enumerate(records) if record.kind == "stdin"), len(records)):]


def has_kept(disk: Disk, final: bytes) -> bool:
    """Whether the disk has the blocks of the file, which are the first of `final`, whatever a power loss leaves of what is not synced.
    Behind them may be the head of a group that has all its marks."""
    end = len(disk.cache) // BLOCK
    blocks = end * BLOCK
    for content in (bytes(disk.cache), bytes(disk.disk)):
        if content[:blocks] != final[:blocks] or content[blocks:] and not is_head(content[blocks:], final, end):
            return False
    for number, versions in disk.dirty.items():
        start = number * disk.page
        if any(held[:max(0, blocks - start)] != final[start:min(blocks, start + disk.page)] for held in versions):
            return False
    return disk.cut in (None, blocks)


def not_kept(before: bytes, records: Sequence[Record], final: bytes, answers: Sequence[Answer]) -> list[str]:
    """What was answered in a run and was not on the disk then, if a failed sync keeps nothing."""
    told, disk, output, faults = Told.of(answers), Disk(before, 4096), 0, []
    for index, record in enumerate(records):
        disk.call(record)
        if record.kind != "stdout":
            continue
        output += len(record.data)
        if not has_kept(disk, final):
            faults.append("record %d: an answer, and the disk has something else" % index)
        if told.promised(output) > commits_of(bytes(disk.disk)):
            faults.append("record %d: an answer, and the disk does not have its commit" % index)
    if not has_kept(disk, final) or len(disk.cache) // BLOCK * BLOCK != len(final):
        faults.append("in the end the disk has something else")
    return faults


class Run(NamedTuple):
    """A stream on a volume, in groups: the image before and after it, its answers, and the calls."""

    before: bytes
    final: bytes
    answers: list[Answer]
    records: list[Record]


class Grouped(Case):
    """Tests of the program that answers in groups."""

    def setUp(self) -> None:
        super().setUp()
        need_shim()

    def groups(self, frames: bytes, image: str = "d.img", **others: Any) -> Ran:
        """Answers a stream in groups."""
        return self.program([built().apply_groups, image], stdin=frames, image=image, **others)

    def followed(self, run: Run) -> Discipline:
        return Discipline(len(run.before), self.folder, commits=commits_of(run.before)).follow(read_log(self.log_path()))

    def right(self, run: Run) -> Discipline:
        """The order of calls was as it must be, and what was written is all that the image has after what it had before."""
        followed, begin, final = self.followed(run), len(run.before), run.final
        self.assertEqual(followed.faults, [])
        self.assertTrue(followed.content[begin:] == final[begin:], "the image is not what was written")
        self.assertEqual(followed.group_syncs, 2 * len(followed.groups))
        return followed
