"""What the log of calls must show, over all processes as one: nothing is answered before it is on the disk.

The rules are those of docs/OPERATIONS.md. An image is synced, and the system made to forget what it keeps of it, before it is read for
writing, and its folder is synced before an answer. Commits go out in groups. In the first phase all blocks of a group go out but its VAT
ICBs, which are its marks, and then its head, or if it has one mark, the file gets a place for it. A sync ends that. In the second phase
the marks go out, each alone, and a second sync ends that. Then the head is cut off, and the group is answered. After a failed call the
group is taken back: the disk gets zeros for marks that went out, and the file is cut back to where the group began, and synced, before
anything else. What came with it is then done one by one: the blocks of a commit, a sync, its mark, and a sync. So is a format.
"""
from __future__ import annotations

import os
from pathlib import Path
from typing import Optional, Sequence, Union

from faults.heads import HEAD_BYTES, HEAD_MAGIC, MOST_MARKS, is_blank, told_by_head
from faults.log import Record
from protocol import BLOCK, Answer, split_answers


EINTR = 4


def is_entry(block: bytes, at: int) -> bool:
    """Whether this is a VAT ICB that is at this address (docs/FORMAT.md): its tag, its place and its file type."""
    return (len(block) == BLOCK and block[:2] == b"\x05\x01" and block[27] == 248
            and int.from_bytes(block[12:16], "little") == at - 257)


# Answers that report a commit, which must be on the disk: committed ones, and what a query shows of the tree.
TELLING = set(range(11)) | {64, 65, 66, 96, 97, 98, 32, 33}


def told_by(records: Sequence[Record], daemon: bool) -> list[tuple[int, Answer]]:
    """The answers that went out, each with the index of the record in which its last byte did."""
    kind = "send" if daemon else "stdout"
    found: list[tuple[int, Answer]] = []
    waiting: dict[int, bytes] = {}
    for index, record in enumerate(records):
        if record.kind == kind and record.data:
            answers, rest = split_answers(waiting.get(record.process, b"") + record.data)
            waiting[record.process] = rest
            found += [(index, answer) for answer in answers]
    return found


class Group:
    """What a group has so far, that begins at a length of the file. Blocks have their addresses."""

    def __init__(self, begin: int) -> None:
        self.begin = begin
        # What was written in the first phase, and where it ends.
        self.blocks: set[int] = set()
        self.reached = begin
        # Whether the first phase is synced.
        self.is_second = False
        # Where the head lies. Without one, the place of the only mark.
        self.head: Optional[int] = None
        self.place: Optional[int] = None
        # Where marks belong, where some bytes of one were written, and where one is whole.
        self.wanted: list[int] = []
        self.touched: set[int] = set()
        self.marks: set[int] = set()

    def is_begun(self) -> bool:
        return self.reached > self.begin or self.is_second or self.head is not None or self.place is not None


class Discipline:
    """Follows the log, and keeps what is wrong in it as `faults`."""

    def __init__(self, length: int, folder: Union[str, Path] = ".", folder_synced: bool = True, is_format: bool = False,
                 commits: Optional[int] = None) -> None:
        # How many commits the file has, where that is known and no call fails.
        self.commits = commits
        # The file as far as it was written since; before that it counts as zeros. And its blocks that are not synced.
        self.content = bytearray(length)
        self.dirty: set[int] = set()
        # Whether its length is not synced, as after a cut. That a settled group's head is cut off need not be.
        self.is_cut_short = False
        self.folder = os.path.realpath(folder)
        self.folder_synced = folder_synced
        # A format may fill what it finds, so it has no length that must stay.
        self.is_format = is_format
        # The group under way, the marks of the last one that was settled, and where that began.
        self.group = Group(length)
        self.latest: list[int] = []
        self.before = length
        # Whether the last group's head must be cut off, and whether the disk knows of the last such cut.
        self.owes_head, self.knows_cut = False, True
        # To what the file must be cut back, whether it is to less than it was cut to, and whether all of a group is taken back.
        self.must_cut: Optional[int] = None
        self.cut_to: Optional[int] = None
        self.is_taken_back = False
        # Whether the cut is that of an opening, which may read before it.
        self.is_opening = False
        # A call failed after the last sync, and what came of that counts as a failure of what was synced.
        self.may_cut = False
        # The file was cut where no block is lost, and the disk must know before a block goes there.
        self.is_waiting = False
        # What came with what failed may be done one by one, or must be.
        self.may_be_alone = self.must_be_alone = False
        self.process = -1
        self.is_read_synced = False
        self.is_forgotten = False
        self.is_locked = False
        self.opened_folders: dict[int, str] = {}
        self.faults: list[str] = []
        # What is acknowledged ends here. Nothing is written over it, and no cut takes it away.
        self.acknowledged = 0 if is_format else length
        self.entry_end = 0
        # What a test may count, so that it cannot pass by seeing nothing: answers, marks, the syncs of groups and of cuts without a failure,
        # and the groups.
        self.answers = 0
        self.seen_entries = 0
        self.group_syncs = self.waits = 0
        self.groups: list[list[int]] = []

    @property
    def length(self) -> int:
        return len(self.content)

    def wrong(self, index: int, what: str) -> None:
        """The first of each kind is enough to know."""
        if not any(fault.endswith(": " + what) for fault in self.faults):
            self.faults.append("record %d: %s" % (index, what))

    def follow(self, records: Sequence[Record], daemon: bool = False) -> Discipline:
        out = "send" if daemon else "stdout"
        said: dict[int, bytes] = {}
        for index, record in enumerate(records):
            if record.process != self.process:
                self.begin(record.process)
            if record.kind == out:
                said[record.process] = said.get(record.process, b"") + record.data
                self.answered(index, record, said)
            else:
                self.called(index, record)
        return self

    def begin(self, process: int) -> None:
        """Another process knows nothing of the one before it, and of a failure that it saw."""
        self.process = process
        self.is_read_synced = self.is_forgotten = self.is_locked = False
        self.must_cut = self.cut_to = None
        self.owes_head = self.may_cut = self.is_waiting = self.is_opening = self.may_be_alone = self.must_be_alone = False
        self.group = Group(self.length // BLOCK * BLOCK)
        self.before = self.group.begin
        self.opened_folders = {}

    def called(self, index: int, record: Record) -> None:
        kind, failed = record.kind, record.error != 0
        self.entered(index, record)
        if kind in ("stdin", "recv"):
            self.may_be_alone = self.must_be_alone = False
        if kind == "pread":
            self.read(index, record)
        if kind == "pwrite":
            self.wrote(index, record)
        if kind == "ftruncate":
            self.cut(index, record)
        if kind == "fsync":
            self.synced(index, record.error)
        if kind == "fstat" and failed:
            # The file was looked at after a write, and what came of that counts as a failure of the write. Or its head cannot be cut off.
            self.may_cut = True
            self.owes_head = False
        if failed and record.error != EINTR:
            self.may_be_alone = True

    def entered(self, index: int, record: Record) -> None:
        """What comes before an image is read and written: its lock, its folder, and what the system keeps of it."""
        kind, failed = record.kind, record.error != 0
        if kind == "open" and record.offset & os.O_CREAT and record.result >= 0:
            if not record.offset & os.O_EXCL:
                self.wrong(index, "an image is made without O_EXCL")
        if kind == "folderopen":
            self.opened_folders[record.descriptor] = os.path.realpath(os.path.join(self.folder, record.data.decode()))
        if kind == "foldersync" and not failed and self.opened_folders.get(record.descriptor) == self.folder:
            self.folder_synced = True
        if kind == "flock" and not failed:
            self.is_locked = True
        if kind in ("pread", "pwrite", "ftruncate", "fsync", "fadvise") and not self.is_locked:
            self.wrong(index, "%s without the lock" % kind)
        if kind == "fadvise" and not failed and (record.offset, record.length, record.result) == (0, 0, os.POSIX_FADV_DONTNEED):
            # What is not synced is kept.
            self.is_forgotten = self.is_read_synced

    def read(self, index: int, record: Record) -> None:
        """A mark whose write failed is looked at: what did not come to the file needs no zeros."""
        if not self.is_read_synced:
            self.wrong(index, "the file is read before it was synced")
        elif not self.is_forgotten:
            self.wrong(index, "the file is read from what the system kept of it")
        is_mark = record.length == BLOCK and record.offset // BLOCK in self.group.wanted
        if self.must_cut is not None and not self.is_opening and not is_mark:
            self.wrong(index, "a read after a failure, before the file was cut back and synced")

    def fails(self) -> None:
        """What is not settled must be taken back."""
        if self.must_cut is None:
            self.must_cut = self.group.begin if self.group.is_begun() or not self.may_cut else self.before
            self.is_taken_back = not (self.is_format or self.must_be_alone) or bool(self.group.wanted)
            self.may_be_alone = self.must_be_alone = True
        self.cut_to = None

    def is_grouped(self) -> bool:
        """Whether commits go out in groups now, as far as was seen."""
        group = self.group
        return not self.is_format and not self.must_be_alone and (
            not self.may_be_alone or group.is_second or group.head is not None or group.place is not None)

    def blanks(self, record: Record) -> bool:
        """Whether a write gives zeros to a place of a mark that is taken back."""
        if self.must_cut is None and self.may_cut and not self.group.is_begun():
            self.group.wanted = self.latest
        at = record.offset // BLOCK
        return at in self.group.wanted and record.offset + record.length <= (at + 1) * BLOCK and not any(record.data)

    def wrote(self, index: int, record: Record) -> None:
        done = max(record.result, 0)
        if record.offset < self.acknowledged and done:
            self.wrong(index, "a write over what is acknowledged")
        if (self.must_cut is not None or self.may_cut) and self.blanks(record):
            self.fails()
            self.group.touched |= set(self.group.wanted)
            self.put(record, done)
        else:
            if self.must_cut is not None:
                self.wrong(index, "a write after a failure, before the file was cut back and synced")
            if not self.is_read_synced and not self.is_format:
                self.wrong(index, "a write before the file was synced")
            if self.is_waiting:
                self.wrong(index, "a write before the disk knows of the cut before it")
            if done:
                self.may_cut = False
            self.gave(index, record, done)
        if record.error not in (0, EINTR) or (not record.error and not done):
            self.fails()

    def put(self, record: Record, done: int) -> set[int]:
        """Writes these bytes, and gives the blocks that they are in."""
        if not done:
            return set()
        end = record.offset + done
        self.content.extend(bytes(max(0, end - self.length)))
        self.content[record.offset:end] = record.data[:done]
        numbers = set(range(record.offset // BLOCK, -(-end // BLOCK)))
        self.dirty |= numbers
        return numbers

    def gave(self, index: int, record: Record, done: int) -> None:
        group, asked = self.group, record.offset + record.length
        if asked % BLOCK == HEAD_BYTES and not self.is_format:
            self.headed(index, record)
        elif asked % BLOCK:
            self.wrong(index, "a write ends within a block")
        if record.offset == group.begin and not self.knows_cut and record.data.startswith(HEAD_MAGIC):
            self.wrong(index, "a block that begins as a head goes where one may be")
        unsynced = set(self.dirty)
        numbers = self.put(record, done)
        if group.is_second:
            if not (len(numbers) < 2 and record.length <= BLOCK and numbers <= set(group.wanted)):
                self.wrong(index, "what is no mark of the group goes out after the first sync")
            group.touched |= numbers
        elif record.offset < group.reached:
            self.wrong(index, "a block is written twice")
        elif group.head is None:
            group.blocks |= numbers
            group.reached = max(group.reached, record.offset + done)
        for at in sorted(numbers):
            if is_entry(self.content[at * BLOCK:(at + 1) * BLOCK], at):
                self.entry(index, record, at, unsynced)

    def entry(self, index: int, record: Record, at: int, unsynced: set[int]) -> None:
        """A VAT ICB is the one block of its write, and of what is not synced then all are marks of its group."""
        group = self.group
        self.seen_entries += 1
        self.entry_end = (at + 1) * BLOCK
        group.marks.add(at)
        if record.length > BLOCK:
            self.wrong(index, "a table's entry goes out in a write of %d bytes" % record.length)
        if unsynced - {at} - set(group.wanted):
            self.wrong(index, "a table's entry goes out before all else was synced")
        elif not group.is_second and not self.is_format and not self.may_be_alone:
            self.wrong(index, "a table's entry goes out before its group")

    def headed(self, index: int, record: Record) -> None:
        """The head is the last write of the first phase."""
        group = self.group
        at = record.offset + record.length - HEAD_BYTES
        if group.is_second or group.head not in (None, at) or group.place is not None:
            self.wrong(index, "a head goes out late or twice")
        if self.must_be_alone:
            self.wrong(index, "a head goes out after a group that was taken back")
        group.head = at

    def cut(self, index: int, record: Record) -> None:
        to, group = record.offset, self.group
        if not self.is_read_synced and to == self.length:
            # A file that came by its descriptor is set to the length that it has, which shows that it can be written.
            return
        if to < self.acknowledged:
            self.wrong(index, "a cut takes away what is acknowledged")
        if self.must_cut is None and self.owes_head and to == group.begin:
            # What fails here leaves a head that does no harm.
            self.owes_head, self.knows_cut = False, False
        elif self.must_cut is None and group.is_begun() and not group.is_second and group.head is None and to == self.length + BLOCK:
            group.place = to // BLOCK - 1
            if record.error:
                self.fails()
        elif self.must_cut is None and not group.is_begun() and to == group.begin and (to < self.length or not self.knows_cut):
            self.is_waiting = True
            self.is_cut_short = True
            if record.error:
                self.fails()
        else:
            self.cut_back(index, record)
        if record.result == 0:
            self.dirty = {at for at in self.dirty if at * BLOCK < to}
            del self.content[to:]
            self.content.extend(bytes(to - self.length))

    def cut_back(self, index: int, record: Record) -> None:
        to, group = record.offset, self.group
        if self.must_cut is None and self.may_cut:
            self.fails()
        if self.must_cut is None:
            self.wrong(index, "a truncation without a failure before it")
            return
        # What a failed write left goes first, and then the rest of its group.
        is_on_the_way = self.is_taken_back and self.must_cut < to <= self.length and to % BLOCK == 0
        if to != self.must_cut and not is_on_the_way:
            self.wrong(index, "cut to %d in place of %d" % (to, self.must_cut))
        if self.is_taken_back and group.touched:
            self.wrong(index, "a cut before the disk has zeros in place of marks")
        self.is_cut_short = True
        if not record.error:
            self.cut_to = to

    def synced(self, index: int, error: int) -> None:
        if error == EINTR:
            return
        if error:
            if self.is_read_synced:
                self.fails()
            return
        unsynced, self.dirty = self.dirty or self.is_cut_short, set()
        self.is_cut_short = False
        self.knows_cut = True
        self.entry_end = min(self.entry_end, self.length)
        if not self.is_read_synced:
            self.opened()
        elif self.must_cut is not None:
            self.mended(index)
        elif self.is_waiting:
            self.is_waiting = False
            self.waits += 1
        elif not unsynced and not self.is_format:
            self.wrong(index, "a sync of nothing")
        elif not self.is_grouped():
            self.before = self.group.begin
            self.group = Group(self.length // BLOCK * BLOCK)
        elif self.group.is_second:
            self.settled(index)
        else:
            self.begun(index)

    def opened(self) -> None:
        """An opening has synced the file. If that ends with the head of a group that lacks a mark, all of the group is taken back."""
        self.is_read_synced = True
        end = self.length // BLOCK
        self.group = Group(end * BLOCK)
        self.before = end * BLOCK
        begin, marks = told_by_head(bytes(self.content[end * BLOCK:]), end)
        if any(is_blank(self.content, at) for at in marks):
            self.group = Group(begin * BLOCK)
            self.group.wanted, self.group.touched = marks, set(marks)
            self.must_cut, self.is_taken_back, self.is_opening = begin * BLOCK, True, True

    def mended(self, index: int) -> None:
        """A sync after a failure: of the zeros in place of marks, and then of the cut."""
        group = self.group
        if self.cut_to is None:
            if not group.wanted or not all(is_blank(self.content, at) for at in group.touched):
                self.wrong(index, "a sync after a failure, before the file was cut back")
            group.touched = set()
        elif self.cut_to == self.must_cut:
            self.before = self.cut_to
            self.group = Group(self.cut_to)
            self.must_cut, self.is_opening, self.is_waiting, self.may_cut = None, False, False, False
        self.cut_to = None

    def begun(self, index: int) -> None:
        """The first sync of a group."""
        group, tail = self.group, 0
        self.group_syncs += 1
        end = group.reached // BLOCK
        if group.head is not None:
            end, tail = group.head // BLOCK, HEAD_BYTES
            begin, group.wanted = told_by_head(bytes(self.content[group.head:]), end)
            if begin * BLOCK != group.begin or not 2 <= len(group.wanted) <= MOST_MARKS:
                self.wrong(index, "the head says something else")
        elif group.place is not None:
            group.wanted, end = [group.place], group.place + 1
        else:
            self.wrong(index, "a first sync without a head and without a place for a mark")
        if set(range(group.begin // BLOCK, end)) - group.blocks != set(group.wanted):
            self.wrong(index, "the first sync has other blocks than all but the marks")
        if not all(is_blank(self.content, at) for at in group.wanted):
            self.wrong(index, "the place of a mark is not zeros at the first sync")
        if self.length != end * BLOCK + tail:
            self.wrong(index, "the file ends elsewhere at the first sync")
        group.is_second = True

    def settled(self, index: int) -> None:
        """The second sync of a group."""
        group = self.group
        self.group_syncs += 1
        if sorted(group.marks) != group.wanted:
            self.wrong(index, "a second sync without all marks")
        self.groups.append(group.wanted)
        self.latest, self.before = group.wanted, group.begin
        self.owes_head = group.head is not None
        self.group = Group(max(group.wanted, default=group.begin // BLOCK - 1) * BLOCK + BLOCK)

    def answered(self, index: int, record: Record, said: dict[int, bytes]) -> None:
        if record.error:
            return
        whole = said[record.process]
        if self.is_format:
            if whole:
                self.answers += 1
                self.on_disk(index, "formatted")
                if not self.folder_synced:
                    self.wrong(index, "formatted, and the folder is not synced")
            return
        answers, rest = split_answers(whole)
        said[record.process] = rest
        for answer in answers:
            if answer.code in TELLING:
                self.answers += 1
                self.on_disk(index, "answer %d" % answer.code)
                if not self.folder_synced:
                    self.wrong(index, "answer %d, and the folder is not synced" % answer.code)
            if answer.is_commit:
                self.may_cut = False
                self.acknowledged = max(self.acknowledged, self.entry_end)
                if self.commits is not None and answer.commit > self.commits + sum(map(len, self.groups)):
                    self.wrong(index, "an answer goes out before its group is settled")
        if rest and (len(rest) < 6 or rest[4] + 256 * rest[5] in TELLING):
            self.on_disk(index, "the beginning of an answer")

    def on_disk(self, index: int, what: str) -> None:
        if self.dirty or self.is_cut_short or self.is_waiting:
            self.wrong(index, "%s, and not all is synced" % what)
        if self.must_cut is not None:
            self.wrong(index, "%s after a failure, before the file was cut back and synced" % what)
        if self.group.is_begun():
            self.wrong(index, "%s within a group" % what)
        if self.owes_head:
            self.wrong(index, "%s before the head is cut off" % what)
