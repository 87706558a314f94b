"""What a program writes to an image, in which writes and with which syncs: from a log of its calls, or with two syncs a group."""
from __future__ import annotations

import struct
from typing import NamedTuple, Sequence

from faults.heads import HEAD_BYTES
from faults.log import Record
from protocol import BLOCK

# The length of a call that makes a file longer or shorter.
TRUNCATES = -1
# Behind the blocks of an image the head of its last group is written, and cut off. What its bytes are takes no time.
BEHIND = bytes(HEAD_BYTES)


class Plan(NamedTuple):
    """The writes and syncs of a run, as loop.c takes them, and how many there are of each."""

    calls: bytes
    writes: int
    syncs: int

    def opening_syncs(self) -> int:
        """The syncs before the first write."""
        lengths = [length for _, length in struct.iter_unpack("=qq", self.calls)]
        return next((at for at, length in enumerate(lengths) if length > 0), len(lengths))


def plan_of(records: Sequence[Record], before: bytes, image: bytes) -> Plan:
    """The plan of a run that made an image out of what it was before. A log that does not make it is refused."""
    made = bytearray(before)
    calls, writes, syncs = [], 0, 0
    for record in records:
        if record.kind == "pwrite":
            if record.result != record.length or record.offset < len(before):
                raise ValueError("a write of %d bytes at %d did %d" % (record.length, record.offset, record.result))
            put(made, record.offset, record.data)
            calls.append((record.offset, record.length))
            writes += 1
        elif record.kind == "fsync":
            calls.append((0, 0))
            syncs += 1
        elif record.kind == "ftruncate":
            put(made, record.offset, b"")
            del made[record.offset:]
            calls.append((record.offset, TRUNCATES))
    if made != image:
        raise ValueError("the writes of the log do not make the image")
    return Plan(packed(calls), writes, syncs)


def put(made: bytearray, offset: int, data: bytes) -> None:
    """Writes these bytes, with zeros before them where the file ends earlier."""
    made.extend(bytes(max(0, offset - len(made))))
    made[offset:offset + len(data)] = data


def packed(calls: Sequence[tuple[int, int]]) -> bytes:
    return b"".join(struct.pack("=qq", *call) for call in calls)


def groups_of(calls: bytes, marks: Sequence[int]) -> list[list[int]]:
    """The groups that the calls show: the marks, the commits' last blocks, that were written between the same two syncs."""
    known, groups, given = set(marks), list[list[int]](), list[int]()
    for offset, length in struct.iter_unpack("=qq", calls):
        if length > 0:
            given += [at for at in range(offset // BLOCK, (offset + length) // BLOCK) if at in known]
        elif length == 0 and given:
            groups.append(given)
            given = []
    if [mark for group in groups for mark in group] != list(marks):
        raise ValueError("the marks were not all synced, each written once and in order")
    return groups


def group_plan(length_before: int, groups: Sequence[Sequence[int]], opening_syncs: int) -> Plan:
    """The fewest calls by which each group is on the disk before the next, and each block is written once: for each commit of the group all
    its blocks but the mark as one write, the head of the group, a sync, the marks, a sync.

    `length_before` is the length of the image in bytes before the first commit. The syncs with which a program opens an image come first.
    As `apply` does, a group of one has no head. The next group overwrites a head, so only the last one is cut off.
    """
    calls = [(0, 0)] * opening_syncs
    begin = length_before
    for marks in groups:
        for mark in marks:
            calls.append((begin, mark * BLOCK - begin))
            begin = (mark + 1) * BLOCK
        head = [(begin, HEAD_BYTES)] if len(marks) > 1 else []
        calls += [*head, (0, 0), *((mark * BLOCK, BLOCK) for mark in marks), (0, 0)]
    if groups and len(groups[-1]) > 1:
        calls.append((begin, TRUNCATES))
    lengths = [length for _, length in calls]
    return Plan(packed(calls), sum(length > 0 for length in lengths), lengths.count(0))
