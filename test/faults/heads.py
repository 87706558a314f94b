"""The head of a group of commits: what lies after the blocks of an image while a group is settled, and what then counts of it."""
from __future__ import annotations

from typing import Sequence

from protocol import BLOCK

# The most marks that a head names.
MOST_MARKS = 64
# How a head begins, and how long it is.
HEAD_MAGIC = b"UDFGROUP"
HEAD_BYTES = 280


def head_of(begin: int, end: int, marks: Sequence[int]) -> bytes:
    """The head of a group that has the blocks from `begin` on and before `end`, and marks at these addresses."""
    numbers = [begin, end, len(marks), *marks, *[0] * (MOST_MARKS - len(marks))]
    return with_sum(HEAD_MAGIC + b"".join(number.to_bytes(4, "little") for number in numbers))


def with_sum(told: bytes) -> bytes:
    """The bytes of a head before its sum, and the sum: FNV-1a."""
    total = 0x811C9DC5
    for byte in told:
        total = (total ^ byte) * 0x01000193 % (1 << 32)
    return told + total.to_bytes(4, "little")


def told_by_head(part: bytes, end: int) -> tuple[int, list[int]]:
    """Where the group begins and which marks it has, whose head these bytes are, in an image of so many blocks; with bytes that are none, no
    mark."""
    if len(part) != HEAD_BYTES:
        return end, []
    begin, _, count, *places = (int.from_bytes(part[at:at + 4], "little") for at in range(8, HEAD_BYTES - 4, 4))
    marks = places[:count]
    is_head = part == head_of(begin, end, marks) and 0 < begin and marks[-1:] == [end - 1]
    in_order = sorted(set(marks)) == marks and begin <= min(marks, default=end)
    return (begin, marks) if is_head and in_order else (end, [])


def is_blank(image: bytes, at: int) -> bool:
    return not any(image[at * BLOCK:(at + 1) * BLOCK])


def counted(image: bytes) -> bytes:
    """What counts of an image: all of it, or if it ends with the head of a group that lacks a mark, the blocks before the group."""
    end = len(image) // BLOCK
    begin, marks = told_by_head(image[end * BLOCK:], end)
    return image[:begin * BLOCK] if any(is_blank(image, at) for at in marks) else image
