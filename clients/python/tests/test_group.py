"""The head of a group of commits: which blocks of an image count."""

from __future__ import annotations

import os
import random
import tempfile
import unittest
from typing import Sequence
from unittest import mock

from udfburn.reader import Medium
from udfburn.reader.group import counted_blocks

BLOCK = 2048
BLOCKS, BEGIN = 40, 20


def with_sum(told: bytes) -> bytes:
    """The bytes of a head, and their sum: FNV-1a."""
    total = 0x811C9DC5
    for byte in told:
        total = (total ^ byte) * 0x01000193 % (1 << 32)
    return told + total.to_bytes(4, "little")


def head(begin: int, blocks: int, marks: Sequence[int], count: int = -1) -> bytes:
    """A head: where the group begins, the blocks of the image, how many marks, their addresses, and zeros."""
    numbers = [begin, blocks, len(marks) if count < 0 else count, *marks, *[0] * (64 - len(marks))]
    return with_sum(b"UDFGROUP" + b"".join(number.to_bytes(4, "little") for number in numbers))


class Heads(unittest.TestCase):
    def setUp(self) -> None:
        room = tempfile.TemporaryDirectory()
        self.addCleanup(room.cleanup)
        self.path = os.path.join(room.name, "disc.img")

    def counted(self, rest: bytes, zeros: Sequence[int] = ()) -> int:
        """The blocks that count of an image that has zeros at these addresses, and these bytes after its last block."""
        with open(self.path, "wb") as file:
            for at in range(BLOCKS):
                file.write(bytes([at not in zeros]) * BLOCK)
            file.write(rest)
        with Medium(self.path) as medium:
            return counted_blocks(medium)

    def test_a_mark_is_missing(self) -> None:
        marks = (BEGIN + 3, BEGIN + 9, BLOCKS - 1)
        for lost in ([at] for at in marks):
            self.assertEqual(self.counted(head(BEGIN, BLOCKS, marks), lost), BEGIN)
        self.assertEqual(self.counted(head(BEGIN, BLOCKS, marks), marks), BEGIN)
        self.assertEqual(self.counted(head(BEGIN, BLOCKS, [BLOCKS - 1]), [BLOCKS - 1]), BEGIN)
        many = list(range(BLOCKS - 39, BLOCKS))
        self.assertEqual(self.counted(head(1, BLOCKS, many), many[7:8]), 1)

    def test_none_is_missing(self) -> None:
        """Zeros elsewhere are data."""
        marks = (BEGIN + 3, BLOCKS - 1)
        self.assertEqual(self.counted(head(BEGIN, BLOCKS, marks), [BEGIN, BEGIN + 4, 3]), BLOCKS)

    def test_what_is_no_head(self) -> None:
        marks, zeros = (BEGIN + 3, BLOCKS - 1), [BEGIN + 3]
        good = head(BEGIN, BLOCKS, marks)
        self.assertEqual(self.counted(good, zeros), BEGIN)
        for wrong in (
            b"", good[:-1], good + b"\0", good[:8], with_sum(b"UDFGROUQ" + good[8:-4]), good[:-1] + bytes([good[-1] ^ 128]),
            head(0, BLOCKS, marks), head(BLOCKS, BLOCKS, marks), head(BEGIN + 4, BLOCKS, marks), head(BEGIN, BLOCKS + 1, marks),
            head(BEGIN, BLOCKS, (BEGIN + 3, BLOCKS - 2)), head(BEGIN, BLOCKS, (BEGIN + 3, BLOCKS)), head(BEGIN, BLOCKS, (BLOCKS - 1, BEGIN + 3)),
            head(BEGIN, BLOCKS, (BEGIN + 3, BEGIN + 3, BLOCKS - 1)), head(BEGIN, BLOCKS, ()), head(BEGIN, BLOCKS, marks, 1),
            head(BEGIN, BLOCKS, marks, 3), head(BEGIN, BLOCKS, marks, 65), head(BEGIN, BLOCKS, marks, (1 << 32) - 1), bytes(280),
        ):
            self.assertEqual(self.counted(wrong, zeros), BLOCKS, wrong)

    def test_any_bytes(self) -> None:
        chance = random.Random(280)
        for _ in range(200):
            self.assertEqual(self.counted(b"UDFGROUP" + chance.randbytes(272)), BLOCKS)

    def test_a_mark_that_cannot_be_read(self) -> None:
        """It may be there: the reader says that a block is missing."""
        self.counted(head(BEGIN, BLOCKS, (BEGIN + 3, BLOCKS - 1)))
        with Medium(self.path) as medium, mock.patch.object(medium, "block", return_value=None):
            self.assertEqual(counted_blocks(medium), BLOCKS)

    def test_a_disk_that_does_not_give_the_rest(self) -> None:
        self.counted(head(BEGIN, BLOCKS, (BLOCKS - 1,)), [BLOCKS - 1])
        with Medium(self.path) as medium, mock.patch("udfburn.reader.medium.os.pread", side_effect=OSError(5, "Input/output error")):
            self.assertEqual(counted_blocks(medium), BLOCKS)


if __name__ == "__main__":
    unittest.main()
