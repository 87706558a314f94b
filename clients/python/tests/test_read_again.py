"""Local files that are read again for the data of requests, as far as they are what they were."""

from __future__ import annotations

import hashlib
import os
import random
import tempfile
import unittest
from typing import Callable, List, Optional
from unittest import mock

from udfburn import protocol as p
from udfburn.local import sources
from udfburn.local.sources import SourcesAgain
from udfburn.wire.operations import Origin

FULL = p.limits.FILE


class ReadAgain(unittest.TestCase):
    def setUp(self) -> None:
        room = tempfile.TemporaryDirectory()
        self.addCleanup(room.cleanup)
        self.path = os.path.join(room.name, "source")
        self.data = random.Random(1).randbytes(3 * FULL + 5)
        self.again = SourcesAgain()
        self.addCleanup(self.again.close)
        self.write(self.data)

    def write(self, data: bytes) -> None:
        """What is there, always at one time."""
        with open(self.path, "wb") as file:
            file.write(data)
        os.utime(self.path, ns=(1, 10 ** 18))

    def piece(self, index: int, first: int = 0, digest: bytes = b"") -> Optional[bytes]:
        """What is read of a piece of the file that begins with this byte, which the request of the piece knows by its digest."""
        start, before = first + index * FULL, index * FULL
        count = min(FULL, len(self.data) - start)
        known = digest or hashlib.sha256(self.data[first : start + count]).digest()
        return self.again.data(Origin(self.path, start, len(self.data), 10 ** 18), before, count, known)

    def wanted(self, index: int, first: int = 0) -> bytes:
        return self.data[first + index * FULL : first + (index + 1) * FULL]

    def test_in_order_each_byte_is_read_once(self) -> None:
        counts: List[int] = []
        real = sources.exactly

        def exactly(descriptor: int, count: int) -> bytes:
            counts.append(count)
            return real(descriptor, count)

        with mock.patch.object(sources, "exactly", exactly):
            for index in (1, 2, 3):
                self.assertEqual(self.piece(index), self.wanted(index))
        self.assertEqual(counts, [FULL, FULL, FULL, 5])

    def test_in_another_order(self) -> None:
        for index in (3, 1, 2, 2, 0):
            self.assertEqual(self.piece(index), self.wanted(index))

    def test_a_part_of_the_file(self) -> None:
        """Its digest is that of the part."""
        for first in (FULL, 5, 0):
            for index in (0, 1):
                self.assertEqual(self.piece(index, first), self.wanted(index, first))

    def test_what_is_not_as_it_was(self) -> None:
        changes: List[Callable[[], object]] = [
            lambda: self.write(b"!" + self.data[1:]), lambda: self.write(self.data + b"x"), lambda: self.write(self.data[:-1]),
            lambda: os.utime(self.path, ns=(1, 1)), lambda: os.unlink(self.path),
        ]
        for change in changes:
            for read in (0, 1, 2):
                # What was read before the change is part of the digest too.
                self.write(self.data)
                self.again.close()
                for index in range(read):
                    self.assertIsNotNone(self.piece(index))
                change()
                with self.subTest(change=changes.index(change), read=read):
                    is_open = read > 0 and change in (changes[0], changes[4])
                    self.assertEqual(self.piece(2), self.wanted(2) if is_open else None)

    def test_another_digest(self) -> None:
        self.assertIsNone(self.piece(1, digest=bytes(32)))
        self.assertEqual(self.piece(2), self.wanted(2))

    def test_an_origin_that_is_none(self) -> None:
        self.assertIsNone(self.again.data(Origin(self.path, 0, len(self.data), 10 ** 18), FULL, 5, bytes(32)))

    def test_nothing_stays_open(self) -> None:
        before = os.listdir("/proc/self/fd")
        for first in (0, 5):
            self.piece(1, first)
        self.again.close()
        self.assertEqual(os.listdir("/proc/self/fd"), before)


if __name__ == "__main__":
    unittest.main()
