"""What a ledger keeps of numbers."""

from __future__ import annotations

import errno
import os
import shutil
import tempfile
import unittest
from contextlib import closing
from unittest import mock

from udfburn.base import errors as e
from udfburn.ledger.ledger import Ledger, Pending, Reply
from udfburn.ledger.reading import ledger_to_read
from udfburn.ledger.records import GREATEST_NUMBER, NOT_KEPT
from udfburn.protocol.units import Commit


class Kept(unittest.TestCase):
    def setUp(self) -> None:
        self.room = tempfile.mkdtemp()
        self.addCleanup(shutil.rmtree, self.room)
        self.path = os.path.join(self.room, "ledger.sqlite")

    def test_the_last_numbers(self) -> None:
        """There is room for all requests that may be without a reply."""
        with closing(Ledger(self.path)) as ledger:
            self.assertEqual(ledger.learn("one", GREATEST_NUMBER - 65).latest, GREATEST_NUMBER - 65)
            for latest in (GREATEST_NUMBER - 64, GREATEST_NUMBER):
                with self.assertRaisesRegex(e.LedgerError, "no numbers left"):
                    ledger.learn("two", latest)

    def test_a_ledger_that_a_disk_does_not_give(self) -> None:
        """A copy is read only where nothing can be written beside it."""
        for number, error in ((errno.EIO, OSError), (errno.EROFS, e.LedgerError)):
            with mock.patch("udfburn.ledger.reading.Ledger", side_effect=OSError(number, os.strerror(number))):
                with self.assertRaises(error), ledger_to_read(self.path, 0.0):
                    self.fail("it was read")

    def test_sixty_four_without_a_reply(self) -> None:
        """Each has its own payload, also beside those of other volumes, and of later numbers."""
        with closing(Ledger(self.path)) as ledger:
            volumes = [ledger.learn(way, 100) for way in ("one", "two", "three")]
            for begin in (101, 130, 1000):
                for volume in volumes:
                    fresh = [Pending(number, f"{volume.id} {number}".encode(), "/") for number in range(begin, begin + 64)]
                    ledger.record(volume, [], fresh)
                for volume in volumes:
                    waiting = ledger.pending(volume)
                    self.assertEqual([(one.number, one.payload.decode()) for one in waiting], [(n, f"{volume.id} {n}") for n in range(begin, begin + 64)])
                    ledger.withdraw(volume)

    def test_a_reply_that_is_not_known(self) -> None:
        """Its number is spent, its commit is known, and no code stands for it."""
        with closing(Ledger(self.path)) as ledger:
            volume = ledger.learn("way", 6)
            ledger.record(volume, [], [Pending(number, b"", f"/{number}") for number in (7, 8)])
            ledger.record(volume, [Reply(8, NOT_KEPT, Commit(9), False)], [])
            self.assertEqual([waiting.number for waiting in ledger.pending(volume)], [7])
            ledger.record(volume, [Reply(7, 3, Commit(8), True)], [])
            self.assertEqual((ledger.latest(volume), ledger.last_commit(volume), ledger.pending(volume)), (8, 9, []))
            self.assertEqual(ledger.history(volume), [(7, "/7", 3, 8, True), (8, "/8", None, 9, False)])


if __name__ == "__main__":
    unittest.main()
