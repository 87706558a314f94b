"""A file over a page cache whose machine may lose power: what of a log of calls is on the disk then.

Of what was not synced any subset of pages may be there, each as it was after any of its writes; the file's length is any between the
synced one and the present one, and what was never written reads as zeros. A failed sync leaves its pages clean: any subset of them was
written, the others never will be, though the cache still shows them.
"""
from __future__ import annotations

import errno
import random
from typing import Callable, Iterator, NamedTuple, Optional, Sequence

from faults.log import Record


# Which of the unsynced pages reach the disk: for each, in order, whether it does.
Choice = Callable[[int], Sequence[bool]]


class Disk:
    """The file in the cache (`cache`) and on the disk (`disk`). Pages have `page` bytes."""

    def __init__(self, content: bytes, page: int, on_failure: Optional[random.Random] = None) -> None:
        self.page = page
        self.cache = bytearray(content)
        self.disk = bytearray(content)
        # Unsynced pages, each with what it held after each of its writes.
        self.dirty: dict[int, list[bytes]] = {}
        # The least length that a truncation made since the last sync.
        self.cut: Optional[int] = None
        # Chooses what a failed sync wrote; without it nothing was.
        self.on_failure = on_failure

    def call(self, record: Record) -> None:
        """What a call of the log does to both."""
        if record.kind == "pwrite" and record.result > 0:
            self.write(record.offset, record.data)
        elif record.kind == "ftruncate" and record.result == 0:
            self.truncate(record.offset)
        elif record.kind == "fsync":
            if not record.error:
                self.sync()
            elif record.error != errno.EINTR:
                self.fail()

    def is_clean(self) -> bool:
        return not self.dirty and self.cut is None and len(self.cache) == len(self.disk)

    def held(self, number: int) -> bytes:
        start = number * self.page
        return bytes(self.cache[start:start + self.page]).ljust(self.page, b"\0")

    def touch(self, start: int, end: int) -> None:
        for number in range(start // self.page, (end + self.page - 1) // self.page):
            self.dirty.setdefault(number, []).append(self.held(number))

    def write(self, offset: int, data: bytes) -> None:
        if offset > len(self.cache):
            self.cache.extend(bytes(offset - len(self.cache)))
        self.cache[offset:offset + len(data)] = data
        self.touch(offset, offset + len(data))

    def truncate(self, length: int) -> None:
        if length >= len(self.cache):
            self.cache.extend(bytes(length - len(self.cache)))
            return
        del self.cache[length:]
        for number in [number for number in self.dirty if number * self.page >= length]:
            del self.dirty[number]
        if length % self.page:
            self.touch(length, length + 1)
        self.cut = length if self.cut is None else min(self.cut, length)

    def put(self, disk: bytearray, number: int, held: bytes) -> None:
        start = number * self.page
        if start + self.page > len(disk):
            disk.extend(bytes(start + self.page - len(disk)))
        disk[start:start + self.page] = held

    def sync(self) -> None:
        if self.cut is not None:
            del self.disk[self.cut:]
            self.cut = None
        for number, versions in self.dirty.items():
            self.put(self.disk, number, versions[-1])
        self.dirty.clear()
        self.fit(self.disk, len(self.cache))

    def fail(self) -> None:
        """A failed sync: its pages are clean, on the disk or not."""
        if self.on_failure is not None:
            for number, versions in self.dirty.items():
                if self.on_failure.random() < 0.5:
                    length = len(self.disk)
                    self.put(self.disk, number, versions[-1])
                    self.fit(self.disk, max(length, min(len(self.disk), len(self.cache))))
        self.dirty.clear()

    @staticmethod
    def fit(disk: bytearray, length: int) -> None:
        del disk[length:]
        disk.extend(bytes(length - len(disk)))

    def left(self, keeps: Choice, length: int, random_version: Optional[random.Random] = None, is_cut: bool = True) -> bytes:
        """The file after a power loss now, with such a length."""
        disk = bytearray(self.disk)
        if is_cut and self.cut is not None:
            del disk[self.cut:]
        order = sorted(self.dirty)
        for number, is_kept in zip(order, keeps(len(order))):
            if is_kept:
                versions = self.dirty[number]
                self.put(disk, number, random_version.choice(versions) if random_version else versions[-1])
        self.fit(disk, length)
        return bytes(disk)


class Loss(NamedTuple):
    """A way to lose power, and what is left of the file."""

    how: str
    content: bytes


def losses(disk: Disk, chance: random.Random, count: int) -> Iterator[Loss]:
    """The extremes, and `count` losses at random. Where nothing is unsynced there is one."""
    synced, present = len(disk.disk), len(disk.cache)
    if disk.is_clean():
        yield Loss("nothing is unsynced", bytes(disk.disk))
        return
    extremes: list[tuple[str, Choice]] = [
        ("no page", lambda n: [False] * n),
        ("all pages", lambda n: [True] * n),
        ("only the last page", lambda n: [False] * (n - 1) + [True] * (n > 0)),
        ("all but the last page", lambda n: [True] * (n - 1) + [False] * (n > 0)),
        ("all but the first page", lambda n: [False] * (n > 0) + [True] * (n - 1)),
    ]
    for how, keeps in extremes:
        for length in sorted({synced, present}):
            yield Loss("%s, length %d" % (how, length), disk.left(keeps, length))
    for number in range(count):
        share = chance.choice((0.1, 0.5, 0.9))
        low, high = min(synced, present, disk.cut if disk.cut is not None else present), max(synced, present)
        # The file mostly grew as far as it is; a length in between cuts off what is after it.
        length = chance.choice((synced, present, present, present, chance.randint(low, high)))
        left = disk.left(lambda n: [chance.random() < share for _ in range(n)], length, chance, chance.random() < 0.5)
        yield Loss("at random %d, length %d" % (number, length), left)


# Of so many unsynced pages every subset is tried.
FEW = 8
# Of more pages each of so many is left out alone.
LEFT_OUT = 10


def choices(pages: int, chance: random.Random, count: int) -> Iterator[tuple[str, list[bool]]]:
    """Which of the pages of a run reach the disk: every subset of a few; of more none, all, all but one, and `count` at random."""
    if pages <= FEW:
        for number in range(1 << pages):
            yield "subset %d" % number, [bool(number >> page & 1) for page in range(pages)]
        return
    yield "no page", [False] * pages
    yield "all pages", [True] * pages
    yield "only the last page", [False] * (pages - 1) + [True]
    alone = {0, 1, pages - 2, pages - 1, *chance.sample(range(pages), LEFT_OUT - 4)}
    for left_out in sorted(alone):
        yield "all but page %d" % left_out, [page != left_out for page in range(pages)]
    for number in range(count):
        share = chance.choice((0.1, 0.5, 0.9))
        yield "at random %d" % number, [chance.random() < share for _ in range(pages)]


def run_losses(disk: Disk, chance: random.Random, count: int) -> Iterator[Loss]:
    """What a power loss leaves of a run: any subset of its pages, where the file has its present length; and the synced length, one in
    between, and all pages with that one."""
    synced, present = len(disk.disk), len(disk.cache)
    if disk.is_clean():
        yield Loss("nothing is unsynced", bytes(disk.disk))
        return
    for how, kept in choices(len(disk.dirty), chance, count):
        yield Loss(how, disk.left(lambda _: kept, present))
    for length in {synced, chance.randint(min(synced, present), max(synced, present))}:
        yield Loss("all pages, length %d" % length, disk.left(lambda n: [True] * n, length))
