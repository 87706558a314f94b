"""Files that are read ahead, with their digests computed in a thread.

The SHA-256 of a mebibyte takes longer than to write it. So it is computed while the program and the disk are at work on what was sent
before. The files are read here, in the order in which they are stored.
"""

from __future__ import annotations

from collections import deque
from typing import TYPE_CHECKING, Callable, Deque, Iterator, List, NamedTuple, Optional

from ..base.errors import SourceError, TooLarge
from ..local.sources import read_parts
from .jobs import Job

if TYPE_CHECKING:
    from concurrent.futures import ThreadPoolExecutor

ASIDE = 1 << 16
"""From this many bytes on, the digests of a file are computed in the thread: they take longer than it takes a thread to wake."""

PARTS_AHEAD = 8
"""Parts that are read ahead: the digests of some are computed while others are sent."""


class PartRead(NamedTuple):
    """A part that was read: its file, its number there, its bytes, and the digest that `Job.take` gives for it, once that is computed."""

    job: Job
    part: int
    data: bytes
    taken: Callable[[], bytes]


class Ahead:
    """Reads files ahead. `close` ends the thread."""

    def __init__(self) -> None:
        self._thread: Optional[ThreadPoolExecutor] = None

    def close(self) -> None:
        """Ends the thread, once what it is at is done."""
        if self._thread is not None:
            self._thread.shutdown()
        self._thread = None

    def parts(self, jobs: List[Job]) -> Iterator[PartRead]:
        """The parts of files, in order. A file that cannot be read fails."""
        waiting: Deque[PartRead] = deque()
        for job in jobs:
            try:
                for part, data in zip(range(job.count), read_parts(job.source)):
                    waiting.append(PartRead(job, part, data, self._taken(job, data)))
                    if len(waiting) > PARTS_AHEAD:
                        yield waiting.popleft()
            except (SourceError, TooLarge) as error:
                job.fail(str(error))
        while waiting:
            yield waiting.popleft()

    def _taken(self, job: Job, data: bytes) -> Callable[[], bytes]:
        """Has a part taken: in the thread where its file is large."""
        if job.source.identity.size < ASIDE:
            taken = job.take(data)
            return lambda: taken
        if self._thread is None:
            # Who stores small files does not load it.
            from concurrent.futures import ThreadPoolExecutor

            self._thread = ThreadPoolExecutor(1)
        return self._thread.submit(job.take, data).result


__all__ = ["Ahead", "PartRead"]
