"""The requests of files that go to one volume. A file that takes several of them gets its name once all its pieces have a reply."""

from __future__ import annotations

from collections import deque
from typing import Deque, Dict, Iterator, Sequence, Set, Tuple

from ..base.errors import Full
from ..protocol import Code, Rename
from ..wire.operations import Operation, Outcome
from .job import Part, VolumeJob
from .volume import OpenVolume


class Sending:
    """Files that were planned on a volume."""

    def __init__(self, volume: OpenVolume, jobs: Sequence[VolumeJob]):
        self.volume, self.jobs = volume, jobs
        self._replied: Dict[Part, int] = {}
        self._ready: Deque[Tuple[VolumeJob, Part]] = deque()
        self._refused: Set[VolumeJob] = set()

    def run(self) -> Iterator[Outcome]:
        """Does all requests. An outcome comes once its reply is in the ledger."""
        client, full = self.volume.client, None
        try:
            for outcome in client.run(self._operations()):
                self._take(outcome)
                yield outcome
        except Full as error:
            full = error
        # What is whole gets its name, also where the medium has no room for more pieces.
        names = list(self._names())
        if names:
            yield from client.run(names)
        if full is not None:
            raise full

    def _operations(self) -> Iterator[Operation]:
        """The requests, with the one that notes the run before the first."""
        marker = self.volume.take_marker()
        if marker is not None:
            yield marker
        for job in self.jobs:
            for part in job.parts:
                self._replied[part] = part.left.pieces()
                self.volume.unfinished.take(part.unfinished)
            for operation in job.operations():
                if self._ready:
                    yield from self._names()
                yield operation
            if job.failure is None:
                self._ready.extend((job, part) for part in job.parts if part.grows() and part.left.pieces() == part.count())

    def _take(self, outcome: Outcome) -> None:
        """Counts the pieces of files that have a reply."""
        operation = outcome.operation
        if operation.tag is None or operation.kind is Rename:
            return
        job, part = operation.tag
        if outcome.code is not Code.DONE:
            self._refused.add(job)
        elif part is not None and part.grows():
            self._replied[part] += 1
            if self._replied[part] == part.count():
                self._ready.append((job, part))

    def _names(self) -> Iterator[Operation]:
        """The requests that give their names to files whose pieces all have a reply."""
        while self._ready:
            job, part = self._ready.popleft()
            if job.failure is None and job not in self._refused:
                yield job.name(part)


__all__ = ["Sending"]
