"""Bundles on their way to a volume: which files of a folder go into one, and what becomes of each."""

from __future__ import annotations

from hashlib import sha256
from typing import Iterator, List, Optional, Sequence, Tuple

from ..base.errors import SourceError
from ..local.sources import read_parts
from ..protocol import Create, Path, limits
from ..protocol.units import Commit, Moment, Size
from ..wire.operations import Operation
from .bundle import FIXED, Member, bundled, costs
from .catalogue import Held
from .job import VolumeJob, Part
from .names import bundle_name
from .tree import PlannedTree
from .unfinished import NOTHING_LEFT, Unfinished

SMALL = 1 << 16
"""Bytes of a file that goes into a bundle, at most. What a larger one takes besides is little beside it."""

LEAST_BUNDLED = 16
"""Files that make a bundle. Fewer, as those that changed since, are stored one by one: each keeps its own name on the volume."""


def bundle_size(capacity: int) -> int:
    """Bytes of a bundle, at most, of an archive whose volumes have so many blocks: one request takes it, and an empty volume has room."""
    return min(limits.FILE, capacity * limits.BLOCK // 8)


def in_bundles(jobs: Sequence[VolumeJob], capacity: int) -> List[VolumeJob]:
    """The files of a folder as they are to be stored: the small ones in bundles, where there are many."""
    small = [job for job in jobs if job.source.identity.size <= SMALL and not job.in_parts]
    if len(small) < LEAST_BUNDLED:
        return list(jobs)
    most = bundle_size(capacity)
    found: List[VolumeJob] = []
    some: List[VolumeJob] = []
    size = FIXED
    for job in small:
        cost, _ = cost_of(job)
        if some and size + cost > most:
            found.append(Bundle(some))
            some, size = [], FIXED
        some.append(job)
        size += cost
    chosen = set(map(id, small))
    return found + [Bundle(some)] + [job for job in jobs if id(job) not in chosen]


def cost_of(job: VolumeJob) -> Tuple[int, int]:
    return costs(job.source.path[-1], job.source.identity.size, job.source.moment())


class Bundle(VolumeJob):
    """Files of one folder that are stored together. A file that cannot be read as it was seen is left out, and fails alone."""

    def __init__(self, members: Sequence[VolumeJob]):
        super().__init__(members[0].source)
        self.members = list(members)
        found = list(map(cost_of, self.members))
        self._most = Size(FIXED + sum(cost for cost, _ in found))
        self._listed = FIXED + sum(line for _, line in found)
        self._within: List[Tuple[VolumeJob, Member]] = []
        """The files that were read, each with its place in the bundle."""
        self._moment, self._size, self._sha256 = Moment(0), Size(0), b""

    def size(self) -> int:
        return self._most

    def again(self) -> VolumeJob:
        return Bundle([job for job in self.members if job.failure is None])

    def otherwise(self) -> List[VolumeJob]:
        return self.members

    # ---- planned

    def plan(self, tree: PlannedTree, partly: bool, unfinished: Optional[Unfinished] = None) -> bool:
        place = tree.place_bundle(self.source.path[:-1], self._most, self._listed)
        if place is not None:
            self.parts = [Part(place, (), 0, self._most, NOTHING_LEFT)]
        return place is not None

    def key(self, start: Optional[int] = None) -> Path:
        # One request stores it, so it is never unfinished.
        return ()

    # ---- stored

    def operations(self) -> Iterator[Operation]:
        files: List[Tuple[str, Moment, bytes]] = []
        jobs: List[VolumeJob] = []
        for job in self.members:
            try:
                data = b"".join(read_parts(job.source)) if job.failure is None else None
            except SourceError as error:
                job.fail(str(error))
                continue
            if data is not None:
                jobs.append(job)
                files.append((job.source.path[-1], job.source.moment(), data))
        if not jobs:
            self.fail("none of its files can be read")
            return
        whole, members = bundled(files)
        self._within = list(zip(jobs, members))
        self._moment, self._size, self._sha256 = max(member.moment for member in members), Size(len(whole)), sha256(whole).digest()
        (part,) = self.parts
        yield from self._folders(part.place.folders)
        yield Operation(Create, part.place.path, self._moment, whole, tag=(self, part))

    def take(self, part: Optional[Part], operation: Operation, commit: Commit) -> None:
        super().take(part, operation, commit)
        for job, member in self._within:
            job.digest, job.commit = member.sha256, commit

    # ---- its files

    def files(self) -> List[VolumeJob]:
        return [job for job, _ in self._within]

    def counts(self) -> List[Tuple[Path, int]]:
        return [(job.source.path, member.size) for job, member in self._within]

    def failures(self) -> List[Tuple[VolumeJob, str]]:
        return [(job, job.failure or self.failure or "") for job in self.members if job.failure or self.failure]

    def rows(self, volume: int, added: Moment) -> List[Held]:
        (part,) = self.parts
        stored = part.place.path[-1]
        path = self.source.path[:-1] + (bundle_name(int(stored[2:-4])),)
        tar = Held(volume, self.commit, path, self._size, self._moment, self._sha256, added)
        return [tar] + [self._row(tar, job, member) for job, member in self._within]

    def _row(self, tar: Held, job: VolumeJob, member: Member) -> Held:
        row = tar._replace(path=job.source.path, size=member.size, moment=member.moment, sha256=member.sha256)
        return row._replace(at=tar.path, noted=(tar.volume, tar.commit), start=member.start)


__all__ = ["Bundle", "LEAST_BUNDLED", "SMALL", "in_bundles"]
