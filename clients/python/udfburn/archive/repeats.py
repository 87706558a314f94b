"""Files of a run of `add` whose bytes the archive has, or gets in this run from another file: a line says so in the place of the bytes."""

from __future__ import annotations

from typing import Callable, Dict, List, NamedTuple, Optional, Sequence

from ..base.errors import SourceError
from ..protocol import Path
from ..protocol.units import Commit, Moment
from .catalogue import Catalogue, Held
from .config import Config
from .content import Content
from .contents import SAME, TEXT_BYTES
from .fill import Filler
from .job import VolumeJob, digest_of
from .same import SAME_TEXTS_BYTES, SameEntry, entry, same_texts, text_size
from .same_rows import insert_lines, kept_files
from .tell import shown_path

LINES_WAITING = 4096
"""Files that wait for others, at most: then all that is planned is sent."""


class LineToWrite(NamedTuple):
    """A file that gets a line."""

    job: VolumeJob
    entry: SameEntry


Written = Callable[[List[LineToWrite], Commit, str], None]
"""Is called for files whose lines the catalogue has, with the commit and the label of the volume of their text."""


class Repeats:
    """Looks for the bytes of files before they are stored. A line names stored bytes, and only once they are acknowledged."""

    def __init__(self, config: Config, catalogue: Catalogue, written: Written, again: bool, trusts: bool):
        self.config, self.catalogue, self.written, self.again, self.trusts = config, catalogue, written, again, trusts
        self.content = Content(config, catalogue)
        self.left: List[VolumeJob] = []
        """Files that waited for another one, which was not stored."""
        self.failures: List[str] = []
        self._lines: List[LineToWrite] = []
        self._bytes = 0
        self._planned: Dict[Path, int] = {}
        """The sizes of files that are to be stored."""
        self._unread: Dict[int, Dict[Path, VolumeJob]] = {}
        """Those of them of which no digest is known, by their sizes."""
        self._read: Dict[int, Dict[bytes, Path]] = {}
        self._digests: Dict[Path, bytes] = {}
        self._waiting: Dict[Path, List[VolumeJob]] = {}
        self._waits, self._most = 0, LINES_WAITING

    # ---- found

    def takes_over(self, job: VolumeJob) -> bool:
        """Takes over a file that gets a line, now or once another file is stored that has its bytes; else it is to be stored. It is read for
        that if another has its size."""
        size = job.source.identity.size
        # A line is no shorter than nothing.
        if self.again or not size:
            return False
        others = size in self._unread or size in self._read
        if not others and not self.content.has_size(size):
            self._plan(job)
            return False
        if self.trusts or not job.digest:
            # In this run, whatever an earlier one read.
            job.digest = digest_of(job.source)
        if self._has(job):
            return True
        first = self._alike(size, job.digest)
        if first is None or first == job.source.path:
            self._plan(job)
            self._hash(job)
            return False
        self._waiting.setdefault(first, []).append(job)
        self._waits += 1
        return True

    def _has(self, job: VolumeJob) -> bool:
        """Whether the archive has the bytes of a file, which gets a line then."""
        size = job.source.identity.size
        group = self.content.find(size, job.digest)
        if not group:
            return False
        source = job.source
        rows = [
            held._replace(path=source.path, moment=source.moment(), added=Moment(0), at=held.stored_as(), noted=(0, Commit(0))) for held in group
        ]
        found = entry(rows, self.config.label, list(map(self.content.version_there, group)))
        self._lines.append(LineToWrite(job, found))
        self._bytes += len(found.data)
        return True

    def _plan(self, job: VolumeJob) -> None:
        size = job.source.identity.size
        self._planned[job.source.path] = size
        self._unread.setdefault(size, {})[job.source.path] = job

    def _alike(self, size: int, digest: bytes) -> Optional[Path]:
        """The planned file with these bytes."""
        for job in list(self._unread.get(size, {}).values()):
            try:
                self._hash(job)
            except SourceError:
                # Whoever stores it reports that.
                self._unread[size].pop(job.source.path, None)
        return self._read.get(size, {}).get(digest)

    def _hash(self, job: VolumeJob) -> None:
        """Reads a planned file for its digest."""
        size = job.source.identity.size
        digest = job.digest or digest_of(job.source)
        self._unread.get(size, {}).pop(job.source.path, None)
        self._digests[job.source.path] = digest
        self._read.setdefault(size, {}).setdefault(digest, job.source.path)

    # ---- what became of planned files

    def kept(self, jobs: Sequence[VolumeJob]) -> None:
        """Files were stored: those that waited for them get their lines."""
        for job in jobs:
            self.left += [other for other in self._done(job) if not self._has(other)]

    def failed(self, job: VolumeJob) -> None:
        """A file was not stored."""
        self.left += self._done(job)

    def _done(self, job: VolumeJob) -> List[VolumeJob]:
        """Forgets a planned file; gives those that wait for it."""
        path = job.source.path
        size = self._planned.pop(path, None)
        if size is None:
            return []
        self._unread.get(size, {}).pop(path, None)
        digest, read = self._digests.pop(path, b""), self._read.get(size, {})
        if read.get(digest) == path:
            del read[digest]
        if not self._unread.get(size, True):
            del self._unread[size]
        if not read:
            self._read.pop(size, None)
        waited = self._waiting.pop(path, [])
        self._waits -= len(waited)
        return waited

    # ---- written

    def is_due(self) -> bool:
        """Whether lines make a text, or many files wait."""
        return self._bytes >= TEXT_BYTES or self._waits >= self._most

    def finish(self, filler: Filler) -> None:
        """Writes all lines, and has all be stored that is left."""
        self.write(filler)
        while self.left:
            left, self.left = self.left, []
            for job in left:
                if not self.takes_over(job):
                    filler.put(job.source.path[:-1], [job])
            self.write(filler)

    def write(self, filler: Filler) -> None:
        """Writes what there is of lines onto a volume, after all that was planned, and into the catalogue. Then they are acknowledged."""
        filler.send()
        lines, self._lines, self._bytes = self._lines, [], 0
        # Those that wait for files of a folder that is being walked still do.
        self._most = self._waits + LINES_WAITING
        by_entry = {id(line.entry): line for line in lines}
        for data, some in same_texts((line.entry for line in lines), text_size(self.config.capacity)):
            self._write(filler, data, [by_entry[id(each)] for each in some])

    def _write(self, filler: Filler, data: bytes, lines: List[LineToWrite]) -> None:
        volume, commit = filler.write_text(SAME, data, SAME_TEXTS_BYTES)
        filler.claims.require()
        rows: List[Held] = [row._replace(noted=(volume.row.number, commit), added=volume.began) for line in lines for row in line.entry.rows]
        volume.row = volume.filled(commit, volume.row.files + len(lines))
        with self.catalogue.base.transaction():
            there = kept_files(self.catalogue.base, {row.target() for row in rows})
            insert_lines(self.catalogue, rows)
            self.catalogue.save(volume.row)
        good: List[LineToWrite] = []
        for line in lines:
            if all(row.target() in there for row in line.entry.rows):
                good.append(line)
            else:
                self.failures.append(f"{shown_path(line.job.source.path)}: the bytes that it has in common with another file went meanwhile: run the command again")
        self.written(good, commit, volume.row.label)


__all__ = ["LineToWrite", "Repeats"]
