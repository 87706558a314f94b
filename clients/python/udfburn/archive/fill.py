"""Fills open volumes: files are planned on them, sent, and kept in the catalogue once their replies are in the ledger."""

from __future__ import annotations

from contextlib import suppress
from typing import Callable, Dict, List, Optional, Sequence, Tuple

from ..base.errors import Full, SourceError, UdfburnError
from ..protocol import Code, Create, MakeDir, Path, limits
from ..protocol.units import Commit, Moment
from ..wire.operations import Operation, Outcome, clamped, now
from .catalogue import STATE_FULL, Catalogue, is_whole
from .claims import Claims
from .config import Config
from .errors import VolumeDiffers
from .job import VolumeJob
from .sending import Sending
from .tell import Tell, plural, shown_path
from .tree import PlannedTree
from .volume import OpenVolume, open_new, own_volumes

PLANNED_FILES, PLANNED_BYTES = 512, 64 * limits.FILE
"""Files, and their bytes, that are planned on a volume before they are sent."""

OPEN_TO_WRITE = 4
"""Open volumes of one run. The files of a folder go to the first that has room for all of them."""

OnKept = Callable[[List[VolumeJob], int], None]
"""Is called for files of which the catalogue has all, with the bytes that this run sent of them."""

Failed = Callable[[VolumeJob, str], None]
"""Is called for a file that was not stored, with the reason."""


class Filler:
    """The open volumes of a run."""

    def __init__(
        self, config: Config, catalogue: Catalogue, claims: Claims, tell: Tell, text: str, kept: OnKept, failed: Failed, library: bool = False,
    ):
        self.config, self.catalogue, self.claims, self.tell, self.text = config, catalogue, claims, tell, text
        self.kept, self.failed, self.library = kept, failed, library
        self.open: List[OpenVolume] = []
        self.planned: Dict[int, List[VolumeJob]] = {}
        self.weights: Dict[int, int] = {}
        self.sent: Dict[Path, int] = {}
        """The bytes that this run sent of files of which the archive has no more than parts."""
        self.refused: Dict[int, str] = {}
        """The volumes that this run does not use, and why."""
        self.after = Moment(0)
        """The run counts as begun after this moment, even where the clock is slow."""
        self._began: Optional[Moment] = None
        # What an earlier run left comes first, so that the catalogue has all that the volumes have.
        for volume in own_volumes(config, catalogue, claims, self.refused, library):
            self.open.append(volume)

    def close(self) -> None:
        """Gives the ledgers back."""
        for volume in self.open:
            volume.close()

    # ---- where files go

    def put(self, folder: Path, jobs: Sequence[VolumeJob]) -> None:
        """Plans the files of a folder: on one volume where they fit on one, else on as many as they take."""
        waiting = self._resumed(list(jobs))
        if not waiting:
            return
        sizes, names = [job.size() for job in waiting], [job.source.path[-1] for job in waiting]
        for volume in list(self.open):
            if volume.tree.fits(sizes, folder, names):
                waiting = self._plan_and_send(volume, waiting)
                break
        else:
            if PlannedTree.empty(self.config.capacity, self.config.nodes).fits(sizes, folder, names):
                waiting = self._plan_and_send(self._new(), waiting)
        # They are too many for one volume, or took more than was computed.
        while waiting:
            waiting = self._spill(waiting)

    def _resumed(self, jobs: List[VolumeJob]) -> List[VolumeJob]:
        """Goes on with files of which a volume has the first parts, or something unfinished, on that volume; gives what is left."""
        left: List[VolumeJob] = []
        for job in jobs:
            volume = next((volume for volume in self.open if has_begun(volume, job)), None)
            if volume is None:
                left.append(job if job.whole is None else job.again())
            else:
                onward = job.whole is not None
                left += self._plan_and_send(volume, [job], partly=onward, onward=onward)
        return left

    def _spill(self, jobs: List[VolumeJob]) -> List[VolumeJob]:
        """Plans files wherever the first of them fits, else on a new volume; gives those that are left."""
        for volume in list(self.open):
            left = self._plan_and_send(volume, jobs)
            if not left or left[0] is not jobs[0]:
                return left
        # Planned on nothing first, since a volume that was opened for nothing stays.
        if jobs[0].again().plan(PlannedTree.empty(self.config.capacity, self.config.nodes), True):
            left = self._plan_and_send(self._new(), jobs, partly=True)
            if not left or left[0] is not jobs[0]:
                return left
        elif not jobs[0].in_parts:
            return self._as_parts(jobs[0]) + jobs[1:]
        self.failed(jobs[0], f"{shown_path(jobs[0].source.path)}: does not fit on an empty volume of {self.config.capacity} blocks")
        return jobs[1:]

    def _as_parts(self, job: VolumeJob) -> List[VolumeJob]:
        """A file that no volume has room for, in parts; or the files of a bundle, one by one."""
        try:
            return job.otherwise()
        except SourceError as error:
            self.failed(job, str(error))
            return []

    def _plan_and_send(self, volume: OpenVolume, jobs: List[VolumeJob], partly: bool = False, onward: bool = False) -> List[VolumeJob]:
        """Plans files on a volume as long as they fit, and sends them where they are enough; gives those that are left."""
        for index, job in enumerate(jobs):
            self._mark(volume)
            if not job.plan(volume.tree, partly, volume.unfinished):
                return [job.again()] + jobs[index + 1 :] if onward else jobs[index:]
            volume.tree.settle()
            self.planned.setdefault(volume.row.number, []).append(job)
            self.weights[volume.row.number] = self.weights.get(volume.row.number, 0) + job.planned_bytes()
            rest = job.rest()
            if rest is not None or self._is_enough(volume):
                left = self.flush(volume)
                # What follows goes to another volume once this is stored: no volume has the last parts of a file alone.
                left += [rest] if rest is not None and job.stored() else []
                if left or volume not in self.open:
                    return left + jobs[index + 1 :]
            partly = False
        return []

    def _mark(self, volume: OpenVolume) -> None:
        """Plans the text that notes the run, before the first file."""
        if volume.marker is None:
            # One for all volumes of the run: whoever asks for the archive as it was at a moment gets all of the run, or nothing.
            if self._began is None:
                self._began = clamped(max(now(), self.after + 1))
            volume.plan_marker(self.text, self._began)

    def _is_enough(self, volume: OpenVolume) -> bool:
        return len(self.planned[volume.row.number]) >= PLANNED_FILES or self.weights[volume.row.number] >= PLANNED_BYTES

    def _new(self) -> OpenVolume:
        """A new volume. Where there are too many open ones, what waits for the fullest is sent, and it takes no more."""
        if len(self.open) >= OPEN_TO_WRITE:
            fullest = max(self.open, key=lambda volume: volume.tree.share())
            for job in self.flush(fullest):
                self.put(job.source.path[:-1], [job])
            if fullest in self.open:
                self._full(fullest)
        volume = open_new(self.config, self.catalogue, self.claims, self.library)
        self.open.append(volume)
        self.tell.say_step(f"opened {volume.row.label}", did="opened", volume=volume.row.label)
        return volume

    def _full(self, volume: OpenVolume) -> None:
        """Takes a volume as full."""
        volume.row = volume.row._replace(state=STATE_FULL)
        self.catalogue.save(volume.row)
        volume.close()
        self.open.remove(volume)
        self.tell.say_step(f"{volume.row.label} is full", did="full", volume=volume.row.label)

    def write_text(self, folder: str, data: bytes, most: int) -> Tuple[OpenVolume, Commit]:
        """Writes a text of this program's own into a folder beside the payload, on the first open volume that has room, and has no more than
        so many bytes there; gives that, and the commit. All that was planned is sent, and the catalogue is not told."""
        for volume in [*self.open, None]:
            volume = volume or self._new()
            if not volume.takes_text(folder, len(data), most):
                continue
            self._mark(volume)
            place = volume.tree.small((folder, f"{volume.runs:05}-{volume.last_commit}.txt"), len(data))
            if place is None:
                continue
            volume.tree.settle()
            marker = volume.take_marker()
            wanted = [marker] if marker is not None else []
            wanted += [Operation(MakeDir, path, volume.began) for path in place.folders] + [Operation(Create, place.path, volume.began, data)]
            try:
                for outcome in volume.client.run(wanted):
                    self._take(volume, outcome, [])
            except Full:
                self._full(volume)
                continue
            volume.resync()
            volume.texts[folder] = volume.texts.get(folder, 0) + len(data)
            return volume, volume.last_commit
        raise VolumeDiffers(f"a text of {len(data)} bytes does not fit on an empty volume of {self.config.capacity} blocks")

    # ---- sent

    def send(self) -> None:
        """Sends all that is planned."""
        while any(self.planned.values()):
            for volume in list(self.open):
                for job in self.flush(volume):
                    self.put(job.source.path[:-1], [job])

    def finish(self) -> None:
        """Sends all that is planned, and takes full volumes as full."""
        self.send()
        for volume in list(self.open):
            if volume.is_full():
                self._full(volume)

    def flush(self, volume: OpenVolume) -> List[VolumeJob]:
        """Sends what is planned on a volume; gives files for which the medium had no room, which is rarely any."""
        jobs = self.planned.pop(volume.row.number, [])
        self.weights[volume.row.number] = 0
        if not jobs:
            return []
        done: List[VolumeJob] = []
        full = False
        try:
            for outcome in Sending(volume, jobs).run():
                self._take(volume, outcome, done)
        except Full:
            full = True
        except Exception:
            # What the volume has acknowledged is in the catalogue before the command ends, where that can be written.
            with suppress(UdfburnError, OSError):
                self._keep(volume, done, cut_short(jobs))
            raise
        self._keep(volume, done, cut_short(jobs))
        return self._after(volume, jobs, full)

    def _after(self, volume: OpenVolume, jobs: List[VolumeJob], full: bool) -> List[VolumeJob]:
        """What is left of jobs that were sent; the volume is read again where not all went as planned."""
        volume.resync()
        left: List[VolumeJob] = []
        for job in jobs:
            for file, why in job.failures():
                self.failed(file, why)
            if job.failure is None and not job.stored():
                left.append(job.again())
        if full:
            self._full(volume)
        elif any(job.failure for job in jobs):
            volume.load()
            if volume.is_full():
                self._full(volume)
        elif left:
            raise VolumeDiffers(f"{volume.row.label}: gave no answer for {plural(len(left), 'file', 'files')}: run the command again")
        return left

    def _take(self, volume: OpenVolume, outcome: Outcome, done: List[VolumeJob]) -> None:
        """Takes the outcome of a request."""
        operation = outcome.operation
        volume.last_commit = outcome.commit
        if operation.tag is None:
            volume.marked(operation)
            if outcome.code is not Code.DONE and not (operation.kind is MakeDir and outcome.code is Code.EXISTS):
                raise VolumeDiffers(f"{volume.row.label}: {shown_path(operation.path)}: {outcome.code.name}: run the command again")
            return
        job, part = operation.tag
        if outcome.code is not Code.DONE:
            job.fail(f"{shown_path(job.source.path)}: {volume.row.label} refuses {shown_path(operation.path)}: {outcome.code.name}")
            return
        job.take(part, operation, outcome.commit)
        if job.stored():
            done.append(job)

    def _keep(self, volume: OpenVolume, done: List[VolumeJob], cut: Sequence[VolumeJob] = ()) -> None:
        """Has the catalogue keep what is stored, says so, and then calls whoever deletes sources."""
        if volume.last_commit == volume.row.last_commit:
            return
        self.claims.require()
        rows = [row for job in (*done, *cut) for row in job.rows(volume.row.number, volume.began)]
        fresh = sum(len(job.files()) for job in (*done, *cut) if job.begun == job.first)
        volume.row = volume.filled(volume.last_commit, volume.row.files + fresh)
        self.catalogue.add(volume.row, rows)
        for path, count in (each for job in (*done, *cut) for each in job.counts()):
            self.sent[path] = self.sent.get(path, 0) + count
        # A file is stored once all of it is: what follows may be on its way to another volume.
        ended = [job for job in done if not job.in_parts or job.rest() is None and is_whole(job.own_rows_in(self.catalogue))]
        whole = [file for job in ended for file in job.files()]
        sent = [self.sent.pop(job.source.path, 0) for job in whole]
        for job, count in zip(whole, sent):
            self.tell.step("stored", job.source.path, count, volume.row.label, job.commit)
        self.kept(whole, sum(sent))


def cut_short(jobs: Sequence[VolumeJob]) -> List[VolumeJob]:
    """Files of which a volume has only the first parts: what comes next goes on after them."""
    return [job for job in jobs if job.in_parts and job.commit and not job.stored()]


def has_begun(volume: OpenVolume, job: VolumeJob) -> bool:
    """Whether a volume has the first parts of a file, or something unfinished of it."""
    if job.whole is not None:
        return job.volume == volume.row.number
    return bool(volume.unfinished.sizes) and not job.in_parts and job.key() in volume.unfinished.sizes
