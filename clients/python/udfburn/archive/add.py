"""Stores trees: what is there already is left alone, the rest goes to open volumes."""

from __future__ import annotations

import os
import socket
from contextlib import closing, suppress
from typing import Iterable, List, NamedTuple, Optional, Sequence, Tuple

from ..base.errors import SourceError
from ..local.sources import Source, shown
from ..protocol import Path, limits
from ..protocol.units import Commit, Moment
from ..wire.operations import now
from .bundling import in_bundles
from .catalogue import Catalogue, Held, VolumeRow, image_of, is_whole
from .claims import claims_of
from .config import Config, volume_label
from .contents import GONE, Contents
from .delete import Deleter
from .deletions import DELETION_TEXTS_BYTES, deletion_texts, insert_events, last_since
from .departed import Departed
from .errors import CannotStore, VolumeDiffers
from .exclude import Rules
from .fill import Filler
from .fresh import Fresh
from .job import VolumeJob, file_of_row, has_same_parts
from .names import kept_name, stored_folder, stored_part_name
from .open_copies import OpenCopies
from .repeats import LineToWrite, Repeats
from .scan import ScannedFolder, Walk
from .seen import Seen
from .tell import Tell, plural, printed_path, shown_path, stamp


class AddOptions(NamedTuple):
    """How trees are stored."""

    delete_source: bool = False
    skip_odd: bool = False
    rules: Rules = Rules()
    trust_times: bool = False
    """Whether a file counts as read if an earlier run read it, and its times are the same."""
    deletions: bool = False
    """Whether files that are not there any more are recorded as deleted."""
    copies: bool = True
    """Whether the remotes get what open volumes have more."""
    again: bool = False
    """Whether files are stored also if the archive has their bytes."""
    bundle: bool = False
    """Whether the small files of a folder are stored in bundles, where they are many."""
    library: bool = False
    """Whether volumes are written in this process, with the C library."""


class AddSummary:
    """What a run did."""

    def __init__(self) -> None:
        self.files = self.bytes = self.same = self.same_as = self.deleted = self.empty = self.excluded = self.gone = self.back = 0
        self.failures: List[str] = []
        self.skipped: List[str] = []


def run_text(wanted: Iterable[Tuple[str, Path]]) -> str:
    """The text that notes a run on a volume."""
    lines = [f"began: {stamp(now())}", f"machine: {socket.gethostname()}"]
    lines += [f"added: {shown(os.path.abspath(local))} at {shown_path(path)}" for local, path in wanted]
    text = "\n".join(lines)
    return (text if len(text) < 1500 else text[:1500] + " ..") + "\n"


class Adder:
    """A run of `add`."""

    def __init__(self, config: Config, catalogue: Catalogue, options: AddOptions, tell: Tell):
        self.config, self.catalogue, self.options, self.tell = config, catalogue, options, tell
        self.summary = AddSummary()
        self.deleter = Deleter(config, catalogue)
        self.departed = Departed(catalogue, options.rules)
        self.fresh = Fresh(catalogue, self.deleter.places, Seen(config) if options.trust_times else None, options.again)
        self.repeats = Repeats(config, catalogue, self._noted, options.again, options.trust_times)

    def run(self, wanted: Sequence[Tuple[str, Path]]) -> AddSummary:
        """Stores local files and folders."""
        claims = claims_of(self.catalogue.base, self.config.path("locks"), self.config.catalogue)
        with closing(claims):
            for _, path in sorted(wanted, key=lambda pair: pair[1]):
                claims.path(path)
            filler = Filler(
                self.config, self.catalogue, claims, self.tell, run_text(wanted), self._kept, self._failed, self.options.library,
            )
            filler.after = self._last_added(path for _, path in wanted)
            self.summary.failures += filler.refused.values()
            self.deleter.refused = self.repeats.content.refused = filler.refused
            copies = OpenCopies(self.config, self.catalogue, claims, self.tell, self.deleter.places)
            copies.refused = filler.refused
            self.deleter.copies = copies if self.options.copies else None
            with closing(filler), closing(self.deleter), closing(self.fresh):
                for local, path in wanted:
                    self._below(local, path, filler)
                self.repeats.finish(filler)
                filler.finish()
                self._record(filler)
                if self.options.copies:
                    copies.run()
                    self.summary.failures += copies.failures
        self.summary.deleted = self.deleter.deleted
        self.summary.failures += self.repeats.failures + self.deleter.failures
        return self.summary

    def _last_added(self, paths: Iterable[Path]) -> Moment:
        """The latest moment at which something there was added: what comes now is newer, though this machine's clock may be slow."""
        latest = Moment(0)
        for path in paths:
            # A path that cannot be stored is reported with its files.
            with suppress(CannotStore):
                latest = max(latest, self.catalogue.last_added(path), last_since(self.catalogue, path))
        return latest

    def _below(self, local: str, path: Path, filler: Filler) -> None:
        walk = Walk(self.config.folder, self.options.rules, self.config.copies, self.config.label)
        self.departed.begin()
        for found in walk.below(local, path):
            self.departed.found(found)
            jobs = self._fresh_jobs(found, filler)
            if self.options.bundle:
                jobs = in_bundles(jobs, self.config.capacity)
            if jobs:
                filler.put(found.folder, jobs)
        if self.options.deletions and not walk.faults:
            self.departed.end(path, walk.left_out)
        (self.summary.skipped if self.options.skip_odd else self.summary.failures).extend(walk.odd)
        self.summary.failures += walk.faults
        self.summary.empty += walk.empty
        self.summary.excluded += walk.excluded

    def _record(self, filler: Filler) -> None:
        """Writes what was deleted at its source, and what is there again, onto a volume, and into the catalogue."""
        self.summary.failures += self.departed.failures
        for data, events in deletion_texts(self.departed.events):
            volume, commit = filler.write_text(GONE, data, DELETION_TEXTS_BYTES)
            filler.claims.require()
            kept = [event._replace(volume=volume.row.number, commit=commit, since=volume.began) for event in events]
            volume.row = volume.filled(commit, volume.row.files)
            with self.catalogue.base.transaction():
                insert_events(self.catalogue, kept)
                self.catalogue.save(volume.row)
            for event in kept:
                self.summary.gone += not event.back
                self.summary.back += event.back
                line = f"{'there again' if event.back else 'deleted'} {printed_path(event.path)} {volume.row.label}"
                self.tell.say_step(line, did="back" if event.back else "gone", path=shown_path(event.path), volume=volume.row.label, commit=commit)

    # ---- what became of files

    def _kept(self, jobs: List[VolumeJob], count: int) -> None:
        """The catalogue has all of files."""
        self.summary.files += len(jobs)
        self.summary.bytes += count
        for job in jobs:
            self.fresh.stored(job.source, job.digest)
        self.repeats.kept(jobs)
        if self.options.delete_source:
            self.deleter.stored(jobs)

    def _failed(self, job: VolumeJob, why: str) -> None:
        self.repeats.failed(job)
        self.summary.failures.append(why)

    def _noted(self, lines: List[LineToWrite], commit: Commit, label: str) -> None:
        """The catalogue has the lines of files."""
        self.summary.same_as += len(lines)
        for line in lines:
            self.fresh.stored(line.job.source, line.job.digest)
            self.tell.same_as(line.entry.rows[0], [volume_label(self.config.label, row.volume) for row in line.entry.rows], label, commit)
        if self.options.delete_source:
            self.deleter.stored([line.job for line in lines])

    # ---- what is there

    def _fresh_jobs(self, found: ScannedFolder, filler: Filler) -> List[VolumeJob]:
        """The files of a folder that are to be stored. Of the others, lines are written once enough wait."""
        fresh: List[VolumeJob] = []
        try:
            stored_folder(found.folder)
            known = self.catalogue.in_folder(found.folder)
        except CannotStore as error:
            self.summary.failures.append(f"{error} ({plural(len(found.files), 'file is', 'files are')} not stored)")
            return []
        for source in found.files:
            try:
                kept_name(source.path[-1])
                job = self._fresh(source, known.get(source.path[-1], []), filler)
            except (SourceError, CannotStore) as error:
                self.summary.failures.append(str(error))
                continue
            if job is not None:
                fresh.append(job)
            if self.repeats.is_due():
                self.repeats.write(filler)
        return fresh

    def _fresh(self, source: Source, rows: List[Held], filler: Filler) -> Optional[VolumeJob]:
        """What is to be stored of a file; None where the archive has it, by its size, its moment and its digest, or where a line says where its bytes are."""
        job, same = self.fresh.compared(source, rows)
        if not same or not is_whole(same):
            return None if self.repeats.takes_over(job) else self._go_on(job, same, filler)
        self.summary.same += 1
        self.departed.same(source.path, same)
        self.tell.step("same", source.path, source.identity.size)
        if self.options.delete_source:
            self.deleter.same(source, same)
        return None

    def _go_on(self, job: VolumeJob, rows: List[Held], filler: Filler) -> VolumeJob:
        """Goes on with a file of which an earlier run stored the first parts, as far as volumes at hand show them."""
        for row in sorted((row for row in rows if row.noted is None), key=lambda row: row.first or 0):
            volume = self.catalogue.volume(row.volume)
            if row.first != job.first or volume is None or not self._continue(job, row, volume):
                break
            if row.volume not in [other.row.number for other in filler.open]:
                job = VolumeJob(job.source, job.digest, job.first, True)
        return job

    def _continue(self, job: VolumeJob, row: Held, volume: VolumeRow) -> bool:
        """Has a job go on after the parts of a row, where the volume has them as the source has."""
        image = image_of(self.config, volume)
        if image is None:
            return False
        try:
            with closing(Contents(image)) as contents:
                file = file_of_row(contents, row)
                if file is None or file.parts != row.parts or not has_same_parts(job.source, contents, file):
                    return False
                first = (row.first or 0) + (row.parts or 0)
                if file.whole + (stored_part_name(first * limits.FILE),) in contents.nodes:
                    # What has the name of the next part is none of this file.
                    return False
        except VolumeDiffers:
            return False
        job.whole, job.commit, job.volume, job.added, job.in_parts = file.whole, row.commit, row.volume, row.added, True
        job.begun, job.first = row.first or 0, first
        return True
