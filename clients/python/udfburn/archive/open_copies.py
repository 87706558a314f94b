"""Copies of volumes that are still filled: after each run of `add` they get what the images have more."""

from __future__ import annotations

import os
from bisect import bisect_right
from contextlib import contextmanager
from typing import Container, Dict, Iterator, List, NamedTuple, Optional, Sequence, Set, Tuple

from ..base.beneath import is_own, open_own
from ..local.sources import Source, shown
from ..protocol import limits
from ..protocol.units import Address, Commit
from .catalogue import STATE_CLOSING, STATE_FULL, STATE_OPEN, Catalogue, Held, VolumeRow
from .claims import Claims
from .config import Config
from .contents import Contents
from .errors import ArchiveError, CopyDiffers, CopyFailed, VolumeDiffers
from .lag import forget_seen, save_seen
from .places import Places
from .remotes import Remote, remote_of
from .tell import Tell, size

GROWING = (STATE_OPEN, STATE_FULL, STATE_CLOSING)
"""The states of a volume that is not closed and has files."""


class Image(NamedTuple):
    """An open image: its descriptor, the bytes up to the end of its last commit, which never change, and the last block of each commit."""

    path: str
    descriptor: int
    length: int
    last_commit: Commit
    ends: Sequence[Address]

    def commit_at(self, length: int) -> Commit:
        """The last commit of so many bytes."""
        return Commit(self.last_commit - len(self.ends) + bisect_right(self.ends, length // limits.BLOCK - 1))


@contextmanager
def opened_image(config: Config, row: VolumeRow) -> Iterator[Image]:
    """The image of a volume that nobody else writes, as its disk has it. `VolumeDiffers` where it is another volume, or an older copy."""
    path = config.path("open", row.label + ".img")
    with Contents(path) as contents:
        if (contents.label, contents.formatted, contents.capacity) != (row.label, row.formatted, row.capacity):
            raise VolumeDiffers(f"{shown(path)}: is not {row.label}: its label, moment of format or capacity differs")
        if contents.last_commit < row.last_commit:
            raise VolumeDiffers(f"{shown(path)}: has {contents.last_commit} commits, and {row.last_commit} were acknowledged: it is an older copy: bring the right one back")
        length, last_commit, ends = (contents.last_address + 1) * limits.BLOCK, contents.last_commit, contents.addresses
    descriptor = open_own(path)
    try:
        # What the system has in memory and may never write is not copied.
        os.fsync(descriptor)
        os.posix_fadvise(descriptor, 0, 0, os.POSIX_FADV_DONTNEED)
        yield Image(path, descriptor, length, last_commit, ends)
    finally:
        os.close(descriptor)


class OpenCopies:
    """The copies of the open volumes that this process has the claims on."""

    def __init__(self, config: Config, catalogue: Catalogue, claims: Claims, tell: Tell, places: Optional[Places] = None):
        self.config, self.catalogue, self.claims, self.tell = config, catalogue, claims, tell
        self.places = places or Places(config, catalogue)
        self.failures: List[str] = []
        self.made = 0
        self.refused: Container[int] = ()
        """Volumes that may be damaged."""
        self._remotes: Dict[str, Remote] = {}
        self._commits: Dict[int, int] = {}
        """The last commit that this run has sent or found there, by the number of its volume."""
        self._told: Dict[Tuple[int, str], str] = {}
        """Why a copy could not be made."""
        self._whole: Dict[Tuple[int, str], int] = {}
        """The last commit up to which this run has compared all bytes of a copy on a remote of rclone."""
        self.said: Set[Tuple[str, str]] = set()
        """Of which copies `check` has said what is wrong, by volume and remote."""

    def run(self) -> None:
        """Copies what each open volume of this folder has more, to each remote."""
        for row in self.rows():
            try:
                self.extend(row)
            except (ArchiveError, OSError) as error:
                self.failures.append(f"{row.label}: was not copied: {error}")
        self.failures += self._told.values()

    def troubles(self, row: VolumeRow) -> List[str]:
        """Why copies of a volume could not be made."""
        return [why for (number, _), why in self._told.items() if number == row.number]

    def rows(self) -> List[VolumeRow]:
        """The open volumes of this folder that this process has or can claim."""
        own = [row for row in self.catalogue.volumes() if self._is_ours(row)]
        return [row for row in own if self.config.copies and self.claims.try_volume(row.number)]

    def _is_ours(self, row: VolumeRow) -> bool:
        there = row.holder == self.config.id and row.state in GROWING and row.files > 0 and row.number not in self.refused
        return there and is_own(self.config.path("open", row.label + ".img"))

    def remote(self, name: str) -> Remote:
        """A place, which remembers in a run of rclone what it has read."""
        if name not in self._remotes:
            self._remotes[name] = remote_of(self.catalogue, name)
        return self._remotes[name]

    def extend(self, row: VolumeRow) -> None:
        """Copies what a volume has more to each remote."""
        if self._commits.get(row.number, -1) >= row.last_commit:
            return
        with opened_image(self.config, row) as image:
            for name in self.config.copies:
                self._told.pop((row.number, name), None)
                try:
                    self._extend(row, image, name)
                except CopyFailed as error:
                    self._forget(row, name, error)
                    self._told[row.number, name] = f"{row.label}: its copy on {name} was not made or lacks the newest files: {error}"
            self._commits[row.number] = image.last_commit
            # What was read of copies is older than what they have by now.
            self.places.close()

    def _extend(self, row: VolumeRow, image: Image, name: str) -> None:
        remote, base = self.remote(name), os.path.basename(image.path)
        if remote.grown(base) == image.length and not remote.is_file(image.path, base):
            save_seen(self.catalogue, row.number, name, image.last_commit, image.length)
            return
        self.tell.working(f"copying {row.label} to {name}")
        had = remote.extend(image.descriptor, base, image.length)
        save_seen(self.catalogue, row.number, name, image.last_commit, image.length)
        self.made += 1
        line = f"copied {size(image.length - had)} of {row.label} to {name}"
        self.tell.say_step(line, did="copied", volume=row.label, remote=name, bytes=image.length - had, commit=image.last_commit)

    def _forget(self, row: VolumeRow, name: str, error: CopyFailed) -> None:
        """Keeps nothing of a copy that is no beginning of the image. One that is away may be as it was."""
        if isinstance(error, CopyDiffers):
            forget_seen(self.catalogue, row.number, name)

    # ---- looked at

    def check(self, rows: Sequence[VolumeRow]) -> None:
        """Compares all bytes of the copies of open volumes; one that lacks what the image has is a failure too."""
        for row in rows:
            if not self._is_ours(row):
                continue
            if not self.claims.try_volume(row.number):
                self.tell.note(f"{row.label}: another process is writing it, and its copies were not checked", did="left", volume=row.label)
                continue
            try:
                with opened_image(self.config, row) as image:
                    for name in self.config.copies:
                        self._check(row, image, name)
            except (ArchiveError, OSError) as error:
                self.failures.append(f"{row.label}: its copies were not checked: {error}")

    def _check(self, row: VolumeRow, image: Image, name: str) -> None:
        self.tell.working(f"reading {row.label} on {name}")
        try:
            had = self.remote(name).begun(image.descriptor, os.path.basename(image.path), image.length)
        except CopyFailed as error:
            self._forget(row, name, error)
            self.said.add((row.label, name))
            self.failures.append(f"{row.label}: {error}: 'repair {row.label}'")
            return
        self.made += 1
        if had is None or had > image.length:
            forget_seen(self.catalogue, row.number, name)
        else:
            save_seen(self.catalogue, row.number, name, image.commit_at(had), had)
        trouble = None
        if had is None:
            trouble = "is not there"
        elif had > image.length:
            trouble = "has more than the image, which is an older copy or was cut short"
        elif had < image.length:
            trouble = f"lacks the last {size(image.length - had)}"
        if trouble:
            self.said.add((row.label, name))
            self.failures.append(f"{row.label}: the copy on {name} {trouble}: 'udfburn-archive copy'")
        self.tell.say_step(f"{row.label} on {name}: {trouble or 'is intact'}", did="checked", volume=row.label, remote=name, trouble=trouble)

    # ---- asked before a source goes

    def why_not(self, source: Source, held: Held, row: VolumeRow, line: bool = False) -> Optional[str]:
        """Why not as many copies as are wanted show now that they have the bytes of a source, or the line of its row; None where they do.
        Copies in folders are read. Those of rclone are compared as a whole with the image, once a run, by the SHA-256 that the remote gives or by all bytes."""
        wanted = self.config.wanted
        if row.number in self.refused or not self._is_ours(row) or not self.claims.try_volume(row.number):
            return f"until {row.label} is closed and on {wanted} remotes"
        try:
            self.extend(row)
        except (ArchiveError, OSError) as error:
            return f"since {row.label} cannot be copied: {error}"
        good: List[str] = []
        told: List[str] = []
        for name in self.config.copies:
            if len(good) < wanted:
                why = self._why_no_copy(source, held, row, name, good, line)
                if why is None:
                    good.append(name)
                else:
                    told.append(why)
        return None if len(good) >= wanted else f"until {row.label} is on {wanted} remotes" + "".join(f"; {why}" for why in told)

    def _why_no_copy(self, source: Source, held: Held, row: VolumeRow, name: str, others: Sequence[str], line: bool) -> Optional[str]:
        if (row.number, name) in self._told:
            return self._told[row.number, name]
        remote, base = self.remote(name), row.label + ".img"
        path = remote.path_of(base)
        try:
            remote.require_own()
            if path is None:
                return self._why_not_whole(held.written()[1] if line else held.commit, row, name)
        except (ArchiveError, OSError) as error:
            return str(error)
        if not is_own(path):
            return f"the copy on {name} is no regular file"
        if remote.is_file(self.config.path("open", base), base) or any(self.remote(other).is_file(path, base) for other in others):
            return f"the copy on {name} is the file of the image, or of another copy"
        has = self.places.says_on(path, held) if line else self.places.shows(path, source, held)
        return None if has else f"the copy on {name} does not have them: 'check --remotes'"

    def _why_not_whole(self, commit: int, row: VolumeRow, name: str) -> Optional[str]:
        """Why a remote of rclone does not have all of an image up to a commit."""
        if self._whole.get((row.number, name), -1) < commit:
            with opened_image(self.config, row) as image:
                if self.remote(name).begun(image.descriptor, os.path.basename(image.path), image.length) != image.length:
                    return f"the copy on {name} lacks the newest files"
                self._whole[row.number, name] = image.last_commit
        return None if self._whole[row.number, name] >= commit else f"the copy on {name} lacks the newest files"


__all__ = ["GROWING", "Image", "OpenCopies", "opened_image"]
