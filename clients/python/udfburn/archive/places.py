"""Where the bytes of volumes are now: on the image at hand, else on a copy in a folder, else on a remote that says so when it is asked.

The catalogue says where to look. What it says of bytes counts for nothing here.
"""

from __future__ import annotations

import os
from contextlib import suppress
from hashlib import sha256
from itertools import zip_longest
from typing import Callable, Dict, Iterator, List, Optional, Sequence, Set

from ..base.beneath import is_own
from ..local.sources import Source, read_parts, shown
from .catalogue import STATE_CLOSED, STATE_RETIRED, Catalogue, Copy, Held, VolumeRow, image_of, mebibytes_of, odd_image
from .config import Config
from .contents import Contents, File
from .errors import CopyFailed, VolumeDiffers
from .job import digest_of, has_same_parts
from .remotes import Print, remote_of
from .same import rows_on

OPEN_TO_READ = 4
"""Volumes that are kept open to be read."""


class Reading:
    """A volume as it is read now: its files by their commits."""

    def __init__(self, image: str):
        settle(image)
        self.contents = Contents(image)
        self._lines: Optional[Set[Held]] = None
        try:
            self._place = self._found()
            self.files: Dict[int, File] = {file.commit: file for file in self.contents.files()}
        except BaseException:
            self.contents.close()
            raise

    def _found(self) -> "tuple[int, int]":
        status = os.stat(self.contents.image)
        return status.st_dev, status.st_ino

    def says(self, held: Held) -> bool:
        """Whether a text of the volume has the line of a row."""
        if self._lines is None:
            self._lines = set(rows_on(self.contents, self.contents.about().number))
        return held._replace(there=True) in self._lines

    def holds(self, held: Held) -> bool:
        """Whether all bytes of a row, which has the file as a whole, have its SHA-256, read now."""
        file, whole = self.files.get(held.commit), sha256()
        if file is None or held.parts is not None or file.path != held.stored_as():
            return False
        for piece in self.contents.pieces_of_row(file, held):
            whole.update(piece)
        return whole.digest() == held.sha256

    def is_there(self) -> bool:
        """Whether the image still has its name: one that is gone can be read as long as it is open."""
        try:
            return self._found() == self._place
        except OSError:
            return False

    def has(self, source: Source, held: Held) -> bool:
        """Whether the bytes of a row are those of its source, both read now; `SourceError` where the source cannot be read as it was."""
        file = self.files.get(held.commit)
        if held.start is not None:
            return file is not None and file.path == held.stored_as() and has_same_bytes(source, self.contents.pieces_of_row(file, held))
        if file is None or (file.path, file.size, file.first, file.parts) != (held.stored_as(), held.size, held.first, held.parts):
            return False
        # A line has a moment of its own.
        if held.noted is None and file.moment != held.moment:
            return False
        if held.parts is not None:
            return file.sha256 == held.sha256 and has_same_parts(source, self.contents, file)
        return has_same_bytes(source, self.contents.pieces(file))

    def close(self) -> None:
        self.contents.close()


def has_same_bytes(source: Source, pieces: Iterator[bytes]) -> bool:
    """Whether a source has these bytes, and no others."""
    return all(one == other for one, other in zip_longest(read_parts(source), pieces))


def settle(image: str) -> None:
    """Has what is read of an image come from its disk, and not from what the system has in memory and may never write."""
    try:
        descriptor = os.open(image, os.O_RDONLY | os.O_NONBLOCK | os.O_CLOEXEC)
        try:
            os.fsync(descriptor)
            os.posix_fadvise(descriptor, 0, 0, os.POSIX_FADV_DONTNEED)
        finally:
            os.close(descriptor)
    except OSError as error:
        raise VolumeDiffers(f"{shown(image)}: {error.strerror or error}") from error


def readable(config: Config, catalogue: Catalogue, volume: VolumeRow) -> List[str]:
    """The paths at which a volume can be read now: the image at hand, then copies in folders. Another machine may have named the folder
    otherwise, so those of this one are looked at too."""
    image, name = image_of(config, volume), volume.label + ".img"
    found = [] if image is None else [image]
    if volume.state in (STATE_CLOSED, STATE_RETIRED):
        copies = sorted(catalogue.copies(volume.number), key=lambda copy: copy.trouble is not None)
        for remote in filter(os.path.isabs, dict.fromkeys([copy.remote for copy in copies] + list(config.copies))):
            path = remote_of(catalogue, remote).path_of(name)
            if path is not None and os.path.isfile(path) and os.path.realpath(path) not in [os.path.realpath(other) for other in found]:
                found.append(path)
    return found


class Places:
    """The places that have volumes, each looked at when it is first asked for."""

    def __init__(self, config: Config, catalogue: Catalogue):
        self.config, self.catalogue = config, catalogue
        self._open: Dict[str, Reading] = {}
        self._said: Dict[int, Optional[str]] = {}
        """What remotes said of whole volumes: why they do not have one, or None."""

    def close(self) -> None:
        for reading in self._open.values():
            reading.close()
        self._open = {}

    def why_not(self, source: Source, held: Held, volume: VolumeRow) -> Optional[str]:
        """Why nothing shows now that a volume has the bytes of a source; None where something does."""
        return self._why_not(held, volume, lambda path: self._has(path, source, held), lambda: digest_of(source) == held.sha256)

    def why_not_said(self, held: Held, volume: VolumeRow) -> Optional[str]:
        """Why nothing shows now that a volume has the line of a row."""
        return self._why_not(held._replace(parts=None), volume, lambda path: self.says_on(path, held), lambda: True)

    def _why_not(self, held: Held, volume: VolumeRow, shows: Callable[[str], bool], is_as_read: Callable[[], bool]) -> Optional[str]:
        """Why no image or copy shows now that it has what is asked for. Copies are looked at only where no image is at hand: one that is
        damaged, or has a link in its place, is repaired before sources go."""
        image = image_of(self.config, volume)
        if image is not None:
            return None if shows(image) else f"since {volume.label} does not have them as they were stored: check it"
        if odd_image(self.config, volume) is not None:
            return f"since {volume.label} has no regular file as its image: 'repair {volume.label}'"
        copies = [copy for copy in self.catalogue.on_remotes(volume.number) if copy.trouble is None]
        for copy in copies:
            path = self._in_folder(volume, copy)
            if path is not None:
                return None if shows(path) else f"since the copy of {volume.label} on {copy.remote} does not have them: 'check --remotes'"
        why = self._why_not_remote(held, volume, [copy.remote for copy in copies if not os.path.isabs(copy.remote)])
        return why if why is not None or is_as_read() else f"since {volume.label} does not have them as they were stored: check it"

    def has(self, source: Source, held: Held, volume: VolumeRow) -> bool:
        """Whether some place shows now that a volume has the bytes of a source."""
        if any(self._has(path, source, held) for path in readable(self.config, self.catalogue, volume)):
            return True
        return self._why_not_remote(held, volume, self._others(volume)) is None

    def says(self, held: Held, volume: VolumeRow) -> bool:
        """Whether some place shows now that a volume has the line of a row."""
        if any(self.says_on(path, held) for path in readable(self.config, self.catalogue, volume)):
            return True
        return self._why_not_remote(held._replace(parts=None), volume, self._others(volume)) is None

    def holds(self, held: Held, volume: VolumeRow) -> bool:
        """Whether an image or a copy in a folder shows now that a volume has all bytes of a row."""
        for path in readable(self.config, self.catalogue, volume):
            with suppress(VolumeDiffers):
                if self._reading(path).holds(held):
                    return True
        return False

    def _others(self, volume: VolumeRow) -> List[str]:
        """The remotes with copies of a volume that are no folders."""
        return [copy.remote for copy in self.catalogue.on_remotes(volume.number) if not os.path.isabs(copy.remote)]

    def shows(self, image: str, source: Source, held: Held) -> bool:
        """Whether an image shows now that it has the bytes of a source."""
        return self._has(image, source, held)

    def says_on(self, image: str, held: Held) -> bool:
        """Whether an image shows now that it has the line of a row."""
        try:
            return self._reading(image).says(held)
        except VolumeDiffers:
            return False

    def _in_folder(self, volume: VolumeRow, copy: Copy) -> Optional[str]:
        """The path of a copy in a folder that is there now."""
        try:
            remote = remote_of(self.catalogue, copy.remote)
            path = remote.path_of(volume.label + ".img")
            if path is not None and is_own(path):
                remote.require_own()
                return path
        except CopyFailed:
            pass
        return None

    def _has(self, image: str, source: Source, held: Held) -> bool:
        try:
            return self._reading(image).has(source, held)
        except VolumeDiffers:
            return False

    def _reading(self, image: str) -> Reading:
        reading = self._open.get(image)
        if reading is not None and not reading.is_there():
            self._open.pop(image).close()
            reading = None
        if reading is None:
            if len(self._open) >= OPEN_TO_READ:
                self._open.pop(next(iter(self._open))).close()
            reading = self._open[image] = Reading(image)
        return reading

    def _why_not_remote(self, held: Held, volume: VolumeRow, names: Sequence[str]) -> Optional[str]:
        """Why no remote that is no folder shows that it has a volume."""
        if volume.state != STATE_CLOSED or not names:
            return f"since {volume.label} is not at hand"
        if held.parts not in (None, mebibytes_of(held.size)):
            # Whose parts they are only the bytes of all the volumes say.
            return f"since {volume.label}, which has parts of them, is on {names[0]} alone: 'repair {volume.label}' brings it back"
        if volume.number not in self._said:
            self._said[volume.number] = self._ask(volume, names)
        return self._said[volume.number]

    def _ask(self, volume: VolumeRow, names: Sequence[str]) -> Optional[str]:
        told: List[str] = []
        for name in names:
            try:
                found = remote_of(self.catalogue, name).ask(volume.label + ".img")
            except CopyFailed as error:
                told.append(str(error))
                continue
            if found == Print(volume.length or 0, volume.sha256 or b""):
                return None
            told.append(f"the copy on {name} {'is not there' if found is None else 'is not as it was closed'}")
        return f"since {volume.label} is not at hand, and {'; '.join(told)}"

    def why_not_copied(self, volume: VolumeRow) -> Optional[str]:
        """Why a volume does not count as copied: each copy that counts is asked now whether it is there, with its length."""
        wanted = self.config.wanted
        if volume.state == STATE_RETIRED:
            return f"since {volume.label} is retired"
        if volume.state != STATE_CLOSED:
            return f"until {volume.label} is closed and on {wanted} remotes"
        good: List[Optional[str]] = []
        told: List[str] = []
        for copy in self.catalogue.on_remotes(volume.number):
            if len(good) < wanted and copy.trouble is None and copy.remote in self.config.copies:
                why = self._why_no_copy(volume, copy, good)
                if why is None:
                    good.append(remote_of(self.catalogue, copy.remote).path_of(volume.label + ".img"))
                else:
                    told.append(why)
        if len(good) >= wanted:
            return None
        return f"until {volume.label} is closed and on {wanted} remotes" + "".join(f"; {why}" for why in told)

    def _why_no_copy(self, volume: VolumeRow, copy: Copy, others: Sequence[Optional[str]]) -> Optional[str]:
        """Why a copy does not count beside others, of which those in folders have paths."""
        name, image = volume.label + ".img", image_of(self.config, volume)
        try:
            remote = remote_of(self.catalogue, copy.remote)
            remote.require_own()
            length = remote.length(name)
        except CopyFailed as error:
            return str(error)
        if image is not None and remote.is_file(image, name):
            why = "is the image itself: remove its name there, then"
        elif any(other is not None and remote.is_file(other, name) for other in others):
            why = "is the file of another copy: remove its name there, then"
        elif length != volume.length:
            why = "is not there:" if length is None else "has another length:"
        else:
            return None
        return f"the copy on {copy.remote} {why} 'repair {volume.label}'"


__all__ = ["Places", "Reading", "has_same_bytes", "readable"]
