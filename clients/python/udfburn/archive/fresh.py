"""What of local files the archive has already, as they are now."""

from __future__ import annotations

from typing import Dict, List, Optional, Tuple

from ..local.sources import Source
from .catalogue import STATE_CLOSED, STATE_RETIRED, Catalogue, Held, VolumeRow, is_whole, versions
from .job import VolumeJob, digest_of
from .places import Places
from .seen import Seen


class Fresh:
    """Local files beside the rows of a catalogue. With `seen` a file that was read before is not read again while its times are the same; with
    `again` a line that another file has the bytes does not count."""

    def __init__(self, catalogue: Catalogue, places: Places, seen: Optional[Seen], again: bool = False):
        self.catalogue, self.places, self.seen, self.again = catalogue, places, seen, again
        self._volumes: Dict[int, Optional[VolumeRow]] = {}

    def close(self) -> None:
        if self.seen is not None:
            self.seen.close()

    def compared(self, source: Source, rows: List[Held]) -> Tuple[VolumeJob, List[Held]]:
        """A file as it would be stored, and the rows, of those that its path has, which have its size, its moment and its bytes. A version that
        is there again after another one has none: it is added anew, by a line where the archive has its bytes."""
        job = VolumeJob(source)
        alike = [row for row in rows if (row.size, row.moment) == (source.identity.size, source.moment())]
        if alike or job.in_parts:
            job.digest = self._digest(source)
        same = [row for row in alike if row.sha256 == job.digest and self._counts(source, row)]
        is_older = bool(same) and is_whole(same) and versions(rows)[0][0].version() != same[0].version()
        return job, [] if is_older else same

    def _digest(self, source: Source) -> bytes:
        found = self.seen.digest(source) if self.seen is not None else None
        if found is None:
            found = digest_of(source)
            self.stored(source, found)
        return found

    def stored(self, source: Source, digest: bytes) -> None:
        """Remembers a file that was read just now."""
        if self.seen is not None:
            self.seen.keep(source, digest)

    def _counts(self, source: Source, row: Held) -> bool:
        """Whether the archive has what a row says. A volume that was retired does not count. Of one that is damaged what can be seen does."""
        if row.noted is not None and (self.again and not row.is_member() or not row.there or not self._says(row)):
            return False
        volume = self._volume(row.volume)
        if volume is None or volume.state != STATE_CLOSED or volume.trouble is None:
            return volume is None or volume.state != STATE_RETIRED
        return self.places.has(source, row, volume)

    def _says(self, row: Held) -> bool:
        """Whether the volume with a row's line counts."""
        volume = self._volume(row.written()[0])
        if volume is None or volume.state != STATE_CLOSED or volume.trouble is None:
            return volume is None or volume.state != STATE_RETIRED
        return self.places.says(row, volume)

    def _volume(self, number: int) -> Optional[VolumeRow]:
        if number not in self._volumes:
            self._volumes[number] = self.catalogue.volume(number)
        return self._volumes[number]


__all__ = ["Fresh"]
