"""Deletes sources: last of all, and only what was just read and is seen to be on the volumes or their copies."""

from __future__ import annotations

from typing import Container, Dict, List, Optional, Sequence, Tuple

from ..base.errors import SourceError
from ..local.sources import Source, delete, shown
from .catalogue import Catalogue, Held, VolumeRow, is_whole
from .config import Config
from .job import VolumeJob
from .open_copies import GROWING, OpenCopies
from .places import Places


class Deleter:
    """Deletes what `archive.toml` allows: a file that a volume acknowledged, or one of a volume with enough copies."""

    def __init__(self, config: Config, catalogue: Catalogue):
        self.config, self.catalogue = config, catalogue
        self.places = Places(config, catalogue)
        self.copies: Optional[OpenCopies] = None
        """The copies of open volumes, where they are made in this run."""
        self.deleted = 0
        self.waiting: Dict[str, int] = {}
        """Files that stay, by why."""
        self.failures: List[str] = []
        self.refused: Container[int] = ()
        """Volumes that may be damaged: no source goes for what they have."""
        self._rows: Dict[int, Tuple[VolumeRow, Optional[str]]] = {}
        """Volumes that were looked up, and why no source may go for what is on them."""

    def close(self) -> None:
        self.places.close()

    def stored(self, jobs: Sequence[VolumeJob]) -> None:
        """Files of which the last bytes were stored just now: the catalogue has all of them."""
        if self.config.delete == "copied" and self.copies is None:
            self._stay("until their volumes are closed and copied: run 'close', and then this command again", len(jobs))
            return
        # What was read of a volume is older than what it has by now.
        self.places.close()
        self._rows.clear()
        for job in jobs:
            self.same(job.source, job.rows_in(self.catalogue))

    def same(self, source: Source, rows: Sequence[Held]) -> None:
        """A file that the archive has, by the catalogue's rows. The catalogue is not the truth, so its bytes and the source's are read and
        compared, and then the source goes."""
        shown_there: List[Held] = []
        whys: List[str] = []
        try:
            for row in rows:
                why = self._why_not(source, row)
                if why is not None:
                    whys.append(why)
                    continue
                shown_there.append(row)
                if is_whole(shown_there):
                    self._delete(source)
                    return
        except SourceError as error:
            self.failures.append(f"{error} (it was stored, and is not deleted)")
            return
        self._stay(whys[0] if whys else "since parts of them are on no volume: run this command again", 1)

    def _why_not(self, source: Source, held: Held) -> Optional[str]:
        """Why a row does not let its source go. That of a line asks for the bytes and for the line."""
        why = self._why_not_on(source, held, held.volume, False)
        return why if why is not None or held.noted is None else self._why_not_on(source, held, held.noted[0], True)

    def _why_not_on(self, source: Source, held: Held, number: int, line: bool) -> Optional[str]:
        """Why a volume does not show that it has the bytes of a row, or its line."""
        if number in self.refused:
            return f"since {self._label(number)} may be damaged"
        if number not in self._rows:
            volume = self.catalogue.volume(number)
            if volume is None:
                return f"since the catalogue lacks volume {number}"
            asked = self.config.delete == "copied" and self._growing(volume) is None
            self._rows[number] = volume, self.places.why_not_copied(volume) if asked else None
        volume, why = self._rows[number]
        copies = self._growing(volume)
        if why is None and copies is not None and self.config.delete == "copied":
            why = copies.why_not(source, held, volume, line)
        return why or (self.places.why_not_said(held, volume) if line else self.places.why_not(source, held, volume))

    def _growing(self, volume: VolumeRow) -> Optional[OpenCopies]:
        """The copies of a volume that this folder fills, where this run makes them."""
        return self.copies if volume.state in GROWING and volume.holder == self.config.id else None

    def _label(self, number: int) -> str:
        volume = self.catalogue.volume(number)
        return volume.label if volume is not None else f"volume {number}"

    def _stay(self, why: str, files: int) -> None:
        self.waiting[why] = self.waiting.get(why, 0) + files

    def _delete(self, source: Source) -> None:
        try:
            delete(source)
            self.deleted += 1
        except SourceError as error:
            self.failures.append(f"{error} (it was stored, and is not deleted)")
        except OSError as error:
            self.failures.append(f"{shown(source.local)}: {error.strerror} (it was stored, and is not deleted)")


__all__ = ["Deleter"]
