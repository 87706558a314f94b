"""The volumes that can be read now: which images have the bytes of a version, and their files."""

from __future__ import annotations

from typing import Dict, List, Optional, Sequence, Tuple

from .catalogue import STATE_RETIRED, Catalogue, Held, VolumeRow, is_whole
from .config import Config, volume_label
from .contents import Contents, File
from .places import readable

OPEN_TO_SHOW = 4
"""The volumes that are kept open."""

Way = List[Tuple[Held, str]]
"""The rows of a version, each with the image that its bytes come from."""


class Reach:
    """Where the bytes of volumes are: in the image at hand, and in its copies in folders."""

    def __init__(self, config: Config, catalogue: Catalogue):
        self.config, self.catalogue = config, catalogue
        self._rows: Dict[int, Optional[VolumeRow]] = {}
        self._at: Dict[int, List[str]] = {}
        self._open: Dict[str, Tuple[Contents, Dict[int, File]]] = {}

    def close(self) -> None:
        """Closes the images."""
        for contents, _ in self._open.values():
            contents.close()
        self._open = {}

    def look_again(self) -> None:
        """Forgets where volumes were, since they may be elsewhere by now."""
        self._rows, self._at = {}, {}

    def row(self, number: int) -> Optional[VolumeRow]:
        """What the catalogue keeps of a volume."""
        if number not in self._rows:
            self._rows[number] = self.catalogue.volume(number)
        return self._rows[number]

    def label(self, number: int) -> str:
        """How a volume is called."""
        row = self.row(number)
        return row.label if row is not None else volume_label(self.config.label, number)

    def images(self, number: int) -> List[str]:
        """Where a volume can be read now: its image, then its copies in folders."""
        row = self.row(number)
        if number not in self._at and row is not None:
            self._at[number] = readable(self.config, self.catalogue, row)
        return self._at.get(number, [])

    def ways(self, rows: Sequence[Held]) -> List[Way]:
        """From which images the bytes of a version may come, the likeliest first. A file that is whole on a volume comes from any that has
        it; one in parts from all of them together."""
        at_hand = [row for row in rows if self.images(row.volume)]
        sound = [row for row in at_hand if self._is_sound(row.volume)]
        ways: List[Way] = [[(row, image)] for row in dict.fromkeys(sound + at_hand) if row.parts is None for image in self.images(row.volume)]
        for found in (sound, at_hand):
            group = [row for row in found if row.parts is not None]
            if group and is_whole(group):
                for index in range(max(len(self.images(row.volume)) for row in group)):
                    ways.append([(row, self.images(row.volume)[: index + 1][-1]) for row in group])
        return ways

    def _is_sound(self, number: int) -> bool:
        row = self.row(number)
        return row is not None and row.trouble is None and row.state != STATE_RETIRED

    def volume(self, image: str) -> Tuple[Contents, Dict[int, File]]:
        """A volume and its files by their commits. A few are kept open: those that were asked for last."""
        found = self._open.pop(image, None)
        if found is None:
            if len(self._open) >= OPEN_TO_SHOW:
                self.drop(next(iter(self._open)))
            contents = Contents(image)
            try:
                found = contents, {file.commit: file for file in contents.files()}
            except BaseException:
                contents.close()
                raise
        self._open[image] = found
        return found

    def drop(self, image: str) -> None:
        """Closes an image, as after a failure: another file may have its name by now."""
        found = self._open.pop(image, None)
        if found is not None:
            found[0].close()


__all__ = ["Reach", "Way"]
