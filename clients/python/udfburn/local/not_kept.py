"""What a volume does not keep of local files and folders: what `get` by the same user would not bring back."""

from __future__ import annotations

import os
import stat
from typing import Dict

from ..wire.operations import clamped

FILE_MODE, FOLDER_MODE = 0o666, 0o777
"""The modes of new files and folders, before the user's mask."""


def current_umask() -> int:
    """The rights that new files do not get."""
    mask = os.umask(0)
    os.umask(mask)
    return mask


class NotKept:
    """Counts of what is not kept."""

    def __init__(self) -> None:
        self.modes = self.owners = self.hard_links = self.moments = self.folder_times = self.newer = 0
        self._mask = current_umask()
        self._owner = (os.geteuid(), os.getegid())

    def add_file(self, status: os.stat_result) -> None:
        """Counts what is not kept of a file."""
        self._add(status, FILE_MODE)
        self.hard_links += status.st_nlink > 1
        self.moments += clamped(status.st_mtime_ns // 1000) != status.st_mtime_ns // 1000

    def add_folder(self, status: os.stat_result) -> None:
        """Counts what is not kept of a folder: its moment on the volume is that of its last change there."""
        self._add(status, FOLDER_MODE)
        self.folder_times += 1

    def _add(self, status: os.stat_result, mode: int) -> None:
        self.modes += stat.S_IMODE(status.st_mode) != mode & ~self._mask
        self.owners += (status.st_uid, status.st_gid) != self._owner

    def counts(self) -> Dict[str, int]:
        """Each count that is not 0, by its name."""
        return {name: count for name, count in vars(self).items() if not name.startswith("_") and count}


NOT_KEPT_WORDS = {
    "modes": "the modes of {}",
    "owners": "the owners of {}",
    "hard_links": "the hard links of {} (each name is a file of its own)",
    "moments": "{} outside 1970 to 2099 (the nearest one is stored)",
    "folder_times": "the times of {}",
    "newer": "the new moments of {} with the same bytes (--rewrite stores them)",
}
NOUNS = {
    "modes": ("file or folder", "files or folders"), "owners": ("file or folder", "files or folders"), "hard_links": ("file", "files"),
    "moments": ("moment", "moments"), "folder_times": ("folder", "folders"), "newer": ("file", "files"),
}


def line(counts: Dict[str, int]) -> str:
    """What is not kept, in one line."""
    from ..base.progress import plural

    return "not kept: " + ", ".join(NOT_KEPT_WORDS[name].format(plural(count, *NOUNS[name])) for name, count in counts.items())


__all__ = ["NotKept", "current_umask", "line"]
