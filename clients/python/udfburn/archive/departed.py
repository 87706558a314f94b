"""Which files of the archive are not at their source any more, and which are there again."""

from __future__ import annotations

from typing import Dict, List, Sequence, Set

from ..protocol import Path
from .catalogue import Catalogue, Held
from .deletions import Event, are_known, events_of_path, files_in, is_gone
from .exclude import Rules
from .scan import ScannedFolder
from .tell import plural, shown_path


class Departed:
    """What a run of `add` finds. `events` has the paths that are recorded, `failures` why nothing is recorded below a path."""

    def __init__(self, catalogue: Catalogue, rules: Rules):
        self.catalogue, self.rules = catalogue, rules
        self.events: List[Event] = []
        self.failures: List[str] = []
        self._known = are_known(catalogue)
        self._there: Dict[Path, Set[str]] = {}

    def begin(self) -> None:
        """A folder is walked."""
        self._there = {}

    def found(self, found: ScannedFolder) -> None:
        """Files that are there, whether they can be stored or not."""
        self._there.setdefault(found.folder, set()).update(source.path[-1] for source in found.files)

    def same(self, path: Path, rows: Sequence[Held]) -> None:
        """A file is there, and the archive has it. It may have been gone meanwhile."""
        if self._known and is_gone(rows, events_of_path(self.catalogue, path), None):
            self.events.append(Event(path, True))

    def end(self, path: Path, left_out: Sequence[Path]) -> None:
        """All below a path was walked, but for what was left out. What the archive has there and was not found is gone. Where no file was found at
        all nothing counts as gone: that is how a disk looks that is not mounted."""
        gone = [folder + (name,) for folder in self.catalogue.folders_below(path) for name in files_in(self.catalogue, folder) if self._is_missing(folder, name, path)]
        besides = set(left_out)
        gone = [each for each in gone if not any(each[:depth] in besides for depth in range(len(each) + 1))]
        if gone and not any(self._there.values()):
            files = plural(len(gone), "file", "files")
            self.failures.append(f"{shown_path(path)}: its source has no file at all, so none of {files} counts as deleted: is its disk mounted?")
            return
        self.events += [Event(each, False) for each in gone]

    def _is_missing(self, folder: Path, name: str, path: Path) -> bool:
        return name not in self._there.get(folder, ()) and not self.rules.excludes((*folder, name)[len(path) :], False)


__all__ = ["Departed"]
