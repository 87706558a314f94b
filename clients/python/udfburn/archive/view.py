"""What the mount of an archive shows: `latest`, `volumes/LABEL`, and `runs/TIME`, the archive as it was after a run of `add`.

It is the archive as it was at the mount: what volumes got since is left out, by the last commit that the catalogue had of each then.
"""

from __future__ import annotations

import os
import time
from collections import OrderedDict
from typing import Dict, Hashable, Iterable, Iterator, List, Optional

from ..base.errors import UdfburnError
from ..mounting.shown_tree import NoMedium, ShownFile, ShownFolder, ShownItem, Sums
from ..protocol import Path
from ..protocol.units import Commit, Moment
from . import same_rows
from .catalogue import STATE_NEW, Catalogue, Held, below, folder_text, versions, volume_and_commit
from .config import Config
from .deletions import Event, are_known, deletion_runs, events_in_folder, events_of_path, present
from .errors import CannotStore, CatalogueLost, VolumeDiffers
from .names import is_bundle, kept_name
from .reach import Reach, Way
from .schema import COMMITS
from .tell import Tell, printed_path, shown_path

LATEST_NAME, VOLUMES_NAME, RUNS_NAME = b"latest", b"volumes", b"runs"

LOOKED_AT_AGAIN = 1.0
"""Seconds after which it is looked again where volumes are."""

TREES = 4
"""The volumes of which the paths are kept."""


def run_name(moment: Moment) -> str:
    """The name of a run: when it began, to the microsecond. `get --as-of` takes it too."""
    seconds, rest = divmod(moment, 1_000_000)
    return time.strftime("%Y-%m-%dT%H:%M:%S", time.gmtime(seconds)) + f".{rest:06}Z"


class ArchiveView(ShownFolder):
    """The top folder of an archive that is mounted."""

    def __init__(self, config: Config, tell: Tell):
        self.config, self.tell = config, tell
        self._open()
        rows = [row for row in self.catalogue.volumes() if row.state != STATE_NEW]
        self.labels = {os.fsencode(row.label): row.number for row in rows}
        self._limits = {row.number: row.last_commit for row in rows}
        self.moment = Moment(int(time.time() * 1_000_000))
        self._runs: Optional[Dict[bytes, Moment]] = None
        self._events: Optional[bool] = None
        self._trees: "OrderedDict[int, NewestTree]" = OrderedDict()
        self._twice: Dict[Path, None] = {}

    def _open(self) -> None:
        self.catalogue = Catalogue(self.config)
        self.reach = Reach(self.config, self.catalogue)
        self._looked = 0.0

    def close(self) -> None:
        """Closes the catalogue and the volumes."""
        self.reach.close()
        self.catalogue.base.close()

    def base(self) -> Catalogue:
        """The catalogue. Where its server was lost, it is asked for again."""
        if time.monotonic() - self._looked > LOOKED_AT_AGAIN:
            self._looked = time.monotonic()
            self.reach.look_again()
            try:
                self.catalogue.base.run("SELECT 1")
            except CatalogueLost:
                self.close()
                self._open()
        return self.catalogue

    def names(self) -> Dict[bytes, ShownItem]:
        return {LATEST_NAME: FolderState(self, None, ()), VOLUMES_NAME: Volumes(self), RUNS_NAME: Runs(self)}

    def shown(self, rows: Iterable[Held]) -> List[List[Held]]:
        """The versions that were there at the mount, the newest first."""
        return versions(row for row in rows if self.was_there(*row.written()))

    def was_there(self, volume: int, commit: Commit) -> bool:
        """Whether a commit of a volume was there at the mount."""
        return commit <= self._limits.get(volume, -1)

    def runs(self) -> Dict[bytes, Moment]:
        """The moments of all runs, by their names."""
        if self._runs is None:
            statement = f"SELECT added, min(id) FROM file GROUP BY added, id / {COMMITS}"
            moments = {Moment(int(added)) for added, id in self.base().base.run(statement) if self.was_there(*volume_and_commit(int(id)))}
            for others in (deletion_runs(self.base()), same_rows.line_runs(self.base().base)):
                moments |= {since for since, volume, commit in others if self.was_there(volume, commit)}
            self._runs = {run_name(moment).encode(): moment for moment in sorted(moments)}
        return self._runs

    def has_below(self, path: Path, moment: Optional[Moment]) -> bool:
        """Whether a folder or what is below it had a file at a moment, or has one."""
        if self.has_events():
            return any(self.files_in(folder, moment) for folder in self.base().folders_below(path))
        values = (folder_text(path), *below(path), moment if moment is not None else (1 << 63) - 1)
        for what, table in (("file.id", "file"), (f"same.volume * {COMMITS} + same.commit_number", "same")):
            statement = f"""SELECT {what} FROM folder JOIN {table} ON {table}.folder = folder.id
            WHERE (folder.path = ? OR (folder.path >= ? AND folder.path < ?)) AND {table}.added <= ?"""
            if any(self.was_there(*volume_and_commit(int(id))) for (id,) in self.base().base.stream(statement, values)):
                return True
        return False

    def has_events(self) -> bool:
        """Whether any file was deleted at its source."""
        if self._events is None:
            self._events = are_known(self.base())
        return self._events

    def files_in(self, path: Path, moment: Optional[Moment]) -> Dict[str, List[Held]]:
        """The files of a folder that were there at a moment, or are."""
        catalogue = self.base()
        events = events_in_folder(catalogue, path) if self.has_events() else {}
        found = {name: self.there(rows, events.get(name, ()), moment) for name, rows in catalogue.in_folder(path).items()}
        return {name: group for name, group in found.items() if group is not None}

    def there(self, rows: Iterable[Held], events: Iterable[Event], moment: Optional[Moment]) -> Optional[List[Held]]:
        """The version of a path that was there at a moment, or is."""
        return present(self.shown(rows), [event for event in events if self.was_there(event.volume, event.commit)], moment)

    def tree(self, number: int) -> "NewestTree":
        """The paths of a volume. A few are kept."""
        if number not in self._trees:
            if len(self._trees) >= TREES:
                self._trees.popitem(last=False)
            self._trees[number] = NewestTree(self, number)
        self._trees.move_to_end(number)
        return self._trees[number]

    def without_doubles(self, path: Path, files: Dict[str, List[Held]], folders: Iterable[str]) -> Iterator[str]:
        """The names of files that no folder has. A path may have been a file's, and later a folder's."""
        taken = set(folders)
        for name in files:
            if name not in taken:
                yield name
            elif path + (name,) not in self._twice:
                self._twice[path + (name,)] = None
                self.tell.note(f"{printed_path(path + (name,))}: is a file and a folder: the folder is shown, and 'get' has both", did="twice", path=shown_path(path + (name,)))


class FolderState(ShownFolder):
    """A folder of the archive as it is, or as it was at a moment."""

    def __init__(self, view: ArchiveView, at: Optional[Moment], path: Path):
        self.view, self.at, self.path = view, at, path
        self.moment = view.moment if at is None else at

    def names(self) -> Dict[bytes, ShownItem]:
        catalogue = self.view.base()
        folders = [name for name in catalogue.children(self.path) if self.view.has_below(self.path + (name,), self.at)]
        found: Dict[bytes, ShownItem] = {os.fsencode(name): FolderState(self.view, self.at, self.path + (name,)) for name in folders}
        files = self.view.files_in(self.path, self.at)
        found.update((os.fsencode(name), ArchiveFile(self.view, files[name])) for name in self.view.without_doubles(self.path, files, folders))
        return found

    def find(self, name: bytes) -> Optional[ShownItem]:
        path = self.path + (os.fsdecode(name),)
        try:
            kept_name(path[-1])
        except CannotStore:
            return None
        if self.view.has_below(path, self.at):
            return FolderState(self.view, self.at, path)
        events = events_of_path(self.view.base(), path) if self.view.has_events() else []
        group = self.view.there(self.view.base().of_path(path), events, self.at)
        return None if group is None else ArchiveFile(self.view, group)


class Runs(ShownFolder):
    """The archive as it was after each run."""

    def __init__(self, view: ArchiveView):
        self.view, self.moment = view, view.moment

    def names(self) -> Dict[bytes, ShownItem]:
        return {name: FolderState(self.view, moment, ()) for name, moment in self.view.runs().items()}

    def find(self, name: bytes) -> Optional[ShownItem]:
        moment = self.view.runs().get(name)
        return None if moment is None else FolderState(self.view, moment, ())


class Volumes(ShownFolder):
    """The files of each volume, under their paths in the archive."""

    def __init__(self, view: ArchiveView):
        self.view, self.moment = view, view.moment

    def names(self) -> Dict[bytes, ShownItem]:
        return {name: OnVolume(self.view, number, ()) for name, number in self.view.labels.items()}


class NewestTree:
    """The newest versions of paths that have bytes on a volume, by their folders."""

    def __init__(self, view: ArchiveView, number: int):
        self.files: Dict[Path, Dict[str, List[Held]]] = {(): {}}
        self.folders: Dict[Path, Dict[str, None]] = {(): {}}
        base = view.base()
        stored = [row for row in base.of_volume(number) if not is_bundle(row.path[-1])]
        members = [row for row in same_rows.of_volume(base.base, number) if row.is_member()]
        for row in sorted(stored + members, key=lambda row: row.commit):
            group = self._group(view, row) if view.was_there(number, row.commit) else None
            if group is None:
                continue
            for depth in range(1, len(row.path)):
                self.folders.setdefault(row.path[:depth], {})
                self.folders[row.path[: depth - 1]][row.path[depth - 1]] = None
            # In order of their commits: the last one is the newest of the volume.
            self.files.setdefault(row.path[:-1], {})[row.path[-1]] = group

    def _group(self, view: ArchiveView, row: Held) -> Optional[List[Held]]:
        """The rows of a version that has one here: parts of it may be on other volumes."""
        if row.parts is None:
            return [row]
        return next((group for group in view.shown(view.base().of_path(row.path)) if group[0].version() == row.version()), None)


class OnVolume(ShownFolder):
    """A folder of a volume."""

    def __init__(self, view: ArchiveView, number: int, path: Path):
        self.view, self.number, self.path, self.moment = view, number, path, view.moment

    def names(self) -> Dict[bytes, ShownItem]:
        tree = self.view.tree(self.number)
        folders, files = tree.folders.get(self.path, {}), tree.files.get(self.path, {})
        found: Dict[bytes, ShownItem] = {os.fsencode(name): OnVolume(self.view, self.number, self.path + (name,)) for name in folders}
        found.update((os.fsencode(name), ArchiveFile(self.view, files[name])) for name in self.view.without_doubles(self.path, files, folders))
        return found


class ArchiveFile(ShownFile):
    """A version of a file."""

    cure = ": run 'check --data', then 'repair'"

    def __init__(self, view: ArchiveView, rows: List[Held]):
        self.view, self.rows = view, rows
        self.size, self.moment = rows[0].size, rows[0].moment

    def key(self) -> Hashable:
        return self.rows[0].sha256, self.size

    def name(self) -> str:
        return printed_path(self.rows[0].path)

    def sums(self) -> Sums:
        return Sums((self.rows[0].sha256,))

    def ways(self) -> List[Way]:
        self.view.base()
        found = self.view.reach.ways(self.rows)
        if not found:
            away = dict.fromkeys(row.volume for row in self.rows if not self.view.reach.images(row.volume))
            raise NoMedium(f"{', '.join(map(self.view.reach.label, away))}: is not at hand, and files on it cannot be read")
        return found

    def piece(self, index: int, way: Way) -> bytes:
        row, image = next((row, image) for row, image in way if row.parts is None or 0 <= index - (row.first or 0) < row.parts)
        try:
            contents, files = self.view.reach.volume(image)
            file = files.get(row.commit)
            if file is None or file.path != row.stored_as():
                raise VolumeDiffers(f"{contents.image}: does not have {self.name()} as the catalogue says: run 'check' and 'rebuild'")
            return contents.piece(file, index - (row.first or 0)) if row.start is None else contents.span(file, row.start, row.size)
        except (UdfburnError, OSError):
            # By the next time it may be repaired.
            self.view.reach.drop(image)
            raise


__all__ = ["ArchiveView", "run_name"]
