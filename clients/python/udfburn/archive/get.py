"""Copies files out of the volumes that are at hand, each compared with its SHA-256."""

from __future__ import annotations

import os
import stat
from hashlib import sha256
from typing import Dict, Iterable, Iterator, List, NamedTuple, Optional, Sequence

from ..base.beneath import RelativePath, Root, folder_mode, mode_for, status_given
from ..base.errors import DiskFull, SourceError, UdfburnError
from ..local.saving import Saver
from ..local.sources import shown
from ..protocol import Path
from ..protocol.units import Moment
from .catalogue import Catalogue, Held
from .config import Config
from .deletions import file_at, files_in
from .errors import Lacking, VolumeDiffers
from .reach import Reach, Way
from .remotes import Print, print_of
from .tell import Tell, shown_path


class Wanted(NamedTuple):
    """A version that is to be copied: its rows, and the names that it gets below the folder that is copied into."""

    rows: List[Held]
    names: RelativePath


class GetSummary:
    """What a run did."""

    def __init__(self) -> None:
        self.files = self.bytes = self.same = 0
        self.failures: List[str] = []
        self.lacking: Dict[str, int] = {}
        """Volumes that are not at hand, and how many files are on each."""


def wanted(catalogue: Catalogue, paths: Sequence[Path], moment: Optional[Moment]) -> Iterator[Wanted]:
    """What is copied of paths, each of which is a file's or a folder's. One that is nothing is an error."""
    for path in paths:
        found = 0
        group = file_at(catalogue, path, moment)
        if group is not None:
            found += 1
            yield Wanted(group, path[-1:])
        for below in catalogue.folders_below(path):
            for name, rows in files_in(catalogue, below, moment).items():
                found += 1
                yield Wanted(rows, path[-1:] + below[len(path) :] + (name,))
        if not found and moment is None and catalogue.of_path(path):
            raise Lacking(f"{shown_path(path)}: was deleted at its source: 'history' shows when, and 'get --as-of' gets it as it was")
        if not found:
            raise Lacking(f"{shown_path(path)}: is not in the archive" + (" at that time" if moment is not None else ""))


def once(files: Iterable[Wanted]) -> List[Wanted]:
    """Files, each once. Two that would have one path are an error, since one would take the place of the other."""
    found: Dict[RelativePath, Wanted] = {}
    for want in files:
        if found.setdefault(want.names, want).rows != want.rows:
            raise SourceError(f"{shown('/'.join(want.names))}: two of the files would have this path: get them one by one")
    return list(found.values())


def has_version(root: Root, want: Wanted) -> bool:
    """Whether the local file has the bytes of a version already, by their count and their SHA-256."""
    held = want.rows[0]
    try:
        status = root.status(want.names)
        if not stat.S_ISREG(status.st_mode) or status.st_size != held.size:
            return False
        with open(root.open_file(want.names), "rb") as file:
            return print_of(file) == Print(held.size, held.sha256)
    except OSError:
        return False


class Getter:
    """A run of `get`."""

    def __init__(self, config: Config, catalogue: Catalogue, tell: Tell, force: bool):
        self.config, self.catalogue, self.tell = config, catalogue, tell
        self.summary = GetSummary()
        self._force = force
        self._reach = Reach(config, catalogue)

    def run(self, files: Sequence[Wanted], folder: str) -> GetSummary:
        """Copies versions into a folder, volume by volume."""
        mode = self._mode(files)
        with Root.make(folder, folder_mode(mode)) as root, Saver(root, self._force, mode) as saver:
            try:
                for want in sorted(files, key=lambda want: [(row.volume, row.commit, row.start or 0) for row in want.rows]):
                    self._one(want, saver)
                saver.finish()
            finally:
                self._reach.close()
        self.summary.failures += saver.failures
        return self.summary

    def _mode(self, files: Sequence[Wanted]) -> int:
        """The mode of the copies: nobody may read them who may not read the images."""
        numbers = {row.volume for want in files for row in want.rows}
        return mode_for(*(status_given(image) for number in numbers for image in self._reach.images(number)))

    def _one(self, want: Wanted, saver: Saver) -> None:
        held = want.rows[0]
        if not self._force and has_version(saver.root, want):
            self.summary.same += 1
            # An interrupted run may have given it its name without making that durable.
            saver.folder(want.names[:-1])
            self.tell.step("same", held.path, held.size)
            return
        ways = self._reach.ways(want.rows)
        if not ways:
            for number in sorted({row.volume for row in want.rows if not self._reach.images(row.volume)}):
                label = self._reach.label(number)
                self.summary.lacking[label] = self.summary.lacking.get(label, 0) + 1
            return
        why = ""
        for way in ways:
            try:
                saver.make_folder(want.names[:-1])
                saver.save(want.names, self._checked(way), held.moment, lambda count: self._got(held, count))
                return
            except DiskFull:
                raise
            except (VolumeDiffers, Lacking) as error:
                # Another copy may have what this one has not.
                why = why or str(error)
            except (UdfburnError, OSError) as error:
                why = str(error.strerror if isinstance(error, OSError) else error)
                break
        self.summary.failures.append(f"{shown_path(held.path)}: {why}")

    def _got(self, held: Held, count: int) -> None:
        """A file has its name."""
        self.summary.files += 1
        self.summary.bytes += count
        self.tell.step("got", held.path, count, self._reach.label(held.volume), held.commit)

    def _checked(self, way: Way) -> Iterator[bytes]:
        """The bytes of a version. They are compared with their digest before the last of them is given, so no file gets its name
        that differs."""
        whole, count, last = sha256(), 0, b""
        have, held = 0, way[0][0]
        for row, image in way:
            contents, files = self._reach.volume(image)
            file = files.get(row.commit)
            if file is None or file.path != row.stored_as():
                raise VolumeDiffers(f"{contents.image}: does not have it as the catalogue says: run 'check' and 'rebuild'")
            skip = max(have - (row.first or 0), 0)
            for index, piece in enumerate(contents.pieces_of_row(file, row)):
                if index < skip:
                    continue
                whole.update(piece)
                count += len(piece)
                have += 1
                yield last
                last = piece
        if count != held.size or whole.digest() != held.sha256:
            raise VolumeDiffers("its bytes do not have the SHA-256 in the catalogue: run 'check --data', then 'repair'")
        yield last


def require_folder(folder: str) -> None:
    """Sees that files can go into a folder, which is made where it is missing."""
    if os.path.lexists(folder) and not os.path.isdir(folder):
        raise SourceError(f"{shown(folder)}: is not a folder")


__all__ = ["GetSummary", "Getter", "Lacking", "Wanted", "once", "require_folder", "wanted"]
