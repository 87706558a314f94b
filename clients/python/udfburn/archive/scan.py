"""Local folders, one after another, as what is to be stored; links are not followed, by whomever and whenever they are made."""

from __future__ import annotations

import os
import re
import stat
from contextlib import suppress
from typing import Iterator, List, NamedTuple, Sequence, Set, Tuple

from ..base.beneath import Place, place_of
from ..base.errors import UsageError
from ..local.sources import FileIdentity, Source, odd, shown
from ..protocol import Path
from .exclude import Rules
from .names import path_from, text_of


class ScannedFolder(NamedTuple):
    """A folder of the archive, with the files that are to be in it."""

    folder: Path
    files: List[Source]


class Walk:
    """Folders as they are found. `odd` has what is neither file nor folder, `faults` what cannot be read, `empty` counts folders
    with nothing in them, which the archive does not keep, `excluded` what the rules leave out, and `left_out` has the paths of all that is
    there and not walked. So are the archive's own folder, and its files in folders for copies: they are no source of it."""

    def __init__(self, own: str, rules: Rules = Rules(), copies: Sequence[str] = (), label: str = ""):
        status = os.stat(own)
        self._own = (status.st_dev, status.st_ino)
        self._copies: Set[Tuple[int, int]] = set()
        for folder in filter(os.path.isabs, copies):
            # One whose disk is not mounted has no copies.
            with suppress(OSError):
                status = os.stat(folder)
                self._copies.add((status.st_dev, status.st_ino))
        self._copy = re.compile(rf"{re.escape(label)}-[0-9]{{6,9}}\..*|udfburn-archive-.*\.txt(\.new)?", re.DOTALL)
        self._rules = rules
        self._top, self._device = 0, 0
        self.excluded = 0
        self.odd: List[str] = []
        self.faults: List[str] = []
        self.empty = 0
        self.left_out: List[Path] = []

    def below(self, local: str, at: Path) -> Iterator[ScannedFolder]:
        """A file, or a folder and all below it."""
        try:
            place = place_of(local)
            status = place.root.status(place.names)
        except OSError as error:
            self.faults.append(f"{shown(local)}: {error.strerror}")
            return
        self._top, self._device = len(place.names), status.st_dev
        if stat.S_ISDIR(status.st_mode):
            yield from self._folder(place, at)
        elif stat.S_ISREG(status.st_mode):
            yield ScannedFolder(at[:-1], [Source(place, at, FileIdentity.of(status))])
        else:
            self.odd.append(f"{shown(local)}: is {odd(status)}, which is not kept")

    def _folder(self, place: Place, at: Path) -> Iterator[ScannedFolder]:
        """Folder by folder, the files of each before the folders in it."""
        waiting = [(place, at)]
        while waiting:
            place, at = waiting.pop()
            files, folders = self._names(place, at)
            if files:
                yield ScannedFolder(at, files)
            waiting += reversed(folders)

    def _names(self, place: Place, at: Path) -> Tuple[List[Source], List[Tuple[Place, Path]]]:
        files: List[Source] = []
        folders: List[Tuple[Place, Path]] = []
        root, folder = place
        try:
            status = root.status(folder)
            is_own, is_cache = (status.st_dev, status.st_ino) == self._own, self._rules.is_cache(place)
            has_copies = (status.st_dev, status.st_ino) in self._copies
            names = [] if is_own or is_cache else root.names_in(folder)
        except OSError as error:
            self.faults.append(f"{shown(place.local())}: {error.strerror}")
            return [], []
        self.excluded += is_cache
        self.left_out += [at] if is_own or is_cache else []
        self.empty += not (names or is_own or is_cache)
        for name in names:
            below = Place(root, folder + (name,))
            if has_copies and self._copy.fullmatch(name):
                self.left_out.append(at + (name,))
                continue
            try:
                found = root.status(below.names)
            except OSError as error:
                self.faults.append(f"{shown(below.local())}: {error.strerror}")
                continue
            if self._excludes(below, found):
                self.excluded += 1
                self.left_out.append(at + (name,))
            elif stat.S_ISDIR(found.st_mode):
                folders.append((below, at + (name,)))
            elif stat.S_ISREG(found.st_mode):
                files.append(Source(below, at + (name,), FileIdentity.of(found)))
            else:
                self.odd.append(f"{shown(below.local())}: is {odd(found)}, which is not kept")
                self.left_out.append(at + (name,))
        return files, folders

    def _excludes(self, place: Place, status: os.stat_result) -> bool:
        """Whether the rules leave a file or a folder out."""
        is_folder = stat.S_ISDIR(status.st_mode)
        return is_folder and self._rules.one_file_system and status.st_dev != self._device or self._rules.excludes(place.names[self._top :], is_folder)


def archive_targets(locals_: Sequence[str], at: str) -> List[Tuple[str, Path]]:
    """The path that each local file or folder becomes. One becomes AT; with a slash at its end, or with several, each gets its
    own name below AT. No two become one path, or one a part of the other."""
    names = path_from(at)
    if len(locals_) == 1 and not at.endswith("/"):
        found = [(locals_[0], names)]
    else:
        found = [(local, names + top_name(local)) for local in locals_]
    taken: Set[Path] = set()
    for local, path in found:
        if not path and not os.path.isdir(local):
            raise UsageError(f"{shown(local)}: is not a folder, and cannot become the root of the archive")
        above = {path[:depth] for depth in range(len(path) + 1)}
        if above & taken or any(other[: len(path)] == path for other in taken):
            raise UsageError(f"{text_of(path)}: two of the folders would have this path, or one would be inside another: add them one by one")
        taken.add(path)
    return found


def top_name(local: str) -> Path:
    """The name of a local file or folder; none for the root of the system."""
    name = os.path.basename(os.path.abspath(local))
    return (name,) if name else ()
