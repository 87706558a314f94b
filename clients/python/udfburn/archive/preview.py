"""How local folders differ from what the archive has of them: what `add` would store, and what is gone."""

from __future__ import annotations

from contextlib import suppress
from typing import Dict, Iterator, List, NamedTuple, Optional, Sequence, Set, Tuple

from ..base.errors import SourceError
from ..local.sources import Source
from ..protocol import Path
from .catalogue import Catalogue, is_whole, versions
from .content import Content
from .deletions import files_in
from .errors import CannotStore
from .exclude import Rules
from .fresh import Fresh
from .job import digest_of
from .names import kept_name, stored_folder
from .scan import ScannedFolder, Walk


SAME_AS = "same as"
"""What becomes of a file that has the bytes of another one."""


class Change(NamedTuple):
    """A file that differs: `new`, `changed`, `gone` or `SAME_AS`, and its bytes; `at` is the path that has the same ones."""

    kind: str
    path: Path
    size: int
    at: Optional[Path] = None


class Preview:
    """A run that writes nothing. `same` counts files that are there, `failures` has what cannot be read or stored, and `odd` what is neither
    file nor folder. With `content` files are told apart of which the archive has the bytes, or would get them from another one."""

    def __init__(self, catalogue: Catalogue, fresh: Fresh, rules: Rules, content: Optional[Content] = None):
        self.catalogue, self.fresh, self.rules, self.content = catalogue, fresh, rules, content
        self._unread: Dict[int, List[Source]] = {}
        self._read: Dict[int, Dict[bytes, Path]] = {}
        self.same = self.excluded = 0
        self.failures: List[str] = []
        self.odd: List[str] = []
        self._found: Set[Path] = set()

    def changes(self, wanted: Sequence[Tuple[str, Path]], gone: bool) -> Iterator[Change]:
        """The files that differ, and those that are gone if they are asked for. Where something cannot be read nothing counts as gone."""
        for local, path in wanted:
            config = self.catalogue.config
            walk = Walk(config.folder, self.rules, config.copies, config.label)
            for found in walk.below(local, path):
                yield from self._folder(found)
            self.failures += walk.faults
            self.odd += walk.odd
            self.excluded += walk.excluded
            if gone and not walk.faults:
                yield from self._gone(path)

    def _folder(self, found: ScannedFolder) -> Iterator[Change]:
        self._found.update(source.path for source in found.files)
        try:
            stored_folder(found.folder)
            known = self.catalogue.in_folder(found.folder)
        except CannotStore as error:
            self.failures.append(str(error))
            return
        for source in found.files:
            rows = known.get(source.path[-1], [])
            try:
                kept_name(source.path[-1])
                job, same = self.fresh.compared(source, rows)
                at = None if same and is_whole(same) else self._elsewhere(source, job.digest)
            except (SourceError, CannotStore) as error:
                self.failures.append(str(error))
                continue
            if same and is_whole(same):
                self.same += 1
            elif at is not None:
                yield Change(SAME_AS, source.path, source.identity.size, at)
            else:
                yield Change("changed" if versions(rows) else "new", source.path, source.identity.size)

    def _elsewhere(self, source: Source, digest: bytes) -> Optional[Path]:
        """The path that has, or would have, the bytes of a file that is to be stored; None where none has them."""
        size = source.identity.size
        if self.content is None or not size:
            return None
        if not (size in self._unread or size in self._read or self.content.has_size(size)):
            self._unread[size] = [source]
            return None
        digest = digest or digest_of(source)
        found = self.content.find(size, digest)
        if found:
            return found[0].path
        read = self._read.setdefault(size, {})
        for other in self._unread.pop(size, []):
            with suppress(SourceError):
                read.setdefault(digest_of(other), other.path)
        return None if read.setdefault(digest, source.path) == source.path else read[digest]

    def _gone(self, path: Path) -> Iterator[Change]:
        """The files that the archive has below a path, and that were not found."""
        for folder in self.catalogue.folders_below(path):
            for name, group in files_in(self.catalogue, folder).items():
                whole = folder + (name,)
                if whole not in self._found and not self.rules.excludes(whole[len(path) :], False):
                    yield Change("gone", whole, group[0].size)


__all__ = ["Change", "Preview", "SAME_AS"]
