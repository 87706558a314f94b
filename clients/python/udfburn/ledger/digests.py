"""What a ledger knows of the files that it stored: their sizes, moments, SHA-256, and the commits that wrote them.

The ledger keeps the SHA-256 of a file up to the end of each request's data (`udfburn.ledger.records.Facts`). Here the requests of a
volume are gone through in order, as the volume went through them; what other clients did is not known to it.
"""

from __future__ import annotations

from typing import Dict, NamedTuple, Optional, Tuple, Union

from ..base.older_parts import stored_paths
from ..protocol import Code, Kind, Path, path_of
from ..protocol.units import Commit, Moment, Size
from ..wire.operations import known_below
from .ledger import Ledger
from .records import KnownVolume, Sent


class SentFile(NamedTuple):
    """A file as this ledger sent it: its bytes, its moment in microseconds from 1970-01-01 UTC, the SHA-256 of its data, and the
    commit and the number of the request that stored it, or its last piece."""

    path: Path
    size: Size
    moment: Moment
    sha256: bytes
    commit: Commit
    number: int


class KnownWhole(NamedTuple):
    """A file in parts as this ledger sent it: all its bytes, the SHA-256 of all of them, its parts, and the commit and the number of
    the request that stored the last one."""

    path: Path
    size: Size
    sha256: bytes
    parts: Tuple[Path, ...]
    commit: Commit
    number: int


class Files:
    """The files of a volume, as far as a ledger knows them: by their paths now, and by the commits that wrote them.

    `now` has each file that requests of this ledger left, by its path. `wholes` has each file in parts of which all parts are there as
    they were sent. `by_commit` also has the files that were replaced, moved or removed since: a file's entry is written by the commit
    of the request that stored it, and by no other.
    """

    def __init__(self, ledger: Ledger, volume: KnownVolume):
        self.now: Dict[Path, SentFile] = {}
        self.by_commit: Dict[Commit, SentFile] = {}
        self._wholes: Dict[Path, KnownWhole] = {}
        try:
            for sent in ledger.sent(volume):
                if sent.code == Code.DONE and sent.confirmed:
                    self._take(sent)
        except ValueError as error:
            raise ledger.unusable(error) from error
        self.wholes = {path: whole for path, whole in self._wholes.items() if self._is_there(whole)}

    def _take(self, sent: Sent) -> None:
        """Does to what is known what a request did to the tree."""
        if sent.facts is None:
            # An older client sent it: whatever it did, nothing is known of its path any more.
            self._drop(path_of(sent.path))
            return
        deed = sent.facts.deed
        if deed.kind is Kind.RENAME:
            self._move(deed.path, deed.to)
        elif deed.kind is Kind.REMOVE:
            self._drop(deed.path)
        elif deed.kind in (Kind.CREATE, Kind.REPLACE, Kind.APPEND):
            self._store(sent)

    def _store(self, sent: Sent) -> None:
        if sent.facts is None or sent.commit is None:
            raise ValueError(f"request {sent.number} stored a file, and its commit is not known")
        deed, sha256, whole = sent.facts.deed, sent.facts.sha256, sent.facts.whole
        if sha256 is None and deed.kind is not Kind.APPEND:
            raise ValueError(f"request {sent.number} stored a file, and its digest is not known")
        if sha256 is None:
            # It was appended to by somebody who did not know all of it.
            self._drop(deed.path)
            return
        known = SentFile(deed.path, deed.size, deed.moment, sha256, sent.commit, sent.number)
        self.now[deed.path] = self.by_commit[sent.commit] = known
        if whole is not None:
            parts = tuple(stored_paths(whole.path, whole.size))
            self._wholes[whole.path] = KnownWhole(whole.path, whole.size, whole.sha256, parts, sent.commit, sent.number)

    def _move(self, old: Path, new: Path) -> None:
        for path in known_below(self.now, old):
            known = self.now.pop(path)
            self.now[moved_path(path, old, new)] = known._replace(path=moved_path(path, old, new))
        for path in known_below(self._wholes, old):
            whole = self._wholes.pop(path)
            parts = tuple([moved_path(part, old, new) for part in whole.parts])
            self._wholes[moved_path(path, old, new)] = whole._replace(path=moved_path(path, old, new), parts=parts)

    def _drop(self, path: Path) -> None:
        self.now.pop(path, None)
        self._wholes.pop(path, None)

    def _is_there(self, whole: KnownWhole) -> bool:
        """Whether each part is there, and none was stored after the last one."""
        parts = [self.now.get(part) for part in whole.parts]
        return sum(part.size for part in parts if part) == whole.size and all(part and part.number <= whole.number for part in parts)


def moved_path(path: Path, old: Path, new: Path) -> Path:
    """The path that a node has once `old` became `new`."""
    return new + path[len(old) :] if path[: len(old)] == old else path


def known_files(ledger: Ledger, way: Union[str, bytes]) -> Optional[Files]:
    """What a ledger knows of the files of the volume at an endpoint; None where it knows no volume there."""
    volume = ledger.volume(way)
    return Files(ledger, volume) if volume is not None else None


__all__ = ["Files", "KnownWhole", "SentFile", "known_files"]
