"""How far the copies of open volumes are behind their images, by what the last run saw that looked at them.

This is for people. Nothing is deleted by it: what deletes reads the copies itself.
"""

from __future__ import annotations

from typing import Dict, List, NamedTuple, Optional, Sequence, Tuple

from ..protocol import limits
from ..protocol.units import Commit, Moment
from ..wire.operations import now
from .base import Base
from .catalogue import Catalogue, VolumeRow
from .schema import COMMITS
from .tell import plural, size, stamp


class SeenCopy(NamedTuple):
    """What a copy of an open volume had when a run looked at it: all up to a commit, so many bytes; and when a run first saw that."""

    volume: int
    remote: str
    last_commit: Commit
    length: int
    seen: Moment


class Lag(NamedTuple):
    """What a copy lacks. `since` is when the first of that was added, and None where the copy has all. `seen` is None where no copy is known."""

    remote: str
    commits: int
    bytes: int
    since: Optional[Moment]
    seen: Optional[Moment]

    def words(self) -> str:
        """For people."""
        if self.seen is None:
            return f"no copy on {self.remote} is known"
        if self.since is None:
            return f"copy on {self.remote} has all"
        return f"copy on {self.remote} lacks {plural(self.commits, 'commit', 'commits')}, {size(self.bytes)}, since {stamp(self.since)[:10]}"


def save_seen(catalogue: Catalogue, number: int, remote: str, last_commit: Commit, length: int) -> None:
    """Keeps what a copy has, as this run sees it. What is known already is not written."""
    known = catalogue.base.run("SELECT last_commit, length FROM open_copy WHERE volume = ? AND remote = ?", (number, remote))
    if known and tuple(known[0]) == (last_commit, length):
        return
    statement = """INSERT INTO open_copy (volume, remote, last_commit, length, seen) VALUES (?, ?, ?, ?, ?) ON CONFLICT (volume, remote)
    DO UPDATE SET last_commit = excluded.last_commit, length = excluded.length, seen = excluded.seen"""
    catalogue.base.run(statement, SeenCopy(number, remote, last_commit, length, now()))


def forget_seen(catalogue: Catalogue, number: int, remote: Optional[str] = None) -> None:
    """Keeps nothing of a copy of a volume, or of all of them."""
    where, values = ("", ()) if remote is None else (" AND remote = ?", (remote,))
    catalogue.base.run(f"DELETE FROM open_copy WHERE volume = ?{where}", (number, *values))


def forget_beyond(catalogue: Catalogue, number: int, commit: Commit) -> None:
    """Keeps nothing of copies that had more than this commit, which is the last one of the image now: later commits will be others."""
    catalogue.base.run("DELETE FROM open_copy WHERE volume = ? AND last_commit > ?", (number, commit))


def seen_copies(catalogue: Catalogue) -> Dict[Tuple[int, str], SeenCopy]:
    """What is known of copies of open volumes, by volume and remote."""
    rows = catalogue.base.run("SELECT volume, remote, last_commit, length, seen FROM open_copy")
    return {(copy.volume, copy.remote): copy for copy in (SeenCopy(*row) for row in rows)}


def lags(catalogue: Catalogue, row: VolumeRow, seen: Dict[Tuple[int, str], SeenCopy], remotes: Sequence[str]) -> List[Lag]:
    """What the copies of an open volume lack, by remote."""
    return [lag_of(catalogue.base, row, remote, seen.get((row.number, remote))) for remote in remotes]


def lag_of(base: Base, row: VolumeRow, remote: str, copy: Optional[SeenCopy]) -> Lag:
    """What the copy on a remote lacks of a volume. The image may have been copied before the catalogue knew of its newest commits."""
    if copy is not None and copy.last_commit >= row.last_commit:
        return Lag(remote, 0, 0, None, copy.seen)
    commit, length = (Commit(0), 0) if copy is None else (copy.last_commit, copy.length)
    since = added_after(base, row.number, commit) or (row.formatted if copy is None else copy.seen)
    return Lag(remote, row.last_commit - commit, max(row.blocks * limits.BLOCK - length, 0), since, None if copy is None else copy.seen)


def added_after(base: Base, number: int, commit: Commit) -> Optional[Moment]:
    """When the first of what a volume has after a commit was added; None where that is nothing that the catalogue keeps."""
    first = number * COMMITS + commit + 1, (number + 1) * COMMITS
    found = base.run("SELECT min(added) FROM file WHERE id >= ? AND id < ?", first)
    found += base.run("SELECT min(added) FROM same WHERE volume = ? AND commit_number > ?", (number, commit))
    found += base.run("SELECT min(since) FROM gone WHERE volume = ? AND commit_number > ?", (number, commit))
    return Moment(min((int(row[0]) for row in found if row[0] is not None), default=0)) or None


__all__ = ["Lag", "SeenCopy", "added_after", "forget_beyond", "forget_seen", "lag_of", "lags", "save_seen", "seen_copies"]
