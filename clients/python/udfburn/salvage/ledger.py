"""The SHA-256 digests that a ledger keeps of the files of a volume, by the commits that wrote them."""

from __future__ import annotations

import os
from typing import Dict, FrozenSet, Iterable, Iterator, List, NamedTuple, Optional, Tuple

from ..base.errors import UsageError
from ..protocol import Path, shown
from ..protocol.units import Commit, Moment, Size
from ..reader import Volume
from ..reader.numbering import Span


class LedgerFile(NamedTuple):
    """A file as a ledger's request stored it: its path then, its size, its moment and its digest in lower case."""

    path: Path
    size: Size
    moment: Moment
    digest: str


class FoundFile(NamedTuple):
    """A file that was found: the commits that may have written it, its size and its moment."""

    commits: Span
    size: Size
    moment: Optional[Moment]


class LedgerRecords:
    """What a ledger keeps of a volume: the files that its requests stored, by their commits, and all commits that were acknowledged to it."""

    def __init__(self, files: Dict[Commit, LedgerFile], commits: FrozenSet[Commit] = frozenset()):
        self.files, self.commits = files, commits

    def __bool__(self) -> bool:
        return bool(self.files)

    def candidates(self, seen: FoundFile) -> List[LedgerFile]:
        """The files that one may be which was found."""
        if seen.commits.commit is not None:
            known = self.files.get(seen.commits.commit)
            return [known] if known is not None else []
        return [stored for commit, stored in self._in(seen.commits) if (stored.size, stored.moment) == (seen.size, seen.moment)]

    def _in(self, commits: Span) -> Iterator[Tuple[Commit, LedgerFile]]:
        if commits.high - commits.low > len(self.files):
            yield from ((commit, stored) for commit, stored in self.files.items() if commits.low <= commit <= commits.high)
            return
        yield from ((commit, self.files[commit]) for commit in map(Commit, range(commits.low, commits.high + 1)) if commit in self.files)

    def agrees(self, seen: FoundFile, path: Path, digest: str) -> Optional[bool]:
        """Whether a file has the digest that is kept of it; None where it is not known that one is.

        Where the commit is not known that wrote it, another client may have.
        """
        found = self.candidates(seen)
        if any(stored.digest == digest for stored in found):
            return True
        if not found:
            return None
        low, high = seen.commits
        own = sum(low <= commit <= high for commit in self.commits) == high - low + 1
        return False if own or any(stored.path == path for stored in found) else None


NOTHING_KEPT = LedgerRecords({})


def commits_of(path: str, volume: Volume, found: Iterable[FoundFile], wait: float = 10.0) -> LedgerRecords:
    """What a ledger keeps of a volume, whose files were found.

    Of several volumes it is that whose label, moment and capacity are these, and whose files agree most. None is taken whose files
    do not agree at all.
    """
    from ..ledger.digests import Files
    from ..ledger.reading import ledger_to_read

    if not os.path.exists(path):
        raise UsageError(f"{shown(path)}: there is no ledger")
    seen = list(found)
    best, most = NOTHING_KEPT, 0
    with ledger_to_read(path, wait) as ledger:
        for known in ledger.volumes():
            if known.identity is not None and not is_same(known.identity, volume):
                continue
            files = Files(ledger, known)
            stored = {commit: LedgerFile(file.path, file.size, file.moment, file.sha256.hex()) for commit, file in files.by_commit.items()}
            kept = LedgerRecords(stored, frozenset(sent.commit for sent in ledger.sent(known) if sent.commit is not None))
            count = agreement(kept, seen)
            if count > most:
                best, most = kept, count
    return best


def is_same(identity: Tuple[str, Moment, int], volume: Volume) -> bool:
    """Whether a volume may have this identity. What its volume header does not say is not compared."""
    said = (volume.label, volume.moment, volume.capacity)
    return all(value is None or value == wanted for value, wanted in zip(said, identity))


def agreement(kept: LedgerRecords, found: List[FoundFile]) -> int:
    """How many files are those that the ledger's requests stored, by size and moment."""
    return sum(any((stored.size, stored.moment) == (seen.size, seen.moment) for stored in kept.candidates(seen)) for seen in found)
