"""What is given back of a volume: each file, how it was had, and each structure that is not as docs/FORMAT.md has it."""

from __future__ import annotations

import hashlib
from functools import partial
from typing import Dict, FrozenSet, Iterable, Iterator, List, NamedTuple, Optional, Set, Tuple

from ..base.errors import UdfburnError
from ..base.manifest import BAG_DECLARATION, LONGEST_MANIFEST
from ..protocol import escaped
from ..protocol.units import Address, Commit, Moment, Size
from ..reader import FileType, Medium, Note, Volume
from ..reader.audit import audit
from ..reader.basics import EXTENT_BYTES, address_of, crc
from ..reader.budget import Work
from ..reader.chain import Chain, Link, Span
from ..reader.entry import Entry, descriptor_blocks
from ..reader.survey import Survey
from ..reader.volume import Path
from .carve import Carver, IsKept
from .digests import Digests, Manifest, add_manifests, folder_of, is_manifest, manifest_data
from .extents import all_but_last
from .ledger import NOTHING_KEPT, FoundFile, LedgerFile, LedgerRecords, commits_of
from .reading import FileReading, Ranges, Take, dropped, give, is_carved
from .tree import LOST_AND_FOUND, Item, SalvageTree
from .write import InTheWay, Output, WrittenFile

FILE_WHOLE, FILE_UNPROVED, FILE_EARLIER, FILE_NAMELESS, FILE_DAMAGED, FILE_LOST = "whole", "unproved", "earlier", "nameless", "damaged", "lost"
UNFINISHED = "unfinished"
FILE_STATES = (FILE_WHOLE, FILE_UNPROVED, FILE_EARLIER, FILE_NAMELESS, FILE_DAMAGED, FILE_LOST)
"""How a file was obtained.

`whole`: its bytes have the digest that the volume or the ledger keeps of them. `unproved`: all its blocks could be read, and no digest
covers it. `earlier`: its name or its bytes are those of an earlier commit. `nameless`: its bytes could be read, and no name leads to it.
`damaged`: some of its bytes are wrong or missing. `lost`: there is nothing of it. Beside these, `unfinished` is a file after the last
VAT ICB, which no state has.
"""

DAMAGED_SUFFIX = ".damaged"


class NothingToSalvage(UdfburnError):
    """There is no table on the medium that can be read, or none of the commit that was asked for."""


class SalvageOutcome(NamedTuple):
    """What was had of a file or a directory.

    `path` has its names on the volume, `written` is its path below the folder (None where nothing was written), `ranges` are the
    missing bytes, each by the first and the count.
    """

    path: Path
    kind: Optional[FileType]
    state: str
    size: int
    commit: Optional[Span]
    ranges: Ranges
    why: str
    written: Optional[str]
    moment: Optional[Moment] = None
    """Its moment, where it is known."""


class CarvedFile(NamedTuple):
    """A file whose newest entry is lost: the entry of its first extents, where it has several, the bytes after those, and the digest of
    all of them, which is kept."""

    before: Optional[Entry]
    last: bytes
    digest: str


class Salvage:
    """As much of a volume as can be read. Nothing is written to it."""

    def __init__(self, medium: Medium, commit: Optional[Commit] = None, ledger: Optional[str] = None):
        self.medium = medium
        self.volume = Volume(medium)
        self.chain = Chain(self.volume, Survey(self.volume))
        self.index = self._index(commit)
        self.digests = Digests()
        audit(self.chain, self.index)
        self.tree = SalvageTree(self.chain, self.index)
        self._stored: LedgerRecords = NOTHING_KEPT
        self._carver = Carver(self.chain)
        self._digests_met: Set[str] = set()
        self._manifests: Dict[Path, FrozenSet[Optional[Path]]] = {}
        self._unread: Dict[Path, str] = {}
        """Why files with the name of a manifest are not read as one, by their paths."""
        self._whole: Set[Optional[Path]] = set()
        self._is_hurt = False
        if ledger is not None:
            self._stored = commits_of(ledger, self.volume, self._seen())
        self._add_manifests()

    @property
    def link(self) -> Link:
        """The table of the state that is given back."""
        return self.chain.links[self.index]

    @property
    def notes(self) -> List[Note]:
        """What is not as docs/FORMAT.md has it, by the addresses of blocks."""
        return sorted(self.volume.notes.all())

    def paths(self) -> Dict[Address, str]:
        """The paths of nodes, by the addresses of their entries, and of their descriptor blocks."""
        found: Dict[Address, str] = {}
        for item in self.tree.items:
            path = "/" + "/".join(item.path)
            if item.version is not None:
                found[item.version.address] = path
            if item.entry is not None and item.entry.descriptors is not None:
                begin = address_of(item.entry.descriptors)
                found.update({Address(begin + index): path for index in range(descriptor_blocks(item.entry.size))})
        return found

    def missing(self) -> List[Commit]:
        """The commits that were acknowledged to the ledger and that come after the newest table."""
        return sorted(commit for commit in self._stored.commits if self.index == 0 and commit > self.link.numbers.high)

    def stored(self, commit: Commit) -> Optional[LedgerFile]:
        """What the ledger stored by a commit."""
        return self._stored.files.get(commit)

    def _index(self, commit: Optional[Commit]) -> int:
        if not self.chain.links:
            raise NothingToSalvage(f"{self.medium.path}: no table of a volume can be read")
        index = 0 if commit is None else self.chain.index_of(commit)
        if index is None:
            links = self.chain.links
            may_be = [link for link in links if commit is not None and link.numbers.low <= commit <= link.numbers.high]
            why = "; it may be one of several, of which it is not known which is whose" if may_be else ""
            raise NothingToSalvage(
                f"{self.medium.path}: no table of commit {commit} can be read; there are {len(links)}, from {links[-1].numbers} to {links[0].numbers}{why}"
            )
        return index

    def _add_manifests(self) -> None:
        """Reads the manifests. All of them are in memory at once, so they have `LONGEST_MANIFEST` bytes together, at most: one that is longer
        than what is left takes nothing of it, and is a file like any other."""
        found: List[Manifest] = []
        left = LONGEST_MANIFEST
        files = {item.path: item for item in self.tree.items if item.kind is FileType.FILE and item.version is not None}
        bags = {path[:-1] for path in files if path[-1] == BAG_DECLARATION}
        for path, item in files.items():
            is_nameless = path[0] == LOST_AND_FOUND and bool(item.why)
            if item.version is None or not (is_nameless or is_manifest(path[-1])):
                continue
            if item.version.entry.size > left:
                if not is_nameless:
                    self._unread[path] = f"what it lists is not compared, since {left:,} of {LONGEST_MANIFEST:,} bytes for manifests are left"
                continue
            read = FileReading(self.volume, item.version.entry)
            data = manifest_data(read.pieces()) if is_nameless else b"".join(read.pieces())
            folder = folder_of(data, files) if is_nameless else path[:-1]
            if folder is not None:
                left -= len(data)
                # What a commit says that is not finished is of files that may be others in this state.
                is_doubted = bool(read.why) or item.is_unfinished
                found.append(Manifest(path, folder, data, hashlib.sha256(data).hexdigest(), is_doubted, item.version.address))
        self._manifests = add_manifests(self.digests, found, bags)

    def _seen(self) -> Iterator[FoundFile]:
        """Each file that was found."""
        for item in self.tree.items:
            seen = self._seen_as(item, item.version.address if item.version is not None else None)
            if item.entry is not None and seen is not None and item.kind is FileType.FILE:
                yield seen

    def _seen_as(self, item: Item, address: Optional[Address]) -> Optional[FoundFile]:
        """What is known of the file whose entry is at an address; None where it is of no commit."""
        commits = self.chain.commit_of(address) if address is not None else None
        entry = item.entry
        if commits is None:
            return None
        return FoundFile(commits, entry.size if entry is not None else Size(-1), entry.moment if entry is not None else None)

    # ---- digests

    def agrees(self, item: Item, digest: str) -> Optional[bool]:
        """Whether a digest is that which is kept of a file; None where none is."""
        if not self._asks_digests:
            return None
        address = item.version.address if item.version is not None else self.tree.address(item)
        seen = self._seen_as(item, address)
        agrees = self._stored.agrees(seen, item.path, digest) if seen is not None else None
        return agrees if agrees is not None else self.digests.agrees(item.path, digest, address or Address(0))

    @property
    def _asks_digests(self) -> bool:
        """Whether any digest is kept."""
        return bool(self._stored) or len(self.digests) > 0

    def _carved(self, item: Item) -> Optional[CarvedFile]:
        """The newest bytes of a file whose newest entry is lost, where a digest of them is kept."""
        address = self.tree.address(item)
        is_lost = item.version is None or item.version.commit is not None or is_carved(item.version.entry) or all_but_last(item.version.entry) is not None
        if address is None or not is_lost or item.is_unfinished:
            return None
        commits = self.chain.commit_of(address)
        stored = self._stored.files.get(commits.commit) if commits is not None and commits.commit is not None else None
        if stored is not None:
            kept = stored.digest
            return self._appended(item, address, lambda digest: digest == kept) or self._alone(address, lambda digest: digest == kept)
        if item.kind is None:
            return self._alone(address, lambda digest: self.digests.path_of(digest) is not None)
        if not self.digests.has(item.path):
            return None

        def is_known(digest: str) -> bool:
            return self.digests.is_known(item.path, digest)

        return self._appended(item, address, is_known) or self._alone(address, is_known)

    def _alone(self, address: Address, is_kept: IsKept) -> Optional[CarvedFile]:
        """A file of one extent, whose entry was at an address."""
        data = self._carver.find(address, is_kept, hashlib.sha256())
        return CarvedFile(None, data, hashlib.sha256(data).hexdigest()) if data is not None else None

    def _appended(self, item: Item, address: Address, is_kept: IsKept) -> Optional[CarvedFile]:
        """A file of which all extents but the last are known: its newest entry is lost, or the descriptor block that has the last."""
        entry = item.entry
        if entry is None or item.version is None:
            return None
        shorter = all_but_last(entry)
        if shorter is None and (item.version.commit is None or not entry.size or entry.size % EXTENT_BYTES):
            return None
        before, digest = FileReading(self.volume, shorter or entry), hashlib.sha256()
        give(before.pieces(), dropped, digest)
        if before.ranges:
            return None
        end = min(address, address_of(entry.descriptors)) if shorter is not None and entry.descriptors is not None else address
        last = self._carver.find(end, is_kept, digest)
        if last is None:
            return None
        digest.update(last)
        return CarvedFile(shorter or entry, last, digest.hexdigest())

    # ---- files

    def judged(self, item: Item, take: Take = dropped) -> SalvageOutcome:
        """What was had of a file, once all its bytes were taken. Of one that is lost there are none."""
        carved = self._carved(item)
        if carved is not None:
            return self._found(item, carved, take)
        entry = item.entry
        if entry is None:
            return SalvageOutcome(item.path, item.kind, FILE_LOST, 0, None, (), item.why, None)
        read = FileReading(self.volume, entry)
        count, digest = self._give(read.pieces() if entry.inside is None else [self._mended(item, entry, entry.inside)], take)
        state, why = self._state(item, read, self.agrees(item, digest))
        if state == FILE_NAMELESS:
            why += self._called(digest)
        why = "; ".join(filter(None, (why, self._unread.get(item.path))))
        self._digests_met.add(digest)
        ranges = read.ranges if state == FILE_DAMAGED else ()
        return SalvageOutcome(item.path, item.kind, state, count, item.commit, ranges, why, None, entry.moment)

    def _give(self, pieces: Iterable[bytes], take: Take) -> Tuple[int, str]:
        """Has the bytes of a file taken. Gives their count, and their digest where any is kept."""
        digest = hashlib.sha256() if self._asks_digests else None
        count = give(pieces, take, digest)
        return count, digest.hexdigest() if digest is not None else ""

    def _found(self, item: Item, carved: CarvedFile, take: Take) -> SalvageOutcome:
        """A file whose entry is lost, and whose bytes have the digest that is kept of it."""
        read = FileReading(self.volume, carved.before) if carved.before is not None else None
        count, digest = self._give(carved_pieces(read, carved), take)
        self._digests_met.add(digest)
        moment = self._written_at(item)
        if read is not None and digest != carved.digest:
            # The medium gave other bytes the second time.
            why = read.why or "its bytes do not have the digest that is kept of them"
            return SalvageOutcome(item.path, FileType.FILE, FILE_DAMAGED, count, item.commit, read.ranges, why, None, moment)
        if item.kind is None:
            why = "no name leads to it, and its entry is lost" + self._called(digest)
            return SalvageOutcome(item.path, FileType.FILE, FILE_NAMELESS, count, None, (), why, None, moment)
        is_listed = item.version is not None and item.commit == item.version.commit or item.commit is None
        state = FILE_WHOLE if is_listed else FILE_EARLIER
        return SalvageOutcome(item.path, FileType.FILE, state, count, item.commit if state == FILE_EARLIER else None, (), "", None, moment)

    def _written_at(self, item: Item) -> Optional[Moment]:
        """The moment of a file whose newest entry is lost: that of the table of the commit that wrote it."""
        address = self.tree.address(item)
        commits = self.chain.commit_of(address) if address is not None else None
        index = self.chain.index_of(commits.commit) if commits is not None and commits.commit is not None else None
        table = self.chain.links[index].table if index is not None else None
        return table.moment if table is not None else None

    def _called(self, digest: str) -> str:
        """What a manifest says of the path of a file without a name."""
        known = self.digests.path_of(digest) if digest else None
        return f"; it has the digest that is kept of /{'/'.join(known)}" if known is not None else ""

    def _state(self, item: Item, read: FileReading, agrees: Optional[bool]) -> Tuple[str, str]:
        """How a file was had, and why it is not whole."""
        if read.why and not agrees:
            return FILE_DAMAGED, read.why
        if item.is_unfinished:
            return UNFINISHED, item.why
        if item.commit is not None:
            return FILE_EARLIER, item.why or f"as of commit {item.commit}"
        if item.why:
            return FILE_NAMELESS, item.why
        if agrees is False:
            return FILE_DAMAGED, "its bytes do not have the digest that is kept of them"
        return FILE_WHOLE if agrees else FILE_UNPROVED, item.why

    def _mended(self, item: Item, entry: Entry, data: bytes) -> bytes:
        """The bytes of a file inside an entry with a wrong byte, where one bit leads to the digest that is kept; else as read."""
        if entry.proved or self.agrees(item, hashlib.sha256(data).hexdigest()) is None:
            return data
        if not self.volume.budget.take(Work.FLIPS):
            return data
        for other in flips(self.medium, item, entry):
            if self.agrees(item, hashlib.sha256(other).hexdigest()):
                return other
        return data

    def outcomes(self, output: Optional[Output]) -> Iterator[SalvageOutcome]:
        """Each file, and each directory that is not whole. With an output each is written there."""
        waiting: Dict[int, SalvageOutcome] = {}
        last: List[int] = []
        nameless: List[SalvageOutcome] = []
        for key, item in enumerate(self.tree.items):
            if item.kind is FileType.DIRECTORY:
                yield from self._directory(item, output, tail_of(item))
            elif item.path in self._manifests:
                # Whether it is whole is known once the files are that it lists.
                last.append(key)
            elif item.kind is None and item.version is None:
                # It may be one that a manifest has.
                nameless += self._file(key, item, output, waiting)
            else:
                yield from self._file(key, item, output, waiting)
        for key in last:
            yield from self._file(key, self.tree.items[key], output, waiting)
        if output is not None:
            yield from written_outcomes(waiting, output.finish())
        unmet = list(self._unmet()) if self._is_hurt else []
        lost = [outcome for outcome in nameless if outcome.state == FILE_LOST]
        yield from (outcome for outcome in nameless if outcome.state != FILE_LOST)
        yield from unmet
        # Those that a manifest has are counted once.
        yield from lost[len(unmet) :]

    def _file(self, key: int, item: Item, output: Optional[Output], waiting: Dict[int, SalvageOutcome]) -> Iterator[SalvageOutcome]:
        """A file, and those that got their names meanwhile."""
        take: Take = dropped
        if output is not None:
            take = partial(output.take, item.target[:-1])
        outcome = self.judged(item, take)
        if outcome.state == FILE_WHOLE:
            self._whole.add(item.path)
        elif outcome.state == FILE_UNPROVED and self._manifests.get(item.path, frozenset([None])) <= self._whole:
            outcome = outcome._replace(state=FILE_WHOLE)
        self._is_hurt |= outcome.state in (FILE_LOST, FILE_NAMELESS)
        if output is None or outcome.state == FILE_LOST:
            yield outcome
            return
        waiting[key] = outcome
        yield from written_outcomes(waiting, output.name(key, target_of(item, outcome), outcome.moment, tail_of(item)))

    def _unmet(self) -> Iterator[SalvageOutcome]:
        """Files that a manifest has and that were not met, where nodes without a name were: it is not known which these are."""
        met = {item.path for item in self.tree.items}
        for path in self.digests.paths():
            if path not in met and not self.digests.digests_of(path) & self._digests_met:
                yield SalvageOutcome(path, FileType.FILE, FILE_LOST, 0, None, (), "a manifest has it, and nothing of it was found", None)

    def _directory(self, item: Item, output: Optional[Output], tail: str) -> Iterator[SalvageOutcome]:
        written = None
        if output is not None and item.kind is FileType.DIRECTORY:
            try:
                written = output.folder(item.target, item.entry.moment if item.entry is not None else None, tail)
            except InTheWay as error:
                yield SalvageOutcome(item.path, item.kind, FILE_UNPROVED, 0, item.commit, (), str(error), None)
                return
        if item.entry is None:
            yield SalvageOutcome(item.path, item.kind, FILE_LOST, 0, None, (), item.why, written)
        elif item.commit is not None or item.why:
            state = FILE_EARLIER if item.commit is not None else FILE_UNPROVED
            yield SalvageOutcome(item.path, item.kind, state, 0, item.commit, (), item.why or f"as of commit {item.commit}", written)


def tail_of(item: Item) -> str:
    """What distinguishes a node from another of the same name."""
    return str(item.entry.unique) if item.entry is not None else str(item.virtual)


def target_of(item: Item, outcome: SalvageOutcome) -> Path:
    """The names that a file is written under."""
    if outcome.state == FILE_DAMAGED:
        return item.target[:-1] + (item.target[-1] + DAMAGED_SUFFIX,)
    if outcome.state == FILE_WHOLE:
        return item.target[:-1] + (item.path[-1],)
    return item.target


def carved_pieces(before: Optional[FileReading], carved: CarvedFile) -> Iterator[bytes]:
    """The bytes of a file whose entry is lost."""
    if before is not None:
        yield from before.pieces()
    yield carved.last


def flips(medium: Medium, item: Item, entry: Entry) -> Iterator[bytes]:
    """The bytes inside an entry with one bit changed, where its check agrees then."""
    block = medium.block(item.version.address) if item.version is not None else None
    if block is None or entry.inside is None:
        return
    body = bytearray(block[16 : 176 + entry.size])
    for bit in range(160 * 8, len(body) * 8):
        body[bit // 8] ^= 1 << bit % 8
        if crc(body) == entry.check:
            yield bytes(body[160:])
        body[bit // 8] ^= 1 << bit % 8


def written_outcomes(waiting: Dict[int, SalvageOutcome], done: List[WrittenFile]) -> Iterator[SalvageOutcome]:
    """The outcomes of files that were written."""
    for key, path, error in done:
        outcome = waiting.pop(key)
        if error is None:
            yield outcome._replace(written=path)
        else:
            yield outcome._replace(why=f"{outcome.why}; {escaped(path)} {error}".lstrip("; "))


__all__ = ["FILE_DAMAGED", "FILE_EARLIER", "FILE_LOST", "FILE_NAMELESS", "FILE_STATES", "FILE_UNPROVED", "FILE_WHOLE", "NothingToSalvage", "Salvage", "SalvageOutcome", "UNFINISHED"]
