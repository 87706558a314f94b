"""Which digests cover the files of an image: those of manifests on the volume, and those of a ledger.

    with Medium("disc.img") as medium:
        volume = Volume(medium)
        coverage = Coverage(volume, volume.state())
        coverage.take_ledger(ledger, "image:/srv/disc.img")    # where there is one
        for node in files:
            for wanted in coverage.of(node):
                ...                                            # wanted.sha256, wanted.source

The image is read by `udfburn.reader` alone. A file's entry is written by the commit of the request that stored it and by no other, so
a ledger's digest is found by the commit, whatever path the file has now.
"""

from __future__ import annotations

from bisect import bisect_left
from hashlib import sha256
from typing import Dict, List, NamedTuple, Optional, Set, Tuple, Union

from ..base import manifest as m
from ..ledger.digests import Files, SentFile
from ..ledger.ledger import Ledger
from ..ledger.records import KnownVolume
from ..protocol import Path, show
from ..protocol.units import Address, Commit
from ..reader import FileType, State, StateNode, Volume
from ..reader.chain import Chain, Span
from ..reader.survey import Survey


class ExpectedFile(NamedTuple):
    """What a file should be: its SHA-256, and where that is said. `address` is that of the manifest's entry; None where the ledger
    has it, and no manifest."""

    sha256: bytes
    source: str
    address: Optional[Address]


class Coverage:
    """The digests of a state of a volume."""

    def __init__(self, volume: Volume, state: State):
        self.volume = volume
        self.nodes: Dict[Path, StateNode] = {node.path: node for node in state.walk()}
        self.broken: List[Path] = [path for path, _ in state.broken]
        self.faults: List[Tuple[Path, str]] = []
        """What is wrong with manifests themselves, by their paths."""
        self.manifests: List[Path] = []
        self.hurt: Set[str] = set()
        """Manifests that have other bytes than were stored, by their paths as they are shown; known after `look_at_manifests`."""
        self.missing: List[Tuple[Path, str]] = []
        """What manifests list and the state does not have."""
        self._wanted: Dict[Path, List[ExpectedFile]] = {}
        self._sent: Dict[Commit, SentFile] = {}
        self._now: Dict[Path, SentFile] = {}
        self._chain: Optional[Chain] = None
        self._tables = sorted(volume.chain(), key=lambda table: table.address)
        self._last = volume.chain()[-1]
        """The oldest table that the newest one leads to."""
        self._ends = [table.address for table in self._tables]
        self._left = m.LONGEST_MANIFEST
        """The bytes of manifests that are still read: what they say is in memory at once."""
        for path in sorted(self.nodes):
            if path and path[-1] in m.MANIFESTS and self.nodes[path].kind is FileType.FILE:
                self._take_manifest(path)

    def commit_of(self, node: StateNode) -> Optional[Commit]:
        """The commit that wrote a node's entry; None where that is not known."""
        return self._commits_of(node).commit

    def _commits_of(self, node: StateNode) -> Span:
        """The commits that may have written a node's entry. Where the chain of tables is broken, all tables are looked for."""
        if self._last.commit and self._chain is None:
            self._chain = Chain(self.volume, Survey(self.volume))
        if self._chain is not None:
            return self._chain.commit_of(node.address) or Span(Commit(0), self._tables[-1].commit)
        commit = self._tables[bisect_left(self._ends, node.address)].commit
        return Span(commit, commit)

    def of(self, node: StateNode) -> List[ExpectedFile]:
        """What a file should be, by each source that speaks of it."""
        wanted = list(self._wanted.get(node.path, ()))
        sent = self.sent(node)
        if sent is not None:
            wanted.append(ExpectedFile(sent.sha256, "the ledger", None))
        return wanted

    def sent(self, node: StateNode) -> Optional[SentFile]:
        """What the ledger sent as this file. Where the commit that wrote it is not known, it is that with its path, its size and its moment."""
        if not self._sent:
            return None
        commits = self._commits_of(node)
        if commits.commit is not None:
            return self._sent.get(commits.commit)
        now = self._now.get(node.path)
        is_it = now is not None and commits.low <= now.commit <= commits.high and (now.size, now.moment) == (node.size, node.moment)
        return now if is_it else None

    def unreached(self) -> List[SentFile]:
        """The files that the ledger has and that are not known to be here or gone: no chain of tables reaches the commits that wrote
        them."""
        if not self._now or not self._last.commit:
            return []
        met = {sent.commit for sent in map(self.sent, self.nodes.values()) if sent is not None}
        reached = {link.commit for link in self._chain.links if link.adjacent} if self._chain is not None else set()
        return [known for known in self._now.values() if known.commit not in met and known.commit not in reached]

    # ---- manifests

    def _take_manifest(self, path: Path) -> None:
        node, above = self.nodes[path], path[:-1]
        if node.size > self._left:
            self.faults.append((path, f"what it lists is not compared, since {self._left:,} of {m.LONGEST_MANIFEST:,} bytes for manifests are left"))
            return
        self._left -= node.size
        run = self.volume.read(node)
        if run.missing:
            self.faults.append((path, f"cannot be read (block {run.missing[0]})"))
            return
        bag = above + (m.BAG_DECLARATION,) in self.nodes
        if path[-1] == m.TAG_MANIFEST and not bag:
            return
        lines, faults = m.read_manifest(run.data, bag)
        self.manifests.append(path)
        self.faults += [(path, fault) for fault in faults]
        for line in lines:
            listed = above + line.path
            if listed not in self.nodes or self.nodes[listed].kind is not FileType.FILE:
                self.missing.append((listed, show(path)))
            self._wanted.setdefault(listed, []).append(ExpectedFile(line.sha256, show(path), node.address))

    def look_at_manifests(self) -> None:
        """Finds the manifests that are not as other manifests or the ledger have them: what they say of files is doubtful."""
        for path in self.manifests:
            digest = sha256(self.volume.read(self.nodes[path]).data).digest()
            if any(wanted.sha256 != digest for wanted in self.of(self.nodes[path])):
                self.hurt.add(show(path))

    # ---- a ledger

    def take_ledger(self, ledger: Ledger, way: Union[str, bytes]) -> Optional[KnownVolume]:
        """Takes what a ledger sent to this volume. Gives the volume of the ledger; None where it has none that this one shows to be it:
        by its identity, and by the replies that it keeps of the ledger's client."""
        replies = self._replies(ledger.client)
        bound = ledger.volume(way)
        others = [volume for volume in ledger.volumes() if bound is None or volume.id != bound.id]
        for volume in ([bound] if bound else []) + others:
            if self._is(ledger, volume, replies):
                files = Files(ledger, volume)
                self._sent, self._now = files.by_commit, files.now
                return volume
        return None

    def _is(self, ledger: Ledger, volume: KnownVolume, replies: Dict[int, Tuple[int, Commit]]) -> bool:
        here = (self.volume.label, self.volume.moment, self.volume.capacity)
        if volume.identity is not None and None not in here and tuple(volume.identity) != here:
            return False
        sent = {sent.number: (sent.code, sent.commit) for sent in ledger.sent(volume, min(replies, default=1) - 1)}
        known = [number for number in replies if number in sent and sent[number][0] is not None]
        return bool(known) and all(sent[number] == replies[number] for number in known)

    def _replies(self, client: int) -> Dict[int, Tuple[int, Commit]]:
        """Code and commit of each reply that the volume keeps of a client, by number."""
        for record in self.volume.clients(self.volume.table()):
            if record.client == client:
                return {record.latest - index: (reply.code, reply.commit) for index, reply in enumerate(record.replies)}
        return {}


__all__ = ["Coverage", "ExpectedFile"]
