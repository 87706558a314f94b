"""What the mount of an image shows: `latest`, and `commits/N`, the tree after each commit.

Files in parts, and files of several extents, are each one file. The parts of the first are not listed, and are found by their names, so
that `sha256sum -c` finds what a manifest lists. Names are those that `get` gives local files.
"""

from __future__ import annotations

import os
from collections import OrderedDict
from typing import Callable, Dict, Hashable, Iterator, List, Optional, Set, Tuple

from ..base.errors import Damaged
from ..base.escape import decode
from ..base.manifest import BAG_DECLARATION, MANIFEST, MANIFESTS, read_manifest
from ..base.progress import Progress
from ..base.older_parts import SUFFIX, joined_folder, joined_parts
from ..base.unfinished import is_unfinished
from ..protocol import printed, shown
from ..protocol.units import Commit, Moment, Size, VirtualAddress
from ..reader import FileType, Medium, NoVolume, State, StateNode, Volume
from ..reader.basics import DEPTH, ENTRY_DESCRIPTORS, GREATEST_CAPACITY, NODES, address_of, blocks_of
from ..reader.budget import Work, block_budget
from ..reader.descriptors import read_descriptors, with_descriptors
from ..reader.directory import Identifier
from ..reader.entry import Entry, read_entry
from ..reader.volume import Path
from .shown_tree import Broken, BrokenFolder, ShownFile, ShownFolder, ShownItem, Sums

LATEST_FOLDER, COMMITS_FOLDER = b"latest", b"commits"

STATES_KEPT = 4
"""The states that are kept in memory."""

DIRECTORY_BLOCKS = 2 * NODES
"""Blocks of the directories of a state, at most: each but the last of one has six names at least, and there are so many nodes."""

MANIFEST_BYTES = 1 << 24
"""Bytes of the manifests that are read of a state, at most. One that is longer than what is left is not read, and takes nothing of it."""


class StateTree:
    """A state: each directory's nodes by their names. Each node is reached once, and there are no more of them than a volume has."""

    def __init__(self, called: str, volume: Volume, commit: Commit, note: Callable[[str], None]):
        self.volume, self.called, self._note = volume, called, note
        try:
            state = volume.state(commit)
        except NoVolume as error:
            raise Damaged(f"{called}: {error}") from error
        root = state.root()
        if root is None:
            raise Damaged(f"{called}: its root cannot be read")
        self.below: Dict[Path, Dict[str, StateNode]] = {}
        self.broken: Dict[Path, Dict[str, str]] = {}
        """Names of which nothing can be read, and why."""
        self.directories: Set[Path] = set()
        """Those of them that are directories."""
        self.incomplete: Set[Path] = set()
        self._names = self._blocks = 0
        self._room = block_budget(min(volume.medium.blocks, GREATEST_CAPACITY))
        self._reached: Set[VirtualAddress] = {root.virtual}
        self._wanted: Optional[Dict[Path, List[Tuple[int, bytes]]]] = None
        waiting = [root]
        while waiting:
            waiting += self._take(state, waiting.pop())

    def _take(self, state: State, node: StateNode) -> List[StateNode]:
        """Takes in a directory. Gives those in it."""
        self._blocks += node.blocks
        if self._blocks > DIRECTORY_BLOCKS:
            raise Damaged(f"{self.called}: its directories have more blocks than those of a volume can have")
        names, broken = self.below.setdefault(node.path, {}), self.broken.setdefault(node.path, {})
        for name in state.names(node):
            self._names += 1
            if self._names > NODES:
                raise Damaged(f"{self.called}: has more than {NODES:,} names, which no volume has")
            why = self._fault(node, name)
            child = state.child(node, name) if why is None else None
            if child is not None:
                names[name.name] = self._fitting(child)
                continue
            broken[name.name] = why or "its entry cannot be read"
            if name.is_directory:
                self.directories.add(node.path + (name.name,))
        if not state.is_complete(node):
            self.incomplete.add(node.path)
        return [child for child in names.values() if child.kind is FileType.DIRECTORY]

    def _fitting(self, node: StateNode) -> StateNode:
        """A node, where all files have blocks of their own, as far as their number shows it: so there are no more extents than fit."""
        self._room -= node.blocks if node.kind is FileType.FILE else 0
        if self._room < 0:
            raise Damaged(f"{self.called}: {Work.NODES.text}")
        return node

    def _fault(self, node: StateNode, name: Identifier) -> Optional[str]:
        """Why a name is not followed."""
        if len(node.path) == DEPTH:
            return "is too deep"
        if name.virtual in self._reached:
            return "another name leads to the same file or directory"
        self._reached.add(name.virtual)
        return None

    def parts_of(self, base: Path) -> List[StateNode]:
        """The parts of a file that has a folder of its own for them; none where a directory is no such folder."""
        folders = [base + (name,) for name, node in self.below[base].items() if node.kind is FileType.DIRECTORY]
        names: Dict[Path, List[str]] = {base: list(self.below[base])}
        sizes: Dict[Path, int] = {}
        for folder in folders:
            names[folder] = list(self.below[folder])
            sizes.update({node.path: node.size for node in self.below[folder].values() if node.kind is FileType.FILE})
        return [self.below[part[:-1]][part[-1]] for part in joined_folder(base, names, sizes)]

    # ---- digests

    def sums(self, path: Path) -> Tuple[bytes, ...]:
        """The SHA-256 that manifests say of a file, as far as they were written after it."""
        if self._wanted is None:
            self._wanted = {}
            self._look_at_manifests(self._wanted)
        node = self.below[path[:-1]][path[-1]]
        return tuple({digest for address, digest in self._wanted.get(path, ()) if address > node.address})

    def _look_at_manifests(self, wanted: Dict[Path, List[Tuple[int, bytes]]]) -> None:
        left = MANIFEST_BYTES
        for above, names in self.below.items():
            bag = BAG_DECLARATION in names
            for name in MANIFESTS if bag else (MANIFEST,):
                node = names.get(name)
                if node is None or node.kind is not FileType.FILE:
                    why = "cannot be read" if name in self.broken[above] else None
                elif node.size > left:
                    why = f"has {node.size:,} bytes, and {left:,} of {MANIFEST_BYTES:,} for manifests are left"
                else:
                    left -= node.size
                    why = self._take_manifest(wanted, node, bag)
                if why is not None:
                    self._note(f"{self.called}: {printed(above + (name,))} {why}: what it lists is not compared")

    def _take_manifest(self, wanted: Dict[Path, List[Tuple[int, bytes]]], node: StateNode, bag: bool) -> Optional[str]:
        """Takes the lines of a manifest, or gives why that cannot be done."""
        if exact_entry(self.volume.medium, node) is None:
            return "has a damaged entry"
        run = self.volume.read(node)
        if run.missing:
            return "cannot be read"
        for line in read_manifest(run.data, bag)[0]:
            wanted.setdefault(node.path[:-1] + line.path, []).append((node.address, line.sha256))
        return None


def exact_entry(medium: Medium, node: StateNode) -> Optional[Entry]:
    """The entry of a node as it is now; None where a byte of it, or of one of its descriptor blocks, is not as it must be. Their CRCs cover
    where the bytes of the file are, or the bytes in the entry."""
    block = medium.block(node.address)
    entry, faults = read_entry(block, node.virtual) if block is not None else (None, [])
    if entry is None or faults or entry.is_whole:
        return entry if not faults else None
    blocks = read_descriptors(medium, entry)
    return with_descriptors(entry, blocks) if not any(block.faults for block in blocks) else None


class ImageView(ShownFolder):
    """The top folder of an image that is mounted, as it is now."""

    def __init__(self, image: str, progress: Progress):
        self.image, self.progress = image, progress
        self.medium = Medium(image)
        try:
            self.volume = Volume(self.medium)
            chain = self.volume.chain()
        except NoVolume as error:
            self.medium.close()
            raise Damaged(f"{shown(image)}: holds no volume: no VAT ICB is found in it") from error
        self.newest = chain[0].commit
        self.commits = {table.commit: table.moment or Moment(0) for table in chain}
        self.moment = chain[0].moment or Moment(0)
        self._trees: "OrderedDict[int, StateTree]" = OrderedDict()
        self._bad: Dict[int, str] = {}

    def close(self) -> None:
        """Closes the image."""
        self.medium.close()

    def names(self) -> Dict[bytes, ShownItem]:
        return {LATEST_FOLDER: ImageFolder(self, self.newest, ()), COMMITS_FOLDER: Commits(self)}

    def called(self, commit: Commit, path: Path = ()) -> str:
        """How a file is called in messages."""
        return f"{shown(self.image)}: commit {commit}{': ' + printed(path) if path else ''}"

    def _note(self, line: str) -> None:
        self.progress.note(line, did="not compared", message=line)

    def tree(self, commit: Commit) -> StateTree:
        """The tree after a commit. A few are kept."""
        if commit in self._bad:
            raise Damaged(self._bad[commit])
        if commit not in self._trees:
            if len(self._trees) >= STATES_KEPT:
                self._trees.popitem(last=False)
            try:
                self._trees[commit] = StateTree(self.called(commit), self.volume, commit, self._note)
            except Damaged as error:
                self._bad[commit] = str(error)
                raise
        self._trees.move_to_end(commit)
        return self._trees[commit]


class Commits(ShownFolder):
    """The folder of all commits."""

    def __init__(self, view: ImageView):
        self.view, self.moment = view, view.moment

    def names(self) -> Dict[bytes, ShownItem]:
        return {b"%d" % commit: self._directory(commit) for commit in sorted(self.view.commits)}

    def _directory(self, commit: Commit) -> "ImageFolder":
        found = ImageFolder(self.view, commit, ())
        found.moment = self.view.commits[commit]
        return found


class ImageFolder(ShownFolder):
    """A directory after a commit."""

    def __init__(self, view: ImageView, commit: Commit, path: Path, moment: Moment = Moment(0)):
        self.view, self.commit, self.path = view, commit, path
        self.moment = moment or view.commits[commit]

    def names(self) -> Dict[bytes, ShownItem]:
        return dict(self._names(False))

    def find(self, name: bytes) -> Optional[ShownItem]:
        return dict(self._names(True)).get(name)

    def _names(self, with_hidden: bool) -> Iterator[Tuple[bytes, ShownItem]]:
        tree = self.view.tree(self.commit)
        # What a client has not finished is no file of the user's.
        below = {name: node for name, node in tree.below[self.path].items() if not is_unfinished(self.path + (name,))}
        self.fault = f"{self.view.called(self.commit, self.path)}: names cannot be read" if self.path in tree.incomplete else None
        whole, left = self._joined(tree, below)
        for name in below if with_hidden else ():
            # As manifests have them.
            yield os.fsencode(name), self._item(below[name])
        for name in left:
            yield self._named(name), self._item(below[name])
        for name, nodes in whole.items():
            yield self._named(name), ImageFile(self.view, self.commit, nodes)
        for name, why in tree.broken[self.path].items():
            called = self.view.called(self.commit, self.path + (name,))
            is_folder = self.path + (name,) in tree.directories
            yield self._named(name), BrokenFolder(called, why) if is_folder else Broken(called, why)

    def _joined(self, tree: StateTree, below: Dict[str, StateNode]) -> Tuple[Dict[str, List[StateNode]], List[str]]:
        """The files of which the directory has parts, and the names of all else."""
        files, others = joined_parts([(name, node.size if node.kind is FileType.FILE else None) for name, node in below.items()])
        found = {name: [below[part] for part in parts] for name, parts in files.items()}
        left: List[str] = []
        for name in others:
            whole = name[: -len(SUFFIX)] if name.endswith(SUFFIX) and below[name].kind is FileType.DIRECTORY else ""
            parts = tree.parts_of(self.path + (name,)) if whole and whole not in below and whole not in found else []
            if parts:
                found[whole] = parts
            else:
                left.append(name)
        return found, left

    def _named(self, name: str) -> bytes:
        return os.fsencode(decode(name))

    def _item(self, node: StateNode) -> ShownItem:
        if node.kind is FileType.DIRECTORY:
            return ImageFolder(self.view, self.commit, node.path, node.moment or Moment(0))
        return ImageFile(self.view, self.commit, [node])


class ImageFile(ShownFile):
    """A file after a commit: a node, or parts in order."""

    def __init__(self, view: ImageView, commit: Commit, nodes: List[StateNode]):
        self.view, self.commit, self.nodes = view, commit, nodes
        self.size = Size(sum(node.size for node in nodes))
        self.moment = nodes[0].moment or Moment(0)

    def key(self) -> Hashable:
        return tuple(node.address for node in self.nodes)

    def name(self) -> str:
        return self.view.called(self.commit, self.nodes[0].path)

    def sums(self) -> Sums:
        for node in self.nodes:
            self._entry(node)
        tree = self.view.tree(self.commit)
        found = tuple(tree.sums(node.path) for node in self.nodes)
        return Sums(found[0], ()) if len(found) == 1 else Sums((), found)

    def _entry(self, node: StateNode) -> Entry:
        entry = exact_entry(self.view.medium, node)
        if entry is None:
            what = " or a descriptor block of it" if len(node.extents) > ENTRY_DESCRIPTORS else ""
            raise Damaged(f"{self.view.called(self.commit, node.path)}: its entry in block {node.address}{what} is damaged")
        return entry

    def piece(self, index: int, way: None) -> bytes:
        node, index = (self.nodes[index], 0) if len(self.nodes) > 1 else (self.nodes[0], index)
        if node.data is None:
            return self._entry(node).inside or b""
        extent = node.extents[index]
        run = self.view.medium.run(address_of(extent.first), blocks_of(extent.size))
        if run.missing:
            raise Damaged(f"{self.view.called(self.commit, node.path)}: block {run.missing[0]} cannot be read")
        return run.data[: extent.size]


__all__ = ["ImageFile", "ImageFolder", "ImageView", "StateTree"]
