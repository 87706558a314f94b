"""The folders of an open volume, and whether more fits in every limit: nodes, names, blocks and the manifest's bytes."""

from __future__ import annotations

from itertools import count
from typing import Dict, Iterable, List, NamedTuple, Optional, Tuple

from ..base.manifest import PAYLOAD_FOLDER
from ..image.blocks import Layout, Reckoner, Space, blocks_for, data_blocks, table_blocks
from ..protocol import Path, limits
from ..protocol.units import Address, Size
from ..reader.entry import descriptor_blocks
from .bag import manifest_size
from .bundle import MOST
from .names import DESCRIPTION, SPREAD, bundle_name, spelled, stored_folder, stored_part_name

KEPT_NODES = 10
"""Nodes that are kept for what `close` writes and for the next run."""

KEPT_NAMES = 9
"""Names that a folder keeps for the folders that spread it: there are at most eight, since a volume has 4,096 nodes."""

GREATEST_MANIFEST = limits.FILE - 1024
"""Bytes of a manifest, at most."""

SPARE = 64
"""Blocks that are kept beside what is computed: a block that looks like a VAT ICB moves what is written."""


ENDING = 34
"""Blocks that are kept for the end of a disc: three copies of the VAT ICB, and what 31 blocks lack to a unit of 32."""

FIRST_BLOCK = Address(262)
"""The first block after a format."""

LARGE_NODE = 32
"""Blocks a node, on average, from which on a volume takes as many nodes as the format allows: what its tables take is little beside them."""

DESCRIBED = 160
"""Bytes of the text that describes a file in parts, at most."""

Undo = Tuple[Tuple[Address, int, int, int], List[Path], Dict[Path, Optional[Tuple[int, int, int]]], List[str]]
"""What is needed to undo a plan: the counts before it, what it named, how the folders of that were laid, and the names of the root."""


class StoredPlace(NamedTuple):
    """Where a file goes: the folders that are made for it, and its own path, which is a folder's where it has parts."""

    folders: Tuple[Path, ...]
    path: Path


class PlannedTree:
    """An open volume as it will be when all that was planned is written."""

    def __init__(self, space: Space, manifest: int = 0, nodes: int = limits.NODES):
        self.capacity = space.capacity
        self.space = space
        self.manifest = manifest
        self.nodes = nodes
        """The nodes that it takes while its files are small."""
        self.reckoner = Reckoner(space)
        self.names: Dict[Path, Dict[str, bool]] = {(): {}}
        self.actual: Dict[Path, List[Path]] = {(): [()]}
        self._undo: List[Undo] = []
        self.lists = 0
        """Bytes of the lists of its bundles."""
        self._keep_room()

    @staticmethod
    def empty(capacity: int, nodes: int) -> "PlannedTree":
        """A volume right after it was opened."""
        tree = PlannedTree(Space(capacity, FIRST_BLOCK, {1}), 0, nodes)
        tree.small(("volume.txt",), 2000)
        for folder in ("runs", PAYLOAD_FOLDER):
            tree.reckoner.make((folder,))
            tree.has((folder,), True)
        tree.small(("runs", "00001.txt"), 500)
        return tree

    # ---- what is there

    def has(self, path: Path, is_folder: bool) -> None:
        """Takes in what the volume has; folders before what is in them."""
        self.names[path[:-1]][path[-1]] = is_folder
        if is_folder:
            self.names[path] = {}
            self.actual.setdefault(logical(path), []).append(path)

    def lay_out(self) -> None:
        """Reckons how the folders that are there are laid, once all of them are taken in."""
        for path, names in self.names.items():
            self.reckoner.directory(path, names)

    def at(self, logic: Path) -> Optional[bool]:
        """What is at a path where spreading folders count for nothing: a folder, a file, or None for nothing."""
        if not logic:
            return True
        for folder in self.actual.get(logic[:-1], ()):
            if logic[-1] in self.names[folder]:
                return self.names[folder][logic[-1]]
        return None

    # ---- what it takes

    def reserve(self) -> int:
        """Blocks that `close` needs: the manifest with what the program asks for it, and five small files."""
        table = table_blocks(len(self.space.clients) + 1, self.space.entries + KEPT_NODES)
        return 2 * blocks_for(self.manifest + 4096) + 6 * (2 * table + 16) + SPARE + ENDING

    def has_room_to_remove(self, files: int) -> bool:
        """Whether so many files of the root can be removed, and the volume closed."""
        table = table_blocks(len(self.space.clients) + 1, self.space.entries)
        return self.space.next + files * (2 * table + self.reckoner.layouts.get((), Layout()).most() + 2) <= self.space.capacity

    def _keep_room(self) -> None:
        self.space.capacity = self.capacity - self.reserve()

    def fits(self, sizes: Iterable[int], folder: Path, names: Iterable[str]) -> bool:
        """Whether files of these sizes and names fit in a folder together, as far as can be computed ahead."""
        layout, entries, nodes, blocks, manifest = self._layout(folder), self.space.entries, self.space.nodes, 0, self.manifest
        nodes += len(folder) + 2
        base = manifest_size((PAYLOAD_FOLDER,) + stored_folder(folder))
        root = self.reckoner.layouts.get((), Layout()).blocks() + 1
        for size, name in zip(sizes, names):
            if size > limits.GREATEST_FILE:
                return False
            nodes += 1
            entries = max(entries, nodes + 1)
            table = table_blocks(len(self.space.clients) + 1, entries)
            layout.add(spelled(name)[0])
            if layout.full > 40:
                layout, nodes = Layout(), nodes + 1
            blocks += table + 2 + data_blocks(size) + layout.blocks()
            # Each piece is a commit, and so is the one that gives the name.
            if size > limits.FILE:
                ends = range(limits.FILE, size + limits.FILE, limits.FILE)
                blocks += len(ends) * (table + 2) + sum(descriptor_blocks(Size(end)) for end in ends) + 2 * root + 2 * table
            manifest += base + 2 + sum(len(piece.encode()) for piece in spelled(name))
            if nodes > limits.NODES - KEPT_NODES or manifest > GREATEST_MANIFEST:
                return False
        most = most_nodes(self.nodes, nodes, self.space.next + blocks)
        return nodes <= most - KEPT_NODES and self.space.next + blocks + 2 * blocks_for(manifest - self.manifest) + SPARE <= self.space.capacity

    def most_nodes(self) -> int:
        """The nodes that it takes, by how large its files are."""
        return most_nodes(self.nodes, self.space.nodes, self.space.next)

    def _layout(self, folder: Path) -> Layout:
        """How the names of a folder are laid, to add more to it."""
        found = self.actual.get((PAYLOAD_FOLDER,) + stored_folder(folder), [])
        layouts: Dict[Path, Layout] = {}
        restore_layout(layouts, (), kept_layout(self.reckoner.layouts.get(found[-1])) if found else None)
        return layouts.get((), Layout())

    # ---- what is planned

    def place(self, folder: Path, name: str, size: int, unfinished: Path = (), kept: int = 0) -> Optional[StoredPlace]:
        """Plans a file in the first version that has its path free; None where it does not fit. One above a mebibyte has the path
        `unfinished` before, at which the volume has so many pieces of it already."""
        whole = self._free(folder, name)
        return None if whole is None else self._plan(whole, size, unfinished, kept)

    def place_in_parts(self, folder: Path, name: str) -> Optional[StoredPlace]:
        """Plans the description of a file in parts, in the same way."""
        whole = self._free(folder, name)
        return None if whole is None else self._plan(whole + (DESCRIPTION,), DESCRIBED)

    def place_part(self, whole: Path, start: int, size: int, unfinished: Path, kept: int) -> Optional[StoredPlace]:
        """Plans a part of a file, from a byte of it on, whose folder is there or planned."""
        return self._plan(logical(whole) + (stored_part_name(start),), size, unfinished, kept)

    def place_bundle(self, folder: Path, size: int, listed: int) -> Optional[StoredPlace]:
        """Plans a bundle of a folder, with a list of so many bytes, under the first number that is free there."""
        if self.lists + listed > MOST:
            return None
        for version in range(1, limits.NODES):
            above = (PAYLOAD_FOLDER,) + ((f"=v{version}",) if version > 1 else ()) + stored_folder(folder)
            if not any(self.at(above[:depth]) is False for depth in range(1, len(above) + 1)):
                break
        free = next(number for number in count(1) if self.at(above + spelled(bundle_name(number))) is None)
        place = self._plan(above + spelled(bundle_name(free)), size)
        self.lists += listed if place is not None else 0
        return place

    def _free(self, folder: Path, name: str) -> Optional[Path]:
        """The path of a file in the first version in which nothing else has it."""
        for version in range(1, limits.NODES):
            whole = (PAYLOAD_FOLDER,) + ((f"=v{version}",) if version > 1 else ()) + stored_folder(folder) + spelled(name)
            if not self._conflict(whole):
                return whole
        return None

    def small(self, path: Path, size: int) -> Optional[StoredPlace]:
        """Plans a small file of this program's own."""
        return self._plan(path, size)

    def _conflict(self, whole: Path) -> bool:
        """Whether something has this path, or a file is where a folder of it would be."""
        return self.at(whole) is not None or any(self.at(whole[:depth]) is False for depth in range(1, len(whole)))

    def _plan(self, whole: Path, size: int, unfinished: Path = (), kept: int = 0) -> Optional[StoredPlace]:
        """Plans the folders above and the file; None where a limit would be passed, and then nothing is planned."""
        before = self._kept()
        made: List[Path] = []
        last = self._names(whole, made)
        new = made + [last] if last is not None else made
        layouts = {path: kept_layout(self.reckoner.layouts.get(path)) for path in [(), *(path[:-1] for path in new)]}
        self._undo.append((before, new, layouts, list(self.reckoner.names.get((), ()))))
        if last is not None and len(last) <= limits.DEPTH:
            grows = size > limits.FILE
            fits = all([self.reckoner.make(path) for path in made])
            fits = (self.reckoner.grow(last, size, kept, unfinished, False) if grows else self.reckoner.create(last, size)) and fits
            self.manifest += manifest_size(last) if whole[0] == PAYLOAD_FOLDER else 0
            self._keep_room()
            if fits and self.space.nodes <= self.most_nodes() - KEPT_NODES and self.manifest <= GREATEST_MANIFEST and self.space.next <= self.space.capacity:
                return StoredPlace(tuple(made), last)
        self.back()
        return None

    def _names(self, whole: Path, made: List[Path]) -> Optional[Path]:
        """Names the folders above that are missing, and the file; None where there is no room for a name."""
        for depth in range(1, len(whole)):
            if self._step(whole[:depth], True, made) is None:
                return None
        return self._step(whole, False, made)

    def _kept(self) -> Tuple[Address, int, int, int]:
        return self.space.next, self.space.nodes, self.space.entries, self.manifest

    def back(self) -> None:
        """Undoes what was planned last."""
        before, new, layouts, self.reckoner.names[()] = self._undo.pop()
        self.space.next, self.space.nodes, self.space.entries, self.manifest = before
        for path in reversed(new):
            if self.names[path[:-1]].pop(path[-1]):
                del self.names[path]
                self.reckoner.layouts.pop(path, None)
                self.actual[logical(path)].remove(path)
                if not self.actual[logical(path)]:
                    del self.actual[logical(path)]
        for path, kept in layouts.items():
            if path in self.names:
                restore_layout(self.reckoner.layouts, path, kept)
        self._keep_room()

    def settle(self) -> None:
        """What was planned so far is not undone any more."""
        self._undo.clear()

    def share(self) -> float:
        """How full it is, in the limit that is nearest: from 0 to 1."""
        return max(self.space.next / max(self.space.capacity, 1), self.space.nodes / (self.most_nodes() - KEPT_NODES), self.manifest / GREATEST_MANIFEST)

    def _step(self, logic: Path, is_folder: bool, made: List[Path]) -> Optional[Path]:
        """The actual path of a name, which is put where there is room for it."""
        above = self.actual[logic[:-1]]
        for folder in above:
            if logic[-1] in self.names[folder]:
                return folder + (logic[-1],)
        home = next((folder for folder in above if len(self.names[folder]) < room_of(folder)), None)
        if home is None:
            home = above[0] + (f"=s{len(above)}",)
            if len(self.names[above[0]]) >= limits.NAMES:
                return None
            self.has(home, True)
            made.append(home)
        path = home + (logic[-1],)
        self.has(path, is_folder)
        if is_folder:
            made.append(path)
        return path


def most_nodes(small: int, nodes: int, blocks: int) -> int:
    """The nodes that a volume with so many nodes and blocks takes: with small files so many, since each commit writes a table of all."""
    return small if blocks < LARGE_NODE * nodes else limits.NODES


def kept_layout(layout: Optional[Layout]) -> Optional[Tuple[int, int, int]]:
    """How a folder is laid, so that it can be had again."""
    return None if layout is None else (layout.full, layout.at, layout.sum)


def restore_layout(layouts: Dict[Path, Layout], path: Path, kept: Optional[Tuple[int, int, int]]) -> None:
    """Has a folder laid as it was."""
    if kept is None:
        layouts.pop(path, None)
    else:
        layouts.setdefault(path, Layout()).full, layouts[path].at, layouts[path].sum = kept


def logical(path: Path) -> Path:
    """A stored path without the folders that spread others."""
    return tuple(name for name in path if not SPREAD.fullmatch(name))


def room_of(folder: Path) -> int:
    """The names that a folder takes."""
    return limits.NAMES if folder and SPREAD.fullmatch(folder[-1]) else limits.NAMES - KEPT_NAMES
