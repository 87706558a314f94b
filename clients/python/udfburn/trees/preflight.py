"""Whether all of an import fits, reported at once and before anything is sent."""

from __future__ import annotations

from collections import Counter
from typing import TYPE_CHECKING, Dict, List, Optional, Set

from ..base.unfinished import UNDER_WAY, UNFINISHED_PREFIX, is_unfinished, unfinished_path
from ..local.sources import Folder, Scan, Source, shown
from ..protocol import NodeKind, Path, limits, printed

if TYPE_CHECKING:
    from ..image.blocks import Reckoner, Space


class Present:
    """What the volume has: the kind of each path that was looked at, and the names of its directories in stored order."""

    def __init__(self, whole: bool = False):
        self.kinds: Dict[Path, NodeKind] = {}
        self.names: Dict[Path, List[str]] = {}
        self.whole = whole

    def add(self, path: Path, kind: NodeKind) -> None:
        self.kinds[path] = kind


class Plan:
    """What an import does: directories that are made, files, the pieces of them that are there, and what goes: parts of an earlier version
    after their file is stored, and what is `unfinished` before."""

    def __init__(self, faults: List[str]):
        self.folders: List[Folder] = []
        self.files: List[Source] = []
        self.kept: Dict[Path, Dict[int, bytes]] = {}
        self.parts: Dict[Path, List[Path]] = {}
        self.unfinished: List[Path] = []
        self.faults = faults
        self.blocks: Optional[int] = None
        self.left: Optional[int] = None


def plan(scan: Scan, present: Present, space: Optional[Space], parts: Optional[Dict[Path, List[Path]]] = None) -> Plan:
    """Plans an import, with all that speaks against it. `parts` are those that files take the place of, in the order in which they go."""
    planned = Plan(list(scan.faults))
    planned.files, planned.kept, planned.parts, planned.unfinished = scan.files, scan.kept, parts or {}, scan.unfinished
    for folder in scan.folders:
        if present.kinds.get(folder.path) is NodeKind.FILE:
            planned.faults.append(f"{printed(folder.path)}: is a file, and is to be a directory")
        elif folder.path not in present.kinds:
            planned.folders.append(folder)
    check_shared(planned, [source.path for source in scan.files + scan.same])
    check_paths(planned, present)
    check_counts(planned, present)
    reckon(planned, present, space)
    return planned


def refuse_files(scan: Scan) -> None:
    """Takes out the files that no volume may have, by their sizes or their paths: each is a fault."""
    faults = [fault_of(source) for source in scan.files]
    scan.faults += [f"{shown(source.local)}: {fault}" for source, fault in zip(scan.files, faults) if fault]
    scan.files = [source for source, fault in zip(scan.files, faults) if not fault]


def fault_of(source: Source) -> Optional[str]:
    """Why a file cannot be stored by its size and its path, if it cannot."""
    size = source.identity.size
    if is_unfinished(source.path):
        return f"would have a path that begins with /{UNFINISHED_PREFIX}: such files are not whole, and clients remove them"
    return f"has {size} bytes, and a file has at most {limits.GREATEST_FILE}" if size > limits.GREATEST_FILE else None


def check_shared(planned: Plan, taken: List[Path]) -> None:
    """Paths that two files would have. A file that the volume has already is one of them: else another takes its place there,
    and its source may be gone by then."""
    for path, count in Counter(taken + [folder.path for folder in planned.folders]).items():
        if count > 1:
            planned.faults.append(f"{printed(path)}: more than one of the files and folders would have this path")


def check_paths(planned: Plan, present: Present) -> None:
    """Names, depths, kinds and parents."""
    made: Set[Path] = {folder.path for folder in planned.folders}
    for source in planned.files:
        if present.kinds.get(source.path) is NodeKind.DIRECTORY:
            planned.faults.append(f"{printed(source.path)}: is a directory, and {shown(source.local)} is a file")
    for path in [source.path for source in planned.files] + sorted(made):
        if is_unfinished(path):
            planned.faults.append(f"{printed(path)}: begins with /{UNFINISHED_PREFIX}, as the names of files do that clients have not finished")
        if len(path) > limits.DEPTH:
            planned.faults.append(f"{printed(path)}: has {len(path)} names, and a path has at most {limits.DEPTH}")
        parent = path[:-1]
        if path and parent not in made and present.kinds.get(parent, NodeKind.DIRECTORY if not parent else None) is not NodeKind.DIRECTORY:
            planned.faults.append(f"{printed(parent)}: is not a directory of the volume (-p makes missing ones)")
    planned.faults[:] = list(dict.fromkeys(planned.faults))


def new_paths(planned: Plan, present: Present) -> List[Path]:
    """The paths that an import adds."""
    paths = [folder.path for folder in planned.folders] + [source.path for source in planned.files]
    return [path for path in dict.fromkeys(paths) if path not in present.kinds]


def check_counts(planned: Plan, present: Present) -> None:
    """Names in a directory, and nodes of the volume."""
    added = new_paths(planned, present)
    counts = Counter(path[:-1] for path in added if path)
    growing = [source.path for source in planned.files if source.identity.size > limits.FILE]
    elsewhere = min(UNDER_WAY, sum(path[:-1] != () or path in present.kinds for path in growing))
    if elsewhere:
        counts[()] += elsewhere
    for parent, count in counts.items():
        names = len(present.names.get(parent, ())) + count
        if names > limits.NAMES:
            planned.faults.append(f"{printed(parent)}: would have {names} names, and a directory has at most {limits.NAMES}")
    # An unfinished file is a node beside the one that it replaces.
    beside = min(UNDER_WAY, sum(path in present.kinds for path in growing))
    nodes = 1 + sum(len(names) for names in present.names.values()) + len(added) + beside
    if present.whole and nodes > limits.NODES:
        planned.faults.append(f"the volume would have {nodes} files and directories, and has at most {limits.NODES}")


def reckon(planned: Plan, present: Present, space: Optional[Space]) -> None:
    """Blocks, where the image is there to be looked at. The first file that does not fit is named."""
    if space is None or planned.faults:
        return
    from ..image.blocks import Reckoner

    begin, planned.left = space.next, space.left()
    reckoner = Reckoner(space)
    for path, names in present.names.items():
        reckoner.directory(path, names)
    fits = all([reckoner.make(folder.path) for folder in planned.folders])
    fits = all([reckoner.remove(path) for path in planned.unfinished]) and fits
    for source in planned.files:
        left = max(space.left(), 0)
        if not reckon_file(reckoner, planned, present, source):
            if fits:
                planned.faults.append(f"{printed(source.path)}: has {source.identity.size} bytes, and there is no room for them: {left * limits.BLOCK} are free by then")
            fits = False
    planned.blocks = space.next - begin
    if not fits:
        planned.faults.append(
            f"the import takes {planned.blocks} blocks, and {reckoner.end - begin} must be free while it is written; {planned.left} are free"
        )


def reckon_file(reckoner: Reckoner, planned: Plan, present: Present, source: Source) -> bool:
    """Goes on by a file, and by the parts whose place it takes. Whether it fits."""
    path, size, there = source.path, source.identity.size, source.path in present.kinds
    if size > limits.FILE:
        fits = reckoner.grow(path, size, len(planned.kept.get(path, ())), unfinished_path(0, path), there)
    else:
        fits = reckoner.replace(size) if there else reckoner.create(path, size)
    return all([reckoner.remove(part) for part in planned.parts.get(path, [])]) and fits
