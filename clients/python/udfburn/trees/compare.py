"""Local files and folders, compared with what is stored."""

from __future__ import annotations

from contextlib import closing
from typing import TYPE_CHECKING, Callable, Dict, List, Optional, Set, Tuple

from ..base.errors import SourceError
from ..base.older_parts import base_of, is_in_parts, part_folders, stored_paths
from ..base.unfinished import is_unfinished
from ..local.sources import Scan, Source, scan
from ..protocol import Node, NodeKind, Path, Stat, limits, show
from ..wire.pieces import and_node, is_still, queries_of
from .jobs import same_bytes
from .older_parts import faults_of_parts
from .walk import StepTold, quiet, walk

if TYPE_CHECKING:
    from .client import Client


class Comparison:
    """What a folder and a directory have in common, where they differ, by path and how, and what was left out."""

    def __init__(self, differences: List[Tuple[str, str]]):
        self.files = self.bytes = self.folders = 0
        self.differences = differences
        self.extra: List[str] = []
        self.skipped: List[str] = []


def verify_tree(
    client: Client, local: str, path: Path, split: bool = False, skip_odd: bool = False, told: StepTold = quiet, escape: bool = False,
    begin: Callable[[int, int], None] = lambda files, size: None,
) -> Comparison:
    """Compares a local file or folder with what is stored: that all that is here is there, with the same bytes."""
    found = Scan()
    scan(local, path, True, skip_odd, found, escape)
    result = Comparison(differences=[(fault, "cannot be stored") for fault in found.faults])
    result.skipped = found.skipped
    with client.held():
        kinds = look_below(client, path, bool(found.folders))
        wanted = {folder.path for folder in found.folders}
        for folder in found.folders:
            compare_kind(show(folder.path), kinds.get(folder.path), NodeKind.DIRECTORY, result)
        there: List[Source] = []
        parts = {file.path for file in found.files if split and is_in_parts(file.path, file.identity.size, kinds)}
        for source in found.files:
            paths = stored_paths(source.path, source.identity.size) if source.path in parts else [source.path]
            wanted.update(paths, part_folders(source.path, source.identity.size) if source.path in parts else ())
            if all([compare_kind(show(part), kinds.get(part), NodeKind.FILE, result) for part in paths]):
                there.append(source)
        begin(len(there), sum(source.identity.size for source in there))
        same = compare_files(client, there, parts, result, told)
        result.differences += [fault for source in same if source.path in parts for fault in faults_of_parts(client, source)]
    result.folders = len(found.folders)
    result.extra = sorted(show(extra) for extra in kinds if extra not in wanted and len(extra) > len(path) and not is_unfinished(extra))
    return result


def look_below(client: Client, path: Path, folder: bool) -> Dict[Path, NodeKind]:
    """The kinds of a path and of all below it; of a file's parts too."""
    kinds: Dict[Path, NodeKind] = {}
    node = client.find(path)
    if node is not None:
        kinds[path] = node.kind
    if folder and node is not None and node.kind is NodeKind.DIRECTORY:
        for at, names in walk(client, path):
            kinds.update({at + (name.name,): name.kind for name in names})
    elif not folder and path and client.find(path[:-1]) is not None:
        kinds.update({path[:-1] + (name.name,): name.kind for name in client.list(path[:-1]) if name.name.startswith(path[-1] + ".")})
        if kinds.get(base_of(path)) is NodeKind.DIRECTORY:
            for at, names in walk(client, base_of(path)):
                kinds.update({at + (name.name,): name.kind for name in names})
    return kinds


def compare_kind(path: str, kind: Optional[NodeKind], wanted: NodeKind, result: Comparison) -> bool:
    """Whether a path has the kind that it should have; else that is a difference."""
    if kind is wanted:
        return True
    words = {None: "is not there", NodeKind.FILE: "is a file there", NodeKind.DIRECTORY: "is a directory there"}
    result.differences.append((path, words[kind]))
    return False


def nodes_of_large(client: Client, sources: List[Source], parts: Set[Path]) -> Dict[Path, Optional[Node]]:
    """The nodes of the files of more than a mebibyte, which are read piece by piece; None of one that has another size than the local one."""
    large = [source for source in sources if source.path not in parts and source.identity.size > limits.FILE]
    with closing(client.ask_all(Stat(source.path) for source in large)) as answers:
        return {
            source.path: node if isinstance(node, Node) and node.size == source.identity.size else None for source, node in zip(large, answers)
        }


def compare_files(client: Client, sources: List[Source], parts: Set[Path], result: Comparison, told: StepTold) -> List[Source]:
    """Compares the bytes of local files with those that are stored, of which these are in parts. Gives those with the same bytes."""
    equal: List[Source] = []
    nodes = nodes_of_large(client, sources, parts)
    others = {path for path, node in nodes.items() if node is None}
    asked = [
        [] if source.path in others
        else queries_of(stored_paths(source.path, source.identity.size) if source.path in parts else [source.path], source.identity.size)
        for source in sources
    ]
    with closing(client.ask_all(query for queries in asked for query in and_node(queries))) as answers:
        for source, queries in zip(sources, asked):
            failure = None
            try:
                same = same_bytes(source, len(queries), answers)
            except SourceError as error:
                failure = str(error)
            still = is_still(queries, nodes.get(source.path), answers)
            if failure is not None:
                result.differences.append((show(source.path), failure))
                continue
            same = same and still and source.path not in others
            result.files += 1
            result.bytes += source.identity.size
            told("same" if same else "differs", source.path, source.identity.size, 0)
            if same:
                equal.append(source)
            else:
                result.differences.append((show(source.path), "has other bytes there"))
    return equal


__all__ = ["Comparison", "verify_tree"]
