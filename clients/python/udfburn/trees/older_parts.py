"""Files that a volume has in parts, as earlier versions stored them (`udfburn.base.older_parts`): found, so that one file takes their place,
and compared.
"""

from __future__ import annotations

from contextlib import closing, suppress
from typing import TYPE_CHECKING, Container, Dict, Iterable, List, Mapping, Tuple

from ..base.errors import IsDirectory, NotFound
from ..base.older_parts import base_of, part_path, stored_paths
from ..local.sources import Source
from ..protocol import Node, NodeKind, Path, Stat, limits, printed, show
from .stored import StoredFile, find_file

if TYPE_CHECKING:
    from .client import Client


def files_in_parts(client: Client, paths: Iterable[Path]) -> Dict[Path, StoredFile]:
    """Those of the files that are there in parts, of paths at which there is nothing."""
    found: Dict[Path, StoredFile] = {}
    for path in paths:
        with suppress(NotFound):
            found[path] = find_file(client, path, True)
    return found


def left_parts(client: Client, paths: Iterable[Path], kinds: Mapping[Path, NodeKind], own: Container[Path]) -> List[str]:
    """Says which files have a full first part beside them that is not of what is stored: it may be a file of its own as well as what is
    left where parts were replaced and that was interrupted."""
    firsts: Dict[Path, Path] = {}
    for path in paths:
        if kinds.get(path) is NodeKind.FILE:
            firsts.update({part_path(path, 0, False): path} if kinds.get(part_path(path, 0, False)) is NodeKind.FILE else {})
            firsts.update({part_path(path, 0, True): path} if kinds.get(base_of(path)) is NodeKind.DIRECTORY else {})
    asked = [part for part in firsts if part not in own]
    with closing(client.ask_all(map(Stat, asked))) as answers:
        full = [part for part, node in zip(asked, answers) if isinstance(node, Node) and node.size == limits.FILE]
    return [f"{printed(part)}: stays, since it may be a file of its own as well as what an earlier {printed(firsts[part])} left" for part in full]


def faults_of_parts(client: Client, source: Source) -> List[Tuple[str, str]]:
    """Where the parts that have the bytes of a file are not those that are read as it: an earlier, longer one may have left more, or a whole
    one."""
    paths = stored_paths(source.path, source.identity.size)
    try:
        others = [part for part in find_file(client, source.path, True).parts if part not in paths]
    except (IsDirectory, NotFound):
        return [(show(source.path), "is there in parts, but with --split they are not read as one file")]
    return [(show(source.path), f"is there, but with --split {printed(part)} is read as a part of it") for part in others[:1]]


__all__ = ["faults_of_parts", "files_in_parts", "left_parts"]
