"""The files of a volume, those in parts each as one."""

from __future__ import annotations

from contextlib import closing
from typing import TYPE_CHECKING, Dict, List, NamedTuple, Sequence

from ..base.errors import IsDirectory
from ..base.older_parts import SUFFIX, base_of, joined_folder, joined_parts
from ..base.unfinished import is_unfinished
from ..protocol import Name, Node, NodeKind, Path, Stat, show
from ..protocol.units import Moment
from ..wire.refusals import expected
from .walk import walk

if TYPE_CHECKING:
    from .client import Client


class StoredFile(NamedTuple):
    """A file of the volume: its path, the paths of its parts, the moment of the last of them, and the bytes of all. `folders` are
    those that its parts take, each after the one above it."""

    path: Path
    parts: List[Path]
    moment: Moment
    size: int
    folders: List[Path]

    def removal(self) -> List[Path]:
        """All of these paths in the order in which they go: what is below a folder before it, and the last part first."""
        return sorted(self.parts + self.folders, reverse=True)


class StoredTree:
    """A directory with all below it: the names of each directory, and what Stat says of each file."""

    def __init__(self) -> None:
        self.names: Dict[Path, Sequence[Name]] = {}
        self.nodes: Dict[Path, Node] = {}

    def walk(self, client: Client, path: Path) -> "StoredTree":
        """Adds a directory with all below it, but files that a client has not finished."""
        for at, names in walk(client, path):
            self.add(client, at, [name for name in names if not is_unfinished(at + (name.name,))])
        return self

    def add(self, client: Client, at: Path, names: Sequence[Name]) -> None:
        """Adds a directory with its names, and asks for its files."""
        self.names[at] = names
        files = [at + (name.name,) for name in names if name.kind is NodeKind.FILE]
        with closing(client.ask_all(map(Stat, files))) as answers:
            for path, answer in zip(files, answers):
                self.nodes[path] = expected(Node, Stat(path), answer)

    def of(self, path: Path, parts: List[Path], folders: List[Path]) -> StoredFile:
        """A file by its parts."""
        return StoredFile(path, parts, self.nodes[parts[-1]].moment, sum(self.nodes[part].size for part in parts), folders)

    def directories(self, files: Sequence[StoredFile]) -> List[Path]:
        """The directories in the order of the walk, but those that are the parts of a file."""
        taken = {folder for file in files for folder in file.folders}
        return [at for at in self.names if at not in taken]

    def files(self, split: bool) -> List[StoredFile]:
        """The files in the order of the walk; with `split` those in parts each as one."""
        found: List[StoredFile] = []
        taken: "set[Path]" = set()
        for at, names in self.names.items():
            if at in taken:
                continue
            below = self.in_folders(at, names) if split else []
            taken.update(folder for file in below for folder in file.folders)
            found += self.beside(at, names, split) + below
        return found

    def beside(self, at: Path, names: Sequence[Name], split: bool) -> List[StoredFile]:
        """The files of a directory, and those whose parts are in it."""
        whole: Dict[str, List[str]] = {}
        rest = [name.name for name in names]
        if split:
            kinds = {name.name: name.kind for name in names}
            whole, rest = joined_parts([(name, self.nodes[at + (name,)].size if kinds[name] is NodeKind.FILE else None) for name in rest])
        groups = list(whole.items()) + [(name, [name]) for name in rest if at + (name,) in self.nodes]
        return [self.of(at + (name,), [at + (part,) for part in parts], []) for name, parts in groups]

    def in_folders(self, at: Path, names: Sequence[Name]) -> List[StoredFile]:
        """The files whose parts are in folders of parts in this directory. One beside a file or a directory of its name is none."""
        known = {name.name for name in names}
        found: List[StoredFile] = []
        for name in names:
            whole = name.name[: -len(SUFFIX)]
            if name.kind is not NodeKind.DIRECTORY or not name.name.endswith(SUFFIX) or not whole or whole in known:
                continue
            base = base_of(at + (whole,))
            listed = {path: [below.name for below in inside] for path, inside in self.names.items() if path[: len(base)] == base}
            parts = joined_folder(base, listed, {path: node.size for path, node in self.nodes.items() if path[: len(base)] == base})
            if parts:
                found.append(self.of(at + (whole,), parts, list(listed)))
        return found


def find_file(client: Client, path: Path, split: bool) -> StoredFile:
    """A file, which may be in parts. Raises where there is none."""
    node = client.find(path)
    if node is None and split and path:
        tree = StoredTree()
        names = client.list(path[:-1])
        tree.add(client, path[:-1], [name for name in names if name.name.startswith(path[-1] + ".")])
        if any(name.kind is NodeKind.DIRECTORY and name.name == path[-1] + SUFFIX for name in names):
            tree.walk(client, base_of(path))
        for stored in tree.files(True):
            if stored.path == path:
                return stored
    node = client.stat(path)
    if node.kind is NodeKind.DIRECTORY:
        raise IsDirectory(show(path))
    return StoredFile(path, [path], node.moment, node.size, [])


__all__ = ["StoredFile", "StoredTree", "find_file"]
