"""Trees that are copied from a volume. An interrupted copy continues: complete files are compared, and not written again."""

from __future__ import annotations

import os
import stat
from contextlib import closing, contextmanager
from typing import TYPE_CHECKING, Callable, Dict, Iterator, List, NamedTuple, Sequence, Tuple

from ..base.beneath import NotFollowed, RelativePath, Root, folder_mode, mode_for, place_of
from ..base.disk import is_full
from ..base.errors import DiskFull, SourceError
from ..base.escape import decode
from ..local.saving import SAVING_PREFIX, Saver, failure_line, remove_leftovers, save
from ..local.sources import exactly
from ..protocol import Node, NodeKind, Path, printed, shown
from ..wire.pieces import and_node, bytes_as_seen, queries_of
from .compare import Comparison, verify_tree
from .stored import StoredFile, StoredTree, find_file
from .walk import StepTold, quiet

if TYPE_CHECKING:
    from .client import Client


@contextmanager
def parts_of(client: Client, files: Sequence[StoredFile]) -> Iterator[Iterator[Tuple[StoredFile, Iterator[bytes]]]]:
    """Files with their bytes, part by part or piece by piece. Those of one are to be taken before the next."""
    asked = [queries_of(file.parts, file.size) for file in files]
    with closing(client.ask_all(query for queries in asked for query in and_node(queries))) as answers:
        yield ((file, bytes_as_seen(queries, Node(NodeKind.FILE, file.moment, file.size), answers)) for file, queries in zip(files, asked))


class Target(NamedTuple):
    """A file of the volume, and the local one that it becomes, below the folder that is copied into."""

    names: RelativePath
    file: StoredFile


class Fetched:
    """What was copied: files and bytes, those that were there whole, and each that was not copied, with why."""

    def __init__(self) -> None:
        self.files = self.bytes = self.same = 0
        self.failures: List[str] = []


class Fetcher:
    """Copies directories into local folders, and files."""

    def __init__(
        self, client: Client, split: bool = False, force: bool = False, told: StepTold = quiet, begin: Callable[[int, int], None] = lambda files, size: None,
    ):
        """`begin` is called with how many files and bytes are to come."""
        self.client, self.split, self.force, self.told, self.begin = client, split, force, told, begin
        self.summary = Fetched()
        # Nobody may read a copy who may not read the volume.
        self._mode = mode_for(client.endpoint.status())

    def tree(self, path: Path, local: str) -> Fetched:
        """Copies a directory into a local folder: one that is new or empty, or that an interrupted copy made, unless `force`."""
        with self.client.held():
            tree = StoredTree().walk(self.client, path)
            files = tree.files(self.split)
            folders = [local_names(at[len(path) :]) for at in tree.directories(files)]
            targets = self._apart([Target(local_names(file.path[len(path) :]), file) for file in files])
            if not self.force:
                require_copy(local, {names[0] for names in folders + [target.names for target in targets] if names})
            with Root.make(local, folder_mode(self._mode)) as root:
                self._copy(root, folders, targets)
        return self.summary

    def _apart(self, targets: List[Target]) -> List[Target]:
        """The first of the files that would have one local name, as those of a spelling and of what it spells. Each other one is a failure."""
        first: Dict[RelativePath, Target] = {}
        for target in targets:
            other = first.setdefault(target.names, target)
            if other is not target:
                self.summary.failures.append(f"{printed(target.file.path)}: has the local name of {printed(other.file.path)}: copy it by itself")
        return list(first.values())

    def file(self, path: Path, local: str) -> Fetched:
        """Copies a file."""
        with self.client.held():
            root, names = place_of(local)
            with root:
                target = Target(names, find_file(self.client, path, self.split))
                remove_leftovers(root, names[:-1], names[-1:])
                self._copy(root, [], [target])
        return self.summary

    def _copy(self, root: Root, folders: List[RelativePath], targets: List[Target]) -> None:
        """Makes folders and files, all of which are on the disk then."""
        self.begin(len(targets), sum(target.file.size for target in targets))
        with Saver(root, self.force, self._mode) as saver:
            try:
                self._make_folders(folders, targets, saver)
                self._files(targets, saver)
                saver.finish()
            except DiskFull:
                # What was written whole has its place already.
                saver.finish()
                raise
            finally:
                self.summary.failures += saver.failures

    def _make_folders(self, folders: List[RelativePath], targets: List[Target], saver: Saver) -> None:
        """Makes the folders, and removes what a killed copy left in those that are there."""
        names: Dict[RelativePath, List[str]] = {}
        for target in targets:
            names.setdefault(target.names[:-1], []).append(target.names[-1])
        for folder in folders:
            try:
                saver.make_folder(folder)
                remove_leftovers(saver.root, folder, names.get(folder, []))
            except OSError as error:
                if is_full(error):
                    raise
                raise SourceError(f"{shown(saver.root.local(folder))}: {error.strerror}") from error

    def _files(self, targets: List[Target], saver: Saver) -> None:
        """Copies files, but those that are there whole."""
        there = {target.names: status for target in targets for status in [saver.root.find(target.names)] if status is not None}
        same = self._same([target for target in targets if target.names in there and same_size(target, there[target.names])], there, saver)
        left = [target for target in targets if target.names not in same]
        refused = set() if self.force else set(there)
        for target in left:
            if target.names in refused:
                self.summary.failures.append(f"{shown(saver.root.local(target.names))}: already exists, with other bytes (--force replaces it)")
        wanted = [target for target in left if target.names not in refused]
        with parts_of(self.client, [target.file for target in wanted]) as files:
            for target, (file, parts) in zip(wanted, files):
                self._save(target, parts, saver)
            saver.flush()

    def _same(self, targets: List[Target], there: Dict[RelativePath, os.stat_result], saver: Saver) -> "set[RelativePath]":
        """Those of the local files that have all bytes of the volume's."""
        same = set()
        with parts_of(self.client, [target.file for target in targets]) as files:
            for target, (file, parts) in zip(targets, files):
                if has_bytes(saver.root, target.names, parts):
                    same.add(target.names)
                    saver.has_copied(there[target.names])
                    # A killed copy may have given it its name.
                    saver.folder(target.names[:-1])
                    self.summary.same += 1
                    self.told("same", file.path, file.size, 0)
        return same

    def _save(self, target: Target, parts: Iterator[bytes], saver: Saver) -> None:
        """Writes a file. One that another process made meanwhile, or that is no file, is a failure."""
        path = target.file.path

        def named(count: int) -> None:
            self.summary.files += 1
            self.summary.bytes += count
            self.told("got", path, count, 0)

        try:
            saver.save(target.names, parts, target.file.moment, named)
        except (SourceError, NotFollowed) as error:
            self.summary.failures.append(failure_line(saver.root, target.names, error))
        # The next file's bytes come after those of this one.
        for _ in parts:
            pass


def local_names(path: Path) -> RelativePath:
    """The local names of a path of the volume."""
    return tuple(map(decode, path))


def same_size(target: Target, status: os.stat_result) -> bool:
    """Whether a local file may have the bytes."""
    return stat.S_ISREG(status.st_mode) and status.st_size == target.file.size


def has_bytes(root: Root, names: RelativePath, parts: Iterator[bytes]) -> bool:
    """Whether a local file has these bytes. All are taken. One that cannot be read has others."""
    same = True
    try:
        with open(root.open_file(names, keep_access_time=True), "rb", buffering=0) as file:
            for part in parts:
                same = same and exactly(file.fileno(), len(part)) == part
            return same and not file.read(1)
    except OSError:
        for _ in parts:
            pass
        return False


def require_copy(local: str, names: "set[str]") -> None:
    """Raises where a folder has names that the directory does not have: then it is no copy of it that was interrupted."""
    try:
        with Root.open(local) as root:
            others = [name for name in root.names_in(()) if name not in names and not name.startswith(SAVING_PREFIX)]
    except FileNotFoundError:
        return
    except NotADirectoryError:
        raise SourceError(f"{shown(local)}: already exists, and is not a folder") from None
    if others:
        more = f" and {len(others) - 1} more" if len(others) > 1 else ""
        raise SourceError(f"{shown(local)}: already exists, and has {shown(others[0])}{more}, which the volume does not have (--force goes into it)")


def get_tree(client: Client, path: Path, local: str, split: bool = False, force: bool = False, told: StepTold = quiet) -> int:
    """Copies a directory into a local folder, and gives the count of its files. Raises where one was not copied."""
    summary = Fetcher(client, split, force, told).tree(path, local)
    if summary.failures:
        raise SourceError("\n".join(summary.failures))
    return summary.files + summary.same


__all__ = ["Comparison", "Fetched", "Fetcher", "find_file", "get_tree", "parts_of", "save", "verify_tree"]
