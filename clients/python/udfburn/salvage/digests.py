"""The SHA-256 digests that a volume has of its own files: the manifests of bags (RFC 8493), and lists as `sha256sum` writes them."""

from __future__ import annotations

import re
from typing import Collection, Dict, FrozenSet, Iterator, List, NamedTuple, Optional, Set

from ..base.manifest import MANIFESTS, manifest_rows
from ..protocol.units import Address
from ..reader.volume import Path

TRIED = 1_000_000
"""How often it is asked, at most, whether a line of a manifest without a name is that of a file."""

SUM_LINE = re.compile(r"(\\?)([0-9A-Fa-f]{64})[ \t]+\*?(.+)", re.DOTALL)
FIRST_LINE = re.compile(rb"[\r\n]*(\\?[0-9A-Fa-f]{64}[ \t]|\\?[0-9A-Fa-f]{0,64}\Z)")
"""The beginning of a manifest, or of its first extent where that ends before its first line does."""

ESCAPES = {"n": "\n", "r": "\r", "\\": "\\"}


class Listed(NamedTuple):
    """A line of a manifest: a path from the root on, and its digest in lower case."""

    path: Path
    digest: str


def listed_lines(folder: Path, data: bytes, is_bag: bool) -> Iterator[Listed]:
    """The valid lines of a manifest in a folder."""
    for line in split_lines(data, is_bag):
        found = SUM_LINE.fullmatch(line)
        if found is None:
            continue
        name = found[3]
        if is_bag:
            name = re.sub("%(0A|0D|25)", lambda code: chr(int(code[1], 16)), name, flags=re.IGNORECASE)
        elif found[1]:
            name = re.sub(r"\\([nr\\])", lambda code: ESCAPES[code[1]], name)
        yield Listed(folder + tuple(part for part in name.split("/") if part not in ("", ".")), found[2].lower())


def split_lines(data: bytes, is_bag: bool) -> Iterator[str]:
    """The lines of a manifest that are not empty. In names both forms write what ends a line otherwise."""
    return filter(None, manifest_rows(data.decode("utf-8", "replace"), is_bag))


class ManifestDigest(NamedTuple):
    """A digest of a file, and the address of the entry of the manifest that has it. Where it is doubted, that a file has another says
    nothing."""

    digest: str
    address: Address
    doubted: bool


class Digests:
    """What the manifests on a volume say of files' digests."""

    def __init__(self) -> None:
        self._known: Dict[Path, List[ManifestDigest]] = {}
        self._paths: Dict[str, Path] = {}

    def add(self, path: Path, kept: ManifestDigest) -> None:
        """Adds a file's digest."""
        self._known.setdefault(path, []).append(kept)
        self._paths.setdefault(kept.digest, path)

    def agrees(self, path: Path, digest: str, address: Address) -> Optional[bool]:
        """Whether a digest is that of the file at a path, whose entry has this address; None where that is not known.

        A file that was written after a manifest may be another than the manifest has.
        """
        known = self._known.get(path, [])
        if any(kept.digest == digest for kept in known):
            return True
        return False if any(not kept.doubted and kept.address > address for kept in known) else None

    def has(self, path: Path) -> bool:
        """Whether a digest of the file at a path is known."""
        return path in self._known

    def path_of(self, digest: str) -> Optional[Path]:
        """The path of a file with this digest."""
        return self._paths.get(digest)

    def is_known(self, path: Path, digest: str) -> bool:
        """Whether a digest is one that is kept of the file at a path."""
        return digest in self.digests_of(path)

    def paths(self) -> List[Path]:
        """All paths with a digest."""
        return sorted(self._known)

    def digests_of(self, path: Path) -> Set[str]:
        """The digests that are kept of the file at a path."""
        return {kept.digest for kept in self._known.get(path, [])}

    def __len__(self) -> int:
        return len(self._known)


class Manifest(NamedTuple):
    """A manifest that is on the volume: where it is had, the folder that it is of, its bytes, its own digest, whether some of its bytes
    are missing or it is of no state, and the address of its entry."""

    path: Path
    folder: Path
    data: bytes
    digest: str
    hurt: bool
    address: Address


def add_manifests(digests: Digests, found: List[Manifest], bags: Set[Path]) -> Dict[Path, FrozenSet[Optional[Path]]]:
    """Adds the lines of manifests, and gives the paths that each lists, with None among them where it has a line that is none.

    `bags` are the folders with a `bagit.txt`. A manifest that is not as another has it is doubted.
    """
    lines = [(manifest, list(listed_lines(manifest.folder, manifest.data, manifest.folder in bags))) for manifest in found]
    own: Dict[Path, Set[str]] = {}
    for _, listed in lines:
        for path, digest in listed:
            own.setdefault(path, set()).add(digest)
    paths: Dict[Path, FrozenSet[Optional[Path]]] = {}
    for manifest, listed in lines:
        known = own.get(manifest.path)
        doubted = manifest.hurt or known is not None and manifest.digest not in known
        for path, digest in listed:
            digests.add(path, ManifestDigest(digest, manifest.address, doubted))
        count = sum(1 for _ in split_lines(manifest.data, manifest.folder in bags))
        is_read = len(listed) == count and not manifest.hurt
        paths[manifest.path] = frozenset([path for path, _ in listed] + ([] if is_read and listed else [None]))
    return paths


def is_manifest(name: str) -> bool:
    """Whether a file of this name is a manifest."""
    return name in MANIFESTS


def manifest_data(pieces: Iterator[bytes]) -> bytes:
    """The bytes of a file whose name is lost, where it may be a manifest. All are taken, and those of another one are not kept."""
    first = next(pieces, b"")
    if FIRST_LINE.match(first):
        return first + b"".join(pieces)
    for _ in pieces:
        pass
    return b""


def folder_of(data: bytes, paths: Collection[Path]) -> Optional[Path]:
    """The folder of a manifest whose name is lost: the one in which most of its files are. None where the bytes are no manifest."""
    listed = list(listed_lines((), data, False))
    if not listed or len(listed) < sum(1 for _ in split_lines(data, False)):
        return None
    first = [line.path for line in listed[:20]]
    folders = {path[: len(path) - len(end)] for end in first for path in paths if path[len(path) - len(end) :] == end}
    tried = listed[:: 1 + len(listed) * len(folders) // TRIED]
    there = {folder: sum(folder + line.path in paths for line in tried) for folder in folders}
    best = max(there, key=lambda folder: there[folder], default=())
    return best if 2 * there.get(best, 0) > len(tried) else None
