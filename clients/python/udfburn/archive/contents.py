"""What a volume of an archive says of itself: its number, its runs, its files with their digests. Read by `udfburn.reader`,
which knows the medium's format alone."""

from __future__ import annotations

import re
from bisect import bisect_left, bisect_right
from hashlib import sha256
from typing import Dict, Iterator, List, Mapping, NamedTuple, Optional, Set, Tuple

from ..base.manifest import LONGEST_MANIFEST, MANIFEST, PAYLOAD_FOLDER, TAG_MANIFEST, read_manifest
from ..protocol import Path, limits
from ..protocol.units import Address, Commit, Moment, Size
from ..reader import FileType, Medium, NoVolume, Run, State, StateNode, Volume
from ..reader.basics import address_of, blocks_of
from ..reader.group import counted_blocks
from .catalogue import Held, mebibytes_of
from .errors import CannotStore, VolumeDiffers
from .names import DESCRIPTION, kept_name, read_back, text_of
from .older_parts import older_start
from .schema import COMMITS, NUMBERS
from .tail import sound_length

TITLE = "udfburn-archive 1"
"""The first line of the text that each volume of an archive begins with; its number is that of the layout."""

NUMBER, ARCHIVE = re.compile("[0-9]{1,19}"), re.compile("[0-9a-f-]{36}")

ABOUT = "volume.txt"
RUNS = "runs"
GONE = "gone"
"""The folder of the texts that say what was deleted at its source."""
SAME = "same"
"""The folder of the texts that say which files have the bytes of others."""

TEXT_BYTES = 1_000_000
"""Bytes of a text of either kind, at most."""


class About(NamedTuple):
    """What `volume.txt` says: the archive, its label, and the volume's number."""

    archive: str
    label: str
    number: int


class File(NamedTuple):
    """A file of the archive on a volume: its path, the nodes of its bytes in order, and its row but for the digest. `first` and `parts`
    count mebibytes, as those of a row do."""

    path: Path
    version: int
    whole: Path
    """Its stored path, which is a folder's where it has parts."""
    nodes: Tuple[StateNode, ...]
    size: Size
    moment: Moment
    commit: Commit
    added: Moment
    sha256: Optional[bytes]
    first: Optional[int]
    parts: Optional[int]

    def held(self, number: int, digest: bytes) -> Held:
        """The row of the catalogue."""
        return Held(number, self.commit, self.path, self.size, self.moment, digest, self.added, self.first, self.parts)


def read_fields(data: bytes) -> Dict[str, str]:
    """The fields of a text: `name: value` a line, up to the first empty line."""
    found: Dict[str, str] = {}
    for line in data.decode("utf-8", "replace").split("\n"):
        name, colon, value = line.partition(": ")
        if not line:
            break
        if colon:
            found[name] = value
    return found


def first_piece(fields: Mapping[str, str], size: int) -> int:
    """With which mebibyte of a file the parts on a volume begin, by its description; `ValueError` or `KeyError` where it does not say so."""
    older = older_start(fields)
    if older is not None:
        return number(older, mebibytes_of(size))
    start = number(fields["first byte"], size)
    if start % limits.FILE:
        raise ValueError(f"{start} is no multiple of {limits.FILE}")
    return start // limits.FILE


SIZE = (1 << 62) - 1
"""The greatest size of a file that a description may give."""


def number(text: str, most: int) -> int:
    """The number that plain digits say, or `ValueError` where it is greater than it may be. Whoever made a volume wrote them."""
    if not NUMBER.fullmatch(text) or int(text) > most:
        raise ValueError(f"{text[:40]!r} is no number from 0 to {most}")
    return int(text)


def read_about(data: bytes, where: str) -> About:
    """What `volume.txt` says, or `VolumeDiffers`."""
    title = data.decode("utf-8", "replace").split("\n", 1)[0]
    if title != TITLE:
        raise VolumeDiffers(f"{where}: is not a volume of an archive, or not of one that this program knows: {ABOUT} begins with {title[:40]!r}")
    fields = read_fields(data)
    try:
        if not ARCHIVE.fullmatch(fields["archive"]):
            raise ValueError(f"{fields['archive'][:40]!r} is not the id of an archive")
        return About(fields["archive"], fields["label"], number(fields["volume"], NUMBERS))
    except (KeyError, ValueError) as error:
        raise VolumeDiffers(f"{where}: {ABOUT} does not name its archive, label and volume") from error


def about_of(image: str) -> Optional[About]:
    """What an image says of itself, of which hardly more is read; None where it is no volume, or cannot be read."""
    try:
        with Medium(image) as medium:
            volume = Volume(medium)
            node = volume.state().find((ABOUT,))
            return read_about(volume.read(node).data, image) if node is not None and node.size <= LONGEST_MANIFEST else None
    except (NoVolume, VolumeDiffers, ValueError, OverflowError, RecursionError, OSError):
        return None


class Contents:
    """A volume, as it was when it was opened. Closed by `close`, or at the end of `with`."""

    def __init__(self, image: str):
        self.image = image
        length = sound_length(image)
        try:
            self.medium = Medium(image)
        except OSError as error:
            raise VolumeDiffers(f"{image}: {error.strerror or error}") from error
        if length is not None:
            self.medium.blocks = min(self.medium.blocks, length // limits.BLOCK)
        try:
            # Whoever writes next drops a group that was not settled.
            self.medium.blocks = counted_blocks(self.medium)
            self._read()
        except NoVolume as error:
            self.medium.close()
            raise VolumeDiffers(f"{image}: holds no volume ({error})") from error
        except BaseException:
            self.medium.close()
            raise

    def __enter__(self) -> "Contents":
        return self

    def __exit__(self, *_: object) -> None:
        self.close()

    def close(self) -> None:
        self.medium.close()

    def _read(self) -> None:
        self.volume = Volume(self.medium)
        chain = self.volume.chain()
        self.addresses = [table.address for table in reversed(chain)]
        self.first_commit, self.last_commit = chain[-1].commit, chain[0].commit
        if not 0 <= self.first_commit <= self.last_commit < COMMITS:
            raise VolumeDiffers(f"{self.image}: says that it has {self.last_commit} commits, which no volume has")
        self.last_address = chain[0].address
        self.label, self.formatted = self.volume.label or "", self.volume.moment or Moment(0)
        self.capacity = self.volume.capacity or limits.CAPACITY[1]
        self.state: State = self.volume.state()
        self.nodes: Dict[Path, StateNode] = {node.path: node for node in self.state.walk()}
        if self.state.broken:
            raise VolumeDiffers(f"{self.image}: is damaged: {len(self.state.broken)} files or folders cannot be read: repair it from a copy, or use 'udfburn-client salvage'")
        self._runs = sorted((self.commit_of(node), node.moment or Moment(0)) for path, node in self.nodes.items() if len(path) == 2 and path[0] == RUNS)

    # ---- what it says

    def about(self) -> About:
        """Which volume of which archive it is; `VolumeDiffers` where it is none."""
        node = self.nodes.get((ABOUT,))
        if node is None:
            raise VolumeDiffers(f"{self.image}: is not a volume of an archive: it has no {ABOUT}")
        return read_about(self.bytes_of(node), self.image)

    def commit_of(self, node: StateNode) -> Commit:
        """The commit that wrote a file: the first whose VAT ICB comes after the file's own."""
        return Commit(self.first_commit + bisect_left(self.addresses, node.address))

    def added(self, commit: Commit) -> Moment:
        """When the run began that wrote a commit."""
        index = bisect_right(self._runs, (commit, Moment(limits.MOMENT))) - 1
        return self._runs[index][1] if index >= 0 else self.formatted

    def runs(self) -> int:
        """How many runs wrote to it."""
        return len(self._runs)

    def clients(self) -> Set[int]:
        """The clients that it keeps."""
        return {client.client for client in self.state.clients}

    def bytes_of(self, node: StateNode) -> bytes:
        """The bytes of a file that is read as one, or `VolumeDiffers` where a block cannot be read."""
        if node.size > LONGEST_MANIFEST:
            raise VolumeDiffers(f"{self.image}: {text_of(node.path)} has {node.size} bytes, which no such file of an archive has")
        return self._whole(node, self.volume.read(node))

    def sha256_of(self, node: StateNode) -> bytes:
        """The SHA-256 of a file, with zeros where a block is missing."""
        whole = sha256()
        for run in self.volume.pieces(node):
            whole.update(run.data)
        return whole.digest()

    def is_bag(self) -> bool:
        """Whether the last file of a bag is there."""
        return (TAG_MANIFEST,) in self.nodes

    def closed(self) -> Optional[Moment]:
        """When the bag was finished, in microseconds; None where it was not."""
        node = self.nodes.get((TAG_MANIFEST,))
        return node.moment if node is not None else None

    def manifest(self) -> Dict[Path, bytes]:
        """The digests of a bag's payload, by path; empty where the bag was not finished."""
        node = self.nodes.get((MANIFEST,))
        lines = read_manifest(self.bytes_of(node), True)[0] if node is not None and self.is_bag() else []
        return {line.path: line.sha256 for line in lines}

    # ---- its files

    def files(self) -> List[File]:
        """The files of the archive, bundles among them, by their commits. Parts without a description are left out."""
        digests = self.manifest()
        whole: List[File] = []
        described: Dict[Tuple[Path, int], StateNode] = {}
        parts: Dict[Tuple[Path, int], Dict[int, StateNode]] = {}
        for path, node in self.nodes.items():
            stored = read_back(path) if node.kind is FileType.FILE else None
            if stored is None:
                continue
            if stored.part is None:
                commit = self.commit_of(node)
                whole.append(File(stored.path, stored.version, path, (node,), node.size, node.moment or Moment(0), commit, self.added(commit), digests.get(path), None, None))
            elif stored.part < 0:
                described[stored.path, stored.version] = node
            else:
                parts.setdefault((stored.path, stored.version), {})[stored.part] = node
        whole += [self._in_parts(path, version, node, parts.get((path, version), {})) for (path, version), node in described.items()]
        return sorted(whole, key=lambda file: file.commit)

    def _in_parts(self, path: Path, version: int, node: StateNode, parts: Dict[int, StateNode]) -> File:
        """A file in parts, by its description."""
        fields = read_fields(self.bytes_of(node))
        try:
            size, digest = Size(number(fields["size"], SIZE)), bytes.fromhex(fields["sha256"])
            first = first_piece(fields, size)
            if len(digest) != 32:
                raise ValueError("no SHA-256")
        except (KeyError, ValueError) as error:
            raise VolumeDiffers(f"{self.image}: {text_of(node.path)} does not describe a file in parts") from error
        nodes: List[StateNode] = []
        at = first * limits.FILE
        # Each part ends with a mebibyte, or with the file.
        while at in parts and parts[at].size and (at + parts[at].size == size or at + parts[at].size < size and not parts[at].size % limits.FILE):
            nodes.append(parts[at])
            at += parts[at].size
        commit, count = self.commit_of(node), -(-at // limits.FILE) - first
        return File(path, version, node.path[:-1], tuple(nodes), size, node.moment or Moment(0), commit, self.added(commit), digest, first, count)

    def stored_paths(self, file: File) -> List[Path]:
        """The paths of a file on the volume: its own, or those of its parts, the last first, and of their description."""
        if file.parts is None:
            return [file.whole]
        return [node.path for node in reversed(file.nodes)] + [file.whole + (DESCRIPTION,)]

    def pieces(self, file: File) -> Iterator[bytes]:
        """The bytes of a file, or of the parts that are here, a mebibyte at a time."""
        for node in file.nodes:
            yield from self.pieces_of(node)

    def pieces_of(self, node: StateNode) -> Iterator[bytes]:
        """The bytes of a node, a mebibyte at a time, or `VolumeDiffers` where a block cannot be read."""
        for run in self.volume.pieces(node):
            yield self._whole(node, run)

    def piece(self, file: File, index: int) -> bytes:
        """A mebibyte of a file, or of the parts that are here, by its number."""
        for node in file.nodes:
            count = max(len(node.extents), 1)
            if index < count:
                return self.bytes_of(node) if node.data is None else self._extent(node, index)
            index -= count
        raise VolumeDiffers(f"{self.image}: {text_of(file.path)} has fewer bytes than the catalogue says: run 'check --data', then 'repair'")

    def pieces_of_row(self, file: File, row: Held) -> Iterator[bytes]:
        """The bytes that a row says are in a file or a bundle, a mebibyte at a time."""
        if row.start is None:
            yield from self.pieces(file)
        else:
            yield self.span(file, row.start, row.size)

    def span(self, file: File, start: int, size: Size) -> bytes:
        """So many bytes of a bundle from one on, or `VolumeDiffers` where they cannot be read. No other block is."""
        if file.size > limits.FILE:
            raise VolumeDiffers(f"{self.image}: {text_of(file.path)} has {file.size} bytes, and a bundle has at most {limits.FILE}")
        found, at, end = bytearray(), 0, start + size
        for node in file.nodes:
            whole = [(at, self.bytes_of(node))] if node.data is None else []
            for extent in node.extents:
                low, high = max(start - at, 0), min(end - at, extent.size)
                if low < high:
                    first, last = low // limits.BLOCK, -(-high // limits.BLOCK)
                    run = self.medium.run(Address(address_of(extent.first) + first), last - first)
                    found += self._whole(node, run)[low - first * limits.BLOCK : high - first * limits.BLOCK]
                at += extent.size
            for begin, data in whole:
                found += data[max(start - begin, 0) : max(end - begin, 0)]
                at += len(data)
        if start < 0 or len(found) != size:
            raise VolumeDiffers(f"{self.image}: {text_of(file.path)} has fewer bytes than the catalogue says: run 'check --data', then 'repair'")
        return bytes(found)

    def _extent(self, node: StateNode, index: int) -> bytes:
        """The bytes of an extent."""
        extent = node.extents[index]
        run = self.medium.run(address_of(extent.first), blocks_of(extent.size))
        return self._whole(node, Run(run.data[: extent.size], run.missing))

    def _whole(self, node: StateNode, run: Run) -> bytes:
        """The bytes that were read of a node."""
        if run.missing:
            raise VolumeDiffers(f"{self.image}: blocks of {text_of(node.path)} cannot be read, the first is {run.missing[0]}")
        return run.data

    def digest(self, file: File) -> bytes:
        """The digest of a file: from the manifest or its description, else computed from its bytes."""
        if file.sha256 is not None:
            return file.sha256
        whole = sha256()
        for piece in self.pieces(file):
            whole.update(piece)
        return whole.digest()

    def has_all(self, file: File) -> bool:
        """Whether all bytes of a file are on this volume."""
        return file.parts is None or not file.first and file.parts == mebibytes_of(file.size)

    def rows(self, number: int, known: Optional[Dict[int, Held]] = None) -> List[Held]:
        """The rows of the catalogue. Digests of files that are known by their commits are not computed anew."""
        found = []
        for file in self.files():
            require_keepable(self.image, file)
            old = known.get(file.commit) if known else None
            same = old is not None and (old.path, old.size, old.moment) == (file.path, file.size, file.moment)
            found.append(file.held(number, old.sha256 if old is not None and same else self.digest(file)))
        return found

    def payload(self) -> List[StateNode]:
        """The files of the payload, in order of their paths."""
        return [node for path, node in sorted(self.nodes.items()) if path[:1] == (PAYLOAD_FOLDER,) and node.kind is FileType.FILE]


def require_keepable(image: str, file: File) -> None:
    """Raises where a catalogue cannot keep a file: whoever made the volume did not take it from one."""
    try:
        for name in file.path:
            kept_name(name)
    except CannotStore as error:
        raise VolumeDiffers(f"{image}: {error}") from error
    if not 0 <= file.size <= SIZE:
        raise VolumeDiffers(f"{image}: {text_of(file.path)} has a size that no file has")
