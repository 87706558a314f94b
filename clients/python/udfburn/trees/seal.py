"""Sealing: a directory of a volume becomes a bag (RFC 8493), or gets manifests as `sha256sum` writes them.

Every byte of the payload is read back from the volume. Where the ledger has the digest of what it sent, that must be the digest of what
came back; nothing is written where one is not.
"""

from __future__ import annotations

import time
from contextlib import closing
from hashlib import sha256
from typing import Dict, Iterable, Iterator, List, NamedTuple, Optional, Tuple, Type

from ..base import manifest as m
from ..base.errors import Differs, NotDirectory, TooLarge, UsageError
from ..base.unfinished import is_unfinished
from ..ledger.digests import SentFile
from ..protocol import AnyRequest, Code, Create, Node, NodeKind, Path, Replace, Stat, printed, show
from ..wire.operations import Operation, now
from ..wire.pieces import and_node, bytes_as_seen, queries_of
from ..wire.refusals import expected, refusal
from .client import Client
from .walk import StepTold, quiet, walk

AGENT = "udfburn-client"


class Sealed(NamedTuple):
    """What was sealed: files and bytes of the payload, of how many files the ledger had the digest, and what was written."""

    files: int
    bytes: int
    known: int
    written: List[Path]


class FileRead(NamedTuple):
    """A file that was read back: its path, the count of its bytes, their SHA-256, whether the ledger sent just these, and the bytes
    themselves of a file that is looked at, else none."""

    path: Path
    size: int
    sha256: bytes
    proved: bool
    data: bytes


FilesRead = Dict[Path, FileRead]


def seal_directory(client: Client, path: Path, manifest_only: bool = False, dry_run: bool = False, told: StepTold = quiet) -> Sealed:
    """Seals the directory at a path. The same call again finishes what was interrupted, and writes nothing where all is there.

    Raises `Differs` where the volume has other bytes than the ledger sent, or than a manifest says that is there already, and
    `TooLarge` where a manifest that is there, or one that is to be written, has more than a mebibyte. Nothing is written then.
    """
    with client.held():
        sent: Dict[Path, SentFile] = {}
        if not dry_run:
            client.resume()
            sent = client.known_files().now
        top = path if manifest_only else path + (m.PAYLOAD_FOLDER,)
        require_directory(client, path, top)
        found = read_files_back(client, sorted(files_below(client, path)), sent, None if manifest_only else path)
        if not dry_run:
            require_agreement(found)
        payload = [found[file] for file in found if file[: len(top)] == top and file != path + (m.MANIFEST,)]
        wanted = plain_files(path, payload) if manifest_only else bag_files(path, found, payload)
        written = write_files(client, wanted, found, dry_run, told)
    return Sealed(len(payload), sum(file.size for file in payload), sum(file.proved for file in payload), written)


def require_directory(client: Client, path: Path, top: Path) -> None:
    """Raises where the directory or its payload is not there."""
    if client.stat(path).kind is not NodeKind.DIRECTORY:
        raise NotDirectory(show(path))
    if top == path and client.find(path + (m.BAG_DECLARATION,)) is not None:
        raise UsageError(f"{printed(path)}: is a bag, whose manifest is another one: seal it without --manifest-only")
    node = client.find(top)
    if node is None or node.kind is not NodeKind.DIRECTORY:
        raise UsageError(
            f"{printed(path)}: has no directory {m.PAYLOAD_FOLDER}, in which a bag has its payload: store it at {printed(top)} ('put --seal' does), or"
            " use --manifest-only"
        )


def files_below(client: Client, top: Path) -> List[Path]:
    """The paths of all files below a directory, but those that a client has not finished."""
    found = [at + (name.name,) for at, names in walk(client, top) for name in names if name.kind is NodeKind.FILE]
    return [path for path in found if not is_unfinished(path)]


# ---- read back

def read_files_back(client: Client, paths: List[Path], sent: Dict[Path, SentFile], bag: Optional[Path]) -> FilesRead:
    """The files as the volume has them, where the directory at `bag`, if any, becomes one. Raises `TooLarge` before it reads any of them,
    where one that is looked at is too long, and `Differs` where the ledger sent other bytes."""
    nodes = nodes_of(client, paths)
    require_readable(nodes, bag)
    found: FilesRead = {}
    faults: List[str] = []
    for path, node, pieces in with_pieces(client, nodes):
        expected = sent.get(path)
        # A file of another size or moment is not the one that the ledger sent: another client replaced it.
        known = expected is not None and (expected.size, expected.moment) == (node.size, node.moment)
        found[path] = file_read(path, pieces, known, is_looked_at(path, bag))
        if expected is not None and known and expected.sha256 != found[path].sha256:
            faults.append(
                f"{printed(path)}: has other bytes than were sent (commit {expected.commit}): SHA-256 {expected.sha256.hex()} was sent,"
                f" {found[path].sha256.hex()} is there"
            )
    if faults:
        raise Differs("\n".join(faults))
    return found


def is_looked_at(file: Path, bag: Optional[Path]) -> bool:
    """Whether the bytes of a file are looked at: of each manifest, and of the tag files of the directory that becomes a bag."""
    return file[-1] in m.MANIFESTS or file[:-1] == bag and file[-1] in m.TAG_FILES


def require_readable(nodes: Dict[Path, Node], bag: Optional[Path]) -> None:
    """Raises where a file that is looked at is longer than any that is written: its bytes would all be in memory at once."""
    long = {path: node.size for path, node in nodes.items() if node.size > m.LONGEST_WRITTEN and is_looked_at(path, bag)}
    if long:
        raise TooLarge("\n".join(
            f"{printed(path)}: has {size} bytes, and of a file with this name at most {m.LONGEST_WRITTEN} are read: give it another name, and seal"
            " again. Nothing was written" for path, size in long.items()
        ))


def file_read(path: Path, pieces: Iterable[bytes], known: bool, is_kept: bool) -> FileRead:
    """A file whose bytes come piece by piece, and whether they are kept."""
    size, digest, kept = 0, sha256(), []
    for data in pieces:
        size += len(data)
        digest.update(data)
        if is_kept:
            kept.append(data)
    return FileRead(path, size, digest.digest(), known, b"".join(kept))


def nodes_of(client: Client, paths: List[Path]) -> Dict[Path, Node]:
    """The nodes of files, in the order of their paths."""
    with closing(client.ask_all(map(Stat, paths))) as answers:
        return {path: expected(Node, Stat(path), answer) for path, answer in zip(paths, answers)}


def with_pieces(client: Client, nodes: Dict[Path, Node]) -> Iterator[Tuple[Path, Node, Iterator[bytes]]]:
    """Files with their nodes and their bytes, in pieces. Those of one are to be taken before the next."""
    asked = [queries_of([path], node.size) for path, node in nodes.items()]
    with closing(client.ask_all(query for queries in asked for query in and_node(queries))) as answers:
        for (path, node), queries in zip(nodes.items(), asked):
            yield path, node, bytes_as_seen(queries, node, answers)


def require_agreement(found: FilesRead) -> None:
    """Raises where a manifest that is there says other bytes of a file, and the ledger did not send those that came back: a new
    manifest would hide what happened to it."""
    faults: List[str] = []
    for manifest in found.values():
        above = manifest.path[:-1]
        if manifest.path[-1] not in m.MANIFESTS:
            continue
        for line in m.read_manifest(manifest.data, above + (m.BAG_DECLARATION,) in found)[0]:
            file = found.get(above + line.path)
            if file is not None and not file.proved and file.sha256 != line.sha256:
                faults.append(
                    f"{printed(file.path)}: has other bytes than {printed(manifest.path)} says, and this ledger did not store them. Nothing was"
                    " written. If these bytes are right, remove that manifest and seal again"
                )
    if faults:
        raise Differs("\n".join(faults))


# ---- what is written

def plain_files(path: Path, payload: List[FileRead]) -> Dict[Path, bytes]:
    """One manifest beside the files; where it would pass a mebibyte, one in each directory, of the files in it."""
    whole = m.plain_manifest(manifest_lines(path, payload))
    if len(whole) <= m.LONGEST_WRITTEN:
        return {path + (m.MANIFEST,): whole}
    folders: Dict[Path, List[FileRead]] = {}
    for file in payload:
        if file.path[-1] != m.MANIFEST:
            folders.setdefault(file.path[:-1], []).append(file)
    return {folder + (m.MANIFEST,): m.plain_manifest(manifest_lines(folder, files)) for folder, files in folders.items()}


def manifest_lines(path: Path, files: Iterable[FileRead]) -> List[m.ManifestLine]:
    """The lines of files, whose paths begin below a directory."""
    return [m.ManifestLine(file.sha256, file.path[len(path) :]) for file in files]


def bag_files(path: Path, found: FilesRead, payload: List[FileRead]) -> Dict[Path, bytes]:
    """The tag files of a bag, the manifest of these last. Raises `TooLarge` where one would have more than a mebibyte."""
    manifest = m.bag_manifest(manifest_lines(path, payload))
    info, old = path + (m.BAG_INFO,), path + (m.MANIFEST,)
    same = old in found and found[old].data == manifest
    metadata = bag_info(found[info].data if info in found else b"", payload, same)
    wanted = {path + (m.BAG_DECLARATION,): m.DECLARATION, info: metadata, old: manifest}
    outside = [file for file in found if file[len(path)] != m.PAYLOAD_FOLDER or len(file) == len(path) + 1]
    tags = {file: found[file].sha256 for file in outside if not is_tag_manifest(file[len(path) :])}
    tags.update({file: sha256(data).digest() for file, data in wanted.items()})
    wanted[path + (m.TAG_MANIFEST,)] = m.bag_manifest(m.ManifestLine(tags[tag], tag[len(path) :]) for tag in sorted(tags))
    require_writable(wanted)
    return wanted


def require_writable(wanted: Dict[Path, bytes]) -> None:
    """Raises where a tag file has more bytes than one request brings. It comes before the first is written."""
    for path, data in wanted.items():
        if len(data) > m.LONGEST_WRITTEN:
            where = " seal the directories below by themselves, or use --manifest-only, which then writes one in each directory"
            raise TooLarge(
                f"{printed(path)}: would have {len(data)} bytes, and at most {m.LONGEST_WRITTEN} are written:"
                f"{where if path[-1] in m.MANIFESTS else ' shorten it, and seal again'}. Nothing was written"
            )


def is_tag_manifest(path: Path) -> bool:
    """Whether a path below a bag is that of a manifest of tag files, which no such manifest may list (RFC 8493, 2.2.1)."""
    return len(path) == 1 and path[0].startswith("tagmanifest-") and path[0].endswith(".txt")


def bag_info(old: bytes, payload: List[FileRead], same: bool) -> bytes:
    """The metadata of a bag (RFC 8493, 2.2.2). What others wrote there stays; the day stays too, where the payload is the same."""
    oxum = f"Payload-Oxum: {sum(file.size for file in payload)}.{len(payload)}"
    kept = elements(old.decode(errors="surrogateescape"))
    day = [element for element in kept if label(element) == "bagging-date"]
    others = [element for element in kept if label(element) not in ("bagging-date", "payload-oxum", "bag-software-agent")]
    today = f"Bagging-Date: {time.strftime('%Y-%m-%d', time.gmtime())}"
    lines = [f"Bag-Software-Agent: {AGENT}", day[0] if day and same else today, oxum] + others
    return "".join(f"{line}\n" for line in lines).encode(errors="surrogateescape")


def elements(text: str) -> List[str]:
    """The elements of a bag's metadata, each with the lines that go on with it."""
    found: List[str] = []
    for line in m.BAG_END.split(text):
        if line[:1] in (" ", "\t") and found:
            found[-1] += "\n" + line
        elif line:
            found.append(line)
    return found


def label(element: str) -> str:
    """The label of an element, which is compared without regard to case."""
    return element.partition(":")[0].strip().lower()


def write_files(client: Client, wanted: Dict[Path, bytes], found: FilesRead, dry_run: bool, told: StepTold) -> List[Path]:
    """Writes the files that are not there with these bytes, in their order, and reads them back. Gives their paths."""
    changed = [path for path, data in wanted.items() if path not in found or found[path].data != data]
    for path in changed:
        kind: Type[AnyRequest] = Replace if path in found else Create
        if dry_run:
            told("would replace" if path in found else "would store", path, len(wanted[path]), 0)
        else:
            store(client, Operation(kind, path, now(), wanted[path]), told)
    return changed


def store(client: Client, operation: Operation, told: StepTold) -> None:
    """Stores a file, and compares what is there then."""
    (outcome,) = client.run([operation])
    if outcome.code is not Code.DONE:
        raise refusal(outcome)
    if client.get(operation.path) != operation.data:
        raise Differs(f"{printed(operation.path)}: has other bytes than were sent (commit {outcome.commit})")
    told("stored", operation.path, len(operation.data), outcome.commit)


def seal_words(sealed: Sealed, path: Optional[Path] = None) -> str:
    """What was sealed, in a line."""
    from ..base.progress import plural, size

    where = f" at {printed(path)}" if path is not None else ""
    words = f"sealed {plural(sealed.files, 'file', 'files')}, {size(sealed.bytes)}{where}: {sealed.known} compared with what was sent"
    rest = sealed.files - sealed.known
    words += f", {rest} only with themselves as they were read" if rest else ""
    return words + (f"; wrote {plural(len(sealed.written), 'file', 'files')}" if sealed.written else "; all was there")


__all__ = ["Sealed", "seal_directory", "seal_words"]
