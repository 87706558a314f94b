"""Bundles: the small files of a folder in one tar, as a volume has it, with a list of them.

The list is a comment in the first header of the tar (POSIX.1, pax), so no tar takes it for a file, and `tar xf` gives back the files of
the folder alone. One request stores the tar with its list: no crash leaves one without the other, and the manifest of a bag covers both.
Programs go by the list, and compare what they read with the SHA-256 of each file. The tar has whole seconds and no owner.
"""

from __future__ import annotations

import re
import tarfile
from hashlib import sha256
from typing import Dict, Iterable, List, NamedTuple, Optional, Sequence, Tuple

from ..base.manifest import PERCENT
from ..protocol import limits
from ..protocol.units import Commit, Moment, Size
from .contents import Contents, File, number
from .errors import CannotStore, VolumeDiffers
from .held import Held, line_path
from .names import BUNDLE, is_bundle, kept_name, text_of

BUNDLE_TITLE = "udfburn-archive bundle 1"
"""What a list begins with; then comes the SHA-256 of its lines."""

MOST = 1 << 26
"""Bytes of the lists of a volume, at most. A volume that has as many takes no more bundles."""

FIXED = 4 * tarfile.BLOCKSIZE + 512
"""Bytes of a bundle beside those of its files, at most: the first header, the list's title and its last block, and the end of the tar."""

MODE = 0o600
"""The permissions of what is in a bundle: nobody may read it by mistake."""

COMMENT = re.compile(rb"([0-9]{1,7}) comment=")
MEMBER_LINE = re.compile("([0-9a-f]{64}) ([0-9]{1,19}) ([0-9]{1,19}) ([0-9]{7}) (.+)")


ADDED = "added "
"""What the first line of a list begins with whose files were added before."""


class Member(NamedTuple):
    """A file in a bundle: its name in the folder, its size in bytes, its moment in microseconds from 1970-01-01 UTC, its SHA-256, and the
    byte of the bundle with which its bytes begin."""

    name: str
    size: Size
    moment: Moment
    sha256: bytes
    start: int

    def line(self) -> str:
        return f"{self.sha256.hex()} {self.size} {self.moment} {self.start:07} {kept_name(self.name).translate(PERCENT)}\n"


class BundleList(NamedTuple):
    """What the list of a bundle says: its files, and when they were added, where it says so."""

    members: List[Member]
    added: Optional[Moment]


# ---- made

def header_of(name: str, size: int, moment: int) -> bytes:
    """What a tar has before the bytes of a file."""
    info = tarfile.TarInfo(name)
    info.size, info.mtime, info.mode = size, moment // 1_000_000, MODE
    return info.tobuf(tarfile.PAX_FORMAT, "utf-8", "surrogateescape")


def padded(size: int) -> int:
    """The bytes that so many take in a tar."""
    return -(-size // tarfile.BLOCKSIZE) * tarfile.BLOCKSIZE


def costs(name: str, size: Size, moment: Moment) -> Tuple[int, int]:
    """The bytes that a file takes in a bundle with all that belongs to it, and those of its line; `CannotStore` for a name that no catalogue
    keeps."""
    line = len(Member(name, size, moment, bytes(32), 0).line().encode())
    return line + len(header_of(name, size, moment)) + padded(size), line


def list_of(members: Iterable[Member], added: Optional[Moment] = None) -> bytes:
    """The header that has the list. `added` is given where its files were added before the run that writes it."""
    lines = ("" if added is None else f"{ADDED}{added}\n") + "".join(member.line() for member in members)
    return tarfile.TarInfo.create_pax_global_header({"comment": f"{BUNDLE_TITLE} {sha256(lines.encode()).hexdigest()}\n{lines}"})


def bundled(files: Sequence[Tuple[str, Moment, bytes]], added: Optional[Moment] = None) -> Tuple[bytes, List[Member]]:
    """A bundle of files, each with its name, its moment and all its bytes, and what its list says."""
    headers = [header_of(name, len(data), moment) for name, moment, data in files]
    members = [Member(name, Size(len(data)), moment, sha256(data).digest(), 0) for name, moment, data in files]
    # Where a file begins takes as many letters as where another one does.
    at, placed = len(list_of(members, added)), []
    for head, member in zip(headers, members):
        placed.append(member._replace(start=at + len(head)))
        at += len(head) + padded(member.size)
    tar = bytearray(list_of(placed, added))
    for head, (_, _, data) in zip(headers, files):
        tar += head + data.ljust(padded(len(data)), b"\0")
    return bytes(tar) + bytes(2 * tarfile.BLOCKSIZE), placed


# ---- read back

def read_list(contents: Contents, file: File) -> BundleList:
    """What the list of a bundle says; `VolumeDiffers` where it is damaged, or is none."""
    where = f"{contents.image}: {text_of(file.path)}"
    data = contents.span(file, tarfile.BLOCKSIZE, list_size(contents, file))
    try:
        begin = COMMENT.match(data)
        if begin is None or int(begin.group(1)) != len(data) or data[-1:] != b"\n":
            raise ValueError("its first header is no list")
        head, _, lines = data[begin.end() : -1].decode().partition("\n")
        if head != f"{BUNDLE_TITLE} {sha256(lines.encode()).hexdigest()}":
            raise ValueError("it has another SHA-256")
        entries, added = lines.split("\n")[:-1], None
        if lines.startswith(ADDED):
            added = Moment(number(entries.pop(0)[len(ADDED) :], limits.MOMENT))
        members = [member_of(line, file.size) for line in entries]
        if len({member.name for member in members}) != len(members):
            raise ValueError("it names a file twice")
        if sum(member.size for member in members) > file.size:
            raise ValueError("its files have more bytes than it")
    except (ValueError, CannotStore) as error:
        raise VolumeDiffers(f"{where}: the list of its files is damaged ({error}), which 'tar' still reads") from error
    return BundleList(members, added)


def list_size(contents: Contents, file: File) -> Size:
    """The bytes of the record that has the list of a bundle, by its first header."""
    try:
        info = tarfile.TarInfo.frombuf(contents.span(file, 0, Size(tarfile.BLOCKSIZE)), "utf-8", "surrogateescape")
        if info.type != tarfile.XGLTYPE or not 0 < info.size <= min(file.size - tarfile.BLOCKSIZE, limits.FILE):
            raise ValueError("its first header is no list")
    except (ValueError, tarfile.HeaderError) as error:
        raise VolumeDiffers(f"{contents.image}: {text_of(file.path)}: the list of its files is damaged ({error}), which 'tar' still reads") from error
    return Size(info.size)


def member_of(line: str, whole: int) -> Member:
    """A file, by its line in the list of a bundle of so many bytes."""
    found = MEMBER_LINE.fullmatch(line)
    if found is None:
        raise ValueError(f"{line[:60]!r} names no file")
    (name,) = line_path("/" + found.group(5))
    kept_name(name)
    size, start = Size(number(found.group(2), whole)), number(found.group(4), limits.FILE)
    if start + size > whole:
        raise ValueError(f"{line[:60]!r} goes beyond the bundle")
    return Member(name, size, Moment(number(found.group(3), limits.MOMENT)), bytes.fromhex(found.group(1)), start)


def bundles_on(contents: Contents) -> List[File]:
    """The bundles of a volume."""
    if not any(path and BUNDLE.fullmatch(path[-1]) for path in contents.nodes):
        # Most volumes have none, and their files are not looked through.
        return []
    return [file for file in contents.files() if is_bundle(file.path[-1])]


def lists_on(contents: Contents, bundles: Optional[Sequence[File]] = None) -> int:
    """The bytes of all lists of a volume, or of some bundles of it, as far as they can be read."""
    total = 0
    for file in bundles_on(contents) if bundles is None else bundles:
        try:
            total += list_size(contents, file)
        except VolumeDiffers:
            # Whoever reads the list reports that.
            continue
    return total


def members_on(contents: Contents, volume: int, unlisted: Optional[Dict[Commit, str]] = None) -> List[Held]:
    """The rows of all files in bundles. A list that is damaged is `VolumeDiffers`; with `unlisted` that gets the commits of such bundles, with
    what is said of each, and the others are as good."""
    bundles = bundles_on(contents)
    if lists_on(contents, bundles) > MOST:
        raise VolumeDiffers(f"{contents.image}: has more than {MOST} bytes of lists of bundles")
    found: List[Held] = []
    for file in bundles:
        try:
            members, added = read_list(contents, file)
            found += [row_of(volume, file, member, file.added if added is None else added) for member in members]
        except VolumeDiffers as error:
            if unlisted is None:
                raise
            unlisted[file.commit] = str(error)
    return found


def row_of(volume: int, file: File, member: Member, added: Moment) -> Held:
    """The row of a file in a bundle."""
    row = Held(volume, file.commit, file.path[:-1] + (member.name,), member.size, member.moment, member.sha256, added)
    return row._replace(at=file.path, noted=(volume, file.commit), start=member.start)


def damaged_in(contents: Contents, file: File, rows: Iterable[Held]) -> List[Held]:
    """Those of the members of a bundle that are not as they were stored. Of a file that has none, which may be a large one, nothing is read."""
    members = list(rows)
    try:
        data = contents.span(file, 0, file.size) if members else b""
    except VolumeDiffers:
        # Files in the blocks that can be read are as good.
        return [row for row in members if not is_as_stored(contents, file, row)]
    return [row for row in members if sha256(data[row.start or 0 : (row.start or 0) + row.size]).digest() != row.sha256]


def members_by_bundle(rows: Iterable[Held]) -> Dict[Commit, List[Held]]:
    """The members of bundles among the rows of a volume, by the commits of their bundles."""
    found: Dict[Commit, List[Held]] = {}
    for row in rows:
        if row.is_member():
            found.setdefault(row.commit, []).append(row)
    return found


def damaged_on(contents: Contents, rows: Iterable[Held]) -> List[Held]:
    """Those of the members of the bundles of a volume that are not as they were stored."""
    members = members_by_bundle(rows)
    return [row for file in bundles_on(contents) for row in damaged_in(contents, file, members.get(file.commit, ()))]


def is_sound(contents: Contents, file: File, rows: Sequence[Held]) -> bool:
    """Whether the files of a bundle are as its list says, whatever a catalogue says of the tar. With a damaged list it is sound only where the
    catalogue has none of its files: then nobody knows them."""
    try:
        members = read_list(contents, file).members
    except VolumeDiffers:
        return not rows
    return not damaged_in(contents, file, [row_of(0, file, member, file.added) for member in members])


def is_as_stored(contents: Contents, file: File, row: Held) -> bool:
    """Whether a bundle has the bytes of a row as they were stored."""
    try:
        return sha256(contents.span(file, row.start or 0, row.size)).digest() == row.sha256
    except VolumeDiffers:
        return False


__all__ = [
    "FIXED", "BundleList", "MOST", "Member", "bundled", "bundles_on", "costs", "damaged_in", "damaged_on", "is_as_stored", "is_sound", "list_of", "list_size", "lists_on",
    "members_by_bundle", "members_on", "read_list",
]
