"""What shows that a folder for copies is this archive's and that its disk is mounted: a marker, a small text in it.

Where no disk is mounted the folder is an empty one of another disk, often the archive's own: what went there would be no copy.
"""

from __future__ import annotations

import os
import re
from contextlib import contextmanager, suppress
from typing import Dict, Iterator, NamedTuple, Set

from ..base.beneath import Root
from ..local.sources import shown
from .contents import ARCHIVE, read_fields
from .errors import CopyFailed

MARKER_TITLE = "udfburn-archive copies 1"
"""The first line of a marker."""

MARKER_NAME = re.compile(f"udfburn-archive-({ARCHIVE.pattern})[.]txt")
"""The names of markers."""

LONGEST = 4096
"""Bytes of a marker that are read."""


class Owner(NamedTuple):
    """Whose copies a folder takes: an archive, by its own folder and its id."""

    folder: str
    id: str
    label: str
    same_device: bool


def marker_name(id: str) -> str:
    """The name of an archive's marker. Several archives may share a folder, so each has its own."""
    return f"udfburn-archive-{id}.txt"


def marker_text(owner: Owner) -> bytes:
    """The marker of an archive."""
    return (
        f"{MARKER_TITLE}\narchive: {owner.id}\nlabel: {owner.label}\n\n"
        "udfburn-archive copies volumes to this folder only while this file is in it.\n"
        "It shows that the disk is mounted. Leave it here.\n"
    ).encode()


def is_same_device(owner: Owner, root: Root) -> bool:
    """Whether a folder is on the file system of the archive's own."""
    return root.status(()).st_dev == os.stat(owner.folder).st_dev


@contextmanager
def opened_folder(folder: str) -> Iterator[Root]:
    """A folder for copies. `CopyFailed` where it is not there, or the system refuses what is done with it."""
    try:
        root = Root.open(folder)
    except (FileNotFoundError, NotADirectoryError):
        raise CopyFailed(f"{shown(folder)}: is not there: mount it, or make the folder") from None
    except OSError as error:
        raise CopyFailed(f"{shown(folder)}: {error.strerror or error}") from error
    with root:
        try:
            yield root
        except OSError as error:
            raise CopyFailed(f"{shown(folder)}: {error.strerror or error}") from error


def marked(id: str, root: Root) -> bool:
    """Whether a folder has the marker of an archive."""
    try:
        return read_marker(root, marker_name(id)).get("archive") == id
    except FileNotFoundError:
        return False


def read_marker(root: Root, name: str) -> Dict[str, str]:
    """The fields of a marker; none where it is no marker."""
    with open(root.open_file((name,)), "rb") as file:
        data = file.read(LONGEST)
    return read_fields(data) if data.startswith(MARKER_TITLE.encode() + b"\n") else {}


SAME_DISK = "is on the same disk as the archive, so its copies are lost with it: mount another disk there. If this is what you want"


def require_outside(owner: Owner, folder: str) -> None:
    """Raises where a folder is the archive's own, or in it."""
    own = os.path.realpath(owner.folder)
    if os.path.commonpath([own, os.path.realpath(folder)]) == own:
        raise CopyFailed(f"{shown(folder)}: is inside the folder of the archive: what is lost with the archive is no copy")


def require_place(owner: Owner, folder: str) -> None:
    """Raises where a folder is not there, or copies in it would be lost with the archive's own."""
    with opened_folder(folder) as root:
        require_outside(owner, folder)
        if is_same_device(owner, root) and not owner.same_device:
            raise CopyFailed(f"{shown(folder)}: {SAME_DISK}, use --same-device")


def require_taker(owner: Owner, root: Root) -> None:
    """Raises where a folder takes no copies of this archive now, as where its disk is not mounted."""
    folder = root.path
    require_outside(owner, folder)
    same = is_same_device(owner, root)
    words = f"run 'udfburn-archive remote add {shown(folder)}{' --same-device' if same else ''}'"
    if not marked(owner.id, root):
        where = "this folder is on the disk of the archive" if same else "this folder has no marker of the archive"
        raise CopyFailed(f"{shown(folder)}: its disk is not mounted ({where}): mount it. If this is the folder for copies, {words}")
    if same and not owner.same_device:
        raise CopyFailed(f"{shown(folder)}: {SAME_DISK}, {words}")


def write_marker(owner: Owner, folder: str) -> None:
    """Has a folder take copies of this archive from now on."""
    name = marker_name(owner.id)
    new = name + ".new"
    with opened_folder(folder) as root:
        if marked(owner.id, root):
            return
        with suppress(FileNotFoundError):
            # A run that was killed left it.
            root.unlink((new,))
        descriptor = root.new_file((new,), 0o644)
        with open(descriptor, "wb") as file:
            file.write(marker_text(owner))
            file.flush()
            os.fsync(descriptor)
        root.rename((new,), name)
        root.sync(())


def move_marker(owner: Owner, id: str, folder: str) -> None:
    """Has a folder with the marker of an archive take copies under another id: `rebuild` found that the archive is that one."""
    with opened_folder(folder) as root:
        if not marked(owner.id, root):
            return
        write_marker(owner._replace(id=id), folder)
        root.unlink((marker_name(owner.id),))
        root.sync(())


def markers_of(label: str, folder: str) -> Set[str]:
    """The ids of the archives with a label that have a marker in a folder."""
    found: Set[str] = set()
    with opened_folder(folder) as root:
        for name in root.names_in(()):
            match = MARKER_NAME.fullmatch(name)
            if match is None:
                continue
            # One that cannot be read is none, and the others are as good without it.
            with suppress(OSError):
                fields = read_marker(root, name)
                if (fields.get("archive"), fields.get("label")) == (match.group(1), label):
                    found.add(match.group(1))
    return found


__all__ = ["Owner", "marker_name", "markers_of", "move_marker", "opened_folder", "require_place", "require_taker", "write_marker"]
