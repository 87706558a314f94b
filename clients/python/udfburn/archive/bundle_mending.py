"""Bundles that are damaged on an open volume: the files of them that are sound are stored again, before such a bundle is taken off."""

from __future__ import annotations

from typing import Iterator, List

from ..protocol import Create, MakeDir
from ..protocol.units import Moment
from ..wire.operations import Operation
from . import same_rows
from .bundle import bundled, is_as_stored, list_of
from .catalogue import STATE_RETIRED, Catalogue, Held
from .contents import Contents, File
from .errors import VolumeDiffers
from .tell import plural, shown_path
from .tree import PlannedTree


def keep_members(catalogue: Catalogue, tree: PlannedTree, contents: Contents, number: int, file: File) -> Iterator[Operation]:
    """The requests that store what is sound of a damaged bundle of a volume in another one, as of the moment at which it was added;
    `VolumeDiffers` where that would lose bytes."""
    where = f"{contents.image}: {shown_path(file.path)} is damaged"
    named = same_rows.of_targets(catalogue.base, [file.held(number, b"")])
    if not any(row.is_member() for row in named):
        raise VolumeDiffers(f"{where}, and the catalogue does not know its files: 'udfburn get' copies it out, and 'tar' reads what it has")
    sound = [row for row in named if is_as_stored(contents, file, row) and not is_elsewhere(catalogue, row)]
    for row in sound:
        if not row.is_member():
            raise VolumeDiffers(f"{where}, and has the bytes of {shown_path(row.path)}, which are sound: 'add --again' stores that by itself")
    if sound:
        yield from stored(tree, contents, file, sound, where)


def stored(tree: PlannedTree, contents: Contents, file: File, sound: List[Held], where: str) -> Iterator[Operation]:
    """The requests that store members of a bundle."""
    files = [(row.path[-1], row.moment, contents.span(file, row.start or 0, row.size)) for row in sound]
    added: Moment = sound[0].added
    data, members = bundled(files, added)
    place = tree.place_bundle(file.path[:-1], len(data), len(list_of(members, added)))
    if place is None:
        raise VolumeDiffers(f"{where}, and there is no room to store {plural(len(sound), 'file', 'files')} of it again that are sound: 'get' copies them out")
    for folder in place.folders:
        yield Operation(MakeDir, folder, file.moment)
    yield Operation(Create, place.path, file.moment, data)


def is_elsewhere(catalogue: Catalogue, row: Held) -> bool:
    """Whether the archive has a version's bytes also where they are not in this bundle."""
    return any(
        other.version() == row.version() and other.there and other.parts is None and other.target() != row.target() and counts(catalogue, other)
        for other in catalogue.of_path(row.path)
    )


def counts(catalogue: Catalogue, row: Held) -> bool:
    """Whether the volume of a row counts."""
    volume = catalogue.volume(row.volume)
    return volume is not None and volume.state != STATE_RETIRED and volume.trouble is None


__all__ = ["is_elsewhere", "keep_members"]
