"""Takes over a volume that another folder of the archive had, once nobody has its claim."""

from __future__ import annotations

import os
from contextlib import closing, contextmanager
from typing import Dict, Iterator, List, Optional, Tuple

from ..base.own_files import copy_file, from_top, move, remove, set_mode
from ..base.scratch import room, sweep
from ..local.sources import shown
from ..protocol.units import Commit
from ..wire.operations import now
from . import same_rows
from .catalogue import STATE_CLOSED, STATE_FULL, STATE_NEW, STATE_OPEN, Catalogue, VolumeRow
from .claims import Claims
from .close import beside, own_sidecars
from .config import Config
from .contents import Contents
from .errors import LOST, NotAtHand, VolumeDiffers
from .lag import forget_seen
from .names import is_bundle, name_back
from .remotes import Print, print_of_file
from .same import rows_on
from .tail import sound_length
from .tell import Tell, plural
from .volume import CLIENTS_MOST, LEDGER, OpenVolume, is_damaged

BEFORE = ".before"
"""How the names end that files have which were there before, until the adoption is over."""


def candidates(config: Config, catalogue: Catalogue, row: VolumeRow, given: Optional[str]) -> List[str]:
    """Where the image may be: where the user says, in this folder, or in the other one, where this machine sees it."""
    if given is not None:
        return [given]
    name = row.label + ".img"
    found = [config.path("open", name), config.path("closed", name)]
    for id, place in catalogue.base.run("SELECT id, place FROM holder WHERE id = ?", (row.holder,)):
        found += [os.path.join(name_back(place), folder, name) for folder in ("open", "closed")]
    return found


def require_whole(config: Config, catalogue: Catalogue, row: VolumeRow, image: str) -> List[str]:
    """Raises where an image is not the volume, is damaged, or lacks files that the catalogue has. Gives what is said of bundles whose lists are
    damaged: the catalogue has their files."""
    unlisted: Dict[Commit, str] = {}
    if row.state != STATE_CLOSED and is_damaged(image):
        raise VolumeDiffers(f"{shown(image)}: is damaged: 'udfburn check' says where, and {LOST}")
    volume = OpenVolume(config, catalogue, row)
    volume.image = image
    with closing(volume), closing(Contents(image)) as contents:
        volume.require_own(contents)
        there = {file.commit for file in contents.files()}
        lacking = [held for held in catalogue.of_volume(row.number) if held.commit not in there]
        lines = {held.key() for held in rows_on(contents, row.number, unlisted)}
        noted = [held for held in same_rows.of_volume(catalogue.base, row.number) if not (held.is_member() and held.commit in unlisted)]
        lacking += [held for held in noted if held.key() not in lines]
    if lacking:
        files = sum(not is_bundle(held.path[-1]) for held in lacking)
        raise VolumeDiffers(f"{shown(image)}: lacks {plural(files, 'file', 'files')} that the catalogue has of {row.label}: it is an older copy")
    if row.state == STATE_CLOSED and print_of_file(image) != Print(row.length or 0, row.sha256 or b""):
        raise VolumeDiffers(f"{shown(image)}: is not {row.label} as it was closed: its length or SHA-256 differs")
    return list(unlisted.values())


def take_over(config: Config, catalogue: Catalogue, claims: Claims, row: VolumeRow, given: Optional[str], tell: Tell, failures: List[str]) -> VolumeRow:
    """Takes a volume over. The image is copied; a new ledger, with a client of its own, goes on with it. Where no image of an open volume is
    found its newest copy is taken. `failures` gets what that lacks, and what is damaged."""
    claims.volume(row.number, row.label)
    row = catalogue.volume(row.number) or row
    target = config.path("closed" if row.state == STATE_CLOSED else "open", row.label + ".img")
    recover(target)
    image = next((path for path in candidates(config, catalogue, row, given) if os.path.isfile(path)), None)
    if image is None and row.state == STATE_NEW:
        # Nothing was stored on it: this folder makes it.
        row = row._replace(holder=config.id)
        catalogue.save(row)
        return row
    if image is None and given is None and row.state != STATE_CLOSED and config.copies:
        return from_copies(config, catalogue, claims, row, target, tell, failures)
    if image is None:
        raise NotAtHand(f"{row.label}: its image was not found: name it on the command line")
    return taken(config, catalogue, row, image, target, failures)


def taken(config: Config, catalogue: Catalogue, row: VolumeRow, image: str, target: str, failures: List[str]) -> VolumeRow:
    """Takes a volume over whose image was found. `failures` gets what is said of it that stops nobody."""
    failures += require_whole(config, catalogue, row, image)
    row = row._replace(holder=config.id)
    if os.path.realpath(image) == os.path.realpath(target):
        return go_on(config, catalogue, row)
    try:
        with undone(target):
            copy_to(config, image, target, row.state == STATE_CLOSED)
            return go_on(config, catalogue, row)
    except VolumeDiffers as error:
        raise VolumeDiffers(f"{shown(image)}: was not taken over, and all is as before: {error}") from error


def from_copies(
    config: Config, catalogue: Catalogue, claims: Claims, row: VolumeRow, target: str, tell: Tell, failures: List[str],
) -> VolumeRow:
    """Takes an open volume over from its newest copy."""
    from .bring_back import BringBack
    from .open_copies import OpenCopies

    work = BringBack(config, catalogue, tell, OpenCopies(config, catalogue, claims, tell))
    sweep(config.folder, config.room_name("repair"))
    with room(config.folder, config.room_name("repair")) as folder:
        best = work.newest(row, folder)
        work.forget(row, best)
        failures += work.failures
        return taken(config, catalogue, catalogue.volume(row.number) or row, best.path, target, failures)


def go_on(config: Config, catalogue: Catalogue, row: VolumeRow) -> VolumeRow:
    """Has the catalogue say that this folder has a volume. An open one is taken up before."""
    if row.state in (STATE_NEW, STATE_OPEN):
        volume = OpenVolume(config, catalogue, row)
        with closing(volume):
            volume.take_up()
            row = volume.row
            if len(volume.tree.space.clients) > CLIENTS_MOST or volume.is_full():
                row = row._replace(state=STATE_FULL)
    # This folder has seen no copy yet.
    forget_seen(catalogue, row.number)
    catalogue.save(row)
    return row


def adopted_files(target: str) -> Tuple[List[str], List[str]]:
    """The files of an image's place that are copied before an adoption, and those that are moved, the image last."""
    return [beside(target, end) for end in LEDGER], [beside(target, ".tail"), target]


def recover(target: str) -> None:
    """Goes on after an adoption that was killed. What it had moved comes back; where the adopted image is in place both images are kept."""
    copied, moved = adopted_files(target)
    is_there, both = os.path.lexists(target), os.path.lexists(target) and os.path.lexists(target + BEFORE)
    end = f"{BEFORE}-{now()}"
    for path in copied + moved:
        if not os.path.lexists(path + BEFORE):
            continue
        if both:
            move(path + BEFORE, path + end)
        elif is_there or os.path.lexists(path):
            remove(path + BEFORE)
        else:
            move(path + BEFORE, path)


@contextmanager
def undone(target: str) -> Iterator[None]:
    """Has an image's place, and the ledger beside it, as they were, where what is done in it fails."""
    copied, moved = adopted_files(target)
    there = [path for path in copied + moved if os.path.lexists(path)]
    for path in (path for path in copied if path in there):
        copied_to(path, path + BEFORE)
    # At no moment an image is in place without its tail's length, or with that of another.
    for path in (path for path in reversed(moved) if path in there):
        move(path, path + BEFORE)
    try:
        yield
    except BaseException:
        for path in [target + ".new", target, *copied]:
            remove(path)
        for path in there:
            move(path + BEFORE, path)
        raise
    for path in moved + copied:
        remove(path + BEFORE)


def copy_to(config: Config, image: str, target: str, closed: bool) -> None:
    """Copies an image, and what belongs to a closed one. It gets its name once it is whole and on the disk."""
    new, length = target + ".new", sound_length(image)
    # Where the machine died while it wrote a tail, that is left out.
    copied_to(image, new, length)
    if print_of_file(new, fresh=True) != print_of_file(image, most=length):
        raise VolumeDiffers(f"{shown(new)}: differs from {shown(image)}: it was written meanwhile, or a disk is failing")
    if closed:
        for path in own_sidecars(image):
            copied_to(path, os.path.join(os.path.dirname(target), os.path.basename(path)))
        set_mode(new, config.mode & 0o444)
    move(new, target)


def copied_to(source: str, target: str, most: Optional[int] = None) -> None:
    """Copies a file, or so many of its bytes, into the folder of the archive, in the place of what has its name."""
    with from_top(target) as place:
        copy_file(source, place, most)
