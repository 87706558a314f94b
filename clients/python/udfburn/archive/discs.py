"""Discs: copies of closed volumes on a shelf. The catalogue has each as a copy `disc:NAME`, whose name is written on the disc.

Only a command that names a disc and its drive reads or writes one. Two discs of a volume are equal byte by byte, so which of them is in
the drive only the writing on it says.
"""

from __future__ import annotations

import argparse
import os
from contextlib import closing
from typing import List, Optional, Tuple

from ..base.errors import DiscFailed, UsageError
from ..base.own_files import from_top, remove
from ..base.progress import printable
from ..discs import DRIVE
from ..discs.burning import Say, burned, device_path, ends_well, look_at, open_drive, read_disc, read_from, require_drive, require_other, take_in_again
from ..discs.finish import track_of
from ..local.sources import shown
from ..protocol import limits
from ..wire.operations import now
from .catalogue import DISC, DISC_NAME, STATE_CLOSED, Catalogue, Copy, VolumeRow, image_of, is_disc_name
from .check import CheckOptions, Repairer, chosen, has_print
from .claims import Claims, claims_of
from .config import Config, config_of
from .errors import CopyFailed, NotAtHand, VolumeDiffers
from .remotes import Print, print_of_file
from .tell import Tell, plural, tell_of


def disc_of(arguments: argparse.Namespace) -> Tuple[str, str]:
    """The name of the disc that a command is about, where a disc can have it, and its drive."""
    name: Optional[str] = arguments.disc
    if name is None:
        raise UsageError("--device goes with --disc, which says what is written on the disc")
    return require_disc_name(name), arguments.device or DRIVE


def require_disc_name(name: str) -> str:
    """The name itself, where a disc can have it."""
    if not is_disc_name(name):
        raise UsageError(f"{printable(name)!r}: is not a name for a disc: use 1 to {DISC_NAME} letters, as you write them on it")
    return name


def print_of_row(row: VolumeRow) -> Print:
    """What a volume was when it was closed."""
    if row.length is None or row.sha256 is None:
        raise VolumeDiffers(f"{row.label}: is {row.state}: close it first, with 'close {row.label}'")
    return Print(row.length, row.sha256)


def copies_called(catalogue: Catalogue, name: str) -> List[Copy]:
    """The rows of a disc's name."""
    return [copy for copy in catalogue.copies() if copy.disc() == name]


# ---- burned

class Burner:
    """A run of `burn`. What is done already is found from the disc and from the catalogue, so the same words go on after any end."""

    def __init__(self, config: Config, catalogue: Catalogue, tell: Tell, device: str, name: str):
        self.config, self.catalogue, self.tell, self.device, self.name = config, catalogue, tell, device, name
        self.say: Say = tell.working

    def run(self, row: VolumeRow) -> None:
        """Burns a volume onto a blank disc; or compares a disc that has it already."""
        wanted = print_of_row(row)
        if row.state != STATE_CLOSED:
            raise VolumeDiffers(f"{row.label}: is {row.state}, and only a closed volume is burned")
        self._require_free(row)
        disc = look_at(self.device)
        if disc.blank:
            self._require_free(row, True)
            image = self._image(row, wanted)
            track = track_of(image, disc.kind)
            self.tell.say_step(f"burning {row.label}: {track.total:,} blocks onto {disc.words}", did="burning", volume=row.label, blocks=track.total, medium=disc.words)
            if Print(*burned(track, self.device, disc, self.say)) != wanted:
                raise DiscFailed(f"{shown(image)}: changed while it was burned: mark this disc as spoiled")
        else:
            self._compare(row, wanted, disc.words)
        self._keep(row, disc.blank)
        how = "and every byte was read back" if disc.blank else "already, and every byte was compared"
        self.tell.result(
            f"{row.label} is on this disc {how}. Write on it: {row.label} / {self.name}", volume=row.label, disc=self.name, medium=disc.words,
            length=wanted.length, sha256=wanted.sha256.hex(), burned=disc.blank,
        )

    def _require_free(self, row: VolumeRow, blank: bool = False) -> None:
        """Raises where the name is another disc's: of another volume, or for a blank disc, of a good one of this volume."""
        labels = {other.number: other.label for other in self.catalogue.volumes()}
        for copy in copies_called(self.catalogue, self.name):
            if copy.volume != row.number or blank and copy.trouble is None:
                raise DiscFailed(f"{self.name}: is the name of another disc already, with {labels.get(copy.volume, '?')}: give this one another name")

    def _image(self, row: VolumeRow, wanted: Print) -> str:
        image = image_of(self.config, row)
        if image is None:
            raise NotAtHand(f"{row.label}: is not at hand: put its image into the folder 'closed' of the archive")
        require_other(self.device, image)
        self.tell.working(f"reading {row.label}")
        if not has_print(image, wanted):
            raise VolumeDiffers(f"{row.label}: is not as it was closed, and was not burned: 'repair {row.label}' replaces it by a good copy")
        return image

    def _compare(self, row: VolumeRow, wanted: Print, words: str) -> None:
        image = image_of(self.config, row)
        if image is not None:
            require_other(self.device, image)
        take_in_again(self.device, self.say)
        if Print(*read_disc(self.device, wanted.length, self.say)) != wanted:
            raise DiscFailed(f"{shown(self.device)}: the disc in it ({words}) is not blank, and does not have {row.label}: put a blank one in")
        blocks = wanted.length // limits.BLOCK
        if not ends_well(self.device, blocks):
            self.tell.note(f"{self.name}: no copy of the VAT ICB follows: Linux may need the option lastblock={blocks - 1}", did="unfinished", disc=self.name)

    def _keep(self, row: VolumeRow, new: bool) -> None:
        with self.catalogue.base.transaction():
            # Another process may have given a disc this name meanwhile.
            self._require_free(row, new)
            made = next((copy.made for copy in copies_called(self.catalogue, self.name) if not new), now())
            self.catalogue.save_copy(Copy(row.number, DISC + self.name, made, now(), None))


def burn(arguments: argparse.Namespace) -> int:
    """Burns a closed volume."""
    (name, device), config, tell = disc_of(arguments), config_of(arguments), tell_of(arguments)
    with Catalogue(config) as catalogue:
        (row,) = chosen(catalogue.volumes(), [arguments.volume], CheckOptions())
        Burner(config, catalogue, tell, device, name).run(row)
    return 0


# ---- checked

def known(catalogue: Catalogue, name: str, labels: List[str]) -> Tuple[VolumeRow, Copy]:
    """The volume that a disc has."""
    for copy in copies_called(catalogue, name):
        row = catalogue.volume(copy.volume)
        if row is not None:
            if labels and labels != [row.label]:
                raise UsageError(f"{name}: is a disc with {row.label}")
            return row, copy
    raise NotAtHand(f"{name}: is no disc of this archive: 'status' names them")


def require_volume(device: str, row: VolumeRow) -> None:
    """Raises where the disc in a drive is surely not one of a volume, so that nothing is said of the one that lies elsewhere."""
    from ..reader import Medium, Volume

    with open_drive(device):
        pass
    with Medium(device_path(device)) as medium:
        volume = Volume(medium)
    if (volume.label, volume.moment) != (row.label, row.formatted):
        found = f"has {volume.label}" if volume.label else "cannot be recognised"
        raise DiscFailed(f"{shown(device)}: the disc in it {found}, and not {row.label}: put the right one in")


def check_disc(arguments: argparse.Namespace) -> int:
    """Compares a disc with what its volume was when it was closed."""
    (name, device), config, tell = disc_of(arguments), config_of(arguments), tell_of(arguments)
    if arguments.data or arguments.remotes or arguments.oldest or arguments.sample is not None:
        raise UsageError("--disc compares every byte of one disc: leave out --data, --remotes, --sample and --oldest")
    with Catalogue(config) as catalogue:
        row, copy = known(catalogue, name, arguments.volume)
        wanted = print_of_row(row)
        require_drive(device)
        require_volume(device, row)
        trouble: Optional[str] = None
        try:
            if Print(*read_disc(device, wanted.length, tell.working)) != wanted:
                trouble = "is not as it was burned"
        except DiscFailed as error:
            trouble = str(error)
        catalogue.save_copy(copy._replace(checked=now(), trouble=trouble))
    if trouble:
        return tell.fail(f"{row.label} on the disc {name}: {trouble}: burn another one")
    tell.result(f"{row.label} on the disc {name}: is intact", volume=row.label, disc=name, copies=1)
    return 0


# ---- repaired

class DiscRepairer(Repairer):
    """Takes an image from a disc. Copies on remotes are then repaired from it as always."""

    def __init__(self, config: Config, catalogue: Catalogue, claims: Claims, tell: Tell, device: str, name: str):
        super().__init__(config, catalogue, claims, tell)
        self.device, self.name = device, name

    def _fetch(self, row: VolumeRow, image: str, wanted: Print) -> None:
        require_volume(self.device, row)
        new = image + ".new"
        remove(new)
        try:
            with from_top(new) as place:
                descriptor = place.root.new_file(place.names, 0o600)
            with open(descriptor, "wb") as file:
                for piece in read_from(self.device, wanted.length):
                    file.write(piece)
                file.flush()
                os.fsync(descriptor)
            if print_of_file(new, fresh=True) != wanted:
                raise CopyFailed(f"{self.name}: is not as it was burned: 'udfburn-client salvage' copies out what is intact")
        except BaseException:
            remove(new)
            raise
        self._put(image, new)
        self._did(row, "the image", f"the disc {self.name}")


def repair_disc(arguments: argparse.Namespace) -> int:
    """Repairs a volume from a disc."""
    (name, device), config, tell = disc_of(arguments), config_of(arguments), tell_of(arguments)
    with Catalogue(config) as catalogue, closing(claims_of(catalogue.base, config.path("locks"), config.catalogue)) as claims:
        row, _ = known(catalogue, name, arguments.volume)
        print_of_row(row)
        require_drive(device)
        repairer = DiscRepairer(config, catalogue, claims, tell, device, name)
        repairer.run([row])
    for line in repairer.failures:
        tell.fail(line)
    words = f"repaired {plural(repairer.repaired, 'image or copy', 'images or copies')} of {row.label}"
    tell.result(words, repaired=repairer.repaired, volumes=1)
    return 1 if repairer.failures else 0
