"""The commands for discs: `finish` makes an image for one, and `burn` writes it."""

from __future__ import annotations

import argparse
import os
from typing import TYPE_CHECKING, Iterator

from ..base.beneath import mode_for, status_given
from ..base.errors import Damaged, Differs, DiscFailed, SourceError
from ..base.progress import Progress, plural, printable, size
from ..discs import DRIVE
from ..protocol import limits, shown
from .arguments import command
from .common import progress_of

if TYPE_CHECKING:
    from ..discs.burning import LengthAndDigest, Say
    from ..discs.finish import Track
    from .arguments import Subs


def add_commands(subs: Subs) -> None:
    """The words of these commands."""
    finish = command(
        subs, "finish", finish_image, "copy an image for a disc, so that Linux finds its end",
        "Checks the image, and fills the copy up to the medium's unit (CD 1, DVD 16, BD 32 blocks) with copies of the last VAT ICB, at least"
        " three. All programs here read it as they read the image, and Linux mounts the disc without options.", volume=False,
    )
    finish.add_argument("image_path", metavar="IMAGE", help="the image")
    finish.add_argument("out", metavar="OUT", help="the new file")
    finish.add_argument("--medium", required=True, choices=("cd", "dvd", "bd"), help="the kind of medium")
    burn = command(
        subs, "burn", burn_image, "burn an image onto a blank disc, and read every byte back",
        "Checks the image, finishes it for the disc that is in the drive, has xorriso burn it, ejects and loads the disc, and compares every"
        " byte. Run it again after it was interrupted: a disc that has the image already is only compared.", volume=False,
    )
    burn.add_argument("image_path", metavar="IMAGE", help="the image, finished or not")
    burn.add_argument("--device", default=DRIVE, metavar="DEVICE", help=f"the recorder (default: {DRIVE})")


def require_sound(arguments: argparse.Namespace, progress: Progress) -> None:
    """Raises where an image is damaged, after saying how."""
    from .check import check_twice

    os.stat(arguments.image_path)
    status, _, _ = check_twice(arguments.image_path, arguments, progress)
    if status:
        raise Damaged(f"{shown(arguments.image_path)}: is damaged or was not checked, so nothing was written")


# ---- finish

def finish_image(arguments: argparse.Namespace) -> int:
    """Makes a copy for a disc."""
    from ..discs.finish import track_of
    from ..image.second_opinion import opinion_of
    from ..local.saving import save

    progress = progress_of(arguments)
    if os.path.lexists(arguments.out):
        raise SourceError(f"{shown(arguments.out)}: already exists")
    require_sound(arguments, progress)
    track = track_of(arguments.image_path, arguments.medium)
    sent = Sum()
    save(arguments.out, sent.through(track), None, False, mode_for(status_given(arguments.image_path)))
    if check_of(arguments.out) != sent.check() or opinion_of(arguments.out).notes:
        raise Differs(f"{shown(arguments.out)}: what the disk has is not what was written: its disk fails")
    copies = track.total - track.blocks
    progress.result(
        f"finished {shown(arguments.out)} for a {arguments.medium}: {plural(track.total, 'block', 'blocks')} ({size(track.total * limits.BLOCK)}),"
        f" {plural(copies, 'is a copy', 'are copies')} of the VAT ICB", path=shown(arguments.out), medium=arguments.medium, blocks=track.total, copies=copies,
    )
    return 0


class Sum:
    """The length and the digest of what goes through."""

    def __init__(self) -> None:
        from hashlib import sha256

        self.length, self.digest = 0, sha256()

    def through(self, track: "Track") -> Iterator[bytes]:
        """The bytes of a track."""
        from ..discs.finish import track_pieces

        for piece in track_pieces(track):
            self.length += len(piece)
            self.digest.update(piece)
            yield piece

    def check(self) -> "LengthAndDigest":
        """What went through."""
        from ..discs.burning import LengthAndDigest

        return LengthAndDigest(self.length, self.digest.digest())


def check_of(path: str) -> "LengthAndDigest":
    """The length and the digest of a file, from its disk."""
    from ..discs.burning import FILE_DRIVE, read_disc

    return read_disc(FILE_DRIVE + path, os.path.getsize(path), lambda line: None)


# ---- burn

def burn_image(arguments: argparse.Namespace) -> int:
    """Burns an image."""
    from ..discs.burning import burned, look_at, require_drive, require_other
    from ..discs.finish import track_of

    progress, image, device = progress_of(arguments), arguments.image_path, arguments.device
    require_drive(device)
    require_other(device, image)
    require_sound(arguments, progress)
    say = working(progress)
    disc = look_at(device)
    if not disc.blank:
        return found_again(arguments, disc.words, say)
    track = track_of(image, disc.kind)
    progress.say(f"burning {shown(image)}: {plural(track.total, 'block', 'blocks')} onto {disc.words}", did="burning", blocks=track.total, medium=disc.words)
    wanted = check_of(image)
    if burned(track, device, disc, say) != wanted:
        raise DiscFailed(f"{shown(image)}: changed while it was burned: mark this disc as spoiled")
    label = label_on_image(image)
    progress.result(
        f"{shown(image)} is on the disc, and every byte was read back. Write on it: {label}", path=shown(image), medium=disc.words, blocks=track.total,
        label=label, sha256=wanted.sha256.hex(),
    )
    return 0


def found_again(arguments: argparse.Namespace, words: str, say: "Say") -> int:
    """Compares a disc that is not blank, as one that an interrupted run burned."""
    from ..discs.burning import ends_well, read_disc, take_in_again

    image, device, progress = arguments.image_path, arguments.device, progress_of(arguments)
    wanted = check_of(image)
    take_in_again(device, say)
    if read_disc(device, wanted.length, say) != wanted:
        raise DiscFailed(f"{shown(device)}: the disc in it ({words}) is not blank, and does not have this image: put a blank one in")
    blocks = wanted.length // limits.BLOCK
    if not ends_well(device, blocks):
        progress.note(f"{shown(device)}: no copy of the VAT ICB follows: Linux may need the option lastblock={blocks - 1}", did="unfinished", lastblock=blocks - 1)
    label = label_on_image(image)
    progress.result(
        f"{shown(image)} is on this disc already, and every byte was compared. Write on it: {label}", path=shown(image), medium=words, label=label,
        sha256=wanted.sha256.hex(),
    )
    return 0


def label_on_image(image: str) -> str:
    """The label of a volume."""
    from ..reader import Medium, Volume

    with Medium(image) as medium:
        return printable(Volume(medium).label or "?")


def working(progress: Progress) -> "Say":
    """Prints on a terminal what is being done now: each line takes the place of the one before."""

    def say(line: str) -> None:
        if progress.bar:
            progress.errors.write("\r\x1b[K" + printable(line))
            progress.errors.flush()

    return say


__all__ = ["add_commands", "burn_image", "finish_image"]
