"""The tail of an image: what counts of it where a file beside it says so.

Earlier versions appended the blocks of many files at once. Meanwhile `LABEL.tail` said how long the image was. What a crash of such a
version left is cut off here before the image is written, and read by nobody. The copy of an open volume still grows in that way
(`udfburn.archive.grow`).
"""

from __future__ import annotations

import os
from typing import Optional

from ..base.beneath import open_own
from ..base.locks import lock_or_close
from ..base.own_files import from_top, open_to_write
from ..local.sources import shown
from .errors import VolumeDiffers


def tail_note(image: str) -> str:
    """The file that says how long an image was before its tail was added."""
    return image[: -len(".img")] + ".tail"


def sound_length(image: str) -> Optional[int]:
    """The bytes of an image that count; None where all do."""
    if not image.endswith(".img"):
        return None
    try:
        with open(open_own(tail_note(image)), "rb") as file:
            text = file.read(32)
        if not text.strip().isdigit():
            raise ValueError("no number")
        return int(text)
    except FileNotFoundError:
        return None
    except ValueError as error:
        raise VolumeDiffers(f"{shown(tail_note(image))}: has no length in it: bring the right one back") from error


def cut_tail(image: str) -> None:
    """Takes off an image what an earlier version that was cut short has added."""
    length = sound_length(image)
    if length is None:
        return
    descriptor = locked(image)
    try:
        if os.fstat(descriptor).st_size > length:
            os.ftruncate(descriptor, length)
        os.fsync(descriptor)
    finally:
        os.close(descriptor)
    with from_top(tail_note(image)) as place:
        place.unlink()
        place.root.sync(place.names[:-1])


def locked(image: str) -> int:
    """A descriptor of an image that no other process writes meanwhile."""
    descriptor = open_to_write(image)
    if not lock_or_close(descriptor):
        raise VolumeDiffers(f"{shown(image)}: another program is writing it")
    return descriptor


__all__ = ["cut_tail", "locked", "sound_length", "tail_note"]
