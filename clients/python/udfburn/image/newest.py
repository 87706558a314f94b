"""The newest state of an image, as the reader finds it."""

from __future__ import annotations

from typing import TYPE_CHECKING

from ..base.errors import Damaged
from ..protocol import shown

if TYPE_CHECKING:
    from ..reader import State, Volume


def newest_state(image: str, volume: Volume) -> State:
    """The newest state of a volume. Raises `Damaged` where the image holds none."""
    from ..reader import NoVolume

    try:
        return volume.state()
    except NoVolume as error:
        raise Damaged(f"{shown(image)}: holds no volume: no VAT ICB is found in it") from error


__all__ = ["newest_state"]
