"""Images that are brought from a remote to be read, and how long images are."""

from __future__ import annotations

import os
from contextlib import suppress

from ..base.own_files import from_top
from .close import beside
from .errors import CopyFailed
from .remotes import Remote


def known_length(image: str) -> int:
    """The bytes of an image, where they are known."""
    try:
        return os.path.getsize(image)
    except OSError:
        return 0


def length_on(remote: Remote, base: str) -> int:
    """The same on a remote."""
    try:
        return remote.length(base) or 0
    except CopyFailed:
        return 0


def fetched(remote: Remote, base: str, folder: str) -> str:
    """The path of an image that is brought from a remote into a folder, with what is known of it; where it has not been closed, of what its
    copy has."""
    image = os.path.join(folder, base)
    with from_top(image) as place:
        if remote.length(base) is None:
            remote.fetch_grown(base, place)
            return image
        remote.fetch(base, place)
    with suppress(CopyFailed), from_top(beside(image, ".info")) as place:
        remote.fetch(os.path.basename(beside(image, ".info")), place)
    return image


__all__ = ["fetched", "known_length", "length_on"]
