"""The names of files above a mebibyte until they are whole.

Such a file is in the root meanwhile, under a name that begins with `UNFINISHED_PREFIX` and has the client's number and a digest of the file's own
path. So no other client makes a file of that name, and this one finds it again after a crash.
"""

from __future__ import annotations

from ..protocol import Path, show

UNFINISHED_PREFIX = ".udfburn-unfinished-"
"""How the name of a file in the root begins that is not whole yet."""

UNDER_WAY = 22
"""Files that are not whole at one time, at most: each is renamed once its pieces are acknowledged, and three parts of 8 MiB go out until
then. In each of them at most seven files begin, and one began before."""


def is_unfinished(path: Path) -> bool:
    """Whether a path is that of a file that is not whole yet, or below it."""
    return bool(path) and path[0].startswith(UNFINISHED_PREFIX)


def unfinished_path(client: int, path: Path) -> Path:
    """The path that a client's file has until it is whole."""
    from hashlib import sha256

    return (f"{UNFINISHED_PREFIX}{client:016x}-{sha256(show(path).encode()).hexdigest()[:32]}",)


__all__ = ["UNDER_WAY", "UNFINISHED_PREFIX", "is_unfinished", "unfinished_path"]
