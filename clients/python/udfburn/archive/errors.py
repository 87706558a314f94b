"""What an archive refuses or fails at. Each message says what to do, if anything can be done."""

from __future__ import annotations

from ..base.errors import UdfburnError


LOST = "docs/ARCHIVE.md says under 'A volume that is lost' how to go on"
"""What is said of an image that nothing repairs."""


class ArchiveError(UdfburnError):
    """Anything that an archive refuses to do."""


class NoArchive(ArchiveError):
    """The folder holds no archive, or holds something else."""


class BadConfig(ArchiveError):
    """`archive.toml` is not as it must be."""


class CatalogueError(ArchiveError):
    """The catalogue cannot be used."""


class CatalogueLost(CatalogueError):
    """The connection to the catalogue was lost, and with it this process's claims."""


class Claimed(ArchiveError):
    """Another process has the path or the volume."""


class NotAtHand(ArchiveError):
    """The volume is not at hand."""


class Lacking(ArchiveError):
    """Bytes that cannot be read, and why."""


class VolumeDiffers(ArchiveError):
    """A volume is not the one that the catalogue knows, or lacks what was acknowledged."""


class CopyFailed(ArchiveError):
    """A copy was not made, or is not what was sent."""


class CopyDiffers(CopyFailed):
    """The copy of an open image is no beginning of it."""


class CannotStore(ArchiveError):
    """A file that no volume can hold under its path."""


__all__ = [
    "ArchiveError", "BadConfig", "CannotStore", "CatalogueError", "CatalogueLost", "Claimed", "CopyDiffers", "CopyFailed", "LOST",
    "Lacking", "NoArchive", "NotAtHand", "VolumeDiffers",
]
