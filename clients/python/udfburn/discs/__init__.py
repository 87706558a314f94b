"""Discs: `finish` gives an image the end that readers of a disc need, and `burning` writes a track and reads it back.

Who may use it: `commands` and `archive`. What it may use: `reader`, `local` and all below.
"""

DRIVE = "/dev/sr0"
"""The drive that a command takes where none is named."""
