"""What a number counts: kinds of numbers that `mypy` keeps apart. When the client runs, each is a plain integer.

A number that a calculation gives is of no kind, so it gets one where it gets its meaning: `Commit(newest + 1)`.
"""

from typing import NewType

Address = NewType("Address", int)
"""A block of the medium. The first one has 0, and the partition begins at 257."""

BlockNumber = NewType("BlockNumber", int)
"""A block of the partition. The first one has 0, so the number is the address less 257."""

VirtualAddress = NewType("VirtualAddress", int)
"""A place in the virtual allocation table, which has the block number of a node's entry there."""

Commit = NewType("Commit", int)
"""A commit of a volume. The format is commit 0."""

Moment = NewType("Moment", int)
"""Microseconds from 1970-01-01 UTC."""

Size = NewType("Size", int)
"""Bytes."""

__all__ = ["Address", "BlockNumber", "Commit", "Moment", "Size", "VirtualAddress"]
