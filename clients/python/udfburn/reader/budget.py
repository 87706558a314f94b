"""What reading a medium may take. Blocks that were written one by one say no more than they hold; forged ones may."""

from __future__ import annotations

from enum import Enum
from typing import Dict

from .basics import CLIENTS, NODES

TABLE_BYTES = 196 + 48 * CLIENTS + 4 * (NODES + 1)
"""The bytes of a table's data, at most."""


class Work(Enum):
    """What is counted, and how it is called where there is more of it than a volume of the medium's size can have."""

    MENDS = "wrong bytes of entries"
    IDENTIFIERS = "wrong bytes of identifiers"
    DIRECTORIES = "blocks of directories"
    NODES = "blocks of files and directories"
    DESCRIPTORS = "descriptor blocks"
    NAMES = "names"
    VERSIONS = "earlier entries"
    HASHED = "bytes that may be those of lost files"
    FLIPS = "files inside of damaged entries"

    @property
    def text(self) -> str:
        """What is said where there is too much of it."""
        return f"there are more {self.value} than a volume of this size can have: the rest is not looked at"


class Budget:
    """How much may still be done for a medium of so many blocks."""

    def __init__(self, blocks: int):
        self._left: Dict[Work, int] = {
            Work.MENDS: 500_000, Work.IDENTIFIERS: 20_000, Work.DIRECTORIES: 4 * blocks + 512, Work.NODES: block_budget(blocks),
            Work.DESCRIPTORS: 20_000 + blocks, Work.NAMES: 16 * NODES, Work.VERSIONS: 20_000 + blocks, Work.HASHED: 1 << 31, Work.FLIPS: 200,
        }

    def take(self, what: Work, count: int = 1) -> bool:
        """Whether so much more may be done. Once it is too much, no more of it is done."""
        left = self._left[what] - count
        self._left[what] = max(left, 0)
        return left >= 0


def block_budget(blocks: int) -> int:
    """The blocks that the nodes of a state may say that they have, at most. Where none is wrong, no two have the same one."""
    return 2 * blocks + 1024


__all__ = ["TABLE_BYTES", "Budget", "Work", "block_budget"]
