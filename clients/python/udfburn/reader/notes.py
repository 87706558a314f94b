"""What is not as docs/FORMAT.md has it: by block and cause, with the cause numbers of docs/OPERATIONS.md."""

from __future__ import annotations

from enum import IntEnum
from typing import List, NamedTuple, Tuple

from ..protocol.units import Address


class DamageCause(IntEnum):
    """Why a structure is not as docs/FORMAT.md has it. The numbers are those of `67 Damaged block B cause C`."""

    MISSING = 0
    """The block cannot be read, or lies past the end of the copy. `udfburn` says `64 Device` there."""
    TAG = 21
    STRATEGY = 22
    KIND = 23
    FIXED = 24
    LENGTHS = 25
    EXTENT = 26
    TAIL = 27
    IDENTIFIER = 31
    PARENT = 32
    NAME = 33
    TWICE = 34
    SPAN = 35
    PADDING = 36
    END = 37
    HEADER = 41
    LABEL = 42
    REVISION = 43
    SESSIONS = 44
    CLIENT_TWICE = 45
    ENTRY = 46
    COUNT = 47
    FRONT = 71
    RANGE = 72
    IDENTITY = 73
    REACHED_TWICE = 74
    COUNTS = 75
    TOO_DEEP = 76
    LABELS = 77
    CHAIN = 78


class StructureFault(NamedTuple):
    """What is wrong with one structure, seen alone."""

    cause: DamageCause
    text: str


Faults = List[StructureFault]


class Note(NamedTuple):
    """What is wrong on a medium. `block` is the address of the structure's first block."""

    block: Address
    cause: DamageCause
    text: str

    def __str__(self) -> str:
        return f"block {self.block} cause {int(self.cause)}: {self.text}"


NOTES_KEPT, NOTE_CHARACTERS = 100_000, 16 << 20
"""Notes that are kept, at most, and their characters."""


class Notes:
    """Notes in the order in which they were met, each once."""

    def __init__(self) -> None:
        self._seen: "dict[Tuple[Address, int, str], Note]" = {}
        self._characters = 0

    def add(self, block: Address, cause: DamageCause, text: str) -> None:
        """Adds one. Where there are too many, the last one says so."""
        if len(self._seen) >= NOTES_KEPT or self._characters > NOTE_CHARACTERS:
            block, cause, text = Address(0), DamageCause.COUNTS, "more than this is not as it must be, and is not named"
        key = (block, int(cause), text)
        if key not in self._seen:
            self._seen[key] = Note(block, cause, text)
            self._characters += len(text)

    def extend(self, block: Address, faults: Faults) -> None:
        """Adds the faults of a structure whose first block is at this address."""
        for cause, text in faults:
            self.add(block, cause, text)

    def all(self) -> List[Note]:
        """All of them."""
        return list(self._seen.values())

    def __len__(self) -> int:
        return len(self._seen)
