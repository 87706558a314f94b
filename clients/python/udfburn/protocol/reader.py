"""Fields of a payload, read one after the other."""

from __future__ import annotations

import struct
from typing import Tuple


class Short(Exception):
    """The payload ends inside a field or before one."""


class Fields:
    """A payload that is read from its beginning."""

    def __init__(self, payload: bytes):
        self.payload = payload
        self.at = 0

    def take(self, count: int) -> bytes:
        """The next bytes."""
        end = self.at + count
        if end > len(self.payload):
            raise Short
        taken = self.payload[self.at:end]
        self.at = end
        return taken

    def number(self, size: int) -> int:
        """The next number of so many bytes."""
        end = self.at + size
        if end > len(self.payload):
            raise Short
        number = int.from_bytes(self.payload[self.at:end], "little")
        self.at = end
        return number

    def unpack(self, numbers: struct.Struct) -> Tuple[int, ...]:
        """The next numbers."""
        return numbers.unpack(self.take(numbers.size))

    def left(self) -> int:
        """How many bytes are left."""
        return len(self.payload) - self.at
