"""Frames: payloads in a stream, each after its length."""

from __future__ import annotations

import struct
from typing import Optional

from . import limits
from .answers import BadAnswer

LENGTH = 4
"""Bytes of a frame's length."""

LENGTH_PREFIX = struct.Struct("<I")


def prefix(length: int) -> bytes:
    """What goes before a payload of so many bytes in its frame. Raises `ValueError` where these are too many."""
    if length > limits.PAYLOAD:
        raise ValueError("a payload is above the limit")
    return LENGTH_PREFIX.pack(length)


def frame(payload: bytes) -> bytes:
    """A payload in its frame."""
    return prefix(len(payload)) + payload


class Frames:
    """Cuts a stream, which comes in pieces, into payloads."""

    def __init__(self) -> None:
        self.bytes = bytearray()
        self.at = 0

    def feed(self, piece: bytes) -> None:
        """Adds a piece of the stream."""
        if self.at:
            del self.bytes[: self.at]
            self.at = 0
        self.bytes += piece

    def take(self) -> Optional[bytes]:
        """The next payload, once all of it is there."""
        begin = self.at + LENGTH
        if len(self.bytes) < begin:
            return None
        (length,) = LENGTH_PREFIX.unpack_from(self.bytes, self.at)
        end = begin + length
        if length > limits.PAYLOAD:
            raise BadAnswer(f"a frame says that it has {length} bytes, which is above the limit")
        if len(self.bytes) < end:
            return None
        self.at = end
        return bytes(self.bytes[begin:end])

    def rest(self) -> int:
        """The bytes of a frame that is not whole yet."""
        return len(self.bytes) - self.at
