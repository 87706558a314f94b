"""Groups of commits: what counts of an image that ends with the head of one (docs/FORMAT.md, "Where data goes, and in which order")."""

from __future__ import annotations

import struct
from typing import Tuple

from ..protocol.units import Address
from .medium import Medium

GROUP_MAGIC = b"UDFGROUP"

GROUP_MARKS = 64
"""The last blocks of commits that a head names, at most."""

GROUP_HEAD = struct.Struct(f"<8sIII{GROUP_MARKS}II")
"""`UDFGROUP`, the group's first block, the blocks of the image, how many marks, their addresses, and a sum of all before it."""


def counted_blocks(medium: Medium) -> int:
    """The blocks of a medium that count: all, or where it ends with the head of a group of which a mark is zeros, those before the group."""
    begin, marks = read_group_head(medium.rest(), medium.blocks)
    is_cut = any(data is not None and not any(data) for data in map(medium.block, marks))
    return begin if is_cut else medium.blocks


def read_group_head(data: bytes, blocks: int) -> Tuple[int, Tuple[Address, ...]]:
    """Where a group begins and which marks it has, whose head these bytes are, after so many blocks; no marks where they are none."""
    if len(data) != GROUP_HEAD.size or not data.startswith(GROUP_MAGIC):
        return blocks, ()
    _, begin, end, count, *words, total = GROUP_HEAD.unpack(data)
    marks = tuple(map(Address, words[:count]))
    in_order = all(low < high for low, high in zip((begin - 1, *marks), marks))
    fits = 0 < begin and end == blocks and count <= GROUP_MARKS and marks[-1:] == (blocks - 1,)
    return (begin, marks) if fits and in_order and total == sum_of(data[: -4]) else (blocks, ())


def sum_of(data: bytes) -> int:
    """FNV-1a of 32 bits."""
    total = 0x811C9DC5
    for byte in data:
        total = (total ^ byte) * 0x01000193 & 0xFFFFFFFF
    return total


__all__ = ["counted_blocks"]
