"""Sizes, shares and permissions as users write them."""

from __future__ import annotations

import argparse
import re
from typing import Optional

from ..protocol import limits
from .progress import size

SIZE_UNITS = {"KIB": 10, "MIB": 20, "GIB": 30, "K": 10, "M": 20, "G": 30}
"""The units in which a capacity may be given, as powers of 2."""


def capacity(text: str) -> int:
    """Blocks of a word: a count, or bytes with a unit."""
    letters = text.lstrip("0123456789")
    digits = text[: len(text) - len(letters)]
    power = SIZE_UNITS.get(letters.upper(), 11 if not letters else None)
    if not digits.isascii() or not digits or power is None or len(digits) > 12:
        raise argparse.ArgumentTypeError(f"{text!r} is not a valid capacity: give a number of blocks, or a size such as 700MiB")
    blocks = (int(digits) << power) // limits.BLOCK
    least, most = limits.CAPACITY
    if not least <= blocks <= most:
        raise argparse.ArgumentTypeError(f"{text!r} is {blocks:,} blocks, and a volume has {least} to {most:,} ({size(most * limits.BLOCK)})")
    return blocks


def percent(text: str) -> int:
    """A share from 1 to 100 percent."""
    if not (text.isascii() and text.isdigit() and len(text) <= 3 and 1 <= int(text) <= 100):
        raise argparse.ArgumentTypeError(f"{text!r} is not a percentage from 1 to 100")
    return int(text)


def mode_of(text: str) -> Optional[int]:
    """The permissions of a file that a text says in octal. The user reads and writes it, and nobody runs it; None for any other text."""
    return int(text, 8) if re.fullmatch("0?6[0246][0246]", text) else None


__all__ = ["capacity", "mode_of", "percent"]
