"""Names that UDF cannot spell, under a spelling that is undone.

Each byte of a character without a spelling, and each byte that is not UTF-8, becomes U+241B (SYMBOL FOR ESCAPE) and two hexadecimal
digits, as in RFC 3986 with `%`. U+241B itself is escaped too, whether or not that was asked for: so no two names have one spelling,
and a spelling is known by itself.
"""

from __future__ import annotations

import re

from ..protocol import has_spelling

ESCAPE = "\u241b"
"""The character that begins each escaped byte."""

ESCAPE_SEQUENCES = re.compile(f"(?:{ESCAPE}[0-9A-F]{{2}})+")


def encode(name: str) -> str:
    """The spelling of a local name. One that needs none is its own."""
    if name.isascii() or (ESCAPE not in name and all(map(has_spelling, name))):
        return name
    return "".join(character if character != ESCAPE and has_spelling(character) else escaped_bytes(character) for character in name)


def escaped_bytes(character: str) -> str:
    """The bytes of a character, each escaped. Bytes that are not UTF-8 come as low surrogates, as Python has them."""
    return "".join(f"{ESCAPE}{byte:02X}" for byte in character.encode("utf-8", "surrogateescape"))


def decode(name: str) -> str:
    """The local name of a spelling. What is no spelling of another name is a name as it is: so no slash and no dots come of one."""
    if ESCAPE not in name:
        return name
    found = ESCAPE_SEQUENCES.sub(lambda run: bytes.fromhex(run.group().replace(ESCAPE, "")).decode("utf-8", "surrogateescape"), name)
    try:
        return found if encode(found) == name else name
    except UnicodeEncodeError:
        return name


__all__ = ["ESCAPE", "decode", "encode"]
