"""Names, paths, and how a name is spelled in compressed Unicode."""

from __future__ import annotations

import os
from enum import Enum
from functools import lru_cache
from typing import Optional, Sequence, Tuple, Union

from . import limits

Path = Tuple[str, ...]
"""A path: its names from the root on. The root has none."""

PathLike = Union[str, Sequence[str]]
"""A path as users write it: a text with slashes, or names."""


class NameFault(Enum):
    """Why a text may not be in a directory, in the order in which faults are looked for."""

    EMPTY = "is empty"
    DOTS = "stands for a directory itself or the one above"
    SLASH = "has a slash"
    NUL = "has a NUL"
    WIDE = "has a character that compressed Unicode cannot encode"
    LONG = "takes more than 255 bytes as it is encoded on the medium"


def is_bytes(name: str) -> bool:
    """Whether the system gave bytes that are not UTF-8, which Python writes as low surrogates."""
    return not name.isascii() and any("\udc80" <= character <= "\udcff" for character in name)


def escaped(text: str) -> str:
    """A name as it is printed: it breaks no line, moves no cursor, and is that of no other name. A backslash is printed twice, so that
    one alone begins an escape; a byte that is not UTF-8 is `\\xNN`, other characters from U+0080 on are `\\uNNNN`."""
    if text.isprintable() and "\\" not in text:
        return text
    return "".join(letter if letter.isprintable() and letter != "\\" else escape_of(letter) for letter in text)


def escape_of(letter: str) -> str:
    """The escape of a character."""
    if letter.isascii():
        return letter.encode("unicode_escape").decode()
    if is_bytes(letter):
        return f"\\x{ord(letter) - 0xDC00:02x}"
    return f"\\u{ord(letter):04x}" if ord(letter) < 0x10000 else f"\\U{ord(letter):08x}"


def shown(local: str) -> str:
    """A path of the system as it is printed in messages."""
    return escaped(local)


def as_text(local: str) -> str:
    """A path of the system for programs: as it is, but for bytes that are not UTF-8."""
    return os.fsencode(local).decode(errors="backslashreplace")


class InvalidName(ValueError):
    """A text that is no name."""

    def __init__(self, name: str, fault: NameFault):
        if is_bytes(name):
            written = "".join(f"\\x{ord(character) - 0xDC00:02x}" if is_bytes(character) else character for character in name)
            super().__init__(f"{written} is not UTF-8")
        else:
            super().__init__(f"{name!r} {fault.value}")
        self.name = name
        self.fault = fault


def has_spelling(character: str) -> bool:
    """Whether a character can be spelled: 16 bits, no surrogate, no byte order mark read either way."""
    code = ord(character)
    return code < 0x10000 and not 0xD800 <= code < 0xE000 and code not in (0xFEFF, 0xFFFE)


def spelled_size(name: str) -> int:
    """The bytes that a text takes as it is spelled on the medium."""
    if not name:
        return 0
    return 1 + len(name) * (1 if name.isascii() or max(name) <= "\xff" else 2)


@lru_cache(maxsize=16384)
def name_fault(name: str) -> Optional[NameFault]:
    """The first fault of a text as a name, if it has one."""
    if not name:
        return NameFault.EMPTY
    if name in (".", ".."):
        return NameFault.DOTS
    if "/" in name:
        return NameFault.SLASH
    if "\0" in name:
        return NameFault.NUL
    if not name.isascii() and not all(map(has_spelling, name)):
        return NameFault.WIDE
    return NameFault.LONG if spelled_size(name) > limits.SPELLED else None


def check_name(name: str) -> str:
    """The name itself, or `InvalidName`."""
    fault = name_fault(name)
    if fault is not None:
        raise InvalidName(name, fault)
    return name


def path_of(path: PathLike) -> Path:
    """The names of a path, each of which is one.

    A text begins with a slash; slashes at its end count for nothing. `/` is the root.
    """
    if not isinstance(path, str):
        names = tuple(path)
    elif not path.startswith("/"):
        raise InvalidPath(path, "does not begin with a slash")
    else:
        stripped = path.strip("/")
        names = tuple(stripped.split("/")) if stripped else ()
    for name in names:
        check_name(name)
    if len(names) > limits.PATH_NAMES:
        raise InvalidPath(show(names), f"has more than {limits.PATH_NAMES} names")
    return names


class InvalidPath(ValueError):
    """A text that is no path."""

    def __init__(self, path: str, why: str):
        super().__init__(f"{path!r} {why}")
        self.path = path


def show(path: Path) -> str:
    """A path as users write it."""
    return "/" + "/".join(path)


def printed(path: Path) -> str:
    """A path as it is printed in messages."""
    return escaped(show(path))
