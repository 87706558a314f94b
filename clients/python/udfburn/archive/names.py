"""How paths of an archive are written on a volume, and read back without the catalogue (docs/ARCHIVE.md, "Names").

A name keeps its spelling where UDF can spell it and it does not begin with `=`. Names that begin with `=` are this
program's: `=s1` and on hold names of the folder above that found no room in it, `=v2` and on hold later versions,
`=000000000000000` and on are the parts of a file, `=file.txt` describes them, `=b1.tar` and on are bundles of the small files
of their folder, and `==` begins an escaped name. To undo the layout, leave out the `=s` and `=v` folders, and decode escaped names.
"""

from __future__ import annotations

import os
import re
from typing import Iterable, List, NamedTuple, Optional, Tuple

from ..base.manifest import PAYLOAD_FOLDER
from ..protocol import Path, limits
from ..protocol.names import has_spelling, name_fault, spelled_size
from .errors import CannotStore
from .older_parts import older_part

MARK = "="
"""What a reserved name begins with."""

ESCAPED = "=="
"""What an escaped name begins with."""

DESCRIPTION = "=file.txt"
"""The name of the text that describes a file in parts."""

STORED_DEPTH = 9
"""Names of a folder of the archive as it is stored, at most. Above are `data` and a version, below are a spread folder, a
file in parts, which may take a name more, and a part. In older archives a part is in one folder more: 16 names in all."""

NAME_PIECE = 240
"""Bytes of a piece of an escaped name, as it is spelled and in UTF-8, at most."""

SHOWN = 254
"""Bytes of UTF-8 of a name that Linux shows whole, at most."""

CODED = "%\r\n"
"""Letters that a manifest writes otherwise (RFC 8493 2.1.3), which not all who check a bag know. So no stored name has them."""

SPREAD = re.compile(r"=s([1-9][0-9]*)")
VERSION_FOLDER = re.compile(r"=v([1-9][0-9]*)")
PART = re.compile(r"=([0-9]{15,})")
BUNDLE = re.compile(r"=b[1-9][0-9]{0,4}\.tar")
HEXED = re.compile(rb"=([0-9A-F]{2})")


def is_plain(name: str) -> bool:
    """Whether a name is stored as it is: UDF can spell it, Linux shows it whole, and a manifest has it without a code."""
    return (
        name_fault(name) is None and not name.startswith((MARK, "..")) and not any(letter in name for letter in CODED)
        and len(name.encode()) <= SHOWN
    )


def spelled(name: str) -> Path:
    """The names, one below the other, under which a name is stored: most often itself alone."""
    if is_bundle(name):
        return (stored_bundle(name),)
    return (name,) if is_plain(name) else name_pieces(tokens(name))


# ---- bundles

def bundle_name(number: int) -> str:
    """The name that a bundle of a folder has in the archive. It has a slash, so it is no file's."""
    return f"/b{number}.tar"


def is_bundle(name: str) -> bool:
    """Whether a name of the archive is a bundle's."""
    return name[:1] == "/"


def stored_bundle(name: str) -> str:
    """The name of a bundle on a volume."""
    return MARK + name[1:]


# ---- escaped names


def tokens(name: str) -> List[str]:
    """The characters of an escaped name: those that UDF can spell as they are, bytes of others as `=` and two digits."""
    found = []
    for character in name:
        plain = has_spelling(character) and character not in "=/\0" + CODED
        found.append(character if plain else "".join(f"={byte:02X}" for byte in os.fsencode(character)))
    return found


def name_pieces(parts: Iterable[str]) -> Path:
    """An escaped name as names that fit. Each but the last ends with `=`."""
    names, piece = [], ESCAPED
    for part in parts:
        if max(spelled_size(piece + part), len((piece + part).encode())) > NAME_PIECE:
            names.append(piece + MARK)
            piece = ESCAPED
        piece += part
    return (*names, piece)


def decoded(names: Path) -> Path:
    """The path that stored names stand for, where none of them is of this program but escaped ones."""
    path: List[str] = []
    begun = ""
    for name in names:
        if not name.startswith(ESCAPED):
            path.append(name)
            continue
        begun += name[len(ESCAPED) :]
        if begun.endswith(MARK):
            begun = begun[:-1]
            continue
        path += unescaped(begun).split("/")
        begun = ""
    return tuple(path)


def unescaped(text: str) -> str:
    """The name that an escaped one stands for."""
    return os.fsdecode(HEXED.sub(lambda found: bytes([int(found.group(1), 16)]), os.fsencode(text)))


def stored_folder(path: Path) -> Path:
    """The names under which a folder of the archive is stored below the payload. Where there are too many of them, or too
    deep, the first names of the path are joined to one escaped name."""
    whole = [spelled(name) for name in path]
    below = [name for names in whole for name in names]
    if len(below) <= STORED_DEPTH:
        return tuple(below)
    for count in range(2, len(path) + 1):
        joined = name_pieces(token for token in tokens_of_path(path[:count]))
        rest = [name for names in whole[count:] for name in names]
        if len(joined) + len(rest) <= STORED_DEPTH:
            return joined + tuple(rest)
    raise CannotStore(f"{text_of(path)}: the path is too long for a volume, even with its names joined")


def tokens_of_path(path: Path) -> List[str]:
    """The tokens of names that are joined by escaped slashes."""
    found: List[str] = []
    for index, name in enumerate(path):
        found += (["=2F"] if index else []) + tokens(name)
    return found


# ---- stored paths, read back

class Stored(NamedTuple):
    """What a stored path is: a path of the archive, the version of it, and with which byte of the file it begins, None for the
    whole of it, -1 for its description."""

    path: Path
    version: int
    part: Optional[int]


def read_back(names: Path) -> Optional[Stored]:
    """What a stored file is; None where it is none of the payload, or stands for what is no path, as where another program wrote it."""
    if not names or names[0] != PAYLOAD_FOLDER:
        return None
    names, version, part = names[1:], 1, None
    found = VERSION_FOLDER.fullmatch(names[0]) if names else None
    if found:
        names, version = names[1:], int(found.group(1))
    if names and names[-1] == DESCRIPTION:
        names, part = names[:-1], -1
    else:
        names, part = part_back(names)
    bundle: Path = ()
    if part is None and names and BUNDLE.fullmatch(names[-1]):
        names, bundle = names[:-1], ("/" + names[-1][len(MARK) :],)
    kept = tuple(name for name in names if not SPREAD.fullmatch(name))
    path = decoded(kept)
    if not path + bundle or any(name in ("", ".", "..") or "/" in name or "\0" in name for name in path):
        return None
    return Stored(path + bundle, version, part)


def part_back(names: Path) -> Tuple[Path, Optional[int]]:
    """The names of a file, and the byte with which the part of it begins that has these names; None where they are no part's."""
    found = PART.fullmatch(names[-1]) if names else None
    return (names[:-1], int(found.group(1))) if found else older_part(names)


def stored_part_name(start: int) -> str:
    """The name of a part in the folder of its file: the byte with which it begins, in fifteen digits and more."""
    return f"={start:015}"


# ---- paths as texts

LOW, HIGH = 0xDC80, 0x10FF80
"""Bytes that are not UTF-8 are surrogates in Python, which no database keeps; it has private characters in their place."""

KEPT_LETTERS = {LOW + index: HIGH + index for index in range(128)}
BACK = {HIGH + index: LOW + index for index in range(128)}


def kept_name(name: str) -> str:
    """A name as the catalogue keeps it."""
    if name.isascii():
        return name
    if any(HIGH <= ord(character) for character in name):
        raise CannotStore(f"{name!r}: has a private character that the catalogue uses for bytes that are not UTF-8")
    return name.translate(KEPT_LETTERS)


def name_back(kept: str) -> str:
    """The name that the catalogue keeps."""
    return kept if kept.isascii() else kept.translate(BACK)


def text_of(path: Path) -> str:
    """A path as users write it; of a bundle with its name on the volume."""
    if path and is_bundle(path[-1]):
        path = path[:-1] + (stored_bundle(path[-1]),)
    return "/" + "/".join(path)


def path_from(text: str) -> Path:
    """The names of a path that users write. Empty names and `.` count for nothing; `..` is refused."""
    names = tuple(name for name in text.split("/") if name not in ("", "."))
    if ".." in names or "\0" in text:
        raise CannotStore(f"{text}: is not a path of an archive")
    return names


assert 1 + 1 + STORED_DEPTH + 1 + 2 + 1 + 1 <= limits.DEPTH
