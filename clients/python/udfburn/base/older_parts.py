"""Files in parts of a mebibyte each, as earlier versions of this program stored those that no volume could have as one. They are read,
replaced and removed, and written by nobody.

A file of up to 400 parts is beside others as `NAME.000`, `NAME.001` and on, which `cat NAME.*` joins. A longer one has a
folder of its own, `NAME.parts`, with folders of 400 parts each: `NAME.parts/00/000` and on, which `cat NAME.parts/*/*` joins.
"""

from __future__ import annotations

from typing import Dict, Iterator, List, Mapping, Optional, Sequence, Tuple

from ..protocol import NodeKind, Path, limits

MOST_PARTS = 1000
"""Parts that are beside others, at most: three digits. The last programs wrote none above 400 so, but earlier ones did."""

FLAT = 400
"""Parts of a file that are beside others: one with more has a folder of its own."""

FOLDER_PARTS = 400
"""Parts of each folder below that, of which only the last may have fewer."""

FIRST_PART_ENDING = ".000"
"""How the name of a first part ends."""

SUFFIX = ".parts"
"""How the name of a folder of parts ends."""


def part_name(name: str, index: int) -> str:
    """The name of a part that is beside others."""
    return f"{name}.{index:03}"


def part_count(size: int) -> int:
    """The parts of a file of this size."""
    return max(-(-size // limits.FILE), 1)


def base_of(path: Path) -> Path:
    """The folder of parts of a file."""
    return path[:-1] + (path[-1] + SUFFIX,)


def part_path(path: Path, index: int, folders: bool) -> Path:
    """The path of a part: in a folder of parts, or beside others."""
    if folders:
        return base_of(path) + (f"{index // FOLDER_PARTS:02}", f"{index % FOLDER_PARTS:03}")
    return path[:-1] + (part_name(path[-1], index),)


def stored_paths(path: Path, size: int) -> List[Path]:
    """The paths of the parts of a file of this size."""
    count = part_count(size)
    return [part_path(path, index, count > FLAT) for index in range(count)]


def part_folders(path: Path, size: int) -> List[Path]:
    """The folders that the parts of a file of this size take, each after the one above it."""
    count = part_count(size)
    if count <= FLAT:
        return []
    base = base_of(path)
    return [base] + [base + (f"{index:02}",) for index in range(-(-count // FOLDER_PARTS))]


def may_be_in_parts(path: Path, kinds: Mapping[Path, NodeKind]) -> bool:
    """Whether a file may be in parts, by the kinds of its path and of those of its first part and its folder of parts."""
    return path not in kinds and (kinds.get(part_path(path, 0, False)) is NodeKind.FILE or kinds.get(base_of(path)) is NodeKind.DIRECTORY)


def is_in_parts(path: Path, size: int, kinds: Mapping[Path, NodeKind]) -> bool:
    """Whether a volume has a file of this size in parts, by the kinds of all paths near it."""
    first_two = stored_paths(path, size)[:2]
    return len(first_two) > 1 and kinds.get(path) is not NodeKind.FILE and all(kinds.get(part) is NodeKind.FILE for part in first_two)


def joined_parts(sizes: Sequence[Tuple[str, Optional[int]]]) -> Tuple[Dict[str, List[str]], List[str]]:
    """The files of a directory that parts beside one another make, each with its parts in order, and the other names.

    `sizes` has each name with the bytes of its file, None for a directory. Parts are those from `.000` on without
    a gap of which all but the last have a mebibyte: two at least.
    """
    known = dict(sizes)
    files: Dict[str, List[str]] = {}
    for name, _ in sizes:
        whole = name[: -len(FIRST_PART_ENDING)]
        if name.endswith(FIRST_PART_ENDING) and whole and whole not in known:
            parts = parts_from(whole, known)
            if len(parts) > 1:
                files[whole] = parts
    taken = {part for parts in files.values() for part in parts}
    return files, [name for name, _ in sizes if name not in taken]


def parts_from(name: str, known: Mapping[str, Optional[int]]) -> List[str]:
    """The parts of a name."""
    parts: List[str] = []
    while len(parts) < MOST_PARTS and known.get(part_name(name, len(parts))) is not None:
        parts.append(part_name(name, len(parts)))
        if known[parts[-1]] != limits.FILE:
            break
    return parts


def joined_folder(base: Path, names: Mapping[Path, Sequence[str]], sizes: Mapping[Path, int]) -> List[Path]:
    """The parts in order that a folder of parts has, where they make a whole file; else nothing.

    They do where there is no gap and no other name, all but the last have a mebibyte, and there are more than are beside others.
    """
    whole = base[:-1] + (base[-1][: -len(SUFFIX)],)
    below = sum(1 + len(names.get(base + (folder,), ())) for folder in names.get(base, ()))
    parts: List[Path] = []
    for part in parts_in_order(whole):
        size = sizes.get(part)
        if size is None:
            break
        parts.append(part)
        if size != limits.FILE:
            break
    if len(parts) <= FLAT or len(parts) + -(-len(parts) // FOLDER_PARTS) != below:
        return []
    return parts


def parts_in_order(path: Path) -> Iterator[Path]:
    """The paths of the parts that a folder of parts may have."""
    return (part_path(path, index, True) for index in range(limits.NODES))
