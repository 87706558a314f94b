"""Files whose bytes the archive had already, as texts in `same` on a volume say it: each with its path, and where its bytes are.

Programs go by the volume and the commit that stored the bytes, and compare what they read with the SHA-256. The path there is for people.
"""

from __future__ import annotations

import re
from typing import Dict, Iterable, Iterator, List, NamedTuple, Optional, Sequence, Tuple

from ..base.manifest import PAYLOAD_FOLDER
from ..protocol import limits
from ..protocol.units import Commit, Moment, Size
from ..reader import FileType, StateNode
from .bundle import members_on
from .config import volume_label
from .contents import SAME, SIZE, TEXT_BYTES, Contents, number
from .errors import CannotStore, VolumeDiffers
from .held import Held, is_whole, line_path, path_line
from .names import is_bundle, kept_name, read_back, spelled, stored_folder, text_of
from .schema import COMMITS, NUMBERS

SAME_TITLE = "udfburn-archive same 1"
"""The first line of a text of such files."""

WORDS = f"""{SAME_TITLE}
The archive had the bytes of these files already, so they are not stored again.
A file has a line with its SHA-256, its size in bytes, its time of modification
in microseconds from 1970-01-01 UTC, and its path in the archive. Below it is
where its bytes are: the volume, the commit that stored them, their path on that
volume, and which bytes of that, where they are not all. If another file is there,
look in =s1, =s2 .. of its folder and in data/=v2, data/=v3 .. for the one with
this SHA-256; if that volume is closed, its manifest-sha256.txt has it. In paths
%25 is a percent sign.

"""

SAME_TEXTS_BYTES = 1 << 26
"""Bytes of all texts of a volume, at most. A volume that has as many takes no more of them."""

HEAD = re.compile("([0-9a-f]{64}) ([0-9]{1,19}) ([0-9]{1,19}) (/.+)")
PLACE_LINE = re.compile("([0-9]{6,9}), commit ([0-9]{1,6})(?:, bytes ([0-9]{1,19}) to ([0-9]{1,19}))?: (.+)")


class SameEntry(NamedTuple):
    """A file in a text: its rows, one for each volume that has bytes of it, and what the text has."""

    rows: List[Held]
    data: bytes


def entry(rows: Sequence[Held], label: str, places: Sequence[int]) -> SameEntry:
    """A file for a text, by its rows and, of each, the number of the version at the path there."""
    held = rows[0]
    lines = [f"{held.sha256.hex()} {held.size} {held.moment} {path_line(held.path)}"]
    for row, version in zip(rows, places):
        path = (PAYLOAD_FOLDER,) + ((f"=v{version}",) if version > 1 else ()) + stored_folder(row.stored_as()[:-1]) + spelled(row.stored_as()[-1])
        lines.append(f"  the same as {volume_label(label, row.volume)}, commit {row.commit}{span(row)}: {path_line(path)[1:]}")
    return SameEntry(list(rows), ("\n".join(lines) + "\n").encode())


def span(row: Held) -> str:
    """Which bytes of a file in parts a volume has, or which of a bundle they are."""
    if row.start is not None:
        return f", bytes {row.start} to {row.start + row.size - 1}"
    if row.parts is None:
        return ""
    first = (row.first or 0) * limits.FILE
    return f", bytes {first} to {min(first + row.parts * limits.FILE, row.size) - 1}"


def text_size(capacity: int) -> int:
    """Bytes of a text, at most, of an archive whose volumes have so many blocks."""
    return min(TEXT_BYTES, capacity * limits.BLOCK // 8)


def same_texts(entries: Iterable[SameEntry], most: int = TEXT_BYTES) -> Iterator[Tuple[bytes, List[SameEntry]]]:
    """The texts that have files, each with what it has. None but of a single file has more than so many bytes."""
    data = bytearray(WORDS.encode())
    some: List[SameEntry] = []
    for each in entries:
        if some and len(data) + len(each.data) > most:
            yield bytes(data), some
            data, some = bytearray(WORDS.encode()), []
        data += each.data
        some.append(each)
    if some:
        yield bytes(data), some


# ---- read back

def read_same(data: bytes, where: str, label: str) -> Iterator[List[Held]]:
    """The files of a text of the archive with this label, each with its rows, which lack the text's own commit; `VolumeDiffers` where it is
    no such text."""
    try:
        title, *lines = data.decode().split("\n")
        if title != SAME_TITLE or lines.pop() != "" or "" not in lines:
            raise ValueError("it is none")
        rows: List[Held] = []
        head = None
        for line in lines[lines.index("") + 1 :]:
            if not line.startswith("  "):
                yield from [whole_rows(rows)] if head is not None else []
                head, rows = head_of(line), []
            elif head is None:
                raise ValueError(f"{line[:60]!r} belongs to no file")
            else:
                rows.append(row_of_place(line, head, label))
        yield from [whole_rows(rows)] if head is not None else []
    except (ValueError, CannotStore) as error:
        raise VolumeDiffers(f"{where}: is no text of files whose bytes are elsewhere ({error})") from error


def head_of(line: str) -> Held:
    """The file that a line names. It says nothing yet of where its bytes are."""
    found = HEAD.fullmatch(line)
    if found is None:
        raise ValueError(f"{line[:60]!r} names no file")
    path = line_path(found.group(4))
    for name in path:
        kept_name(name)
    size, moment = Size(number(found.group(2), SIZE)), Moment(number(found.group(3), limits.MOMENT))
    return Held(0, Commit(0), path, size, moment, bytes.fromhex(found.group(1)), Moment(0))


def row_of_place(line: str, head: Held, label: str) -> Held:
    """The row of a file, by a line that says where bytes of it are."""
    begin = f"  the same as {label}-"
    found = PLACE_LINE.fullmatch(line[len(begin) :]) if line.startswith(begin) else None
    stored = read_back(line_path("/" + found.group(5))) if found is not None else None
    if found is None or stored is None or stored.part is not None:
        raise ValueError(f"{line[:60]!r} names no file of a volume of {label}")
    for name in stored.path:
        kept_name(name)
    row = head._replace(volume=number(found.group(1), NUMBERS), commit=Commit(number(found.group(2), COMMITS - 1)), at=stored.path)
    if is_bundle(stored.path[-1]):
        return in_bundle(line, row, found.group(3), found.group(4))
    if found.group(3) is None:
        return row
    start, end = number(found.group(3), head.size), number(found.group(4), head.size) + 1
    if start % limits.FILE or end <= start:
        raise ValueError(f"{line[:60]!r} names no part of a file")
    return row._replace(first=start // limits.FILE, parts=-(-end // limits.FILE) - start // limits.FILE)


def in_bundle(line: str, row: Held, first: Optional[str], last: Optional[str]) -> Held:
    """The row of a file whose bytes a bundle has."""
    start = number(first or "", limits.FILE)
    if number(last or "", limits.FILE) + 1 - start != row.size:
        raise ValueError(f"{line[:60]!r} names no bytes of a bundle")
    return row._replace(start=start)


def whole_rows(rows: List[Held]) -> List[Held]:
    """The rows of a file, which have all of it, or `ValueError`."""
    if not rows or not is_whole(rows):
        raise ValueError("a file has not all of its bytes anywhere")
    return rows


def rows_on(contents: Contents, volume: int, unlisted: Optional[Dict[Commit, str]] = None) -> List[Held]:
    """The rows of all lines that a volume has, and of the members of its bundles. `unlisted` is as in `members_on`."""
    nodes = nodes_on(contents)
    if sum(node.size for node in nodes) > SAME_TEXTS_BYTES:
        raise VolumeDiffers(f"{contents.image}: has more than {SAME_TEXTS_BYTES} bytes of files whose bytes are elsewhere")
    found: List[Held] = []
    for node in nodes:
        noted = volume, contents.commit_of(node)
        added = contents.added(noted[1])
        for rows in read_same(contents.bytes_of(node), f"{contents.image}: {text_of(node.path)}", contents.about().label):
            found += [row._replace(noted=noted, added=added) for row in rows]
    return found + members_on(contents, volume, unlisted)


def nodes_on(contents: Contents) -> List[StateNode]:
    """The texts that a volume has."""
    return [node for path, node in contents.nodes.items() if len(path) == 2 and path[0] == SAME and node.kind is FileType.FILE]


def count_of(rows: Iterable[Held], lines: Iterable[Held]) -> int:
    """How many files the rows of a volume, and those of lines and of members of bundles, are of."""
    return sum(not is_bundle(row.path[-1]) for row in rows) + len({(row.noted, row.path) for row in lines})


__all__ = ["SAME_TEXTS_BYTES", "SAME_TITLE", "SameEntry", "count_of", "entry", "nodes_on", "read_same", "rows_on", "same_texts", "text_size"]
