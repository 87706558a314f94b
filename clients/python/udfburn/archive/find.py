"""Finds files by a pattern. A literal beginning or end of it is looked up in order of names or of their ends, where whole paths
are side by side: so the time follows from what is found, and no hit takes a look-up of its own. Text inside names is looked up
in the engine's index of three letters in a row; if it is shorter, every name is compared."""

from __future__ import annotations

from fnmatch import fnmatchcase
from itertools import groupby
from typing import Iterator

from ..protocol import Path
from .base import Range, Row
from .catalogue import Catalogue, folder_back, versions
from .names import kept_name, name_back
from .patterns import trigrams
from .schema import LISTED

WILD = "*?["

FEW = 1000
"""Rows of a literal beginning or end that are compared before the index is asked."""


TABLES = ((f"file ON file.folder = folder.id AND {LISTED}", "part_count"), ("same ON same.folder = folder.id", "part_count * 0"))
"""The tables of files, with what says whether a row is of parts."""

LAST = "\U0010ffff"
"""The last letter. It stands for the byte 0xFF of a name that is not UTF-8."""


def after(text: str) -> str:
    """The least text above all that begin with this one, which has other letters than the last one."""
    text = text.rstrip(LAST)
    code = ord(text[-1]) + 1
    return text[:-1] + chr(0xE000 if code == 0xD800 else code)


def beginning(column: str, text: str) -> Range:
    """The rows whose column begins with a text."""
    if not text.strip(LAST):
        return Range(column, f"{column} >= ?", (text,))
    return Range(column, f"{column} >= ? AND {column} < ?", (text, after(text)))


def literal(pattern: str) -> str:
    """The beginning of a pattern that has no wildcard."""
    ends = [pattern.index(letter) for letter in WILD if letter in pattern]
    return pattern[: min(ends)] if ends else pattern


def literal_end(pattern: str) -> str:
    """The end of a pattern that has no wildcard. A bracket may be a set's, so what comes before one counts for nothing."""
    end = len(pattern)
    while end and pattern[end - 1] not in "*?[]":
        end -= 1
    return pattern[end:]


def matching_paths(catalogue: Catalogue, pattern: str, any_case: bool = False) -> Iterator[Path]:
    """The paths that a pattern matches and that have a whole version: a whole path where it begins with a slash, else a name.

    `*` is any text, slashes among it, `?` a character, `[..]` one of some. With `any_case` capital and small letters are the same.
    """
    kept = kept_name(pattern)
    rows = in_any_case(catalogue, kept) if any_case else by_path(catalogue, kept) if kept.startswith("/") else by_name(catalogue, kept)
    for (folder, name), group in groupby(rows, key=lambda row: row[:2]):
        path = folder_back(str(folder)) + (name_back(str(name)),)
        # Of a file in parts the archive may lack some.
        if any(parts is None for *_, parts in group) or versions(catalogue.of_path(path)):
            yield path


def in_any_case(catalogue: Catalogue, pattern: str) -> Iterator[Row]:
    """Folder, name and count of parts of each row whose name, or path, a pattern matches in small letters. No index has these."""
    wanted, whole = pattern.casefold(), pattern.startswith("/")
    for path, name, parts in catalogue.base.stream("SELECT path, name, part_count FROM by_name ORDER BY name, path"):
        if fnmatchcase((f"{path}/{name}" if whole else str(name)).casefold(), wanted):
            yield path, name, parts


def by_path(catalogue: Catalogue, pattern: str) -> Iterator[Row]:
    """Folder, name and count of parts of each row by its whole path."""
    begin = literal(pattern)
    folder, _, name = begin.rpartition("/")
    if begin == pattern:
        # Once for each version of it.
        yield from ((folder, name, held.parts) for held in catalogue.of_path(folder_back(folder) + (name_back(name),)))
        return
    _, slash, last = literal_end(pattern).rpartition("/")
    if slash:
        # The name is this one, in whichever folder.
        statement = "SELECT path, name, part_count FROM by_name WHERE name = ? ORDER BY path"
        yield from (row for row in catalogue.base.stream(statement, (last,)) if fnmatchcase(f"{row[0]}/{row[1]}", pattern))
        return
    for where, values in (("path = ?", (folder,)), ("path >= ? AND path < ?", (begin, after(begin)))):
        # Files, and those whose bytes are another's.
        both = (f"SELECT path, name, {parts} FROM folder JOIN {table} WHERE {where}" for table, parts in TABLES)
        for row in catalogue.base.stream(f"{' UNION ALL '.join(both)} ORDER BY path, name", values * 2):
            if fnmatchcase(f"{row[0]}/{row[1]}", pattern):
                yield row


def by_name(catalogue: Catalogue, pattern: str) -> Iterator[Row]:
    """What `by_path` gives, of each row by its name alone."""
    begin, end = literal(pattern), literal_end(pattern)
    if begin == pattern:
        yield from named(catalogue, Range("name", "name = ?", (begin,)), pattern)
        return
    wanted = catalogue.base.matching(pattern)
    if begin or end:
        literally = beginning("name", begin) if len(begin) >= len(end) else beginning("ending", end[::-1])
        if pattern in (begin + "*", "*" + end) or not trigrams(pattern) or is_short(catalogue, literally):
            wanted = literally
    yield from named(catalogue, wanted, pattern)


def is_short(catalogue: Catalogue, wanted: Range) -> bool:
    """Whether a range has few rows."""
    statement = f"SELECT count(*) FROM (SELECT 1 FROM by_{wanted.column} WHERE {wanted.where} LIMIT {FEW + 1}) AS few"
    return int(catalogue.base.run(statement, wanted.values)[0][0]) <= FEW


def named(catalogue: Catalogue, wanted: Range, pattern: str) -> Iterator[Row]:
    """Rows in order of their names, or of their ends, that a pattern matches."""
    column = wanted.column
    statement = f"SELECT path, {column}, part_count FROM by_{column} WHERE {wanted.where} ORDER BY {column}, path"
    for path, name, parts in catalogue.base.stream(statement, wanted.values):
        name = name if column == "name" else name[::-1]
        if fnmatchcase(name, pattern):
            yield path, name, parts
