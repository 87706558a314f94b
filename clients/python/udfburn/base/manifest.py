"""Manifests of SHA-256: those of a bag (RFC 8493, 2.1.3), and those of `sha256sum` (GNU coreutils), written and read.

Both have a line for each file: 64 digits, two spaces, and the file's path with slashes, from the manifest's own directory on. They
differ in how they write what would break a line. A bag has a carriage return, a line feed and a percent sign as `%0D`, `%0A` and `%25`,
and no other character so. `sha256sum` puts a backslash before such a line, and has `\\r`, `\\n` and `\\\\` in it.
"""

from __future__ import annotations

import re
from typing import Iterable, Iterator, List, NamedTuple, Tuple

from ..protocol import Path, limits, name_fault

MANIFEST, TAG_MANIFEST = "manifest-sha256.txt", "tagmanifest-sha256.txt"
BAG_DECLARATION, BAG_INFO, PAYLOAD_FOLDER = "bagit.txt", "bag-info.txt", "data"
DECLARATION = b"BagIt-Version: 1.0\nTag-File-Character-Encoding: UTF-8\n"
"""The bytes of `bagit.txt` (RFC 8493, 2.1.1)."""

MANIFESTS = (MANIFEST, TAG_MANIFEST)
"""Names of manifests: of the payload of a bag or of other files, and of the tag files of a bag."""

TAG_FILES = (*MANIFESTS, BAG_INFO, BAG_DECLARATION)
"""Names of the files that make a directory a bag."""

LONGEST_MANIFEST = 1 << 26
"""Bytes of a manifest that is read, at most: the lines of all files of a volume have fewer, however long their paths are."""

FAULTS_NAMED = 100
"""The lines of a manifest that are none of which each is named, at most."""

LONGEST_WRITTEN = limits.FILE
"""Bytes of a tag file that is written, at most: one request brings all of it."""


class ManifestLine(NamedTuple):
    """A line of a manifest: the digest of a file, and its path from the manifest's directory on."""

    sha256: bytes
    path: Path


# ---- written

PERCENT = str.maketrans({"%": "%25", "\r": "%0D", "\n": "%0A"})
BACKSLASH = str.maketrans({"\\": "\\\\", "\r": "\\r", "\n": "\\n"})


def bag_manifest(lines: Iterable[ManifestLine]) -> bytes:
    """A manifest of a bag."""
    return "".join([f"{line.sha256.hex()}  {'/'.join(line.path).translate(PERCENT)}\n" for line in lines]).encode()


def plain_manifest(lines: Iterable[ManifestLine]) -> bytes:
    """A manifest as `sha256sum` writes it."""
    return "".join(map(plain_line, lines)).encode()


def plain_line(line: ManifestLine) -> str:
    """A line of `sha256sum`, which begins with a backslash where its name has one."""
    path = "/".join(line.path)
    escaped = path.translate(BACKSLASH)
    return f"{'' if escaped == path else chr(92)}{line.sha256.hex()}  {escaped}\n"


# ---- read

BAG_END, PLAIN_END = re.compile("\r\n|\r|\n"), re.compile("\r?\n")
"""How a line ends: in a bag by any of three; in names both forms write such characters otherwise."""

BAG_LINE = re.compile(r"([0-9A-Fa-f]{64})[ \t]+(?:\*(?=data/))?(.+)", re.DOTALL)
"""An asterisk before a path of the payload is the mark of older tools for binary files, and is none of the path."""
PLAIN_LINE = re.compile(r"(\\?)([0-9A-Fa-f]{64}) [ *](.+)", re.DOTALL)
ENCODED = re.compile(r"%(0[AaDd]|25)")
ESCAPED_LETTER = re.compile(r"\\(.?)", re.DOTALL)
UNESCAPED = {"\\": "\\", "n": "\n", "r": "\r"}


def read_manifest(data: bytes, bag: bool) -> Tuple[List[ManifestLine], List[str]]:
    """The lines of a manifest, and what is wrong with those that are none. Of these the first ones are named, and the others counted."""
    lines: List[ManifestLine] = []
    faults: List[str] = []
    more = 0
    try:
        text = data.decode()
    except UnicodeDecodeError:
        return [], ["it is not UTF-8"]
    for number, row in enumerate(manifest_rows(text, bag), 1):
        if not row:
            continue
        found = bag_row(row) if bag else plain_row(row)
        if found is not None:
            lines.append(found)
        elif len(faults) < FAULTS_NAMED:
            faults.append(f"line {number} is none of a manifest")
        else:
            more += 1
    return lines, faults + ([f"after these, {more:,} more of its lines are none"] if more else [])


def manifest_rows(text: str, bag: bool) -> Iterator[str]:
    """The lines of a text one by one, as it may have more of them than fit into memory at once."""
    at = 0
    for end in (BAG_END if bag else PLAIN_END).finditer(text):
        yield text[at : end.start()]
        at = end.end()
    yield text[at:]


def bag_row(row: str) -> "ManifestLine | None":
    """What a line of a bag's manifest says."""
    found = BAG_LINE.fullmatch(row)
    if found is None:
        return None
    return manifest_line(found[1], ENCODED.sub(lambda code: chr(int(code[1], 16)), found[2]))


def plain_row(row: str) -> "ManifestLine | None":
    """What a line of `sha256sum` says."""
    found = PLAIN_LINE.fullmatch(row)
    if found is None:
        return None
    name = found[3]
    if found[1]:
        if any(code not in UNESCAPED for code in ESCAPED_LETTER.findall(name)):
            return None
        name = ESCAPED_LETTER.sub(lambda code: UNESCAPED[code[1]], name)
    return manifest_line(found[2], name)


def manifest_line(digits: str, name: str) -> "ManifestLine | None":
    """The line of a digest and a path; None where that is no path below the manifest's directory."""
    names = tuple(part for part in name.split("/") if part != ".")
    if not names or any(name_fault(part) is not None for part in names):
        return None
    return ManifestLine(bytes.fromhex(digits), names)


__all__ = [
    "BAG_DECLARATION", "BAG_END", "BAG_INFO", "DECLARATION", "LONGEST_MANIFEST", "LONGEST_WRITTEN", "MANIFEST", "MANIFESTS", "ManifestLine",
    "PAYLOAD_FOLDER", "TAG_FILES", "TAG_MANIFEST", "bag_manifest", "manifest_rows", "plain_manifest", "read_manifest",
]
