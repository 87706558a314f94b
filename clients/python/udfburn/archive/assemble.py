"""Makes one good image of several that are damaged, where together they have every block.

Blocks on which all agree are taken as they are. The others are told apart by how many images have them, and by the digests of the files.
What comes out counts only if its SHA-256 is that of the volume as it was closed.
"""

from __future__ import annotations

import os
from collections import Counter
from contextlib import ExitStack
from hashlib import sha256
from itertools import product
from typing import List, NamedTuple, Optional, Sequence, Tuple

from ..base.beneath import open_own
from ..base.own_files import from_top, remove
from ..protocol import limits
from ..reader.basics import address_of
from .contents import Contents
from .errors import VolumeDiffers
from .remotes import Print, print_of_file

COMPARED_BYTES = 512 * limits.BLOCK
"""Bytes that are compared at once."""

TRIALS = 64
"""Choices that are tried, at most, where neither counts nor digests decide."""

LOOKS = 400
"""Times that the files are compared, at most."""

FILE_TRIALS, BYTES_TRIED = 1 << 14, 1 << 35
"""Choices that are tried for one file that is damaged in several places, at most, and the bytes that are read for it."""


class DifferingRun:
    """Blocks in a row on which images differ, and what each of them has there, the likeliest first."""

    def __init__(self, at: int, variants: List[bytes], decided: bool):
        self.at, self.variants, self.decided = at, variants, decided


def read_at(descriptor: int, count: int, at: int) -> Optional[bytes]:
    """So many bytes of an image; None where it ends before, or the disk does not give them."""
    try:
        data = os.pread(descriptor, count, at)
    except OSError:
        return None
    return data if len(data) == count else None


def write_at(descriptor: int, data: bytes, at: int) -> None:
    """Writes all of a piece."""
    view = memoryview(data)
    while view:
        count = os.pwrite(descriptor, view, at)
        view, at = view[count:], at + count


def blocks_at(descriptor: int, count: int, at: int) -> List[Optional[bytes]]:
    """The blocks of a piece, one by one where the piece cannot be read as a whole."""
    whole = read_at(descriptor, count, at)
    places = range(0, count, limits.BLOCK)
    if whole is not None:
        return [whole[place : place + limits.BLOCK] for place in places]
    return [read_at(descriptor, min(limits.BLOCK, count - place), at + place) for place in places]


def likeliest(found: Sequence[bytes]) -> "tuple[List[bytes], bool]":
    """What images have at one place, those that most have first and those without a byte last; and whether the first is surely meant."""
    counts = Counter(found)
    ordered = sorted(counts, key=lambda data: (not any(data), -counts[data]))
    first = counts[ordered[0]]
    return ordered, len(ordered) == 1 or first > 1 and all(counts[other] < first for other in ordered[1:])


def compared(descriptors: Sequence[int], length: int, target: int) -> Optional[List[DifferingRun]]:
    """Writes an image of the likeliest blocks; gives the runs on which the images differ, or None where no image has a block."""
    runs: List[DifferingRun] = []
    for at in range(0, length, COMPARED_BYTES):
        count = min(COMPARED_BYTES, length - at)
        pieces = [blocks_at(descriptor, count, at) for descriptor in descriptors]
        likely: List[bytes] = []
        for index, found in enumerate(zip(*pieces)):
            there = [data for data in found if data is not None]
            if not there:
                return None
            ordered, decided = likeliest(there)
            place = at + index * limits.BLOCK
            likely.append(ordered[0])
            if len(ordered) > 1:
                last = runs[-1] if runs else None
                joined = last is not None and last.at + len(last.variants[0]) == place and len(last.variants) == len(ordered) and last.decided == decided
                if joined and last is not None:
                    # Neighbours are damaged together: the images keep their order by the bytes that came before.
                    last.variants = [one + two for one, two in zip(last.variants, matched(last, found, ordered, place, descriptors))]
                else:
                    runs.append(DifferingRun(place, ordered, decided))
        write_at(target, b"".join(likely), at)
    return runs


def matched(run: DifferingRun, found: Sequence[Optional[bytes]], ordered: List[bytes], place: int, descriptors: Sequence[int]) -> List[bytes]:
    """The variants of a block in the order of those of the run before it, by the images that have them."""
    chosen: List[bytes] = []
    for variant in run.variants:
        owners = [index for index, descriptor in enumerate(descriptors) if read_at(descriptor, len(variant), run.at) == variant]
        mine = [found[index] for index in owners if found[index] is not None and found[index] not in chosen]
        left = [data for data in ordered if data not in chosen]
        chosen.append(mine[0] if mine and mine[0] is not None else left[0])
    return chosen


def badness(path: str) -> int:
    """How many files of an image do not have their digests, by its manifest; more than any volume has where it cannot be read."""
    try:
        with Contents(path) as contents:
            manifest = contents.manifest()
            nodes = [contents.nodes.get(name) for name in manifest]
            bad = sum(1 for node, digest in zip(nodes, manifest.values()) if node is None or contents.sha256_of(node) != digest)
            return bad + (0 if manifest else limits.NODES)
    except VolumeDiffers:
        return 2 * limits.NODES


def assembled(images: Sequence[str], wanted: Print, target: str) -> bool:
    """Makes the image that has this length and digest, if the images together have its blocks. Whether it is there."""
    with ExitStack() as stack:
        descriptors = [open_own(image) for image in images]
        for descriptor in descriptors:
            stack.callback(os.close, descriptor)
        remove(target)
        place = stack.enter_context(from_top(target))
        new = place.root.new_file(place.names, 0o600)
        stack.callback(os.close, new)
        runs = compared(descriptors, wanted.length, new)
        if runs is None:
            return False
        open_runs = [run for run in runs if not run.decided]
        if print_of_file(target) != wanted and not decided(target, new, open_runs, wanted):
            return False
        os.fsync(new)
    return print_of_file(target, fresh=True) == wanted


def decided(target: str, new: int, runs: List[DifferingRun], wanted: Print) -> bool:
    """Chooses what each run has by the digests of the files; what no digest tells apart is tried."""
    least, looks = badness(target), 1
    left: List[DifferingRun] = []
    for run in runs:
        best, told = run.variants[0], False
        for variant in run.variants[1:]:
            if looks >= LOOKS:
                break
            write_at(new, variant, run.at)
            found, looks = badness(target), looks + 1
            told = told or found != least
            if found < least:
                least, best = found, variant
        write_at(new, best, run.at)
        if not told:
            left.append(run)
    left = without_those_of_files(target, new, left)
    choices = 1
    for run in left:
        choices *= len(run.variants)
    for variants in product(*[run.variants for run in left]) if choices <= TRIALS else ():
        for run, variant in zip(left, variants):
            write_at(new, variant, run.at)
        if print_of_file(target) == wanted:
            return True
    return print_of_file(target) == wanted


class FileOnImage(NamedTuple):
    """A file of the image: its SHA-256, and where its bytes are, each piece with its place and its length in bytes."""

    sha256: bytes
    pieces: List[Tuple[int, int]]

    def has(self, run: DifferingRun) -> bool:
        """Whether a run is in it."""
        return any(run.at < at + length and at < run.at + len(run.variants[0]) for at, length in self.pieces)

    def is_right(self, descriptor: int) -> bool:
        """Whether an image has its bytes."""
        whole = sha256()
        for at, length in self.pieces:
            whole.update(read_at(descriptor, length, at) or b"")
        return whole.digest() == self.sha256


def listed_files(path: str) -> List[FileOnImage]:
    """The files that a manifest of the image lists, as far as it can be read."""
    try:
        with Contents(path) as contents:
            nodes = [(contents.nodes.get(name), digest) for name, digest in contents.manifest().items()]
            return [
                FileOnImage(digest, [(address_of(extent.first) * limits.BLOCK, extent.size) for extent in node.extents])
                for node, digest in nodes if node is not None
            ]
    except VolumeDiffers:
        return []


def without_those_of_files(target: str, new: int, runs: List[DifferingRun]) -> List[DifferingRun]:
    """Chooses what runs have that are in one file: a single one of them does not make it right. Gives the others."""
    for file in listed_files(target):
        own = [run for run in runs if file.has(run)]
        if own and settled(new, file, own):
            runs = [run for run in runs if run not in own]
    return runs


def settled(new: int, file: FileOnImage, runs: List[DifferingRun]) -> bool:
    """Tries what each run of a file may have, the likeliest first. Whether the file has its digest then."""
    choices = 1
    for run in runs:
        choices *= len(run.variants)
    if choices > FILE_TRIALS or choices * sum(length for _, length in file.pieces) > BYTES_TRIED:
        return False
    for chosen in sorted(product(*[range(len(run.variants)) for run in runs]), key=sum):
        for run, index in zip(runs, chosen):
            write_at(new, run.variants[index], run.at)
        if file.is_right(new):
            return True
    for run in runs:
        write_at(new, run.variants[0], run.at)
    return False


__all__ = ["assembled"]
