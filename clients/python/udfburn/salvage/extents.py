"""Where the bytes of a file are whose descriptor blocks (ECMA-167 4/14.5) are damaged, by them and by its earlier entries."""

from __future__ import annotations

from typing import Dict, Iterable, NamedTuple, Sequence

from ..protocol.units import BlockNumber, Size
from ..reader.basics import EXTENT_BYTES, UNUSED, blocks_of
from ..reader.descriptors import DescriptorBlock, is_list, said_firsts
from ..reader.entry import Entry, extent_count, extent_size, own_extents


class EarlierEntry(NamedTuple):
    """An earlier entry of the same file, and its descriptor blocks."""

    entry: Entry
    blocks: Sequence[DescriptorBlock]


def whole_entry(entry: Entry, blocks: Sequence[DescriptorBlock], earlier: Iterable[EarlierEntry]) -> Entry:
    """An entry with all of its extents, by its descriptor blocks, or where one is damaged, by the newest earlier entries that have them:
    an append leaves all extents where they are. An extent that nothing says has UNUSED as its first block."""
    own, count = own_extents(entry.size), extent_count(entry.size)
    certain = said(blocks, True)
    missing = set(range(own, count)) - certain.keys()
    if missing:
        for older in earlier:
            if not is_beginning(older.entry, entry):
                break
            known = said(older.blocks, True)
            known.update({index: extent.first for index, extent in enumerate(older.entry.extents)})
            certain.update({index: known[index] for index in missing & known.keys() if has_all_of(index, older.entry.size, entry.size)})
            missing -= certain.keys()
            if not missing or all(block.proved for block in older.blocks):
                # Those before it have fewer extents.
                break
    for block in blocks:
        if missing.intersection(block.extents):
            certain.update(mended_firsts(entry, block, certain))
            missing -= certain.keys()
    doubted = said(blocks, False)
    others = [certain.get(index, doubted.get(index, UNUSED)) for index in range(own, count)]
    return entry._replace(others=entry.others[: own - 1] + tuple(others), proved=entry.proved and not missing)


def said(blocks: Sequence[DescriptorBlock], proved: bool) -> Dict[int, BlockNumber]:
    """Where extents begin, by descriptor blocks; by those alone that are proved, or by all."""
    found: Dict[int, BlockNumber] = {}
    for block in blocks:
        if block.firsts is not None and (block.proved or not proved):
            found.update(zip(block.extents, block.firsts))
    return found


def mended_firsts(entry: Entry, block: DescriptorBlock, certain: Dict[int, BlockNumber]) -> Dict[int, BlockNumber]:
    """Where the extents of a damaged descriptor block begin, by what is certain, else by the block: where its CRC agrees with that. The data of
    the last extent of a file ends where its descriptor blocks begin."""
    if not block.data or entry.descriptors is None:
        return {}
    firsts = [certain.get(index, first) for index, first in zip(block.extents, said_firsts(block.data, len(block.extents)))]
    last = block.extents[-1]
    before = BlockNumber(entry.descriptors - blocks_of(extent_size(entry.size, last)))
    for known in (firsts, [*firsts[:-1], before] if last == extent_count(entry.size) - 1 else firsts):
        if is_list(block.data, block.number, entry.size, block.extents, known):
            return dict(zip(block.extents, known))
    return {}


def is_beginning(older: Entry, entry: Entry) -> bool:
    """Whether a file was appended to since an earlier entry of it: the extents of that are the first ones of the file."""
    own = own_extents(entry.size)
    return older.size <= entry.size and own <= len(older.others) + 1 and older.first == entry.first and older.others[: own - 1] == entry.others[: own - 1]


def has_all_of(index: int, older: Size, size: Size) -> bool:
    """Whether an earlier entry of a file of so many bytes has all bytes of an extent."""
    return older == size or EXTENT_BYTES * (index + 1) <= older


def all_but_last(entry: Entry) -> "Entry | None":
    """An entry whose last extent alone is not known, without it; None where there is another one that is not."""
    *before, last = entry.extents or (None,)
    if last is None or last.is_known or not all(extent.is_known for extent in before):
        return None
    return entry._replace(size=Size(EXTENT_BYTES * len(before)), others=entry.others[:-1])


__all__ = ["EarlierEntry", "all_but_last", "whole_entry"]
