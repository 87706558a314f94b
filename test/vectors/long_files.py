"""Media with a file in several extents, and with descriptor blocks (volume.txt)."""

import entries
import layouts
from layouts import BLOCK, EXTENT, changed, descriptor_block, file_entry, leading, long_ad, several
from media import A, IDENTITY, RANGE, SAID, directory, entry_of_table, root_entry, told, used, words
from writing import Vectors, padded, repeated


def extents(v: Vectors) -> None:
    v.about("A file in two extents, one of a mebibyte and one of a byte. Both must end below the VAT ICB, which has the block number 522.")
    size = EXTENT + 1
    for name, firsts, is_below in [("a-file-in-two-extents", (5, 517), True), ("a-first-extent-up-to-the-vat-icb", (10, 5), True),
                                   ("a-last-extent-up-to-the-vat-icb", (5, 521), True), ("a-first-extent-past-the-vat-icb", (11, 5), False),
                                   ("a-last-extent-past-the-vat-icb", (5, 522), False)]:
        blocks = [file_entry("file", 1, 16, size, several(size, *firsts), 2), directory(519, 1, A), root_entry(1, 80, 519), used([0, 520, 518]),
                  entry_of_table(208, 521, 522)]
        answer = SAID.replace("entries 0 7 5", "entries 0 520 518") if is_below else told((775, RANGE))
        v.case(name, "", "bytes {formatted}", f"bytes 00*{513 * BLOCK} " + words(blocks), "last -> 779", f"state 779 -> {answer}")


MANY = (118, 119, 241, 242, 243, 244, 367, 368, 879)
"""Counts of extents with one to seven descriptor blocks, each full and with one extent more."""


def blocks_of_descriptors(size: int, number: int, first: int = 5) -> "list[bytes]":
    """The descriptor blocks of a file of so many bytes from a block number on. Its extents all begin at one block number."""
    ads = [long_ad(min(size - index * EXTENT, EXTENT), first) for index in range(116, -(-size // EXTENT))]
    blocks: "list[bytes]" = []
    while len(ads) > 126:
        blocks.append(descriptor_block(number + len(blocks), ads[:125] + [leading(number + len(blocks) + 1)]))
        ads = ads[125:]
    return blocks + [descriptor_block(number + len(blocks), ads)]


def long_entry(size: int, next_: int, first: int = 5, unique: int = 16) -> bytes:
    """The entry of the file `a` whose descriptor blocks begin at a block number."""
    return file_entry("file", 1, unique, size, [long_ad(EXTENT, first)] * 116 + [leading(next_)], 2)


def listed(blocks: "list[bytes]") -> str:
    """The words of blocks of which some have lists of descriptors."""
    begins = {b"\x05\x01": 176, b"\x02\x01": 24}
    return " ".join(repeated(data, begins[data[:2]]) if data[:2] in begins else padded(data) for data in blocks)


def _long(v: Vectors, name: str, lists: "list[bytes]", entry: "bytes | None", seen: "tuple[int, int] | None", size: int = 0,
          behind: "list[bytes]" = []) -> None:
    """A mebibyte of zeros from the block number 5 on, descriptor blocks at 517, the entry, and what leads to it; then other blocks, and the
    VAT ICB. The extents all begin with block 5."""
    at = 517 + len(lists)
    icb = at + 4 + len(behind)
    blocks = [*lists, entry or long_entry(size, 517), directory(at + 1, 1, A), root_entry(1, 80, at + 1), used([0, at + 2, at]), *behind,
              entry_of_table(208, at + 3, icb)]
    answer = told(seen) if seen else SAID.replace("entries 0 7 5", f"entries 0 {at + 2} {at}")
    v.case(name, "", "bytes {mebibyte} " + listed(blocks), f"last -> {icb + 257}", f"state {icb + 257} -> {answer}",
           f"states {icb + 257} 261 -> {told(seen) or 'commits 1'} ; commits 0")


def descriptors(v: Vectors) -> None:
    v.about("A file with descriptor blocks, whose extents all begin with the block number 5. The first descriptor block is at 517, the address 774.")
    v.let("mebibyte", "{formatted} 00*%d" % EXTENT)
    for count in MANY:
        for ends, size in (("whole", count * EXTENT), ("of-a-byte", (count - 1) * EXTENT + 1)):
            lists = blocks_of_descriptors(size, 517)
            assert len(lists) == -(-(count - 117) // 125)
            _long(v, f"a-file-in-{count}-extents-the-last-{ends}", lists, None, None, size)
    size = 243 * EXTENT
    lists = blocks_of_descriptors(size, 517)
    assert len(lists) == 2
    _descriptors_range(v, size, lists)
    v.about("A descriptor block that is not as it must be is reported at its address, the first of two.")
    tag, fixed, lengths, wrong, tail = entries.TAG, entries.FIXED, entries.LENGTHS, entries.EXTENT, entries.TAIL
    faults: "list[tuple[int, str, list[bytes]]]" = []
    for index, of in enumerate(lists):
        def with_(block_: bytes) -> "list[bytes]":
            return lists[:index] + [block_] + lists[index + 1 :]
        end = 24 + int.from_bytes(of[20:24], "little")
        faults += [
            (tag, "a-byte", with_(changed(of, [(100 if index == 0 else 40, 1)]))), (tag, "of-zeros", with_(bytes(BLOCK))),
            (tag, "of-another-number", with_(layouts.seal(258, 516, of[:end]) + of[end:])), (tag, "the-other-one", with_(lists[1 - index])),
            (fixed, "the-previous-one", with_(layouts.block(layouts.seal(258, 517 + index, changed(of[:end], [(16, 4)]))))),
            (lengths, "a-descriptor-less", with_(descriptor_block(517 + index, [long_ad(EXTENT, 5)] * ((end - 24) // 16 - 1)))),
            (wrong, "an-extent", with_(layouts.block(layouts.seal(258, 517 + index, changed(of[:end], [(26, 0)]))))),
            (tail, "a-byte-after-it", with_(changed(of, [(2047, 1)]))),
        ]
        for fault, name, blocks in faults[-8:]:
            _long(v, f"descriptor-block-{index + 1}-{name}", blocks, None, (774 + index, fault), size)
    _long(v, "descriptor-block-1-leads-to-another", [descriptor_block(517, [long_ad(EXTENT, 5)] * 125 + [leading(517)]), lists[1]], None, (774, wrong), size)
    _long(v, "both-descriptor-blocks", [changed(block_, [(2047, 1)]) for block_ in lists], None, (774, tail), size)
    _long(v, "both-descriptor-blocks-with-other-faults", [changed(lists[0], [(2047, 1)]), bytes(BLOCK)], None, (774, tail), size)
    _long(v, "descriptor-blocks-of-a-greater-file", blocks_of_descriptors(size + EXTENT, 517), None, (775, lengths), size)
    _long(v, "descriptor-blocks-of-a-byte-less", blocks_of_descriptors(size - 1, 517), None, (775, wrong), size)
    v.about("What is reported first: the entry itself, the place of the descriptor blocks, these, what the directory says, the place of the extents.")
    broken = [changed(lists[0], [(2047, 1)]), lists[1]]
    _long(v, "an-entry-before-its-descriptor-block", broken, changed(long_entry(size, 517), [(60, 1)]), (776, tag))
    _long(v, "a-descriptor-block-before-another-unique-id", broken, long_entry(size, 517, unique=15), (774, tail))
    _long(v, "a-descriptor-block-before-the-extents-place", broken, long_entry(size, 517, 13), (774, tail))
    _long(v, "the-descriptor-blocks-place-before-another-unique-id", lists, long_entry(size, 522, unique=15), (776, RANGE))
    _long(v, "another-unique-id-of-a-file-with-descriptor-blocks", lists, long_entry(size, 517, unique=15), (776, IDENTITY))


def _descriptors_range(v: Vectors, size: int, lists: "list[bytes]") -> None:
    v.about("Descriptor blocks and extents must end below the VAT ICB, which has the block number 523, or 525 where the two descriptor blocks are after "
            "the table; else this is reported at the entry (72), the address 776 or 774.")
    _long(v, "descriptor-blocks-up-to-the-vat-icb", [], long_entry(size, 521), None, behind=blocks_of_descriptors(size, 521))
    for number in (522, 523, 1_000, 449_741):
        _long(v, f"descriptor-blocks-past-the-vat-icb-at-{number}", lists, long_entry(size, number), (776, RANGE))
    _long(v, "a-last-descriptor-block-past-the-vat-icb", [], long_entry(size, 521), (774, RANGE), behind=lists[:1])
    for first, is_below in ((11, True), (12, False)):
        where = "up-to" if is_below else "past"
        _long(v, f"an-extent-of-the-entry-{where}-the-vat-icb", lists, long_entry(size, 517, first), None if is_below else (776, RANGE))
        for index in (0, 1):
            moved = list(lists)
            moved[index] = blocks_of_descriptors(size, 517, first)[index]
            _long(v, f"an-extent-of-descriptor-block-{index + 1}-{where}-the-vat-icb", moved, None, None if is_below else (776, RANGE), size)
    last = 242 * EXTENT + 1
    for first, is_below in ((522, True), (523, False)):
        one = descriptor_block(518, [long_ad(EXTENT, 5), long_ad(1, first)])
        where = "up-to" if is_below else "past"
        _long(v, f"a-last-extent-of-a-descriptor-block-{where}-the-vat-icb", [lists[0], one], None, None if is_below else (776, RANGE), last)
