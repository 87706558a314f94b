"""Descriptor blocks: the allocation descriptors of a file that its entry has no room for (descriptors.txt)."""

from typing import List, Tuple

from layouts import BLOCK, Changes, DESCRIPTOR_ROOM, DESCRIPTORS, ENTRY, EXTENT, GREATEST, LAST, changed, descriptor_block, leading, long_ad, seal
from writing import Vectors, digits, repeated

# The faults of a descriptor block, as `67 Damaged` shows them.
TAG, FIXED, LENGTHS, AD, TAIL = 21, 24, 25, 26, 27

NUMBER = 900
HEAD = 24
KIND = 1 << 30


def rest(count: int, last: int = EXTENT) -> int:
    """The bytes in so many extents, of which the last has so many."""
    return (count - 1) * EXTENT + last


def apart(size: int, first: int = 10) -> "list[bytes]":
    """The descriptors of the extents of so many bytes, the first one at a block number and each other one 600 blocks behind."""
    count = -(-size // EXTENT)
    return [long_ad(min(size - index * EXTENT, EXTENT), first + 600 * index) for index in range(count)]


def here(size: int, number: int = NUMBER, first: int = 10) -> "list[bytes]":
    """Those that the block of a number has, which leads on to the next number if it has no room for all."""
    every = apart(size, first)
    if len(every) <= DESCRIPTOR_ROOM:
        return every
    return every[: DESCRIPTOR_ROOM - 1] + [leading(number + 1)]


FIRST_125 = b"".join(apart(rest(125)))
"""The descriptors of the first 125 extents of those that are 600 blocks apart."""


SAID_125 = " ".join(str(10 + 600 * index) for index in range(125))


def said(size: int, number: int = NUMBER, first: int = 10) -> str:
    """What the block of `here` says."""
    count = -(-size // EXTENT)
    own = count if count <= DESCRIPTOR_ROOM else DESCRIPTOR_ROOM - 1
    numbers = " ".join(str(first + 600 * index) for index in range(own))
    return f"extents {numbers.replace(SAID_125, '{first-125}')}" + (f" next {number + 1}" if own < count else "")


def resealed(block: bytes, changes: Changes, end: int, location: int = NUMBER, identifier: int = DESCRIPTORS) -> bytes:
    """The block with some bytes changed and its descriptor, which ends there, sealed again."""
    data = changed(block, changes)
    return seal(identifier, location, data[:end]) + data[end:]


def descriptors() -> Vectors:
    v = Vectors("descriptors.txt", "Descriptor blocks (ECMA-167 4/14.5): allocation extent descriptors, each a block. `descriptors NUMBER "
                "SIZE` reads the one at a block number, with the descriptors of the extents of SIZE bytes, those of a file that do not come "
                "before. It has all of them if they are at most 126, else 125 and one that leads to the next block number. Faults: 21 the "
                "tag, 24 the previous one, which is always 0, 25 the length of the descriptors, 26 a descriptor, 27 bytes after the last one.")
    v.let("first-125", digits(FIRST_125))
    v.words("first-125", SAID_125)
    _sound(v)
    _ends(v)
    _tags(v)
    _fields(v)
    _extents(v)
    _leading(v)
    _order(v)
    return v


def _block(v: Vectors, name: str, block: bytes, size: int, answer: str, number: int = NUMBER, flips: str = "") -> None:
    v.case(name, "", "bytes " + repeated(block, HEAD, "first-125", FIRST_125), *([f"flip 0 {flips}"] if flips else []), f"descriptors {number} {size} -> {answer}")


def _fault(v: Vectors, name: str, fault: int, block: bytes, size: int, number: int = NUMBER) -> None:
    _block(v, name, block, size, f"fault {fault}", number)


def _sound(v: Vectors) -> None:
    v.about("Sound ones: so many extents, of which the last is whole or has one byte.")
    block = descriptor_block(NUMBER, [long_ad(1, 10)])
    assert block[:4] == b"\x02\x01\x03\0" and block[10:12] == b"\x18\0" and block[12:16] == b"\x84\x03\0\0"
    assert block[16:40] == bytes.fromhex("00000000 10000000 01000000 0A000000 0000 000000000000") and not any(block[40:])
    for count in (1, 2, 3, 125, 126, 127, 128, 251, 252, 763):
        for last in (EXTENT, 1):
            size = rest(count, last)
            block = descriptor_block(NUMBER, here(size))
            length = 16 * min(count, 126)
            assert int.from_bytes(block[20:24], "little") == length and int.from_bytes(block[10:12], "little") == 8 + length
            ends = "whole" if last == EXTENT else "of-a-byte"
            _block(v, f"{count}-extents-the-last-{ends}", block, size, said(size))
    v.about("A block that leads on says the same of each size with the same extents in it; one that does not has one size.")
    for name, size in (("the-greatest-file", GREATEST - 116 * EXTENT), ("all-extents-that-a-file-may-have", GREATEST)):
        _block(v, name, descriptor_block(NUMBER, here(size)), size, said(size))
    last = rest(127, 2049)
    _block(v, "the-last-extent-is-in-the-next-block", descriptor_block(NUMBER, here(rest(127))), last, said(last))
    v.about("The number of the block: the first and the last one of the partition, and the number to which the block leads.")
    two, more = rest(2, 5), rest(127)
    for number in (0, 1, 65_535, 65_536, LAST - 1, LAST):
        _block(v, f"two-extents-at-block-{number}", descriptor_block(number, apart(two)), two, said(two), number)
        _block(v, f"a-block-at-block-{number}-that-leads-on", descriptor_block(number, here(more, number)), more, said(more, number), number)


def _ends(v: Vectors) -> None:
    v.about("Extents end with the last block of the largest partition, 449,742, or one behind it.")
    for name, size, length, last in (("of-a-byte", rest(2, 1), 1, LAST), ("of-a-block", rest(2, BLOCK), BLOCK, LAST),
                                     ("of-a-block-and-a-byte", rest(2, BLOCK + 1), BLOCK + 1, LAST - 1), ("that-is-whole", rest(2), EXTENT, LAST - 511)):
        first = long_ad(EXTENT, 10)
        _block(v, f"an-extent-{name}-up-to-the-last-block", descriptor_block(NUMBER, [first, long_ad(length, last)]), size, f"extents 10 {last}")
        _fault(v, f"an-extent-{name}-past-the-partition", AD, descriptor_block(NUMBER, [first, long_ad(length, last + 1)]), size)
    size = rest(2, 1)
    _fault(v, "an-extent-at-the-greatest-number", AD, descriptor_block(NUMBER, [long_ad(EXTENT, 10), long_ad(1, 0xFFFF_FFFF)]), size)
    _fault(v, "an-extent-that-ends-at-2-to-the-32", AD, descriptor_block(NUMBER, [long_ad(EXTENT, 0xFFFF_FE00), long_ad(1, 10)]), size)
    _block(v, "extents-in-the-same-blocks", descriptor_block(NUMBER, [long_ad(EXTENT, 0), long_ad(1, 0)]), size, "extents 0 0")


def _tags(v: Vectors) -> None:
    v.about("What the tag is of: another number, another descriptor, one that the CRC does not cover to its end, or covers past it. A "
            "block with another length of its descriptors than one to 126 have ends after the field with it.")
    size = rest(2, 5)
    block = descriptor_block(NUMBER, apart(size))
    end = HEAD + 32
    _fault(v, "tag-of-another-block", TAG, block, size, NUMBER + 1)
    _fault(v, "tag-of-the-block-before", TAG, block, size, NUMBER - 1)
    for name, identifier in (("a-file-entry", ENTRY), ("a-file-set", 256), ("an-identifier", 257), ("an-allocation-bitmap", 264)):
        _fault(v, f"tag-of-{name}", TAG, resealed(block, [], end, NUMBER, identifier), size)
    for covered in (HEAD, HEAD + 16, end - 1, end + 1, BLOCK):
        _fault(v, f"tag-over-{covered}-bytes", TAG, resealed(block, [], covered), size)
    for at, byte in ((0, 3), (2, 2), (4, block[4] ^ 1), (5, 1), (6, 0), (8, block[8] ^ 1), (10, 0x27), (12, 0x85), (15, 1)):
        _fault(v, f"tag-{at}-{byte:02x}", TAG, changed(block, [(at, byte)]), size)
    for at in (16, 19, 20, 24, 28, 34, 39, 40, 55):
        _fault(v, f"a-byte-that-the-tag-covers-{at}", TAG, changed(block, [(at, block[at] ^ 1)]), size)
    _fault(v, "zeros", TAG, bytes(BLOCK), size)
    full, more = descriptor_block(NUMBER, here(rest(127))), rest(127)
    for name, flipped, asked, ends in (("two", block, size, end), ("126", full, more, HEAD + 2_016)):
        _block(v, f"each-byte-up-to-the-end-of-{name}", flipped, asked, f"fault {TAG}", flips=f"0..{ends}")
        _block(v, f"each-byte-after-{name}", flipped, asked, f"fault {TAIL}", flips=f"{ends}..{BLOCK}")


def _fields(v: Vectors) -> None:
    v.about("The location of a previous one is always 0.")
    size = rest(2, 5)
    own = apart(size)
    block = descriptor_block(NUMBER, own)
    for previous in (1, NUMBER - 1, NUMBER, 1 << 8, 1 << 16, 1 << 24, 0xFFFF_FFFF):
        _fault(v, f"previous-{previous}", FIXED, descriptor_block(NUMBER, own, previous), size)
    v.about("The length of the descriptors: of one more or less, of a part of one, of none, and of more than there is room for.")
    wrong: "List[Tuple[str, int, List[bytes]]]" = [
        ("no-descriptor-of-one", rest(1), []), ("one-descriptor-of-two", size, own[:1]), ("two-descriptors-of-one", rest(1), own),
        ("three-descriptors-of-two", size, own + [long_ad(1, 600)]), ("a-descriptor-of-zeros-more", size, own + [bytes(16)]),
        ("125-descriptors-of-126", rest(126), apart(rest(126))[:125]), ("125-descriptors-of-127", rest(127), apart(rest(127))[:125]),
        ("126-descriptors-of-125", rest(125), apart(rest(126))),
        ("one-that-leads-on-after-125-of-125", rest(125), apart(rest(125)) + [leading(NUMBER + 1)]),
        ("one-that-leads-on-alone", rest(127), [leading(NUMBER + 1)]),
    ]
    for name, asked, listed in wrong:
        _fault(v, name, LENGTHS, descriptor_block(NUMBER, listed), asked)
    for length in (1, 8, 15, 17, 24, 33, 2_017, 2_024, 2_032, 1 << 16, 1 << 24, 0xFFFF_FFE0):
        lengths = list(zip(range(20, 24), length.to_bytes(4, "little")))
        _fault(v, f"length-{length}", LENGTHS, resealed(block, lengths, HEAD), size)
    v.about("Bytes after the last descriptor.")
    for at in (HEAD + 32, HEAD + 33, HEAD + 47, 1_000, BLOCK - 1):
        _fault(v, f"a-byte-after-two-at-{at}", TAIL, changed(block, [(at, 1)]), size)
    full = descriptor_block(NUMBER, here(rest(127)))
    for at in (HEAD + 2_016, BLOCK - 1):
        _fault(v, f"a-byte-after-126-at-{at}", TAIL, changed(full, [(at, 1)]), rest(127))


def _extents(v: Vectors) -> None:
    v.about("Descriptors of another extent than the size has: its length, its kind in the two highest bits, its partition, and what is after "
            "that; and the size of another file.")
    size = rest(3, 5)
    own = apart(size)
    wrong: "List[Tuple[str, int, bytes]]" = [
        ("a-first-of-a-byte-less", 0, long_ad(EXTENT - 1, 10)), ("a-first-of-a-byte-more", 0, long_ad(EXTENT + 1, 10)),
        ("a-first-of-no-byte", 0, long_ad(0, 10)), ("a-second-of-a-block-less", 1, long_ad(EXTENT - BLOCK, 610)),
        ("a-second-of-five-bytes", 1, long_ad(5, 610)), ("a-last-of-a-byte-less", 2, long_ad(4, 1210)),
        ("a-last-of-a-block", 2, long_ad(BLOCK, 1210)), ("a-last-that-is-whole", 2, long_ad(EXTENT, 1210)), ("a-last-of-no-byte", 2, long_ad(0, 1210)),
        ("a-last-that-leads-on", 2, leading(NUMBER + 1)), ("a-first-that-leads-on", 0, leading(NUMBER + 1)),
        ("a-descriptor-of-zeros", 1, bytes(16)),
    ]
    for kind in (1, 2, 3):
        wrong.append((f"a-first-of-kind-{kind}", 0, long_ad(EXTENT | kind * KIND, 10)))
        wrong.append((f"a-last-of-kind-{kind}", 2, long_ad(5 | kind * KIND, 1210)))
    wrong += [("a-first-in-the-virtual-partition", 0, long_ad(EXTENT, 10, 1)), ("a-last-in-partition-256", 2, long_ad(5, 1210, 256)),
              ("a-last-with-flags", 2, long_ad(5, 1210)[:10] + b"\x01\0" + bytes(4)), ("a-last-with-a-unique-id", 2, long_ad(5, 1210, 0, 1)),
              ("a-first-with-a-high-byte", 0, long_ad(EXTENT, 10, 0, 1 << 24))]
    for name, index, one in wrong:
        _fault(v, name, AD, descriptor_block(NUMBER, own[:index] + [one] + own[index + 1 :]), size)
    _fault(v, "the-size-of-a-file-of-a-byte-more", AD, descriptor_block(NUMBER, own), size + 1)
    _fault(v, "the-size-of-a-file-of-a-byte-less", AD, descriptor_block(NUMBER, own), size - 1)
    _fault(v, "extents-in-another-order", AD, descriptor_block(NUMBER, [own[2], own[1], own[0]]), size)
    for index in (62, 124, 125):
        more = apart(rest(126))
        _fault(v, f"one-of-126-at-{index}", AD, descriptor_block(NUMBER, more[:index] + [long_ad(EXTENT - 1, 10)] + more[index + 1 :]), rest(126))


def _leading(v: Vectors) -> None:
    v.about("The descriptor that leads on: its kind is 3, its length 2,048, and its number the next one. It is there only where others follow.")
    size = rest(127)
    own = apart(size)[:125]
    for name, one in [
        ("to-itself", leading(NUMBER)), ("to-the-block-before", leading(NUMBER - 1)), ("to-the-second-after", leading(NUMBER + 2)),
        ("to-block-0", leading(0)), ("to-the-first-extent", leading(10)), ("past-the-partition", leading(LAST + 1)),
        ("by-another-high-byte", leading(NUMBER + 1 + (1 << 24))), ("of-no-byte", long_ad(3 * KIND, NUMBER + 1)),
        ("of-a-byte-less", long_ad(3 * KIND | BLOCK - 1, NUMBER + 1)), ("of-a-byte-more", long_ad(3 * KIND | BLOCK + 1, NUMBER + 1)),
        ("of-two-blocks", long_ad(3 * KIND | 2 * BLOCK, NUMBER + 1)), ("of-an-extent", long_ad(3 * KIND | EXTENT, NUMBER + 1)),
        ("of-kind-0", long_ad(BLOCK, NUMBER + 1)), ("of-kind-1", long_ad(KIND | BLOCK, NUMBER + 1)), ("of-kind-2", long_ad(2 * KIND | BLOCK, NUMBER + 1)),
        ("in-the-virtual-partition", long_ad(3 * KIND | BLOCK, NUMBER + 1, 1)), ("with-a-unique-id", long_ad(3 * KIND | BLOCK, NUMBER + 1, 0, 1)),
        ("that-is-zeros", bytes(16)), ("that-is-the-next-extent", apart(size)[125]),
    ]:
        _fault(v, f"one-that-leads-on-{name}", AD, descriptor_block(NUMBER, own + [one]), size)
    _fault(v, "one-that-leads-on-where-126-are-all", AD, descriptor_block(NUMBER, own + [leading(NUMBER + 1)]), rest(126))
    _fault(v, "126-extents-where-others-follow", AD, descriptor_block(NUMBER, apart(rest(126))), size)
    _fault(v, "one-that-leads-on-before-the-last", AD, descriptor_block(NUMBER, own[:124] + [leading(NUMBER + 1), own[124]]), size)
    _fault(v, "two-that-lead-on", AD, descriptor_block(NUMBER, own[:124] + [leading(NUMBER + 1)] * 2), size)
    _fault(v, "an-extent-before-one-that-leads-on-past-the-partition", AD,
           descriptor_block(NUMBER, own[:124] + [long_ad(EXTENT, LAST - 510), leading(NUMBER + 1)]), size)
    v.about("A block that leads on is for the next number alone: the same block at another number is none, though its tag is made good.")
    _fault(v, "a-block-that-leads-to-itself-by-its-number", AD, resealed(descriptor_block(NUMBER, here(size)), [], HEAD + 2_016, NUMBER + 1), size,
           NUMBER + 1)


def _order(v: Vectors) -> None:
    v.about("The first of several faults: each with each one after it, and each with all after it.")
    size = rest(2, 5)
    block = descriptor_block(NUMBER, apart(size))
    rows: "list[tuple[int, Changes]]" = [(TAG, [(12, 0x85)]), (FIXED, [(16, 1)]), (LENGTHS, [(20, 16)]), (AD, [(32, 1)]), (TAIL, [(BLOCK - 1, 1)])]
    for index, (fault, one) in enumerate(rows):
        _fault(v, f"one-fault-{fault}", fault, _damaged(block, one), size)
        for other, more in rows[index + 1 :]:
            _fault(v, f"faults-{fault}-and-{other}", fault, _damaged(block, one + more), size)
        every = [change for _, changes in rows[index:] for change in changes]
        _fault(v, f"faults-from-{fault}-on", fault, _damaged(block, every), size)
        if fault != TAG:
            _fault(v, f"faults-from-{fault}-on-unsealed", TAIL if fault == TAIL else TAG, changed(block, every), size)
    v.about("Two descriptors of which both are wrong, and one that leads on after a wrong one.")
    _fault(v, "two-wrong-descriptors", AD, descriptor_block(NUMBER, [long_ad(1, 10), long_ad(6, 610)]), size)
    own = apart(rest(127))[:125]
    _fault(v, "a-wrong-descriptor-and-a-wrong-one-that-leads-on", AD,
           descriptor_block(NUMBER, [long_ad(1, 10)] + own[1:] + [leading(NUMBER)]), rest(127))


def _damaged(block: bytes, changes: Changes) -> bytes:
    """The block with these changes, sealed again after those that are not in the tag."""
    data = changed(block, [change for change in changes if change[0] >= 16])
    length = int.from_bytes(data[20:24], "little")
    return changed(resealed(data, [], HEAD + length), [change for change in changes if change[0] < 16])
