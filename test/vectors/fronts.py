"""Volume headers (front.txt)."""

import layouts
from layouts import Changes, PARTITION_START, changed, front, front_block, seal
from writing import Vectors, padded

OLD = "codec_tests::front::"
FIRST = "codec_tests::first_faults::"
LATER = "recover_tests::relations::"

PRIMARY, PARTITION = 1, 5

CHECKS = [(16, 0x7770), (32, 0x2224), (33, 0xB46D), (34, 0x1F53), (35, 0xF879), (36, 0x8784), (37, 0xFDC1), (64, 0x457C), (256, 0x15CA)]


def resealed(block: bytes, identifier: int, location: int, changes: Changes) -> bytes:
    """The descriptor of 512 bytes with these changes, sealed again after those that are not in the tag."""
    data = changed(block, [change for change in changes if change[0] >= 16])
    return changed(seal(identifier, location, data[:512]) + data[512:], [change for change in changes if change[0] < 16])


def fronts() -> Vectors:
    v = Vectors("front.txt", "Volume headers: blocks 0 to 256 of a volume (docs/FORMAT.md, The volume header; ECMA-167 2/9.1 and 3/10; UDF 2.01 2.2). `front` reads "
                "all of them. A fault names the first field of block 32 or 34 that says nothing, else the first byte that is not as the three "
                "words of the header have it. `front` is the header of a volume of 3,000 blocks.")
    v.let("front", padded(front()))
    _sound(v)
    _faults(v)
    _order(v)
    return v


def _put(block: int, data: bytes) -> str:
    return f"put {block} {padded(data)}"


def _front(v: Vectors, name: str, of: str, puts: "list[str]", answer: str) -> None:
    v.case(name, of, "bytes {front}", *puts, f"front -> {answer}")


def _sound(v: Vectors) -> None:
    v.about("The header of a volume of 3,000 blocks with the label `DISC` and the moment 0, then the CRC of each of its blocks.")
    of = " ".join([OLD + "blocks_of_a_front", OLD + "the_first_difference", FIRST + "of_a_front"])
    _front(v, "a-front", of, [], 'label "DISC" moment 0 capacity 3000')
    for number, check in CHECKS:
        block = front_block(number, "DISC", 0, 3_000)
        assert layouts.crc(block) == check
        v.case(f"block-{number}", OLD + "blocks_of_a_front", "bytes " + padded(block), f"crc -> {check:04X}")
    v.about("The least volume, and the largest one with another moment: 1,234,567 is 12D687 hex in the volume set identifier, and its partition "
            "has 6DCCF hex blocks.")
    v.case("the-least-volume", OLD + "a_front_is_read", "bytes " + padded(front("DISC", 0, 512)), 'front -> label "DISC" moment 0 capacity 512')
    large = front("DISC", 1_234_567, 450_000)
    primary, partition, recognition = large[48 * 2048 :], large[50 * 2048 :], large[17 * 2048 :]
    assert primary[24:29] == b"\x08DISC" and primary[72:94] == b"\x08000000000012d687DISC\0" and primary[380:388] == bytes([1, 1, 0, 0, 1, 23, 45, 67])
    assert partition[188:196] == bytes([1, 1, 0, 0, 0xCF, 0xDC, 6, 0]) and recognition[:8] == b"\0NSR03\x01\0"
    v.case("the-largest-volume", OLD + "fields_of_a_front", "bytes " + padded(large), 'front -> label "DISC" moment 1234567 capacity 450000')
    assert len(large) == PARTITION_START * 2048


def _faults(v: Vectors) -> None:
    v.about("Fields of block 32 and block 34 that can not be read: the tag, the label, the moment; the tag and the length, which is from 255 to "
            "449,743.")
    primary, partition = front_block(32, "DISC", 0, 3_000), front_block(34, "DISC", 0, 3_000)
    of = OLD + "fields_that_can_not_be_read"
    _front(v, "no-primary-descriptor", of, ["put 32 00"], "fault block 32 byte 0")
    _front(v, "no-label", of, [_put(32, resealed(primary, PRIMARY, 32, [(24, 9)]))], "fault block 32 byte 24")
    _front(v, "no-moment", of, [_put(32, resealed(primary, PRIMARY, 32, [(378, 0)]))], "fault block 32 byte 376")
    _front(v, "another-descriptor-for-the-partition", of, [_put(34, primary)], "fault block 34 byte 0")
    for name, changes in [("short", [(192, 0xFE), (193, 0)]), ("long", [(192, 0xD0), (193, 0xDC), (194, 6)])]:
        _front(v, f"a-partition-too-{name}", of, [_put(34, resealed(partition, PARTITION, 34, changes))], "fault block 34 byte 192")
    v.about("Other bytes: a copy in the place of its original differs in the checksum of its tag, a block that is not written in its first byte.")
    of = OLD + "the_first_difference"
    _front(v, "a-block-in-the-place-of-its-copy", of, [_put(49, front_block(33, "DISC", 0, 3_000))], "fault block 49 byte 4")
    _front(v, "a-block-of-zeros", of, ["put 33 00"], "fault block 33 byte 0")
    for number, place in [(0, 0), (16, 2047), (32, 30), (34, 192), (64, 80), (256, 16)]:
        flipped = bytearray(front_block(number, "DISC", 0, 3_000))
        flipped[place] ^= 1
        at = 0 if number in (32, 34) else place
        _front(v, f"bit-{number}-{place}", LATER + "the_front_is_held_byte_by_byte", [_put(number, bytes(flipped))], f"fault block {number} byte {at}")
    v.about("Descriptors with other words, whose CRC is made good: no month, another label than in the set's identifier, no label; capacities that "
            "the other copy does not have.")
    of = LATER + "the_front_has_one_label_moment_and_capacity"
    for number, identifier, changes, told, at in CHANGED:
        block = resealed(front_block(number, "DISC", 0, 3_000), identifier, number, changes)
        name = "-".join(f"{place}-{byte:02x}" for place, byte in changes)
        _front(v, f"block-{number}-{name}", of, [_put(number, block)], f"fault block {told} byte {at}")


# Changes of a block of the volume header: the block, the descriptor, the bytes, and where the fault is reported.
CHANGED: "list[tuple[int, int, Changes, int, int]]" = [
    (32, 1, [(380, 13)], 32, 376), (32, 1, [(28, ord("K"))], 32, 4), (32, 1, [(24, 7)], 32, 24), (34, 5, [(192, 254), (193, 0)], 34, 192),
    (34, 5, [(192, 0xD0), (193, 0xDC), (194, 6)], 34, 192), (34, 5, [(192, 0xB6)], 50, 4), (34, 5, [(192, 0xCF), (193, 0xDC), (194, 6)], 50, 4),
    (50, 5, [(192, 0xB6)], 50, 4),
]


def _order(v: Vectors) -> None:
    v.about("The first of two faults: each with the next one of the order.")
    rows: "list[tuple[int, int, Changes]]" = [
        (32, 0, [(12, 33)]), (32, 24, [(24, 9)]), (32, 376, [(378, 0)]), (34, 0, [(12, 33)]), (34, 192, [(192, 0xFE), (193, 0)]),
        (0, 5, [(5, 1)]), (16, 3, [(3, 0)]), (16, 9, [(9, 1)]),
    ]
    of = FIRST + "of_a_front"
    for block, at, changes in rows:
        _front(v, f"one-fault-{block}-{at}", of, _damaged([(block, changes)]), f"fault block {block} byte {at}")
    for (block, at, one), (other, place, more) in zip(rows, rows[1:]):
        _front(v, f"faults-{block}-{at}-and-{other}-{place}", of, _damaged([(block, one), (other, more)]), f"fault block {block} byte {at}")


def _damaged(made: "list[tuple[int, Changes]]") -> "list[str]":
    puts = []
    for number in sorted({block for block, _ in made}):
        changes = [change for block, row in made if block == number for change in row]
        block = front_block(number, "DISC", 0, 3_000)
        if number in (32, 34):
            puts.append(_put(number, resealed(block, PRIMARY if number == 32 else PARTITION, number, changes)))
        else:
            puts.append(_put(number, changed(block, changes)))
    return puts
