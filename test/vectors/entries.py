"""File entries and file set descriptors (entry.txt)."""

import layouts
from layouts import (
    BLOCK, Changes, ENTRY, EXTENT as EXTENT_BYTES, FILE_SET, GREATEST, LAST, changed, file_entry, leading, long_ad, seal, several,
)
from writing import Vectors, digits, padded, repeated

OLD = "codec_tests::entries::"
FIRST = "codec_tests::first_faults::"
LATER = "recover_tests::entries::"

FILE = file_entry("file", 1, 16, 5, b"hello", 2)
ROOT = file_entry("directory", 1, 0, 80, 6, 1)
TABLE = file_entry("table", 0, 0, 256, 8, 9)
SET = layouts.file_set()

# The faults of an entry, as `67 Damaged` shows them.
TAG, STRATEGY, KIND, FIXED, LENGTHS, EXTENT, TAIL = range(21, 28)


def resealed(block: bytes, changes: Changes, end: int, location: int, identifier: int = ENTRY) -> bytes:
    """The block with some bytes changed and its descriptor, which ends there, sealed again."""
    data = changed(block, changes)
    return seal(identifier, location, data[:end]) + data[end:]


def entries() -> Vectors:
    v = Vectors("entry.txt", "File entries (ECMA-167 4/14.9) and file set descriptors (4/14.1), each a block. `entry LOCATION` reads the "
                "entry for a virtual address, or for a table's block number. Faults: 21 the tag, 22 the strategy, 23 the kind, 24 a field "
                "that is fixed, 25 lengths, 26 the extent, 27 bytes after the descriptor.")
    _sound(v)
    _sizes(v)
    _faults(v)
    _order(v)
    _sets(v)
    return v


def _entry(v: Vectors, name: str, of: str, block: bytes, location: int, answer: str, check: "int | None" = None) -> None:
    lines = [f"crc -> {check:04X}"] if check is not None else []
    v.case(name, of, "bytes " + padded(block), *lines, f"entry {location} -> {answer}")


def _sound(v: Vectors) -> None:
    v.about("The entries of the example of docs/PROTOCOL.md: the file `a` of five bytes, the root, and the table after them; and those "
            "of a new volume. The CRC is that of the whole block.")
    of = OLD + "an_entry_holds_a_small_file " + OLD + "nothing_is_wrong_with_the_vectors"
    _entry(v, "a-small-file", of, FILE, 2, 'file links 1 unique 16 moment 0 size 5 inside "hello"', 0xEF3D)
    of = OLD + "an_entry_leads_to_a_directory " + OLD + "nothing_is_wrong_with_the_vectors " + FIRST + "of_an_entry"
    _entry(v, "a-directory", of, ROOT, 1, "directory links 1 unique 0 moment 0 size 80 extent 6", 0x5229)
    of = OLD + "an_entry_leads_to_a_table " + OLD + "nothing_is_wrong_with_the_vectors"
    _entry(v, "a-table", of, TABLE, 9, "table links 0 unique 0 moment 0 size 256 extent 8", 0x6BD6)
    _entry(v, "a-table-for-another-block", OLD + "an_entry_leads_to_a_table", TABLE, 10, "fault 21")
    of = OLD + "entries_of_a_format"
    _entry(v, "the-root-of-a-new-volume", of, file_entry("directory", 1, 0, 40, 1, 1), 1,
           "directory links 1 unique 0 moment 0 size 40 extent 1", 0xF51D)
    _entry(v, "the-table-of-a-new-volume", of, file_entry("table", 0, 0, 204, 3, 4), 4,
           "table links 0 unique 0 moment 0 size 204 extent 3", 0x7F86)
    block = file_entry("file", 1, 16, 0, None, 2)
    assert block[34] == 1 and block[10] == 160 and block[172] == 0
    _entry(v, "an-empty-file", OLD + "an_empty_file_is_nowhere", block, 2, "file links 1 unique 16 moment 0 size 0 nowhere")


def _sizes(v: Vectors) -> None:
    v.about("Files inside their entries have 1 to 1,872 bytes, and flags 3; the CRC covers 160 bytes and these.")
    for size, length in [(1, 161), (5, 165), (1_871, 2_031), (1_872, 2_032)]:
        block = file_entry("file", 1, 16, size, b"\x07" * size, 2)
        assert block[34:36] == b"\x03\0" and int.from_bytes(block[10:12], "little") == length
        of = OLD + "files_of_each_size_inside" + (f" {OLD}the_greatest_file_inside" if size == 1_872 else "")
        text = "07*%d" % size if size >= 8 else "07" * size
        _entry(v, f"inside-{size}", of, block, 2, f"file links 1 unique 16 moment 0 size {size} inside {text}")
    v.about("Files in one extent: the blocks that are recorded.")
    for size, blocks in [(1, 1), (1_872, 1), (1_873, 1), (2_048, 1), (2_049, 2), (1_048_576, 512)]:
        block = file_entry("file", 1, 16, size, 5, 2)
        assert int.from_bytes(block[64:72], "little") == blocks and block[10:12] == b"\xB0\0" and block[172] == 16
        _entry(v, f"in-an-extent-{size}", OLD + "files_of_each_size_in_extents", block, 2,
               f"file links 1 unique 16 moment 0 size {size} extent 5")
    _several(v)
    _leading(v)


def _several(v: Vectors) -> None:
    v.about("Files in several extents, each but the last of 1,048,576 bytes: the descriptors of up to 117, as many as there is room for.")
    size, last = EXTENT_BYTES + 1, LAST
    for name, size, firsts in [("in-two-extents", size, [7, 600]), ("in-two-whole-extents", 2 * EXTENT_BYTES, [600, 7]),
                               ("in-117-extents", 117 * EXTENT_BYTES, [7] * 117), ("in-two-extents-up-to-the-last-block", size, [7, last])]:
        block = file_entry("file", 1, 16, size, several(size, *firsts), 2)
        _entry(v, name, "", block, 2, f"file links 1 unique 16 moment 0 size {size} extents {' '.join(map(str, firsts))}")
    whole, size = long_ad(EXTENT_BYTES, 7), EXTENT_BYTES + 1
    two = several(size, 7, 600)
    for name, fault, size, descriptors in [
        ("a-byte-more-than-117-extents", EXTENT, 117 * EXTENT_BYTES + 1, [whole] * 117), ("one-extent-of-two", LENGTHS, size, [whole]),
        ("three-extents-of-two", LENGTHS, size, two + [long_ad(1, 601)]), ("one-extent-of-all-bytes", LENGTHS, size, [long_ad(size, 7)]),
        ("a-first-extent-of-a-block-less", LENGTHS, size, [long_ad(EXTENT_BYTES - 2048, 7), long_ad(2049, 600)]),
        ("a-last-extent-that-is-whole", EXTENT, size, [whole, whole]), ("a-last-extent-of-no-byte", EXTENT, size, [whole, long_ad(0, 600)]),
        ("a-last-extent-that-is-not-recorded", EXTENT, size, [whole, long_ad(1 | 1 << 30, 600)]),
        ("a-last-extent-that-leads-on", EXTENT, size, [whole, long_ad(2048 | 3 << 30, 600)]),
        ("a-last-extent-in-the-virtual-partition", EXTENT, size, [whole, long_ad(1, 600, 1)]),
        ("a-last-extent-with-implementation-use", EXTENT, size, [whole, long_ad(1, 600, 0, 1)]),
        ("a-last-extent-past-the-partition", EXTENT, size, [whole, long_ad(1, last + 1)]),
    ]:
        _fault(v, name, "", fault, file_entry("file", 1, 16, size, descriptors, 2), 2)
    block = file_entry("file", 1, 16, EXTENT_BYTES + 1, two, 2)
    _fault(v, "blocks-recorded-of-one-extent", "", LENGTHS, resealed(block, [(64, 0)], 208, 2), 2)
    _fault(v, "a-byte-after-two-extents", "", TAIL, changed(block, [(208, 1)]), 2)
    for kind, links, unique in [("directory", 1, 16), ("table", 0, 0)]:
        _fault(v, f"a-{kind}-in-two-extents", "", LENGTHS, file_entry(kind, links, unique, EXTENT_BYTES + 1, two, 2), 2)


FIRSTS = [5 + 600 * index for index in range(116)]
OWN = several(GREATEST, *FIRSTS)
"""The descriptors of the first 116 extents of a file that has descriptor blocks."""


def _listed(block: bytes) -> str:
    return "bytes " + repeated(block, 176, "first-116", b"".join(OWN))


def _long(v: Vectors, name: str, size: int, listed: "list[bytes]", answer: str, changes: Changes = []) -> None:
    """The entry of a file that has descriptor blocks."""
    block = file_entry("file", 1, 16, size, listed, 2)
    if changes:
        block = resealed(block, changes, 176 + 16 * len(listed), 2)
    v.case(name, "", _listed(block), f"entry 2 -> {answer}")


def _told(size: int, number: int, extents: str = "{first-116}") -> str:
    return f"file links 1 unique 16 moment 0 size {size} extents {extents} next {number}"


def _leading(v: Vectors) -> None:
    v.about("Files in more than 117 extents: the entry has the descriptors of the first 116, and one that leads to the first descriptor "
            "block: kind 3, 2,048 bytes. There are 1 to 7, one after another, which end with the last block of the largest partition.")
    v.let("first-116", digits(b"".join(OWN)))
    v.words("first-116", " ".join(map(str, FIRSTS)))
    assert leading(0x11223344) == bytes.fromhex("000800C0 44332211 0000 000000000000")
    for count, blocks in ((118, 1), (119, 1), (241, 1), (242, 1), (243, 2), (367, 2), (368, 3), (867, 6), (868, 7), (878, 7), (879, 7)):
        assert blocks == -(-(count - 117) // 125)
        for least, ends in ((True, "of-a-byte"), (False, "whole")):
            size = (count - 1) * EXTENT_BYTES + (1 if least else EXTENT_BYTES)
            name = f"in-{count}-extents-the-last-{ends}"
            _long(v, name, size, OWN + [leading(70_000)], _told(size, 70_000))
            if count in (118, 242, 243, 879):
                _long(v, f"{name}-up-to-the-last-block", size, OWN + [leading(LAST + 1 - blocks)], _told(size, LAST + 1 - blocks))
                _long(v, f"{name}-past-the-partition", size, OWN + [leading(LAST + 2 - blocks)], f"fault {EXTENT}")
    _long_faults(v, OWN)


def _long_faults(v: Vectors, own: "list[bytes]") -> None:
    size, kind, number = 117 * EXTENT_BYTES + 1, 1 << 30, 70_000
    v.about("Faults of the descriptor that leads on, of a file in 118 extents: its kind, its length, its partition, its implementation use.")
    for name, one in [
        ("kind-0", long_ad(BLOCK, number)), ("kind-1", long_ad(kind | BLOCK, number)), ("kind-2", long_ad(2 * kind | BLOCK, number)),
        ("no-byte", long_ad(3 * kind, number)), ("a-byte-less", long_ad(3 * kind | BLOCK - 1, number)),
        ("a-byte-more", long_ad(3 * kind | BLOCK + 1, number)), ("two-blocks", long_ad(3 * kind | 2 * BLOCK, number)),
        ("an-extent", long_ad(3 * kind | EXTENT_BYTES, number)), ("the-virtual-partition", long_ad(3 * kind | BLOCK, number, 1)),
        ("implementation-use", long_ad(3 * kind | BLOCK, number, 0, 1)), ("flags", leading(number)[:10] + b"\x01" + bytes(5)),
        ("the-greatest-number", leading(0xFFFF_FFFF)), ("the-number-after-the-partition", leading(LAST + 1)), ("zeros", bytes(16)),
        ("the-117th-extent", long_ad(EXTENT_BYTES, 7)), ("an-extent-of-a-byte", long_ad(1, 7)),
    ]:
        _long(v, f"leads-on-by-{name}", size, own + [one], f"fault {EXTENT}")
    _long(v, "leads-on-by-the-number-0", size, own + [leading(0)], _told(size, 0))
    v.about("Too few descriptors or too many, or one that leads on where the entry has room for all.")
    _long(v, "116-descriptors-of-118-extents", size, own, f"fault {LENGTHS}")
    _long(v, "115-descriptors-and-one-that-leads-on", size, own[:115] + [leading(number)], f"fault {LENGTHS}")
    _long(v, "one-descriptor-that-leads-on", size, [leading(number)], f"fault {LENGTHS}")
    _long(v, "one-that-leads-on-in-117-extents", size - 1, own + [leading(number)], f"fault {EXTENT}")
    _long(v, "one-that-leads-on-in-116-extents", 116 * EXTENT_BYTES, own + [leading(number)], f"fault {LENGTHS}")
    _long(v, "one-that-leads-on-before-the-last", size, own[:115] + [leading(number), own[115]], f"fault {EXTENT}")
    _long(v, "two-that-lead-on", size, own[:115] + [leading(number)] * 2, f"fault {EXTENT}")
    block = file_entry("file", 1, 16, size, own + [leading(number)], 2)
    for name, end, fault in [("by-its-fields", 176, LENGTHS), ("by-its-block", BLOCK, TAG)]:
        many = resealed(block, list(zip(range(172, 176), (118 * 16).to_bytes(4, "little"))), end, 2)
        v.case(f"118-descriptors-in-the-entry-sealed-{name}", "", _listed(many), f"entry 2 -> fault {fault}")
    v.about("The extents before it, and the sizes of the file: its blocks, and more bytes than 879 extents have.")
    for name, index, one in [("the-first", 0, long_ad(EXTENT_BYTES, LAST - 510)), ("the-116th", 115, long_ad(EXTENT_BYTES, LAST - 510)),
                             ("the-116th-of-a-byte-less", 115, long_ad(EXTENT_BYTES - 1, 7)), ("the-116th-that-is-not-recorded", 115, long_ad(EXTENT_BYTES | kind, 7))]:
        _long(v, f"a-wrong-extent-of-118-{name}", size, own[:index] + [one] + own[index + 1 :] + [leading(number)], f"fault {EXTENT}")
    _long(v, "a-first-extent-of-118-of-a-byte-less", size, [long_ad(EXTENT_BYTES - 1, 5)] + own[1:] + [leading(number)], f"fault {LENGTHS}")
    _long(v, "the-116th-of-118-extents-up-to-the-last-block", size, own[:115] + [long_ad(EXTENT_BYTES, LAST - 511)] + [leading(number)],
          _told(size, number, f"{' '.join(map(str, FIRSTS[:115]))} {LAST - 511}"))
    _long(v, "a-byte-more-than-879-extents", GREATEST + 1, own + [leading(number)], f"fault {LENGTHS}")
    _long(v, "more-than-four-gibibytes", (1 << 32) + size, own + [leading(number)], f"fault {LENGTHS}")
    _long(v, "blocks-recorded-with-a-descriptor-block", size, own + [leading(number)], f"fault {LENGTHS}", [(64, 2)])
    _long(v, "a-wrong-extent-and-a-wrong-one-that-leads-on", size, own[:115] + [long_ad(1, 7), leading(LAST + 1)], f"fault {EXTENT}")
    for kind_, links, unique in [("directory", 1, 16), ("table", 0, 0)]:
        many = file_entry(kind_, links, unique, size, own + [leading(number)], 2)
        v.case(f"a-{kind_}-in-118-extents", "", _listed(many), f"entry 2 -> fault {LENGTHS}")


def _fault(v: Vectors, name: str, of: str, fault: int, block: bytes, location: int) -> None:
    _entry(v, name, of, block, location, f"fault {fault}")


def _faults(v: Vectors) -> None:
    v.about("What the tag is of: another address, a descriptor that the CRC does not cover to its end, or covers past it. An entry "
            "with another length of its descriptors ends with its fields.")
    of = OLD + "a_tag_covers_the_descriptor"
    _fault(v, "tag-of-another-address", of, TAG, FILE, 3)
    _fault(v, "tag-over-a-byte-less", of, TAG, resealed(FILE, [], 180, 2), 2)
    _fault(v, "tag-over-the-fields-of-a-directory", of, TAG, resealed(ROOT, [], 176, 1), 1)
    _fault(v, "tag-past-the-fields", of, TAG, resealed(FILE, [(172, 0)], 181, 2), 2)
    _fault(v, "a-byte-that-the-tag-covers", of, TAG, changed(TABLE, [(160, 1)]), 9)
    for name, identifier, location, end in [("address", ENTRY, 2, 192), ("descriptor", 260, 1, 192), ("end", ENTRY, 1, 176)]:
        _fault(v, f"root-of-another-{name}", LATER + "an_entry_for_another_address_is_told", TAG,
               resealed(ROOT, [], end, location, identifier), 1)
    v.about("Faults of the fields of a file's entry, whose CRC is made good: the byte that is changed, and to what.")
    _of_a_file(v)
    v.about("Faults of the fields of the root's entry.")
    for fault, of, changes, end in ROOT_FAULTS:
        _fault(v, "root-" + _name(changes, end, 192), of, fault, resealed(ROOT, changes, end, 1), 1)
    v.about("An extent may end with the last block of the largest partition, 449,742.")
    last = [(180, 0xCE), (181, 0xDC), (182, 6)]
    _entry(v, "root-at-the-last-block", OLD + "extents", resealed(ROOT, last, 192, 1), 1,
           "directory links 1 unique 0 moment 0 size 80 extent 449742")
    v.about("A table has no link, no unique ID, and is not empty. An entry with one of these faults is none of a table.")
    for fault, of, changes, end in TABLE_FAULTS:
        _fault(v, "table-" + _name(changes, end, 192), of, fault, resealed(TABLE, changes, end, 9), 9)


def _name(changes: Changes, end: int, usual: int) -> str:
    said = "-".join(f"{at}-{byte:02x}" for at, byte in changes) or "as-it-is"
    return said if end == usual else f"{said}-up-to-{end}"


def _of_a_file(v: Vectors) -> None:
    named: "dict[str, list[tuple[int, Changes]]]" = {"strategy_and_kind": [(STRATEGY, [(20, 5)]), (STRATEGY, [(22, 1)]), (STRATEGY, [(24, 2)]), (KIND, [(27, 6)])],
             "lengths": [(LENGTHS, [(56, 6)]), (LENGTHS, [(64, 1)])], "tails": [(TAIL, [(181, 1)])],
             "fixed_fields": [(FIXED, [(at, 0x11)]) for at in (16, 26, 28, 33, 36, 44, 50, 55, 72, 84, 96, 108, 112, 128, 129, 159, 168)]
             + [(FIXED, [(27, 4), (44, 0xA5), (45, 0x14)])]}
    for test, rows in named.items():
        for fault, changes in rows:
            _fault(v, "file-" + _name(changes, 181, 181), OLD + test, fault, resealed(FILE, changes, 181, 2), 2)
    for fault, of, changes in [
        (FIXED, OLD + "fixed_fields", [(34, 2)]), (LENGTHS, OLD + "lengths", [(172, 0)]),
        (LENGTHS, OLD + "lengths", [(56, 0x51), (57, 7), (172, 0x51), (173, 7)]),
    ]:
        _fault(v, "file-" + _name(changes, 176, 181), of, fault, resealed(FILE, changes, 176, 2), 2)
    of = LATER + "faults_of_the_entry_of_a_file"
    later: "list[tuple[int, int, Changes]]" = [(STRATEGY, 181, [(20, 0)]), (KIND, 181, [(27, 7)]), (FIXED, 181, [(44, 0xA5), (45, 0x14)]),
                                (FIXED, 181, [(159, 1)]), (LENGTHS, 176, [(56, 0), (172, 0)]), (TAIL, 181, [(2047, 1)]), (TAG, 176, [])]
    for fault, end, changes in later:
        _fault(v, "file-" + _name(changes, end, 181), of, fault, resealed(FILE, changes, end, 2), 2)


EMPTY_ROOT = [(56, 0), (64, 0), (172, 0), (176, 0), (180, 0)]
LONG_ROOT = [(56, 1), (58, 0x10), (64, 1), (65, 2), (176, 1), (178, 0x10)]
PAST_THE_PARTITION = [(180, 0xCF), (181, 0xDC), (182, 6)]
_R = LATER + "faults_of_the_entry_of_a_directory"
_B = LATER + "lengths_and_ends_of_an_entry"
ROOT_FAULTS: "list[tuple[int, str, Changes, int]]" = [
    (fault, _R + (" " + OLD + more if more else ""), changes, 192)
    for fault, more, changes in [
        (STRATEGY, "", [(20, 3)]), (STRATEGY, "", [(22, 1)]), (STRATEGY, "", [(24, 2)]), (KIND, "", [(27, 0)]), (KIND, "", [(27, 6)]),
        (FIXED, "", [(16, 1)]), (FIXED, "", [(26, 1)]), (FIXED, "", [(28, 1)]), (FIXED, "", [(34, 0)]), (FIXED, "", [(34, 3)]),
        (FIXED, "", [(36, 0)]), (FIXED, "", [(44, 0x84), (45, 0x10)]), (FIXED, "", [(50, 1)]), (FIXED, "", [(108, 2)]),
        (FIXED, "", [(89, 2)]), (FIXED, "", [(76, 13), (88, 13), (100, 13)]), (FIXED, "", [(129, 0)]), (FIXED, "", [(168, 4)]),
        (LENGTHS, "", [(56, 81)]), (LENGTHS, "lengths", [(64, 2)]), (LENGTHS, "lengths", [(176, 81)]),
        (EXTENT, "extents", [(179, 0x40)]), (EXTENT, "extents", [(184, 1)]), (EXTENT, "extents", PAST_THE_PARTITION),
    ]
] + [
    (EXTENT, OLD + "extents", [(186, 1)], 192), (EXTENT, OLD + "extents", [(191, 1)], 192),
    (LENGTHS, f"{_B} {OLD}lengths", [(172, 8)], 176), (LENGTHS, _B, EMPTY_ROOT, 176), (LENGTHS, f"{_B} {OLD}lengths", LONG_ROOT, 192),
    (TAIL, _B, [(192, 1)], 192), (TAIL, f"{_B} {OLD}tails", [(2047, 1)], 192),
]
_T = LATER + "a_faulty_entry_is_no_tables"
TABLE_FAULTS: "list[tuple[int, str, Changes, int]]" = [
    (STRATEGY, _T, [(20, 3)], 192), (KIND, _T, [(27, 0)], 192), (KIND, _T, [(27, 249)], 192), (FIXED, _T, [(36, 0)], 192),
    (FIXED, f"{_T} {OLD}fixed_fields", [(48, 1)], 192), (FIXED, f"{_T} {OLD}fixed_fields", [(160, 1)], 192), (LENGTHS, _T, [(64, 2)], 192),
    (EXTENT, _T, [(184, 1)], 192), (EXTENT, _T, PAST_THE_PARTITION, 192), (TAIL, _T, [(192, 1)], 192),
    (LENGTHS, OLD + "lengths", [(56, 0), (57, 0), (64, 0), (172, 0), (176, 0), (177, 0), (180, 0)], 176),
]


def _order(v: Vectors) -> None:
    v.about("The first of several faults of the root's entry: each with the next one, and each with all after it.")
    rows: "list[tuple[int, Changes]]" = [(TAG, [(12, 2)]), (STRATEGY, [(20, 5)]), (KIND, [(27, 6)]), (FIXED, [(36, 0x11)]), (LENGTHS, [(64, 2)]), (EXTENT, [(184, 1)]),
            (TAIL, [(2047, 1)])]
    of = FIRST + "of_an_entry"
    for fault, changes in rows:
        _fault(v, f"one-fault-{fault}", of, fault, _damaged(ROOT, changes), 1)
    for (fault, one), (other, more) in zip(rows, rows[1:]):
        _fault(v, f"faults-{fault}-and-{other}", of, fault, _damaged(ROOT, one + more), 1)
    rows = [(STRATEGY, [(20, 3)]), (KIND, [(27, 6)]), (FIXED, [(36, 0)]), (LENGTHS, [(64, 2)]), (EXTENT, [(184, 1)]), (TAIL, [(2047, 1)])]
    of = LATER + "the_first_fault_of_an_entry_is_told"
    for kept in range(len(rows)):
        changes = [change for _, changes in rows[kept:] for change in changes]
        fault = rows[kept][0]
        _fault(v, f"faults-from-{fault}-on", of, fault, resealed(ROOT, changes, 192, 1), 1)
        if kept < 5:
            _fault(v, f"faults-from-{fault}-on-unsealed", of, TAG, changed(ROOT, changes), 1)


def _damaged(block: bytes, changes: Changes, end: int = 192, location: int = 1, identifier: int = ENTRY) -> bytes:
    """The block with these changes, sealed again after those that are not in the tag."""
    data = resealed(block, [change for change in changes if change[0] >= 16], end, location, identifier)
    return changed(data, [change for change in changes if change[0] < 16])


def _set(v: Vectors, name: str, of: str, block: bytes, answer: str, check: "int | None" = None) -> None:
    lines = [f"crc -> {check:04X}"] if check is not None else []
    v.case(name, of, "bytes " + padded(block), *lines, f"file-set -> {answer}")


def _sets(v: Vectors) -> None:
    v.about("The file set descriptor at the virtual address 0: it has the label twice, and the moment of the format.")
    assert SET[:4] == b"\0\x01\x03\0" and SET[10:16] == b"\xF0\x01\0\0\0\0" and SET[304:309] == b"\x08DISC"
    sealed = resealed(SET, [], 512, 0, FILE_SET)
    assert sealed == SET
    of = " ".join([OLD + "a_file_set_has_a_label_and_a_moment", OLD + "faults_of_a_file_set", FIRST + "of_a_file_set",
                   LATER + "faults_of_a_file_set"])
    _set(v, "file-set", of, SET, 'label "DISC" moment 0', 0x3F8E)
    old, later = OLD + "faults_of_a_file_set", LATER + "faults_of_a_file_set"
    _set(v, "file-set-for-another-address", old, resealed(SET, [], 512, 1, FILE_SET), "fault 21")
    _set(v, "file-set-of-another-descriptor", old, resealed(SET, [], 512, 0, 257), "fault 21")
    for at in (18, 27, 28, 49, 113, 239, 241, 305, 309, 335, 336, 404, 417, 440, 448, 511):
        _set(v, f"file-set-{at}-7f", old, resealed(SET, [(at, 0x7F)], 512, 0, FILE_SET), "fault 24")
    _set(v, "file-set-512-01", f"{old} {later} {FIRST}of_a_file_set", changed(SET, [(512, 1)]), "fault 27")
    for at, byte in [(20, 13), (28, 2), (32, 2), (40, 1), (48, 1), (116, 75), (240, 1), (304, 7), (336, 1), (404, 2), (408, 0), (440, 2),
                     (448, 1), (511, 1)]:
        _set(v, f"file-set-{at}-{byte:02x}", later, resealed(SET, [(at, byte)], 512, 0, FILE_SET), "fault 24")
    both = [(28, 2), (512, 1)]
    _set(v, "file-set-28-02-512-01", later, resealed(SET, both, 512, 0, FILE_SET), "fault 24")
    _set(v, "file-set-2047-01", later, changed(SET, [(2047, 1)]), "fault 27")
    for name, identifier, location, end in [("address", FILE_SET, 1, 512), ("end", FILE_SET, 0, 480), ("descriptor", 257, 0, 512)]:
        _set(v, f"file-set-of-another-{name}-and-others", later, resealed(SET, both, end, location, identifier), "fault 21")
    v.about("The first of two faults of a file set descriptor.")
    rows = [(TAG, [(12, 1)]), (FIXED, [(28, 9)]), (TAIL, [(512, 1)])]
    for fault, changes in rows[:2]:
        _set(v, f"file-set-fault-{fault}", FIRST + "of_a_file_set", _damaged(SET, changes, 512, 0, FILE_SET), f"fault {fault}")
    for (fault, one), (other, more) in zip(rows, rows[1:]):
        _set(v, f"file-set-faults-{fault}-and-{other}", FIRST + "of_a_file_set", _damaged(SET, one + more, 512, 0, FILE_SET),
             f"fault {fault}")
