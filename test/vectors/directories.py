"""Directories (directory.txt)."""

import string

import layouts
from layouts import Changes, BLOCK, IDENTIFIER, changed, fill, identifier, lay, parent, seal, spelling
from writing import Vectors, digits, padded, shown

OLD = "codec_tests::directories::"
FIRST = "codec_tests::first_faults::"
LATER = "recover_tests::directories::"

# The faults of a directory, as `67 Damaged` shows them.
TAG, PARENT, NAME, TWICE, SPAN, PAD, END = range(31, 38)

LETTERS = string.ascii_lowercase + string.ascii_uppercase[:22]
NAMES = "abcdefghijklmnopqrstuvwxyz"
FULL = NAMES + NAMES[:23]
# The bytes of the identifiers of `letters` but the last of a letter, which may be lengthened.
FRONT = 1_920
LENGTHENING = fill(layouts.DEVELOPER, 88)


def files(*names: str) -> "list[tuple[str, str, int, int]]":
    return [(name, "file", 2, 16) for name in names]


def letters(last: str) -> bytes:
    """48 names of a letter, which fill 1,960 bytes after the parent's, and one more."""
    return lay(files(*LETTERS, last))


def a(name: bytes = b"\x08a", address: int = 2, unique: int = 16, number: int = 6, characteristics: int = 0, use: bytes = b"",
      changes: Changes = []) -> bytes:
    """The identifier of the file of the example, or one like it."""
    return identifier(name, address, unique, number, characteristics, use, changes)


def directories() -> Vectors:
    ROWS.clear()
    v = Vectors("directory.txt", "Directories (ECMA-167 4/14.4). `directory FIRST SIZE` reads data of so many bytes that begins at the block "
                "number FIRST: the virtual address of the directory above, and each name with its kind, virtual address and unique ID. "
                "Faults: 31 a field that is the same in each identifier, 32 the parent, 33 a name, 34 a name that is there twice, 35 an "
                "identifier past its block or 4 to 28 bytes before its end, 36 implementation use or padding, 37 the end of the data.")
    _sound(v)
    _boundaries(v)
    _fields(v)
    _names(v)
    _blocks(v)
    _ends(v)
    _order(v)
    return v


# What is looked at in a whole volume too: the name of the case, its tests, the data and its size, and the fault if there is one.
ROWS: "list[tuple[str, str, bytes, int, int | None]]" = []


def directory(v: Vectors, name: str, of: str, data: bytes, size: int, answer: str, check: "int | None" = None, first: int = 6) -> None:
    _keep(name, of, data, size, answer)
    blocks = data + bytes(-len(data) % BLOCK)
    front = letters("a" * 20)[:FRONT]
    if blocks.startswith(front):
        lines = ["bytes {identifiers}", "bytes " + " ".join([digits(blocks[FRONT:BLOCK]), padded(blocks[BLOCK:])]).strip()]
    else:
        lines = ["bytes " + padded(blocks)]
    if check is not None:
        lines.append(f"crc -> {check:04X}")
    v.case(name, of, *lines, f"directory {first} {size} -> {answer}")


def _keep(name: str, of: str, data: bytes, size: int, answer: str) -> None:
    tests = " ".join(test for test in of.split() if test.startswith(LATER))
    if tests:
        ROWS.append((name, tests, data, size, int(answer.split()[1]) if answer.startswith("fault") else None))


def fault(v: Vectors, name: str, of: str, data: bytes, cause: int, size: "int | None" = None) -> None:
    directory(v, name, of, data, len(data) if size is None else size, f"fault {cause}")


def _sound(v: Vectors) -> None:
    v.about("The root of the example of docs/PROTOCOL.md, and that of a new volume; the CRC is that of the block.")
    data = lay(files("a"))
    assert data == parent() + a()
    of = f"{OLD}root_data {OLD}root_data_is_read {OLD}slices {OLD}faults_of_the_end {OLD}no_name_and_one {LATER}a_directory_without_fault_stands"
    directory(v, "the-root-with-a-file", of, data, 80, 'parent 1 file 2 16 "a"')
    directory(v, "the-root-of-a-new-volume", f"{OLD}data_of_a_format", lay([], 1, 1), 40, "parent 1", 0x0BB5, 1)
    directory(v, "no-name", f"{OLD}no_name_and_one", lay([]), 40, "parent 1")
    directory(v, "a-directory-and-a-file", f"{OLD}root_data_is_read", lay([("d", "directory", 3, 17), ("\u00E9", "file", 4, 18)], 2), 120,
              "parent 2 directory 3 17 \"d\" file 4 18 C3A9")
    directory(v, "a-name-with-padding", f"{LATER}padding_is_zeros", lay(files("ab")), 84, 'parent 1 file 2 16 "ab"')
    directory(v, "a-name-of-254-letters", f"{OLD}sizes", lay(files("a", "b" * 254)), 376,
              'parent 1 file 2 16 "a" file 2 16 ' + shown(b"b" * 254))
    v.about("`numbered COUNT LETTERS FIRST` has so many names of files, each the letter `x` and then its number from 0 on, of so many letters "
            "at least; the size of its data, and the CRC of its blocks. A directory has at most 512 names.")
    for count in (1, 254):
        names = [f"{number}".rjust(count, "x") for number in range(512)]
        data = lay(files(*names))
        assert len(data) == (23_276 if count == 1 else 174_672)
        check = layouts.crc(data + bytes(-len(data) % BLOCK))
        v.case(f"as-many-names-as-there-can-be-of-{count}", f"{OLD}as_many_names_as_there_can_be",
               f"numbered 512 {count} 6 -> size {len(data)} crc {check:04X}")


def _boundaries(v: Vectors) -> None:
    v.about("48 names of one letter leave 88 bytes of a block. An identifier of 40 to 56 bytes leaves 32 at least, one of 88 leaves none, and "
            "each other begins the next block; then the one before it is lengthened to the block's end (docs/FORMAT.md, Directories). The "
            "names stand for `letters`.")
    v.words("letters", " ".join(f"file 2 16 {shown(letter.encode())}" for letter in LETTERS))
    v.let("identifiers", digits(letters("a" * 20)[:FRONT]))
    sizes = [(1, 2_000), (2, 2_004), (9, 2_008), (10, 2_012), (13, 2_012), (14, 2_016), (17, 2_016), (18, 2_108), (21, 2_108), (22, 2_112),
             (41, 2_128), (42, 2_132), (45, 2_132), (46, 2_048), (49, 2_048), (50, 2_140), (253, 2_340), (254, 2_344)]
    for count, size in sizes:
        text = "0".rjust(count, "x")
        _last(v, f"a-last-name-of-{count}", f"{OLD}names_around_each_boundary", text, size)
    of = f"{OLD}a_gap_of_28_lengthens"
    data = letters(NAMES[:21])
    assert data[1956] == 88 and data[1958:1967] == b"\0*udfburn" and data[2048] == 1 and data[2060] == 7
    _last(v, "a-gap-of-28-lengthens", of, NAMES[:21], 2_108)
    _last(v, "a-gap-of-32-stays", f"{OLD}a_gap_of_32_and_none_stay", NAMES[:17], 2_016)
    _last(v, "no-gap", f"{OLD}a_gap_of_32_and_none_stay", FULL, 2_048)
    data = lay(files(*LETTERS, FULL, NAMES[:21]))
    assert data[:2048] == letters(FULL)
    directory(v, "a-name-behind-a-full-block", f"{OLD}a_name_behind_a_full_block", data, 2_108,
          f"parent 1 {{letters}} file 2 16 {shown(FULL.encode())} file 2 16 {shown(NAMES[:21].encode())}")


def _last(v: Vectors, name: str, of: str, text: str, size: int) -> None:
    data = letters(text)
    assert len(data) == size, (name, len(data))
    directory(v, name, of, data, size, f"parent 1 {{letters}} file 2 16 {shown(text.encode())}")


def _fields(v: Vectors) -> None:
    v.about("Fields that are the same in each identifier (31): the version, the characteristics, and the length, its kind, the partition and "
            "the flags of where the entry is; in the second identifier, and in the parent's.")
    of = f"{LATER}fields_of_each_identifier"
    for at, byte in [(16, 2), (18, 1), (18, 4), (18, 8), (18, 0x12), (21, 9), (23, 0x40), (28, 0), (30, 1)]:
        fault(v, f"second-{at}-{byte:02x}", of, parent() + a(changes=[(at, byte)]), TAG)
        more = f" {OLD}faults_of_fields" if (at, byte) == (18, 4) else ""
        fault(v, f"first-{at}-{byte:02x}", of + more, parent(changes=[(at, byte)]) + a(), TAG)
    fault(v, "for-the-block-before", of, parent() + a(number=5), TAG)
    fault(v, "as-an-entry", of, parent() + seal(layouts.ENTRY, 6, a()), TAG)
    v.about("The parent's identifier is the first, and the first alone (32).")
    of = f"{LATER}the_parent_is_the_first_alone"
    below = identifier(b"", 1, 0, 6, 2)
    drawn = identifier(b"", 1, 16, 6, 10)
    spoken = identifier(b"\x08", 1, 0, 6, 10)
    for name, first in [("a-directory-first", below), ("a-parent-with-a-unique-id", drawn), ("a-parent-with-a-name", spoken), ("a-file-first", a())]:
        more = f" {OLD}faults_of_fields" if first == below else ""
        fault(v, name, of + more, first + a(), PARENT)
    fault(v, "two-parents", of, parent() + parent(), PARENT)
    fault(v, "a-parent-as-the-third", of, parent() + a() + a(characteristics=10), PARENT)
    fault(v, "a-parent-as-the-second", f"{OLD}faults_of_fields", parent() + a(characteristics=10), PARENT)


def _names(v: Vectors) -> None:
    v.about("Bytes that are no name (33): none, no character, another compression, half a character, one of a byte in two, half a pair, the "
            "byte order mark; and texts that are no names.")
    of = f"{LATER}names_of_one_spelling"
    for name in [b"", b"\x08", b"\x10", b"\x07a", b"\xFEa", b"\x10a", b"\x10\0a", b"\x10\xD8\0", b"\x10\xFE\xFF", b"\x08.", b"\x08..",
                 b"\x08a/", b"\x08a\0"]:
        more = f" {OLD}faults_of_names" if name == b"\x08" else ""
        fault(v, f"name-{name.hex() or 'empty'}", of + more, parent() + a(name), NAME)
    v.about("A name that is there twice (34).")
    fault(v, "a-name-twice", f"{LATER}a_name_stands_once {OLD}faults_of_names", parent() + a() + a(), TWICE)
    other = a(characteristics=2, address=3, unique=17)
    fault(v, "a-name-of-two-nodes", f"{LATER}a_name_stands_once", parent() + a() + a(b"\x08b") + other, TWICE)


def _blocks(v: Vectors) -> None:
    v.about("Where an identifier ends in its block: 4 and 28 bytes before the end, and 4 bytes past it (35); 32 bytes before the end, and at "
            "the end with nothing after it, where the implementation use is wrong (36).")
    of = f"{LATER}identifiers_end_in_their_block"
    for length, cause in [(1_964, SPAN), (1_940, SPAN), (1_972, SPAN), (1_936, PAD), (1_968, PAD)]:
        fault(v, f"an-implementation-use-of-{length}", of, parent() + a(use=fill(LENGTHENING, length)), cause)
    v.about("Padding is zeros, and an implementation use lengthens to a block's end (36).")
    of = f"{LATER}padding_is_zeros"
    for at in (41, 42, 43):
        fault(v, f"padding-{at}", of, parent() + a(b"\x08ab", changes=[(at, 1)]), PAD)
    fault(v, "an-implementation-use-in-a-block", of, parent() + a(use=layouts.DEVELOPER) + a(b"\x08b"), PAD)
    v.about("A block is filled by its last identifier: another EntityID, a suffix, a byte after it; without need; and not where it has to be.")
    _filled(v)
    sound = letters(NAMES[:17])
    longer = changed(sound, [(1979, 22)])[:2016] + b"rstu"
    longer = longer[:1960] + seal(IDENTIFIER, 6, longer[1960:])
    fault(v, "a-gap-of-28-is-refused", f"{OLD}a_gap_of_28_is_refused {FIRST}of_an_identifier", longer, SPAN, 2020)
    fault(v, "a-gap-of-28-in-shorter-data", f"{FIRST}of_an_identifier", longer, END, 2016)
    fault(v, "a-gap-of-28-and-another-version", f"{FIRST}of_an_identifier",
          longer[:1960] + seal(IDENTIFIER, 6, changed(longer[1960:], [(16, 2)])), SPAN, 2020)
    data = letters(NAMES[:21])
    shorter = changed(data[2048:], [(19, 18)])[:56]
    fault(v, "lengthened-without-need", f"{OLD}lengthened_without_need_is_refused", data[:2048] + seal(IDENTIFIER, 7, shorter), PAD, 2104)


def two_blocks(use: bytes, last: bytes, changes: Changes = []) -> bytes:
    """48 names of a letter, the last of which has this implementation use, and another name."""
    data = parent()
    for index, letter in enumerate(LETTERS):
        data += a(spelling(letter), use=use if index == 47 else b"")
    return data + a(last, number=6 + len(data) // BLOCK, changes=changes)


def _filled(v: Vectors) -> None:
    of = f"{LATER}a_block_is_filled_by_its_last_identifier"
    long = spelling(NAMES[:21])
    directory(v, "a-block-that-is-filled", of, two_blocks(LENGTHENING, long), 2108,
              "parent 1 {letters} file 2 16 " + shown(NAMES[:21].encode()))
    for at, byte in [(1, ord("+")), (31, 1), (87, 1)]:
        fault(v, f"filled-with-{at}-{byte:02x}", of, two_blocks(changed(LENGTHENING, [(at, byte)]), long), PAD)
    fault(v, "a-name-that-had-its-place", of, two_blocks(LENGTHENING, spelling(NAMES[:17])), PAD)
    fault(v, "a-name-of-21-without-filling", of, two_blocks(b"", long), SPAN)
    fault(v, "a-name-of-50-without-filling", of, two_blocks(b"", spelling(FULL + "x")), SPAN)
    fault(v, "a-version-in-the-second-block", of, two_blocks(LENGTHENING, long, [(16, 2)]), TAG)
    fault(v, "no-name-in-the-second-block", of, two_blocks(LENGTHENING, long, [(59, 0)]), NAME)


def _ends(v: Vectors) -> None:
    v.about("Where the data ends (37): inside an identifier, and after it; with zeros in place of an identifier, that is 31.")
    of = f"{LATER}data_ends_where_the_entry_says"
    data = parent() + a()
    for size in (1, 37, 38, 39, 41, 77, 78, 79, 40, 81, 117, 118, 119):
        fault(v, f"data-of-{size}", of, data, END, size)
    fault(v, "data-of-76", f"{OLD}faults_of_the_end", data, END, 76)
    for size in (120, 2_048):
        fault(v, f"data-of-{size}", of, data, TAG, size)
    for behind in (80, 2_047):
        more = f" {OLD}faults_of_the_end" if behind == 2_047 else ""
        fault(v, f"a-byte-at-{behind}", of + more, changed(layouts.block(data), [(behind, 1)]), END, 80)
    v.about("One name more than a directory has (37), each block filled by its last identifier.")
    _many(v)


def numbered(count: int) -> bytes:
    """The data of a directory with so many names of three digits."""
    data = parent()
    for index in range(count):
        left = BLOCK - (len(data) % BLOCK + 44)
        use = LENGTHENING[:left] if left < 76 and index + 1 < count else b""
        data += a(spelling(f"{index:03}"), number=6 + len(data) // BLOCK, use=use)
    return data


def _many(v: Vectors) -> None:
    of = f"{LATER}a_directory_has_512_names"
    data, more = numbered(512), numbered(513)
    assert len(data) == 23_320 and len(more) == 23_364
    said = " ".join(f'file 2 16 "{number:03}"' for number in range(512))
    directory(v, "512-names", of, data, len(data), f"parent 1 {said}")
    fault(v, "513-names", of, more, END)


def _order(v: Vectors) -> None:
    v.about("The first of two faults of an identifier, each with the next one of the order 31, 32, 36, 33; before them come 37, where it ends "
            "after the data, and 35.")
    sound = letters(NAMES[:17])
    of = f"{FIRST}of_an_identifier"
    fault(v, "data-that-ends-in-the-last-identifier", of, sound, END, 2_012)
    rows = [(TAG, [(16, 2)]), (PARENT, [(18, 10)]), (PAD, [(19, 17)]), (NAME, [(38, 9)])]
    for cause, changes in rows:
        fault(v, f"identifier-fault-{cause}", of, sound[:1960] + seal(IDENTIFIER, 6, changed(sound[1960:], changes)), cause)
    for (cause, one), (other, more) in zip(rows, rows[1:]):
        fault(v, f"identifier-faults-{cause}-and-{other}", of, sound[:1960] + seal(IDENTIFIER, 6, changed(sound[1960:], one + more)), cause)
    v.about("The first of two faults of a directory: an identifier is read to its end before the next one, and what comes after the data "
            "comes last.")
    of = f"{FIRST}of_a_directory"
    whole = [(NAME, [(78, 9)]), (TAG, [(96, 2)]), (TWICE, [(119, ord("a"))]), (END, [(2_047, 1)])]
    for cause, changes in whole:
        fault(v, f"directory-fault-{cause}", of, _resealed(sound, changes), cause, 2_016)
    for (cause, one), (other, more) in zip(whole, whole[1:]):
        fault(v, f"directory-faults-{cause}-and-{other}", of, _resealed(sound, one + more), cause, 2_016)
    _identifiers(v)


def _resealed(data: bytes, changes: Changes) -> bytes:
    """The block with these changes, and its second and third identifier sealed again."""
    out = changed(layouts.block(data), changes)
    return out[:40] + seal(IDENTIFIER, 6, out[40:80]) + seal(IDENTIFIER, 6, out[80:120]) + out[120:]


def _identifiers(v: Vectors) -> None:
    v.about("A second identifier of another version, of a parent, with a letter in its padding and no character in its name; then each of "
            "these put right, whatever the third identifier is.")
    of = f"{LATER}the_first_fault_of_an_identifier_is_told"
    padding, version = (39, ord("a")), (16, 2)
    long = parent() + a(b"\x08", characteristics=10, use=bytes(1_940), changes=[padding, version])
    assert len(long) == 2_020
    fault(v, "second-past-the-data", of, long, END, 2_016)
    fault(v, "second-past-its-block", of, long, SPAN, 2_020)
    rows: "list[tuple[int, int, Changes]]" = [(TAG, 10, [padding, version]), (PARENT, 10, [padding]), (PAD, 0, [padding]), (NAME, 0, [])]
    for cause, characteristics, changes in rows:
        second = a(b"\x08", characteristics=characteristics, changes=changes)
        fault(v, f"second-{cause}-and-a-name-twice", of, parent() + second + a() + a(), cause)
        fault(v, f"second-{cause}-and-a-version", of, parent() + second + a(changes=[version]), cause)
    data = changed(layouts.block(parent() + a() + a()), [(2_047, 1)])
    fault(v, "a-name-twice-and-a-byte-behind", of, data, TWICE, 120)
