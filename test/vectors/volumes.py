"""Whole volumes (volume.txt)."""

import struct

import directories
import entries
import fronts
import layouts
import long_files
import tables
from layouts import BLOCK, NONE, block, changed, file_entry, file_set, front, table
from media import (
    A, CHAIN, COUNTS, CREATED, FORMATTED, FRONT, IDENTITY, LABEL, NEW, RANGE, REACHED_TWICE, RENAMED, SAID, TOO_DEEP, chained, directory,
    directory_entry, entry_of_table, file, put, root_entry, told, used, words,
)
from writing import Vectors, digits, padded

OLD = "recover_tests::"


def volumes() -> Vectors:
    v = Vectors("volume.txt", "Whole volumes: media as they are read. `last` is the address of the last table's entry, `before AT` that of the table before "
                "the one whose entry is at AT, `state AT` what is there, `states AT..` the commits of several states. What is damaged is "
                "reported as `67 Damaged` shows it, by the address of the first structure that is not as it must be and a cause. The media are made by "
                "hand from docs/FORMAT.md; the structures are those of the other files, and causes from 71 on are of structures that do not agree.")
    v.let("front", padded(front()))
    v.let("formatted", "{front} " + padded(b"".join(FORMATTED)))
    v.let("created", "{formatted} " + padded(b"".join(CREATED)))
    _sound(v)
    _chains(v)
    _shared(v)
    _fronts(v)
    _relations(v)
    _order(v)
    _trees(v)
    _entries(v)
    _tables(v)
    _directories(v)
    return v


def _sound(v: Vectors) -> None:
    v.about("A new volume, and the file `a` of five bytes after it; the CRC is that of all 262 blocks.")
    v.case("a-format", OLD + "states::a_format_is_that_of_the_vectors", "bytes {formatted}", "crc -> 4D12", "last -> 261", f"state 261 -> {NEW}")
    v.case("a-file", OLD + "states::what_was_written_stands", "bytes {created}", "last -> 266", f"state 266 -> {SAID}", f"state 261 -> {NEW}")
    v.about("Sessions of the first version; and a small file in an extent.")
    data = table([0, 7, 5], 4, 1, 1, 1, next_unique=17, commits=1, records=tables.one(7, 1))
    blocks = CREATED[:3] + [block(data), entry_of_table(232, 8, 9)]
    v.case("sessions-of-the-first-version", OLD + "states::sessions_of_the_first_version_are_read", "bytes {formatted}", "bytes " + words(blocks),
           "last -> 266", "state 266 -> " + SAID.replace("version 2", "version 1").replace("entries", "client 7 latest 1 replies 0:1 entries"))
    blocks = [block(b"hello"), file_entry("file", 1, 16, 5, 5, 2), directory(7, 1, A), root_entry(1, 80, 7), used([0, 8, 6]),
              entry_of_table(208, 9, 10)]
    v.case("a-small-file-in-an-extent", OLD + "states::a_small_file_in_a_block_of_its_own_is_read", "bytes {formatted}", "bytes " + words(blocks),
           "last -> 267", "state 267 -> " + SAID.replace("entries 0 7 5", "entries 0 8 6"))
    long_files.extents(v)
    long_files.descriptors(v)
    v.about("A path has at most 16 names.")
    for depth in (16, 17):
        blocks, at = nested(depth)
        entries_ = " ".join(str(number) for number in struct.unpack(f"<{depth + 2}I", blocks[-2][196 : 204 + 4 * depth]))
        answer = f'moment 0 capacity 3000 label "DISC" previous 4 files 0 directories {depth + 1} version 2 next-unique {depth + 16} ' \
                 f"commits {depth} entries {entries_}"
        v.case(f"a-path-of-{depth}-names", OLD + "states::a_path_has_sixteen_names", "bytes {formatted}", "bytes " + words(blocks), f"last -> {at}",
               f"state {at} -> {answer if depth == 16 else told((263, TOO_DEEP))}")


def nested(depth: int) -> "tuple[list[bytes], int]":
    """Directories that lie each in the one before, so many below the root, and the address of the VAT ICB."""
    blocks: "list[bytes]" = []
    above = []
    for level in range(depth, -1, -1):
        first = 5 + len(blocks)
        inner = [] if level == depth else [("a", "directory", level + 2, level + 16)]
        blocks.append(directory(first, max(level, 1), *inner))
        unique = 0 if level == 0 else level + 15
        blocks.append(directory_entry(unique, 1 + len(inner), 40 + 40 * len(inner), first, level + 1))
        above.append(first + 1)
    first = 5 + len(blocks)
    numbers = [0] + above[::-1]
    blocks.append(used(numbers, 4, 0, depth + 1, depth + 16, depth))
    blocks.append(entry_of_table(204 + 4 * depth, first, first + 1))
    return blocks, 257 + first + 1


def pushed_down() -> "tuple[list[bytes], int, int]":
    """Fifteen directories that lie each in the one before, with a file in the last; then another one between the root and the first of
    them, so that the file has 17 names. And the addresses of the two VAT ICBs."""
    blocks = [file(31, 17)]
    numbers = []
    for level in range(15, -1, -1):
        inner = ("a", "directory", level + 2, level + 16) if level < 15 else ("x", "file", 17, 31)
        numbers.append(_put_directory(blocks, max(level, 1), level + 15 if level else 0, level + 1, inner))
    numbers.append(0)
    before = _put_table(blocks, numbers[::-1] + [5], 4, 16, 32, 16)
    first = _put_directory(blocks, 18, 16, 2, ("a", "directory", 3, 17))
    between = _put_directory(blocks, 1, 32, 18, ("a", "directory", 2, 16))
    root = _put_directory(blocks, 1, 0, 1, ("q", "directory", 18, 32))
    after = _put_table(blocks, [0, root, first] + numbers[:-3][::-1] + [5, between], before - 257, 17, 33, 17)
    return blocks, before, after


def _put_directory(blocks: "list[bytes]", above: int, unique: int, address: int, name: "tuple[str, str, int, int]") -> int:
    """Appends a directory with one name, and its entry. The number of that."""
    first = 5 + len(blocks)
    blocks.append(directory(first, above, name))
    blocks.append(directory_entry(unique, 1 + (name[1] == "directory"), 80, first, address))
    return first + 1


def _put_table(blocks: "list[bytes]", entries_: "list[int]", previous: int, count: int, next_unique: int, commits: int) -> int:
    """Appends a table of a volume with one file, and its entry. The address of that."""
    first = 5 + len(blocks)
    blocks.append(used(entries_, previous, 1, count, next_unique, commits))
    blocks.append(entry_of_table(196 + 4 * len(entries_), first, first + 1))
    return 257 + first + 1


def _chains(v: Vectors) -> None:
    v.about("The last table, and the chain from it back to the format. One bit that is changed in a table's entry gives the table before.")
    of = OLD + "chains::"
    v.case("a-blank-medium", of + "a_blank_medium_has_no_table", "last -> none")
    v.case("a-changed-bit-of-the-last-entry", of + "a_changed_bit_gives_the_table_before", "bytes {created}", "flip 266 0..2048", "last -> 261")
    v.case("an-entry-for-another-block", of + "an_entry_for_another_block_is_none", "bytes {created}", "bytes " + padded(entry_of_table(208, 8, 9)),
           "last -> 266")
    v.let("chain", "{created} " + words(chained(2)))
    v.case("a-chain", of + "the_chain_goes_back_to_the_format", "bytes {chain}", "last -> 268", "before 268 -> 266", "before 266 -> 261",
           "before 261 -> none")
    broken = of + "a_broken_chain_is_told"
    v.case("a-count-of-commits-that-is-not-the-next", broken, "bytes {created}", "bytes " + words(chained(3)), f"before 268 -> {told((266, CHAIN))}")
    v.case("a-chain-without-a-link", broken, "bytes {chain}", "flip 266 0", f"before 268 -> {told((266, CHAIN))}")
    v.case("a-chain-without-a-table", broken, "bytes {chain}", "flip 265 0", f"before 268 -> {told((265, 41))}", f"before 262 -> {told((262, CHAIN))}")
    v.about("A commit that is cut leaves the state before it.")
    of += "a_cut_leaves_the_state_before_it"
    for cut in range(5):
        lines = ["bytes {created}", "bytes " + words(RENAMED[:cut])]
        if cut < 4:
            v.case(f"cut-after-{cut}", of, *lines, "last -> 266", "states 266 -> commits 1")
        else:
            v.case("not-cut", of, *lines, "last -> 270", "states 270 -> commits 2", "before 270 -> 266")


def _shared(v: Vectors) -> None:
    v.about("States that share nodes, alone and one after another: damage is reported for each that leads to it.")
    of = OLD + "sharing::"
    v.case("each-state-of-a-chain", of + "each_state_of_a_chain_is_told", "bytes {chain}", "states 268 266 261 -> commits 2 ; commits 1 ; commits 0",
           "states 261 266 268 -> commits 0 ; commits 1 ; commits 2")
    rows: "list[tuple[int, list[int | tuple[int, int]]]]" = [
        (70, [(70, FRONT)] * 3), (257, [(257, 21)] * 3), (258, [2, 1, (258, 31)]), (259, [2, 1, (259, 21)]), (262, [(262, 21), (262, 21), 0]),
        (263, [(263, 31), (263, 31), 0]), (264, [(264, 21), (264, 21), 0]), (266, [2, (266, CHAIN), 0]),
    ]
    for at, seen in rows:
        answer = " ; ".join(f"commits {one}" if isinstance(one, int) else told(one) for one in seen)
        v.case(f"states-with-block-{at}-damaged", of + "damage_is_told_as_it_is_of_each_state_alone", "bytes {chain}", f"flip {at} 0",
               f"states 268 266 261 -> {answer}")
    blocks = list(FORMATTED)
    blocks[2] = root_entry(1, 40, 5)
    blocks += [directory(5, 1), used([0, 2], 4, 0, 1, 16, 1), entry_of_table(204, 6, 7)]
    v.case("data-behind-an-older-state", of + "data_behind_an_older_state_are_told", "bytes {front}", "bytes " + words(blocks),
           f"states 264 261 264 -> commits 1 ; {told((259, RANGE))} ; commits 1")
    blocks = [CREATED[0], directory(6, 1, ("a", "file", 3, 16)), CREATED[2], used([0, 7, NONE, 5]), entry_of_table(212, 8, 9)]
    blocks += [directory(10, 1, A), root_entry(1, 80, 10), used([0, 11, 5], 9, commits=2), entry_of_table(208, 12, 13)]
    v.case("an-entry-of-one-virtual-address", of + "an_entry_is_that_of_one_virtual_address", "bytes {formatted}", "bytes " + words(blocks),
           f"states 270 266 270 -> commits 2 ; {told((262, 21))} ; commits 2")
    blocks = [used([0, 7, 7], 9, commits=2), entry_of_table(208, 10, 11)]
    v.case("the-roots-entry-at-another-address", "", "bytes {created}", "bytes " + words(blocks),
           f"states 266 268 -> commits 1 ; {told((264, 21))}")
    blocks, before, after = pushed_down()
    v.case("a-file-that-a-later-state-has-too-deep", "", "bytes {formatted}", "bytes " + words(blocks),
           f"states {before} {after} -> commits 16 ; {told((262, TOO_DEEP))}")


def _fronts(v: Vectors) -> None:
    v.about("The volume header is compared byte by byte, and has one label, moment and capacity (71); a volume is not larger than the drive (72).")
    of = OLD + "relations::"
    for at, byte in [(0, 0), (16, 2047), (32, 30), (34, 192), (64, 80), (256, 16)]:
        v.case(f"front-{at}-{byte}", of + "the_front_is_held_byte_by_byte", "bytes {formatted}", f"flip {at} {byte}", f"state 261 -> {told((at, FRONT))}")
    for at, identifier, changes, seen, _ in fronts.CHANGED:
        data = fronts.resealed(layouts.front_block(at, "DISC", 0, 3_000), identifier, at, changes)
        v.case(f"front-{at}-{tables.named(changes)}", of + "the_front_has_one_label_moment_and_capacity", "bytes {formatted}", put(at, data),
               f"state 261 -> {told((seen, FRONT))}")
    v.case("a-volume-larger-than-the-drive", of + "a_larger_volume_than_the_drive_is_told", "capacity 2999", "bytes {formatted}",
           f"state 261 -> {told((34, RANGE))}")
    v.case("another-label-in-the-table", of + "labels_and_moments_agree", "bytes {formatted}",
           put(260, table([0, 2], NONE, commits=0, label="DISK")), f"state 261 -> {told((260, LABEL))}")
    v.case("another-moment-in-the-file-set", of + "labels_and_moments_agree", "bytes {formatted}", put(257, file_set("DISC", 1)),
           f"state 261 -> {told((257, LABEL))}")


def damaged(v: Vectors, name: str, of: str, blocks: "dict[int, bytes]", seen: "tuple[int, int]") -> None:
    """A volume whose last commit is the one of `created` with other blocks in their places."""
    v.case(name, of, "bytes {created}", *(put(at, data) for at, data in blocks.items()), f"state 266 -> {told(seen)}")


def _relations(v: Vectors) -> None:
    v.about("Data that does not lie below the table's entry, and unused virtual addresses (72).")
    of = OLD + "relations::"
    ranges = of + "ranges_are_told"
    damaged(v, "an-unused-virtual-address", ranges, {265: used([0, 7, NONE, 5]), 266: entry_of_table(212, 8, 9)}, (263, RANGE))
    damaged(v, "a-table-behind-its-entry", ranges, {266: entry_of_table(208, 9, 9)}, (266, RANGE))
    damaged(v, "a-root-behind-the-table", ranges, {264: root_entry(1, 80, 9)}, (264, RANGE))
    v.about("A node that is not what its directory says (73): its unique ID, its kind, the directory above, its links.")
    identities = of + "identities_are_told"
    damaged(v, "another-unique-id", identities, {262: file(17, 2)}, (262, IDENTITY))
    damaged(v, "another-kind", identities, {263: directory(6, 1, ("a", "directory", 2, 16))}, (264, IDENTITY))
    damaged(v, "another-parent", identities, {263: directory(6, 2, A)}, (263, IDENTITY))
    damaged(v, "more-links", identities, {264: root_entry(2, 80, 6)}, (264, IDENTITY))
    for links in (0, 2):
        damaged(v, f"a-file-of-{links}-links", of + "a_file_has_one_link", {262: file(16, 2, links)}, (262, IDENTITY))
    damaged(v, "a-root-with-a-unique-id", of + "unique_ids_are_looked_at", {264: directory_entry(1, 1, 80, 6, 1)}, (264, IDENTITY))
    blocks = [file(16, 2), file(16, 3), directory(7, 1, A, ("b", "file", 3, 16)), root_entry(1, 120, 7), used([0, 8, 5, 6], 4, 2, 1, 18, 2),
              entry_of_table(212, 9, 10)]
    v.case("a-unique-id-twice", of + "unique_ids_are_looked_at", "bytes {formatted}", "bytes " + words(blocks), f"state 267 -> {told((263, IDENTITY))}")
    v.about("Two names of one node (74), and counts that are not those of the tree or of the place (75).")
    damaged(v, "a-file-of-two-names", of + "a_node_of_two_names_is_told",
            {263: directory(6, 1, A, ("b", "file", 2, 16)), 264: root_entry(1, 120, 6)}, (262, REACHED_TWICE))
    counts = of + "counts_are_told"
    damaged(v, "more-files", counts, {265: used([0, 7, 5, 5], files=2), 266: entry_of_table(212, 8, 9)}, (265, COUNTS))
    damaged(v, "more-commits", counts, {265: used([0, 7, 5], commits=3)}, (265, COUNTS))
    damaged(v, "more-unique-ids", counts, {265: used([0, 7, 5], next_unique=18)}, (265, COUNTS))
    v.about("A structure reports its own fault.")
    for at, byte, cause in [(257, 0, 21), (262, 0, 21), (263, 0, 31), (264, 2047, 27), (265, 4, 42)]:
        v.case(f"bit-{at}-{byte}", of + "a_structure_tells_its_own_fault", "bytes {created}", f"flip {at} {byte}", f"state 266 -> {told((at, cause))}")


def _order(v: Vectors) -> None:
    v.about("The first structure that is not as it must be, with all that is reported after it.")
    of = OLD + "relations::the_first_structure_is_told"
    whole = used([0, 7, 5])
    root = root_entry(1, 80, 6)
    names = directory(6, 1, A)
    rows = [
        (266, RANGE, entry_of_table(208, 9, 9)), (265, 42, changed(whole, [(4, 7)])), (265, LABEL, used([0, 7, 5], label="DISK")),
        (257, 21, changed(file_set(), [(28, 2)])), (257, LABEL, file_set("DISC", 1)), (264, 21, changed(root, [(20, 3)])),
        (264, IDENTITY, directory_entry(1, 1, 80, 6, 1)), (264, RANGE, root_entry(1, 80, 9)), (263, 31, changed(names, [(16, 2)])),
        (263, IDENTITY, directory(6, 2, A)), (264, IDENTITY, root_entry(2, 80, 6)), (262, 21, changed(file(16, 2), [(20, 3)])),
        (262, IDENTITY, file(17, 2)), (265, COUNTS, used([0, 7, 5], next_unique=18)),
    ]
    puts: "dict[int, bytes]" = {}
    for index in range(len(rows) - 1, -1, -1):
        at, cause, data = rows[index]
        puts[at] = data
        damaged(v, f"faults-from-{index + 1}-on", of, dict(puts), (at, cause))
    lines = [put(at, data) for at, data in puts.items()]
    v.case("faults-and-a-smaller-drive", of, "capacity 2999", "bytes {created}", *lines, f"state 266 -> {told((34, RANGE))}")
    v.case("faults-and-the-front", of, "bytes {created}", *lines, "flip 256 16", f"state 266 -> {told((256, FRONT))}")


D = ("d", "directory", 2, 16)


def below(root: "list[tuple[str, str, int, int]]", links: int, names: "list[tuple[str, str, int, int]]", above: int = 1) -> "list[bytes]":
    """A root with these names of directories, the first of which has this link count and these names. Its data are at 262, its
    entry at 263, and those of the root after them."""
    return [directory(5, above, *names), directory_entry(16, links, 40 + 40 * len(names), 5, 2), directory(7, 1, *root),
            root_entry(1 + len(root), 40 + 40 * len(root), 7), used([0, 8, 6], 4, 0, 2), entry_of_table(208, 9, 10)]


def _trees(v: Vectors) -> None:
    v.about("A directory is reached once (74), also from itself; where its link is not counted, that is reported first (73).")
    of = OLD + "relations::a_directory_is_reached_once"
    e, as_file, root = ("e", "directory", 2, 16), ("e", "file", 2, 16), ("e", "file", 1, 0)
    said = SAID.replace("files 1 directories 1", "files 0 directories 2").replace("entries 0 7 5", "entries 0 8 6")
    for name, blocks, answer in [
        ("a-directory-in-the-root", below([D], 1, []), said), ("a-directory-twice", below([D, e], 1, []), told((263, REACHED_TWICE))),
        ("a-directory-in-itself", below([D], 2, [e]), told((263, REACHED_TWICE))),
        ("a-directory-in-itself-as-a-file", below([D], 1, [as_file]), told((263, REACHED_TWICE))),
        ("the-root-as-a-file", below([D], 1, [root]), told((265, REACHED_TWICE))),
        ("a-directory-in-itself-that-is-not-counted", below([D], 1, [e]), told((263, IDENTITY))),
    ]:
        v.case(name, of, "bytes {formatted}", "bytes " + words(blocks), f"state 267 -> {answer}")
    v.about("A directory says which is above it.")
    for above in (0, 2, 3):
        v.case(f"a-directory-below-{above}", OLD + "relations::a_directory_says_what_is_above_it", "bytes {formatted}",
               "bytes " + words(below([D], 1, [], above)), f"state 267 -> {told((262, IDENTITY))}")


def _entries(v: Vectors) -> None:
    v.about("The root's entry with the faults of entry.txt, and one after the table.")
    of = OLD + "entries::"
    for cause, tests, changes, end in entries.ROOT_FAULTS:
        if OLD in tests:
            here = " ".join(test for test in tests.split() if test.startswith(OLD))
            damaged(v, f"root-{entries._name(changes, end, 192)}", here, {264: entries.resealed(root_entry(1, 80, 6), changes, end, 1)}, (264, cause))
    sound = entries.resealed(root_entry(1, 80, 6), [], 192, 1)
    v.case("root-as-it-is", of + "faults_of_the_entry_of_a_directory", "bytes {created}", put(264, sound), f"state 266 -> {SAID}")
    last = [(180, 0xCE), (181, 0xDC), (182, 6)]
    damaged(v, "root-at-the-last-block", of + "lengths_and_ends_of_an_entry", {264: entries.resealed(root_entry(1, 80, 6), last, 192, 1)}, (264, RANGE))
    for name, identifier, location, end in [("address", 261, 2, 192), ("descriptor", 260, 1, 192), ("end", 261, 1, 176)]:
        damaged(v, f"root-of-another-{name}", of + "an_entry_for_another_address_is_told",
                {264: entries.resealed(root_entry(1, 80, 6), [], end, location, identifier)}, (264, 21))
    _files(v)
    _sets(v)
    v.about("What makes an entry none of a table: then the table before is the last, and there is no state.")
    for _, tests, changes, end in entries.TABLE_FAULTS:
        if OLD in tests:
            _no_table(v, f"table-{entries._name(changes, end, 192)}", entries.resealed(entry_of_table(208, 8, 9), changes, end, 9))
    _no_table(v, "table-for-another-block", entry_of_table(208, 8, 8))
    _no_table(v, "a-file-for-a-table", file(16, 9))
    _no_table(v, "a-directory-for-a-table", directory_entry(16, 1, 80, 6, 9))


def _no_table(v: Vectors, name: str, data: bytes) -> None:
    refused = told((266, CHAIN))
    v.case(name, OLD + "entries::a_faulty_entry_is_no_tables", "bytes {created}", put(266, data), "last -> 261", f"state 266 -> {refused}",
           f"before 266 -> {refused}")


FILE_FAULTS: "list[tuple[int, int, layouts.Changes]]" = [
    (22, 181, [(20, 0)]), (23, 181, [(27, 7)]), (24, 176, [(34, 2)]), (24, 181, [(44, 0xA5), (45, 0x14)]), (24, 181, [(27, 4), (44, 0xA5), (45, 0x14)]),
    (24, 181, [(159, 1)]), (25, 181, [(56, 6)]), (25, 181, [(64, 1)]), (25, 176, [(56, 0), (172, 0)]),
    (25, 176, [(56, 0x51), (57, 7), (172, 0x51), (173, 7)]), (27, 181, [(181, 1)]), (27, 181, [(2047, 1)]), (21, 176, []),
]


def _files(v: Vectors) -> None:
    v.about("The file's entry with faults of entry.txt; and the first of several in the root's.")
    for cause, end, changes in FILE_FAULTS:
        damaged(v, f"file-{entries._name(changes, end, 181)}", OLD + "entries::faults_of_the_entry_of_a_file",
                {262: entries.resealed(file(16, 2), changes, end, 2)}, (262, cause))
    rows = [(22, (20, 3)), (23, (27, 6)), (24, (36, 0)), (25, (64, 2)), (26, (184, 1)), (27, (2047, 1))]
    of = OLD + "entries::the_first_fault_of_an_entry_is_told"
    for kept, (cause, _) in enumerate(rows):
        data = changed(root_entry(1, 80, 6), [change for _, change in rows[kept:]])
        damaged(v, f"root-faults-from-{cause}-on", of, {264: entries.resealed(data, [], 192, 1)}, (264, cause))
        if kept < 5:
            damaged(v, f"root-faults-from-{cause}-on-unsealed", of, {264: data}, (264, 21))


SET_FAULTS = [
    (24, [(20, 13)]), (24, [(28, 2)]), (24, [(32, 2)]), (24, [(40, 1)]), (24, [(48, 1)]), (24, [(116, 75)]), (24, [(240, 1)]), (24, [(304, 7)]),
    (24, [(336, 1)]), (24, [(404, 2)]), (24, [(408, 0)]), (24, [(440, 2)]), (24, [(448, 1)]), (24, [(511, 1)]), (24, [(28, 2), (512, 1)]),
    (27, [(512, 1)]), (27, [(2047, 1)]),
]


def _sets(v: Vectors) -> None:
    v.about("The file set with faults of entry.txt.")
    of = OLD + "entries::faults_of_a_file_set"
    v.case("file-set-as-it-is", of, "bytes {created}", put(257, entries.resealed(file_set(), [], 512, 0, 256)), f"state 266 -> {SAID}")
    for cause, changes in SET_FAULTS:
        damaged(v, f"file-set-{tables.named(changes)}", of, {257: entries.resealed(file_set(), changes, 512, 0, 256)}, (257, cause))
    for name, identifier, location, end in [("address", 256, 1, 512), ("end", 256, 0, 480), ("descriptor", 257, 0, 512)]:
        damaged(v, f"file-set-of-another-{name}", of, {257: entries.resealed(file_set(), [(28, 2), (512, 1)], end, location, identifier)}, (257, 21))


def _table(v: Vectors, name: str, of: str, data: bytes, cause: "int | None", said: str = "") -> None:
    """The volume whose last commit is the one of `created` with these bytes as its table's data, at 265, and a table after it."""
    count = -(-len(data) // BLOCK)
    at = 265 + count
    blocks = data + bytes(-len(data) % BLOCK) + entry_of_table(len(data), 8, 8 + count)
    blocks += used([0, 7, 5], 8 + count, commits=2) + entry_of_table(208, 9 + count, 10 + count)
    lines = ["bytes {formatted} " + words(CREATED[:3]), "bytes " + padded(blocks), f"last -> {at + 2}", f"states {at + 2} -> commits 2"]
    if cause is None:
        v.case(name, of, *lines, f"states {at} -> commits 1", f"before {at} -> 261", f"before {at + 2} -> {at}")
    else:
        refused = told((265, cause))
        v.case(name, of, *lines, f"state {at} -> {refused}", f"before {at} -> {refused}", f"before {at + 2} -> {refused}")


def _tables(v: Vectors) -> None:
    v.about("Tables with the faults of table.txt; a step of the chain from the table reports the same, and so does one to it from a later table.")
    of = OLD + "tables::"
    whole = tables.used(tables.one(7, 1))
    _table(v, "table-as-it-is", of + "faults_of_a_tables_bytes", whole, None)
    for cause, changes in tables.FAULTS:
        _table(v, f"table-data-{tables.named(changes)}", of + "faults_of_a_tables_bytes", changed(whole, changes), cause)
    _table(v, "table-without-a-record", of + "lengths_of_a_table", tables.used(), None)
    for length, cause in tables.LENGTHS:
        _table(v, f"table-of-{length}-bytes", of + "lengths_of_a_table", tables.used()[:length], cause)
    for name, wrong in tables.WRONG:
        _table(v, f"record-by-{name}", of + "faults_of_a_record", tables.used(tables.one(8, 1, 10) + wrong), 44)
    many = b"".join(tables.one(client, 1) for client in range(1, 66))
    _table(v, "table-of-64-clients", of + "faults_of_many_clients", tables.used(many[:-24]), None)
    _table(v, "table-of-65-clients", of + "faults_of_many_clients", tables.used(many), 44)
    _table(v, "table-of-a-client-twice", of + "faults_of_many_clients", tables.used(tables.TWICE), 45)
    for name, data in tables.COUNTS:
        _table(v, f"table-by-{name}", of + "counts_of_a_table", data, 47)
    _table(v, "table-of-4097-entries", of + "counts_of_a_table", tables.used(entries=tables.MOST), None)
    _table(v, "table-of-4098-entries", of + "counts_of_a_table", tables.used(entries=tables.MOST + [NONE]), 47)
    whole = tables.used(tables.one(7, 1) + tables.one(8, 1))
    of += "the_first_fault_of_a_table_is_told"
    _table(v, "table-of-two-records", of, whole, None)
    for kept, (cause, _, _) in enumerate(tables.IN_ORDER):
        _table(v, f"table-faults-from-{cause}-on", of, changed(whole, [(at, byte) for _, at, byte in tables.IN_ORDER[kept:]]), cause)


def _data(v: Vectors, name: str, of: str, data: bytes, seen: "tuple[int, int] | None", size: int) -> None:
    """The root has these bytes in the blocks from 263 on, and of them so many as its data; the file lies before them."""
    count = -(-len(data) // BLOCK)
    blocks = data + bytes(-len(data) % BLOCK) + root_entry(1, size, 6) + used([0, 6 + count, 5]) + entry_of_table(208, 7 + count, 8 + count)
    at = 265 + count
    answer = told(seen) if seen else SAID.replace("entries 0 7 5", f"entries 0 {6 + count} 5")
    said = padded(blocks)
    if data.startswith(directories.letters("a" * 20)[: directories.FRONT]):
        front = directories.FRONT
        said = "{identifiers} " + digits(blocks[front:BLOCK]) + " " + padded(blocks[BLOCK:])
    v.case(name, of, "bytes {formatted} " + padded(CREATED[0]), "bytes " + said, f"state {at} -> {answer}")


def _directories(v: Vectors) -> None:
    v.about("The root's data with the faults of directory.txt. Names that all lead to one file are reported as that (74), which comes after the "
            "directory's own faults. `identifiers` are those of the parent and of 47 names.")
    v.let("identifiers", digits(directories.letters("a" * 20)[: directories.FRONT]))
    directories.directories()
    for name, of, data, size, cause in directories.ROWS:
        several = cause is None and data.count(b"\x01\x01\x03\0") > 2
        _data(v, f"names-{name}", of, data, (263, cause) if cause else (262, REACHED_TWICE) if several else None, size)
