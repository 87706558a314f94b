"""Virtual allocation tables (table.txt)."""

from layouts import Changes, NONE, changed, file_entry, record, reply, table
from writing import Vectors, digits, padded

OLD = "codec_tests::table::"
FIRST = "codec_tests::first_faults::"
LATER = "recover_tests::tables::"

# The faults of a table, as `67 Damaged` shows them.
HEADER, LABEL, VERSION, RECORD, CLIENT_TWICE, ENTRY, COUNT = range(41, 48)

FORMATTED = table([0, 2], NONE, commits=0)
USED = table([0, 7, 5], 4, 1, 1, next_unique=17, commits=1, records=record(7, 1, [reply(0, 1)]))


def used(records: bytes = b"", entries: "list[int]" = [0, 7, 5], files: int = 1, directories: int = 1, clients: "int | None" = None) -> bytes:
    """A table of the first version, after one commit that made a file."""
    return table(entries, 4, files, directories, 1, clients, 17, 1, records)


def one(client: int, latest: int, code: int = 0, commit: int = 1, reserved: int = 0) -> bytes:
    """A record of the first version."""
    return record(client, latest, [reply(code, commit, reserved)], 1)


def tables() -> Vectors:
    v = Vectors("table.txt", "The data of virtual allocation tables (UDF 2.01 2.2.10) with the sessions of docs/FORMAT.md. `table BLOCK` reads the "
                "one whose entry is at that block number. A reply is its code and its commit; `none*9` are nine unused entries. Faults: "
                "41 a length, 42 the label, 43 the revisions, 44 a record, 45 a client that is there twice, 46 an entry, 47 a count.")
    _sound(v)
    _head(v)
    _records(v)
    _clients(v)
    _entries(v)
    _order(v)
    _starts(v)
    return v


def _table(v: Vectors, name: str, of: str, data: bytes, answer: str, icb: int = 9) -> None:
    v.case(name, of, "bytes " + digits(data), f"table {icb} -> {answer}")


def _fault(v: Vectors, name: str, of: str, fault: int, data: bytes) -> None:
    _table(v, name, of, data, f"fault {fault}")


def _sound(v: Vectors) -> None:
    v.about("The table of a new volume, and the one after the example of docs/PROTOCOL.md; the same with sessions of the first version, and "
            "a record with the greatest number.")
    _table(v, "a-new-volume", OLD + "new_volume", FORMATTED,
           'label "DISC" previous none files 0 directories 1 version 2 next-unique 16 commits 0 entries 0 2', 4)
    said = 'label "DISC" previous 4 files 1 directories 1 version {} next-unique 17 commits 1 client 7 latest 1 replies 0:1 entries 0 {}'
    _table(v, "a-used-volume", f"{OLD}used_volume {OLD}head_faults", USED, said.format(2, "7 5"))
    data = table([0, 8, 6], 4, 1, 1, 1, next_unique=17, commits=1, records=record(7, 1, [reply(0, 1)], 1))
    assert len(data) == 232 and data[:4] == bytes([220, 0, 68, 0])
    _table(v, "the-first-version", OLD + "first_version", data, said.format(1, "8 6"), 10)
    data = table([0, 2], records=record(7, 2**64 - 1, [reply(0, 1)]))
    _table(v, "the-greatest-number", OLD + "greatest_number", data, 'label "DISC" previous 4 files 0 directories 1 version 2 next-unique 16 '
           "commits 4 client 7 latest 18446744073709551615 replies 0:1 entries 0 2")


def _head(v: Vectors) -> None:
    v.about("Faults of the head of the used table: its lengths, the sessions' lengths, what is reserved, the table before, which is none before "
            "the first alone, the label, the revisions.")
    of = OLD + "head_faults"
    for size in (195, 255):
        _fault(v, f"{size}-bytes", of, HEADER, USED[:size])
    for at, byte in [(0, 0xF8), (2, 0x60), (186, 2), (150, 1), (132, 9), (192, 0), (184, 3)]:
        _fault(v, f"used-{at}-{byte:02x}", of, HEADER, changed(USED, [(at, byte)]))
    _fault(v, "none-before-and-four-commits", of, HEADER, table([0, 2], NONE))
    for at, byte, fault in [(131, 128, LABEL), (100, 1, LABEL), (144, 0, VERSION), (146, 0, VERSION), (148, 0, VERSION)]:
        _fault(v, f"used-{at}-{byte:02x}", of, fault, changed(USED, [(at, byte)]))
    v.about("The same of a table of the first version, whose records are shorter.")
    of = LATER + "faults_of_a_tables_bytes"
    whole = used(one(7, 1))
    _table(v, "first-version", of, whole, 'label "DISC" previous 4 files 1 directories 1 version 1 next-unique 17 commits 1 client 7 latest 1 '
           "replies 0:1 entries 0 7 5")
    for fault, changes in FAULTS:
        _fault(v, "first-version-" + named(changes), of, fault, changed(whole, changes))
    for length, fault in LENGTHS:
        _fault(v, f"{length}-bytes-of-the-first-version", LATER + "lengths_of_a_table", fault, used()[:length])
    _table(v, "no-record-of-the-first-version", LATER + "lengths_of_a_table", used(), 'label "DISC" previous 4 files 1 directories 1 version 1 '
           "next-unique 17 commits 1 entries 0 7 5")


def named(changes: Changes) -> str:
    return "-".join(f"{at}-{byte:02x}" for at, byte in changes)


def _four(at: int) -> Changes:
    return [(at + more, 255) for more in range(4)]


# Faults in the bytes of a table of the first version.
FAULTS: "list[tuple[int, Changes]]" = [
    (HEADER, [(0, 224)]), (HEADER, [(2, 72)]), (HEADER, [(186, 2)]), (HEADER, [(186, 0)]), (HEADER, [(184, 2)]), (HEADER, [(150, 1)]),
    (HEADER, [(132, 9)]), (HEADER, _four(132)), (HEADER, [(192, 0)]), (LABEL, [(4, 7)]), (LABEL, [(131, 128)]), (LABEL, [(100, 1)]),
    (VERSION, [(144, 0)]), (VERSION, [(147, 3)]), (VERSION, [(148, 0x50)]), (RECORD, [(153, 0)]), (RECORD, [(183, 1)]), (RECORD, [(184, 3)]),
    (ENTRY, [(220, 9)]), (ENTRY, [(224, 10)]), (ENTRY, [(228, 9)]), (ENTRY, _four(220)), (ENTRY, _four(224)), (COUNT, _four(228)),
    (COUNT, [(188, 15)]),
]

LENGTHS = [(1, HEADER), (195, HEADER), (207, HEADER), (196, COUNT), (200, COUNT), (204, COUNT)]


def _records(v: Vectors) -> None:
    v.about("Records: the EntityID of the sessions and its suffix, a version to come, one to four replies, the newest first.")
    of = OLD + "record_faults"
    _fault(v, "used-153-00", of, RECORD, changed(USED, [(153, 0)]))
    _fault(v, "used-183-01", of, RECORD, changed(USED, [(183, 1)]))
    _fault(v, "version-3", of, RECORD, table([0, 2], version=3))
    first, second, third, fourth, none = reply(0, 1), reply(3, 2), reply(10, 3), reply(0, 4), reply(0, 0)
    for kept, said in [([first], "0:1"), ([second, first], "3:2 0:1"), ([fourth, second, first], "0:4 3:2 0:1"),
                       ([fourth, third, second, first], "0:4 10:3 3:2 0:1")]:
        _table(v, f"replies-{len(kept)}", of, _root(7, 4, kept), 'label "DISC" previous 4 files 0 directories 1 version 2 next-unique 16 '
               f"commits 4 client 7 latest 4 replies {said} entries 0 2")
    _fault(v, "client-0", of, RECORD, _root(0, 4, [first]))
    _fault(v, "number-0", of, RECORD, _root(7, 0, [first]))
    _fault(v, "two-replies-to-one-number", of, RECORD, _root(7, 1, [second, first]))
    wrong_replies: "list[tuple[str, list[bytes]]]" = [
        ("no-reply", []), ("code-11", [reply(11, 1)]), ("a-reserved-field", [reply(0, 1, 1)]), ("a-commit-to-come", [reply(0, 5)]),
        ("the-oldest-first", [first, second]), ("one-commit-twice", [second, second]), ("a-gap", [third, none, first]),
        ("a-gap-before-the-last", [third, second, none, first]), ("a-code-without-commit", [third, reply(1, 0)]),
        ("a-field-without-commit", [third, reply(0, 0, 1)]),
    ]
    for name, replies in wrong_replies:
        _fault(v, f"replies-by-{name}", of, RECORD, _root(7, 4, replies))
    of = LATER + "faults_of_a_record"
    for name, wrong in WRONG:
        _fault(v, f"first-version-{name}", of, RECORD, used(one(8, 1, 10) + wrong))


WRONG = [("client-0", one(0, 1)), ("number-0", one(7, 0)), ("code-11", one(7, 1, 11)), ("a-reserved-field", one(7, 1, reserved=1)),
         ("no-commit", one(7, 1, commit=0)), ("a-commit-to-come", one(7, 1, commit=2))]


def _root(client: int, latest: int, replies: "list[bytes]") -> bytes:
    return table([0, 2], records=record(client, latest, replies))


def _clients(v: Vectors) -> None:
    v.about("At most 64 clients, each once.")
    many = b"".join(record(client, 1, [reply(0, 1)]) for client in range(1, 66))
    said = " ".join(f"client {client} latest 1 replies 0:1" for client in range(1, 65))
    head = 'label "DISC" previous 4 files 0 directories 1 version 2 next-unique 16 commits 4'
    _table(v, "64-clients", OLD + "clients", table([0, 2], records=many[:-48]), f"{head} {said} entries 0 2")
    _fault(v, "65-clients", OLD + "clients", RECORD, table([0, 2], records=many))
    twice = record(7, 1, [reply(0, 1)]) + record(8, 1, [reply(0, 2)]) + record(7, 2, [reply(0, 3)])
    _fault(v, "a-client-twice", OLD + "clients", CLIENT_TWICE, table([0, 2], records=twice))
    of = LATER + "faults_of_many_clients"
    many = b"".join(one(client, 1) for client in range(1, 66))
    head = 'label "DISC" previous 4 files 1 directories 1 version 1 next-unique 17 commits 1'
    _table(v, "64-clients-of-the-first-version", of, used(many[:-24]), f"{head} {said} entries 0 7 5")
    _fault(v, "65-clients-of-the-first-version", of, RECORD, used(many))
    _fault(v, "a-client-twice-in-the-first-version", of, CLIENT_TWICE, used(TWICE))


TWICE = one(7, 1) + one(8, 1) + one(7, 2)


def _entries(v: Vectors) -> None:
    v.about("Entries: below the block number of the table's own entry, the file set's and the root's used, as many as there are nodes, at "
            "most 4,097.")
    of = OLD + "entry_faults"
    head = 'label "DISC" previous 4 files 0 directories 1 version 2 next-unique 16 commits 4 entries 0 2'
    _table(v, "an-unused-entry", of, table([0, 2, NONE]), head + " none")
    for name, entries in [("the-root-at-the-table", [0, 9]), ("no-file-set", [NONE, 2]), ("no-root", [0, NONE])]:
        _fault(v, f"entries-by-{name}", of, ENTRY, table(entries))
    few: "list[tuple[str, list[int]]]" = [("none", []), ("one", [0]), ("one-too-many", [0, 2, 3])]
    for name, entries in few:
        _fault(v, f"entries-by-{name}", of, COUNT, table(entries))
    _fault(v, "unique-ids-from-15-on", of, COUNT, table([0, 2], next_unique=15))
    _table(v, "4097-entries", of, table([0, 2] + [NONE] * 4_095), head + " none*4095")
    _fault(v, "4098-entries", of, COUNT, table([0, 2] + [NONE] * 4_096))
    of = LATER + "counts_of_a_table"
    for name, data in COUNTS:
        _fault(v, f"counts-by-{name}", of, COUNT, data)
    head = 'label "DISC" previous 4 files 1 directories 1 version 1 next-unique 17 commits 1 entries 0 7 5'
    _table(v, "4097-entries-of-the-first-version", of, used(entries=MOST), head + " none*4094")
    _fault(v, "4098-entries-of-the-first-version", of, COUNT, used(entries=MOST + [NONE]))


MOST = [0, 7, 5] + [NONE] * 4_094
COUNTS = [("a-file-more", used(files=2)), ("no-directory", used(directories=0)), ("all-files", used(files=NONE, directories=2)),
          ("an-entry-more", used(entries=[0, 7, 5, 5])), ("the-file-set-alone", used(entries=[0], files=0, directories=0))]


def _order(v: Vectors) -> None:
    v.about("The first of several faults of a table with two records: each with the next one, and each with all after it.")
    of = FIRST + "of_a_table"
    records = record(7, 1, [reply(0, 1)]) + record(8, 1, [reply(0, 1)])
    whole = table([0, 7, 5], 4, 1, 1, next_unique=17, commits=2, records=records)
    rows = [(HEADER, 150, 1), (LABEL, 4, 7), (VERSION, 144, 0), (RECORD, 153, 0), (CLIENT_TWICE, 244, 7), (ENTRY, 300, 9), (COUNT, 188, 15)]
    _table(v, "two-records", of, whole, 'label "DISC" previous 4 files 1 directories 1 version 2 next-unique 17 commits 2 '
           "client 7 latest 1 replies 0:1 client 8 latest 1 replies 0:1 entries 0 7 5")
    for fault, at, byte in rows:
        _fault(v, f"one-fault-{fault}", of, fault, changed(whole, [(at, byte)]))
    for (fault, at, byte), (other, behind, more) in zip(rows, rows[1:]):
        _fault(v, f"faults-{fault}-and-{other}", of, fault, changed(whole, [(at, byte), (behind, more)]))
    of = LATER + "the_first_fault_of_a_table_is_told"
    whole = used(one(7, 1) + one(8, 1))
    _table(v, "two-records-of-the-first-version", of, whole, 'label "DISC" previous 4 files 1 directories 1 version 1 next-unique 17 commits 1 '
           "client 7 latest 1 replies 0:1 client 8 latest 1 replies 0:1 entries 0 7 5")
    for kept, (fault, _, _) in enumerate(IN_ORDER):
        _fault(v, f"faults-from-{fault}-on", of, fault, changed(whole, [(at, byte) for _, at, byte in IN_ORDER[kept:]]))


IN_ORDER = [(HEADER, 150, 1), (LABEL, 4, 7), (VERSION, 144, 0), (RECORD, 153, 0), (CLIENT_TWICE, 220, 7), (ENTRY, 252, 9), (COUNT, 188, 15)]


def _starts(v: Vectors) -> None:
    v.about("Whether a block is a table's entry at a block number, and the least block number from one on at which none of the blocks would be "
            "one (docs/FORMAT.md, Where data goes).")
    entry = file_entry("table", 0, 0, 204, 3, 5)
    of = OLD + "table_entries"
    v.case("an-entry-at-its-place", f"{of} {OLD}clear_starts", "bytes " + padded(entry), "is-table-entry 5 -> yes", "is-table-entry 6 -> no",
           "clear-start 4 -> 4", "clear-start 5 -> 6")
    v.case("a-damaged-entry", of, "bytes " + padded(changed(entry, [(60, 1)])), "is-table-entry 5 -> no")
    of = OLD + "clear_starts"
    v.case("no-bytes", of, "clear-start 5 -> 5")
    v.case("a-text", of, 'bytes "hello"', "clear-start 5 -> 5")
    v.case("an-entry-without-its-zeros", of, "bytes " + digits(entry[:188]), "clear-start 5 -> 6")
    v.case("two-entries", of, "bytes " + padded(entry + file_entry("table", 0, 0, 204, 3, 7)), "clear-start 5 -> 7")
    blocks = b"".join(file_entry("table", 0, 0, 204, 3, 5 + 2 * index) for index in range(512))
    v.case("512-entries", OLD + "blocks_that_imitate_at_every_start", *("bytes " + padded(blocks[at : at + 2048 * 8])
           for at in range(0, len(blocks), 2048 * 8)), "clear-start 5 -> 517")
    data = USED[:244] + b"\xFF" * 4 * 451 + file_entry("table", 0, 0, 204, 3, 11)
    assert len(data) == 4_096
    v.case("a-table-whose-second-block-is-an-entry", OLD + "table_whose_second_block_imitates", "bytes " + padded(data), "clear-start 10 -> 11")
