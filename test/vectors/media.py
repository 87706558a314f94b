"""What the media of volume.txt are made of: a format, what commits write after it, and the words for them."""

from layouts import NONE, block, file_entry, file_set, lay, table
from writing import padded

# The causes that are seen only where structures are compared with each other.
FRONT, RANGE, IDENTITY, REACHED_TWICE, COUNTS, TOO_DEEP, LABEL, CHAIN = range(71, 79)


def directory_entry(unique: int, links: int, size: int, first: int, address: int) -> bytes:
    return file_entry("directory", links, unique, size, first, address)


def root_entry(links: int, size: int, first: int) -> bytes:
    return directory_entry(0, links, size, first, 1)


def entry_of_table(size: int, first: int, number: int) -> bytes:
    return file_entry("table", 0, 0, size, first, number)


def file(unique: int, address: int, links: int = 1) -> bytes:
    return file_entry("file", links, unique, 5, b"hello", address)


def directory(first: int, above: int, *names: "tuple[str, str, int, int]") -> bytes:
    return block(lay(list(names), above, first))


def used(entries_: "list[int]", previous: int = 4, files: int = 1, count: int = 1, next_unique: int = 17, commits: int = 1,
         label: str = "DISC") -> bytes:
    return block(table(entries_, previous, files, count, 2, 0, next_unique, commits, label=label))


A = ("a", "file", 2, 16)

# A format after the volume header, at the addresses 257 to 261.
FORMATTED = [file_set(), directory(1, 1), root_entry(1, 40, 1), block(table([0, 2], NONE, commits=0)), entry_of_table(204, 3, 4)]

# What a commit writes that makes a file `a` in the root, at the addresses 262 to 266.
CREATED = [file(16, 2), directory(6, 1, A), root_entry(1, 80, 6), used([0, 7, 5]), entry_of_table(208, 8, 9)]

# What a commit writes that gives the file the name `b`, at the addresses 267 to 270.
RENAMED = [directory(10, 1, ("b", "file", 2, 16)), root_entry(1, 80, 10), used([0, 11, 5], 9, commits=2), entry_of_table(208, 12, 13)]


def chained(commits: int) -> "list[bytes]":
    """What a commit writes that writes its table alone."""
    return [used([0, 7, 5], 9, commits=commits), entry_of_table(208, 10, 11)]


def words(blocks: "list[bytes]") -> str:
    return padded(b"".join(blocks))


def put(address: int, data: bytes) -> str:
    return f"put {address} {padded(data) or '00'}"


def told(seen: "tuple[int, int] | None") -> str:
    return f"damaged block {seen[0]} cause {seen[1]}" if seen else ""


SAID = 'moment 0 capacity 3000 label "DISC" previous 4 files 1 directories 1 version 2 next-unique 17 commits 1 entries 0 7 5'
NEW = 'moment 0 capacity 3000 label "DISC" previous none files 0 directories 1 version 2 next-unique 16 commits 0 entries 0 2'
