"""The virtual allocation table (UDF 2.01 2.2.10; docs/FORMAT.md, "The table")."""

from __future__ import annotations

import struct
import sys
from array import array
from typing import Iterator, List, NamedTuple, Optional, Tuple

from ..protocol.units import Address, BlockNumber, Commit, Moment, Size
from .basics import BLOCK, CLIENTS, FIRST_UNIQUE, NODES, UNUSED, address_of, entity, is_label, read_dstring
from .notes import DamageCause, StructureFault

SESSIONS = entity(b"*udfburn sessions")
HEAD_SIZE = 196
"""The bytes of a table's head, before the records of clients."""

RECORD_SIZES = {1: 24, 2: 48}
"""The bytes of a client's record, by the version of the sessions."""

TABLE_LAYOUT = struct.Struct("<HH128sIII3HH32sHHII")


class KeptReply(NamedTuple):
    """A reply that is kept: its code, and the number of its commit."""

    code: int
    commit: Commit


class ClientRecord(NamedTuple):
    """A client's record: its number, the number of its latest request, and the replies kept, the newest first."""

    client: int
    latest: int
    replies: Tuple[KeptReply, ...]


class Head(NamedTuple):
    """The head of a table's data, as it is."""

    length: Size
    use_length: int
    label: bytes
    previous: BlockNumber
    files: int
    directories: int
    read_revision: int
    write_revision: int
    greatest_revision: int
    reserved: int
    identifier: bytes
    version: int
    clients: int
    next_unique: int
    commits: Commit


class Table(NamedTuple):
    """A table and its entry.

    `address` is that of the VAT ICB, `previous` that of the entry of the table before (None in the first, and where it
    makes no sense), `check` the CRC in the entry's tag, `first` the number of the first block of the data, `size` its bytes,
    `length` those of its head with the clients' records. Counts are those that the table says, the root counted as a directory.
    """

    commit: Commit
    address: Address
    previous: Optional[Address]
    moment: Optional[Moment]
    check: int
    label: Optional[str]
    files: int
    directories: int
    next_unique: int
    clients: int
    version: int
    first: BlockNumber
    size: Size
    length: Size


def read_head(data: bytes) -> Optional[Head]:
    """The head of a table's data; None where it is too short."""
    return Head(*TABLE_LAYOUT.unpack_from(data)) if len(data) >= HEAD_SIZE else None


def is_sensible(head: Head, size: Size, number: BlockNumber) -> bool:
    """Whether a table with this head, of so many bytes, whose entry has this block number, can be used.

    The identifier of the sessions or the two lengths have to be as they must be, so that the entries are found.
    """
    agrees = lengths_agree(head, size)
    return (agrees or head.identifier == SESSIONS) and entries_at(head, size) is not None


def lengths_agree(head: Head, size: int) -> bool:
    """Whether the lengths of the head agree with one another and with the size."""
    record = RECORD_SIZES.get(head.version, RECORD_SIZES[1])
    return head.length == 152 + head.use_length == HEAD_SIZE + record * head.clients and head.length <= size and (size - head.length) % 4 == 0


def entries_at(head: Head, size: int) -> Optional[Size]:
    """Where the entries begin: by two of the three that say it, where they agree; None where no two do."""
    record = RECORD_SIZES.get(head.version, RECORD_SIZES[2])
    said = (head.length, 152 + head.use_length, HEAD_SIZE + record * head.clients)
    for at in said:
        if said.count(at) >= 2 and HEAD_SIZE <= at <= size - 8 and (size - at) % 4 == 0:
            return Size(at)
    return None


def read_clients(data: bytes, version: int, count: int) -> List[ClientRecord]:
    """The records of clients, as far as the data has them."""
    size = RECORD_SIZES.get(version, RECORD_SIZES[2])
    found = []
    for at in range(HEAD_SIZE, min(HEAD_SIZE + size * count, len(data) - size + 1), size):
        client, latest = struct.unpack_from("<QQ", data, at)
        places = (struct.unpack_from("<HHI", data, at + 16 + 8 * index) for index in range((size - 16) // 8))
        replies = tuple(KeptReply(code, commit) for code, _, commit in places if commit)
        found.append(ClientRecord(client, latest, replies))
    return found


def read_entries(data: bytes, at: int) -> "array[int]":
    """The block number of each virtual address, or UNUSED."""
    entries = array("I", data[at : at + (len(data) - at) // 4 * 4])
    if sys.byteorder == "big":
        entries.byteswap()
    return entries


def table_faults(data: bytes, number: BlockNumber) -> Iterator[StructureFault]:
    """All that is not as it must be with the data of a table, in the order in which `udfburn` looks for it.

    `number` is the block number of the VAT ICB.
    """
    head = read_head(data)
    if head is None:
        yield StructureFault(DamageCause.HEADER, f"the table has {len(data)} bytes, fewer than its head")
        return
    agrees = lengths_agree(head, len(data))
    if not agrees:
        yield StructureFault(DamageCause.HEADER, "the lengths of the table do not agree")
    if head.reserved:
        yield StructureFault(DamageCause.HEADER, "the reserved field of the table is not zero")
    if head.previous != UNUSED if head.commits == 0 else head.previous >= number:
        yield StructureFault(DamageCause.HEADER, f"the table before would have its entry at block number {head.previous}")
    if not is_label(read_dstring(head.label)):
        yield StructureFault(DamageCause.LABEL, "the label of the table is none")
    if (head.read_revision, head.write_revision, head.greatest_revision) != (0x201, 0x201, 0x201):
        yield StructureFault(DamageCause.REVISION, "a revision of UDF is not 2.01")
    if head.identifier != SESSIONS or head.version not in RECORD_SIZES or head.clients > CLIENTS:
        yield StructureFault(DamageCause.SESSIONS, "the sessions' identifier, version or count is not as it must be")
    elif agrees:
        yield from client_faults(data, head)
    at = head.length if agrees else entries_at(head, len(data))
    if at is not None:
        yield from entries_faults(read_entries(data, at), head, number)
    if head.next_unique < FIRST_UNIQUE:
        yield StructureFault(DamageCause.COUNT, f"the next unique ID is {head.next_unique}")


def client_faults(data: bytes, head: Head) -> Iterator[StructureFault]:
    """What is wrong with the records of clients."""
    size = RECORD_SIZES[head.version]
    clients = read_clients(data, head.version, head.clients)
    for index, client in enumerate(clients):
        text = data[HEAD_SIZE + size * index : HEAD_SIZE + size * (index + 1)]
        if not is_kept(client, head.commits) or write_client(client, size) != text:
            yield StructureFault(DamageCause.SESSIONS, f"the record of client {client.client} is not as it must be")
    if len({client.client for client in clients}) < len(clients):
        yield StructureFault(DamageCause.CLIENT_TWICE, "a client has two records")


def is_kept(client: ClientRecord, commits: Commit) -> bool:
    """Whether a client can have this record after so many commits."""
    limit = commits
    for reply in client.replies:
        if reply.code > 10 or not 0 < reply.commit <= limit:
            return False
        limit = Commit(reply.commit - 1)
    return client.client > 0 and client.latest > 0 and 0 < len(client.replies) <= client.latest


def write_client(client: ClientRecord, size: int) -> bytes:
    """A record of so many bytes."""
    replies = b"".join(struct.pack("<HHI", reply.code, 0, reply.commit) for reply in client.replies)
    return (struct.pack("<QQ", client.client, client.latest) + replies).ljust(size, b"\0")


def entries_faults(entries: "array[int]", head: Head, number: BlockNumber) -> Iterator[StructureFault]:
    """What is wrong with the entries of virtual addresses."""
    used = [entry for entry in entries if entry != UNUSED]
    if used and max(used) >= number or UNUSED in entries[:2]:
        yield StructureFault(DamageCause.ENTRY, "a block number is not below that of the VAT ICB, or there is no file set or no root")
    if not 2 <= len(entries) <= NODES + 1:
        yield StructureFault(DamageCause.COUNT, f"there are {len(entries)} virtual addresses")
    if len(used) != 1 + head.files + head.directories:
        yield StructureFault(DamageCause.COUNT, f"{len(used)} virtual addresses are used, and the table counts {head.files} files and {head.directories} directories")


def previous_of(head: Head, number: BlockNumber) -> Optional[Address]:
    """The address of the entry of the table before; None in the first, and where it makes no sense."""
    return address_of(head.previous) if head.previous < number else None


def used_size(data: bytes, head: Head) -> Optional[Size]:
    """The bytes of a table by its data alone: no virtual address but the file set's can have block number 0, and the last is 4 bytes."""
    at = entries_at(head, len(data))
    if at is None:
        return None
    wanted = 1 + head.files + head.directories
    entries = read_entries(data, at)
    used = 0
    for index, entry in enumerate(entries[: NODES + 1]):
        if index > 0 and (entry == 0 or used == wanted and (at + 4 * index) % BLOCK == 0):
            return Size(at + 4 * index) if used == wanted else None
        used += entry != UNUSED
    return Size(at + 4 * min(len(entries), NODES + 1)) if used == wanted else None
