"""Each structure of each state, looked at once: what is not as docs/FORMAT.md has it."""

from __future__ import annotations

from array import array
from typing import Dict, Iterator, List, Tuple

from ..protocol.units import Address, BlockNumber, Commit, VirtualAddress
from .basics import FIRST_UNIQUE, GREATEST_CAPACITY, NODES, PARTITION, UNUSED, address_of, blocks_of, is_label, number_of, read_dstring
from .budget import Work, block_budget
from .chain import Chain, Link
from .descriptors import note_descriptors, read_descriptors, with_descriptors
from .directory import KnownIdentifiers, read_directory
from .entry import Entry, FileType, descriptor_blocks, read_entry, read_file_set
from .front import note_front, read_front
from .notes import DamageCause, StructureFault
from .numbering import greatest_at
from .table import (
    HEAD_SIZE, RECORD_SIZES, SESSIONS, Head, client_faults, lengths_agree, read_clients, read_entries, read_head,
)
from .volume import State

COMPARED_ENTRY_BYTES = 256
"""The bytes of entries that are compared at once."""


def audit(chain: Chain, index: int) -> None:
    """Notes what is wrong with the volume header, and with each structure of the states up to that of a link."""
    volume = chain.volume
    note_front(volume.medium, read_front(volume.medium), volume.notes)
    run = Audit(chain)
    for place in range(len(chain.links) - 1, index - 1, -1):
        run.look(place)
    table = chain.links[index].table
    if table is not None and not len(volume.notes):
        # Where a structure is wrong, what others say of it differs as a matter of course.
        State(volume, table).check()


class Audit:
    """The tables from the oldest on. What each changes is looked at, and all else was looked at before."""

    def __init__(self, chain: Chain):
        self.chain = chain
        self.volume, self.notes, self.medium = chain.volume, chain.volume.notes, chain.volume.medium
        self._entries = array("I")
        self._used = 0
        self._records = b""
        self._is_next = False
        self._low = Address(PARTITION - 1)
        self._room = block_budget(min(chain.volume.medium.blocks, GREATEST_CAPACITY))
        self._last: Dict[VirtualAddress, BlockNumber] = {}
        self._known = KnownIdentifiers(None)

    def look(self, place: int) -> None:
        """Looks at a table, and at the nodes that it changes."""
        link = self.chain.links[place]
        self._entry_of(link, place > 0)
        table = link.table
        if table is None:
            return
        run = self.volume.data_of(table)
        for at in run.missing:
            self.notes.add(at, DamageCause.MISSING, "a block of the table cannot be read")
        data, number = run.data[: table.size], number_of(link.address)
        head = read_head(data)
        if head is None:
            return
        self._is_next = link.adjacent and place + 1 < len(self.chain.links) and self.chain.links[place + 1].table is not None
        self.notes.extend(link.start, list(self._head_faults(data, head, number)))
        if any(run.data[table.size :]):
            # `udfburn` does not look at these bytes; docs/FORMAT.md has zeros there.
            self.notes.add(link.start, DamageCause.HEADER, "a byte after the table is not zero")
        self._changes(link, read_entries(data, table.length), head)
        self._low = link.address

    def _entry_of(self, link: Link, is_linked: bool) -> None:
        block = self.medium.block(link.address)
        if block is None:
            self.notes.add(link.address, DamageCause.MISSING, "the VAT ICB cannot be read")
            return
        faults = read_entry(block, number_of(link.address))[1]
        self.notes.extend(link.address, faults)
        if faults and is_linked:
            self.notes.add(link.address, DamageCause.CHAIN, "the table after it leads here, and its entry is not as it must be")

    def _head_faults(self, data: bytes, head: Head, number: BlockNumber) -> Iterator[StructureFault]:
        agrees = lengths_agree(head, len(data))
        if not agrees or head.reserved:
            yield StructureFault(DamageCause.HEADER, "the lengths of the table do not agree, or its reserved field is not zero")
        if head.previous != UNUSED if head.commits == 0 else head.previous >= number:
            yield StructureFault(DamageCause.HEADER, f"the table before would have its entry at block number {head.previous}")
        label = read_dstring(head.label)
        if not is_label(label):
            yield StructureFault(DamageCause.LABEL, "the label of the table is not valid")
        elif self.volume.label is not None and label != self.volume.label:
            yield StructureFault(DamageCause.LABELS, "the label of the table is not that of the volume header")
        if (head.read_revision, head.write_revision, head.greatest_revision) != (0x201, 0x201, 0x201):
            yield StructureFault(DamageCause.REVISION, "a revision of UDF is not 2.01")
        yield from self._record_faults(data, head, agrees)
        if head.next_unique < FIRST_UNIQUE:
            yield StructureFault(DamageCause.COUNT, f"the next unique ID is {head.next_unique}")

    def _record_faults(self, data: bytes, head: Head, agrees: bool) -> Iterator[StructureFault]:
        if head.identifier != SESSIONS or head.version not in RECORD_SIZES:
            yield StructureFault(DamageCause.SESSIONS, "the sessions' identifier or version is not as it must be")
        elif agrees:
            size = RECORD_SIZES[head.version]
            records = data[HEAD_SIZE : head.length]
            old, new = (record_texts(found, size) for found in (self._records, records))
            changed = [index for index in range(max(len(old), len(new))) if old[index : index + 1] != new[index : index + 1]]
            if len(changed) == 1 and len(new) > 4:
                # Records of other clients are those of the table before.
                text = new[changed[0]] if changed[0] < len(new) else b""
                yield from client_faults(data[:HEAD_SIZE] + text, head._replace(clients=len(text) // size))
            else:
                yield from client_faults(data, head)
            if self._is_next and head.version == 2 and not is_next_reply(old, new, changed, head.commits):
                yield StructureFault(DamageCause.SESSIONS, "the records of clients are not those of the table before and one more reply")
            self._records = records

    def _changes(self, link: Link, entries: "array[int]", head: Head) -> None:
        """Compares the entries with those of the table before, and looks at what they lead to anew."""
        number, said = number_of(link.address), len(entries)
        used = self._used
        for virtual, old, new in changed_addresses(self._entries, entries):
            used += (new != UNUSED) - (old != UNUSED)
            self._word(link, virtual, new)
        if not 2 <= said <= NODES + 1:
            self.notes.add(link.start, DamageCause.COUNT, f"there are {said} virtual addresses")
        if used != 1 + head.files + head.directories:
            self.notes.add(link.start, DamageCause.COUNT, f"{used} virtual addresses are used, and the table counts {head.files} files and {head.directories} directories")
        if head.commits > greatest_at(link.address) or head.next_unique > FIRST_UNIQUE + link.numbers.high:
            self.notes.add(link.start, DamageCause.COUNTS, f"the commit {head.commits} or the next unique ID is not one of block number {number}")

    def _word(self, link: Link, virtual: VirtualAddress, new: BlockNumber) -> None:
        """Looks at a word of a table that is not that of the table before."""
        if virtual >= len(self._entries):
            self._entries.extend([UNUSED] * (virtual + 1 - len(self._entries)))
        old = BlockNumber(self._entries[virtual])
        if new == UNUSED and virtual > 1:
            self._last[virtual] = old
        elif not self._low < address_of(new) < link.start:
            if self._last.get(virtual) != new:
                self.notes.add(link.start, DamageCause.ENTRY, f"virtual address {virtual} leads to block number {new}, which the commit did not write")
                return
        else:
            self._node(link, virtual, new)
        self._used += (new != UNUSED) - (old != UNUSED)
        self._entries[virtual] = new

    def _node(self, link: Link, virtual: VirtualAddress, number: BlockNumber) -> None:
        """Looks at the entry of a node, and at what it leads to."""
        at = address_of(number)
        self._room -= 1
        if self._room < 0:
            self.notes.add(Address(0), DamageCause.COUNTS, Work.NODES.text)
            return
        block = self.medium.block(at)
        if block is None:
            self.notes.add(at, DamageCause.MISSING, "an entry cannot be read")
            return
        if virtual == 0:
            label, moment, faults = read_file_set(block)
            self.notes.extend(at, faults)
            differs = self.volume.label not in (None, label) or self.volume.moment not in (None, moment)
            if differs and not faults:
                self.notes.add(at, DamageCause.LABELS, "the label or the moment of the file set is not that of the volume header")
            return
        entry, faults = read_entry(block, virtual)
        self.notes.extend(at, faults)
        if entry is not None and self._leads_on(entry, number_of(link.address)) > number_of(link.address):
            self.notes.add(at, DamageCause.RANGE, "what the entry leads to does not lie below the VAT ICB")
        elif entry is not None and entry.kind is FileType.DIRECTORY and entry.first is not None and self._room >= blocks_of(entry.size):
            self._room -= blocks_of(entry.size)
            run = self.medium.run(address_of(entry.first), blocks_of(entry.size))
            for gone in run.missing:
                self.notes.add(gone, DamageCause.MISSING, "a block of a directory cannot be read")
            self.notes.extend(address_of(entry.first), read_directory(run.data, entry.size, entry.first, self._known)[1])

    def _leads_on(self, entry: Entry, limit: BlockNumber) -> BlockNumber:
        """Looks at the descriptor blocks of an entry, where they lie below a block. The number after the last block to which it leads."""
        if entry.is_whole or entry.end > limit or self._room < descriptor_blocks(entry.size):
            return entry.end
        self._room -= descriptor_blocks(entry.size)
        blocks = read_descriptors(self.medium, entry)
        note_descriptors(self.notes, blocks)
        whole = with_descriptors(entry, blocks)
        return whole.end if whole is not None else entry.end


def record_texts(records: bytes, size: int) -> List[bytes]:
    """The records one by one."""
    return [records[at : at + size] for at in range(0, len(records), size)]


def is_next_reply(old: List[bytes], new: List[bytes], changed: List[int], commit: Commit) -> bool:
    """Whether one client more had a reply: its number is the next, and its newest reply is that of this commit."""
    if len(changed) != 1 or len(new) < len(old):
        return False
    client = read_clients(bytes(HEAD_SIZE) + new[changed[0]], 2, 1)[0]
    if not client.replies or client.replies[0].commit != commit:
        return False
    if changed[0] >= len(old):
        return len(client.replies) == 1
    before = read_clients(bytes(HEAD_SIZE) + old[changed[0]], 2, 1)[0]
    return before.client == client.client and before.latest + 1 == client.latest and client.replies[1:] == before.replies[:3]


def changed_addresses(old: "array[int]", new: "array[int]") -> "Iterator[Tuple[VirtualAddress, BlockNumber, BlockNumber]]":
    """The virtual addresses at which two tables differ, with both words."""
    step = COMPARED_ENTRY_BYTES // 4
    for begin in range(0, max(len(old), len(new)), step):
        left, right = old[begin : begin + step], new[begin : begin + step]
        if left != right:
            for index in range(max(len(left), len(right))):
                before = left[index] if index < len(left) else UNUSED
                after = right[index] if index < len(right) else UNUSED
                if before != after:
                    yield VirtualAddress(begin + index), BlockNumber(before), BlockNumber(after)

