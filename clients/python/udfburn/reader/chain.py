"""The tables of a medium, the newest first, also where links between them, their entries or their data are broken."""

from __future__ import annotations

from array import array
from bisect import bisect_left
from typing import Dict, Iterator, List, Optional, Set, Tuple

from ..protocol.units import Address, BlockNumber, Commit, VirtualAddress
from .basics import BLOCK, PARTITION, UNUSED, address_of, blocks_of, number_of
from .entry import Entry, FileType, is_entry_like, read_entry
from .mend import Hint, mend_entry
from .notes import DamageCause
from .numbering import Link, Span, greatest_at, number_links
from .survey import Survey
from .table import Table, entries_at, read_clients, read_entries, read_head, used_size
from .volume import Volume, is_table_entry


TABLES_KEPT = 16
"""The tables whose entries are kept, at most."""


class Chain:
    """The tables that can be found, the newest first, and what each says of a virtual address."""

    def __init__(self, volume: Volume, survey: Survey):
        self.volume, self.survey = volume, survey
        self._entries: "Dict[int, Tuple[array[int], Set[VirtualAddress]]]" = {}
        found: List[Link] = []
        link = self._newest()
        while link is not None:
            older, link = self._before(link)
            found.append(link)
            # Each commit takes two blocks, whatever VAT ICBs say.
            is_next = older is not None and older.address < link.address and len(found) <= greatest_at(found[0].address)
            link = older if is_next else None
        self.links = number_links(found)
        self._note()
        self._addresses = [link.address for link in reversed(self.links)]
        self._places = {link.commit: index for index, link in reversed(list(enumerate(self.links))) if link.commit is not None}

    # ---- the links

    def _newest(self) -> Optional[Link]:
        last = self.survey.tables[-1] if self.survey.tables else None
        known = self._link(last) if last is not None else None
        above = last if last is not None else -1
        for at in sorted(at for at in self.survey.hurt + self.survey.heads if at > above):
            block = self.survey.hurt[bisect_left(self.survey.hurt, at) :][:1] == [at]
            newer = self._mended(at) if block else self._headed(at, None)
            if newer is not None and follows(newer, known) and (block or self._was_written(newer.address)):
                known = newer
        return known

    def _was_written(self, address: Address) -> bool:
        """Whether something is there, or cannot be read, where a commit's last block would be, and nothing after it."""
        medium = self.volume.medium
        if address >= medium.blocks:
            return False
        block = medium.block(address)
        return block is None or address == medium.blocks - 1 and any(block)

    def _link(self, address: Address) -> Link:
        """The link of a VAT ICB that is as it must be."""
        table = self.volume.table_at(address)
        if table is not None:
            return self._of(address, table, ())
        block = self.volume.medium.block(address)
        entry = read_entry(block, number_of(address))[0] if block is not None else None
        is_below = entry is not None and entry.first is not None and entry.end <= number_of(address)
        # A disc ends with copies of its last VAT ICB: what leads to the same data is one table.
        return Link(address, None, None, False, ("its data cannot be used",), first=entry.first if entry is not None and is_below else None)

    def _of(self, address: Address, table: Optional[Table], broken: Tuple[str, ...]) -> Link:
        """The link of a table, with the commit that it says twice: as its count, and as that of its newest reply."""
        first = table.first if table is not None else None
        if table is None or table.commit > greatest_at(address):
            return Link(address, table, None, False, broken, first=first)
        run = self.volume.medium.run(address_of(table.first), blocks_of(table.length))
        replies = [reply.commit for client in read_clients(run.data[: table.length], table.version, table.clients) for reply in client.replies]
        return Link(address, table, table.commit if max(replies, default=0) == table.commit else None, False, broken, first=first)

    def _mended(self, address: Address) -> Optional[Link]:
        """The link of a VAT ICB with wrong bytes."""
        block, number = self.volume.medium.block(address), number_of(address)
        entry = mend_entry(block, Hint(number, number, 0, FileType.TABLE), self.volume.budget) if block is not None else None
        if entry is None or entry.kind is not FileType.TABLE or entry.first is None or entry.location != number:
            return None
        if entry.first + blocks_of(entry.size) != number:
            return None
        table = self.volume.table_of(address, entry)
        return None if table is None else self._of(address, table, ("its entry has a wrong byte",))

    def _headed(self, start: Address, address: Optional[Address]) -> Optional[Link]:
        """The link of a table whose data begins there and whose entry is lost. The data ends where the entry was."""
        medium = self.volume.medium
        first = medium.run(start, 1)
        head = read_head(first.data)
        if first.missing or head is None:
            return None
        size = used_size(medium.run(start, 12).data, head)
        if size is None or address is not None and start + blocks_of(size) != address:
            return None
        at = Address(start + blocks_of(size))
        if entries_at(head, size) is None:
            return None
        table = self.volume.table_of(at, Entry(FileType.TABLE, None, 0, 0, size, number_of(start), None, number_of(at), 0, False))
        return None if table is None else self._of(at, table, ("its entry is lost",))

    def _before(self, link: Link) -> Tuple[Optional[Link], Link]:
        """The next older link, and this one with what is to be trusted of what it says."""
        lower = self.survey.table_below(link.start)
        known = self._link(lower) if lower is not None else None
        if self._is_of_another(link, known):
            link = link._replace(table=None, said=None, broken=link.broken + ("its data is that of another table",))
        table = link.table
        if table is not None and table.commit == 0 and table.previous is None and known is None:
            return None, link
        if table is not None and table.previous is not None and table.previous < link.start:
            older = known if table.previous == lower else self._at(table.previous)
            if older is not None and is_step(older, link) and (lower is None or older.address >= lower or self._is_skipped(link, known)):
                return older, link._replace(follows=True)
        if known is not None and link.said is not None and known.said is not None and known.said + 1 == link.said:
            return known, link
        between = self._between(link, lower)
        if between is not None:
            return between, link
        return known, link if self._is_apart(link, lower) else link._replace(said=None)

    def _is_skipped(self, link: Link, known: Optional[Link]) -> bool:
        """Whether the table below a link is not the one that the link names. A drive may have kept a commit that was written again."""
        return known is not None and known.said is not None and known.said == link.said

    def _is_apart(self, link: Link, lower: Optional[Address]) -> bool:
        """Whether what a table says of itself is to be trusted, though what it names as the table before is not there."""
        table = link.table
        if table is None or table.previous is None and table.commit:
            return False
        return lower is None or table.previous is not None and lower <= table.previous < link.start

    def _is_of_another(self, link: Link, known: Optional[Link]) -> bool:
        """Whether the data of a table is that of another one: the entry before it is another than it has, or it is older than the table
        below."""
        if link.table is None:
            return False
        if self._misses_last(link):
            return True
        if known is None or known.table is None or link.table.previous == known.address:
            return False
        if link.table.commit != known.table.commit:
            return link.table.commit < known.table.commit
        # A copy may have a commit twice that the drive failed to write at first: these have places of their own.
        return self.volume.data_of(link.table).data == self.volume.data_of(known.table).data

    def _misses_last(self, link: Link) -> bool:
        """Whether the entry right before a table's data is of a node for which the table has an earlier one, or none. An entry with another
        moment than the table's is of another commit: it is a copy that does not belong there."""
        at = Address(link.start - 1)
        block = self.volume.medium.block(at)
        entry = mend_entry(block, Hint(number_of(at)), self.volume.budget) if block is not None and is_entry_like(block) else None
        if link.table is None or entry is None or not entry.proved or entry.kind is FileType.TABLE or link.table.moment not in (None, entry.moment):
            return False
        run = self.volume.data_of(link.table)
        words = read_entries(run.data[: link.table.size], link.table.length)
        virtual = VirtualAddress(entry.location)
        word = BlockNumber(words[virtual]) if virtual < len(words) else UNUSED
        if word == number_of(at) or run.missing:
            return False
        return word == UNUSED or self.survey.last_node(virtual, address_of(word), Address(address_of(word) + 1)) is not None

    def _at(self, address: Address) -> Optional[Link]:
        """The link at an address to which a table leads."""
        block = self.volume.medium.block(address)
        # Where a writer is at work, the survey may have come by before this block was written, and to the table after it later.
        if block is not None and is_table_entry(block, address):
            return self._link(address)
        return self._mended(address) or self._by_head(address)

    def _by_head(self, address: Address) -> Optional[Link]:
        head = next(self.survey.heads_below(address), None)
        return self._headed(head, address) if head is not None and head + 12 >= address else None

    def _between(self, link: Link, lower: Optional[Address]) -> Optional[Link]:
        """The table before a link whose own link is wrong: one with wrong bytes, above the next that has none."""
        low = lower if lower is not None else PARTITION
        for at in reversed(self.survey.hurt[bisect_left(self.survey.hurt, low) : bisect_left(self.survey.hurt, link.start)]):
            found = self._mended(at)
            if found is not None and found.said is not None and found.said + 1 == link.said:
                return found
        for head in self.survey.heads_below(link.start):
            found = self._headed(head, None) if head > low else None
            if found is not None and found.said is not None and found.said + 1 == link.said:
                return found
            if head < low:
                break
        return None

    def _note(self) -> None:
        """Notes what is wrong with the links between tables, and with what tables say of themselves."""
        for index, link in enumerate(self.links):
            texts = list(self._faults(index, link))
            for text in texts:
                self.volume.notes.add(link.address, DamageCause.CHAIN, f"of the table with its VAT ICB here: {text}")
            self.links[index] = link._replace(broken=link.broken + tuple(texts))

    def _faults(self, index: int, link: Link) -> Iterator[str]:
        table, commit = link.table, link.commit
        if table is not None and commit is not None and table.commit != commit:
            yield f"it says commit {table.commit}"
        if commit is None:
            yield f"its commit is {link.numbers}"
        if link.follows or index + 1 == len(self.links) and link.adjacent:
            return
        if not link.adjacent:
            yield "the table before it is lost" if index + 1 < len(self.links) else "the tables before it are lost"
        elif table is not None:
            yield "the link to the table before it is wrong"

    # ---- what they say

    def index_of(self, commit: Commit) -> Optional[int]:
        """The place of a commit's link; None where it is not there."""
        return self._places.get(commit)

    def place_of(self, address: Address) -> Optional[int]:
        """The place of the first table from a block on; None after the last table."""
        found = bisect_left(self._addresses, address)
        return len(self.links) - 1 - found if found < len(self._addresses) else None

    def commit_of(self, address: Address) -> Optional[Span]:
        """The commits that may have written a block; None after the last table."""
        place = self.place_of(address)
        if place is None:
            return None
        link = self.links[place]
        if link.adjacent or address >= link.start:
            return link.numbers
        older = self.links[place + 1].numbers.low + 1 if place + 1 < len(self.links) else 0
        return Span(Commit(older), link.numbers.high)

    def floor(self, address: Address) -> Address:
        """The address after the last structure below an address: data of a file that ends there begins no earlier."""
        place = self.place_of(address)
        older = self.links[place + 1].address if place is not None and place + 1 < len(self.links) else PARTITION - 1
        return Address(max(older, self.survey.entry_below(address) or 0) + 1)

    def entries(self, index: int) -> "Tuple[array[int], Set[VirtualAddress]]":
        """The block numbers of virtual addresses after a commit, and those that were not read but follow from other tables."""
        if index not in self._entries:
            if len(self._entries) >= TABLES_KEPT:
                self._entries.clear()
            entries, unknown = self._read_entries(index)
            if unknown or self.links[index].table is None:
                self._fill(entries, unknown, index)
            self._entries[index] = (entries, unknown)
        return self._entries[index]

    def _read_entries(self, index: int) -> "Tuple[array[int], Set[VirtualAddress]]":
        """What a table itself has, and what cannot be: in blocks that are missing, or not below its entry."""
        link = self.links[index]
        if link.table is None:
            return array("I"), set()
        number = number_of(link.address)
        run = self.volume.data_of(link.table)
        entries = read_entries(run.data[: link.table.size], link.table.length)
        unknown: Set[VirtualAddress] = set()
        for at in run.missing:
            self.volume.notes.add(at, DamageCause.MISSING, "a block of the table cannot be read")
            begin = (at - link.start) * BLOCK - link.table.length
            unknown.update(map(VirtualAddress, range(max(begin // 4, 0), min((begin + BLOCK) // 4, len(entries)))))
        if entries.count(UNUSED) + sum(1 for entry in entries if entry < number) < len(entries) or UNUSED in entries[:2]:
            unknown.update(VirtualAddress(v) for v, entry in enumerate(entries) if entry >= number and entry != UNUSED or entry == UNUSED and v < 2)
        return entries, unknown

    def _fill(self, entries: "array[int]", unknown: Set[VirtualAddress], index: int) -> None:
        """Has what is unknown from what was written since the next older table that can be read, and else from that table."""
        link = self.links[index]
        place = next((place for place in range(index + 1, len(self.links)) if self.links[place].table is not None), None)
        older, doubted = self._read_entries(place) if place is not None else (array("I"), set())
        low = Address(self.links[place].address + 1) if place is not None else PARTITION
        if link.table is None:
            unknown.update(map(VirtualAddress, range(max(len(older), 2))))
            while self.survey.last_node(VirtualAddress(len(unknown)), low, link.start) is not None:
                unknown.add(VirtualAddress(len(unknown)))
            entries.extend([UNUSED] * (len(unknown) - len(entries)))
        for virtual in unknown:
            own = self.survey.last_node(virtual, low, link.start)
            before = older[virtual] if virtual < len(older) and virtual not in doubted else UNUSED
            entries[virtual] = number_of(own) if own is not None else before

    def expected(self, virtual: VirtualAddress, index: int) -> Optional[Address]:
        """The address that a table should have for a virtual address, by the commit's own entries or the table before."""
        low = Address(self.links[index + 1].address + 1) if index + 1 < len(self.links) else PARTITION
        own = self.survey.last_node(virtual, low, self.links[index].start)
        if own is not None:
            return own
        older = self.entries(index + 1)[0] if index + 1 < len(self.links) else array("I")
        return address_of(BlockNumber(older[virtual])) if virtual < len(older) and older[virtual] != UNUSED else None

    def is_confirmed(self, virtual: VirtualAddress, address: Address, index: int) -> bool:
        """Whether a table's word for a virtual address is that of the table before, or lies in what the commit wrote.

        Where the table before is lost, that after it is asked.
        """
        is_next = index + 1 < len(self.links) and self.links[index].adjacent
        low = self.links[index + 1].address if index + 1 < len(self.links) else PARTITION - 1
        if low < address < self.links[index].start:
            return True
        return self._says(index + 1, virtual, address) or not is_next and self._says(index - 1, virtual, address)

    def _says(self, index: int, virtual: VirtualAddress, address: Address) -> bool:
        if not 0 <= index < len(self.links):
            return False
        entries = self.entries(index)[0]
        return virtual < len(entries) and entries[virtual] == number_of(address)


def follows(newer: Link, known: Optional[Link]) -> bool:
    """Whether a table with a broken entry follows the last one that has a whole one."""
    if newer.table is None:
        return False
    return known is None or newer.table.previous == known.address and is_step(known, newer)


def is_step(older: Link, newer: Link) -> bool:
    """Whether a table may be that of the commit after another one, by what both say."""
    return older.said is None or newer.said is None or older.said + 1 == newer.said


__all__ = ["Chain", "Link", "Span"]
