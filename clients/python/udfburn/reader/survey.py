"""A look at every block of a medium: VAT ICBs, tables' heads and nodes' entries, wherever they lie."""

from __future__ import annotations

from array import array
from bisect import bisect_left
from typing import Dict, Iterator, List, Optional

from ..protocol.units import Address, VirtualAddress
from .basics import BLOCK, GREATEST_CAPACITY, PARTITION, number_of
from .entry import FileType
from .medium import Run
from .mend import Hint, mend_entry
from .table import SESSIONS
from .volume import Volume, is_table_entry

ENTRY_TAG = b"\x05\x01\x03\0"
ICB_TAG = bytes(4) + b"\4\0\0\0\1\0\0"
"""The bytes from 16 on of each entry: no direct entries, strategy 4, one entry at most."""

HEAD_AT, TABLE_TYPE = 152, int(FileType.TABLE)


class Survey:
    """Where structures are, by the blocks themselves. Addresses go up.

    `tables` are VAT ICBs that are as they must be: the writer leaves no block that is one by chance. `hurt` are blocks that
    have something of an entry and are none, `heads` those that have the head of a table. Of a group that was not settled these do not
    count: only its nodes are looked for.
    """

    def __init__(self, volume: Volume):
        self.medium = medium = volume.medium
        self._budget, self._end = volume.budget, volume.end
        self.tables: List[Address] = []
        self.hurt: List[Address] = []
        self.heads: List[Address] = []
        self.missing: List[Address] = []
        self._nodes: "Dict[int, array[int]]" = {}
        self._entries: "array[int]" = array("I")
        for at, run in medium.pieces(PARTITION, Address(min(medium.blocks, GREATEST_CAPACITY))):
            self._look(at, run)

    def _look(self, start: Address, run: Run) -> None:
        data = run.data
        self.missing += run.missing
        for offset in range(0, len(data), BLOCK):
            if data[offset : offset + 4] == ENTRY_TAG or data[offset + 16 : offset + 27] == ICB_TAG:
                self._entry(Address(start + offset // BLOCK), data[offset : offset + BLOCK])
            elif data[offset + HEAD_AT : offset + HEAD_AT + 32] == SESSIONS:
                self._found(self.heads, Address(start + offset // BLOCK))

    def _found(self, known: List[Address], at: Address) -> None:
        if at < self._end:
            known.append(at)

    def _entry(self, at: Address, block: bytes) -> None:
        if block[27] == TABLE_TYPE and is_table_entry(block, at):
            self._found(self.tables, at)
            return
        entry = mend_entry(block, Hint(number_of(at)), self._budget)
        if entry is None or not entry.proved or entry.kind is FileType.TABLE:
            self._found(self.hurt, at)
        else:
            self._nodes.setdefault(entry.location, array("I")).append(at)

    def nodes(self, virtual: VirtualAddress, below: Address) -> Iterator[Address]:
        """The addresses of nodes' entries for a virtual address, below an address, the last one first."""
        known = self._nodes.get(virtual, array("I"))
        for index in range(bisect_left(known, below) - 1, -1, -1):
            yield Address(known[index])

    def entry_below(self, address: Address) -> Optional[Address]:
        """The last entry of a node or a table below an address."""
        if not self._entries:
            self._entries = array("I", sorted([at for known in self._nodes.values() for at in known] + list(self.tables)))
        index = bisect_left(self._entries, address)
        return Address(self._entries[index - 1]) if index else None

    def nodes_after(self, address: Address) -> List[Address]:
        """The addresses of nodes' entries after an address."""
        return sorted(Address(at) for known in self._nodes.values() for at in known[bisect_left(known, address) :])

    def last_node(self, virtual: VirtualAddress, low: Address, high: Address) -> Optional[Address]:
        """The last entry for a virtual address from one address on and below another."""
        at = next(self.nodes(virtual, high), None)
        return at if at is not None and at >= low else None

    def heads_below(self, address: Address) -> Iterator[Address]:
        """Tables' heads below an address, the last one first."""
        for index in range(bisect_left(self.heads, address) - 1, -1, -1):
            yield self.heads[index]

    def table_below(self, address: Address) -> Optional[Address]:
        """The last VAT ICB below an address that is as it must be."""
        index = bisect_left(self.tables, address)
        return self.tables[index - 1] if index else None
