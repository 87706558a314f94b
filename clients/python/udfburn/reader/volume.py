"""A volume on a medium: its tables from the newest to the oldest, the tree after each, and the bytes of files."""

from __future__ import annotations

from typing import Dict, Iterator, List, NamedTuple, Optional, Set, Tuple

from ..protocol.units import Address, BlockNumber, Commit, Moment, Size, VirtualAddress
from .basics import BLOCK, DEPTH, FIRST_UNIQUE, GREATEST_CAPACITY, PARTITION, UNUSED, address_of, blocks_of, number_of, read_dstring
from .budget import TABLE_BYTES, Budget, Work, block_budget
from .descriptors import note_descriptors, read_descriptors, with_descriptors
from .directory import Directory, Identifier, KnownIdentifiers, read_directory
from .entry import Entry, Extent, FileType, is_entry_like, read_entry, read_file_set
from .front import Front, note_front, read_front
from .group import counted_blocks
from .medium import Medium, Run
from .notes import DamageCause, Notes
from .table import ClientRecord, Table, entries_at, is_sensible, previous_of, read_clients, read_entries, read_head, table_faults

Path = Tuple[str, ...]
"""The names from the root on. The root has none."""

ROOT = VirtualAddress(1)
"""The root's virtual address."""


class NoVolume(Exception):
    """No VAT ICB is on the medium, or none of the commit that was asked for."""


class StateNode(NamedTuple):
    """A file or a directory of a state.

    `path` has its names, `unique` and `virtual` are its unique ID and its virtual address, `address` is that of its entry and
    `moment` microseconds from 1970-01-01 UTC. `size` is the bytes of a file, or of a directory's data. The data is `blocks` blocks
    from the address `data` on; `data` is None where the bytes are inside the entry, or where there are none. The data of a file of more
    than a mebibyte is in several `extents`, of which `data` is the address of the first; `blocks` counts them all, and no descriptor
    blocks.
    """

    path: Path
    kind: FileType
    unique: int
    virtual: VirtualAddress
    address: Address
    moment: Optional[Moment]
    size: Size
    data: Optional[Address]
    blocks: int
    links: int
    above: VirtualAddress
    """The virtual address of the directory above; the root's own."""
    check: int
    """The CRC in its entry's tag."""
    extents: Tuple[Extent, ...] = ()
    """Where the data is, in order, by block numbers."""


class Volume:
    """What a medium holds. Nothing is refused for a wrong byte: it is noted in `notes`.

    `label`, `moment` (of the format) and `capacity` (in blocks) are None where neither sequence of the volume header says them.
    `end` is the address after the blocks that count: no commit of a group does that was not settled when the medium was opened.
    """

    def __init__(self, medium: Medium):
        self.medium = medium
        self.end = Address(counted_blocks(medium))
        self.notes = Notes()
        self.budget = Budget(min(medium.blocks, GREATEST_CAPACITY))
        self.known = KnownIdentifiers(self.budget)
        front: Front = read_front(medium)
        self.label, self.moment, self.capacity = front
        self._front = front
        self._chain: Optional[List[Table]] = None

    # ---- tables

    def chain(self) -> List[Table]:
        """The tables, the newest first, as far as the chain leads; NoVolume where there is none."""
        if self._chain is None:
            self._chain = list(self._links())
        if not self._chain:
            raise NoVolume(f"{self.medium.path}: there is no VAT ICB")
        return self._chain

    def table(self, commit: Optional[Commit] = None) -> Table:
        """The table of a commit, or the newest; NoVolume where the chain has none of it."""
        chain = self.chain()
        if commit is None:
            return chain[0]
        for table in chain:
            if table.commit == commit:
                return table
        raise NoVolume(f"{self.medium.path}: the chain has commits {chain[-1].commit} to {chain[0].commit}, and not {commit}")

    def last_entry(self) -> Optional[Address]:
        """The address of the last VAT ICB that counts and is as it must be."""
        # A device may be larger than any volume.
        end = min(self.end, GREATEST_CAPACITY)
        for start in range((end - 1) // 512 * 512, -1, -512):
            run = self.medium.run(Address(start), min(512, end - start))
            for index in range(len(run.data) // BLOCK - 1, -1, -1):
                at = Address(start + index)
                if at >= PARTITION and is_table_entry(run.data[index * BLOCK : (index + 1) * BLOCK], at):
                    return at
        return None

    def table_at(self, address: Address) -> Optional[Table]:
        """The table whose entry is at an address; None where there is none that can be used. What is wrong is noted."""
        block = self.medium.block(address)
        if block is None:
            self.notes.add(address, DamageCause.MISSING, "the VAT ICB cannot be read")
            return None
        number = number_of(address)
        entry, faults = read_entry(block, number)
        self.notes.extend(address, faults)
        if entry is None or entry.kind is not FileType.TABLE or entry.first is None:
            self.notes.add(address, DamageCause.CHAIN, "there is no VAT ICB")
            return None
        if entry.first + blocks_of(entry.size) > number:
            self.notes.add(address, DamageCause.RANGE, "the table's data does not lie below its entry")
            return None
        return self.table_of(address, entry)

    def table_of(self, address: Address, entry: Entry) -> Optional[Table]:
        """The table of an entry; None where its head cannot be used, which is noted."""
        if entry.first is None:
            raise ValueError("the entry has no extent")
        start, number = address_of(entry.first), number_of(address)
        if entry.size > TABLE_BYTES:
            self.notes.add(start, DamageCause.COUNT, f"a table of {entry.size} bytes has more clients or virtual addresses than a volume can have")
            return None
        run = self.medium.run(start, 1)
        head = read_head(run.data)
        if run.missing or head is None or not is_sensible(head, entry.size, number):
            self.notes.add(start, DamageCause.MISSING if run.missing else DamageCause.HEADER, "the head of the table cannot be used")
            return None
        label = read_dstring(head.label)
        length = entries_at(head, entry.size)
        return Table(
            head.commits, address, previous_of(head, number), entry.moment, entry.check, label, head.files, head.directories,
            head.next_unique, head.clients, head.version, entry.first, entry.size, length or head.length,
        )

    def _links(self) -> Iterator[Table]:
        at = self.last_entry()
        if at is None:
            return
        table = self.table_at(at)
        while table is not None:
            yield table
            newer = table
            if newer.previous is None:
                break
            table = self.table_at(newer.previous)
            if table is not None and table.commit + 1 != newer.commit:
                self.notes.add(newer.previous, DamageCause.CHAIN, f"the table before commit {newer.commit} is of commit {table.commit}")
                break
        else:
            return
        if newer.previous is None and newer.commit:
            self.notes.add(newer.address, DamageCause.CHAIN, f"commit {newer.commit} has no table before it")

    def data_of(self, table: Table) -> Run:
        """The data of a table, in whole blocks."""
        return self.medium.run(address_of(table.first), blocks_of(table.size))

    def clients(self, table: Table) -> List[ClientRecord]:
        """The records of clients that a table has, in order of their first commits."""
        return read_clients(self.data_of(table).data[: table.size], table.version, table.clients)

    # ---- states

    def state(self, commit: Optional[Commit] = None) -> "State":
        """The state after a commit, or the newest; NoVolume where the chain has none of it."""
        return State(self, self.table(commit))

    def read(self, node: StateNode) -> Run:
        """The bytes of a file, with zeros where a block is missing."""
        if node.data is None:
            block = self.medium.block(node.address) or bytes(BLOCK)
            return Run(block[176 : 176 + node.size] if node.size else b"", ())
        runs = list(self.pieces(node))
        return Run(b"".join(run.data for run in runs), tuple(at for run in runs for at in run.missing))

    def pieces(self, node: StateNode) -> Iterator[Run]:
        """The bytes of a file, extent by extent, with zeros where a block is missing."""
        if node.data is None:
            yield self.read(node)
        for extent in node.extents:
            run = self.medium.run(address_of(extent.first), blocks_of(extent.size))
            yield Run(run.data[: extent.size], run.missing)

    def check(self) -> Notes:
        """Looks at the volume header, every table, and every node of every state. The notes, which are empty where all is as it must be."""
        note_front(self.medium, self._front, self.notes)
        seen = AlreadyRead()
        for table in self.chain():
            State(self, table, seen).check()
        return self.notes


def is_table_entry(block: bytes, address: Address) -> bool:
    """Whether the block is a VAT ICB at this address, by its whole descriptor."""
    if not is_entry_like(block) or block[27] != FileType.TABLE:
        return False
    entry, faults = read_entry(block, number_of(address))
    return entry is not None and not faults


EntryKey = Tuple[Address, VirtualAddress]
DirectoryKey = Tuple[Address, Size]


class AlreadyRead:
    """What was read already: entries by their addresses and virtual addresses, and directories by their data."""

    def __init__(self) -> None:
        self.entries: Dict[EntryKey, Optional[Entry]] = {}
        self.directories: Dict[DirectoryKey, Optional[Directory]] = {}
        self._before: Tuple[Dict[EntryKey, Optional[Entry]], Dict[DirectoryKey, Optional[Directory]]] = ({}, {})

    def begin(self) -> None:
        """Begins with another state: keeps what the last one had, and lets the one before it go."""
        self._before = (self.entries, self.directories)
        self.entries, self.directories = {}, {}

    def entry(self, key: EntryKey) -> Tuple[bool, Optional[Entry]]:
        """Whether an entry was read in the last state, and what it said."""
        if key in self._before[0]:
            self.entries[key] = self._before[0][key]
        return key in self.entries, self.entries.get(key)

    def directory(self, key: DirectoryKey) -> Tuple[bool, Optional[Directory]]:
        """Whether a directory was read in the last state, and what it said."""
        if key in self._before[1]:
            self.directories[key] = self._before[1][key]
        return key in self.directories, self.directories.get(key)


class State:
    """The tree after a commit."""

    def __init__(self, volume: Volume, table: Table, seen: Optional[AlreadyRead] = None):
        self.volume = volume
        self.table = table
        self._seen = seen or AlreadyRead()
        self._seen.begin()
        run = volume.data_of(table)
        self._data = run.data[: table.size]
        self.entries = read_entries(self._data, table.length)
        for at in run.missing:
            volume.notes.add(at, DamageCause.MISSING, "a block of the table cannot be read")
        volume.notes.extend(address_of(table.first), list(table_faults(self._data, number_of(table.address))))
        self._room = 0
        self.broken: List[Tuple[Path, Identifier]] = []
        """Names whose nodes could not be read in the last walk."""

    @property
    def clients(self) -> List[ClientRecord]:
        """The records of clients, in order of their first commits."""
        return read_clients(self._data, self.table.version, self.table.clients)

    def address(self, virtual: VirtualAddress) -> Optional[Address]:
        """The address of what has a virtual address; None where it is unused or does not lie below the VAT ICB."""
        number = BlockNumber(self.entries[virtual]) if 0 <= virtual < len(self.entries) else UNUSED
        return address_of(number) if number < number_of(self.table.address) else None

    def root(self) -> Optional[StateNode]:
        """The root; None where its entry cannot be read."""
        return self._node((), Identifier("", True, ROOT, 0, True), ROOT, address_of(self.table.first))

    def names(self, node: StateNode) -> List[Identifier]:
        """The names of a directory, in stored order, as far as they can be read."""
        directory = self._directory(node)
        return directory.names if directory is not None else []

    def is_complete(self, node: StateNode) -> bool:
        """Whether each name of a directory could be read."""
        directory = self._directory(node)
        return directory is not None and directory.complete

    def child(self, node: StateNode, name: Identifier) -> Optional[StateNode]:
        """The node that a directory names; None where its entry cannot be read."""
        return self._node(node.path + (name.name,), name, node.virtual, node.data or node.address)

    def walk(self, top: Optional[StateNode] = None) -> Iterator[StateNode]:
        """A directory (the root where none is given) and all below it, depth first and in stored order."""
        self.broken = []
        self._room = block_budget(min(self.volume.medium.blocks, GREATEST_CAPACITY))
        root = top if top is not None else self.root()
        if root is not None:
            reached: Set[VirtualAddress] = {root.virtual}
            yield from self._below(root, reached)

    def _below(self, node: StateNode, reached: Set[VirtualAddress]) -> Iterator[StateNode]:
        yield node
        if node.kind is not FileType.DIRECTORY:
            return
        for name in self.names(node):
            if len(node.path) == DEPTH or name.virtual in reached:
                cause = DamageCause.TOO_DEEP if len(node.path) == DEPTH else DamageCause.REACHED_TWICE
                self.volume.notes.add(self.address(name.virtual) or node.address, cause, f"{show(node.path + (name.name,))} is reached a second time or too deep")
                self.broken.append((node.path + (name.name,), name))
                continue
            reached.add(name.virtual)
            if self._room < 0:
                return
            child = self.child(node, name)
            if child is None or not self._fits(child):
                self.broken.append((node.path + (name.name,), name))
            else:
                yield from self._below(child, reached)

    def _fits(self, node: StateNode) -> bool:
        """Whether all nodes that were met have blocks of their own, as far as their number shows it."""
        self._room -= 1 + node.blocks
        if self._room < 0:
            self.volume.notes.add(node.address, DamageCause.COUNTS, Work.NODES.text)
        return self._room >= 0

    def find(self, path: Path) -> Optional[StateNode]:
        """The node at a path; None where there is none that can be read."""
        node = self.root()
        for part in path:
            if node is None or node.kind is not FileType.DIRECTORY:
                return None
            name = next((name for name in self.names(node) if name.name == part), None)
            node = self.child(node, name) if name is not None else None
        return node

    def _node(self, path: Path, name: Identifier, above: VirtualAddress, named_at: Address) -> Optional[StateNode]:
        notes = self.volume.notes
        at = self.address(name.virtual)
        if at is None:
            notes.add(named_at, DamageCause.RANGE, f"{show(path)} leads to virtual address {name.virtual}, which leads to no block below the table")
            return None
        entry = self._entry(at, name.virtual)
        if entry is None:
            return None
        kind = FileType.DIRECTORY if name.is_directory else FileType.FILE
        if entry.kind is not kind or entry.unique != name.unique:
            notes.add(at, DamageCause.IDENTITY, f"the entry is not that of {show(path)}, by its kind or its unique ID")
            return None
        if kind is FileType.FILE and entry.links != 1:
            notes.add(at, DamageCause.IDENTITY, f"{show(path)} has {entry.links} links, and not 1")
        limit = number_of(self.table.address)
        whole = entry if entry.is_whole or entry.end > limit else self._whole(at, name.virtual, entry)
        if whole is None:
            return None
        entry = whole
        if entry.end > limit:
            notes.add(at, DamageCause.RANGE, f"the bytes of {show(path)} do not lie below the VAT ICB")
            return None
        data = address_of(entry.first) if entry.first is not None else None
        return StateNode(
            path, kind, entry.unique, name.virtual, at, entry.moment, entry.size, data, entry.blocks, entry.links, above, entry.check, entry.extents,
        )

    def _entry(self, at: Address, virtual: VirtualAddress) -> Optional[Entry]:
        known, entry = self._seen.entry((at, virtual))
        if known:
            return entry
        block = self.volume.medium.block(at)
        if block is None:
            self.volume.notes.add(at, DamageCause.MISSING, "the entry cannot be read")
        else:
            entry, faults = read_entry(block, virtual)
            self.volume.notes.extend(at, faults)
        self._seen.entries[at, virtual] = entry
        return entry

    def _whole(self, at: Address, virtual: VirtualAddress, entry: Entry) -> Optional[Entry]:
        """An entry with the extents of its descriptor blocks; None where these cannot be used. What is wrong with them is noted."""
        blocks = read_descriptors(self.volume.medium, entry)
        note_descriptors(self.volume.notes, blocks)
        whole = with_descriptors(entry, blocks)
        self._seen.entries[at, virtual] = whole
        return whole

    def _directory(self, node: StateNode) -> Optional[Directory]:
        if node.data is None:
            self.volume.notes.add(node.address, DamageCause.LENGTHS, f"the directory {show(node.path)} has no bytes")
            return None
        known, directory = self._seen.directory((node.data, node.size))
        if not known:
            run = self.volume.medium.run(node.data, node.blocks)
            for at in run.missing:
                self.volume.notes.add(at, DamageCause.MISSING, f"a block of the directory {show(node.path)} cannot be read")
            directory, faults = read_directory(run.data, node.size, number_of(node.data), self.volume.known)
            self.volume.notes.extend(node.data, faults)
            self._seen.directories[node.data, node.size] = directory
        if directory is None:
            raise RuntimeError("a directory that was seen before has no names")
        if directory.parent != node.above:
            self.volume.notes.add(node.data, DamageCause.IDENTITY, f"the directory above {show(node.path)} is another than it says")
        if node.links != 1 + sum(name.is_directory for name in directory.names):
            self.volume.notes.add(node.address, DamageCause.IDENTITY, f"the links of {show(node.path)} are not those of its directories")
        return directory

    # ---- what structures say of one another

    def check(self) -> None:
        """Notes what does not agree: the file set, the tree, the counts and the labels."""
        table, notes = self.table, self.volume.notes
        start = address_of(table.first)
        self._check_file_set()
        files = directories = 0
        uniques: Set[int] = set()
        for node in self.walk():
            files, directories = files + (node.kind is FileType.FILE), directories + (node.kind is FileType.DIRECTORY)
            fresh = node.unique not in uniques and (FIRST_UNIQUE <= node.unique < table.next_unique if node.path else node.unique == 0)
            uniques.add(node.unique)
            if not fresh:
                notes.add(node.address, DamageCause.IDENTITY, f"the unique ID {node.unique} of {show(node.path)} is not its own")
        if (files, directories) != (table.files, table.directories):
            notes.add(start, DamageCause.COUNTS, f"the table counts {table.files} files and {table.directories} directories, the tree has {files} and {directories}")
        if 2 * table.commit + 261 > table.address or table.next_unique > FIRST_UNIQUE + table.commit:
            notes.add(start, DamageCause.COUNTS, "the count of commits is not that of the table's place")

    def _check_file_set(self) -> None:
        volume, notes, start = self.volume, self.volume.notes, address_of(self.table.first)
        at = self.address(VirtualAddress(0))
        block = volume.medium.block(at) if at is not None else None
        if at is None or block is None:
            notes.add(at or start, DamageCause.RANGE if at is None else DamageCause.MISSING, "there is no file set descriptor that can be read")
            return
        label, moment, faults = read_file_set(block)
        notes.extend(at, faults)
        if volume.label is not None and self.table.label != volume.label:
            notes.add(start, DamageCause.LABELS, "the label of the table is not that of the volume header")
        if volume.label is not None and label != volume.label or volume.moment is not None and moment != volume.moment:
            notes.add(at, DamageCause.LABELS, "the label or the moment of the file set is not that of the volume header")


def show(path: Path) -> str:
    """A path as people write it."""
    return "/" + "/".join(path)
