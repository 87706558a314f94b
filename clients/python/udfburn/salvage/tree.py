"""As much of the tree of a state as can be read: nodes by their names, else by those of earlier states, else by their unique IDs."""

from __future__ import annotations

from itertools import islice
from typing import Dict, Iterator, List, NamedTuple, Optional, Set, Tuple

from ..protocol import escaped
from ..protocol.units import Address, BlockNumber, Commit, Size, VirtualAddress
from ..reader.basics import BLOCK, DEPTH, EXTENT_BYTES, UNUSED, address_of, blocks_of, number_of
from ..reader.budget import Work
from ..reader.chain import Chain, Span
from ..reader.descriptors import DescriptorBlock, note_descriptors, read_descriptors
from ..reader.directory import OF_PARENT, Directory, Identifier, KnownIdentifiers, piece_at, read_directory, said_by
from ..reader.entry import Entry, FileType, descriptor_blocks, read_entry
from ..reader.medium import Medium
from ..reader.mend import Hint, mend_entry
from ..reader.notes import DamageCause
from ..reader.volume import ROOT, Path, show
from .extents import EarlierEntry, whole_entry

LOST_AND_FOUND = "lost+found"
LISTINGS = 100
"""Earlier listings of a directory that are looked at, at most, where none is whole."""

SALVAGE_DEPTH = 64
"""Names in a path at most, also where directories were damaged into a deeper tree."""


class Version(NamedTuple):
    """An entry of a node, its address, and the newest commit after which it was valid: None where that is the one asked for."""

    entry: Entry
    address: Address
    commit: Optional[Span]


class Item(NamedTuple):
    """A node that is given, or is lost.

    `path` has the names on the volume; of a node without names it begins with `lost+found`. `target` are the names that it is written
    under. `commit` is that of an earlier state that its name or its entry is taken from. `version` is None where it is lost.
    `is_unfinished` says that the commit that wrote it has no VAT ICB.
    """

    path: Path
    target: Path
    kind: Optional[FileType]
    virtual: VirtualAddress
    version: Optional[Version]
    commit: Optional[Span]
    why: str
    is_unfinished: bool = False

    @property
    def entry(self) -> Optional[Entry]:
        """Its entry."""
        return self.version.entry if self.version is not None else None


class SalvageTree:
    """The nodes of the state after the table at a place of the chain, in `items`: directories before what is in them."""

    def __init__(self, chain: Chain, index: int):
        self.chain, self.index = chain, index
        self.volume, self.notes = chain.volume, chain.volume.notes
        self.medium, self.survey = chain.volume.medium, chain.survey
        self.link = chain.links[index]
        self.entries, self.unknown = chain.entries(index)
        self.items: List[Item] = []
        self._known = KnownIdentifiers(self.volume.budget)
        self._reached: Set[VirtualAddress] = {VirtualAddress(0)}
        self._hurt: List[Item] = []
        self._loose: List[Tuple[Item, Identifier]] = []
        self._older: List[Tuple[Item, Identifier, Span]] = []
        self._build()

    def _build(self) -> None:
        root = self.resolve(ROOT, 0, FileType.DIRECTORY)
        item = Item((), (), FileType.DIRECTORY, ROOT, root, root.commit if root else None, "" if root else "no entry of the root can be read")
        self._reached.add(ROOT)
        self.items.append(item)
        self._descend(item)
        self._finish()
        self._collect()
        if self.index == 0:
            self._add_unfinished()

    def _finish(self) -> None:
        """Takes what is less certain once all that is certain was taken: names that were not proved, then those of earlier listings."""
        while self._loose or self._older or self._hurt:
            while self._loose:
                above, name = self._loose.pop(0)
                self._take(above, self._confirmed(above, name), None)
            if self._older:
                above, name, commit = self._older.pop(0)
                self._take(above, name, commit)
            elif self._hurt:
                self._recover(self._hurt.pop(0))

    # ---- entries

    def resolve(self, virtual: VirtualAddress, unique: Optional[int], kind: Optional[FileType], listed: Optional[Span] = None) -> Optional[Version]:
        """The entry of a node: that which the table leads to, else the newest one before it.

        `listed` is the commit of the earlier listing that names it: a virtual address that has another node since is none then.
        """
        number = self._number(virtual)
        if number == UNUSED and listed is not None and virtual not in self.unknown:
            return None
        address = address_of(number) if number != UNUSED else None
        if address is not None:
            entry = self._entry(address, virtual, unique, kind, True)
            if entry is not None:
                return self._newest(Version(entry, address, None), virtual, unique, kind)
            if listed is not None and self._entry(address, virtual, None, None) is not None:
                return None
        return (
            self._by_others(virtual, unique, kind, address) or self._rebuilt(virtual, unique, kind, address)
            or self._earlier(virtual, unique, kind, address) or self._carved(virtual, unique, kind, address)
        )

    def _entry(
        self, address: Address, virtual: VirtualAddress, unique: Optional[int], kind: Optional[FileType], is_told: bool = False,
    ) -> Optional[Entry]:
        """The entry at an address, where it is that of this node. What is wrong there is noted where a table leads to it."""
        block, hint = self.medium.block(address), Hint(number_of(address), virtual, unique, kind)
        entry = mend_entry(block, hint, self.volume.budget) if block is not None else None
        if is_told and block is None:
            self.notes.add(address, DamageCause.MISSING, "an entry cannot be read")
        elif is_told and block is not None:
            self.notes.extend(address, read_entry(block, virtual)[1])
            if entry is None or not entry.proved:
                entry = self._by_extents(block, hint, virtual) or entry
        if entry is None or entry.kind is FileType.TABLE or kind is not None and entry.kind is not kind:
            return None
        if unique is not None and entry.unique != unique:
            return None
        return entry if entry.location == virtual or entry.proved and unique is not None else None

    def _by_extents(self, block: bytes, hint: Hint, virtual: VirtualAddress) -> Optional[Entry]:
        """The entry of a file in which the place of an extent is wrong, where its CRC agrees with what the newest earlier entry has."""
        for at, _ in self.versions(virtual, address_of(hint.number)):
            older = self._entry(at, virtual, hint.unique, FileType.FILE)
            if older is not None and older.proved and older.first is not None:
                entry = mend_entry(block, hint._replace(firsts=(older.first, *older.others)), self.volume.budget)
                return entry if entry is not None and entry.proved else None
        return None

    def _newest(self, version: Version, virtual: VirtualAddress, unique: Optional[int], kind: Optional[FileType]) -> Version:
        """The entry that the table leads to; where no other table says so, as in a block of an older table, the newer of two."""
        if self.chain.is_confirmed(virtual, version.address, self.index):
            return version
        other = self._by_others(virtual, unique, kind, version.address)
        return other if other is not None and other.address > version.address else version

    def _by_others(self, virtual: VirtualAddress, unique: Optional[int], kind: Optional[FileType], address: Optional[Address]) -> Optional[Version]:
        """The entry that the table has to lead to by all else that is on the volume, where its own word is wrong."""
        if address is not None and self.chain.is_confirmed(virtual, address, self.index):
            return None
        other = self.chain.expected(virtual, self.index)
        if other is None or other == address:
            return None
        entry = self._entry(other, virtual, unique, kind)
        if entry is None:
            return None
        said = "unused" if address is None else f"block number {number_of(address)}"
        self.notes.add(self.link.start, DamageCause.ENTRY, f"virtual address {virtual} is {said}, and its entry is at block number {number_of(other)}")
        return Version(entry, other, None)

    def _rebuilt(self, virtual: VirtualAddress, unique: Optional[int], kind: Optional[FileType], address: Optional[Address]) -> Optional[Version]:
        """A directory whose entry is lost, by its data, which ends where its entry was."""
        if kind is not FileType.DIRECTORY or unique is None or address is None or not self.chain.is_confirmed(virtual, address, self.index):
            return None
        found = data_before(self.medium, number_of(address))
        if found is None:
            return None
        data, size, first = found
        links = 1 + sum(name.is_directory for name in read_directory(data, size, first)[0].names)
        place = self.chain.place_of(address)
        table = self.chain.links[place].table if place is not None else None
        moment = table.moment if table is not None else None
        return Version(Entry(FileType.DIRECTORY, moment, links, unique, size, first, None, virtual, 0, True), address, None)

    def _earlier(self, virtual: VirtualAddress, unique: Optional[int], kind: Optional[FileType], address: Optional[Address]) -> Optional[Version]:
        """The newest earlier entry of a node, where the one that the table leads to cannot be read."""
        after = address if address is not None and self.chain.is_confirmed(virtual, address, self.index) else self.link.start
        for at, commit in self.versions(virtual, after):
            entry = self._entry(at, virtual, unique, kind)
            if entry is not None and entry.proved:
                return Version(entry, at, commit)
        return None

    def _carved(self, virtual: VirtualAddress, unique: Optional[int], kind: Optional[FileType], address: Optional[Address]) -> Optional[Version]:
        """A file whose entry is lost, by the blocks before it: a commit begins with them. How many bytes it has is not known."""
        if kind is not FileType.FILE or unique is None or address is None or not self.chain.is_confirmed(virtual, address, self.index):
            return None
        start = self.chain.floor(address)
        if self._entry(address, virtual, None, None) is not None:
            # It is not lost: it is that of another node.
            return None
        if not 0 < address - start <= blocks_of(EXTENT_BYTES):
            return None
        size = Size((address - start) * BLOCK)
        return Version(Entry(FileType.FILE, None, 1, unique, size, number_of(start), None, virtual, 0, False), address, None)

    def _number(self, virtual: VirtualAddress) -> BlockNumber:
        """The block number that the table has for a virtual address, or UNUSED."""
        return BlockNumber(self.entries[virtual]) if virtual < len(self.entries) else UNUSED

    def address(self, item: Item) -> Optional[Address]:
        """The address of the entry to which the table leads for a node."""
        number = self._number(item.virtual)
        return address_of(number) if number != UNUSED else None

    def versions(self, virtual: VirtualAddress, after: Address) -> Iterator[Tuple[Address, Span]]:
        """The entries that were committed for a virtual address below an address, the newest first, and until which commit each was valid."""
        for at in self.survey.nodes(virtual, min(after, self.link.start)):
            if not self._takes(Work.VERSIONS):
                return
            place, replaced = self.chain.place_of(at), self.chain.place_of(after)
            if place is None or replaced is None or place < self.index:
                continue
            entries = self.chain.entries(place)[0]
            is_there = virtual < len(entries) and entries[virtual] == number_of(at)
            if is_there and place > replaced:
                yield at, self.chain.links[replaced + 1].numbers
            elif is_there or not self.chain.links[place].adjacent:
                # It was valid for a while, and no table of that while is left.
                low, high = self.chain.commit_of(at) or self.chain.links[place].numbers
                yield at, Span(low, max(Commit(high - 1), low))
            else:
                continue
            after = at

    # ---- directories

    def _descend(self, item: Item) -> None:
        """Takes the nodes that a directory names."""
        directory = self._listing(item)
        if directory is None:
            return
        for name in directory.names:
            if item.version is not None and item.version.commit is not None:
                self._older.append((item, name, item.version.commit))
            elif name.proved:
                self._take(item, name, None)
            else:
                self._loose.append((item, name))

    def _listing(self, item: Item) -> Optional[Directory]:
        """The names of a directory. Where some are lost it is among those that are hurt."""
        directory = self._read(item.version.entry, item.path) if item.version is not None else None
        if directory is None or not directory.complete or not self._is_listed(item, directory):
            self._hurt.append(item)
        return directory

    def _is_listed(self, item: Item, directory: Directory) -> bool:
        """Whether each name that was not proved leads to the node that it says."""
        return all(name.proved or self._agrees(name) for name in directory.names)

    def _agrees(self, name: Identifier) -> bool:
        kind = FileType.DIRECTORY if name.is_directory else FileType.FILE
        version = self.resolve(name.virtual, name.unique, kind)
        return version is not None and version.entry.location == name.virtual

    def _read(self, entry: Entry, path: Path) -> Optional[Directory]:
        if entry.first is None or not self._takes(Work.DIRECTORIES, blocks_of(entry.size)):
            return None
        run = self.medium.run(address_of(entry.first), blocks_of(entry.size))
        for at in run.missing:
            self.notes.add(at, DamageCause.MISSING, f"a block of the directory {escaped(show(path))} cannot be read")
        directory, faults = read_directory(run.data, entry.size, entry.first, self._known)
        self.notes.extend(address_of(entry.first), faults)
        return directory

    def _confirmed(self, above: Item, name: Identifier) -> Identifier:
        """A name that was not proved, as an earlier listing of the directory has it, where it differs in some bytes alone."""
        after = above.version.address if above.version is not None else self.link.start
        for at, _ in self.versions(above.virtual, after):
            for old in self._names_at(at):
                if old.proved and (old.virtual, old.unique, len(old.name)) == (name.virtual, name.unique, len(name.name)):
                    return old
            break
        return name

    def _take(self, above: Item, name: Identifier, listed: Optional[Span], is_marked: bool = False) -> None:
        """Takes a node that a directory names, in this state or in an earlier one; its path has the commit then, where it is marked."""
        if not self._takes(Work.NAMES):
            return
        path = above.path + (name.name,)
        kind = FileType.DIRECTORY if name.is_directory else FileType.FILE
        if name.virtual in self._reached:
            if listed is None and name.proved:
                self.notes.add(above.version.address if above.version else self.link.start, DamageCause.REACHED_TWICE, f"{escaped(show(path))} leads to a node that has a name already")
            return
        version = self.resolve(name.virtual, name.unique, kind, listed)
        if version is None and (listed is not None or not name.proved or above.commit is not None):
            return
        if len(path) > DEPTH:
            self.notes.add(version.address if version else self.link.start, DamageCause.TOO_DEEP, f"{escaped(show(path))} has more than {DEPTH} names")
        if len(path) > SALVAGE_DEPTH:
            return
        self._reached.add(name.virtual)
        commit = listed if is_marked else version.commit if version is not None else None
        suffix = suffix_of(commit)
        why = "no entry of it can be read" if version is None else "" if name.proved else "its name is not certain: what says it has a wrong byte, or is older"
        self._put(Item(path, above.target + (name.name + suffix,), kind, name.virtual, version, commit, why))

    def _takes(self, what: Work, count: int = 1) -> bool:
        """Whether so much more may be done. Where there is too much of something, it is noted."""
        may = self.volume.budget.take(what, count)
        if not may:
            self.notes.add(Address(0), DamageCause.COUNTS, what.text)
        return may

    def _put(self, item: Item) -> None:
        entry = item.entry
        if not self._takes(Work.NODES, 1 + (entry.blocks if entry is not None else 0)):
            return
        if item.version is not None and not item.version.entry.is_whole:
            item = item._replace(version=self._whole(item, item.version))
        self.items.append(item)
        if item.kind is FileType.DIRECTORY:
            self._descend(item)

    # ---- descriptor blocks

    def _whole(self, item: Item, version: Version) -> Version:
        """The entry of a file with all of its extents, as far as its descriptor blocks or earlier entries say where they are."""
        blocks = self._descriptors(version.entry, item.is_unfinished)
        if version.commit is None:
            note_descriptors(self.notes, blocks)
        return version._replace(entry=whole_entry(version.entry, blocks, self._entries_before(item, version)))

    def _descriptors(self, entry: Entry, is_unfinished: bool = False) -> List[DescriptorBlock]:
        """The descriptor blocks of an entry; none where they do not lie below the VAT ICB."""
        end, count = self.medium.blocks if is_unfinished else self.link.address, descriptor_blocks(entry.size)
        if entry.descriptors is None or entry.descriptors + count > number_of(Address(end)) or not self._takes(Work.DESCRIPTORS, count):
            return []
        return read_descriptors(self.medium, entry)

    def _entries_before(self, item: Item, version: Version) -> Iterator[EarlierEntry]:
        """The entries that a file had before one of them, the newest first."""
        for at, _ in self.versions(item.virtual, min(version.address, self.link.start)):
            older = self._entry(at, item.virtual, version.entry.unique, FileType.FILE)
            if older is not None and older.proved:
                yield EarlierEntry(older, self._descriptors(older))

    def _recover(self, item: Item) -> None:
        """Takes the nodes that a directory lost, by the names that its newest earlier listings have."""
        after = item.version.address if item.version is not None else self.link.start
        for at, commit in islice(self.versions(item.virtual, after), LISTINGS):
            block = self.medium.block(at)
            entry = mend_entry(block, Hint(number_of(at), item.virtual), self.volume.budget) if block is not None else None
            if entry is None or item.entry is not None and entry.unique != item.entry.unique:
                continue
            directory = self._read(entry, item.path)
            if directory is None:
                continue
            for name in directory.names:
                if name.proved:
                    self._take(item, name, commit, True)
            if directory.complete:
                return

    # ---- nodes without a name

    def _collect(self) -> None:
        """Takes the nodes that the table uses and that no name leads to, by their unique IDs."""
        lost: Dict[VirtualAddress, Optional[Version]] = {}
        for virtual in map(VirtualAddress, range(len(self.entries))):
            if self.entries[virtual] != UNUSED and virtual not in self._reached:
                lost[virtual] = self.resolve(virtual, None, None)
        inner: Set[VirtualAddress] = set()
        for version in lost.values():
            if version is not None and version.entry.kind is FileType.DIRECTORY:
                directory = self._read(version.entry, (LOST_AND_FOUND, str(version.entry.unique)))
                inner.update(name.virtual for name in directory.names) if directory is not None else None
        for whole in (False, True):
            # Directories that name one another in a circle come last.
            for virtual, version in lost.items():
                if virtual not in self._reached and (whole or virtual not in inner):
                    self._adopt(virtual, version)

    def _adopt(self, virtual: VirtualAddress, version: Optional[Version]) -> None:
        self._reached.add(virtual)
        if version is None:
            address = address_of(self._number(virtual))
            name, kind, why = f"block-{address}", None, "no name leads to it, and its entry cannot be read"
            self._put(Item((LOST_AND_FOUND, name), (LOST_AND_FOUND, name), kind, virtual, None, None, why))
            return
        suffix = suffix_of(version.commit)
        name = str(version.entry.unique)
        why = "no name leads to it"
        self._put(Item((LOST_AND_FOUND, name), (LOST_AND_FOUND, name + suffix), version.entry.kind, virtual, version, version.commit, why))
        self._finish()


    def _add_unfinished(self) -> None:
        """Takes the nodes of a commit that has no VAT ICB, as it was cut, or its last block is lost; and those of an unfinished group, which may
        have several entries of a file: one that was appended to later is the beginning of that file."""
        nodes = self.survey.nodes_after(self.link.address)
        names = {name.virtual: name for at in nodes for name in self._names_at(at)}
        met: Dict[int, List[Entry]] = {}
        for at in reversed(nodes):
            block = self.medium.block(at)
            entry = mend_entry(block, Hint(number_of(at)), self.volume.budget) if block is not None else None
            if entry is None or entry.kind is not FileType.FILE:
                continue
            newer = met.setdefault(entry.unique, [])
            if any(entry.first is not None and entry.first == other.first and entry.size <= other.size for other in newer):
                continue
            newer.append(entry)
            virtual = VirtualAddress(entry.location)
            name = names.get(virtual)
            called = f", and its name is {name.name}" if name is not None and name.unique == entry.unique else ""
            path = (LOST_AND_FOUND, f"{entry.unique}.unfinished" + (f"-{len(newer)}" if len(newer) > 1 else ""))
            cut = "the commit that wrote it has no VAT ICB: it was interrupted, or its last block is lost"
            why = (cut if at < self.volume.end else "it is of a group of commits that was not finished") + called
            self._put(Item(path, path, FileType.FILE, virtual, Version(entry, at, None), None, why, True))

    def _names_at(self, at: Address) -> Iterator[Identifier]:
        """The names of the directory whose entry is at an address."""
        block = self.medium.block(at)
        entry = mend_entry(block, Hint(number_of(at)), self.volume.budget) if block is not None else None
        if entry is not None and entry.kind is FileType.DIRECTORY:
            directory = self._read(entry, (LOST_AND_FOUND,))
            yield from directory.names if directory is not None else ()


def suffix_of(commit: Optional[Span]) -> str:
    """What is after the name of a node of an earlier commit."""
    if commit is None:
        return ""
    return f".at-commit-{commit.low}" if commit.commit is not None else f".at-commit-{commit.low}-to-{commit.high}"


def data_before(medium: Medium, number: BlockNumber) -> Optional[Tuple[bytes, Size, BlockNumber]]:
    """A directory's data that ends before a block number: its bytes, its size and its first block number; None where there is none."""
    blocks: List[bytes] = []
    for first in map(BlockNumber, range(number - 1, max(number - 200, -1), -1)):
        block = medium.block(address_of(first))
        piece = piece_at(block, 0, len(block)) if block is not None else None
        name = said_by(piece, first) if piece is not None else None
        if block is None or piece is None or name is None or not name.proved:
            return None
        blocks.insert(0, block)
        if piece.characteristics == OF_PARENT:
            data = b"".join(blocks)
            return data, directory_length(data, first), first
    return None


def directory_length(data: bytes, first: BlockNumber) -> Size:
    """The bytes of a directory's data, by its identifiers."""
    at = 0
    while at < len(data):
        piece = piece_at(data, at, len(data))
        if piece is None or said_by(piece, first) is None:
            break
        at += len(piece.data)
    return Size(at)
