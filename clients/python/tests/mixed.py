"""Each number here is given for one of another kind, and `mypy --strict` refuses every such call. Nothing of this is run.

A comment names the error that is expected. Where there is none, `mypy --strict` reports the comment: so `test/lint.sh` fails once two
kinds can be mixed.
"""

from __future__ import annotations

import time
from typing import List, Optional, Sequence

from udfburn import Client
from udfburn.archive.catalogue import Catalogue, Held, as_of
from udfburn.archive.deletions import Event, file_at
from udfburn.image.identity import Looked
from udfburn.ledger.records import Identity, Mark, Reply
from udfburn.local.sources import Source
from udfburn.protocol import Code, Committed, Create, MakeDir, Path
from udfburn.protocol.units import Address, BlockNumber, Commit, Moment, Size, VirtualAddress
from udfburn.reader import Entry, Extent, Medium, Notes, State, Volume
from udfburn.reader.basics import address_of, blocks_of, number_of, write_timestamp
from udfburn.reader.chain import Chain, Span
from udfburn.reader.directory import read_directory
from udfburn.reader.mend import Hint
from udfburn.reader.notes import DamageCause
from udfburn.salvage.digests import Digests
from udfburn.salvage.ledger import LedgerFile
from udfburn.salvage.salvage import Salvage
from udfburn.salvage.tree import Version
from udfburn.trees.growing import naming
from udfburn.wire.operations import Operation


def addresses(medium: Medium, notes: Notes, chain: Chain, number: BlockNumber, virtual: VirtualAddress, commit: Commit, size: Size) -> None:
    """What is no address of a block."""
    medium.block(number)  # type: ignore[arg-type]
    medium.block(virtual)  # type: ignore[arg-type]
    medium.block(300)  # type: ignore[arg-type]
    medium.run(number, 1)  # type: ignore[arg-type]
    medium.run(size, 1)  # type: ignore[arg-type]
    notes.add(number, DamageCause.RANGE, "")  # type: ignore[arg-type]
    number_of(number)  # type: ignore[arg-type]
    chain.commit_of(number)  # type: ignore[arg-type]
    chain.place_of(commit)  # type: ignore[arg-type]


def block_numbers(data: bytes, size: Size, address: Address, virtual: VirtualAddress) -> None:
    """What is no block number."""
    address_of(address)  # type: ignore[arg-type]
    address_of(virtual)  # type: ignore[arg-type]
    read_directory(data, size, address)  # type: ignore[arg-type]
    Extent(address, size)  # type: ignore[arg-type]
    Hint(address)  # type: ignore[arg-type]


def virtual_addresses(state: State, chain: Chain, address: Address, number: BlockNumber) -> None:
    """What is no virtual address."""
    state.address(address)  # type: ignore[arg-type]
    state.address(number)  # type: ignore[arg-type]
    chain.expected(number, 0)  # type: ignore[arg-type]
    chain.is_confirmed(address, address, 0)  # type: ignore[arg-type]


def commits(medium: Medium, volume: Volume, looked: Looked, address: Address, moment: Moment, number: int) -> None:
    """What is no commit."""
    volume.state(moment)  # type: ignore[arg-type]
    volume.table(address)  # type: ignore[arg-type]
    looked.at(address)  # type: ignore[arg-type]
    Salvage(medium, moment)  # type: ignore[arg-type]
    Salvage(medium, 3)  # type: ignore[arg-type]
    Span(address, address)  # type: ignore[arg-type]
    Committed(Code.DONE, address)  # type: ignore[arg-type]
    Reply(1, 0, number, True)  # type: ignore[arg-type]


def moments(client: Client, source: Source, path: Path, commit: Commit, size: Size) -> None:
    """What is no moment: also seconds, and the nanoseconds of a local file."""
    client.put(path, b"", commit)  # type: ignore[arg-type]
    client.create(path, b"", time.time_ns())  # type: ignore[arg-type]
    client.mkdir(path, int(time.time()))  # type: ignore[arg-type]
    Operation(MakeDir, path, commit)  # type: ignore[arg-type]
    Operation(Create, path, source.identity.modified)  # type: ignore[arg-type]
    naming(path, path, commit)  # type: ignore[arg-type]
    Create(1, 1, size, path, b"")  # type: ignore[arg-type]
    write_timestamp(commit)  # type: ignore[arg-type]
    Identity("LABEL", commit, 512)  # type: ignore[arg-type]


def sizes(volume: Volume, moment: Moment, path: Path) -> None:
    """What is no count of bytes."""
    blocks_of(volume.medium.blocks)  # type: ignore[arg-type]
    blocks_of(moment)  # type: ignore[arg-type]
    LedgerFile(path, moment, moment, "")  # type: ignore[arg-type]


def in_another_order(entry: Entry, digests: Digests, path: Path, commit: Commit, address: Address, number: BlockNumber) -> None:
    """Neighbours in a record."""
    Mark(address, commit, b"")  # type: ignore[arg-type]
    Version(entry, number, None)  # type: ignore[arg-type]
    digests.agrees(path, "", commit)  # type: ignore[arg-type]


def in_the_archive(catalogue: Catalogue, path: Path, volume: int, commit: Commit, size: Size, moment: Moment, groups: Sequence[List[Held]]) -> Optional[object]:
    """A commit for a moment, and neighbours in a row."""
    Held(volume, commit, path, moment, moment, b"", moment)  # type: ignore[arg-type]
    Held(volume, commit, path, size, size, b"", moment)  # type: ignore[arg-type]
    Held(volume, volume, path, size, moment, b"", moment)  # type: ignore[arg-type]
    Event(path, False, volume, commit, commit)  # type: ignore[arg-type]
    file_at(catalogue, path, commit)  # type: ignore[arg-type]
    return as_of(groups, commit)  # type: ignore[arg-type]
