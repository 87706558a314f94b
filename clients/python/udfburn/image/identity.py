"""What an image says of itself: who it is for its whole life, and the commits by which it is known again.

It is read by `udfburn.reader`, and nothing of it is asked of the program that writes.
"""

from __future__ import annotations

import os
from contextlib import contextmanager
from typing import TYPE_CHECKING, Iterator, Optional

from ..base.errors import Damaged
from ..ledger.records import Identity, Mark
from ..protocol import shown
from ..protocol.units import Address, Commit
from ..wire.connection import Connection, Lost

if TYPE_CHECKING:
    from ..reader import Table, Volume

BLOCKS_AT_ONCE = 256
"""Blocks of a commit that are read at once."""


class Looked:
    """An image that is looked at: its identity, its newest commit, and the way back to an earlier one."""

    def __init__(self, volume: Volume, name: str):
        self._volume = volume
        self._name = name
        if volume.label is None or volume.moment is None or volume.capacity is None:
            raise Damaged(f"{name}: its volume header does not give label, moment and capacity: see 'udfburn check'")
        self.identity = Identity(volume.label, volume.moment, volume.capacity)
        self._newest = self._table(volume.last_entry())
        self.commit = self._newest.commit

    def newest(self) -> Mark:
        """The mark of the newest commit."""
        return self._mark(self._newest)

    def at(self, commit: Commit) -> Optional[Mark]:
        """The mark of an earlier commit, by the chain of tables from the newest one down; None where it has no such commit."""
        table = self._newest
        while table.commit > commit:
            table = self._table(table.previous)
        return self._mark(table) if table.commit == commit else None

    def _table(self, address: Optional[Address]) -> Table:
        table = self._volume.table_at(address) if address is not None else None
        if table is None:
            raise Damaged(f"{self._name}: the chain of its tables is broken: see 'udfburn check', and 'udfburn-client log'")
        return table

    def _mark(self, table: Table) -> Mark:
        """The mark of a commit. Its blocks are those after the VAT ICB before it, to its own."""
        from hashlib import sha256

        if table.previous is None and table.commit:
            self._table(None)
        begin = Address(table.previous + 1 if table.previous is not None else 0)
        check = sha256()
        for address, run in self._volume.medium.pieces(begin, Address(table.address + 1)):
            if run.missing:
                raise Damaged(f"{self._name}: block {run.missing[0]} cannot be read")
            check.update(run.data)
        return Mark(table.commit, table.address, check.digest())


@contextmanager
def looked_at(path: str) -> Iterator[Looked]:
    """An image, opened for reading while it is looked at. `Damaged` where it is none that can be read."""
    from ..reader import Medium, NoVolume, Volume

    with Medium(path) as medium:
        try:
            yield Looked(Volume(medium), shown(path))
        except NoVolume as error:
            raise Damaged(str(error)) from error


def opened_path(connection: Connection, path: str) -> str:
    """A path of the very file that a conversation has open, whatever has its name by now.

    `Lost` where the name is another file's. Where the system does not show the files of a process, it is the name.
    """
    process = connection.opener()
    if process is None:
        return path
    folder = f"/proc/{process}/fd"
    try:
        named, descriptors = os.stat(path), os.listdir(folder)
    except OSError:
        return path
    for descriptor in descriptors:
        try:
            if os.path.samestat(named, os.stat(f"{folder}/{descriptor}")):
                return f"{folder}/{descriptor}"
        except OSError:
            continue
    raise Lost("another file took the image's name while it was opened")


__all__ = ["Looked", "looked_at", "opened_path"]
