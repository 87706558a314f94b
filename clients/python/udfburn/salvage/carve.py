"""Files whose entries are lost, by the digests that are kept of them: their blocks end where the entry was."""

from __future__ import annotations

from typing import TYPE_CHECKING, Callable, Optional

from ..protocol.units import Address
from ..reader.basics import BLOCK, EXTENT_BYTES, LONGEST_FILE, blocks_of, number_of, read_tag
from ..reader.budget import Work
from ..reader.chain import Chain
from ..reader.descriptors import DESCRIPTOR_BLOCK
from ..reader.entry import descriptor_blocks
from ..reader.mend import unlike
from ..reader.notes import DamageCause

if TYPE_CHECKING:
    import hashlib

STARTS = 20_000
"""How many beginnings of files are tried in all."""

IsKept = Callable[[str], bool]
"""Whether a digest, in lower case, is among those that are wanted."""


class Carver:
    """Tries the blocks before lost entries."""

    def __init__(self, chain: Chain):
        self.chain = chain
        self._left = STARTS

    def find(self, address: Address, is_kept: IsKept, earlier: "hashlib._Hash") -> Optional[bytes]:
        """The bytes of the last extent of the file whose entry was at an address, where some that it may have had have a digest that is kept.
        `earlier` has taken those of its earlier extents, which were written before the descriptor blocks that are there."""
        for end in unlike((self._without_descriptors(address), address)):
            found = self._last_bytes(end, is_kept, earlier)
            if found is not None:
                return found
        return None

    def _without_descriptors(self, address: Address) -> Address:
        """The address after the data that ends before an entry: descriptor blocks may lie between them."""
        end = address
        while end > address - descriptor_blocks(LONGEST_FILE) and self._is_descriptor_block(Address(end - 1)):
            end = Address(end - 1)
        return end

    def _is_descriptor_block(self, address: Address) -> bool:
        block = self.chain.volume.medium.block(address)
        tag = read_tag(block) if block is not None else None
        return tag is not None and tag.agrees and (tag.identifier, tag.location) == (DESCRIPTOR_BLOCK, number_of(address))

    def _last_bytes(self, address: Address, is_kept: IsKept, earlier: "hashlib._Hash") -> Optional[bytes]:
        """The bytes of a file's last extent, which ended at an address, where they have such a digest after earlier ones."""
        volume = self.chain.volume
        low = max(self.chain.floor(address), Address(address - blocks_of(EXTENT_BYTES)))
        run = volume.medium.run(low, max(address - low, 0))
        # What is missing is not hashed, so the file begins after it.
        begin = run.missing[-1] + 1 - low if run.missing else 0
        # The last block is hashed for each of its bytes that may be the file's last one.
        ends = BLOCK * min(len(run.data) - len(run.data.rstrip(b"\0")) + 1, BLOCK)
        for start in range(begin, address - low):
            if self._left == 0:
                return None
            self._left -= 1
            if not volume.budget.take(Work.HASHED, len(run.data) - start * BLOCK + ends):
                volume.notes.add(address, DamageCause.COUNTS, Work.HASHED.text)
                return None
            found = with_digest(run.data[start * BLOCK :], is_kept, earlier)
            if found is not None:
                return found
        return None


def with_digest(data: bytes, is_kept: IsKept, earlier: "hashlib._Hash") -> Optional[bytes]:
    """The first bytes of blocks that have a digest which is kept: it ends in the last block, and what is after it is zeros."""
    begin = max(len(data) - BLOCK, 0)
    known = earlier.copy()
    known.update(data[:begin])
    for end in range(max(len(data.rstrip(b"\0")), begin + 1), len(data) + 1):
        digest = known.copy()
        digest.update(data[begin:end])
        if is_kept(digest.hexdigest()):
            return data[:end]
    return None
