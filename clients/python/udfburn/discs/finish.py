"""Copies of an image that end a disc as readers need it.

A recorder writes DVD and BD in units of 16 and 32 blocks, and burning programs fill the last one up with zeros. Linux looks for the
VAT ICB in the last three or four blocks, and does not find it before more zeros than that. So the track is filled up with copies of
the last VAT ICB instead. Each has its own location and checksum, and so is a VAT ICB of the same table.
"""

from __future__ import annotations

from typing import TYPE_CHECKING, Iterator, NamedTuple, Optional

from ..base.errors import Damaged, DiscFailed
from ..base.progress import plural
from ..protocol import shown
from ..protocol.units import Address

if TYPE_CHECKING:
    from ..reader import Medium

WRITE_UNITS = {"cd": 1, "dvd": 16, "bd": 32}
"""The blocks that a recorder writes at once, by the kind of medium."""

COPIES = 3
"""Copies at least. A drive may report the end of a track up to three blocks before or after its last block."""


class Track(NamedTuple):
    """What is written to a disc: the blocks of the image, their last one, and how many blocks there are with the copies of that."""

    image: str
    blocks: int
    entry: bytes
    total: int


def track_of(image: str, kind: str) -> Track:
    """The track of an image on a kind of medium. Raises where the image does not end with a VAT ICB, or has no room for the copies."""
    from ..reader import Medium, NoVolume, Volume

    with Medium(image) as medium:
        try:
            capacity = Volume(medium).capacity
        except NoVolume as error:
            raise Damaged(str(error)) from error
        entry = entry_at(medium, Address(medium.blocks - 1))
        if entry is None or medium.size % len(entry):
            raise DiscFailed(
                f"{shown(image)}: does not end with a VAT ICB: what follows it belongs to a commit that was cut short, or whose last block is"
                " damaged. 'udfburn-client check' says which; docs/OPERATIONS.md, 'Copies', says how to end a copy after its last VAT ICB"
            )
        if capacity is None:
            raise Damaged(f"{shown(image)}: its volume header does not say how many blocks the volume has")
        total = total_of(medium.blocks, first_like(medium, entry), WRITE_UNITS[kind])
        if total > capacity:
            # Linux takes no VAT ICB outside the partition (tried), and this package's own reader none after 450,000 blocks.
            raise DiscFailed(
                f"{shown(image)}: is too full for a {kind}: with the copies of its VAT ICB it would have {total:,} blocks, and the volume has"
                f" {plural(capacity, 'block', 'blocks')}. Linux would mount such a disc only with lastblock={medium.blocks - 1}"
            )
        return Track(image, medium.blocks, entry, total)


def total_of(blocks: int, first: Address, unit: int) -> int:
    """The blocks of a track whose first VAT ICB of the last commit is at an address. An image that is finished already stays as it is."""
    return -(-max(blocks, first + 1 + COPIES) // unit) * unit


def entry_at(medium: Medium, address: Address) -> Optional[bytes]:
    """The VAT ICB at an address; None where there is none."""
    from ..reader.basics import PARTITION
    from ..reader.volume import is_table_entry

    block = medium.block(address) if address >= PARTITION else None
    return block if block is not None and is_table_entry(block, address) else None


def first_like(medium: Medium, entry: bytes) -> Address:
    """The address of the first of the VAT ICBs at the end of an image that differ only in their locations."""
    first = last = Address(medium.blocks - 1)
    while True:
        before = entry_at(medium, Address(first - 1))
        if before is None or moved_icb(before, last) != entry:
            return first
        first = Address(first - 1)


def moved_icb(entry: bytes, address: Address) -> bytes:
    """A VAT ICB at another address."""
    from ..reader.basics import number_of, read_tag, write_tag

    tag = read_tag(entry)
    return write_tag(tag.identifier, entry[16 : 16 + tag.length], number_of(address)) + entry[16:]


def track_pieces(track: Track) -> Iterator[bytes]:
    """The bytes of a track."""
    from ..reader import Medium

    with Medium(track.image) as medium:
        for address, run in medium.pieces(Address(0), Address(track.blocks)):
            if run.missing:
                raise DiscFailed(f"{shown(track.image)}: block {run.missing[0]} cannot be read")
            if address + len(run.data) // len(track.entry) == track.blocks and run.data[-len(track.entry) :] != track.entry:
                raise DiscFailed(f"{shown(track.image)}: changed while it was read")
            yield run.data
    for address in map(Address, range(track.blocks, track.total)):
        yield moved_icb(track.entry, address)


__all__ = ["COPIES", "Track", "WRITE_UNITS", "entry_at", "first_like", "moved_icb", "total_of", "track_of", "track_pieces"]
