"""A second opinion on an image: what the client's own reader finds, which shares no code with the program."""

from __future__ import annotations

from typing import TYPE_CHECKING, List, NamedTuple

from ..base.errors import Damaged
from ..base.progress import Progress, plural
from ..protocol import shown
from ..protocol.units import Commit
from .newest import newest_state

if TYPE_CHECKING:
    from ..reader import Note

NOTES_PRINTED = 20
"""Notes that are printed for people, at most."""


class Opinion(NamedTuple):
    """What the reader finds of an image: what is not as it must be in the volume header and in the newest state, its commit, and the blocks
    after it, which belong to no commit."""

    notes: List[Note]
    commit: Commit
    loose: int


def opinion_of(image: str) -> Opinion:
    """The reader's opinion on the volume header and the newest state. Raises `Damaged` where it finds no volume."""
    from ..reader import Medium, Volume
    from ..reader.front import note_front, read_front

    with Medium(image) as medium:
        volume = Volume(medium)
        state = newest_state(image, volume)
        note_front(medium, read_front(medium), volume.notes)
        state.check()
        return Opinion(volume.notes.all(), state.table.commit, medium.blocks - state.table.address - 1)


def tell_opinion(image: str, opinion: Opinion, known: str, progress: Progress) -> int:
    """Says what the reader found, but of a block that is known already, and gives the status."""
    if opinion.loose:
        progress.note(
            f"{shown(image)}: {plural(opinion.loose, 'block', 'blocks')} after commit {opinion.commit} belong to no commit: to one that was cut"
            " short, or to one whose last block is damaged (--expect and --ledger show which)", did="loose", blocks=opinion.loose,
        )
    new = [note for note in opinion.notes if f": block {note.block}:" not in known]
    for note in new[:NOTES_PRINTED]:
        progress.fail(Damaged(f"{shown(image)}: {note}"))
    if len(new) > NOTES_PRINTED:
        progress.fail(f"{shown(image)}: and {len(new) - NOTES_PRINTED} more, which 'salvage --list' names")
    return 1 if opinion.notes else 0


__all__ = ["Opinion", "opinion_of", "tell_opinion"]
