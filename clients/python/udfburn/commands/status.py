"""The state of a volume: of an image by its own blocks, of a daemon by its answers."""

from __future__ import annotations

import argparse
from typing import List, NamedTuple, Optional

from ..base.unfinished import is_unfinished
from ..image.newest import newest_state
from ..protocol import NodeKind, Path, Stat, show, shown
from ..protocol.units import Moment
from ..trees.client import Client
from .arguments import patience_of


class Status(NamedTuple):
    """What is known of a volume. None stands for what is not known.

    `moment` is that of the format, in microseconds from 1970; `uuid` is what `blkid` shows of it. `written`, `capacity` and `left`
    count blocks of 2,048 bytes, `loose` those after the newest commit; those of a group that was not settled are not written. `nodes`
    counts the root too. `unfinished` has the paths of files that no client has finished, `unknown` names what is not known, `notes` what
    was met that is not as it must be.
    """

    where: str
    label: Optional[str] = None
    moment: Optional[Moment] = None
    uuid: Optional[str] = None
    commits: Optional[int] = None
    capacity: Optional[int] = None
    written: Optional[int] = None
    left: Optional[int] = None
    loose: Optional[int] = None
    nodes: Optional[int] = None
    files: Optional[int] = None
    directories: Optional[int] = None
    bytes: Optional[int] = None
    clients: Optional[int] = None
    unfinished: List[str] = []
    unknown: List[str] = []
    notes: List[str] = []


def of_image(image: str) -> Status:
    """The state of an image, which is only read, also while a daemon writes it. Raises `Damaged` where it holds no volume."""
    from ..reader import FileType, Medium, Volume

    with Medium(image) as medium:
        volume = Volume(medium)
        state = newest_state(image, volume)
        table = state.table
        files = [node for node in state.walk() if node.kind is FileType.FILE]
        total, left_over = sum(node.size for node in files), [show(node.path) for node in files if is_unfinished(node.path)]
        left = max(volume.capacity - volume.end, 0) if volume.capacity is not None else None
        return Status(
            shown(image), volume.label, volume.moment, None if volume.moment is None else f"{volume.moment:016x}", table.commit,
            volume.capacity, volume.end, left, medium.blocks - table.address - 1, table.files + table.directories, table.files,
            table.directories, total, table.clients, left_over, [], [str(note) for note in volume.notes.all()],
        )


def of_socket(path: str, arguments: argparse.Namespace) -> Status:
    """The state of a daemon's volume, as far as its answers report it."""
    with Client(f"unix:{path}", program=arguments.program, **patience_of(arguments)) as client, client.held():
        files: List[Path] = []
        directories = 0
        for at, names in client.walk("/"):
            directories += 1
            files += [at + (name.name,) for name in names if name.kind is NodeKind.FILE]
        total = sum(getattr(answer, "size", 0) for answer in client.ask_all(map(Stat, files)))
    unknown = ["label", "moment of the format", "commits", "blocks", "clients"]
    left_over = [show(path) for path in files if is_unfinished(path)]
    return Status(
        shown(path), nodes=len(files) + directories, files=len(files), directories=directories, bytes=total, unfinished=left_over, unknown=unknown,
    )
