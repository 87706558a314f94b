"""A volume that a ledger knows, copies of it that lost blocks, and what must come out of them, by the intact image."""

from __future__ import annotations

import random
from typing import Dict, List, NamedTuple, Set, Tuple

from udfburn import Client
from udfburn.protocol import Path
from udfburn.protocol.units import Commit, Moment
from udfburn.reader import FileType, Medium, Volume

from .programs import UDFBURN
from .volumes import format_image

BLOCK = 2048
SIZES = (40, 700, 1872, 1873, 2048, 5000, 9000, 20_000)
FOLDERS = ("letters", "photos", "letters/old", "a folder with a long name, so that its identifiers take more room", "日本")
MOMENT = Moment(1_600_000_000_000_000)


class File(NamedTuple):
    """A file of a state: its bytes, the address of its entry, and all its blocks, the entry's too."""

    data: bytes
    entry: int
    blocks: Set[int]


class Sound:
    """An image as it was written: its bytes, the address of each commit's VAT ICB, the first block of its table, and its files after each
    commit."""

    def __init__(self, path: str):
        self._medium = Medium(path)
        self._volume = Volume(self._medium)
        tables = sorted(self._volume.chain(), key=lambda table: table.commit)
        assert [table.commit for table in tables] == list(range(len(tables)))
        self.ends = [table.address for table in tables]
        self.starts = [table.first + 257 for table in tables]
        self.numbers = {address: number for number, address in enumerate(self.ends)}
        self._states: Dict[int, Dict[Path, File]] = {}
        with open(path, "rb") as file:
            self.image = file.read()

    def state(self, commit: int) -> Dict[Path, File]:
        """The files after a commit."""
        if commit not in self._states:
            self._states[commit] = files_of(self._volume, commit)
        return self._states[commit]

    def close(self) -> None:
        """Closes the image."""
        self._medium.close()


class Loss(NamedTuple):
    """A copy that lost blocks: its bytes, those that cannot be read, and all whose bytes are not as they were."""

    image: bytes
    unread: Tuple[int, ...]
    lost: Set[int]


def write(image: str, ledger: str, seed: int) -> None:
    """Writes directories and files, replaces, renames and removes some, and has some requests refused."""
    chance = random.Random(seed)
    format_image(image, "LOSSES", MOMENT, 20_000)
    known: List[str] = []
    with Client(f"image:{image}", ledger=ledger, program=UDFBURN) as client, client.held():
        for folder in FOLDERS:
            client.mkdir("/" + folder, MOMENT)
        for number in range(130):
            path = f"/{chance.choice(FOLDERS)}/file {number:03} of the archive.dat"
            client.create(path, chance.randbytes(chance.choice(SIZES)), Moment(MOMENT + number))
            known.append(path)
            if number % 9 == 5:
                client.replace(chance.choice(known), chance.randbytes(chance.choice(SIZES)), Moment(MOMENT + 1000 + number))
            if number % 17 == 8:
                old = known.pop(chance.randrange(len(known)))
                client.rename(old, f"/renamed {number}", MOMENT)
                known.append(f"/renamed {number}")
            if number % 31 == 30:
                client.remove(known.pop(chance.randrange(len(known))), MOMENT)


def files_of(volume: Volume, commit: int) -> Dict[Path, File]:
    """The files after a commit."""
    found = {}
    for node in volume.state(Commit(commit)).walk():
        if node.kind is FileType.FILE:
            blocks = set(range(node.data, node.data + node.blocks)) if node.data is not None else set()
            found[node.path] = File(volume.read(node).data, node.address, blocks | {node.address})
    return found


def losses(sound: Sound, seed: int) -> Loss:
    """A copy that lost 8 to 200 blocks: anywhere, or those of tables before all."""
    chance = random.Random(seed)
    blocks = list(range(257, len(sound.image) // BLOCK))
    tables = sorted({at for start, end in zip(sound.starts, sound.ends) for at in range(start, end + 1)})
    count = chance.randrange(8, 201)
    few = chance.choice((0.0, 0.0, 0.3, 0.6))
    chosen = set(chance.sample(tables, min(int(count * few), len(tables)))) | set(chance.sample(blocks, count - int(count * few)))
    how = chance.choice(("zeros", "random", "others", "unread", "any"))
    image = bytearray(sound.image)
    unread = []
    for at in sorted(chosen):
        kind = chance.choice(("zeros", "random", "others", "unread")) if how == "any" else how
        other = chance.choice(blocks) * BLOCK
        data = {"zeros": bytes(BLOCK), "random": chance.randbytes(BLOCK), "others": sound.image[other : other + BLOCK], "unread": bytes(BLOCK)}[kind]
        image[at * BLOCK : (at + 1) * BLOCK] = data
        unread += [at] if kind == "unread" else []
    lost = {at for at in chosen if image[at * BLOCK : (at + 1) * BLOCK] != sound.image[at * BLOCK : (at + 1) * BLOCK]} | set(unread)
    return Loss(bytes(image), tuple(unread), lost)


def write_map(path: str, size: int, unread: Tuple[int, ...]) -> None:
    """A map of ddrescue in which all but some blocks were read."""
    lines, at = ["0x0 + 1"], 0
    for block in unread:
        if block * BLOCK > at:
            lines.append(f"0x{at:x} 0x{block * BLOCK - at:x} +")
        lines.append(f"0x{block * BLOCK:x} 0x{BLOCK:x} -")
        at = (block + 1) * BLOCK
    if size > at:
        lines.append(f"0x{at:x} 0x{size - at:x} +")
    with open(path, "w", encoding="ascii") as file:
        file.write("\n".join(lines) + "\n")


__all__ = ["BLOCK", "File", "Loss", "Sound", "losses", "write", "write_map"]
