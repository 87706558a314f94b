"""A volume of files that can be distinguished, and copies of it with damages of a fixed seed."""

from __future__ import annotations

import hashlib
import random
import subprocess
from typing import Dict, Iterator, List, NamedTuple, Set, Tuple

from tests.model import Volume
from udfburn.protocol import Create, MakeDir, Message, Path, Remove, Rename, Replace, encode_message, frame
from udfburn.reader import FileType, Medium, Volume as Reader

BLOCK = 2048
INSIDE = 1872
"""Bytes of a file that its entry holds, at most."""

MANIFEST = ("manifest-sha256.txt",)
SIZES = (40, 60, 700, 1872, 1873, 2048, 5000, 9000, 30_000)
DIRECTORIES = ("letters", "photos", "letters/old", "a directory with a long name, so that its identifiers take more room", "日本")


class Sound(NamedTuple):
    """A volume as it was written: its bytes, the files after each commit, where each file's bytes lie, and its structures."""

    image: bytes
    files: List[Dict[Path, bytes]]
    places: Dict[Path, int]
    ends: List[int]
    structures: Dict[str, List[int]]


class Damage(NamedTuple):
    """A damaged copy: what was done, its bytes, the addresses of blocks that cannot be read, and the commit that it is a copy of."""

    what: str
    image: bytes
    unread: Tuple[int, ...]
    commit: int


def requests(chance: random.Random) -> List[Message]:
    """Directories, files of all sizes, some replaced, renamed and removed, and at last a manifest of them all."""
    model = Volume()
    sent: List[Message] = []

    def send(kind: type, *fields: object) -> None:
        message = kind(7, len(sent) + 1, 1_600_000_000_000_000 + len(sent), *fields)
        model.answer(message)
        sent.append(message)

    for name in DIRECTORIES:
        send(MakeDir, tuple(name.split("/")))
    for number in range(150):
        folder = tuple(chance.choice(DIRECTORIES).split("/"))
        send(Create, folder + (f"file {number:03} of the archive.dat",), chance.randbytes(chance.choice(SIZES)))
    paths = sorted(model.files())
    for path in chance.sample(paths, 12):
        send(Replace, path, chance.randbytes(chance.choice(SIZES)))
    for path in chance.sample(paths, 8):
        send(Rename, path, path[:-1] + (f"renamed {path[-1]}",))
    for path in chance.sample(sorted(model.files()), 6):
        send(Remove, path)
    lines = [f"{hashlib.sha256(data).hexdigest()}  {'/'.join(path)}\n" for path, data in sorted(model.files().items())]
    send(Create, ("manifest-sha256.txt",), "".join(lines).encode())
    return sent


def states(sent: List[Message]) -> Iterator[Dict[Path, bytes]]:
    """The files after each commit."""
    model = Volume()
    yield {}
    for message in sent:
        model.answer(message)
        yield dict(model.files())


def make(program: str, image: str, seed: int) -> Sound:
    """Has the program write the volume."""
    sent = requests(random.Random(seed))
    subprocess.run([program, "format", image, "BAD DAY", "1600000000000000", "20000"], check=True, stdout=subprocess.DEVNULL)
    subprocess.run([program, "apply", image], input=b"".join(frame(encode_message(m)) for m in sent), check=True, stdout=subprocess.DEVNULL)
    log = subprocess.run([program, "log", image], check=True, capture_output=True, text=True).stdout
    with open(image, "rb") as file:
        data = file.read()
    files = list(states(sent))
    # Files have random bytes, so that each is there once at most in its newest form.
    places = {path: data.rfind(found) for path, found in files[-1].items()}
    assert min(places.values()) > 257 * BLOCK, "the bytes of each file are found"
    return Sound(data, files, places, [int(line.split()[1]) for line in reversed(log.splitlines())], structures_of(image))


def structures_of(image: str) -> Dict[str, List[int]]:
    """Where structures lie, by kind. What is damaged is chosen by it, and nothing else."""
    with Medium(image) as medium:
        volume = Reader(medium)
        state = volume.state()
        nodes = list(state.walk())
        chain = volume.chain()
    listings = [node.data + index for node in nodes if node.kind is FileType.DIRECTORY and node.data for index in range(node.blocks)]
    return {
        "an entry": [node.address for node in nodes], "a listing": listings, "the last table": [state.table.first + 257],
        "the last table's entry": [state.table.address], "an older table": [table.first + 257 for table in chain[1:]],
        "an older table's entry": [table.address for table in chain[1:]], "the front": [16, 32, 33, 34, 35, 48, 50, 64, 256, 100],
        "any block": list(range(medium.blocks)),
    }


def damages(sound: Sound, seed: int) -> Iterator[Damage]:
    """Forty damaged copies."""
    chance, last = random.Random(seed), len(sound.files) - 1
    for kind in sound.structures:
        for _ in range(2):
            yield Damage(f"a bit of {kind}", flipped(sound, chance, kind), (), last)
    for kind in ("an entry", "a listing", "the last table", "an older table", "an older table's entry", "the front", "any block", "any block"):
        yield Damage(f"a block of {kind}", filled(sound, chance, sound.structures[kind], 1), (), last)
    for count in (5, 10, 20, 40):
        yield Damage(f"{count} blocks", filled(sound, chance, sound.structures["any block"], count), (), last)
    for count in (4, 30, 200):
        begin = chance.randrange(300, len(sound.image) // BLOCK - count)
        yield Damage(f"{count} blocks of zeros", sound.image[: begin * BLOCK] + bytes(count * BLOCK) + sound.image[(begin + count) * BLOCK :], (), last)
    for _ in range(4):
        yield cut(sound, chance)
    for count in (1, 3, 20, 60, 3):
        unread = tuple(sorted(chance.sample(range(257, len(sound.image) // BLOCK), count)))
        yield Damage(f"{count} blocks that cannot be read", sound.image, unread, last)


def flipped(sound: Sound, chance: random.Random, kind: str) -> bytes:
    """One bit more or less, also in the zeros after a descriptor."""
    image = bytearray(sound.image)
    at = chance.choice(sound.structures[kind]) * BLOCK + chance.randrange(0, BLOCK if chance.random() < 0.5 else 240)
    image[at] ^= 1 << chance.randrange(8)
    return bytes(image)


def filled(sound: Sound, chance: random.Random, blocks: List[int], count: int) -> bytes:
    """Blocks with other bytes: zeros, random ones, or those of another block."""
    image = bytearray(sound.image)
    for at in chance.sample(blocks, min(count, len(blocks))):
        other = chance.randrange(len(image) // BLOCK) * BLOCK
        image[at * BLOCK : (at + 1) * BLOCK] = chance.choice((bytes(BLOCK), chance.randbytes(BLOCK), sound.image[other : other + BLOCK]))
    return bytes(image)


def cut(sound: Sound, chance: random.Random) -> Damage:
    """A copy that ends somewhere: it is one of the last commit that is whole in it."""
    size = chance.randrange((sound.ends[0] + 1) * BLOCK, len(sound.image))
    commit = max(number for number, end in enumerate(sound.ends) if (end + 1) * BLOCK <= size)
    return Damage(f"a copy of {size} bytes", sound.image[:size], (), commit)


def has(sound: Sound, damage: Damage, address: int) -> bool:
    """Whether a block is as it was, and can be read."""
    begin = address * BLOCK
    return address not in damage.unread and damage.image[begin : begin + BLOCK] == sound.image[begin : begin + BLOCK]


def standing(sound: Sound, damage: Damage) -> Set[Path]:
    """The files of the newest state all of whose bytes are there."""
    found = set()
    for path, begin in sound.places.items():
        data = sound.files[-1][path]
        blocks = range(begin // BLOCK, (begin + len(data) - 1) // BLOCK + 1)
        if damage.image[begin : begin + len(data)] == data and not set(blocks) & set(damage.unread):
            found.add(path)
    return found


def with_entries(sound: Sound, damage: Damage) -> Set[Path]:
    """The files whose entries are as they were: in the block after the last one of the bytes, or around them (docs/FORMAT.md)."""
    found = set()
    for path, begin in sound.places.items():
        size = len(sound.files[-1][path])
        if has(sound, damage, begin // BLOCK + (-(-size // BLOCK) if size > INSIDE else 0)):
            found.add(path)
    return found


__all__ = ["Damage", "Sound", "damages", "make", "standing", "with_entries"]
