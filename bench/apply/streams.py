"""Streams of frames of one client, and what the tree has after them, computed here. The frames are those of docs/PROTOCOL.md."""
from __future__ import annotations

import random
from typing import Iterator, NamedTuple

from protocol import Request, encode


CLIENT = 7
# So that the streams of two runs are the same.
SEED = 20130


class Stream(NamedTuple):
    """Frames, of which each is a commit that is done, and the files and directories (the root counted) that the tree has then."""

    frames: bytes
    commits: int
    files: int
    directories: int


def directory(number: int) -> str:
    return "/d%04d" % number


def file_in(above: int, number: int) -> str:
    return "%s/f%04d" % (directory(above), number)


def creations(files: int, names: int, size: int) -> Stream:
    """So many files of one size, in directories of so many names."""
    chance = random.Random(SEED)
    requests: list[Request] = []
    for number in range(files):
        above = number // names
        if number % names == 0:
            requests.append(Request("mkdir", CLIENT, len(requests) + 1, directory(above)))
        requests.append(Request("create", CLIENT, len(requests) + 1, file_in(above, number), chance.randbytes(size)))
    frames = b"".join(encode(request) for request in requests)
    return Stream(frames, len(requests), files, len(requests) - files + 1)


def changes(directories: int, names: int, chance: random.Random) -> Iterator[tuple[str, str]]:
    """Small changes without an end: most replace a file, of every sixteen one removes a file and the next makes it again."""
    while True:
        path = ""
        for turn in range(16):
            if turn < 15:
                path = file_in(chance.randrange(directories), chance.randrange(names))
            yield ("remove" if turn == 14 else "create" if turn == 15 else "replace"), path


def history(directories: int, names: int, commits: int) -> Stream:
    """A tree of directories with so many small files each, which are changed until there are so many commits or one more."""
    chance = random.Random(SEED)
    frames: list[bytes] = []

    def add(kind: str, path: str) -> None:
        data = b"" if kind in ("mkdir", "remove") else chance.randbytes(chance.randrange(1, 1500))
        frames.append(encode(Request(kind, CLIENT, len(frames) + 1, path, data)))

    for above in range(directories):
        add("mkdir", directory(above))
        for number in range(names):
            add("create", file_in(above, number))
    kind = ""
    for kind, path in changes(directories, names, chance):
        # What was removed is made again, so that the tree is whole at the end.
        if len(frames) >= commits and kind != "create":
            break
        add(kind, path)
    return Stream(b"".join(frames), len(frames), directories * names, directories + 1)
