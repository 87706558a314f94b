"""Documents that are the same on each machine: files of text in folders, with sizes and names as people's documents have them; and small
files that are alike."""
from __future__ import annotations

import os
import random

MOMENT = 1_700_000_000
WORDS = 4000


def vocabulary(chance: random.Random) -> list[str]:
    return ["".join(chance.choice("etaoinshrdlucmfwypvbgk") for _ in range(chance.randrange(2, 11))) for _ in range(WORDS)]


def text(chance: random.Random, words: list[str], size: int) -> bytes:
    """Text of so many bytes: common words come more often than others."""
    found: list[str] = []
    length = 0
    while length < size:
        word = words[int(WORDS * chance.random() ** 3)]
        found.append(word)
        length += len(word) + 1
    return " ".join(found).encode().ljust(size)[:size]


def make_documents(folder: str, files: int, size: int, seed: int = 1) -> int:
    """So many documents with about so many bytes in all, most of them short and a few long, twenty in a folder on average; gives their
    bytes."""
    chance = random.Random(seed)
    words = vocabulary(chance)
    weights = [chance.lognormvariate(0, 1.3) for _ in range(files)]
    scale = size / sum(weights)
    made = total = 0
    while made < files:
        at = os.path.join(folder, f"{2001 + made * 20 // files}", f"{words[chance.randrange(WORDS)]} {words[chance.randrange(WORDS)]} {made}")
        os.makedirs(at)
        for _ in range(min(chance.randrange(1, 40), files - made)):
            count = max(round(weights[made] * scale), 1)
            path = os.path.join(at, f"{words[chance.randrange(WORDS)]} {words[chance.randrange(WORDS)]} {made}.txt")
            with open(path, "xb") as file:
                file.write(text(chance, words, count))
            os.utime(path, (MOMENT + made, MOMENT + made))
            made, total = made + 1, total + count
    return total


def make_alike(folder: str, files: int, size: int, seed: int = 1) -> int:
    """So many files of so many bytes in one folder; gives their bytes."""
    chance = random.Random(seed)
    os.makedirs(os.path.join(folder, "alike"))
    for index in range(files):
        path = os.path.join(folder, "alike", f"file {index}.bin")
        with open(path, "xb") as file:
            file.write(chance.randbytes(size))
        os.utime(path, (MOMENT + index, MOMENT + index))
    return files * size
