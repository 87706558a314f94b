"""The vectors of crates/vectors/data, as docs/VECTORS.md has their form."""

from __future__ import annotations

import os
from typing import Dict, Iterator, List, NamedTuple, Sequence

DATA = os.path.join(os.path.dirname(__file__), "..", "..", "..", "crates", "vectors", "data")
BLOCK = 2048
WIDTHS = {"u16": 2, "u32": 4, "u64": 8}


class Answer(NamedTuple):
    """A line `QUESTION -> ANSWER` of a case: its words, and the bytes that the case has there."""

    case: str
    data: bytes
    question: List[str]
    answer: List[str]


def bytes_of(words: Sequence[str]) -> bytes:
    """The bytes that words say."""
    return b"".join(map(word_bytes, words))


def word_bytes(word: str) -> bytes:
    """The bytes that a word says."""
    if word.startswith('"'):
        return word[1:-1].encode()
    if ":" in word:
        width, value = word.split(":")
        return int(value).to_bytes(WIDTHS[width], "little")
    digits, _, times = word.partition("*")
    return bytes.fromhex(digits) * int(times or 1)


def shown(data: bytes) -> List[str]:
    """The words of bytes in their one form: a text where all are letters, else digits, with runs of eight and more as such."""
    if data and all(0x21 <= byte <= 0x7E and byte != 0x22 for byte in data):
        return [f'"{data.decode()}"']
    words = ""
    at = 0
    while at < len(data):
        end = at
        while end < len(data) and data[end] == data[at]:
            end += 1
        words += f" {data[at]:02X}*{end - at} " if end - at >= 8 else data[at:end].hex().upper()
        at = end
    return words.split()


def text_shown(text: str) -> List[str]:
    """The words of a text, which is shown by its UTF-8."""
    return shown(text.encode()) if text else ["empty"]


class Cases:
    """A file as it is read, line by line."""

    def __init__(self) -> None:
        self.named: Dict[str, bytes] = {}
        self.spoken: Dict[str, List[str]] = {}
        self.case = ""
        self.data = b""
        self.changed = False

    def line(self, line: str) -> Iterator[Answer]:
        """Reads a line, and gives its answer if it has one."""
        question, arrow, answer = line.partition("->")
        words = question.split()
        if arrow:
            if not self.changed:
                yield Answer(self.case, self.data, words, self.answer(answer.split()))
        elif words[0] == "let":
            self.named[words[1]] = self.read(b"", words[2:])
        elif words[0] == "words":
            self.spoken[words[1]] = words[2:]
        elif words[0] == "case":
            self.case, self.data, self.changed = words[1], b"", False
        elif words[0] == "bytes":
            self.data = self.read(self.data, words[1:])
        elif words[0] == "put":
            at = int(words[1]) * BLOCK
            self.data = self.data[:at] + self.read(b"", words[2:]).ljust(BLOCK, b"\0") + self.data[at + BLOCK :]
        else:
            # A drive with less room, and bits that are changed in turn: of whole volumes alone.
            assert words[0] in ("capacity", "flip"), line
            self.changed = True

    def read(self, data: bytes, words: Sequence[str]) -> bytes:
        """The bytes with those after them that the words say."""
        pieces = [data]
        size = len(data)
        for word in words:
            if word == "..":
                piece = bytes(-size % BLOCK)
            elif word.startswith("{"):
                piece = self.named[word[1:-1]]
            else:
                piece = word_bytes(word)
            pieces.append(piece)
            size += len(piece)
        return b"".join(pieces)

    def answer(self, words: Sequence[str]) -> List[str]:
        """The words of an answer, with those for which there are names."""
        return [said for word in words for said in (self.spoken[word[1:-1]] if word.startswith("{") else [word])]


def answers(name: str) -> Iterator[Answer]:
    """The answers of a file."""
    with open(os.path.join(DATA, name), encoding="utf-8") as file:
        text = file.read()
    lines = (line.strip() for line in text.replace("\\\n", "").split("\n"))
    cases = Cases()
    for line in lines:
        if line and not line.startswith("#"):
            yield from cases.line(line)
