"""Random streams of messages, cut at random: the answers of the library are byte for byte those of `udfburn apply`, and so is the image."""
from __future__ import annotations

import random
import struct
from typing import List, Set

from library.building import Case
import protocol
from protocol import (A_DIRECTORY, APPEND, CREATE, DATA, DONE, EXISTS, GAP, GET, INTO_ITSELF, IS_DIRECTORY, LIST, MAKE_DIRECTORY, MALFORMED,
                      NO_DIRECTORY, NO_NODE, NO_PARENT, NODE, NOT_EMPTY, NOT_FOUND, PIECE, REMOVE, RENAME, REPLACE, ROOT, STALE, STAT, Request,
                      answers_of, encode, frame, query, read_query)

SEED = 20261127
STREAMS = 200
NAMES = ("a", "a", "a", "b", "b", "d\u00fcrr", "\u6f22\u5b57", "long" * 60)
# The last one is past the limit.
MOMENTS = (0, 0, 1, 1_700_000_000_000_000, 4_102_444_799_999_999, 4_102_444_800_000_000)
# What the streams meet, as the counts of messages and the chances above have it.
ANSWERED = {DONE, NO_PARENT, NOT_FOUND, EXISTS, IS_DIRECTORY, NOT_EMPTY, INTO_ITSELF, ROOT, STALE, GAP, MALFORMED, DATA, protocol.NAMES, NODE,
            NO_NODE, A_DIRECTORY, NO_DIRECTORY}
LENGTHS = (0, 1, 5, 1871, 1872, 1873, 2048, 5000, 70_000)


def a_path(chance: random.Random) -> str:
    return "/" + "/".join(chance.choice(NAMES) for _ in range(chance.choice((0, 1, 1, 1, 2, 2, 3))))


class Clients:
    """Some clients of a volume, each with the number of its last request, most of which are new ones."""

    def __init__(self, chance: random.Random) -> None:
        self.chance = chance
        self.last = {1: 0, 2: 0, 2**64 - 1: 0}

    def request(self) -> bytes:
        chance = self.chance
        client = chance.choice(list(self.last))
        number = self.last[client] + 1
        if chance.random() < 0.15:
            number = chance.randrange(0, number + 3)
        moment = chance.choice(MOMENTS)
        if number == self.last[client] + 1 and moment < MOMENTS[-1]:
            self.last[client] = number
        kind = chance.choice((CREATE, CREATE, CREATE, REPLACE, APPEND, APPEND, MAKE_DIRECTORY, MAKE_DIRECTORY, RENAME, RENAME, REMOVE))
        data = chance.randbytes(chance.choice(LENGTHS)) if kind in (CREATE, REPLACE, APPEND) else b""
        offset = chance.choice((0, 0, 5, PIECE)) if kind == APPEND else 0
        return encode(Request(kind, client, number, a_path(chance), data or b"x" if kind == APPEND else data, a_path(chance), moment, offset))


def damaged(chance: random.Random, message: bytes) -> bytes:
    """A message with some bytes changed, added or taken, whose frame says its length."""
    payload = bytearray(message[4:])
    for _ in range(chance.randrange(1, 4)):
        if payload and chance.random() < 0.7:
            payload[chance.randrange(len(payload))] = chance.randrange(256)
    return frame(bytes(payload[:chance.randrange(len(payload) + 1)]) + chance.randbytes(chance.choice((0, 0, 1, 3))))


def a_stream(chance: random.Random) -> bytes:
    """Requests, queries, damaged messages, and now and then a frame that ends the stream."""
    clients = Clients(chance)
    messages: List[bytes] = []
    for _ in range(chance.randrange(2, 40)):
        kind = chance.random()
        if kind < 0.7:
            messages.append(clients.request())
        elif kind < 0.9:
            path = a_path(chance)
            piece = read_query(path, chance.choice((0, 1, 5, PIECE)), chance.choice((0, 1, PIECE)))
            messages.append(chance.choice((piece, *(query(asked, path) for asked in (GET, LIST, STAT)))))
        else:
            messages.append(damaged(chance, messages[-1] if messages else frame(b"")))
    if chance.random() < 0.1:
        messages.append(struct.pack("<I", chance.randrange(1_114_113, 2**32)) + b"rest")
    elif chance.random() < 0.2:
        messages.append(messages[-1][:-1])
    return b"".join(messages)


class Streams(Case):
    def test_random_streams(self) -> None:
        chance = random.Random(SEED)
        program = self.compiled("streams.c")
        made = self.udfburn("format", "new.img", "DISC", "0", "3000")
        self.assertEqual((made.returncode, made.stderr), (0, b""))
        new = (self.folder / "new.img").read_bytes()
        answered: Set[int] = set()
        for number in range(STREAMS):
            stream = a_stream(chance)
            for name in ("one.img", "other.img"):
                (self.folder / name).write_bytes(new)
            wanted = self.udfburn("apply", "one.img", stdin=stream)
            self.assertEqual((wanted.returncode, wanted.stderr), (0, b""))
            (self.folder / "stream").write_bytes(stream)
            self.ran(program, "other.img", "stream", "answers", str(chance.randrange(1 << 30)))
            with self.subTest(number=number):
                self.assertEqual((self.folder / "answers").read_bytes(), wanted.stdout)
                self.assertEqual((self.folder / "other.img").read_bytes(), (self.folder / "one.img").read_bytes())
            answered.update(answer.code for answer in answers_of(wanted.stdout))
        self.assertLessEqual(ANSWERED, answered)
