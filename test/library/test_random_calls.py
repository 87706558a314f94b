"""Random requests and queries by the calls of udfburn.h: their statuses and results are the answers of `udfburn apply`, and the image is
the same."""
from __future__ import annotations

import ctypes
import random
import struct
from ctypes import POINTER, byref, c_size_t, c_uint64, c_void_p
from typing import Any, Iterator, List, Set, Tuple

from library.building import Case
from library.test_ctypes import AskedRequest, Name, Node, load
from library.test_streams import Clients, a_path
from protocol import (A_DIRECTORY, APPEND, CREATE, DATA, DONE, GAP, GET, LIST, MALFORMED, NAMES, NO_DIRECTORY, NO_NODE, NODE, RENAME, REPLACE, STALE,
                      STAT, Answer, Request, answers_of, encode, query)

SEED = 20261129
VOLUMES = 60
ROOM = 1 << 20
ARGUMENT, USED, REFUSED = 6, 52, 32
STATUSES = {STALE: 48, GAP: 49, DATA: 0, NAMES: 0, NODE: 0, NO_NODE: 34, A_DIRECTORY: 36, NO_DIRECTORY: 43, MALFORMED: ARGUMENT}
# What the calls meet.
MET = {0, 33, 34, 35, 36, 37, 38, 39, 43, 48, 49, USED, ARGUMENT}


def request_of(frame: bytes) -> Request:
    """The request of a frame that test_streams made: the other way round."""
    kind, client, number, moment = struct.unpack_from("<BQQQ", frame, 4)
    at, paths = 29, []
    for _ in range(2 if kind == 4 else 1):
        count, at, names = frame[at], at + 1, []
        for _ in range(count):
            length = struct.unpack_from("<H", frame, at)[0]
            names.append(frame[at + 2:at + 2 + length].decode())
            at += 2 + length
        paths.append("/" + "/".join(names))
    offset = int.from_bytes(frame[at:at + 8], "little") if kind == 6 else 0
    data = frame[at + 4:] if kind in (1, 2) else frame[at + 12:] if kind == 6 else b""
    name = {1: CREATE, 2: REPLACE, 3: "mkdir", 4: RENAME, 5: "remove", 6: APPEND}[kind]
    return Request(name, client, number, paths[0], data, paths[-1], moment, offset)


class RandomCalls(Case):
    """A volume that the calls write, beside one that `apply` writes."""

    def setUp(self) -> None:
        super().setUp()
        self.library = load()
        self.met: Set[int] = set()

    def messages(self, chance: random.Random) -> Iterator[Tuple[bytes, Any]]:
        """Frames, each with what it is: a request, or a query and its path."""
        clients = Clients(chance)
        for _ in range(chance.randrange(2, 60)):
            if chance.random() < 0.75:
                frame = clients.request()
                request = request_of(frame)
                # The number 0 is the client's next one here, and no number there.
                if request.number > 0:
                    self.assertEqual(encode(request), frame)
                    yield frame, request
            else:
                kind, path = chance.choice((GET, LIST, STAT)), a_path(chance)
                yield query(kind, path), (kind, path)

    def ask_for(self, handle: c_void_p, request: Request, answer: Answer) -> None:
        asked = AskedRequest(request.client, request.number, request.moment, 99, 99)
        words: Tuple[Any, ...] = ()
        if request.kind in (CREATE, REPLACE):
            words = (request.data, c_size_t(len(request.data)))
        elif request.kind == APPEND:
            words = (c_uint64(request.offset), request.data, c_size_t(len(request.data)))
        elif request.kind == RENAME:
            words = (request.to.encode(),)
        status = getattr(self.library, "udfburn_" + request.kind)(handle, byref(asked), request.path.encode(), *words)
        self.met.add(status)
        if answer.code > 10:
            self.assertEqual((status, asked.commit, asked.repeated), (STATUSES[answer.code], 0, 0))
            return
        self.assertEqual((asked.number, asked.commit), (request.number, answer.commit))
        if answer.code != DONE:
            self.assertEqual(status, REFUSED + answer.code)
        elif asked.repeated:
            # Of a repeat the tree decides, since the number may be another request's.
            self.assertIn(status, (0, USED))
        else:
            self.assertEqual(status, 0)

    def look_at(self, handle: c_void_p, kind: str, path: str, answer: Answer) -> None:
        status, found = getattr(self, "by_" + kind)(handle, path.encode())
        self.met.add(status)
        self.assertEqual(status, STATUSES[answer.code])
        if status == 0:
            self.assertEqual(found, answer.rest)

    def by_get(self, handle: c_void_p, path: bytes) -> Tuple[int, bytes]:
        room, length = ctypes.create_string_buffer(ROOM), c_size_t()
        status = self.library.udfburn_get(handle, path, room, c_size_t(ROOM), byref(length))
        return status, struct.pack("<I", length.value) + room.raw[:length.value]

    def by_list(self, handle: c_void_p, path: bytes) -> Tuple[int, bytes]:
        names, count = POINTER(Name)(), c_size_t()
        status = self.library.udfburn_list(handle, path, byref(names), byref(count))
        found = struct.pack("<H", count.value)
        for index in range(count.value):
            found += struct.pack("<BH", names[index].kind, len(names[index].name)) + names[index].name
        self.library.udfburn_free(names)
        return status, found

    def by_stat(self, handle: c_void_p, path: bytes) -> Tuple[int, bytes]:
        node = Node()
        status = self.library.udfburn_stat(handle, path, byref(node))
        return status, struct.pack("<BQQ", node.kind, node.moment, node.size)

    def sent(self, messages: List[Tuple[bytes, Any]], answers: List[Answer], turns: List[bool]) -> None:
        """Sends the messages by calls. At each turn a group begins, or the one that is open is settled."""
        handle, is_open = c_void_p(), False
        self.assertEqual(self.library.udfburn_open(bytes(self.folder / "other.img"), byref(handle)), 0)
        for (_, message), answer, turn in zip(messages, answers, turns):
            if turn:
                self.assertEqual((self.library.udfburn_settle if is_open else self.library.udfburn_begin)(handle), 0)
                is_open = not is_open
            with self.subTest(message=message[:4]):
                if isinstance(message, Request):
                    self.ask_for(handle, message, answer)
                else:
                    self.look_at(handle, message[0], message[1], answer)
        if is_open:
            self.assertEqual(self.library.udfburn_settle(handle), 0)
        self.library.udfburn_close(handle)

    def same_as_apply(self, turns: float) -> None:
        """Calls with turns of groups at random leave the bytes that `apply` leaves."""
        chance, other = random.Random(SEED), random.Random(SEED + 1)
        made = self.udfburn("format", "new.img", "DISC", "0", "3000")
        self.assertEqual((made.returncode, made.stderr), (0, b""))
        new = (self.folder / "new.img").read_bytes()
        for number in range(VOLUMES):
            messages: List[Tuple[bytes, Any]] = list(self.messages(chance))
            for name in ("one.img", "other.img"):
                (self.folder / name).write_bytes(new)
            done = self.udfburn("apply", "one.img", stdin=b"".join(frame for frame, _ in messages))
            self.assertEqual((done.returncode, done.stderr), (0, b""))
            with self.subTest(number=number):
                self.sent(messages, answers_of(done.stdout), [other.random() < turns for _ in messages])
                self.assertEqual((self.folder / "other.img").read_bytes(), (self.folder / "one.img").read_bytes())
        self.assertLessEqual(MET, self.met)

    def test_random_calls(self) -> None:
        self.same_as_apply(0)

    def test_random_calls_in_groups(self) -> None:
        self.same_as_apply(0.3)
