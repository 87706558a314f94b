"""The shared library by `ctypes`, as Python and other languages load it: every function of the header."""
from __future__ import annotations

import ctypes
import errno
import os
import struct
from ctypes import POINTER, byref, c_char_p, c_int32, c_int64, c_size_t, c_uint32, c_uint64, c_void_p
from typing import Any, List, Tuple

from library.building import Case, built
from library.test_exports import declared
from protocol import GET, Request, encode, query

OK, DEVICE, NONE, BUSY, OLDER, READER_FAILED, EXISTS, NOT_FOUND = 0, 2, 7, 9, 13, 14, 35, 34
BLOCK = 2048
MOMENT = 1_700_000_000_000_000


class AskedRequest(ctypes.Structure):
    _fields_ = [("client", c_uint64), ("number", c_uint64), ("moment", c_uint64), ("commit", c_uint32), ("repeated", c_uint32)]


class Node(ctypes.Structure):
    _fields_ = [("moment", c_uint64), ("size", c_uint64), ("kind", c_int32)]


class Name(ctypes.Structure):
    _fields_ = [("name", c_char_p), ("kind", c_int32)]


class Status(ctypes.Structure):
    _fields_ = [("moment", c_uint64), *((name, c_uint32) for name in ("capacity", "next", "commits", "files", "directories", "clients")),
                ("label", ctypes.c_char * 64)]


class Commit(ctypes.Structure):
    _fields_ = [("moment", c_uint64), *((name, c_uint32) for name in ("number", "address", "files", "directories"))]


class Reason(ctypes.Structure):
    _fields_ = [("size", c_size_t), ("status", c_int32), ("error", c_int32), ("call", ctypes.c_char * 32), ("path", ctypes.c_char * 256)]


class Volume(ctypes.Structure):
    _fields_ = [("size", c_size_t), ("identity", c_uint64), ("moment", c_uint64),
                *((name, c_uint32) for name in ("capacity", "next", "unused", "commits", "files", "directories", "clients")),
                ("label", ctypes.c_char * 64)]


class Entry(ctypes.Structure):
    _fields_ = [("name", c_char_p), ("size", c_uint64), ("moment", c_uint64), ("kind", c_int32), ("reserved", c_int32)]


CAPACITY = ctypes.CFUNCTYPE(c_int32, c_void_p, POINTER(c_uint32))
READ = ctypes.CFUNCTYPE(c_int32, c_void_p, c_uint32, c_uint32, c_void_p)
READER = ctypes.CFUNCTYPE(c_int64, c_void_p, c_uint64, c_void_p, c_size_t)


class Drive(ctypes.Structure):
    _fields_ = [("context", c_void_p), ("capacity", CAPACITY), ("next", CAPACITY), ("read", READ), ("write", READ)]


class Disc:
    """A drive in Python: a row of blocks."""

    def __init__(self) -> None:
        self.blocks = b""
        self.drive = Drive(None, CAPACITY(self.capacity), CAPACITY(self.next), READ(self.read), READ(self.write))

    def capacity(self, _: Any, blocks: Any) -> int:
        blocks[0] = 600
        return 0

    def next(self, _: Any, address: Any) -> int:
        address[0] = len(self.blocks) // BLOCK
        return 0

    def read(self, _: Any, address: int, count: int, into: int) -> int:
        ctypes.memmove(into, self.blocks[address * BLOCK:(address + count) * BLOCK], count * BLOCK)
        return 0

    def write(self, _: Any, address: int, count: int, blocks: int) -> int:
        self.blocks += ctypes.string_at(blocks, count * BLOCK)
        return 0 if address * BLOCK + count * BLOCK == len(self.blocks) else 1


def load() -> Any:
    library: Any = ctypes.CDLL(str(built().plain / "libudfburn.so"))
    library.udfburn_version.restype = library.udfburn_error_name.restype = c_char_p
    library.udfburn_answered.restype = library.udfburn_take.restype = c_size_t
    library.udfburn_close.restype = library.udfburn_free.restype = library.udfburn_copy_vat_icb.restype = None
    return library


class FromPython(Case):
    def setUp(self) -> None:
        super().setUp()
        self.library = load()
        self.called: set[str] = set()

    def call(self, name: str, *words: Any) -> Any:
        self.called.add("udfburn_" + name)
        return getattr(self.library, "udfburn_" + name)(*words)

    def opened(self, path: bytes) -> c_void_p:
        handle = c_void_p()
        self.assertEqual(self.call("open", path, byref(handle)), OK)
        return handle

    def volumes_and_frames(self, path: bytes) -> None:
        self.assertEqual(self.call("format", path, b"PY", c_uint64(MOMENT), c_uint32(600)), OK)
        handle = self.opened(path)
        second = c_void_p(1)
        self.assertEqual(self.call("open", path, byref(second)), BUSY)
        self.assertIsNone(second.value)
        reason = Reason(ctypes.sizeof(Reason))
        self.assertEqual(self.call("reason", None, byref(reason)), OK)
        self.assertEqual((reason.status, reason.error, reason.call, reason.path), (BUSY, errno.EBUSY, b"open", path))
        frames = encode(Request("create", 7, 1, "/a", b"hello")) + query(GET, "/a")
        self.assertEqual(self.call("answer", handle, frames, c_size_t(len(frames))), OK)
        wanted = bytes.fromhex("06000000000001000000" "0b000000400005000000") + b"hello"
        self.assertEqual(self.call("answered", handle), len(wanted))
        room = ctypes.create_string_buffer(100)
        self.assertEqual(self.call("take", handle, room, c_size_t(100)), len(wanted))
        self.assertEqual(room.raw[:len(wanted)], wanted)
        self.call("close", handle)

    def what_it_is(self, handle: c_void_p) -> None:
        number, status = c_uint64(), Status()
        self.assertEqual(self.call("last_number", handle, c_uint64(7), byref(number)), OK)
        self.assertEqual(number.value, 1)
        self.assertEqual(self.call("status", handle, byref(status)), OK)
        self.assertEqual((status.label, status.capacity, status.commits, status.files, status.clients), (b"PY", 600, 1, 1, 1))

    def how_it_came(self, handle: c_void_p) -> None:
        commit, found = Commit(), []
        while self.call("log", handle, byref(commit)) == OK:
            found.append((commit.number, commit.address, commit.files, commit.directories, commit.moment))
        self.assertEqual(found, [(1, 266, 1, 1, 0), (0, 261, 0, 1, MOMENT)])
        self.assertEqual(self.call("log", handle, byref(commit)), NONE)

    def requests(self, handle: c_void_p) -> None:
        asked, node, names, count = AskedRequest(8, 0, MOMENT), Node(), POINTER(Name)(), c_size_t()
        steps: List[Tuple[Any, ...]] = [("mkdir", b"/d"), ("create", b"/d/x", b"data", c_size_t(4)), ("replace", b"/d/x", b"other", c_size_t(5)),
                 ("rename", b"/d/x", b"/d/y"), ("remove", b"/a")]
        self.assertEqual(self.call("begin", handle), OK)
        for number, (name, *words) in enumerate(steps, 1):
            asked.number = 0
            self.assertEqual(self.call(name, handle, byref(asked), *words), OK)
            self.assertEqual((asked.number, asked.commit, asked.repeated), (number, number + 1, 0))
        self.assertEqual(self.call("settle", handle), OK)
        asked.number = 0
        self.assertEqual(self.call("create", handle, byref(asked), b"/d", None, c_size_t(0)), EXISTS)
        self.assertEqual(self.call("stat", handle, b"/d/y", byref(node)), OK)
        self.assertEqual((node.size, node.kind, node.moment), (5, 0, MOMENT))
        room = ctypes.create_string_buffer(5)
        self.assertEqual(self.call("get", handle, b"/d/y", room, c_size_t(5), byref(count)), OK)
        self.assertEqual(room.raw, b"other")
        self.assertEqual(self.call("get", handle, b"/a", room, c_size_t(5), byref(count)), NOT_FOUND)
        self.assertEqual(self.call("read", handle, b"/d/y", c_uint64(1), room, c_size_t(5), byref(count)), OK)
        self.assertEqual(room.raw[:count.value], b"ther")
        asked.number = 0
        self.assertEqual(self.call("append", handle, byref(asked), b"/d/y", c_uint64(5), b"!", c_size_t(1)), EXISTS)
        self.assertEqual(self.call("list", handle, b"/d", byref(names), byref(count)), OK)
        self.assertEqual([(names[i].name, names[i].kind) for i in range(count.value)], [(b"y", 0)])
        self.call("free", names)

    def from_a_reader(self, handle: c_void_p) -> None:
        """A stream that a function in Python gives, a piece at a time; then one that fails."""
        data, asked, reason = bytes(range(256)) * 20, AskedRequest(9, 0, MOMENT), Reason(ctypes.sizeof(Reason))

        def read(_: Any, offset: int, into: int, room: int) -> int:
            piece = data[offset:offset + min(room, 1000)]
            ctypes.memmove(into, piece, len(piece))
            return len(piece)

        self.assertEqual(self.call("put", handle, byref(asked), b"/stream", READER(read), None), OK)
        self.assertEqual((asked.number, asked.repeated), (1, 0))
        room, length = ctypes.create_string_buffer(len(data) + 1), c_size_t()
        self.assertEqual(self.call("get", handle, b"/stream", room, c_size_t(len(data) + 1), byref(length)), OK)
        self.assertEqual(room.raw[:length.value], data)
        self.assertEqual(self.call("put", handle, byref(asked), b"/stream", READER(read), None), OK)
        self.assertEqual((asked.number, asked.repeated), (0, 1))
        self.assertEqual(self.call("put", handle, byref(asked), b"/none", READER(lambda *_: -errno.EIO), None), READER_FAILED)
        self.assertEqual(self.call("reason", handle, byref(reason)), OK)
        self.assertEqual((reason.status, reason.error, reason.call), (READER_FAILED, -errno.EIO, b"reader"))

    def its_past(self, path: bytes) -> None:
        """The volume as it was after its first commit, beside what is there now."""
        then, volume, entries, count = c_void_p(), Volume(ctypes.sizeof(Volume)), POINTER(Entry)(), c_size_t()
        self.assertEqual(self.call("open_read", path, c_uint32(1), byref(then)), OK)
        self.assertEqual(self.call("describe", then, byref(volume)), OK)
        self.assertEqual((volume.identity, volume.commits, volume.next, volume.unused, volume.label), (MOMENT, 1, 267, 0, b"PY"))
        self.assertEqual(self.call("entries", then, b"/", c_size_t(ctypes.sizeof(Entry)), byref(entries), byref(count)), OK)
        self.assertEqual([(entries[i].name, entries[i].size, entries[i].kind) for i in range(count.value)], [(b"a", 5, 0)])
        self.call("free", entries)
        self.assertEqual(self.call("expect", then, c_uint32(1)), OK)
        self.assertEqual(self.call("room", then, b"/b", c_uint64(1000)), OK)
        self.assertEqual(self.call("expect", then, c_uint32(2)), OLDER)
        self.call("close", then)

    def by_descriptor(self, path: bytes) -> None:
        handle = c_void_p()
        with open(path + b".fd", "xb+") as file:
            self.assertEqual(self.call("format_fd", os.dup(file.fileno()), b"PY", c_uint64(MOMENT), c_uint32(600)), OK)
            self.assertEqual(self.call("open_fd", os.dup(file.fileno()), byref(handle)), OK)
            self.call("close", handle)

    def in_memory(self) -> bytes:
        """The blocks of a new volume in memory, with one request."""
        handle, blocks, address, block = c_void_p(), b"", c_uint32(), ctypes.create_string_buffer(BLOCK)
        self.assertEqual(self.call("open_memory", b"PY", c_uint64(MOMENT), c_uint32(600), byref(handle)), OK)
        asked = encode(Request("create", 7, 1, "/a", b"hello"))
        self.assertEqual(self.call("answer", handle, asked, c_size_t(len(asked))), OK)
        while self.call("next_block", handle, byref(address), block) == OK:
            self.assertEqual(address.value * BLOCK, len(blocks))
            blocks += block.raw
            self.assertEqual(self.call("took", handle), OK)
        self.call("close", handle)
        return blocks

    def no_recorder(self, path: bytes) -> None:
        """An image is no recorder (test/disc.sh has some)."""
        handle, broken = c_void_p(1), c_char_p(b"")
        reason = Reason(ctypes.sizeof(Reason))
        for status in (self.call("open_mmc", path, c_uint32(0), byref(handle)), self.call("format_mmc", path, b"PY", c_uint64(MOMENT)),
                       self.call("mmc_check", path, byref(broken))):
            self.assertEqual(status, DEVICE)
            self.assertEqual(self.call("reason", None, byref(reason)), OK)
            self.assertEqual((reason.error, reason.call, reason.path), (errno.ENODEV, b"open", path))
        self.assertIsNone(handle.value)
        self.assertIsNone(broken.value)

    def on_a_drive(self) -> bytes:
        disc, handle, broken = Disc(), c_void_p(), c_char_p()
        self.assertEqual(self.call("drive_check", byref(Disc().drive), byref(broken)), OK)
        self.assertIsNone(broken.value)
        self.assertEqual(self.call("format_drive", byref(disc.drive), b"PY", c_uint64(MOMENT)), OK)
        last, copy = disc.blocks[-BLOCK:], ctypes.create_string_buffer(BLOCK)
        self.assertEqual([self.call("is_vat_icb", last, c_uint32(address)) for address in (261, 262)], [1, 0])
        self.call("copy_vat_icb", last, c_uint32(262), copy)
        self.assertEqual(self.call("is_vat_icb", copy, c_uint32(262)), 1)
        self.assertEqual(self.call("open_drive", byref(disc.drive), byref(handle)), OK)
        self.call("close", handle)
        self.assertEqual(self.call("open_drive_with", byref(disc.drive), c_uint32(1), byref(handle)), OK)
        asked = encode(Request("create", 7, 1, "/a", b"hello"))
        self.assertEqual(self.call("answer", handle, asked, c_size_t(len(asked))), OK)
        self.call("close", handle)
        return disc.blocks

    def test_every_function(self) -> None:
        path = bytes(self.folder / "python.img")
        self.assertRegex(self.call("version").decode(), r"^\d+\.\d+\.\d+$")
        self.assertEqual(self.call("error_name", EXISTS), b"UDFBURN_EXISTS")
        self.volumes_and_frames(path)
        with open(path, "rb") as file:
            image = file.read()
        handle = self.opened(path)
        self.what_it_is(handle)
        self.how_it_came(handle)
        self.requests(handle)
        self.from_a_reader(handle)
        self.its_past(path)
        self.call("close", handle)
        self.by_descriptor(path)
        self.assertEqual(self.in_memory(), image)
        self.assertEqual(self.on_a_drive(), image)
        self.no_recorder(path)
        self.assertEqual(self.called, declared())

    def test_structures(self) -> None:
        """The sizes of the structures are those of a C compiler."""
        kinds = {"request": AskedRequest, "node": Node, "name": Name, "status": Status, "commit": Commit, "reason": Reason, "volume": Volume,
                 "entry": Entry, "drive": Drive}
        lines = ["#include \"udfburn.h\"", "#include <stdio.h>", "int main(void) {"]
        lines += ["    printf(\"%%zu\\n\", sizeof(struct udfburn_%s));" % name for name in kinds]
        source = self.folder / "sizes.c"
        source.write_text("\n".join([*lines, "    return 0;", "}"]))
        said = self.ran(self.compiled(str(source))).split()
        self.assertEqual(list(map(int, said)), [ctypes.sizeof(kind) for kind in kinds.values()])
        self.assertEqual(struct.calcsize("QQQII"), ctypes.sizeof(AskedRequest))
