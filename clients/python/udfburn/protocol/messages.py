"""Requests, which change the tree, and queries, which read it: their payloads, written and read."""

from __future__ import annotations

import struct
from enum import IntEnum
from functools import lru_cache
from typing import Any, ClassVar, Dict, Type, Union

from . import limits
from .names import Path, name_fault
from .reader import Fields, Short
from .record import Record
from .units import Moment


class Kind(IntEnum):
    """The first byte of a payload."""

    CREATE = 1
    REPLACE = 2
    MAKE_DIR = 3
    RENAME = 4
    REMOVE = 5
    APPEND = 6
    GET = 16
    LIST = 17
    STAT = 18
    READ = 19


class Cause(IntEnum):
    """Why a payload says nothing."""

    TOO_LONG = 51
    KIND = 52
    SHORT = 53
    EXTRA = 54
    PATH = 55
    MOMENT = 56
    CLIENT_ZERO = 57
    NUMBER_ZERO = 58


class Fault(ValueError):
    """A payload or a message that cannot be said."""

    def __init__(self, cause: Cause):
        super().__init__(f"{int(cause)} {cause.name}")
        self.cause = cause


class Request(Record):
    """What every request has: who asks, the number of the request, and its moment; and the path that it speaks of."""

    kind: ClassVar[Kind]
    __slots__ = ("client", "number", "moment", "path")

    def __init__(self, client: int, number: int, moment: Moment, path: Path):
        self.client = client
        self.number = number
        self.moment = moment
        self.path = path


class Writing(Request):
    """A request with the bytes of a file."""

    __slots__ = ("data",)

    def __init__(self, client: int, number: int, moment: Moment, path: Path, data: bytes):
        self.client = client
        self.number = number
        self.moment = moment
        self.path = path
        self.data = data


class Create(Writing):
    """A new file."""

    kind = Kind.CREATE
    __slots__ = ()


class Replace(Writing):
    """Other bytes for a file that is there."""

    kind = Kind.REPLACE
    __slots__ = ()


class Append(Writing):
    """A piece at the end of a file, which has `offset` bytes before: 1 byte to a mebibyte."""

    kind = Kind.APPEND
    __slots__ = ("offset",)

    def __init__(self, client: int, number: int, moment: Moment, path: Path, offset: int, data: bytes):
        super().__init__(client, number, moment, path, data)
        self.offset = offset


class MakeDir(Request):
    """A new directory."""

    kind = Kind.MAKE_DIR
    __slots__ = ()


class Rename(Request):
    """Another path for a file or a directory."""

    kind = Kind.RENAME
    __slots__ = ("to",)

    def __init__(self, client: int, number: int, moment: Moment, path: Path, to: Path):
        super().__init__(client, number, moment, path)
        self.to = to


class Remove(Request):
    """A file or an empty directory that goes."""

    kind = Kind.REMOVE
    __slots__ = ()


class Question(Record):
    """What every query has: the path that it asks about."""

    kind: ClassVar[Kind]
    __slots__ = ("path",)

    def __init__(self, path: Path):
        self.path = path


class Get(Question):
    """Asks for the bytes of a file."""

    kind = Kind.GET
    __slots__ = ()


class List(Question):
    """Asks for the names in a directory."""

    kind = Kind.LIST
    __slots__ = ()


class Stat(Question):
    """Asks what is known of a path."""

    kind = Kind.STAT
    __slots__ = ()


class Read(Question):
    """Asks for so many bytes of a file from a byte on, counted from 0, or as many as there are."""

    kind = Kind.READ
    __slots__ = ("offset", "count")

    def __init__(self, path: Path, offset: int, count: int):
        super().__init__(path)
        self.offset = offset
        self.count = count


Query = Union[Get, List, Stat, Read]
AnyRequest = Union[Create, Replace, Append, MakeDir, Rename, Remove]
Message = Union[AnyRequest, Query]

REQUESTS: Dict[int, Type[AnyRequest]] = {
    Kind.CREATE: Create, Kind.REPLACE: Replace, Kind.MAKE_DIR: MakeDir, Kind.RENAME: Rename, Kind.REMOVE: Remove,
    Kind.APPEND: Append,
}
QUERY_TYPES: Dict[int, Type[Query]] = {Kind.GET: Get, Kind.LIST: List, Kind.STAT: Stat, Kind.READ: Read}


# ---- written

REQUEST_HEAD = struct.Struct("<BQQQ")
SIZE_FIELD = struct.Struct("<I")
OFFSET_AND_COUNT = struct.Struct("<QI")


def name_field(name: str) -> bytes:
    """The field of a name in a path."""
    if name_fault(name) is not None:
        raise Fault(Cause.PATH)
    text = name.encode()
    return struct.pack("<H", len(text)) + text


@lru_cache(maxsize=1024)
def encode_path(path: Path) -> bytes:
    """The field of a path."""
    if len(path) > limits.PATH_NAMES:
        raise Fault(Cause.PATH)
    return bytes((len(path),)) + b"".join(map(name_field, path))


def encode_message(message: Message) -> bytes:
    """The one payload of a message."""
    if isinstance(message, Read):
        if not 0 <= message.offset <= limits.U64 or not 0 <= message.count <= limits.FILE:
            raise Fault(Cause.EXTRA)
        return bytes((message.kind,)) + encode_path(message.path) + OFFSET_AND_COUNT.pack(message.offset, message.count)
    if not isinstance(message, Request):
        return bytes((message.kind,)) + encode_path(message.path)
    head = encode_head(message)
    return head + message.data if isinstance(message, Writing) else head


def encode_head(request: Request) -> bytes:
    """The payload of a request without its data, which comes last; raises `Fault` where the request cannot be said."""
    check_request(request)
    head = REQUEST_HEAD.pack(request.kind, request.client, request.number, request.moment) + encode_path(request.path)
    if isinstance(request, (Create, Replace)):
        return head + SIZE_FIELD.pack(len(request.data))
    if isinstance(request, Append):
        return head + OFFSET_AND_COUNT.pack(request.offset, len(request.data))
    if isinstance(request, Rename):
        return head + encode_path(request.to)
    return head


def check_request(message: Request) -> None:
    """Raises the fault of a request's numbers or data, if they have one."""
    if not 0 < message.client <= limits.U64:
        raise Fault(Cause.CLIENT_ZERO)
    if not 0 < message.number <= limits.U64:
        raise Fault(Cause.NUMBER_ZERO)
    if not 0 <= message.moment < limits.MOMENT:
        raise Fault(Cause.MOMENT)
    if isinstance(message, Writing) and len(message.data) > limits.FILE:
        raise Fault(Cause.EXTRA)
    if isinstance(message, Append) and (not message.data or not 0 <= message.offset <= limits.U64):
        raise Fault(Cause.EXTRA)


# ---- read

def decode_path(fields: Fields) -> Path:
    """The path that comes next."""
    names = []
    for _ in range(fields.number(1)):
        text = fields.take(fields.number(2))
        try:
            name = text.decode()
        except UnicodeDecodeError:
            raise Fault(Cause.PATH) from None
        if name_fault(name) is not None:
            raise Fault(Cause.PATH)
        names.append(name)
    return tuple(names)


def decode_data(fields: Fields) -> bytes:
    """The data that comes next."""
    size = fields.number(4)
    if size > limits.FILE:
        raise Fault(Cause.EXTRA)
    return fields.take(size)


def decode_query(kind: Type[Query], fields: Fields) -> Query:
    """The query of a kind, its fields in their order."""
    path = decode_path(fields)
    if kind is not Read:
        return kind(path)  # type: ignore[call-arg]
    offset, count = fields.number(8), fields.number(4)
    if count > limits.FILE:
        raise Fault(Cause.EXTRA)
    return Read(path, offset, count)


def decode_request(kind: Type[AnyRequest], fields: Fields) -> AnyRequest:
    """The request of a kind, its fields in their order."""
    client = fields.number(8)
    if client == 0:
        raise Fault(Cause.CLIENT_ZERO)
    number = fields.number(8)
    if number == 0:
        raise Fault(Cause.NUMBER_ZERO)
    moment = fields.number(8)
    if moment >= limits.MOMENT:
        raise Fault(Cause.MOMENT)
    said: Dict[str, Any] = {"client": client, "number": number, "moment": moment, "path": decode_path(fields)}
    if kind is Rename:
        said["to"] = decode_path(fields)
    elif kind in (Create, Replace):
        said["data"] = decode_data(fields)
    elif kind is Append:
        said["offset"] = fields.number(8)
        said["data"] = decode_data(fields)
        if not said["data"]:
            raise Fault(Cause.EXTRA)
    return kind(**said)


def decode_message(payload: bytes) -> Message:
    """The message of a payload, or its first `Fault`."""
    if len(payload) > limits.PAYLOAD:
        raise Fault(Cause.TOO_LONG)
    fields = Fields(payload)
    try:
        kind = fields.number(1)
        message: Message
        if kind in REQUESTS:
            message = decode_request(REQUESTS[kind], fields)
        elif kind in QUERY_TYPES:
            message = decode_query(QUERY_TYPES[kind], fields)
        else:
            raise Fault(Cause.KIND)
    except Short:
        raise Fault(Cause.SHORT) from None
    if fields.left():
        raise Fault(Cause.EXTRA)
    return message
