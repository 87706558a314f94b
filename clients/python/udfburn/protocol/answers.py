"""Answers: their payloads, written and read."""

from __future__ import annotations

import struct
from enum import IntEnum
from typing import Callable, ClassVar, Dict, Tuple, Union

from . import limits
from .messages import Cause
from .names import name_fault
from .reader import Fields, Short
from .record import Record
from .units import Commit, Moment


class Code(IntEnum):
    """How a committed request went."""

    DONE = 0
    NO_PARENT = 1
    NOT_FOUND = 2
    EXISTS = 3
    IS_DIRECTORY = 4
    NOT_EMPTY = 5
    INTO_ITSELF = 6
    ROOT = 7
    TOO_DEEP = 8
    DIRECTORY_FULL = 9
    TOO_MANY = 10


class AnswerCode(IntEnum):
    """The code of an answer that is no reply to a committed request."""

    STALE = 32
    GAP = 33
    CLIENTS_FULL = 34
    FULL = 35
    FAULT = 36
    MEMORY = 37
    MALFORMED = 38
    DAMAGED = 39
    DATA = 64
    NAMES = 65
    NODE = 66
    NOT_FOUND = 96
    IS_DIRECTORY = 97
    NOT_DIRECTORY = 98
    TOO_LONG = 99


class NodeKind(IntEnum):
    """What a name leads to."""

    FILE = 0
    DIRECTORY = 1


class BadAnswer(Exception):
    """Bytes that are no answer of this protocol, or not one to what was asked."""


class Committed(Record):
    """The request is committed."""

    __slots__ = ("code", "commit")

    def __init__(self, code: Code, commit: Commit):
        self.code = code
        self.commit = commit


class Stale(Record):
    """The request is older than those whose replies are kept."""

    code: ClassVar[AnswerCode] = AnswerCode.STALE
    __slots__ = ("latest",)

    def __init__(self, latest: int):
        self.latest = latest


class Gap(Record):
    """The request's number is not its client's next."""

    code: ClassVar[AnswerCode] = AnswerCode.GAP
    __slots__ = ("latest",)

    def __init__(self, latest: int):
        self.latest = latest


class Bare(Record):
    """An answer of its code alone."""

    __slots__ = ("code",)

    def __init__(self, code: AnswerCode):
        self.code = code


CLIENTS_FULL = Bare(AnswerCode.CLIENTS_FULL)
FULL = Bare(AnswerCode.FULL)
FAULT = Bare(AnswerCode.FAULT)
MEMORY = Bare(AnswerCode.MEMORY)
DAMAGED = Bare(AnswerCode.DAMAGED)
NOT_FOUND = Bare(AnswerCode.NOT_FOUND)
IS_DIRECTORY = Bare(AnswerCode.IS_DIRECTORY)
NOT_DIRECTORY = Bare(AnswerCode.NOT_DIRECTORY)
TOO_LONG = Bare(AnswerCode.TOO_LONG)

BARE: Dict[int, Bare] = {
    bare.code: bare
    for bare in (CLIENTS_FULL, FULL, FAULT, MEMORY, DAMAGED, NOT_FOUND, IS_DIRECTORY, NOT_DIRECTORY, TOO_LONG)
}


class Malformed(Record):
    """The payload says nothing."""

    code: ClassVar[AnswerCode] = AnswerCode.MALFORMED
    __slots__ = ("cause",)

    def __init__(self, cause: Cause):
        self.cause = cause


class Data(Record):
    """The bytes of a file, or of a piece of it."""

    code: ClassVar[AnswerCode] = AnswerCode.DATA
    __slots__ = ("data",)

    def __init__(self, data: bytes):
        self.data = data


class Name(Record):
    """A name in a directory."""

    __slots__ = ("kind", "name")

    def __init__(self, kind: NodeKind, name: str):
        self.kind = kind
        self.name = name


class Names(Record):
    """The names in a directory, in stored order."""

    code: ClassVar[AnswerCode] = AnswerCode.NAMES
    __slots__ = ("names",)

    def __init__(self, names: Tuple[Name, ...]):
        self.names = names


class Node(Record):
    """What is known of a path. `size` is the bytes of a file, the names of a directory."""

    code: ClassVar[AnswerCode] = AnswerCode.NODE
    __slots__ = ("kind", "moment", "size")

    def __init__(self, kind: NodeKind, moment: Moment, size: int):
        self.kind = kind
        self.moment = moment
        self.size = size


Answer = Union[Committed, Stale, Gap, Bare, Malformed, Data, Names, Node]


# ---- written

def encode_answer(answer: Answer) -> bytes:
    """The payload of an answer."""
    head = struct.pack("<H", answer.code)
    if isinstance(answer, Committed):
        return head + struct.pack("<I", answer.commit)
    if isinstance(answer, (Stale, Gap)):
        return head + struct.pack("<Q", answer.latest)
    if isinstance(answer, Malformed):
        return head + struct.pack("<H", answer.cause)
    if isinstance(answer, Data):
        return head + struct.pack("<I", len(answer.data)) + answer.data
    if isinstance(answer, Names):
        return head + struct.pack("<H", len(answer.names)) + b"".join(map(encode_name, answer.names))
    if isinstance(answer, Node):
        return head + struct.pack("<BQQ", answer.kind, answer.moment, answer.size)
    return head


def encode_name(name: Name) -> bytes:
    """A name in the answer to List."""
    text = name.name.encode()
    return struct.pack("<BH", name.kind, len(text)) + text


# ---- read

CODES = tuple(Code)
COMMITTED = struct.Struct("<HI")
NODE = struct.Struct("<BQQ")


def decode_data_answer(fields: Fields) -> Data:
    """The bytes of a file."""
    size = fields.number(4)
    if size > limits.FILE:
        raise BadAnswer("a file has more bytes than a file may have")
    return Data(fields.take(size))


def decode_name(fields: Fields) -> Name:
    """A name: one that may be in a directory, so that it is safe as a local name too."""
    kind = node_kind(fields.number(1))
    try:
        name = fields.take(fields.number(2)).decode()
    except UnicodeDecodeError:
        raise BadAnswer("a name is not UTF-8") from None
    if name_fault(name) is not None:
        raise BadAnswer(f"a directory has a name that is not allowed: {name!r}")
    return Name(kind, name)


def decode_names(fields: Fields) -> Names:
    """The names in a directory."""
    count = fields.number(2)
    if count > limits.NAMES:
        raise BadAnswer("a directory has more names than one may have")
    names = tuple(decode_name(fields) for _ in range(count))
    if len({name.name for name in names}) < count:
        raise BadAnswer("a directory has a name twice")
    return Names(names)


def decode_node(fields: Fields) -> Node:
    """What is known of a path."""
    kind, moment, size = fields.unpack(NODE)
    node = Node(node_kind(kind), Moment(moment), size)
    most = limits.NAMES if node.kind is NodeKind.DIRECTORY else limits.GREATEST_FILE
    if node.moment >= limits.MOMENT or node.size > most:
        raise BadAnswer("a node is past the limits of a volume")
    return node


def node_kind(kind: int) -> NodeKind:
    """The kind of a node."""
    if kind > 1:
        raise BadAnswer(f"there is no kind {kind} of nodes")
    return NodeKind(kind)


def decode_cause(fields: Fields) -> Malformed:
    """Why a payload says nothing."""
    cause = fields.number(2)
    try:
        return Malformed(Cause(cause))
    except ValueError:
        raise BadAnswer(f"there is no cause {cause}") from None


READERS: Dict[int, Callable[[Fields], Answer]] = {
    AnswerCode.STALE: lambda fields: Stale(fields.number(8)),
    AnswerCode.GAP: lambda fields: Gap(fields.number(8)),
    AnswerCode.MALFORMED: decode_cause,
    AnswerCode.DATA: decode_data_answer,
    AnswerCode.NAMES: decode_names,
    AnswerCode.NODE: decode_node,
}


def decode_answer(payload: bytes) -> Answer:
    """The answer of a payload, or `BadAnswer`."""
    if len(payload) == COMMITTED.size:
        code, commit = COMMITTED.unpack(payload)
        if code <= Code.TOO_MANY:
            return Committed(CODES[code], commit)
    fields = Fields(payload)
    try:
        code = fields.number(2)
        answer: Answer
        if code <= Code.TOO_MANY:
            answer = Committed(CODES[code], Commit(fields.number(4)))
        elif code in BARE:
            answer = BARE[code]
        elif code in READERS:
            answer = READERS[code](fields)
        else:
            raise BadAnswer(f"there is no answer of code {code}")
    except Short:
        raise BadAnswer("an answer ends inside a field") from None
    if fields.left():
        raise BadAnswer("an answer has bytes after its last field")
    return answer
