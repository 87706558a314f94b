"""The log of calls that the shim keeps."""
from __future__ import annotations

import struct
from pathlib import Path
from typing import NamedTuple, Union

# In the order of `enum kind` in shim.c.
KINDS = ("open", "stat", "pread", "pwrite", "fsync", "fadvise", "ftruncate", "fstat", "flock", "close", "folderopen", "foldersync",
         "send", "recv", "accept", "stdout", "stdin", "ioctl")


class Record(NamedTuple):
    """A call: `offset` is the place in the file, the length that a truncation asks for, or the flags of an opening."""

    kind: str
    process: int
    descriptor: int
    offset: int
    length: int
    result: int
    error: int
    data: bytes


_RECORD = struct.Struct("<IIIiqqqiI")
_MAGIC = 0x544C5546


def read_log(path: Union[str, Path]) -> list[Record]:
    """The calls that the shim logged, of all processes in order. A log that is not there is an empty one."""
    try:
        with open(path, "rb") as file:
            data = file.read()
    except FileNotFoundError:
        return []
    records, at = [], 0
    while at + _RECORD.size <= len(data):
        magic, process, kind, descriptor, offset, length, result, error, count = _RECORD.unpack_from(data, at)
        if magic != _MAGIC:
            raise ValueError("the log is torn at byte %d" % at)
        at += _RECORD.size
        records.append(Record(KINDS[kind], process, descriptor, offset, length, result, error, data[at:at + count]))
        at += count
    return records
