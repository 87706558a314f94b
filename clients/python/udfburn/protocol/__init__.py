"""The protocol of `udfburn` and `udfburnd`: each frame, request, query, answer, fault and limit as a type.

`encode_message` and `encode_answer` give the one payload of a message or an answer, `encode_head` that of a request
without its data; `decode_message` and `decode_answer` read it, and report its first fault. `frame` puts a payload after
its length, `Frames` cuts a stream into payloads.

Who may use it: every room; `reader` takes `units` alone. What it may use: nothing of the package.
"""

from . import limits
from .answers import (
    BARE, CLIENTS_FULL, DAMAGED, FAULT, FULL, IS_DIRECTORY, MEMORY, NOT_DIRECTORY, NOT_FOUND, TOO_LONG,
    Answer, AnswerCode, BadAnswer, Bare, Code, Committed, Data, Gap, Malformed, Name, Names, Node, NodeKind, Stale,
    decode_answer, encode_answer,
)
from .frames import LENGTH, Frames, frame, prefix
from .messages import (
    AnyRequest, Append, Cause, Create, Fault, Get, Kind, List, MakeDir, Message, Query, Read, Remove, Rename, Replace, Request, Stat,
    decode_message, encode_head, encode_message,
)
from .names import (
    InvalidName, InvalidPath, NameFault, Path, PathLike, as_text, escaped, has_spelling, is_bytes, name_fault, path_of, printed, show, shown, spelled_size,
)

__all__ = [
    "Answer", "AnswerCode", "AnyRequest", "Append", "BARE", "BadAnswer", "Bare", "CLIENTS_FULL", "Cause", "Code", "Committed",
    "Create", "DAMAGED", "Data", "FAULT", "FULL", "Fault", "Frames", "Gap", "Get", "IS_DIRECTORY", "InvalidName",
    "InvalidPath", "Kind", "LENGTH", "List", "MEMORY", "MakeDir", "Malformed", "Message", "NOT_DIRECTORY",
    "NOT_FOUND", "Name", "NameFault", "Names", "Node", "NodeKind", "Path", "PathLike", "Query", "Read", "Remove", "Rename",
    "Replace", "Request", "Stale", "Stat", "TOO_LONG", "as_text", "decode_answer", "decode_message", "encode_answer", "encode_head",
    "encode_message", "escaped", "frame", "has_spelling", "is_bytes", "limits", "name_fault", "path_of", "prefix", "printed", "show", "shown", "spelled_size",
]
