"""Requests before they have a number, and what the tree has after them."""

from __future__ import annotations

import time
from typing import Any, Dict, List, Mapping, NamedTuple, Optional, Sequence, Tuple, Type, Union

from ..base.errors import TooLarge
from ..protocol import (
    NOT_FOUND, Answer, AnyRequest, Append, Code, Create, Kind, MakeDir, Node, NodeKind, Path, Rename, Replace, encode_answer, limits, printed,
)
from ..protocol.units import Commit, Moment, Size


def now() -> Moment:
    """This moment."""
    return clamped(time.time_ns() // 1000)


def clamped(microseconds: int) -> Moment:
    """The moment so many microseconds from 1970-01-01 UTC, or the nearest that can be said."""
    return Moment(min(max(microseconds, 0), limits.MOMENT - 1))


class Whole(NamedTuple):
    """A file that takes several requests: its own path, its bytes, and the SHA-256 of all of them."""

    path: Path
    size: Size
    sha256: bytes


class Origin(NamedTuple):
    """Where the data of a request can be read again: from a byte of a local file that has this size and this time of modification, in
    nanoseconds."""

    local: str
    start: int
    size: int
    modified: int


class Operation(NamedTuple):
    """What a request is to do. `tag` is for whoever made it.

    `sha256` is that of the file up to the end of the data. Where it is not given it is computed when the request is made, but not for an append
    after other data. `whole` is given where the file gets its name. `origin` is given where the data came from a local file: then the ledger
    keeps large data by that digest alone. `offset` is that of an append.
    """

    kind: Type[AnyRequest]
    path: Path
    moment: Moment
    data: bytes = b""
    to: Path = ()
    tag: Any = None
    sha256: Optional[bytes] = None
    whole: Optional[Whole] = None
    origin: Optional[Origin] = None
    offset: int = 0

    def request(self, client: int, number: int) -> AnyRequest:
        """The request of a client under a number."""
        if len(self.data) > limits.FILE:
            raise TooLarge(f"{printed(self.path)}: {len(self.data)} bytes, and a request has at most {limits.FILE}")
        kind: Any = self.kind
        if kind is Create or kind is Replace:
            return kind(client, number, self.moment, self.path, self.data)  # type: ignore[no-any-return]
        if kind is Append:
            return Append(client, number, self.moment, self.path, self.offset, self.data)
        if kind is Rename:
            return Rename(client, number, self.moment, self.path, self.to)
        return kind(client, number, self.moment, self.path)  # type: ignore[no-any-return]


class Outcome(NamedTuple):
    """How an operation went."""

    operation: Operation
    code: Code
    commit: Commit
    number: int


# ---- what the tree must have after a reply

class Expected(NamedTuple):
    """What is known of a path: nothing there, or a node of a kind, a size and a moment, where these are known."""

    there: bool
    kind: Optional[NodeKind] = None
    size: Optional[int] = None
    moment: Optional[Moment] = None

    def agrees(self, answer: Answer) -> bool:
        """Whether the answer to Stat says this."""
        if not self.there:
            return answer == NOT_FOUND
        return (
            isinstance(answer, Node)
            and (self.kind is None or answer.kind is self.kind)
            and (self.size is None or answer.size == self.size)
            and (self.moment is None or answer.moment == self.moment)
        )

    def text(self) -> str:
        """What is known, as people read it."""
        if not self.there:
            return "nothing"
        size = f" of {self.size} bytes" if self.kind is NodeKind.FILE and self.size is not None else ""
        moment = f", moment {self.moment}" if self.moment is not None else ""
        return (f"a {self.kind.name.lower()}" if self.kind is not None else "a file or directory") + size + moment


ABSENT = Expected(False)
PRESENT = Expected(True)
DIRECTORY = Expected(True, NodeKind.DIRECTORY)


def paths_of(request: AnyRequest) -> Tuple[Path, ...]:
    """The paths that a request speaks of."""
    return (request.path, request.to) if isinstance(request, Rename) else (request.path,)


def tree_after(request: AnyRequest) -> Dict[Path, Expected]:
    """What the tree has right after a request that was done."""
    if isinstance(request, (Create, Replace, Append)):
        return {request.path: Expected(True, NodeKind.FILE, size_after(request), request.moment)}
    if isinstance(request, MakeDir):
        return {request.path: Expected(True, NodeKind.DIRECTORY, 0, request.moment)}
    if isinstance(request, Rename):
        return {request.path: ABSENT, request.to: PRESENT}
    return {request.path: ABSENT}


def refused(request: AnyRequest, code: Code) -> Dict[Path, Expected]:
    """What the tree has after a request was refused with this code, as far as the request's paths show it."""
    target = request.to if isinstance(request, Rename) else request.path
    if code is Code.NO_PARENT:
        return {target: ABSENT}
    if code is Code.NOT_FOUND:
        return {request.path: ABSENT}
    if code is Code.EXISTS:
        return {target: PRESENT}
    if code in (Code.IS_DIRECTORY, Code.NOT_EMPTY):
        return {request.path: DIRECTORY}
    return {}


def confirmed(request: AnyRequest, code: Code, answers: Sequence[Answer]) -> bool:
    """Whether answers to Stat of the request's paths, asked right after it, agree with its reply."""
    wanted = tree_after(request) if code is Code.DONE else refused(request, code)
    return all(path not in wanted or wanted[path].agrees(answer) for path, answer in zip(paths_of(request), answers))


def surely(request: AnyRequest) -> Optional[bytes]:
    """The payload by which Stat of the request's path agrees with its being done, where it has one path: there is no other."""
    if isinstance(request, (Create, Replace, Append)):
        return encode_answer(Node(NodeKind.FILE, request.moment, size_after(request)))
    if isinstance(request, MakeDir):
        return encode_answer(Node(NodeKind.DIRECTORY, request.moment, 0))
    return None if isinstance(request, Rename) else encode_answer(NOT_FOUND)


class Deed(NamedTuple):
    """What a request does, without its data: its kind, its path, where to, the bytes that its file has then, and its moment."""

    kind: Kind
    path: Path
    to: Path
    size: Size
    moment: Moment

    def data_size(self) -> Size:
        """The bytes of its data. Of a file that is appended to each piece but the last has a mebibyte, so the size says where it began."""
        return Size((self.size - 1) % limits.FILE + 1) if self.kind is Kind.APPEND else self.size


def size_after(request: Union[Create, Replace, Append]) -> Size:
    """The bytes that the file has once this was done."""
    return Size(len(request.data) + (request.offset if isinstance(request, Append) else 0))


def deed_of(request: AnyRequest) -> Deed:
    """The deed of a request."""
    to = request.to if isinstance(request, Rename) else ()
    size = size_after(request) if isinstance(request, (Create, Replace, Append)) else Size(0)
    return Deed(request.kind, request.path, to, size, request.moment)


def after_all(replies: Sequence[Tuple[Deed, Optional[Code]]]) -> Dict[Path, Expected]:
    """What the tree has after deeds that came one after another, as far as nobody else changed it.

    Of a directory only its kind is known, since its moment and size change with its names. Where a code is None it is not known
    whether the deed was done, and then nothing is known of its paths.
    """
    known: Dict[Path, Expected] = {}
    for deed, code in replies:
        if code is None:
            for path in known_below(known, deed.path) + known_below(known, deed.to if deed.kind is Kind.RENAME else deed.path):
                known.pop(path, None)
        elif code is Code.DONE:
            do(deed, known)
    return known


def do(deed: Deed, known: Dict[Path, Expected]) -> None:
    """Does a deed to what is known."""
    if deed.kind is Kind.RENAME:
        moved = {path: known.pop(path) for path in known_below(known, deed.path)}
        known[deed.path], known[deed.to] = ABSENT, moved.pop(deed.path, PRESENT)
        known.update({deed.to + path[len(deed.path) :]: what for path, what in moved.items()})
    elif deed.kind is Kind.MAKE_DIR:
        known[deed.path] = DIRECTORY
    elif deed.kind is Kind.REMOVE:
        known[deed.path] = ABSENT
    else:
        known[deed.path] = Expected(True, NodeKind.FILE, deed.size, deed.moment)


def known_below(known: Mapping[Path, object], path: Path) -> List[Path]:
    """A path and those below it, as far as they are known."""
    return [other for other in known if other[: len(path)] == path]


__all__ = [
    "Deed", "Expected", "Operation", "Origin", "Outcome", "Whole", "after_all", "clamped", "confirmed", "deed_of", "known_below", "now", "paths_of", "refused", "surely",
    "tree_after",
]
