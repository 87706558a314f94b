"""Files above a mebibyte, stored as one: piece by piece under a name of this client's own, and then under their own names.

A request has a mebibyte at most. So such a file is made with its first mebibyte under the name of an unfinished file, gets each further
one by an append, and is renamed by its last request: at its own path it is there whole or not at all.
"""

from __future__ import annotations

from contextlib import closing
from hashlib import sha256
from typing import TYPE_CHECKING, Any, Dict, Iterator, List, NamedTuple, Optional, Sequence

from ..base.errors import Exists, IsDirectory, NoParent, SourceError, TooDeep, TooLarge
from ..base.unfinished import unfinished_path
from ..local.sources import Source
from ..protocol import Append, Code, Create, Data, Node, NodeKind, Path, Remove, Rename, Stat, limits, printed, show
from ..protocol.units import Commit, Moment
from ..wire.operations import Operation, now
from ..wire.pieces import queries_of
from ..wire.refusals import commit_of
from .jobs import same_pieces
from .walk import remove_paths

if TYPE_CHECKING:
    from .client import Client

class Begun(NamedTuple):
    """What an earlier run of this client began: the pieces that are there of each file, by its path and their numbers, each with the SHA-256
    of the file up to its end; unfinished files that are not gone on with, and what is no file, each with why."""

    kept: Dict[Path, Dict[int, bytes]]
    others: List[Path]
    faults: List[str]


# ---- requests

def piece_request(unfinished: Path, index: int, data: bytes, moment: Moment, **fields: Any) -> Operation:
    """The request that stores a piece of an unfinished file, by its number. `fields` are further ones of `Operation`."""
    offset = index * limits.FILE
    return Operation(Append if index else Create, unfinished, moment, data, offset=offset, **fields)


def naming(unfinished: Path, path: Path, moment: Moment, **fields: Any) -> Operation:
    """The request that gives a file its own path, once all its pieces are acknowledged: else one that is refused would be missing."""
    return Operation(Rename, unfinished, moment, to=path, **fields)


# ---- what an earlier run began

def find_begun(client: Client, number: int, sources: Sequence[Source]) -> Begun:
    """What an earlier run of client `number` began of these files. A file is gone on with only if all of its bytes were read back and
    are those that the source begins with."""
    begun = Begun({}, [], [])
    paths = [unfinished_path(number, source.path) for source in sources]
    with closing(client.ask_all(map(Stat, paths))) as answers:
        nodes = list(answers)
    for source, path, node in zip(sources, paths, nodes):
        if not isinstance(node, Node):
            continue
        if node.kind is NodeKind.DIRECTORY:
            begun.faults.append(f"{printed(path)}: is a directory, and {printed(source.path)} has this path until it is whole")
            continue
        kept = pieces_there(client, source, path, node.size)
        if kept is None:
            begun.others.append(path)
        else:
            begun.kept[source.path] = kept
    return begun


def may_go_on(size: int, whole: int) -> bool:
    """Whether a file of this size may be the beginning of one of so many bytes, or all of it."""
    return size == whole or 0 < size < whole and not size % limits.FILE


def pieces_there(client: Client, source: Source, path: Path, size: int) -> Optional[Dict[int, bytes]]:
    """The SHA-256 of an unfinished file of this size up to the end of each piece, by its number; None where it is not how the source
    begins."""
    if not may_go_on(size, source.identity.size):
        return None
    queries = queries_of([path], size)
    with closing(client.ask_all(queries)) as answers:
        try:
            kept = same_pieces(source, len(queries), answers)
        except SourceError:
            # Whoever stores it reports that.
            return None
    return kept if len(kept) == len(queries) else None


# ---- bytes in memory

def put_bytes(client: Client, path: Path, data: bytes, moment: Optional[Moment]) -> Commit:
    """Stores bytes as one file, whatever was there, and gives the commit by which they are at this path."""
    if len(data) > limits.GREATEST_FILE:
        raise TooLarge(f"{printed(path)}: {len(data)} bytes, and a file has at most {limits.GREATEST_FILE}")
    with client.held():
        client.resume()
        require_path(client, path)
        unfinished = unfinished_path(client.session().ledger.client, path)
        moment = now() if moment is None else moment
        node = client.find(unfinished)
        if node is not None and node.kind is NodeKind.DIRECTORY:
            raise IsDirectory(show(unfinished))
        begin = pieces_equal(client, unfinished, node.size, data) if node is not None else 0
        if node is not None and not begin:
            remove_paths(client, [unfinished])
        # All outcomes are taken before one is judged: those after a refusal are refused too.
        for outcome in list(client.run(operations(unfinished, data, moment, begin))):
            commit_of(outcome)
        return give_name(client, unfinished, path, moment)


def require_path(client: Client, path: Path) -> None:
    """Raises where a file cannot have this path: before its pieces are sent."""
    if len(path) > limits.DEPTH:
        raise TooDeep(show(path))
    node, above = client.find(path), client.find(path[:-1])
    if node is not None and node.kind is NodeKind.DIRECTORY:
        raise IsDirectory(show(path))
    if above is None or above.kind is NodeKind.FILE:
        raise NoParent(show(path))


def pieces_equal(client: Client, unfinished: Path, size: int, data: bytes) -> int:
    """How many pieces of these bytes an unfinished file of this size has; none where it has other bytes."""
    if not may_go_on(size, len(data)):
        return 0
    queries = queries_of([unfinished], size)
    with closing(client.ask_all(queries)) as answers:
        same = [isinstance(answer, Data) and answer.data == data[at : at + limits.FILE] for at, answer in zip(range(0, size, limits.FILE), answers)]
    return len(queries) if all(same) else 0


def operations(unfinished: Path, data: bytes, moment: Moment, begin: int) -> Iterator[Operation]:
    """The requests of the pieces from this one on."""
    read = sha256(memoryview(data)[: begin * limits.FILE])
    for index in range(begin, -(-len(data) // limits.FILE)):
        piece = data[index * limits.FILE : (index + 1) * limits.FILE]
        read.update(piece)
        yield piece_request(unfinished, index, piece, moment, sha256=read.digest())


def give_name(client: Client, unfinished: Path, path: Path, moment: Moment) -> Commit:
    """Gives a file that is whole its own path, and gives the commit. A file that is there goes right before."""
    while True:
        node = client.find(path)
        if node is not None and node.kind is NodeKind.DIRECTORY:
            raise IsDirectory(show(path))
        removal = [Operation(Remove, path, moment)] if node is not None else []
        outcomes = list(client.run([*removal, naming(unfinished, path, moment)]))
        try:
            for outcome in outcomes:
                if outcome.operation.kind is Rename or outcome.code is not Code.NOT_FOUND:
                    commit_of(outcome)
            return outcomes[-1].commit
        except Exists:
            # Another client made one between the look and the request.
            continue


__all__ = ["Begun", "find_begun", "may_go_on", "naming", "piece_request", "put_bytes"]
