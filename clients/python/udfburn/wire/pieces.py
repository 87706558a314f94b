"""Files as they are read: in one answer, or piece by piece where they have more than a mebibyte."""

from __future__ import annotations

from typing import Iterator, List, Optional, Sequence

from ..base.errors import Differs
from ..protocol import Answer, Data, Get, Node, Path, Query, Read, Stat, limits, printed, show
from .refusals import expected


def queries_of(parts: Sequence[Path], size: int) -> List[Query]:
    """The queries that give the bytes of a file of this size, in order: each of its parts, or each mebibyte of it."""
    if len(parts) != 1 or size <= limits.FILE:
        return [Get(part) for part in parts]
    return [Read(parts[0], at, min(size - at, limits.FILE)) for at in range(0, size, limits.FILE)]


def data_of(query: Query, answer: Answer) -> bytes:
    """The bytes that answer a query. Raises where a piece is shorter than it was when the file's size was asked for."""
    data = expected(Data, query, answer).data
    if isinstance(query, Read) and len(data) != query.count:
        raise Differs(f"{show(query.path)}: became shorter while it was read")
    return data


def and_node(queries: List[Query]) -> List[Query]:
    """The queries of a file and, where it is read piece by piece, a question for its node: between two pieces others may have changed it."""
    return [*queries, Stat(queries[0].path)] if queries and isinstance(queries[0], Read) else queries


def is_still(queries: Sequence[Query], node: Optional[Node], answers: Iterator[Answer]) -> bool:
    """Whether a file that was read by these queries has the node that it had before. Where `and_node` asks for it, that answer is taken."""
    return not queries or not isinstance(queries[0], Read) or next(answers) == node


def bytes_as_seen(queries: List[Query], node: Node, answers: Iterator[Answer]) -> Iterator[bytes]:
    """The bytes of a file that had this node, in pieces, by the answers to its queries with `and_node`. Raises where it changed meanwhile."""
    for query in queries:
        yield data_of(query, next(answers))
    if not is_still(queries, node, answers):
        raise Differs(f"{printed(queries[0].path)}: another client changed it while it was read: run the same command again")


__all__ = ["and_node", "bytes_as_seen", "data_of", "is_still", "queries_of"]
