"""What became of requests that a volume has, where it does not keep the replies to all of them.

A volume carries out a client's numbers one after another, so each up to the latest is committed. It keeps the last four replies. Of an older
request the tree is asked: it is called done where the tree has all that it asked for, of a file or a piece also each byte. A moment would be
no proof, since an earlier file may have the same one.
"""

from __future__ import annotations

from hashlib import sha256
from typing import Any, Callable, Dict, List, Mapping, NamedTuple, Optional, Sequence, Tuple

from ..base.errors import ForeignReply
from ..ledger.records import Facts, Pending
from ..protocol import NOT_FOUND, Code, Committed, Data, Get, Kind, Node, NodeKind, Path, Query, Read, Stat, limits
from ..protocol.units import Commit, Size
from ..wire.connection import Connection
from ..wire.operations import Deed, Whole
from .recognition import ClientState, exchange

FILE_KINDS = (Kind.CREATE, Kind.REPLACE, Kind.APPEND)


class Settled(NamedTuple):
    """What is known of committed requests: their replies by number, where they were done or their replies are known; and the others, each
    with its commit."""

    replies: Dict[int, Committed]
    gone: Dict[int, Commit]


class Shown:
    """What was found out of requests. `heard` has replies that came before a conversation was lost, `there` whether the tree had what was
    asked for: a conversation that is lost meanwhile takes nothing of that away. `sent` is what this process has of requests of which the
    ledger has no data: what they asked for, and their data. `progress` is called where something came."""

    def __init__(self, sent: Mapping[int, Tuple[Facts, bytes]], progress: Callable[[], None]) -> None:
        self.heard: Dict[int, Committed] = {}
        self.there: Dict[int, bool] = {}
        self._sent = sent
        self._progress = progress
        self._read: Dict[Path, Tuple[int, Any]] = {}
        """How many bytes of a file were read, and their SHA-256 so far."""

    def settled(self, connection: Connection, committed: Sequence[Pending], seen: ClientState) -> Settled:
        """What became of requests that a volume has, in order of their numbers."""
        known = {**self.heard, **seen.replies}
        kept = [number for number in sorted(seen.replies) if number >= committed[0].number]
        begin = commits_before(kept[0], [seen.replies[number] for number in kept])
        found = Settled({}, {})

        def is_there(waiting: Pending) -> bool:
            """Whether the tree has what a request asked for, or had it until a later one that was done changed it."""
            number = waiting.number
            if number in known:
                return known[number].code is Code.DONE
            if number not in self.there:
                self.there[number] = self.tree_has(connection, waiting, committed) or any(map(is_there, removed_for(waiting, committed)))
                self._progress()
            return self.there[number]

        for waiting in committed:
            number = waiting.number
            if number in known:
                found.replies[number] = known[number]
            elif is_there(waiting):
                found.replies[number] = Committed(Code.DONE, Commit(begin + number))
            else:
                found.gone[number] = Commit(begin + number)
        return found

    def tree_has(self, connection: Connection, waiting: Pending, committed: Sequence[Pending]) -> bool:
        """Whether the tree has all that a request asked for. `committed` are all that the volume has of those that were under way."""
        facts = waiting.facts
        if facts is None:
            return False
        deed = facts.deed
        if deed.kind is Kind.RENAME:
            return facts.whole is not None and self._has_name(connection, deed, facts.whole)
        if deed.kind in FILE_KINDS:
            later = [other.facts.deed for other in committed if other.facts is not None and other.number >= waiting.number]
            return self._has_bytes(connection, waiting, facts, later)
        (node,) = exchange(connection, [Stat(deed.path)])
        if deed.kind is Kind.REMOVE:
            return node == NOT_FOUND
        return isinstance(node, Node) and node.kind is NodeKind.DIRECTORY

    def _has_bytes(self, connection: Connection, waiting: Pending, facts: Facts, later: Sequence[Deed]) -> bool:
        """Whether a file has the bytes of a request, and is as this one or a later piece of the file left it. Where the data is not at hand all
        bytes up to its end are compared by their digest."""
        deed, data = facts.deed, self._data(waiting, facts)
        (node,) = exchange(connection, [Stat(deed.path)])
        left = [Node(NodeKind.FILE, other.moment, other.size) for other in later if other.kind in FILE_KINDS and other.path == deed.path]
        if not isinstance(node, Node) or node not in left:
            return False
        if data is None:
            return self._has_digest(connection, deed.path, node.size, deed.size, facts.sha256)
        return not data or piece_of(connection, deed.path, node.size, deed.size - len(data), len(data)) == data

    def _data(self, waiting: Pending, facts: Facts) -> Optional[bytes]:
        """The data of a request, where it is at hand."""
        if waiting.origin is None:
            return waiting.payload[len(waiting.payload) - facts.deed.data_size() :]
        sent, data = self._sent.get(waiting.number, (None, None))
        return data if sent == facts else None

    def _has_name(self, connection: Connection, deed: Deed, whole: Whole) -> bool:
        """Whether a file is at its new path with all of its bytes, and nothing at its old one."""
        old, node = exchange(connection, [Stat(deed.path), Stat(deed.to)])
        if old != NOT_FOUND or not isinstance(node, Node) or (node.kind, node.size) != (NodeKind.FILE, whole.size):
            return False
        return self._has_digest(connection, deed.to, node.size, whole.size, whole.sha256)

    def _has_digest(self, connection: Connection, path: Path, size: int, count: int, sha256_of: Optional[bytes]) -> bool:
        """Whether so many first bytes of a file of this size have a SHA-256. What was read before is not read again."""
        at, read = self._read.get(path, (0, sha256()))
        if at > count:
            at, read = 0, sha256()
        while at < count:
            piece = piece_of(connection, path, size, at, min(limits.FILE, count - at))
            if not piece:
                return False
            read.update(piece)
            at += len(piece)
            self._read[path] = at, read
            self._progress()
        return bool(read.digest() == sha256_of)


def piece_of(connection: Connection, path: Path, size: int, at: int, count: int) -> Optional[bytes]:
    """So many bytes of a file of this size from one on; None where it does not have them."""
    query: Query = Get(path) if size <= limits.FILE else Read(path, at, Size(count))
    (answer,) = exchange(connection, [query])
    return answer.data if isinstance(answer, Data) and len(answer.data) == count else None


def commits_before(first: int, replies: List[Committed]) -> int:
    """What is to be added to a number for its commit, by the replies that are kept from a number on. All were sent in one conversation, and
    a volume serves one at a time: so there is no commit of another client between theirs."""
    begin = replies[0].commit - first
    if any(reply.commit != begin + number for number, reply in enumerate(replies, first)):
        raise ForeignReply("the replies to requests of one conversation have other commits between them: another ledger has this client")
    return begin


def removed_for(waiting: Pending, committed: Sequence[Pending]) -> List[Pending]:
    """The request that gives a file the path which this one removes another from, if it is one of these. If that was done there was nothing
    at the path before it."""
    facts = waiting.facts
    if facts is None or facts.deed.kind is not Kind.REMOVE:
        return []
    later = [other for other in committed if other.facts is not None and other.number > waiting.number]
    return [other for other in later if other.facts and other.facts.deed.kind is Kind.RENAME and other.facts.deed.to == facts.deed.path]


__all__ = ["Settled", "Shown", "commits_before"]
