"""What a ledger keeps, as values: volumes, requests, replies, and what distinguishes one volume from another."""

from __future__ import annotations

import os
from typing import NamedTuple, Optional, Union

from ..protocol import AnyRequest, Append, Code, Create, Kind, Replace, limits, path_of, show
from ..protocol.units import Address, Commit, Moment, Size
from ..wire.operations import Deed, Origin, Whole, deed_of


class Identity(NamedTuple):
    """What an image says of itself for its whole life: its label, the moment of its format in microseconds from 1970-01-01 UTC, and
    its capacity in blocks. A client over a socket does not know it."""

    label: str
    moment: Moment
    capacity: int

    def __str__(self) -> str:
        from ..base.progress import moment

        return f"{self.label!r}, formatted at {moment(self.moment)} (moment {self.moment}), {self.capacity} blocks"


class Mark(NamedTuple):
    """A commit of an image: its number, the address of its VAT ICB, and the SHA-256 of all blocks that it wrote."""

    commit: Commit
    address: Address
    check: bytes

    def __str__(self) -> str:
        return f"commit {self.commit} at block {self.address}, SHA-256 {self.check.hex()[:16]}.."


class KnownVolume(NamedTuple):
    """A volume as the ledger knows it: the way by which it was first met, and `latest`, the number of the last request with a reply.

    `identity` and `mark` are known once it was met as an image. `unsettled` says that a ledger of version 1 had it, which kept one
    volume that was met by two ways as two.
    """

    id: int
    way: Union[str, bytes]
    latest: int
    unsettled: bool = False
    identity: Optional[Identity] = None
    mark: Optional[Mark] = None


class Facts(NamedTuple):
    """What a request asks for: a deed, the SHA-256 of its file up to the end of its data where it has some and that is known, and the whole
    file that it gives its name to, or whose last part it is."""

    deed: Deed
    sha256: Optional[bytes] = None
    whole: Optional[Whole] = None


class Pending(NamedTuple):
    """A request without a reply: its number, its payload, the path it speaks of, and what it asks for.

    Where there is an `origin` the payload has no data: what the origin has goes after it, if the file has the digest of the facts up to its
    end. An origin without a file (`GIVEN_UP`) says that the data is not looked for any more.
    """

    number: int
    payload: bytes
    path: str
    facts: Optional[Facts] = None
    origin: Optional[Origin] = None


class Reply(NamedTuple):
    """A reply that came."""

    number: int
    code: int
    commit: Commit
    confirmed: bool


class Sent(NamedTuple):
    """A request that is kept: its number, its path, what it asked for (None for one that an older program sent), and its reply.

    `code` is None where its reply is not known, `commit` while it has none. `confirmed` says that the tree agreed with it.
    """

    number: int
    path: str
    facts: Optional[Facts]
    code: Optional[int]
    commit: Optional[Commit]
    confirmed: bool


def facts_of(request: AnyRequest, sha256: Optional[bytes] = None, whole: Optional[Whole] = None) -> Facts:
    """The facts of a request. The SHA-256 of its file up to the end of its data is computed where it is not given, if no data is before that."""
    deed = deed_of(request)
    if not isinstance(request, (Create, Replace, Append)):
        return Facts(deed, None, whole)
    is_after_other = isinstance(request, Append) and request.offset > 0
    return Facts(deed, sha256 or (None if is_after_other else digest(request.data)), whole)


def digest(data: bytes) -> bytes:
    """The SHA-256 of bytes."""
    from hashlib import sha256

    return sha256(data).digest()


PLACES = 64
"""Requests without a reply, at most. A payload is kept for each of them."""

NOT_KEPT = 32
"""In place of a code: the request is committed, and what its reply was is not known."""

LARGE_DATA = 1 << 14
"""Bytes of data from which on a ledger keeps where the data can be read again, and its digest, in place of the data. To keep it would
write it twice more, to the ledger's log and to the ledger, which have pages of 4 KiB: from four of them on an import takes a fifth to a
half longer for that. Less is kept whole, since then a repeat needs no other file."""

GIVEN_UP = Origin("", 0, 0, 0)
"""The origin of data that was not found, and that no later process finds either."""

# ---- rows: a ledger may be damaged, or none at all

GREATEST_NUMBER = (1 << 63) - 1
"""The greatest number that the ledger's columns hold."""


def whole_number(value: object, least: int = 0, most: int = GREATEST_NUMBER) -> int:
    """A whole number between two, or `ValueError`."""
    if not isinstance(value, int) or not least <= value <= most:
        raise ValueError(f"{value!r:.60} is no number from {least} to {most}")
    return value


def text(value: object) -> str:
    """A text, or `ValueError`."""
    if not isinstance(value, str):
        raise ValueError(f"{value!r:.60} is no text")
    return value


def row_way(way: object) -> Union[str, bytes]:
    """A way that leads to a volume."""
    return way if isinstance(way, bytes) else text(way)


def row_digest(value: object) -> bytes:
    """A SHA-256."""
    if not isinstance(value, bytes) or len(value) != 32:
        raise ValueError(f"{value!r:.60} is no SHA-256")
    return value


ORIGIN = ("origin", "start", "size_then", "modified")
"""The columns of an origin."""


def origin_row(origin: Optional[Origin]) -> "tuple[object, ...]":
    """The values of these columns."""
    return (None,) * len(ORIGIN) if origin is None else (os.fsencode(origin.local), *origin[1:])


def row_origin(row: "tuple[object, ...]") -> Optional[Origin]:
    """The origin of these columns."""
    local, start, size, modified = row
    if local is None:
        return None
    if not (isinstance(local, bytes) and isinstance(start, int) and isinstance(size, int) and isinstance(modified, int)):
        raise ValueError(f"no origin of data: {row!r:.200}")
    origin = Origin(os.fsdecode(local), start, size, modified)
    if origin != GIVEN_UP and not local.strip(b"/"):
        raise ValueError(f"no origin of data: {row!r:.200}")
    return origin


FACTS = ("kind", "target", "size", "moment", "sha256", "whole_path", "whole_size", "whole_sha256")
"""The columns of a request's facts."""


def facts_row(facts: Optional[Facts]) -> "tuple[object, ...]":
    """The values of these columns."""
    if facts is None:
        return (None,) * len(FACTS)
    deed, whole = facts.deed, facts.whole
    target = show(deed.to) if deed.kind is Kind.RENAME else None
    wholly = (None, None, None) if whole is None else (show(whole.path), whole.size, whole.sha256)
    return (int(deed.kind), target, deed.size, deed.moment, facts.sha256, *wholly)


def row_facts(path: str, row: "tuple[object, ...]") -> Optional[Facts]:
    """The facts of a request at a path, from these columns."""
    kind, target, size, moment, sha256, whole_path, whole_size, whole_sha256 = row
    if kind is None:
        return None
    to = path_of(text(target)) if target is not None else ()
    whole = None
    if whole_path is not None:
        whole = Whole(path_of(text(whole_path)), Size(whole_number(whole_size)), row_digest(whole_sha256))
    known = Kind(whole_number(kind))
    bytes_then = whole_number(size, 1, limits.GREATEST_FILE) if known is Kind.APPEND else whole_number(size, 0, limits.FILE)
    deed = Deed(known, path_of(path), to, Size(bytes_then), Moment(whole_number(moment, 0, limits.MOMENT - 1)))
    return Facts(deed, None if sha256 is None else row_digest(sha256), whole)


def volume_of(row: "tuple[object, ...]") -> KnownVolume:
    """The volume of a row."""
    number, way, latest, unsettled, label, formatted, capacity, commit, address, check = row
    identity = None if label is None else Identity(text(label), Moment(whole_number(formatted)), whole_number(capacity))
    mark = None if check is None else Mark(Commit(whole_number(commit)), Address(whole_number(address)), row_digest(check))
    return KnownVolume(whole_number(number), row_way(way), whole_number(latest), bool(unsettled), identity, mark)


def pending_of(row: "tuple[object, ...]") -> Pending:
    """The request of a row."""
    number, payload, path, *rest = row
    facts, origin = row_facts(text(path), tuple(rest[: len(FACTS)])), row_origin(tuple(rest[len(FACTS) :]))
    if not isinstance(payload, bytes) or origin is not None and facts is None:
        raise ValueError(f"request {number!r} has no payload")
    data = facts.deed.data_size() if facts is not None and origin is not None else 0
    if len(payload) + data > limits.PAYLOAD:
        raise ValueError(f"request {number!r} has {len(payload) + data} bytes")
    return Pending(whole_number(number, 1), payload, text(path), facts, origin)


def row_reply(code: object, commit: object) -> "tuple[int, Commit]":
    """The code and the commit of a reply."""
    return int(Code(whole_number(code))), Commit(whole_number(commit, 1))


def sent_of(row: "tuple[object, ...]") -> Sent:
    """The request of a row, with its reply."""
    number, path, code, commit, confirmed, *facts = row
    known = row_facts(text(path), tuple(facts))
    if code is None or code == NOT_KEPT:
        return Sent(whole_number(number, 1), text(path), known, None, None if commit is None else Commit(whole_number(commit)), bool(confirmed))
    return Sent(whole_number(number, 1), text(path), known, *row_reply(code, commit), bool(confirmed))


__all__ = [
    "FACTS", "Facts", "GIVEN_UP", "GREATEST_NUMBER", "Identity", "KnownVolume", "LARGE_DATA", "Mark", "NOT_KEPT", "ORIGIN", "PLACES", "Pending",
    "Reply", "Sent", "digest", "facts_of", "facts_row", "origin_row", "pending_of", "row_facts", "row_origin", "row_reply", "row_way", "sent_of",
    "volume_of", "whole_number",
]
