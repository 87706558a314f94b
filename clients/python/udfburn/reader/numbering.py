"""The commits that the tables of a chain are of: by what the tables say, and by the links between them."""

from __future__ import annotations

from collections import Counter
from typing import Dict, List, NamedTuple, Optional, Tuple

from ..protocol.units import Address, BlockNumber, Commit
from .basics import address_of
from .table import Table


class Span(NamedTuple):
    """The commits that something may be of: the least and the greatest. Where these are one, it is known."""

    low: Commit
    high: Commit

    @property
    def commit(self) -> Optional[Commit]:
        """The commit; None where there may be several."""
        return self.low if self.low == self.high else None

    def __str__(self) -> str:
        return str(self.low) if self.low == self.high else f"between {self.low} and {self.high}"


class Link(NamedTuple):
    """A table of the chain.

    `numbers` are the commits that it may be of. `table` is None where its data cannot be used. `said` is the commit that the table
    itself says, where that is to be trusted; `follows` says that the table has the next older link as the one before it, and `adjacent`
    that no commit is between the two. `broken` is what is wrong with it.
    """

    address: Address
    table: Optional[Table]
    said: Optional[Commit] = None
    follows: bool = False
    broken: Tuple[str, ...] = ()
    numbers: Span = Span(Commit(0), Commit(0))
    adjacent: bool = False
    first: Optional[BlockNumber] = None
    """The number of the first block of its data, as its VAT ICB has it."""

    @property
    def start(self) -> Address:
        """The address of the first block of its data, or of its entry where that is not known."""
        return address_of(self.first) if self.first is not None else self.address

    @property
    def commit(self) -> Optional[Commit]:
        """Its commit; None where that is not known."""
        return self.numbers.commit


def greatest_at(address: Address) -> Commit:
    """The greatest commit whose VAT ICB can have an address: the format takes 262 blocks, and each commit two or more."""
    return Commit(max((address - 261) // 2, 0))


class LinkRow(NamedTuple):
    """Links in a row of which each table names the next one: the place of the newest, that after the oldest, the commit of the newest
    and how many tables say it."""

    begin: int
    end: int
    newest: Commit
    votes: int


def number_links(links: List[Link]) -> List[Link]:
    """The links with their commits. A commit is known by a table that says it, by the links that lead to such a table or from one, and
    where as many are between two that are known as there can be; else by its limits."""
    known = numbered(link_rows(links))
    spans = limits(links, known)
    return [link._replace(numbers=spans[index], adjacent=is_adjacent(links, spans, index)) for index, link in enumerate(links)]


def link_rows(links: List[Link]) -> List[LinkRow]:
    """The rows in which something says a commit, where most of what is said agrees."""
    rows = []
    begin = 0
    for end in range(1, len(links) + 1):
        if end < len(links) and links[end - 1].follows:
            continue
        said = Counter([link.said + index for index, link in enumerate(links[begin:end]) if link.said is not None]).most_common(2)
        if said and (len(said) == 1 or said[0][1] > said[1][1]):
            newest, votes = said[0]
            if all(0 <= newest - index <= greatest_at(links[begin + index].address) for index in range(end - begin)):
                rows.append(LinkRow(begin, end, Commit(newest), votes))
        begin = end
    return rows


def numbered(rows: List[LinkRow]) -> Dict[int, Commit]:
    """The commits of the links in rows. Commits go up with addresses: of two rows that do not, that counts which more tables say."""
    kept: List[LinkRow] = []
    for row in rows:
        dropped = False
        while kept and oldest_of(kept[-1]) <= row.newest:
            dropped |= kept[-1].votes >= row.votes
            if kept[-1].votes > row.votes:
                break
            kept.pop()
        if not dropped:
            kept.append(row)
    return {index: Commit(row.newest - (index - row.begin)) for row in kept for index in range(row.begin, row.end)}


def oldest_of(row: LinkRow) -> Commit:
    """The commit of the oldest link of a row."""
    return Commit(row.newest - (row.end - row.begin - 1))


def limits(links: List[Link], known: Dict[int, Commit]) -> List[Span]:
    """What each link may be, between those that are known."""
    spans = [Span(Commit(0), Commit(0))] * len(links)
    high, begin = greatest_at(links[0].address) if links else 0, 0
    for end in range(len(links) + 1):
        if end < len(links) and end not in known:
            continue
        low = known[end] if end < len(links) else -1
        spans[begin:end] = between(low, high, links[begin:end])
        if end < len(links):
            spans[end], high = Span(known[end], known[end]), low - 1
        begin = end + 1
    return spans


def between(low: int, high: int, links: List[Link]) -> List[Span]:
    """What links may be that are above one commit and up to another. A drive may have kept a commit that was written again: then there
    are more of them than commits."""
    count = len(links)
    if high - low < count:
        return [Span(Commit(max(low, 0)), Commit(max(low, high + 1, 0)))] * count
    return [Span(Commit(low + count - index), Commit(min(high - index, greatest_at(link.address)))) for index, link in enumerate(links)]


def is_adjacent(links: List[Link], spans: List[Span], index: int) -> bool:
    """Whether no commit is between a link and the next older one."""
    if index + 1 == len(links):
        return spans[index].high == 0
    one, other = spans[index].commit, spans[index + 1].commit
    return links[index].follows if one is None or other is None else one == other + 1


__all__ = ["Link", "Span", "greatest_at", "number_links"]
