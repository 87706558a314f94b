"""Requests that are under way, and those that are made ready for the time after them."""

from __future__ import annotations

from collections import deque
from typing import Deque, Dict, Iterable, Iterator, List, Optional, Sequence

from ..ledger.records import LARGE_DATA, Pending, Reply, facts_of
from ..protocol import (
    DAMAGED, FAULT, MEMORY, Append, Code, Committed, Create, Path, Replace, Stat, decode_answer, encode_head, encode_message, frame, limits,
    prefix, show,
)
from ..wire.connection import Lost
from ..wire.operations import Operation, Outcome, confirmed, paths_of, surely
from .together import disturbs, is_shown, may_follow, takes_away

GROUPS = 2
"""Parts that are under way: while the replies to one and the next one are kept, the program works on the other."""

GROUP_REQUESTS, GROUP_BYTES = 30, 8 * limits.FILE
"""Requests that are kept and sent as one, and the bytes of their data. The program reads up to 4 MiB at once, and answers these
together."""

FEW_REQUESTS = limits.REPLIES // GROUPS
"""Requests in a group where the tree does not show what became of each."""


class InFlightRequest:
    """A request under way, with a question for each of its paths, and what came back: its reply, and payloads of answers.

    All that can be computed before the reply comes is computed here, while the program is at work.
    """

    def __init__(self, operation: Operation, client: int, number: int):
        self.operation = operation
        self.request = operation.request(client, number)
        facts = facts_of(self.request, operation.sha256, operation.whole)
        self.head = encode_head(self.request)
        self.data = self.request.data if isinstance(self.request, (Create, Replace, Append)) else b""
        origin = operation.origin if len(self.data) >= LARGE_DATA else None
        self.pending = Pending(number, self.payload() if origin is None else self.head, show(self.request.path), facts, origin)
        self.paths = paths_of(self.request)
        self.is_shown = is_shown(self.request, facts)
        # In pieces, since each copy of a mebibyte takes time.
        length = prefix(len(self.head) + len(self.data))
        self.frames = [length, self.head, self.data, *(frame(encode_message(Stat(path))) for path in self.paths)]
        self.sure = surely(self.request)
        self.reply: Optional[Committed] = None
        self.said: List[bytes] = []

    def number(self) -> int:
        return self.pending.number

    def payload(self) -> bytes:
        """The payload of the request, with its data: a copy of both."""
        return self.head + self.data

    def size(self) -> int:
        """The bytes that go out."""
        return sum(map(len, self.frames))

    def replied(self) -> Committed:
        """The reply, once it came."""
        if self.reply is None:
            raise RuntimeError(f"request {self.number()} has no reply yet")
        return self.reply

    def agrees(self, reply: Committed) -> bool:
        """Whether the answers to the questions agree with the reply."""
        if reply.code is Code.DONE and self.said == [self.sure]:
            return True
        answers = [decode_answer(payload) for payload in self.said]
        if any(answer in (FAULT, MEMORY, DAMAGED) for answer in answers):
            raise Lost("a question was not answered")
        return confirmed(self.request, reply.code, answers)


class Group:
    """Requests that are kept and sent as one. It is `shown` while the tree shows of each whether it was done."""

    def __init__(self) -> None:
        self.requests: Deque[InFlightRequest] = deque()
        self.newest: Dict[Path, InFlightRequest] = {}
        """The last request under way that has a path, by its paths."""
        self.size = 0
        self.shown = True
        self.takes_away = False

    def __len__(self) -> int:
        return len(self.requests)

    def add(self, request: InFlightRequest, shown: bool) -> None:
        self.requests.append(request)
        self.newest.update(dict.fromkeys(request.paths, request))
        self.size += len(request.operation.data)
        self.shown = self.shown and shown
        self.takes_away = self.takes_away or takes_away(request.request)

    def pop(self) -> InFlightRequest:
        """Takes out the first request."""
        request = self.requests.popleft()
        for path in request.paths:
            if self.newest.get(path) is request:
                del self.newest[path]
        return request

    def leaves(self, new: InFlightRequest) -> bool:
        """Whether no request of the group takes away what is above the paths of a new one, and the new one not what is above theirs."""
        if not self.takes_away and not takes_away(new.request):
            return True
        return not any([disturbs(new.request, old.request) or disturbs(old.request, new.request) for old in self.requests])


class Window:
    """The groups that are under way, in order.

    The volume keeps the replies to a client's last four requests. Where a conversation is lost, nothing else is known of an older one than
    that it is committed: whether it was done is asked of the tree. So more than four are under way only where the tree shows that of each
    (`together`).
    """

    def __init__(self) -> None:
        self.groups: Deque[Group] = deque()

    def __len__(self) -> int:
        return sum(map(len, self.groups))

    def requests(self) -> List[InFlightRequest]:
        return [request for group in self.groups for request in group.requests]

    def take(self, group: Group, request: InFlightRequest) -> bool:
        """Adds a request to a group that is to be sent, where there is room for it."""
        together = [*self.groups, group]
        shown = request.is_shown and is_shown_beside(request, together)
        if shown and all([other.shown for other in together]):
            fits = len(group) < GROUP_REQUESTS and group.size + len(request.operation.data) <= GROUP_BYTES
        else:
            fits = len(group) < FEW_REQUESTS and len(self) + len(group) < limits.REPLIES
        if fits:
            group.add(request, shown)
        return fits

    def pop(self) -> InFlightRequest:
        """Takes out the first request, once all its answers came."""
        request = self.groups[0].pop()
        if not self.groups[0]:
            self.groups.popleft()
        return request


def is_shown_beside(request: InFlightRequest, groups: Sequence[Group]) -> bool:
    """Whether the tree shows what became of a request also where those of groups are under way."""
    for path in request.paths:
        earlier = next((group.newest[path] for group in reversed(groups) if path in group.newest), None)
        if earlier is not None and not may_follow(request.request, earlier.request):
            return False
    return all([group.leaves(request) for group in groups])


class RequestQueue:
    """Operations as they come, of which the next are taken ahead, read and made requests, while the program is at work."""

    def __init__(self, operations: Iterator[Operation], client: int):
        self.operations = operations
        self.client = client
        self.ahead: Deque[InFlightRequest] = deque()

    def look_ahead(self, last: int) -> None:
        """Makes ready what is sent next, after the request of this number. Few are taken where more would have to wait for replies: what
        comes then may be other requests, such as those that give files their names."""
        while self._is_next_near() and self._take(last + len(self.ahead) + 1):
            pass

    def _is_next_near(self) -> bool:
        if len(self.ahead) < FEW_REQUESTS:
            return True
        size = sum([len(request.operation.data) for request in self.ahead])
        return len(self.ahead) < GROUP_REQUESTS and size < GROUP_BYTES and all([request.is_shown for request in self.ahead])

    def next(self, number: int, window: Window) -> Group:
        """The requests for which there is room, from this number on."""
        group = Group()
        while self.ahead or self._take(number):
            # After a conversation that was lost the next number may be another one.
            if self.ahead[0].number() != number:
                self.ahead[0] = InFlightRequest(self.ahead[0].operation, self.client, number)
            if not window.take(group, self.ahead[0]):
                break
            self.ahead.popleft()
            number += 1
        return group

    def _take(self, number: int) -> bool:
        operation = next(self.operations, None)
        if operation is None:
            return False
        self.ahead.append(InFlightRequest(operation, self.client, number))
        return True


def kept(requests: Iterable[InFlightRequest]) -> List[Reply]:
    """The replies to requests as the ledger keeps them: the tree agrees with each."""
    replies = [(request.number(), request.replied()) for request in requests]
    return [Reply(number, reply.code, reply.commit, True) for number, reply in replies]


def outcome(request: InFlightRequest) -> Outcome:
    """What the reply to a request says."""
    reply = request.replied()
    return Outcome(request.operation, reply.code, reply.commit, request.number())


__all__ = ["InFlightRequest", "GROUPS", "Group", "RequestQueue", "Window", "kept", "outcome"]
