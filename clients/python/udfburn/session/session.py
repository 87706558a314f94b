"""Requests that act once: numbered, kept in the ledger, sent, repeated where their replies did not come, and confirmed.

Requests go out as groups, each of which is one transaction of the ledger, with the replies to an earlier group. The requests of a group are
sent without waiting for one another: since a request that is not the client's next one is not committed, none is that comes after one that
is not. Trouble of any kind ends the conversation; what the ledger then has without a reply is finished by `recovery`. A new process begins
in the same way.
"""

from __future__ import annotations

from typing import Dict, Iterable, Iterator, List, Optional, Tuple

from ..base.errors import NotCommitted, ReplyNotKept
from ..ledger.ledger import Ledger
from ..ledger.records import KnownVolume, Reply
from ..protocol import CLIENTS_FULL, DAMAGED, FAULT, FULL, MEMORY, Answer, BadAnswer, Committed, Gap, Malformed, Stale, decode_answer
from ..wire.connection import Connection, Lost
from ..wire.operations import Operation, Outcome
from ..wire.retrying import RetryingConnection
from .conversation import Conversation
from .in_flight import GROUPS, InFlightRequest, Group, RequestQueue, Window, kept, outcome
from .recovery import Recovery


class Session:
    """Requests of one client to one volume."""

    def __init__(self, line: RetryingConnection, ledger: Ledger, shared: bool = False):
        self.line = line
        self.ledger = ledger
        self.conversation = Conversation(line, ledger, shared)
        self.recovery = Recovery(line, ledger, self.conversation)

    def volume(self) -> KnownVolume:
        """The volume, once a connection was made."""
        return self.conversation.volume()

    def forget(self) -> List[str]:
        """Drops what is pending at this endpoint, and asks again which number the volume knows; returns the dropped paths."""
        return self.recovery.forget()

    def recover(self) -> Dict[int, Committed]:
        """Finishes what has no reply, and gives the replies by number. They are in the ledger then, and the tree agrees with them."""
        return self.recovery.run()

    def run(self, operations: Iterable[Operation]) -> Iterator[Outcome]:
        """Does operations in order, and gives each one's outcome once its reply is in the ledger and confirmed."""
        with self.line.claim():
            yield from self._run(RequestQueue(iter(operations), self.ledger.client))

    def _run(self, queue: RequestQueue) -> Iterator[Outcome]:
        self.recover()
        window = Window()
        finished: List[InFlightRequest] = []
        try:
            while True:
                if not window and self.line.over():
                    # Kept before the next conversation begins, since it may be the last one.
                    self._keep(finished, Group())
                    yield from map(outcome, finished)
                    finished = []
                    self.line.drop()
                connection = self.line.get()
                fresh = self._next(queue, window, finished)
                self._keep(finished, fresh)
                if fresh:
                    window.groups.append(fresh)
                sent = self._sent(connection, fresh)
                yield from map(outcome, finished)
                finished = []
                if not window:
                    return
                if fresh and len(window.groups) < GROUPS and sent:
                    continue
                if sent:
                    queue.look_ahead(window.groups[-1].requests[-1].number())
                finished, troubled = self._received(connection, window, sent)
                if troubled:
                    yield from self._recovered(finished, window)
                    finished = []
        finally:
            if window or finished:
                self.line.drop()

    def _next(self, queue: RequestQueue, window: Window, finished: List[InFlightRequest]) -> Group:
        """Requests that there is room for, under the next numbers. None where others are to get their turn."""
        if len(window.groups) == GROUPS or window and self.line.over():
            return Group()
        last = window.groups[-1].requests[-1] if window else finished[-1] if finished else None
        number = last.number() if last else self.ledger.latest(self.conversation.volume())
        return queue.next(number + 1, window)

    def _keep(self, finished: List[InFlightRequest], fresh: Group) -> None:
        """Makes replies and new requests durable, in one."""
        self.ledger.record(self.conversation.volume(), kept(finished), [request.pending for request in fresh.requests])
        self.recovery.replied(finished)
        self.recovery.sent(fresh.requests)

    def _sent(self, connection: Connection, fresh: Group) -> bool:
        """Sends requests with their questions. Whether the conversation lasted."""
        try:
            connection.send(*[piece for request in fresh.requests for piece in request.frames])
            return True
        except Lost:
            connection.rest()
            return False

    def _received(self, connection: Connection, window: Window, lasts: bool) -> Tuple[List[InFlightRequest], bool]:
        """Takes the requests out of the window whose answers came, at least a group; and whether there was trouble. Of a conversation that
        does not last there is only what came before."""
        finished: List[InFlightRequest] = []
        wanted = len(window.groups[0])
        try:
            payload: Optional[bytes] = connection.payload() if lasts else connection.ready()
            while payload is not None:
                request = window.groups[0].requests[0]
                if request.reply is None:
                    reply = decode_answer(payload)
                    if not isinstance(reply, Committed):
                        self._check_kind(reply)
                        return finished, True
                    request.reply = reply
                else:
                    request.said.append(payload)
                    if len(request.said) == len(request.paths):
                        self._check(request, request.reply, finished)
                        finished.append(window.pop())
                        self.line.patience.progress()
                payload = connection.ready() if window else None
                if payload is None and lasts and len(finished) < wanted:
                    payload = connection.payload()
        except Lost:
            return finished, True
        return finished, not lasts

    def _check_kind(self, answer: Answer) -> None:
        """Raises where an answer is none to a request."""
        bare = (FAULT, MEMORY, FULL, CLIENTS_FULL, DAMAGED)
        if answer not in bare and not isinstance(answer, (Gap, Stale, Malformed)):
            raise BadAnswer(f"{answer!r} is no answer to a request")

    def _check(self, request: InFlightRequest, reply: Committed, finished: List[InFlightRequest]) -> None:
        """Raises where the tree does not have what a reply says."""
        self.conversation.check_commit(reply)
        if not request.agrees(reply):
            self._keep(finished, Group())
            self.ledger.record(self.conversation.volume(), [Reply(request.number(), reply.code, reply.commit, False)], [])
            raise self.recovery.foreign(request.request.path, decode_answer(request.said[0]))

    def _recovered(self, finished: List[InFlightRequest], window: Window) -> Iterator[Outcome]:
        """Finishes what was under way when trouble came, and gives the outcomes."""
        self.line.drop()
        self._keep(finished, Group())
        yield from map(outcome, finished)
        requests = window.requests()
        error: "NotCommitted | ReplyNotKept | None" = None
        window.groups.clear()
        self.recovery.heard(requests[:1])
        try:
            replies = self.recover()
        except (NotCommitted, ReplyNotKept) as failed:
            replies, error = failed.replies, failed
        for request in requests:
            reply = replies.get(request.number())
            if reply is not None:
                yield Outcome(request.operation, reply.code, reply.commit, request.number())
        if error is not None:
            raise error


__all__ = ["Session"]
