"""What the ledger has pending: asked for, or sent again one by one, until it is known of each request what became of it, and the tree
agrees."""

from __future__ import annotations

from typing import Dict, Iterable, List, Optional, Set, Tuple

from ..base.errors import DAMAGE, ClientsFull, Damaged, ForeignReply, Full, NotCommitted, NumberUsedElsewhere, Rejected, ReplyNotKept
from ..ledger.ledger import Ledger
from ..ledger.records import GIVEN_UP, NOT_KEPT, Facts, KnownVolume, Pending, Reply
from ..local.sources import SourcesAgain
from ..protocol import (
    CLIENTS_FULL, DAMAGED, FAULT, FULL, MEMORY, Answer, BadAnswer, Code, Committed, Gap, Malformed, Path, Remove, Stale, Stat, decode_message,
    encode_message, frame, limits, printed, show,
)
from ..protocol.units import Moment
from ..wire.connection import Connection, Lost
from ..wire.operations import Deed, Origin, after_all, deed_of
from ..wire.retrying import RetryingConnection
from .conversation import Conversation
from .in_flight import InFlightRequest
from .recognition import see
from .shown import Shown

Done = Dict[int, Tuple[Deed, Committed]]
"""What was done of pending requests, by their numbers."""

Gone = Dict[int, Tuple[Deed, str]]
"""The requests of which it is not known whether they were done, with the paths that they were to change, by their numbers."""


class Recovery:
    """Requests without a reply, whose conversation was lost or whose process has ended."""

    def __init__(self, line: RetryingConnection, ledger: Ledger, conversation: Conversation):
        self.line = line
        self.ledger = ledger
        self.conversation = conversation
        self.data: Dict[int, Tuple[Facts, bytes]] = {}
        """What requests without a reply asked for, of which the ledger has no data, and that data, by their numbers."""
        self.not_stored: Dict[int, str] = {}
        """The paths of requests that were not committed before their data was gone, by their numbers."""
        self._shown = Shown(self.data, line.patience.progress)
        self._sources = SourcesAgain()
        # The paths of which the tree has what replies say, so that a conversation that is lost meanwhile takes nothing of that away.
        self._agreed: Set[Path] = set()

    def _volume(self) -> KnownVolume:
        return self.conversation.volume()

    def forget(self) -> List[str]:
        """Drops what is pending at this endpoint, and asks again which number the volume knows; returns the dropped paths."""
        known = self.ledger.volume(self.conversation.key)
        waiting = self.ledger.pending(known) if known else []
        self.data.clear()
        self.conversation.anew()
        # Not before, since where the volume cannot be asked nobody would learn what was dropped.
        if known and known.id != self._volume().id:
            self.ledger.withdraw(known)
        return [pending.path for pending in waiting]

    def sent(self, requests: Iterable[InFlightRequest]) -> None:
        """Keeps the data of requests that are about to be sent, as far as the ledger has it not."""
        for request in requests:
            facts = request.pending.facts
            if request.pending.origin is not None and facts is not None:
                self.data[request.number()] = facts, request.operation.data

    def replied(self, requests: Iterable[InFlightRequest]) -> None:
        """Drops the data of requests whose replies are in the ledger."""
        for request in requests:
            self.data.pop(request.number(), None)

    def heard(self, requests: Iterable[InFlightRequest]) -> None:
        """Keeps replies that came before a conversation was lost, and which the tree was not compared with yet."""
        self._shown.heard.update({request.number(): request.reply for request in requests if request.reply is not None})

    def run(self) -> Dict[int, Committed]:
        """Finishes what has no reply, and gives the replies by number. They are in the ledger then, and the tree agrees with them."""
        try:
            return self._run()
        except BaseException:
            # Whoever is interrupted has an answer to come, which is none to what is asked next.
            self.line.drop()
            raise
        finally:
            self._shown = Shown(self.data, self.line.patience.progress)
            self._sources.close()
            self._agreed = set()

    def _run(self) -> Dict[int, Committed]:
        known = self.ledger.volume(self.conversation.key)
        if known is None or not self.ledger.pending(known):
            return {}
        done: Done = {}
        gone: Gone = {}
        asked: Optional[Connection] = None
        while True:
            try:
                connection = self.line.get()
                waiting = self.ledger.pending(self._volume())
                if len(waiting) > limits.REPLIES and asked is not connection:
                    # The replies to some may not be kept: before others are sent, since these take the places of those that are.
                    asked = connection
                    self._settle(connection, waiting, done, gone)
                    continue
                if waiting:
                    self._repeat(connection, waiting[0], done)
                    continue
                self._confirm(connection, done, gone)
                return self._all(done, gone)
            except Lost as lost:
                self.line.lost(str(lost))
            except NotCommitted as error:
                error.replies = self._confirmed_despite(done, gone)
                raise

    def _all(self, done: Done, gone: Gone) -> Dict[int, Committed]:
        """The replies by number; raises where it is not known of some request that it was done."""
        replies = {number: reply for number, (_, reply) in done.items()}
        if gone:
            paths = dict.fromkeys(path for _, path in gone.values())
            error = ReplyNotKept(
                f"{', '.join(paths)}: not known to be done. The conversation was lost, the volume has the requests and not their replies any more, and"
                " the tree does not have what they asked for: they were refused, or another client has changed it since. Nothing local was"
                " deleted because of them. Run the same command again"
            )
            error.replies = replies
            raise error
        return replies

    def _settle(self, connection: Connection, waiting: List[Pending], done: Done, gone: Gone) -> None:
        """Keeps what became of the requests that the volume has."""
        seen = see(connection, self.ledger.client)
        committed = [pending for pending in waiting if pending.number <= seen.latest]
        if not committed:
            return
        found = self._shown.settled(connection, committed, seen)
        kept: List[Reply] = []
        for pending in committed:
            reply = found.replies.get(pending.number)
            if reply is not None:
                self.conversation.check_commit(reply)
                # Of what the tree was asked it has agreed.
                kept.append(Reply(pending.number, reply.code, reply.commit, self._shown.there.get(pending.number, False)))
                done[pending.number] = deed_in(pending), reply
                if pending.origin == GIVEN_UP and reply.code is Code.ROOT:
                    self.not_stored[pending.number] = pending.path
            else:
                kept.append(Reply(pending.number, NOT_KEPT, found.gone[pending.number], False))
                deed = deed_in(pending)
                gone[pending.number] = deed, show(deed.to or deed.path)
        self.ledger.record(self._volume(), kept, [])
        for pending in committed:
            self.data.pop(pending.number, None)
        self.line.patience.progress()

    def _repeat(self, connection: Connection, waiting: Pending, done: Done) -> None:
        """Sends a request again, and keeps its reply. One whose data is gone is never sent: a removal of the root takes its number, which
        changes nothing. Where the volume has the request already the reply is that of the request."""
        payload = self._payload(waiting)
        if payload is None:
            self._give_up(waiting)
        connection.send(frame(payload or encode_message(Remove(self.ledger.client, waiting.number, Moment(0), ()))))
        answer = connection.answer()
        if self.line.troubled(answer):
            return
        if isinstance(answer, Committed):
            self.conversation.check_commit(answer)
            self.ledger.record(self._volume(), [Reply(waiting.number, answer.code, answer.commit, False)], [])
            self.data.pop(waiting.number, None)
            self.line.patience.progress()
            if payload is None and answer.code is Code.ROOT:
                self.not_stored[waiting.number] = waiting.path
            done[waiting.number] = deed_in(waiting), answer
            return
        self._not_committed(answer, waiting)

    def _payload(self, waiting: Pending) -> Optional[bytes]:
        """The payload of a request, byte for byte as it was sent; None where its data is gone, or is other data by now."""
        if waiting.origin is None:
            return waiting.payload
        facts = waiting.facts
        if facts is None:
            raise RuntimeError(f"the ledger does not know what request {waiting.number} asks for")
        sent, data = self.data.get(waiting.number, (None, None))
        if sent != facts:
            data = self._data_again(waiting.origin, facts)
        return None if data is None else waiting.payload + data

    def _data_again(self, origin: Origin, facts: Facts) -> Optional[bytes]:
        """The data of a request from its local file; None where that is another file by now, or it is not known what the file was."""
        if origin == GIVEN_UP or facts.sha256 is None:
            return None
        count = facts.deed.data_size()
        return self._sources.data(origin, facts.deed.size - count, count, facts.sha256)

    def _give_up(self, waiting: Pending) -> None:
        """Gives up the data of a request and, since the file is not the one that was stored, of those after it from the same file: else
        a file in parts would lack one in its middle."""
        same = [other for other in self.ledger.pending(self._volume()) if other.origin is not None and waiting.origin is not None
                and other.origin.local == waiting.origin.local]
        self.ledger.give_up(self._volume(), same)

    def _not_committed(self, answer: Answer, waiting: Pending) -> None:
        """Raises what an answer means that is no reply. What is known to be committed never gives its number back."""
        if answer == DAMAGED:
            raise Damaged(DAMAGE)
        if isinstance(answer, (Gap, Stale)):
            raise NumberUsedElsewhere(
                f"number {waiting.number} of client {self.ledger.client} is not its next one, the volume knows {answer.latest}:"
                " another ledger with the same client is in use. Use a new ledger with a client of its own (--ledger FILE)"
            )
        if answer not in (FULL, CLIENTS_FULL) and not isinstance(answer, Malformed):
            raise BadAnswer(f"{answer!r} is no answer to a request")
        gone = ", ".join(pending.path for pending in self.ledger.withdraw(self._volume()))
        if isinstance(answer, Malformed):
            raise Rejected(f"{waiting.path}: the program calls the request malformed, {int(answer.cause)} {answer.cause.name}")
        if answer == FULL:
            raise Full(f"the medium has no room for {waiting.path}, and nothing was written of it (not stored: {gone})."
                       " Smaller files may still fit; otherwise use another image")
        raise ClientsFull(
            f"the volume has its {limits.CLIENTS} clients, which it keeps for its life: use the ledger of a client that it knows"
            " (--ledger FILE, or --client with a new ledger if the old one is lost), or another image"
        )

    def _confirm(self, connection: Connection, done: Done, gone: Gone) -> None:
        """Sees that the tree has what replies say that came after a lost conversation, as far as no other request has changed it of which
        that is not known."""
        deeds: Dict[int, Tuple[Deed, Optional[Code]]] = {number: (deed, None) for number, (deed, _) in gone.items()}
        deeds.update({number: (deed, reply.code) for number, (deed, reply) in done.items()})
        wanted = after_all([deeds[number] for number in sorted(deeds)])
        for path, expected in wanted.items():
            if path in self._agreed:
                continue
            connection.send(frame(encode_message(Stat(path))))
            answer = connection.answer()
            if answer in (FAULT, MEMORY):
                raise Lost("the program failed")
            if not expected.agrees(answer):
                raise self.foreign(path, answer)
            self._agreed.add(path)
            self.line.patience.progress()
        self.ledger.confirm(self._volume(), done)

    def _confirmed_despite(self, done: Done, gone: Gone) -> Dict[int, Committed]:
        """The replies that came before a request which was not committed, where the tree agrees with them."""
        while True:
            try:
                self._confirm(self.line.get(), done, gone)
                return {number: reply for number, (_, reply) in done.items()}
            except Lost as lost:
                self.line.lost(str(lost))

    def foreign(self, path: Path, answer: Answer) -> ForeignReply:
        return ForeignReply(
            f"{printed(path)}: a reply says what the tree does not have ({answer!r}): it is the reply of another ledger with"
            f" client {self.ledger.client}, or somebody else has changed the path since. Nothing local was deleted because of it."
            " Compare with 'verify'; if another ledger has this client, use a new one (--ledger FILE)"
        )


def deed_in(waiting: Pending) -> Deed:
    """What a request does that has no reply yet."""
    if waiting.facts is not None:
        return waiting.facts.deed
    return deed_of(decode_message(waiting.payload))  # type: ignore[arg-type]


__all__ = ["Recovery"]
