"""Which volume is it? What is at an endpoint is compared with what the ledger has of it, before any request is sent.

Over a conversation a volume says this client's latest number, the replies that it keeps, and the nodes at paths. A repeat is known by
client and number alone, so each kept reply is asked for by a removal of the root under its number: it commits nothing, and would be
refused if it did. Of an image the label, the moment of the format and the chain of commits are read too (`udfburn.image.identity`).
"""

from __future__ import annotations

from typing import Dict, List, NamedTuple, Optional, Sequence, Tuple

from ..base.errors import (
    DAMAGE, CopyWentOn, Damaged, EmptyVolume, LedgerError, NumberUsedElsewhere, OtherVolume, VolumeBehind,
)
from ..image.identity import Looked
from ..ledger.ledger import Ledger
from ..ledger.records import KnownVolume, Sent
from ..protocol import (
    DAMAGED, FAULT, MEMORY, Answer, BadAnswer, Code, Committed, Gap, Message, Node, Path, Remove, Stale, Stat, encode_message, frame,
    limits, printed, shown,
)
from ..protocol.units import Commit, Moment
from ..wire.connection import Connection, Lost
from ..wire.operations import Deed, Expected, after_all

FORGET = "If this volume is meant, 'resume --forget' goes on with it; then 'verify' what is there"


class ClientState(NamedTuple):
    """What a volume says of a client: its latest number, and the replies that are kept, by number."""

    latest: int
    replies: Dict[int, Committed]

    def pairs(self) -> Dict[int, Tuple[int, Commit]]:
        """Codes and commits of the replies."""
        return {number: (int(reply.code), reply.commit) for number, reply in self.replies.items()}


def exchange(connection: Connection, messages: Sequence[Message]) -> List[Answer]:
    """The answers to messages, or `Lost` where the program is troubled."""
    connection.send(*[frame(encode_message(message)) for message in messages])
    answers = [connection.answer() for _ in messages]
    for answer in answers:
        if answer in (FAULT, MEMORY):
            raise Lost("the drive fails" if answer == FAULT else "the program has no memory")
        if answer == DAMAGED:
            raise Damaged(DAMAGE)
    return answers


def see(connection: Connection, client: int) -> ClientState:
    """Asks for a client's latest number, and then for its kept replies.

    The greatest number of all is no client's next one, so it is answered with the latest and commits nothing. Only then is it known
    which numbers are repeats.
    """
    (answer,) = exchange(connection, [Remove(client, limits.U64, Moment(0), ())])
    if not isinstance(answer, (Gap, Stale)):
        raise BadAnswer(f"{answer!r} is no answer to a number that is not the next")
    latest = answer.latest
    numbers = range(max(1, latest - limits.REPLIES + 1), latest + 1)
    replies: Dict[int, Committed] = {}
    for number, reply in zip(numbers, exchange(connection, [Remove(client, number, Moment(0), ()) for number in numbers])):
        if isinstance(reply, Committed):
            replies[number] = reply
        # A volume whose sessions are of version 1 keeps the last reply alone.
        elif not isinstance(reply, Stale) or number == latest:
            raise BadAnswer(f"{reply!r} is no answer to number {number}, which is not above the latest, {latest}")
    return ClientState(latest, replies)


class Recognizer:
    """Compares volumes of a ledger with what is at the other end of a conversation."""

    def __init__(self, ledger: Ledger, way: str, connection: Connection, seen: ClientState, image: Optional[Looked], shared: bool):
        self.ledger = ledger
        self.connection = connection
        self.seen = seen
        self.image = image
        self.shared = shared
        self.where = f"{ledger.path}, client {ledger.client}, {way}"

    def fault(self, volume: KnownVolume) -> Optional[LedgerError]:
        """Why this is not the volume; None where all agrees."""
        return (
            self._identity(volume) or self._numbers(volume) or self._replies(volume)
            or (None if self.shared or self._proved(volume) else self._nodes(volume))
        )

    def has_evidence(self, volume: KnownVolume) -> bool:
        """Whether some reply of the volume is the ledger's: that nothing differs is no proof where there is nothing."""
        return bool(self._known_replies(volume))

    # ---- the image

    def _identity(self, volume: KnownVolume) -> Optional[LedgerError]:
        if self.image is None or volume.identity is None or volume.mark is None:
            return None
        if self.image.identity != volume.identity:
            return self.error(OtherVolume, "another volume", str(volume.identity), str(self.image.identity))
        if self.image.commit < volume.mark.commit:
            kind = VolumeBehind if self.image.commit else EmptyVolume
            what = "an older copy" if self.image.commit else "an empty volume"
            return self.error(kind, what, str(volume.mark), f"commit {self.image.commit} as the last one")
        found = self.image.at(volume.mark.commit)
        if found == volume.mark:
            return None
        what = "a copy that went on by itself, or another volume"
        if found is not None and found.address == volume.mark.address:
            what += ", or a block of this commit has changed ('udfburn-client check --data' finds it)"
        return self.error(CopyWentOn, what, str(volume.mark), str(found or "none"))

    def _proved(self, volume: KnownVolume) -> bool:
        """Whether the image has the last commit that the ledger knows, block by block. Then other clients changed what is different."""
        mark = volume.mark if self.image is not None else None
        return mark is not None and mark.commit >= self.ledger.last_commit(volume) > 0

    # ---- numbers and replies

    def _numbers(self, volume: KnownVolume) -> Optional[LedgerError]:
        latest = self.seen.latest
        last = max([volume.latest] + [waiting.number for waiting in self.ledger.pending(volume)])
        if latest > last:
            return NumberUsedElsewhere(
                f"the volume has requests up to {latest} of this client, and this ledger sent {last} ({self.where}): another ledger"
                " with the same client was used, or this one is an old copy. Use a new ledger with a client of its own"
                " (--ledger FILE), or, if this is the only one left, 'resume --forget'; then 'verify' what is there"
            )
        if latest >= volume.latest:
            return None
        expected = f"requests up to {volume.latest} of this client, which were acknowledged"
        if latest:
            return self.error(VolumeBehind, "another volume, or an older copy of it", expected, f"requests up to {latest}")
        (root,) = exchange(self.connection, [Stat(())])
        empty = isinstance(root, Node) and not root.size
        what = "an empty volume in the place of a full one" if empty else "another volume, or a copy from before its first request"
        return self.error(EmptyVolume if empty else OtherVolume, what, expected, "none")

    def _known_replies(self, volume: KnownVolume) -> Dict[int, Tuple[int, Commit]]:
        """Code and commit of each reply that the ledger has and the volume keeps."""
        known = self.ledger.found(volume)
        for sent in self._last(volume):
            if sent.code is not None and sent.commit is not None:
                known[sent.number] = (sent.code, sent.commit)
        return {number: reply for number, reply in known.items() if number in self.seen.replies}

    def _replies(self, volume: KnownVolume) -> Optional[LedgerError]:
        known, found = self._known_replies(volume), self.seen.pairs()
        wrong = [number for number, reply in sorted(known.items()) if found[number] != reply]
        if not wrong:
            return None
        kind = CopyWentOn if len(wrong) < len(known) else OtherVolume
        what = "a copy that went on by itself" if kind is CopyWentOn else "another volume, or a copy that went on by itself"
        return self.error(kind, what, told_replies(known, wrong), told_replies(found, wrong))

    def _last(self, volume: KnownVolume) -> List[Sent]:
        """The requests of the ledger whose replies the volume may keep."""
        return [sent for sent in self.ledger.sent(volume, self.seen.latest - limits.REPLIES) if sent.number <= self.seen.latest]

    def continues(self, front: KnownVolume, volume: KnownVolume) -> bool:
        """Whether a ledger of version 1 went on with one volume as the other: it began each where another one ended. Where it may have
        begun at two, that is not known."""
        others = {other.id: other for other in self.ledger.volumes() if other.unsettled and other.id != volume.id}
        at = volume
        while self.ledger.begun(at):
            before = [other for other in others.values() if other.latest == self.ledger.begun(at)]
            if len(before) != 1:
                return False
            at = others.pop(before[0].id)
            if at.id == front.id:
                return self._replies(front) is None
        return False

    # ---- nodes

    def _nodes(self, volume: KnownVolume) -> Optional[LedgerError]:
        wanted = self._wanted(volume)
        answers = exchange(self.connection, [Stat(path) for path in wanted])
        wrong = [(path, answer) for path, answer in zip(wanted, answers) if not wanted[path].agrees(answer)]
        if not wrong:
            return None
        expected = "; ".join(f"{printed(path)}: {wanted[path].text()}" for path, _ in wrong)
        found = "; ".join(f"{printed(path)}: {node_text(answer)}" for path, answer in wrong)
        what = "another volume or a copy that went on by itself, or another client has changed these paths since (then use --shared)"
        return self.error(OtherVolume if len(wrong) == len(wanted) else CopyWentOn, what, expected, found)

    def _wanted(self, volume: KnownVolume) -> Dict[Path, Expected]:
        """What the tree must have after the requests whose replies are kept. Of one that was not confirmed nothing is known."""
        deeds: List[Tuple[Deed, Optional[Code]]] = []
        for sent in self._last(volume):
            if sent.facts is None:
                # Whatever it did, it did after those before it.
                deeds = []
            else:
                deeds.append((sent.facts.deed, Code(sent.code) if sent.confirmed and sent.code is not None else None))
        return after_all(deeds)

    def error(self, kind: "type[LedgerError]", what: str, expected: str, found: str) -> LedgerError:
        """An error that says what this is, what was expected and what was found."""
        return kind(f"this is {what} ({self.where}). Expected: {expected}. Found: {found}. Nothing was sent to it. {FORGET}")


def told_replies(replies: Dict[int, Tuple[int, Commit]], numbers: List[int]) -> str:
    """Replies, as people read them."""
    return ", ".join(f"number {number}: {Code(replies[number][0]).name}, commit {replies[number][1]}" for number in numbers)


def node_text(answer: Answer) -> str:
    """What there is, as people read it."""
    found = Expected(True, answer.kind, answer.size, answer.moment) if isinstance(answer, Node) else Expected(False)
    return found.text()


def ways_text(ledger: Ledger, volume: KnownVolume) -> str:
    """The ways that lead to a volume."""
    return " and ".join(shown(way if isinstance(way, str) else way.decode(errors="surrogateescape")) for way in ledger.ways(volume))


class Meeting:
    """A way and what is at it: which volume of the ledger this is, or that it is a new one."""

    def __init__(self, recognizer: Recognizer, key: "str | bytes"):
        self.by = recognizer
        self.ledger = recognizer.ledger
        self.seen = recognizer.seen
        self.key = key

    def volume(self) -> KnownVolume:
        """The volume; raises where it is not the one that the ledger has here."""
        known = self.ledger.volume(self.key)
        if known is None:
            return self._identified(self._by_another_way())
        fault = self.by.fault(known)
        if fault is None:
            return self._identified(known)
        if not known.latest and not self.ledger.pending(known):
            # Nothing was acknowledged here, nor sent: whatever is here now takes nothing's place.
            return self._identified(self._by_another_way())
        if known.unsettled and isinstance(fault, NumberUsedElsewhere):
            return self._identified(self._settled(known, fault))
        raise self._as_another(known, fault)

    def anew(self) -> KnownVolume:
        """The volume that the user says is meant, whatever the ledger knows here: a known one, or a new one."""
        known = self.ledger.volume(self.key)
        if known is not None and self.by.fault(known) is None:
            return self._identified(self.ledger.take_over(known, self.seen.latest, self.seen.pairs()))
        others = self._agreeing(known)
        if len(others) == 1:
            return self._identified(self.ledger.bind(self.key, others[0]))
        return self._identified(self._learnt())

    def _identified(self, volume: KnownVolume) -> KnownVolume:
        """Keeps what the image says of itself."""
        image = self.by.image
        return volume if image is None else self.ledger.identify(volume, image.identity, image.newest())

    def _learnt(self) -> KnownVolume:
        return self.ledger.learn(self.key, self.seen.latest, self.seen.pairs())

    def _agreeing(self, but: Optional[KnownVolume]) -> List[KnownVolume]:
        """The volumes of the ledger with which all agrees, and something shows it."""
        others = [volume for volume in self.ledger.volumes() if but is None or volume.id != but.id]
        return [volume for volume in others if self.by.has_evidence(volume) and self.by.fault(volume) is None]

    def _by_another_way(self) -> KnownVolume:
        """The volume at an endpoint that the ledger does not know."""
        if not self.seen.latest or not self.ledger.volumes():
            return self._learnt()
        agreeing = self._agreeing(None)
        if len(agreeing) == 1:
            return self.ledger.bind(self.key, agreeing[0])
        if agreeing:
            ways = ", or ".join(ways_text(self.ledger, volume) for volume in agreeing)
            raise OtherVolume(
                f"this may be the volume at {ways}: all have the same requests of this client ({self.by.where}). Name it in one of these"
                " ways, or with --image, which distinguishes them. Nothing was sent to it"
            )
        raise self._unknown()

    def _unknown(self) -> LedgerError:
        """Why a volume with requests of this client is none that the ledger has."""
        image = self.by.image
        same = [volume for volume in self.ledger.volumes() if image is not None and volume.identity == image.identity]
        fault = self.by.fault(same[-1]) if same else None
        if fault is not None and not isinstance(fault, NumberUsedElsewhere):
            return fault
        return NumberUsedElsewhere(
            f"the volume has requests up to {self.seen.latest} of this client, and this ledger did not send them to it, nor to any volume"
            f" that has just these ({self.by.where}): it is an older copy of one, or another ledger with the same client was used, or other"
            f" clients have changed what this one stored (then use --shared). Nothing was sent to it. {FORGET}"
        )

    def _as_another(self, known: KnownVolume, fault: LedgerError) -> LedgerError:
        """The fault of the volume that the ledger has here; where another one of the ledger is here, what says so."""
        # Of those that a ledger of version 1 had, one may be the beginning of another.
        agreeing = [volume for volume in self._agreeing(known) if not volume.unsettled]
        if len(agreeing) != 1:
            return fault
        ways = ways_text(self.ledger, agreeing[0])
        which = f"the one that it knows at {ways}" if ways else "one that it knew elsewhere"
        if not isinstance(fault, NumberUsedElsewhere):
            return OtherVolume(f"this is not the volume that the ledger knows here, but {which}: {fault}")
        return self.by.error(
            OtherVolume, f"not the volume that the ledger knows here, but {which}", f"requests up to {known.latest} of this client",
            f"requests up to {self.seen.latest}",
        )

    def _settled(self, known: KnownVolume, fault: LedgerError) -> KnownVolume:
        """The volume of a way of which a ledger of version 1 has the beginning alone, since it went on by another way: there that
        ledger kept it as another volume."""
        agreeing = self._agreeing(known)
        if len(agreeing) != 1 or not self.by.continues(known, agreeing[0]):
            raise fault
        return self.ledger.bind(self.key, agreeing[0])


__all__ = ["ClientState", "Meeting", "Recognizer", "exchange", "see"]
