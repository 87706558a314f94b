"""Clients of a server whose conversations end anywhere, with many requests under way."""

from __future__ import annotations

import os
from typing import Callable, List, Optional, Tuple

from udfburn import Client
from udfburn import protocol as p
from udfburn.protocol.units import Moment
from udfburn.wire.operations import Operation

from .model import Volume
from .server import honestly, is_probe, request_of
from .with_server import WithServer

EARLIER = Moment(1000)


def tree(files: int) -> List[Operation]:
    """A folder in a folder, and files in both."""
    folders = [Operation(p.MakeDir, ("d",), EARLIER), Operation(p.MakeDir, ("d", "e"), EARLIER)]
    made = [Operation(p.Create, ("d", *["e"] * (index % 2), f"f{index}"), EARLIER, bytes(index)) for index in range(files)]
    return folders + made


class WithWindow(WithServer):
    """Clients whose conversations end, and what became of their requests."""

    def asked(self, volume: Volume, operations: List[Operation]) -> List[Tuple[p.Code, int]]:
        """What a volume answers to operations, one after another."""
        replies = [volume.answer(operation.request(1 << 40, number)) for number, operation in enumerate(operations, 1)]
        known = [(reply.code, int(reply.commit)) for reply in replies if isinstance(reply, p.Committed)]
        self.assertEqual(len(known), len(operations))
        return known

    def fresh(self, prepare: Callable[[Volume], None] = lambda volume: None) -> Client:
        """A client with a new ledger, and a new volume."""
        self.server.volume = Volume()
        prepare(self.server.volume)
        self.count = getattr(self, "count", 0) + 1
        return self.client(os.path.join(self.room, f"ledger{self.count}.sqlite"))

    def lost_after(self, answers: int) -> None:
        """The conversation ends after so many answers, once: what came in by then is carried out, and not answered."""
        left = [answers]

        def say(payload: bytes, answer: p.Answer) -> Optional[bytes]:
            if is_probe(payload) or left[0] < 0:
                return honestly(payload, answer)
            left[0] -= 1
            return honestly(payload, answer) if left[0] >= 0 else None

        self.server.say = say

    def carried_out_and_lost(self, requests: int, first: type = p.Request) -> None:
        """From the first request of this kind on the volume carries out so many, of which no answer comes, and then the conversation ends."""
        left, begun = [requests], [False]

        def say(payload: bytes, answer: p.Answer) -> Optional[bytes]:
            request = request_of(payload)
            begun[0] = begun[0] or isinstance(request, first)
            if left[0] <= 0 or not begun[0] or is_probe(payload):
                return honestly(payload, answer)
            left[0] -= request is not None
            return b"" if left[0] else None

        self.server.say = say

    def silent_for(self, requests: int, first: type, then: Callable[[], object] = lambda: None) -> None:
        """The same in one conversation, which ends also where no more comes; then something is done, and all is answered."""
        left: List[int] = []

        def say(payload: bytes, answer: p.Answer) -> Optional[bytes]:
            request = request_of(payload)
            if not left and isinstance(request, first):
                left.append(requests)
                self.server.ended = then
            if not left or not self.server.silent and left[0] < requests:
                return honestly(payload, answer)
            self.server.silent = True
            left[0] -= request is not None
            return b"" if left[0] else None

        self.server.say = say

    def silent_after(self, answers: int) -> None:
        """After so many answers all that comes is carried out and not answered, and then the conversation ends."""
        left = [answers]

        def say(payload: bytes, answer: p.Answer) -> Optional[bytes]:
            if self.server.silent:
                return b""
            if is_probe(payload) or left[0] < 0:
                return honestly(payload, answer)
            left[0] -= 1
            self.server.silent = left[0] < 0
            return b"" if self.server.silent else honestly(payload, answer)

        self.server.say = say

    def history(self, client: Client) -> List[Tuple[int, Optional[int], Optional[int], bool]]:
        session = client.session()
        return [(number, code, commit, sure) for number, _, code, commit, sure in session.ledger.history(session.volume())]
