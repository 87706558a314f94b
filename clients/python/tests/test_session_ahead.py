"""What a session makes ready while requests are under way, and which go out as one group."""

from __future__ import annotations

import unittest
from typing import Iterator, List, Tuple
from unittest import mock

from udfburn import protocol as p
from udfburn.base import errors as e
from udfburn.protocol.units import Moment
from udfburn.session.in_flight import Group, InFlightRequest, Window
from udfburn.wire.connection import Connection
from udfburn.wire.operations import Operation

from .model import Volume
from .server import is_probe, request_of
from .with_server import WithServer, await_true, creates


def renames(count: int) -> List[Operation]:
    """Requests of which the tree does not show what became: there is no digest of what they rename."""
    return [Operation(p.Rename, (f"f{index}",), Moment(1), to=(f"g{index}",)) for index in range(count)]


class Ahead(WithServer):
    """Operations that are taken before there is room for them."""

    def test_the_next_are_taken_while_the_server_is_at_work(self) -> None:
        taken: List[int] = []
        ahead: List[int] = []

        def operations(wanted: List[Operation]) -> Iterator[Operation]:
            taken.clear()
            for index, operation in enumerate(wanted):
                taken.append(index + 1)
                yield operation

        def at_work(wanted: List[Operation], first: int, beyond: int) -> None:
            """Each request waits until so many after it are taken."""
            ahead.clear()

            def before(payload: bytes) -> None:
                request = request_of(payload)
                # All before it are answered, so that nothing but the taking is waited for.
                if request:
                    number = request.number - first
                    await_true(lambda: len(taken) >= min(number + beyond, len(wanted)))
                    ahead.append(len(taken) - number)

            self.server.before, self.server.together = before, False
            with self.client() as client:
                self.assertEqual([outcome.number - first for outcome in client.run(operations(wanted))], list(range(1, len(wanted) + 1)))

        # Of two groups of 30 the first is at work, at most a third is made ready, and one more was looked at.
        at_work(creates(200), 0, 60)
        self.assertIn(max(ahead), range(60, 91))
        # And of two groups of two: few are made ready, so that what depends on outcomes comes soon after them.
        at_work(renames(40), 200, 4)
        self.assertIn(max(ahead), range(4, 6))

    def groups(self, operations: List[Operation], answers: int = 10 + 23) -> List[int]:
        """The requests of each group that went out, and below 0 those that were finished after it. The answers come in pieces of this size."""
        steps: List[int] = []
        client = self.client()
        session = client.session()
        send, receive = session._sent, session._received

        def sent(connection: Connection, fresh: Group) -> bool:
            steps.append(len(fresh))
            return send(connection, fresh)

        def received(connection: Connection, window: Window, lasts: bool) -> Tuple[List[InFlightRequest], bool]:
            finished, troubled = receive(connection, window, lasts)
            steps.append(-len(finished))
            return finished, troubled

        with client, self.direct(client, answers), mock.patch.object(session, "_sent", sent), mock.patch.object(session, "_received", received):
            self.assertEqual(len(list(client.run(operations))), len(operations))
        return [step for step in steps if step]

    def test_a_group_goes_out_while_another_is_under_way(self) -> None:
        """So the server is at work while replies are kept: it never has to wait for all of both."""
        self.assertEqual(self.groups(creates(150)), [30, 30, -30, 30, -30, 30, -30, 30, -30, -30])
        self.assertEqual(self.groups(renames(7), 10 + 6 + 6), [2, 2, -2, 2, -2, 1, -2, -1])
        removals = [Operation(p.Remove, (f"f{index}",), Moment(1)) for index in range(40)]
        self.assertEqual(self.groups(removals, 10 + 6), [30, 10, -30, -10])

    def test_groups_of_large_files(self) -> None:
        """Eight mebibytes of data, as eight requests of the greatest size are; whatever is larger than the rest of it waits."""
        large = [Operation(p.Create, (f"g{index}",), Moment(1), bytes(p.limits.FILE)) for index in range(18)]
        self.assertEqual(self.groups(large), [8, 8, -8, 2, -8, -2])
        mixed = [Operation(p.Create, (f"h{index}",), Moment(1), bytes(p.limits.FILE - index % 2)) for index in range(9)] + creates(30)
        self.assertEqual(self.groups(mixed), [8, 30, -8, 1, -30, -1])

    def test_another_volume_between_two_turns(self) -> None:
        """Nothing is sent to it: what was acknowledged before is not there."""
        client, first = self.client(), self.volume

        def before(payload: bytes) -> None:
            if is_probe(payload) and payload[9:17] == b"\xff" * 8 and first.commits == 60:
                self.server.volume = Volume()

        self.server.before = before
        done: List[p.Path] = []
        # Each turn is over at once, also by a clock that stands still.
        with mock.patch("udfburn.wire.retrying.TURN", -1.0), self.assertRaisesRegex(e.EmptyVolume, "empty .*up to 60 .*--forget"):
            done.extend(outcome.operation.path for outcome in client.run(creates(100)))
        self.assertEqual(done, [(f"f{index}",) for index in range(60)])
        self.assertEqual((first.commits, self.volume.commits), (60, 0))


if __name__ == "__main__":
    unittest.main()
