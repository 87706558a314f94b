"""Requests without a reply, and what the tree has to say to a reply."""

from __future__ import annotations

import os
import unittest
from typing import Set

from udfburn.base import errors as e
from udfburn import protocol as p
from udfburn.protocol.units import Commit, Moment
from udfburn.wire.operations import Operation
from udfburn.session.in_flight import InFlightRequest

from .model import Volume
from .server import request_of
from .with_server import WithServer, creates


class Agreement(unittest.TestCase):
    def test_a_refusal_beside_the_tree_of_what_was_done(self) -> None:
        """The file is there as it was sent: it is no reply to this that it has no parent, or is not found."""
        flight = InFlightRequest(Operation(p.Create, ("a",), Moment(5), b"x"), 7, 1)
        flight.said = [p.encode_answer(p.Node(p.NodeKind.FILE, Moment(5), 1))]
        for code in (p.Code.DONE, p.Code.EXISTS):
            self.assertTrue(flight.agrees(p.Committed(code, Commit(1))), code)
        for code in (p.Code.NO_PARENT, p.Code.NOT_FOUND, p.Code.IS_DIRECTORY, p.Code.NOT_EMPTY):
            self.assertFalse(flight.agrees(p.Committed(code, Commit(1))), code)


class Pending(WithServer):
    def refuse(self) -> None:
        """Has the drive fail for each request."""
        self.server.before = lambda payload: p.FAULT if request_of(payload) else None

    def test_each_reply_ends_a_wait(self) -> None:
        """Four that fail once each are repeated, however little patience there is with one."""
        client = self.client(patience=0.03)
        self.refuse()
        with client, self.assertRaises(e.DriveFailed):
            list(client.run(creates(4)))
        client = self.client(patience=0.03)
        failed: Set[int] = set()

        def before(payload: bytes) -> "p.Answer | None":
            request = request_of(payload)
            if request is None or request.number in failed:
                return None
            failed.add(request.number)
            return p.FAULT

        self.server.before = before
        self.assertEqual([number for number, *_ in client.resume()], [1, 2, 3, 4])
        self.assertEqual((failed, self.volume.commits), ({1, 2, 3, 4}, 4))

    def test_a_volume_that_is_damaged_meanwhile(self) -> None:
        """The request stays pending, and is done once the volume can be read again."""
        client = self.client(patience=0.1)
        self.refuse()
        with client, self.assertRaises(e.DriveFailed):
            client.create("/a", b"")
        client = self.client()
        self.server.before = lambda payload: p.DAMAGED if request_of(payload) else None
        self.assertRaises(e.Damaged, client.resume)
        self.server.before = lambda payload: None
        self.assertEqual(client.resume(), [(1, "/a", p.Code.DONE, 1)])

    def test_some_replies_are_others(self) -> None:
        """A copy of the volume went on where some of them are the ledger's; where none is, it may be another volume as well."""
        for kept, kind, told in ((2, e.CopyWentOn, "this is a copy that went on by itself .*Found: number 3"), (0, e.OtherVolume, "this is another volume, or a copy")):
            self.server.volume = Volume()
            client = self.client(os.path.join(self.room, f"{kept}.sqlite"))
            list(client.run(creates(3)))
            number = client.session().ledger.client
            replies = self.volume.clients[number][1]
            self.volume.clients[number] = (3, [p.Committed(p.Code.DONE, Commit(9)), *(replies[1:] if kept else [p.Committed(p.Code.DONE, Commit(8)), p.Committed(p.Code.DONE, Commit(7))])])
            self.assertRaisesRegex(kind, told, client.create, "/more", b"")

    def test_what_is_forgotten_is_not_pending(self) -> None:
        """Neither where the volume is the same, nor where another one has come in its place."""
        for name, other in (("/a", False), ("/b", True)):
            client = self.client(patience=0.1)
            client.create(f"{name} before", b"")
            self.refuse()
            with self.assertRaises(e.DriveFailed):
                client.create(name, b"")
            ledger, known = client.session().ledger, client.session().volume()
            self.assertEqual([waiting.path for waiting in ledger.pending(known)], [name])
            self.server.before = lambda payload: None
            if other:
                self.server.volume = Volume()
            self.assertEqual(client.forget(), [name])
            self.assertEqual(client.session().volume().id == known.id, not other)
            self.assertEqual(ledger.pending(known), [])
            client.close()

    def test_a_conversation_is_begun_anew_to_forget(self) -> None:
        client = self.client()
        with client.held():
            client.create("/a", b"")
            before = self.server.conversations
            self.assertEqual(client.forget(), [])
            self.assertEqual(self.server.conversations, before + 1)
            self.assertEqual(client.create("/b", b""), 2)


if __name__ == "__main__":
    unittest.main()
