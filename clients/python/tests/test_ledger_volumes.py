"""Volumes and ledgers that do not belong together: another volume, an older copy, one that two ways lead to; and what a ledger has at each
moment."""

from __future__ import annotations

import os
import sqlite3
import unittest
from contextlib import closing
from typing import List, Optional, Tuple

from udfburn import Client
from udfburn import protocol as p
from udfburn.base import errors as e
from udfburn.ledger.ledger import Pending, Reply
from udfburn.ledger.records import facts_of
from udfburn.protocol.units import Commit, Moment
from udfburn.wire.operations import Operation

from .model import File, Volume
from .server import Server, request_of
from .with_server import WithServer, creates


def client_of(path: str) -> int:
    """The client that a ledger is of."""
    with closing(sqlite3.connect(path)) as base:
        return int(base.execute("SELECT client FROM ledger").fetchone()[0])


class Volumes(WithServer):
    def test_commits_rise(self) -> None:
        client = self.client()
        client.create("/a", b"")
        self.server.before = lambda payload: (self.volume.answer_payload(payload), p.Committed(p.Code.DONE, Commit(1)))[1] if request_of(payload) else None
        with self.assertRaises(e.ForeignReply):
            client.create("/b", b"")

    def test_another_volume(self) -> None:
        """One without a request of this client is in its place, and one with more than the ledger sent."""
        client = self.client()
        client.create("/a", b"")
        client.create("/b", b"")
        first = self.server.volume
        self.server.volume = Volume()
        with self.assertRaisesRegex(e.EmptyVolume, "up to 2 .*Found: none"):
            client.create("/a", b"")
        self.server.volume.nodes[("x",)] = File(b"", 0)
        self.server.volume.nodes[()].names.append("x")  # type: ignore[attr-defined]
        with self.assertRaisesRegex(e.OtherVolume, "another volume"):
            client.create("/a", b"")
        self.assertEqual(self.volume.commits, 0)
        self.assertEqual(client.forget(), [])
        self.assertEqual(client.create("/a", b""), 1)
        self.server.volume.clients[client.session().ledger.client] = (9, [p.Committed(p.Code.DONE, Commit(9))])
        with self.assertRaises(e.NumberUsedElsewhere):
            client.create("/c", b"")
        # Nor is the first one forgotten: it is known again, and taken when the user says so.
        self.server.volume = first
        with self.assertRaisesRegex(e.OtherVolume, "not the volume that the ledger knows here, but one that it knew elsewhere .*Found: requests up to 2"):
            client.create("/c", b"")
        client.forget()
        self.assertEqual(client.create("/c", b""), 3)
        self.assertEqual(len(client.session().ledger.history(client.session().volume())), 3)

    def test_an_older_copy_of_the_volume(self) -> None:
        client = self.client()
        for name in "abcdef":
            client.create("/" + name, b"")
        number = client.session().ledger.client
        self.volume.clients[number] = (3, self.volume.clients[number][1])
        with self.assertRaises(e.VolumeBehind):
            client.create("/g", b"")
        self.assertEqual(client.forget(), [])
        client.create("/g", b"")
        self.assertEqual(self.volume.clients[number][0], 4)

    def test_nothing_is_forgotten_where_the_volume_cannot_be_asked(self) -> None:
        client = self.client(patience=0.1)
        self.server.before = lambda payload: p.FAULT if request_of(payload) else None
        with self.assertRaises(e.DriveFailed):
            client.create("/a", b"")
        self.server.before = lambda payload: p.FAULT
        with self.assertRaises(e.ConnectionFailed):
            client.forget()
        self.server.before = lambda payload: None
        self.assertEqual(client.forget(), ["/a"])
        self.assertEqual(client.resume(), [])
        self.assertEqual(client.create("/b", b""), 1)

    def by(self, path: str, shared: bool = False) -> Client:
        made = Client(f"unix:{path}", ledger=self.ledger, shared=shared)
        self.addCleanup(made.close)
        return made

    def test_a_way_that_leads_to_one_of_two(self) -> None:
        """The same was stored on both, so nothing shows which one is at a path that is not known."""
        os.mkdir(os.path.join(self.room, "two"))
        other = Server(os.path.join(self.room, "two"))
        self.addCleanup(other.close)
        for path in (self.server.path, other.path):
            with self.by(path) as client:
                client.create("/a", b"same", Moment(5))
        link = os.path.join(self.room, "link")
        os.link(other.path, link)
        with self.by(link) as client, self.assertRaisesRegex(e.OtherVolume, f"may be the volume at unix:{self.server.path}, or unix:{other.path}"):
            client.create("/b", b"")
        # Once they differ, it is known.
        with self.by(other.path) as client:
            client.create("/b", b"", Moment(6))
        with self.by(link) as client:
            self.assertEqual(client.create("/c", b""), 3)
        with self.by(other.path) as client:
            self.assertEqual(client.create("/d", b""), 4)

    def test_an_older_copy_by_a_way_that_is_not_known(self) -> None:
        """It has requests of this client, and they are not those of any volume that the ledger has."""
        with self.by(self.server.path) as client:
            for name in "abc":
                client.create("/" + name, b"", Moment(5))
        latest, kept = self.volume.clients[client_of(self.ledger)]
        self.volume.clients[client_of(self.ledger)] = (latest - 1, kept[1:])
        link = os.path.join(self.room, "link")
        os.link(self.server.path, link)
        with self.by(link) as client:
            with self.assertRaisesRegex(e.NumberUsedElsewhere, "did not send .*older copy"):
                client.create("/d", b"")
            self.assertEqual(client.forget(), [])
            client.create("/d", b"")
        self.assertEqual(self.volume.clients[client_of(self.ledger)][0], 3)

    def test_a_reply_that_nobody_confirmed(self) -> None:
        """It is compared as a reply, and what it made is not: it was never acknowledged."""
        with self.by(self.server.path) as client:
            client.create("/a", b"", Moment(5))
            ledger, volume = client.session().ledger, client.session().volume()
            ledger.record(volume, [], [Pending(2, b"", "/b", facts_of(p.Create(ledger.client, 2, Moment(6), ("b",), b"bytes")))])
            ledger.record(volume, [Reply(2, int(p.Code.DONE), Commit(2), False)], [])
            self.volume.answer(p.Create(ledger.client, 2, Moment(6), ("other",), b""))
        with self.by(self.server.path) as client:
            self.assertEqual(client.create("/c", b""), 3)

    def test_two_ways_to_a_volume(self) -> None:
        link = os.path.join(self.room, "link")
        client = self.client()
        client.create("/a", b"")
        os.link(self.server.path, link)
        other = Client(f"unix:{link}", ledger=self.ledger)
        client.close()
        other.create("/b", b"")
        other.close()
        client = self.client()
        client.create("/c", b"")
        self.assertEqual(self.volume.commits, 3)

    def test_an_outcome_comes_when_its_reply_is_kept(self) -> None:
        for outcome in self.client().run(creates(20)):
            replies = dict(self.kept("SELECT number, commit_number FROM request WHERE code IS NOT NULL AND confirmed"))
            self.assertEqual(replies.get(outcome.number), outcome.commit)

    def test_what_is_pending(self) -> None:
        """At every request the ledger has that request and at most 60 without a reply; where the tree does not show what became of each, at
        most four."""
        files = creates(240)
        renames = [Operation(p.Rename, file.path, Moment(1), to=(f"g{index}",)) for index, file in enumerate(files[:12])]
        removals = [Operation(p.Remove, renamed.to, Moment(2)) for renamed in renames]
        again = [file._replace(kind=p.Replace) for file in files[-12:] for _ in range(2)]
        appends = [Operation(p.Append, file.path, Moment(3), b"x") for file in files[100:112]]
        folders = [Operation(p.MakeDir, (f"d{index}",), Moment(4)) for index in range(70)]
        cases = ((files, 60), (renames, 4), (removals, 12), (again[::2] + again[::2], 12), (again, 4), (appends, 12), (folders, 60))
        for operations, most in cases:
            self.check_pending(operations, most)
        # One that takes care, among others: all those that were sent are answered before it goes.
        self.check_pending(creates(40, 300) + [Operation(p.Rename, ("f300",), Moment(1), to=("g300",))] + creates(40, 400), 40)

    def check_pending(self, operations: List[Operation], most: int) -> None:
        client = self.client()
        seen: List[Tuple[int, bool]] = []

        def before(payload: bytes) -> Optional[p.Answer]:
            message = request_of(payload)
            if message:
                pending = dict(self.kept("SELECT number, payload FROM request JOIN frame ON frame.id = volume * 64 + number % 64 WHERE code IS NULL"))
                seen.append((len(pending), pending.get(message.number) == payload))
            return None

        self.server.before = before
        with client:
            list(client.run(operations))
        self.server.before = lambda payload: None
        self.assertEqual(len(seen), len(operations))
        self.assertTrue(all(1 <= count <= most and kept for count, kept in seen), seen)
        self.assertEqual(max(count for count, _ in seen), most)


if __name__ == "__main__":
    unittest.main()
