"""Ledgers of earlier versions, as the clients of those versions wrote them: they become ledgers of this version and lose nothing.

`ledger_v1.sql` has one volume that was met by two ways in turn, which that client kept as three, another volume, and a request
without a reply. `ledger_v2.sql` has one volume with six requests that were done, and two without a reply.
"""

from __future__ import annotations

import hashlib
import os
import shutil
import sqlite3
import sys
import unittest
from contextlib import closing
from typing import Dict, List, Tuple

from udfburn import Client
from udfburn.base import errors as e
from udfburn import protocol as p
from udfburn.ledger.ledger import Ledger
from udfburn.ledger.records import Sent
from udfburn.protocol.units import Commit, Moment, Size
from udfburn.wire.operations import Deed

from .model import Volume
from .server import Server
from .test_kills import killer
from .with_server import WithServer

HERE = os.path.dirname(os.path.abspath(__file__))
CLIENT = 77
ROWS = "SELECT volume, number, path, code, commit_number, confirmed FROM request ORDER BY volume, number"
FRAMES = "SELECT id, payload FROM frame ORDER BY id"


def first_volume() -> Volume:
    """The volume that was met by two ways, as the requests of the ledger left it."""
    volume = Volume()
    requests: List[p.AnyRequest] = [p.MakeDir(CLIENT, 1, Moment(10), ("d",))]
    requests += [p.Create(CLIENT, 2 + index, Moment(100 + index), ("d", f"f{index}"), b"x" * index) for index in range(5)]
    requests += [
        p.Rename(CLIENT, 7, Moment(200), ("d", "f0"), ("d", "g")), p.Replace(CLIENT, 8, Moment(201), ("d", "f1"), b"replaced"), p.Remove(CLIENT, 9, Moment(202), ("d", "f2")),
    ]
    for request in requests:
        volume.answer(request)
    return volume


class Migration(WithServer):
    def setUp(self) -> None:
        super().setUp()
        self.room = os.path.realpath(self.room)
        for name in ("one", "two"):
            os.mkdir(os.path.join(self.room, name))
        self.one = Server(os.path.join(self.room, "one"), first_volume())
        self.addCleanup(self.one.close)
        self.link = os.path.join(self.room, "one", "link")
        os.link(self.one.path, self.link)
        self.write_ledger("ledger_v1.sql")

    def write_ledger(self, name: str) -> None:
        if os.path.exists(self.ledger):
            os.unlink(self.ledger)
        with open(os.path.join(HERE, name), encoding="utf-8") as file:
            script = file.read().replace("@", self.room)
        with closing(sqlite3.connect(self.ledger)) as base:
            base.executescript(script)
            base.execute("PRAGMA journal_mode = WAL")

    def asked(self, words: str) -> List[Tuple[object, ...]]:
        with closing(sqlite3.connect(self.ledger)) as base:
            return base.execute(words).fetchall()

    def frames(self) -> Dict[int, bytes]:
        """The payloads that the ledger keeps, by their places."""
        return {int(str(place)): bytes(payload) for place, payload in self.asked(FRAMES) if isinstance(payload, bytes)}

    def by(self, path: str) -> Client:
        made = Client(f"unix:{path}", ledger=self.ledger)
        self.addCleanup(made.close)
        return made

    def with_six_requests(self) -> None:
        """The volume that version 2's ledger knows: a folder with five files."""
        self.one.volume = Volume()
        self.one.volume.answer(p.MakeDir(CLIENT, 1, Moment(10), ("d",)))
        for index in range(5):
            self.one.volume.answer(p.Create(CLIENT, 2 + index, Moment(100 + index), ("d", f"f{index}"), b"x" * index))

    def test_nothing_is_lost(self) -> None:
        rows, frames = self.asked(ROWS), self.frames()
        with closing(Ledger(self.ledger)) as ledger:
            self.assertEqual(ledger.client, CLIENT)
            self.assertEqual([volume.latest for volume in ledger.volumes()], [6, 1, 8, 9])
            way = f"unix:{self.room}/one/"
            self.assertEqual([volume and volume.id for volume in map(ledger.volume, (way + "socket", way + "link"))], [4, 3])
            (pending,) = ledger.pending(ledger.volumes()[3])
            self.assertEqual((pending.number, pending.path), (10, "/pending"))
        self.assertEqual(self.asked(ROWS), rows)
        # Of four places for a volume and of 64: that of request 10 of volume 4.
        self.assertEqual(self.asked(FRAMES), [(4 * 64 + 10, frames[4 * 4 + 10 % 4])])
        self.assertEqual(self.asked("SELECT version FROM ledger"), [(6,)])
        Ledger(self.ledger).close()
        self.assertEqual(self.asked(ROWS), rows)

    def test_of_version_2(self) -> None:
        """What it has is there as it was, and its frames, which have all their data, are sent as they are."""
        self.write_ledger("ledger_v2.sql")
        everything, frames = "SELECT * FROM request ORDER BY number", self.frames()
        rows = self.asked(everything)
        Ledger(self.ledger).close()
        self.assertEqual(self.asked("SELECT version FROM ledger"), [(6,)])
        self.assertEqual((self.asked(everything), self.asked(FRAMES)), (rows, [(64 + 7, frames[4 + 7 % 4]), (64 + 8, frames[4 + 8 % 4])]))
        self.with_six_requests()
        with self.by(self.one.path) as client:
            self.assertEqual(client.resume(), [(7, "/first", p.Code.DONE, 7), (8, "/second", p.Code.DONE, 8)])
            self.assertEqual(client.create("/next", b""), 9)
        self.assertEqual(self.one.volume.files()[("first",)], bytes(range(64)))
        self.assertEqual(self.one.volume.files()[("second",)], b"pending bytes")

    def test_of_versions_3_and_4(self) -> None:
        """A request of which the ledger has the place of its data, and one of which it has all: both are sent as they were."""
        source = os.path.join(self.room, "source")
        with open(source, "wb") as file:
            file.write(bytes(range(64)))
        modified = os.stat(source).st_mtime_ns
        for version in (3, 4):
            self.write_ledger("ledger_v2.sql")
            frames = self.frames()
            with closing(sqlite3.connect(self.ledger)) as base, base:
                for column in ("origin BLOB", "start INTEGER", "size_then INTEGER", "modified INTEGER"):
                    base.execute(f"ALTER TABLE frame ADD COLUMN {column}")
                head, place = frames[4 + 7 % 4][:-64], (os.fsencode(source), 0, 64, modified)
                base.execute("UPDATE frame SET payload = ?, origin = ?, start = ?, size_then = ?, modified = ? WHERE id = ?", (head, *place, 4 + 7 % 4))
                base.execute("UPDATE ledger SET version = ?", (version,))
            with closing(Ledger(self.ledger)) as ledger:
                first, second = ledger.pending(ledger.volumes()[0])
            self.assertEqual((first.number, first.payload, first.origin), (7, head, (source, 0, 64, modified)))
            self.assertEqual((second.number, second.payload, second.origin), (8, frames[4 + 8 % 4], None))
            self.with_six_requests()
            with self.by(self.one.path) as client:
                self.assertEqual(client.resume(), [(7, "/first", p.Code.DONE, 7), (8, "/second", p.Code.DONE, 8)])
            self.assertEqual(self.one.volume.files()[("first",)], bytes(range(64)))

    def test_what_the_last_frames_say_is_kept(self) -> None:
        with closing(Ledger(self.ledger)) as ledger:
            first, _, third, fourth = map(ledger.sent, ledger.volumes())
        self.assertEqual([sent.facts is None for sent in first], [True, True, False, False, False, False])
        self.assertEqual(first[2:4], [self.stored(3, "f1", 1, 101, b"x"), self.stored(4, "f2", 2, 102, b"xx")])
        moved, replaced = [sent.facts for sent in third]
        assert moved and replaced
        self.assertEqual(moved.deed, Deed(p.Kind.RENAME, ("d", "f0"), ("d", "g"), Size(0), Moment(200)))
        self.assertEqual(replaced.sha256, hashlib.sha256(b"replaced").digest())
        waiting = fourth[-1].facts
        assert waiting
        self.assertEqual((waiting.deed, waiting.sha256), (Deed(p.Kind.CREATE, ("pending",), (), Size(13), Moment(300)), hashlib.sha256(b"pending bytes").digest()))

    def test_the_frame_of_another_request_says_nothing(self) -> None:
        """The place of a request's frame may have another one: nothing is kept beside the request then."""
        with closing(sqlite3.connect(self.ledger)) as base, base:
            base.execute("UPDATE frame SET payload = (SELECT payload FROM frame WHERE id = 7) WHERE id = 4")
        with closing(Ledger(self.ledger)) as ledger:
            first = ledger.sent(ledger.volumes()[0])
        self.assertEqual([(sent.number, sent.facts is None) for sent in first], [(1, True), (2, True), (3, False), (4, True), (5, False), (6, False)])

    def stored(self, number: int, name: str, size: int, moment: int, data: bytes) -> Sent:
        from udfburn.ledger.records import Facts

        facts = Facts(Deed(p.Kind.CREATE, ("d", name), (), Size(size), Moment(moment)), hashlib.sha256(data).digest())
        return Sent(number, f"/d/{name}", facts, 0, Commit(number), True)

    def test_what_is_pending_is_sent(self) -> None:
        with self.by(self.one.path) as client:
            self.assertEqual(client.resume(), [(10, "/pending", p.Code.DONE, 10)])
            self.assertEqual(client.create("/next", b""), 11)

    def test_by_the_way_that_was_behind(self) -> None:
        """It went on by the other way, where the ledger has it as another volume: both are one now."""
        with self.by(self.link) as client:
            self.assertEqual(client.resume(), [(10, "/pending", p.Code.DONE, 10)])
        with self.by(self.one.path) as client:
            self.assertEqual(client.create("/next", b""), 11)
        with self.by(self.link) as client:
            self.assertEqual(client.create("/last", b""), 12)
            ledger = client.session().ledger
            self.assertEqual(sorted(ledger.ways(client.session().volume())), [f"unix:{self.link}", f"unix:{self.one.path}"])

    def test_another_volume_that_the_ledger_knows(self) -> None:
        """At the way of a volume with one request: it has later numbers alone, and it did not begin where that one ended."""
        two = Server(os.path.join(self.room, "two"), self.one.volume)
        self.addCleanup(two.close)
        with self.by(two.path) as client, self.assertRaises(e.NumberUsedElsewhere):
            client.create("/z", b"")
        self.assertEqual(self.one.volume.commits, 9)

    def test_where_two_volumes_ended_alike(self) -> None:
        """It is not known which one went on, so neither is taken for it."""
        with closing(sqlite3.connect(self.ledger)) as base, base:
            base.execute("INSERT INTO request SELECT 2, number + 1, path, code, commit_number + 1, 1 FROM request WHERE volume = 1 AND number < 6")
            base.execute("INSERT INTO request SELECT 2, number, path, code, commit_number, 1 FROM request WHERE volume = 3")
        two = Server(os.path.join(self.room, "two"), self.one.volume)
        self.addCleanup(two.close)
        for path in (self.link, two.path):
            with self.by(path) as client, self.assertRaises(e.NumberUsedElsewhere):
                client.resume()

    def test_another_volume_by_the_way_that_was_behind(self) -> None:
        """With more requests than the ledger has by either way: it is none of them."""
        self.one.volume.answer(p.Create(CLIENT, 10, Moment(0), ("x",), b""))
        self.one.volume.answer(p.Create(CLIENT, 11, Moment(0), ("y",), b""))
        for path in (self.link, self.one.path):
            with self.by(path) as client, self.assertRaises(e.NumberUsedElsewhere):
                client.create("/z", b"")

    def test_an_older_copy(self) -> None:
        """Of the volume that acknowledged nine requests, as it was after eight."""
        volume = first_volume()
        latest, kept = volume.clients[CLIENT]
        volume.clients[CLIENT] = (latest - 1, kept[1:])
        self.one.volume = volume
        with self.by(self.one.path) as client, self.assertRaisesRegex(e.VolumeBehind, "up to 9 .* Found: requests up to 8"):
            client.create("/z", b"")

    def test_an_upgrade_that_is_killed(self) -> None:
        """Between any two statements: the ledger has one version or the other, and all rows."""
        rows, versions = self.asked(ROWS), set()
        clean = os.path.join(self.room, "clean.sqlite")
        shutil.copy(self.ledger, clean)
        killed, lines = True, 0
        while killed:
            lines += 3
            for end in ("", "-wal", "-shm", ".lock"):
                if os.path.exists(self.ledger + end):
                    os.unlink(self.ledger + end)
            shutil.copy(clean, self.ledger)
            child = os.fork()
            if not child:
                try:
                    sys.settrace(killer(lines))
                    Ledger(self.ledger)
                finally:
                    sys.settrace(None)
                    os._exit(0)
            killed = os.WIFSIGNALED(os.waitpid(child, 0)[1])
            versions.add(self.asked("SELECT version FROM ledger")[0][0])
            with closing(Ledger(self.ledger)) as ledger:
                self.assertEqual([volume.latest for volume in ledger.volumes()], [6, 1, 8, 9])
            self.assertEqual(self.asked(ROWS), rows)
        self.assertEqual(versions, {1, 6})
        self.assertGreater(lines, 50)


if __name__ == "__main__":
    unittest.main()
