"""Ledgers: kept through crashes, and those that are shared, copied, or old."""

from __future__ import annotations

import copy
import os
import random
import resource
import shutil
import sqlite3
import subprocess
import sys
import threading
import unittest
from contextlib import closing
from pathlib import Path
from typing import Dict, List, Optional
from unittest import mock

from udfburn.base import errors as e
from udfburn import protocol as p
from udfburn.ledger.ledger import KnownVolume as Known, LOG_BYTES, Ledger, Lock, Pending, Reply
from udfburn.ledger.records import LARGE_DATA
from udfburn.protocol.units import Commit, Moment
from udfburn.wire.operations import Operation
from udfburn.trees.tree import ImportOptions, put_all

from .programs import PATIENCE
from .server import request_of
from .test_kills import killer
from .with_server import PACKAGE, WithServer


class Ledgers(WithServer):
    def test_one_process_has_it(self) -> None:
        first = Ledger(self.ledger)
        with self.assertRaises(e.LedgerBusy):
            Ledger(self.ledger, wait=0.2)
        link = os.path.join(self.room, "link.sqlite")
        os.symlink(self.ledger, link)
        with self.assertRaises(e.LedgerBusy):
            Ledger(link, wait=0.0)
        script = f"import sys; sys.path.insert(0, {PACKAGE!r})\nfrom udfburn.ledger.ledger import Ledger\nLedger({self.ledger!r}, wait=0.1)"
        other = subprocess.run([sys.executable, "-c", script], capture_output=True, text=True, check=False)
        self.assertIn("LedgerBusy", other.stderr)
        timer = threading.Timer(0.3, first.close)
        timer.start()
        Ledger(self.ledger, wait=PATIENCE).close()
        timer.join()

    def test_the_client_stays(self) -> None:
        first = Ledger(self.ledger)
        client = first.client
        first.close()
        second = Ledger(self.ledger)
        self.assertEqual(second.client, client)
        self.assertEqual(second._base.execute("PRAGMA synchronous").fetchone(), (2,))
        second.close()
        with self.assertRaises(e.LedgerError):
            Ledger(self.ledger, client=5)
        Ledger(self.ledger, client=client).close()
        drawn = {Ledger(os.path.join(self.room, f"{index}.sqlite")).client for index in range(20)}
        self.assertEqual(len(drawn), 20)

    def test_what_is_no_ledger(self) -> None:
        """It is reported, stays as it was, and gets nothing beside it."""
        room = os.path.join(self.room, "beside")
        os.mkdir(room)

        def write(name: str, data: bytes) -> None:
            with open(os.path.join(room, name), "wb") as file:
                file.write(data)

        def base(name: str, *statements: str) -> None:
            with closing(sqlite3.connect(os.path.join(room, name))) as other, other:
                for statement in statements:
                    other.execute(statement)

        write("text", b"no base at all, " * 1000)
        write("short", b"x")
        write("torn.sqlite", b"SQLite format 3\0" + b"and what is none" * 1000)
        base("other.sqlite", "CREATE TABLE what (ever)")
        base("log.sqlite", "PRAGMA journal_mode = WAL", "CREATE TABLE what (ever)")
        base("names.sqlite", "CREATE TABLE ledger (what, ever)")
        base("none.sqlite", "CREATE TABLE ledger (version, client)")
        base("words.sqlite", "CREATE TABLE ledger (version, client)", "INSERT INTO ledger VALUES (1, 'me')")
        base("newer.sqlite", "CREATE TABLE ledger (version, client)", "INSERT INTO ledger VALUES (7, '5')")
        base("view.sqlite", "CREATE VIEW ledger AS SELECT 6 AS version, '5' AS client")
        base("trigger.sqlite", "CREATE TABLE ledger (version, client)", "INSERT INTO ledger VALUES (6, '5')",
             "CREATE TRIGGER more AFTER UPDATE ON ledger BEGIN DELETE FROM ledger; END")
        base("computed.sqlite", "CREATE TABLE ledger (version, client, large AS (zeroblob(900000000)))", "INSERT INTO ledger VALUES (6, '5')")
        os.mkdir(os.path.join(room, "folder"))
        os.mkfifo(os.path.join(room, "pipe"))

        def found() -> Dict[str, bytes]:
            return {entry.name: Path(entry.path).read_bytes() if entry.is_file() else b"" for entry in os.scandir(room)}

        before = found()
        self.assertEqual(len(before), 14)
        for name in before:
            with self.assertRaisesRegex(e.LedgerError, "up to 6: use a newer program" if name == "newer.sqlite" else "is not a ledger .*--ledger", msg=name):
                Ledger(os.path.join(room, name))
            self.assertEqual(found(), before, name)
        with self.assertRaises(e.LedgerError):
            Ledger(os.path.join(room, "new.sqlite"), client=0)
        self.assertEqual(found(), before)

    def test_a_page_that_is_damaged(self) -> None:
        """Whichever page it is, the error is a ledger's, and names the file."""
        with self.client() as client:
            for index in range(60):
                client.create(f"/{index:0200}", b"%d" % index)
        whole = Path(self.ledger).read_bytes()
        self.assertGreater(len(whole), 6 * 4096)
        met = 0
        for place in range(4096, len(whole), 4096):
            Path(self.ledger).write_bytes(whole[:place] + bytes(range(256)) * 16 + whole[place + 4096 :])
            try:
                with closing(Ledger(self.ledger)) as ledger:
                    for volume in ledger.volumes():
                        str([ledger.sent(volume), ledger.pending(volume), ledger.ways(volume), ledger.found(volume), ledger.latest(volume)])
            except e.LedgerError as error:
                self.assertIn(self.ledger, str(error))
                met += 1
        self.assertGreater(met, 1)

    def test_values_that_no_ledger_has(self) -> None:
        """Whatever is in a row, the error names the file where it is none that a ledger has, and nothing else is raised than an error of the client."""
        large = os.path.join(self.room, "large")
        with open(large, "wb") as file:
            file.write(bytes(p.limits.FILE + LARGE_DATA))
        self.server.before = lambda payload: p.FAULT if request_of(payload) and self.volume.commits == 2 else None
        with self.client(patience=0.1) as client, self.assertRaises(e.DriveFailed):
            client.create("/a", b"a")
            client.mkdir("/b")
            put_all(client, [(large, ("large",))], ImportOptions())
        self.server.before = lambda payload: None
        with closing(sqlite3.connect(self.ledger)) as base:
            base.execute("PRAGMA journal_mode = DELETE")
            tables = ("ledger", "volume", "way", "request", "frame")
            columns = {table: [row[1] for row in base.execute(f"PRAGMA table_info({table})")] for table in tables}
        whole, met = Path(self.ledger).read_bytes(), 0
        values = [-1, 99, 1 << 40, 1 << 62, -(1 << 63), 1.5, "x", "/x", b"/", bytes(p.limits.PAYLOAD + 1), "/" + "x/" * 300]
        for table, column, value in [(table, column, value) for table in columns for column in columns[table] for value in [None, *values]]:
            Path(self.ledger).write_bytes(whole)
            self.server.volume = copy.deepcopy(self.volume)
            try:
                with closing(sqlite3.connect(self.ledger)) as base, base:
                    where = {"request": " WHERE number = (SELECT max(number) FROM request)", "frame": " WHERE origin IS NOT NULL"}.get(table, "")
                    base.execute(f"UPDATE {table} SET {column} = ?{where}", (value,))
            except sqlite3.Error:
                continue
            with self.subTest(table=table, column=column, value=str(value)[:40]):
                try:
                    with self.client(patience=0.0) as client:
                        client.resume()
                        client.known_files()
                except e.UdfburnError as error:
                    met += str(error).startswith(f"{self.ledger}: is not a ledger")
        self.assertGreater(met, 100)

    def test_a_lock_that_was_taken_away(self) -> None:
        """Who waits for the lock of what is no ledger does not have a lock that nobody else sees."""
        path = os.path.join(self.room, "locked")
        first = Lock(path, 0.0)
        self.assertTrue(first.made)
        timer = threading.Timer(0.2, first.close, (True,))
        timer.start()
        second = Lock(path, PATIENCE)
        timer.join()
        with self.assertRaises(e.LedgerBusy):
            Lock(path, 0.0)
        second.close()
        third = Lock(path, 0.0)
        self.assertFalse(third.made)
        third.close(needless=True)
        self.assertTrue(os.path.exists(path + ".lock"))

    def test_a_ledger_whose_disk_is_full(self) -> None:
        client = self.client()
        client.create("/a", b"")
        base = client.session().ledger._base
        base.execute(f"PRAGMA max_page_count = {base.execute('PRAGMA page_count').fetchone()[0]}")
        with self.assertRaisesRegex(e.LedgerError, "room"):
            client.create("/b", bytes(100_000))
        self.assertEqual(self.volume.commits, 1, "nothing was sent that is not kept")
        base.execute("PRAGMA max_page_count = 1000000")
        self.assertEqual(client.create("/b", b""), 2)

    def test_a_new_ledger_of_a_known_client_learns(self) -> None:
        first = self.client(client=99)
        for _ in range(5):
            first.put("/a", b"x")
        first.close()
        second = self.client(os.path.join(self.room, "second.sqlite"), 99)
        self.assertEqual(second.put("/a", b"y"), 6)
        self.assertEqual(self.volume.clients[99][0], 6)

    def test_a_copied_ledger(self) -> None:
        first = self.client(client=99)
        first.create("/a", b"x")
        first.close()
        copy = os.path.join(self.room, "copy.sqlite")
        shutil.copy(self.ledger, copy)
        first = self.client()
        first.create("/b", b"x")
        first.close()
        second = self.client(copy)
        with self.assertRaisesRegex(e.NumberUsedElsewhere, "--ledger"):
            second.create("/c", b"y")
        self.assertNotIn(("c",), self.volume.nodes)
        second.forget()
        self.assertEqual(second.create("/c", b"y"), 3)

    def test_a_foreign_reply(self) -> None:
        """Two ledgers with one client, of which one lost its conversation: it would get the other's reply."""
        first = self.client(client=99, patience=0.1)
        self.server.before = lambda payload: p.FAULT if request_of(payload) else None
        with self.assertRaises(e.DriveFailed):
            first.create("/mine", b"mine")
        first.close()
        self.server.before = lambda payload: None
        second = self.client(os.path.join(self.room, "second.sqlite"), 99)
        second.create("/other", b"other")
        second.close()
        first = self.client()
        with self.assertRaises(e.ForeignReply):
            first.resume()
        first.close()
        first = self.client()
        self.assertEqual(first.resume(), [])
        self.assertEqual(first.session().ledger.history(first.session().volume())[-1][-1], False)

    def test_the_folders_that_are_made_for_it(self) -> None:
        """Each is durable by its name in the one above, from the top down, and then the ledger in the last."""
        synced: List[str] = []
        real = os.fsync

        def fsync(descriptor: int) -> None:
            synced.append(os.readlink(f"/proc/self/fd/{descriptor}"))
            real(descriptor)

        top = os.path.realpath(self.room)
        with mock.patch("udfburn.ledger.ledger.os.fsync", fsync):
            Ledger(os.path.join(top, "a", "b", "ledger.sqlite")).close()
        last = os.path.join(top, "a", "b")
        self.assertEqual(synced, [top, os.path.join(top, "a"), os.path.join(last, "ledger.sqlite.new"), last])

    def test_a_making_that_is_killed(self) -> None:
        """Between any two statements: there is no ledger then, or a whole one, and the next process has it."""
        room = os.path.join(self.room, "made")
        path, made = os.path.join(room, "ledger.sqlite"), {True: 0, False: 0}
        for lines in range(1, 1000):
            child = os.fork()
            if not child:
                try:
                    sys.settrace(killer(lines))
                    Ledger(path, client=5)
                finally:
                    sys.settrace(None)
                    os._exit(0)
            killed = os.WIFSIGNALED(os.waitpid(child, 0)[1])
            there = os.path.exists(path)
            made[there] += 1
            if there:
                base = sqlite3.connect(path)
                self.assertEqual(base.execute("SELECT * FROM ledger").fetchall(), [(6, "5")])
                base.close()
            Ledger(path, client=5 if there else 7, wait=0.0).close()
            self.assertEqual(sorted(os.listdir(room)), ["ledger.sqlite", "ledger.sqlite.lock"])
            shutil.rmtree(room)
            if not killed:
                break
        self.assertFalse(killed)
        self.assertGreater(min(made.values()), 5)

    def test_a_base_without_a_table(self) -> None:
        """What an earlier program left whose making was cut short; and a file without a byte."""
        base = sqlite3.connect(self.ledger)
        base.execute("PRAGMA journal_mode = WAL")
        base.close()
        self.assertGreater(os.path.getsize(self.ledger), 0)
        Ledger(self.ledger, client=5).close()
        empty = os.path.join(self.room, "empty.sqlite")
        with open(empty, "wb"), open(empty + "-wal", "wb") as log:
            log.write(b"of another base")
        Ledger(empty, client=6).close()
        self.assertEqual([Ledger(path).client for path in (self.ledger, empty)], [5, 6])

    def test_a_disk_without_room(self) -> None:
        """The ledger says so, what it has is whole, and all goes on once there is room."""
        operations = [Operation(p.Create, (f"f{index}",), Moment(index), random.Random(index).randbytes(5000)) for index in range(90)]
        soft, hard = resource.getrlimit(resource.RLIMIT_FSIZE)
        done = 0
        for room in (0, 5000, 50_000, 200_000):
            try:
                resource.setrlimit(resource.RLIMIT_FSIZE, (room, hard))
                with self.assertRaisesRegex(e.LedgerError, "cannot be written"), self.client() as client:
                    for _ in client.run(operations[done:]):
                        done += 1
            finally:
                resource.setrlimit(resource.RLIMIT_FSIZE, (soft, hard))
            with self.client() as client:
                done += len(client.resume())
            self.assertEqual(self.volume.commits, done)
        self.assertGreater(done, 8)
        with self.client() as client:
            done += len(list(client.run(operations[done:])))
        self.assertEqual((done, self.volume.commits, len(self.volume.files())), (90, 90, 90))

    def filled(self, ledger: Ledger, volume: Known, count: int) -> List[int]:
        """Keeps ten requests of 4 KiB at a time, as an import does, and gives the lengths that the log had."""
        lengths, last, data = [], ledger.latest(volume), bytes(4200)
        for number in range(last + 1, last + count, 10):
            fresh = [Pending(number + step, data, f"/{number + step}") for step in range(10)]
            replies = [Reply(number + step - 10, 0, Commit(number + step - 10), True) for step in range(10)] if number > last + 1 else []
            ledger.record(volume, replies, fresh)
            lengths.append(os.path.getsize(self.ledger + "-wal"))
        ledger.record(volume, [Reply(number + step, 0, Commit(number + step), True) for step in range(10)], [])
        return lengths

    def test_the_log_grows_once(self) -> None:
        """After the first transactions of an import it is written in place, whatever comes."""
        with closing(Ledger(self.ledger)) as ledger:
            volume = ledger.learn("way", 0)
            ledger.record(volume, [], [Pending(1, b"one", "/one")])
            ledger.record(volume, [Reply(1, 0, Commit(1), True)], [])
            self.assertLess(os.path.getsize(self.ledger + "-wal"), 100_000, "who stores one file writes no long log")
            lengths = self.filled(ledger, volume, 2000)
            self.assertEqual(set(lengths), {LOG_BYTES})
            self.assertEqual(len(ledger.history(volume)), 2001)

    def test_the_log_as_a_crash_leaves_it(self) -> None:
        """Zeros after its last page are none, also where it was written from its beginning again."""
        with closing(Ledger(self.ledger)) as ledger:
            volume = ledger.learn("way", 0)
            for count in (10, 60, 500):
                self.filled(ledger, volume, count)
                ledger.record(volume, [], [Pending(ledger.latest(volume) + 1, b"pending", "/pending")])
                self.assertEqual(self.kept("SELECT payload FROM request JOIN frame ON frame.id = volume * 64 + number % 64 WHERE code IS NULL"), [(b"pending",)])
                self.assertEqual(self.kept("SELECT count(*) FROM request"), [(len(ledger.history(volume)),)])
                ledger.withdraw(volume)

    def test_no_room_for_a_long_log(self) -> None:
        with closing(Ledger(self.ledger)) as ledger, mock.patch("udfburn.ledger.ledger.os.pwrite", side_effect=OSError(28, "No space left on device")):
            volume = ledger.learn("way", 0)
            lengths = self.filled(ledger, volume, 60)
            self.assertLess(lengths[1], lengths[-1])
            self.assertEqual(len(ledger.history(volume)), 60)

    def test_a_foreign_reply_before_a_source_is_deleted(self) -> None:
        source = os.path.join(self.room, "source")
        with open(source, "wb") as file:
            file.write(b"the only copy")
        lied: List[int] = []

        def before(payload: bytes) -> Optional[p.Answer]:
            if request_of(payload) and not lied:
                lied.append(True)
                return p.Committed(p.Code.DONE, Commit(1))
            return None

        self.server.before = before
        client = self.client()
        with self.assertRaises(e.ForeignReply):
            put_all(client, [(source, ("source",))], ImportOptions(delete_source=True))
        self.assertTrue(os.path.exists(source))


if __name__ == "__main__":
    unittest.main()
