"""Large data, of which the ledger keeps the digest and where it can be read again.

A request without a reply is sent again byte for byte, or not at all: where its source changed or is gone its number is used up by
another request, and the reply reports whether the volume had it before.
"""

from __future__ import annotations

import hashlib
import io
import os
import random
import signal
import sqlite3
import sys
import unittest
from contextlib import closing, redirect_stderr, redirect_stdout
from typing import Callable, Dict, List, Optional

from udfburn import Client
from udfburn.base import errors as e
from udfburn.base.unfinished import unfinished_path
from udfburn.commands import cli
from udfburn import protocol as p
from udfburn.wire.connection import Connection
from udfburn.ledger.records import LARGE_DATA
from udfburn.protocol.units import Commit, Moment
from udfburn.wire.operations import Operation
from udfburn.session.in_flight import Group
from udfburn.session.session import Session
from udfburn.trees.tree import ImportOptions, put_all

from .model import File
from .programs import PATIENCE, UDFBURN, WithPrograms
from .server import honestly, is_probe, request_of
from .test_kills import KILLS, killer
from .with_server import WithServer

FRAMES = "SELECT length(payload), origin, start, size_then FROM frame ORDER BY id"
MEBIBYTE = 1 << 20


def refuses(payload: bytes) -> Optional[p.Answer]:
    """Before each request: the drive fails, and nothing is done."""
    return p.FAULT if request_of(payload) else None


def loses(payload: bytes, answer: p.Answer) -> Optional[bytes]:
    """The conversation ends once a request was done."""
    return None if request_of(payload) else honestly(payload, answer)


class WithSource(WithServer):
    """A large file that is on its way when the process ends: it was sent, and done or not, and no reply came."""

    def setUp(self) -> None:
        super().setUp()
        self.data = random.Random(3).randbytes(LARGE_DATA + 5)
        self.source = self.write("source", self.data)

    def write(self, name: str, data: bytes) -> str:
        path = os.path.join(self.room, name)
        with open(path, "wb") as file:
            file.write(data)
        return path

    def put(self, *names: str) -> None:
        """Stores files under their names."""
        with self.client(patience=0.1) as client:
            put_all(client, [(os.path.join(self.room, name), (name,)) for name in names], ImportOptions())

    def begin(self, done: bool, *names: str) -> None:
        """A process that ends while the files are on their way."""
        if done:
            self.server.say = loses
        else:
            self.server.before = refuses
        with self.assertRaises((e.DriveFailed, e.ConnectionFailed)):
            self.put(*(names or ("source",)))
        self.server.say, self.server.before = honestly, lambda payload: None
        self.server.payloads.clear()

    def sent(self) -> List[p.AnyRequest]:
        """The requests that the volume got since, but no probes."""
        return [request for request in map(request_of, self.server.payloads) if request is not None]  # type: ignore[misc]

    def resumed(self) -> "tuple[List[tuple[int, str, p.Code, Commit]], List[str]]":
        """What another process finishes, and what it reports was not stored."""
        with self.client() as client:
            return client.resume(), list(client.take_not_stored().values())


class Sources(WithSource):
    def test_what_the_ledger_keeps(self) -> None:
        """Of a small file all bytes; of a large one, and of each piece of one above a mebibyte, where they are."""
        self.write("small", bytes(LARGE_DATA - 1))
        self.write("pieces", bytes(MEBIBYTE + LARGE_DATA))
        self.begin(False, "source", "small")
        with closing(sqlite3.connect(self.ledger)) as base:
            large, small = sorted(base.execute(FRAMES).fetchall(), key=lambda row: row[1] is None)
        # A request has its kind, three numbers of 8 bytes, its path (a count, and each name after its length) and the size of its data.
        self.assertEqual(large, (1 + 24 + 1 + 2 + len("source") + 4, os.fsencode(self.source), 0, len(self.data)))
        self.assertEqual(small, (1 + 24 + 1 + 2 + len("small") + 4 + LARGE_DATA - 1, None, None, None))
        self.resumed()
        self.begin(False, "pieces")
        with closing(sqlite3.connect(self.ledger)) as base:
            found = {(start, size) for _, origin, start, size in base.execute(FRAMES) if origin == os.fsencode(self.path("pieces"))}
        self.assertEqual(found, {(0, MEBIBYTE + LARGE_DATA), (MEBIBYTE, MEBIBYTE + LARGE_DATA)})

    def path(self, name: str) -> str:
        return os.path.join(self.room, name)

    def test_sent_again_as_it_was(self) -> None:
        for done in (False, True):
            with self.subTest(done=done):
                name = f"source{done}"
                self.write(name, self.data)
                self.begin(done, name)
                ((number, path, code, commit),), lost = self.resumed()
                self.assertEqual((path, code, lost), ("/" + name, p.Code.DONE, []))
                (request,) = self.sent()
                assert isinstance(request, p.Create)
                self.assertEqual((request.number, request.path, request.data), (number, (name,), self.data))
                self.assertEqual(self.volume.files()[(name,)], self.data)
                self.assertEqual(self.volume.commits, commit)

    def test_pieces_sent_again_as_they_were(self) -> None:
        data = random.Random(8).randbytes(2 * MEBIBYTE + LARGE_DATA)
        self.write("whole", data)
        self.begin(False, "whole")
        done, lost = self.resumed()
        name = unfinished_path(self.client().session().ledger.client, ("whole",))
        self.assertEqual(([(path, code) for _, path, code, _ in done], lost), ([(p.show(name), p.Code.DONE)] * 3, []))
        self.assertEqual(self.volume.files()[name], data)

    def changes(self) -> "Dict[str, Callable[[], None]]":
        """What may become of a source."""
        def same_time(data: bytes) -> None:
            status = os.stat(self.source)
            self.write("source", data)
            os.utime(self.source, ns=(status.st_atime_ns, status.st_mtime_ns))

        def instead(make: Callable[[str], object]) -> Callable[[], None]:
            def change() -> None:
                os.rename(self.source, self.path("moved"))
                make(self.source)

            return change

        return {
            "other bytes of the same size at the same time": lambda: same_time(self.data[:-1] + bytes([self.data[-1] ^ 1])),
            "longer": lambda: same_time(self.data + b"x"),
            "shorter": lambda: same_time(self.data[:-1]),
            "the same bytes at another time": lambda: os.utime(self.source, ns=(1, 1)),
            "gone": lambda: os.unlink(self.source),
            "a link to the same": instead(lambda path: os.symlink("moved", path)),
            "a pipe": instead(os.mkfifo),
            "a folder": instead(os.mkdir),
        }

    def restore(self) -> None:
        if os.path.isdir(self.source):
            os.rmdir(self.source)
        elif os.path.lexists(self.source):
            os.unlink(self.source)
        self.write("source", self.data)

    def test_another_file_by_now(self) -> None:
        """It is not sent, its number is used up, and what is there now is stored by the next command. Where the volume had it, it is
        there once, and the reply is known."""
        for what, change in self.changes().items():
            for done in (False, True):
                with self.subTest(what, done=done):
                    self.restore()
                    self.server.volume = type(self.volume)()
                    for end in ("", "-wal"):
                        if os.path.exists(self.ledger + end):
                            os.unlink(self.ledger + end)
                    self.begin(done)
                    change()
                    code = p.Code.DONE if done else p.Code.ROOT
                    self.assertEqual(self.resumed(), ([(1, "/source", code, 1)], [] if done else ["/source"]))
                    self.assertEqual(self.sent(), [])
                    self.assertEqual(self.volume.files(), {("source",): self.data} if done else {})
                    self.assertEqual(self.volume.commits, 1)
                    with self.client() as client:
                        self.assertEqual(client.create("/next", b""), 2)
                        self.assertEqual(client.resume(), [])
                        history = client.session().ledger.history(client.session().volume())
                    self.assertEqual(history, [(1, "/source", code, 1, True), (2, "/next", 0, 2, True)])

    def test_stored_anew_by_the_same_line(self) -> None:
        for done in (False, True):
            with self.subTest(done=done):
                name = f"again{done}"
                self.write(name, self.data)
                self.begin(done, name)
                self.write(name, b"new" * LARGE_DATA)
                before = self.volume.commits
                self.put(name)
                self.assertEqual(self.volume.files()[(name,)], b"new" * LARGE_DATA)
                # What was not done takes a number for its refusal, and both take one for what is stored now.
                self.assertEqual(self.volume.commits, before + (1 if done else 2))

    def test_the_frame_that_comes_late(self) -> None:
        """The one that the killed process sent is still on its way when its number is used up: it is not stored then."""
        self.begin(False)
        late = p.Create(self.number(), 1, Moment(5), ("source",), self.data)
        os.unlink(self.source)
        self.assertEqual(self.resumed(), ([(1, "/source", p.Code.ROOT, 1)], ["/source"]))
        self.assertEqual(self.volume.answer(late), p.Committed(p.Code.ROOT, Commit(1)))
        self.assertEqual(self.volume.files(), {})

    def number(self) -> int:
        with self.client() as client:
            return client.session().ledger.client

    def test_a_process_that_has_the_bytes(self) -> None:
        """What is lost is the conversation alone: the request is sent again whatever became of its source."""
        seen: List[bytes] = []

        def say(payload: bytes, answer: p.Answer) -> Optional[bytes]:
            if request_of(payload):
                seen.append(payload)
                if len(seen) == 1:
                    os.unlink(self.source)
                    return None
            return honestly(payload, answer)

        self.server.say = say
        with self.client() as client:
            summary = put_all(client, [(self.source, ("source",))], ImportOptions())
        self.assertEqual((summary.files, summary.failures), (1, []))
        self.assertEqual(seen, [seen[0]] * 2)
        self.assertEqual((self.volume.files(), self.volume.commits), ({("source",): self.data}, 1))

    def test_one_between_others(self) -> None:
        """Four are pending, and the source of the second is gone: the others are sent as they were."""
        names = [f"f{index}" for index in range(4)]
        contents = {name: random.Random(name).randbytes(LARGE_DATA) for name in names}
        for name in names:
            self.write(name, contents[name])
        self.begin(False, *names)
        os.unlink(self.path("f1"))
        done, lost = self.resumed()
        self.assertEqual([(path, code) for _, path, code, _ in done], [("/" + name, p.Code.ROOT if name == "f1" else p.Code.DONE) for name in names])
        self.assertEqual(lost, ["/f1"])
        del contents["f1"]
        self.assertEqual(self.volume.files(), {(name,): data for name, data in contents.items()})

    def test_a_file_of_several_pieces(self) -> None:
        """Where one of its pieces is gone, those after it are not stored either: it has no hole."""
        data = random.Random(9).randbytes(3 * MEBIBYTE + LARGE_DATA)
        self.write("whole", data)
        self.begin(False, "whole")
        self.change_byte("whole", MEBIBYTE + 7)
        done, lost = self.resumed()
        self.assertEqual([code for _, _, code, _ in done], [p.Code.DONE] + [p.Code.ROOT] * 3)
        name = unfinished_path(self.client().session().ledger.client, ("whole",))
        self.assertEqual(lost, [p.show(name)] * 3)
        self.assertEqual(self.volume.files(), {name: data[:MEBIBYTE]})

    def begin_pieces(self) -> "tuple[p.Path, bytes]":
        """A process that ends when the first piece of a file is stored. Where the pieces are, and the bytes of the file."""
        data = random.Random(9).randbytes(2 * MEBIBYTE + LARGE_DATA)
        self.write("whole", data)
        self.server.before = lambda payload: refuses(payload) if self.volume.commits else None
        with self.assertRaises(e.DriveFailed):
            self.put("whole")
        self.server.before = lambda payload: None
        return unfinished_path(self.number(), ("whole",)), data

    def test_another_byte_before_what_is_pending(self) -> None:
        """What is pending is as it was, and what was stored before it is not: the file is no beginning of another one."""
        name, data = self.begin_pieces()
        self.change_byte("whole", 7)
        done, lost = self.resumed()
        self.assertEqual([code for _, _, code, _ in done][-2:], [p.Code.ROOT] * 2)
        self.assertEqual((lost, self.volume.files()), ([p.show(name)] * 2, {name: data[:MEBIBYTE]}))

    def change_byte(self, name: str, at: int) -> None:
        """Changes a byte of a file, whose time of modification stays."""
        status = os.stat(self.path(name))
        with open(self.path(name), "r+b") as file:
            file.seek(at)
            (byte,) = file.read(1)
            file.seek(at)
            file.write(bytes([byte ^ 1]))
        os.utime(self.path(name), ns=(status.st_atime_ns, status.st_mtime_ns))

    def test_pieces_that_were_done(self) -> None:
        """The replies to the first of them are not kept any more. The process that asks has none of their bytes: by a digest it knows the file."""
        data = random.Random(10).randbytes(7 * MEBIBYTE + LARGE_DATA)
        for told, change in (("as it was", b""), ("changed", b"!")):
            with self.subTest(told):
                self.write(told, data)
                self.silent_from_now_on()
                with self.assertRaises(e.ConnectionFailed), self.client(patience=0.1) as client:
                    client.line.timeout = 0.5
                    put_all(client, [(self.path(told), (told,))], ImportOptions())
                self.server.say = honestly
                name, before = unfinished_path(self.number(), (told,)), self.volume.commits
                self.assertEqual(self.volume.files()[name], data)
                node = self.volume.nodes[name]
                assert isinstance(node, File)
                self.volume.nodes[name] = File(change + data[len(change) :], node.moment)
                self.server.payloads.clear()
                with self.client() as client:
                    if change:
                        self.assertRaisesRegex(e.ReplyNotKept, "not known to be done", client.resume)
                    else:
                        self.assertEqual([code for _, _, code, _ in client.resume()], [p.Code.DONE] * 8)
                self.assertEqual((self.sent(), self.volume.commits), ([], before))
                reads = [payload for payload in self.server.payloads if isinstance(p.decode_message(payload), p.Read)]
                self.assertEqual(len(reads), 4, "each byte once")

    def silent_from_now_on(self) -> None:
        """From the next request on all is done that comes, and no answer goes out but those to probes."""
        begun: List[bytes] = []

        def say(payload: bytes, answer: p.Answer) -> Optional[bytes]:
            begun.extend([payload] if request_of(payload) else [])
            return b"" if begun and not is_probe(payload) else honestly(payload, answer)

        self.server.say = say

    def test_of_an_earlier_version(self) -> None:
        """In version 5 a piece has its own digest, and the last one that of the file: what nothing is known of is not sent. The same command
        stores the file."""
        name, data = self.begin_pieces()
        with closing(sqlite3.connect(self.ledger)) as base, base:
            for number, begin in ((2, MEBIBYTE), (3, 2 * MEBIBYTE)):
                piece = hashlib.sha256(data[begin : begin + MEBIBYTE]).digest()
                base.execute("UPDATE request SET sha256 = ? WHERE number = ?", (piece, number))
            whole = ("/whole", len(data), hashlib.sha256(data).digest())
            base.execute("UPDATE request SET whole_path = ?, whole_size = ?, whole_sha256 = ? WHERE number = 3", whole)
            base.execute("UPDATE ledger SET version = 5")
        done, lost = self.resumed()
        self.assertEqual([code for _, _, code, _ in done][-2:], [p.Code.ROOT] * 2)
        self.assertEqual((lost, self.volume.files()), ([p.show(name)] * 2, {name: data[:MEBIBYTE]}))
        self.put("whole")
        self.assertEqual(self.volume.files(), {("whole",): data})

    def test_what_is_given_up_stays_so(self) -> None:
        """Also where the process that gave it up was killed, and the source is there again."""
        self.begin(False)
        os.rename(self.source, self.path("kept"))
        self.server.say = lambda payload, answer: None if is_probe(payload) and payload[9] == 1 else honestly(payload, answer)
        with self.assertRaises(e.ConnectionFailed), self.client(patience=0.1) as client:
            client.resume()
        self.server.say = honestly
        os.rename(self.path("kept"), self.source)
        self.assertEqual(self.resumed(), ([(1, "/source", p.Code.ROOT, 1)], ["/source"]))
        self.assertEqual((self.volume.files(), self.volume.commits), ({}, 1))

    def test_a_volume_without_room(self) -> None:
        """The number is not used up, and goes to the next request."""
        self.begin(False)
        os.unlink(self.source)
        self.server.before = lambda payload: p.FULL if is_probe(payload) and payload[9] == 1 else None
        with self.assertRaises(e.Full), self.client() as client:
            client.resume()
        self.server.before = lambda payload: None
        with self.client() as client:
            self.assertEqual(client.resume(), [])
            self.assertEqual(client.create("/next", b""), 1)

    def test_what_is_told(self) -> None:
        self.begin(False)
        os.unlink(self.source)
        words = ["--socket", self.server.path, "--ledger", self.ledger]
        self.assertIn("number 1, /source: was not stored, since its source changed or is gone: store it again, commit 1", self.told("resume", *words))
        self.write("source", self.data)
        self.begin(False)
        os.unlink(self.source)
        self.assertIn("number 2 of an earlier command, /source: was not stored, since", self.told("mkdir", *words, "/new"))
        self.assertNotIn("not stored", self.told("mkdir", *words, "/other"))

    def told(self, *words: str) -> str:
        """What a command reports, which ends well."""
        output, errors = io.StringIO(), io.StringIO()
        with redirect_stdout(output), redirect_stderr(errors):
            self.assertEqual(cli.main(list(words)), 0)
        return output.getvalue() + errors.getvalue()

    def test_data_without_a_source(self) -> None:
        """It is kept whole, however large it is."""
        self.server.before = refuses
        with self.client(patience=0.1) as client, self.assertRaises(e.DriveFailed):
            list(client.run([Operation(p.Create, ("a",), Moment(1), self.data)]))
        self.server.before = lambda payload: None
        self.assertEqual(self.resumed(), ([(1, "/a", p.Code.DONE, 1)], []))
        self.assertEqual(self.volume.files(), {("a",): self.data})


def die_before_sending(count: int) -> None:
    """Kills this process where it would send requests for this time."""
    left, real = [count], Session._sent

    def sent(session: Session, connection: Connection, fresh: Group) -> bool:
        left[0] -= 1
        if not left[0]:
            os.kill(os.getpid(), signal.SIGKILL)
        return real(session, connection, fresh)

    setattr(Session, "_sent", sent)


class Kills(WithPrograms):
    """A client that is killed while its sources change."""

    FILES = 12

    def setUp(self) -> None:
        super().setUp()
        self.serve()
        self.chance = random.Random(11)
        self.sources = os.path.join(self.room, "sources")
        os.mkdir(self.sources)
        self.versions: Dict[str, List[bytes]] = {}

    def change(self) -> None:
        """Some sources get other bytes, of the same size or not, at another time or not; some go."""
        for index in range(self.FILES):
            name = f"f{index}"
            path = os.path.join(self.sources, name)
            turn = self.chance.randrange(6)
            if not os.path.exists(path) or turn == 0:
                data = self.chance.randbytes(LARGE_DATA + self.chance.choice((0, 0, 1)))
                status = os.stat(path) if os.path.exists(path) else None
                with open(path, "wb") as file:
                    file.write(data)
                if status is not None and self.chance.random() < 0.5:
                    os.utime(path, ns=(status.st_atime_ns, status.st_mtime_ns))
                self.versions.setdefault(name, []).append(data)
            elif turn == 1:
                os.unlink(path)

    def put(self, lines: int = 0, sends: int = 0) -> bool:
        """Stores the folder in a process of its own, which kills itself before a line, or when requests are kept and not sent. Whether
        it was killed."""
        child = os.fork()
        if not child:
            status = 1
            try:
                if sends:
                    die_before_sending(sends)
                if lines:
                    sys.settrace(killer(lines))
                with Client(f"unix:{self.path}", ledger=self.ledger, program=UDFBURN, patience=PATIENCE) as client:
                    put_all(client, [(self.sources, ("x",))], ImportOptions(recursive=True))
                status = 0
            finally:
                sys.settrace(None)
                os._exit(status)
        status = os.waitpid(child, 0)[1]
        self.assertTrue(status == 0 or os.WIFSIGNALED(status) and os.WTERMSIG(status) == signal.SIGKILL, status)
        return status != 0

    def test_nothing_is_lost_and_nothing_stored_twice(self) -> None:
        killed = given_up = 0
        while killed < max(KILLS // 4, 20):
            self.change()
            killed += self.put(lines=self.chance.randrange(1, 3000)) if self.chance.random() < 0.5 else self.put(sends=self.chance.randrange(1, 5))
            if killed % 5 == 0:
                self.change()
        self.put()
        with self.client() as client:
            self.assertEqual(client.resume(), [])
            ledger, volume = client.session().ledger, client.session().volume()
            history = ledger.sent(volume)
            for name in os.listdir(self.sources):
                with open(os.path.join(self.sources, name), "rb") as file:
                    self.assertEqual(client.get(f"/x/{name}"), file.read())
        self.assertEqual([sent.number for sent in history], list(range(1, len(history) + 1)))
        self.assertEqual([sent.commit for sent in history], list(range(1, self.commits() + 1)))
        for name, versions in self.versions.items():
            codes = [sent.code for sent in history if sent.path == f"/x/{name}"]
            given_up += codes.count(p.Code.ROOT)
            self.assertLessEqual(codes.count(p.Code.DONE), len(versions), "each of its contents once")
            self.assertLessEqual(set(codes), {p.Code.DONE, p.Code.ROOT})
        self.assertGreater(given_up, 0, "some were killed with a source that changed then")
        self.assertEqual(self.udfburn("check", self.image), b"sound %d\n" % len(history))


if __name__ == "__main__":
    unittest.main()
