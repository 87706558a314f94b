"""Requests that act once: over a server that loses conversations, fails, lies and talks nonsense."""

from __future__ import annotations

import os
import random
import resource
import shutil
import struct
import threading
import time
import unittest
from types import SimpleNamespace
from typing import Callable, List, Optional, Tuple, Type
from unittest import mock

from udfburn import protocol as p
from udfburn.base import errors as e
from udfburn.protocol.units import Commit, Moment
from udfburn.wire.operations import Operation

from .programs import PATIENCE
from .server import Server, honestly, is_probe, request_of
from .with_server import WithServer, creates


class Plain(WithServer):
    """Operations where nothing goes wrong."""

    def test_operations(self) -> None:
        client = self.client()
        self.assertEqual(client.create("/a", b"one", Moment(5)), 1)
        self.assertEqual(client.mkdir("/d", Moment(6)), 2)
        self.assertEqual(client.replace("/a", b"two", Moment(7)), 3)
        self.assertEqual(client.rename("/a", "/d/b", Moment(8)), 4)
        self.assertEqual(client.get("/d/b"), b"two")
        self.assertEqual(client.stat("/d/b"), p.Node(p.NodeKind.FILE, Moment(7), 3))
        self.assertEqual(client.stat("/"), p.Node(p.NodeKind.DIRECTORY, Moment(8), 1))
        self.assertEqual(client.list("/"), (p.Name(p.NodeKind.DIRECTORY, "d"),))
        self.assertEqual(client.put("/d/b", b"three"), 5)
        self.assertEqual(client.put("/d/c", b"new"), 6)
        self.assertEqual(client.makedirs("/x/y/z"), [("x",), ("x", "y"), ("x", "y", "z")])
        self.assertEqual(client.makedirs("/x/y/z"), [])
        self.assertEqual(client.remove("/d/c"), 10)
        self.assertIsNone(client.find("/d/c"))
        self.assertEqual(sorted(self.volume.nodes), [(), ("d",), ("d", "b"), ("x",), ("x", "y"), ("x", "y", "z")])

    def test_refusals_by_name(self) -> None:
        client = self.client()
        client.mkdir("/d")
        client.create("/d/f", b"")
        deep = "/d" + "/e" * 15
        client.makedirs(deep)
        cases: List[Tuple[Type[Exception], Callable[[], object]]] = [
            (e.NoParent, lambda: client.create("/no/f", b"")), (e.NoParent, lambda: client.mkdir("/d/f/g")), (e.NotFound, lambda: client.replace("/no", b"")),
            (e.NotFound, lambda: client.remove("/no")), (e.NotFound, lambda: client.rename("/no", "/new")), (e.Exists, lambda: client.create("/d", b"")),
            (e.Exists, lambda: client.rename("/d/f", "/d")), (e.IsDirectory, lambda: client.replace("/d", b"")), (e.NotEmpty, lambda: client.remove("/d")),
            (e.IntoItself, lambda: client.rename("/d", "/d/x")), (e.IsRoot, lambda: client.remove("/")), (e.IsRoot, lambda: client.mkdir("/")),
            (e.TooDeep, lambda: client.mkdir(deep + "/f")), (e.NotFound, lambda: client.get("/no")), (e.IsDirectory, lambda: client.get("/d")),
            (e.NotDirectory, lambda: client.list("/d/f")), (e.NotFound, lambda: client.stat("/no")), (e.IsDirectory, lambda: client.put("/d", b"")),
            (e.NotDirectory, lambda: client.makedirs("/d/f/g")), (e.TooLarge, lambda: client.create("/big", bytes(p.limits.FILE + 1))),
        ]
        for error, call in cases:
            with self.assertRaises(error):
                call()
        for index in range(512):
            self.volume.nodes[("full", f"n{index}")] = None
        from .model import Directory

        full = Directory(0)
        full.names = [f"n{index}" for index in range(512)]
        self.volume.nodes[("full",)] = full
        with self.assertRaises(e.DirectoryFull):
            client.mkdir("/full/x")
        for index in range(4096 - len(self.volume.nodes)):
            self.volume.nodes[("none", str(index))] = None
        with self.assertRaises(e.TooMany):
            client.mkdir("/x")

    def test_the_probe_commits_nothing_and_a_conversation_ends_with_a_call(self) -> None:
        client = self.client()
        client.create("/a", b"")
        self.assertEqual(self.volume.commits, 1)
        self.assertTrue(is_probe(self.server.payloads[0]))
        client.stat("/a")
        client.stat("/a")
        self.assertEqual(self.server.conversations, 3)
        with client.held():
            client.stat("/a")
            client.stat("/a")
        self.assertEqual(self.server.conversations, 4)

    def test_requests_go_in_order_each_with_a_question_behind_it(self) -> None:
        client = self.client()
        outcomes = list(client.run(creates(20)))
        self.assertEqual([outcome.number for outcome in outcomes], list(range(1, 21)))
        sent = [p.decode_message(payload) for payload in self.server.payloads[1:]]
        requests = [message for message in sent[::2] if isinstance(message, p.Request)]
        self.assertEqual([message.number for message in requests], list(range(1, 21)))
        self.assertEqual([p.Stat(message.path) for message in requests], sent[1::2])
        history = client.session().ledger.history(client.session().volume())
        self.assertEqual([(number, commit, confirmed) for number, _, _, commit, confirmed in history], [(n, n, True) for n in range(1, 21)])


class Many(WithServer):
    """A process that has many files open."""

    def test_descriptors_above_a_thousand(self) -> None:
        soft, hard = resource.getrlimit(resource.RLIMIT_NOFILE)
        resource.setrlimit(resource.RLIMIT_NOFILE, (min(2048, hard), hard))
        taken = [os.open(os.devnull, os.O_RDONLY) for _ in range(1100)]
        try:
            with self.client() as client:
                self.assertEqual(client.create("/a", bytes(p.limits.FILE)), 1)
        finally:
            for descriptor in taken:
                os.close(descriptor)
            resource.setrlimit(resource.RLIMIT_NOFILE, (soft, hard))


class Lost(WithServer):
    """Conversations that are lost after each byte."""

    def test_behind_each_byte(self) -> None:
        self.behind_each_byte(True)

    def test_behind_each_byte_of_answers_that_come_one_by_one(self) -> None:
        self.behind_each_byte(False)

    def behind_each_byte(self, together: bool) -> None:
        for lost in range(0, 150, 3):
            self.server.close()
            shutil.rmtree(self.room)
            os.mkdir(self.room)
            self.server = Server(self.room)
            self.server.together = together
            client = self.client()
            self.server.lost_behind = lost
            outcomes = list(client.run(creates(9)))
            client.close()
            self.assertEqual([outcome.code for outcome in outcomes], [p.Code.DONE] * 9, lost)
            self.assertEqual([outcome.operation.path for outcome in outcomes], [(f"f{index}",) for index in range(9)])
            self.assertEqual(self.volume.commits, 9, lost)
            self.assertEqual(len(self.volume.files()), 9)

    def test_again_and_again(self) -> None:
        chance = random.Random(4)
        client = self.client()

        def say(payload: bytes, answer: p.Answer) -> Optional[bytes]:
            return None if chance.random() < 0.12 else honestly(payload, answer)

        self.server.say = say
        outcomes = list(client.run(creates(150)))
        self.assertEqual(len(outcomes), 150)
        self.assertEqual((self.volume.commits, len(self.volume.files())), (150, 150))
        self.assertTrue(all(confirmed for *_, confirmed in client.session().ledger.history(client.session().volume())))

    def test_the_server_comes_back(self) -> None:
        client = self.client()
        client.create("/a", b"")
        volume = self.volume
        self.server.close()
        timer = threading.Timer(0.5, lambda: setattr(self, "server", Server(self.room, volume)))
        timer.start()
        client.create("/b", b"")
        timer.join()
        self.assertEqual(volume.commits, 2)

    def test_it_does_not_come_back(self) -> None:
        client = self.client(patience=0.3)
        self.server.say = lambda payload, answer: None
        with self.assertRaises(e.ConnectionFailed):
            client.create("/a", b"")
        with self.assertRaises(e.ConnectionFailed):
            client.stat("/a")

    def test_moved_and_removed_behind_a_loss(self) -> None:
        """What replies say is compared with the tree that all of what was pending leaves."""
        client = self.client()
        operations = [
            Operation(p.MakeDir, ("d",), Moment(1)), Operation(p.Create, ("d", "f"), Moment(2), b"x"), Operation(p.Rename, ("d",), Moment(3), to=("e",)), Operation(p.Remove, ("e", "f"), Moment(4)),
        ]
        for lost in range(17, 140):
            self.server.lost_behind = lost
            self.assertEqual([outcome.code for outcome in client.run(operations)], [p.Code.DONE] * 4, lost)
            client.remove("/e")
        self.assertEqual(self.volume.commits, 5 * (140 - 17))


def is_stat(payload: bytes) -> bool:
    return payload[0] == p.Kind.STAT


def is_get(payload: bytes) -> bool:
    return payload[0] == p.Kind.GET


class Trouble(WithServer):
    """Answers that are no replies."""

    def troubled(self, answer: p.Answer, times: int, committed: bool) -> None:
        left = [times]

        def before(payload: bytes) -> Optional[p.Answer]:
            if left[0] and request_of(payload):
                left[0] -= 1
                if committed:
                    self.volume.answer_payload(payload)
                return answer
            return None

        self.server.before = before

    def test_faults_are_repeated(self) -> None:
        client = self.client()
        for answer in (p.FAULT, p.MEMORY):
            for committed in (False, True):
                for times in (1, 3):
                    count = self.volume.commits
                    self.troubled(answer, times, committed)
                    outcomes = list(client.run(creates(6, count)))
                    self.assertEqual([outcome.code for outcome in outcomes], [p.Code.DONE] * 6)
                    self.assertEqual(self.volume.commits, count + 6)

    def test_faults_that_stay(self) -> None:
        for answer, error in ((p.FAULT, e.DriveFailed), (p.MEMORY, e.OutOfMemory)):
            client = self.client(patience=0.2)
            self.troubled(answer, 1 << 30, False)
            with self.assertRaises(error):
                client.create("/a", b"")
            self.troubled(answer, 0, False)
            self.assertEqual(len(client.resume()), 1)
            client.remove("/a")
            client.close()

    def test_full_gives_the_number_back(self) -> None:
        client = self.client()
        client.create("/a", b"")

        def before(payload: bytes) -> Optional[p.Answer]:
            message = request_of(payload)
            if isinstance(message, p.Create) and len(message.data) > 5 and message.number == self.volume.clients[message.client][0] + 1:
                return p.FULL
            return None

        self.server.before = before
        seen = []
        with self.assertRaises(e.Full) as raised:
            for outcome in client.run(creates(20)):
                seen.append(outcome.operation.path)
        self.assertEqual(seen, [(f"f{index}",) for index in range(6)])
        self.assertIn("/f6", str(raised.exception))
        self.assertEqual(client.create("/small", b"12345"), 8)
        self.assertEqual([number for number, *_ in client.session().ledger.history(client.session().volume())], list(range(1, 9)))

    def test_clients_full(self) -> None:
        self.volume.clients = {client: (1, [p.Committed(p.Code.DONE, Commit(client))]) for client in range(1, 65)}
        self.volume.commits = 64
        client = self.client()
        with self.assertRaisesRegex(e.ClientsFull, "--client"):
            client.create("/a", b"")
        with self.assertRaises(e.ClientsFull):
            client.create("/a", b"")
        known = self.client(os.path.join(self.room, "other.sqlite"), 7)
        self.assertEqual(known.create("/a", b""), 65)

    def test_damaged_and_malformed(self) -> None:
        client = self.client()
        self.server.before = lambda payload: p.DAMAGED
        calls: List[Callable[[], object]] = [lambda: client.create("/a", b""), lambda: client.get("/a")]
        for call in calls:
            with self.assertRaises(e.Damaged):
                call()
        self.server.before = lambda payload: p.Malformed(p.Cause.PATH) if request_of(payload) else None
        with self.assertRaises(e.Rejected):
            client.create("/a", b"")
        self.server.before = lambda payload: None
        self.assertEqual(client.create("/a", b""), 1)

    def test_nonsense(self) -> None:
        """Answers that are none, to requests, to questions and to the probe: each is an error, and nothing is taken for a reply."""
        frames = [
            p.frame(b"\x0b\x00\x01\x00\x00\x00"), b"\xff\xff\xff\xff", p.frame(b""), p.frame(b"\x00"), p.frame(p.encode_answer(p.Data(b"x"))), p.frame(b"\x00\x00\x01\x00\x00\x00x"),
            p.frame(p.encode_answer(p.NOT_FOUND)), os.urandom(64).replace(b"\x00", b"\x01"), p.frame(b"\x64\x00"),
        ]
        for nonsense in frames:
            answers_get = nonsense in (p.frame(p.encode_answer(p.Data(b"x"))), p.frame(p.encode_answer(p.NOT_FOUND)))
            for where in (is_probe, request_of, is_stat, is_get):
                if where is is_get and answers_get:
                    continue
                client = self.client(os.path.join(self.room, f"{random.random()}.sqlite"), patience=0.3)
                self.server.say = lambda payload, answer: nonsense if where(payload) else honestly(payload, answer)
                name = f"/n{self.volume.commits}"
                with self.assertRaises((p.BadAnswer, e.ForeignReply, e.ConnectionFailed), msg=f"{nonsense!r}"):
                    client.create(name, b"data")
                    client.get(name)
                client.close()
        self.server.say = honestly
        self.assertTrue(all(data == b"data" for data in self.volume.files().values()))

    def test_an_early_end(self) -> None:
        client = self.client(patience=0.2)

        def say(payload: bytes, answer: p.Answer) -> Optional[bytes]:
            if payload[0] == p.Kind.STAT:
                return None
            return honestly(payload, answer)[:-1] if request_of(payload) else honestly(payload, answer)

        client.session()
        with client.held():
            # Its conversation is begun, so that the request goes out however little time the next ones have.
            client.stat("/")
            client.line.timeout = 0.2
            self.server.say = say
            with self.assertRaises(e.ConnectionFailed):
                client.create("/a", b"")
        client.line.timeout = PATIENCE
        self.server.say = honestly
        self.assertEqual([code for _, _, code, _ in client.resume()], [p.Code.DONE])
        self.assertEqual(self.volume.commits, 1)


class Two(WithServer):
    """Clients that are served in turn."""

    def test_two_clients_at_once(self) -> None:
        self.client().makedirs("/a")
        self.client(os.path.join(self.room, "b.sqlite")).makedirs("/b")
        errors: List[BaseException] = []

        def work(name: str) -> None:
            try:
                with self.client(os.path.join(self.room, f"two-{name}.sqlite")) as client:
                    done = list(client.run(Operation(p.Create, (name, str(index)), Moment(0), b"x") for index in range(300)))
                    assert [outcome.code for outcome in done] == [p.Code.DONE] * 300
            except BaseException as error:  # pylint: disable=broad-except
                errors.append(error)

        threads = [threading.Thread(target=work, args=(name,)) for name in "ab"]
        # So short that they come in turn.
        with mock.patch("udfburn.wire.retrying.TURN", 0.01):
            for thread in threads:
                thread.start()
            for thread in threads:
                thread.join()
        self.assertEqual(errors, [])
        self.assertEqual(len(self.volume.files()), 600)


class Turns(WithServer):
    def test_others_get_their_turn(self) -> None:
        """A long conversation is ended between two requests, and between two questions."""
        now = [0]

        def before(payload: bytes) -> None:
            now[0] += 1

        self.server.before = before
        client = self.client()
        # The clock counts what the server was asked. A turn is over after 5 answers: then at most 64 requests with a question each were
        # sent, or 20 questions, however far the server is ahead.
        clock = SimpleNamespace(monotonic=lambda: now[0], sleep=time.sleep)
        with mock.patch("udfburn.wire.retrying.TURN", 4), mock.patch("udfburn.wire.retrying.time", clock):
            list(client.run(creates(400)))
            imports = self.server.conversations
            self.assertGreaterEqual(imports, 400 / 64)
            self.assertEqual(self.volume.commits, 400)
            self.assertEqual(len(list(client.ask_all(p.Get((f"f{index}",)) for index in range(60)))), 60)
            self.assertGreaterEqual(self.server.conversations - imports, 60 / 20)


class Numbers(unittest.TestCase):
    def test_the_probe(self) -> None:
        payload = p.encode_message(p.Remove(7, p.limits.U64, Moment(0), ()))
        self.assertTrue(is_probe(payload))
        self.assertEqual(struct.unpack_from("<Q", payload, 9)[0], (1 << 64) - 1)


if __name__ == "__main__":
    unittest.main()
