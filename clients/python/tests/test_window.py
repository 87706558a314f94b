"""Many requests under way, and conversations, clients and servers that end anywhere among them.

What must come out is what the plain volume says of the same requests, one after another.
"""

from __future__ import annotations

import os
import random
import sys
import unittest
from contextlib import suppress
from typing import Callable, Dict, List, Optional, Sequence, Tuple
from unittest import mock

from udfburn import Client
from udfburn import protocol as p
from udfburn.base import errors as e
from udfburn.ledger.records import LARGE_DATA, Pending
from udfburn.protocol.units import Commit, Moment
from udfburn.session.shown import Shown, commits_before
from udfburn.trees.tree import ImportOptions, put_all
from udfburn.wire.connection import Connection
from udfburn.wire.operations import Operation, Outcome

from .model import Directory, File, Volume
from .programs import PATIENCE
from .server import honestly, is_probe, request_of
from .test_kills import killer
from .with_server import creates
from .with_window import EARLIER, WithWindow, tree


class Done(WithWindow):
    """Requests that are all done."""

    def check(self, client: Client, operations: List[Operation]) -> None:
        """All of them are done once, in order, and the client knows each with its commit."""
        expected = self.asked(Volume(), operations)
        outcomes = list(client.run(operations))
        self.assertEqual([outcome.operation for outcome in outcomes], operations)
        self.assertEqual([(outcome.code, outcome.commit) for outcome in outcomes], expected)
        self.assertEqual(self.volume.commits, len(operations))
        self.assertEqual(self.history(client), [(number, 0, number, True) for number in range(1, len(operations) + 1)])

    def test_a_conversation_that_is_lost_after_each_answer(self) -> None:
        for answers in (*range(0, 140, 3), 197, 199):
            client = self.fresh()
            self.lost_after(answers)
            with self.subTest(answers=answers), client:
                self.check(client, tree(98))

    def test_no_answer_to_what_was_carried_out(self) -> None:
        """The replies to all but the last four are gone."""
        for requests in (1, 3, 4, 5, 6, 29, 30, 31, 40, 59, 60):
            client = self.fresh()
            self.carried_out_and_lost(requests)
            with self.subTest(requests=requests), client:
                self.check(client, tree(98))
                self.assertGreater(self.server.conversations, 1)

    def test_again_and_again_while_it_is_asked(self) -> None:
        """Each conversation but the last ends after some answers, also those in which the tree is asked."""
        chance, client = random.Random(3), self.fresh()
        self.carried_out_and_lost(60)
        first = self.server.say

        def say(payload: bytes, answer: p.Answer) -> Optional[bytes]:
            said = first(payload, answer)
            return None if said and self.volume.commits >= 60 and chance.random() < 0.1 else said

        self.server.say = say
        with client:
            self.check(client, tree(70))

    def test_faults_among_many(self) -> None:
        """Of requests that are committed, and of such that are not: those after one that is not are not either, until it is sent again."""
        for failing in (1, 2, 30, 33, 60):
            for committed in (False, True):
                for answer in (p.FAULT, p.MEMORY):
                    client = self.fresh()
                    left = [1]

                    def before(payload: bytes) -> Optional[p.Answer]:
                        request = request_of(payload)
                        if request is None or request.number != failing or not left[0]:
                            return None
                        left[0] -= 1
                        if committed:
                            self.volume.answer_payload(payload)
                        return answer

                    self.server.before = before
                    with self.subTest(failing=failing, committed=committed), client:
                        self.check(client, tree(98))

    def test_another_process_finishes_it(self) -> None:
        """It learns of each what became of it, as the first one would have."""
        operations = tree(58)
        for requests in (0, 1, 20, 56, 60):
            client = self.fresh()
            self.server.before = lambda payload: p.FAULT if self.volume.commits >= requests and request_of(payload) else None
            self.server.say = lambda payload, answer: honestly(payload, answer) if is_probe(payload) else b"" if answer != p.FAULT else None
            client.line.patience.seconds = 0.1
            client.line.timeout = 0.5
            with client, self.assertRaises((e.ConnectionFailed, e.DriveFailed)):
                ledger = client.session().ledger.path
                list(client.run(operations))
            self.server.before, self.server.say = lambda payload: None, honestly
            with self.subTest(requests=requests), self.client(ledger) as second:
                self.assertEqual(self.volume.commits, requests)
                replies, wanted = second.resume(), [(n, p.show(o.path), p.Code.DONE, n) for n, o in enumerate(operations, 1)]
                # The first one may have had some replies.
                self.assertEqual(replies, wanted[-len(replies) :])
                self.assertGreaterEqual(len(replies), 56)
                self.assertEqual((self.volume.commits, second.resume()), (60, []))
                self.assertEqual([known[:3] for known in self.history(second)], [(number, 0, number) for number in range(1, 61)])
                self.assertTrue(all(sure for *_, sure in self.history(second)[-len(replies) :]))
                self.assertEqual(second.create("/after", b""), 61)

    def test_beside_the_commits_of_others(self) -> None:
        """Those before and after the conversation. The commits of requests whose replies are gone are their own."""
        other = self.client(os.path.join(self.room, "other.sqlite"))
        list(other.run(creates(7)))
        operations = tree(60)
        self.carried_out_and_lost(50)
        first = self.server.say

        def say(payload: bytes, answer: p.Answer) -> Optional[bytes]:
            said = first(payload, answer)
            if said is None:
                # Before this client is served again.
                for number in range(8, 11):
                    self.volume.answer(p.Create(other.session().ledger.client, number, Moment(0), (f"other{number}",), b""))
            return said

        self.server.say = say
        outcomes = list(self.client().run(operations))
        self.assertEqual([(outcome.code, outcome.commit) for outcome in outcomes], [(p.Code.DONE, 7 + n + 3 * (n > 50)) for n in range(1, 63)])

    def test_replies_with_commits_between(self) -> None:
        """They are not those to requests of one conversation."""
        replies = [p.Committed(p.Code.DONE, Commit(commit)) for commit in (12, 13, 14, 15)]
        self.assertEqual(commits_before(7, replies), 5)
        for wrong in range(1, 4):
            with self.assertRaises(e.ForeignReply):
                commits_before(7, [*replies[:wrong], p.Committed(p.Code.DONE, Commit(replies[wrong].commit + 1)), *replies[wrong + 1 :]])


class Refused(WithWindow):
    """Requests that are refused among others whose replies are gone."""

    def others(self, volume: Volume) -> None:
        """What another client has at some paths: a file with the same moment and size, and other bytes; one with the same bytes and another
        moment; one with another size; a directory; and a file where a folder is wanted."""
        for folder in ("d", "e", "g7"):
            volume.enter((folder,), Directory(0), 0)
        for name, data, moment in (("f1", b"\xff", EARLIER), ("f3", bytes(3), Moment(9)), ("f5", b"", EARLIER)):
            volume.enter(("e", name), File(data, moment), 0)
        volume.enter(("file",), File(b"", EARLIER), 0)

    def setUp(self) -> None:
        super().setUp()
        files = [Operation(p.Create, ("e", f"f{index}"), EARLIER, bytes(index)) for index in range(30)]
        wanted = [Operation(p.Create, (f"g{index}",), EARLIER, bytes(index)) for index in range(20)]
        folders = [Operation(p.MakeDir, ("file",), EARLIER), Operation(p.Create, ("file", "below"), EARLIER, b"x")]
        replaced = [Operation(p.Replace, (name,), EARLIER, b"y") for name in ("none", "d")]
        self.operations = files + wanted + folders + replaced + [Operation(p.Create, (f"h{index}",), EARLIER, b"z") for index in range(10)]

    def test_nothing_refused_is_called_done(self) -> None:
        """What is refused is told as it was where the reply is known, and else it is an error that names just these; nothing is done twice."""
        alone = Volume()
        self.others(alone)
        expected = self.asked(alone, self.operations)
        refused = {index for index, (code, _) in enumerate(expected) if code is not p.Code.DONE}
        self.assertEqual(len(refused), 8)
        stale = 0
        for requests in (0, 2, 5, 8, 20, 40, 52, 55, 57, 58, 60):
            client = self.fresh(self.others)
            self.carried_out_and_lost(requests)
            gone = {index for index in refused if index < requests - 4}
            outcomes: List[Outcome] = []
            with self.subTest(requests=requests), client:
                try:
                    outcomes.extend(client.run(self.operations))
                    self.assertFalse(gone)
                except e.ReplyNotKept as error:
                    self.assertEqual(str(error).split(": ", 1)[0], ", ".join(p.show(self.operations[index].path) for index in sorted(gone)))
                    stale += len(gone)
                told = {self.operations.index(outcome.operation): (outcome.code, outcome.commit) for outcome in outcomes}
                self.assertEqual(told, {index: reply for index, reply in enumerate(expected) if index in told})
                self.assertFalse(gone & set(told))
                if not gone:
                    self.assertEqual(len(told), len(self.operations))
                self.assertEqual(client.resume(), [])
                known = dict((number, (code, commit)) for number, code, commit, _ in self.history(client))
                self.assertEqual(known, {n: (None if n - 1 in gone else int(expected[n - 1][0]), n) for n in known})
                self.assertEqual(self.volume.commits, len(known))
                self.assertEqual(client.create("/after", b""), len(known) + 1)
        self.assertGreater(stale, 10)

    def test_a_reply_that_came_is_known(self) -> None:
        """Also where the conversation ended before the tree was asked whether it agrees."""
        client = self.fresh(self.others)
        lost: List[bool] = []

        def say(payload: bytes, answer: p.Answer) -> Optional[bytes]:
            request = request_of(payload)
            if lost or is_probe(payload) or request is not None and request.number <= 2:
                return honestly(payload, answer)
            if self.volume.commits >= 30:
                lost.append(True)
                return None
            # To the question after the first request, and to none that comes then.
            return honestly(payload, answer) if self.volume.commits == 1 else b""

        self.server.say = say
        operations = self.operations[:2] + self.operations[6:37]
        with client:
            outcomes = list(client.run(operations))
        self.assertEqual([outcome.code for outcome in outcomes], [p.Code.DONE, p.Code.EXISTS] + [p.Code.DONE] * 31)


class Careful(WithWindow):
    """Requests of which the tree does not show what became: so few are under way that their replies are kept."""

    def run_lost(self, operations: List[Operation], lose: Callable[[], None]) -> List[Tuple[p.Code, int]]:
        with self.fresh() as client:
            lose()
            outcomes = list(client.run(operations))
            self.assertEqual([outcome.operation for outcome in outcomes], operations)
            self.assertEqual(client.resume(), [])
        return [(outcome.code, outcome.commit) for outcome in outcomes]

    def test_any_requests(self) -> None:
        """Chains of renames, removals, appends, and a path again and again: all replies are those of one after another, as far as no more
        than four were under way. Of others what is called done is so, and what was done is never called unknown."""
        exactly = 0
        for seed in range(60):
            chance = random.Random(seed)
            operations = [self.some(chance) for _ in range(60)]
            alone = Volume()
            expected = self.asked(alone, operations)
            answers = chance.randrange(130)
            with self.subTest(seed=seed), self.fresh() as client:
                self.silent_after(answers)
                outcomes: List[Outcome] = []
                with suppress(e.ReplyNotKept):
                    outcomes.extend(client.run(operations))
                told = {self.number_of(outcome.operation, operations): (outcome.code, outcome.commit) for outcome in outcomes}
                for number, code, commit, _ in self.history(client):
                    true, at = expected[number - 1]
                    self.assertEqual(commit, at)
                    self.assertEqual(told.get(number, (code, at)), (code, at))
                    if code != true:
                        self.assertTrue(code is None and true is not p.Code.DONE or self.is_as_good(operations[number - 1], true, code))
                exactly += [(outcome.code, outcome.commit) for outcome in outcomes] == expected
                self.assertEqual(client.resume(), [])
                if len(told) == len(operations):
                    self.assertEqual((self.volume.files(), self.volume.list()), (alone.files(), alone.list()))
        self.assertGreater(exactly, 30)

    def number_of(self, operation: Operation, operations: List[Operation]) -> int:
        return next(number for number, other in enumerate(operations, 1) if other is operation)

    def is_as_good(self, operation: Operation, true: p.Code, code: Optional[int]) -> bool:
        """Whether a request that was refused may be called done: the tree had what it asked for."""
        refusal = p.Code.NOT_FOUND if operation.kind is p.Remove else p.Code.EXISTS
        return code == p.Code.DONE and true is refusal

    def test_each_kind_alone(self) -> None:
        """Each at a path of its own, and files replaced again and again."""
        names = [f"f{index}" for index in range(40)]
        made = [Operation(p.Create, (name,), EARLIER, b"x") for name in names[::2]]
        kinds: List[List[Operation]] = [
            [Operation(p.Rename, (name,), EARLIER, to=(f"g{name}",)) for name in names],
            [Operation(p.Replace, (name,), EARLIER, bytes([turn])) for name in names[:2] for turn in range(20)],
        ]
        for operations in kinds:
            expected = self.asked(Volume(), made + operations)
            for answers in (40, 41, 43, 50, 67):
                with self.subTest(kind=operations[0].kind, answers=answers):
                    self.assertEqual(self.run_lost(made + operations, lambda: self.silent_after(answers)), expected)

    def some(self, chance: random.Random) -> Operation:
        """An operation at one of few paths, which is refused as often as it is done."""
        folders: List[p.Path] = [(), ("a",), ("b",)]
        path = (*chance.choice(folders), chance.choice("abcd"))
        kinds = [p.Create, p.MakeDir, p.Rename, p.Remove, p.Replace, p.Append, p.Rename]
        kind = chance.choice(kinds)
        to = (*chance.choice(folders), chance.choice("abcd")) if kind is p.Rename else ()
        data = bytes(chance.randrange(1, 9)) if kind in (p.Create, p.Replace, p.Append) else b""
        return Operation(kind, path, Moment(chance.randrange(99)), data, to)

    def test_a_chain_of_renames_after_many_files(self) -> None:
        chain = [Operation(p.Rename, (f"f{index}",), Moment(1), to=(f"f{index + 1}",)) for index in range(39, 49)]
        operations = creates(40) + chain + creates(30, 100)
        expected = self.asked(Volume(), operations)
        for answers in (*range(0, 84, 6), *range(84, 112)):
            with self.subTest(answers=answers):
                self.assertEqual(self.run_lost(operations, lambda: self.silent_after(answers)), expected)


class Interfered(WithWindow):
    """Another client changes a path before it is known what became of the request."""

    def test_a_source_is_there_while_its_file_is_not(self) -> None:
        for change in ("removed", "replaced", "alike"):
            client = self.fresh()
            sources = self.sources(50)
            self.carried_out_and_lost(40, p.Create)
            first = self.server.say

            def say(payload: bytes, answer: p.Answer) -> Optional[bytes]:
                said = first(payload, answer)
                if said is None:
                    self.change(change)
                return said

            self.server.say = say
            with self.subTest(change=change), client:
                with self.assertRaisesRegex(e.ReplyNotKept, "^/x/f17: not known to be done"):
                    put_all(client, [(sources, ("x",))], ImportOptions(recursive=True, delete_source=True))
                self.assertTrue(os.path.exists(os.path.join(sources, "f17")))
                # The same command again stores it, and then nothing is left.
                put_all(client, [(sources, ("x",))], ImportOptions(recursive=True, delete_source=True))
            self.assertEqual(os.listdir(sources), [])
            self.assertEqual(self.volume.files(), {("x", f"f{index}"): self.content(index) for index in range(50)})

    def test_a_source_that_is_other_data_by_now(self) -> None:
        """Its number is used up. That is known too where the reply to this comes from a conversation that was lost."""
        client = self.fresh()
        sources = self.sources(40)
        self.server.before = lambda payload: p.FAULT if isinstance(request_of(payload), p.Create) else None
        client.line.patience.seconds = 0.1
        with client, self.assertRaises(e.DriveFailed):
            ledger = client.session().ledger.path
            put_all(client, [(sources, ("x",))], ImportOptions(recursive=True))
        with open(os.path.join(sources, "f13"), "ab") as file:
            file.write(b"more")
        lost: List[bool] = []

        def say(payload: bytes, answer: p.Answer) -> Optional[bytes]:
            request = p.decode_message(payload)
            if not lost and isinstance(request, p.Remove) and isinstance(answer, p.Committed) and answer.code is p.Code.ROOT:
                lost.append(True)
                return None
            return honestly(payload, answer)

        self.server.before, self.server.say = lambda payload: None, say
        with self.client(ledger) as second:
            replies = second.resume()
            self.assertEqual({path for _, path, code, _ in replies if code is not p.Code.DONE}, {"/x/f13"})
            self.assertEqual((list(second.take_not_stored().values()), len(lost), len(replies)), (["/x/f13"], 1, 40))
            self.assertEqual(self.volume.commits, 41)

    def content(self, index: int) -> bytes:
        return random.Random(index).randbytes(LARGE_DATA + index if index % 9 == 4 else index)

    def sources(self, count: int) -> str:
        folder = os.path.join(self.room, "sources")
        os.makedirs(folder, exist_ok=True)
        for index in range(count):
            with open(os.path.join(folder, f"f{index}"), "wb") as file:
                file.write(self.content(index))
        return folder

    def change(self, change: str) -> None:
        """What another client does to a file."""
        path = ("x", "f17")
        node = self.volume.nodes[path]
        assert isinstance(node, File)
        if change == "removed":
            self.volume.leave(path, 5)
        elif change == "replaced":
            self.volume.nodes[path] = File(b"other", 5)
        else:
            # Nobody could tell it by moment and size.
            self.volume.nodes[path] = File(bytes(len(node.data)), node.moment)


class Killed(WithWindow):
    """A client that ends before any of its lines, in an import that deletes its sources."""

    FILES = 70

    def test_before_any_line(self) -> None:
        folder = os.path.join(self.room, "sources")
        contents = {f"f{index}": random.Random(index).randbytes(LARGE_DATA + 1 if index % 9 == 4 else index) for index in range(self.FILES)}
        stale: List[int] = []
        killed, lines, kills = True, 5, 0
        while killed:
            self.server.volume = Volume()
            for end in ("", "-wal", "-shm", ".lock"):
                if os.path.exists(self.ledger + end):
                    os.unlink(self.ledger + end)
            os.makedirs(folder, exist_ok=True)
            for name, data in contents.items():
                with open(os.path.join(folder, name), "wb") as file:
                    file.write(data)
            killed = self.killed_at(folder, lines)
            kills += killed
            lines += 137
            self.check_left(folder, contents)
            stale.append(self.finished(folder))
            self.assertEqual(self.volume.files(), {("x", name): data for name, data in contents.items()})
            self.assertEqual(self.volume.commits, 1 + self.FILES, "each request once")
        self.assertGreater(kills, 50)
        self.assertGreater(max(stale), 20, "replies that were not kept")

    def killed_at(self, folder: str, lines: int) -> bool:
        child = os.fork()
        if not child:
            status = 1
            try:
                with Client(f"unix:{self.server.path}", ledger=self.ledger, patience=PATIENCE) as client:
                    sys.settrace(killer(lines))
                    put_all(client, [(folder, ("x",))], ImportOptions(recursive=True, delete_source=True))
                    status = 0
            finally:
                sys.settrace(None)
                os._exit(status)
        return os.WIFSIGNALED(os.waitpid(child, 0)[1])

    def check_left(self, folder: str, contents: Dict[str, bytes]) -> None:
        """What is gone is on the volume."""
        files = self.volume.files()
        for name, data in contents.items():
            if not os.path.exists(os.path.join(folder, name)):
                self.assertEqual(files[("x", name)], data)

    def finished(self, folder: str) -> int:
        """Finishes the import, and gives how many requests the tree was asked of."""
        asked: List[int] = []
        real = Shown.tree_has

        def tree_has(found: Shown, connection: Connection, waiting: Pending, committed: Sequence[Pending]) -> bool:
            asked.append(waiting.number)
            return real(found, connection, waiting, committed)

        with mock.patch.object(Shown, "tree_has", tree_has), self.client() as client:
            put_all(client, [(folder, ("x",))], ImportOptions(recursive=True, delete_source=True))
            self.assertEqual(os.listdir(folder), [])
            self.assertEqual([code for _, code, _, sure in self.history(client) if sure], [0] * self.volume.commits)
            self.assertEqual([commit for _, _, commit, _ in self.history(client)], list(range(1, self.volume.commits + 1)))
        return len(asked)


if __name__ == "__main__":
    unittest.main()
