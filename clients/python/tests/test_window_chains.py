"""Files that grow, get their names and go, many of these requests under way at once, and conversations that end anywhere among them."""

from __future__ import annotations

import os
import random
import unittest
from hashlib import sha256
from typing import Callable, Dict, List, Optional, Tuple

from udfburn import Client
from udfburn import protocol as p
from udfburn.base import errors as e
from udfburn.base.unfinished import is_unfinished
from udfburn.ledger.records import PLACES
from udfburn.protocol.units import Moment, Size
from udfburn.session.in_flight import GROUP_REQUESTS, GROUPS, Group, InFlightRequest, Window
from udfburn.trees.growing import naming, piece_request
from udfburn.trees.tree import ImportOptions, put_all
from udfburn.wire.operations import Operation, Outcome, Whole

from .model import Directory, File, Volume
from .programs import PATIENCE
from .server import honestly, is_probe, request_of
from .with_window import EARLIER, WithWindow

MEBIBYTE = p.limits.FILE
LATER = Moment(2000)


def piece(mark: int, size: int = MEBIBYTE) -> bytes:
    return bytes((mark,)) * size


def whole_of(path: p.Path, data: bytes) -> Whole:
    return Whole(path, Size(len(data)), sha256(data).digest())


def appended(path: p.Path, index: int, data: bytes, before: bytes, moment: Moment) -> Operation:
    """The request that stores a piece, of somebody who knows what is before it."""
    return piece_request(path, index, data, moment, sha256=sha256(before + data).digest())


GROWN = {f"u{index}": piece(index) + b"end" for index in range(4)}
"""Files that are whole under other names than their own."""


def prepare(volume: Volume) -> None:
    """What is there before."""
    for name, data in GROWN.items():
        volume.enter((name,), File(data, LATER), 0)
    for name in ("old1", "old3", *(f"r{index}" for index in range(8))):
        volume.enter((name,), File(b"old", EARLIER), 0)
    for path in (("dir",), ("dir", "sub")):
        volume.enter(path, Directory(0), 0)
    for path in (("dir", "a"), ("dir", "sub", "b")):
        volume.enter(path, File(b"x", EARLIER), 0)
    volume.enter(("grows",), File(piece(9), EARLIER), 0)


def named(index: int, to: p.Path, replaces: bool = False) -> List[Operation]:
    """The requests that give a file its name."""
    removal = [Operation(p.Remove, to, LATER)] if replaces else []
    return [*removal, naming((f"u{index}",), to, LATER, whole=whole_of(to, GROWN[f"u{index}"]))]


def removals(*paths: p.Path) -> List[Operation]:
    return [Operation(p.Remove, path, LATER) for path in paths]


def operations() -> List[Operation]:
    """Requests of all kinds, all of which may be under way at once."""
    return [
        Operation(p.MakeDir, ("d",), EARLIER), *named(0, ("d", "p0")), *named(1, ("old1",), True),
        piece_request(("v0",), 0, piece(20), EARLIER), appended(("v0",), 1, b"tail", piece(20), LATER),
        *removals(*((f"r{index}",) for index in range(8)), ("dir", "sub", "b"), ("dir", "a"), ("dir", "sub"), ("dir",)),
        *(Operation(p.Create, (f"f{index}",), EARLIER, bytes(index)) for index in range(8)),
        Operation(p.Create, ("v1",), EARLIER), Operation(p.Append, ("v1",), EARLIER, piece(21)), appended(("v1",), 1, b"end", piece(21), EARLIER),
        appended(("grows",), 1, b"more", piece(9), EARLIER), *named(2, ("d", "p2")), *named(3, ("old3",), True),
        Operation(p.Replace, ("f-old",), EARLIER, b"y"), *(Operation(p.Create, (f"g{index}",), EARLIER, b"z") for index in range(5)),
    ]


class WithChains(WithWindow):
    def setUp(self) -> None:
        super().setUp()
        self.operations = operations()
        self.alone = self.made()
        self.expected = self.asked(self.alone, self.operations)

    def made(self) -> Volume:
        volume = Volume()
        self.prepare(volume)
        return volume

    def prepare(self, volume: Volume) -> None:
        prepare(volume)
        volume.enter(("f-old",), File(b"x", EARLIER), 0)


class Done(WithChains):
    """Requests that are all done."""

    def test_all_are_under_way_at_once(self) -> None:
        self.assertEqual({code for code, _ in self.expected}, {p.Code.DONE})
        window, group = Window(), Group()
        for number, operation in enumerate(self.operations, 1):
            if not window.take(group, InFlightRequest(operation, 1, number)):
                window.groups.append(group)
                group = Group()
                self.assertTrue(window.take(group, InFlightRequest(operation, 1, number)))
        self.assertEqual((len(window) + len(group), len(window.groups)), (len(self.operations), 1))

    def test_each_cut(self) -> None:
        """The volume carries out so many of them, and all answers are lost."""
        for requests in range(len(self.operations) + 1):
            with self.subTest(requests=requests), self.fresh(self.prepare) as client:
                self.carried_out_and_lost(requests)
                outcomes = list(client.run(self.operations))
                self.assertEqual([(outcome.code, outcome.commit) for outcome in outcomes], self.expected)
                self.assertEqual((self.volume.files(), self.volume.list()), (self.alone.files(), self.alone.list()))
                self.assertEqual(self.history(client), [(number, 0, number, True) for number in range(1, len(self.operations) + 1)])
                self.assertEqual((client.resume(), self.volume.commits), ([], len(self.operations)))

    def test_lost_again_and_again(self) -> None:
        """Also while the tree is asked."""
        for seed in range(12):
            chance, left = random.Random(seed), [40]
            with self.subTest(seed=seed), self.fresh(self.prepare) as client:
                self.carried_out_and_lost(chance.randrange(20, 45))
                first = self.server.say

                def say(payload: bytes, answer: p.Answer) -> Optional[bytes]:
                    said = first(payload, answer)
                    lost = said and self.volume.commits >= 20 and left[0] > 0 and chance.random() < 0.15
                    left[0] -= bool(lost)
                    return None if lost else said

                self.server.say = say
                self.assertEqual([(outcome.code, outcome.commit) for outcome in client.run(self.operations)], self.expected)
                self.assertEqual((self.volume.files(), self.volume.commits), (self.alone.files(), len(self.operations)))

    def test_it_is_not_asked_for_ever(self) -> None:
        """Where each conversation ends when the tree is asked, that is an error after a while, and the next process learns the rest."""
        client = self.fresh(self.prepare)
        ledger = client.session().ledger.path
        self.carried_out_and_lost(len(self.operations))
        first = self.server.say

        def say(payload: bytes, answer: p.Answer) -> Optional[bytes]:
            said = first(payload, answer)
            return None if said and not is_probe(payload) else said

        self.server.say = say
        client.line.patience.seconds = 0.3
        with client, self.assertRaises(e.ConnectionFailed):
            list(client.run(self.operations))
        self.server.say = honestly
        with self.client(ledger) as second:
            self.assertEqual([(code, commit) for _, _, code, commit in second.resume()], self.expected)

    def test_another_process_finishes_it(self) -> None:
        for requests in range(0, len(self.operations) + 1, 3):
            client = self.fresh(self.prepare)
            self.server.before = lambda payload: p.FAULT if self.volume.commits >= requests and request_of(payload) else None
            self.server.say = lambda payload, answer: honestly(payload, answer) if is_probe(payload) else b"" if answer != p.FAULT else None
            client.line.patience.seconds, client.line.timeout = 0.1, 0.5
            ledger = client.session().ledger.path
            with client:
                try:
                    list(client.run(self.operations))
                except (e.ConnectionFailed, e.DriveFailed):
                    pass
            self.server.before, self.server.say = lambda payload: None, honestly
            with self.subTest(requests=requests), self.client(ledger) as second:
                replies = second.resume()
                # The first one may have had some replies, and may not have sent the last ones.
                known = [(number, code, commit) for number, _, code, commit in replies]
                wanted = [(number, code, commit) for number, (code, commit) in enumerate(self.expected, 1)]
                self.assertIn(known, [wanted[begin:end] for begin in range(len(wanted)) for end in range(begin + 1, len(wanted) + 1)])
                self.assertEqual((second.resume(), self.volume.commits), ([], len(self.history(second))))


class Interfered(WithChains):
    """Another client changes what requests were about, before it is known what became of them."""

    def changes(self) -> Dict[str, Callable[[Volume], object]]:
        """What it does, by the path that is named then."""
        def put(path: p.Path, data: bytes, moment: Moment = LATER) -> Callable[[Volume], object]:
            def change(volume: Volume) -> None:
                if path in volume.nodes:
                    volume.nodes[path] = File(data, moment)
                else:
                    volume.enter(path, File(data, moment), 5)
            return change

        def gone(path: p.Path) -> Callable[[Volume], object]:
            return lambda volume: volume.leave(path, 5)

        alike = GROWN["u0"][:5] + b"!" + GROWN["u0"][6:]
        return {
            "/v0 gone": gone(("v0",)),
            "/v0 with another first piece": put(("v0",), b"!" + piece(20)[1:] + b"tail"),
            "/v0 with another last piece": put(("v0",), piece(20) + b"Tail"),
            "/v0 with another moment": put(("v0",), piece(20) + b"tail", Moment(3)),
            "/v0 with more": put(("v0",), piece(20) + b"tail" + piece(1)),
            "/v0 with less": put(("v0",), piece(20)),
            "/v1 alike": put(("v1",), b"!" + piece(21)[1:] + b"end", EARLIER),
            "/grows gone": gone(("grows",)),
            "/d/p0 gone": gone(("d", "p0")),
            "/d/p0 alike": put(("d", "p0"), alike),
            "/d/p0 with another at its old name": put(("u0",), GROWN["u0"]),
            "/old1 gone": gone(("old1",)),
            "/old1 with other bytes": put(("old1",), b"old", EARLIER),
            "/r3 again": put(("r3",), b"old", EARLIER),
            "/dir again": put(("dir",), b"", EARLIER),
        }

    def test_what_cannot_be_told(self) -> None:
        for told, change in self.changes().items():
            client = self.fresh(self.prepare)
            self.carried_out_and_lost(len(self.operations))
            first = self.server.say

            def say(payload: bytes, answer: p.Answer) -> Optional[bytes]:
                said = first(payload, answer)
                if said is None:
                    change(self.volume)
                return said

            self.server.say = say
            outcomes: List[Outcome] = []
            path = told.split()[0]
            with self.subTest(told), client:
                with self.assertRaisesRegex(e.ReplyNotKept, f"^{path}: not known to be done"):
                    outcomes.extend(client.run(self.operations))
                unknown = {number for number, code, _, _ in self.history(client) if code is None}
                paths = {p.show(self.operations[number - 1].to or self.operations[number - 1].path) for number in unknown}
                self.assertEqual(paths, {path})
                self.assertEqual(len(outcomes), len(self.operations) - len(unknown))
                self.assertEqual({outcome.code for outcome in outcomes}, {p.Code.DONE})
                self.assertEqual((self.volume.commits, client.resume()), (len(self.operations), []))


class Refused(WithChains):
    """Another client was there before: some requests are refused."""

    def prepare(self, volume: Volume) -> None:
        super().prepare(volume)
        # A rename that has nothing to move, and finds a file at the new path; one that finds something there; one without a folder to go to.
        volume.leave(("u0",), 0)
        volume.enter(("d",), Directory(0), 0)
        volume.enter(("d", "p0"), File(b"another's", LATER), 0)
        volume.enter(("d", "p2"), File(GROWN["u2"][:-1] + b"!", LATER), 0)
        # A directory that is not empty, and one that a file of another client keeps.
        volume.nodes[("r3",)] = Directory(0)
        volume.enter(("r3", "x"), File(b"", 0), 0)
        volume.enter(("dir", "sub", "c"), File(b"", 0), 0)
        # Files that were begun otherwise, of the length that the next piece asks for, and of another one.
        volume.enter(("v0",), File(piece(99), LATER), 0)
        volume.enter(("v1",), File(b"short", LATER), 0)
        volume.nodes[("old3",)] = Directory(0)
        volume.enter(("old3", "x"), File(b"", 0), 0)

    def test_nothing_refused_is_called_done(self) -> None:
        refused = {number for number, (code, _) in enumerate(self.expected, 1) if code is not p.Code.DONE}
        self.assertGreater(len(refused), 9)
        unknown = 0
        for requests in range(len(self.operations) + 1):
            told: Dict[int, Tuple[p.Code, int]] = {}
            with self.subTest(requests=requests), self.fresh(self.prepare) as client:
                self.carried_out_and_lost(requests)
                try:
                    for outcome in client.run(self.operations):
                        told[outcome.number] = outcome.code, outcome.commit
                except e.ReplyNotKept:
                    unknown += 1
                for number, code, commit, _ in self.history(client):
                    if code is None:
                        self.assertIn(number, refused)
                        self.assertNotIn(number, told)
                    elif (code, commit) != self.expected[number - 1]:
                        # The directory was there, and a file's second piece with it.
                        self.assertEqual((code, self.operations[number - 1].path), (p.Code.DONE, ("d",)))
                    self.assertEqual(commit, number)
                self.assertEqual((self.volume.commits, client.resume()), (len(self.history(client)), []))
        self.assertGreater(unknown, 30)


class Together(unittest.TestCase):
    """Which requests may be under way with more than three others."""

    def under_way(self, *operations: Operation) -> int:
        """How many of these go out at once with many before them that have to do with nothing."""
        window, group = Window(), Group()
        before = [Operation(p.Create, (f"other{index}",), EARLIER) for index in range(5)]
        wanted = [InFlightRequest(operation, 1, number) for number, operation in enumerate([*before, *operations], 1)]
        taken = 0
        while taken < len(wanted) and window.take(group, wanted[taken]):
            taken += 1
        return taken - len(before)

    def test_pairs(self) -> None:
        create, folder = Operation(p.Create, ("a", "f"), EARLIER, b"x"), Operation(p.MakeDir, ("a",), EARLIER)
        full = piece_request(("a", "f"), 0, piece(1), EARLIER)
        second, third = (appended(("a", "f"), index, piece(2), piece(1) * index, EARLIER) for index in (1, 2))
        remove, above, below = removals(("a", "f"), ("a",), ("a", "f", "x"))
        moved = Operation(p.Rename, ("u",), LATER, to=("a", "f"), whole=whole_of(("a", "f"), b"x"))
        away = Operation(p.Rename, ("a", "f"), LATER, to=("b",), whole=whole_of(("b",), b"x"))
        folder_away = Operation(p.Rename, ("a",), LATER, to=("b",), whole=whole_of(("b",), b"x"))
        plain = moved._replace(whole=None)
        both = [
            (folder, create), (full, second), (second, third), (remove, moved), (remove, above), (below, remove), (folder, moved), (folder, remove), (full, below),
        ]
        for pair in both:
            with self.subTest(pair=[operation.kind.__name__ for operation in pair]):
                self.assertEqual(self.under_way(*pair), 2)
        apart = [
            (create, create), (create, full), (full, third), (second, second), (third, second), (create, remove), (remove, create), (remove, remove),
            (moved, moved), (moved, remove), (remove, away), (full, away), (second, away), (away, full), (create, above), (above, create), (moved, above), (above, moved),
            (folder_away, create), (create, folder_away), (folder_away, remove), (remove, folder_away), (folder_away, moved), (moved, below), (below, moved),
        ]
        for pair in apart:
            with self.subTest(pair=[operation.kind.__name__ for operation in pair]):
                self.assertEqual(self.under_way(*pair), 1)
        for alone in (plain, second._replace(sha256=None)):
            self.assertEqual(self.under_way(alone), 0)

    def test_the_ledger_has_a_place_for_each(self) -> None:
        self.assertLessEqual(GROUPS * GROUP_REQUESTS, PLACES)

    def test_what_has_its_reply_is_no_matter(self) -> None:
        window, group = Window(), Group()
        wanted = [piece_request(("u",), 0, piece(1), EARLIER), appended(("u",), 1, b"end", piece(1), EARLIER), *(Operation(p.Create, (f"f{index}",), EARLIER) for index in range(9))]
        for number, operation in enumerate(wanted, 1):
            self.assertTrue(window.take(group, InFlightRequest(operation, 1, number)))
        window.groups.append(group)
        rename = InFlightRequest(naming(("u",), ("p",), LATER, whole=whole_of(("p",), piece(1) + b"end")), 1, 20)
        for taken in (False, False, True):
            self.assertEqual(window.take(Group(), rename), taken)
            window.pop()


class Stored(WithWindow):
    """Files that are stored from a folder, some in the place of others, and conversations that end anywhere."""

    def contents(self, seed: int) -> Dict[str, bytes]:
        found = {f"photo{index}": random.Random(seed + index).randbytes(MEBIBYTE + 1 + index) for index in range(5)}
        found.update({f"small{index}": random.Random(seed - index).randbytes(index) for index in range(9)})
        return found

    def sources(self, contents: Dict[str, bytes]) -> str:
        folder = os.path.join(self.room, "sources")
        os.makedirs(folder, exist_ok=True)
        for name, data in contents.items():
            with open(os.path.join(folder, name), "wb") as file:
                file.write(data)
        return folder

    def anew(self) -> str:
        """A new volume, and a new ledger."""
        with self.fresh() as client:
            return client.session().ledger.path

    def put(self, ledger: str) -> None:
        with Client(f"unix:{self.server.path}", ledger=ledger, patience=PATIENCE, timeout=PATIENCE, shared=True) as client:
            summary = put_all(client, [(os.path.join(self.room, "sources"), ("x",))], ImportOptions(recursive=True, delete_source=True))
            self.assertEqual(summary.failures, [])

    def test_each_cut(self) -> None:
        """By the same process: each file is there once, each request acts once, and each source goes."""
        contents = self.contents(1)
        requests = 1 + 5 * 3 + 9
        for cut in range(1, requests):
            self.ledger = self.anew()
            self.sources(contents)
            self.silent_for(cut, p.Create)
            with self.subTest(cut=cut):
                self.put(self.ledger)
                self.assertEqual(self.volume.files(), {("x", name): data for name, data in contents.items()})
                self.assertEqual((self.volume.commits, os.listdir(os.path.join(self.room, "sources"))), (requests, []))

    def test_each_cut_of_what_replaces_others(self) -> None:
        """At each moment the old file or the new one is at each path."""
        old, new = self.contents(1), self.contents(100)
        requests = 1 + 5 * 3 + 9 + 5 * 4 + 8
        for cut in range(1, 5 * 4 + 8, 2):
            self.ledger = self.anew()
            self.sources(old)
            self.put(self.ledger)
            self.sources(new)
            self.silent_for(cut, p.Request)
            with self.subTest(cut=cut):
                self.put(self.ledger)
                self.assertEqual(self.volume.files(), {("x", name): data for name, data in new.items()})
                self.assertEqual((self.volume.commits, os.listdir(os.path.join(self.room, "sources"))), (requests, []))

    def test_another_client_at_each_cut(self) -> None:
        """It takes away what is there, or has it alike. No source goes whose bytes are not there; the same command stores the rest."""
        contents = self.contents(1)
        for cut in range(6, 1 + 5 * 3 + 9, 3):
            for change in (self.take_away, self.make_alike):
                self.ledger = self.anew()
                folder = self.sources(contents)
                self.silent_for(cut, p.Create, change)
                with self.subTest(cut=cut, change=change.__name__):
                    try:
                        self.put(self.ledger)
                    except (e.ReplyNotKept, e.ForeignReply, AssertionError):
                        self.assertTrue(os.listdir(folder))
                    for name, data in contents.items():
                        if not os.path.exists(os.path.join(folder, name)):
                            self.assertEqual(self.volume.files()[("x", name)], data)
                    self.server.say = honestly
                    self.put(self.ledger)
                    self.assertEqual({path: data for path, data in self.volume.files().items() if not is_unfinished(path)}, {("x", name): data for name, data in contents.items()})

    def take_away(self) -> None:
        for path in [path for path, node in self.volume.nodes.items() if isinstance(node, File)][::2]:
            self.volume.leave(path, 5)

    def make_alike(self) -> None:
        for path, node in list(self.volume.nodes.items())[::2]:
            if isinstance(node, File) and node.data:
                self.volume.nodes[path] = File(node.data[:-1] + bytes((node.data[-1] ^ 1,)), node.moment)


if __name__ == "__main__":
    unittest.main()
