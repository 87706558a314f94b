"""Files above a mebibyte that are stored as one: piece by piece under a name of the client's own, and then under their own."""

from __future__ import annotations

import hashlib
import os
import random
import unittest
from typing import Any, Callable, Dict, List, Optional, Tuple
from unittest import mock

from udfburn import Client
from udfburn.base import errors as e
from udfburn import protocol as p
from udfburn.wire.operations import Operation
from udfburn.trees.tree import ImportOptions, ImportSummary, put_all
from udfburn.base.unfinished import UNDER_WAY, UNFINISHED_PREFIX, unfinished_path
from udfburn.protocol.units import Moment

from .model import File, Volume
from .server import honestly, request_of
from .with_files import Local

MEBIBYTE = p.limits.FILE
THREE = 3 * MEBIBYTE
PHOTO = 2 * MEBIBYTE + 700_000
"""Bytes of a photo of 2.7 MiB: three pieces."""


def content(seed: int, size: int = PHOTO) -> bytes:
    return random.Random(seed).randbytes(size)


class Growing(Local):
    def put_with(self, client: Client, **options: object) -> ImportSummary:
        return put_all(client, [(self.folder, ("x",))], ImportOptions(recursive=True, **options))  # type: ignore[arg-type]

    def files(self) -> Dict[str, bytes]:
        return {p.show(path): data for path, data in self.volume.files().items()}

    def unfinished(self) -> List[str]:
        return [path for path in self.files() if path.startswith("/" + UNFINISHED_PREFIX)]

    def requests(self) -> List[Tuple[str, p.Path]]:
        """The kinds of the requests that were answered, with their paths, each once."""
        found: Dict[int, Tuple[str, p.Path]] = {}
        for payload in self.server.payloads:
            request = request_of(payload)
            if request is not None:
                found.setdefault(request.number, (type(request).__name__, request.path))
        return list(found.values())

    def die_before(self, count: int) -> None:
        """The conversation ends before the answer to the request of this count, and each after it."""
        left = [count]

        def say(payload: bytes, answer: p.Answer) -> Optional[bytes]:
            if request_of(payload) is not None:
                left[0] -= 1
            return None if left[0] < 0 else honestly(payload, answer)

        self.server.say = say

    def revive(self) -> None:
        self.server.say = honestly


class Put(Growing):
    def test_one_file_by_four_requests(self) -> None:
        """A request for each mebibyte, and the one that gives the name: at its path the file is never there in part."""
        data = content(1)
        os.utime(self.write("photo.jpg", data), (1_000_000_000, 1_000_000_000))
        seen: List[int] = []

        def say(payload: bytes, answer: p.Answer) -> bytes:
            node = self.volume.nodes.get(("x", "photo.jpg"))
            seen.append(len(node.data) if isinstance(node, File) else 0)
            return honestly(payload, answer)

        self.server.say = say
        summary = self.put()
        self.assertEqual((summary.files, summary.bytes, summary.failures), (1, PHOTO, []))
        self.assertEqual(self.files(), {"/x/photo.jpg": data})
        self.assertEqual(set(seen), {0, PHOTO})
        client = self.client()
        name = unfinished_path(client.session().ledger.client, ("x", "photo.jpg"))
        self.assertEqual(
            self.requests(), [("MakeDir", ("x",)), ("Create", name), ("Append", name), ("Append", name), ("Rename", name)],
        )
        self.assertEqual(client.stat("/x/photo.jpg").moment, 1_000_000_000_000_000)
        self.assertEqual(client.digest_of("/x/photo.jpg"), hashlib.sha256(data).digest())

    def test_sizes(self) -> None:
        for size in (MEBIBYTE, MEBIBYTE + 1, 2 * MEBIBYTE - 1, 2 * MEBIBYTE, 2 * MEBIBYTE + 1):
            self.write(f"f{size}", content(size, size))
        self.assertEqual(self.put(verify=True).verified, 5)
        self.assertEqual(self.files(), {f"/x/f{size}": content(size, size) for size in (MEBIBYTE, MEBIBYTE + 1, 2 * MEBIBYTE - 1, 2 * MEBIBYTE, 2 * MEBIBYTE + 1)})

    def test_too_large(self) -> None:
        """Above what a file may have nothing is sent."""
        with open(self.write("big", b""), "r+b") as file:
            file.truncate(p.limits.GREATEST_FILE + 1)
        with self.assertRaisesRegex(e.DoesNotFit, "has 921698305 bytes, and a file has at most 921698304"):
            self.put()
        self.assertEqual(self.volume.commits, 0)

    def test_what_is_the_same_is_left_alone(self) -> None:
        self.write("a", content(1))
        self.write("b", content(2))
        self.put()
        commits = self.volume.commits
        self.assertEqual(self.put().same, 2)
        self.assertEqual(self.volume.commits, commits)
        # The last byte of the last piece decides too.
        self.write("a", content(1)[:-1] + bytes((content(1)[-1] ^ 1,)))
        summary = self.put(delete_source=True, verify=True)
        self.assertEqual((summary.same, summary.files, summary.verified, summary.deleted), (1, 1, 1, 2))
        self.assertEqual(self.files()["/x/a"][-1], content(1)[-1] ^ 1)

    def test_replaced(self) -> None:
        """The old file goes right before the new one, which is whole by then, gets its name. At each moment one of them is there."""
        for before, after in ((PHOTO, THREE), (500, PHOTO), (PHOTO, 500)):
            self.server.volume = Volume()
            self.ledger = os.path.join(self.room, f"{before}-{after}.sqlite")
            old, new = content(1, before), content(2, after)
            self.write("f", old)
            self.put()
            self.write("f", new)
            there: List[bool] = []

            def say(payload: bytes, answer: p.Answer) -> bytes:
                there.append(bool({old, new} & set(self.files().values())))
                return honestly(payload, answer)

            self.server.say = say
            self.assertEqual(self.put().failures, [])
            self.assertEqual((self.files(), set(there)), ({"/x/f": new}, {True}))
            self.revive()

    def test_rewrite(self) -> None:
        self.write("a", content(1))
        self.put()
        commits = self.volume.commits
        self.assertEqual(self.put(rewrite=True).files, 1)
        self.assertEqual(self.volume.commits, commits + 5)
        self.assertEqual(self.files(), {"/x/a": content(1)})

    def test_dry_run(self) -> None:
        self.write("a", content(1))
        told: List[Any] = []
        with self.client() as client:
            summary = put_all(client, [(self.folder, ("x",))], ImportOptions(recursive=True, dry_run=True), lambda *words: told.append(words))
        self.assertIn(("would store", ("x", "a"), PHOTO, 0), told)
        self.assertEqual((summary.bytes, self.volume.commits, os.path.exists(self.ledger)), (PHOTO, 0, False))

    def test_many(self) -> None:
        """Files that grow beside one another, and small ones between."""
        wanted = {}
        for index in range(30):
            size = (700, MEBIBYTE + index, MEBIBYTE + 1)[index % 3]
            wanted[f"/x/f{index}"] = content(index, size)
            self.write(f"f{index}", wanted[f"/x/f{index}"])
        most = [0]

        def say(payload: bytes, answer: p.Answer) -> bytes:
            most[0] = max(most[0], len(self.unfinished()))
            return honestly(payload, answer)

        self.server.say = say
        self.assertEqual(self.put(delete_source=True).deleted, 30)
        self.assertEqual(self.files(), wanted)
        self.assertTrue(4 < most[0] <= UNDER_WAY, most)

    def test_names_that_are_kept(self) -> None:
        """Nothing of a user's gets a name that unfinished files have: a client would remove it."""
        local = self.write("a", b"mine")
        with self.client() as client:
            for what, told in ((local, "not whole"), (os.path.dirname(local), "not finished")):
                with self.assertRaisesRegex(e.DoesNotFit, told):
                    put_all(client, [(what, (UNFINISHED_PREFIX + "1",))], ImportOptions(recursive=True))
        self.assertEqual(self.volume.commits, 0)


class Interrupted(Growing):
    """What an earlier run began."""

    def test_cut_before_each_answer(self) -> None:
        """A process that ends before the answer to each of its requests, and the same command again: every request acts once, and the
        pieces that were stored are not stored again."""
        data, old = content(1), content(9, 40_000)
        for count in range(7):
            with self.subTest(count):
                self.server.volume = Volume()
                self.ledger = os.path.join(self.room, f"cut{count}.sqlite")
                self.write("photo", old)
                self.put()
                local = self.write("photo", data)
                self.die_before(count)
                with self.client(patience=0) as client:
                    try:
                        self.put_with(client, delete_source=True)
                    except e.UdfburnError:
                        self.assertTrue(os.path.exists(local))
                self.revive()
                self.assertEqual([found for found in self.files().values() if found in (old, data)][:1] != [], True)
                with self.client() as client:
                    summary = self.put_with(client, delete_source=True)
                    self.assertEqual((summary.failures, os.path.exists(local)), ([], False))
                    self.assertEqual(client.digest_of("/x/photo"), hashlib.sha256(data).digest())
                self.assertEqual(self.files(), {"/x/photo": data})
                # MakeDir and Create of the old one, then three pieces, Remove and Rename: each once.
                self.assertEqual(self.volume.commits, 7)

    def stop_after(self, pieces: int, seed: int = 1) -> str:
        """An unfinished file with so many pieces, as a run leaves it that was killed."""
        local = self.write("photo", content(seed))
        with self.client() as client:
            name = unfinished_path(client.session().ledger.client, ("x", "photo"))
            client.mkdir("/x", Moment(1))
            for index in range(pieces):
                piece = content(seed)[index * MEBIBYTE : (index + 1) * MEBIBYTE]
                (outcome,) = client.run([Operation(p.Append if index else p.Create, name, Moment(2), piece, offset=index * MEBIBYTE)])
                self.assertEqual(outcome.code, p.Code.DONE)
        return local

    def test_gone_on_with(self) -> None:
        for pieces in (1, 2, 3):
            self.server.volume = Volume()
            self.ledger = os.path.join(self.room, f"on{pieces}.sqlite")
            self.stop_after(pieces)
            summary = self.put(verify=True, delete_source=True)
            self.assertEqual((summary.failures, summary.deleted), ([], 1))
            self.assertEqual((self.files(), self.volume.commits), ({"/x/photo": content(1)}, 5))

    def test_what_somebody_changed(self) -> None:
        """One byte of what is there is another, a piece is not whole, or there is more than the source has: it goes first."""
        changes: List[Callable[[bytes], bytes]] = [
            lambda data: data[:-1] + bytes((data[-1] ^ 1,)), lambda data: data[:-1], lambda data: data + bytes(2 * MEBIBYTE), lambda data: b"",
        ]
        for number, change in enumerate(changes):
            self.server.volume = Volume()
            self.ledger = os.path.join(self.room, f"changed{number}.sqlite")
            self.stop_after(2)
            (name,) = self.unfinished()
            node = self.volume.nodes[p.path_of(name)]
            assert isinstance(node, File)
            node.data = change(node.data)
            with Client(f"unix:{self.server.path}", ledger=self.ledger, shared=True) as client:
                self.assertEqual(self.put_with(client, delete_source=True).deleted, 1)
            self.assertEqual((self.files(), self.volume.commits), ({"/x/photo": content(1)}, 3 + 1 + 4))

    def test_another_source(self) -> None:
        """The source is another by now, with the same first piece or with none of its bytes."""
        for number, source in enumerate((content(2), content(1)[: 2 * MEBIBYTE - 5] + content(3, MEBIBYTE))):
            self.server.volume = Volume()
            self.ledger = os.path.join(self.room, f"source{number}.sqlite")
            self.stop_after(2)
            self.write("photo", source)
            self.assertEqual(self.put().failures, [])
            self.assertEqual(self.files(), {"/x/photo": source})

    def test_a_lost_ledger(self) -> None:
        """Another client begins anew; the file that the first one did not finish stays."""
        self.stop_after(2)
        (left,) = self.unfinished()
        self.ledger = os.path.join(self.room, "new.sqlite")
        self.assertEqual(self.put(delete_source=True).deleted, 1)
        self.assertEqual(self.files(), {left: content(1)[: 2 * MEBIBYTE], "/x/photo": content(1)})

    def test_a_source_that_changes_meanwhile(self) -> None:
        """It does not get its name, it is not deleted, and the same command stores it as it is then."""
        local = self.write("photo", content(1))

        def say(payload: bytes, answer: p.Answer) -> bytes:
            request = request_of(payload)
            if isinstance(request, p.Create):
                with open(local, "r+b") as file:
                    file.seek(PHOTO - 9)
                    file.write(b"different")
            return honestly(payload, answer)

        # More than is read ahead.
        data = content(1, 18 * MEBIBYTE)
        with open(local, "wb") as file:
            file.write(data)
        self.server.say = say
        summary = self.put(delete_source=True)
        self.assertEqual((len(summary.failures), os.path.exists(local), list(self.files())), (1, True, self.unfinished()))
        self.assertIn("changed while it was read", summary.failures[0])
        self.revive()
        self.assertEqual(self.put(delete_source=True).deleted, 1)
        self.assertEqual(self.files(), {"/x/photo": data[: PHOTO - 9] + b"different" + data[PHOTO:]})

    def test_full(self) -> None:
        """The medium is full in the middle: nothing has the file's name, its source stays, and small files still fit."""
        local = self.write("photo", content(1))

        def before(payload: bytes) -> Optional[p.Answer]:
            return p.FULL if isinstance(request_of(payload), p.Append) else None

        self.server.before = before
        with self.assertRaisesRegex(e.Full, UNFINISHED_PREFIX):
            self.put(delete_source=True)
        self.assertTrue(os.path.exists(local))
        self.assertEqual(list(self.files()), self.unfinished())
        self.server.before = lambda payload: None
        self.assertEqual(self.put(delete_source=True).deleted, 1)
        self.assertEqual(self.files(), {"/x/photo": content(1)})

    def test_full_after_a_whole_one(self) -> None:
        """What is whole by then has its name."""
        self.write("a", content(1))
        self.write("b", content(2))

        def before(payload: bytes) -> Optional[p.Answer]:
            request = request_of(payload)
            return p.FULL if isinstance(request, p.Append) and len(self.unfinished()) == 2 else None

        self.server.before = before
        with self.assertRaises(e.Full):
            self.put(delete_source=True)
        self.assertEqual(len(self.unfinished()), 1)
        self.assertEqual(self.files()["/x/a"], content(1))
        self.assertEqual(sorted(os.listdir(self.folder)), ["a", "b"])
        self.server.before = lambda payload: None
        self.assertEqual(self.put(delete_source=True).deleted, 2)
        self.assertEqual(self.files(), {"/x/a": content(1), "/x/b": content(2)})

    def test_a_piece_that_is_refused(self) -> None:
        """Somebody changes the file between two pieces: it does not get its name, its source stays, and the same command begins anew."""
        for refused in (MEBIBYTE, 2 * MEBIBYTE):
            self.server.volume = Volume()
            self.ledger = os.path.join(self.room, f"refused{refused}.sqlite")
            local = self.write("photo", content(1))

            def before(payload: bytes) -> Optional[p.Answer]:
                request = request_of(payload)
                if isinstance(request, p.Append) and request.offset == refused:
                    node = self.volume.nodes[request.path]
                    assert isinstance(node, File)
                    node.data = node.data[:-1]
                return None

            self.server.before = before
            summary = self.put(delete_source=True)
            self.assertIn("run the same command again", summary.failures[0])
            self.assertEqual((list(self.files()), os.path.exists(local)), (self.unfinished(), True))
            self.server.before = lambda payload: None
            with Client(f"unix:{self.server.path}", ledger=self.ledger, shared=True) as client:
                self.assertEqual(self.put_with(client, delete_source=True).deleted, 1)
            self.assertEqual(self.files(), {"/x/photo": content(1)})

    def test_another_client_makes_the_file(self) -> None:
        """One that another client made meanwhile is replaced, as a small one is."""
        self.write("photo", content(1))
        made = [0]

        def before(payload: bytes) -> Optional[p.Answer]:
            request = request_of(payload)
            if isinstance(request, p.Rename) and not made[0]:
                made[0] += 1
                self.volume.enter(("x", "photo"), File(b"another's", 5), 5)
            return None

        self.server.before = before
        self.assertEqual(self.put().failures, [])
        self.assertEqual(self.files(), {"/x/photo": content(1)})

    def test_another_client_makes_a_directory(self) -> None:
        """That stays, and the file is named."""
        local = self.write("photo", content(1))

        def before(payload: bytes) -> Optional[p.Answer]:
            request = request_of(payload)
            if isinstance(request, p.Rename) and ("x", "photo") not in self.volume.nodes:
                self.volume.operate(p.MakeDir(1, 1, Moment(5), ("x", "photo")))
            return None

        self.server.before = before
        summary = self.put(delete_source=True)
        self.assertIn("is a directory", summary.failures[0])
        self.assertTrue(os.path.exists(local))
        self.assertIn(("x", "photo"), self.volume.nodes)


class InMemory(Growing):
    """`Client.put` of bytes."""

    def test_put(self) -> None:
        with self.client() as client:
            self.assertEqual(client.put("/film", content(1), Moment(7)), 4)
            self.assertEqual((client.get("/film"), client.stat("/film").moment), (content(1), 7))
            self.assertEqual(client.put("/film", content(2, THREE), Moment(8)), 9)
            self.assertEqual(client.digest_of("/film"), hashlib.sha256(content(2, THREE)).digest())
            client.put("/film", b"short")
            self.assertEqual(self.files(), {"/film": b"short"})

    def test_gone_on_with(self) -> None:
        data = content(1)
        for pieces in (1, 2, 3):
            with self.client() as client:
                name = unfinished_path(client.session().ledger.client, ("film",))
                for index in range(pieces):
                    list(client.run([Operation(p.Append if index else p.Create, name, Moment(2), data[index * MEBIBYTE : (index + 1) * MEBIBYTE], offset=index * MEBIBYTE)]))
                commits = self.volume.commits
                client.put("/film", data)
                self.assertEqual(self.volume.commits, commits + 3 - pieces + 1 + (pieces > 1))
                self.assertEqual(self.files(), {"/film": data})

    def test_refusals(self) -> None:
        with self.client() as client:
            client.mkdir("/d")
            for path, error in (("/d", e.IsDirectory), ("/no/film", e.NoParent), ("/" + "/".join("abcdefghijklmnopq"), e.TooDeep)):
                with self.assertRaises(error):
                    client.put(path, content(1))
            with self.assertRaises(e.TooLarge), mock.patch.object(p.limits, "GREATEST_FILE", PHOTO - 1):
                client.put("/film", content(1))
        self.assertEqual(self.volume.commits, 1)


if __name__ == "__main__":
    unittest.main()
