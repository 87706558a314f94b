"""The SHA-256 of what was sent: kept in the ledger, and found again by path and by commit."""

from __future__ import annotations

import hashlib
import io
import json
import os
import random
import sqlite3
import unittest
from contextlib import closing, redirect_stdout
from typing import Dict, List, Optional
from unittest import mock

from udfburn import Client
from udfburn.base import errors as e
from udfburn.commands import cli
from udfburn import protocol as p
from udfburn.ledger.digests import Files, SentFile
from udfburn.wire.operations import Operation
from udfburn.protocol.units import Commit, Moment, Size

from .server import honestly, request_of
from .with_files import store_in_parts
from .with_server import WithServer

FULL = p.limits.FILE
PIECE = bytes(range(256)) * (FULL // 256)


def sha256(data: bytes) -> bytes:
    return hashlib.sha256(data).digest()


class Digests(WithServer):
    def files(self) -> Files:
        with self.client() as client:
            return client.known_files()

    def shown(self) -> Dict[str, bytes]:
        return {p.show(path): known.sha256 for path, known in self.files().now.items()}

    def test_what_is_kept_of_a_file(self) -> None:
        with self.client() as client:
            client.mkdir("/d", Moment(1))
            client.create("/d/a", b"one", Moment(2))
            self.assertEqual(client.known_files().now, {("d", "a"): SentFile(("d", "a"), Size(3), Moment(2), sha256(b"one"), Commit(2), 2)})
            self.assertEqual(client.digest_of("/d/a"), sha256(b"one"))
            self.assertIsNone(client.digest_of("/d"))
            self.assertIsNone(client.digest_of("/no"))

    def test_appended_to(self) -> None:
        """The digest of such a file is that of all its bytes after each piece, and not known after one of which it was not given."""
        first, two, three = sha256(PIECE), sha256(PIECE + PIECE), sha256(PIECE + PIECE + b"end")
        with self.client() as client:
            for given in (None, two):
                steps = (
                    (Operation(p.Replace if given else p.Create, ("a",), Moment(5), PIECE), first),
                    (Operation(p.Append, ("a",), Moment(5), PIECE, offset=FULL, sha256=given), given),
                    (Operation(p.Append, ("a",), Moment(6), b"end", offset=2 * FULL, sha256=three), three),
                )
                for operation, digest in steps:
                    self.assertEqual([outcome.code for outcome in client.run([operation])], [p.Code.DONE])
                    self.assertEqual(client.digest_of("/a"), digest)
            found = client.known_files().by_commit
        self.assertEqual(found[Commit(6)], SentFile(("a",), Size(2 * FULL + 3), Moment(6), three, Commit(6), 6))
        self.assertEqual({commit: known.sha256 for commit, known in found.items()}, {1: first, 3: three, 4: first, 5: two, 6: three})

    def test_a_ledger_without_the_digest_of_a_file(self) -> None:
        with self.client() as client:
            client.create("/a", b"x")
        with closing(sqlite3.connect(self.ledger)) as base, base:
            base.execute("UPDATE request SET sha256 = NULL")
        with self.assertRaisesRegex(e.LedgerError, r"ledger\.sqlite: is not a ledger \(request 1 stored a file, and its digest is not known\)"):
            self.files()

    def test_appended_to_by_an_earlier_version(self) -> None:
        """The ledgers of versions 4 and 5 have the digest of each piece alone, and with the last one that of the file."""
        whole = sha256(PIECE + PIECE + b"end")
        for version in (4, 5):
            with self.subTest(version=version), self.client() as client:
                path = (f"a{version}",)
                pieces = [Operation(p.Create, path, Moment(5), PIECE), Operation(p.Append, path, Moment(5), PIECE, offset=FULL)]
                pieces.append(Operation(p.Append, path, Moment(6), b"end", offset=2 * FULL))
                last = list(client.run(pieces))[-1].number
                client.close()
                with closing(sqlite3.connect(self.ledger)) as base, base:
                    base.execute("UPDATE request SET sha256 = ? WHERE number = ?", (sha256(PIECE), last - 1))
                    row = (sha256(b"end"), p.show(("its own name",)), 2 * FULL + 3, whole, last)
                    base.execute("UPDATE request SET sha256 = ?, whole_path = ?, whole_size = ?, whole_sha256 = ? WHERE number = ?", row)
                    base.execute("UPDATE ledger SET version = ?", (version,))
                found = self.files()
                self.assertEqual((found.now[path].sha256, found.wholes), (whole, {}))
                self.assertNotIn(Commit(last - 1), found.by_commit)

    def test_replaced_moved_and_removed(self) -> None:
        with self.client() as client:
            client.makedirs("/d/e")
            for name in ("a", "b", "c"):
                client.create(f"/d/e/{name}", name.encode())
            client.replace("/d/e/a", b"other")
            client.rename("/d/e/b", "/moved")
            client.remove("/d/e/c")
            client.rename("/d", "/x")
            client.create("/empty", b"")
            self.assertEqual(client.digest_of("/x/e/a"), sha256(b"other"))
            self.assertIsNone(client.digest_of("/d/e/a"))
        self.assertEqual(self.shown(), {"/x/e/a": sha256(b"other"), "/moved": sha256(b"b"), "/empty": sha256(b"")})
        found = {commit: known.sha256 for commit, known in self.files().by_commit.items()}
        self.assertEqual(found, {3: sha256(b"a"), 4: sha256(b"b"), 5: sha256(b"c"), 6: sha256(b"other"), 10: sha256(b"")})

    def test_a_refused_request_stores_nothing(self) -> None:
        with self.client() as client:
            client.create("/a", b"one")
            with self.assertRaises(e.Exists):
                client.create("/a", b"two")
        self.assertEqual(self.shown(), {"/a": sha256(b"one")})

    def test_what_another_client_changed(self) -> None:
        """The ledger does not know of it; the volume's size and moment show it."""
        with Client(f"unix:{self.server.path}", ledger=self.ledger, shared=True) as client:
            client.create("/a", b"one", Moment(5))
            with self.client(os.path.join(self.room, "other.sqlite")) as other:
                other.replace("/a", b"two", Moment(6))
            self.assertIsNone(client.digest_of("/a"))
            self.assertEqual(client.known_files().now[("a",)].sha256, sha256(b"one"))

    def test_behind_a_lost_conversation(self) -> None:
        """The digest of what was pending is that of the bytes that were sent again."""
        lost: List[bool] = []

        def say(payload: bytes, answer: p.Answer) -> Optional[bytes]:
            if request_of(payload) and not lost:
                lost.append(True)
                return None
            return honestly(payload, answer)

        self.server.say = say
        with self.client() as client:
            client.create("/a", b"one")
        self.assertEqual(self.shown(), {"/a": sha256(b"one")})

    def test_a_file_in_parts(self) -> None:
        first, second = bytes(2 * FULL + 5), b"x" * (FULL + 1)
        with self.client() as client:
            self.store(client, first)
            self.assertEqual(client.digest_of("/big"), sha256(first))
            self.assertEqual(client.digest_of("/big.002"), sha256(bytes(5)))
            # As after an interrupted import of other bytes: the first part is newer than the last one.
            client.replace("/big.000", second[:FULL])
            self.assertIsNone(client.digest_of("/big"))
            self.store(client, second)
            client.remove("/big.002")
            self.assertEqual(client.digest_of("/big"), sha256(second))
            client.mkdir("/d")
            for index in range(2):
                client.rename(f"/big.{index:03}", f"/d/big.{index:03}")
            self.assertIsNone(client.digest_of("/big"), "its parts were moved one by one")
            client.rename("/d", "/e")
            self.assertEqual(client.digest_of("/e/big.001"), sha256(b"x"))

    def test_a_directory_with_a_file_in_parts_moves(self) -> None:
        data = bytes(FULL + 5)
        with self.client() as client:
            client.mkdir("/d")
            self.store(client, data, ("d", "big"))
            client.rename("/d", "/e")
            self.assertEqual((client.digest_of("/e/big"), client.digest_of("/d/big")), (sha256(data), None))

    def store(self, client: Client, data: bytes, path: p.Path = ("big",)) -> None:
        store_in_parts(client, path, data)

    def put(self) -> "list[dict[str, object]]":
        """Stores the folder `source` by the command, and gives what it prints for programs."""
        output = io.StringIO()
        words = ["put", "-r", "--json", os.path.join(self.room, "source"), "/x", "--socket", self.server.path, "--ledger", self.ledger]
        with redirect_stdout(output):
            self.assertEqual(cli.main(words), 0)
        return [json.loads(line) for line in output.getvalue().split("\n") if line]

    def write(self, name: str, data: bytes) -> None:
        local = os.path.join(self.room, "source", name)
        os.makedirs(os.path.dirname(local), exist_ok=True)
        with open(local, "wb") as file:
            file.write(data)

    def test_put_prints_them(self) -> None:
        big = random.Random(1).randbytes(2 * FULL + 7)
        self.write("small", b"small")
        self.write("d/big", big)
        stored = {step["path"]: step for step in self.put() if step["did"] == "stored"}
        self.assertEqual(stored["/x/small"]["sha256"], sha256(b"small").hex())
        self.assertEqual((stored["/x/d/big"]["sha256"], stored["/x/d/big"]["bytes"]), (sha256(big).hex(), len(big)))
        with self.client() as client:
            self.assertEqual((client.digest_of("/x/d/big"), client.digest_of("/x/small")), (sha256(big), sha256(b"small")))

    def test_it_is_of_what_was_sent(self) -> None:
        """And not of a second read: the file is read once."""
        self.write("a", b"once")
        reads, real = [], os.read

        def read(descriptor: int, count: int) -> bytes:
            data = real(descriptor, count)
            reads.append(data)
            return data

        with mock.patch("udfburn.local.sources.os.read", read):
            self.put()
        self.assertEqual(reads.count(b"once"), 1)
        self.assertEqual(self.shown(), {"/x/a": sha256(b"once")})

    def test_where_another_client_made_the_path_meanwhile(self) -> None:
        """The request is made again as the other kind, with the same digest."""
        self.write("a", b"mine")

        def before(payload: bytes) -> None:
            request = request_of(payload)
            if isinstance(request, p.Create) and request.client != 5:
                self.volume.answer(p.Create(5, 1, Moment(0), request.path, b"theirs"))

        self.server.before = before
        self.assertEqual([step["sha256"] for step in self.put() if step["did"] == "stored"], [sha256(b"mine").hex()])
        self.assertEqual(self.shown(), {"/x/a": sha256(b"mine")})


if __name__ == "__main__":
    unittest.main()
