"""The client over the C library: an image that is open in the client's own process.

UDFBURN_LIBRARY of the environment names the library, UDFBURN and UDFBURND the programs beside which it is tried. It is run by
test/library.sh, and not with the other tests, which take no library.
"""

from __future__ import annotations

import json
import os
import shutil
import subprocess
import sys
import time
import unittest
from typing import List
from unittest import mock

from udfburn import Client
from udfburn.base import errors as e
from udfburn import protocol as p
from udfburn.wire.connection import Lost
from udfburn.image.identity import opened_path
from udfburn.protocol.units import Moment
from udfburn.wire.operations import Operation

from . import test_growing_kills, test_kills
from .programs import PACKAGE, PATIENCE, UDFBURN, WithPrograms

assert os.environ.get("UDFBURN_LIBRARY"), "UDFBURN_LIBRARY names the library"


class WithLibrary(WithPrograms):
    """An image, and clients that have it by the library. No program is needed for it."""

    def by_library(self, image: str = "", patience: float = PATIENCE) -> Client:
        made = Client(f"library:{image or self.image}", ledger=self.ledger, patience=patience)
        self.addCleanup(made.close)
        return made

    def library_words(self, *words: str, status: int = 0) -> str:
        return self.run_command(*words, status=status, where=["--image", self.image, "--library"])


class Volumes(WithLibrary):
    """What is written and read is what the program reads and writes."""

    def test_requests_and_queries(self) -> None:
        with self.by_library() as client:
            self.assertEqual(client.mkdir("/d", Moment(1)), 1)
            self.assertEqual(client.create("/d/a", b"first", Moment(2)), 2)
            self.assertEqual(client.replace("/d/a", b"second", Moment(3)), 3)
            self.assertEqual(client.rename("/d/a", "/b", Moment(4)), 4)
            self.assertEqual(client.get("/b"), b"second")
            self.assertEqual([(name.name, name.kind) for name in client.list("/")], [("d", p.NodeKind.DIRECTORY), ("b", p.NodeKind.FILE)])
            self.assertEqual(client.stat("/b"), p.Node(p.NodeKind.FILE, Moment(3), 6))
            self.assertEqual(client.remove("/d", Moment(5)), 5)
            with self.assertRaises(e.NotFound):
                client.get("/d")
        self.assertEqual(self.udfburn("get", self.image, "/b"), b"second")
        self.assertEqual(self.udfburn("check", self.image), b"sound 5\n")

    def test_the_same_blocks(self) -> None:
        """The library and the program write one image for the same requests, as large and as many as there are."""
        other, ledger = shutil.copy(self.image, f"{self.image}.other"), f"{self.ledger}.other"
        operations: List[Operation] = [Operation(p.Create, (f"f{index}",), Moment(index), bytes([index]) * (index * index * 700)) for index in range(39)]
        with self.by_library() as client, Client(f"image:{other}", client.session().ledger.client, ledger, UDFBURN, PATIENCE) as by_program:
            self.assertEqual([outcome.commit for outcome in client.run(operations)], list(range(1, 40)))
            self.assertEqual([outcome.commit for outcome in by_program.run(operations)], list(range(1, 40)))
        with open(self.image, "rb") as first, open(other, "rb") as second:
            self.assertEqual(first.read(), second.read())

    def test_many_answers_at_once(self) -> None:
        data = os.urandom(1 << 20)
        with self.by_library() as client:
            client.create("/large", data)
            self.assertEqual([answer == p.Data(data) for answer in client.ask_all([p.Get(("large",))] * 40)], [True] * 40)

    def test_through_a_link(self) -> None:
        link = os.path.join(self.room, "link.img")
        os.symlink(self.image, link)
        with self.by_library(link) as client:
            client.create("/a", b"")
        with self.on_image() as client:
            self.assertEqual(client.create("/b", b""), 2, "the ledger knows it as one volume")

    def test_by_turns_with_the_program(self) -> None:
        for index in range(0, 6, 2):
            with self.by_library() as client:
                self.assertEqual(client.create(f"/{index}", b""), index + 1)
            with self.on_image() as client:
                self.assertEqual(client.create(f"/{index + 1}", b""), index + 2)

    def test_an_older_copy(self) -> None:
        """The volume is known again, as by the program."""
        copy = shutil.copy(self.image, f"{self.image}.copy")
        with self.by_library() as client:
            client.create("/a", b"")
        os.replace(copy, self.image)
        with self.by_library() as client, self.assertRaises(e.EmptyVolume):
            client.create("/b", b"")

    def test_no_volume(self) -> None:
        for content in (b"", bytes(2048 * 300)):
            with open(self.image, "wb") as file:
                file.write(content)
            with self.by_library() as client, self.assertRaises(e.Damaged):
                client.list("/")


class Held(WithLibrary):
    """Who has the image."""

    def refuses_others(self) -> None:
        done = subprocess.run([UDFBURN, "apply", self.image], input=b"", capture_output=True, check=False)
        self.assertEqual((done.returncode, done.stderr), (1, b"udfburn: 64 Device\n"))

    def test_it_is_kept_until_it_is_closed(self) -> None:
        with self.by_library() as client:
            client.create("/a", b"a")
            self.refuses_others()
            client.get("/a")
            self.refuses_others()
        self.udfburn("apply", self.image)

    def test_another_has_it(self) -> None:
        self.serve()
        with self.by_library(patience=0.0) as client, self.assertRaisesRegex(e.ConnectionFailed, "UDFBURN_BUSY: another program has the image"):
            client.create("/a", b"a")

    def test_another_client_has_it(self) -> None:
        with self.by_library() as first, Client(f"library:{self.image}", ledger=f"{self.ledger}.other", patience=0.0) as second:
            first.list("/")
            with self.assertRaises(e.ConnectionFailed):
                second.list("/")

    def test_it_waits_for_another(self) -> None:
        with self.by_library() as first:
            first.create("/a", b"a")
            waiting = subprocess.Popen(
                self.words("get", "/a", "-", where=["--image", self.image, "--library", "--wait", "100"]), stdout=subprocess.PIPE, env=self.environment(),
            )
        self.assertEqual(waiting.communicate()[0], b"a")

    def test_a_child(self) -> None:
        """A child closes its copy, which takes nothing from its parent, and has the image after its parent."""
        to_child, to_parent = os.pipe(), os.pipe()
        client = self.by_library()
        client.create("/a", b"a")
        child = os.fork()
        if child == 0:
            try:
                client.close()
                os.write(to_parent[1], b"closed")
                os.read(to_child[0], 1)
                with self.by_library() as own:
                    own.create("/c", b"c")
            finally:
                os._exit(0)
        self.assertEqual(os.read(to_parent[0], 9), b"closed")
        self.refuses_others()
        client.create("/b", b"b")
        client.close()
        os.write(to_child[1], b"x")
        self.assertEqual(os.waitpid(child, 0), (child, 0))
        with self.by_library() as client:
            self.assertEqual([client.get(path) for path in ("/a", "/b", "/c")], [b"a", b"b", b"c"])
        for descriptor in (*to_child, *to_parent):
            os.close(descriptor)

    def test_the_very_file_is_looked_at(self) -> None:
        """A volume is known by the file that is open, not by another file that took its name."""
        with self.by_library() as client:
            connection = client.line.get()
            path = opened_path(connection, self.image)
            self.assertTrue(os.path.samefile(path, self.image))
            self.assertNotEqual(path, self.image)
            os.replace(shutil.copy(self.image, f"{self.image}.copy"), self.image)
            with self.assertRaises(Lost):
                opened_path(connection, self.image)


class Commands(WithLibrary):
    """The command line, on a machine without the programs."""

    def environment(self) -> "dict[str, str]":
        return {**super().environment(), "UDFBURN": "", "PATH": "/nonexistent"}

    def test_a_format(self) -> None:
        """It is the one of the program."""
        made = os.path.join(self.room, "made.img")
        words = ["--library", "--label", "T\u00e4st", "--moment", "1700000000000000", "--capacity", "3000"]
        self.assertIn("formatted", self.run_command("format", made, *words, where=[]))
        subprocess.run([UDFBURN, "format", f"{made}.other", "T\u00e4st", "1700000000000000", "3000"], check=True, stdout=subprocess.DEVNULL)
        with open(made, "rb") as first, open(f"{made}.other", "rb") as second:
            self.assertEqual(first.read(), second.read())
        self.assertIn("holds something already", self.run_command("format", made, "--library", where=[], status=1))

    def test_why_it_cannot_be_made(self) -> None:
        """The call of the system that failed is named, with its errno."""
        told = self.run_command("format", os.path.join(self.room, "none", "made.img"), "--library", where=[], status=1)
        self.assertRegex(told, r"UDFBURN_DEVICE. .open of .*none.*: No such file or directory.")

    def test_a_walk(self) -> None:
        self.write("sources/a", b"a")
        self.write("sources/b/c", b"c" * 5000)
        sources = os.path.join(self.room, "sources")
        self.assertIn("stored 2 files", self.library_words("put", "-r", "--delete-source", sources, "/x"))
        self.assertEqual([files for _, _, files in os.walk(sources)], [[], []])
        self.assertEqual(self.library_words("ls", "-R", "/x"), "/x:\nd b\nf a\n/x/b:\nf c\n")
        self.library_words("get", "-r", "/x", os.path.join(self.room, "back"))
        self.assertEqual(self.read("back/b/c"), b"c" * 5000)
        self.assertIn("all are there", self.library_words("verify", os.path.join(self.room, "back"), "/x"))
        self.assertEqual(json.loads(self.library_words("mkdir", "--json", "/y").splitlines()[-1])["status"], 0)

    def test_a_read_beside_another(self) -> None:
        """If another program has the image, what only reads uses a copy."""
        with self.by_library() as client:
            client.create("/a", b"a")
        self.serve()
        self.assertEqual(self.library_words("get", "/a", "-"), "a")


@unittest.skipIf(sys.version_info < (3, 11), "the archive takes Python 3.11")
class Archive(WithLibrary):
    """`udfburn-archive add --library`."""

    def setUp(self) -> None:
        super().setUp()
        self.files = {f"d{index % 3}/f{index}": os.urandom(index * 50) for index in range(90)}
        self.files["photo"] = os.urandom(2_300_000)
        for name, data in self.files.items():
            self.write(f"source/{name}", data)
        self.run_archive("init", os.path.join(self.room, "archive"), "--label", "T")

    def archive_words(self, *words: str) -> List[str]:
        place = [] if words[0] == "init" else ["--archive", os.path.join(self.room, "archive")]
        return [sys.executable, "-m", "udfburn.archive", *words, *place, "--json"]

    def run_archive(self, *words: str, status: int = 0) -> str:
        done = subprocess.run(self.archive_words(*words), env=self.environment(), capture_output=True, text=True, check=False)
        self.assertEqual(done.returncode, status, done.stdout + done.stderr)
        return done.stdout + done.stderr

    def add(self, *words: str) -> "dict[str, int]":
        found: "dict[str, int]" = json.loads(self.run_archive("add", os.path.join(self.room, "source"), "--at", "/s", *words).splitlines()[-1])
        return found

    def require_all(self, folder: str) -> None:
        """Each file comes back as it was, and `rebuild` finds no difference."""
        self.run_archive("get", "/s", os.path.join(self.room, folder))
        self.assertEqual({name: self.read(f"{folder}/s/{name}") for name in self.files}, self.files)
        self.assertEqual(json.loads(self.run_archive("rebuild").splitlines()[-1])["differences"], 0)

    def test_by_turns_with_the_program(self) -> None:
        self.assertEqual(self.add("--library")["files"], len(self.files))
        self.require_all("one")
        for index, words in enumerate(((), ("--library",), ())):
            self.files[f"new{index}"] = b"%d" % index
            self.write(f"source/new{index}", self.files[f"new{index}"])
            self.assertEqual(self.add(*words)["files"], 1)
        self.require_all("two")
        self.run_archive("close")
        self.run_archive("check", "--data")

    def test_killed(self) -> None:
        """At any moment, and then finished by the program."""
        for turn in range(8):
            process = subprocess.Popen(
                self.archive_words("add", os.path.join(self.room, "source"), "--at", "/s", "--library"), env=self.environment(), stdout=subprocess.DEVNULL,
            )
            time.sleep(0.1 + 0.1 * turn)
            process.kill()
            process.wait()
        self.add()
        self.require_all("back")

    def test_none_is_installed(self) -> None:
        with mock.patch.dict(os.environ, UDFBURN_LIBRARY="/nonexistent.so"):
            self.assertIn("cannot be loaded", self.run_archive("add", os.path.join(self.room, "source"), "--library", status=2))
        self.assertEqual(self.add()["files"], len(self.files))


class Killed(test_kills.ClientKilled):
    """A client that is killed with the library in it, and deletes its sources."""

    def setUp(self) -> None:
        super().setUp()
        self.way = f"library:{self.image}"

    def test_by_line(self) -> None:
        self.kill_often(test_kills.KILLS // 4, self.killed_by_line)

    def test_by_time(self) -> None:
        self.kill_often(test_kills.KILLS // 4, self.killed_by_time)

    def test_a_killed_client_leaves_no_lock(self) -> None:
        words = [sys.executable, "-c", f"import os, udfburn\nwith udfburn.Client({self.way!r}, ledger={self.ledger!r}) as c:\n c.create('/a', b'a')\n os.kill(os.getpid(), 9)"]
        self.assertEqual(subprocess.run(words, env={**os.environ, "PYTHONPATH": PACKAGE}, check=False).returncode, -9)
        with Client(self.way, ledger=self.ledger, patience=0.0) as client:
            self.assertEqual(client.create("/b", b""), 2)
            self.assertEqual(client.get("/a"), b"a")


class Large(test_growing_kills.AtEachCall, WithLibrary):
    """Files above a mebibyte, by the library in a client that is killed before each call."""

    def anew(self, number: int) -> None:
        os.unlink(self.image)
        self.ledger = os.path.join(self.room, f"{number}.sqlite")
        self.format(self.capacity)
        self.way = f"library:{self.image}"

    def count(self) -> int:
        test_growing_kills.require_bytes(self.image)
        return self.commits()


class LargeKnown(test_growing_kills.Known):
    where = "library"


for name in [name for name in dir(test_kills.ClientKilled) if name.startswith("test_")]:
    setattr(Killed, name, None)


if __name__ == "__main__":
    unittest.main()
