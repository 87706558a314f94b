"""A disk that is full at each place of a commit: 36, and the state is the old one; after a repeat with room it is the new one.

Streams that are full are there too, where the other modules do not look: `apply` and `send`.
"""
from __future__ import annotations

import os
import subprocess
import unittest
from pathlib import Path

from faults.case import need_shim
from faults.load_support import Case, during, listing, spell_all
from faults.log import read_log
from faults.machine import lacks
from faults.processes import PATIENCE
from faults.programs import built
from faults.running import Daemon, Ran
from protocol import BLOCK, FAULT, Answer, Model, Request, answers_of, encode, paths_of, query

PAGE = 4096
BEFORE = [
    Request("create", 5, 1, "/old", b"o" * 3000),
    Request("mkdir", 5, 2, "/d"),
    Request("create", 5, 3, "/moved", b"m"),
]
# Each kind of commit, of few blocks and of many.
KINDS = [
    Request("create", 7, 1, "/a", b"hello"),
    Request("create", 7, 1, "/old", b"refused"),
    Request("create", 7, 1, "/a", b"l" * 150_000),
    Request("replace", 7, 1, "/old", b"r" * 9000),
    Request("mkdir", 7, 1, "/e"),
    Request("rename", 7, 1, "/moved", to="/d/moved"),
    Request("rename", 7, 1, "/d", to="/e"),
    Request("remove", 7, 1, "/old"),
]


class Disk(Case):
    """A file system in memory whose size is set."""

    def setUp(self) -> None:
        super().setUp()
        self.disk = self.mounted("disk", "-t", "tmpfs", "-o", "size=8m", "none")
        if os.sysconf("SC_PAGE_SIZE") != PAGE:
            lacks("a page is not %d bytes" % PAGE)

    def room(self, pages: int) -> None:
        """Leaves so many pages free."""
        found = os.statvfs(self.disk)
        used = (found.f_blocks - found.f_bfree) * found.f_frsize // PAGE
        # A size of 0 would be no limit, and there is an image.
        self.assertGreater(used, 0)
        subprocess.run(["mount", "-o", "remount,size=%dk" % ((used + pages) * PAGE // 1024), str(self.disk)], check=True)
        found = os.statvfs(self.disk)
        self.assertEqual(found.f_bfree * found.f_frsize // PAGE, pages)

    def image(self, data: bytes) -> Path:
        """The only file of the disk, of these bytes."""
        subprocess.run(["mount", "-o", "remount,size=8m", str(self.disk)], check=True)
        path = self.disk / "d.img"
        path.write_bytes(data)
        return path


class Full(Disk):
    def setUp(self) -> None:
        super().setUp()
        self.fresh("new.img", capacity=4000)
        self.apply(spell_all(BEFORE), image="new.img")
        self.before = self.path("new.img").read_bytes()
        self.old = Model()
        for request in BEFORE:
            self.old.answer(request)

    def pages_for(self, request: Request) -> list[int]:
        """From none to more than it takes, where that is many in steps."""
        most = len(request.data) // PAGE + 6
        return sorted(set(range(5)) | set(range(5, most, 5)) | set(range(most - 5, most)))

    def test_each_place_of_a_commit(self) -> None:
        for number, request in enumerate(KINDS):
            faults = done = 0
            paths = paths_of(BEFORE + [request])
            for pages in self.pages_for(request):
                with during("%s, number %d of the kinds, %d pages" % (request.kind, number, pages)):
                    image = self.image(self.before)
                    new = self.old.copy()
                    expected = new.answer(request)
                    self.room(pages)
                    ran = self.apply(encode(request), image=str(image))
                    self.assertEqual((ran.status, ran.errors), (0, b""))
                    (answer,) = answers_of(ran.output)
                    if answer == Answer(FAULT):
                        faults += 1
                        # After the old one there are whole blocks at most, which are nothing without the last.
                        found = image.read_bytes()
                        self.assertEqual(found[:len(self.before)], self.before)
                        self.assertEqual(len(found) % BLOCK, 0)
                        self.tree_is(self.old, paths, str(image))
                        self.room(100)
                        again = self.apply(encode(request), image=str(image))
                        self.assertEqual(answers_of(again.output), [expected])
                    else:
                        done += 1
                        self.assertEqual(answer, expected)
                    self.tree_is(new, paths, str(image))
            self.assertGreater(faults, 0)
            self.assertGreater(done, 0)

    def test_a_daemon_goes_on(self) -> None:
        """One daemon through all of it: each request is refused while there is no room, and done once when there is."""
        image = self.image(self.before)
        model = self.old.copy()
        asked: list[Request] = []
        with Daemon(self.folder, str(image)) as daemon:
            for number, kind in enumerate(KINDS, 1):
                request = kind._replace(number=number)
                asked.append(request)
                with daemon.client() as client:
                    self.room(0 if number % 2 else 1)
                    for _ in range(3):
                        answer = client.ask(encode(request))
                        if answer != Answer(FAULT):
                            break
                    else:
                        # Queries are answered by the state that is recovered.
                        for path in paths_of(BEFORE + asked):
                            self.assertEqual(client.ask(query("get", path)), model.get(path))
                            self.assertEqual(client.ask(query("list", path)), model.names(path))
                        self.room(200)
                        answer = client.ask(encode(request))
                    self.assertEqual(answer, model.answer(request))
            self.assertEqual(daemon.errors(), b"")
        self.room(200)
        self.tree_is(model, paths_of(BEFORE + asked), str(image))

    def test_a_format(self) -> None:
        """It says so, and the same words finish it."""
        words = ["DISC", "0", "4000"]
        whole = self.fresh("whole.img", capacity=4000).read_bytes()
        for pages in (0, 1, 7, 8, 16, 17, 50, 128, 130, 131):
            with during("%d pages" % pages):
                image = self.image(b"")
                # So that a size of no page is none at all.
                (self.disk / "other").write_bytes(b"o")
                self.room(pages)
                ran = self.udfburn("format", str(image), *words)
                if pages < len(whole) // PAGE:
                    self.tell(ran, 1, b"", b"udfburn: 64 Device\n")
                    self.room(200)
                    ran = self.udfburn("format", str(image), *words)
                self.tell(ran, 0, b"formatted\n", b"")
                self.assertEqual(image.read_bytes(), whole)

    def test_readers_on_a_full_disk(self) -> None:
        image = str(self.image(self.before))
        self.room(0)
        self.tell(self.udfburn("ls", image, "/"), 0, listing(self.old, "/"), b"")
        self.tell(self.udfburn("get", image, "/old"), 0, b"o" * 3000, b"")
        self.tell(self.udfburn("check", image), 0, b"sound 3\n", b"")


class Output(Case):
    """An output that takes no bytes: 92, and what was committed stays."""

    def setUp(self) -> None:
        super().setUp()
        if not os.path.exists("/dev/full"):
            lacks("there is no /dev/full")
        self.fresh(capacity=4000)
        self.model = Model()

    def full(self, words: list[str], stdin: bytes) -> Ran:
        with open("/dev/full", "wb") as full:
            done = subprocess.run([built().udfburn, *words], cwd=self.folder, input=stdin, stdout=full, stderr=subprocess.PIPE,
                                  timeout=PATIENCE)
        return Ran(done.returncode, b"", done.stderr)

    def test_apply(self) -> None:
        request = Request("create", 7, 1, "/a", b"x" * 100_000)
        for _ in range(2):
            self.tell(self.full(["apply", "d.img"], encode(request)), 1, b"", b"udfburn: 92 Write\n")
        # It was committed once, and the repeat that has an output reports how it went.
        expected = self.model.answer(request)
        self.assertEqual(self.sound(), 1)
        self.tell(self.full(["apply", "d.img"], query("get", "/a") * 3), 1, b"", b"udfburn: 92 Write\n")
        self.assertEqual(answers_of(self.apply(encode(request)).output), [expected])
        self.tree_is(self.model, ["/", "/a"])

    def test_apply_reads_no_further(self) -> None:
        """Once the answers to a piece of the input cannot be written, it reads no further piece and commits nothing more."""
        need_shim()
        # A power of two, so that each piece of the input ends between two frames.
        size = 1 << 14
        requests = [Request("create", 7, number, "/%02d" % number, b"") for number in range(1, 33)]
        requests = [request._replace(data=bytes(size - len(encode(request)))) for request in requests]
        frames = b"".join(map(encode, requests))
        self.assertEqual(len(frames), size * len(requests))
        ran = self.apply(frames, rules="stdout:*:E28", log=self.new_log())
        self.tell(ran, 1, b"", b"udfburn: 92 Write\n")
        records = read_log(self.log_path())
        said = [record.kind for record in records].index("stdout")
        self.assertEqual({record.kind for record in records[said:]} - {"stdout", "close"}, set())
        read = sum(record.result for record in records[:said] if record.kind == "stdin")
        self.assertLess(read, len(frames))
        self.assertEqual(self.sound(), read // size)

    def test_send(self) -> None:
        request = Request("create", 7, 1, "/a", b"x" * 100_000)
        with Daemon(self.folder) as daemon:
            daemon.client().close()
            for _ in range(2):
                self.tell(self.full(["send", "s"], encode(request)), 1, b"", b"udfburn: 92 Write\n")
            expected = self.model.answer(request)
            ran = self.udfburn("send", "s", stdin=encode(request))
            self.assertEqual((ran.status, answers_of(ran.output)), (0, [expected]))
        self.tree_is(self.model, ["/", "/a"])
        self.assertEqual((self.path("d.img").stat().st_size) % BLOCK, 0)


if __name__ == "__main__":
    unittest.main()
