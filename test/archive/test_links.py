"""Links and named pipes in the place of folders and files, also while a command runs; and who may read what is made."""

from __future__ import annotations

import os
import shutil
import stat
from contextlib import redirect_stderr, redirect_stdout, suppress
from io import StringIO
from typing import List, Optional
from unittest import mock

from .support import UDFBURN, WithArchive, write

from tests.swaps import Swap, Turned, picture  # noqa: E402

from udfburn.archive.cli import main  # noqa: E402
from udfburn.archive.job import digest_of, mebibytes_from  # noqa: E402
from udfburn.archive.scan import Walk  # noqa: E402
from udfburn.base.errors import SourceError  # noqa: E402
from udfburn.local.sources import delete  # noqa: E402

SECRET = b"what nobody may read"


class Races(WithArchive):
    """A folder or a file of the source, or of what is copied into, turns into a link at a call: nothing outside is read, written or deleted."""

    def setUp(self) -> None:
        super().setUp()
        self.outside = self.path("outside")
        for name in ("b", "deep/d", "d"):
            write(self.path("outside", name), SECRET)
        self.before = picture(self.outside)
        self.fill()

    def fill(self) -> None:
        shutil.rmtree(self.source)
        for name in ("a", "sub/b", "sub/deep/d"):
            write(os.path.join(self.source, name), b"own " + name.encode())

    def walked(self, swap: Swap) -> List[bytes]:
        """All that `add --delete-source` does to sources; gives what it read."""
        read: List[bytes] = []
        with swap:
            for found in Walk(self.archive).below(self.source, ("x",)):
                for source in found.files:
                    with suppress(SourceError):
                        digest_of(source)
                        read += mebibytes_from(source, 0)
                        delete(source)
        return read

    def test_the_walk_at_each_call(self) -> None:
        os.mkdir(self.archive)
        counted = Swap()
        self.assertEqual(sorted(self.walked(counted)), [b"own a", b"own sub/b", b"own sub/deep/d"])
        for name, to in (("sub", "."), ("sub/b", "b"), ("sub/deep", "deep")):
            turned = Turned(os.path.join(self.source, name), os.path.join(self.outside, to))
            for back in (None, turned.back):
                for at in range(1, counted.calls + 1):
                    self.fill()
                    self.assertNotIn(SECRET, self.walked(Swap(at, turned.forth, back)), (name, at))
                    self.assertEqual(picture(self.outside), self.before, (name, at))

    def run_at(self, at: int, turned: Turned, *words: str, about: Optional[str] = None) -> int:
        """Runs a command with a turn at a call; gives how many calls it made."""
        swapped = Swap(at, turned.forth, about=about)
        with mock.patch.dict(os.environ, {"UDFBURN": UDFBURN}), redirect_stdout(StringIO()), redirect_stderr(StringIO()), swapped as swap:
            main([*words, "--archive", self.archive])
        return swap.calls

    def test_commands(self) -> None:
        """`add --delete-source` of a folder, and `get` into one, at each call that names it."""
        self.init("--delete", "acknowledged")
        back = self.path("back")
        for words, turned, ready in (
            (("add", self.source, "--at", "/x", "--delete-source", "--skip-odd"), Turned(os.path.join(self.source, "sub"), self.outside), self.fill),
            (("get", "/x", back), Turned(os.path.join(back, "x", "sub"), self.outside), lambda: shutil.rmtree(back, ignore_errors=True)),
        ):
            count = self.run_at(0, turned, *words, about="sub")
            self.assertGreater(count, 3)
            for at in range(1, count + 1):
                ready()
                self.run_at(at, turned, *words, about="sub")
                self.assertEqual(picture(self.outside), self.before, (words, at))
        with open(self.path("archive", "open", "T-000001.img"), "rb") as file:
            self.assertNotIn(SECRET, file.read())

    def test_closing(self) -> None:
        """The archive's folder for closed volumes, or that for copies, is another one from some call on: nothing changes in that."""
        copies = self.path("copies")
        os.mkdir(copies)
        self.init("--copies", copies)
        self.do("add", self.source, "--at", "/x")
        for end in (".img", ".img.new", ".info", ".log", ".log.new", ".sha256", ".svg", ".svg.new"):
            write(os.path.join(self.outside, "T-000001" + end), b"of somebody")
        before = picture(self.outside)
        kept = self.path("kept")
        for folder in ("archive", "copies"):
            shutil.copytree(self.path(folder), os.path.join(kept, folder))
        for turned in (Turned(self.path("archive", "closed"), self.outside), Turned(copies, self.outside)):
            count = self.run_at(0, turned, "close")
            for at in range(1, count, max(count // 25, 1)):
                for folder in ("archive", "copies"):
                    path = self.path(folder)
                    shutil.rmtree(path)
                    shutil.copytree(os.path.join(kept, folder), path)
                turned.back()
                self.run_at(at, turned, "close")
                self.assertEqual(picture(self.outside), before, (turned.path, at))
                turned.back()


class Odd(WithArchive):
    def setUp(self) -> None:
        super().setUp()
        self.copies = self.path("copies")
        os.mkdir(self.copies)
        self.init("--copies", self.copies, "--delete", "acknowledged")
        write(os.path.join(self.source, "a"), b"data")
        self.add()

    def closed(self, end: str) -> str:
        return self.path("archive", "closed", "T-000001" + end)

    def test_a_link_beside_an_image_is_not_copied(self) -> None:
        """What it leads to may be another user's secret."""
        secret = write(self.path("secret"), SECRET)
        self.do("close")
        for end in (".svg", ".log"):
            os.unlink(self.closed(end))
            os.symlink(secret, self.closed(end))
            os.unlink(os.path.join(self.copies, "T-000001" + end))
        os.unlink(os.path.join(self.copies, "T-000001.img"))
        self.do("repair", "T-000001")
        self.assertTrue(os.path.exists(os.path.join(self.copies, "T-000001.img")))
        for name in os.listdir(self.copies):
            with open(os.path.join(self.copies, name), "rb") as file:
                self.assertNotIn(SECRET, file.read())

    def test_a_link_in_the_place_of_a_new_copy(self) -> None:
        """Nothing is written to what it leads to."""
        victim = write(self.path("victim"), b"of somebody")
        for end in (".img.new", ".info.new", ".svg.new"):
            os.symlink(victim, os.path.join(self.copies, "T-000001" + end))
        self.do("close")
        with open(victim, "rb") as file:
            self.assertEqual(file.read(), b"of somebody")
        self.assertTrue(stat.S_ISREG(os.lstat(os.path.join(self.copies, "T-000001.img")).st_mode))

    def test_pipes(self) -> None:
        """No command waits for the other end of one."""
        os.mkfifo(self.path("archive", "open", "T-000001.tail"))
        for words in (("check",), ("add", self.source, "--at", "/y"), ("close",), ("status",), ("rebuild",)):
            self.do(*words, status=None)
        os.unlink(self.path("archive", "open", "T-000001.tail"))
        self.do("close")
        for end in (".info", ".log", ".img"):
            os.unlink(self.closed(end))
            os.mkfifo(self.closed(end))
            os.unlink(os.path.join(self.copies, "T-000001" + end))
            os.mkfifo(os.path.join(self.copies, "T-000001" + end))
            for words in (("check", "--remotes"), ("get", "/s", self.path("back")), ("rebuild",), ("repair",), ("status",), ("report", self.path("page.html"))):
                self.do(*words, status=None)

    def test_modes(self) -> None:
        """All is the user's alone, unless archive.toml says otherwise."""
        self.do("close")
        self.do("report", self.path("page.html"))
        self.do("get", "/", self.path("back"))
        wanted = {
            "archive/catalogue.sqlite": 0o600, "archive/closed/T-000001.img": 0o400, "archive/closed/T-000001.info": 0o600, "copies/T-000001.img": 0o600,
            "copies/T-000001.log": 0o600, "page.html": 0o600, "back": 0o700,
        }
        self.assertEqual({name: stat.S_IMODE(os.stat(self.path(name)).st_mode) for name in wanted}, wanted)
        toml = self.path("archive", "archive.toml")
        with open(toml, encoding="utf-8") as file:
            text = file.read()
        with open(toml, "w", encoding="utf-8") as file:
            file.write(text.replace('mode = "600"', 'mode = "640"'))
        write(os.path.join(self.source, "b"), b"more")
        self.add()
        self.assertEqual(stat.S_IMODE(os.stat(self.path("archive", "open", "T-000002.img")).st_mode), 0o640)
        with open(toml, "w", encoding="utf-8") as file:
            file.write(text.replace('mode = "600"', 'mode = "777"'))
        self.assertIn("mode must be", self.do("status", status=1).errors)
