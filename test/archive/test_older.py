"""A catalogue that is older than its volumes, and archives that share a label or a folder for copies: no volume takes the place of another,
and no source goes for a copy that is none."""

from __future__ import annotations

import os
import random
import shutil
import signal
import sqlite3
import subprocess
import sys
import time
from concurrent.futures.process import BrokenProcessPool
from contextlib import closing, redirect_stderr, redirect_stdout, suppress
from hashlib import sha256
from io import StringIO
from pathlib import Path
from typing import List, Optional, Tuple
from unittest import mock

from .support import PACKAGE, PATIENCE, WithArchive, digests, environment, wait_until, words_of, write

sys.path.insert(0, PACKAGE)

from udfburn.archive.catalogue import Catalogue, VolumeRow  # noqa: E402
from udfburn.archive.check import CheckOptions, Checker  # noqa: E402
from udfburn.archive.claims import FileClaims, claims_of  # noqa: E402
from udfburn.archive.cli import main  # noqa: E402
from udfburn.archive.config import Config, read  # noqa: E402
from udfburn.archive.tell import Tell  # noqa: E402
from udfburn.archive.volume import new_row, open_new  # noqa: E402
from udfburn.wire.operations import now  # noqa: E402


class WithOlder(WithArchive):
    def setUp(self) -> None:
        super().setUp()
        self.copies = self.path("copies")
        os.mkdir(self.copies)
        self.catalogue = os.path.join(self.archive, "catalogue.sqlite")

    def keep(self) -> None:
        """Keeps the catalogue as it is now."""
        shutil.copy(self.catalogue, self.path("kept"))

    def bring_back(self) -> None:
        """Puts the catalogue that was kept in the place of the newer one."""
        self.remove()
        shutil.copy(self.path("kept"), self.catalogue)

    def remove(self) -> None:
        """Has no catalogue."""
        for end in ("", "-wal", "-shm"):
            if os.path.exists(self.catalogue + end):
                os.unlink(self.catalogue + end)

    def change_source(self, name: str) -> None:
        shutil.rmtree(self.source)
        write(os.path.join(self.source, name), os.urandom(5000))


class Older(WithOlder):
    """A catalogue of an earlier day."""

    def test_no_volume_gets_the_number_of_one_that_the_catalogue_does_not_know(self) -> None:
        self.init("--copies", self.copies)
        self.keep()
        self.change_source("a")
        self.add()
        self.do("close")
        before, volumes, copies = digests(self.source), digests(os.path.join(self.archive, "closed")), digests(self.copies)
        self.bring_back()
        self.change_source("b")
        self.assertIn("run 'udfburn-archive rebuild' first", self.add(status=1).errors)
        self.do("rebuild")
        self.add()
        self.do("close")
        for name, digest in volumes.items():
            self.assertEqual(digests(os.path.join(self.archive, "closed"))[name], digest)
            self.assertEqual(digests(self.copies)[name][0], copies[name][0])
        self.assertEqual(self.get_all(), {**before, **digests(self.source)})

    def test_a_volume_that_was_closed_since(self) -> None:
        self.init("--delete", "acknowledged")
        self.change_source("a")
        self.add()
        self.keep()
        before = digests(self.source)
        self.do("close")
        self.bring_back()
        self.change_source("b")
        for state in ("open", "new"):
            with closing(sqlite3.connect(self.catalogue)) as base, base:
                base.execute("UPDATE volume SET state = ?", (state,))
            self.assertIn("run 'udfburn-archive rebuild' first", self.add(status=1).errors)
            self.assertEqual(os.listdir(os.path.join(self.archive, "open")), [])
        self.do("rebuild")
        self.add()
        self.assertEqual(self.get_all(), {**before, **digests(self.source)})

    def test_an_image_does_not_take_the_place_of_a_closed_one(self) -> None:
        self.init("--delete", "acknowledged")
        self.change_source("a")
        self.add()
        other = write(os.path.join(self.archive, "closed", "T-000001.img"), b"another image")
        self.assertIn("T-000001.img: is there already", self.do("close", status=1).errors)
        with open(other, "rb") as file:
            self.assertEqual(file.read(), b"another image")
        os.unlink(other)
        self.do("close")

    def test_a_dry_run_makes_no_catalogue(self) -> None:
        self.init("--delete", "acknowledged")
        self.change_source("a")
        self.add()
        self.do("close")
        damaged = b"SQLite format 3\0" + bytes(5000)
        for left in (None, damaged):
            self.bring_nothing(left)
            before = digests(self.archive)
            done = self.do("rebuild", "--dry-run")
            self.assertEqual([(line["volume"], line["files"]) for line in done.objects() if line["did"] == "unknown"], [("T-000001", 1)])
            self.assertEqual(done.last()["failures"], [])
            self.assertEqual(digests(self.archive), before)
            self.assertIn("rebuild", self.add(status=1).errors)
        self.do("rebuild")
        self.assertEqual(self.get_all(), digests(self.source))

    def test_a_catalogue_that_cannot_be_opened_now(self) -> None:
        """It is not damaged, so it stays where it is."""
        self.init("--delete", "acknowledged")
        self.change_source("a")
        self.add()
        rows = self.rows()
        before = digests(self.archive)["catalogue.sqlite".encode()]
        os.mkdir(self.catalogue + "-wal")
        for words in ((), ("--dry-run",)):
            self.assertIn("check that its disk works and has room", self.do("rebuild", *words, status=1).errors)
            self.assertEqual(digests(self.archive)["catalogue.sqlite".encode()], before)
        os.rmdir(self.catalogue + "-wal")
        self.assertEqual(self.rows(), rows)

    def test_an_older_copy_of_an_image(self) -> None:
        """It does not take the place of the image at hand, and one that is the same is read once."""
        self.init("--delete", "acknowledged")
        self.change_source("a")
        self.add()
        image = os.path.join(self.archive, "open", "T-000001.img")
        for name in ("older", "same"):
            os.mkdir(self.path(name))
            shutil.copy(image, self.path(name))
            write(os.path.join(self.source, f"after {name}"), b"later")
            self.add()
        shutil.copy(image, self.path("same"))
        rows = self.rows()
        last = self.do("rebuild", self.path("same")).last()
        self.assertEqual((last["volumes"], last["differences"]), (1, 0))
        done = self.do("rebuild", self.path("older"), status=1)
        self.assertIn("older/T-000001.img: is another state of T-000001", done.errors)
        self.assertEqual((self.rows(), [volume["state"] for volume in self.volumes()]), (rows, ["open"]))
        self.assertEqual(self.volumes()[0]["attention"], [])
        for name, less in (("older", 0), ("same", 2048)):
            shutil.copy(self.path(name, "T-000001.img"), image)
            os.truncate(image, os.path.getsize(image) - less)
            (attention,) = self.volumes()[0]["attention"]
            self.assertRegex(attention, "^its image has [0-9]+ commits, and [0-9]+ were acknowledged: it is an older copy, or was cut short")
        shutil.copy(self.path("same", "T-000001.img"), image)
        self.assertEqual(self.volumes()[0]["attention"], [])

    def bring_nothing(self, data: Optional[bytes]) -> None:
        """Has no catalogue, or one with these bytes."""
        self.remove()
        if data is not None:
            write(self.catalogue, data)


class Clocks(WithOlder):
    """A machine whose clock is slow."""

    def test_what_is_added_later_is_newer(self) -> None:
        """Also in the catalogue that is made from the volumes."""
        self.init("--delete", "acknowledged")
        path = write(os.path.join(self.source, "f"), b"the first")
        with mock.patch("udfburn.archive.volume.now", lambda: now() + 86_400_000_000), redirect_stdout(StringIO()):
            self.assertEqual(main(["add", self.source, "--at", "/s", "--archive", self.archive]), 0)
        self.require_newest(b"the first", 1)
        write(path, b"the second one")
        self.add()
        self.require_newest(b"the second one", 2)
        write(path, b"the third one of them")
        self.do("add", path, "--at", "/s/f")
        self.require_newest(b"the third one of them", 3)

    def require_newest(self, data: bytes, versions: int) -> None:
        for made_anew in (False, True):
            if made_anew:
                self.remove()
                self.do("rebuild")
            self.assertEqual(self.get_all()[b"f"][0], sha256(data).hexdigest())
            sizes = [line["size"] for line in self.do("history", "/s/f").objects()[:-1]]
            self.assertEqual((sizes[0], len(sizes)), (len(data), versions))


class Shared(WithOlder):
    """Folders for copies that are not only this archive's."""

    def test_an_archive_with_the_same_label_keeps_its_copies(self) -> None:
        other = self.path("other")
        for archive, name in ((self.archive, "a"), (other, "b")):
            self.init("--copies", self.copies, archive=archive)
            write(os.path.join(self.source, name), os.urandom(5000))
            self.run_in(archive, "add", os.path.join(self.source, name), "--at", f"/s/{name}", "--no-copy")
        self.do("close")
        copy = digests(self.copies)
        failures = self.run_in(other, "close", status=1).last()["failures"]
        self.assertIn("has another volume with this name", failures[0])
        self.assertEqual(digests(self.copies), copy)
        # Each has its own source still, until its own copy is there.
        deleted = [self.run_in(archive, "add", self.source, "--at", "/s", "--delete-source", "--no-copy").last()["deleted"] for archive in (other, self.archive)]
        self.assertEqual((deleted, os.listdir(self.source)), ([0, 1], ["b"]))
        self.assertEqual(self.do("check", "--remotes", "T-000001").last()["failures"], [])

    def test_the_image_itself_is_no_copy(self) -> None:
        self.init("--copies", self.copies)
        self.change_source("a")
        self.add("--no-copy")
        os.rename(self.copies, self.copies + ".away")
        self.do("close", status=1)
        os.rename(self.copies + ".away", self.copies)
        os.link(os.path.join(self.archive, "closed", "T-000001.img"), os.path.join(self.copies, "T-000001.img"))
        self.assertIn("is the image itself", self.do("close", status=1).last()["failures"][0])
        self.assertEqual(self.add("--delete-source").last()["deleted"], 0)

    def test_a_folder_whose_name_is_not_utf8(self) -> None:
        self.assertIn("is not UTF-8", self.do("init", self.archive, "--copies", os.fsdecode(os.fsencode(self.copies) + b"\xff"), status=1).errors)
        self.init("--copies", self.copies)

    def test_two_names_of_one_folder_are_one_copy(self) -> None:
        os.symlink(self.copies, self.path("link"))
        self.assertIn("is the same folder as", self.do("init", self.archive, "--copies", self.copies, self.path("link"), status=1).errors)


class AtOnce(WithOlder):
    """Commands that run at once."""

    def test_a_check_does_not_undo_what_came_meanwhile(self) -> None:
        """The volume is closed while its data is read."""
        self.init("--delete", "acknowledged")
        self.change_source("a")
        self.add()
        config = read(self.archive)
        with Catalogue(config) as catalogue:
            checker = Checker(config, catalogue, Tell(True, False), CheckOptions(data=True))
            found = checker._trouble

            def slowly(row: VolumeRow, image: str) -> Optional[str]:
                trouble = found(row, image)
                self.do("close")
                return trouble

            with mock.patch.object(checker, "_trouble", slowly):
                checker.run(catalogue.volumes())
        self.assertEqual(checker.failures, [])
        (volume,) = self.volumes()
        self.assertEqual((volume["state"], len(volume["sha256"] or "")), ("closed", 64))
        self.assertEqual(self.do("check").last()["failures"], [])

    def test_a_new_volume_that_another_run_takes_up(self) -> None:
        """The other run began between the volume's row and its claim. This one makes another volume."""
        self.init("--delete", "acknowledged")
        config = read(self.archive)
        with Catalogue(config) as catalogue, closing(claims_of(catalogue.base, config.path("locks"), "")) as claims, closing(FileClaims(config.path("locks"))) as other:
            def slowly(config: Config, catalogue: Catalogue) -> VolumeRow:
                row = new_row(config, catalogue)
                if row.number == 1:
                    self.assertTrue(other.try_volume(1))
                elif row.number == 2:
                    catalogue.save(row._replace(state="full"))
                return row

            with mock.patch("udfburn.archive.volume.new_row", slowly), closing(open_new(config, catalogue, claims)) as volume:
                self.assertEqual(volume.row.number, 3)


WAITING = b"""
import os, sys, time
while any("spawn_main" in word for word in sys.orig_argv) and not os.path.exists(%s):
    time.sleep(0.01)
"""
"""What each Python of a command does first: one that reads volumes for another waits until a file is there."""


class Readers(WithArchive):
    """The processes by which `rebuild` reads several volumes at once."""

    def setUp(self) -> None:
        super().setUp()
        for number in range(3):
            other = self.path(f"other {number}")
            self.init("--delete", "acknowledged", archive=other)
            write(os.path.join(self.source, f"{number}"), b"x")
            self.run_in(other, "add", self.source)
        self.images = [os.path.join(self.path(f"other {number}"), "open", "T-000001.img") for number in range(3)]
        # The catalogue knows which archive it is of, so the volumes of the others do not choose one.
        self.init("--delete", "acknowledged")
        self.add()

    def rebuild(self, number: int, to_all: bool, waits: bool = True, interrupts: "signal.Handlers" = signal.SIG_DFL) -> Tuple[int, str]:
        """Sends a signal to a reader once there is one, or to all processes; gives the status, and what was said. The readers wait for the
        signal before they read, or they do not, and may be at their end by then. `interrupts` is what becomes of SIGINT when the command
        begins."""
        words, found, go = words_of("rebuild", "--dry-run", *self.images, "--archive", self.archive), environment(), self.path("go")
        if waits:
            write(self.path("waiting", "sitecustomize.py"), WAITING % repr(go).encode())
            found["PYTHONPATH"] = self.path("waiting") + os.pathsep + found["PYTHONPATH"]
        with subprocess.Popen(
            words, env=found, stdout=subprocess.DEVNULL, stderr=subprocess.PIPE, text=True, start_new_session=True,
            preexec_fn=lambda: signal.signal(signal.SIGINT, interrupts),
        ) as process:
            wait_until(lambda: process.poll() is not None or readers(process.pid))
            if to_all:
                time.sleep(random.random() / 5)
                os.killpg(process.pid, number)
            else:
                os.kill(readers(process.pid)[0], number)
            write(go, b"")
            _, errors = process.communicate(timeout=PATIENCE)
        os.unlink(go)
        return process.returncode, errors

    def test_an_interrupt(self) -> None:
        told = "udfburn-archive: interrupted: run the same command again to continue\n"
        for _ in range(2):
            self.assertEqual(self.rebuild(signal.SIGINT, True), (130, told))
        for _ in range(4):
            # At any moment, also after the last one is read.
            status, errors = self.rebuild(signal.SIGINT, True, waits=False)
            self.assertTrue(status == 130 and errors.endswith(told) or self.has_read_all(errors), (status, errors))

    def has_read_all(self, errors: str) -> bool:
        """Whether each other archive's volume is named."""
        return (errors.count("belongs to another archive"), errors.count("\n")) == (3, 3)

    def test_an_interrupt_that_is_ignored(self) -> None:
        """All volumes are read."""
        _, errors = self.rebuild(signal.SIGINT, True, interrupts=signal.SIG_IGN)
        self.assertTrue(self.has_read_all(errors), errors)

    def test_one_that_is_killed(self) -> None:
        status, errors = self.rebuild(signal.SIGKILL, False)
        self.assertEqual((status, errors), (1, "udfburn-archive: a process that reads volumes was killed: run 'rebuild' again\n"))

    def test_one_that_is_killed_as_it_starts(self) -> None:
        for error in (BrokenPipeError("the reader is gone"), BrokenProcessPool("the reader is gone")):
            with self.subTest(error=error), mock.patch("udfburn.archive.rebuild.ProcessPoolExecutor.submit", side_effect=error):
                with redirect_stderr(StringIO()) as errors:
                    status = main(["rebuild", "--dry-run", *self.images, "--archive", self.archive])
                self.assertEqual((status, errors.getvalue()), (1, "udfburn-archive: a process that reads volumes was killed: run 'rebuild' again\n"))

    def test_no_descriptor_is_left(self) -> None:
        """Interrupts are not blocked afterwards."""
        with mock.patch("udfburn.archive.rebuild.os.dup", side_effect=OSError(24, "Too many open files")), redirect_stderr(StringIO()) as errors:
            status = main(["rebuild", "--dry-run", *self.images, "--archive", self.archive])
        self.assertEqual((status, errors.getvalue()), (1, "udfburn-archive: [Errno 24] Too many open files\n"))
        self.assertNotIn(signal.SIGINT, signal.pthread_sigmask(signal.SIG_BLOCK, ()))


def readers(process: int) -> List[int]:
    """The readers that a process has begun."""
    with open(f"/proc/{process}/task/{process}/children", encoding="ascii") as file:
        children = list(map(int, file.read().split()))
    found = []
    for child in children:
        # One may have ended meanwhile.
        with suppress(FileNotFoundError, ProcessLookupError):
            if "spawn_main" in Path(f"/proc/{child}/cmdline").read_text("utf-8"):
                found.append(child)
    return found
