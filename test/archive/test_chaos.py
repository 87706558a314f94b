"""A kill, an error of the disk or a full disk at each call by which a command changes files: nothing is lost, nothing is acknowledged
wrongly, and the same command goes on. After each, every byte is compared."""

from __future__ import annotations

import errno
import json
import os
import random
import shutil
import signal
import struct
import subprocess
import sys
import tempfile
import unittest
from typing import Callable, Dict, List, Set, Tuple

from .support import HERE, LARGE, PATIENCE, Digests, WithArchive, await_programs, digests, environment, make_tree, words_of, write

SAMPLE = 3
"""Calls that are tried for each kind of failure without `--large`, where a test names no other number."""

ACTIONS = (0, errno.EIO, errno.ENOSPC)


class Chaos(WithArchive):
    """Commands over a small archive with two copies."""

    library = ""
    capacity = "1700"
    sample = SAMPLE
    """Calls that are tried for each kind of failure."""
    folders: Tuple[str, ...] = ("archive", "source", "one", "two")
    """What each trial begins with, as it was kept."""

    @classmethod
    def setUpClass(cls) -> None:
        folder = tempfile.mkdtemp(prefix="chaos-")
        cls.addClassCleanup(shutil.rmtree, folder)
        library = os.path.join(folder, "chaos.so")
        words = ["gcc", "-O2", "-shared", "-fPIC", "-o", library, os.path.join(HERE, "chaos.c"), "-ldl"]
        if shutil.which("gcc") is None or subprocess.run(words, check=False).returncode:
            raise unittest.SkipTest("gcc is not installed")
        cls.library = library

    def setUp(self) -> None:
        super().setUp()
        self.copies = [self.path("one"), self.path("two")]
        for copy in self.copies:
            os.mkdir(copy)
        self.init("--copies", *self.copies, "--capacity", self.capacity, "--delete", "acknowledged")
        make_tree(self.source, 5, 1)
        self.add()
        # A group of small files, and parts on two volumes.
        make_tree(os.path.join(self.source, "more"), 9, 2)
        write(os.path.join(self.source, "big"), random.Random(3).randbytes(2_300_000))
        self.before = digests(self.source)

    def keep(self) -> None:
        """Keeps what there is, to begin each trial from it."""
        for folder in self.folders:
            shutil.copytree(self.path(folder), self.path("kept", folder))

    def again(self) -> None:
        for name in os.listdir(self.room):
            if name.startswith("tmp"):
                # What the last trial got.
                shutil.rmtree(self.path(name))
        for folder in self.folders:
            shutil.rmtree(self.path(folder))
            shutil.copytree(self.path("kept", folder), self.path(folder))

    def watched(self) -> str:
        """The folder, or the file, whose calls count."""
        return self.room

    def command(self, *words: str) -> List[str]:
        """The words of a whole command line."""
        return [*words_of(*words), "--archive", self.archive]

    def run_with(self, at: int, action: int, *words: str) -> Tuple[int, str, int]:
        """Runs a command with a failure at a call; gives its status, what it printed, and how many calls there were."""
        count = write(self.path("count"), bytes(8))
        place = {"CHAOS_ROOM": self.watched(), "CHAOS_COUNT": count, "CHAOS_AT": str(at), "CHAOS_ACTION": str(action), "LD_PRELOAD": self.library}
        done = subprocess.Popen(
            self.command(*words), env={**environment(), **place}, stdout=subprocess.PIPE, stderr=subprocess.STDOUT, text=True, start_new_session=True,
        )
        try:
            output, _ = done.communicate(timeout=PATIENCE)
        finally:
            if done.poll() is None:
                os.killpg(done.pid, signal.SIGKILL)
        await_programs(self.room)
        with open(count, "rb") as file:
            (calls,) = struct.unpack("<q", file.read())
        return done.returncode, output, calls

    def trials(self, check: Callable[[str], None], *words: str) -> None:
        """Runs a command with each failure that is tried, each time from what was kept, and looks at what is there then. `check` gets what
        the run printed, and runs the same command again."""
        self.again()
        status, output, calls = self.run_with(-1, 0, *words)
        self.assertEqual(status, 0, output)
        self.assertGreater(calls, 20)
        chance = random.Random(62)
        every = range(1, calls + 1)
        tried = [(at, action) for action in ACTIONS for at in (every if LARGE else sorted(chance.sample(every, self.sample)))]
        met = failed = 0
        for at, action in tried:
            with self.subTest(command=words[0], at=at, action=errno.errorcode.get(action, "kill")):
                self.again()
                status, output, calls = self.run_with(at, action, *words)
                # How many calls a run takes, and which process makes one, depends on who comes first.
                met += calls >= at
                failed += status != 0
                self.assertNotIn("Traceback", output)
                check(output)
                self.require_nothing_left()
        # Some calls may fail without harm, and where the program alone is killed it is begun again.
        self.assertGreater(met, len(tried) // 2)
        if LARGE:
            print(f"{words[0]}: {len(tried)} runs, {met} with a failure, {failed} failed", flush=True)

    def require_nothing_left(self) -> None:
        """No temporary file or folder is left in the archive or in a folder for copies, once the same command has run again."""
        left = [
            os.path.join(at, name) for folder in self.folders for at, folders, files in os.walk(self.path(folder)) for name in folders + files
            if name.endswith(".new") or name.startswith((".rebuild-", ".repair-", ".udfburn-"))
        ]
        self.assertEqual(left, [])

    def stored(self, output: str, prefix: str) -> Set[bytes]:
        """The paths below a folder that a run with `--json` said it had stored."""
        steps = [json.loads(line) for line in output.splitlines() if line.startswith('{"did": "stored"') and line.endswith("}")]
        return {os.fsencode(step["path"][len(prefix):]) for step in steps}

    def require_kept(self, output: str, there: Dict[bytes, str]) -> None:
        """What a run acknowledged, and each source that it took away, is among what is there, by its SHA-256."""
        for path in set(self.before) - set(digests(self.source)) | self.stored(output, "/s/"):
            self.assertEqual(there.get(path), self.before[path][0], path)

    def require_intact(self) -> None:
        """Every byte of images and copies is as it was closed, and every file comes back as it was."""
        self.assertEqual(self.do("check", "--data", "--remotes").last()["failures"], [])
        self.assertEqual(self.get_all(), self.before)
        self.require_agreed()

    def add_that_deletes(self, earlier: Digests) -> None:
        """At whatever call it is cut: what was acknowledged is there, what went from the source too, and the same command finishes. The
        archive has the files of earlier runs besides."""
        words = ("add", self.source, "--at", "/s", "--delete-source", "--json")

        def check(output: str) -> None:
            # Whatever the catalogue knows by now.
            self.do("rebuild")
            self.require_kept(output, {os.fsencode(row["path"][len("/s/"):]): row["sha256"] for row in self.rows()})
            self.do(*words[:-1])
            self.assertEqual(digests(self.source), {}, output)
            self.assertEqual(self.get_all(), {**earlier, **self.before})
            self.require_agreed()

        self.trials(check, *words)


class Adding(Chaos):
    def test_add_that_deletes(self) -> None:
        self.keep()
        self.add_that_deletes({})


class AddingWhole(Adding):
    """One volume has room for the file above a mebibyte, which takes several requests."""

    capacity = "6000"


class AddingInGroups(Adding):
    """The calls on the image alone, which gets many small files in few groups."""

    capacity = "6000"
    sample = 8

    def setUp(self) -> None:
        super().setUp()
        make_tree(os.path.join(self.source, "groups"), 40, 4)
        self.before = digests(self.source)

    def watched(self) -> str:
        return self.path("archive", "open", "T-000001.img")


class Closing(Chaos):
    def test_close(self) -> None:
        self.add()
        # The other volume is closed and sent.
        self.do("close", "T-000001")
        self.keep()

        def check(_: str) -> None:
            self.do("close")
            self.assertEqual({volume["state"] for volume in self.volumes()}, {"copied"})
            self.require_intact()

        self.trials(check, "close")


class Repairing(Chaos):
    def setUp(self) -> None:
        super().setUp()
        self.add()
        self.do("close")

    def repair(self, _: str) -> None:
        self.do("repair")
        self.require_intact()

    def closed(self, number: int) -> str:
        return self.path("archive", "closed", f"T-{number:06}.img")

    def test_repair(self) -> None:
        os.unlink(self.closed(1))
        for name in os.listdir(self.copies[0]):
            if name.startswith("T-000002"):
                os.unlink(os.path.join(self.copies[0], name))
        self.do("check", "--remotes", status=1)
        self.keep()
        self.trials(self.repair, "repair")

    def test_repair_from_damaged_images(self) -> None:
        """Each image of a volume has lost other blocks."""
        for index, path in enumerate((self.closed(2), *(os.path.join(copy, "T-000002.img") for copy in self.copies))):
            os.chmod(path, 0o600)
            with open(path, "r+b") as file:
                file.seek(2048 * (300 + 100 * index))
                file.write(bytes(2048 * 5))
        self.do("check", "--remotes", status=1)
        self.keep()
        self.trials(self.repair, "repair")


class Rebuilding(Chaos):
    def setUp(self) -> None:
        super().setUp()
        self.add()
        self.do("close")

    def test_rebuild(self) -> None:
        self.keep()
        with open(self.path("kept", "archive", "catalogue.sqlite"), "r+b") as file:
            file.seek(4096)
            file.write(bytes(8192))

        def check(_: str) -> None:
            self.do("rebuild")
            self.do("close", "--full")
            self.require_intact()

        self.trials(check, "rebuild")

    def test_rebuild_of_nothing(self) -> None:
        """The catalogue and an image are lost, and copies are there."""
        self.keep()
        os.unlink(self.path("kept", "archive", "closed", "T-000001.img"))
        for name in os.listdir(self.path("kept", "archive")):
            if name.startswith("catalogue"):
                os.unlink(self.path("kept", "archive", name))

        def check(_: str) -> None:
            self.do("rebuild")
            self.do("repair")
            self.do("close", "--full")
            self.require_intact()

        self.trials(check, "rebuild")


class Getting(Chaos):
    folders = ("archive", "source", "one", "two", "back")

    def test_get(self) -> None:
        self.add()
        self.do("close")
        # One volume is read from a copy.
        os.unlink(self.path("archive", "closed", "T-000001.img"))
        os.mkdir(self.path("back"))
        self.keep()
        words = ("get", "/s", self.path("back"))

        def check(output: str) -> None:
            self.require_whole(output)
            self.do(*words)
            self.assertEqual(digests(self.path("back", "s")), self.before)

        self.trials(check, *words, "--json")

    def require_whole(self, output: str) -> None:
        """Each file that has its own name is whole, and so is each that the run said it had got."""
        there = digests(self.path("back", "s")) if os.path.isdir(self.path("back", "s")) else {}
        for path in self.before:
            if path in there:
                self.assertEqual(there[path], self.before[path], path)
        for line in output.splitlines():
            if line.startswith('{"did": "got"') and line.endswith("}"):
                path = os.fsencode(json.loads(line)["path"][len("/s/"):])
                self.assertEqual(there.get(path), self.before[path], path)


class Adopting(Chaos):
    def test_adopt(self) -> None:
        """In the place of an image to which an earlier version appended, and was cut short."""
        self.add()
        image, good = self.path("archive", "open", "T-000001.img"), self.path("good.img")
        shutil.copy(image, good)
        length = os.path.getsize(image)
        with open(image, "a+b") as file:
            file.write(bytes(4096))
            file.seek(0)
            old = file.read()
        write(image[: -len("img")] + "tail", b"%d\n" % length)
        self.keep()
        words = ("adopt", "T-000001", good)

        def check(_: str) -> None:
            if os.path.exists(image):
                self.require_length(image, length)
            self.assertTrue(self.is_in_place(image, length) or self.is_kept(old))
            self.do(*words)
            self.require_length(image, length)
            self.assertEqual([name for name in os.listdir(self.path("archive", "open")) if name.endswith(".before")], [])
            self.assertEqual(self.get_all(), self.before)
            self.require_agreed()

        self.trials(check, *words)

    def require_length(self, image: str, length: int) -> None:
        """So many bytes of an image count."""
        tail = image[: -len("img")] + "tail"
        if os.path.exists(tail):
            with open(tail, "rb") as file:
                self.assertEqual(int(file.read()), length)
        else:
            self.assertEqual(os.path.getsize(image), length)

    def is_in_place(self, image: str, length: int) -> bool:
        return os.path.exists(image) and os.path.getsize(image) == length

    def is_kept(self, data: bytes) -> bool:
        """Whether a file in `open` has these bytes."""
        folder = self.path("archive", "open")
        for name in os.listdir(folder):
            with open(os.path.join(folder, name), "rb") as file:
                if file.read() == data:
                    return True
        return False


class Putting(Chaos):
    """The client on a single volume."""

    folders = ("source", "disc")

    def setUp(self) -> None:
        super().setUp()
        self.image, self.ledger = self.path("disc", "disc.img"), self.path("disc", "ledger.sqlite")
        os.mkdir(self.path("disc"))
        self.client("format", self.image, "--label", "T", "--capacity", "6000")
        # Another command has made the ledger.
        self.client("mkdir", "/t", *self.where())
        shutil.rmtree(os.path.join(self.source, "more"))
        self.before = digests(self.source)

    def where(self) -> List[str]:
        return ["--image", self.image, "--ledger", self.ledger]

    def command(self, *words: str) -> List[str]:
        return [sys.executable, "-m", "udfburn", *words, *self.where()]

    def client(self, *words: str) -> str:
        done = subprocess.run([sys.executable, "-m", "udfburn", *words], env=environment(), capture_output=True, text=True, timeout=PATIENCE, check=False)
        self.assertEqual(done.returncode, 0, done.stdout + done.stderr)
        return done.stdout

    def on_volume(self) -> Digests:
        """Every file that the volume has below /s, read from a copy of the image, so that nothing goes on with it."""
        with tempfile.TemporaryDirectory() as folder:
            copy = shutil.copy(self.image, os.path.join(folder, "disc.img"))
            if "d s" not in self.client("ls", "/", "--image", copy).splitlines():
                return {}
            self.client("get", "-r", "/s", os.path.join(folder, "back"), "--image", copy)
            return digests(os.path.join(folder, "back"))

    def stored(self, output: str, prefix: str) -> Set[bytes]:
        steps = [json.loads(line) for line in output.splitlines() if line.startswith('{"did": "stored"') and line.endswith("}")]
        return {os.fsencode(step["path"][len(prefix):]) for step in steps} & set(self.before)

    def test_put_that_deletes(self) -> None:
        self.keep()
        words = ("put", "-r", self.source, "/s", "--delete-source")

        def check(output: str) -> None:
            self.require_kept(output, {path: digest for path, (digest, _) in self.on_volume().items()})
            self.client(*words, *self.where())
            self.assertEqual(digests(self.source), {}, output)
            self.assertEqual(self.on_volume(), self.before)
            self.client("check", "--data", self.image)

        self.trials(check, *words, "--json")


