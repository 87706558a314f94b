"""Images and archives that are mounted by this machine's kernel."""

from __future__ import annotations

import errno
import hashlib
import os
import random
import signal
import subprocess
import sys
import time
from typing import Callable, List

from .mounts import Mount, WithMounts, is_mounted, mounted
from .support import WithArchive, change, change_in, digests, environment, make_tree, write


def require_plain_line(test: WithArchive, words: List[str]) -> None:
    """A mount says in one line what it needs where the module is missing."""
    write(test.path("without", "pyfuse3.py"), b"raise ImportError('none')\n")
    found = environment()
    found["PYTHONPATH"] = test.path("without") + os.pathsep + found["PYTHONPATH"]
    done = subprocess.run([sys.executable, "-m", *words], env=found, stdout=subprocess.PIPE, stderr=subprocess.STDOUT, check=False)
    test.assertEqual((done.returncode, done.stdout.count(b"\n")), (1, 1), done.stdout)
    test.assertIn(b"mounting needs pyfuse3 for this Python (Debian: python3-pyfuse3)", done.stdout)


class ImageMounts(WithMounts, WithArchive):
    """`udfburn-client mount`."""

    def setUp(self) -> None:
        super().setUp()
        self.image, self.folder = self.path("disc.img"), self.path("mnt")
        os.mkdir(self.folder)

    def client(self, *words: str, status: int = 0) -> str:
        """A command of the client."""
        ledger = {**environment(), "UDFBURN_LEDGER": self.path("ledger")}
        done = subprocess.run([sys.executable, "-m", "udfburn", *words], env=ledger, stdout=subprocess.PIPE, stderr=subprocess.STDOUT, check=False)
        self.assertEqual(done.returncode, status, done.stdout)
        return done.stdout.decode(errors="replace")

    def fill(self, *words: str) -> None:
        """A volume that has the source."""
        self.client("format", self.image, "--capacity", "20000")
        self.client("put", "-r", "--escape", self.source, "/s", "--image", self.image, *words)

    def words(self) -> List[str]:
        return ["udfburn", "mount", self.image, self.folder]

    def test_as_it_was_stored(self) -> None:
        """Names, bytes and moments, of a file in parts and of odd names too; nothing can be written."""
        make_tree(self.source, 60, 1)
        write(os.path.join(self.source, "long.bin"), random.Random(2).randbytes(2_500_000))
        write(os.fsdecode(os.fsencode(self.source) + b"/caf\xe9"), b"bytes")
        write(os.path.join(self.source, "😀"), b"")
        self.fill("--seal")
        with mounted(self.words(), self.folder) as mount:
            stored = digests(self.source)
            self.assertEqual(digests(mount.path("latest", "s", "data")), stored)
            self.assertEqual(os.lstat(mount.path("latest", "s", "data", "long.bin")).st_size, 2_500_000)
            self.assertEqual(subprocess.run(["cp", "-r", mount.path("latest", "s", "data"), self.path("copy")], check=False).returncode, 0)
            self.assertEqual({path: found[0] for path, found in digests(self.path("copy")).items()}, {path: found[0] for path, found in stored.items()})
            done = subprocess.run(["sha256sum", "--quiet", "-c", "manifest-sha256.txt"], cwd=mount.path("latest", "s"), stdout=subprocess.DEVNULL, check=False)
            self.assertEqual(done.returncode, 0)
            self.assertEqual(os.stat(mount.path("latest", "s", "data", "long.bin")).st_mode & 0o777, 0o400, "nobody reads it who does not read the image")
            changes: List[Callable[[str], None]] = [
                lambda path: os.mkdir(path + "x"), os.unlink, lambda path: os.truncate(path, 1), lambda path: open(path, "ab").close(),
            ]
            for attempt in changes:
                with self.assertRaises(OSError) as failed:
                    attempt(mount.path("latest", "s", "data", "long.bin"))
                self.assertEqual(failed.exception.errno, errno.EROFS)
            self.assertEqual(mount.end(), 0, mount.told())
        self.assertEqual(os.listdir(self.folder), [])

    def test_each_commit(self) -> None:
        self.client("format", self.image)
        for index in range(3):
            write(self.path("source", "a"), b"%d" % index * 3000)
            self.client("put", self.path("source", "a"), "/a", "--image", self.image)
        with mounted(self.words(), self.folder) as mount:
            self.assertEqual(sorted(os.listdir(mount.path("commits"))), ["0", "1", "2", "3"])
            for index in range(3):
                with open(mount.path("commits", str(index + 1), "a"), "rb") as file:
                    self.assertEqual(file.read(), b"%d" % index * 3000)
            self.assertEqual(os.listdir(mount.path("commits", "0")), [])
            # What is stored meanwhile is there at the next mount.
            write(self.path("source", "a"), b"later")
            self.client("put", self.path("source", "a"), "/a", "--image", self.image)
            self.assertFalse(os.path.exists(mount.path("commits", "4")))
            with open(mount.path("latest", "a"), "rb") as file:
                self.assertEqual(file.read(), b"2" * 3000)

    def test_a_flipped_bit(self) -> None:
        """A damaged file gives no byte, however often it is asked for, and the others are whole."""
        chance, bytes_of = random.Random(3), {}
        for name, size in (("damaged", 200_000), ("long", 2_500_000), ("whole", 200_000)):
            bytes_of[name] = chance.randbytes(size)
            write(os.path.join(self.source, name), bytes_of[name])
        self.fill("--seal")
        for name in ("damaged", "long"):
            change_in(self.image, bytes_of[name][150_000:150_100])
        with mounted(self.words(), self.folder) as mount:
            data_path = mount.path("latest", "s", "data")
            self.require_error(errno.EIO, os.path.join(data_path, "damaged"))
            self.assertEqual(subprocess.run(["cp", "-r", data_path, self.path("copy")], stderr=subprocess.DEVNULL, check=False).returncode, 1)
            with open(os.path.join(data_path, "whole"), "rb") as file:
                self.assertEqual(file.read(), bytes_of["whole"])
            self.require_error(errno.EIO, os.path.join(data_path, "long"))
            self.assertEqual(mount.end(), 1, "as a command does that met a failure")
            self.assertIn("/s/data/damaged: is not as it was stored", mount.told())

    def test_how_it_ends(self) -> None:
        self.fill()
        for number in (signal.SIGINT, signal.SIGTERM, signal.SIGHUP, None):
            with mounted(self.words(), self.folder) as mount:
                self.assertTrue(is_mounted(self.folder))
                # Somebody is in it.
                keeper = subprocess.Popen(["sleep", "100"], cwd=mount.path("latest") if number is not None else self.room)
                try:
                    self.assertEqual(mount.end(number), 0, mount.told())
                finally:
                    keeper.kill()
                    keeper.wait()
                self.assertEqual(mount.told(), "")
                self.assertIn(b"unmounted", mount.said())
            self.assertFalse(is_mounted(self.folder))

    def test_killed(self) -> None:
        """What a killed process leaves has a name, and what to do about it."""
        self.fill()
        mount = Mount(self.words(), self.folder)
        self.addCleanup(mount.close)
        mount.process.kill()
        mount.process.wait()
        self.assertIn("fusermount3 -u", self.client("mount", self.image, self.folder, status=1))

    def test_misuse(self) -> None:
        self.fill()
        write(os.path.join(self.folder, "kept"), b"")
        self.assertIn("is not empty", self.client("mount", self.image, self.folder, status=1))
        self.assertIn("No such file", self.client("mount", self.image, self.path("none"), status=1))
        self.assertIn("Not a directory", self.client("mount", self.image, self.image, status=1))
        os.unlink(os.path.join(self.folder, "kept"))
        self.assertIn("holds no volume", self.client("mount", write(self.path("none.img"), bytes(1 << 20)), self.folder, status=1))
        self.assertFalse(is_mounted(self.folder))

    def test_without_pyfuse3(self) -> None:
        self.fill()
        require_plain_line(self, self.words())


class ArchiveMounts(WithMounts, WithArchive):
    """`udfburn-archive mount`."""

    def setUp(self) -> None:
        super().setUp()
        self.folder = self.path("mnt")
        os.mkdir(self.folder)

    def words(self) -> List[str]:
        return ["udfburn.archive", "mount", self.folder, "--archive", self.archive]

    def fill(self, *words: str, files: int = 150) -> None:
        """An archive of three volumes or more, with a file in parts, of which some are on the next volume, and odd names."""
        make_tree(self.source, files, 1)
        write(os.path.join(self.source, "long.bin"), random.Random(2).randbytes(4_500_000))
        write(os.fsdecode(os.fsencode(self.source) + b"/caf\xe9"), b"bytes")
        write(os.path.join(self.source, "=odd 😀"), b"")
        self.init("--capacity", "1800", *words)
        self.add()

    def test_without_pyfuse3(self) -> None:
        self.init()
        require_plain_line(self, self.words())

    def images(self) -> List[str]:
        """The images of the archive, by their labels."""
        found = [os.path.join(self.archive, state, name) for state in ("open", "closed") for name in os.listdir(os.path.join(self.archive, state))]
        return sorted((name for name in found if name.endswith(".img")), key=os.path.basename)

    def test_as_it_was_stored(self) -> None:
        self.fill()
        stored = digests(self.source)
        labels = [volume["volume"] for volume in self.volumes()]
        self.assertGreater(len(labels), 2)
        parts = [row for row in self.rows() if row["path"] == "/s/long.bin"][0]["places"]
        self.assertGreater(len(parts), 1, "it is on several volumes")
        with mounted(self.words(), self.folder) as mount:
            self.assertEqual(sorted(os.listdir(mount.folder)), ["latest", "runs", "volumes"])
            self.assertEqual(digests(mount.path("latest", "s")), stored)
            self.assertEqual(subprocess.run(["cp", "-r", mount.path("latest", "s"), self.path("copy")], check=False).returncode, 0)
            self.assertEqual({path: found[0] for path, found in digests(self.path("copy")).items()}, {path: found[0] for path, found in stored.items()})
            # Each file is on its volume, and what is in parts on each that has some of them.
            self.assertEqual(sorted(os.listdir(mount.path("volumes"))), sorted(labels))
            found = [(path, seen) for label in labels for path, seen in digests(mount.path("volumes", label, "s")).items()]
            self.assertEqual(sorted(found), sorted([*stored.items()] + [(b"long.bin", stored[b"long.bin"])] * (len(parts) - 1)))
            with self.assertRaises(OSError) as failed:
                open(mount.path("latest", "s", "new"), "wb").close()
            self.assertEqual(failed.exception.errno, errno.EROFS)
            self.assertFalse(os.path.exists(mount.path("latest", "s", "none")))
            self.assertFalse(os.path.exists(mount.path("latest", "\U0010ffff")))
            self.assertEqual(os.stat(mount.path("latest", "s", "long.bin")).st_mode & 0o777, 0o400)
            self.assertLess(mount.memory(), 100_000_000)
            self.assertEqual(mount.end(signal.SIGINT), 0, mount.told())
            self.assertEqual(mount.told(), "")
        self.assertFalse(is_mounted(self.folder))

    def test_runs(self) -> None:
        """A run over several volumes is one moment; each run has all that was there after it."""
        self.fill()
        first = digests(self.source)
        write(os.path.join(self.source, "long.bin"), b"short now")
        write(os.path.join(self.source, "d9", "new"), b"new")
        self.add()
        second = digests(self.source)
        self.do("rebuild")
        with mounted(self.words(), self.folder) as mount:
            runs = sorted(os.listdir(mount.path("runs")))
            self.assertEqual(len(runs), 2)
            self.assertEqual([digests(mount.path("runs", run, "s")) for run in runs], [first, second])
            self.assertEqual(os.path.exists(mount.path("runs", runs[0], "s", "d9")), False)
            self.assertEqual(os.path.exists(mount.path("runs", runs[1], "s", "d9")), True)
            self.assertFalse(os.path.exists(mount.path("runs", "2026-01-01")))
        for run, stored in zip(runs, (first, second)):
            self.do("get", "/s", self.path(run), "--as-of", run)
            self.assertEqual(digests(self.path(run, "s")), stored)
        before = runs[0][:-7] + f"{int(runs[0][-7:-1]) - 1:06}Z"
        if not before.endswith("-00001Z"):
            self.do("get", "/s", self.path("before"), "--as-of", before, status=1)

    def test_away(self) -> None:
        """A file of a volume that is away is listed, and there is no medium; it can be read once the image is back."""
        self.fill()
        with mounted(self.words(), self.folder) as mount:
            whole = {path: (os.lstat(path).st_size, os.lstat(path).st_mtime_ns) for path in walked(mount.path("latest"))}
            image = self.images()[0]
            os.rename(image, self.path("away"))
            label = os.path.basename(image)[:-4]
            away = {row["path"] for row in self.rows() if label in [place["volume"] for place in row["places"]]}
            time.sleep(1.1)
            for path, seen in whole.items():
                self.assertEqual((os.lstat(path).st_size, os.lstat(path).st_mtime_ns), seen)
                shown = os.fsencode(path[len(mount.path("latest")) :]).decode(errors="backslashreplace")
                if shown in away:
                    self.require_error(errno.ENOMEDIUM, path)
                else:
                    with open(path, "rb") as file:
                        self.assertEqual(len(file.read()), seen[0])
            os.rename(self.path("away"), image)
            time.sleep(1.1)
            self.assertEqual(digests(mount.path("latest", "s")), digests(self.source))
            self.assertEqual(mount.end(), 1)
            self.assertEqual(mount.told().count("is not at hand"), 1, "once for the volume, and not for each file")

    def damage(self, data: bytes) -> str:
        """Flips a bit of bytes that one image has; gives the image."""
        for image in self.images():
            with open(image, "rb") as file:
                place = file.read().find(data)
            if place >= 0:
                change(image, place)
                return image
        raise AssertionError("no image has it")

    def test_a_flipped_bit(self) -> None:
        """A damaged file gives no byte, however often it is asked for: a small one, and one in parts. It is whole once it was repaired."""
        os.mkdir(self.path("copies"))
        self.fill("--copies", self.path("copies"))
        self.do("close")
        stored = digests(self.source)
        with open(os.path.join(self.source, "d0", "e0", "file 3.bin"), "rb") as file:
            self.damage(file.read()[-100:])
        with open(os.path.join(self.source, "long.bin"), "rb") as file:
            file.seek(4_200_000)
            self.damage(file.read(100))
        os.rename(self.path("copies"), self.path("elsewhere"))
        with mounted(self.words(), self.folder) as mount:
            for names in (("d0", "e0", "file 3.bin"), ("long.bin",)):
                self.require_error(errno.EIO, mount.path("latest", "s", *names))
                self.require_error(errno.EIO, mount.path("latest", "s", *names))
            found = {path: seen for path, seen in stored.items() if path not in (b"d0/e0/file 3.bin", b"long.bin")}
            for path, seen in found.items():
                with open(os.path.join(os.fsencode(mount.path("latest", "s")), path), "rb") as file:
                    self.assertEqual(hashlib.file_digest(file, "sha256").hexdigest(), seen[0])
            # A copy in a folder has them.
            os.rename(self.path("elsewhere"), self.path("copies"))
            time.sleep(1.1)
            self.assertEqual(digests(mount.path("latest", "s")), stored)
            os.rename(self.path("copies"), self.path("elsewhere"))
            time.sleep(1.1)
            self.assertEqual(mount.end(), 1)
            self.assertIn("/s/long.bin: is not as it was stored: its SHA-256 differs: run 'check --data', then 'repair'", mount.told())

    def test_grows_meanwhile(self) -> None:
        """It is shown as at the mount: what is added later is not there, and an older version is given. Volumes may be closed meanwhile."""
        self.fill()
        stored = digests(self.source)
        with mounted(self.words(), self.folder) as mount:
            listed = walked(mount.path())
            self.do("add", write(self.path("other", "later"), b"later"), "--at", "/other/later")
            write(os.path.join(self.source, "d0", "e0", "file 3.bin"), b"another version")
            make_tree(os.path.join(self.source, "more"), 100, 7)
            self.add()
            self.do("close")
            time.sleep(1.1)
            self.assertEqual(walked(mount.path()), listed)
            self.assertEqual(digests(mount.path("latest", "s")), stored)
            self.assertFalse(os.path.exists(mount.path("latest", "other")))
            self.assertEqual(mount.end(), 0, mount.told())
        with mounted(self.words(), self.folder) as mount:
            self.assertEqual(digests(mount.path("latest", "s")), digests(self.source))
            self.assertEqual(len(os.listdir(mount.path("runs"))), 3)

    def test_a_file_and_a_folder(self) -> None:
        """A path that was a file's, and later a folder's."""
        write(os.path.join(self.source, "a"), b"file")
        self.init("--capacity", "1800")
        self.add()
        os.unlink(os.path.join(self.source, "a"))
        write(os.path.join(self.source, "a", "b"), b"below")
        self.add()
        with mounted(self.words(), self.folder) as mount:
            self.assertEqual(digests(mount.path("latest", "s")), digests(self.source))
            first = sorted(os.listdir(mount.path("runs")))[0]
            with open(mount.path("runs", first, "s", "a"), "rb") as file:
                self.assertEqual(file.read(), b"file")
            self.assertEqual(mount.end(), 0)
            self.assertIn("/s/a: is a file and a folder", mount.told())

    def test_misuse(self) -> None:
        """It is not mounted where it would hide what it reads."""
        os.mkdir(self.path("copies"))
        self.init("--copies", self.path("copies"))
        empty = self.path("empty")
        os.mkdir(empty)
        os.rename(self.path("copies"), self.path("elsewhere"))
        os.mkdir(self.path("copies"))
        for point, words in ((self.archive, "is not empty"), (self.path("copies"), "would be hidden"), (self.path("none"), "No such file")):
            self.assertIn(words, self.do("mount", point, status=1).errors)
        self.assertFalse(is_mounted(empty))


def walked(folder: str) -> List[str]:
    """The files below a folder."""
    return sorted(os.path.join(at, name) for at, _, names in os.walk(folder) for name in names)
