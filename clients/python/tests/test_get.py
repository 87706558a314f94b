"""`get` over the programs: interrupted, gone on with, and how often it synchronises."""

from __future__ import annotations

import os
import shutil
import subprocess
import sys
import unittest
from pathlib import Path
from typing import Callable, Dict, List, Set
from unittest import mock

from udfburn.base import beneath, disk, errors as e
from udfburn.local import saving
from udfburn.trees import fetch

from .programs import PATIENCE, WithPrograms
from .with_files import Local

NAMED = "import sys; from udfburn.commands import cli; from udfburn.local import saving; saving.UNNAMED = 0; saving.SYNCED_FILES = 4; sys.exit(cli.main(sys.argv[1:]))"
"""The client where the file system has no files without a name."""

UNNAMED = NAMED.replace("saving.UNNAMED = 0; ", "")


class Killed(WithPrograms):
    def setUp(self) -> None:
        super().setUp()
        self.source, self.back = os.path.join(self.room, "source"), os.path.join(self.room, "back")
        for index in range(60):
            self.write(f"source/{index % 3}/{index}", b"%d" % index * 1000)
        self.run_command("put", "-r", "--quiet", self.source, "/x", where=["--image", self.image])

    def killed(self, program: str, steps: int, *words: str) -> None:
        """Kills a copy once it has said so many steps."""
        line = [sys.executable, "-c", program, "get", "-r", "--image", self.image, *words, "/x", self.back]
        process = subprocess.Popen(line, env=self.environment(), stdout=subprocess.PIPE, stderr=subprocess.DEVNULL)
        assert process.stdout
        for _ in range(steps):
            process.stdout.readline()
        process.kill()
        process.wait(PATIENCE)
        process.stdout.close()

    def left(self) -> List[str]:
        return [name for _, _, names in os.walk(self.back) for name in names if name.startswith(".udfburn-")]

    def finished(self, *words: str) -> str:
        told = self.run_command("get", "-r", *words, "/x", self.back, where=["--image", self.image])
        self.assertEqual(self.left(), [])
        self.assertEqual(subprocess.run(["diff", "-r", self.source, self.back], check=False).returncode, 0)
        return told

    def test_a_copy_that_is_killed_goes_on(self) -> None:
        """What has its name is whole, is compared, and stays the file that it is."""
        for program in (UNNAMED, NAMED):
            for steps in (4, 20, 41):
                shutil.rmtree(self.back, ignore_errors=True)
                self.killed(program, steps)
                there = {os.path.join(at, name): os.stat(os.path.join(at, name)).st_ino for at, _, names in os.walk(self.back) for name in names}
                whole = {path: inode for path, inode in there.items() if ".udfburn-" not in path}
                self.assertGreaterEqual(len(whole), steps)
                for path in whole:
                    with open(path, "rb") as file:
                        self.assertEqual(file.read(), os.path.basename(path).encode() * 1000)
                if program is UNNAMED:
                    self.assertEqual(self.left(), [], "nothing is left of a file without a name")
                left = 60 - len(whole)
                self.assertIn(f"got {left} file{'' if left == 1 else 's'}, ", self.finished())
                self.assertEqual({path: os.stat(path).st_ino for path in whole}, whole)

    def test_what_a_killed_one_left_is_removed(self) -> None:
        """Also where the file itself came to be otherwise; and nothing else is."""
        for name in ("0/3", "1/58"):
            left = os.path.join(self.back, os.path.dirname(name), saving.temporary_name(os.path.basename(name)))
            os.makedirs(os.path.dirname(left))
            with open(left, "wb") as file:
                file.write(b"part of it")
        shutil.copy(os.path.join(self.source, "0/3"), os.path.join(self.back, "0/3"))
        own = os.path.join(self.back, "0", ".udfburn-0123456789abcdef")
        with open(own, "wb") as file:
            file.write(b"of somebody")
        self.run_command("get", "-r", "--quiet", "/x", self.back, where=["--image", self.image])
        self.assertEqual(self.left(), [os.path.basename(own)])
        os.unlink(own)
        self.finished()

    def test_a_forced_one_that_is_killed(self) -> None:
        """The file that is replaced is there at each moment, the old one or the new."""
        for program in (UNNAMED, NAMED):
            shutil.rmtree(self.back, ignore_errors=True)
            shutil.copytree(self.source, self.back)
            for index in range(60):
                with open(os.path.join(self.back, f"{index % 3}/{index}"), "wb") as file:
                    file.write(b"old" * 7)
            self.killed(program, 9, "--force")
            for index in range(60):
                with open(os.path.join(self.back, f"{index % 3}/{index}"), "rb") as file:
                    self.assertIn(file.read(), (b"old" * 7, b"%d" % index * 1000))
            self.finished("--force")

    def test_a_forced_one_that_waits_for_others(self) -> None:
        """A file that another process is writing is not taken from it."""
        root = beneath.Root.open(self.room)
        self.addCleanup(root.close)
        with mock.patch.object(saving, "UNNAMED", 0), saving.Saver(root, True) as first:
            first.save(("a",), [b"first"], None, lambda count: None)
            with saving.Saver(root, True) as second, self.assertRaisesRegex(e.SourceError, "another process is writing it"):
                second.save(("a",), [b"second"], None, lambda count: None)
            first.finish()
        self.assertEqual(self.read("a"), b"first")

    def test_how_often_it_synchronises(self) -> None:
        """Some hundred files at once, and each folder once: not once for each file."""
        log = os.path.join(self.room, "calls")
        line = ["strace", "-f", "-qq", "-o", log, "-e", "trace=fsync,fdatasync,syncfs,sync", *self.words("get", "-r", "--quiet", "/x", self.back, where=["--image", self.image])]
        if shutil.which("strace") is None or subprocess.run(line, env=self.environment(), check=False).returncode:
            # Without it the client's own calls are counted.
            calls: List[int] = []

            def synced(descriptor: int) -> bool:
                calls.append(descriptor)
                return True

            with mock.patch("udfburn.base.disk.os.fsync", calls.append), mock.patch.object(saving, "sync_all", synced):
                fetch.get_tree(self.on_image(), ("x",), self.back)
            count = len(calls)
        else:
            count = len([line for line in self.read("calls").splitlines() if b"sync" in line and b"resumed" not in line])
        # A batch, the folder with its three and the one above, and the image's own.
        self.assertTrue(1 <= count <= 12, count)


class Goes(Local):
    """What a copy goes into."""

    def setUp(self) -> None:
        super().setUp()
        self.back = os.path.join(self.room, "back")
        for name in ("a", "b", "d/c"):
            self.write(name, name.encode() * 10)
        self.put()

    def fetched(self, force: bool = False) -> fetch.Fetched:
        with self.client() as client:
            return fetch.Fetcher(client, force=force).tree(("x",), self.back)

    def there(self) -> Dict[str, bytes]:
        found = {}
        for at, _, names in os.walk(self.back):
            for name in filter(lambda name: os.path.isfile(os.path.join(at, name)), names):
                with open(os.path.join(at, name), "rb") as file:
                    found[os.path.relpath(os.path.join(at, name), self.back)] = file.read()
        return found

    def test_files_with_other_bytes_stay(self) -> None:
        """Each is named, and all others are copied."""
        self.fetched()
        os.unlink(os.path.join(self.back, "d/c"))
        for name, data in (("a", b"A" * 10), ("b", b"longer than before")):
            with open(os.path.join(self.back, name), "wb") as file:
                file.write(data)
        summary = self.fetched()
        self.assertEqual((summary.files, summary.same, len(summary.failures)), (1, 0, 2))
        for name, failure in zip("ab", summary.failures):
            self.assertRegex(failure, f"back/{name}: already exists, with other bytes .--force")
        self.assertEqual(self.there(), {"a": b"A" * 10, "b": b"longer than before", "d/c": b"d/c" * 10})
        with self.client() as client, self.assertRaisesRegex(e.SourceError, "back/a.*\n.*back/b"):
            fetch.get_tree(client, ("x",), self.back)
        summary = self.fetched(True)
        self.assertEqual((summary.files, summary.same, summary.failures), (2, 1, []))
        self.assertEqual(self.there(), {"a": b"a" * 10, "b": b"b" * 10, "d/c": b"d/c" * 10})

    def test_two_files_with_one_local_name(self) -> None:
        """One that somebody stored under what is no spelling, and the spelling of that: the second one is named, however often it is tried."""
        with self.client() as client:
            client.create(("x", "␛zz"), b"one")
            client.create(("x", "␛E2␛90␛9Bzz"), b"three")
        line = "/x/␛E2␛90␛9Bzz: has the local name of /x/␛zz: copy it by itself"
        for force in (False, True, False, True):
            self.assertEqual(self.fetched(force).failures, [line])
            self.assertEqual(Path(self.back, "␛zz").read_bytes(), b"one")

    def test_names_that_the_file_system_takes_for_one(self) -> None:
        """Where case does not count, a file of a copy does not take the place of another one of it: written before, or there already."""
        os.mkdir(self.back)
        folder = Path(self.back)
        folder.joinpath("b").write_bytes(b"of another copy")
        named: List[int] = []
        for unnamed in (saving.UNNAMED, 0):
            with self.subTest(unnamed=unnamed), mock.patch.object(saving, "UNNAMED", unnamed), beneath.Root.open(self.back) as root:
                folder.joinpath("there").write_bytes(b"same")
                with saving.Saver(root, True) as saver:
                    saver.has_copied(os.stat(folder.joinpath("there")))
                    saver.save(("b",), [b"first"], None, named.append)
                    if unnamed:
                        saver.save(("b",), [b"second"], None, named.append)
                    saver.flush()
                    for name in ("b", "there"):
                        with self.assertRaisesRegex(e.SourceError, f"{name}: is another file of this copy, since"):
                            saver.save((name,), [b"third"], None, named.append)
                    saver.finish()
                self.assertEqual(len(saver.failures), 1 if unnamed else 0)
                self.assertEqual({name: folder.joinpath(name).read_bytes() for name in sorted(os.listdir(folder))}, {"b": b"first", "there": b"same"})
        self.assertEqual(named, [5, 5])

    def test_a_folder_of_others(self) -> None:
        """It is gone into by force alone."""
        os.makedirs(self.back)
        for name in ("mine", "a"):
            with open(os.path.join(self.back, name), "wb") as file:
                file.write(b"mine")
        with self.assertRaisesRegex(e.SourceError, "has mine, which the volume does not have .--force"):
            self.fetched()
        self.assertEqual(self.there(), {"mine": b"mine", "a": b"mine"})
        self.assertEqual(self.fetched(True).failures, [])
        self.assertEqual(sorted(self.there()), ["a", "b", "d/c", "mine"])

    def test_what_is_no_file(self) -> None:
        os.makedirs(os.path.join(self.back, "a"))
        os.mkfifo(os.path.join(self.back, "b"))
        self.assertEqual(len(self.fetched().failures), 2)
        summary = self.fetched(True)
        self.assertEqual(len(summary.failures), 2)
        for failure, what in zip(summary.failures, ("a: is a folder", "b: is a named pipe")):
            self.assertIn(what, failure)
        self.assertEqual(list(self.there()), ["d/c"])

    def test_a_file_in_the_place_of_a_folder(self) -> None:
        os.makedirs(self.back)
        with open(os.path.join(self.back, "d"), "wb"):
            pass
        for force in (False, True):
            with self.assertRaisesRegex(e.SourceError, "back/d: already exists, and is not a folder"):
                self.fetched(force)

    def test_a_file_that_cannot_be_read(self) -> None:
        """It counts as another one, and the others are copied all the same."""
        self.fetched()
        os.unlink(os.path.join(self.back, "b"))
        real = os.open

        def opened(path: str, *rest: int, **how: int) -> int:
            if path == "a":
                raise PermissionError(13, "Permission denied")
            return real(path, *rest, **how)

        with mock.patch("udfburn.base.beneath.os.open", opened):
            summary = self.fetched()
        self.assertEqual((summary.files, summary.same, len(summary.failures)), (1, 1, 1))
        self.assertEqual(sorted(self.there()), ["a", "b", "d/c"])

    def test_a_system_that_tells_of_no_failed_writes(self) -> None:
        """There each file is synchronised by itself."""
        synced: List[int] = []
        real = os.fsync

        def fsync(descriptor: int) -> None:
            synced.append(descriptor)
            real(descriptor)

        with mock.patch.object(disk, "_call", False), mock.patch.object(disk, "find_call", lambda: None), \
                mock.patch("udfburn.local.saving.os.fsync", fsync):
            self.fetched()
        self.assertGreaterEqual(len(synced), 3)

    def test_a_synchronisation_that_fails(self) -> None:
        """No file has its name then."""
        def fails(descriptor: int) -> bool:
            raise OSError(5, "Input/output error")

        with mock.patch.object(saving, "sync_all", fails), self.assertRaises(OSError):
            self.fetched()
        self.assertEqual(self.there(), {})

    def test_the_bytes_are_on_the_disk_before_the_name(self) -> None:
        order: List[str] = []
        real = beneath.Root.link_open

        def link(root: beneath.Root, descriptor: int, names: beneath.RelativePath) -> None:
            order.append("named")
            real(root, descriptor, names)

        def synced(descriptor: int) -> bool:
            order.append("synced")
            return True

        with mock.patch.object(saving, "sync_all", synced), mock.patch.object(beneath.Root, "link_open", link):
            self.fetched()
        self.assertEqual(order, ["synced", "named", "named", "named"])


    def test_the_names_of_what_is_there_already_are_on_the_disk(self) -> None:
        """A killed copy gave them, and may not have come so far."""
        self.fetched()
        self.assertEqual(self.synced(lambda: self.fetched()), {self.room, self.back, os.path.join(self.back, "d")})
        self.assertEqual(self.synced(lambda: self.fetched_alone(os.path.join(self.back, "a"))), {self.back})

    def synced(self, fetched: Callable[[], fetch.Fetched]) -> Set[str]:
        """The folders whose names are made durable where no file is copied."""
        folders: List[str] = []
        with mock.patch.object(beneath, "sync_names", lambda descriptor: folders.append(os.readlink(f"/proc/self/fd/{descriptor}"))):
            self.assertEqual(fetched().files, 0)
        return set(folders)

    def fetched_alone(self, local: str) -> fetch.Fetched:
        with self.client() as client:
            return fetch.Fetcher(client).file(("x", "a"), local)


class SyncCall(unittest.TestCase):
    def test_of_this_system(self) -> None:
        """Linux reports failed writes by syncfs from 5.8 on."""
        for release, there in (("5.7.19", False), ("5.8.0-1-amd64", True), ("4.19.0", False), ("6.18.44-fc", True), ("10.0", True)):
            with mock.patch("udfburn.base.disk.os.uname", lambda release=release: mock.Mock(sysname="Linux", release=release)):
                self.assertEqual(disk.find_call() is not None, there, release)

    def test_it_is_made(self) -> None:
        with open(os.devnull, "rb") as file:
            self.assertIn(disk.sync_all(file.fileno()), (True, False))
        with self.assertRaises(OSError):
            disk.sync_all(-1)


if __name__ == "__main__":
    unittest.main()
