"""Every byte compared with the digests that cover it: one changed byte is found, named with its path and its commit, by a manifest
alone, by a ledger alone, and without the source."""

from __future__ import annotations

import errno
import hashlib
import json
import os
import random
import shutil
import sqlite3
import subprocess
import tempfile
import unittest
from contextlib import closing
from typing import Any, Dict, List
from unittest import mock

from udfburn import Client
from udfburn.base import errors as e
from udfburn.base.manifest import MANIFESTS
from udfburn.image.coverage import Coverage
from udfburn.ledger.reading import ledger_to_read
from udfburn.reader import Medium, Volume

from .programs import UDFBURN, WithPrograms, run_client

NOWHERE = "/nonexistent/ledger.sqlite"


class Checked(WithPrograms):
    """An image with a bag, a directory with a manifest, and files that no manifest covers."""

    capacity = 20000
    data = {f"f{index:02}": random.Random(index).randbytes(index * 500) for index in range(12)}
    made: "tempfile.TemporaryDirectory[str] | None" = None
    """Where the image and the ledger are that all tests begin with."""

    @classmethod
    def tearDownClass(cls) -> None:
        if cls.made is not None:
            cls.made.cleanup()

    def setUp(self) -> None:
        super().setUp()
        self.where = ["--image", self.image]
        if Checked.made is None:
            self.store_all()
            Checked.made = tempfile.TemporaryDirectory()
            for path in (self.image, self.ledger):
                shutil.copy(path, Checked.made.name)
        for path in (self.image, self.ledger):
            shutil.copy(os.path.join(Checked.made.name, os.path.basename(path)), path)

    def store_all(self) -> None:
        """The three directories, and no source any more."""
        for name, data in self.data.items():
            self.write(f"source/{name}", data)
        source = os.path.join(self.room, "source")
        self.run_command("put", "-r", "--seal", source, "/bag", where=self.where)
        self.run_command("put", "-r", "--seal", "--manifest-only", source, "/plain", where=self.where)
        self.run_command("put", "-r", source, "/bare", where=self.where)
        shutil.rmtree(source)

    def check(self, *words: str, status: int = 0, ledger: bool = True, image: str = "") -> List[Dict[str, Any]]:
        """The objects that `check --data` prints."""
        environment = {**self.environment(), **({} if ledger else {"UDFBURN_LEDGER": NOWHERE})}
        done = run_client(["check", "--json", "--data", image or self.image, *words], environment)
        self.assertEqual(done.returncode, status, done.stdout + done.stderr)
        return [json.loads(row) for row in done.stdout.split("\n") if row]

    def result(self, *words: str, status: int = 0, ledger: bool = True, image: str = "") -> Dict[str, Any]:
        found: Dict[str, Any] = self.check(*words, status=status, ledger=ledger, image=image)[-1]["data"]
        return found

    def changed(self, data: bytes, place: int, count: int = 1, mask: int = 0x40) -> str:
        """A copy of the image in which a byte of each of some files with these bytes is another, the first ones first."""
        image = os.path.join(self.room, f"changed{len(os.listdir(self.room))}.img")
        shutil.copy(self.image, image)
        with open(image, "r+b") as file:
            all_of_it, at = file.read(), -1
            for _ in range(count):
                at = all_of_it.index(data, at + 1)
                file.seek(at + place)
                file.write(bytes([all_of_it[at + place] ^ mask]))
        return image

    def test_all_is_as_it_was_stored(self) -> None:
        self.assertEqual(self.result(), {
            "files": 12 * 3 + 5, "bytes": 3 * sum(map(len, self.data.values())) + self.bytes_of_manifests(), "covered": 41, "uncovered": 0,
            "damaged": 0, "by_ledger": 41, "by_manifest": 12 + 3 + 12,
        })

    def bytes_of_manifests(self) -> int:
        paths = [f"/bag/{name}" for name in ("bagit.txt", "bag-info.txt", "manifest-sha256.txt", "tagmanifest-sha256.txt")] + ["/plain/manifest-sha256.txt"]
        with Client(f"image:{self.image}", program=UDFBURN) as client:
            return sum(len(client.get(path)) for path in paths)

    def test_without_the_ledger(self) -> None:
        """The files of the third directory, the tag manifest and the manifest beside the files are covered by nothing."""
        found = self.result(ledger=False)
        self.assertEqual((found["covered"], found["uncovered"], found["by_manifest"], found["damaged"]), (27, 14, 27, 0))
        done = run_client(["check", "--data", self.image], {**self.environment(), "UDFBURN_LEDGER": NOWHERE})
        self.assertEqual(done.returncode, 0, done.stderr)
        told = done.stdout
        self.assertIn("no digest covers 14 files", told)
        self.assertFalse(os.path.exists(NOWHERE))

    def test_a_ledger_on_a_file_system_that_is_only_read(self) -> None:
        """With a log, as a process that was killed leaves it: what only that has counts too."""
        folder = os.path.join(self.room, "only read")
        os.mkdir(folder)
        with Client(f"image:{self.image}", ledger=self.ledger, program=UDFBURN) as client:
            client.put("/bare/later", b"later")
            for end in ("", "-wal"):
                shutil.copy(self.ledger + end, os.path.join(folder, "ledger.sqlite" + end))
        script = 'mount --bind "$0" "$0" && mount -o remount,bind,ro "$0" && exec "$@"'
        read_only = ["unshare", "-m", "sh", "-c", script, folder]
        if subprocess.run([*read_only, "true"], capture_output=True, check=False).returncode:
            self.skipTest("nothing can be mounted here")
        ledger, kept = os.path.join(folder, "ledger.sqlite"), sorted(os.listdir(folder))
        for words in (["check", "--json", "--data", self.image], ["salvage", "--json", "--list", self.image]):
            line = [*read_only, *self.words(*words, "--ledger", ledger, where=[])]
            done = subprocess.run(line, capture_output=True, text=True, env=self.environment(), check=False)
            self.assertEqual((done.returncode, done.stderr), (0, ""), done.stdout)
            last = json.loads(done.stdout.splitlines()[-1])
            self.assertEqual(last["data"]["by_ledger"] if "data" in last else last["whole"], 42, last)
        self.assertEqual(sorted(os.listdir(folder)), kept)
        # A process to which it is not read-only may have it.
        with Client(f"image:{self.image}", ledger=self.ledger, program=UDFBURN) as client:
            client.put("/bare/last", b"last")
            line = ["unshare", "-m", "sh", "-c", script, self.room, *self.words("check", "--data", self.image, where=[])]
            done = subprocess.run(line, capture_output=True, text=True, env=self.environment(), check=False)
            self.assertEqual(done.returncode, 0, done.stderr)
            self.assertIn("another process has this ledger, so only the manifests", done.stdout + done.stderr)

    def test_a_copy_of_a_ledger_without_room(self) -> None:
        refused = OSError(errno.EROFS, "Read-only file system")
        full = OSError(errno.ENOSPC, "No space left on device")
        with mock.patch("udfburn.ledger.reading.Ledger", side_effect=refused), mock.patch("udfburn.ledger.reading.shutil.copyfile", side_effect=full):
            with self.assertRaisesRegex(e.LedgerError, "cannot be copied .*No space left"), ledger_to_read(self.ledger, 0.0):
                self.fail("it was read")

    def test_a_changed_byte(self) -> None:
        """In each copy of a file: the structures are sound, and each is named with its commit."""
        data = self.data["f09"]
        image = self.changed(data, 4000, count=3)
        self.assertEqual(self.udfburn("check", image)[:5], b"sound")
        for ledger, paths in ((True, ["/bag/data/f09", "/plain/f09", "/bare/f09"]), (False, ["/bag/data/f09", "/plain/f09"])):
            *failures, last = self.check(status=1, ledger=ledger, image=image)
            failures = [failure for failure in failures if failure["did"] == "failed"]
            self.assertEqual([failure["path"] for failure in failures], paths)
            self.assertEqual(last["data"]["damaged"], len(paths))
            for failure in failures:
                self.assertEqual(failure["commit"], self.commit_of(failure["path"]))
                self.assertIn(hashlib.sha256(data).hexdigest(), failure["message"])

    def commit_of(self, path: str) -> int:
        """The commit that the ledger has of a path."""
        with closing(sqlite3.connect(self.ledger)) as base:
            return int(base.execute("SELECT commit_number FROM request WHERE path = ?", (path,)).fetchone()[0])

    def test_a_path(self) -> None:
        image = self.changed(self.data["f08"], 0, count=3)
        self.assertEqual(self.result("/plain", status=1, image=image)["damaged"], 1)
        self.assertEqual(self.result("/plain/f07", image=image)["files"], 1)
        self.assertEqual(self.result("/plain/f08", status=1, image=image)["files"], 1)
        self.run_command("check", "--data", self.image, "/no", where=[], status=1)
        self.run_command("check", self.image, "/plain", where=[], status=2)

    def test_a_file_inside_its_entry(self) -> None:
        """There the structure is damaged too, and the files are compared all the same."""
        image = self.changed(self.data["f02"], 10)
        *failures, last = self.check(status=1, ledger=False, image=image)
        self.assertEqual([failure["error"] for failure in failures], ["Damaged", "FileDiffers"])
        self.assertEqual((failures[1]["path"], last["data"]["files"]), ("/bag/data/f02", 41))

    def test_a_changed_manifest(self) -> None:
        """A digit of it changed: it is named, and what it says of a file is called doubtful."""
        digits = hashlib.sha256(self.data["f09"]).hexdigest().encode()
        place = next(index for index, digit in enumerate(digits) if chr(digit).isdecimal())
        image = self.changed(digits, place, mask=1)
        failures = {failure["path"]: failure["message"] for failure in self.check(status=1, image=image)[:-1] if failure["error"] == "FileDiffers"}
        self.assertEqual(sorted(failures), ["/bag/data/f09", "/bag/manifest-sha256.txt"])
        self.assertIn("is as the ledger sent it, and a manifest says other bytes", failures["/bag/data/f09"])
        failures = {failure["path"]: failure["message"] for failure in self.check(status=1, image=image, ledger=False)[:-1] if failure["error"] == "FileDiffers"}
        self.assertEqual(sorted(failures), ["/bag/data/f09", "/bag/manifest-sha256.txt"])
        self.assertIn("/bag/manifest-sha256.txt (which is itself not as it was stored)", failures["/bag/data/f09"])

    def test_moved_files(self) -> None:
        """The ledger's digests are found by the commit that wrote a file, whatever path it has now, whoever moved it."""
        with Client(f"image:{self.image}", ledger=os.path.join(self.room, "other.sqlite"), program=UDFBURN) as other:
            other.rename("/bare", "/moved")
            other.rename("/moved/f05", "/elsewhere")
        found = self.result()
        self.assertEqual((found["by_ledger"], found["damaged"]), (41, 0))
        image = self.changed(self.data["f05"], 100, count=3)
        self.assertIn("/elsewhere", [failure["path"] for failure in self.check(status=1, image=image)[:-1] if failure["did"] == "failed"])

    def test_what_was_changed_since_it_was_sealed(self) -> None:
        with Client(f"image:{self.image}", ledger=self.ledger, program=UDFBURN) as client:
            client.replace("/bag/data/f03", b"newer")
            client.remove("/bag/data/f04")
        failures = {failure["path"]: failure["message"] for failure in self.check(status=1)[:-1]}
        self.assertEqual(sorted(failures), ["/bag/data/f03", "/bag/data/f04"])
        self.assertIn("was stored again after /bag/manifest-sha256.txt was written", failures["/bag/data/f03"])
        self.assertIn("is not there, and /bag/manifest-sha256.txt lists it", failures["/bag/data/f04"])
        self.run_command("seal", "/bag", where=self.where)
        self.assertEqual(self.result()["damaged"], 0)

    def test_another_volume_with_the_same_commits(self) -> None:
        """The ledger's digests are of the volume that it sent to: replies show which that is."""
        self.image = os.path.join(self.room, "other.img")
        self.format(self.capacity)
        with Client(f"image:{self.image}", ledger=os.path.join(self.room, "other.sqlite"), program=UDFBURN) as other:
            for index in range(20):
                other.create(f"/x{index}", b"other")
        found = self.result()
        self.assertEqual((found["by_ledger"], found["uncovered"], found["damaged"]), (0, 20, 0))

    def test_a_chain_that_is_broken(self) -> None:
        """Where the chain ends at a lost VAT ICB, all tables are looked for, and the ledger's digests are compared with older files too."""
        lines = [list(map(int, line.split())) for line in self.udfburn("log", self.image).split(b"\n") if line]
        with open(self.image, "r+b") as file:
            # The file type of a VAT ICB.
            file.seek(lines[20][1] * 2048 + 27)
            file.write(b"\0")
        *failures, last = self.check(status=1)
        self.assertEqual([failure["error"] for failure in failures], ["Damaged"])
        found = last["data"]
        self.assertEqual((found["files"], found["by_manifest"], found["by_ledger"], found["damaged"]), (41, 27, 41, 0))

    def test_a_commit_that_is_missing(self) -> None:
        """The last VAT ICB is damaged: it looks like a commit that was cut short, and the ledger knows better."""
        address = int(self.udfburn("log", self.image).split()[1])
        image = shutil.copy(self.image, os.path.join(self.room, "cut.img"))
        with open(image, "r+b") as file:
            file.seek(address * 2048 + 100)
            file.write(b"\xff")
        newest = self.commits()
        self.assertEqual(self.udfburn("check", image), b"sound %d\n" % (newest - 1))
        told = self.run_command("check", image, "--ledger", self.ledger, where=[], status=1)
        self.assertIn(f"its newest commit is {newest - 1}, and commit {newest} was acknowledged to the ledger", told)
        self.assertIn("was acknowledged", self.run_command("check", "--data", image, where=[], status=1))
        self.run_command("check", self.image, "--ledger", self.ledger, where=[])
        self.assertIn("no ledger", self.run_command("check", self.image, "--ledger", NOWHERE, where=[], status=1))

    def test_without_the_program(self) -> None:
        environment = {**self.environment(), "UDFBURN": "", "PATH": "/usr/bin:/bin"}
        done = run_client(["check", "--data", self.image], environment)
        self.assertEqual(done.returncode, 1)
        self.assertIn("the program udfburn is not on the PATH", done.stderr)
        self.assertIn("41 files", done.stdout)
        self.assertIn("all that digests cover are as they were stored", done.stdout)

    def test_what_is_said_without_the_program(self) -> None:
        """The reader's view of the newest state is no damage, and no word on the earlier ones."""
        environment = {**self.environment(), "UDFBURN": "", "PATH": "/usr/bin:/bin"}
        done = run_client(["check", self.image], environment)
        self.assertEqual(done.returncode, 1)
        self.assertRegex(done.stdout, "its newest state, after commit [0-9]+, is as it must be; the earlier states were not checked$")

    def test_a_ledger_that_is_in_use(self) -> None:
        from udfburn.ledger.ledger import Ledger

        with closing(Ledger(self.ledger)):
            told = self.run_command("check", "--data", self.image, where=[])
        self.assertIn("another process has this ledger, so only the manifests", told)
        self.assertIn("0 by the ledger, 27 by manifests", told)

    def test_a_directory_that_cannot_be_read(self) -> None:
        """It is not called missing."""
        with open(self.image, "rb") as file:
            sound = file.read()
        for path, asked in (((), ""), (("bag",), "/bag"), (("bag",), "/bag/data/f03")):
            with Medium(self.image) as medium:
                node = Volume(medium).state().find(path)
                assert node is not None
            with open(self.image, "r+b") as file:
                file.seek(node.address * 2048)
                file.write(bytes(2048))
            done = run_client(["check", "--data", self.image, *filter(None, [asked])], self.environment())
            self.assertEqual(done.returncode, 1)
            self.assertIn(f"/{'/'.join(path)}: its entry cannot be read: 'udfburn-client salvage' gives back what can be read", done.stderr)
            self.assertNotIn("is not there", done.stderr)
            with open(self.image, "wb") as file:
                file.write(sound)
        self.assertIn("/bag/none: is not there", run_client(["check", "--data", self.image, "/bag/none"], self.environment()).stderr)

    def test_manifests_that_are_too_long(self) -> None:
        """All that are read have a limit together. One that is left out is named, and its files are compared with nothing."""
        with Medium(self.image) as medium:
            volume = Volume(medium)
            sizes = [node.size for node in volume.state().walk() if node.path[:1] == ("bag",) and node.path[-1] in MANIFESTS]
            self.assertEqual(len(sizes), 2)
            with mock.patch("udfburn.base.manifest.LONGEST_MANIFEST", sum(sizes) + 5):
                coverage = Coverage(volume, volume.state())
        why = f"what it lists is not compared, since 5 of {sum(sizes) + 5:,} bytes for manifests are left"
        self.assertEqual(coverage.faults, [(("plain", MANIFESTS[0]), why)])
        self.assertEqual({path[0] for path, node in coverage.nodes.items() if coverage.of(node)}, {"bag"})


if __name__ == "__main__":
    unittest.main()
