"""What the commands hold in memory of a file that is larger than they may: each takes it piece by piece."""

from __future__ import annotations

import hashlib
import json
import os
import subprocess
import sys
import unittest
from typing import List

from udfburn.reader.basics import EXTENT_BYTES

from .programs import PACKAGE, UDFBURN
from .test_long_files import OnImage

MOST_MEMORY = 48 << 20
"""The bytes that a process may have in memory: its interpreter and modules take about half of them."""

END = """
import sys
print(next(line for line in open("/proc/self/status") if line.startswith("VmHWM:")).split()[1], file=sys.stderr)
sys.exit(status)
"""
"""Prints the most memory, in KiB, that the process had since it began. What its parent has does not count, as it does in `ru_maxrss`."""

COMMANDS = """
import json, sys
from udfburn.commands import cli
status = max(cli.main(words) for words in json.loads(sys.argv[1]))
"""

MOUNTED = """
import sys
from udfburn.base.progress import Progress
from udfburn.mounting.image_view import ImageView
from udfburn.mounting.shown_tree import Memory, OpenFile
view = ImageView(sys.argv[1], Progress(False, False, sys.stdout, sys.stdout))
reading = OpenFile(view.find(b"latest").find(b"film"), Memory())
compared = len(list(reading.check()))
status = compared < 65 or any(len(reading.read(at, 4096)) < 4096 for at in range(0, reading.file.size - 4096, 1 << 19))
"""


class Small(OnImage):
    """An image with a file of 64 MiB and some bytes, and processes that hold little of it."""

    COUNT = 65

    @property
    def room(self) -> str:
        """The folder of the image."""
        return os.path.dirname(self.image)

    def require_small(self, *commands: List[str], status: int = 0) -> str:
        """Runs commands in a process of their own, which has little in memory. Gives what they print."""
        return self.require_process(COMMANDS, json.dumps(commands), status)

    def require_process(self, code: str, word: str, status: int) -> str:
        """Runs a process, which has little in memory. Gives what it prints."""
        environment = {**os.environ, "PYTHONPATH": PACKAGE, "UDFBURN": UDFBURN, "UDFBURN_LEDGER": os.path.join(self.room, "ledger.sqlite")}
        done = subprocess.run([sys.executable, "-c", code + END, word], env=environment, capture_output=True, text=True, check=False)
        self.assertEqual(done.returncode, status, done.stderr)
        self.assertLess(int(done.stderr.split()[-1]) << 10, MOST_MEMORY)
        return done.stdout + done.stderr


class Peaks(Small):
    """The file is beside a manifest that has its digest."""

    def finish(self) -> None:
        whole = hashlib.sha256()
        for index in range(self.COUNT):
            whole.update(self.piece(index))
        self.appender.create("manifest-sha256.txt", f"{whole.hexdigest()}  film\n".encode())

    def require_file(self, path: str) -> None:
        """The file that was written has all bytes."""
        self.assertEqual(os.path.getsize(path), self.size)
        with open(path, "rb") as file:
            for index in range(self.COUNT):
                self.assertTrue(file.read(EXTENT_BYTES) == self.piece(index), index)

    def test_salvage(self) -> None:
        """The second time the file is there, and is compared."""
        out = os.path.join(self.room, "out")
        told = self.require_small(*(["salvage", self.image, to, "--accept-unproved"] for to in (out, out, "--list")))
        self.assertEqual(told.count(f"whole /film ({self.size} bytes)\n"), 3)
        self.require_file(os.path.join(out, "film"))

    def test_salvage_of_a_lost_entry(self) -> None:
        """The last extent is found by the digest of the whole file."""
        self.change(self.entry)
        out = os.path.join(self.room, "out")
        self.assertIn(f"whole /film ({self.size} bytes)\n", self.require_small(["salvage", self.image, out], status=1))
        self.require_file(os.path.join(out, "film"))

    def test_salvage_of_a_damaged_file(self) -> None:
        """It is known once all bytes were written, and the file has its other name then."""
        self.change(self.appender.contents["film"][1][64], lambda block: block.__setitem__(700, 1))
        out = os.path.join(self.room, "out")
        self.require_small(["salvage", self.image, out], status=1)
        self.assertEqual(sorted(os.listdir(out)), ["film.damaged", "manifest-sha256.txt", "other"])
        self.assertEqual(os.path.getsize(os.path.join(out, "film.damaged")), self.size)

    def test_mounted(self) -> None:
        self.require_process(MOUNTED, self.image, 0)

    @unittest.skipUnless(UDFBURN, "UDFBURN names the program")
    def test_other_commands(self) -> None:
        local, at = os.path.join(self.room, "film"), ["--image", self.image]
        self.require_small(
            ["check", "--data", self.image], ["get", "/film", local, *at], ["verify", local, "/film", *at],
            ["seal", "/", "--manifest-only", "--dry-run", *at],
        )
        self.require_file(local)


class LongManifest(Small):
    """Beside the file there is one as long, with the name of a manifest."""

    def finish(self) -> None:
        self.appender.marked("manifest-sha256.txt", self.size)

    def test_salvage(self) -> None:
        """It is given back as any other, and a word says that it compares nothing."""
        told = self.require_small(["salvage", self.image, "--list", "--accept-unproved"])
        why = "what it lists is not compared, since 67,108,864 of 67,108,864 bytes for manifests are left"
        self.assertIn(f"unproved /manifest-sha256.txt ({self.size} bytes) - {why}\n", told)

    @unittest.skipUnless(UDFBURN, "UDFBURN names the program")
    def test_sealed(self) -> None:
        told = self.require_small(["seal", "/", "--manifest-only", "--dry-run", "--image", self.image], status=1)
        self.assertIn(f"/manifest-sha256.txt: has {self.size} bytes, and of a file with this name at most 1048576 are read", told)


if __name__ == "__main__":
    unittest.main()
