"""Trees of many files, and files of many parts. What takes minutes is after --large."""

from __future__ import annotations

import os
import random
import subprocess
import sys
import time
import unittest
from typing import Dict, Set

from .support import LARGE, PACKAGE, WithArchive, digests, environment, kill, make_tree, start, wait_until
from .test_report import fill_catalogue, made_name

sys.path.insert(0, PACKAGE)

from udfburn.archive.catalogue import Catalogue  # noqa: E402
from udfburn.archive.config import read  # noqa: E402


class Many(WithArchive):
    def test_fifty_thousand_files(self) -> None:
        self.init()
        for part in range(4):
            make_tree(os.path.join(self.source, str(part)), 12_500, 70 + part, most=200, a_folder=500)
        before = digests(self.source)
        self.assertEqual(len(before), 50_000)
        # Four processes, with volumes of their own.
        processes = [start("add", os.path.join(self.source, str(part)), "--at", f"/s/{part}", "--archive", self.archive, "--quiet") for part in range(4)]
        self.assertEqual([process.wait() for process in processes], [0] * 4)
        self.assertEqual(self.get_all(), before)
        self.require_agreed()
        self.assertGreaterEqual(len(self.volumes()), 13)
        # The files of one folder are on one volume, but those whose bytes the archive had.
        homes: Dict[str, Set[str]] = {}
        for row in self.rows():
            if "noted" not in row["places"][0]:
                homes.setdefault(os.path.dirname(row["path"]), set()).add(row["places"][0]["volume"])
        self.assertEqual({len(volumes) for volumes in homes.values()}, {1})


MEASURED = """
import sys
from udfburn.archive.cli import main
status = main(sys.argv[1:])
with open("/proc/self/status", encoding="ascii", errors="replace") as file:
    print(next(line.split()[1] for line in file if line.startswith("VmHWM:")))
sys.exit(status)
"""
"""Runs the command, and prints how many kibibytes of memory it had at most."""


class InPieces(WithArchive):
    def memory(self, *words: str) -> int:
        command = [sys.executable, "-c", MEASURED, *words, "--archive", self.archive, "--quiet"]
        done = subprocess.run(command, env=environment(), check=True, capture_output=True, text=True)
        return int(done.stdout.split()[-1]) * 1024

    def test_a_large_file_is_never_in_memory(self) -> None:
        self.init()
        with open(os.path.join(self.source, "large"), "wb") as file:
            file.truncate(80_000_000)
        for words in (["add", self.source, "--at", "/s"], ["check", "--data", "T-000001"], ["close"], ["check", "--data"], ["get", "/s", self.path("back")]):
            self.assertLess(self.memory(*words), 80_000_000, words)


@unittest.skipUnless(LARGE, "--large has it")
class Large(WithArchive):
    def test_three_gigabytes(self) -> None:
        self.init()
        chance = random.Random(3)
        for name, mebibytes in (("half", 1_500), ("a", 700), ("b", 500), ("c", 372)):
            with open(os.path.join(self.source, name), "wb") as file:
                for _ in range(mebibytes):
                    file.write(chance.randbytes(1_000_000))
        before = digests(self.source)
        began = time.monotonic()
        self.add()
        print(f"stored 3.07 GB in {time.monotonic() - began:.0f} s")
        self.require_agreed()
        self.do("close")
        began = time.monotonic()
        self.assertEqual(self.get_all(), before)
        print(f"got 3.07 GB in {time.monotonic() - began:.0f} s")
        places = {row["path"]: len(row["places"]) for row in self.rows()}
        # Only what is too large for one volume is on several.
        self.assertEqual(places, {"/s/half": 2, "/s/a": 1, "/s/b": 1, "/s/c": 1})

    def test_a_film_and_kills(self) -> None:
        """Ten kills while 700 MB are stored: what was stored is not stored again."""
        self.init()
        chance = random.Random(4)
        with open(os.path.join(self.source, "film"), "wb") as file:
            for _ in range(700):
                file.write(chance.randbytes(1_000_000))
        before = digests(self.source)
        image = os.path.join(self.archive, "open", "T-000001.img")
        for count in range(10):
            process = start("add", self.source, "--at", "/s", "--archive", self.archive, "--delete-source")
            size = 60_000_000 * count + chance.randrange(60_000_000)
            wait_until(lambda: process.poll() is not None or os.path.exists(image) and os.path.getsize(image) > size, 600.0)
            self.assertIsNone(process.poll())
            kill(process)
        self.add("--delete-source")
        self.assertEqual(digests(self.source), {})
        self.assertEqual(self.get_all(), before)
        self.require_agreed()
        print(f"{os.path.getsize(image) - 700_000_000:,} bytes beside those of the film")
        self.assertLess(os.path.getsize(image), 720_000_000)

    def test_ten_million_rows(self) -> None:
        self.init()
        with open(os.path.join(self.source, "f"), "wb") as file:
            file.write(b"1")
        self.add()
        fill_catalogue(os.path.join(self.archive, "catalogue.sqlite"), 10_000_000)
        # Their names came beside the program, which would have kept an index of them.
        with Catalogue(read(self.archive)) as catalogue, catalogue.base.transaction():
            catalogue.base.remake_index()
        expected = {"*23456*": sum(1 for index in range(10_000_000) if "23456" in made_name(index))}
        for pattern in ("name-1234567.bin", "name-123456*", "*4567.bin", "*1234?6*", "/made/*/name-1234567.bin", *expected):
            began = time.monotonic()
            count = self.do("find", pattern).last()["files"]
            print(f"find {pattern}: {count} in {time.monotonic() - began:.2f} s, with the start of the program")
            self.assertGreater(count, 0)
            self.assertEqual(count, expected.get(pattern, count))
        self.do("where", "/s/f")
