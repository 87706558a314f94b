"""What needs somebody: a line for each thing, an age that is asked for, and the same as metrics of Prometheus."""

from __future__ import annotations

import os
import re
import shutil
import sqlite3
import stat
import subprocess
from typing import Dict, List

from .support import WithArchive, change, make_tree, write

DAY = 86_400_000_000
SAMPLE = re.compile(r'^udfburn_archive_([a-z_]+)\{archive="T"(?:,[a-z]+="([^"]*)")?\} ([0-9.e+]+)$')


class WithCopies(WithArchive):
    """Two closed volumes with a copy in a folder, and an open one."""

    def setUp(self) -> None:
        super().setUp()
        self.copies = self.path("one")
        os.mkdir(self.copies)
        self.init("--copies", self.copies, "--capacity", "2000")
        for index in range(2):
            make_tree(os.path.join(self.source, str(index)), 12, index)
            self.add()
            self.do("close")
        write(os.path.join(self.source, "2"), b"2")
        self.add()

    def image(self, number: int, folder: str = "closed") -> str:
        return os.path.join(self.archive, folder, f"T-{number:06}.img")

    def copy(self, number: int) -> str:
        return os.path.join(self.copies, f"T-{number:06}.img")

    def needed(self, *words: str, command: str = "status") -> List[str]:
        """The lines of a check, which ends with 1 where there is one."""
        done = self.do(command, *(["--check"] if command == "status" else []), *words, status=None)
        found = [line["message"] for line in done.objects() if line["did"] == "failed"]
        self.assertEqual(done.status, 1 if found else 0)
        return found

    def age(self, table: str, days: int, number: int) -> None:
        """Has the last check be longer ago."""
        with sqlite3.connect(os.path.join(self.archive, "catalogue.sqlite")) as base:
            column = "number" if table == "volume" else "volume"
            base.execute(f"UPDATE {table} SET checked = checked - ? WHERE {column} = ?", (days * DAY, number))
        base.close()


class Needs(WithCopies):
    def test_a_clock_that_was_ahead(self) -> None:
        """What it has noted does not say that something was looked at."""
        self.age("volume", -9000, 1)
        self.age("copy", -9000, 2)
        image, copy = self.needed()
        self.assertRegex(image, r"^T-000001: was not checked at any known time \(a clock said 20..-..-..\): 'check T-000001'$")
        self.assertRegex(copy, r"^T-000002: the copy on .* was not checked at any known time \(a clock said 20..-..-..\): 'check --remotes T-000002'$")
        self.do("check", "--remotes")
        self.assertEqual(self.needed(), [])

    def test_nothing(self) -> None:
        done = self.do("status", "--check")
        self.assertEqual(done.last()["attention"], 0)
        self.assertEqual(self.needed(), [])
        self.assertEqual(self.needed("--stale", "1h", command="check"), [])

    def test_each_thing_has_a_line(self) -> None:
        change(self.image(1), os.path.getsize(self.image(1)) // 2)
        os.unlink(self.copy(2))
        self.do("check", "--remotes", status=1)
        first, second = self.needed()
        self.assertEqual(first, "T-000001: has another SHA-256 than when it was closed: 'repair T-000001'")
        self.assertEqual(second, f"T-000002: the copy on {self.copies}: is not there: 'repair T-000002'")
        # What `check` says is said once.
        self.assertEqual(len(self.needed("--remotes", "--stale", "1d", command="check")), 2)
        self.assertEqual(len(self.needed("--stale", "1d", command="check")), 2)
        self.do("repair")
        self.assertEqual(self.needed(), [])
        os.unlink(self.image(2))
        (lost,) = self.needed()
        self.assertRegex(lost, "^T-000002: its image is lost: 'repair T-000002' brings it back")
        self.assertEqual(len(self.needed("--stale", "1d", command="check")), 1)
        self.do("repair")
        with sqlite3.connect(os.path.join(self.archive, "catalogue.sqlite")) as base:
            base.execute("UPDATE volume SET state = 'full' WHERE number = 3")
        base.close()
        self.assertEqual(self.needed(), ["T-000003: is full: 'close T-000003'"])
        self.assertEqual(self.needed("T-000001", "--stale", "1d", command="check"), ["T-000003: is full: 'close T-000003'"])
        os.rename(self.copies, self.copies + " away")
        self.do("close", status=1)
        self.assertEqual(self.needed(), [f"T-000003: is not on {self.copies}: 'close T-000003'"])
        os.rename(self.copies + " away", self.copies)
        self.do("close")
        self.assertEqual(self.needed(), [])

    def test_open_images(self) -> None:
        image = self.image(3, "open")
        shutil.copy(image, self.path("older"))
        write(os.path.join(self.source, "3"), b"3")
        self.add()
        shutil.copy(self.path("older"), image)
        (older,) = self.needed()
        self.assertRegex(older, "^T-000003: its image has [0-9]+ commits, and [0-9]+ were acknowledged: it is an older copy")
        write(image[:-4] + ".tail", b"4096\n")
        (cut,) = self.needed()
        self.assertRegex(cut, "^T-000003: an earlier version was cut short while it appended to it")

    def test_an_age(self) -> None:
        self.age("volume", 100, 1)
        self.age("copy", 200, 2)
        self.assertEqual(self.needed(), [])
        image = "T-000001: was not checked for 100 days: 'check T-000001'"
        copy = f"T-000002: the copy on {self.copies} was not checked for 200 days: 'check --remotes T-000002'"
        self.assertEqual(self.needed("--stale", "180d"), [copy])
        self.assertEqual(self.needed("--stale", "14w"), [image, copy])
        self.assertEqual(self.needed("--stale", "101d"), [copy])
        # A check of the others does not do.
        self.assertEqual(self.needed("T-000002", "--stale", "14w", command="check"), [image, copy])
        self.do("check", "--remotes")
        self.assertEqual(self.needed("--stale", "1h"), [])
        for text in ("", "0d", "5", "d", "-3d", "5y", "1.5d", "1000000d", "५d"):
            self.do("status", "--stale", text, status=2)
            self.do("check", "--stale", text, status=2)


class Metrics(WithCopies):
    def setUp(self) -> None:
        super().setUp()
        self.file = self.path("archive.prom")

    def samples(self, *words: str) -> Dict[str, Dict[str, float]]:
        """The samples that are written, by the names of their metrics and the label that is not the archive's."""
        self.do("status", "--prometheus", self.file, *words, status=None)
        found: Dict[str, Dict[str, float]] = {}
        with open(self.file, encoding="utf-8") as file:
            lines = file.read().splitlines()
        for line in lines:
            if not line.startswith("#"):
                match = SAMPLE.fullmatch(line)
                assert match is not None, line
                found.setdefault(match.group(1), {})[match.group(2) or ""] = float(match.group(3))
        self.assertEqual({line.split()[2] for line in lines if line.startswith("# TYPE")}, {f"udfburn_archive_{name}" for name in found})
        return found

    def test_what_is_told(self) -> None:
        found = self.samples()
        self.assertEqual({state: count for state, count in found["volumes"].items() if count}, {"copied": 2, "open": 1})
        self.assertEqual(found["volume_files"], {"": 25})
        self.assertEqual(found["copies"], {self.copies: 2})
        self.assertEqual(set(found["attention"].values()), {0})
        self.age("volume", 100, 1)
        self.age("copy", 200, 2)
        os.unlink(self.copy(1))
        self.do("check", "--remotes", "T-000001", status=1)
        again = self.samples("--stale", "99d")
        self.assertEqual({kind: count for kind, count in again["attention"].items() if count}, {"copy_damaged": 1, "copy_not_checked": 1})
        self.assertEqual(again["copies"], {self.copies: 1})
        early = found["copy_oldest_check_timestamp_seconds"][self.copies] - again["copy_oldest_check_timestamp_seconds"][self.copies]
        self.assertEqual(round(early / 86_400), 200)

    def test_prometheus_takes_it(self) -> None:
        if shutil.which("promtool") is None:
            self.skipTest("promtool is not installed")
        for archive in (self.archive, self.path("empty")):
            self.archive = archive
            if not os.path.exists(archive):
                # An archive without a closed volume has fewer.
                self.init()
            self.samples()
            with open(self.file, "rb") as file:
                done = subprocess.run(["promtool", "check", "metrics"], stdin=file, capture_output=True, text=True, check=False)
            # It ends with 3 for what its guide does not ask for.
            self.assertEqual((done.returncode, done.stdout, done.stderr), (0, "", ""))

    def test_the_file(self) -> None:
        """It has its name once it is whole and on the disk, and others may read it unless the umask says less."""
        for mask, mode in ((0o022, 0o644), (0o077, 0o600), (0o022, 0o644)):
            before = os.umask(mask)
            try:
                self.samples()
            finally:
                os.umask(before)
            self.assertEqual(stat.S_IMODE(os.stat(self.file).st_mode), mode)
        self.assertEqual([name for name in os.listdir(self.room) if name.startswith(".udfburn-")], [])
        for other in (b"mine\n", b"# HELP node_x\n"):
            write(self.file, other)
            self.do("status", "--prometheus", self.file, status=1)
            with open(self.file, "rb") as file:
                self.assertEqual(file.read(), other)
        os.unlink(self.file)
        os.symlink(self.path("target"), self.file)
        self.do("status", "--prometheus", self.file, status=1)
        self.assertFalse(os.path.exists(self.path("target")))

    def test_a_full_disk(self) -> None:
        """The file that was there stays."""
        self.samples()
        with open(self.file, "rb") as file:
            before = file.read()
        small = self.path("small")
        self.mount_memory(small, "4k")
        target = write(os.path.join(small, "archive.prom"), before[:4000])
        self.do("status", "--prometheus", target, status=1)
        with open(target, "rb") as file:
            self.assertEqual(file.read(), before[:4000])
