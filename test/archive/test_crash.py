"""Crashes of one machine with SQLite: processes killed at random and between two steps, disks that are full, a catalogue that is
lost or damaged."""

from __future__ import annotations

import hashlib
import os
import random
import shutil
import sqlite3
import subprocess
import sys
import time
from contextlib import closing
from typing import ContextManager, List

from .support import (
    LARGE, PATIENCE, WithArchive, await_programs, change_in, digests, environment, kill, make_tree, standing_still, start, wait_until, words_of, write,
)

KILLS = 100 if LARGE else 14

AS_USER = ["setpriv", "--inh-caps=-all", "--bounding-set=-dac_override,-dac_read_search"] if not os.geteuid() else []
"""Runs a command without what lets root write files that are read-only."""

STEPS = """
import os, sys
sys.argv[1:1] = []
count = int(sys.argv.pop(1))
names = ("rename", "replace", "unlink", "mkdir", "fsync", "chmod", "fchmod", "ftruncate")
left = [count]
def counted(name):
    call = getattr(os, name)
    def step(*words, **fields):
        if left[0] == 0:
            os.kill(os.getpid(), 9)
        left[0] -= 1
        return call(*words, **fields)
    return step
for name in names:
    setattr(os, name, counted(name))
from udfburn.archive.cli import main
status = main(sys.argv[1:])
print(count - left[0])
sys.exit(status)
"""
"""Runs the command, and kills it right before a call of the system that changes files, counted from 0."""


class Crashes(WithArchive):
    def add_killed(self, chance: random.Random, *words: str) -> None:
        process = start("add", self.source, "--at", "/s", "--archive", self.archive, *words)
        time.sleep(chance.uniform(0.2, 1.3))
        kill(process)

    def test_add_is_killed(self) -> None:
        self.init("--capacity", "5000")
        make_tree(self.source, 2000 if LARGE else 500, 11)
        write(os.path.join(self.source, "big"), os.urandom(4_200_000))
        chance = random.Random(1)
        for _ in range(KILLS):
            self.add_killed(chance)
        before = digests(self.source)
        self.add()
        self.assertEqual(self.get_all(), before)
        self.assertEqual(len(self.rows()), len(before))
        self.require_agreed()
        self.do("close")
        self.require_agreed()
        self.assertEqual(self.do("check", "--data").last()["failures"], [])

    def test_add_that_deletes_is_killed(self) -> None:
        self.init("--capacity", "5000")
        make_tree(self.source, 400, 12)
        before = digests(self.source)
        chance = random.Random(2)
        for _ in range(KILLS // 2):
            self.add_killed(chance, "--delete-source")
            # What is not there any more is in the archive, whatever the catalogue knows by now.
            self.do("add", self.path("archive", "archive.toml"), "--at", "/t/x")
            there = {row["path"]: row["sha256"] for row in self.rows()}
            gone = set(before) - set(digests(self.source))
            for path in gone:
                self.assertEqual(there.get("/s/" + os.fsdecode(path)), before[path][0])
        self.add("--delete-source")
        self.assertEqual(digests(self.source), {})
        self.assertEqual(self.get_all(), before)

    def steps(self, count: int, *words: str) -> "subprocess.CompletedProcess[bytes]":
        done = subprocess.run(
            [sys.executable, "-c", STEPS, str(count), *words, "--archive", self.archive, "--quiet"], env=environment(), capture_output=True,
            timeout=PATIENCE,
        )
        await_programs(self.room)
        return done

    def test_each_step_of_close(self) -> None:
        remote = self.path("remote")
        os.mkdir(remote)
        self.init("--copies", remote)
        write(os.path.join(self.source, "f"), b"1")
        self.add()
        for folder in (self.archive, remote):
            shutil.copytree(folder, self.path("kept", os.path.basename(folder)))
        before = digests(self.source)
        count = 0
        while True:
            # Each time from the same state, killed one call later.
            for folder in (self.archive, remote):
                shutil.rmtree(folder)
                shutil.copytree(self.path("kept", os.path.basename(folder)), folder)
            done = self.steps(count, "close")
            if done.returncode == 0:
                break
            self.assertEqual(done.returncode, -9, done.stderr.decode())
            done = subprocess.run([*AS_USER, *words_of("close", "--archive", self.archive)], env=environment(), capture_output=True, timeout=PATIENCE)
            self.assertEqual(done.returncode, 0, done.stderr.decode())
            self.require_agreed()
            self.assertEqual(self.do("check", "--data", "--remotes").last()["failures"], [])
            (volume,) = self.volumes()
            self.assertEqual(volume["state"], "copied")
            count += 1 if LARGE else 3
        self.assertGreater(count, 10)
        self.assertEqual(self.get_all(), before)

    def test_each_step_of_a_first_add(self) -> None:
        write(os.path.join(self.source, "f"), b"1")
        before = digests(self.source)
        count = 0
        while True:
            shutil.rmtree(self.archive, ignore_errors=True)
            self.init()
            done = self.steps(count, "add", self.source, "--at", "/s")
            if done.returncode == 0:
                break
            self.assertEqual(done.returncode, -9, done.stderr.decode())
            self.add()
            self.require_agreed()
            self.assertEqual(self.get_all(), before)
            # The number that the killed run took is not lost.
            self.assertEqual([volume["volume"] for volume in self.volumes()], ["T-000001"])
            count += 1 if LARGE else 2
        self.assertGreater(count, 5)


    def kept(self, data: bytes) -> bool:
        """Whether a file in `open` has these bytes."""
        opened = os.path.join(self.archive, "open")
        return hashlib.sha256(data).hexdigest() in [digest for digest, _ in digests(opened).values()]

    def test_each_step_of_an_adoption(self) -> None:
        self.init()
        write(os.path.join(self.source, "f"), b"1" * 5000)
        self.add()
        image, good, wrong = os.path.join(self.archive, "open", "T-000001.img"), self.path("good.img"), self.path("wrong.img")
        with open(image, "rb") as file:
            data = file.read()
        write(good, data)
        # What was there: an image to which an earlier version was appending. And one whose bytes are not those that its ledger knows.
        before = data + bytes(4096)
        write(image, before)
        write(image[: -len("img")] + "tail", b"%d\n" % len(data))
        write(wrong, data.replace(b"1" * 5000, b"2" * 5000))
        shutil.copytree(self.archive, self.path("kept"))
        count = 0
        while True:
            shutil.rmtree(self.archive)
            shutil.copytree(self.path("kept"), self.archive)
            done = self.steps(count, "adopt", "T-000001", good)
            if done.returncode == 0:
                break
            self.assertEqual(done.returncode, -9, done.stderr.decode())
            self.require_length(image, len(data))
            # It goes once the adoption is over.
            is_kept = self.kept(before)
            self.assertTrue(is_kept or os.path.getsize(image) == len(data), count)
            self.do("adopt", "T-000001", wrong, status=1)
            self.require_length(image, len(data))
            self.assertEqual(self.kept(before), is_kept, count)
            self.do("adopt", "T-000001", good)
            self.assertEqual([name for name in os.listdir(self.path("archive", "open")) if name.endswith(".before")], [])
            self.assertEqual(self.get_all(), digests(self.source))
            self.require_agreed()
            count += 1 if LARGE else 2
        self.assertGreater(count, 10)

    def require_length(self, image: str, length: int) -> None:
        """An image that is there has so many bytes that count."""
        if os.path.exists(image):
            tail = image[: -len("img")] + "tail"
            with open(tail if os.path.exists(tail) else image, "rb") as file:
                data = file.read()
            self.assertEqual(int(data) if os.path.exists(tail) else len(data), length)


class SideBySide(WithArchive):
    """Several processes on one archive with SQLite."""

    def words(self, name: str) -> List[str]:
        return [os.path.join(self.source, name), "--at", f"/s/{name}", "--archive", self.archive]

    def begin(self, name: str) -> "subprocess.Popen[bytes]":
        return start("add", *self.words(name))

    def standing_still(self, name: str) -> ContextManager["subprocess.Popen[bytes]"]:
        """The same, in the middle of its files."""
        return standing_still(100, *self.words(name))

    def has_image(self, number: int) -> bool:
        return os.path.exists(os.path.join(self.archive, "open", f"T-{number:06}.img"))

    def test_two_processes_have_a_volume_each(self) -> None:
        self.init()
        for name in ("a", "b"):
            make_tree(os.path.join(self.source, name), 300, ord(name))
        with self.standing_still("a") as first:
            self.assertTrue(self.has_image(1))
            second = self.begin("b")
            wait_until(lambda: self.has_image(2) or second.poll() is not None)
            self.assertIsNone(first.poll())
        self.assertEqual([first.wait(), second.wait()], [0, 0])
        self.assertEqual(len(self.volumes()), 2)
        self.assertEqual(self.get_all(), digests(self.source))
        self.require_agreed()
        # The next run fills both.
        write(os.path.join(self.source, "c"), b"c")
        self.add()
        self.assertEqual(len(self.volumes()), 2)

    def test_one_path_is_one_process_s(self) -> None:
        self.init()
        make_tree(os.path.join(self.source, "a"), 700, 40)
        with self.standing_still("a") as process:
            for at in ("/s/a", "/s/a/b", "/s"):
                done = self.do("add", self.source, "--at", at, status=1)
                self.assertIn("another process", done.errors)
            # What another process fills is left open.
            self.assertEqual(self.do("close").last()["closed"], 0)
            self.assertIsNone(process.poll())
        self.assertEqual(process.wait(), 0)
        self.require_agreed()


class Disk(WithArchive):
    """A file system of the test's own that is full."""

    def mount(self, size: str) -> str:
        folder = self.path("disk")
        self.mount_memory(folder, size)
        return folder

    def test_the_disk_is_full(self) -> None:
        disk = self.mount("9m")
        self.archive = os.path.join(disk, "archive")
        self.init("--capacity", "6000")
        make_tree(self.source, 700, 21)
        before = digests(self.source)
        filler = os.path.join(disk, "filler")
        chance = random.Random(3)
        ended: List[int] = []
        for turn in range(8):
            # Another program takes what is left of the disk, at any moment; and once before, so that the disk is full on a fast machine too.
            if not turn:
                fill(filler)
            process = start("add", self.source, "--at", "/s", "--archive", self.archive, "--delete-source")
            time.sleep(chance.uniform(0.2, 1.0))
            fill(filler)
            ended.append(process.wait())
            os.unlink(filler)
        self.assertTrue(any(ended), "the disk was never full")
        subprocess.run(["mount", "-o", "remount,size=200m", disk], check=True)
        self.add("--delete-source")
        self.assertEqual(digests(self.source), {})
        self.assertEqual(self.get_all(), before)
        self.require_agreed()
        self.do("close")
        self.assertEqual(self.do("check", "--data").last()["failures"], [])


def fill(path: str) -> None:
    """Takes all that a disk has left."""
    with open(path, "wb", buffering=0) as file:
        try:
            while True:
                file.write(bytes(4096))
        except OSError:
            pass


class Catalogues(WithArchive):
    def test_a_lost_catalogue(self) -> None:
        self.init("--capacity", "5000")
        make_tree(self.source, 500, 31)
        write(os.path.join(self.source, "big"), os.urandom(3_000_000))
        self.add()
        self.do("close")
        make_tree(self.source, 520, 31)
        self.add()
        before = self.rows()
        for name in os.listdir(self.archive):
            if name.startswith("catalogue.sqlite"):
                os.unlink(os.path.join(self.archive, name))
        self.do("status", status=1)
        self.do("rebuild")
        self.assertEqual(self.rows(), before)
        self.require_agreed()
        self.assertEqual(self.add().last()["files"], 0)

    def test_a_damaged_catalogue(self) -> None:
        self.init()
        make_tree(self.source, 40, 32)
        self.add()
        before = self.rows()
        path = os.path.join(self.archive, "catalogue.sqlite")
        for end in ("-wal", "-shm"):
            if os.path.exists(path + end):
                os.unlink(path + end)
        write(path, b"no base" * 1000)
        self.do("status", status=1)
        self.do("rebuild")
        self.assertEqual(self.rows(), before)
        self.assertTrue([name for name in os.listdir(self.archive) if ".damaged-" in name])

    def test_a_wrong_catalogue(self) -> None:
        self.init()
        make_tree(self.source, 40, 33)
        self.add()
        before = self.rows()
        base = sqlite3.connect(os.path.join(self.archive, "catalogue.sqlite"))
        ids = [id for (id,) in base.execute("SELECT id FROM file ORDER BY id")]
        base.execute("DELETE FROM file WHERE id = ?", (ids[3],))
        base.execute("UPDATE file SET size = size + 1 WHERE id = ?", (ids[4],))
        base.execute("INSERT INTO file SELECT folder, id + 100000, name, size, moment, sha256, added, first_part, part_count FROM file WHERE id = ?", (ids[5],))
        base.commit()
        base.close()
        last = self.do("rebuild", "--dry-run")
        self.assertEqual(last.last()["differences"], 3)
        self.assertNotEqual(self.rows(), before)
        hows = sorted(line["how"] for line in self.do("rebuild").objects() if line["did"] == "differs")
        self.assertEqual([how.split()[0] for how in hows], ["differed", "is", "was"])
        self.assertEqual(self.rows(), before)
        self.require_agreed()

    def test_a_lost_catalogue_and_a_volume_elsewhere(self) -> None:
        remote = self.path("remote")
        os.mkdir(remote)
        self.init("--copies", remote)
        for name in ("a", "b"):
            write(os.path.join(self.source, name), name.encode())
            self.add()
            self.do("close")
        os.unlink(os.path.join(self.archive, "closed", "T-000002.img"))
        os.rename(os.path.join(remote, "T-000002.img"), self.path("T-000002.img"))
        for name in os.listdir(self.archive):
            if name.startswith("catalogue"):
                os.unlink(os.path.join(self.archive, name))
        lines = self.do("rebuild").objects()
        self.assertEqual([line["volume"] for line in lines if line["did"] == "lacking"], ["T-000002"])
        self.assertEqual([line["volume"] for line in lines if line["did"] == "unknown"], ["T-000001"])
        # No other volume gets its number.
        write(os.path.join(self.source, "c"), b"c")
        self.add()
        self.assertEqual([volume["volume"] for volume in self.volumes()], ["T-000001", "T-000003"])
        shutil.copy(self.path("T-000002.img"), os.path.join(self.archive, "closed"))
        self.do("rebuild")
        self.assertEqual(len({row["path"] for row in self.rows()}), 3)
        self.require_agreed()

    def test_rows_of_other_types(self) -> None:
        """SQLite keeps any value in any column. Each command says what to do."""
        self.init()
        write(os.path.join(self.source, "f"), b"1" * 100)
        write(os.path.join(self.source, "g"), b"1" * 100)
        self.add()
        before, base, kept = digests(self.source), self.path("archive", "catalogue.sqlite"), self.path("kept")
        shutil.copy(base, kept)
        for table, column in (("file", "sha256"), ("same", "target_path"), ("volume", "last_commit")):
            with self.subTest(table=table, column=column):
                shutil.copy(kept, base)
                with closing(sqlite3.connect(base)) as connection, connection:
                    connection.execute(f"UPDATE {table} SET {column} = ?", (b"abc" if column == "target_path" else "abc",))
                for words in (["status"] if table == "volume" else ["ls", "-R", "/"], ["add", self.source, "--at", "/s"]):
                    self.assertIn("'udfburn-archive rebuild' makes it again", self.do(*words, status=1).errors)
                self.do("rebuild")
                self.assertEqual(self.get_all(), before)
                for name in os.listdir(self.archive):
                    if name.startswith("catalogue"):
                        os.unlink(os.path.join(self.archive, name))

    def test_an_open_image_among_the_closed_ones(self) -> None:
        """Where a user put it. `rebuild` would change nothing of that, so it is not asked for."""
        self.init()
        write(os.path.join(self.source, "f"), b"1")
        self.add()
        image, other = self.path("archive", "open", "T-000001.img"), self.path("archive", "closed", "T-000001.img")
        os.rename(image, other)
        write(os.path.join(self.source, "g"), b"2")
        self.assertIn(f"{other}: holds no volume that was closed: move it into the folder 'open'", self.add(status=1).errors)
        os.rename(other, image)
        self.assertEqual(self.add().last()["files"], 1)
        self.assertEqual(self.get_all(), digests(self.source))

    def test_an_older_catalogue_takes_nothing_off(self) -> None:
        """It names a volume for a file that is damaged, lost or retired by now. What another volume got since is all that there is."""
        path, data = os.path.join(self.source, "f"), b"the only one"
        image, catalogue, kept = self.path("archive", "closed", "T-000001.img"), self.path("archive", "catalogue.sqlite"), self.path("kept")

        def source() -> None:
            os.utime(write(path, data), (1_700_000_000, 1_700_000_000))

        for why in ("damaged", "lost", "retired"):
            with self.subTest(why=why):
                shutil.rmtree(self.archive, ignore_errors=True)
                self.init("--delete", "acknowledged")
                source()
                self.add()
                self.do("close")
                os.rename(path, self.path("away"))
                write(os.path.join(self.source, "g"), b"another")
                self.add()
                if why == "damaged":
                    change_in(image, data)
                else:
                    os.unlink(image)
                if why == "retired":
                    self.do("retire", "T-000001")
                shutil.copy(catalogue, kept)
                self.do("check", status=None)
                if why != "retired":
                    self.do("retire", "T-000001")
                source()
                self.assertEqual(self.add("--delete-source").last()["deleted"], 2)
                shutil.copy(kept, catalogue)
                self.add(status=None)
                self.assertEqual(self.do("where", "/s/f").objects()[0]["volume"], "T-000002")
                self.do("get", "/s/f", self.path(why))
                with open(self.path(why, "f"), "rb") as file:
                    self.assertEqual(file.read(), data)

    def test_wrong_names_in_the_catalogue(self) -> None:
        import sqlite3

        self.init()
        make_tree(self.source, 40, 34)
        self.add()
        paths = sorted(line["path"] for line in self.rows())
        base = sqlite3.connect(os.path.join(self.archive, "catalogue.sqlite"))
        for table, column in (("by_name", "name"), ("by_ending", "ending")):
            base.execute(f"DELETE FROM {table} WHERE id IN (SELECT id FROM file ORDER BY id LIMIT 3)")
            base.execute(f"UPDATE {table} SET {column} = {column} || '~' WHERE id IN (SELECT id FROM file ORDER BY id LIMIT 2 OFFSET 5)")
        base.commit()
        base.close()
        self.assertLess(self.do("find", "*.bin").last()["files"], 40)
        mended = [line["names"] for line in self.do("rebuild").objects() if line["did"] == "mended"]
        # Five in each of the two tables.
        self.assertEqual(mended, [10])
        for pattern in ("file*", "*.bin", "*e*n*"):
            found = sorted(line["path"] for line in self.do("find", pattern).objects() if "path" in line)
            self.assertEqual(found, paths, pattern)
        self.require_agreed()
