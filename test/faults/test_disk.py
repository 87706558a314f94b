"""Power lost under a real file system, at each write and flush that reaches its disk: ext4 with a journal and without, XFS and btrfs.

The file system lies on a loop device over a file that logs what reaches it (fusedisk.py). The disk keeps what was written before its
last flush, and of what was written after it any part. Of each such disk the file system is mended and mounted, as after a loss of
power, and each acknowledged file is looked at.
"""
from __future__ import annotations

import ctypes
import errno
import os
import random
import shutil
import signal
import subprocess
import threading
import unittest
from pathlib import Path
from typing import Callable, Iterator, NamedTuple, Optional, Sequence

from faults.calls import Discipline
from faults.case import Case, need_shim
from faults.fusedisk import Event, FuseDisk, events
from faults.log import read_log
from faults.machine import first_line, lacks, need_root, need_tools, unmount
from faults.processes import PATIENCE
from faults.programs import built
from faults.running import Daemon, Ran
from protocol import BLOCK, FAULT, Answer, Model, Request, answers_of, encode, paths_of, questions

MEBIBYTE = 1 << 20
SECTOR = 4096
SEED = 20261123


class Kind(NamedTuple):
    """A file system: its name, the size of its disk, how it is made, and with which options it is mounted; where it does not mend itself
    when it is mounted, what mends it."""

    name: str
    size: int
    make: Sequence[str]
    # With these the system writes little of its own accord.
    options: str
    mends: bool = False


EXT4 = ("mkfs.ext4", "-q", "-F", "-m", "0", "-b", "4096")
JOURNAL = Kind("ext4", 12 * MEBIBYTE, (*EXT4, "-J", "size=4"), "noinit_itable,commit=3600")
NO_JOURNAL = Kind("ext4", 12 * MEBIBYTE, (*EXT4, "-O", "^has_journal"), "noinit_itable", mends=True)
# XFS takes no smaller disk.
XFS = Kind("xfs", 300 * MEBIBYTE, ("mkfs.xfs", "-q", "-s", "size=4096"), "nouuid")
BTRFS = Kind("btrfs", 128 * MEBIBYTE, ("mkfs.btrfs", "-q", "--metadata", "single", "--data", "single"), "commit=300")

# Writes a request to an image on the disk, and ends without an answer.
Ends = Callable[[str, Request, FuseDisk], None]

# Files of one block, of those around a packet, of two packets, and the largest (no two blocks are the same).
RUNS = [Request("create", 1, number, "/f%d" % number, random.Random(blocks).randbytes(blocks * BLOCK))
        for number, blocks in enumerate((1, 31, 32, 33, 64, 512), 1)]

STREAM = [
    Request("create", 1, 1, "/a", b"first"),
    Request("create", 1, 2, "/b", b"second" * 700),
    Request("mkdir", 2, 1, "/d"),
    Request("rename", 1, 3, "/a", to="/d/a"),
    Request("replace", 2, 2, "/b", b"third" * 900),
    Request("create", 1, 4, "/b", b"refused"),
    # No two blocks of it are the same.
    Request("create", 2, 3, "/d/long", b"".join(b"%08d" % number for number in range(16000))),
    Request("remove", 1, 5, "/d/a"),
    Request("create", 2, 4, "/last", b"last"),
]


# After the first four of those: a file of a packet and one of a mebibyte.
RUNS_AFTER = [Request("create", 1, 4, "/r32", RUNS[2].data), Request("create", 1, 5, "/r512", RUNS[5].data)]


def run(*words: str) -> str:
    done = subprocess.run(words, capture_output=True, text=True)
    if done.returncode:
        raise OSError("%s: %s" % (" ".join(words), (done.stdout + done.stderr).strip()))
    return done.stdout.strip()


# A disk as its sectors that are not all zeros, by their numbers.
Sectors = dict[int, bytes]


def read_sectors(disk: Path) -> Sectors:
    with open(disk, "rb") as file:
        pieces = enumerate(iter(lambda: file.read(SECTOR), b""))
        return {number: data for number, data in pieces if data.strip(b"\0")}


def write_sectors(disk: Path, sectors: Sectors, size: int) -> None:
    """A new file, with holes for the zeros."""
    with open(disk, "xb") as file:
        file.truncate(size)
        for number, data in sectors.items():
            file.seek(number * SECTOR)
            file.write(data)


def need_kind(kind: Kind) -> None:
    """Leaves a test out where the kernel has no such file system."""
    need_tools(kind.make[0])
    subprocess.run(["modprobe", "--quiet", kind.name], capture_output=True) if shutil.which("modprobe") else None
    known = {line.split()[-1] for line in Path("/proc/filesystems").read_text().splitlines()}
    if kind.name not in known:
        lacks("the kernel has no %s" % kind.name)


def mend(disk: Path) -> None:
    """As at the start of a machine: what a power loss left is mended where it can be (status 1), and nothing is left open."""
    done = subprocess.run(["e2fsck", "-f", "-y", str(disk)], capture_output=True, text=True)
    if done.returncode not in (0, 1, 2):
        raise OSError("e2fsck: %d: %s" % (done.returncode, done.stdout + done.stderr))


class WithDisk(Case):
    def setUp(self) -> None:
        super().setUp()
        need_root()
        need_tools("e2fsck", "losetup", "mount")
        if not os.path.exists("/dev/fuse"):
            lacks("there is no /dev/fuse")
        if not os.path.exists("/dev/loop-control"):
            lacks("there are no loop devices")

    def made(self, kind: Kind) -> Path:
        """A new file system in a file."""
        need_kind(kind)
        disk = self.path("backing")
        disk.unlink(missing_ok=True)
        with open(disk, "wb") as file:
            file.truncate(kind.size)
        run(*kind.make, str(disk))
        return disk

    @staticmethod
    def mount(kind: Kind, device: str, where: Path, more: str = "") -> None:
        if kind.name == "btrfs":
            # Else it takes a disk for one that it knows, by its number, and refuses what it has forgotten by a power loss.
            run("btrfs", "device", "scan", "--forget")
        run("mount", "-t", kind.name, "-o", kind.options + more, device, str(where))

    def recorded(self, disk: Path, kind: Kind, stream: Sequence[Request], pushes: bool, fails: bool,
                 ends: Optional[Ends], rules: str) -> tuple[list[Event], list[tuple[int, int]]]:
        """Formats an image on the file system, and serves the stream: what reached the disk, and how far it was at each
        acknowledgement (the format is number 0). Where `pushes`, another process has the system write out what is unsynced at any
        moment, as a busy machine does. Where `fails`, the first write of each request that reaches the disk is a failure, and it is done again. Where
        there is an `ends`, it lets a process write each request and end without an answer, so that the system keeps what the disk
        does not have."""
        folder, where = self.path("fuse"), self.path("mounted")
        folder.mkdir(exist_ok=True)
        where.mkdir(exist_ok=True)
        log = self.path("disk.log")
        log.unlink(missing_ok=True)
        try:
            served = FuseDisk(folder, disk, log)
        except OSError as fault:
            lacks("nothing can be mounted by FUSE: %s" % fault)
        device = ""
        is_mounted = False
        is_over = threading.Event()
        pusher = threading.Thread(target=self.push, args=(where, is_over))
        try:
            try:
                device = run("losetup", "--find", "--show", str(served.path))
                self.mount(kind, device, where)
                is_mounted = True
            except OSError as fault:
                lacks("no loop device can be mounted: " + first_line(str(fault)))
            if pushes:
                pusher.start()
            said = self.served(served, str(where / "d.img"), stream, fails, ends, rules)
        finally:
            is_over.set()
            if pusher.is_alive():
                pusher.join()
            if is_mounted:
                unmount(where)
            if device:
                run("losetup", "--detach", device)
            served.close()
        found = events(log)
        self.assertGreater(len(found), 2 * len(stream))
        return found, said

    def served(self, disk: FuseDisk, image: str, stream: Sequence[Request], fails: bool, ends: Optional[Ends],
               rules: str) -> list[tuple[int, int]]:
        """Formats an image and serves the stream, as `recorded` has it: how far the disk was at each acknowledgement."""
        self.tell(self.udfburn("format", image, "DISC", "0", "1500"), 0, b"formatted\n", b"")
        said = [(disk.size(), 0)]
        model = Model()
        if ends:
            for request in stream:
                ends(image, request, disk)
                answers = answers_of(self.apply(encode(request), image).output)
                size = disk.size()
                self.assertEqual(answers, [model.answer(request)])
                said.append((size, model.commits))
        with Daemon(self.folder, image, rules=rules) as daemon, daemon.client() as client:
            for request in () if ends else stream:
                if fails:
                    disk.fail(self.blocks_of(image, request))
                answer = client.ask(encode(request))
                size = disk.size()
                self.assertEqual(answer, model.answer(request))
                self.assertTrue(not fails or disk.has_failed())
                said.append((size, model.commits))
        return said

    def blocks_of(self, image: str, request: Request, rules: str = "") -> bytes:
        """The blocks that this request will write, by a copy of the image; where rules end it, those that it leaves unsynced."""
        shutil.copyfile(image, self.path("ahead.img"))
        self.apply(encode(request), "ahead.img", rules=rules, log=self.new_log())
        blocks = b""
        for record in read_log(self.log_path()):
            if record.kind == "pwrite":
                blocks += record.data
            elif record.kind == "fsync" and rules:
                blocks = b""
        self.assertGreaterEqual(len(blocks), BLOCK)
        return blocks

    def dies(self, image: str, request: Request, served: FuseDisk) -> None:
        """The request's writes reach the disk and one fails there, and the process is killed before it cuts the file back."""
        blocks = self.blocks_of(image, request)
        process = self.stopped([built().udfburn, "apply", image], encode(request), image, "pwrite:2:H;ftruncate:2:K")
        served.fail(blocks)
        process.send_signal(signal.SIGCONT)
        output, _ = process.communicate(timeout=PATIENCE)
        self.assertEqual((process.returncode, output), (-9, b""))
        self.assertTrue(served.has_failed())

    def refused(self, image: str, request: Request, served: FuseDisk) -> None:
        """The request is written, and the process is killed before the sync of its last blocks. The next one fails in the sync with
        which it begins, and so is refused."""
        rules = "fsync:3:K"
        # The failure waits for them, since the system may write them before the next process does.
        served.fail(self.blocks_of(image, request, rules))
        killed = self.apply(encode(request), image, rules=rules)
        self.assertEqual((killed.status, killed.output), (-9, b""))
        self.tell(self.apply(encode(request), image), 1, b"", b"udfburn: 64 Device\n")
        self.assertTrue(served.has_failed())

    @staticmethod
    def push(where: Path, is_over: threading.Event) -> None:
        libc = ctypes.CDLL(None, use_errno=True)
        descriptor = os.open(where, os.O_RDONLY)
        try:
            while not is_over.is_set():
                # What is unsynced of the image is written, at moments that its program did not ask for.
                libc.syncfs(descriptor)
                is_over.wait(0.001)
        finally:
            os.close(descriptor)

    def disks(self, before: Sectors, found: Sequence[Event], last: int,
              chance: random.Random) -> Iterator[tuple[int, str, Optional[Sectors]]]:
        """Each disk that a power loss up to the last acknowledgement leaves, with the size of the log that it has seen. None is the
        one before once more: all that was written, which is flushed now."""
        flushed = dict(before)
        waiting: list[tuple[int, bytes]] = []
        for event in found:
            if event.is_flush:
                flushed.update(waiting)
                waiting = []
                yield event.end, "flushed", None
            else:
                if event.offset % SECTOR or len(event.data) % SECTOR:
                    raise AssertionError("%d bytes at %d are no sectors" % (len(event.data), event.offset))
                for start in range(0, len(event.data), SECTOR):
                    waiting.append(((event.offset + start) // SECTOR, event.data[start:start + SECTOR]))
                whole = {**flushed, **dict(waiting)}
                kept = [one for one in waiting if chance.random() < 0.5]
                some = {**flushed, **dict(kept)}
                if kept and some != whole:
                    yield event.end, "some of what was written", some
                yield event.end, "all that was written", whole
            if event.end > last:
                return

    def image_of(self, content: Sectors, kind: Kind) -> bytes:
        """The image in the file system that this disk has, or no bytes where it is not there. A journal is gone through by the mount;
        without one the file system is mended first."""
        disk, where = self.path("left"), self.path("remade")
        # A file of its own: a loop device that has not let go of the one before, since some other process looks at it, would be taken
        # again for the same file, with what the system remembers of it.
        disk.unlink(missing_ok=True)
        write_sectors(disk, content, kind.size)
        where.mkdir(exist_ok=True)
        if kind.mends:
            mend(disk)
        self.mount(kind, str(disk), where, ",loop,ro" if kind.mends else ",loop")
        try:
            image = where / "d.img"
            return image.read_bytes() if image.exists() else b""
        finally:
            unmount(where)

    def lose(self, kind: Kind, stream: Sequence[Request] = STREAM, pushes: bool = False, fails: bool = False,
             ends: Optional[Ends] = None) -> None:
        self.assertEqual(self.problems(kind, stream, pushes, fails, ends), [])

    def problems(self, kind: Kind, stream: Sequence[Request], pushes: bool = False, fails: bool = False, ends: Optional[Ends] = None,
                 rules: str = "") -> list[str]:
        """What is wrong with any of the disks that a power loss leaves, where the daemon runs under these rules."""
        disk = self.made(kind)
        before = read_sectors(disk)
        found, said = self.recorded(disk, kind, stream, pushes, fails, ends, rules)
        problems: list[str] = []
        states = [Model()]
        for request in stream:
            model = states[-1].copy()
            model.answer(request)
            states.append(model)
        paths = paths_of(stream)
        chance = random.Random(SEED)
        image = b""
        seen: set[tuple[int, bytes]] = set()
        looked = 0
        for size, how, content in self.disks(before, found, said[-1][0], chance):
            # What was acknowledged before anything after this was written.
            acknowledged = max((commit for at, commit in said if at <= size), default=-1)
            if content is not None:
                image = self.image_of(content, kind)
            if (acknowledged, image) in seen:
                continue
            seen.add((acknowledged, image))
            looked += 1
            what = self.problem(image, states, paths, acknowledged)
            if what is not None:
                problems.append("%s, at %d of the log, after acknowledgement %d: %s" % (how, size, acknowledged, what))
        self.assertGreater(looked, len(stream))
        return problems

    def problem(self, image: bytes, states: Sequence[Model], paths: Sequence[str], acknowledged: int) -> Optional[str]:
        """Why an image is not a state of the run, or one before the acknowledged one."""
        self.path("left.img").write_bytes(image)
        checked = self.udfburn("check", "left.img")
        if acknowledged < 0 and checked == Ran(1, b"", b"udfburn: 66 NotFormatted\n"):
            return None
        if (checked.status, checked.errors) != (0, b""):
            return "check: %d %r" % (checked.status, checked.errors)
        commits = int(checked.output.split()[1])
        if commits < acknowledged:
            return "an acknowledged commit is lost"
        told = answers_of(self.apply(questions(paths), "left.img").output)
        return None if told == states[commits].told(paths) else "the tree is not that of commit %d" % commits


class Disks(WithDisk):
    def test_with_a_journal(self) -> None:
        self.lose(JOURNAL)

    def test_with_a_journal_on_a_busy_machine(self) -> None:
        self.lose(JOURNAL, pushes=True)

    def test_without_a_journal(self) -> None:
        self.lose(NO_JOURNAL)

    def test_without_a_journal_on_a_busy_machine(self) -> None:
        self.lose(NO_JOURNAL, pushes=True)

    def test_writes_that_fail(self) -> None:
        """The system drops what it could not write, though it still shows it: it is written anew before the answer, and it is there."""
        need_shim()
        self.lose(JOURNAL, fails=True)

    def test_writes_that_fail_without_a_journal(self) -> None:
        need_shim()
        self.lose(NO_JOURNAL, fails=True)

    def test_a_kill_between_a_failed_sync_and_the_cut(self) -> None:
        """The system shows what the disk does not have, and the next start makes it forget that."""
        need_shim()
        self.lose(JOURNAL, ends=self.dies)

    def test_a_start_whose_sync_failed(self) -> None:
        """The same after a start that ended with `64 Device`, since what the process before it had written could not be synced."""
        need_shim()
        self.lose(JOURNAL, ends=self.refused)

    def test_runs(self) -> None:
        """Files of each size around a packet, and the largest."""
        self.lose(JOURNAL, RUNS)

    def test_xfs(self) -> None:
        self.lose(XFS, STREAM[:4] + RUNS_AFTER)

    def test_xfs_with_writes_that_fail(self) -> None:
        need_shim()
        self.lose(XFS, STREAM[:4], fails=True)

    def test_btrfs(self) -> None:
        self.lose(BTRFS, STREAM[:4] + RUNS_AFTER)

    def test_btrfs_with_writes_that_fail(self) -> None:
        need_shim()
        self.lose(BTRFS, STREAM[:4], fails=True)

    def test_without_a_sync(self) -> None:
        """The control: a daemon whose syncs do nothing loses files on each of them. The first sync is that of its start."""
        need_shim()
        for kind in (JOURNAL, XFS, BTRFS):
            with self.subTest(kind.name):
                try:
                    found = self.problems(kind, STREAM[:3], pushes=True, rules="fsync:2+:L")
                except unittest.SkipTest as reason:
                    print("left out: %s" % reason)
                    continue
                self.assertTrue(any("an acknowledged commit is lost" in what for what in found), found)


class Room(WithDisk):
    """A disk that has no room inside of a run: the request is a fault, the image is cut back to what it was, and once there is room again
    the repeat is done."""

    def setUp(self) -> None:
        super().setUp()
        need_shim()

    def mounted_disk(self, kind: Kind) -> Path:
        where = self.path("full")
        where.mkdir()
        disk = self.made(kind)
        try:
            self.mount(kind, str(disk), where, ",loop")
        except OSError as fault:
            lacks("no loop device can be mounted: " + first_line(str(fault)))
        self.addCleanup(unmount, where)
        return where

    def no_room(self, where: Path, free: int) -> Optional[int]:
        """Stores a file of a mebibyte where so many bytes are free. Which of the writes of its run had no room; None where all had."""
        image, ballast, request = where / "d.img", where / "ballast", RUNS[5]._replace(number=1)
        image.unlink(missing_ok=True)
        run("sync", "--file-system", str(where))
        self.tell(self.udfburn("format", str(image), "DISC", "0", "1500"), 0, b"formatted\n", b"")
        before, model = image.read_bytes(), Model()
        run("sync", "--file-system", str(where))
        found = os.statvfs(where)
        try:
            with Daemon(self.folder, str(image), log=self.new_log()) as daemon, daemon.client() as client:
                run("fallocate", "--length", str(found.f_bavail * found.f_frsize - free), str(ballast))
                answer = client.ask(encode(request))
                failed = next((record for record in read_log(self.log_path()) if record.kind in ("pwrite", "fsync") and record.error), None)
                if answer == Answer(FAULT):
                    assert failed is not None
                    self.assertEqual(failed.error, errno.ENOSPC)
                    self.assertEqual(image.read_bytes(), before)
                    ballast.unlink()
                    # btrfs gives room back once that is on its disk.
                    run("sync", "--file-system", str(where))
                    answer = client.ask(encode(request))
                self.assertEqual(answer, model.answer(request))
        finally:
            ballast.unlink(missing_ok=True)
        self.assertEqual(Discipline(len(before), where).follow(read_log(self.log_path()), True).faults, [])
        shutil.copyfile(image, self.path("copy.img"))
        self.tree_is(model, paths_of([request]), "copy.img")
        if failed is None:
            return None
        return 0 if failed.offset < len(before) + MEBIBYTE else 1

    def test_ext4(self) -> None:
        """Where half of the file has room, where its data has and the encoded blocks have not, and where all have."""
        where = self.mounted_disk(JOURNAL)
        self.assertEqual([self.no_room(where, free) for free in (MEBIBYTE // 2, MEBIBYTE, MEBIBYTE + SECTOR, 2 * MEBIBYTE)], [0, 1, 1, None])

    def test_xfs(self) -> None:
        where = self.mounted_disk(XFS)
        self.assertIn(0, [self.no_room(where, free) for free in (MEBIBYTE // 2, MEBIBYTE, 2 * MEBIBYTE)])

    def test_btrfs(self) -> None:
        """Once: a disk of its that was full has no room for names afterwards."""
        where = self.mounted_disk(BTRFS)
        self.assertEqual(self.no_room(where, MEBIBYTE // 2), 0)
