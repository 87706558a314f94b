"""Rooms, trees, and the command under test."""

from __future__ import annotations

import hashlib
import json
import os
import random
import shutil
import signal
import subprocess
import sys
import tempfile
import time
import unittest
from contextlib import contextmanager
from typing import Any, Dict, Iterator, List, Optional, Tuple

UDFBURN = os.environ.get("UDFBURN", "")
LARGE = bool(os.environ.get("LARGE"))
HERE = os.path.dirname(os.path.abspath(__file__))
# The folder of the client; test/archive.sh gives a copy of it that is compiled.
PACKAGE = os.environ.get("PACKAGE") or os.path.abspath(os.path.join(HERE, "..", "..", "clients", "python"))
sys.path.insert(0, PACKAGE)

from tests.forked import Commands  # noqa: E402

PATIENCE = 600.0
"""Seconds after which what did not come counts as missing."""

COMMANDS = Commands("udfburn.archive", [f"udfburn.archive.{name}" for name in ("cli", "closing", "commands", "lookups", "queries")])

Digests = Dict[bytes, Tuple[str, int]]
"""The SHA-256 and the moment in microseconds of each file, by its path below a folder."""


class Done:
    """What a command did: its status, its lines, and its objects where it was asked for JSON."""

    def __init__(self, status: int, output: str, errors: str):
        self.status, self.output, self.errors = status, output, errors

    def objects(self) -> List[Dict[str, Any]]:
        return [json.loads(line) for line in self.output.splitlines()]

    def last(self) -> Dict[str, Any]:
        return self.objects()[-1]


def environment() -> Dict[str, str]:
    """The environment of a command: the package under test, and no user's own files."""
    found = {**os.environ, "PYTHONPATH": PACKAGE, "PYTHONDONTWRITEBYTECODE": "1", "UDFBURN": UDFBURN, "PYTHONUTF8": "1"}
    for name in ("UDFBURN_ARCHIVE", "UDFBURN_LEDGER", "UDFBURN_SOCKET"):
        found.pop(name, None)
    return found


def words_of(command: str, *words: str) -> List[str]:
    return [sys.executable, "-m", "udfburn.archive", command, *words]


def start(command: str, *words: str, **options: Any) -> "subprocess.Popen[bytes]":
    """A command in a group of processes of its own, so that it can be killed with the programs that it runs."""
    return subprocess.Popen(
        words_of(command, *words), env=environment(), stdout=subprocess.DEVNULL, stderr=subprocess.DEVNULL, start_new_session=True, **options,
    )


STOPS = """
import os, signal, sys
left = [int(sys.argv.pop(1))]
from udfburn.archive.fill import Filler
take = Filler._take
def taken(*words):
    take(*words)
    left[0] -= 1
    if not left[0]:
        os.kill(os.getpid(), signal.SIGSTOP)
Filler._take = taken
from udfburn.archive.cli import main
sys.exit(main(sys.argv[1:]))
"""
"""Runs the command, and stops it once a volume has answered so many requests. It has its claims then, and no transaction."""


@contextmanager
def standing_still(count: int, *words: str) -> Iterator["subprocess.Popen[bytes]"]:
    """An `add` that stands still once a volume has answered so many of its requests, whatever the machine does first. Afterwards it goes
    on, or whoever failed kills it."""
    process = subprocess.Popen(
        [sys.executable, "-c", STOPS, str(count), "add", *words], env=environment(), stdout=subprocess.DEVNULL, stderr=subprocess.DEVNULL,
        start_new_session=True,
    )
    try:
        wait_until(lambda: process.poll() is not None or state_of(process.pid) == "T")
        if process.poll() is not None:
            raise AssertionError(f"the command ended with {process.returncode} before it answered {count} requests")
        yield process
        process.send_signal(signal.SIGCONT)
    except BaseException:
        kill(process)
        raise


def state_of(process: int) -> str:
    """The state of a process, as /proc has it: T where it stands still, Z where it has ended, and X where there is none."""
    try:
        with open(f"/proc/{process}/stat", encoding="ascii", errors="replace") as file:
            return file.read().rpartition(")")[2].split()[0]
    except OSError:
        return "X"


def kill(process: "subprocess.Popen[bytes]") -> None:
    """Kills a command at once. The programs that it runs lose their input with it, and have ended when this returns."""
    programs = children_of(process.pid)
    process.send_signal(signal.SIGKILL)
    process.wait()
    wait_until(lambda: all(state_of(program) in "ZX" for program in programs))


def children_of(process: int) -> List[int]:
    """The processes that a process has begun."""
    try:
        with open(f"/proc/{process}/task/{process}/children", encoding="ascii") as file:
            return list(map(int, file.read().split()))
    except OSError:
        return []


def await_programs(room: str) -> None:
    """Waits until no program names a path below a folder. One whose command killed itself goes on for a moment, and has its image."""
    def is_there(name: str) -> bool:
        try:
            with open(f"/proc/{name}/cmdline", "rb") as file:
                words = file.read().split(b"\0")
        except OSError:
            return False
        return words[0] == os.fsencode(UDFBURN) and any(word.startswith(os.fsencode(room)) for word in words)

    wait_until(lambda: not any(map(is_there, filter(str.isdigit, os.listdir("/proc")))))


def digests(folder: str) -> Digests:
    """Each regular file below a folder."""
    found: Digests = {}
    top = os.fsencode(folder)
    for at, _, names in os.walk(top):
        for name in names:
            path = os.path.join(at, name)
            if not os.path.islink(path):
                with open(path, "rb") as file:
                    whole = hashlib.file_digest(file, "sha256").hexdigest()
                found[os.path.relpath(path, top)] = whole, os.stat(path).st_mtime_ns // 1000
    return found


def make_tree(folder: str, files: int, seed: int, most: int = 6000, a_folder: int = 40) -> None:
    """A tree of files of random sizes and bytes."""
    chance = random.Random(seed)
    for index in range(files):
        at = os.path.join(folder, f"d{index // a_folder // 8}", f"e{index // a_folder}")
        os.makedirs(at, exist_ok=True)
        with open(os.path.join(at, f"file {index}.bin"), "wb") as file:
            file.write(chance.randbytes(chance.randrange(most)))


def write(path: str, data: bytes) -> str:
    os.makedirs(os.path.dirname(path), exist_ok=True)
    with open(path, "wb") as file:
        file.write(data)
    return path


def change(path: str, place: int) -> None:
    """Flips a bit of a byte of a file, also of one that is read-only."""
    mode = os.stat(path).st_mode
    os.chmod(path, 0o600)
    with open(path, "r+b") as file:
        file.seek(place)
        byte = file.read(1)
        file.seek(place)
        file.write(bytes([byte[0] ^ 1]))
    os.chmod(path, mode)


def change_in(path: str, data: bytes) -> None:
    """Flips a bit of the first byte of these bytes in a file that has them."""
    with open(path, "rb") as file:
        place = file.read().index(data)
    change(path, place)


class WithArchive(unittest.TestCase):
    """A room, and an archive where it is made."""

    def setUp(self) -> None:
        if not UDFBURN:
            self.fail("UDFBURN names the program")
        self.room = tempfile.mkdtemp(prefix="archive-")
        self.addCleanup(shutil.rmtree, self.room, ignore_errors=True)
        self.archive = self.path("archive")
        self.source = self.path("source")
        os.mkdir(self.source)

    def path(self, *names: str) -> str:
        return os.path.join(self.room, *names)

    def mount_memory(self, folder: str, size: str) -> None:
        """Mounts a file system in memory on a folder for the time of the test, which is skipped where none can be mounted."""
        os.makedirs(folder, exist_ok=True)
        words = ["mount", "-t", "tmpfs", "-o", f"size={size}", "none", folder]
        if os.geteuid() or subprocess.run(words, capture_output=True, check=False).returncode:
            self.skipTest("a file system cannot be mounted here")
        self.addCleanup(subprocess.call, ["umount", "-l", folder])

    def run_in(self, archive: str, command: str, *words: str, status: Optional[int] = 0) -> Done:
        """Runs a command on an archive, which has to end with a status."""
        place = [] if command == "init" else ["--archive", archive]
        done = COMMANDS.run([command, *words, *place, "--json"], environment(), self.room, PATIENCE)
        found = Done(done.returncode, done.stdout.decode(errors="replace"), done.stderr.decode(errors="replace"))
        if status is not None and found.status != status:
            self.fail(f"{command} ended with {found.status}, not {status}: {found.errors[-3000:]}{found.output[-500:]}")
        return found

    def do(self, command: str, *words: str, status: Optional[int] = 0) -> Done:
        return self.run_in(self.archive, command, *words, status=status)

    def init(self, *words: str, archive: Optional[str] = None) -> None:
        """Makes an archive. Folders for copies are on the disk of the room."""
        same = ["--same-device"] if "--copies" in words else []
        self.do("init", archive or self.archive, "--label", "T", *words, *same)

    def add(self, *words: str, status: Optional[int] = 0) -> Done:
        """Adds the source as /."""
        return self.do("add", self.source, "--at", "/s", *words, status=status)

    def get_all(self, archive: Optional[str] = None) -> Digests:
        """All that the archive gives back."""
        folder = tempfile.mkdtemp(dir=self.room)
        self.run_in(archive or self.archive, "get", "/s", folder)
        return digests(os.path.join(folder, "s"))

    def volumes(self, archive: Optional[str] = None) -> List[Dict[str, Any]]:
        return [line for line in self.run_in(archive or self.archive, "status", status=None).objects() if line["did"] == "volume"]

    def rows(self, archive: Optional[str] = None) -> List[Dict[str, Any]]:
        """All files of the catalogue, in an order that does not depend on it."""
        lines = [line for line in self.run_in(archive or self.archive, "ls", "-R", "/").objects() if line.get("kind") == "file"]
        return sorted(lines, key=lambda line: (line["path"], line["added"]))

    def require_agreed(self, archive: Optional[str] = None) -> None:
        """`rebuild` finds no difference."""
        last = self.run_in(archive or self.archive, "rebuild").last()
        self.assertEqual(last["differences"], 0)
        self.assertEqual(last["failures"], [])


def unmount(folder: str) -> None:
    """Unmounts, as soon as no other program looks at it: one that looks through all that is mounted may do so for a moment."""
    wait_until(lambda: subprocess.run(["umount", folder], capture_output=True, check=False).returncode == 0)


def wait_until(condition: Any, seconds: float = PATIENCE) -> None:
    """Waits until something holds."""
    limit = time.monotonic() + seconds
    while not condition():
        if time.monotonic() > limit:
            raise AssertionError("what was waited for did not come")
        time.sleep(0.01)
