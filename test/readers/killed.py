"""A folder of photographs and a film, stored as a bag by a client that is killed again and again, and read by Linux.

The command is always the same: `udfburn-client put -r --seal FOLDER /bag`, over a daemon, which is killed too at some of the times.
What must be there follows from the local files alone: one request for each directory, small file and mebibyte, one more for each file
that grows, and four for the bag. So a piece that was stored twice, or a film that was begun anew, is a commit too many.
"""

from __future__ import annotations

import hashlib
import os
import random
import re
import shutil
import signal
import socket
import sqlite3
import subprocess
import sys
import time
from pathlib import Path
from typing import Dict, List, NamedTuple, Optional, Tuple

from linux import Mount
from protocol import BLOCK, PIECE

CLIENT = Path(__file__).resolve().parent.parent.parent / "clients/python"
LABEL = "A HOLIDAY"
ENTRY_EXTENTS = 117
"""Extents of a mebibyte that an entry has room for. Of a longer file each descriptor block has more."""
CAPACITY = 450_000
BLOCKS_OF_A_COMMIT = 8
"""Those beside the data, at most: the entry of a file, four blocks of directories, and the table. Descriptor blocks come on top."""

FILM = "2 film"
FOLDERS = ("1 on the way", "3 at home")
TAGS = ("bag-info.txt", "bagit.txt", "manifest-sha256.txt", "tagmanifest-sha256.txt")
DECLARATION = b"BagIt-Version: 1.0\nTag-File-Character-Encoding: UTF-8\n"

KILLS = 10
"""Those before the bag is sealed. One more comes meanwhile, and may come too late."""
BEGUN = 262
"""Blocks of an empty volume."""
AGAIN = 20 * PIECE
"""Bytes that a client may have to send again after a kill, at most: what was under way, two groups of eight or nine mebibytes."""
PATIENCE = 1800.0
"""Seconds after which what did not come counts as missing."""

CLIENT_ALONE, BOTH, DAEMON_FIRST = "the client", "the client and the daemon", "the daemon and the client"


class File(NamedTuple):
    """A local file: its bytes, their SHA-256, and its time of modification in microseconds."""

    size: int
    sha256: str
    moment: int

    def requests(self) -> int:
        """One for each mebibyte, and one that gives a longer file its name."""
        return 1 if self.size <= PIECE else -(-self.size // PIECE) + 1


class Kill(NamedTuple):
    """When it comes: so many seconds after the image has this share of the data, or after the client's start where the share is 0, or
    after all of it is there where it is 1; and what is killed."""

    share: float
    seconds: float
    ended: str


def kills(die: random.Random) -> List[Kill]:
    """Eight come while the image grows, each in its own eighth of the work; two while a client begins, and compares what is there of the
    film; the last one while the bag is sealed."""
    ended = [CLIENT_ALONE] * 5 + [BOTH] * 2 + [DAEMON_FIRST] * 2
    die.shuffle(ended)
    out = [Kill((at + die.uniform(0.1, 0.9)) / 8, die.uniform(0, 0.02), ended[at]) for at in range(8)]
    out.insert(6, Kill(0, die.uniform(0.3, 1.2), CLIENT_ALONE))
    out.insert(3, Kill(0, die.uniform(0.3, 1.2), ended[8]))
    return out + [Kill(1, die.uniform(0, 0.05), CLIENT_ALONE)]


def digest_of(path: Path) -> str:
    whole = hashlib.sha256()
    with open(path, "rb") as file:
        while True:
            piece = file.read(PIECE)
            if not piece:
                return whole.hexdigest()
            whole.update(piece)


def folder_of(room: Path, photographs: List[Path], film: int) -> Dict[str, File]:
    """Makes the folder that is stored, and gives its files by their names below it. The film, of so many megabytes, comes between
    photographs."""
    top = room / "folder"
    for name in FOLDERS:
        (top / name).mkdir(parents=True)
    for at, photograph in enumerate(photographs):
        shutil.copy2(photograph, top / FOLDERS[2 * at // len(photographs)] / photograph.name)
    die, left = random.Random(film), film * 1_000_000
    with open(top / FILM, "wb") as file:
        while left:
            piece = min(left, PIECE)
            file.write(die.randbytes(piece))
            left -= piece
    return {
        str(path.relative_to(top)): File(path.stat().st_size, digest_of(path), path.stat().st_mtime_ns // 1000)
        for path in sorted(top.rglob("*")) if path.is_file()
    }


class Daemon:
    """A daemon that can be killed and started again."""

    def __init__(self, program: str, image: Path, path: Path) -> None:
        self.words = [program, str(image), str(path)]
        self.path = path
        self.process: "Optional[subprocess.Popen[bytes]]" = None

    def start(self) -> None:
        """Starts it, and waits until it takes connections."""
        self.path.unlink(missing_ok=True)
        self.process = subprocess.Popen(self.words, stderr=subprocess.DEVNULL)
        limit = time.monotonic() + PATIENCE
        while True:
            with socket.socket(socket.AF_UNIX) as probe:
                try:
                    return probe.connect(str(self.path))
                except OSError:
                    if self.process.poll() is not None or time.monotonic() > limit:
                        raise
            time.sleep(0.005)

    def kill(self) -> None:
        if self.process is not None:
            self.process.kill()
            self.process.wait()
            self.process = None


class Killed:
    """The volume, and the client that is killed. `told` has a line for each kill, and `faults` what was not as it must be."""

    def __init__(self, udfburn: str, udfburnd: str, room: Path, photographs: List[Path], film: int) -> None:
        self.udfburn, self.room = udfburn, room
        self.files = folder_of(room, photographs, film)
        self.image = room / "holiday.img"
        self.daemon = Daemon(udfburnd, self.image, room / "socket")
        self.ledger = room / "ledger"
        self.told: List[str] = []
        self.faults: List[str] = []
        self.killed = 0
        self.seconds = 0.0

    # ---- what must be there

    def payload_requests(self) -> int:
        """Those of the bag's three directories and of its files."""
        return 2 + len(FOLDERS) + sum(file.requests() for file in self.files.values())

    def requests(self) -> int:
        return self.payload_requests() + len(TAGS)

    def data_blocks(self) -> int:
        return sum(-(-file.size // BLOCK) for file in self.files.values())

    # ---- what is there

    def blocks(self) -> int:
        return self.image.stat().st_size // BLOCK

    def commits(self) -> int:
        """The newest commit that the program's log has, while a daemon writes."""
        said = subprocess.run([self.udfburn, "log", str(self.image)], stdout=subprocess.PIPE, stderr=subprocess.DEVNULL).stdout
        return int(said.split(b" ", 1)[0]) if said[:1].isdigit() else 0

    def under_way(self) -> Tuple[int, int]:
        """How many requests have no reply in the ledger, and the bytes that they have at most. A copy is looked at, since whoever opens the
        ledger mends it."""
        look = self.room / "look"
        look.mkdir()
        for file in self.room.glob("ledger*"):
            shutil.copy(file, look)
        base = sqlite3.connect(str(look / "ledger"))
        try:
            # Of an append it has the size of the file then.
            words = "SELECT COUNT(*), COALESCE(SUM(MIN(size, ?)), 0) FROM request WHERE code IS NULL"
            count, size = base.execute(words, (PIECE,)).fetchone()
        finally:
            base.close()
            shutil.rmtree(look)
        return int(count), int(size)

    # ---- the client

    def words(self, *words: str) -> "subprocess.Popen[bytes]":
        """A command of the client, whose words are in a file of the room."""
        environment = {**os.environ, "PYTHONPATH": str(CLIENT), "UDFBURN": self.udfburn, "UDFBURN_LEDGER": str(self.ledger)}
        # It is compiled once, and not in the folder that it is in.
        environment.update({"PYTHONDONTWRITEBYTECODE": "", "PYTHONPYCACHEPREFIX": str(self.room / "compiled")})
        with open(self.room / "said", "wb") as said:
            return subprocess.Popen([sys.executable, "-m", "udfburn", *words], stdout=said, stderr=said, env=environment)

    def status_of(self, client: "subprocess.Popen[bytes]") -> int:
        """How a command ended, which is killed where it takes too long."""
        try:
            return client.wait(PATIENCE)
        except subprocess.TimeoutExpired:
            client.kill()
            return client.wait()

    def said(self) -> str:
        return (self.room / "said").read_text(errors="replace")

    def put(self) -> "subprocess.Popen[bytes]":
        return self.words("put", "-r", "--seal", str(self.room / "folder"), "/bag", "--socket", str(self.daemon.path))

    def await_moment(self, kill: Kill, client: "subprocess.Popen[bytes]") -> None:
        """Waits until a kill is due, or the client has ended."""
        limit = time.monotonic() + PATIENCE
        least = BEGUN + int(min(kill.share, 1) * self.data_blocks())
        while kill.share and client.poll() is None and time.monotonic() < limit:
            if self.blocks() >= least and (kill.share < 1 or self.commits() >= self.payload_requests()):
                break
            time.sleep(0.002)
        time.sleep(kill.seconds)

    def kill(self, kill: Kill) -> bool:
        """Runs the command until this kill. Whether it was killed."""
        client = self.put()
        self.await_moment(kill, client)
        if kill.ended == DAEMON_FIRST:
            self.daemon.kill()
        client.send_signal(signal.SIGKILL)
        if kill.ended == BOTH:
            self.daemon.kill()
        if client.wait() != -signal.SIGKILL:
            if kill.share < 1:
                self.faults.append("it ended before it was killed, with status %s: %s" % (client.returncode, self.said()[-300:]))
            return False
        self.killed += 1
        requests, size = self.under_way()
        if size > AGAIN:
            self.faults.append("%d bytes are to be sent again after kill %d" % (size, self.killed))
        self.told.append(
            "kill %d of %s at block %d, commit %d: %d requests of %.1f MB without a reply"
            % (self.killed, kill.ended, self.blocks(), self.commits(), requests, size / 1e6)
        )
        if kill.ended != CLIENT_ALONE:
            self.daemon.start()
        return True

    def run(self, seed: int = 10) -> None:
        """Makes the volume, kills the client and starts it again, and then lets it come to its end."""
        began = time.monotonic()
        words = ["format", str(self.image), LABEL, "0", str(CAPACITY)]
        subprocess.run([self.udfburn, *words], check=True, stdout=subprocess.DEVNULL)
        self.daemon.start()
        try:
            for kill in kills(random.Random(seed)):
                if not self.kill(kill) and kill.share < 1:
                    return
            if self.killed < KILLS:
                self.faults.append("%d kills" % self.killed)
            if self.status_of(self.put()):
                self.faults.append(self.said()[-500:])
        finally:
            self.daemon.kill()
            self.seconds = time.monotonic() - began

    # ---- what came of it

    def counted(self) -> List[str]:
        """Whether each request is on the disc once, and the image has few blocks beside the data."""
        commits, descriptors = self.commits(), self.files[FILM].size // (ENTRY_EXTENTS * PIECE)
        # The daemon may have been killed within a mebibyte.
        most = BEGUN + self.data_blocks() + (BLOCKS_OF_A_COMMIT + descriptors) * self.requests() + self.killed * PIECE // BLOCK
        out = [] if commits == self.requests() else ["%d commits, not %d" % (commits, self.requests())]
        return out if self.blocks() <= most else out + ["%d blocks, not %d at most" % (self.blocks(), most)]

    def sound(self) -> List[str]:
        """What `udfburn check` says against the image."""
        done = subprocess.run([self.udfburn, "check", str(self.image)], stdout=subprocess.PIPE, stderr=subprocess.STDOUT)
        return [] if done.stdout == b"sound %d\n" % self.requests() else [repr(done.stdout[-300:])]

    def data_checked(self) -> List[str]:
        """What `udfburn-client check --data` says against it. The manifests cover all but that of the tag files, and the ledger all."""
        status = self.status_of(self.words("check", "--data", "--ledger", str(self.ledger), str(self.image)))
        count = len(self.files) + len(TAGS)
        wanted = "are as they were stored; %d by the ledger, %d by manifests on the volume, and no digest covers 0 files"
        if status == 0 and wanted % (count, count - 1) in self.said():
            return []
        return ["status %d: %s" % (status, self.said()[-300:])]

    def compared(self, mount: Mount) -> List[str]:
        """What a Linux kernel shows, compared with the local files: names, sizes, times, and the SHA-256 of all bytes."""
        if mount.refused:
            return ["the mount is refused: %s" % os.strerror(mount.refused)]
        folders = ["", "/bag", "/bag/data"] + ["/bag/data/" + name for name in FOLDERS]
        files = {"/bag/data/" + name: file for name, file in self.files.items()}
        found = {os.fsdecode(path): node for path, node in mount.nodes.items()}
        out = ["%r is listed twice" % path for path in mount.twice]
        wanted = sorted([*folders, *files, *("/bag/" + name for name in TAGS)])
        if sorted(found) != wanted:
            return out + ["%r is not on both sides" % path for path in sorted(set(found) ^ set(wanted))]
        out += ["%r: %s" % (path, os.strerror(node.failure)) for path, node in found.items() if node.failure or node.kind == "?"]
        out += ["%r is of another kind" % path for path, node in found.items() if (node.kind == "D") != (path in folders)]
        for path, file in files.items():
            there = File(found[path].size, found[path].sha256, found[path].seconds * 1_000_000 + found[path].nanoseconds // 1000)
            if there != file:
                out.append("%r: %s, not %s" % (path, there, file))
        return out

    def manifest(self, mount: Mount) -> List[str]:
        """The lines of the manifest that is on the mounted volume, compared with the bytes that the kernel gave: every file as a whole, and
        nothing else."""
        there = {os.fsdecode(path): node for path, node in mount.nodes.items()}
        if any("/bag/" + name not in there for name in TAGS):
            return ["there is no bag"]
        lines = there["/bag/manifest-sha256.txt"].data.decode(errors="replace").splitlines()
        out, listed = [], []
        for line in lines:
            match = re.fullmatch(r"([0-9a-f]{64})  (data/.*)", line)
            node = there.get("/bag/" + match.group(2)) if match else None
            if match is None or node is None or node.sha256 != match.group(1):
                out.append("the mounted file has other bytes than the manifest says: %s" % line)
            else:
                listed.append(match.group(2))
        if sorted(listed) != sorted("data/" + name for name in self.files):
            out.append("the manifest lists other files: %s" % listed)
        total = "Payload-Oxum: %d.%d\n" % (sum(file.size for file in self.files.values()), len(self.files))
        if there["/bag/bagit.txt"].data != DECLARATION or total not in there["/bag/bag-info.txt"].data.decode(errors="replace"):
            out.append("the tag files are not those of a bag: %r" % there["/bag/bag-info.txt"].data)
        return out

    def sums(self, mount: Mount) -> List[str]:
        """What `sha256sum -c` said of both manifests in the mounted bag: that each file is as its line says."""
        names = ["data/" + name for name in self.files] + [name for name in TAGS if name != "tagmanifest-sha256.txt"]
        lines = mount.sums.decode(errors="replace").splitlines()
        if mount.status or sorted(lines) != sorted(name + ": OK" for name in names):
            return ["status %d" % mount.status] + [line for line in lines if not line.endswith(": OK")] + ["%d lines" % len(lines)]
        return []


def photographs_in(folder: Path) -> List[Path]:
    """The JPEG files in a folder and below it that have more than 100 kB, which thumbnails have not."""
    found = []
    for path in sorted(folder.rglob("*.jp*g")):
        with open(path, "rb") as file:
            if not path.is_symlink() and file.read(3) == b"\xff\xd8\xff" and path.stat().st_size > 100_000:
                found.append(path)
    return found


__all__ = ["Killed", "photographs_in"]
