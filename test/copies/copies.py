"""Copies of an image while a daemon writes it, at random moments, and what they hold.

usage: copies.py UDFBURN UDFBURND ROOM [SEED [REQUESTS]]

A client sends many requests at once, so that the daemon answers them in groups; the daemon is killed now and then, and started
again. Meanwhile the image is copied as docs/OPERATIONS.md says: up to the newest commit that `udfburn log` shows, by head, cp, dd,
and a follower that appends what is new, of which rsync makes another copy. Each copy must end with that commit and be sound, and
must be the state after one of the run's commits: none before the last answer that the client had when the copy began, none after
what it had sent when the copy was done. A snapshot of one moment is made too, and not cut.
"""

from __future__ import annotations

import hashlib
import os
import random
import shutil
import signal
import socket
import subprocess
import sys
import threading
import time
from pathlib import Path
from typing import Callable, Dict, List, Optional, Tuple

sys.path.insert(0, str(Path(__file__).resolve().parent.parent))

from protocol import (  # noqa: E402
    BLOCK, CREATE, DONE, GET, KEPT_REPLIES, LIST, MAKE_DIRECTORY, REMOVE, RENAME, REPLACE, STALE, STAT,
    Answer, Directory, File, Names, Request, Tree, answers_of, committed, encode, path_of, query,
)

CAPACITY = 200_000
# What is stored is the same in each run; the moments of copies and kills are not.
SEED = 20261129
# Seconds after which what did not come counts as missing: more than any machine takes.
PATIENCE = 300
FORMAT_MOMENT = 77
# Seconds without a word after which the client leaves before the daemon lets it go, which does so after 60.
SILENCE = 20
# So many requests may be under way. The replies to most of them are lost if the daemon is killed: then they are stale.
UNDER_WAY = 32
# The bytes of a group's head.
HEAD = 280
# After so many the rest of the requests is sent without.
MOST_COPIES = 80


def requests(die: random.Random, count: int) -> List[Request]:
    """Requests of one client that all go through, with files from nothing to a mebibyte."""
    tree = Tree(FORMAT_MOMENT)
    out: List[Request] = []
    folders: List[Names]
    for number in range(1, count + 1):
        nodes = [(path, node) for path, node in tree.walk() if path]
        files = [path for path, node in nodes if isinstance(node, File)]
        empty = [path for path, node in nodes if isinstance(node, Directory) and not node.names]
        folders = [()] + [path for path, node in nodes if isinstance(node, Directory) and len(path) < 8]
        words = die.choice((0, 1, 100, 234, 235, 700, 2000, 5000, 8000, 131_072 if die.randrange(16) == 0 else 300))
        data = die.getrandbits(64).to_bytes(8, "little") * words
        new = path_of(die.choice(folders) + ("n%d" % number,))
        moment = number * 1_000_001
        what = die.randrange(10)
        request = Request(CREATE, 9, number, new, data, moment=moment)
        if what == 0:
            request = Request(MAKE_DIRECTORY, 9, number, new, moment=moment)
        elif what in (1, 2) and files:
            request = Request(REPLACE, 9, number, path_of(die.choice(files)), data, moment=moment)
        elif what == 3 and files:
            request = Request(RENAME, 9, number, path_of(die.choice(files)), to=new, moment=moment)
        elif what == 4 and empty + files or len(files) > 60:
            request = Request(REMOVE, 9, number, path_of(die.choice(empty + files)), moment=moment)
        if tree.do(request) != 0:
            raise AssertionError("a request that is refused")
        out.append(request)
    return out


class Writer(threading.Thread):
    """The client, and the daemon that it kills."""

    def __init__(self, daemon: str, room: Path, image: Path, sent: List[Request], die: random.Random) -> None:
        super().__init__()
        self.program = daemon
        self.room = room
        self.image = image
        self.requests = sent
        self.die = die
        self.answered = 0
        self.sent = 0
        self.kills = 0
        # It writes while this is set: while copies are made, and not while they are judged.
        self.busy = threading.Event()
        # Whoever has it may stop the daemon, and no other one starts.
        self.turn = threading.Lock()
        self.fault: Optional[str] = None
        self.process: Optional[subprocess.Popen[bytes]] = None

    def start_daemon(self) -> None:
        path = self.room / "socket"
        path.unlink(missing_ok=True)
        with self.turn, open(self.room / "daemon.errors", "ab") as errors:
            self.process = subprocess.Popen([self.program, str(self.image), str(path)], stderr=errors)

    def stop_daemon(self) -> None:
        with self.turn:
            if self.process is not None:
                self.process.send_signal(signal.SIGKILL)
                self.process.wait()
                self.process = None

    def connect(self) -> socket.socket:
        until = time.monotonic() + PATIENCE
        while True:
            line = socket.socket(socket.AF_UNIX, socket.SOCK_STREAM)
            try:
                line.connect(str(self.room / "socket"))
                line.settimeout(PATIENCE)
                return line
            except OSError:
                line.close()
                if time.monotonic() > until:
                    raise
                time.sleep(0.01)

    def converse(self, most: int, linger: float) -> None:
        """Sends up to so many requests; then leaves, a moment after the last was sent and whatever was answered."""
        line = self.connect()
        held = b""
        begun = time.monotonic()
        asked, known = self.answered, self.sent
        past = min(len(self.requests), asked + most)
        try:
            while self.answered < past:
                silent = time.monotonic()
                self.busy.wait()
                if time.monotonic() - silent > SILENCE:
                    return
                waiting = b""
                while asked < past and asked - self.answered < UNDER_WAY:
                    asked += 1
                    waiting += encode(self.requests[asked - 1])
                self.sent = max(self.sent, asked)
                line.sendall(waiting)
                if asked == past and past < len(self.requests):
                    time.sleep(linger)
                    return
                piece = line.recv(4096)
                if not piece:
                    raise ConnectionError("the daemon closed")
                begun = time.monotonic()
                held = self.take(held + piece, known)
                # So that there are many copies before the last request is sent.
                time.sleep(self.die.uniform(0, 0.05))
        except OSError:
            # This process was kept waiting for so long that the daemon may have let go of it.
            if time.monotonic() - begun < SILENCE:
                raise
        finally:
            line.close()

    def take(self, held: bytes, known: int) -> bytes:
        """Takes the answers that are whole, and gives what is left. Of requests that an earlier daemon got, up to number `known`, the
        answer may be that the reply is no longer kept: that they were committed."""
        while len(held) >= 4 and len(held) >= 4 + int.from_bytes(held[:4], "little"):
            length = 4 + int.from_bytes(held[:4], "little")
            number, told = self.answered + 1, answers_of(held[:length])[0]
            if told != committed(DONE, number):
                latest = int.from_bytes(told.rest, "little")
                if told.code != STALE or not number + KEPT_REPLIES <= latest <= known:
                    raise AssertionError("request %d is answered %r" % (number, told))
            held = held[length:]
            self.answered += 1
        return held

    def run(self) -> None:
        try:
            self.start_daemon()
            while self.answered < len(self.requests):
                self.converse(self.die.randrange(5, 150), self.die.uniform(0, 0.003))
                if self.answered < len(self.requests):
                    self.stop_daemon()
                    self.kills += 1
                    self.start_daemon()
        except (OSError, AssertionError) as fault:
            self.fault = str(fault)
        finally:
            self.stop_daemon()


def run(*words: str, given: bytes = b"") -> bytes:
    done = subprocess.run(words, input=given, stdout=subprocess.PIPE, stderr=subprocess.PIPE, timeout=PATIENCE)
    if done.returncode != 0:
        raise RuntimeError("%s: status %d: %r" % (" ".join(words), done.returncode, done.stderr))
    return done.stdout


class Copier:
    """The ways in which a live image is copied. Each takes the image and the path of the copy."""

    def __init__(self, udfburn: str, writer: Writer) -> None:
        self.udfburn = udfburn
        self.writer = writer

    def end(self, image: Path) -> int:
        """Where the newest commit of an image ends, in blocks."""
        return int(run(self.udfburn, "log", str(image)).split(b"\n", 1)[0].split()[1]) + 1

    def head(self, image: Path, copy: Path) -> None:
        with open(copy, "wb") as out:
            subprocess.run(["head", "-c", str(self.end(image) * BLOCK), str(image)], stdout=out, check=True, timeout=PATIENCE)

    def cp(self, image: Path, copy: Path) -> None:
        """Without a reflink, which would be a copy of one moment."""
        end = self.end(image)
        run("cp", "--reflink=never", "--sparse=never", str(image), str(copy))
        run("truncate", "-s", str(end * BLOCK), str(copy))

    def dd(self, image: Path, copy: Path) -> None:
        end = self.end(image)
        run("dd", "if=%s" % image, "of=%s" % copy, "bs=%d" % random.choice((512, 2048, 3000, 65536)))
        run("truncate", "-s", str(end * BLOCK), str(copy))

    def follow(self, image: Path, copy: Path) -> None:
        """Appends what is after the copy's last whole block."""
        end = self.end(image)
        have = copy.stat().st_size // BLOCK if copy.exists() else 0
        blocks = ("bs=%d" % BLOCK, "skip=%d" % have, "seek=%d" % have, "count=%d" % (end - have))
        run("dd", "if=%s" % image, "of=%s" % copy, *blocks, "conv=notrunc")

    def rsync(self, image: Path, copy: Path) -> None:
        """A copy on another machine, of a follower's copy."""
        here = copy.with_suffix(".here")
        self.follow(image, here)
        run("rsync", "--append-verify", str(here), str(copy))

    def snapshot(self, image: Path, copy: Path) -> None:
        """What a snapshot of the file system has, since the daemon is stopped meanwhile."""
        with self.writer.turn:
            process = self.writer.process
            if process is not None:
                process.send_signal(signal.SIGSTOP)
                # It is stopped, or has ended.
                while Path("/proc/%d/stat" % process.pid).read_bytes().rsplit(b")", 1)[1].split()[0] not in (b"T", b"Z"):
                    time.sleep(0.0001)
            try:
                run("cp", str(image), str(copy))
            finally:
                if process is not None:
                    process.send_signal(signal.SIGCONT)


class Replay:
    """The tree after a commit, by doing its requests again."""

    def __init__(self, sent: List[Request]) -> None:
        self.sent = sent
        self.held: Dict[int, Tree] = {0: Tree(FORMAT_MOMENT)}

    def behind(self, commit: int) -> Tree:
        before = max(held for held in self.held if held <= commit)
        tree = self.held[before].copy()
        for at in range(before, commit):
            tree.do(self.sent[at])
            if (at + 1) % 50 == 0:
                self.held[at + 1] = tree.copy()
        return tree


def differences(udfburn: str, copy: Path, tree: Tree) -> List[str]:
    """What the image's tree has otherwise than this one, by questions for each of its nodes."""
    asked = b""
    wanted: List[Answer] = []
    of: List[str] = []
    for names, node in tree.walk():
        path = path_of(names)
        asked += query(STAT, path) + query(GET if isinstance(node, File) else LIST, path)
        wanted += [tree.stat(path), tree.get(path) if isinstance(node, File) else tree.list(path)]
        of += [path, path]
    found = answers_of(run(udfburn, "apply", str(copy), given=asked))
    if len(found) != len(wanted):
        return ["%d answers, not %d" % (len(found), len(wanted))]
    return ["%s is %d %r" % (path, got.code, got.rest[:40]) for path, got, want in zip(of, found, wanted) if got != want]


class Copies:
    def __init__(self, udfburn: str, sent: List[Request]) -> None:
        self.udfburn = udfburn
        self.replay = Replay(sent)
        self.passed = 0
        self.failed = 0
        self.heads = 0
        # By the count of whole blocks, the sums of copies that had so many, and their names.
        self.sums: Dict[int, List[Tuple[bytes, str]]] = {}

    def remember(self, name: str, copy: Path) -> None:
        """Keeps what a copy was, to be compared with the whole image."""
        blocks = copy.stat().st_size // BLOCK
        with open(copy, "rb") as stream:
            digest = hashlib.sha256(stream.read(blocks * BLOCK)).digest()
        self.sums.setdefault(blocks, []).append((digest, name))

    def compare(self, image: Path) -> None:
        """Blocks are written once, so each copy's whole blocks are the first ones of the image at the end."""
        digest = hashlib.sha256()
        at = 0
        with open(image, "rb") as stream:
            for blocks, copies in sorted(self.sums.items()):
                digest.update(stream.read((blocks - at) * BLOCK))
                at = blocks
                for told, name in copies:
                    if told == digest.digest():
                        self.passed += 1
                    else:
                        self.failed += 1
                        print("copies: FAILED: %s is no prefix of the image" % name)

    def judge(self, name: str, copy: Path, least: int, most: int, is_cut: bool = False) -> None:
        """A copy is sound, and is the state after one of these commits. One that is cut ends with that commit."""
        before = copy.stat().st_size
        try:
            told = run(self.udfburn, "check", str(copy)).split()
            log = run(self.udfburn, "log", str(copy)).decode().splitlines()
            commit, address, files, folders = map(int, log[0].split())
            tree = self.replay.behind(commit)
            wrong = differences(self.udfburn, copy, tree)
            if told != [b"sound", b"%d" % commit]:
                wrong.append("check prints %r, log %d" % (told, commit))
            if not least <= commit <= most:
                wrong.append("it has commit %d, not one from %d to %d" % (commit, least, most))
            if (files, folders) != tree.count() or len(log) != commit + 1:
                wrong.append("its log prints %r" % log[0])
            if is_cut and before != (address + 1) * BLOCK:
                wrong.append("it was %d bytes long, and ends in block %d" % (before, address))
            self.heads += before % BLOCK == HEAD
        except (RuntimeError, ValueError, IndexError) as fault:
            wrong = [str(fault)]
        if not wrong:
            self.passed += 1
            return
        self.failed += 1
        print("copies: FAILED: %s" % name)
        for line in wrong[:5]:
            print("    " + line)


Way = Callable[[Path, Path], None]
"""Makes a copy of an image at a path."""
SNAPSHOT = "a snapshot"


def ways_to_copy(copies: Copies, copier: Copier, room: Path) -> List[Tuple[str, Way, Path]]:
    """The ways in which copies are made, each with its name and the path of its copies."""
    ways: List[Tuple[str, Way, Path]] = [
        ("head", copier.head, room / "head.img"), ("cp", copier.cp, room / "cp.img"), ("dd", copier.dd, room / "dd.img"),
        ("a follower", copier.follow, room / "followed.img"), (SNAPSHOT, copier.snapshot, room / "snapshot.img"),
    ]
    if shutil.which("rsync"):
        return ways + [("rsync", copier.rsync, room / "rsync.img")]
    print("copies: not tried: rsync is not there")
    if os.environ.get("CI") == "true":
        copies.failed += 1
    return ways


def copy_while(writer: Writer, copies: Copies, ways: List[Tuple[str, Way, Path]], die: random.Random) -> int:
    """Makes copies while the writer is at work, and judges each. Gives how many there were."""
    made = 0
    while writer.is_alive() and made < MOST_COPIES:
        name, way, copy = ways[made % len(ways)]
        made += 1
        if name == "a follower" and copy.exists() and die.randrange(3) == 0:
            # It was killed while it wrote, or the copy was cut somewhere.
            os.truncate(copy, max(0, copy.stat().st_size - die.randrange(9000)))
        writer.busy.set()
        time.sleep(die.uniform(0, 0.01))
        least = writer.answered
        try:
            way(writer.image, copy)
        except RuntimeError as fault:
            copies.failed += 1
            print("copies: FAILED: %s" % fault)
            continue
        most = writer.sent
        writer.busy.clear()
        # What is asked of a copy must not make it another one: questions go to one of their own.
        asked = writer.room / "asked.img"
        shutil.copyfile(copy, asked)
        if name != SNAPSHOT:
            copies.remember("%s, copy %d" % (name, made), asked)
        copies.judge("%s, copy %d" % (name, made), asked, least, most, name != SNAPSHOT)
    return made


def judge_prefixes(copies: Copies, image: Path, room: Path, die: random.Random) -> None:
    """Prefixes of the whole image, at any byte: each has the last commit whose VAT ICB is whole."""
    data = image.read_bytes()
    addresses = {}
    for line in run(copies.udfburn, "log", str(image)).decode().splitlines():
        commit, address, _, _ = map(int, line.split())
        addresses[commit] = address
    for turn in range(40):
        length = die.randrange((addresses[0] + 1) * BLOCK, len(data) + 1)
        if turn % 4 == 0:
            length = (addresses[die.randrange(len(addresses))] + die.randrange(2)) * BLOCK
        if length < (addresses[0] + 1) * BLOCK:
            continue
        commit = max(commit for commit, address in addresses.items() if (address + 1) * BLOCK <= length)
        prefix = room / "prefix.img"
        prefix.write_bytes(data[:length])
        copies.judge("a prefix of %d bytes" % length, prefix, commit, commit)


def copy_whole(copies: Copies, image: Path, ways: List[Tuple[str, Way, Path]]) -> None:
    """A copy of the image at the end has its bytes, in whatever way it is made."""
    data = image.read_bytes()
    for name, way, copy in ways:
        way(image, copy)
        if copy.read_bytes() != data:
            copies.failed += 1
            print("copies: FAILED: %s of the whole image has other bytes" % name)
        else:
            copies.passed += 1


def main() -> int:
    udfburn, udfburnd = (os.path.abspath(word) for word in sys.argv[1:3])
    room = Path(sys.argv[3])
    seed = int(sys.argv[4]) if len(sys.argv) > 4 else SEED
    count = int(sys.argv[5]) if len(sys.argv) > 5 else 4000
    print("copies: seed %d, %d requests" % (seed, count), flush=True)
    die = random.Random(seed)
    random.seed(seed)
    sent = requests(die, count)
    copies = Copies(udfburn, sent)
    image = room / "disc.img"
    run(udfburn, "format", str(image), "COPIES", str(FORMAT_MOMENT), str(CAPACITY))
    writer = Writer(udfburnd, room, image, sent, random.Random(seed + 1))
    ways = ways_to_copy(copies, Copier(udfburn, writer), room)
    writer.start()
    try:
        made = copy_while(writer, copies, ways, die)
    finally:
        writer.busy.set()
        writer.join()
    if writer.fault is not None or writer.answered != count:
        copies.failed += 1
        print("copies: FAILED: the run: %s, %d answers" % (writer.fault, writer.answered))
    print("copies: %d copies, %d of them with a head, %d kills" % (made, copies.heads, writer.kills), flush=True)
    copies.compare(image)
    judge_prefixes(copies, image, room, die)
    copy_whole(copies, image, ways)
    print("copies: %d passed, %d failed" % (copies.passed, copies.failed))
    return 0 if copies.failed == 0 and copies.passed > 0 else 1


if __name__ == "__main__":
    sys.exit(main())
