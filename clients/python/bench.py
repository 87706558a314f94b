"""Files through the socket by this client, beside `udfburn apply` on the same frames or beside rsync on the same files.

usage: bench.py [--files N] [--size BYTES] [--rsync] [--rounds N] [--quiet US] [--folder FOLDER] [--before CLIENT] UDFBURN UDFBURND
Rounds in turn; prints each, and the ratios of the medians and of the least times. There are 1,000 files of 4 KiB where nothing else
is said. The client reads the files from a folder, keeps each request and reply in its ledger, and confirms each reply by Stat;
`apply` gets the frames of the requests alone. With --rsync the client is compared with `rsync -a --fsync` of the folder. Beside the
times is what the client wrote: its ledger, since the daemon writes the image. --before names the folder clients/python of
another state, whose client takes its turn too. On a disk that others use, --quiet 250 counts only the rounds before, within and
after which a block was written and synced in 250 microseconds, and tries 20 times as many rounds at most.
"""

from __future__ import annotations

import argparse
import os
import random
import shutil
import socket
import statistics
import subprocess
import sys
import tempfile
import time
from functools import partial
from typing import Callable, Iterator, List, NamedTuple

HERE = os.path.dirname(os.path.abspath(__file__))
sys.path.insert(0, HERE)

from udfburn.protocol import Create, MakeDir, encode_message, frame  # noqa: E402
from udfburn.protocol.units import Moment

FOLDER_NAMES = 250

IMPORT = """
import sys, time
sys.path.insert(0, sys.argv[1])
from udfburn import Client
from udfburn.ledger import ledger
from udfburn.session import session
from udfburn.trees import tree

def written():
    with open("/proc/self/io") as file:
        return next(int(line.split()[1]) for line in file if line.startswith("wchar"))

print("loaded", flush=True)
sys.stdin.readline()
before, begin = written(), time.perf_counter()
with Client("unix:" + sys.argv[2], ledger=sys.argv[3]) as client:
    client.put_tree(sys.argv[4], "/")
print(time.perf_counter() - begin, written() - before, flush=True)
with Client("unix:" + sys.argv[2], ledger=sys.argv[3]) as client:
    assert not client.verify_tree(sys.argv[4], "/").differences, "all bytes are there"
"""
"""An import by the client of a folder, in a process of its own, which has loaded what it takes before it begins."""


class Taken(NamedTuple):
    """Seconds, and the bytes that a client wrote to its ledger (0 of others)."""

    seconds: float
    written: int = 0


class Sources(NamedTuple):
    """A folder with files, how many files and folders there are, and the frames that store them."""

    local: str
    names: int
    frames: str


def make_sources(room: str, files: int, size: int) -> Sources:
    """A folder with so many files of this size, and a file of the frames that store them."""
    chance, local, number = random.Random(7), os.path.join(room, "sources"), 0
    frames = os.path.join(room, "frames")
    with open(frames, "wb") as sent:
        for index in range(files):
            folder, name = f"folder{index // FOLDER_NAMES}", f"file{index % FOLDER_NAMES:03}"
            if index % FOLDER_NAMES == 0:
                os.makedirs(os.path.join(local, folder))
                number += 1
                sent.write(frame(encode_message(MakeDir(7, number, Moment(0), (folder,)))))
            data = chance.randbytes(size)
            with open(os.path.join(local, folder, name), "wb") as file:
                file.write(data)
            number += 1
            sent.write(frame(encode_message(Create(7, number, Moment(0), (folder, name), data))))
    # What is still to be written of them would be written while something is timed.
    os.sync()
    return Sources(local, number, frames)


def format_image(udfburn: str, room: str) -> str:
    """A new volume."""
    image = os.path.join(room, "disc.img")
    if os.path.exists(image):
        os.unlink(image)
    subprocess.run([udfburn, "format", image, "BENCH", "0", "450000"], check=True, stdout=subprocess.DEVNULL)
    return image


def by_apply(udfburn: str, room: str, sources: Sources) -> Taken:
    """`udfburn apply` on the frames."""
    image = format_image(udfburn, room)
    with open(sources.frames, "rb") as file:
        begin = time.perf_counter()
        done = subprocess.run([udfburn, "apply", image], stdin=file, capture_output=True, check=True)
        seconds = time.perf_counter() - begin
    assert len(done.stdout) == 10 * sources.names, "each request is answered"
    return Taken(seconds)


def by_rsync(room: str, sources: Sources) -> Taken:
    """`rsync -a --fsync` of the folder."""
    target = os.path.join(room, "copied")
    os.mkdir(target)
    begin = time.perf_counter()
    subprocess.run(["rsync", "-a", "--fsync", sources.local + "/", target], check=True)
    seconds = time.perf_counter() - begin
    shutil.rmtree(target)
    return Taken(seconds)


def by_client(package: str, udfburn: str, udfburnd: str, room: str, local: str) -> Taken:
    """The client of a folder, a new ledger among them, through the socket."""
    image, path, ledger = format_image(udfburn, room), os.path.join(room, "socket"), os.path.join(room, "ledger.sqlite")
    daemon = subprocess.Popen([udfburnd, image, path])
    try:
        wait_for(path)
        words = [sys.executable, "-c", IMPORT, package, path, ledger, local]
        with subprocess.Popen(words, stdin=subprocess.PIPE, stdout=subprocess.PIPE, text=True) as client:
            assert client.stdin and client.stdout
            assert client.stdout.readline() == "loaded\n"
            told, _ = client.communicate("\n")
        assert not client.returncode, "all bytes are there"
    finally:
        daemon.kill()
        daemon.wait()
        os.unlink(path)
        for name in os.listdir(room):
            if name.startswith("ledger"):
                os.unlink(os.path.join(room, name))
    seconds, written = told.split()
    return Taken(float(seconds), int(written))


def wait_for(path: str) -> None:
    """Waits until a daemon listens."""
    for _ in range(6000):
        with socket.socket(socket.AF_UNIX) as probe:
            try:
                probe.connect(path)
                return
            except OSError:
                time.sleep(0.05)
    raise SystemExit("the daemon does not listen")


def sync_time(room: str) -> float:
    """Microseconds that the disk takes now for a block that is written and synced: the median of twenty."""
    times = []
    path = os.path.join(room, "probe")
    with open(path, "wb", buffering=0) as probe:
        for _ in range(20):
            begin = time.perf_counter()
            probe.write(bytes(2048))
            os.fsync(probe.fileno())
            times.append(time.perf_counter() - begin)
    os.unlink(path)
    return statistics.median(times) * 1e6


def rounds_of(words: argparse.Namespace, packages: List[str], room: str) -> Iterator[List[Taken]]:
    """What each client and the other one took in each round that counts."""
    udfburn, udfburnd, counted = os.path.abspath(words.udfburn), os.path.abspath(words.udfburnd), 0
    sources = make_sources(room, words.files, words.size)
    calls: List[Callable[[], Taken]] = [partial(by_client, package, udfburn, udfburnd, room, sources.local) for package in packages]
    calls.append(partial(by_rsync, room, sources) if words.rsync else partial(by_apply, udfburn, room, sources))

    def quiet() -> bool:
        return words.quiet is None or sync_time(room) <= words.quiet

    for turn in range(words.rounds if words.quiet is None else 20 * words.rounds):
        times = [Taken(0.0)] * len(calls)
        if not quiet():
            time.sleep(0.2)
            continue
        for index in range(len(calls))[:: -1 if turn % 2 else 1]:
            times[index] = calls[index]()
            if not quiet():
                break
        else:
            counted += 1
            yield times
        if counted == words.rounds:
            return


def told(seconds: List[float], other: str) -> str:
    """The times of clients and of the other one, with the ratios."""
    parts = [f"{name} {one * 1000:.1f} ms" for name, one in zip(("client", "before"), seconds[:-1])]
    ratios = ", ".join(f"{one / seconds[-1]:.2f}" for one in seconds[:-1])
    return ", ".join(parts) + f", {other} {seconds[-1] * 1000:.1f} ms, ratio {ratios}"


def summary(rounds: List[List[Taken]], words: argparse.Namespace, other: str) -> str:
    """The medians, the least times, and what the ledgers wrote beside the bytes of the files."""
    columns = [[taken.seconds for taken in column] for column in zip(*rounds)]
    bytes_of = [statistics.median(taken.written for taken in column) / (words.files * words.size) for column in list(zip(*rounds))[:-1]]
    ratios = [statistics.median(one / beside for one, beside in zip(column, columns[-1])) for column in columns[:-1]]
    return (
        f"{len(rounds)} rounds, load {os.getloadavg()[0]:.1f}; median of their ratios {', '.join(f'{one:.2f}' for one in ratios)};"
        f" medians: {told([statistics.median(column) for column in columns], other)}; least: {told([min(column) for column in columns], other)};"
        f" written to the ledger for each byte of the files: {', '.join(f'{one:.3f}' for one in bytes_of)}"
    )


def parsed() -> argparse.Namespace:
    """The words that were given."""
    parser = argparse.ArgumentParser(usage=(__doc__ or "").split("usage: ")[1])
    parser.add_argument("udfburn")
    parser.add_argument("udfburnd")
    parser.add_argument("--files", type=int, default=1000)
    parser.add_argument("--size", type=int, default=4096)
    parser.add_argument("--rsync", action="store_true")
    parser.add_argument("--rounds", type=int, default=11)
    parser.add_argument("--quiet", type=float)
    parser.add_argument("--folder")
    parser.add_argument("--before")
    return parser.parse_args()


def main() -> None:
    """Runs the rounds."""
    words = parsed()
    other = "rsync" if words.rsync else "apply"
    room = tempfile.mkdtemp(dir=words.folder)
    packages = [HERE] + ([os.path.abspath(words.before)] if words.before else [])
    rounds: List[List[Taken]] = []
    try:
        for times in rounds_of(words, packages, room):
            rounds.append(times)
            print(f"round {len(rounds)}: {told([taken.seconds for taken in times], other)}", flush=True)
    finally:
        shutil.rmtree(room)
    if not rounds:
        raise SystemExit("the disk was never quiet")
    print(summary(rounds, words, other))


if __name__ == "__main__":
    main()
