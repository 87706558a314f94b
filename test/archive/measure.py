"""Measures the archive, and prints rows for docs/MEASURED.md: `python3 -m archive.measure [--rounds N] [--folder DIR] [PART..]`.

It is run from test/, with UDFBURN. The parts are `rates` (one tree stored by one, two and four processes, with SQLite and with
PostgreSQL, beside restic and borg, in turn; where UDFBURN_LIBRARY names the C library, by that too), `find` (10^7 rows in SQLite),
`find-postgresql` (2 x 10^6) and `rebuild` (50 volumes). DIR is on the disk that is measured.
"""

from __future__ import annotations

import argparse
import os
import shutil
import statistics
import subprocess
import sys
import tempfile
import time
import unittest
from typing import Callable, Dict, List, Sequence, Tuple

from .servers import Server
from .support import environment, make_tree, words_of
from .test_report import fill_catalogue, made_name

FILES = 4000
SIZE = 4096
ROWS, ROWS_POSTGRESQL = 10_000_000, 2_000_000
VOLUMES = 50

Way = Callable[[], float]


class Room(unittest.TestCase):
    """Where all is made; what a test case cleans up is cleaned up at the end."""

    def runTest(self) -> None:  # noqa: N802
        raise AssertionError


def row(*cells: str) -> None:
    print(f"| {' | '.join(cells)} |", flush=True)


def run(*words: str, **extra: str) -> None:
    subprocess.run(words, check=True, env={**environment(), **extra}, stdout=subprocess.DEVNULL)


def archive(folder: str, command: str, *words: str) -> "subprocess.Popen[bytes]":
    return subprocess.Popen([*words_of(command, *words), "--archive", folder, "--quiet"], env=environment(), stdout=subprocess.DEVNULL)


def together(processes: "List[subprocess.Popen[bytes]]") -> float:
    """The seconds until all have ended well."""
    began = time.monotonic()
    for process in processes:
        if process.wait():
            raise AssertionError("a command failed")
    return time.monotonic() - began


# ---- rates

def adding(room: str, source: str, url: str, count: int, *words: str) -> Way:
    """Stores a tree by so many processes, each a part of it, and gives the seconds."""
    def measured() -> float:
        folders = [tempfile.mkdtemp(dir=room) for _ in range(count if url else 1)]
        for folder in folders:
            run(*words_of("init", folder, "--label", "M", *(["--catalogue", url] if url else []), "--quiet"))
        parts = [os.path.join(source, name) for name in sorted(os.listdir(source))]
        at = f"/{time.monotonic_ns()}"
        os.sync()
        seconds = together(
            [archive(folders[index % len(folders)], "add", *parts[index::count], "--at", f"{at}-{index}/", *words) for index in range(count)]
        )
        for folder in folders:
            shutil.rmtree(folder)
        return seconds
    return measured


def restic(room: str, source: str) -> float:
    repository = tempfile.mkdtemp(dir=room)
    keys = {"RESTIC_PASSWORD": "x", "RESTIC_REPOSITORY": repository, "XDG_CACHE_HOME": os.path.join(room, "cache")}
    run("restic", "init", "-q", **keys)
    os.sync()
    began = time.monotonic()
    run("restic", "backup", "-q", source, **keys)
    seconds = time.monotonic() - began
    shutil.rmtree(repository)
    return seconds


def borg(room: str, source: str) -> float:
    repository = os.path.join(room, "borg")
    keys = {"BORG_BASE_DIR": os.path.join(room, "borg-base"), "BORG_UNKNOWN_UNENCRYPTED_REPO_ACCESS_IS_OK": "yes"}
    run("borg", "init", "-e", "none", repository, **keys)
    os.sync()
    began = time.monotonic()
    run("borg", "create", f"{repository}::one", source, **keys)
    seconds = time.monotonic() - began
    shutil.rmtree(repository)
    return seconds


def rates(case: Room, room: str, rounds: int) -> None:
    """Files a second of each way, in turn."""
    source = os.path.join(room, "source")
    for part in range(8):
        make_flat(os.path.join(source, f"part{part}"), FILES // 8, part)
    server = Server(case)
    ways: Dict[str, Way] = {}
    if os.environ.get("UDFBURN_LIBRARY"):
        ways["`add --library`, SQLite, 1 process"] = adding(room, source, "", 1, "--library")
    for count in (1, 2, 4):
        ways[f"`add`, SQLite, {count} {'process' if count == 1 else 'processes'}"] = adding(room, source, "", count)
    for count in (1, 2, 4):
        ways[f"`add`, PostgreSQL, {count} {'process' if count == 1 else 'processes'}"] = adding(room, source, server.new_base(f"rates{count}"), count)
    ways["`restic backup`"] = lambda: restic(room, source)
    ways["`borg create`"] = lambda: borg(room, source)
    found: Dict[str, List[float]] = {name: [] for name in ways}
    spent: Dict[str, List[float]] = {name: [] for name in ways}
    for _ in range(rounds):
        for name, way in ways.items():
            before = processor()
            found[name].append(FILES / way())
            spent[name].append((processor() - before) * 1000 / FILES)
    row(f"{FILES:,} files of {SIZE // 1024} KiB", "Files a second", f"Least and most of {rounds}", "Processor time a file")
    row("---", "---", "---", "---")
    for name, values in found.items():
        row(name, f"{statistics.median(values):,.0f}", f"{min(values):,.0f} to {max(values):,.0f}", f"{statistics.median(spent[name]):.2f} ms")
    shutil.rmtree(source)


def processor() -> float:
    """Seconds of the processors that commands took which have ended, with those that they ran; not those of a server."""
    times = os.times()
    return times.children_user + times.children_system


def make_flat(folder: str, files: int, seed: int) -> None:
    for index in range(files):
        at = os.path.join(folder, f"d{index // 32}")
        os.makedirs(at, exist_ok=True)
        with open(os.path.join(at, f"file-{index}.bin"), "wb") as file:
            file.write(seed.to_bytes(4, "big") + os.urandom(SIZE - 4))


# ---- find

ASK = """
import sys, time
from udfburn.archive.config import read
from udfburn.archive.catalogue import Catalogue, versions
from udfburn.archive.find import matching_paths
from udfburn.archive.names import path_from
pattern = sys.argv[2]
def reads():
    with open("/proc/self/io") as file:
        return next(int(line.split()[1]) for line in file if line.startswith("syscr"))
reads()
own = reads() - reads()
with Catalogue(read(sys.argv[1])) as catalogue:
    for turn in range(2):
        before, began = reads(), time.monotonic()
        found = versions(catalogue.of_path(path_from(pattern[6:]))) if pattern.startswith("where ") else list(matching_paths(catalogue, pattern))
        milliseconds = (time.monotonic() - began) * 1000
        print(len(found), milliseconds, reads() - before + own)
"""
"""Asks twice, and prints what was found, how many milliseconds that took, and how many reads: SQLite reads a page at once."""


def patterns(index: int, few: int) -> Dict[str, str]:
    """Patterns by how they are called, about the file of an index."""
    name, at = made_name(index), index // 32
    path = f"/made/year-{at // 5000}/month-{at // 400 % 12}/folder-{at}"
    return {
        "`where`": f"where {path}/{name}", "`find` of an exact name": name, "`find` of one folder": f"{path}/*", "`find PREFIX*`": f"{name[:-few]}*",
        "`find *END`": f"*{name[few - 1:]}", "`find *MIDDLE*`, five letters": f"*{name[6:-5]}*", "`find *MIDDLE*`, four letters": f"*{name[6:-6]}*",
        "`find *MIDDLE?END*`, three letters and two": f"*{name[5:8]}?{name[9:-5]}*", "`find /FOLDER/*/NAME`": f"/made/*/{name}",
        "`find *X*`, one letter: every name is compared": "*X*",
    }


def ask(folder: str, wanted: Dict[str, str], forget: Callable[[], None]) -> None:
    for name, pattern in wanted.items():
        forget()
        done = subprocess.run([sys.executable, "-c", ASK, folder, pattern], check=True, env=environment(), capture_output=True, text=True)
        (found, cold, reads), (_, warm, _) = [line.split() for line in done.stdout.splitlines()]
        row(f"{name}: {int(found):,} found", f"{float(cold):,.1f} ms", f"{float(warm):,.1f} ms", f"{int(reads):,}")


INDEX = """
import sys
from udfburn.archive.config import read
from udfburn.archive.catalogue import Catalogue
with Catalogue(read(sys.argv[1])) as catalogue, catalogue.base.transaction():
    catalogue.base.remake_index()
"""
"""Makes the index of text inside names again."""


def index(folder: str, bytes_of: Callable[[], int], rows: int) -> None:
    """Has the index made of rows that were put in beside the program, and prints what it takes."""
    size, before, began = bytes_of(), processor(), time.monotonic()
    run(sys.executable, "-c", INDEX, folder)
    seconds, spent = time.monotonic() - began, processor() - before
    print(f"the index of {rows:,} names: {seconds:.0f} s, {spent:.0f} s of processor time, {(bytes_of() - size) / rows:.1f} bytes a file\n", flush=True)


def forget_file(path: str) -> None:
    """Has the system drop what it keeps of a file."""
    os.sync()
    descriptor = os.open(path, os.O_RDONLY)
    os.posix_fadvise(descriptor, 0, 0, os.POSIX_FADV_DONTNEED)
    os.close(descriptor)


def one_file(room: str, folder: str, *words: str) -> None:
    """An archive with one file."""
    run(*words_of("init", folder, "--label", "M", "--quiet", *words))
    source = os.path.join(room, "one")
    os.makedirs(source, exist_ok=True)
    with open(os.path.join(source, "f"), "wb") as file:
        file.write(b"1")
    together([archive(folder, "add", source)])


def find_sqlite(room: str) -> None:
    """find and where over many rows, in the process, which is started once."""
    folder = os.path.join(room, "large")
    one_file(room, folder)
    path = os.path.join(folder, "catalogue.sqlite")
    fill_catalogue(path, ROWS)
    index(folder, lambda: os.path.getsize(path), ROWS)
    row(f"{ROWS:,} rows in SQLite, {os.path.getsize(path) / ROWS:.0f} bytes a file", "Cold", "Warm", "Pages that are read")
    row("---", "---", "---", "---")
    ask(folder, patterns(7_654_321, 6), lambda: forget_file(path))
    shutil.rmtree(folder)


FILL = """
INSERT INTO folder (id, path) SELECT 1000 + i, '/made/year-' || i / 5000 || '/month-' || i / 400 % 12 || '/folder-' || i
FROM generate_series(0, {files} / 32) AS i;
INSERT INTO file (id, folder, name, size, moment, sha256, added)
SELECT (2 + i / 4000) * 262144 + 10 + i % 4000, 1000 + i / 32, 'name-' || i::bigint * 7919 % 10000019 || '.bin', i % 100000,
1700000000000000 + i, sha256(int4send(i)), 1700000001000000 FROM generate_series(0, {files} - 1) AS i
"""


def find_postgresql(case: Room, room: str) -> None:
    server = Server(case)
    folder = os.path.join(room, "served")
    one_file(room, folder, "--catalogue", server.new_base("large"))
    for statement in FILL.format(files=ROWS_POSTGRESQL).split(";\n"):
        server.sql(statement, "large")
    server.sql("VACUUM ANALYZE file", "large")
    server.sql("VACUUM ANALYZE folder", "large")
    # Else it would have to recover all of them at each start.
    server.sql("CHECKPOINT")

    index(folder, lambda: int(server.sql("SELECT pg_relation_size('file_trigrams')", "large")[0][0]), ROWS_POSTGRESQL)
    server.sql("CHECKPOINT")
    size = sum(int(server.sql(f"SELECT pg_total_relation_size('{table}')", "large")[0][0]) for table in ("file", "folder"))

    def forget() -> None:
        server.stop()
        for at, _, names in os.walk(server.data):
            for name in names:
                forget_file(os.path.join(at, name))
        server.start()

    row(f"{ROWS_POSTGRESQL:,} rows in PostgreSQL, {size / ROWS_POSTGRESQL:.0f} bytes a file", "Cold", "Warm", "Reads")
    row("---", "---", "---", "---")
    ask(folder, patterns(1_654_321, 7), forget)
    server.stop()


# ---- rebuild

def spent(folder: str, command: str, *words: str) -> Tuple[str, str]:
    """The seconds that a command takes, and those of the processors."""
    before = processor()
    seconds = together([archive(folder, command, *words)])
    return f"{seconds:.1f}", f"{processor() - before:.1f} s"


def rebuilding(room: str) -> None:
    """The catalogue made again of closed volumes."""
    folder = os.path.join(room, "fifty")
    files = VOLUMES * 838
    run(*words_of("init", folder, "--label", "M", "--capacity", "5700", "--quiet"))
    source = os.path.join(room, "many")
    make_tree(source, files, 5, most=1500)
    stored, closed = spent(folder, "add", source), spent(folder, "close")
    images = [os.path.join(folder, "closed", name) for name in os.listdir(os.path.join(folder, "closed")) if name.endswith(".img")]
    row(f"{len(images)} volumes with {files:,} files, {sum(map(os.path.getsize, images)) // 1_000_000:,} MB", "Seconds", "Processor time")
    row("---", "---", "---")
    row("`add`", *stored)
    row("`close`, which reads each volume three times", *closed)
    for name in ("`rebuild` of a lost catalogue", "`rebuild` that finds no difference"):
        if "lost" in name:
            for end in ("", "-wal", "-shm"):
                if os.path.exists(os.path.join(folder, "catalogue.sqlite" + end)):
                    os.unlink(os.path.join(folder, "catalogue.sqlite" + end))
        for image in images:
            forget_file(image)
        row(name, *spent(folder, "rebuild"))
    shutil.rmtree(folder)
    shutil.rmtree(source)


def main(words: Sequence[str]) -> int:
    parser = argparse.ArgumentParser(description=__doc__)
    parser.add_argument("--rounds", type=int, default=3)
    parser.add_argument("--folder")
    parser.add_argument("part", nargs="*")
    asked = parser.parse_args(words)
    case = Room()
    room = tempfile.mkdtemp(prefix="measure-", dir=asked.folder)
    os.environ["TMPDIR"] = tempfile.tempdir = room
    parts: Dict[str, Callable[[], None]] = {
        "rates": lambda: rates(case, room, asked.rounds), "find": lambda: find_sqlite(room), "find-postgresql": lambda: find_postgresql(case, room),
        "rebuild": lambda: rebuilding(room),
    }
    try:
        os.chmod(room, 0o755)
        for name in asked.part or parts:
            began = time.monotonic()
            parts[name]()
            print(f"\n{name}: {time.monotonic() - began:.0f} s\n", file=sys.stderr, flush=True)
            print(flush=True)
    finally:
        case.doCleanups()
        shutil.rmtree(room, ignore_errors=True)
    return 0


if __name__ == "__main__":
    sys.exit(main(sys.argv[1:]))
