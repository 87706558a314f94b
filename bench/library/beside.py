"""Times the C library beside SQLite and LMDB, storing the same files, and counts the syncs of each. bench/library/beside says how."""
from __future__ import annotations

import argparse
import os
import re
import statistics
import subprocess
import sys
import tempfile
from pathlib import Path
from typing import Dict, List

TOP = Path(__file__).resolve().parent.parent.parent
sys.path[:0] = [str(TOP / "bench" / "apply")]

from timing import load, ratio, sync_time  # noqa: E402

WAYS = ("udfburn", "sqlite", "lmdb")


def compiled(library: str, folder: str) -> str:
    program = os.path.join(folder, "beside")
    words = ["gcc", "-std=c99", "-O2", "-Wall", "-Wextra", "-Werror", "-I", library, str(TOP / "bench/library/beside.c"),
             os.path.join(library, "libudfburn.a"), "-lsqlite3", "-llmdb", "-o", program]
    subprocess.run(words, check=True)
    return program


def syncs(trace: str) -> int:
    """The calls in a trace that wait for the disk: those that sync, and writes to what was opened to be written through."""
    count = 0
    through: Dict[str, bool] = {}
    for line in trace.splitlines():
        call = re.match(r"(?:[0-9]+ +)?(\w+)\(([^,)]*)", line)
        if call is None:
            continue
        name, first = call.groups()
        if name == "openat" and (opened := re.search(r"= ([0-9]+)$", line)):
            through[opened.group(1)] = bool(re.search(r"O_D?SYNC", line))
        elif name in ("fsync", "fdatasync", "sync_file_range") or name == "msync" and "MS_SYNC" in line:
            count += 1
        elif name in ("write", "pwrite64", "pwritev", "writev"):
            count += through.get(first, False)
    return count


class Rounds:
    """Runs of each in turn, every one into a new file, with so many files in a group. What was stored is read back."""

    def __init__(self, program: str, folder: str, files: int, group: int) -> None:
        self.program, self.folder, self.files, self.group = program, folder, files, group
        self.taken: Dict[str, List[int]] = {way: [] for way in WAYS}

    def stored(self, way: str, *before: str) -> int:
        """The nanoseconds of a run."""
        path = os.path.join(self.folder, way)
        for end in ("", "-wal", "-shm", "-lock"):
            Path(path + end).unlink(missing_ok=True)
        os.sync()
        words = [self.program, way, path, str(self.files)]
        taken = int(subprocess.check_output([*before, *words, str(self.group)]))
        subprocess.run([*words, "read"], check=True, stdout=subprocess.DEVNULL)
        return taken

    def one(self) -> None:
        for way in WAYS:
            self.taken[way].append(self.stored(way))

    def syncs(self, way: str) -> float:
        """The syncs a file: those of a run without what it takes with no file."""
        trace = os.path.join(self.folder, "trace")
        files, counts = self.files, []
        for self.files in (0, files):
            self.stored(way, "strace", "-f", "-o", trace, "-e", "trace=openat,fsync,fdatasync,msync,sync_file_range,write,writev,pwrite64,pwritev")
            counts.append(syncs(Path(trace).read_text(errors="replace")))
        return (counts[1] - counts[0]) / files

    def tell(self) -> None:
        print("%s:" % ("each by itself" if self.group == 1 else "in groups of %d" % self.group))
        for way in WAYS:
            times = self.taken[way]
            print("    %s: %.3f syncs a file, %.0f us a file (%.0f to %.0f), ratio to udfburn %s" % (
                way, self.syncs(way), statistics.median(times) / self.files / 1e3, min(times) / self.files / 1e3, max(times) / self.files / 1e3,
                ratio(times, self.taken["udfburn"])))


def main() -> int:
    parser = argparse.ArgumentParser(prog="bench/library/beside")
    parser.add_argument("--rounds", type=int, default=7)
    parser.add_argument("--files", type=int, default=2000)
    parser.add_argument("--group", type=int, default=64, help="how many files become durable together, after rounds of each by itself")
    parser.add_argument("--folder", default=None, help="where the files lie")
    parser.add_argument("library", help="the folder that packaging/library/build.sh made")
    asked = parser.parse_args()
    with tempfile.TemporaryDirectory(prefix="bench.", dir=asked.folder) as folder:
        program = compiled(asked.library, folder)
        print("%d files of 4 KiB, %d rounds, in %s, %s; a sync takes %.0f us" % (asked.files, asked.rounds, folder, load(), sync_time(folder)))
        for group in (1, asked.group):
            rounds = Rounds(program, folder, asked.files, group)
            for _ in range(asked.rounds):
                rounds.one()
            rounds.tell()
    return 0


if __name__ == "__main__":
    sys.exit(main())
