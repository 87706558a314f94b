"""Times what reads a volume of 4,000 nodes on a disk, cold and warm; see `run`."""
from __future__ import annotations

import argparse
import os
import subprocess
import sys
import tempfile
from pathlib import Path
from typing import Sequence

REPOSITORY = Path(__file__).resolve().parent.parent.parent
sys.path[:0] = [str(REPOSITORY / "test"), str(REPOSITORY / "bench" / "apply")]

from protocol import query  # noqa: E402
from streams import Stream, history  # noqa: E402
from timing import Taken, clocks, least_ratio, load, median_of, processors, ratio, run  # noqa: E402

DIRECTORIES, NAMES = 16, 250


def make_image(program: str, room: str, stream: Stream) -> str:
    """A volume with a tree of 4,000 files and a history, which is on its disk."""
    image, frames = os.path.join(room, "disc.img"), os.path.join(room, "frames")
    subprocess.run([program, "format", image, "DISC", "0", "450000"], check=True, stdout=subprocess.DEVNULL)
    with open(frames, "wb") as file:
        file.write(stream.frames)
    with open(frames, "rb") as file:
        subprocess.run([program, "apply", image], check=True, stdin=file, stdout=subprocess.DEVNULL)
    return image


def forget(image: str) -> None:
    """Has the system forget what it keeps of a file."""
    descriptor = os.open(image, os.O_RDONLY)
    os.posix_fadvise(descriptor, 0, 0, os.POSIX_FADV_DONTNEED)
    os.close(descriptor)


def rounds_of(programs: Sequence[str], words: Sequence[str], image: str, is_cold: bool, rounds: int) -> tuple[list[list[Taken]], set[bytes]]:
    """The times of each program, and what was printed."""
    series: list[list[Taken]] = [[] for _ in programs]
    said: set[bytes] = set()
    asked = os.path.join(os.path.dirname(image), "asked")
    with open(asked, "wb") as file:
        file.write(query("list", "/d0001"))
    for turn in range(rounds):
        for number in range(len(programs))[::-1 if turn % 2 else 1]:
            if is_cold:
                forget(image)
            ended = run([programs[number], *words], asked, os.path.join(os.path.dirname(image), "output"))
            series[number].append(ended.taken)
            said.add(ended.output if ended.status == 0 else b"status %d" % ended.status)
    return series, said


def measure(programs: Sequence[str], room: str, rounds: int, commits: int) -> int:
    """Prints a row for each thing that is timed, and gives how many of them did not print the same by every program."""
    stream = history(DIRECTORIES, NAMES, commits)
    image = make_image(programs[0], room, stream)
    print("%d commits, %d nodes, %d blocks\n" % (stream.commits, stream.files + stream.directories, os.path.getsize(image) // 2048))
    print("| What | Program | ms | Least, ms | Processor time, ms | Beside the first (of a round) | Of the least times | Load |\n|---|---|---|---|---|---|---|---|")
    failed = 0
    for what, words in (("`ls`", ["ls", image, "/d0001"]), ("start of `apply`", ["apply", image]), ("`check`", ["check", image])):
        for is_cold in (True, False):
            series, said = rounds_of(programs, words, image, is_cold, rounds if words[0] != "check" else max(2, rounds // 3))
            failed += len(said) != 1
            for program, taken in zip(programs, series):
                cells = ("%s, %s" % (what, "cold" if is_cold else "warm"), os.path.basename(program), median_of(clocks(taken)),
                         median_of([min(clocks(taken))]), median_of(processors(taken)), ratio(clocks(taken), clocks(series[0])),
                         least_ratio(clocks(taken), clocks(series[0])), load())
                print("| " + " | ".join(cells) + " |", flush=True)
    print("\nbench: %d passed, %d failed" % (6 - failed, failed))
    return 1 if failed else 0


def main() -> int:
    parser = argparse.ArgumentParser(prog="bench/cold/run", description=__doc__)
    parser.add_argument("programs", nargs="+", metavar="UDFBURN")
    parser.add_argument("--rounds", type=int, default=9, help="how often each is run, `check` a third as often")
    parser.add_argument("--commits", type=int, default=6000)
    parser.add_argument("--folder", help="a folder on the disk (one beside the repository)")
    asked = parser.parse_args()
    with tempfile.TemporaryDirectory(prefix="udfburn-bench.", dir=asked.folder or str(REPOSITORY.parent)) as room:
        return measure([os.path.abspath(program) for program in asked.programs], room, asked.rounds, asked.commits)


if __name__ == "__main__":
    sys.exit(main())
