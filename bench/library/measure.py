"""Times the C library beside `udfburn apply` on the same frames, and what a query on an open handle takes. bench/library/run says how."""
from __future__ import annotations

import argparse
import os
import statistics
import subprocess
import sys
import tempfile
from pathlib import Path
from typing import Dict, List

TOP = Path(__file__).resolve().parent.parent.parent
sys.path[:0] = [str(TOP / "test"), str(TOP / "bench" / "apply")]

from protocol import CREATE, MAKE_DIRECTORY, Request, answers_of, encode  # noqa: E402
from timing import Taken, clocks, least_ratio, load, median_of, processors, ratio, run  # noqa: E402

FILE_BYTES = 4096
CAPACITY = 100_000
GETS = 1000


def frames(count: int) -> bytes:
    """Creates of 4 KiB, 499 in a directory of their own."""
    requests: List[bytes] = []
    for number in range(count):
        folder = "/d%d" % (number // 500)
        if number % 500 == 0:
            requests.append(encode(Request(MAKE_DIRECTORY, 7, number + 1, folder)))
        else:
            requests.append(encode(Request(CREATE, 7, number + 1, "%s/%d" % (folder, number), b"x" * FILE_BYTES)))
    return b"".join(requests)


def compiled(library: str, folder: str) -> str:
    program = os.path.join(folder, "frames")
    words = ["gcc", "-std=c99", "-O2", "-Wall", "-Wextra", "-Werror", "-I", library, str(TOP / "bench/library/frames.c"),
             os.path.join(library, "libudfburn.a"), "-o", program]
    subprocess.run(words, check=True)
    return program


class Rounds:
    """Runs of the program and of the library in turn, on images that must be equal in the end."""

    def __init__(self, udfburn: str, program: str, folder: str, count: int) -> None:
        self.udfburn, self.folder, self.count = udfburn, folder, count
        self.ways: Dict[str, List[str]] = {"apply": [udfburn, "apply"], "answer": [program, "answer"], "create": [program, "create"]}
        self.taken: Dict[str, List[Taken]] = {way: [] for way in self.ways}
        self.input = os.path.join(folder, "input")
        Path(self.input).write_bytes(frames(count))
        self.new = os.path.join(folder, "new.img")
        subprocess.run([udfburn, "format", self.new, "DISC", "0", str(CAPACITY)], check=True, stdout=subprocess.DEVNULL)

    def image(self, way: str) -> str:
        return os.path.join(self.folder, way + ".img")

    def one(self) -> None:
        for way, words in self.ways.items():
            Path(self.image(way)).write_bytes(Path(self.new).read_bytes())
            os.sync()
            ended = run([*words, self.image(way), str(self.count)][:4 if way == "create" else 3], self.input,
                        os.path.join(self.folder, "output"))
            if (ended.status, ended.errors) != (0, b""):
                raise SystemExit("%s: %r" % (way, ended))
            if way != "create" and len(answers_of(ended.output)) != self.count:
                raise SystemExit("%s: not every request was answered" % way)
            self.taken[way].append(ended.taken)
        images = {Path(self.image(way)).read_bytes() for way in self.ways}
        if len(images) != 1:
            raise SystemExit("the images differ")


def main() -> int:
    parser = argparse.ArgumentParser(prog="bench/library/run")
    parser.add_argument("--rounds", type=int, default=9)
    parser.add_argument("--files", type=int, default=1000)
    parser.add_argument("--folder", default=None, help="where the images lie")
    parser.add_argument("udfburn")
    parser.add_argument("library", help="the folder that packaging/library/build.sh made")
    asked = parser.parse_args()
    with tempfile.TemporaryDirectory(prefix="bench.", dir=asked.folder) as folder:
        program = compiled(asked.library, folder)
        rounds = Rounds(os.path.abspath(asked.udfburn), program, folder, asked.files)
        for _ in range(asked.rounds):
            rounds.one()
        apply = clocks(rounds.taken["apply"])
        print("%d requests, %d rounds, in %s, %s" % (asked.files, asked.rounds, folder, load()))
        print("udfburn apply: %s ms" % median_of(apply))
        for way in ("answer", "create"):
            taken = rounds.taken[way]
            print("the library, %s: %s ms, ratio %s" % (way, median_of(clocks(taken)), ratio(clocks(taken), apply)))
            print("    least times: ratio %s; processor time: ratio %s" % (
                least_ratio(clocks(taken), apply), ratio(processors(taken), processors(rounds.taken["apply"]))))
        opens, gets = zip(*(map(int, subprocess.check_output([program, "get", rounds.image("answer"), str(GETS)]).split())
                            for _ in range(asked.rounds)))
        print("an open of the volume: %.1f ms" % (statistics.median(opens) / 1e6))
        print("a get of 4 KiB on an open handle: %.1f us" % (statistics.median(gets) / GETS / 1e3))
        for name in ("libudfburn.a", "libudfburn_drive.a", "libudfburn.so.0"):
            print("%s: %d bytes" % (name, os.path.getsize(os.path.join(asked.library, name))))
    return 0


if __name__ == "__main__":
    sys.exit(main())
