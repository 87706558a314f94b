"""Shows the greatest memory of `udfburn apply` while it fills a tree and goes on; see `run`."""
from __future__ import annotations

import argparse
import os
import re
import subprocess
import sys
import tempfile
from pathlib import Path
from typing import Iterator, List, Tuple

REPOSITORY = Path(__file__).resolve().parent.parent.parent
sys.path[:0] = [str(REPOSITORY / "test"), str(REPOSITORY / "bench" / "apply")]

from protocol import CREATE, DONE, MAKE_DIRECTORY, REPLACE, Request, committed, encode  # noqa: E402
from streams import CLIENT, directory, file_in  # noqa: E402

NAMES, FILE_BYTES = 400, 4096
# With their directories and the root these are 4,096 nodes.
MOST_FILES = 4084
MARKS = (10, 100, 1000, 2000)
# How many frames are written before their answers are read: more than a pipe holds, while the answers are less.
BATCH = 100

Change = Tuple[str, str]
"""The kind of a request, and its path."""


def path_of_file(number: int) -> str:
    return file_in(number // NAMES, number)


def creations(first: int, last: int) -> Iterator[Change]:
    """The files from one number to before another, and before the first file of a directory the directory."""
    for number in range(first, last):
        if number % NAMES == 0:
            yield MAKE_DIRECTORY, directory(number // NAMES)
        yield CREATE, path_of_file(number)


def stages(files: int, replacements: int) -> Iterator[Tuple[str, List[Change]]]:
    """What is done from one look at the memory to the next, and what there is then."""
    first = 0
    for last in [*(mark for mark in MARKS if mark < files), files]:
        yield "%d files" % last, list(creations(first, last))
        first = last
    yield "%d replacements" % replacements, [(REPLACE, path_of_file(number % files)) for number in range(replacements)]


class Run:
    """A run of `apply` on an image."""

    def __init__(self, program: str, image: str) -> None:
        self.process = subprocess.Popen([program, "apply", image], stdin=subprocess.PIPE, stdout=subprocess.PIPE)
        self.sent = 0

    def send(self, changes: List[Change]) -> None:
        """Sends requests, as fast as they are taken, and requires that each is done."""
        assert self.process.stdin is not None and self.process.stdout is not None
        frames, wanted = b"", b""
        for kind, path in changes:
            self.sent += 1
            data = b"" if kind == MAKE_DIRECTORY else b"%04d" % (self.sent % 10000) * (FILE_BYTES // 4)
            frames += encode(Request(kind, CLIENT, self.sent, path, data))
            wanted += committed(DONE, self.sent).framed()
        self.process.stdin.write(frames)
        self.process.stdin.flush()
        if self.process.stdout.read(len(wanted)) != wanted:
            raise SystemExit("not each of the requests up to %d was done" % self.sent)

    def memory(self) -> int:
        """The greatest memory up to now, in KB. What os.wait4 gives has this process in it, which the program was started from."""
        found = re.search(r"^VmHWM:\s+(\d+) kB$", Path("/proc/%d/status" % self.process.pid).read_text(), re.MULTILINE)
        if found is None:
            raise SystemExit("the system does not say how much memory a process had")
        return int(found[1])

    def end(self) -> None:
        rest, _ = self.process.communicate()
        if (self.process.returncode, rest) != (0, b""):
            raise SystemExit("apply ends with status %d, and with more answers: %r" % (self.process.returncode, rest[:40]))


def require_tree(program: str, image: str, files: int, replacements: int) -> None:
    """That the image has these files, and a commit for each of them, for each directory and for each replacement, as `log` says."""
    directories = -(-files // NAMES)
    told = subprocess.run([program, "log", image], check=True, stdout=subprocess.PIPE, text=True).stdout.splitlines()[0].split()
    if [int(told[number]) for number in (0, 2, 3)] != [files + directories + replacements, files, directories + 1]:
        raise SystemExit("the newest commit of the volume is another one: %s" % " ".join(told))


def main() -> int:
    parser = argparse.ArgumentParser(prog="bench/memory/run", description=__doc__)
    parser.add_argument("--files", type=int, default=MOST_FILES, help="how many files the tree gets, %d at most" % MOST_FILES)
    parser.add_argument("--replacements", type=int, default=4000, help="how many of them are replaced then, in turn")
    parser.add_argument("--folder", default=None, help="where the image lies")
    parser.add_argument("udfburn")
    asked = parser.parse_args()
    if not 1 <= asked.files <= MOST_FILES or asked.replacements < 0:
        parser.error("a tree has 1 to %d files" % MOST_FILES)
    program = os.path.abspath(asked.udfburn)
    with tempfile.TemporaryDirectory(prefix="bench.", dir=asked.folder) as folder:
        image = os.path.join(folder, "disc.img")
        subprocess.run([program, "format", image, "DISC", "0", "450000"], check=True, stdout=subprocess.DEVNULL)
        run = Run(program, image)
        for what, changes in stages(asked.files, asked.replacements):
            for first in range(0, len(changes), BATCH):
                run.send(changes[first:first + BATCH])
            print("after %s: %d KB" % (what, run.memory()), flush=True)
        run.end()
        require_tree(program, image, asked.files, asked.replacements)
    return 0


if __name__ == "__main__":
    sys.exit(main())
