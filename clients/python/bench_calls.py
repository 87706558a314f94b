"""What a single call takes on an image: with the program (`image:PATH`) and with the C library (`library:PATH`).

usage: bench_calls.py [--folder FOLDER] UDFBURN LIBRARY
Prints the median of 100 creates of 4 KiB and of 100 gets, each a call of its own, on a volume of 200 files. FOLDER is where the
image is: a disk, or a file system in memory.
"""

from __future__ import annotations

import argparse
import os
import statistics
import subprocess
import sys
import tempfile
import time
from typing import Callable, List

sys.path.insert(0, os.path.dirname(os.path.abspath(__file__)))

from udfburn import Client  # noqa: E402

CALLS, FILES, SIZE = 100, 200, 4096


def median_of(call: Callable[[int], object]) -> float:
    """Milliseconds of a call, which gets the numbers from 0 on."""
    times: List[float] = []
    for index in range(CALLS):
        begin = time.perf_counter()
        call(index)
        times.append(time.perf_counter() - begin)
    return statistics.median(times) * 1000


def measure(way: str, room: str, program: str) -> None:
    """Measures both kinds of calls on a new volume."""
    image = os.path.join(room, f"{way}.img")
    subprocess.run([program, "format", image, "BENCH", "0", "60000"], check=True, stdout=subprocess.DEVNULL)
    with Client(f"{way}:{image}", ledger=os.path.join(room, f"{way}.sqlite"), program=program) as client:
        with client.held():
            for index in range(FILES):
                client.create(f"/there{index}", bytes(SIZE))
        create = median_of(lambda index: client.create(f"/new{index}", bytes(SIZE)))
        get = median_of(lambda index: client.get(f"/there{index}"))
    print(f"{way + ':':9} create {create:8.3f} ms, get {get:8.3f} ms")


def main() -> None:
    """Measures both ways."""
    parser = argparse.ArgumentParser(description=__doc__, formatter_class=argparse.RawDescriptionHelpFormatter)
    parser.add_argument("--folder", metavar="FOLDER")
    parser.add_argument("program", metavar="UDFBURN")
    parser.add_argument("library", metavar="LIBRARY")
    arguments = parser.parse_args()
    os.environ["UDFBURN_LIBRARY"] = os.path.abspath(arguments.library)
    with tempfile.TemporaryDirectory(dir=arguments.folder) as room:
        for way in ("image", "library"):
            measure(way, room, os.path.abspath(arguments.program))


if __name__ == "__main__":
    main()
