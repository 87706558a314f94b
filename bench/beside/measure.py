"""Measures the archive beside restic and borg, and `put` and `add` beside what else stores files. bench/beside/run says how."""
from __future__ import annotations

import argparse
import os
import random
import shutil
import signal
import statistics
import subprocess
import sys
import tempfile
import time
from collections import defaultdict
from pathlib import Path
from typing import NamedTuple, NoReturn, Sequence

TOP = Path(__file__).resolve().parent.parent.parent
sys.path[:0] = [str(TOP / "bench" / "apply"), str(Path(__file__).resolve().parent)]

from timing import load, ratio  # noqa: E402
from ways import ADD, IMAGE, LIBRARY, SOCKET, Programs, Step, Way, bytes_of, installed_of, left_out, require_same, stores, syncs, timed, ways  # noqa: E402

PIECE = 1 << 20
STOPS = (signal.SIGHUP, signal.SIGINT, signal.SIGTERM)
PARTS = {"small": "{files:,} small files, {size:,.0f} MB", "photos": "{files} photos, {size:,.0f} MB", "large": "{files} large files, {size:,.0f} MB"}


class Tree(NamedTuple):
    """Files of one size that are stored once, and how many syncs a file are wanted at most of a program."""

    name: str
    files: int
    size: int
    aims: dict[str, float]


TREES = (Tree("4,000 files of 4 KiB", 4000, 4096, {IMAGE: 0.2, SOCKET: 0.2, LIBRARY: 0.2}),
         Tree("60 photos of 3 MB", 60, 3_000_000, {IMAGE: 3, SOCKET: 3, LIBRARY: 1, ADD: 3}),
         Tree("a file of 700 MB", 1, 700_000_000, {}))

Taken = dict[tuple[str, str], list[float]]


def make(folder: str, files: int, least: int, most: int, a_folder: int = 32) -> str:
    """So many files of bytes that no program makes shorter."""
    chance = random.Random(f"{files} {least}")
    for index in range(files):
        at = os.path.join(folder, f"d{index // a_folder:03}")
        os.makedirs(at, exist_ok=True)
        size = chance.randint(least, most)
        with open(os.path.join(at, f"file {index}.bin"), "xb") as file:
            for begin in range(0, size, PIECE):
                file.write(chance.randbytes(min(PIECE, size - begin)))
    # What is still to be written of them would be written while something is timed.
    os.sync()
    return folder


def sources(room: str, part: str, shrink: int) -> str:
    folder = os.path.join(room, "source", part)
    if part == "small":
        return make(folder, 20_000 // shrink, 4096, 8192)
    if part == "photos":
        return make(folder, 60, 3_000_000 // shrink, 3_000_000 // shrink)
    return make(folder, 2, 300_000_000 // shrink, 300_000_000 // shrink)


# ---- beside restic and borg

def begin(way: Way, room: str) -> None:
    for folder in ("kept", "cache", "base"):
        shutil.rmtree(os.path.join(room, folder), ignore_errors=True)
    timed(way.begin, way.keys)


def one_round(way: Way, room: str, source: str, taken: Taken) -> int:
    """Notes the seconds of each step; the bytes that were taken for the tree."""
    back = os.path.join(room, "back")
    begin(way, room)
    size = 0
    # The first run that trusts times reads all once more, so that the next one need not.
    steps = {"first": way.store, "close": way.end, "second": way.store, "reading": way.trusting, "trusting": way.trusting, "restore": way.back, "check": way.check}
    for step, words in steps.items():
        if not words:
            continue
        os.sync()
        os.makedirs(back, exist_ok=True)
        taken[way.name, step].append(timed(into(back, words), way.keys))
        print(f"{way.name} {step}: {taken[way.name, step][-1]:.1f} s", file=sys.stderr)
        if step in ("first", "close"):
            size = bytes_of(os.path.join(room, "kept"))
    require_same(source, back)
    shutil.rmtree(back)
    return size


def into(folder: str, words: Step) -> Step:
    return [word.replace("{}", folder) for word in words]


def cell(times: Sequence[float], beside_own: Sequence[float] = ()) -> str:
    """A median, and its ratio to the archive's, with those of the rounds where there are several."""
    text = f"{statistics.median(times):.1f} s"
    if beside_own:
        text += f", {ratio([round(1e9 * one) for one in times], [round(1e9 * one) for one in beside_own])}"
    return text if len(times) > 1 else text.split(" (")[0]


def times_of(way: Way, own: Way, taken: Taken) -> list[str]:
    """The cells of first run, second run, restore and check."""
    if way is own:
        of = {step: cell(taken[way.name, step]) for step in ("first", "close", "second", "trusting", "restore", "check")}
        return [f"{of['first']} + {of['close']}", f"{of['second']}; {of['trusting']}", of["restore"], of["check"]]
    pairs = (("first", "first"), ("second", "trusting"), ("restore", "restore"), ("check", "check"))
    return [cell(taken[way.name, step], taken[own.name, beside]) for step, beside in pairs]


def syncs_of(way: Way, room: str) -> str:
    """The syncs of a first run, of what ends it, and of a run in which nothing is new."""
    begin(way, room)
    first, end = syncs(way.store, way.keys, room), f" + {syncs(way.end, way.keys, room)}" if way.end else ""
    return f"{first:,}{end}; {syncs(way.store, way.keys, room)}"


def beside(program: str, room: str, part: str, asked: argparse.Namespace) -> None:
    """Prints the rows of a part."""
    source = sources(room, part, asked.shrink)
    files, size = sum(len(names) for _, _, names in os.walk(source)), bytes_of(source)
    all_ways, taken = installed_of(ways(program, room, source)), defaultdict[tuple[str, str], list[float]](list)
    rooms: dict[str, int] = {}
    for turn in range(asked.rounds):
        for way in all_ways[:: -1 if turn % 2 else 1]:
            rooms[way.name] = one_round(way, room, source, taken)
    for way in all_ways:
        what = PARTS[part].format(files=files, size=size / 1e6) if way is all_ways[0] else ""
        cells = [what, way.name, *times_of(way, all_ways[0], taken), f"{rooms[way.name] / size:.2f}", syncs_of(way, room)]
        print(f"| {' | '.join(cells)} |", flush=True)
    shutil.rmtree(source)


def conditions(room: str, asked: argparse.Namespace, words: Sequence[str], all_ways: Sequence[Way]) -> str:
    """What repeats a table, and what it was measured with."""
    names = {asked.library: "LIBRARY", asked.daemon: "UDFBURND", asked.program: "UDFBURN"}
    command = " ".join(["bench/beside/run", *(names.get(word, word) for word in words)])
    kind = subprocess.check_output(["df", "--output=fstype", room], text=True).split()[-1]
    tools = {way.tool for way in installed_of(all_ways)}
    versions = [subprocess.check_output(list(each), text=True).split()[:2] for each in (("borg", "--version"), ("restic", "version")) if each[0] in tools]
    told = f"{asked.rounds} round{'' if asked.rounds == 1 else 's in turn'} on {kind}, {load()}"
    return "\n".join([*left_out(all_ways), ", ".join([told, *(" ".join(version) for version in versions)]) + f": `{command}`."])


def print_head() -> None:
    print("What follows `+` is `close`. "
          "`add` runs without `--trust-times`, so its second run reads every file. After it stands a run with `--trust-times`. restic and borg trust times "
          "by themselves, and their second runs are compared with that one. Room is that of the files' bytes; syncs are those of the first and the second run.")
    print("\n| Files | Program | First run | Second run | Restore | Check | Room | Syncs |\n|---|---|---|---|---|---|---|---|", flush=True)


# ---- what stores a tree once

def store_once(way: Way, room: str) -> float:
    """The seconds in which a program stores the tree, where nothing was stored."""
    begin(way, room)
    os.sync()
    seconds = timed(way.store, way.keys)
    print(f"{way.name}: {seconds:.1f} s", file=sys.stderr)
    return seconds


def store_counted(way: Way, room: str, source: str) -> int:
    """The syncs of a program that stores the tree, which is given back and compared."""
    begin(way, room)
    count, back = syncs(way.store, way.keys, room), os.path.join(room, "back")
    os.mkdir(back)
    timed(into(back, way.back), way.keys)
    require_same(source, back)
    shutil.rmtree(back)
    return count


def stored_beside(programs: Programs, room: str, asked: argparse.Namespace) -> None:
    """Prints the table of what stores a tree once."""
    print("\n| Files | Program | Time, and its ratio to the first one's (of a round) | Syncs | Syncs a file | Aim |\n|---|---|---|---|---|---|", flush=True)
    for tree in TREES:
        # A few large files are made smaller, and many small ones fewer.
        files, size = (tree.files // asked.shrink, tree.size) if tree.files > 1000 else (tree.files, tree.size // asked.shrink)
        source = make(os.path.join(room, "source", "put"), files, size, size, 250)
        all_ways, taken = installed_of(stores(programs, room, source)), defaultdict[str, list[float]](list)
        for turn in range(asked.rounds):
            for way in all_ways[:: -1 if turn % 2 else 1]:
                taken[way.name].append(store_once(way, room))
        for way in all_ways:
            own = way is all_ways[0]
            count = store_counted(way, room, source)
            times = cell(taken[way.name], () if own else taken[IMAGE]) if asked.rounds else "-"
            cells = [f"{tree.name}{', shrunk' if asked.shrink > 1 else ''}, {load()}" if own else "", way.name, times, f"{count:,}",
                     f"{count / files:.3f}", f"{tree.aims[way.name]:g}" if way.name in tree.aims else "-"]
            print(f"| {' | '.join(cells)} |", flush=True)
        shutil.rmtree(source)


def stop(number: int, _: object) -> NoReturn:
    """Ends the run, which removes its room."""
    for other in STOPS:
        signal.signal(other, signal.SIG_IGN)
    sys.exit(128 + number)


def main(words: Sequence[str]) -> int:
    parser = argparse.ArgumentParser(prog="bench/beside/run")
    parser.add_argument("--rounds", type=int, default=5, help="how often each is run (5); with 0 `--part put` only counts syncs")
    parser.add_argument("--part", action="append", choices=[*PARTS, "put"], help="one or several (default: all but put)")
    parser.add_argument("--shrink", type=int, default=1, metavar="N", help="take one of N files or bytes")
    parser.add_argument("--folder", help="where all is made: on the disk that is measured")
    parser.add_argument("--library", metavar="FILE", help="libudfburn.so, for `put --library`")
    parser.add_argument("program", metavar="UDFBURN")
    parser.add_argument("daemon", metavar="UDFBURND", nargs="?", default=str(TOP / "crates/udfburnd/out/udfburnd"), help="for `put` by a socket")
    asked = parser.parse_args(words)
    parts = asked.part or list(PARTS)
    if not shutil.which("strace"):
        parser.error("strace is not installed")
    if asked.rounds < (0 if parts == ["put"] else 1):
        parser.error("too few rounds")
    programs = Programs(os.path.abspath(asked.program), os.path.abspath(asked.daemon), asked.library and os.path.abspath(asked.library))
    for number in STOPS:
        signal.signal(number, stop)
    with tempfile.TemporaryDirectory(prefix="bench.", dir=os.path.realpath(asked.folder or tempfile.gettempdir())) as room:
        print(conditions(room, asked, words, stores(programs, room, "") if "put" in parts else ways(programs.udfburn, room, "")))
        if parts != ["put"]:
            print_head()
        for part in sorted(parts, key=[*PARTS, "put"].index):
            begun = time.monotonic()
            if part == "put":
                stored_beside(programs, room, asked)
            else:
                beside(programs.udfburn, room, part, asked)
            print(f"{part}: {time.monotonic() - begun:.0f} s", file=sys.stderr)
    return 0


if __name__ == "__main__":
    sys.exit(main(sys.argv[1:]))
