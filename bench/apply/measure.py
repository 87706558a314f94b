"""Times `udfburn apply` beside plain loops, and what reads a full volume beside one read of its image; see `run`."""
from __future__ import annotations

import argparse
import os
import signal
import subprocess
import sys
import tempfile
import time
from pathlib import Path
from typing import Callable, NamedTuple, NoReturn, Optional, Sequence

HERE = Path(__file__).resolve().parent
REPOSITORY = HERE.parent.parent
# The shim that logs calls, its log and the frames are those of the tests.
sys.path.insert(0, str(REPOSITORY / "test"))

from faults.log import read_log  # noqa: E402
from faults.programs import compile_shim  # noqa: E402
from protocol import answers_of, committed  # noqa: E402
from plans import BEHIND, Plan, group_plan, groups_of, plan_of  # noqa: E402
from streams import Stream, creations, history  # noqa: E402
from timing import ENVIRONMENT, Ended, Taken, clocks, difference, least_ratio, load, median_of, processors, ratio, run, sync_time  # noqa: E402

CAPACITY = "450000"
# So many bytes of its input `apply` reads at a time. What is complete in them is a group.
PIECE = 65536
# What is timed on each place: `apply`, and the loops beside it.
WAYS = {"apply": "`apply`", "group": "Two syncs a group", "calls": "The same calls", "commit": "Two syncs a commit"}
# How often a quiet moment is looked for, for each round that is asked for.
TRIES = 20
STOPS = (signal.SIGTERM, signal.SIGHUP, signal.SIGINT)


class Wrong(Exception):
    """What was timed is not what it was taken for."""


class Checks:
    """Counts what was compared."""

    def __init__(self) -> None:
        self.passed = self.failed = 0

    def hold(self, what: str, holds: bool) -> None:
        if holds:
            self.passed += 1
        else:
            self.failed += 1
            print("bench: FAILED: %s" % what)


class Tools(NamedTuple):
    """The programs, those that were compiled here, and a folder in memory for all that is not timed."""

    udfburn: str
    before: Optional[str]
    loop: str
    read: str
    shim: str
    room: str
    checks: Checks
    rounds: int
    # What a sync may take, in microseconds, before and after a round that counts.
    quiet: float

    def path(self, name: str) -> str:
        return os.path.join(self.room, name)


class Case(NamedTuple):
    """A stream, how it is reported, and the most that is wanted: syncs a file, and the time on a kind of place beside two syncs a group."""

    files: str
    stream: Stream
    aims: dict[str, float]


class Side(NamedTuple):
    """A program that makes an image out of a formatted one, which is one of `WAYS`."""

    way: str
    words: Sequence[str]
    image: str
    # The image that it must make.
    wanted: bytes


class Logged(NamedTuple):
    """What a logged run wrote, and how."""

    image: bytes
    plan: Plan


class Made(NamedTuple):
    """What `apply` made of a stream, the plans of the loops beside it, and all its syncs, that of the folder among them."""

    image: bytes
    plans: dict[str, Plan]
    syncs: int
    groups: int


# The times of a program in the rounds that count, by the way.
Series = dict[str, list[Taken]]


def put(path: str, data: bytes) -> str:
    """Makes a file anew, on its disk."""
    with open(path, "wb") as file:
        file.write(data)
        file.flush()
        os.fsync(file.fileno())
    return path


def fresh(path: str, data: bytes) -> None:
    """Makes a file anew, and its name too, so that no run writes where another wrote."""
    if os.path.exists(path):
        os.unlink(path)
    put(path, data)
    folder = os.open(os.path.dirname(path), os.O_RDONLY)
    os.fsync(folder)
    os.close(folder)


def bytes_of(path: str) -> bytes:
    with open(path, "rb") as file:
        return file.read()


def formatted(tools: Tools) -> bytes:
    image = tools.path("formatted.img")
    if not os.path.exists(image):
        subprocess.run([tools.udfburn, "format", image, "DISC", "0", CAPACITY], check=True, stdout=subprocess.DEVNULL)
    return bytes_of(image)


def require_answers(ended: Ended, stream: Stream) -> None:
    """Each frame was done, as the commit of its number."""
    wanted = [committed(0, number + 1) for number in range(stream.commits)]
    if ended.status or answers_of(ended.output) != wanted:
        raise Wrong("apply ends with status %d, and not each frame was done: %r" % (ended.status, ended.errors))


def shimmed(tools: Tools, words: Sequence[str], image: str) -> tuple[Ended, Logged, int]:
    """A run of a program on a formatted image, what it wrote, by the log of the shim, and how often it synced the folder."""
    log, before = tools.path("log"), formatted(tools)
    put(image, before)
    environment = {**ENVIRONMENT, "LD_PRELOAD": tools.shim, "FAULT_IMAGE": image, "FAULT_LOG": log}
    ended = run(words, tools.path("frames"), tools.path("answers"), environment)
    records = read_log(log)
    made = Logged(bytes_of(image), plan_of(records, before, bytes_of(image)))
    os.unlink(log)
    os.unlink(image)
    return ended, made, sum(record.kind == "foldersync" for record in records)


def made_by(tools: Tools, program: str, stream: Stream) -> Made:
    """What a program makes of a stream, and that the loop does the same by the program's own calls."""
    image = tools.path("logged.img")
    put(tools.path("frames"), stream.frames)
    ended, made, folders = shimmed(tools, [program, "apply", image], image)
    require_answers(ended, stream)
    plan, blocks = put(tools.path("logged.plan"), made.plan.calls), put(tools.path("logged.blocks"), made.image + BEHIND)
    _, again, _ = shimmed(tools, [tools.loop, plan, blocks, image], image)
    tools.checks.hold("the loop makes other writes and syncs than %s" % program, again == made)
    os.unlink(plan)
    os.unlink(blocks)
    marks = marks_of(tools, made.image)
    groups = groups_of(made.plan.calls, marks)
    begin, opening = len(formatted(tools)), made.plan.opening_syncs()
    plans = {"group": group_plan(begin, groups, opening), "calls": made.plan}
    tools.checks.hold("%s syncs more often than twice a group" % program, made.plan.syncs <= plans["group"].syncs)
    # Where each group is one commit, two syncs a commit are the same loop once more.
    if len(groups) < len(marks):
        plans["commit"] = group_plan(begin, [[mark] for mark in marks], opening)
    return Made(made.image, plans, made.plan.syncs + folders, len(groups))


def marks_of(tools: Tools, made: bytes) -> list[int]:
    """The last blocks of the commits after the format, of which `udfburn log` has the newest first."""
    image = put(tools.path("marks.img"), made)
    listed = subprocess.run([tools.udfburn, "log", image], check=True, stdout=subprocess.PIPE, text=True).stdout
    os.unlink(image)
    return [int(line.split()[1]) for line in reversed(listed.splitlines())][1:]


def sides_of(tools: Tools, program: str, name: str, made: Made, place: str) -> list[Side]:
    """The loops and the program, on images of their own."""
    blocks = put(tools.path(name + ".blocks"), made.image + BEHIND)
    sides = []
    for way in ("apply", *made.plans):
        image = os.path.join(place, "%s.%s.img" % (name, way))
        words = [program, "apply", image]
        if way != "apply":
            words = [tools.loop, put(tools.path("%s.%s" % (name, way)), made.plans[way].calls), blocks, image]
        sides.append(Side(way, words, image, made.image))
    return sides


def timed(tools: Tools, side: Side) -> Taken:
    """One run of a side."""
    ended = run(side.words, tools.path("frames"), tools.path("output"))
    if ended.status:
        raise Wrong("%s ends with status %d: %r" % (side.words[0], ended.status, ended.errors))
    if side.way == "apply":
        return ended.taken
    clock, processor = (int(word) for word in ended.output.split())
    return Taken(ended.taken.clock - clock, ended.taken.processor - processor)


def round_of(tools: Tools, sides: Sequence[Side], turn: int, what: str) -> list[Taken]:
    """The times of each side, which are run in turn; each round begins with another one, and ends with a look at the images."""
    before = formatted(tools)
    for side in sides:
        fresh(side.image, before)
    times: dict[int, Taken] = {}
    for place in range(len(sides)):
        number = (turn + place) % len(sides)
        times[number] = timed(tools, sides[number])
    for side in sides:
        tools.checks.hold("%s: %s makes another image" % (what, side.words[0]), bytes_of(side.image) == side.wanted)
        os.unlink(side.image)
    return [times[number] for number in range(len(sides))]


def rounds_of(tools: Tools, sides: Sequence[Side], what: str) -> list[list[Taken]]:
    """The times of each side in the rounds that count: those between two moments in which the disk was quiet."""
    folder = os.path.dirname(sides[0].image)
    rounds: list[list[Taken]] = []
    for _ in range(TRIES * tools.rounds):
        if len(rounds) == tools.rounds:
            break
        if sync_time(folder) > tools.quiet:
            time.sleep(0.2)
            continue
        one = round_of(tools, sides, len(rounds), what)
        if sync_time(folder) <= tools.quiet:
            rounds.append(one)
    if not rounds:
        raise Wrong("%s: the disk was never quiet" % what)
    return [list(series) for series in zip(*rounds)]


def row(*cells: object) -> None:
    print("| " + " | ".join(str(cell) for cell in cells) + " |", flush=True)


def heading(*cells: str) -> None:
    row(*cells)
    row(*("---" for _ in cells))


def measure_apply(tools: Tools, cases: Sequence[Case], places: dict[str, str]) -> None:
    """Tables of `apply` beside the loop with two syncs a group, of all times, and of the second program beside the first."""
    programs = {"new": tools.udfburn, **({"before": tools.before} if tools.before else {})}
    times: list[Sequence[object]] = []
    changes: list[Sequence[object]] = []
    heading("Files", "Syncs a file", "Aim", "Disk: ratio (of a round)", "Aim", "Memory file system: ratio (of a round)", "Aim")
    for case in cases:
        made = {name: made_by(tools, program, case.stream) for name, program in programs.items()}
        pieces = -(-len(case.stream.frames) // PIECE)
        tools.checks.hold("%s: more groups than pieces" % case.files, made["new"].groups <= pieces)
        tools.checks.hold("the programs make the same image", all(one.image == made["new"].image for one in made.values()))
        taken = {kind: measure_case(tools, case, programs, made, kind, place) for kind, place in places.items()}
        for name in programs:
            of = {kind: taken[kind][name] for kind in taken}
            row(*figures(case, name, made[name], of))
            times += [times_of(case, name, kind, of[kind]) for kind in of]
        if tools.before:
            for kind, both in taken.items():
                changes += changes_of(case, kind, both["new"], both["before"])
    print("\nTimes in ms, and ratios of `apply` to the loops\n")
    heading("Files", "On", *("%s, ms" % way for way in WAYS.values()), "Two syncs a group: of the least times", "Of processor time",
            "The same calls (of a round)", "Two syncs a commit (of a round)", "Rounds", "Load")
    for line in times:
        row(*line)
    if changes:
        print()
        heading("Files", "On", "Side", "Before, ms", "New, ms", "Ratio (of a round)", "Of the least times",
                "More a commit, us: of the medians, of the least times")
        for line in changes:
            row(*line)


def measure_case(tools: Tools, case: Case, programs: dict[str, str], made: dict[str, Made], kind: str, place: str) -> dict[str, Series]:
    """The times of each program and of the loops beside it, in turn."""
    sides = {name: sides_of(tools, program, name, made[name], place) for name, program in programs.items()}
    series = iter(rounds_of(tools, [side for of in sides.values() for side in of], "%s on %s" % (case.files, kind)))
    return {name: {side.way: next(series) for side in of} for name, of in sides.items()}


def named(case: Case, name: str) -> str:
    return case.files if name == "new" else "%s, %s" % (case.files, name)


def figures(case: Case, name: str, made: Made, taken: dict[str, Series]) -> list[str]:
    """What is wanted, and what came out."""
    cells = [named(case, name), "%.3f" % (made.syncs / case.stream.files), aim(case, "syncs")]
    for kind in ("disk", "memory"):
        cells += [ratio_to("group", taken[kind]) if kind in taken else "-", aim(case, kind)]
    return cells


def aim(case: Case, what: str) -> str:
    return "%g" % case.aims[what] if what in case.aims else "-"


def ratio_to(way: str, series: Series) -> str:
    return ratio(clocks(series["apply"]), clocks(series[way])) if way in series else "-"


def times_of(case: Case, name: str, kind: str, series: Series) -> list[object]:
    medians = [median_of(clocks(series[way])) if way in series else "-" for way in WAYS]
    apply, group = series["apply"], series["group"]
    return [named(case, name), kind, *medians, least_ratio(clocks(apply), clocks(group)), ratio(processors(apply), processors(group)),
            ratio_to("calls", series), ratio_to("commit", series), len(apply), load()]


def changes_of(case: Case, kind: str, new: Series, old: Series) -> list[Sequence[object]]:
    """The second program beside the first, and the loops beside theirs."""
    return [(case.files, kind, told, median_of(clocks(old[way])), median_of(clocks(new[way])), ratio(clocks(new[way]), clocks(old[way])),
             least_ratio(clocks(new[way]), clocks(old[way])), difference(clocks(new[way]), clocks(old[way]), case.stream.commits))
            for way, told in WAYS.items() if way in new and way in old]


def measure_full(tools: Tools, stream: Stream) -> None:
    """A table of what reads a volume with a long history, beside one read of its image, all from memory."""
    image, frames, output = tools.path("full.img"), put(tools.path("frames"), stream.frames), tools.path("output")
    put(image, formatted(tools))
    require_answers(run([tools.udfburn, "apply", image], frames, tools.path("answers")), stream)
    blocks = os.path.getsize(image) // 2048
    print("\n%d commits, %d nodes, %d blocks\n" % (stream.commits, stream.files + stream.directories, blocks))
    newest = "%d %d %d %d" % (stream.commits, blocks - 1, stream.files, stream.directories)
    looks: list[tuple[str, list[str], Callable[[str], bool]]] = [
        ("one read", [tools.read, image], lambda told: told == ""),
        ("start of the program", [tools.udfburn], lambda told: told == ""),
        ("`ls /`", [tools.udfburn, "ls", image, "/"], lambda told: len(told.splitlines()) == stream.directories - 1),
        ("`log`", [tools.udfburn, "log", image],
         lambda told: told.splitlines()[0] == newest and len(told.splitlines()) == stream.commits + 1),
        ("`check`", [tools.udfburn, "check", image], lambda told: told == "sound %d\n" % stream.commits)]
    if tools.before:
        looks.append(("`check` before", [tools.before, "check", image], looks[-1][2]))
    series: list[list[Taken]] = [[] for _ in looks]
    for turn in range(tools.rounds):
        for number, (what, words, holds) in enumerate(looks):
            # It takes so long that three rounds have to do.
            if what.startswith("`check`") and turn >= 3:
                continue
            ended = run(words, os.devnull, output)
            series[number].append(ended.taken)
            tools.checks.hold("%s of the full volume" % what, ended.status == (2 if len(words) == 1 else 0)
                              and holds(ended.output.decode()))
    heading("What", "ms", "Processor time, ms", "Beside one read (of a round)", "Of processor time", "Load")
    for (what, _, _), taken in zip(looks, series):
        row(what, median_of(clocks(taken)), median_of(processors(taken)), ratio(clocks(taken), clocks(series[0])),
            ratio(processors(taken), processors(series[0])), load())
    os.unlink(image)


def compiled(source: Path, result: str) -> str:
    subprocess.run(["gcc", "-std=c11", "-O2", "-Wall", "-Wextra", "-Werror", "-o", result, str(source)], check=True)
    return result


def measure(asked: argparse.Namespace, disk: str, memory: str, checks: Checks) -> None:
    shim = os.path.join(memory, "shim.so")
    compile_shim(REPOSITORY / "test" / "faults" / "shim.c", Path(shim))
    place = os.path.join(memory, "images")
    os.mkdir(place)
    before = os.path.abspath(asked.before) if asked.before else None
    tools = Tools(os.path.abspath(asked.udfburn), before, compiled(HERE / "loop.c", os.path.join(memory, "loop")),
                  compiled(HERE / "read.c", os.path.join(memory, "read")), shim, memory, checks, asked.rounds, asked.quiet)
    print("%s, %d rounds; disk: %s, memory: %s\n" % (load(), asked.rounds, kind_of(disk), kind_of(memory)))
    places = {kind: folder for kind, folder in (("disk", disk), ("memory", place)) if asked.only in (None, kind)}
    if places:
        measure_apply(tools, cases_of(asked), places)
    if asked.only in (None, "full"):
        measure_full(tools, history(4, 10, 200) if asked.small else history(64, 62, 36000))


def cases_of(asked: argparse.Namespace) -> list[Case]:
    """Small files in directories of many names and of fewer, and larger files, of which a piece has hardly one."""
    if asked.small:
        return [small_files(20, 12, {}), small_files(20, 4, {}), Case("4 of 100 KB", creations(4, 12, 100000), {}),
                Case("2 of a mebibyte", creations(2, 64, 1 << 20), {})]
    fewer, middle, large = (max(round(asked.files * part), 1) for part in (0.25, 0.05, 0.016))
    return [small_files(asked.files, 250, {"syncs": 0.13, "disk": 1.3, "memory": 1.6}), small_files(fewer, 32, {"disk": 1.3, "memory": 1.6}),
            Case("%d of 100 KB" % middle, creations(middle, 250, 100000), {"disk": 1.15, "memory": 1.6}),
            Case("%d of a mebibyte" % large, creations(large, 64, 1 << 20), {"disk": 1.25, "memory": 1.5})]


def small_files(files: int, names: int, aims: dict[str, float]) -> Case:
    return Case("{:,} of 4 KiB, {} names a directory".format(files, names), creations(files, names, 4096), aims)


def kind_of(folder: str) -> str:
    """The kind of the file system on which a folder lies."""
    found = subprocess.run(["stat", "-f", "-c", "%T", folder], capture_output=True, text=True)
    return found.stdout.strip() or "unknown"


def words() -> argparse.Namespace:
    parser = argparse.ArgumentParser(prog="bench/apply/run", description=__doc__)
    parser.add_argument("udfburn", nargs="?", default=str(REPOSITORY / "crates/udfburn/out/udfburn"))
    parser.add_argument("before", nargs="?", help="an earlier program, timed in turn with the first")
    parser.add_argument("--small", action="store_true", help="few files and commits, so that it takes seconds")
    parser.add_argument("--files", type=int, default=4000, help="how many files of 4 KiB (4000); the other counts become less with it")
    parser.add_argument("--rounds", type=int, help="how often each is run (9, with --small 2)")
    parser.add_argument("--quiet", type=float, default=float("inf"), metavar="US",
                        help="count a round only where a block was written and synced in so many microseconds before and behind it")
    parser.add_argument("--disk", help="a folder on the disk (one beside the repository)")
    parser.add_argument("--memory", default="/dev/shm", help="a folder on a memory file system")
    parser.add_argument("--only", choices=("disk", "memory", "full"), help="`apply` on one of the two, or what reads a full volume")
    asked = parser.parse_args()
    asked.rounds = asked.rounds or (2 if asked.small else 9)
    return asked


def beside() -> Optional[str]:
    """The folder of the repository, where it may be written; else that of temporary files."""
    return str(REPOSITORY.parent) if os.access(REPOSITORY.parent, os.W_OK) else None


def stop(*_: object) -> NoReturn:
    # So that what was made is removed, and no second signal comes between.
    for number in STOPS:
        signal.signal(number, signal.SIG_IGN)
    sys.exit(1)


def main() -> int:
    asked = words()
    for number in STOPS:
        signal.signal(number, stop)
    checks = Checks()
    try:
        with tempfile.TemporaryDirectory(prefix="udfburn-bench.", dir=asked.disk or beside()) as disk, \
                tempfile.TemporaryDirectory(prefix="udfburn-bench.", dir=asked.memory) as memory:
            measure(asked, disk, memory, checks)
    except (Wrong, ValueError, AssertionError, OSError, subprocess.CalledProcessError) as error:
        checks.hold(str(error), False)
    print("\nbench: %d passed, %d failed" % (checks.passed, checks.failed))
    return 1 if checks.failed else 0


if __name__ == "__main__":
    sys.exit(main())
