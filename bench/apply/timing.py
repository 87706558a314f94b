"""Programs that are timed: a run of each in every round, in turn, and what their times say of each other."""
from __future__ import annotations

import os
import statistics
import time
from typing import NamedTuple, Optional, Sequence

# What a loader is told must not reach the programs, nor what faults are put under them.
ENVIRONMENT = {name: value for name, value in os.environ.items() if not name.startswith(("LD_", "FAULT_"))}


class Taken(NamedTuple):
    """What a run took in nanoseconds, from its start to its end: of the clock, and of the processor."""

    clock: int
    processor: int


class Ended(NamedTuple):
    status: int
    output: bytes
    errors: bytes
    taken: Taken


def run(words: Sequence[str], input_path: str, output_path: str, environment: Optional[dict[str, str]] = None) -> Ended:
    """Runs a program from a file to a file."""
    with open(input_path, "rb") as given, open(output_path, "w+b") as output, open(output_path + ".errors", "w+b") as errors:
        actions = [(os.POSIX_SPAWN_DUP2, file.fileno(), number) for number, file in enumerate((given, output, errors))]
        begun = time.perf_counter_ns()
        process = os.posix_spawn(words[0], list(words), ENVIRONMENT if environment is None else environment, file_actions=actions)
        _, status, usage = os.wait4(process, 0)
        clock = time.perf_counter_ns() - begun
        output.seek(0)
        errors.seek(0)
        processor = round((usage.ru_utime + usage.ru_stime) * 1e9)
        return Ended(os.waitstatus_to_exitcode(status), output.read(), errors.read(), Taken(clock, processor))


def milliseconds(nanoseconds: float) -> str:
    return "%.1f" % (nanoseconds / 1e6) if nanoseconds < 1e9 else "%.0f" % (nanoseconds / 1e6)


def clocks(series: Sequence[Taken]) -> list[int]:
    return [taken.clock for taken in series]


def processors(series: Sequence[Taken]) -> list[int]:
    return [taken.processor for taken in series]


def median_of(times: Sequence[int]) -> str:
    return milliseconds(statistics.median(times))


def ratio(of: Sequence[int], beside: Sequence[int]) -> str:
    """The ratio of the medians, and the least and the greatest one of a round."""
    rounds = [one / max(other, 1) for one, other in zip(of, beside)]
    medians = statistics.median(of) / max(statistics.median(beside), 1)
    return "%.2f (%.2f to %.2f)" % (medians, min(rounds), max(rounds))


def least_ratio(of: Sequence[int], beside: Sequence[int]) -> str:
    """The ratio of the least times, which other work on the machine disturbs least."""
    return "%.2f" % (min(of) / max(min(beside), 1))


def difference(of: Sequence[int], beside: Sequence[int], commits: int) -> str:
    """By how much one takes longer than the other, in microseconds a commit: of the medians, and of the least times."""
    both = (statistics.median(of) - statistics.median(beside), min(of) - min(beside))
    return ", ".join("%.1f" % (more / commits / 1e3) for more in both)


def sync_time(folder: str) -> float:
    """How long the disk takes now for a block that is written and synced, in microseconds: the median of twenty."""
    path = os.path.join(folder, "probe")
    file = os.open(path, os.O_RDWR | os.O_CREAT | os.O_EXCL)
    times = []
    for number in range(20):
        begun = time.perf_counter_ns()
        os.pwrite(file, bytes(2048), 2048 * number)
        os.fsync(file)
        times.append(time.perf_counter_ns() - begun)
    os.close(file)
    os.unlink(path)
    return statistics.median(times) / 1e3


def load() -> str:
    return "load %.1f" % os.getloadavg()[0]
