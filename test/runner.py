"""What the suites in Python share: tests of unittest are run here, or some processes at once run them, and what they count is added up.

A process that runs tests for another one prints their counts as its last line, in JSON.
"""

from __future__ import annotations

import json
import os
import signal
import subprocess
import sys
import time
import unittest
from concurrent.futures import ThreadPoolExecutor
from typing import Any, Callable, Iterator, List, Mapping, NamedTuple, Optional, Sequence, Tuple

SLOW = 0.5
"""Seconds from which TIMES=1 of the environment names a test."""


class Counting(unittest.TextTestResult):
    """A result that counts tests, and not their parts."""

    passed = 0

    def startTest(self, test: unittest.TestCase) -> None:  # noqa: N802
        super().startTest(test)
        self.began = time.monotonic()

    def addSuccess(self, test: unittest.TestCase) -> None:  # noqa: N802
        super().addSuccess(test)
        self.passed += 1

    def stopTest(self, test: unittest.TestCase) -> None:  # noqa: N802
        seconds = time.monotonic() - self.began
        if os.environ.get("TIMES") and seconds > SLOW:
            print(f"{seconds:6.1f} s  {test.id()}", file=sys.stderr)
        super().stopTest(test)

    def failed(self) -> int:
        names = {getattr(test, "test_case", test).id() for test, _ in self.failures + self.errors}
        return len(names) + len(self.unexpectedSuccesses)


class Counts(NamedTuple):
    """How many tests passed and failed, and each that was left out, with its reason."""

    passed: int
    failed: int
    skipped: List[Tuple[str, str]]


class Outcome(NamedTuple):
    """What a process counted and printed, and how many seconds it took."""

    name: str
    counts: Counts
    seconds: float
    output: str


def run(names: Sequence[str], verbosity: int = 0) -> Counts:
    """Runs modules, classes or tests in this process, by their whole names."""
    suite = unittest.defaultTestLoader.loadTestsFromNames(list(names))
    result: Any = unittest.TextTestRunner(stream=sys.stdout, verbosity=verbosity, resultclass=Counting).run(suite)
    return Counts(result.passed, result.failed(), sorted({(test.id(), why) for test, why in result.skipped}))


def run_for_another(names: Sequence[str], verbosity: int = 0) -> int:
    """The same, for the process that started this one by `apart`."""
    # Signals end the programs under test also where this was started with them ignored.
    for number in (signal.SIGHUP, signal.SIGINT, signal.SIGTERM):
        if signal.getsignal(number) is signal.SIG_IGN:
            signal.signal(number, signal.SIG_DFL)
    print("\n" + json.dumps(run(names, verbosity)))
    return 0


def apart(name: str, command: Sequence[str], environment: Optional[Mapping[str, str]] = None, longest: Optional[float] = None) -> Outcome:
    """What a process counts. One that ends without its counts, or not in so many seconds, is a failure."""
    begin = time.monotonic()
    try:
        done = subprocess.run(
            command, env=environment, stdout=subprocess.PIPE, stderr=subprocess.STDOUT, text=True, errors="replace", timeout=longest, check=False,
        )
        output = done.stdout
    except subprocess.TimeoutExpired as late:
        output = (late.stdout or b"").decode(errors="replace") + f"\n{name} did not end\n"
    seconds = time.monotonic() - begin
    before, _, last = output.rstrip("\n").rpartition("\n")
    try:
        passed, failed, skipped = json.loads(last)
        return Outcome(name, Counts(passed, failed, [(test, why) for test, why in skipped]), seconds, before.rstrip("\n"))
    except (ValueError, TypeError):
        return Outcome(name, Counts(0, 1, []), seconds, output)


def side_by_side(jobs: int, names: Sequence[str], outcome_of: Callable[[str], Outcome]) -> Iterator[Outcome]:
    """The outcomes of processes in the order of their names, so many at once."""
    with ThreadPoolExecutor(jobs) as pool:
        yield from pool.map(outcome_of, names)


def added(counts: Sequence[Counts]) -> Counts:
    """Counts of processes as one. Where nothing ran, that is a failure."""
    passed, failed = sum(each.passed for each in counts), sum(each.failed for each in counts)
    skipped = [each for one in counts for each in one.skipped]
    return Counts(passed, failed if passed or failed or skipped else 1, skipped)
