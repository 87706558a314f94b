"""Runs the tests, and ends with `N passed, M failed`: `python3 -m archive [NAME..]`.

A NAME is a module, or a class or a test in one. Without any, all classes are run side by side. LARGE of the environment adds what takes
long: `support` reads it when it is imported, as this module does."""

from __future__ import annotations

import importlib
import os
import sys
import unittest
from typing import List

from runner import Counts, Outcome, added, apart, run, run_for_another, side_by_side

from .mounts import LACKS

LARGE_ALONE = "--large has it"
"""Why a test is left out that nobody asked for."""


def with_missing(counts: Counts) -> Counts:
    """A test that was left out is a failure where all of them are asked for, as in CI, but for what the machine truly lacks."""
    skipped = [(test, why) for test, why in counts.skipped if why != LARGE_ALONE]
    missing = sum(not why.startswith(LACKS) for _, why in skipped) if os.environ.get("CI") == "true" else 0
    for test, why in skipped:
        print(f"left out: {test}: {why}")
    return Counts(counts.passed, counts.failed + missing, counts.skipped)


def told(outcome: Outcome) -> Counts:
    """Prints what is of interest of a class, and gives its counts."""
    counts = outcome.counts
    if counts.failed or any(why != LARGE_ALONE for _, why in counts.skipped) or os.environ.get("TIMES") or os.environ.get("LARGE"):
        print(f"{outcome.name}:\n{outcome.output}")
    return with_missing(counts)


def classes() -> List[str]:
    """The classes that have tests, by their modules."""
    here = os.path.dirname(os.path.abspath(__file__))
    found: List[str] = []
    for module in sorted(name[:-3] for name in os.listdir(here) if name.startswith("test_") and name.endswith(".py")):
        loaded = importlib.import_module(f"archive.{module}")
        for name, value in vars(loaded).items():
            if isinstance(value, type) and issubclass(value, unittest.TestCase) and value.__module__ == loaded.__name__ and unittest.TestLoader().getTestCaseNames(value):
                found.append(f"{module}.{name}")
    # The longest first.
    return sorted(found, key=lambda name: not any(word in name for word in ("chaos", "Killed", "Crashes", "Many", "Copies", "Commands", "Machines")))


def main() -> int:
    words = sys.argv[1:]
    if words[:1] == ["--class"]:
        return run_for_another([f"archive.{words[1]}"])
    if words:
        counts = with_missing(run([f"archive.{name}" for name in words]))
    else:
        # Most of their time is the disk's and other programs'.
        jobs = max(3, os.cpu_count() or 1)
        outcomes = side_by_side(jobs, classes(), lambda name: apart(name, [sys.executable, "-m", "archive", "--class", name]))
        counts = added([told(outcome) for outcome in outcomes])
    print(f"{counts.passed} passed, {counts.failed} failed")
    return 1 if counts.failed or not (counts.passed or counts.skipped) else 0


if __name__ == "__main__":
    sys.exit(main())
