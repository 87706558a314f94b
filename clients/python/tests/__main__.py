"""Runs tests, and ends with `N passed, M failed`: `python3 -m tests [NAME..]`.

A NAME is a module, or a class or a test in one. Without any, all modules are run, in two processes: most of their time is spent waiting."""

from __future__ import annotations

import os
import sys
import tempfile
from typing import List

HERE = os.path.dirname(os.path.abspath(__file__))
sys.path.append(os.path.join(HERE, "..", "..", "..", "test"))

from runner import Outcome, added, apart, run, run_for_another, side_by_side  # noqa: E402

PROCESSES = 2

LONGEST = ["test_session", "test_interrupted", "test_parts", "test_waits", "test_kills", "test_programs", "test_salvage"]
"""The modules that take longest, which are dealt first."""


def dealt() -> List[List[str]]:
    """All modules, dealt to the processes."""
    names = sorted(name[:-3] for name in os.listdir(HERE) if name.startswith("test_") and name.endswith(".py"))
    ordered = LONGEST + [name for name in names if name not in LONGEST]
    return [ordered[process::PROCESSES] for process in range(PROCESSES)]


def with_own_folder(names: str) -> Outcome:
    """What the tests of some modules count in a process of their own, with its own folder for temporary files."""
    with tempfile.TemporaryDirectory() as folder:
        return apart(names, [sys.executable, "-m", "tests", "--modules", *names.split()], {**os.environ, "TMPDIR": folder})


def main() -> int:
    words = sys.argv[1:]
    if words[:1] == ["--modules"]:
        return run_for_another([f"tests.{name}" for name in words[1:]])
    if words:
        counts = run([f"tests.{name}" for name in words])
    else:
        outcomes = list(side_by_side(PROCESSES, [" ".join(names) for names in dealt()], with_own_folder))
        for outcome in outcomes:
            print(outcome.output)
        counts = added([outcome.counts for outcome in outcomes])
    # Nothing is left out here.
    failed = counts.failed + len(counts.skipped)
    print(f"{counts.passed} passed, {failed} failed")
    return 1 if failed or not counts.passed else 0


if __name__ == "__main__":
    sys.exit(main())
