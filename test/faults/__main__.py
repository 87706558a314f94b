"""Runs the fault tests: python3 -m faults [--jobs N] UDFBURN UDFBURND [MODULE..], in the folder `test`.

Modules are `test_*.py` and `load_*.py` beside this file. Each runs in a process of its own, some of them at once. What was left out
is reported with its reason. The last line is `faults: N passed, M failed, K skipped`; the status is 1 where something failed.
"""
from __future__ import annotations

import argparse
import os
import sys
from pathlib import Path

from faults.programs import build
from runner import Counts, Outcome, added, apart, run_for_another, side_by_side

# Seconds after which a module counts as hanging: more than any machine takes, also beside other work.
LONGEST = 6 * 3600.0
# These take a minute or more, so that they begin first.
LONG = ("test_power", "test_growing", "test_disk", "test_runs", "load_clients", "load_waiting", "test_send")
# What the modules share.
SUPPORT = "load_support"


def told(outcome: Outcome, verbose: bool) -> Counts:
    """Prints what a module counted, and gives it."""
    counts = outcome.counts
    if counts.failed or verbose:
        print(outcome.output)
    print(f"faults: {outcome.name}: {counts.passed} passed, {counts.failed} failed, {len(counts.skipped)} skipped, {outcome.seconds:.1f} s", flush=True)
    for test, reason in counts.skipped:
        print(f"faults: left out: {test}: {reason}")
    return counts


def main() -> int:
    parser = argparse.ArgumentParser(prog="faults")
    parser.add_argument("--module", help="run this one here")
    parser.add_argument("--jobs", type=int, default=min(4, os.cpu_count() or 1))
    parser.add_argument("--verbose", action="store_true", help="tell every test")
    parser.add_argument("words", nargs="*", metavar="UDFBURN UDFBURND [MODULE..]")
    asked = parser.parse_args()
    if asked.module:
        return run_for_another([f"faults.{asked.module}"], verbosity=2)
    if len(asked.words) < 2:
        parser.error("the paths of the two programs are missing")
    # Another user reads some of what is made here.
    os.umask(0o022)
    os.environ["UDFBURN"], os.environ["UDFBURND"] = (os.path.abspath(word) for word in asked.words[:2])
    if os.environ.get("APPLY_GROUPS"):
        os.environ["APPLY_GROUPS"] = os.path.abspath(os.environ["APPLY_GROUPS"])
    here = Path(__file__).resolve().parent
    found = {path.stem for pattern in ("test_*.py", "load_*.py") for path in here.glob(pattern)}
    names = sorted(asked.words[2:] or found - {SUPPORT}, key=lambda name: (name not in LONG, name))
    environment = {**os.environ, "FAULTS_BUILT": build().room, "PYTHONDONTWRITEBYTECODE": "1"}
    outcomes = side_by_side(
        asked.jobs, names, lambda name: apart(name, [sys.executable, "-m", "faults", "--module", name], environment, LONGEST),
    )
    counts = added([told(outcome, asked.verbose) for outcome in outcomes])
    print(f"faults: {counts.passed} passed, {counts.failed} failed, {len(counts.skipped)} skipped")
    return 1 if counts.failed else 0


if __name__ == "__main__":
    sys.exit(main())
