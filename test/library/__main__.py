"""Runs the tests of the C library: python3 -m library CORE UDFBURN UDFBURND [MODULE..], in the folder `test`.

CORE is the archive or the object of crates/capi. Modules are `test_*.py` beside this file. Each runs in a process of its own, some of
them at once. The last line is `library: N passed, M failed, K skipped`; the status is 1 where something failed.
"""
from __future__ import annotations

import os
import shutil
import sys
from pathlib import Path

from library.building import HERE, SANITIZERS, build_library, make_room
from runner import Counts, Outcome, added, apart, run_for_another, side_by_side

# These take longest, so that they begin first.
LONG = ("test_power", "test_kills", "test_killed", "test_failures", "test_watched", "test_calls", "test_puts", "test_guards", "test_memory")


def told(outcome: Outcome) -> Counts:
    """Prints what a module counted, and gives it."""
    counts = outcome.counts
    if counts.failed or counts.skipped:
        print(outcome.output)
    print(f"library: {outcome.name}: {counts.passed} passed, {counts.failed} failed, {outcome.seconds:.1f} s", flush=True)
    return counts


def run_all(names: list[str]) -> int:
    outcomes = side_by_side(
        min(4, os.cpu_count() or 1), names, lambda name: apart(name, [sys.executable, "-m", "library", "--module", name]),
    )
    counts = added([told(outcome) for outcome in outcomes])
    failed = counts.failed if counts.passed else counts.failed + 1
    print(f"library: {counts.passed} passed, {failed} failed, {len(counts.skipped)} skipped")
    return 1 if failed else 0


def main() -> int:
    words = sys.argv[1:]
    if words[:1] == ["--module"]:
        return run_for_another([f"library.{words[1]}"], verbosity=2)
    if len(words) < 3:
        sys.exit(__doc__)
    core, os.environ["UDFBURN"], os.environ["UDFBURND"] = (os.path.abspath(word) for word in words[:3])
    names = words[3:] or sorted(path.stem for path in Path(HERE).glob("test_*.py"))
    names.sort(key=lambda name: name.split(".")[0] not in LONG)
    room = make_room()
    os.environ["LIBRARY_ROOM"] = str(room)
    os.environ["LIBRARY_CORE"] = core
    os.environ["PYTHONDONTWRITEBYTECODE"] = "1"
    try:
        build_library(core, room / "plain")
        build_library(core, room / "watched", SANITIZERS)
        return run_all(names)
    finally:
        shutil.rmtree(room, ignore_errors=True)


if __name__ == "__main__":
    sys.exit(main())
