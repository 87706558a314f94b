#!/usr/bin/env python3
"""Makes small changes in the client, one at a time, and runs the tests that run the changed line: whichever change no test notices is
printed, with what a line was and what it became.

usage: test/mutants/mutants.py [--of client|archive] [--seed N] [--count N] [--seconds N] [--lanes N] [--lines FILE] [--only TEXT]
                               UDFBURN UDFBURND [TESTS..]

--of       which modules are changed: PLAN below has them (client)
--seed     which changes of them are tried: a number has the same ones each time, also where other code changed (1)
--count    tries so many, in place of 200 or 100
--only     tries those alone of which `FUNCTION: BEFORE -> AFTER` has this text
--seconds  how long tests are run for a change, by the seconds that each takes alone: the fastest first (300)
--lanes    how many changes are tried side by side (3)
--lines    keeps which lines each test runs in a file, and takes them from there while the tests and the client are the same
TESTS      uses these modules of tests alone, as tests.test_protocol

A change that a program cannot notice is in stay.txt beside this script, with the reason; it is counted and not printed. The status is 1
where a change is left that is not. It takes Linux, Python 3.11 or later, and an hour of three processors.
"""

from __future__ import annotations

import argparse
import json
import os
import queue
import sys
import tempfile
import time
from concurrent.futures import ThreadPoolExecutor
from pathlib import Path
from typing import Any, Dict, List, NamedTuple, Optional, Set, Tuple

from changes import Change, changes_of, chosen
from rooms import HERE, SUITES, TOP, Lane, digest, suite_of

PACKAGE = TOP / "clients/python/udfburn"

PLAN: Dict[str, List[Tuple[List[str], int]]] = {
    "client": [
        (["protocol/*.py"], 40),
        (["reader/*.py"], 80),
        (["session/*.py", "trees/ahead.py"], 40),
        (["ledger/*.py"], 30),
        (["archive/delete.py"], 10),
    ],
    "archive": [
        (["archive/rebuild.py", "archive/assemble.py"], 25),
        (["archive/adopt.py"], 15),
        (["archive/check.py"], 25),
        (["archive/close.py", "archive/closing.py"], 20),
        (["archive/remotes.py"], 15),
    ],
}
"""Which modules of the package are changed, and how often."""

Tests = Dict[str, Any]
"""How many seconds each test takes, and which lines it runs."""


class Outcome(NamedTuple):
    """What the tests said of a change."""

    change: Change
    caught: Optional[str]
    """The test that failed."""
    tried: int
    untried: int
    """How many tests ran the line, and were not run since the time was over."""


class Finder:
    """Which tests run a line."""

    def __init__(self, tests: Tests) -> None:
        self.seconds = {name: test["seconds"] for name, test in tests.items()}
        self.by_line: Dict[str, Set[str]] = {}
        for name, test in tests.items():
            for line in test["lines"]:
                self.by_line.setdefault(line, set()).add(name)
        self.text: Dict[str, List[str]] = {}
        for path in PACKAGE.rglob("*.py"):
            self.text[path.relative_to(PACKAGE).as_posix()] = path.read_text(encoding="utf-8").splitlines()

    def tests_of(self, change: Change) -> List[str]:
        """The tests that run the line of a change, the fastest first. Of a line that the import runs, they are those that run a line
        with a name that it binds, in any module; of one that binds none, those that run a line of its module."""
        if change.run:
            found = self.by_line.get(f"{change.path} {change.run}", set())
        elif change.names:
            found = set().union(*(self.by_line.get(line, set()) for name in change.names for line in self.lines_with(name)))
        else:
            found = set().union(*(tests for line, tests in self.by_line.items() if line.split()[0] == change.path))
        return sorted(found, key=lambda name: (self.seconds[name], name))

    def lines_with(self, word: str) -> List[str]:
        """The lines of the package that have a word."""
        return [f"{path} {at}" for path, lines in self.text.items() for at, line in enumerate(lines, 1) if word in line]


def modules_of(suite: str) -> List[str]:
    """The modules of tests."""
    folder = next(TOP / each.folder / each.package for each in SUITES if each.package == suite)
    return [f"{suite}.{path.stem}" for path in sorted(folder.glob("test_*.py"))]


def traced(lanes: "queue.Queue[Lane]", names: List[str], kept: Optional[str]) -> Tests:
    """The tests of modules, from the file where it has them."""
    package = digest(PACKAGE)
    known: Dict[str, Any] = {}
    if kept and os.path.exists(kept):
        with open(kept, encoding="utf-8") as file:
            known = json.load(file)

    def trace(name: str) -> None:
        suite = suite_of(name)
        mark = package + digest(TOP / suite.folder / f"{name.replace('.', '/')}.py")
        if known.get(name, {}).get("mark") != mark:
            lane, began = lanes.get(), time.monotonic()
            try:
                known[name] = {"mark": mark, "tests": lane.traced([name])}
                if kept:
                    Path(kept).write_text(json.dumps(dict(known)), encoding="utf-8")
                print(f"mutants: {len(known[name]['tests'])} tests of {name} in {time.monotonic() - began:.0f} s", file=sys.stderr, flush=True)
            except OSError as error:
                print(f"mutants: {name} is left out: {error}", file=sys.stderr, flush=True)
            finally:
                lanes.put(lane)

    with ThreadPoolExecutor(lanes.maxsize) as pool:
        list(pool.map(trace, names))
    return {test: value for name in names if name in known for test, value in known[name]["tests"].items()}


def tried(lane: Lane, change: Change, finder: Finder, most: float) -> Outcome:
    """Runs the tests of a change, until one fails."""
    tests = finder.tests_of(change)
    some: List[str] = []
    seconds = 0.0
    for name in tests:
        if some and seconds + finder.seconds[name] > most:
            break
        seconds += finder.seconds[name]
        some.append(name)
    lane.imports(some)
    path = lane.package / change.path
    source, kept = path.read_bytes(), path.stat()
    try:
        path.write_bytes(change.applied(source))
        os.utime(path, ns=(kept.st_atime_ns, kept.st_mtime_ns + 10**10))
        caught = lane.fails(change.path, change.function, some, 60 + 6 * seconds)
    finally:
        path.write_bytes(source)
        os.utime(path, ns=(kept.st_atime_ns, kept.st_mtime_ns))
    return Outcome(change, caught, len(some), len(tests) - len(some))


def reasons() -> Set[str]:
    """The keys of the changes that stay."""
    lines = (HERE / "stay.txt").read_text(encoding="utf-8").splitlines()
    return {line for line in lines if line and not line.startswith(("#", " "))}


def shown(outcome: Outcome) -> str:
    """A change that no test noticed."""
    change = outcome.change
    more = f", {outcome.untried} more run the line" if outcome.untried else ""
    return f"{change.path}:{change.line}: {change.function}: {outcome.tried} tests{more}\n  - {change.before}\n  + {change.after}"


def parsed() -> argparse.Namespace:
    """The words of the command line."""
    parser = argparse.ArgumentParser(usage=(__doc__ or "").split("usage: ")[1].split("\n\n")[0])
    parser.add_argument("--of", choices=sorted(PLAN), default="client")
    parser.add_argument("--seed", type=int, default=1)
    parser.add_argument("--count", type=int)
    parser.add_argument("--only", default="")
    parser.add_argument("--seconds", type=float, default=300.0)
    parser.add_argument("--lanes", type=int, default=3)
    parser.add_argument("--lines")
    parser.add_argument("udfburn")
    parser.add_argument("udfburnd")
    parser.add_argument("tests", nargs="*")
    return parser.parse_args()


def picked(of: str, count: Optional[int], seed: int) -> List[Change]:
    """The changes that are tried."""
    whole = sum(part for _, part in PLAN[of])
    found: List[Change] = []
    for patterns, part in PLAN[of]:
        paths = sorted({path.relative_to(PACKAGE).as_posix() for pattern in patterns for path in PACKAGE.glob(pattern)})
        most = part if count is None else -(-part * count // whole)
        found += chosen([change for path in paths for change in changes_of(PACKAGE, path)], most, seed)
    return found


def attempted(lanes: "queue.Queue[Lane]", change: Change, finder: Finder, most: float, stay: Set[str]) -> Outcome:
    """Tries a change in the next lane, and prints it where no test notices it."""
    lane = lanes.get()
    try:
        outcome = tried(lane, change, finder, most)
    finally:
        lanes.put(lane)
    if outcome.caught:
        print(f"mutants: {change.path}:{change.line}: {change.key}: caught by {outcome.caught}", file=sys.stderr, flush=True)
    elif change.key not in stay:
        print(shown(outcome), flush=True)
    return outcome


def main() -> int:
    words = parsed()
    os.environ.update(UDFBURN=os.path.abspath(words.udfburn), UDFBURND=os.path.abspath(words.udfburnd))
    changes = [change for change in picked(words.of, words.count, words.seed) if words.only in change.key]
    stay = reasons()
    names = words.tests or [name for suite in SUITES for name in modules_of(suite.package)]
    with tempfile.TemporaryDirectory(prefix="mutants-") as room:
        opened = [Lane(Path(room) / f"lane{number}") for number in range(words.lanes)]
        lanes: "queue.Queue[Lane]" = queue.Queue(words.lanes)
        try:
            for lane in opened:
                lanes.put(lane)
            finder = Finder(traced(lanes, names, words.lines))
            with ThreadPoolExecutor(words.lanes) as pool:
                outcomes = list(pool.map(lambda change: attempted(lanes, change, finder, words.seconds, stay), changes))
        finally:
            for lane in opened:
                lane.close()
    missed = [outcome.change for outcome in outcomes if outcome.caught is None]
    known = [change for change in missed if change.key in stay]
    share = 100 * len(missed) / len(outcomes)
    print(f"mutants: {len(outcomes) - len(missed)} caught, {len(missed)} not ({share:.1f} per cent), of these {len(known)} with a reason")
    return 1 if len(missed) > len(known) else 0


if __name__ == "__main__":
    sys.exit(main())
