"""Runs tests, and writes how long each takes and which lines of the package it runs: `traced.py OUT NAME..`."""

from __future__ import annotations

import json
import os
import sys
import time
import unittest
from typing import Any, Dict, List

import sitecustomize


def lines() -> List[str]:
    """The lines that were run since the last call, by this process and by those that ended meanwhile."""
    sitecustomize.written()
    with open(sitecustomize.LINES, "r+", encoding="utf-8") as file:
        found = set(file)
        file.truncate(0)
    return sorted(line.rstrip("\n") for line in found)


class Result(unittest.TextTestResult):
    """Notes each test that passed. What is run before a test is of its class, since others of the class may need it."""

    def __init__(self, *words: Any) -> None:
        super().__init__(*words)
        self.tests: Dict[str, Any] = {}
        self.before: Dict[str, List[str]] = {}

    def startTest(self, test: unittest.TestCase) -> None:  # noqa: N802
        self.before.setdefault(type(test).__qualname__, []).extend(lines())
        # A test may have set a trace of its own.
        sys.settrace(sitecustomize.called)
        self.began = time.monotonic()
        super().startTest(test)

    def addSuccess(self, test: unittest.TestCase) -> None:  # noqa: N802
        super().addSuccess(test)
        self.tests[test.id()] = {"seconds": time.monotonic() - self.began, "class": type(test).__qualname__}

    def stopTest(self, test: unittest.TestCase) -> None:  # noqa: N802
        super().stopTest(test)
        found = lines()
        if test.id() in self.tests:
            self.tests[test.id()]["lines"] = found


def main() -> None:
    out, *names = sys.argv[1:]
    sys.path[0] = os.getcwd()
    result = unittest.TextTestRunner(resultclass=Result, verbosity=0).run(unittest.TestLoader().loadTestsFromNames(names))
    assert isinstance(result, Result)
    for test in result.tests.values():
        test["lines"] = sorted({*test["lines"], *result.before.get(test.pop("class"), [])})
    with open(out, "w", encoding="utf-8") as file:
        json.dump(result.tests, file)


if __name__ == "__main__":
    main()
