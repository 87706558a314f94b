"""Runs the tests: python3 -m commands [NAME..], in the folder `test`, where UDFBURN and UDFBURND name the programs.

A NAME is a module, or a class or a test in one. Without any, all are run. The last line is `commands: N passed, M failed`; the status
is 1 where something failed.
"""
from __future__ import annotations

import sys
from pathlib import Path

from runner import run


def main() -> int:
    names = sys.argv[1:] or sorted(path.stem for path in Path(__file__).resolve().parent.glob("test_*.py"))
    counts = run([f"commands.{name}" for name in names])
    print(f"commands: {counts.passed} passed, {counts.failed} failed")
    return 1 if counts.failed or not counts.passed else 0


if __name__ == "__main__":
    sys.exit(main())
