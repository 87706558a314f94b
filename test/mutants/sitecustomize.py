"""Notes which lines of a package each process runs, where the environment's MUTANTS_LINES and MUTANTS_PACKAGE name a file and the
package's folder. Python imports this module when it starts, if its folder is in PYTHONPATH.

A process writes what it ran when it ends, and when `written` is called: one that is killed writes nothing."""

from __future__ import annotations

import atexit
import os
import sys
import threading
from types import CodeType, FrameType
from typing import Any, Callable, Dict, Optional, Set, Tuple

LINES = os.environ.get("MUTANTS_LINES", "")
PACKAGE = os.environ.get("MUTANTS_PACKAGE", "") + os.sep

seen: Set[Tuple[str, int]] = set()
"""The lines since the last call of `written`, with the paths of their files below the package."""
left: Dict[CodeType, Set[int]] = {}
"""The lines of each function that are not in `seen`."""
Trace = Optional[Callable[..., Any]]


def called(frame: FrameType, event: str, _: object) -> Trace:
    """Python calls it when a function begins."""
    code = frame.f_code
    missing = left.get(code)
    if missing is None:
        inside = code.co_filename.startswith(PACKAGE)
        missing = left[code] = {line for _, _, line in code.co_lines() if line} if inside else set()
    return ran if missing else None


def ran(frame: FrameType, event: str, _: object) -> Trace:
    """Python calls it before each line."""
    missing = left.get(frame.f_code)
    if missing and event == "line" and frame.f_lineno in missing:
        missing.discard(frame.f_lineno)
        seen.add((frame.f_code.co_filename[len(PACKAGE) :], frame.f_lineno))
    return ran


def written() -> None:
    """Appends what was seen to the file, and begins anew."""
    text = "".join(f"{path} {line}\n" for path, line in seen)
    seen.clear()
    left.clear()
    with open(LINES, "a", encoding="utf-8") as file:
        file.write(text)


if LINES:
    atexit.register(written)
    threading.settrace(called)
    sys.settrace(called)
