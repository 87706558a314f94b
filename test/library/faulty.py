"""The tests of test/faults on a program in C over the library, in place of the programs."""
from __future__ import annotations

import os
import re
import subprocess
import unittest
from pathlib import Path
from typing import Mapping, Optional, Union

from faults import case, running
from library.building import HERE, WARNINGS, built


def shifted(rules: str) -> str:
    """Rules for the library, which sets a file once to the length that it has when it opens it: the cuts come after that call."""
    def later(found: re.Match[str]) -> str:
        first, last = int(found[1] or 1), found[2]
        return "ftruncate:%d%s" % (first + 1, "+" if found[0] == "ftruncate:*" else "-%d" % (int(last) + 1) if last else "")
    return re.sub(r"ftruncate:(?:(\d+)(?:-(\d+))?|\*)", later, rules)


def _environment(image: Optional[str] = None, log: Union[str, Path, None] = None, rules: str = "",
                 more: Optional[Mapping[str, str]] = None) -> dict[str, str]:
    return _original(image, log, shifted(rules), more)


_original = running.environment


def begin(is_shifted: bool) -> None:
    """Has the tests of this process run the program on the library."""
    real = built().udfburn
    library = built().plain
    program = built().room / ("program.%d" % os.getpid())
    subprocess.run(["gcc", "-std=c99", "-O1", *WARNINGS, "-I", str(library), str(HERE / "program.c"), str(library / "libudfburn.a"), "-o",
                    str(program)], check=True)
    os.environ["LIBRARY_UDFBURN"] = real
    os.environ["UDFBURN"] = os.environ["UDFBURND"] = os.environ["APPLY_GROUPS"] = str(program)
    if is_shifted:
        running.environment = _environment
        # Its own name for the same function.
        setattr(case, "environment", _environment)


def chosen(*names: str, is_shifted: bool = True) -> unittest.TestSuite:
    """These tests of test/faults, with rules that are shifted."""
    begin(is_shifted)
    return unittest.defaultTestLoader.loadTestsFromNames(["faults." + name for name in names])
