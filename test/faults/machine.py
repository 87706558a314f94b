"""What a machine may lack, and what is left out for it."""
from __future__ import annotations

import os
import shutil
import subprocess
import unittest
from pathlib import Path
from typing import NoReturn

from faults.processes import await_true


def unmount(where: Path) -> None:
    """Unmounts, as soon as no other program looks at it: one that looks through all that is mounted may do so for a moment."""
    tried: list[str] = []

    def is_unmounted() -> bool:
        done = subprocess.run(["umount", str(where)], capture_output=True, text=True)
        tried.append(first_line(done.stderr))
        return done.returncode == 0

    if not await_true(is_unmounted, pause=0.05):
        raise OSError(tried[-1])


def is_ci() -> bool:
    return os.environ.get("CI", "") == "true"


def lacks(reason: str) -> NoReturn:
    """Leaves a test out for what the machine truly lacks, as a feature of its kernel."""
    raise unittest.SkipTest(reason)


def leave_out(reason: str) -> NoReturn:
    """Leaves a test out for what could be had, as a tool that is not installed: under CI that is a failure."""
    if is_ci():
        raise AssertionError("under CI nothing that can be had may be left out: " + reason)
    raise unittest.SkipTest(reason)


def first_line(text: str) -> str:
    return text.strip().split("\n")[0]


def need_tools(*names: str) -> None:
    for name in names:
        if shutil.which(name) is None and not Path("/sbin", name).exists() and not Path("/usr/sbin", name).exists():
            leave_out("%s is not installed" % name)


def need_root() -> None:
    if os.geteuid() == 0:
        return
    if shutil.which("sudo") and subprocess.run(["sudo", "-n", "true"], capture_output=True).returncode == 0:
        leave_out("root is needed, and sudo gives it: run the tests by sudo")
    lacks("root is needed")
