"""Processes seen from outside."""
from __future__ import annotations

import os
import signal
import time
from pathlib import Path
from typing import Callable

# Seconds after which a program that should have ended, or an answer that should have come, counts as missing. It is more than any
# machine takes, and more than the daemon waits for a client.
PATIENCE = 300.0


def await_true(question: Callable[[], bool], patience: float = PATIENCE, pause: float = 0.001) -> bool:
    """Whether the question is answered by yes before patience ends."""
    end = time.monotonic() + patience
    while not question():
        if time.monotonic() > end:
            return False
        time.sleep(pause)
    return True


def fields_of(process: int) -> list[str]:
    # The name in brackets may hold anything, so the fields are counted from after it.
    return Path("/proc/%d/stat" % process).read_text().rpartition(")")[2].split()


def state_of(process: int) -> str:
    """R, S, D, T (stopped), Z (ended), or X where there is none."""
    try:
        return fields_of(process)[0]
    except OSError:
        return "X"


def stop(process: int) -> None:
    """Stops a process, and waits until it is."""
    os.kill(process, signal.SIGSTOP)
    if not await_true(lambda: state_of(process) in "TZX"):
        raise AssertionError("the process did not stop")
