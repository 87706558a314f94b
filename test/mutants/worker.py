"""Runs tests of changed functions: `worker.py`, which takes a JSON object a line and answers each with one.

An object has `tests`, which are imported. It may have `path`, the changed module below the package; `function`, where the change is; and
`seconds`, after which the tests are ended. The answer has `caught`: the test that failed, or null. To import the client and its tests
takes longer than most tests do, so each change is tried in a child of this process, which imports them once: the child gives the
function the code that it has by now."""

from __future__ import annotations

import gc
import importlib
import io
import json
import os
import resource
import shutil
import signal
import sys
import tempfile
import time
import unittest
from pathlib import Path
from types import CodeType
from typing import Any, Dict, List, Optional

PACKAGE = "udfburn"
PROCESSOR = 600
"""Seconds of processor time after which a process ends that a change has led astray."""


def code_of(whole: CodeType, names: List[str]) -> Optional[CodeType]:
    """The code of a function within that of its module."""
    for name in names:
        found = [part for part in whole.co_consts if isinstance(part, CodeType) and part.co_name == name]
        if not found:
            return None
        whole = found[-1]
    return whole


def function_of(module: Any, names: List[str]) -> Any:
    """The function itself, without what decorates it."""
    found = module
    for name in names:
        found = vars(found).get(name)
        if found is None:
            return None
    found = getattr(found, "fget", None) or getattr(found, "__func__", None) or found
    while hasattr(found, "__wrapped__"):
        found = found.__wrapped__
    return found


def changed(path: str, function: str) -> bool:
    """Gives a function the code that its module has by now. False where this does not do what an import would."""
    module = sys.modules.get(f"{PACKAGE}.{path[:-3].replace('/', '.')}")
    if module is None:
        return True
    names = function.split(".") if function else []
    found = function_of(module, names) if names else None
    assert module.__file__
    source = Path(module.__file__).read_text(encoding="utf-8")
    new = code_of(compile(source, module.__file__, "exec"), names)
    old = getattr(found, "__code__", None)
    if new is None or old is None or new == old or new.co_freevars != old.co_freevars:
        return False
    found.__code__ = new
    return True


def first_failure(names: List[str]) -> Optional[str]:
    """The first of the tests that fails."""
    suite = unittest.TestSuite(unittest.defaultTestLoader.loadTestsFromName(name) for name in names)
    result = unittest.TextTestRunner(io.StringIO(), failfast=True).run(suite)
    failed = [str(test) for test, _ in (*result.failures, *result.errors)]
    return failed[0] if failed else None


def tried(request: Dict[str, Any], room: str, answer: int) -> None:
    """Runs the tests in this process, which is a child, and writes the answer."""
    os.setsid()
    resource.setrlimit(resource.RLIMIT_CPU, (PROCESSOR, PROCESSOR))
    os.environ["TMPDIR"] = tempfile.tempdir = room
    if not changed(request["path"], request["function"]):
        os.execv(sys.executable, [sys.executable, __file__, str(answer), *request["tests"]])
    os.write(answer, json.dumps({"caught": first_failure(request["tests"])}).encode())


def imported(tests: List[str]) -> Dict[str, Any]:
    """Imports the modules of tests, which is to be done before a change."""
    for name in tests:
        importlib.import_module(".".join(name.split(".")[:2]))
    gc.freeze()
    return {"caught": None}


def answered(request: Dict[str, Any]) -> Dict[str, Any]:
    """Tries a change in a child."""
    room = tempfile.mkdtemp()
    answer, end = os.pipe()
    os.set_inheritable(end, True)
    child = os.fork()
    if not child:
        try:
            tried(request, room, end)
        finally:
            os._exit(1)
    os.close(end)
    limit = time.monotonic() + request["seconds"]
    while not os.waitpid(child, os.WNOHANG)[0]:
        if time.monotonic() > limit:
            os.killpg(child, signal.SIGKILL)
            os.waitpid(child, 0)
            break
        time.sleep(0.02)
    with open(answer, "rb") as file:
        os.set_blocking(answer, False)
        said = file.read() or b""
    shutil.rmtree(room, ignore_errors=True)
    found: Dict[str, Any] = json.loads(said) if said else {"caught": "no test: it did not end in time, or ended the process"}
    return found


def main() -> None:
    if sys.argv[1:]:
        # Where a function cannot be changed, its module is imported anew.
        os.write(int(sys.argv[1]), json.dumps({"caught": first_failure(sys.argv[2:])}).encode())
        return
    for line in sys.stdin:
        request = json.loads(line)
        print(json.dumps(answered(request) if "path" in request else imported(request["tests"])), flush=True)


if __name__ == "__main__":
    sys.path[0] = os.getcwd()
    main()
