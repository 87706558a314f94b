"""Copies of the repository in which a module can be changed, and tests that are run there."""

from __future__ import annotations

import hashlib
import json
import os
import resource
import shutil
import signal
import subprocess
import sys
import tempfile
from pathlib import Path
from typing import Any, Dict, Iterator, List, NamedTuple, Optional, Tuple

TOP = Path(__file__).resolve().parents[2]
HERE = Path(__file__).resolve().parent
MEMORY = 8 << 30
"""Bytes of addresses that a process may have: a change may ask for any number."""
LONGEST_FILE = 2 << 30
"""Bytes of a file that a process writes."""


class Suite(NamedTuple):
    """Tests of one kind."""

    folder: str
    """Where they are run, below the top."""
    package: str
    """Their package, in that folder."""
    python: str


SUITES = [
    Suite("clients/python", "tests", sys.executable),
    # Debian's Python has the driver of PostgreSQL.
    Suite("test", "archive", "/usr/bin/python3" if os.access("/usr/bin/python3", os.X_OK) else sys.executable),
]


def suite_of(test: str) -> Suite:
    """The suite of a test, by its name."""
    return next(suite for suite in SUITES if test.split(".")[0] == suite.package)


def by_suite(tests: List[str]) -> Iterator[Tuple[Suite, List[str]]]:
    """The tests of each suite that has some."""
    for suite in SUITES:
        names = [test for test in tests if suite_of(test) is suite]
        if names:
            yield suite, names


class Lane:
    """A copy of the client and of the tests; all else is linked."""

    def __init__(self, top: Path) -> None:
        self.top = top
        self.package = top / "clients/python/udfburn"
        self.workers: Dict[str, "subprocess.Popen[bytes]"] = {}
        os.mkdir(top)
        for path in TOP.iterdir():
            if path.name in ("clients", "test"):
                shutil.copytree(path, top / path.name, symlinks=True)
            elif path.name != ".git":
                os.symlink(path, top / path.name)
        subprocess.run([sys.executable, "-m", "compileall", "-q", str(top / "clients"), str(top / "test")], check=True)

    def environment(self, room: str) -> Dict[str, str]:
        """The environment of tests, with a folder for temporary files."""
        client = self.top / "clients/python"
        found = {**os.environ, "TMPDIR": room, "PACKAGE": str(client), "PYTHONPATH": f"{client}{os.pathsep}{self.top / 'test'}"}
        return {**found, "UDFBURN_LEDGER": "/nonexistent/ledger", "UDFBURN_SOCKET": "", "PYTHONDONTWRITEBYTECODE": "1", "PYTHONUTF8": "1"}

    def traced(self, names: List[str]) -> Dict[str, Any]:
        """The tests of modules that pass: how many seconds each takes, and which lines it runs, as 'PATH LINE'."""
        suite = suite_of(names[0])
        client = self.top / "clients/python"
        for name in ("sitecustomize.py", "traced.py"):
            shutil.copy(HERE / name, client)
        with tempfile.TemporaryDirectory() as room:
            out, seen = os.path.join(room, "out"), os.path.join(room, "lines")
            environment = {**self.environment(room), "MUTANTS_LINES": seen, "MUTANTS_PACKAGE": str(self.package)}
            self.run([suite.python, str(client / "traced.py"), out, *names], suite, environment, 3000)
            with open(out, encoding="utf-8") as file:
                found: Dict[str, Any] = json.load(file)
        os.remove(client / "sitecustomize.py")
        return found

    def imports(self, tests: List[str]) -> None:
        """Has tests imported, before a module is changed."""
        for suite, names in by_suite(tests):
            self.ask(suite, {"tests": names})

    def fails(self, path: str, function: str, tests: List[str], seconds: float) -> Optional[str]:
        """The first of the tests that fails since a function of a module was changed; None where all pass."""
        for suite, names in by_suite(tests):
            caught = self.ask(suite, {"path": path, "function": function, "tests": names, "seconds": seconds})
            if caught:
                return caught
        return None

    def ask(self, suite: Suite, request: Dict[str, Any]) -> Optional[str]:
        """What a worker answers."""
        worker = self.worker(suite)
        assert worker.stdin and worker.stdout
        worker.stdin.write(json.dumps(request).encode() + b"\n")
        worker.stdin.flush()
        caught: Optional[str] = json.loads(worker.stdout.readline())["caught"]
        return caught

    def worker(self, suite: Suite) -> "subprocess.Popen[bytes]":
        """The process that runs tests of a suite."""
        if suite.package not in self.workers:
            words = [*namespace(), suite.python, str(HERE / "worker.py")]
            self.workers[suite.package] = subprocess.Popen(
                words, cwd=self.top / suite.folder, env=self.environment(tempfile.gettempdir()), stdin=subprocess.PIPE, stdout=subprocess.PIPE,
                start_new_session=True, preexec_fn=limited,
            )
        return self.workers[suite.package]

    def close(self) -> None:
        """Ends the workers, and all that they started."""
        for worker in self.workers.values():
            os.killpg(worker.pid, signal.SIGKILL)
            worker.communicate()

    def run(self, words: List[str], suite: Suite, environment: Dict[str, str], seconds: float) -> Tuple[Optional[int], str]:
        """Runs a program and all that it starts, which end with it: its status and output. The status is None where it did not end."""
        process = subprocess.Popen(
            [*namespace(), *words], cwd=self.top / suite.folder, env=environment, stdin=subprocess.DEVNULL, stdout=subprocess.PIPE,
            stderr=subprocess.STDOUT, start_new_session=True, preexec_fn=limited,
        )
        try:
            output, _ = process.communicate(timeout=seconds)
            return process.returncode, output.decode(errors="replace")
        except subprocess.TimeoutExpired:
            os.killpg(process.pid, signal.SIGKILL)
            process.communicate()
            return None, ""


def namespace() -> List[str]:
    """What begins a command with which all ends that it starts."""
    return ["unshare", "--pid", "--fork", "--kill-child", "--mount-proc"] if os.geteuid() == 0 else []


def limited() -> None:
    """Limits a process that a change may lead astray."""
    os.nice(12)
    resource.setrlimit(resource.RLIMIT_AS, (MEMORY, MEMORY))
    resource.setrlimit(resource.RLIMIT_FSIZE, (LONGEST_FILE, LONGEST_FILE))


def digest(path: Path) -> str:
    """The SHA-256 of a file, or of the Python modules below a folder."""
    whole = hashlib.sha256()
    for each in sorted(path.rglob("*.py")) if path.is_dir() else [path]:
        whole.update(each.read_bytes())
    return whole.hexdigest()
