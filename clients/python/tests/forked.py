"""Commands of a package, run in children of a process that has imported it already: to start Python and to import a package takes longer
than most commands do.

A child becomes what `python3 -m PACKAGE` is: a process with its own streams, words, folder, umask and environment, which ends as Python
does. The tests' own process is not forked, since it has threads, patches and what earlier tests left."""

from __future__ import annotations

import atexit
import gc
import json
import os
import runpy
import selectors
import signal
import socket
import subprocess
import sys
import time
from contextlib import suppress
from importlib import import_module
from typing import Dict, List, Mapping, NamedTuple, Optional, Sequence, Set

LONGEST = 1 << 20
"""Bytes of a message or a piece at most."""

AT_START = ("PYTHON", "LC_", "LANG", "LD_", "MALLOC_", "TZ")
"""How the names of variables begin that are read when a process starts, and would be too late in a child."""


class Request(NamedTuple):
    """What a child is to run."""

    folder: str
    mask: int
    environment: Dict[str, str]
    words: List[str]


def read_at_start(environment: Mapping[str, str]) -> Dict[str, str]:
    return {name: value for name, value in environment.items() if name.startswith(AT_START)}


def current_mask() -> int:
    mask = os.umask(0o077)
    os.umask(mask)
    return mask


class Commands:
    """The commands of a package."""

    def __init__(self, package: str, modules: Sequence[str]) -> None:
        self.package = package
        self.modules = list(modules)
        """What is imported before the first child."""
        self.tried: Set[str] = set()
        self.forks: Optional[Forks] = None

    def run(
        self, words: Sequence[str], environment: Mapping[str, str], folder: str, patience: Optional[float] = None,
    ) -> "subprocess.CompletedProcess[bytes]":
        """Runs a command to its end, as `subprocess.run` does. The first one of each name has a Python of its own, as users have it, and so
        has one for which Python would start in another way. With ANEW=1 in the environment each command has its own."""
        is_first = words[0] not in self.tried or os.environ.get("ANEW") == "1"
        self.tried.add(words[0])
        if not is_first and self.forks is None:
            self.forks = Forks(self.package, self.modules, environment)
        if is_first or self.forks is None or self.forks.started != read_at_start(environment):
            line = [sys.executable, "-m", self.package, *words]
            return subprocess.run(line, env=environment, capture_output=True, timeout=patience, cwd=folder, check=False)
        try:
            return self.forks.run(Request(folder, current_mask(), dict(environment), list(words)), patience)
        except BaseException:
            # What it sends next would be of this command.
            self.forks.close()
            self.forks = None
            raise


class Forks:
    """The process that has imported the package. It does nothing with it, so that each child begins with it as it was imported."""

    def __init__(self, package: str, modules: Sequence[str], environment: Mapping[str, str]) -> None:
        self.started = read_at_start(environment)
        self.control, other = socket.socketpair(socket.AF_UNIX, socket.SOCK_SEQPACKET)
        with other:
            self.process = subprocess.Popen(
                [sys.executable, os.path.abspath(__file__), str(other.fileno()), package, *modules], env=environment, pass_fds=[other.fileno()],
                # Its standard streams are made for pipes, as those of a command whose output is read.
                stdout=subprocess.PIPE, stderr=subprocess.STDOUT,
            )
        atexit.register(self.close)

    def close(self) -> None:
        """Ends it, also where a process that a test has forked still has this end."""
        with suppress(OSError):
            self.control.shutdown(socket.SHUT_RDWR)
        self.control.close()
        self.process.wait()
        assert self.process.stdout
        self.process.stdout.close()

    def run(self, request: Request, patience: Optional[float]) -> "subprocess.CompletedProcess[bytes]":
        """Has a child run a command, and kills it where it does not end in time."""
        pipes = [os.pipe(), os.pipe()]
        ends = [end for end, _ in pipes]
        try:
            child = self.begun(request, [end for _, end in pipes])
            try:
                output, errors, status = self.gathered(ends, patience)
            except BaseException:
                with suppress(ProcessLookupError):
                    os.kill(child, signal.SIGKILL)
                raise
        finally:
            for end in ends:
                os.close(end)
        return subprocess.CompletedProcess(request.words, self.number(status), output, errors)

    def begun(self, request: Request, ends: Sequence[int]) -> int:
        """Begins a child with these ends of pipes, which are closed here, and gives its number."""
        try:
            socket.send_fds(self.control, [json.dumps(request).encode()], ends)
            return self.number(self.control.recv(LONGEST))
        except ConnectionError:
            return self.number(b"")
        finally:
            for end in ends:
                os.close(end)

    def gathered(self, ends: Sequence[int], patience: Optional[float]) -> List[bytes]:
        """All that comes from pipes until they are closed, and the message with the status."""
        limit = None if patience is None else time.monotonic() + patience
        found = {end: bytearray() for end in (*ends, self.control.fileno())}
        with selectors.DefaultSelector() as selector:
            for end in found:
                selector.register(end, selectors.EVENT_READ)
            while selector.get_map():
                ready = selector.select(None if limit is None else max(0.0, limit - time.monotonic()))
                if not ready:
                    raise TimeoutError(f"a command did not end in {patience} seconds")
                for key, _ in ready:
                    piece = os.read(key.fd, LONGEST)
                    found[key.fd] += piece
                    if not piece or key.fd not in ends:
                        selector.unregister(key.fd)
        return [bytes(data) for data in found.values()]

    def number(self, message: bytes) -> int:
        """The number that is in a message. An empty one is the end of the process, which has printed why."""
        if not message:
            assert self.process.stdout
            raise AssertionError(f"the process that runs commands has ended: {self.process.stdout.read().decode(errors='replace')}")
        return int(message)


def next_request(control: socket.socket) -> Optional[Request]:
    """Forks a child for each request, and sends the child's number, and then its status. Returns in each child; in this process None once
    the tests are over."""
    while True:
        message, ends, _, _ = socket.recv_fds(control, LONGEST, 2)
        if not message:
            return None
        child = os.fork()
        if child == 0:
            control.close()
            for end, standard in zip(ends, (1, 2)):
                os.dup2(end, standard)
                os.close(end)
            return Request(*json.loads(message))
        for end in ends:
            os.close(end)
        control.send(b"%d" % child)
        _, status = os.waitpid(child, 0)
        control.send(b"%d" % os.waitstatus_to_exitcode(status))


def main() -> None:
    """Imports modules, and runs commands in children. What a command raises ends its child, as it ends Python."""
    package, *modules = sys.argv[2:]
    for module in modules:
        import_module(module)
    # What is there now is not looked through when a child collects, or ends.
    gc.freeze()
    request = next_request(socket.socket(fileno=int(sys.argv[1])))
    if request is None:
        return
    os.chdir(request.folder)
    os.umask(request.mask)
    os.environ.clear()
    os.environ.update(request.environment)
    sys.path[0] = request.folder
    sys.argv[1:] = request.words
    runpy.run_module(package, run_name="__main__", alter_sys=True)


if __name__ == "__main__":
    main()
