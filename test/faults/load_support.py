"""What the tests under load share: processes seen from outside, an `apply` that holds its image, and requests as a die falls.

It has no tests of its own.
"""
from __future__ import annotations

import contextlib
import functools
import os
import random
import select
import signal
import subprocess
import threading
import time
import unittest
from concurrent.futures import ThreadPoolExecutor
from pathlib import Path
from typing import Any, Callable, Iterable, Iterator, Optional, Sequence, TypeVar, Union

from faults import case
from faults.case import need_shim
from faults.processes import PATIENCE, fields_of
from faults.programs import built, need_way
from faults.running import Client, Daemon, Ran, environment
from protocol import MEMORY, Answer, Directory, Model, Request, encode, names_of, query, split_answers


Item = TypeVar("Item")

# A user who owns nothing here.
NOBODY = 65534


def in_pairs(work: Callable[[Item], None], items: Iterable[Item]) -> None:
    """Does the work on each item, two at once. The first failure is raised when all is done."""
    with ThreadPoolExecutor(2) as pool:
        waiting = [pool.submit(work, item) for item in items]
    for done in waiting:
        done.result()


@contextlib.contextmanager
def during(what: str) -> Iterator[None]:
    """Reports in which round of many a failure came. The rounds after it would show nothing more."""
    try:
        yield
    except AssertionError as fault:
        raise AssertionError("%s: %s" % (what, fault)) from fault


@functools.lru_cache(maxsize=None)
def has_shim() -> bool:
    """Whether the programs take the shim."""
    try:
        need_shim()
    except unittest.SkipTest:
        return False
    return True


def as_nobody() -> dict[str, Any]:
    """The words for a process of a user who may not write what others made. Without root the user is one whom a mode stops."""
    if os.geteuid() != 0:
        return {}
    need_way()
    return {"user": NOBODY, "group": NOBODY, "extra_groups": []}


def _brief(value: object) -> str:
    """A value in few characters: bytes by their length and their ends."""
    if isinstance(value, bytes) and len(value) > 200:
        return "%d bytes %r..%r" % (len(value), value[:60], value[-60:])
    if isinstance(value, Answer):
        return "Answer(%d, %s)" % (value.code, _brief(value.rest))
    if isinstance(value, Ran):
        return "Ran(%d, %s, %s)" % (value.status, _brief(value.output), _brief(value.errors))
    text = repr(value)
    return text if len(text) <= 1500 else text[:700] + " .. " + text[-700:]


class Case(case.Case):
    """A test that reports in few words what differs: what is compared here may be long, and unittest would seek for hours."""

    def assertEqual(self, first: Any, second: Any, msg: Any = None) -> None:
        if first == second:
            return
        what = "" if msg is None else "%s: " % (msg,)
        if isinstance(first, (list, tuple)) and isinstance(second, (list, tuple)) and type(first) is type(second):
            for place, (one, other) in enumerate(zip(first, second)):
                if one != other:
                    what += "%d and %d items, at %d: " % (len(first), len(second), place)
                    raise self.failureException("%s%s is not %s" % (what, _brief(one), _brief(other)))
            what += "%d items are not %d: " % (len(first), len(second))
        if isinstance(first, bytes) and isinstance(second, bytes):
            same = next((at for at, (one, other) in enumerate(zip(first, second)) if one != other), min(len(first), len(second)))
            what += "from byte %d on: " % same
        raise self.failureException("%s%s is not %s" % (what, _brief(first), _brief(second)))


# ---- Processes seen from outside ------------------------------------------------------------------------------------------------


def memory_of(process: int) -> dict[str, int]:
    """VmRSS and VmHWM in KiB."""
    found = {}
    for line in Path("/proc/%d/status" % process).read_text().splitlines():
        name, _, rest = line.partition(":")
        if name in ("VmRSS", "VmHWM"):
            found[name] = int(rest.split()[0])
    return found


def descriptors_of(process: int) -> list[int]:
    return sorted(int(name) for name in os.listdir("/proc/%d/fd" % process))


def seconds_of(process: int) -> float:
    """The processor time, of the process and of the kernel for it."""
    fields = fields_of(process)
    return (int(fields[11]) + int(fields[12])) / os.sysconf("SC_CLK_TCK")


def write_all(descriptor: int, data: bytes) -> None:
    """Writes into a pipe, whose writer may be woken with a part of it done."""
    while data:
        data = data[os.write(descriptor, data):]


# ---- Writers --------------------------------------------------------------------------------------------------------------------


class Writer:
    """A process that was asked to write an image, whether it got it or not."""

    name = ""
    process: subprocess.Popen[bytes]

    def has_ended(self) -> bool:
        return self.process.poll() is not None

    def give(self, frames: bytes) -> None:
        """Sends frames, where the process still runs."""
        raise NotImplementedError

    def take(self) -> Optional[Answer]:
        """The next answer, or None where the process ended without it."""
        raise NotImplementedError

    def errors(self) -> bytes:
        raise NotImplementedError

    def end(self) -> int:
        """Lets the process end by itself, and answers its status."""
        raise NotImplementedError

    def kill(self) -> None:
        raise NotImplementedError


class Applying(Writer):
    """An `apply` whose input stays open, so that it holds its image."""

    name = "udfburn"

    patience = PATIENCE

    def __init__(self, folder: Path, number: Union[int, str], image: str = "d.img", log: Union[str, Path, None] = None, rules: str = "",
                 **popen: Any) -> None:
        self.lines = folder / ("a%s.errors" % number)
        self.waiting = b""
        with open(self.lines, "wb") as errors:
            self.process = subprocess.Popen([built().udfburn, "apply", image], cwd=folder, stdin=subprocess.PIPE,
                                            stdout=subprocess.PIPE, stderr=errors, bufsize=0,
                                            env=environment(image, log, rules), **popen)

    def give(self, frames: bytes) -> None:
        assert self.process.stdin is not None
        try:
            write_all(self.process.stdin.fileno(), frames)
        except BrokenPipeError:
            pass

    def take(self) -> Optional[Answer]:
        assert self.process.stdout is not None
        end = time.monotonic() + self.patience
        while True:
            answers, _ = split_answers(self.waiting)
            if answers:
                self.waiting = self.waiting[4 + int.from_bytes(self.waiting[:4], "little"):]
                return answers[0]
            if not select.select([self.process.stdout], [], [], max(0.0, end - time.monotonic()))[0]:
                raise AssertionError("no answer came")
            piece = os.read(self.process.stdout.fileno(), 1 << 16)
            if not piece:
                self.process.wait(PATIENCE)
                return None
            self.waiting += piece

    def errors(self) -> bytes:
        return self.lines.read_bytes()

    def end(self) -> int:
        assert self.process.stdin is not None
        self.process.stdin.close()
        return self.process.wait(PATIENCE)

    def kill(self) -> None:
        for stream in (self.process.stdin, self.process.stdout):
            if stream is not None:
                stream.close()
        if self.process.poll() is None:
            self.process.send_signal(signal.SIGKILL)
        self.process.wait()


class Serving(Writer):
    """A daemon that ends after its first connection."""

    name = "udfburnd"

    def __init__(self, folder: Path, number: Union[int, str], image: str = "d.img", log: Union[str, Path, None] = None, rules: str = "",
                 **popen: Any) -> None:
        self.daemon = Daemon(folder, image, "--connections", "1", socket_name="s%s" % number, log=log, rules=rules, **popen)
        self.process = self.daemon.process
        self.client: Optional[Client] = None

    def give(self, frames: bytes) -> None:
        if self.client is None:
            self.client = connect_or_none(self.daemon)
        if self.client is not None:
            self.client.send(frames)

    def take(self) -> Optional[Answer]:
        return None if self.client is None else self.client.answer()

    def errors(self) -> bytes:
        return self.daemon.errors()

    def end(self) -> int:
        if self.client is not None:
            self.client.close()
        status = self.daemon.wait()
        self.daemon.path.unlink()
        return status

    def kill(self) -> None:
        if self.client is not None:
            self.client.close()
        self.daemon.kill()
        self.daemon.path.unlink(missing_ok=True)


def connect_or_none(daemon: Daemon) -> Optional[Client]:
    """A connection, or None where the daemon ended before it took one."""
    end = time.monotonic() + PATIENCE
    while True:
        try:
            return Client(daemon.path, patience=0.0)
        except (FileNotFoundError, ConnectionRefusedError):
            if daemon.process.poll() is not None:
                return None
            if time.monotonic() > end:
                raise
            time.sleep(0.0005)


# ---- Requests as a die falls ----------------------------------------------------------------------------------------------------

PATHS = ["/a", "/b", "/c", "/d", "/e", "/d/a", "/d/b", "/d/e", "/e/a", "/e/b", "/d/e/a", "/d/e/b", "/none/a"]
# In the entry, at its edges, outside of it, and more than one write of 32 blocks.
SIZES = [0, 5, 1872, 1873, 2048, 5000, 70000]


def converse(send: Callable[[], None], take: Callable[[], Optional[Answer]]) -> list[Answer]:
    """The answers up to the end, while a thread of its own sends."""
    sender = threading.Thread(target=send)
    sender.start()
    answers = []
    while (answer := take()) is not None:
        answers.append(answer)
    # Who answers has left the stream, so that a send fails which still goes on.
    sender.join()
    return answers


class Die:
    """Requests over few paths, so that they meet, by a seed that a failure reports."""

    def __init__(self, seed: int, clients: int = 3) -> None:
        self.random = random.Random(seed)
        self.clients = clients

    def data(self) -> bytes:
        size = self.random.choice(SIZES)
        return self.random.randbytes(size) if size else b""

    def request(self, model: Model) -> Request:
        """A new request of one of the clients, whose number is the next in this model."""
        fall = self.random
        client = fall.randint(1, self.clients)
        number = model.latest.get(client, 0) + 1
        kind = fall.choice(["create", "create", "create", "replace", "mkdir", "mkdir", "rename", "remove"])
        path, to = fall.choice(PATHS), fall.choice(PATHS) if kind == "rename" else ""
        data = self.data() if kind in ("create", "replace") else b""
        return Request(kind, client, number, path, data, to, fall.randrange(4_102_444_800_000_000))


def counted(model: Model) -> tuple[int, int]:
    """How many files and directories the tree has, the root included."""
    return model.tree.count()


def listing(model: Model, path: str) -> bytes:
    """What `ls` prints of a directory."""
    node = model.tree.at(names_of(path))
    assert isinstance(node, Directory)
    return b"".join(b"%c %s\n" % (b"d" if isinstance(child, Directory) else b"f", name.encode()) for name, child in node.names.items())


def log_lines(ran: Ran) -> list[tuple[int, int, int, int]]:
    """The lines of `log`: commit, address, files, directories, the newest first."""
    found = []
    for line in ran.output.decode().splitlines():
        commit, at, files, directories = (int(word) for word in line.split(" "))
        found.append((commit, at, files, directories))
    return found


def expect_answers(model: Model, messages: Sequence[Union[Request, tuple[str, str]]], answers: Sequence[Answer]) -> list[Answer]:
    """What these messages must have been answered, by a model that goes on with each request that was not refused for lack of memory.

    A message is a request or a query, of a kind and a path. The answers may end before the messages do."""
    found = []
    for message, answer in zip(messages, answers):
        if answer == Answer(MEMORY):
            found.append(answer)
        elif isinstance(message, Request):
            found.append(model.answer(message))
        else:
            kind, path = message
            found.append(model.get(path) if kind == "get" else model.names(path))
    return found


def spell_all(messages: Iterable[Union[Request, tuple[str, str]]]) -> bytes:
    return b"".join(encode(message) if isinstance(message, Request) else query(*message) for message in messages)
