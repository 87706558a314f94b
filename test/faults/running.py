"""The programs as they run: under the shim, to their end, or as a daemon with its clients."""
from __future__ import annotations

import errno
import os
import signal
import socket
import subprocess
import time
from pathlib import Path
from typing import Any, Mapping, NamedTuple, Optional, Union

from faults.processes import PATIENCE, stop
from faults.programs import built
from protocol import Answer, split_answers


class Ran(NamedTuple):
    """How a program ended: its status (negative: the signal), what it wrote, and its lines."""

    status: int
    output: bytes
    errors: bytes


def environment(image: Optional[str] = None, log: Union[str, Path, None] = None, rules: str = "",
                more: Optional[Mapping[str, str]] = None) -> dict[str, str]:
    """The environment of a program, under the shim where a log or rules are asked for."""
    found = {name: value for name, value in os.environ.items() if not name.startswith(("FAULT_", "ALLOC_", "LD_"))}
    if log is not None or rules:
        found["LD_PRELOAD"] = built().shim
        found["FAULT_IMAGE"] = image or ""
        found["FAULT_RULES"] = rules
        if log is not None:
            found["FAULT_LOG"] = str(log)
    found.update(more or {})
    return found


class Client:
    """A connection to a daemon."""

    def __init__(self, path: Union[str, Path], patience: float = PATIENCE) -> None:
        end = time.monotonic() + patience
        while True:
            self.socket = socket.socket(socket.AF_UNIX, socket.SOCK_STREAM)
            try:
                # The path is there a moment before connections are taken.
                self.socket.connect(str(path))
                break
            except (FileNotFoundError, ConnectionRefusedError):
                self.socket.close()
                if time.monotonic() > end:
                    raise
                time.sleep(0.005)
        self.socket.settimeout(PATIENCE)
        self.waiting = b""

    def send(self, data: bytes) -> None:
        self.socket.sendall(data)

    def end(self) -> None:
        """Says that nothing more will be sent."""
        self.socket.shutdown(socket.SHUT_WR)

    def answer(self) -> Optional[Answer]:
        """The next answer, or None where the daemon ended the connection before it was whole."""
        while True:
            answers, _ = split_answers(self.waiting)
            if answers:
                length = 4 + int.from_bytes(self.waiting[:4], "little")
                self.waiting = self.waiting[length:]
                return answers[0]
            try:
                piece = self.socket.recv(1 << 16)
            except ConnectionResetError:
                return None
            if not piece:
                return None
            self.waiting += piece

    def ask(self, data: bytes) -> Optional[Answer]:
        """Sends a frame, and waits for its answer."""
        try:
            self.send(data)
        except (BrokenPipeError, ConnectionResetError):
            return None
        return self.answer()

    def close(self) -> None:
        self.socket.close()

    def __enter__(self) -> Client:
        return self

    def __exit__(self, *_: object) -> None:
        self.close()


class Daemon:
    """A daemon on an image, which is killed and whose socket is removed at the end."""

    def __init__(self, folder: Union[str, Path], image: str = "d.img", *words: str, socket_name: str = "s",
                 log: Union[str, Path, None] = None, rules: str = "", more: Optional[Mapping[str, str]] = None,
                 **popen: Any) -> None:
        self.folder = Path(folder)
        self.path = self.folder / socket_name
        self.lines = self.folder / (socket_name + ".errors")
        self.is_logged = log is not None
        popen.setdefault("stdin", subprocess.DEVNULL)
        popen.setdefault("stdout", subprocess.DEVNULL)
        with open(self.lines, "wb") as errors:
            popen.setdefault("stderr", errors)
            self.process = subprocess.Popen([built().udfburnd, image, socket_name, *words], cwd=self.folder,
                                            env=environment(image, log, rules, more), **popen)

    def client(self) -> Client:
        """A connection, where the daemon still runs."""
        end = time.monotonic() + PATIENCE
        while True:
            if self.process.poll() is not None:
                raise AssertionError("the daemon ended with %d: %r" % (self.process.returncode, self.errors()))
            try:
                return Client(self.path, patience=0.0)
            except OSError as fault:
                if fault.errno not in (errno.ENOENT, errno.ECONNREFUSED) or time.monotonic() > end:
                    raise
                time.sleep(0.002)

    def errors(self) -> bytes:
        return self.lines.read_bytes()

    def kill(self) -> None:
        if self.process.poll() is None:
            if self.is_logged:
                # Between two calls: inside one it might leave a part of a record in its log.
                stop(self.process.pid)
            self.process.send_signal(signal.SIGKILL)
        self.process.wait()

    def wait(self, patience: float = PATIENCE) -> int:
        """The status of a daemon that ends by itself."""
        return self.process.wait(patience)

    def __enter__(self) -> Daemon:
        return self

    def __exit__(self, *_: object) -> None:
        self.kill()
        try:
            self.path.unlink()
        except FileNotFoundError:
            pass
