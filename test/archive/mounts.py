"""Mounts by this machine's kernel."""

from __future__ import annotations

import errno
import os
import signal
import stat
import subprocess
import sys
import tempfile
import time
import unittest
from contextlib import contextmanager, suppress
from typing import Iterator, List, Optional

from .support import PATIENCE, environment

LACKS = "this machine lacks"
"""How the reason begins of a test that no machine without FUSE can run: it is no failure in CI."""

PROBE = "import pyfuse3, sys; pyfuse3.init(pyfuse3.Operations(), sys.argv[1], set()); pyfuse3.close()"


def lacking() -> Optional[str]:
    """What this machine lacks of a mount; None where it can mount."""
    if not os.path.exists("/dev/fuse") and os.getuid() == 0:
        # A kernel may have FUSE, and nobody have made its device.
        with suppress(OSError):
            os.mknod("/dev/fuse", stat.S_IFCHR | 0o666, os.makedev(10, 229))
    if subprocess.run([sys.executable, "-c", "import pyfuse3"], stderr=subprocess.DEVNULL, check=False).returncode:
        return "python3-pyfuse3 is missing"
    with tempfile.TemporaryDirectory() as folder:
        done = subprocess.run([sys.executable, "-c", PROBE, folder], stderr=subprocess.DEVNULL, check=False)
    return f"{LACKS} FUSE, or lets nobody mount" if done.returncode else None


class Mount:
    """A mount under way: its process, its folder, and what it printed."""

    def __init__(self, words: List[str], folder: str):
        self.folder = folder
        self.output = tempfile.TemporaryFile()
        self.errors = tempfile.TemporaryFile()
        self.process = subprocess.Popen(
            [sys.executable, "-m", *words], env=environment(), stdout=self.output, stderr=self.errors, stdin=subprocess.DEVNULL, start_new_session=True,
        )
        limit = time.monotonic() + PATIENCE
        while b"mounted" not in self.said() and self.process.poll() is None:
            if time.monotonic() > limit:
                raise AssertionError(f"nothing was mounted: {self.told()}")
            time.sleep(0.02)

    def said(self) -> bytes:
        return os.pread(self.output.fileno(), 1 << 20, 0)

    def told(self) -> str:
        """What it printed as errors."""
        return os.pread(self.errors.fileno(), 1 << 20, 0).decode(errors="replace")

    def path(self, *names: str) -> str:
        return os.path.join(self.folder, *names)

    def memory(self) -> int:
        """The most memory that it had, in bytes."""
        with open(f"/proc/{self.process.pid}/status", encoding="ascii") as file:
            return next(int(line.split()[1]) for line in file if line.startswith("VmHWM:")) * 1024

    def end(self, number: Optional[int] = None) -> int:
        """Ends it by a signal, or as a user unmounts; gives its status."""
        if number is None:
            subprocess.run(["fusermount3", "-u", self.folder], check=True)
        else:
            self.process.send_signal(number)
        return self.process.wait(PATIENCE)

    def close(self) -> None:
        """Leaves nothing mounted."""
        with suppress(ProcessLookupError):
            self.process.send_signal(signal.SIGINT)
        try:
            self.process.wait(30)
        except subprocess.TimeoutExpired:
            self.process.kill()
            self.process.wait()
        subprocess.run(["fusermount3", "-q", "-u", "-z", self.folder], stderr=subprocess.DEVNULL, check=False)
        self.output.close()
        self.errors.close()


@contextmanager
def mounted(words: List[str], folder: str) -> Iterator[Mount]:
    """A mount that is there."""
    found = Mount(words, folder)
    try:
        if found.process.poll() is not None:
            raise AssertionError(f"nothing was mounted: {found.told()}")
        yield found
    finally:
        found.close()


def is_mounted(folder: str) -> bool:
    with open("/proc/self/mounts", "rb") as file:
        return os.fsencode(folder) in [line.split()[1] for line in file]


class WithMounts(unittest.TestCase):
    """Tests that mount."""

    lacks: Optional[str] = None

    @classmethod
    def setUpClass(cls) -> None:
        cls.lacks = lacking()

    def setUp(self) -> None:
        if self.lacks is not None:
            self.skipTest(self.lacks)
        super().setUp()

    def require_error(self, number: int, path: str) -> None:
        """Reading a file fails with an error of the system, and gives no byte: also when it is asked for again, and in parts."""
        for _ in range(3):
            with self.assertRaises(OSError) as failed:
                with open(path, "rb", buffering=0) as file:
                    self.require_none(file.fileno())
            self.assertEqual(failed.exception.errno, number, errno.errorcode.get(failed.exception.errno or 0))

    def require_none(self, descriptor: int) -> None:
        """An open file gives no byte, wherever it is read."""
        error: Optional[OSError] = None
        for at in (0, 4096, 0, 1 << 17):
            try:
                self.assertEqual(os.pread(descriptor, 4096, at), b"")
            except OSError as failed:
                error = failed
        if error is not None:
            raise error
