"""Servers of the tests' own: PostgreSQL on a socket in a folder of its own, with a standby where that is asked for, and rclone."""

from __future__ import annotations

import atexit
import glob
import importlib.util
import os
import pwd
import re
import shutil
import signal
import subprocess
import tempfile
import time
import unittest
from contextlib import suppress
from typing import Any, List, Optional

from .support import COMMANDS, PATIENCE, children_of, state_of, wait_until

_kept: List[str] = []
"""The files of a server as `initdb` made them, once there are some."""


def programs() -> Optional[str]:
    """The folder of PostgreSQL's programs."""
    found = sorted(glob.glob("/usr/lib/postgresql/*/bin/initdb"), key=lambda path: int(path.split("/")[4]))
    return os.path.dirname(found[-1]) if found else None


def driver() -> bool:
    """Whether the driver is there."""
    return importlib.util.find_spec("psycopg") is not None


class Server:
    """A server of PostgreSQL. It refuses to run as root, so it is `postgres` where the tests are root."""

    def __init__(self, test: unittest.TestCase, primary: Optional["Server"] = None):
        folder = programs()
        if folder is None or not driver():
            test.skipTest("PostgreSQL or python3-psycopg is not installed")
        assert folder
        COMMANDS.modules.append("psycopg")
        self.programs = folder
        self.room = tempfile.mkdtemp(prefix="pg-")
        self.data = os.path.join(self.room, "data")
        self.user = pwd.getpwnam("postgres") if os.geteuid() == 0 else pwd.getpwuid(os.geteuid())
        os.chown(self.room, self.user.pw_uid, self.user.pw_gid)
        self.process: Optional["subprocess.Popen[bytes]"] = None
        test.addCleanup(shutil.rmtree, self.room, ignore_errors=True)
        test.addCleanup(self.stop)
        if primary is None:
            self._make_data()
        else:
            self._run("pg_basebackup", "-h", primary.room, "-U", "postgres", "-D", self.data, "-R", "-X", "stream", "-c", "fast", "--no-sync")
        self.start()

    def _as_user(self) -> Any:
        user = self.user

        def become() -> None:
            if os.geteuid() == 0:
                os.initgroups(user.pw_name, user.pw_gid)
                os.setgid(user.pw_gid)
                os.setuid(user.pw_uid)
        return become

    def _run(self, name: str, *words: str) -> None:
        subprocess.run(
            [os.path.join(self.programs, name), *words], check=True, stdout=subprocess.DEVNULL, stderr=subprocess.DEVNULL,
            preexec_fn=self._as_user(), cwd="/", timeout=PATIENCE,
        )

    def _make_data(self) -> None:
        """The files of a new server. Each server of this process has a copy of the first one's, as they were before it ran: to copy them
        takes a tenth of the time."""
        if not _kept:
            folder = tempfile.mkdtemp(prefix="pg-")
            os.chown(folder, self.user.pw_uid, self.user.pw_gid)
            atexit.register(shutil.rmtree, folder, ignore_errors=True)
            self._run("initdb", "-A", "trust", "-U", "postgres", "-E", "UTF8", "--no-sync", os.path.join(folder, "data"))
            _kept.append(os.path.join(folder, "data"))
        self._run(shutil.which("cp") or "cp", "-a", _kept[0], self.data)

    def start(self) -> None:
        """Starts it, and waits until it answers."""
        words = [os.path.join(self.programs, "postgres"), "-D", self.data, "-k", self.room, "-c", "listen_addresses=", "-c", "dynamic_shared_memory_type=mmap"]
        # Its own group: what is killed is the whole server.
        with open(os.path.join(self.room, "log"), "ab") as log:
            self.process = subprocess.Popen(words, stdout=log, stderr=log, preexec_fn=self._as_user(), cwd="/", start_new_session=True)
        limit = time.monotonic() + PATIENCE
        while subprocess.run([os.path.join(self.programs, "pg_isready"), "-h", self.room, "-q"], check=False).returncode:
            if time.monotonic() > limit or self.process.poll() is not None:
                with open(os.path.join(self.room, "log"), errors="replace") as log_file:
                    raise AssertionError("PostgreSQL does not start: " + log_file.read()[-2000:])
            time.sleep(0.05)

    def kill(self) -> None:
        """Kills it at once, and all its processes."""
        assert self.process
        # Each has a group of its own. While one is there that still writes, no other server starts on these files.
        others = children_of(self.process.pid)
        os.killpg(self.process.pid, signal.SIGKILL)
        self.process.wait()
        for other in others:
            with suppress(ProcessLookupError):
                os.kill(other, signal.SIGKILL)
        wait_until(lambda: all(state_of(other) in "ZX" for other in others))
        pid = os.path.join(self.data, "postmaster.pid")
        if os.path.exists(pid):
            os.unlink(pid)
        for name in os.listdir(self.room):
            if name.startswith(".s.PGSQL"):
                os.unlink(os.path.join(self.room, name))

    def stop(self) -> None:
        if self.process is not None and self.process.poll() is None:
            self.process.send_signal(signal.SIGQUIT)
            self.process.wait()

    def sql(self, statement: str, base: str = "postgres") -> List[Any]:
        import psycopg

        with psycopg.connect(self.url(base), autocommit=True) as connection:
            cursor = connection.execute(statement)
            return cursor.fetchall() if cursor.description else []

    def await_row(self, statement: str, base: str) -> None:
        """Waits until a statement gives a row. It asks on one connection: the server takes far longer to make one than to answer."""
        import psycopg

        with psycopg.connect(self.url(base), autocommit=True) as connection:
            wait_until(lambda: connection.execute(statement).fetchall())

    def url(self, base: str, *others: "Server") -> str:
        """What leads to a base. A connection has more than the ten seconds that it gets where a URL does not say it."""
        hosts = ",".join(server.room for server in (self, *others))
        return f"postgresql://postgres@/{base}?host={hosts}&connect_timeout={PATIENCE:.0f}"

    def new_base(self, name: str) -> str:
        """A base of its own, and its URL."""
        self.sql(f"CREATE DATABASE {name}")
        return self.url(name)

    def replicate(self, test: unittest.TestCase) -> "Server":
        """A standby to which each transaction goes before it is answered."""
        standby = Server(test, self)
        self.sql("ALTER SYSTEM SET synchronous_standby_names = '*'")
        self.sql("SELECT pg_reload_conf()")
        wait_until(lambda: self.sql("SELECT 1 FROM pg_stat_replication WHERE sync_state = 'sync'"))
        return standby

    def promote(self) -> None:
        self.sql("SELECT pg_promote()")


def webdav(test: unittest.TestCase, folder: str) -> str:
    """A remote of rclone over HTTP, which `rclone serve webdav` of the test's own serves."""
    if shutil.which("rclone") is None:
        test.skipTest("rclone is not installed")
    log = tempfile.TemporaryFile()
    test.addCleanup(log.close)
    # The system chooses a port that nobody has, and rclone says which.
    process = subprocess.Popen(["rclone", "serve", "webdav", folder, "--addr", "127.0.0.1:0", "--dir-cache-time", "0"], stdout=subprocess.DEVNULL, stderr=log)
    test.addCleanup(process.wait)
    test.addCleanup(process.kill)

    def served() -> "Optional[re.Match[bytes]]":
        return re.search(rb"started on \[?(http://127\.0\.0\.1:[0-9]+)/", os.pread(log.fileno(), 1 << 16, 0))

    wait_until(lambda: served() or process.poll() is not None)
    found = served()
    if found is None:
        raise AssertionError(f"rclone does not serve: {os.pread(log.fileno(), 1 << 16, 0).decode(errors='replace')}")
    return found[1].decode()
