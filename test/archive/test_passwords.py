"""A catalogue on a server whose URL has a password: nobody else can read it, and no output has it. And how connections end."""

from __future__ import annotations

import os
import socket
import sys
import threading
from contextlib import suppress
from typing import List

from .servers import Server
from .support import PACKAGE, WithArchive, write

sys.path.insert(0, PACKAGE)

from udfburn.archive.base import connect  # noqa: E402
from udfburn.archive.config import has_password, without_password  # noqa: E402

SECRET = "s3cret"

TCP_USER_TIMEOUT = 18
"""An option of Linux (tcp(7)), which not every Python names."""


class Passwords(WithArchive):
    def setUp(self) -> None:
        super().setUp()
        self.server = Server(self)
        self.server.sql("CREATE DATABASE one")
        self.url = self.server.url("one").replace("//postgres@", f"//postgres:{SECRET}@")
        write(os.path.join(self.source, "f"), b"1")

    def require_secret(self, *done: "object") -> None:
        for found in done:
            self.assertNotIn(SECRET, getattr(found, "output") + getattr(found, "errors"))

    def mode(self) -> int:
        return os.stat(self.path("archive", "archive.toml")).st_mode & 0o777

    def test_a_file_with_the_url(self) -> None:
        words = ["init", self.archive, "--label", "T", "--catalogue-file", write(self.path("url"), self.url.encode() + b"\n")]
        self.require_secret(self.do(*words))
        self.assertEqual(self.mode(), 0o600)
        self.require_secret(self.add(), self.do("status"), self.do("close"), self.do("report", self.path("page.html")))
        self.do("remote", "add", "here:x")
        self.assertEqual(self.mode(), 0o600)
        with open(self.path("page.html"), encoding="utf-8") as file:
            self.assertNotIn(SECRET, file.read())
        self.server.stop()
        self.require_secret(self.do("status", status=1), self.do(*words[:1], self.path("x"), *words[2:], status=1))

    def test_the_environment(self) -> None:
        os.environ["UDFBURN_CATALOGUE"] = self.url
        self.addCleanup(os.environ.pop, "UDFBURN_CATALOGUE")
        self.require_secret(self.do("init", self.archive, "--label", "T"))
        self.assertEqual(self.mode(), 0o600)

    def test_words_are_no_place_for_it(self) -> None:
        for url in (self.url, f"postgresql://h/d?user=u&password={SECRET}", f"postgres:/u:{SECRET}@h/d"):
            done = self.do("init", self.archive, "--label", "T", "--catalogue", url, status=None)
            self.assertNotEqual(done.status, 0)
            self.require_secret(done)
        self.assertFalse(os.path.exists(self.path("archive", "archive.toml")))
        self.do("init", self.archive, "--label", "T", "--catalogue", self.server.url("one"))

    def test_what_has_one(self) -> None:
        for url in ("postgresql://u:p@h/d", "postgresql://u:p@q@h:5432,i/d", "postgresql:///d?password=p&host=h", "postgresql://:p@h/d"):
            self.assertTrue(has_password(url), url)
            self.assertNotRegex(without_password(url), "[:=]p")
        for url in ("postgresql://u@h:5432/d", "postgresql:///d?host=/run", "postgresql://h:1,i:2/d?passfile=x", "catalogue.sqlite"):
            self.assertFalse(has_password(url), url)

    def test_a_connection_over_a_network_has_limits(self) -> None:
        """What the system is told of a connection by which it ends one that has gone silent."""
        with socket.create_server(("127.0.0.1", 0)) as listener:
            threading.Thread(target=forward, args=(listener, os.path.join(self.server.room, ".s.PGSQL.5432")), daemon=True).start()
            connection = connect(f"postgresql://postgres@127.0.0.1:{listener.getsockname()[1]}/one")
            try:
                found = socket.socket(fileno=os.dup(connection.fileno()))
                with found:
                    options: List[int] = [found.getsockopt(socket.IPPROTO_TCP, name) for name in (TCP_USER_TIMEOUT, socket.TCP_KEEPIDLE, socket.TCP_KEEPINTVL, socket.TCP_KEEPCNT)]
                    alive = found.getsockopt(socket.SOL_SOCKET, socket.SO_KEEPALIVE)
                self.assertEqual((options[0], bool(alive)), (30_000, True))
                self.assertLessEqual(options[1] + options[2] * options[3], 60)
            finally:
                connection.close()


def forward(listener: socket.socket, path: str) -> None:
    """Passes one connection on to a server's socket."""
    client, _ = listener.accept()
    server = socket.socket(socket.AF_UNIX)
    server.connect(path)

    def pass_on(source: socket.socket, target: socket.socket) -> None:
        with suppress(OSError), source, target:
            for data in iter(lambda: source.recv(65536), b""):
                target.sendall(data)

    threading.Thread(target=pass_on, args=(client, server), daemon=True).start()
    pass_on(server, client)
