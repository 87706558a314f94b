"""Commands that are interrupted anywhere: what they leave is finished by the next one."""

from __future__ import annotations

import os
import shutil
import sys
import unittest
from contextlib import closing, redirect_stderr, redirect_stdout
from typing import Any, List
from unittest import mock

from udfburn import protocol as p
from udfburn.base import errors as e
from udfburn.commands import cli
from udfburn.wire.connection import Connection, ImageConnection
from udfburn.wire.endpoint import Endpoint
from udfburn.wire.retrying import RetryingConnection

from .model import Volume
from .programs import PATIENCE
from .server import request_of
from .with_server import WithServer

CODE = os.path.dirname(os.path.dirname(cli.__file__)) + os.sep


class Interrupted(WithServer):
    def test_while_a_conversation_ends(self) -> None:
        """Who is interrupted while a program is awaited, and goes on, writes to no descriptor that may be another file's by then."""
        image, program = os.path.join(self.room, "disc.img"), os.path.join(self.room, "program")
        for path, text in ((image, ""), (program, "#!/bin/sh\nexec cat\n")):
            with open(path, "w", encoding="ascii") as file:
                file.write(text)
        os.chmod(program, 0o700)
        line = RetryingConnection(Endpoint(f"image:{image}", program))
        first = line.get()
        assert isinstance(first, ImageConnection)
        with mock.patch.object(first.process, "wait", side_effect=KeyboardInterrupt), self.assertRaises(KeyboardInterrupt):
            line.drop()
        with closing(first), closing(line.get()) as second:
            self.assertIsNot(second, first)


    def test_while_what_is_pending_is_confirmed(self) -> None:
        """The answer that comes then is taken for none to another question."""
        client, real, left = self.client(patience=0.1), Connection.answer, [3]
        self.server.before = lambda payload: p.FAULT if request_of(payload) else None
        with self.assertRaises(e.DriveFailed):
            client.create("/a", b"")
        self.server.before = lambda payload: None

        def answer(connection: Connection) -> p.Answer:
            left[0] -= 1
            if not left[0]:
                raise KeyboardInterrupt
            return real(connection)

        with client.held():
            # To the greeting, to the request, and then to the question whether the tree agrees.
            with mock.patch.object(Connection, "answer", answer), self.assertRaises(KeyboardInterrupt):
                client.resume()
            self.assertIsNone(client.find("/b"))
        self.assertEqual(self.volume.commits, 1)

    def test_at_any_line(self) -> None:
        """None is lost, as one would be that comes while Python clears something away; and the same line finishes it."""
        local, count = os.path.join(self.room, "source"), 0
        os.makedirs(local)
        for name in "abc":
            with open(os.path.join(local, name), "w", encoding="ascii") as file:
                file.write(name)
        put = ["put", "-r", "--skip-same", "--verify", "--quiet", "--wait", str(PATIENCE), "--socket", self.server.path, "--ledger", self.ledger, local, "/x"]
        while True:
            self.server.volume = Volume()
            child = os.fork()
            if not child:
                status = 1
                try:
                    status = interrupted(put, 1 + LINES * count)
                finally:
                    os._exit(status)
            status = os.waitstatus_to_exitcode(os.waitpid(child, 0)[1])
            self.assertIn(status, (130, ENDED), f"interrupted at line {1 + LINES * count} of the client's code")
            self.assertEqual(cli.main(put), 0)
            self.assertEqual((self.volume.commits, len(self.volume.files())), (4, 3))
            for name in os.listdir(self.room):
                if name.startswith("ledger"):
                    os.unlink(os.path.join(self.room, name))
            count += 1
            if status == ENDED:
                break
        self.assertGreater(count, 40)

    def test_reading_at_any_line(self) -> None:
        """Also where answers are taken to the last one, and their end is not asked for."""
        local, back, mask = os.path.join(self.room, "source"), os.path.join(self.room, "back"), os.umask(0o077)
        self.addCleanup(os.umask, mask)
        os.makedirs(local)
        with open(os.path.join(local, "a"), "w", encoding="ascii") as file:
            file.write("a")
        with self.client() as client:
            client.put_tree(local, "/x")
        # As far as the first question they go as any command does. To declare the words of all commands takes most of the time, so that is
        # done once.
        declared = cli.parser()
        for words in (["get", "-r", "/x", back], ["get", "/x/a", back], ["verify", local, "/x"], ["ls", "-l", "/x"]):
            lines, status = 46, 130
            while status == 130:
                shutil.rmtree(back, ignore_errors=True)
                if os.path.exists(back):
                    os.unlink(back)
                with mock.patch.object(cli, "parser", lambda: declared):
                    status = interrupted([words[0], "--wait", str(PATIENCE), "--socket", self.server.path, *words[1:]], lines)
                lines += LINES // 3
            self.assertEqual(status, ENDED, f"{words} interrupted at line {lines - LINES // 3} of the client's code")
            self.assertGreater(lines, 245)
ENDED = 99
"""The status of a command that ended before its interrupt."""
LINES = 17
"""Lines between two of those that are interrupted."""


def interrupted(words: List[str], lines: int) -> int:
    """The status of a command that is interrupted before the line of the client's code that comes so many lines from its beginning."""
    left = [lines]

    def line(frame: Any, event: str, argument: object) -> Any:
        if event == "line":
            left[0] -= 1
            if not left[0]:
                raise KeyboardInterrupt
        return line

    def call(frame: Any, event: str, argument: object) -> Any:
        return line if frame.f_code.co_filename.startswith(CODE) and frame.f_code.co_filename != cli.__file__ else None

    with open(os.devnull, "w", encoding="ascii") as nothing, redirect_stdout(nothing), redirect_stderr(nothing):
        sys.settrace(call)
        try:
            status = cli.main(words)
        finally:
            sys.settrace(None)
    return ENDED if left[0] > 0 and not status else status


if __name__ == "__main__":
    unittest.main()
