"""Forged images of 3.3 MB: each command that reads one takes at most a minute and 300 MB, and ends with an error that has a name."""

from __future__ import annotations

import os
import re
import resource
import subprocess
import sys
import tempfile
import unittest
from typing import NamedTuple, Tuple

from .forged import CAPACITY, FORGED
from .programs import PACKAGE, UDFBURN

SECONDS, MEGABYTES = 60, 300
LARGE = bool(os.environ.get("LARGE"))


class Done(NamedTuple):
    """How a command ended: its status, what it printed, its seconds of processor time and its megabytes."""

    status: int
    output: str
    seconds: float
    megabytes: int


def run(words: "list[str]", room: str) -> Done:
    """Runs a command of the client in a process of its own."""
    environment = {**os.environ, "PYTHONPATH": PACKAGE, "UDFBURN_LEDGER": "/nonexistent/ledger", "UDFBURN": UDFBURN}
    with open(os.path.join(room, "output"), "w+b") as output:
        process = subprocess.Popen(
            [sys.executable, "-m", "udfburn", *words], env=environment, stdout=output, stderr=subprocess.STDOUT, stdin=subprocess.DEVNULL,
            preexec_fn=lambda: resource.setrlimit(resource.RLIMIT_CPU, (SECONDS, SECONDS)),
        )
        _, status, usage = os.wait4(process.pid, 0)
        process.returncode = os.waitstatus_to_exitcode(status)
        output.seek(0)
        return Done(process.returncode, output.read().decode(errors="replace"), usage.ru_utime + usage.ru_stime, usage.ru_maxrss // 1024)


class Forged(unittest.TestCase):
    """Each image and each command."""

    COMMANDS: Tuple[Tuple[str, ...], ...] = (("log",), ("salvage", "--list"), ("check", "--data"), ("status",))

    def setUp(self) -> None:
        room = tempfile.TemporaryDirectory()
        self.addCleanup(room.cleanup)
        self.room = room.name

    def made(self, name: str) -> str:
        """A forged image."""
        image = os.path.join(self.room, f"{name}.img")
        data = FORGED[name]()
        self.assertLessEqual(len(data), CAPACITY * 2048)
        with open(image, "wb") as file:
            file.write(data)
        return image

    def test_each_command(self) -> None:
        for name in FORGED:
            image = self.made(name)
            for words in self.COMMANDS if LARGE else self.COMMANDS[1:3]:
                with self.subTest(image=name, command=words[0]):
                    done = run([*words, image], self.room)
                    self.assertIn(done.status, (0, 1), done.output[-2000:])
                    self.assertNotIn("Traceback", done.output)
                    self.assertLess(done.megabytes, MEGABYTES)
                    self.assertLess(done.seconds, SECONDS)
                    if words[0] in ("salvage", "check"):
                        self.assertEqual(done.status, 1)

    def test_too_much_is_named(self) -> None:
        for name, text in (("one_data", "more blocks of files and directories than"), ("one_file", "more blocks of files and directories than")):
            with self.subTest(image=name):
                self.assertIn(text, run(["salvage", "--list", self.made(name)], self.room).output)

    def test_what_is_written(self) -> None:
        """Files that all have the same bytes are not written for ever."""
        target = os.path.join(self.room, "out")
        self.assertEqual(run(["salvage", self.made("one_file"), target], self.room).status, 1)
        total = sum(os.path.getsize(os.path.join(at, name)) for at, _, names in os.walk(target) for name in names)
        self.assertLess(total, 3 * CAPACITY * 2048)

    def test_log_has_no_more_lines_than_commits(self) -> None:
        for name in ("one_table", "many_tables", "great_commits"):
            image = self.made(name)
            done = run(["log", image], self.room)
            lines = [line for line in done.output.splitlines() if re.match(r"[0-9?]", line)]
            self.assertLessEqual(len(lines), (os.path.getsize(image) // 2048 - 261) // 2 + 1)


if __name__ == "__main__":
    unittest.main()
