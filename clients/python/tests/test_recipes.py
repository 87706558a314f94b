"""The recipes of README.md, by the lines that are there, over the programs; and a command that a user interrupts."""

from __future__ import annotations

import fcntl
import os
import re
import shlex
import shutil
import signal
import subprocess
import textwrap
import unittest
from typing import Dict, List

from udfburn import protocol as p

from . import bags
from .programs import PACKAGE, PATIENCE, WithPrograms

README = os.path.join(PACKAGE, "README.md")
SOCKET = "/run/udfburn/archive.socket"
SET_PIPE_SIZE = 1031
"""The call of Linux by which a pipe gets its room (F_SETPIPE_SZ)."""


def recipes() -> Dict[str, str]:
    """The lines that are shown below each recipe's bold words."""
    with open(README, encoding="utf-8") as file:
        section = file.read().split("\n## Recipes\n", 1)[1].split("\n## ", 1)[0]
    pieces = re.split(r"^\*\*(.*?)\*\*", section, flags=re.MULTILINE)[1:]
    shown = [re.findall(r"^(?:    .*\n|\n(?=    ))+", text, flags=re.MULTILINE) for text in pieces[1::2]]
    return {title.rstrip("."): textwrap.dedent("".join(lines)).strip("\n") for title, lines in zip(pieces[::2], shown)}


class Recipes(WithPrograms):
    def setUp(self) -> None:
        super().setUp()
        self.serve()

    def here(self, text: str, **places: str) -> str:
        """The words with this room's places in them."""
        for place, local in {SOCKET: self.path, **places}.items():
            self.assertIn(place, text)
            text = text.replace(place, local)
        return text

    def command(self, line: str) -> str:
        """Runs a line that a user types or a table of times has."""
        words = shlex.split(line)
        self.assertEqual(words[0], "udfburn-client")
        return self.run_command(*words[1:], where=[])

    def test_there_are_four(self) -> None:
        self.assertEqual(list(recipes()), ["Archive a folder", "A recorder that appends", "A bag", "A nightly job"])

    def test_a_bag(self) -> None:
        for name, data in {"a": b"one", "below/b": b"two", "big": bytes(p.limits.FILE + 1)}.items():
            self.write(f"photos/{name}", data)
        put, check = self.here(recipes()["A bag"], **{"~/photos/2026": os.path.join(self.room, "photos"), "disc.img": self.image}).splitlines()
        self.assertIn("sealed 3 files", self.command(put))
        shutil.rmtree(os.path.join(self.room, "photos"))
        os.unlink(self.ledger)
        self.assertIn("7 files", self.command(check))
        copy = os.path.join(self.room, "copy")
        bags.copy_by_reader(self.image, copy)
        self.assertEqual(bags.faults(os.path.join(copy, "photos", "2026")), [])

    def test_archive_a_folder(self) -> None:
        files = {"a": b"one", "below/b": b"two", "big": bytes(p.limits.FILE + 1)}
        for name, data in files.items():
            self.write(f"photos/{name}", data)
        put = self.here(recipes()["Archive a folder"], **{"~/photos/2026": os.path.join(self.room, "photos")})
        self.assertIn("stored 3 files", self.command(put))
        commits = self.commits()
        self.assertIn("3 were there", self.command(put))
        self.assertEqual(self.commits(), commits)
        self.assertEqual({name: self.client().get(f"/photos/2026/{name}") for name in files}, files)

    def test_a_recorder(self) -> None:
        code = self.here(
            recipes()["A recorder that appends"],
            **{"/run/udfburn/archive.socket": self.path, "/var/lib/recorder/ledger.sqlite": self.ledger},
        )
        for turn in range(2):
            places = {"recordings": lambda: [(f"r{index}", b"%d" % turn) for index in range(turn, 5 + turn)]}
            exec(compile(code, README, "exec"), places)
        client = self.client()
        self.assertEqual([name.name for name in client.list("/recordings")], [f"r{index}" for index in range(6)])
        self.assertEqual([client.get(f"/recordings/r{index}") for index in range(6)], [b"0"] + [b"1"] * 5)
        self.assertEqual(self.commits(), 11)

    def test_a_nightly_job(self) -> None:
        reports = os.path.join(self.room, "reports")
        line = self.here(recipes()["A nightly job"], **{"/srv/reports": reports})
        schedule, words = line.split("  ", 1)
        self.assertEqual(len(schedule.split()), 5)
        for night in range(2):
            for index in range(3):
                self.write(f"reports/{night}-{index}", b"report")
            self.assertEqual(self.command(words), "")
            self.assertEqual(os.listdir(reports), [])
        self.assertEqual(len(self.client().list("/reports")), 6)


class Interrupted(WithPrograms):
    """Ctrl-C in the middle of an import."""

    def interrupted(self, steps: int, words: List[str]) -> str:
        """Runs a command until it has printed so many lines, sends it the signal, and gives its last line. Its lines go into a pipe that
        has room for few of them, and no more are read: so it cannot be at its end when the signal comes, however late that is."""

        def begin() -> None:
            # Also where this test itself was started with the signal ignored.
            signal.signal(signal.SIGINT, signal.SIG_DFL)

        source, sink = os.pipe()
        # The least room is a page.
        fcntl.fcntl(source, SET_PIPE_SIZE, 1)
        process = subprocess.Popen(words, env=self.environment(), stdout=sink, stderr=subprocess.PIPE, text=True, preexec_fn=begin)
        os.close(sink)
        with open(source, "rb", buffering=0) as lines:
            for _ in range(steps):
                if not lines.readline():
                    self.fail(f"the command ended before: {process.communicate(timeout=PATIENCE)}")
            process.send_signal(signal.SIGINT)
            lines.readall()
        told = process.communicate(timeout=PATIENCE)
        self.assertEqual(process.returncode, 130, told)
        return told[1].splitlines()[-1]

    def test_and_finished(self) -> None:
        """Again and again, and then by the same line."""
        self.serve()
        # A path that is long makes lines that are.
        above, count = ["x" * 200] * 10, 400
        for index in range(count):
            self.write(f"source/{index}", b"%d" % index)
        folder, path = os.path.join(self.room, "source"), "/" + "/".join(above)
        put = ["put", "-r", "-p", "--skip-same", folder, path]
        # Files that are there already print no line, so each command has as many to print as there are still to store.
        for steps in (1, 5, 10, 20, 40):
            self.assertIn("finishes what is under way", self.interrupted(steps, self.words(*put)))
            self.assertLess(self.commits(), len(above) + count)
            self.assertRegex(self.run_command("resume"), r"\b([1-5]?[0-9]|6[0-4]) requests? w(as|ere) pending")
        self.run_command(*put)
        self.assertIn("all are there", self.run_command("verify", folder, path, "--exact"))
        self.assertEqual(self.commits(), len(above) + count, "each request once")


if __name__ == "__main__":
    unittest.main()
