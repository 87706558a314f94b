"""A test with a folder of its own, in which the programs run."""
from __future__ import annotations

import os
import shutil
import subprocess
import tempfile
import time
import unittest
from pathlib import Path
from typing import Any, Iterable, Mapping, Optional, Sequence, Union

from faults.log import read_log
from faults.machine import first_line, lacks, need_root, need_tools, unmount
from faults.processes import PATIENCE
from faults.programs import built
from faults.running import Ran, environment
from protocol import BLOCK, Answer, Model, answers_of, questions

# A new volume has this many blocks (docs/FORMAT.md: the volume header, then the file set, the root and the first table).
FORMATTED_BLOCKS = 262

_new_volumes: dict[tuple[str, int], bytes] = {}


def differing(answers: Sequence[Answer], wanted: Sequence[Answer]) -> list[str]:
    """Which answers are others, each with its beginning: long ones take minutes to compare line by line."""
    if len(answers) != len(wanted):
        return ["%d answers in place of %d" % (len(answers), len(wanted))]
    return ["answer %d: %r in place of %r" % (index, (answer.code, answer.rest[:40]), (want.code, want.rest[:40]))
            for index, (answer, want) in enumerate(zip(answers, wanted)) if answer != want]


class Case(unittest.TestCase):
    """A test with a folder of its own, in which the programs run."""

    maxDiff = 2000

    def setUp(self) -> None:
        self.folder = Path(tempfile.mkdtemp(prefix="case.", dir=built().room))
        self.folder.chmod(0o777)
        self.addCleanup(shutil.rmtree, self.folder, True)

    def mounted(self, name: str, *words: str) -> Path:
        """A folder of this name with what these words of `mount` name on it, until the test ends."""
        need_root()
        need_tools("mount", "umount")
        where = self.folder / name
        where.mkdir()
        made = subprocess.run(["mount", *words, str(where)], capture_output=True, text=True)
        if made.returncode:
            lacks("mount %s: %s" % (" ".join(words), first_line(made.stderr)))
        self.addCleanup(unmount, where)
        return where

    def program(self, words: Sequence[str], stdin: bytes = b"", image: str = "d.img",
                log: Union[str, Path, None] = None, rules: str = "", more: Optional[Mapping[str, str]] = None,
                patience: float = PATIENCE, **popen: Any) -> Ran:
        """Runs a program on these words to its end. Its input is a file, so that it comes in the same pieces each time."""
        popen.setdefault("cwd", self.folder)
        with tempfile.TemporaryFile(dir=built().room) as given:
            given.write(stdin)
            given.seek(0)
            done = subprocess.run(list(words), stdin=given, capture_output=True, timeout=patience,
                                  env=environment(image, log, rules, more), **popen)
        return Ran(done.returncode, done.stdout, done.stderr)

    def stopped(self, words: Sequence[str], stdin: bytes, image: str, rules: str) -> subprocess.Popen[bytes]:
        """Starts a program under rules by which it stops itself, and waits until it did. SIGCONT lets it go on."""
        with tempfile.TemporaryFile(dir=built().room) as given:
            given.write(stdin)
            given.seek(0)
            process = subprocess.Popen(list(words), stdin=given, stdout=subprocess.PIPE, stderr=subprocess.PIPE, cwd=self.folder,
                                       env=environment(image, None, rules))
        end = time.monotonic() + PATIENCE
        while True:
            found, status = os.waitpid(process.pid, os.WUNTRACED | os.WNOHANG)
            if found and os.WIFSTOPPED(status):
                return process
            if found or time.monotonic() > end:
                process.kill()
                process.communicate()
                raise AssertionError("the program did not come to where %s stops it" % rules)
            time.sleep(0.002)

    def udfburn(self, *words: str, **others: Any) -> Ran:
        return self.program([built().udfburn, *words], **others)

    def apply(self, frames: bytes, image: str = "d.img", **others: Any) -> Ran:
        return self.udfburn("apply", image, stdin=frames, image=image, **others)

    def log_path(self) -> Path:
        return self.folder / "calls.log"

    def new_log(self) -> Path:
        """The path of the log, with nothing in it."""
        path = self.log_path()
        path.unlink(missing_ok=True)
        return path

    def path(self, name: str) -> Path:
        return self.folder / name

    def fresh(self, name: str = "d.img", capacity: int = 600, label: str = "DISC") -> Path:
        """A new volume, formatted once and copied from then on."""
        key = (label, capacity)
        path = self.path(name)
        if key not in _new_volumes:
            ran = self.udfburn("format", "fresh.new", label, "0", str(capacity))
            self.assertEqual(ran, Ran(0, b"formatted\n", b""))
            made = self.path("fresh.new")
            _new_volumes[key] = made.read_bytes()
            made.unlink()
            self.assertEqual(len(_new_volumes[key]), FORMATTED_BLOCKS * BLOCK)
        path.write_bytes(_new_volumes[key])
        return path

    def tell(self, ran: Ran, status: int, output: bytes, errors: bytes) -> None:
        """The program reported exactly this."""
        self.assertEqual(ran, Ran(status, output, errors))

    def sound(self, image: str = "d.img") -> int:
        """The number of commits of an image that `check` finds sound."""
        ran = self.udfburn("check", image)
        self.assertEqual((ran.status, ran.errors), (0, b""))
        word, number = ran.output.split()
        self.assertEqual(word, b"sound")
        return int(number)

    def tree_is(self, model: Model, paths: Iterable[str], image: str = "d.img") -> None:
        """What can be asked of these paths, and the count of commits, are those of the model."""
        paths = list(paths)
        ran = self.apply(questions(paths), image)
        self.assertEqual((ran.status, ran.errors), (0, b""))
        self.assertEqual(answers_of(ran.output), model.told(paths))
        self.assertEqual(self.sound(image), model.commits)


def need_shim() -> None:
    """Leaves a test out where the programs do not take the shim, as those that are linked without the system's library."""
    folder = tempfile.mkdtemp(prefix="shim.", dir=built().room)
    log = os.path.join(folder, "log")
    # An opening of what is not there is a call on the image, whether by its path or by opening it.
    subprocess.run([built().udfburn, "ls", "none.img", "/"], cwd=folder, env=environment("none.img", log), capture_output=True)
    seen = bool(read_log(log))
    shutil.rmtree(folder)
    if not seen:
        lacks("the programs do not take a library by LD_PRELOAD")
