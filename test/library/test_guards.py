"""Handles that are used wrongly, and what is told of calls that fail."""
from __future__ import annotations

import os
import re
import subprocess

from faults.machine import lacks
from library.building import CLANG, GCC, GPP, HERE, THREADS, build_library, built
from library.running import DRIVES, VALGRIND, Running

# Of threads on one handle, and of children.
RUNS = "20"
RUNS_WATCHED = "3"


class Guards(Running):
    def test_each_call_is_tried(self) -> None:
        """Every function that takes a handle is called from within another one."""
        header = re.sub(r"/\*.*?\*/", "", (built().plain / "udfburn.h").read_text(), flags=re.S)
        calls = re.findall(r"\b(udfburn_\w+)\((?:const )?udfburn \*handle\b", header)
        self.assertGreater(len(calls), 20)
        tried = (HERE / "guards.c").read_text().split("static void try_all(")[1].split("\n}\n")[0]
        self.assertEqual([call for call in calls if call + "(handle" not in tried], [])

    def holds(self, source: str, *words: str) -> None:
        room = self.words(source)[0]
        said = self.ran(words[0], room, *words[1:])
        self.assertRegex(said, r"^%s: [1-9]\d+ expected, 0 failed\n$" % source[:-2])

    def test_plain(self) -> None:
        for compiler in (GCC, GPP):
            with self.subTest(str(compiler)):
                self.holds("guards.c", self.compiled("guards.c", compiler, archive=DRIVES), RUNS)

    def test_watched(self) -> None:
        self.holds("guards.c", self.compiled("guards.c", archive=DRIVES, watched=True), RUNS_WATCHED)

    def test_under_thread_sanitizer(self) -> None:
        """No access of two threads at once, of those in C. The core has no threads."""
        where = self.folder / "threads"
        build_library(os.environ["LIBRARY_CORE"], where, THREADS)
        self.holds("guards.c", self.compiled("guards.c", archive=DRIVES, library=where, flags=THREADS), RUNS_WATCHED, "threads")


class Reasons(Running):
    def small(self) -> str:
        """A file system with room for some images alone, or nothing where this machine gives none."""
        where = self.folder / "small"
        where.mkdir()
        made = subprocess.run(["mount", "-t", "tmpfs", "-o", "size=2m", "none", str(where)], capture_output=True, text=True)
        if made.returncode:
            lacks("mount: " + made.stderr.strip())
        self.addCleanup(subprocess.check_call, ["umount", str(where)])
        return str(where)

    def tells(self, *words: str) -> None:
        self.folder.chmod(0o755)
        room = self.words("reasons.c")[0]
        said = self.ran(*words, room, self.small())
        self.assertRegex(said, r"^reasons: [1-9]\d+ expected, 0 failed\n$")

    def test_by_gcc(self) -> None:
        self.tells(self.compiled("reasons.c", archive=DRIVES))

    def test_by_clang(self) -> None:
        self.tells(self.compiled("reasons.c", CLANG, "libudfburn.so"))

    def test_watched(self) -> None:
        self.tells(self.compiled("reasons.c", archive=DRIVES, watched=True))

    def test_under_valgrind(self) -> None:
        self.tells(*VALGRIND, self.compiled("reasons.c", archive=DRIVES))
