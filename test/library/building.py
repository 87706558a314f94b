"""What the tests of the C library work with: the library, plain and under AddressSanitizer, and programs that are linked with it."""
from __future__ import annotations

import os
import shutil
import subprocess
import tempfile
import unittest
from pathlib import Path
from typing import NamedTuple, Optional, Sequence

HERE = Path(__file__).resolve().parent
REPOSITORY = HERE.parent.parent
SANITIZERS = "-g -fsanitize=address,undefined -fno-sanitize-recover=all"
THREADS = "-g -fsanitize=thread"
# No call of a test takes nearly as long.
PATIENCE = 600.0


class Built(NamedTuple):
    """The room of a run, in which the library is: `plain` as it is shipped, `watched` under AddressSanitizer."""

    room: Path
    plain: Path
    watched: Path
    udfburn: str
    udfburnd: str


def make_room() -> Path:
    """A folder in memory where there is room: what a disk does is the business of other tests."""
    shared = Path("/dev/shm")
    found = os.statvfs(shared) if os.access(shared, os.W_OK) else None
    where = shared if found and found.f_bavail * found.f_frsize > 1 << 29 else None
    room = Path(tempfile.mkdtemp(prefix="udfburn-library.", dir=where))
    room.chmod(0o755)
    return room


def build_library(core: str, where: Path, flags: str = "") -> None:
    words = [str(REPOSITORY / "packaging/library/build.sh"), str(where), "--core", core]
    subprocess.run(words, check=True, env={**os.environ, "CFLAGS": flags}, stdout=subprocess.DEVNULL)


def built() -> Built:
    """What the runner built, which names it in the environment."""
    room = Path(os.environ["LIBRARY_ROOM"])
    return Built(room, room / "plain", room / "watched", os.environ["UDFBURN"], os.environ["UDFBURND"])


class Compiler(NamedTuple):
    command: str
    words: Sequence[str]

    def __str__(self) -> str:
        return self.command


GCC = Compiler("gcc", ("-std=c99", "-x", "c"))
CLANG = Compiler("clang", ("-std=c99", "-x", "c"))
GPP = Compiler("g++", ("-std=c++17", "-x", "c++"))
WARNINGS = ("-Wall", "-Wextra", "-Werror", "-pedantic")


class Case(unittest.TestCase):
    """A test with a folder of its own."""

    maxDiff = 2000

    def setUp(self) -> None:
        self.folder = Path(tempfile.mkdtemp(prefix="case.", dir=built().room))
        self.addCleanup(shutil.rmtree, self.folder, True)

    def compiled(self, source: str, compiler: Compiler = GCC, archive: str = "libudfburn.a", watched: bool = False,
                 library: Optional[Path] = None, flags: str = "") -> str:
        """The program of this source file of this folder, linked with an archive, or with the shared library."""
        library = library or (built().watched if watched else built().plain)
        flags = flags or (SANITIZERS if watched else "")
        made = str(self.folder / (Path(source).stem + "." + compiler.command))
        linked = ["-L", str(library), "-ludfburn"] if archive.endswith(".so") else [str(library / archive)]
        words = [compiler.command, *compiler.words, "-O1", *WARNINGS, *flags.split(), "-I", str(library), "-I",
                 str(HERE), str(HERE / source), "-x", "none", *linked, "-pthread", "-o", made]
        done = subprocess.run(words, capture_output=True, text=True)
        self.assertEqual((done.returncode, done.stderr), (0, ""), " ".join(words))
        return made

    def environment(self, **more: str) -> dict[str, str]:
        kept = {name: value for name, value in os.environ.items() if not name.startswith(("FAULT_", "ALLOC_", "LD_"))}
        return {**kept, "LD_LIBRARY_PATH": str(built().plain), **more}

    def ran(self, *words: str, environment: Optional[dict[str, str]] = None) -> str:
        """What a program prints that ends well."""
        done = subprocess.run(words, capture_output=True, text=True, timeout=PATIENCE, cwd=self.folder,
                              env=environment or self.environment())
        self.assertEqual((done.returncode, done.stderr), (0, ""), " ".join(words) + "\n" + done.stdout[-3000:])
        return done.stdout

    def udfburn(self, *words: str, stdin: bytes = b"") -> subprocess.CompletedProcess[bytes]:
        return subprocess.run([built().udfburn, *words], input=stdin, capture_output=True, cwd=self.folder, timeout=PATIENCE)
