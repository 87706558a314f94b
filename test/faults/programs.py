"""The programs and the shims.

The programs are those that UDFBURN and UDFBURND name, else those that the repository builds. They are copied into a folder that
every user may read, beside the shims, which gcc makes there. The one that answers in groups comes along where APPLY_GROUPS names it.
"""
from __future__ import annotations

import atexit
import os
import shutil
import stat
import subprocess
import tempfile
from pathlib import Path
from typing import NamedTuple, Optional, Union

from faults.machine import lacks, need_tools

HERE = Path(__file__).resolve().parent
REPOSITORY = HERE.parent.parent


class Built(NamedTuple):
    """A folder with copies of the programs and with the shims, and a folder below which tests work."""

    udfburn: str
    udfburnd: str
    shim: str
    allocfail: str
    room: str
    # Empty where there is none.
    apply_groups: str


def _rooms() -> Optional[str]:
    """Where images lie: in memory where there is room, since what a disk does is the business of the tests that mount one."""
    shared = "/dev/shm"
    try:
        found = os.statvfs(shared)
    except OSError:
        return None
    if os.access(shared, os.W_OK) and found.f_bavail * found.f_frsize > 1 << 30:
        return shared
    return None


def compile_shim(source: Path, result: Path) -> None:
    words = ["gcc", "-std=c11", "-O2", "-Wall", "-Wextra", "-Werror", "-shared", "-fPIC", "-o", str(result), str(source), "-ldl"]
    subprocess.run(words, check=True)


def build() -> Built:
    """Makes everything anew. The folder goes with the process that made it."""
    need_tools("gcc")
    room = Path(tempfile.mkdtemp(prefix="udfburn-faults.", dir=_rooms()))
    room.chmod(0o755)
    maker = os.getpid()
    atexit.register(lambda: shutil.rmtree(room, ignore_errors=True) if os.getpid() == maker else None)
    for name in ("udfburn", "udfburnd"):
        lend(os.environ.get(name.upper()) or REPOSITORY / "crates" / name / "out" / name, room / name)
    if os.environ.get("APPLY_GROUPS"):
        lend(os.environ["APPLY_GROUPS"], room / "apply_groups")
    for name in ("shim", "allocfail"):
        compile_shim(HERE / (name + ".c"), room / (name + ".so"))
    return found_in(room)


def lend(program: Union[str, Path], copy: Path) -> None:
    """Copies a program to where every user may run it."""
    shutil.copyfile(program, copy)
    copy.chmod(0o755)


def found_in(room: Path) -> Built:
    """What is in such a folder."""
    udfburn, udfburnd, shim, allocfail = (str(room / name) for name in ("udfburn", "udfburnd", "shim.so", "allocfail.so"))
    groups = room / "apply_groups"
    return Built(udfburn, udfburnd, shim, allocfail, str(room), str(groups) if groups.exists() else "")


_built: Optional[Built] = None


def built() -> Built:
    """The folder of the runner (FAULTS_BUILT), or one of this process."""
    global _built
    if _built is None:
        room = os.environ.get("FAULTS_BUILT")
        _built = found_in(Path(room)) if room else build()
    return _built


def need_way() -> None:
    """Leaves a test out where another user has no way to the folder below which tests work, as with a TMPDIR of one's own."""
    for folder in Path(built().room).parents:
        if not folder.stat().st_mode & stat.S_IXOTH:
            lacks("%s is closed to other users" % folder)
