"""Programs that keep a tree: how each begins, stores, checks and gives back."""
from __future__ import annotations

import os
import re
import shutil
import signal
import subprocess
import sys
import time
from contextlib import suppress
from pathlib import Path
from typing import NamedTuple, Optional, Sequence

TOP = Path(__file__).resolve().parent.parent.parent
CALLS = "fsync,fdatasync,sync_file_range,syncfs,sync,msync"

# Runs a command while a daemon (the first two words and the socket's path) serves it.
SERVED = '"$1" "$2" "$3" & trap "kill $!; wait" EXIT; until [ -S "$3" ]; do kill -0 $! || exit 1; sleep 0.01; done; shift 3; "$@"'
IMAGE, SOCKET, LIBRARY, ADD = "`put -r`, the image", "`put -r`, a socket", "`put -r`, the library", "`add`"

Step = list[str]


class Programs(NamedTuple):
    """The programs that are measured, and the C library, if it is."""

    udfburn: str
    udfburnd: str
    library: Optional[str]


class Way(NamedTuple):
    """A program: what has to be installed for it, its environment, and the commands of each step, where {} stands for a folder to give back
    into. `end` and `trusting` are the archive's alone: what completes a first run, and a run that trusts times."""

    name: str
    tool: str
    keys: dict[str, str]
    begin: Step
    store: Step
    end: Step
    trusting: Step
    check: Step
    back: Step


def package(module: str, *words: str) -> Step:
    return [sys.executable, "-m", module, *words]


def installed(room: str) -> str:
    """A copy of the client that is compiled, as an installation is."""
    folder = os.path.join(room, "python")
    if not os.path.exists(folder):
        shutil.copytree(TOP / "clients" / "python" / "udfburn", os.path.join(folder, "udfburn"), ignore=shutil.ignore_patterns("__pycache__"))
        subprocess.run([sys.executable, "-m", "compileall", "-q", folder], check=True)
    return folder


def ways(program: str, room: str, source: str) -> list[Way]:
    """The archive first, then those that it is compared with. Each has its repository in the room."""
    at = os.path.join(room, "kept")
    own = {"PYTHONPATH": installed(room), "UDFBURN": program, "UDFBURN_ARCHIVE": at}
    restic = {"RESTIC_PASSWORD": "x", "RESTIC_REPOSITORY": at, "XDG_CACHE_HOME": os.path.join(room, "cache")}
    borg = {"BORG_BASE_DIR": os.path.join(room, "base"), "BORG_UNKNOWN_UNENCRYPTED_REPO_ACCESS_IS_OK": "yes", "BORG_REPO": at}
    archive = "udfburn.archive"
    add = package(archive, "add", source, "--at", "/t", "--quiet")
    return [
        Way("`udfburn-archive`", sys.executable, own, package(archive, "init", at, "--quiet"), add, package(archive, "close", "--quiet"), [*add, "--trust-times"],
            package(archive, "check", "--quiet"), package(archive, "get", "/t", "{}", "--quiet")),
        Way("restic", "restic", restic, ["restic", "init", "-q"], ["restic", "backup", "-q", source], [], [], ["restic", "check", "-q", "--read-data"],
            ["restic", "restore", "-q", "latest", "--target", "{}"]),
        # Two runs may begin in the same second, and each needs a name of its own.
        Way("borg", "borg", borg, ["borg", "init", "-e", "none"], ["borg", "create", "::{now}-{pid}", source], [], [], ["borg", "check", "--verify-data"],
            ["sh", "-c", 'cd "$1" && borg extract "::$(borg list --last 1 --format "{archive}")"', "-", "{}"]),
    ]


def stores(programs: Programs, room: str, source: str) -> list[Way]:
    """Programs that store a tree, `put` on the image first, as the others are compared with it."""
    at = os.path.join(room, "kept")
    image, socket, tar = (os.path.join(at, name) for name in ("disc.img", "socket", "t.tar"))
    keys = {"PYTHONPATH": installed(room), "UDFBURN": programs.udfburn}
    begin = ["sh", "-c", 'mkdir "$1" && exec "$2" format "$3" BENCH 0 450000', "-", at, programs.udfburn, image]
    put = package("udfburn", "put", "-r", "--quiet", source, "/t", "--ledger", os.path.join(at, "ledger.sqlite"))
    back = package("udfburn", "get", "-r", "--quiet", "/t", "{}/t", "--image", image)
    archive, restic, borg = ways(programs.udfburn, room, source)
    found = [once(IMAGE, sys.executable, keys, begin, [*put, "--image", image], back),
             once(SOCKET, programs.udfburnd, keys, begin, ["sh", "-c", SERVED, "-", programs.udfburnd, image, socket, *put, "--socket", socket], back)]
    if programs.library:
        found.append(once(LIBRARY, sys.executable, {**keys, "UDFBURN_LIBRARY": programs.library}, begin, [*put, "--library", "--image", image], back))
    return [
        *found, archive._replace(name=ADD),
        once("`rsync -a --fsync`", "rsync", {}, ["mkdir", at], ["rsync", "-a", "--fsync", source + "/", at + "/t"], ["cp", "-r", at + "/t", "{}/t"]),
        restic._replace(name="`restic backup`"), borg._replace(name="`borg create`"),
        once("`tar`, then `sync` of the file and its folder", "tar", {}, ["mkdir", at],
             ["sh", "-c", 'tar -C / -cf "$1" "${2#/}" && sync "$1" "$3"', "-", tar, source, at], ["tar", "-C", "{}", "-xf", tar]),
    ]


def once(name: str, tool: str, keys: dict[str, str], begin: Step, store: Step, back: Step) -> Way:
    """A program that stores, and gives back."""
    return Way(name, tool, keys, begin, store, [], [], [], back)


def installed_of(all_ways: Sequence[Way]) -> list[Way]:
    return [way for way in all_ways if shutil.which(way.tool)]


def left_out(all_ways: Sequence[Way]) -> list[str]:
    """What is not measured, and why."""
    return [f"Left out: {way.name}, since {way.tool} is missing." for way in all_ways if not shutil.which(way.tool)]


def timed(words: Step, keys: dict[str, str]) -> float:
    """The seconds of a command, which ends well. Where this run is ended, so is all that the command has started."""
    begun = time.monotonic()
    process = subprocess.Popen(words, env={**os.environ, "PYTHONDONTWRITEBYTECODE": "1", **keys}, stdout=subprocess.DEVNULL, start_new_session=True)
    try:
        status = process.wait()
    except BaseException:
        end_all_of(process)
        raise
    if status:
        raise subprocess.CalledProcessError(status, words)
    return time.monotonic() - begun


def end_all_of(process: "subprocess.Popen[bytes]") -> None:
    """Kills a command and what it has started, and waits until nothing of them writes any more."""
    with suppress(ProcessLookupError):
        while True:
            os.killpg(process.pid, signal.SIGKILL)
            process.poll()
            time.sleep(0.01)


def syncs(words: Step, keys: dict[str, str], room: str) -> int:
    """The calls of a command, and of those that it starts, that wait for the disk. Files in memory have none."""
    trace = os.path.join(room, "trace")
    timed(["strace", "-f", "--seccomp-bpf", "-y", "-qq", "-o", trace, "-e", f"trace={CALLS}", "-e", "signal=none", *words], keys)
    # A call that another thread comes between is in the trace twice.
    return len(re.findall(rf"^[0-9]+ +(?:{CALLS.replace(',', '|')})\((?![0-9]+</dev/shm/)", Path(trace).read_text(errors="replace"), re.M))


def bytes_of(folder: str) -> int:
    return sum(os.lstat(os.path.join(at, name)).st_size for at, _, names in os.walk(folder) for name in names)


def require_same(source: str, back: str) -> None:
    """The tree is somewhere below the folder, byte by byte."""
    depth = source if os.path.isdir(back + source) else ""
    found = back + depth if depth else os.path.join(back, "t")
    subprocess.run(["diff", "-r", source, found], check=True)
