"""Makes volumes by the program, and compares what other readers report about them with what the requests say.

usage: readers.py UDFBURN UDFBURND ROOM [--guest FILE] [--kernel FOLDER [--sha256sum FILE]] [--here] [--tools NAME..]
           [--photographs FOLDER] [--film MEGABYTES] [--film-alone] [--absent NAME..]
       readers.py --may-mount GUEST ROOM

ROOM is an empty folder for images. --guest, --kernel and --sha256sum are what linux.py takes; with --here this machine's kernel mounts.
--film-alone tries nothing but the film and the photographs, of killed.py. --absent names what ought to be there, and counts as failed.
--may-mount says by its status whether --here would do.
"""

from __future__ import annotations

import argparse
import os
import shutil
import sqlite3
import subprocess
import sys
import time
from concurrent.futures import ThreadPoolExecutor
from pathlib import Path
from typing import Callable, List, Tuple

sys.path.insert(0, str(Path(__file__).resolve().parent.parent))

import compare  # noqa: E402
import linux  # noqa: E402
from killed import Killed, photographs_in  # noqa: E402
from protocol import Tree  # noqa: E402
from volumes import PLANS, Maker, Volume  # noqa: E402

# A path that is too long for the fixed room that it has ends udfclient. It takes no image of less than 300 blocks, and takes
# the byte after a label of 30 letters for a letter more.
UDFCLIENT_LEAVES = ("deepest",)
UDFCLIENT_LEAST = 300
# Up to Linux 6.12 a table whose head is longer than a block is refused, as it is with 39 clients and more.
LINUX_LEAVES = ("allclients",)
# Files of 600 megabytes together are read once.
LINUX_ONCE = ("descriptors",)
# Linux looks for the VAT ICB in the last four blocks, and where a drive reports the size alone in the last three.
LINUX_LOOKS_BACK = 3


class Counts:
    def __init__(self) -> None:
        self.passed = 0
        self.failed = 0

    def check(self, name: str, differences: List[str]) -> None:
        if not differences:
            self.passed += 1
            return
        self.failed += 1
        print("readers: FAILED: %s" % name)
        for line in differences[:8]:
            print("    " + line)
        if len(differences) > 8:
            print("    and %d more" % (len(differences) - 8))


Mounted = Tuple[str, linux.Job, Callable[[linux.Mount], List[str]]]
"""A mount's name, the job, and what is compared."""


def mounts(volumes: List[Volume], discs: bool) -> List[Mounted]:
    def shows(tree: Tree) -> Callable[[linux.Mount], List[str]]:
        return lambda mount: compare.mounted(mount, tree)

    out: List[Mounted] = []
    for volume in volumes:
        if volume.name in LINUX_LEAVES:
            continue
        if volume.behind <= LINUX_LOOKS_BACK:
            out.append((volume.name, linux.Job(volume.image), shows(volume.tree)))
        # What a cut left after the VAT ICB is passed by where the entry's address is said.
        for address, tree in [] if volume.name in LINUX_ONCE else [(volume.last, volume.tree)] + volume.earlier:
            out.append(("%s at %d" % (volume.name, address), linux.Job(volume.image, address), shows(tree)))
        if discs and volume.behind < LINUX_LOOKS_BACK and volume.name in ("names", "sizes", "die", "cut1", "cut2"):
            out.append(("%s in a drive" % volume.name, linux.Job(volume.image, disc=True), shows(volume.tree)))
    return out


def words() -> argparse.Namespace:
    """What test/readers.sh gives: the programs, a folder, and what else is there."""
    parser = argparse.ArgumentParser()
    parser.add_argument("udfburn")
    parser.add_argument("udfburnd")
    parser.add_argument("room", type=Path)
    parser.add_argument("--guest", type=Path)
    parser.add_argument("--kernel", type=Path)
    parser.add_argument("--sha256sum", type=Path)
    parser.add_argument("--here", action="store_true")
    parser.add_argument("--photographs", type=Path)
    parser.add_argument("--film", type=int, default=130)
    parser.add_argument("--film-alone", action="store_true")
    parser.add_argument("--tools", nargs="*", default=[])
    parser.add_argument("--absent", nargs="*", default=[])
    given = parser.parse_args()
    given.udfburn, given.udfburnd = os.path.abspath(given.udfburn), os.path.abspath(given.udfburnd)
    return given


def made(given: argparse.Namespace, counts: Counts) -> List[Volume]:
    """The volumes, made by the program."""
    began = time.monotonic()
    maker = Maker(given.udfburn, given.room)
    volumes: List[Volume] = []
    try:
        volumes = [maker.volume(plan) for plan in PLANS] + maker.cut() + [maker.nested(), maker.appended(), maker.descriptors()]
    except RuntimeError as fault:
        counts.check("the images", [str(fault)])
    print("readers: %d images, %.1f s" % (len(volumes), time.monotonic() - began), flush=True)
    return volumes


def by_udfclient(given: argparse.Namespace, volumes: List[Volume], counts: Counts) -> None:
    """What udfclient copies out of the volumes that it can read."""
    began = time.monotonic()
    for volume in volumes:
        large = volume.image.stat().st_size >= UDFCLIENT_LEAST * 2048
        if not large or volume.name in UDFCLIENT_LEAVES:
            continue
        # It makes directories as they are on the volume, where nobody may write.
        if os.geteuid() != 0 and any(len(path) > 1 for path, _ in volume.tree.walk()):
            print("readers: not tried: udfclient: %s, whose directories only root can fill" % volume.name)
        else:
            counts.check("udfclient: " + volume.name, compare.udfclient(volume, given.room))
            shutil.rmtree(given.room / (volume.name + ".client"))
    print("readers: udfclient, %.1f s" % (time.monotonic() - began), flush=True)


def by_tools(given: argparse.Namespace, volumes: List[Volume], counts: Counts) -> None:
    """What programs that need no kernel say of the volumes."""
    if "udfclient" in given.tools:
        by_udfclient(given, volumes, counts)
    for name, tool in (("udfinfo", compare.udfinfo), ("blkid", compare.blkid)):
        if name in given.tools:
            for volume in volumes:
                counts.check("%s: %s" % (name, volume.name), tool(volume))


def stored(given: argparse.Namespace) -> Killed:
    """The bag that a client stores which is killed again and again."""
    photographs = photographs_in(given.photographs) if given.photographs is not None else []
    room: Path = given.room / "killed"
    room.mkdir()
    killed = Killed(given.udfburn, given.udfburnd, room, photographs, given.film)
    try:
        killed.run()
    except (OSError, subprocess.SubprocessError, sqlite3.Error) as fault:
        killed.faults.append(str(fault))
    return killed


def by_kills(given: argparse.Namespace, killed: Killed, counts: Counts) -> None:
    """What the programs say of that bag."""
    began = time.monotonic()
    if given.film_alone:
        print("".join("readers: %s\n" % line for line in killed.told), end="")
    counts.check("killed: it comes to its end", killed.faults)
    if killed.faults:
        return
    counts.check("killed: each request once", killed.counted())
    counts.check("killed: check", killed.sound())
    counts.check("killed: check --data", killed.data_checked())
    print(
        "readers: a film of %d MB and %d other files, %d kills, %d commits, %d blocks: %.1f s, and %.1f s to check" % (
            given.film, len(killed.files) - 1, killed.killed, killed.commits(), killed.blocks(), killed.seconds, time.monotonic() - began,
        ), flush=True,
    )


def by_linux(given: argparse.Namespace, volumes: List[Volume], killed: Killed, counts: Counts) -> None:
    """What a Linux kernel mounts: this machine's, or that of a virtual one."""
    began = time.monotonic()
    jobs = mounts(volumes, not given.here)
    if not killed.faults:
        jobs.append(("killed", linux.Job(killed.image, bag=True), killed.compared))
    found: List[linux.Mount] = []
    try:
        if given.here:
            found = linux.mount_here(given.guest, [job for _, job, _ in jobs], given.room)
        else:
            found = linux.mount_in_machine(given.guest, given.kernel, [job for _, job, _ in jobs], given.room, sha256sum=given.sha256sum)
    except (OSError, ValueError, EOFError, subprocess.SubprocessError) as fault:
        console = given.room / "console"
        lines = console.read_text(errors="replace").splitlines() if console.exists() else []
        counts.check("the kernel", [str(fault)[:200]] + lines[-6:])
    if len(found) != len(jobs):
        counts.check("Linux", ["%d mounts, not %d" % (len(found), len(jobs))])
    for (name, _, differences), mount in zip(jobs, found):
        counts.check("Linux: " + name, differences(mount))
    if not killed.faults and len(found) == len(jobs):
        counts.check("Linux: the manifest of the bag", killed.manifest(found[-1]))
        if given.here or given.sha256sum is not None:
            counts.check("Linux: sha256sum -c in the bag", killed.sums(found[-1]))
            if given.film_alone:
                print(found[-1].sums.decode(errors="replace"), end="")
    print("readers: %d mounts, %.1f s" % (len(jobs), time.monotonic() - began), flush=True)


def main() -> int:
    if sys.argv[1:2] == ["--may-mount"]:
        return 0 if linux.mounts_here(Path(sys.argv[2]), Path(sys.argv[3])) else 1
    given = words()
    counts = Counts()
    for name in given.absent:
        counts.check(name, ["it is not there"])
    # Beside the others, since it mostly waits for the disk.
    with ThreadPoolExecutor(1) as pool:
        to_be_stored = pool.submit(stored, given)
        volumes: List[Volume] = []
        if not given.film_alone:
            volumes = made(given, counts)
            by_tools(given, volumes, counts)
        killed = to_be_stored.result()
    by_kills(given, killed, counts)
    if given.guest is not None and (volumes or not killed.faults):
        by_linux(given, volumes, killed, counts)
    print("readers: %d passed, %d failed" % (counts.passed, counts.failed))
    return 0 if counts.failed == 0 and counts.passed > 0 else 1


if __name__ == "__main__":
    sys.exit(main())
