"""Images mounted by a real Linux kernel: this machine's own where it has udf, else Debian's in a virtual machine."""

from __future__ import annotations

import hashlib
import os
import shutil
import subprocess
from dataclasses import dataclass, field
from pathlib import Path
from typing import BinaryIO, Dict, List, Optional, Sequence, Tuple

# What the virtual machine needs of the kernel's modules, with what these need.
MODULES = ("virtio_pci", "virtio_blk", "virtio_scsi", "sr_mod", "loop", "udf")
# Bytes of a file of a bag that are kept: of a longer one the digest alone.
KEPT = 1 << 20


@dataclass
class Found:
    """What the kernel reports about a node."""

    kind: str
    failure: int
    size: int
    seconds: int
    nanoseconds: int
    mode: int
    links: int
    data: bytes = b""
    # In a bag: of all bytes that the kernel gave, in hexadecimal digits.
    sha256: str = ""


@dataclass
class Mount:
    refused: int
    # By path in bytes, with a slash before each name; in the order in which the kernel lists them.
    nodes: Dict[bytes, Found] = field(default_factory=dict)
    twice: List[bytes] = field(default_factory=list)
    # Of a bag: what sha256sum printed and its status.
    sums: bytes = b""
    status: int = 0


@dataclass
class Job:
    image: Path
    lastblock: Optional[int] = None
    disc: bool = False
    # It has a bag at /bag, which sha256sum is to check.
    bag: bool = False

    def options(self) -> str:
        return "-" if self.lastblock is None else "lastblock=%d" % self.lastblock


def read_output(stream: BinaryIO, jobs: Sequence[Job]) -> List[Mount]:
    """The records that guest.c writes about jobs."""

    def number(size: int, signed: bool = False) -> int:
        data = stream.read(size)
        if len(data) != size:
            raise EOFError("the guest's output ends early")
        return int.from_bytes(data, "little", signed=signed)

    def bytes_told(found: Found, bag: bool) -> None:
        pieces, whole = [], hashlib.sha256()
        while True:
            length = number(4)
            if length == 0:
                break
            piece = stream.read(length)
            if bag:
                whole.update(piece)
            if not bag or found.size <= KEPT:
                pieces.append(piece)
        found.failure = number(4)
        found.data = b"".join(pieces)
        found.sha256 = whole.hexdigest() if bag else ""

    mounts: List[Mount] = []
    while True:
        kind = stream.read(1)
        if kind == b"E":
            return mounts
        if kind == b"M":
            if number(4) != len(mounts):
                raise ValueError("the guest's mounts are out of order")
            mounts.append(Mount(number(4)))
            continue
        if kind == b"S":
            said = Found("S", 0, 0, 0, 0, 0, 0)
            bytes_told(said, False)
            mounts[-1].sums, mounts[-1].status = said.data, number(4)
            continue
        if kind not in (b"D", b"F", b"?"):
            raise ValueError("the guest's output ends at %d" % stream.tell())
        failure = number(4)
        path = stream.read(number(4))
        found = Found(kind.decode(), failure, number(8), number(8, True), number(8), number(4), number(4))
        if kind == b"F":
            bytes_told(found, jobs[len(mounts) - 1].bag)
        if path in mounts[-1].nodes:
            mounts[-1].twice.append(path)
        mounts[-1].nodes[path] = found


def member(name: str, mode: int, data: bytes, seconds: int = 0) -> bytes:
    """A member of an archive of the form that the kernel unpacks at its start (cpio, newc)."""
    fields = (0, mode, 0, 0, 1, seconds, len(data), 0, 0, 0, 0, len(name) + 1, 0)
    head = b"070701" + b"".join(b"%08X" % value for value in fields) + name.encode() + b"\0"
    head += bytes(-len(head) % 4)
    return head + data + bytes(-len(data) % 4)


def modules(folder: Path) -> List[Path]:
    """The files of MODULES and of all that they need, each after what it needs."""
    files = {path.name.split(".")[0].replace("-", "_"): path for path in sorted(folder.rglob("*.ko"))}
    out: List[Path] = []

    def add(name: str) -> None:
        path = files.get(name.replace("-", "_"))
        # What is not there as a module is part of the kernel.
        if path is None or path in out:
            return
        data = path.read_bytes()
        at = data.find(b"\0depends=")
        needs = data[at + 9 : data.index(b"\0", at + 9)].decode() if at >= 0 else ""
        for need in filter(None, needs.split(",")):
            add(need)
        out.append(path)

    for name in MODULES:
        add(name)
    return out


def job_lines(jobs: List[Job], where: Dict[Path, Tuple[str, int, int]], discs: List[Path]) -> bytes:
    out = ""
    for job in jobs:
        if job.disc:
            out += "disc %d 0 0 %s\n" % (discs.index(job.image), job.options())
        else:
            out += "%s %s %d %d %s\n" % (("bag" if job.bag else "loop",) + where[job.image] + (job.options(),))
    return out.encode()


def mount_here(guest: Path, jobs: List[Job], room: Path) -> List[Mount]:
    """The jobs on this machine's kernel. Discs in a drive are for the virtual machine."""
    assert not any(job.disc for job in jobs)
    where = {job.image: (str(job.image), 0, job.image.stat().st_size) for job in jobs}
    (room / "jobs").write_bytes(job_lines(jobs, where, []))
    subprocess.run([str(guest), str(room / "jobs"), str(room / "output")], check=True, timeout=6 * 3600)
    with open(room / "output", "rb") as stream:
        return read_output(stream, jobs)


def mount_in_machine(
    guest: Path, kernel: Path, jobs: List[Job], room: Path, seconds: int = 6 * 3600, sha256sum: Optional[Path] = None,
) -> List[Mount]:
    """The jobs in a virtual machine of the kernel that was unpacked into `kernel`, all of them in one start. `sha256sum` is a program
    of that name without libraries, where a job has a bag."""
    archive = member("init", 0o100755, guest.read_bytes())
    if sha256sum is not None:
        archive += member("bin", 0o040755, b"") + member("bin/sha256sum", 0o100755, sha256sum.read_bytes())
    archive += member("modules", 0o040755, b"")
    for at, path in enumerate(modules(kernel / "lib/modules")):
        archive += member("modules/%02d" % at, 0o100644, path.read_bytes())
    where: Dict[Path, Tuple[str, int, int]] = {}
    discs: List[Path] = []
    with open(room / "disk", "wb") as disk:
        for job in jobs:
            if job.disc:
                if job.image not in discs:
                    discs.append(job.image)
            elif job.image not in where:
                where[job.image] = ("/dev/vda", disk.tell(), job.image.stat().st_size)
                with open(job.image, "rb") as data:
                    shutil.copyfileobj(data, disk, 1 << 20)
        # A disk has some sectors.
        disk.write(bytes(4096 - disk.tell() % 4096))
    archive += member("jobs", 0o100644, job_lines(jobs, where, discs))
    archive += member("TRAILER!!!", 0, b"")
    (room / "archive").write_bytes(archive)
    with open(room / "output", "wb") as output:
        output.truncate(4 << 30)
    (image,) = sorted((kernel / "boot").glob("vmlinuz-*"))
    words = ["qemu-system-x86_64", "-nodefaults", "-no-user-config", "-display", "none", "-no-reboot", "-m", "768"]
    words += ["-machine", "q35,accel=tcg", "-cpu", "max", "-serial", "stdio"]
    words += ["-kernel", str(image), "-initrd", str(room / "archive")]
    # Beside other work the machine may stall just when the kernel looks whether its timer ticks.
    words += ["-append", "console=ttyS0 quiet panic=-1 no_timer_check random.trust_cpu=on"]
    words += ["-device", "virtio-scsi-pci"]
    for at, name in enumerate(("disk", "output")):
        readonly = "on" if name == "disk" else "off"
        drive = "file=%s,format=raw,if=none,id=%s,readonly=%s,cache=unsafe" % (room / name, name, readonly)
        words += ["-drive", drive, "-device", "virtio-blk-pci,drive=%s,addr=%x" % (name, 4 + at)]
    for at, disc in enumerate(discs):
        drive = "file=%s,format=raw,if=none,id=disc%d,media=cdrom,readonly=on" % (disc, at)
        words += ["-drive", drive, "-device", "scsi-cd,drive=disc%d,scsi-id=%d" % (at, at)]
    with open(room / "console", "wb") as console:
        subprocess.run(words, stdin=subprocess.DEVNULL, stdout=console, stderr=console, check=True, timeout=seconds)
    with open(room / "output", "rb") as stream:
        return read_output(stream, jobs)


def mounts_here(guest: Path, room: Path) -> bool:
    """Whether this machine's kernel has udf, and lets us mount."""
    if os.geteuid() != 0 or not os.path.exists("/dev/loop-control"):
        return False
    subprocess.run(["sh", "-c", "modprobe udf 2> /dev/null"], check=False)
    if "\tudf\n" not in Path("/proc/filesystems").read_text():
        return False
    # A job over zeros asks for mounts of its own and for a loop device, which a container may refuse. What has no volume is not mounted.
    zeros = room / "zeros"
    zeros.write_bytes(bytes(1 << 20))
    (room / "none").write_bytes(job_lines([Job(zeros)], {zeros: (str(zeros), 0, 1 << 20)}, []))
    done = subprocess.run([str(guest), str(room / "none"), str(room / "output")], stderr=subprocess.DEVNULL)
    return done.returncode == 0
