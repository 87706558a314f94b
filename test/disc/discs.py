"""Burns discs in emulated recorders, from a virtual machine that takes them for drives.

    discs.py UDFBURN KERNEL ROOM            whole volumes, by xorriso
    discs.py UDFBURN KERNEL ROOM LIBRARY    file by file, by the C library

KERNEL is the folder into which a kernel's package was unpacked, and LIBRARY that of the C library. The machine's programs are those of
this one.
"""

from __future__ import annotations

import os
import re
import shutil
import subprocess
import sys
import sysconfig
from pathlib import Path
from typing import Dict, Iterator, List, Set

TOP = Path(__file__).resolve().parents[2]
sys.path[1:1] = [str(TOP / "test/readers"), str(TOP / "clients/python")]

from iscsi import Target  # noqa: E402
from linux import member, modules  # noqa: E402
from recorder import Faults, Recorder, recorders  # noqa: E402

LEFT_OUT = {"test", "tests", "idlelib", "tkinter", "turtledemo", "lib2to3", "ensurepip", "site-packages", "dist-packages", "pydoc_data", "distutils"}
"""Folders of Python's library that no test needs."""

SECONDS = 6 * 3600.0
"""More than any machine takes."""


def all_recorders() -> List[Recorder]:
    """The drives of the machine: four good ones, and others with little room, without a disc, or with a fault."""
    return [
        Recorder("CDR", "cdr"), Recorder("DVDR", "dvdr"), Recorder("DVD+R", "dvd+r"), Recorder("BDR", "bdr"), Recorder("RAW", "dvd+r"),
        Recorder("TAO", "cdr"), Recorder("CLIENT", "dvd+r"), Recorder("PAST", "cdr"), Recorder("SMALL", "bdr", 320), Recorder("NONE", None),
        Recorder("WORN", "dvd+r", faults=Faults(write=200)), Recorder("WRONG", "dvdr", faults=Faults(read=300)), Recorder("BLANK", "bdr"),
    ]


def packet_recorders() -> List[Recorder]:
    """Drives of each kind, and some without a last recorded address: drives report the end of a track differently."""
    kinds = {"CDR": "cdr", "DVDR": "dvdr", "DVD+R": "dvd+r", "BDR": "bdr"}
    found = [Recorder(name, kind) for name, kind in kinds.items()]
    return [*found, *(Recorder(f"{name} NO LAST", kind, faults=Faults(no_last=True)) for name, kind in kinds.items()), Recorder("REAL", "bdr")]


# ---- what the machine has

def libraries(program: str) -> Set[str]:
    """The shared libraries of a program or a module, with their loader."""
    told = subprocess.run(["ldd", program], capture_output=True, text=True, check=False).stdout
    return set(re.findall(r"(/\S+) \(0x", told))


def python_files() -> Iterator[Path]:
    """The library of the Python that runs this."""
    for folder, folders, files in os.walk(sysconfig.get_path("stdlib")):
        folders[:] = [name for name in folders if name not in LEFT_OUT and not name.startswith("config-")]
        yield from (Path(folder, name) for name in files if name.endswith((".py", ".so")) or name.endswith(".pyc") and ".opt-" not in name)


def machine_files(udfburn: str, room: Path) -> Dict[str, Path]:
    """All files of the machine by their paths in it."""
    python, xorriso = os.path.realpath(sys.executable), shutil.which("xorriso") or "xorriso"
    found = {str(path): path for path in python_files()}
    programs = {python: Path(python), "/usr/bin/xorriso": Path(xorriso), "/bin/udfburn": Path(udfburn)}
    library = room / "work/libudfburn.so.0"
    if library.exists():
        programs["/work/libudfburn.so.0"] = library
    needs = {name for path in [*programs.values(), *(path for path in found.values() if path.suffix == ".so")] for name in libraries(str(path))}
    found.update({name: Path(name) for name in needs})
    found.update(programs)
    for folder in ("client", "work"):
        found.update({f"/{path.relative_to(room)}": path for path in (room / folder).rglob("*") if path.is_file()})
    return found


def start_archive(udfburn: str, kernel: Path, room: Path) -> Path:
    """What the kernel unpacks at its start: the whole machine."""
    files = machine_files(udfburn, room)
    folders: Set[str] = {"dev", "proc", "sys", "tmp", "mnt", "modules"}
    for name in files:
        folders.update(str(above).lstrip("/") for above in Path(name).parents)
    # An archive has folders for what is not stored yet, too.
    folders.update(str(path.relative_to(room)) for path in (room / "work").rglob("*") if path.is_dir())
    out = room / "machine"
    with open(out, "wb") as file:
        for folder in sorted(folders - {"", "."}):
            file.write(member(folder, 0o040755, b""))
        for name, path in files.items():
            status = path.stat()
            file.write(member(name.lstrip("/"), 0o100000 | status.st_mode & 0o777, path.read_bytes(), int(status.st_mtime)))
        for at, path in enumerate(modules(kernel / "lib/modules")):
            file.write(member("modules/%02d" % at, 0o100644, path.read_bytes()))
        python = os.path.realpath(sys.executable)
        first = Path(__file__).with_name("guest.py").read_bytes()
        file.write(member("init", 0o100755, f"#!{python} -BS\n".encode() + first))
        file.write(member("TRAILER!!!", 0, b""))
    return out


def make_client(room: Path, count: int) -> None:
    """The client, and how many drives there are."""
    client = room / "client"
    shutil.copytree(TOP / "clients/python/udfburn", client / "udfburn")
    subprocess.run([sys.executable, "-m", "compileall", "-q", "--invalidation-mode", "unchecked-hash", str(client)], check=True)
    (room / "work").mkdir()
    (room / "work/count").write_text(str(count))


def make_files(room: Path, library: Path) -> None:
    """The C library, and files to store: inside their entries, and of one block and more."""
    shutil.copyfile(library / "libudfburn.so.0", room / "work/libudfburn.so.0")
    shutil.copyfile(Path(__file__).with_name("real.py"), room / "work/real.py")
    for folder, count in (("first", 20), ("second", 5)):
        (room / "work" / folder).mkdir()
        for at in range(count):
            (room / "work" / folder / f"f{at}.bin").write_bytes(bytes([count, at]) * (at % 7 * at * 300))


def make_work(udfburn: str, room: Path) -> None:
    """An archive with two closed volumes, an image, and one whose copies would lie past its partition."""
    client, work, tree = room / "client", room / "work", room / "tree"
    environment = {**os.environ, "UDFBURN": udfburn, "PYTHONPATH": str(client), "UDFBURN_LEDGER": str(room / "ledger")}

    def python(*words: str) -> None:
        subprocess.run([sys.executable, "-m", *words], env=environment, check=True, stdout=subprocess.DEVNULL)

    archive = ["--archive", str(work / "archive")]
    python("udfburn.archive", "init", str(work / "archive"), "--label", "DISCS", "--capacity", "3000")
    for turn in range(2):
        for at in range(12):
            path = tree / f"tapes{turn}" / f"f{at}.bin"
            path.parent.mkdir(parents=True, exist_ok=True)
            path.write_bytes(bytes([turn, at]) * (at * 3000))
        python("udfburn.archive", "add", str(tree / f"tapes{turn}"), *archive)
        python("udfburn.archive", "close", *archive)
    file = room / "f"
    file.write_bytes(bytes(range(250)) * 40)
    python("udfburn", "format", str(work / "disc.img"), "--capacity", "512")
    python("udfburn", "put", str(file), "/f", "--image", str(work / "disc.img"))
    make_past(work / "disc.img", work / "past.img")


def make_past(image: Path, out: Path) -> None:
    """An image of 512 blocks with copies of its VAT ICB in the blocks after those, as `finish` would make them."""
    from udfburn.discs.finish import Track, track_pieces

    data = image.read_bytes()
    total = 530
    track = Track(str(image), len(data) // 2048, data[-2048:], total)
    whole = b"".join(track_pieces(track))
    # Zeros in the place of the copies that lie in the partition.
    out.write_bytes(data + bytes(512 * 2048 - len(data)) + whole[512 * 2048 :])


# ---- the machine

def words_of(kernel: Path, machine: Path, console: Path, urls: List[str]) -> List[str]:
    (image,) = sorted((kernel / "boot").glob("vmlinuz-*"))
    words = ["qemu-system-x86_64", "-nodefaults", "-no-user-config", "-display", "none", "-no-reboot", "-m", "1024", "-machine", "q35,accel=tcg"]
    words += ["-cpu", "max", "-serial", f"file:{console}", "-kernel", str(image), "-initrd", str(machine), "-device", "virtio-scsi-pci,id=bus"]
    words += ["-append", "console=ttyS0 quiet loglevel=1 panic=-1 no_timer_check random.trust_cpu=on"]
    for at, url in enumerate(urls):
        words += ["-drive", f"if=none,id=disc{at},file={url},format=raw,cache=none", "-device", f"scsi-generic,drive=disc{at},bus=bus.0,scsi-id={at}"]
    return words


def main() -> int:
    udfburn, kernel, room = os.path.realpath(sys.argv[1]), Path(sys.argv[2]), Path(sys.argv[3])
    library = Path(sys.argv[4]) if len(sys.argv) > 4 else None
    devices = recorders(packet_recorders() if library else all_recorders())
    make_client(room, len(devices))
    if library:
        make_files(room, library)
    else:
        make_work(udfburn, room)
    machine, console = start_archive(udfburn, kernel, room), room / "console"
    passed = failed = 0
    with Target(dict(devices)) as target:
        target.begin()
        words = words_of(kernel, machine, console, [target.url(name) for name in devices])
        try:
            done = subprocess.run(words, stdin=subprocess.DEVNULL, capture_output=True, text=True, timeout=SECONDS, check=False)
            told = done.stdout + done.stderr
        except subprocess.TimeoutExpired:
            told = "the machine did not end in time"
        target.shutdown()
    lines = [line[2:] for line in console.read_text(errors="replace").splitlines() if line.startswith("@ ")] if console.exists() else []
    for line in lines:
        print(line)
        passed += line.startswith("passed ")
        failed += line.startswith("failed ")
    if lines[-1:] != ["ended"]:
        print(told, console.read_text(errors="replace")[-3000:] if console.exists() else "")
        failed += 1
    print(f"{passed} passed, {failed} failed")
    return 1 if failed or not passed else 0


if __name__ == "__main__":
    sys.exit(main())
