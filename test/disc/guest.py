"""The first process of the virtual machine: burns discs in the emulated recorders, mounts them, and looks at each file.

What it finds goes to the console, a line for each test: `@ passed NAME` or `@ failed NAME: WHY`; and last `@ ended`.
"""

from __future__ import annotations

import ctypes
import io
import os
import sys
import time
import traceback
from contextlib import contextmanager, redirect_stderr, redirect_stdout
from functools import partial
from hashlib import sha256
from typing import Callable, Dict, Iterator, List, Tuple

sys.path.insert(0, "/client")

ARCHIVE, IMAGE, LABEL = "/work/archive", "/work/disc.img", "DISCS-000001"
CLOSED = f"{ARCHIVE}/closed/{LABEL}.img"
LIBRARY = "/work/libudfburn.so.0"
"""The C library, where files are stored one by one."""

BLOCK = 2048

PATIENCE = 600
"""Seconds after which a drive that is not there, or does not answer, counts as missing."""
READ_ONLY, FINIT_MODULE, POWER_OFF = 1, 313, 0x4321FEDC

libc = ctypes.CDLL(None, use_errno=True)


def mount(source: str, target: str, kind: str, flags: int = 0, options: str = "") -> None:
    """Mounts a file system; OSError where the kernel refuses."""
    os.makedirs(target, exist_ok=True)
    if libc.mount(source.encode(), target.encode(), kind.encode(), flags, options.encode()):
        raise OSError(ctypes.get_errno(), os.strerror(ctypes.get_errno()))


def begin() -> None:
    """Has the system's folders and the kernel's modules."""
    os.environ.update({"PATH": "/usr/bin:/usr/sbin:/bin", "UDFBURN": "/bin/udfburn", "HOME": "/work", "LC_ALL": "C.UTF-8"})
    for source, target, kind in (("proc", "/proc", "proc"), ("sys", "/sys", "sysfs"), ("dev", "/dev", "devtmpfs"), ("tmp", "/tmp", "tmpfs")):
        mount(source, target, kind)
    # The archive of the machine has no devices, so this process began without a console.
    console = os.open("/dev/ttyS0", os.O_RDWR | os.O_NOCTTY)
    for number in range(3):
        os.dup2(console, number)
    sys.stdout, sys.stderr = (open(number, "w", encoding="utf-8", closefd=False) for number in (1, 2))
    for name in sorted(os.listdir("/modules")):
        file = os.open(f"/modules/{name}", os.O_RDONLY)
        libc.syscall(FINIT_MODULE, file, b"", 0)
        os.close(file)


def drives(count: int) -> Dict[str, str]:
    """The recorders by their names, once all are there."""
    limit = time.monotonic() + PATIENCE
    found: Dict[str, str] = {}
    while len(found) < count and time.monotonic() < limit:
        for name in os.listdir("/sys/block"):
            if name.startswith("sr") and os.path.exists(f"/dev/{name}"):
                with open(f"/sys/block/{name}/device/model", encoding="ascii") as file:
                    found[file.read().strip()] = f"/dev/{name}"
                # The kernel gives a drive half a minute for an answer, and this machine is an emulated one.
                with open(f"/sys/block/{name}/device/timeout", "w", encoding="ascii") as file:
                    file.write(str(PATIENCE))
        time.sleep(0.1)
    return found


# ---- what is asked of the programs

def run(main: Callable[[List[str]], int], *words: str) -> Tuple[int, str]:
    """A command's status, and what it prints."""
    output = io.StringIO()
    with redirect_stdout(output), redirect_stderr(output):
        status = main(list(words))
    return status, output.getvalue()


def client(*words: str) -> Tuple[int, str]:
    from udfburn.commands.cli import main

    return run(main, *words)


def archive(*words: str) -> Tuple[int, str]:
    from udfburn.archive.cli import main

    return run(main, *words, "--archive", ARCHIVE)


def expect(found: Tuple[int, str], status: int, text: str) -> None:
    """Raises where a command ended otherwise, or did not print this."""
    if found[0] != status or text not in found[1]:
        raise AssertionError(f"status {found[0]} and not {status}, or no {text!r}: {found[1]}")


def burn(device: str, *words: str) -> Tuple[int, str]:
    return archive("burn", LABEL, "--device", device, *words)


@contextmanager
def mounted(device: str, options: str = "") -> Iterator[str]:
    mount(device, "/mnt", "udf", READ_ONLY, options)
    try:
        yield "/mnt"
    finally:
        libc.umount(b"/mnt")


def bag_is_whole(device: str, options: str = "") -> None:
    """Mounts a disc, and compares each file of its bag with the manifest."""
    with mounted(device, options) as folder:
        with open(f"{folder}/manifest-sha256.txt", encoding="utf-8") as file:
            lines = [line.rstrip("\n").split("  ", 1) for line in file]
        if len(lines) < 10:
            raise AssertionError(f"the manifest has {len(lines)} files")
        for digest, name in lines:
            with open(f"{folder}/{name}", "rb") as file2:
                if sha256(file2.read()).hexdigest() != digest:
                    raise AssertionError(f"{name} differs")


def is_refused(device: str, options: str = "") -> None:
    try:
        with mounted(device, options):
            pass
    except OSError:
        return
    raise AssertionError("Linux mounted it")


def bytes_of(path: str, count: int) -> bytes:
    with open(path, "rb") as file:
        return file.read(count)


def discs_known() -> str:
    """The rows of the catalogue that are discs."""
    import sqlite3

    base = sqlite3.connect(f"{ARCHIVE}/catalogue.sqlite")
    try:
        return repr(base.execute("SELECT volume, remote, trouble FROM copy ORDER BY remote").fetchall())
    finally:
        base.close()


def raw(device: str, image: str, *words: str) -> None:
    """What people burn by hand, and a drive that has taken the disc in again."""
    import subprocess

    from udfburn.discs.burning import take_in_again

    done = subprocess.run(["xorriso", "-no_rc", "-as", "cdrecord", "-v", f"dev={device}", *words, image], capture_output=True, text=True, check=False)
    if done.returncode:
        raise AssertionError(done.stdout + done.stderr)
    take_in_again(device, lambda line: None)


# ---- the tests

def a_good_disc(device: str, name: str) -> None:
    """Burned, read back, mounted without options, and recorded; found again by the same words."""
    expect(burn(device, "--disc", name), 0, f"Write on it: {LABEL} / {name}")
    bag_is_whole(device)
    image = bytes_of(CLOSED, os.path.getsize(CLOSED))
    if bytes_of(device, len(image)) != image:
        raise AssertionError("the disc is not the image")
    expect(burn(device, "--disc", name), 0, "is on this disc already")
    expect(archive("check", "--disc", name, "--device", device), 0, "is intact")


def other_words(found: Dict[str, str]) -> None:
    """A disc that is there already is another disc's neither by its name, nor by what is on it."""
    before = discs_known()
    expect(burn(found["BLANK"], "--disc", "CDR"), 1, "already")
    expect(archive("burn", "DISCS-000002", "--device", found["CDR"], "--disc", "NEW"), 1, "is not blank")
    expect(archive("check", "--disc", "CDR", "--device", found["CLIENT"]), 1, f"and not {LABEL}: put the right one in")
    if discs_known() != before:
        raise AssertionError("a row changed")


def refused(device: str, text: str) -> None:
    """Nothing is recorded."""
    before = discs_known()
    expect(burn(device, "--disc", "REFUSED"), 1, text)
    if discs_known() != before:
        raise AssertionError("a row changed")


def repaired(device: str, blank: str) -> None:
    """An image that is damaged is not burned, and comes back from a disc byte by byte."""
    image = bytes_of(CLOSED, os.path.getsize(CLOSED))
    os.chmod(CLOSED, 0o600)
    with open(CLOSED, "r+b") as file:
        file.seek(300 * BLOCK)
        file.write(b"damage")
    expect(burn(blank, "--disc", "DAMAGED"), 1, "and was not burned")
    expect(archive("repair", LABEL, "--disc", "DVDR", "--device", device), 0, "repaired 1 image")
    if bytes_of(CLOSED, len(image) + 1) != image:
        raise AssertionError("it is not the image that was closed")


def burned_by_hand(device: str) -> None:
    """Zeros after the image hide its end from Linux: this test would pass on a recorder that writes no units."""
    raw(device, CLOSED, "-sao", "padsize=0")
    is_refused(device)
    bag_is_whole(device, f"lastblock={os.path.getsize(CLOSED) // BLOCK - 1}")


def track_at_once(device: str) -> None:
    raw(device, CLOSED, "-tao", "padsize=0")
    bag_is_whole(device)


def by_the_client(device: str) -> None:
    expect(client("burn", IMAGE, "--device", device), 0, "every byte was read back")
    expect(client("burn", IMAGE, "--device", device), 0, "is on this disc already")
    with mounted(device) as folder:
        if bytes_of(f"{folder}/f", 10_000) != bytes(range(250)) * 40:
            raise AssertionError("its file differs")


def past_the_partition(device: str) -> None:
    """Why a volume without room for the copies is refused."""
    raw(device, "/work/past.img", "-sao", "padsize=0")
    is_refused(device)


# ---- file by file

def files_are_there(device: str, folders: Dict[str, str]) -> None:
    """Mounts a disc without options, and compares what it has with local folders."""
    with mounted(device) as disc:
        for name, local in folders.items():
            if sorted(os.listdir(f"{disc}/{name}")) != sorted(os.listdir(local)):
                raise AssertionError(f"{name} has {os.listdir(f'{disc}/{name}')}")
            for file in os.listdir(local):
                if bytes_of(f"{disc}/{name}/{file}", 1 << 20) != bytes_of(f"{local}/{file}", 1 << 20):
                    raise AssertionError(f"{name}/{file} differs")


def in_place(device: str, name: str) -> None:
    """Formatted, filled, ejected, loaded, mounted; and once more with what is appended. A disc that is mounted is not written."""
    from udfburn.discs.burning import take_in_again

    def quiet(line: str) -> None:
        pass

    where = ("--device", device)
    expect(client("format", "--label", name.replace(" ", "-"), *where), 0, "formatted")
    expect(client("put", "-r", "/work/first", "/first", *where), 0, "stored 20 files")
    take_in_again(device, quiet)
    files_are_there(device, {"first": "/work/first"})
    if name.endswith("NO LAST"):
        return
    with mounted(device):
        expect(client("put", "-r", "/work/second", "/second", "--wait", "0", *where), 1, "another program has it, or the disc is mounted")
    expect(client("put", "-r", "/work/second", "/second", *where), 0, "stored 5 files")
    take_in_again(device, quiet)
    files_are_there(device, {"first": "/work/first", "second": "/work/second"})
    expect(client("verify", "/work/first", "/first", *where), 0, "20 files")


def no_disc_drive() -> None:
    """A device of another kind gets no command of a recorder."""
    expect(client("ls", "/", "--device", "/dev/null"), 1, "is no drive for CD, DVD or BD")
    expect(client("ls", "/", "--device", "/dev/none"), 1, "there is no such drive")


def as_a_real_one(device: str) -> None:
    """The steps of `test/disc.sh --device`."""
    import runpy

    os.mkdir("/tmp/real")
    words, sys.argv = sys.argv, ["real.py", device, "/work", "/tmp/real"]
    output = io.StringIO()
    try:
        with redirect_stdout(output):
            runpy.run_path("/work/real.py", run_name="__main__")
    except SystemExit as ended:
        # The machine has no program that mounts.
        expect((int(ended.code or 0), output.getvalue()), 0, "disc: 14 passed, 0 failed")
    finally:
        sys.argv = words


def packet_tests(found: Dict[str, str]) -> List[Tuple[str, Callable[[], None]]]:
    real = found.pop("REAL")
    return [
        *((f"in place: {name}", partial(in_place, device, name)) for name, device in sorted(found.items())), ("no disc drive", no_disc_drive),
        ("what a real drive is tried with", lambda: as_a_real_one(real)),
    ]


def tests(found: Dict[str, str]) -> List[Tuple[str, Callable[[], None]]]:
    return [
        ("too small", lambda: refused(found["SMALL"], "is too small")),
        ("no disc", lambda: refused(found["NONE"], "there is no disc in it")),
        ("a write that fails", lambda: refused(found["WORN"], "The disc may be spoiled")),
        ("a disc that was cut short", lambda: refused(found["WORN"], "is not blank, and does not have")),
        ("a wrong bit is read back", lambda: refused(found["WRONG"], "mark this disc as spoiled")),
        ("by the client", lambda: by_the_client(found["CLIENT"])),
        ("copies past the partition", lambda: past_the_partition(found["PAST"])),
        *((f"a good {name}", partial(a_good_disc, found[name], name)) for name in ("CDR", "DVDR", "DVD+R", "BDR")),
        ("names and other discs", lambda: other_words(found)),
        ("repaired", lambda: repaired(found["DVDR"], found["BLANK"])),
        ("a disc burned by hand", lambda: burned_by_hand(found["RAW"])),
        ("track at once", lambda: track_at_once(found["TAO"])),
    ]


def say(line: str) -> None:
    """A line of the console, on which the kernel may print too."""
    os.write(1, f"\n@ {' '.join(line.split())}\n".encode())


def main() -> None:
    begin()
    with open("/work/count", encoding="ascii") as file:
        count = int(file.read())
    say("has begun")
    found = drives(count)
    if len(found) != count:
        say(f"failed drives: {found}")
    packets = os.path.exists(LIBRARY)
    if packets:
        os.environ["UDFBURN_LIBRARY"] = LIBRARY
    for name, test in packet_tests(found) if packets else tests(found):
        began = time.monotonic()
        try:
            test()
            say(f"passed {name} {time.monotonic() - began:.1f} s")
        except BaseException:
            say(f"failed {name}: {traceback.format_exc()}")


try:
    main()
except BaseException:
    say(f"failed the machine: {traceback.format_exc()}")
say("ended")
os.sync()
libc.reboot(POWER_OFF)
