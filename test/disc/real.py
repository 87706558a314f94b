"""Tries the disc in a real drive: file by file with the C library, and mounted by Linux where that is allowed.

    real.py DEVICE LIBRARY ROOM

LIBRARY is the folder of the C library. The disc must be blank, and is not blank afterwards. What it prints is what we ask to be sent.
"""

from __future__ import annotations

import io
import os
import platform
import shutil
import sys
import time
from contextlib import redirect_stderr, redirect_stdout
from pathlib import Path
from typing import List, Tuple

CLIENT = Path(__file__).resolve().parent.parent.parent / "clients/python"
sys.path.insert(1, str(CLIENT) if CLIENT.is_dir() else "/client")

STEP = 5_000
"""Bytes of the second file, by which the others grow."""


class Trial:
    """A trial of a drive: each step is printed with its time, and how it ended."""

    def __init__(self, device: str, room: Path):
        self.device, self.room = device, room
        self.passed = self.failed = 0

    def say(self, line: str) -> None:
        print(line, flush=True)

    def step(self, name: str, *words: str) -> bool:
        """Runs a command of the client on the disc."""
        from udfburn.commands.cli import main

        output, began = io.StringIO(), time.monotonic()
        with redirect_stdout(output), redirect_stderr(output):
            status = main([*words, "--device", self.device])
        said = output.getvalue().splitlines()[-2:] if status else []
        return self.ended(name, status == 0, began, " / ".join(said))

    def ended(self, name: str, is_good: bool, began: float, said: str) -> bool:
        self.passed += is_good
        self.failed += not is_good
        self.say(f"{'passed' if is_good else 'failed'} {name} {time.monotonic() - began:.2f} s {said}".rstrip())
        return is_good

    def reload(self) -> None:
        """Has the drive eject the disc and load it."""
        from udfburn.discs.burning import take_in_again

        began = time.monotonic()
        try:
            take_in_again(self.device, self.say)
            self.ended("ejected and loaded", True, began, "")
        except Exception as error:
            self.ended("ejected and loaded", False, began, str(error))

    def mount(self, folders: List[str]) -> None:
        """Mounts the disc without options, and compares its files."""
        import subprocess

        point, began = self.room / "mnt", time.monotonic()
        point.mkdir(exist_ok=True)
        if os.geteuid() != 0 or shutil.which("mount") is None:
            self.say(f"not tried: as root: mount -t udf -o ro {self.device} {point}")
            return
        done = subprocess.run(["mount", "-t", "udf", "-o", "ro", self.device, str(point)], capture_output=True, text=True, check=False)
        if done.returncode:
            self.ended("mounted", False, began, done.stderr.strip())
            return
        wrong = [path for name in folders for path in (self.room / name).iterdir() if (point / name / path.name).read_bytes() != path.read_bytes()]
        subprocess.run(["umount", str(point)], check=False)
        self.ended("mounted, each file compared", not wrong, began, ", ".join(map(str, wrong)))


def drive_of(device: str) -> str:
    """The model of a drive, as Linux has it."""
    folder = Path("/sys/class/block", os.path.basename(os.path.realpath(device)), "device")
    found = [(folder / name).read_text().strip() for name in ("vendor", "model", "rev") if (folder / name).exists()]
    return " ".join(found) or "unknown"


def make(folder: Path, count: int) -> Tuple[str, str]:
    folder.mkdir()
    for at in range(count):
        (folder / f"f{at}").write_bytes(os.urandom(at * at * STEP))
    return str(folder), f"/{folder.name}"


def main() -> int:
    device, room = sys.argv[1], Path(sys.argv[3])
    os.environ.update(UDFBURN_LIBRARY=str(Path(sys.argv[2]).resolve() / "libudfburn.so.0"), UDFBURN_LEDGER=str(room / "ledger"))
    trial = Trial(device, room)
    trial.say(f"drive {drive_of(device)}, Linux {platform.release()}")
    first, second = make(room / "first", 8), make(room / "second", 5)
    if trial.step("formatted", "format", "--label", "TRY"):
        for path in sorted(Path(first[0]).iterdir()):
            trial.step(f"stored {path.stat().st_size} bytes", "put", "-p", str(path), f"{first[1]}/{path.name}")
        trial.reload()
        trial.step("read again, each file compared", "verify", *first)
        trial.mount(["first"])
        trial.step("appended 5 files", "put", "-r", *second)
        trial.reload()
        trial.step("read again, each file compared", "verify", *second)
        trial.mount(["first", "second"])
    print(f"disc: {trial.passed} passed, {trial.failed} failed")
    return 1 if trial.failed or not trial.passed else 0


if __name__ == "__main__":
    sys.exit(main())
