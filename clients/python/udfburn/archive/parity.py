"""Parity of closed volumes by par2 (PAR 2.0): kept beside the image and on the remotes, and used where no copy is good."""

from __future__ import annotations

import os
import re
import shutil
import subprocess
from contextlib import suppress
from typing import Iterable, Iterator, List, Sequence, Tuple

from ..base.beneath import is_own, open_own
from ..base.errors import UsageError
from ..base.own_files import copy_file, from_top, move, set_mode
from ..base.scratch import room, sweep
from ..local.sources import shown
from ..protocol import limits
from .assemble import COMPARED_BYTES, blocks_at, write_at
from .config import Config
from .errors import ArchiveError, CopyFailed
from .remote import Print, Remote, last_line, print_of_file

PROGRAM = "par2"

BLOCKS, LEAST = 2000, 4
"""Blocks of parity that an image has at most, and how many of the medium's each of them is at least."""


def require_program() -> None:
    """Raises where par2 is not installed."""
    if shutil.which(PROGRAM) is None:
        raise UsageError(f"the program {PROGRAM} is not on the PATH (Debian: {PROGRAM})")


def parity_names(label: str, there: Iterable[str]) -> List[str]:
    """The names of a volume's files of parity among others."""
    own = re.compile(re.escape(label) + r"(?:\.vol[0-9]+\+[0-9]+)?\.par2")
    return sorted(filter(own.fullmatch, there))


def parity_beside(image: str) -> List[str]:
    """The files of parity beside an image."""
    folder, name = os.path.split(image)
    with suppress(OSError):
        names = parity_names(name[: -len(".img")], os.listdir(folder))
        return [path for path in (os.path.join(folder, each) for each in names) if is_own(path)]
    return []


def run_par2(words: Sequence[str]) -> "subprocess.CompletedProcess[str]":
    """Runs par2, which prints nothing but errors. It takes a file's name for an option of its own only before `--`."""
    return subprocess.run([PROGRAM, *words], stdin=subprocess.DEVNULL, capture_output=True, text=True, errors="replace", check=False)


def make(config: Config, image: str, redundancy: int) -> bool:
    """Makes parity of a closed image, of so many percent, and moves it beside the image; whether there was none. The index comes last, so
    where it is there all of it is."""
    label = os.path.basename(image)[: -len(".img")]
    index = label + ".par2"
    if is_own(os.path.join(os.path.dirname(image), index)):
        return False
    sweep(config.folder, config.room_name("parity"))
    with room(config.folder, config.room_name("parity")) as folder:
        base = os.path.dirname(image)
        done = run_par2(["create", "-q", "-q", f"-s{block_size(os.path.getsize(image))}", f"-r{redundancy}", "-n1", "-B", base, "--", os.path.join(folder, index), image])
        names = parity_names(label, os.listdir(folder))
        if done.returncode or len(names) < 2:
            raise ArchiveError(f"{shown(image)}: no parity was made: {last_line(done.stderr + done.stdout) or f'par2 ended with {done.returncode}'}")
        for name in sorted(names, key=lambda name: name == index):
            made(os.path.join(folder, name), os.path.join(base, name), config.mode)
    return True


def block_size(length: int) -> int:
    """The bytes of a block of parity: whole blocks of the medium, 2,000 of an image at most, since each takes time and a digest."""
    return max(LEAST, -(-length // (BLOCKS * limits.BLOCK))) * limits.BLOCK


def made(path: str, target: str, mode: int) -> None:
    """Gives a file of parity its place, once it is on the disk."""
    set_mode(path, mode & 0o444)
    durable(path)
    move(path, target)


def durable(path: str) -> None:
    """Makes the bytes of a file durable."""
    descriptor = open_own(path)
    try:
        os.fsync(descriptor)
    finally:
        os.close(descriptor)


def gathered(image: str, remotes: Sequence[Remote], folder: str) -> Iterator[Tuple[str, List[str]]]:
    """The places that have parity of an image, one after another, and the paths of its files, copied into a folder."""
    label = os.path.basename(image)[: -len(".img")]
    own = parity_beside(image)
    if own:
        for path in own:
            with from_top(os.path.join(folder, os.path.basename(path))) as place:
                copy_file(path, place)
        yield "parity", [os.path.join(folder, os.path.basename(path)) for path in own]
    for remote in remotes:
        with suppress(CopyFailed, OSError):
            names = parity_names(label, remote.names())
            for name in names:
                with from_top(os.path.join(folder, name)) as place:
                    remote.fetch(name, place)
            if names:
                yield f"parity on {remote.name}", [os.path.join(folder, name) for name in names]


def mended(damaged: str, files: Sequence[str], folder: str, wanted: Print, name: str) -> bool:
    """Whether parity makes the image that is wanted, `name` in a folder, of a damaged one."""
    path = os.path.join(folder, name)
    copy_readable(damaged, path, wanted.length)
    # The index may be damaged, and any file of parity has what it says.
    for file in sorted(files, key=os.path.getsize):
        if not run_par2(["repair", "-q", "-q", "-B", folder, "--", file]).returncode and is_own(path) and print_of_file(path, fresh=True) == wanted:
            return True
    return False


def copy_readable(source: str, target: str, length: int) -> None:
    """Copies what can be read of an image, with zeros for each block that cannot."""
    descriptor = open_own(source)
    try:
        with from_top(target) as place:
            place.unlink()
            new = place.root.new_file(place.names, 0o600)
        try:
            for at in range(0, length, COMPARED_BYTES):
                found = blocks_at(descriptor, min(COMPARED_BYTES, length - at), at)
                sizes = (min(limits.BLOCK, length - at - index * limits.BLOCK) for index in range(len(found)))
                write_at(new, b"".join(block if block is not None else bytes(size) for block, size in zip(found, sizes)), at)
        finally:
            os.close(new)
    finally:
        os.close(descriptor)


__all__ = ["copy_readable", "durable", "gathered", "make", "mended", "parity_beside", "parity_names", "require_program"]
