"""A disc in a recorder: what it is, how a track is burned onto it by xorriso, and what is read back from it.

Nothing is burned onto a disc on which anything was found. What is read back comes from the disc: it is ejected and loaded first, and the
system is told to forget what it had of it.
"""

from __future__ import annotations

import errno
import fcntl
import os
import re
import stat
import subprocess
import time
from contextlib import contextmanager, suppress
from hashlib import sha256
from threading import Thread
from typing import IO, TYPE_CHECKING, Callable, Iterator, List, NamedTuple, Optional

from ..base.beneath import PIECE
from ..base.errors import DiscFailed
from ..protocol import limits, shown
from ..protocol.units import Address
from .finish import track_pieces

if TYPE_CHECKING:
    from .finish import Track

FILE_DRIVE = "stdio:"
"""How libburn's word for a file in the place of a drive begins."""

MEDIUM_KINDS = (("CD", "cd"), ("DVD", "dvd"), ("BD", "bd"), ("HD", "bd"), (FILE_DRIVE[:-1], "bd"))
"""The kinds of medium by how xorriso's words for them begin. It fills a file up to units as large as those of a BD."""

EJECT, CLOSE_TRAY, DRIVE_STATUS, CURRENT, DISC_OK = 0x5309, 0x5319, 0x5326, 0x7FFFFFFF, 4
"""Calls of Linux's CD-ROM driver, and the answer that a disc is ready (linux/cdrom.h)."""

BY_HAND = 300
"""Seconds in which a user can push in a tray that does not load by itself."""

Say = Callable[[str], None]
"""Is called for what is being done now: each line takes the place of the one before."""


class Disc(NamedTuple):
    """What is in a drive: its kind in xorriso's words and in ours, whether it is blank, and the blocks for which it has room."""

    words: str
    kind: str
    blank: bool
    writable: int


class LengthAndDigest(NamedTuple):
    """So many bytes and their SHA-256."""

    length: int
    sha256: bytes


def device_path(device: str) -> str:
    """The path of a drive, or of the file in its place."""
    return device[len(FILE_DRIVE) :] if device.startswith(FILE_DRIVE) else device


def require_drive(device: str) -> None:
    """Raises where a word names no drive. A file in the place of one is a regular file, or none yet."""
    path = device_path(device)
    try:
        mode = os.stat(path).st_mode
    except FileNotFoundError:
        if device != path:
            return
        raise DiscFailed(f"{shown(device)}: there is no such drive: name one with --device") from None
    except OSError as error:
        raise DiscFailed(f"{shown(device)}: {error.strerror or error}") from error
    if not (stat.S_ISREG(mode) if device != path else stat.S_ISBLK(mode) or stat.S_ISCHR(mode)):
        raise DiscFailed(f"{shown(device)}: is no drive: name one with --device")


def require_other(device: str, image: str) -> None:
    """Raises where the file in the place of a drive is the image itself, which is no copy of it."""
    with suppress(OSError):
        if os.path.samefile(device_path(device), image):
            raise DiscFailed(f"{shown(device)}: is the image itself")


def look_at(device: str) -> Disc:
    """What is in a drive."""
    require_drive(device)
    said = xorriso("-abort_on", "NEVER", "-outdev", device, "-toc")
    text = "\n".join(said)
    words = re.search(r"^Media current: (.*)$", text, re.M)
    if words is None:
        raise DiscFailed(f"{shown(device)}: cannot be used as a recorder: {reason(said) or 'xorriso does not say why'}")
    kind = next((kind for begin, kind in MEDIUM_KINDS if words[1].startswith(begin)), None)
    if kind is None:
        raise DiscFailed(f"{shown(device)}: there is no disc in it that can be used ({words[1]}): put a blank one in")
    blocks = re.search(r"^Media blocks : \d+ readable , (\d+) writable", text, re.M)
    blank = re.search(r"^Media status : is blank", text, re.M) is not None and is_empty(device_path(device))
    return Disc(words[1], kind, blank, int(blocks[1]) if blocks else 0)


def is_empty(path: str) -> bool:
    """Whether nothing can be read of a disc but zeros at its beginning. xorriso calls a disc that can be overwritten blank, where it knows
    nothing of what is on it."""
    with suppress(OSError), open(path, "rb") as file:
        return not any(file.read(PIECE))
    return True


def xorriso(*words: str) -> List[str]:
    """The lines that xorriso prints."""
    with started_xorriso(words, subprocess.DEVNULL) as process:
        assert process.stdout
        return list(stream_lines(process.stdout))


@contextmanager
def started_xorriso(words: "tuple[str, ...]", source: int) -> "Iterator[subprocess.Popen[bytes]]":
    """The program xorriso while it runs, without the user's own settings for it."""
    try:
        process = subprocess.Popen(
            ["xorriso", "-no_rc", *words], stdin=source, stdout=subprocess.PIPE, stderr=subprocess.STDOUT, env={**os.environ, "LC_ALL": "C"},
        )
    except FileNotFoundError as error:
        raise DiscFailed("the program xorriso is not on the PATH (Debian: xorriso)") from error
    with process:
        yield process


def stream_lines(stream: IO[bytes]) -> Iterator[str]:
    """The lines of a stream, as they come. Those of progress end with a carriage return."""
    rest = b""
    while data := os.read(stream.fileno(), 4096):
        *lines, rest = re.split(b"[\r\n]+", rest + data)
        yield from (line.decode(errors="replace") for line in lines)
    yield rest.decode(errors="replace")


def reason(said: List[str]) -> Optional[str]:
    """Why xorriso failed, in its own words."""
    found = [line for line in said if re.search(r": (FAILURE|FATAL|SORRY|ABORT) :", line)]
    return found[0].split(" : ", 2)[-1].strip() if found else None


# ---- burned

class SentTrack(NamedTuple):
    """What was sent to a disc: the bytes of the image, and all bytes."""

    image: LengthAndDigest
    whole: LengthAndDigest


def burn_track(track: Track, device: str, disc: Disc, say: Say) -> SentTrack:
    """Burns a track, and gives what was sent."""
    words = ("-as", "cdrecord", "-v", f"dev={device}", "-sao", "padsize=0", f"tsize={track.total}s", "-")
    with started_xorriso(words, subprocess.PIPE) as process:
        assert process.stdout
        feeder = Feeder(track, process.stdin)
        feeder.start()
        said = []
        for line in stream_lines(process.stdout):
            if "UPDATE" in line:
                say(line.split(" : ")[-1].strip())
            else:
                said.append(line)
        feeder.join()
        status = process.wait()
    why = reason(said) if status else None
    if status or feeder.sent is None:
        why = why or (str(feeder.failure) if feeder.failure else None) or f"xorriso ended with status {status}"
        raise DiscFailed(f"{shown(device)}: {why}. The disc may be spoiled: if the same command does not find it blank, mark it, and take another one")
    return feeder.sent


class Feeder(Thread):
    """Sends a track to xorriso, and counts what it sent."""

    def __init__(self, track: Track, target: Optional[IO[bytes]]):
        super().__init__(daemon=True)
        assert target
        self._track, self._target = track, target
        self.sent: Optional[SentTrack] = None
        self.failure: Optional[Exception] = None

    def run(self) -> None:
        whole, count, size = sha256(), 0, self._track.blocks * limits.BLOCK
        image = LengthAndDigest(0, b"")
        try:
            with self._target as target:
                for piece in track_pieces(self._track):
                    target.write(piece)
                    whole.update(piece)
                    count += len(piece)
                    if count == size:
                        image = LengthAndDigest(count, whole.digest())
            self.sent = SentTrack(image, LengthAndDigest(count, whole.digest()))
        except BrokenPipeError:
            # It says itself why it ended.
            pass
        except Exception as error:
            self.failure = error


# ---- read back

def take_in_again(device: str, say: Say) -> None:
    """Has a drive eject the disc and load it, so that what is read comes from the disc, and the system learns its new length."""
    if device.startswith(FILE_DRIVE):
        return
    with open_drive(device, os.O_NONBLOCK) as drive:
        tried(drive, EJECT, device)
        with suppress(OSError):
            fcntl.ioctl(drive, CLOSE_TRAY)
        limit = time.monotonic() + BY_HAND
        while fcntl.ioctl(drive, DRIVE_STATUS, CURRENT) != DISC_OK:
            if time.monotonic() > limit:
                raise DiscFailed(f"{shown(device)}: the disc was not loaded again: put it in, and run the same command, which compares it")
            say(f"waiting for the disc in {device}: push the tray in")
            time.sleep(0.5)


def tried(drive: int, call: int, device: str) -> None:
    """A call of a drive that another program, as one that looks at each new disc, may keep busy for a moment."""
    for left in range(20, -1, -1):
        try:
            fcntl.ioctl(drive, call)
            return
        except OSError as error:
            if not left or error.errno != errno.EBUSY:
                raise DiscFailed(f"{shown(device)}: cannot be ejected: {error.strerror or error}") from error
            time.sleep(0.5)


@contextmanager
def open_drive(device: str, more: int = 0) -> Iterator[int]:
    """The descriptor of a drive."""
    try:
        descriptor = os.open(device_path(device), os.O_RDONLY | os.O_CLOEXEC | more)
    except OSError as error:
        if error.errno in (errno.ENOMEDIUM, errno.EIO, errno.ENXIO):
            raise DiscFailed(f"{shown(device)}: there is no disc in it that can be read") from error
        raise DiscFailed(f"{shown(device)}: {error.strerror or error}") from error
    try:
        yield descriptor
    finally:
        os.close(descriptor)


def read_from(device: str, count: int) -> Iterator[bytes]:
    """The first bytes of a disc, as far as they can be had, from the disc and not from memory."""
    with open_drive(device) as descriptor:
        os.posix_fadvise(descriptor, 0, 0, os.POSIX_FADV_DONTNEED)
        while count:
            piece = os.read(descriptor, min(count, PIECE))
            if not piece:
                return
            yield piece
            count -= len(piece)


def read_disc(device: str, length: int, say: Say) -> LengthAndDigest:
    """The length and the digest of the first bytes of a disc. Raises where one of them cannot be read."""
    whole, count = sha256(), 0
    try:
        for piece in read_from(device, length):
            whole.update(piece)
            count += len(piece)
            say(f"read back: {100 * count // max(length, 1)} %")
    except OSError as error:
        raise DiscFailed(f"{shown(device)}: byte {count} and those after it cannot be read: {error.strerror or error}") from error
    return LengthAndDigest(count, whole.digest())


def burned(track: Track, device: str, disc: Disc, say: Say) -> LengthAndDigest:
    """Burns a track onto a blank disc, and compares every byte that it reads back. Gives what the image's own bytes are there."""
    if track.total > disc.writable:
        raise DiscFailed(f"{shown(device)}: is too small: {shown(track.image)} needs {track.total:,} blocks, and this {disc.words} has {disc.writable:,}")
    sent = burn_track(track, device, disc, say)
    take_in_again(device, say)
    if read_disc(device, sent.whole.length, say) != sent.whole:
        raise DiscFailed(f"{shown(device)}: what was read back is not what was sent: mark this disc as spoiled, and take another one")
    return sent.image


def ends_well(device: str, blocks: int) -> bool:
    """Whether a copy of the last VAT ICB follows the blocks of an image on a disc."""
    from ..reader import Medium
    from .finish import entry_at

    with suppress(OSError), Medium(device_path(device)) as medium:
        return entry_at(medium, Address(blocks)) is not None
    return False


__all__ = [
    "Disc", "FILE_DRIVE", "LengthAndDigest", "Say", "burned", "device_path", "ends_well", "look_at", "open_drive", "read_disc", "read_from", "require_drive", "require_other",
    "take_in_again",
]
