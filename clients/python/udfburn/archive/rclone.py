"""Remotes of rclone, as places for copies."""

from __future__ import annotations

import json
import os
import re
import subprocess
from contextlib import contextmanager, suppress
from functools import partial
from hashlib import sha256
from tempfile import TemporaryFile
from typing import Any, BinaryIO, Dict, Iterator, List, NamedTuple, Optional, Sequence, Set

from ..base.beneath import PIECE, Place, open_own
from ..base.own_files import BytesTold, untold
from .errors import CopyDiffers, CopyFailed
from .remote import BEGINNING, UNREADABLE, Print, Remote, failed, forget, last_line

NOT_THERE = (3, 4)
"""The statuses of rclone where there is no such folder or file."""

UNDECRYPTED = re.compile("failed to authenticate decrypted block|not an encrypted file|too short to be encrypted")
"""What rclone says where an encrypted file is there, and is damaged."""


class Tail(NamedTuple):
    """Bytes that an open image had more when they were copied: from `start` up to `end`."""

    start: int
    end: int

    def name(self, image: str) -> str:
        """The name of its file."""
        return f"{image}.{self.start:012}-{self.end:012}"


def tails_of(name: str, there: Sequence[str]) -> List[Tail]:
    """The tails of an image among the names of a remote, as far as they follow each other from its first byte on."""
    own = re.compile(re.escape(name) + "[.]([0-9]{12})-([0-9]{12})")
    found = sorted(Tail(int(match.group(1)), int(match.group(2))) for match in map(own.fullmatch, there) if match)
    chain: List[Tail] = []
    for tail in found:
        if tail.start == (chain[-1].end if chain else 0) and tail.end > tail.start:
            chain.append(tail)
    return chain


def print_of_range(descriptor: int, start: int, end: int) -> Print:
    """The length and the digest of bytes of an open file."""
    whole, count = sha256(), 0
    for at in range(start, end, PIECE):
        piece = os.pread(descriptor, min(PIECE, end - at), at)
        whole.update(piece)
        count += len(piece)
    return Print(count, whole.digest())


@contextmanager
def new_copy(target: Place) -> Iterator[BinaryIO]:
    """A new file for a copy, which is durable at the end. Where it cannot be whole, nothing is left of it."""
    target.unlink()
    descriptor = target.root.new_file(target.names, 0o600)
    try:
        with open(descriptor, "wb") as new:
            yield new
            new.flush()
            os.fsync(descriptor)
    except CopyFailed:
        forget(target)
        raise
    except OSError as error:
        forget(target)
        raise failed(target.local(), error) from error


class RcloneRemote(Remote):
    """A remote of rclone, by its own configuration. The copy of an open image is a file for each tail: no remote can append."""

    def __init__(self, name: str, told: BytesTold = untold):
        super().__init__(name, told)
        self._read: Set[str] = set()
        """The tails that this run has read, or of which the remote has given their SHA-256."""

    def _path(self, name: str) -> str:
        return self.name + ("" if self.name.endswith((":", "/")) else "/") + name

    def _run(self, words: List[str], missing: bool = False) -> Optional[bytes]:
        """What rclone prints; None where what it looks for is not there, and that may be."""
        try:
            done = subprocess.run(["rclone", *words], stdin=subprocess.DEVNULL, capture_output=True, check=False)
        except FileNotFoundError as error:
            raise CopyFailed("the program rclone is not on the PATH (Debian: rclone)") from error
        if missing and done.returncode in NOT_THERE:
            return None
        if done.returncode:
            raise CopyFailed(f"rclone {' '.join(words[:1])} {self.name}: {last_line(done.stderr.decode(errors='replace')) or f'status {done.returncode}'}")
        return done.stdout

    def send(self, local: str, name: str) -> None:
        # A name of its own first: not every remote takes a file as a whole or not at all.
        new = self._path(name + ".new")
        try:
            self._run(["copyto", "--ignore-times", local, new])
            self.told(os.path.getsize(local))
            self._run(["moveto", new, self._path(name)])
        except CopyFailed:
            with suppress(CopyFailed):
                self._run(["deletefile", new])
            raise

    def fetch(self, name: str, target: Place) -> None:
        with new_copy(target) as new:
            self._receive(name, new)

    def _receive(self, name: str, new: BinaryIO) -> None:
        """Writes the bytes of a file. They come through a pipe, since rclone would write to a path."""
        for piece in self._pieces(name):
            new.write(piece)
            self.told(len(piece))

    def _said(self, name: str, *words: str) -> Optional[Dict[str, Any]]:
        """What the remote says of a file; None where it is not there."""
        text = self._run(["lsjson", "--stat", "--files-only", *words, self._path(name)], missing=True)
        if text is None:
            return None
        try:
            found = json.loads(text)
        except ValueError as error:
            raise CopyFailed(f"rclone lsjson {self.name}: prints what is no JSON") from error
        return found if isinstance(found, dict) and not found.get("IsDir") else None

    def names(self) -> List[str]:
        told = self._run(["lsf", "--files-only", self.name], missing=True) or b""
        return told.decode(errors="surrogateescape").splitlines()

    def length(self, name: str) -> Optional[int]:
        found = self._said(name)
        return None if found is None else int(found["Size"])

    def ask(self, name: str) -> Optional[Print]:
        found = self._said(name, "--hash")
        if found is None:
            return None
        digests = {key.lower().replace("-", ""): value for key, value in (found.get("Hashes") or {}).items()}
        return Print(int(found["Size"]), bytes.fromhex(digests["sha256"])) if digests.get("sha256") else self.look(name)

    def look(self, name: str) -> Optional[Print]:
        if not self._run(["lsf", "--files-only", self._path(name)], missing=True):
            return None
        whole, count = sha256(), 0
        try:
            for piece in self._pieces(name):
                whole.update(piece)
                count += len(piece)
                self.told(len(piece))
        except CopyFailed as error:
            if UNDECRYPTED.search(str(error)):
                return UNREADABLE
            raise
        return Print(count, whole.digest())

    def _pieces(self, name: str) -> Iterator[bytes]:
        """The bytes of a file there."""
        # What rclone says goes into a file: it may print more than a pipe holds before the last byte comes.
        with TemporaryFile() as told:
            words = ["rclone", "cat", self._path(name)]
            with started(words, stdin=subprocess.DEVNULL, stdout=subprocess.PIPE, stderr=told) as process:
                assert process.stdout
                try:
                    yield from iter(partial(process.stdout.read, PIECE), b"")
                except BaseException:
                    process.kill()
                    raise
            told.seek(0)
            if process.returncode:
                raise CopyFailed(f"rclone cat {self.name}: {last_line(told.read().decode(errors='replace'))}")


    # ---- copies of open images

    def extend(self, image: int, name: str, length: int) -> int:
        tails = tails_of(name, self.names())
        had = tails[-1].end if tails else 0
        if tails:
            # The other ones are before it in the same image, and `begun` looks at them.
            self._require_same(image, name, tails[-1], length)
        if had < length:
            self._send_tail(image, name, Tail(had, length))
        return had

    def begun(self, image: int, name: str, length: int) -> Optional[int]:
        tails = tails_of(name, self.names())
        for tail in tails:
            self._require_same(image, name, tail, length)
        return tails[-1].end if tails else None

    def grown(self, name: str) -> Optional[int]:
        tails = tails_of(name, self.names())
        return tails[-1].end if tails else None

    def _require_same(self, image: int, name: str, tail: Tail, length: int) -> None:
        """Raises where a tail is not as the image has it."""
        file = tail.name(name)
        if file in self._read:
            return
        if tail.end > length:
            raise CopyFailed(f"{self._path(file)}: the image has {length} bytes: it is an older copy, or was cut short")
        if self.ask(file) != print_of_range(image, tail.start, tail.end):
            raise CopyDiffers(f"{self._path(file)}: differs from the image, and is not changed: it is damaged, or a copy of another image")
        self._read.add(file)

    def _send_tail(self, image: int, name: str, tail: Tail) -> None:
        """Sends a tail. It has its name once all of it was read back."""
        file = tail.name(name)
        new = self._path(file + ".new")
        with TemporaryFile() as told:
            words = ["rclone", "rcat", "--size", str(tail.end - tail.start), new]
            with started(words, stdin=subprocess.PIPE, stdout=subprocess.DEVNULL, stderr=told) as process:
                assert process.stdin
                # What it says where it ends before its last byte came.
                with suppress(BrokenPipeError), process.stdin:
                    for at in range(tail.start, tail.end, PIECE):
                        piece = os.pread(image, min(PIECE, tail.end - at), at)
                        process.stdin.write(piece)
                        self.told(len(piece))
            told.seek(0)
            if process.returncode:
                raise CopyFailed(f"rclone rcat {self.name}: {last_line(told.read().decode(errors='replace'))}")
        if self.look(file + ".new") != print_of_range(image, tail.start, tail.end):
            raise CopyFailed(f"{self._path(file)}: what arrived is not what was sent")
        self._run(["moveto", new, self._path(file)])
        self._read.add(file)

    def fetch_grown(self, name: str, target: Place) -> None:
        with new_copy(target) as new:
            for tail in tails_of(name, self.names()):
                self._receive(tail.name(name), new)
                if new.tell() != tail.end:
                    raise CopyFailed(f"{self._path(tail.name(name))}: has not the length that its name says")

    def first_bytes(self, name: str, count: int) -> bytes:
        tails = tails_of(name, self.names())
        return self._run(["cat", "--count", str(count), self._path(tails[0].name(name))], missing=True) or b"" if tails else b""

    def begins_as(self, local: str, name: str) -> bool:
        with open(open_own(local), "rb") as file:
            wanted = file.read(BEGINNING)
        return self._run(["cat", "--count", str(len(wanted)), self._path(name)], missing=True) == wanted

    def set_aside(self, name: str, end: str) -> None:
        for tail in tails_of(name, self.names()):
            self._run(["moveto", self._path(tail.name(name)), self._path(tail.name(name) + end)])

    def drop_tails(self, local: str, name: str) -> None:
        own = re.compile(re.escape(name) + "[.]([0-9]{12})-([0-9]{12})([.]new)?")
        others: List[str] = []
        image = open_own(local)
        try:
            length = os.fstat(image).st_size
            for match in filter(None, map(own.fullmatch, self.names())):
                file, start, end = match.group(), int(match.group(1)), int(match.group(2))
                if match.group(3) or end <= length and self.ask(file) in (None, print_of_range(image, start, end)):
                    self._run(["deletefile", self._path(file)], missing=True)
                else:
                    others.append(file)
        finally:
            os.close(image)
        if others:
            raise CopyFailed(f"{self._path(others[0])}: is not as the closed image has it, and is left alone: move it away, if nobody needs it")


def started(words: List[str], **streams: Any) -> "subprocess.Popen[bytes]":
    """rclone, or `CopyFailed` where it is not there."""
    try:
        return subprocess.Popen(words, **streams)
    except FileNotFoundError as error:
        raise CopyFailed("the program rclone is not on the PATH (Debian: rclone)") from error
