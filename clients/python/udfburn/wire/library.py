"""A volume that is open in this process, with the C library libudfburn, through ctypes.

The library is loaded once. UDFBURN_LIBRARY of the environment names it; otherwise the system finds it.
"""

from __future__ import annotations

import ctypes
import os
from contextlib import ExitStack
from threading import RLock
from typing import Dict, List, NamedTuple, Optional, Tuple

from ..base.errors import DAMAGE, Damaged, DiskFull, UsageError
from ..protocol import shown
from ..protocol.units import Moment
from .connection import Connection, Lost, Outgoing

LIBRARY_FILE = "libudfburn.so.0"

OK = 0
"""The status of a call that succeeded."""

HANDLE = ctypes.c_void_p


class ReasonOfC(ctypes.Structure):
    """`struct udfburn_reason`."""

    _fields_ = [
        ("size", ctypes.c_size_t), ("status", ctypes.c_int32), ("error", ctypes.c_int32), ("call", ctypes.c_char * 32), ("path", ctypes.c_char * 256),
    ]


CALLS: Dict[str, Tuple[Optional[type], List[object]]] = {
    "udfburn_version": (ctypes.c_char_p, []),
    "udfburn_error_name": (ctypes.c_char_p, [ctypes.c_int32]),
    "udfburn_format": (ctypes.c_int32, [ctypes.c_char_p, ctypes.c_char_p, ctypes.c_uint64, ctypes.c_uint32]),
    "udfburn_open": (ctypes.c_int32, [ctypes.c_char_p, ctypes.POINTER(HANDLE)]),
    "udfburn_answer": (ctypes.c_int32, [HANDLE, ctypes.c_char_p, ctypes.c_size_t]),
    "udfburn_answered": (ctypes.c_size_t, [HANDLE]),
    "udfburn_take": (ctypes.c_size_t, [HANDLE, ctypes.c_char_p, ctypes.c_size_t]),
    "udfburn_close": (None, [HANDLE]),
    "udfburn_reason": (ctypes.c_int32, [HANDLE, ctypes.POINTER(ReasonOfC)]),
}
"""The functions of udfburn.h that are used here: what each returns and takes."""


class CallRefused(Exception):
    """A call returned a status other than UDFBURN_OK. `name` is the status. `error` is the errno of the call of the system that failed below
    it, `call`, on the file at `path`; 0 and no text where none failed, or its path is not known."""

    def __init__(self, name: str, error: int = 0, call: str = "", path: str = ""):
        super().__init__(name)
        self.name, self.error, self.call, self.path = name, error, call, path

    def reason(self) -> str:
        """Why it failed, as it is added to a message; nothing where the library does not know more."""
        if not self.call:
            return ""
        where = f" of {shown(self.path)}" if self.path else ""
        return f" ({self.call}{where}: {os.strerror(self.error)})" if self.error else f" ({self.call}{where})"


class Library(NamedTuple):
    """The library that was found."""

    name: str
    calls: ctypes.CDLL

    def version(self) -> str:
        """Its version, which is that of the programs of the same release."""
        said: bytes = self.calls.udfburn_version()
        return said.decode(errors="replace")

    def require(self, status: int, handle: Optional[HANDLE] = None) -> None:
        """Raises `CallRefused` unless the status is UDFBURN_OK. The call was on a handle, or on none."""
        if status != OK:
            said: bytes = self.calls.udfburn_error_name(status)
            reason = ReasonOfC(ctypes.sizeof(ReasonOfC))
            # What it says may be of an earlier call, where this one was refused before it began.
            if self.calls.udfburn_reason(handle, ctypes.byref(reason)) == OK and reason.status == status:
                raise CallRefused(said.decode(errors="replace"), reason.error, reason.call.decode(errors="replace"), os.fsdecode(reason.path))
            raise CallRefused(said.decode(errors="replace"))

    def format(self, path: str, label: str, moment: Moment, blocks: int) -> None:
        """Makes a volume in a new or empty file."""
        self.require(self.calls.udfburn_format(os.fsencode(path), label.encode(), moment, blocks))


class LibraryVolume:
    """An open volume. Nobody else can open it meanwhile. A child after fork cannot use it: both processes would write."""

    def __init__(self, library: Library, path: str):
        self._library = library
        self._process = os.getpid()
        self._handle = HANDLE()
        self._in_call = RLock()
        try:
            library.require(self._opened(path))
        except BaseException:
            # An interrupt may come after the volume was opened.
            self.close()
            raise

    def _opened(self, path: str) -> int:
        """The status of the call that opens it."""
        status: int = self._library.calls.udfburn_open(os.fsencode(path), ctypes.byref(self._handle))
        return status

    def answer(self, frames: bytes) -> None:
        """Sends bytes of the stream of messages. Every message that is complete is answered."""
        if os.getpid() != self._process:
            raise UsageError("the volume was opened before the fork and belongs to the parent: when the parent has closed it, close it in the child too and open it again")
        # The library itself refuses a call while another thread is in one.
        is_first = self._in_call.acquire(blocking=False)
        try:
            self._library.require(self._library.calls.udfburn_answer(self._handle, frames, len(frames)), self._handle)
        finally:
            if is_first:
                self._in_call.release()

    def take(self, most: int) -> bytes:
        """The next bytes of the answers, at most so many. Empty if no answer waits."""
        count = min(most, self._library.calls.udfburn_answered(self._handle))
        room = ctypes.create_string_buffer(count) if count else None
        return room.raw if room and self._library.calls.udfburn_take(self._handle, room, count) == count else b""

    def close(self) -> None:
        """Closes the volume, so that others can open it. Everything that was answered is on the disk already.

        A call of another thread is waited for, since the library would leave the volume open, and locked as long as this process is there.

        In a child after fork it closes the child's copy, which else keeps the lock after the parent has closed the volume. The
        parent loses nothing by it.
        """
        with ExitStack() as turn:
            # The threads of a parent are not in its child.
            if os.getpid() == self._process:
                turn.enter_context(self._in_call)
            handle, self._handle = self._handle, HANDLE()
            self._library.calls.udfburn_close(handle)


class LibraryConnection(Connection):
    """A conversation with the C library in this process. What was sent is answered when an answer is asked for: the library makes a
    group of all of it, which the disk has with two syncs."""

    def __init__(self, image: str, library: Library, timeout: float = 120.0):
        super().__init__(timeout)
        self._sent: List[Outgoing] = []
        # The library opens no symbolic link.
        self.image = os.path.realpath(image)
        try:
            self.volume = LibraryVolume(library, self.image)
        except CallRefused as refused:
            raise refusal_of(refused) from refused

    def close(self) -> None:
        self.volume.close()

    def opener(self) -> Optional[int]:
        return os.getpid()

    def _wait(self, limit: float, writing: bool) -> "tuple[bool, bool]":
        return not writing, writing

    def _read(self, most: int) -> Optional[bytes]:
        frames, self._sent = b"".join(self._sent), []
        if frames:
            try:
                self.volume.answer(frames)
            except CallRefused as refused:
                raise self._told(refused) from refused
        return self.volume.take(most)

    def _write(self, pieces: List[Outgoing]) -> int:
        self._sent += pieces
        return sum(map(len, pieces))

    def _told(self, refused: CallRefused) -> Exception:
        return refusal_of(refused)


def refusal_of(refused: CallRefused) -> Exception:
    """What a refused call means for the conversation."""
    if refused.name == "UDFBURN_VOLUME":
        return Damaged(DAMAGE)
    if refused.name == "UDFBURN_NO_SPACE":
        # That does not pass by itself, so it is not waited for.
        return DiskFull(f"UDFBURN_NO_SPACE: the disk of the image is full{refused.reason()}: make room; 'resume', or the same command, continues")
    why = {
        "UDFBURN_BUSY": "another program has the image",
        "UDFBURN_DEVICE": "the image is not a regular file, its folder is missing, or its disk failed",
        "UDFBURN_MEMORY": "there is not enough memory",
        "UDFBURN_MISUSE": "another thread is in a call on the volume, or a parent process opened it",
        "UDFBURN_NO_IMAGE": "there is no such image",
        "UDFBURN_READ_ONLY": "the image may not be written",
    }
    return Lost(f"{refused.name}: {why.get(refused.name, 'the library refused')}{refused.reason()}")


_found: Dict[str, Library] = {}


def find_library() -> Library:
    """The library. `UsageError` if there is none, or if it lacks a function that is used here."""
    name = os.environ.get("UDFBURN_LIBRARY") or LIBRARY_FILE
    if name not in _found:
        _found[name] = Library(name, load(name))
    return _found[name]


def load(name: str) -> ctypes.CDLL:
    """Loads the library and declares its functions."""
    try:
        calls = ctypes.CDLL(name)
    except OSError as error:
        raise UsageError(f"{name} cannot be loaded ({error}): install libudfburn, or name it in UDFBURN_LIBRARY; image:PATH works without it") from error
    declare(name, calls, CALLS)
    return calls


def declare(name: str, calls: ctypes.CDLL, table: Dict[str, Tuple[Optional[type], List[object]]]) -> None:
    """Declares functions of the library, or `UsageError` where it lacks one."""
    for call, (result, words) in table.items():
        try:
            function = getattr(calls, call)
        except AttributeError as error:
            raise UsageError(f"{name} has no {call}: it is older than this client, or a different library. Name the right one in UDFBURN_LIBRARY") from error
        function.restype, function.argtypes = result, words


__all__ = ["CallRefused", "HANDLE", "Library", "LibraryConnection", "LibraryVolume", "declare", "find_library"]
