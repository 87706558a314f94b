"""A volume on the disc in a recorder, written in place with the C library: each commit is a packet, which is read back.

A disc is known by its label and by the moment of its format, and not by the drive that it is in.
"""

from __future__ import annotations

import ctypes
import errno
import os
from typing import Dict, List, Optional, Tuple

from ..base.errors import DiscFailed
from ..protocol import shown
from ..protocol.units import Moment
from .connection import Connection, Lost
from .library import CallRefused, HANDLE, Library, LibraryConnection, LibraryVolume, declare

VERIFY = 1
"""The flag of udfburn.h by which each packet is read back before its requests are acknowledged."""


class VolumeStruct(ctypes.Structure):
    """`struct udfburn_volume`."""

    _fields_ = [
        ("size", ctypes.c_size_t), ("identity", ctypes.c_uint64), ("moment", ctypes.c_uint64),
        *((name, ctypes.c_uint32) for name in ("capacity", "next", "unused", "commits", "files", "directories", "clients")), ("label", ctypes.c_char * 64),
    ]


RECORDER_CALLS: Dict[str, Tuple[Optional[type], List[object]]] = {
    "udfburn_format_mmc": (ctypes.c_int32, [ctypes.c_char_p, ctypes.c_char_p, ctypes.c_uint64]),
    "udfburn_open_mmc": (ctypes.c_int32, [ctypes.c_char_p, ctypes.c_uint32, ctypes.POINTER(HANDLE)]),
    "udfburn_describe": (ctypes.c_int32, [HANDLE, ctypes.POINTER(VolumeStruct)]),
}
"""The functions of udfburn.h that a recorder takes, beside those of `udfburn.wire.library`."""

TAKEN_MEDIA = "put in a CD-R, a DVD-R, a DVD+R or a BD-R"

WHY = {
    ("TEST UNIT READY", errno.ENOMEDIUM): f"there is no disc in it: {TAKEN_MEDIA}",
    ("GET CONFIGURATION", errno.ENOMEDIUM): f"there is no disc in it: {TAKEN_MEDIA}",
    ("TEST UNIT READY", errno.EMEDIUMTYPE): f"the disc is none that can be written in place: {TAKEN_MEDIA}",
    ("GET CONFIGURATION", errno.EMEDIUMTYPE): f"the disc is none that can be written in place: {TAKEN_MEDIA}",
    ("READ DISC INFORMATION", errno.EROFS): "the disc is closed, and takes nothing more",
    ("READ DISC INFORMATION", errno.EEXIST): "the disc has other tracks",
    ("READ TRACK INFORMATION", errno.EROFS): "the disc takes nothing more",
    ("anchor", errno.EIO): "the block with the anchor is spoiled, so the disc is of no use: take another one",
    ("header", errno.EIO): "a block of the volume's header is spoiled, so the disc is of no use: take another one",
    ("open", errno.ENOENT): "there is no such drive",
    ("open", errno.ENODEV): "is no drive",
    ("INQUIRY", errno.ENODEV): "is no drive for CD, DVD or BD",
    ("INQUIRY", errno.ENOTTY): "is no drive for CD, DVD or BD",
    ("open", errno.EBUSY): "another program has it, or the disc is mounted",
}
"""What reasons mean."""


def explained(refused: CallRefused) -> Tuple[str, bool]:
    """Why a call on a disc was refused, in words, and whether another try may help."""
    status, call, error = refused.name, refused.call, refused.error
    if status == "UDFBURN_BUSY":
        return WHY["open", errno.EBUSY], True
    if (call, error) in WHY:
        return WHY[call, error], False
    if status == "UDFBURN_VOLUME":
        return "the disc has no volume, or a damaged one; 'udfburn-client format --device' makes one on a blank disc", False
    # Sense data is above any errno (udfburn.h).
    what = f"sense {error:06x}" if error > 0xFFFF else os.strerror(error) if error else ""
    return f"{status}: {call} failed{f' ({what})' if what else ''}" if call else status, status != "UDFBURN_READ_ONLY"


class OpenDisc(LibraryVolume):
    """An open volume on a disc. The recorder is nobody else's meanwhile."""

    def _opened(self, path: str) -> int:
        status: int = self._library.calls.udfburn_open_mmc(os.fsencode(path), VERIFY, ctypes.byref(self._handle))
        return status

    def name(self) -> str:
        """What the volume is known by: the moment of its format, and its label."""
        volume = VolumeStruct(ctypes.sizeof(VolumeStruct))
        self._library.require(self._library.calls.udfburn_describe(self._handle, ctypes.byref(volume)), self._handle)
        return f"{volume.identity}:{volume.label.decode(errors='replace')}"


class DiscConnection(LibraryConnection):
    """A conversation with the C library about the disc in a recorder."""

    def __init__(self, device: str, library: Library, timeout: float = 120.0):
        Connection.__init__(self, timeout)
        self._sent = []
        declare(library.name, library.calls, RECORDER_CALLS)
        self.image = device
        try:
            self.disc = OpenDisc(library, device)
            self.volume = self.disc
        except CallRefused as refused:
            why, is_passing = explained(refused)
            raise Lost(why) if is_passing else DiscFailed(f"{shown(device)}: {why}") from refused

    def name(self) -> str:
        """What the volume is known by."""
        try:
            return self.disc.name()
        except CallRefused as refused:
            raise self._told(refused) from refused

    def _told(self, refused: CallRefused) -> Exception:
        return Lost(explained(refused)[0])


def format_disc(library: Library, device: str, label: str, moment: Moment) -> None:
    """Makes a volume on a blank disc, or finishes one whose format was interrupted."""
    declare(library.name, library.calls, RECORDER_CALLS)
    try:
        library.require(library.calls.udfburn_format_mmc(os.fsencode(device), label.encode(), moment))
    except CallRefused as refused:
        why, is_passing = explained(refused)
        if refused.name == "UDFBURN_VOLUME" and not refused.call:
            why = "holds something already, and stays as it is: put a blank disc in; or repeat a format that was cut short with its own --label and --moment"
        elif refused.name == "UDFBURN_DEVICE" and is_passing:
            why += f". The same command may finish it, with --moment {moment}"
        raise DiscFailed(f"{shown(device)}: {why}") from refused


__all__ = ["DiscConnection", "OpenDisc", "format_disc"]
