"""Where a volume is: at a daemon's socket, in an image with the program `udfburn apply` or the C library, or on the disc in a recorder."""

from __future__ import annotations

import errno
import os
from typing import TYPE_CHECKING, Optional, Union

from ..base.beneath import status_given
from ..base.errors import ConnectionFailed, DiscFailed, ProgramFailed, UsageError
from ..protocol import is_bytes, shown
from .connection import Connection, ImageConnection, Lost, UnixConnection, check_word, find_program

if TYPE_CHECKING:
    from .library import Library
    from .recorder import DiscConnection


class Endpoint:
    """Where a volume is: at a daemon's socket (`unix:PATH`), or in an image that is written by the program (`image:PATH`) or by the C
    library (`library:PATH`), or on the disc in a recorder (`device:PATH`). `kind` is `image` for both kinds of images; `library` is None for
    the program.
    """

    def __init__(self, connect: str, program: Optional[str] = None):
        kind, colon, path = connect.partition(":")
        if not colon or kind not in ("unix", "image", "library", "device") or not path:
            raise UsageError(f"{connect!r} is neither unix:PATH nor image:PATH nor library:PATH nor device:PATH")
        self.kind = "image" if kind == "library" else kind
        self.name = kind
        self.path = os.path.abspath(path)
        self.library = library() if kind in ("library", "device") else None
        self._disc: Optional[str] = None
        self._opened: Optional[DiscConnection] = None
        if kind == "image":
            check_word(self.path)
        # Without `image:` the program is used only to look at an image: for its history, and for the blocks that are left.
        self.program = find_program(program) if kind == "image" else program

    def __str__(self) -> str:
        return f"{self.name}:{shown(self.path)}"

    def key(self) -> Union[str, bytes]:
        """The endpoint's name in a ledger, by the file that links lead to; as bytes where these are not UTF-8. That of a disc is its own,
        whichever drive it is in."""
        if self.kind != "device":
            return key_of(self.kind, self.path)
        if self._disc is None:
            try:
                self._opened = self._open_disc(120.0)
            except Lost as lost:
                raise ConnectionFailed(f"{self}: {lost}") from lost
        return f"disc:{self._disc}"

    def close(self) -> None:
        """Closes a disc that was opened to learn its name, and not used."""
        opened, self._opened = self._opened, None
        if opened is not None:
            opened.close()

    def _open_disc(self, timeout: float) -> DiscConnection:
        """A conversation about the disc, which is the one that was there before."""
        from .recorder import DiscConnection

        assert self.library
        connection = DiscConnection(self.path, self.library, timeout)
        try:
            name = connection.name()
            if self._disc not in (None, name):
                raise DiscFailed(f"{shown(self.path)}: another disc was put in: {name}, and not {self._disc}")
        except BaseException:
            connection.close()
            raise
        self._disc = name
        return connection

    def status(self) -> Optional[os.stat_result]:
        """What the system says of the socket or the image; None where it says nothing."""
        return status_given(self.path)

    def open(self, timeout: float = 120.0) -> Connection:
        """A new conversation, or `Lost`. `timeout` is the longest wait in it, in seconds."""
        if self.kind == "unix":
            return UnixConnection(self.path, timeout)
        if self.kind == "device":
            opened, self._opened = self._opened, None
            return opened or self._open_disc(timeout)
        if not os.path.isfile(self.path):
            raise ProgramFailed(f"{shown(self.path)}: {os.strerror(errno.ENOENT)}, or not a regular file")
        if self.library:
            from .library import LibraryConnection

            return LibraryConnection(self.path, self.library, timeout)
        return ImageConnection(self.path, find_program(self.program), timeout)


def library() -> Library:
    """The C library. Its module is loaded only if it is used."""
    from .library import find_library

    return find_library()


def key_of(kind: str, path: str) -> Union[str, bytes]:
    """The name of an endpoint in a ledger."""
    key = f"{kind}:{os.path.realpath(path)}"
    return os.fsencode(key) if is_bytes(key) else key


def image_key(path: str) -> Union[str, bytes]:
    """The name of an image in a ledger."""
    return key_of("image", path)


__all__ = ["Endpoint", "image_key", "key_of"]
