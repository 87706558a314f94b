"""Names that become those of something else right before a call of the system, as another user's process would do it."""

from __future__ import annotations

import os
from contextlib import ExitStack
from typing import Any, Callable, Dict, Optional, Tuple
from unittest import mock

CALLS = (
    "open", "stat", "lstat", "fstat", "listdir", "scandir", "mkdir", "makedirs", "unlink", "remove", "rmdir", "rename", "replace", "link", "symlink", "readlink",
    "chmod", "truncate", "utime", "access",
)
REAL: Dict[str, Any] = {name: getattr(os, name) for name in CALLS}


class Swap:
    """Does something right before a call of the system, by its number from 1 on, and undoes it before the next one where `back` is given.
    `calls` counts those that were made; where `about` is given, those that take a path with this last name."""

    def __init__(self, at: int = 0, forth: Callable[[], None] = lambda: None, back: Optional[Callable[[], None]] = None, about: Optional[str] = None):
        self.calls = 0
        self._about = about
        self._at, self._forth, self._back = at, forth, back
        self._within = False
        self._stack = ExitStack()

    def __enter__(self) -> "Swap":
        for name in CALLS:
            self._stack.enter_context(mock.patch.object(os, name, self._wrapped(REAL[name])))
        return self

    def __exit__(self, *_: object) -> None:
        self._stack.close()

    def _wrapped(self, real: Any) -> Callable[..., Any]:
        def call(*words: Any, **more: Any) -> Any:
            is_meant = self._about is None or any(isinstance(word, (str, bytes)) and os.path.basename(os.fsdecode(word)) == self._about for word in words)
            if is_meant and not self._within:
                self._within = True
                try:
                    self.calls += 1
                    if self.calls == self._at:
                        self._forth()
                    elif self.calls == self._at + 1 and self._back is not None:
                        self._back()
                finally:
                    self._within = False
            return real(*words, **more)

        return call


class Turned:
    """A name that turns into a link, and back. What had it before is beside it meanwhile."""

    def __init__(self, path: str, to: str):
        self.path, self.to = path, to

    def forth(self) -> None:
        """Makes the link, where something is there by now or not."""
        if REAL_LEXISTS(self.path):
            REAL["rename"](self.path, self.path + ".away")
        elif not REAL_LEXISTS(os.path.dirname(self.path)):
            return
        REAL["symlink"](self.to, self.path)

    def back(self) -> None:
        """Has the name be what it was."""
        if os.path.islink(self.path):
            REAL["unlink"](self.path)
        if REAL_LEXISTS(self.path + ".away") and not REAL_LEXISTS(self.path):
            REAL["rename"](self.path + ".away", self.path)


REAL_LEXISTS = os.path.lexists


def picture(folder: str) -> Dict[str, Tuple[int, int, bytes]]:
    """What is in a folder: names, bytes, times of modification and modes."""
    found: Dict[str, Tuple[int, int, bytes]] = {}
    for at, folders, files in os.walk(folder):
        for name in folders + files:
            path = os.path.join(at, name)
            status = os.lstat(path)
            data = b""
            if name in files and not os.path.islink(path):
                with open(path, "rb") as file:
                    data = file.read()
            found[os.path.relpath(path, folder)] = (status.st_mode, status.st_mtime_ns if name in files else 0, data)
    return found
