"""What a command of the archive reports while it works."""

from __future__ import annotations

import argparse
import time
from contextlib import contextmanager
from datetime import datetime, timezone
from typing import Iterator, List

from ..base.progress import Progress, plural, printable, size
from ..protocol import Path, escaped
from ..protocol.units import Commit, Moment
from .held import Held
from .names import text_of

NO_END = 1 << 62
"""More bytes than any archive has."""


def shown_path(path: Path) -> str:
    """A path that can be printed whatever bytes it has."""
    return text_of(path).encode(errors="surrogateescape").decode(errors="backslashreplace")


def printed_path(path: Path) -> str:
    """A path as it is printed in messages."""
    return escaped(text_of(path))


def stamp(moment: Moment) -> str:
    """A moment, as people read it."""
    return datetime.fromtimestamp(moment / 1e6, timezone.utc).strftime("%Y-%m-%dT%H:%M:%SZ")


class Tell(Progress):
    """Steps, with the volume of each; and on a terminal one line that counts, with how much is left where the whole is known ahead."""

    def step(self, what: str, path: Path, count: int, volume: str = "", commit: int = 0) -> None:
        """A step was done."""
        self.done_files += 1
        self.done_bytes += count
        if self.quiet:
            return
        if self.as_json:
            self._print_json({"did": what, "path": shown_path(path), "bytes": count, "volume": volume or None, "commit": commit or None})
        elif self.bar and self.bytes:
            self._draw(count)
        elif self.bar:
            self._count(what)
        elif what != "same" or self.verbose:
            where = f" {volume}" if volume else ""
            self._print(printable(f"{what} {printed_path(path)}{where}"))

    def same_as(self, held: Held, where: List[str], volume: str, commit: Commit) -> None:
        """The archive has the bytes of a file under another path, or at another time: a line of a volume says so."""
        self.done_files += 1
        self.done_bytes += held.size
        if self.as_json and not self.quiet:
            self._print_json({
                "did": "same as", "path": shown_path(held.path), "bytes": held.size, "as": shown_path(held.stored_as()), "places": where, "volume": volume, "commit": commit,
            })
        elif self.bar and not self.quiet:
            self._draw(held.size) if self.bytes else self._count("same as")
        elif not self.quiet:
            self._print(printable(f"same {printed_path(held.path)} as {printed_path(held.stored_as())} {', '.join(where)}"))

    def _count(self, what: str) -> None:
        now = time.monotonic()
        if self.done_files == 1 or now - self.shown >= 0.1:
            self.shown = now
            seconds = max(now - self.began, 1e-6)
            line = f"{what}: {plural(self.done_files, 'file', 'files')}, {size(self.done_bytes)}, {size(self.done_bytes / seconds)}/s"
            self.redraw(line)

    def working(self, what: str) -> None:
        """What is being done now, on a terminal: the next line takes its place."""
        self.what = printable(what)
        if self.bar and not self.bytes:
            self.redraw(self.what)
        elif self.bar:
            self.shown = 0.0
            self._draw(0)
            if self.tqdm is not None:
                self.tqdm.refresh()

    # ---- a whole of bytes

    _end = NO_END
    """The bytes that count as done at most, within a portion."""

    def passed(self, count: int) -> None:
        """So many bytes of the whole were read or written."""
        count = min(count, self._end - self.done_bytes)
        self.done_bytes += count
        if self.bar and self.bytes:
            self._draw(count)

    def more(self, count: int) -> None:
        """So many bytes are to come that were not foreseen, in this portion."""
        self.bytes += count
        self._end += count
        if self.tqdm is not None:
            self.tqdm.total = self.bytes

    @contextmanager
    def portion(self, count: int) -> Iterator[None]:
        """A part of the whole, with so many bytes. At its end all of it counts as done, and no more, whatever was read."""
        self._end = self.done_bytes + count
        try:
            yield
        finally:
            self.passed(self._end - self.done_bytes)
            self._end = NO_END

    def say_step(self, line: str, **fields: object) -> None:
        """A step that is no file's."""
        if not self.quiet:
            self.say(line, **fields)

    def _print_error(self, line: str) -> None:
        print(f"udfburn-archive: {printable(line)}", file=self.errors, flush=True)


def tell_of(arguments: argparse.Namespace) -> Tell:
    """What the command reports with."""
    tell: Tell = arguments.tell
    return tell


__all__ = ["Tell", "plural", "printed_path", "shown_path", "size", "stamp", "tell_of"]
