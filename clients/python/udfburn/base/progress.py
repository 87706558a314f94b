"""What a command prints while it works: a bar on a terminal, plain lines elsewhere, JSON where that is asked for."""

from __future__ import annotations

import os
import sys
import time
from typing import TYPE_CHECKING, Any, Dict, List, Optional, TextIO

from ..protocol import Path, printed, show
from .errors import OutputFailed, UsageError

if TYPE_CHECKING:
    from ..wire.operations import Outcome

BAR = 24
"""Columns of the bar."""


def size(count: float) -> str:
    """Bytes, as people read them."""
    for unit in ("B", "KiB", "MiB", "GiB"):
        if count < 1024 or unit == "GiB":
            return f"{count:.0f} {unit}" if unit == "B" else f"{count:.1f} {unit}"
        count /= 1024
    raise AssertionError


def plural(count: int, one: str, many: str) -> str:
    """A count with its noun."""
    return f"{count:,} {one if count == 1 else many}"


def of_bytes(count: int) -> str:
    """The size of a file, as it is printed after its path."""
    return f"({count} {'byte' if count == 1 else 'bytes'})"


def clock(seconds: float) -> str:
    """Seconds, as people read them."""
    minutes, rest = divmod(int(seconds), 60)
    hours, minutes = divmod(minutes, 60)
    return f"{hours}:{minutes:02}:{rest:02}" if hours else f"{minutes}:{rest:02}"


def moment(microseconds: int) -> str:
    """A moment in microseconds from 1970 on, as people read it."""
    from datetime import datetime, timezone

    return datetime.fromtimestamp(microseconds // 1_000_000, timezone.utc).strftime("%Y-%m-%dT%H:%M:%SZ")


def printable(text: str) -> str:
    """A line in which no name can break the line, or move the cursor of a terminal."""
    if text.isprintable():
        return text
    return "".join(letter if letter.isprintable() else letter.encode("unicode_escape").decode() for letter in text)


class Progress:
    """What a command prints: its steps, files and bytes of a whole, its failures, and its result."""

    def __init__(
        self, quiet: bool, as_json: bool, output: Optional[TextIO] = None, errors: Optional[TextIO] = None, closed: bool = False,
        verbose: bool = False,
    ):
        self.quiet, self.as_json, self.closed, self.verbose = quiet, as_json, closed, verbose
        self.output = output or sys.stdout
        self.errors = errors or sys.stderr
        self.bar = not quiet and not as_json and self.errors.isatty()
        self.files = self.bytes = self.done_files = self.done_bytes = 0
        self.began = self.shown = time.monotonic()
        self.tqdm: Any = None
        self.what = ""
        """What is being done now, where the bar is not of files."""
        self.failures: List[str] = []
        self.outcome: Dict[str, object] = {}

    def require_output(self) -> None:
        """Raises where there is something to print, and nothing to print it on."""
        if self.closed and (self.as_json or not self.quiet):
            raise OutputFailed("the standard output is closed, and nothing was done (--quiet takes none)")

    def bytes_only(self) -> None:
        """Only bytes of a file go to the standard output."""
        if self.as_json:
            raise UsageError("the standard output can take the bytes of a file or lines of JSON, but not both")
        if self.closed:
            raise OutputFailed("the standard output is closed")
        self.quiet = True

    def begin(self, files: int, total: int) -> None:
        """So many files and bytes are to come."""
        self.files, self.bytes, self.began = files, total, time.monotonic()
        # The first step is shown at once.
        self.shown = 0.0
        if self.bar and total:
            try:
                from tqdm import tqdm

                self.tqdm = tqdm(total=total, unit="B", unit_scale=True, unit_divisor=1024, file=self.errors, leave=False)
            except ImportError:
                self.tqdm = None

    def told(self, what: str, path: Path, count: int, commit: int) -> None:
        """A step was done."""
        if what in ("stored", "same", "got", "differs"):
            self.done_files += 1
            self.done_bytes += count
        if self.as_json:
            if not self.quiet:
                step = {"did": what, "path": show(path), "bytes": count, "commit": commit or None}
                self._print_json(step)
        elif self.bar:
            self._draw(count)
        elif not self.quiet and (what != "same" or self.verbose):
            words = [what, printed(path)] + ([of_bytes(count)] if what in ("stored", "got", "would store", "would replace") else [])
            self._print(printable(" ".join(words)))

    def stored(self, outcome: Outcome) -> None:
        """A file was stored; programs get its SHA-256."""
        operation = outcome.operation
        # One above a mebibyte is stored once it has its name.
        named = operation.whole if operation.tag[0].grows else None
        path, count = (named.path, named.size) if named is not None else (operation.path, len(operation.data))
        if not self.as_json or self.quiet:
            self.told("stored", path, count, outcome.commit)
            return
        self.done_files += 1
        self.done_bytes += count
        step: Dict[str, object] = {"did": "stored", "path": show(path), "bytes": count, "commit": outcome.commit}
        sha256 = named.sha256 if named is not None else operation.sha256
        if sha256 is not None:
            step["sha256"] = sha256.hex()
        self._print_json(step)

    def _draw(self, count: int) -> None:
        if self.tqdm is not None:
            self.tqdm.set_postfix_str(f"{self.done_files} of {self.files} files" if self.files else self.what, refresh=False)
            self.tqdm.update(count)
            if self.done_files == 1:
                # However soon all is done, the count is seen.
                self.tqdm.refresh()
            return
        now = time.monotonic()
        if now - self.shown < 0.1:
            return
        self.shown = now
        self.redraw(self.line(now))

    def redraw(self, line: str) -> None:
        """Has a line in the place of the last one: a part of it where the terminal is narrow, since the cursor comes back to one line alone."""
        try:
            columns = os.get_terminal_size(self.errors.fileno()).columns
        except (OSError, ValueError):
            columns = 0
        self.errors.write("\r\x1b[K" + (line[: columns - 1] if columns else line))
        self.errors.flush()

    def line(self, now: float) -> str:
        """The bar: files, bytes, rate and time left; or, where files are not counted, what is being done, last, since a narrow terminal shows
        only the beginning."""
        seconds = max(now - self.began, 1e-6)
        part = min(self.done_bytes / self.bytes, 1.0) if self.bytes else 1.0
        rate = self.done_bytes / seconds
        left = clock(max(self.bytes - self.done_bytes, 0) / rate) if rate else "-:--"
        filled = int(part * BAR)
        files = f"  {self.done_files} of {self.files} files" if self.files else ""
        return (
            f"[{'#' * filled}{'.' * (BAR - filled)}] {part:4.0%}{files}"
            f"  {size(self.done_bytes)} of {size(self.bytes)}  {size(rate)}/s  {left} left{'  ' * bool(self.what)}{self.what}"
        )

    def clear(self) -> None:
        """Takes the bar away, so that a line can be printed. The next step shows it again."""
        if self.tqdm is not None:
            self.tqdm.clear()
        elif self.bar:
            self.errors.write("\r\x1b[K")
            self.errors.flush()

    def end(self) -> None:
        """Takes the bar away for good."""
        if self.tqdm is not None:
            self.tqdm.close()
            self.tqdm = None
        else:
            self.clear()

    def say(self, line: str, **fields: object) -> None:
        """Something found or done: a line for people, fields for programs."""
        self.clear()
        if self.as_json:
            self._print_json(fields)
        elif not self.quiet:
            self._print(printable(line))

    def note(self, line: str, **fields: object) -> None:
        """Something that a user should know of, and that is no failure."""
        self.clear()
        if self.as_json:
            self._print_json(fields)
        elif not self.quiet:
            self._print_error(line)

    def warn(self, line: str) -> None:
        """Something about the words of the command, for people alone."""
        self.clear()
        self._print_error(line)

    def left_out(self, line: str) -> None:
        """Something that was left out, as it was asked for."""
        self.clear()
        self._print_error(f"left out: {line}")
        if self.as_json:
            self._print_json({"did": "left out", "message": line})

    def fail(self, error: object, status: int = 1) -> int:
        """Says what is wrong: on the standard error, and as an object for programs. Gives the status. An error may have several
        lines, a text is one, whatever names are in it."""
        self.clear()
        text = str(error)
        self.failures.append(text)
        for line in text.split("\n") if isinstance(error, BaseException) else [text]:
            self._print_error(line)
        if self.as_json and not isinstance(error, OutputFailed):
            kind = type(error).__name__ if isinstance(error, BaseException) else None
            failed = {"did": "failed", "error": kind, "path": getattr(error, "path", None), "message": text}
            commit = getattr(error, "commit", None)
            self._print_json({**failed, "commit": commit} if commit else failed)
        return status

    def result(self, line: str, **fields: object) -> None:
        """What the command did: a line for people; programs get it with the status, at the end."""
        self.outcome = fields
        self.end()
        if not self.as_json:
            self.say(line)

    def finish(self, command: str, status: int) -> None:
        """The end: for programs the last object, which each command has however it ended."""
        self.end()
        if self.as_json:
            self._print_json({**self.outcome, "did": command, "failures": self.failures, "status": status})

    def write(self, data: bytes) -> None:
        """Bytes of a file on the standard output."""
        try:
            self.output.buffer.write(data)
            self.output.buffer.flush()
        except BrokenPipeError:
            raise
        except OSError as error:
            raise OutputFailed(f"the standard output takes no more: {error.strerror or error}") from error

    def _print(self, line: str) -> None:
        try:
            print(line, file=self.output, flush=True)
        except BrokenPipeError:
            raise
        except OSError as error:
            raise OutputFailed(f"the standard output takes no more: {error.strerror or error}") from error

    def _print_error(self, line: str) -> None:
        print(f"udfburn-client: {printable(line)}", file=self.errors, flush=True)

    def _print_json(self, fields: Dict[str, object]) -> None:
        from json import dumps

        self._print(dumps(fields))
