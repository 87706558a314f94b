"""The standard streams of a process, as a command begins and as its words are read."""

from __future__ import annotations

import argparse
import os
import sys
from io import BufferedWriter, RawIOBase, TextIOWrapper
from typing import List, Optional


def take_descriptors() -> bool:
    """Takes the descriptors of standard streams that are closed, so that no file of this process gets one. Returns whether the standard
    output was closed."""
    closed = sys.stdout is None
    for descriptor in range(3):
        try:
            os.fstat(descriptor)
        except OSError:
            # The lowest one that is free is this one.
            os.open(os.devnull, os.O_RDWR)
    if sys.stdout is None:
        sys.stdout = open(os.devnull, "w", encoding="utf-8")
    if sys.stderr is None:
        sys.stderr = open(os.devnull, "w", encoding="utf-8")
    write_whole()
    return closed


def write_whole() -> None:
    """Makes the standard output write all bytes or fail. Without a buffer (PYTHONUNBUFFERED) Python reports no error if a full disk takes
    only some of them. Each line is still written at once."""
    raw = getattr(sys.stdout, "buffer", None)
    if isinstance(raw, RawIOBase):
        sys.stdout = TextIOWrapper(BufferedWriter(raw), sys.stdout.encoding, sys.stdout.errors, line_buffering=True)


def take_any_name() -> None:
    """Prints a name that the terminal's encoding lacks with escapes: it is no reason to stop."""
    for stream in (sys.stdout, sys.stderr):
        if hasattr(stream, "reconfigure"):
            stream.reconfigure(errors="backslashreplace")


def parsed(parser: argparse.ArgumentParser, words: Optional[List[str]], closed: bool) -> argparse.Namespace:
    """The words of a command. A help text that cannot be written is a failure."""
    try:
        try:
            found = parser.parse_args(words)
            if sys.getfilesystemencoding() != "utf-8":
                parser.error(f"names of files are read as {sys.getfilesystemencoding()} here, and would be stored as other names: set PYTHONUTF8=1")
            return found
        finally:
            sys.stdout.flush()
    except SystemExit as end:
        if closed and not end.code:
            print(f"{parser.prog}: the standard output is closed", file=sys.stderr)
            end.code = 1
        raise
    except OSError as error:
        drop_output()
        print(f"{parser.prog}: the standard output takes no more: {error.strerror or error}", file=sys.stderr)
        raise SystemExit(1) from error


def drop_output() -> None:
    """Makes the standard output write nothing more, even at the end of the process."""
    try:
        output = sys.stdout.fileno()
    except OSError:
        # A stream without a descriptor, as a test has it.
        return
    nowhere = os.open(os.devnull, os.O_WRONLY)
    os.dup2(nowhere, output)
    os.close(nowhere)


__all__ = ["drop_output", "parsed", "take_any_name", "take_descriptors"]
