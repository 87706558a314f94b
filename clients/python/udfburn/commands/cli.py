"""The command line: the table of the commands, and how one of them ends."""

from __future__ import annotations

import argparse
import os
import sys
from typing import List, Optional

from .. import __version__
from ..base.completion import complete_line
from ..base.errors import OutputFailed, UdfburnError, UsageError
from ..base.progress import Progress
from ..base.streams import drop_output, parsed, take_any_name, take_descriptors
from ..protocol import BadAnswer, Fault, InvalidName, InvalidPath, shown
from . import check, disc, mount, read, salvage, seal, volume, write

MODULES = (write, seal, read, volume, check, disc, salvage, mount)
"""Each has `add_commands`, which declares the words of its commands. What runs one is the default `run` of its words."""

INTERRUPTED = "interrupted: 'resume', or the same command, finishes what is under way"

EPILOG = """examples:
  udfburn-client format disc.img
  udfburn-client put -r photos /photos --image disc.img
  udfburn-client ls -l /photos --image disc.img
  udfburn-client verify photos /photos --image disc.img
  udfburn-client status disc.img

exit status: 0 everything is done, 1 something is not, 2 usage error,
130 interrupted.
environment: UDFBURN (the program udfburn), UDFBURN_LIBRARY (the C library),
UDFBURN_SOCKET, UDFBURN_LEDGER.
docs/OPERATIONS.md says what to do when something went wrong. The manual page
is udfburn-client(1)."""


def parser() -> argparse.ArgumentParser:
    """The words of each command."""
    top = argparse.ArgumentParser(
        prog="udfburn-client", description="Stores files and folders on a UDF volume, each once and for certain.",
        epilog=EPILOG, formatter_class=argparse.RawDescriptionHelpFormatter,
    )
    top.add_argument("--version", action="version", version=f"udfburn-client {__version__}")
    subs = top.add_subparsers(dest="command", required=True, metavar="COMMAND")
    for module in MODULES:
        module.add_commands(subs)
    top.set_defaults(names=list(subs.choices))
    return top


def main(words: Optional[List[str]] = None) -> int:
    """Runs a command, and gives its status."""
    try:
        complete_line(parser)
        closed = take_descriptors()
        arguments = parsed(parser(), words, closed)
        progress = arguments.progress = Progress(arguments.quiet, arguments.json, closed=closed, verbose=arguments.verbose)
        return run_printing(arguments, progress)
    except KeyboardInterrupt:
        # Before the command began, or after it.
        print(f"udfburn-client: {INTERRUPTED}", file=sys.stderr)
        return 130


def run_printing(arguments: argparse.Namespace, progress: Progress) -> int:
    """Runs a command, and sees that what it printed was taken."""
    take_any_name()
    try:
        status = run(arguments, progress)
        progress.finish(arguments.command, status)
        return status
    except BrokenPipeError:
        # Whoever read the output has gone.
        drop_output()
        return 1
    except OutputFailed as error:
        drop_output()
        return progress.fail(error, 1)


def run(arguments: argparse.Namespace, progress: Progress) -> int:
    """Runs a command to its end, or says why it has none."""
    try:
        progress.require_output()
        status: int = arguments.run(arguments)
        return status
    except (UsageError, InvalidPath, InvalidName) as error:
        return progress.fail(error, 2)
    except BadAnswer as error:
        return progress.fail(f"the program at the other end does not speak this protocol: {error}", 1)
    except (BrokenPipeError, OutputFailed):
        raise
    except OSError as error:
        named = isinstance(error.filename, (str, bytes)) and error.strerror
        return progress.fail(type(error)(f"{shown(os.fsdecode(error.filename))}: {error.strerror}") if named else error, 1)
    except (UdfburnError, Fault) as error:
        return progress.fail(error, 1)
    except KeyboardInterrupt:
        return progress.fail(INTERRUPTED, 130)


__all__ = ["main", "parser"]
