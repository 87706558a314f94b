"""How the words of a command are declared: what all commands share."""

from __future__ import annotations

import argparse
import math
from typing import TYPE_CHECKING, Any, Callable, Dict, Optional, Union

from ..protocol import limits
from ..protocol.units import Commit
from ..wire.connection import LONGEST_WAIT

if TYPE_CHECKING:
    Subs = argparse._SubParsersAction[argparse.ArgumentParser]

CommandFunction = Callable[[argparse.Namespace], int]
"""Runs a command by its arguments, and gives its status."""

WAIT, ANSWER = 10.0, 120.0
"""Seconds for which what is busy or gone is tried again, and for which an answer is awaited, where no --wait is given."""


def seconds(text: str) -> float:
    """Seconds of a word: finite, and none below nothing."""
    try:
        count = float(text)
    except ValueError:
        count = math.nan
    if not 0 <= count < math.inf:
        raise argparse.ArgumentTypeError(f"{text!r} is not a number of seconds: give a number from 0 on")
    return count


def client_number(text: str) -> int:
    """The number of a client."""
    try:
        number = int(text)
    except ValueError:
        number = 0
    if not 0 < number <= limits.U64:
        raise argparse.ArgumentTypeError(f"{text!r} is not a client number: give one from 1 to {limits.U64}")
    return number


def commit_number(text: str) -> Commit:
    """The number of a commit."""
    if not (text.isascii() and text.isdecimal() and int(text) < 1 << 32):
        raise argparse.ArgumentTypeError(f"{text!r} is not a valid commit: give a number from 0 on")
    return Commit(int(text))


def add_output(sub: argparse.ArgumentParser) -> None:
    """The options of what a command prints."""
    sub.add_argument("--json", action="store_true", help="print a line of JSON for each step and each failure, and one with the result at the end")
    sub.add_argument("--quiet", action="store_true", help="print nothing but errors")
    sub.add_argument("--verbose", action="store_true", help="also print a line for each file that is there already")


def command(
    subs: Subs, name: str, run: CommandFunction, text: str, more: str, ledger: bool = False, volume: bool = True,
) -> argparse.ArgumentParser:
    """A command with the options that all have. `text` is its line among all commands, `more` goes on in its own help."""
    sub: argparse.ArgumentParser = subs.add_parser(name, help=text, description=f"{text[0].upper()}{text[1:]}. {more}")
    sub.set_defaults(run=run)
    where = sub.add_argument_group("the volume")
    if volume:
        add_volume(where)
        where.add_argument("--device", metavar="PATH", help="the disc in a recorder, such as /dev/sr0, written in place with the C library")
    where.add_argument("--program", metavar="PATH", help="the program udfburn (default: $UDFBURN, or the one on the PATH)")
    if ledger:
        where.add_argument("--ledger", metavar="PATH", help="the ledger, one for each machine (default: ~/.local/state/udfburn/ledger.sqlite)")
        where.add_argument("--client", metavar="N", type=client_number, help="the client number of a new ledger (default: random)")
        where.add_argument("--shared", action="store_true", help="other clients change the same paths; do not take their changes for another volume")
        sub.add_argument("--dry-run", action="store_true", help="print what would be done, and do nothing")
    add_output(sub)
    return sub


def add_volume(where: "argparse._ArgumentGroup") -> None:
    """The options that name a volume, and how long is waited for it."""
    where.add_argument("--socket", metavar="PATH", help="the socket of a daemon (default: --image, or $UDFBURN_SOCKET)")
    where.add_argument("--image", metavar="PATH", help="an image, written by the program udfburn; with --socket, only looked at to see how many blocks are left")
    add_library(where)
    where.add_argument("--wait", metavar="SECONDS", type=seconds, default=None, help="the longest wait without progress (default: 10, and 120 for an answer)")


def add_library(where: "Union[argparse.ArgumentParser, argparse._ArgumentGroup]") -> None:
    """The option for the C library."""
    where.add_argument("--library", action="store_true", help="open the image in this process, with the C library (from UDFBURN_LIBRARY, or where the system finds it)")


def patience_of(arguments: argparse.Namespace) -> Dict[str, Any]:
    """How long a client waits, as the arguments of `Client`."""
    wait: Optional[float] = arguments.wait
    if wait is None:
        return {"patience": WAIT, "timeout": ANSWER}
    return {"patience": wait, "timeout": min(max(wait, 1.0), LONGEST_WAIT)}


__all__ = ["ANSWER", "CommandFunction", "WAIT", "add_library", "add_output", "add_volume", "client_number", "command", "commit_number", "patience_of", "seconds"]
