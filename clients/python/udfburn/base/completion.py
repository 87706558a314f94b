"""Completion of commands and options in a shell, by argcomplete where that is installed."""

from __future__ import annotations

import argparse
import os
import sys
from typing import Callable, Iterator, List

LOCAL_WORDS = ("DEVICE", "DIR", "FILE", "FOLDER", "IMAGE", "IMAGE|SOCKET", "LEDGER", "LOCAL", "MAPFILE", "OUT", "OUT.html", "OUT.svg", "REMOTE")
"""The words that are files or folders of this machine. All others are names on a volume, or numbers."""

OPTIONS = ("--image", "--ledger", "--program", "--socket")
"""Options that take such a word as a PATH."""


def nothing(**_: object) -> List[str]:
    """Completes a word that is no file of this machine."""
    return []


def actions(parser: argparse.ArgumentParser) -> Iterator[argparse.Action]:
    """The words of a parser and of its commands."""
    for action in parser._actions:
        yield action
        if isinstance(action, argparse._SubParsersAction):
            for command in action.choices.values():
                yield from actions(command)


def is_local(action: argparse.Action) -> bool:
    """Whether a word is a file or a folder of this machine."""
    return action.metavar in LOCAL_WORDS or any(option in OPTIONS for option in action.option_strings)


def complete_line(parser: Callable[[], argparse.ArgumentParser]) -> None:
    """Prints what completes a line, and ends, where a shell asks for it by `_ARGCOMPLETE`. No command runs then, also where argcomplete
    is missing."""
    if "_ARGCOMPLETE" not in os.environ:
        return
    try:
        import argcomplete
    except ImportError:
        sys.exit(1)
    known = parser()
    for action in actions(known):
        if action.choices is None and not is_local(action):
            setattr(action, "completer", nothing)
    argcomplete.autocomplete(known)
    sys.exit(1)


__all__ = ["complete_line"]
