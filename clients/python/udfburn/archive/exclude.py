"""Which local files and folders are left out, by the rules of a `.gitignore`, by the marks of caches, and by their file system."""

from __future__ import annotations

import argparse
from importlib import import_module
from typing import Any, List, NamedTuple, Optional

from ..base.beneath import Place, RelativePath, open_given
from ..base.errors import UsageError
from ..local.sources import shown
from ..protocol import limits

CACHE, SIGNATURE = "CACHEDIR.TAG", b"Signature: 8a477f597d28d172789f06886806bc55"
"""The file that marks a folder as a cache, and how it begins (bford.info/cachedir)."""


class Rules(NamedTuple):
    """What `add` leaves out. `patterns` has what pathspec made of the lines."""

    patterns: Optional[Any] = None
    caches: bool = False
    one_file_system: bool = False

    def excludes(self, below: RelativePath, is_folder: bool) -> bool:
        """Whether a file or a folder is left out, by its names below the folder that the user named."""
        return self.patterns is not None and bool(self.patterns.match_file("/".join(below) + "/" * is_folder))

    def is_cache(self, folder: Place) -> bool:
        """Whether a folder is marked as a cache."""
        if not self.caches:
            return False
        try:
            with open(folder.root.open_file(folder.names + (CACHE,)), "rb") as file:
                return file.read(len(SIGNATURE)) == SIGNATURE
        except OSError:
            return False


def rules_of(arguments: argparse.Namespace) -> Rules:
    """The rules that the command line asks for. Of two lines that match the later one counts."""
    lines: List[str] = []
    for name in arguments.exclude_from:
        with open(open_given(name), "rb") as file:
            data = file.read(limits.FILE + 1)
        if len(data) > limits.FILE:
            raise UsageError(f"{shown(name)}: is longer than a mebibyte, and is no list of patterns")
        lines += data.decode(errors="surrogateescape").splitlines()
    lines += arguments.exclude
    return Rules(compiled(lines) if lines else None, arguments.exclude_caches, arguments.one_file_system)


def compiled(lines: List[str]) -> Any:
    """What pathspec makes of patterns."""
    try:
        pathspec: Any = import_module("pathspec")
    except ImportError as error:
        raise UsageError("--exclude needs the library pathspec (Debian: python3-pathspec)") from error
    try:
        return pathspec.GitIgnoreSpec.from_lines(lines)
    except ValueError as error:
        raise UsageError(f"--exclude: {error}") from error


__all__ = ["Rules", "rules_of"]
