"""The command `seal`."""

from __future__ import annotations

import argparse
from typing import TYPE_CHECKING

from ..protocol import path_of, show
from .arguments import command
from .common import progress_of, writer

if TYPE_CHECKING:
    from .arguments import Subs


def add_commands(subs: Subs) -> None:
    """The words of this command."""
    words = command(
        subs, "seal", seal, "write the SHA-256 of all files of a directory next to them",
        "Turns the directory into a bag (RFC 8493) whose payload is below PATH/data. Every byte is read back and compared with what the"
        " ledger sent. If everything is there already, nothing is written.", ledger=True,
    )
    words.add_argument("path", metavar="PATH", help="a directory on the volume")
    add_manifest_only(words)


def add_manifest_only(words: argparse.ArgumentParser) -> None:
    """The option by which no bag is made."""
    words.add_argument(
        "--manifest-only", action="store_true",
        help="write only manifest-sha256.txt, as sha256sum does, next to the files of PATH; one in each directory if a single one would exceed a mebibyte",
    )


def seal(arguments: argparse.Namespace) -> int:
    """Seals a directory."""
    from ..trees.seal import seal_directory, seal_words

    progress = progress_of(arguments)
    path = path_of(arguments.path)
    with writer(arguments) as client:
        sealed = seal_directory(client, path, arguments.manifest_only, arguments.dry_run, progress.told)
    words = seal_words(sealed, path)
    progress.result(
        words if not arguments.dry_run else words.replace("sealed", "would seal", 1).replace("; wrote", "; would write", 1), path=show(path),
        files=sealed.files, bytes=sealed.bytes, known=sealed.known, written=[show(written) for written in sealed.written],
    )
    return 0


__all__ = ["add_commands", "add_manifest_only", "seal"]
