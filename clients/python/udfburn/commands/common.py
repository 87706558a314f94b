"""What the commands share: where the volume is, and a client for it."""

from __future__ import annotations

import argparse
import os
from contextlib import contextmanager
from typing import Iterator, Optional

from ..base.errors import ConnectionFailed, ProgramFailed, UsageError
from ..base.progress import Progress
from ..protocol.units import Commit
from ..trees.client import Client
from ..wire.connection import check_word, find_program
from .arguments import patience_of


def way_of(arguments: argparse.Namespace) -> str:
    """Where the volume is."""
    if arguments.device:
        return on_device(arguments)
    if arguments.library:
        return by_library(arguments)
    if arguments.image:
        check_word(os.path.abspath(arguments.image))
    if arguments.socket:
        return f"unix:{arguments.socket}"
    if arguments.image:
        return f"image:{arguments.image}"
    if os.environ.get("UDFBURN_SOCKET"):
        return f"unix:{os.environ['UDFBURN_SOCKET']}"
    raise UsageError("name the volume with --socket PATH, --image PATH or --device PATH")


def by_library(arguments: argparse.Namespace) -> str:
    """The volume that this process opens with the C library."""
    if arguments.socket or not arguments.image:
        raise UsageError("--library opens an image in this process: give --image PATH, and no --socket")
    return f"library:{arguments.image}"


def on_device(arguments: argparse.Namespace) -> str:
    """The disc in a recorder."""
    if arguments.socket or arguments.image or arguments.library:
        raise UsageError("--device names the disc in a recorder: give no --image, no --socket and no --library")
    return f"device:{arguments.device}"


def progress_of(arguments: argparse.Namespace) -> Progress:
    """What the command prints on."""
    progress: Progress = arguments.progress
    return progress


NOT_STORED = "was not stored, since its source changed or is gone: store it again"
"""What is reported about a request that an earlier command began and that could not be sent again."""


@contextmanager
def writer(arguments: argparse.Namespace) -> Iterator[Client]:
    """A client with its ledger. What it could not finish of earlier commands is reported at its end."""
    with Client(
        way_of(arguments), arguments.client, arguments.ledger, arguments.program, shared=arguments.shared, **patience_of(arguments)
    ) as client:
        client.line.image = arguments.image or client.line.image
        try:
            yield client
        finally:
            for number, path in client.take_not_stored().items():
                progress_of(arguments).note(f"number {number} of an earlier command, {path}: {NOT_STORED}", did="not stored", number=number, path=path)


@contextmanager
def reader(arguments: argparse.Namespace) -> Iterator[Client]:
    """A client for queries. An image that is kept by another program, or cannot be written, or is wanted as it was, is
    read by a copy of its beginning."""
    commit: Optional[Commit] = getattr(arguments, "as_of", None)
    connect = way_of(arguments)
    if commit is not None and not arguments.image:
        raise UsageError("--as-of reads an image: name it with --image")
    if commit is None:
        with Client(connect, program=arguments.program, **patience_of(arguments)) as client:
            if connect.startswith(("unix:", "device:")) or not image_in_use(client):
                yield client
                return
    from ..image import past

    # Only the program knows the addresses of earlier commits.
    program = find_program(arguments.program) if commit is not None or not arguments.library else None
    with past.front(arguments.image, program or "", commit) as copy:
        with Client(f"{'library' if arguments.library else 'image'}:{copy}", program=program, **patience_of(arguments)) as client:
            yield client


def image_in_use(client: Client) -> bool:
    """Whether the program cannot have the image, which it opens for writing too, and alone."""
    patience, client.line.patience.seconds = client.line.patience.seconds, 0.0
    try:
        with client.held():
            client.stat(())
        return False
    except ProgramFailed:
        raise
    except ConnectionFailed:
        return True
    finally:
        client.line.patience.seconds = patience


__all__ = ["NOT_STORED", "progress_of", "reader", "way_of", "writer"]
