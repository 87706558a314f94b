"""The command `mount`: an image as a file tree."""

from __future__ import annotations

import argparse
from contextlib import closing
from typing import TYPE_CHECKING

from ..base.beneath import mode_for, status_given
from ..protocol import as_text, shown
from .arguments import command
from .common import progress_of

if TYPE_CHECKING:
    from .arguments import Subs


def add_commands(subs: Subs) -> None:
    """The words of this command."""
    words = command(
        subs, "mount", mount, "show an image as a file tree, read only",
        "Shows 'latest' and, as 'commits/N', the tree after each commit, until Ctrl-C or 'fusermount3 -u DIR'. The image may grow meanwhile: it is"
        " shown as it was at the mount. No byte is given that differs from the digests of manifests in the image. It needs"
        " pyfuse3 (Debian: python3-pyfuse3).", volume=False,
    )
    words.add_argument("image_path", metavar="IMAGE", help="the image")
    words.add_argument("dir", metavar="DIR", help="an empty folder, where the tree is shown")


def mount(arguments: argparse.Namespace) -> int:
    """Shows an image."""
    from ..mounting.fuse import require_able, serve
    from ..mounting.image_view import ImageView

    progress, image, point = progress_of(arguments), arguments.image_path, arguments.dir
    require_able(point)
    with closing(ImageView(image, progress)) as view:
        mode = mode_for(status_given(image)) & 0o444

        def ready() -> None:
            words = f"mounted {shown(image)} at {shown(point)}, with commits {min(view.commits)} to {view.newest}: Ctrl-C or 'fusermount3 -u' ends it"
            progress.say(words, did="mounted", path=as_text(image), dir=as_text(point), commit=view.newest)

        serve(view, point, image, mode, progress, ready)
    progress.result(f"unmounted {shown(point)}", path=as_text(image), dir=as_text(point))
    return 1 if progress.failures else 0


__all__ = ["add_commands", "mount"]
