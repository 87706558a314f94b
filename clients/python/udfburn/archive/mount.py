"""The command `mount`: the archive as a file tree."""

from __future__ import annotations

import argparse
import os
from contextlib import closing

from ..base.beneath import mode_for, status_given
from ..base.errors import MountFailed
from ..mounting.fuse import require_able, serve
from ..protocol import as_text, shown
from .catalogue import STATE_NEW, image_of
from .config import Config, config_of
from .tell import plural, tell_of
from .view import ArchiveView


def mount(arguments: argparse.Namespace) -> int:
    """Shows the archive."""
    config, tell, point = config_of(arguments), tell_of(arguments), arguments.dir
    require_able(point)
    require_apart(config, point)
    with closing(ArchiveView(config, tell)) as view:
        volumes = [row for row in view.catalogue.volumes() if row.state != STATE_NEW]
        # Nobody may read files who may not read the images that they are in.
        images = (image_of(config, row) for row in volumes)
        mode = mode_for(*(status_given(image) for image in images if image is not None)) & config.mode & 0o444

        def ready() -> None:
            words = f"mounted {config.label} at {shown(point)}, with {plural(len(volumes), 'volume', 'volumes')}: Ctrl-C or 'fusermount3 -u' ends it"
            tell.say(words, did="mounted", archive=as_text(config.folder), dir=as_text(point), volumes=len(volumes))

        serve(view, point, config.folder, mode, tell, ready)
    tell.result(f"unmounted {shown(point)}", archive=as_text(config.folder), dir=as_text(point))
    return 1 if tell.failures else 0


def require_apart(config: Config, point: str) -> None:
    """Raises where a mount would hide what it reads: it would wait for itself."""
    real, sqlite = os.path.realpath(point), config.sqlite()
    for place in (config.folder, *filter(os.path.isabs, config.copies), *([sqlite] if sqlite is not None else [])):
        if os.path.commonpath([real, os.path.realpath(place)]) == real:
            raise MountFailed(f"{shown(point)}: {shown(place)} is there, and would be hidden: name another folder")


__all__ = ["mount"]
