"""One static page about an archive: nothing is loaded from elsewhere, and no server is asked."""

from __future__ import annotations

import time
from contextlib import closing
from importlib.resources import files
from json import dumps
from typing import Any, Dict, List

from ..base.beneath import open_own
from ..local.saving import require_own, save
from ..protocol.units import Address
from . import same_rows
from .catalogue import Catalogue, Held, image_of
from .close import beside
from .config import Config, volume_label
from .contents import Contents
from .errors import VolumeDiffers
from .names import is_bundle
from .status import VolumeStatus, lines
from .tell import shown_path

DATA_PLACE = "/*DATA*/"
"""Where the page has its data."""

PAGE_BEGIN = b"<!DOCTYPE html>\n<html lang=\"en\">\n"


def ends(config: Config, line: VolumeStatus) -> List[Address]:
    """The address of the last block of each commit, the format's first; none where nothing of the medium is at hand."""
    found = logged(beside(config.path("closed", line.row.label + ".img"), ".log"))
    image = image_of(config, line.row)
    if found or image is None:
        return found
    try:
        with closing(Contents(image)) as contents:
            return contents.addresses
    except VolumeDiffers:
        return []


def logged(log: str) -> List[Address]:
    """The addresses in the log of a closed volume; none where it is not there, or is damaged."""
    try:
        with open(open_own(log), encoding="ascii") as file:
            return [Address(int(words.split()[1])) for words in reversed(file.read().splitlines())]
    except (OSError, ValueError, IndexError):
        return []


def volume(config: Config, catalogue: Catalogue, line: VolumeStatus, folders: Dict[str, int]) -> Dict[str, Any]:
    """What the page has of a volume. Its files are in lists of one length, in order of their commits."""
    row = line.row
    own = [held for held in catalogue.of_volume(row.number) if not is_bundle(held.path[-1])]
    # One for each file whose bytes are another's, and for each in a bundle.
    lines = {(held.written(), held.path): held for held in same_rows.of_volume(catalogue.base, row.number)}
    stored = own + [held for held in lines.values() if held.is_member()]
    rows = sorted([*own, *lines.values()], key=lambda held: held.written()[1])
    return {
        "number": row.number, "label": row.label, "state": line.state, "capacity": row.capacity, "opened": row.formatted, "closed": row.closed,
        "checked": row.checked, "last": row.last_commit, "sha256": row.sha256.hex() if row.sha256 else None, "fullness": line.fullness,
        # A file on several volumes counts where its first part is.
        "whole": sum(1 for held in rows if not held.first), "bytes": sum(held.size for held in stored if not held.first),
        "copies": [copy.remote for copy in line.copies if copy.trouble is None and not copy.disc()],
        "discs": [[copy.disc(), copy.made] for copy in line.copies if copy.trouble is None and copy.disc()], "attention": line.attention, "ends": ends(config, line),
        "names": [shown_path(held.path[-1:])[1:] for held in rows], "sizes": [held.size for held in rows], "commits": [held.written()[1] for held in rows],
        "same": {index: words_of(config, held) for index, held in enumerate(rows) if held.noted is not None},
        "folders": [folders.setdefault(shown_path(held.path[:-1]).rstrip("/"), len(folders)) for held in rows],
    }


def words_of(config: Config, held: Held) -> str:
    """Which file has the bytes of another one, or which bundle."""
    if held.is_member():
        return f"in {shown_path(held.stored_as())}"
    return f"the same as {shown_path(held.stored_as())}, {volume_label(config.label, held.volume)} commit {held.commit}"


def page(config: Config, catalogue: Catalogue) -> str:
    """The page."""
    folders: Dict[str, int] = {}
    volumes = [volume(config, catalogue, line, folders) for line in sorted(lines(config, catalogue), key=lambda line: line.row.number)]
    counts = {"files": sum(one["whole"] for one in volumes), "bytes": sum(one["bytes"] for one in volumes)}
    data = {"label": config.label, "made": time.time_ns() // 1000, **counts, "volumes": volumes, "folders": list(folders)}
    # So that no name ends the script.
    text = dumps(data, ensure_ascii=False, separators=(",", ":")).replace("<", "\\u003c").replace("\u2028", "\\u2028")
    return files(__package__ or "udfburn.archive").joinpath("report.html").read_text("utf-8").replace(DATA_PLACE, text)


def write_report(config: Config, catalogue: Catalogue, path: str) -> int:
    """Writes the page, and gives its bytes. A file that is no page of this command is left alone."""
    require_own(path, (PAGE_BEGIN,), "a page")
    data = page(config, catalogue).encode()
    save(path, [data], None, True, config.mode)
    return len(data)
