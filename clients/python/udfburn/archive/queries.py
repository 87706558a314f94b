"""The commands that read volumes, or show their state."""

from __future__ import annotations

import argparse
from datetime import datetime, timezone
from typing import Dict, Optional

from ..base.disk import room_left
from ..base.errors import UsageError
from ..local.sources import shown
from ..protocol.units import Moment
from .catalogue import Catalogue
from .config import config_of
from .get import Getter, once, require_folder, wanted
from .names import path_from
from .status import STALE, VolumeStatus, age, incomplete, lines, needed_lines
from .tell import plural, size, stamp, tell_of


def moment_asked(text: Optional[str]) -> Optional[Moment]:
    """Microseconds of a time that a user writes; without a zone it is UTC, and a date alone is its end."""
    if text is None:
        return None
    try:
        found = datetime.fromisoformat(text)
    except ValueError as error:
        raise UsageError(f"{text}: is not a time such as 2026-11-26 or 2026-11-26T12:00:00Z") from error
    if len(text) <= 10:
        found = found.replace(hour=23, minute=59, second=59, microsecond=999_999)
    return Moment(int(found.replace(tzinfo=found.tzinfo or timezone.utc).timestamp() * 1_000_000))


def get(arguments: argparse.Namespace) -> int:
    """Copies files and folders."""
    config, tell = config_of(arguments), tell_of(arguments)
    require_folder(arguments.dir)
    with Catalogue(config) as catalogue:
        known = {row.label: row.number for row in catalogue.volumes()}
        files = once(wanted(catalogue, [path_from(path) for path in arguments.path], moment_asked(arguments.as_of)))
        tell.begin(len(files), sum(want.rows[0].size for want in files))
        summary = Getter(config, catalogue, tell, arguments.force).run(files, arguments.dir)
        remotes = {label: [copy.remote for copy in catalogue.on_remotes(known[label])] for label in summary.lacking if label in known}
    for line in summary.failures:
        tell.fail(line)
    for label, count in sorted(summary.lacking.items()):
        how = f"'repair {label}' brings it back from {remotes[label][0]}" if remotes.get(label) else "put its image into the folder 'closed' of the archive"
        tell.fail(f"{label} is not at hand, and has {plural(count, 'file', 'files')} of these: {how}")
    lacking = sum(summary.lacking.values())
    words = f"got {plural(summary.files, 'file', 'files')}, {size(summary.bytes)}"
    words += f"; {plural(summary.same, 'file is', 'files are')} there already" if summary.same else ""
    words += f"; {plural(len(summary.failures), 'failure', 'failures')}" if summary.failures else ""
    words += f"; volumes that are not at hand: {', '.join(sorted(summary.lacking))}" if lacking else ""
    tell.result(words, files=summary.files, bytes=summary.bytes, same=summary.same, lacking=sorted(summary.lacking))
    return 1 if summary.failures or lacking else 0


def report(arguments: argparse.Namespace) -> int:
    """Writes the page."""
    from .report import write_report

    config, tell = config_of(arguments), tell_of(arguments)
    with Catalogue(config) as catalogue:
        count = write_report(config, catalogue, arguments.out)
    tell.result(f"wrote {shown(arguments.out)}, {size(count)}", page=arguments.out, bytes=count)
    return 0


def status(arguments: argparse.Namespace) -> int:
    """Shows the state of each volume, or with `--check` only what needs somebody."""
    config, tell = config_of(arguments), tell_of(arguments)
    stale = STALE if arguments.stale is None else age(arguments.stale)
    with Catalogue(config) as catalogue:
        found, holders, lacking = lines(config, catalogue, stale), catalogue.holders(), incomplete(catalogue)
    if arguments.prometheus is not None:
        from .metrics import write_metrics

        write_metrics(config, arguments.prometheus, found, lacking)
    if not arguments.check:
        for line in found:
            tell.say(status_line(line, holders.get(line.row.holder, "?") if line.row.holder != config.id else ""), **status_fields(line, holders))
            for text in line.attention if not arguments.json else ():
                tell.say(f"    ! {text}")
        for one in lacking:
            tell.say(f"    ! {one.path}: {one.need().text}", did="incomplete", path=one.path, volumes=one.volumes)
    needed = needed_lines(found, lacking)
    for text in needed if arguments.check else ():
        tell.fail(text)
    files, left = sum(line.row.files for line in found), room_left(config.folder)
    words = f"{config.label}: {plural(len(found), 'volume', 'volumes')}, {plural(files, 'file', 'files')}"
    words += f", {size(left)} left on the disk" if left is not None else ""
    words += f": {plural(len(needed), 'thing needs', 'things need') if needed else 'nothing needs'} attention" if arguments.check else ""
    tell.result(words, label=config.label, archive=config.folder, volumes=len(found), files=files, left=left, attention=len(needed))
    lost = [line.row.label for line in found if line.lost]
    if lost and not arguments.check:
        tell.fail(f"{plural(len(lost), 'image is', 'images are')} lost: {', '.join(lost)}")
    return 1 if lost or arguments.check and needed else 0


def status_line(line: VolumeStatus, elsewhere: str) -> str:
    """A volume, for people."""
    row = line.row
    full = " ".join(f"{name} {share:.0%}" for name, share in line.fullness.items())
    words = f"{row.label} {line.state}: {plural(row.files, 'file', 'files')}, {full}"
    words += f", checked {stamp(row.checked)[:10]}" if row.checked else ""
    words += f", put away at {line.place}" if line.place is not None and not line.at_hand else ""
    remotes = [copy.remote for copy in line.copies if not copy.disc()]
    words += f", copies {', '.join(remotes)}" if remotes else ""
    words += "".join(f", {lag.words()}" for lag in line.lags)
    words += "".join(f", disc {copy.disc()} of {stamp(copy.made)[:10]}" for copy in line.copies if copy.disc())
    return words + (f", at {elsewhere}" if elsewhere else "")


def status_fields(line: VolumeStatus, holders: Dict[str, str]) -> Dict[str, object]:
    """A volume, for programs."""
    row = line.row
    return {
        "did": "volume", "volume": row.label, "state": line.state, "at_hand": line.at_hand, "holder": holders.get(row.holder), "files": row.files,
        "nodes": row.nodes, "blocks": row.blocks, "capacity": row.capacity, "clients": row.clients, "manifest": row.manifest,
        "fullest_folder": row.fullest_folder, "fullness": line.fullness, "last_commit": row.last_commit, "closed": row.closed,
        "sha256": row.sha256.hex() if row.sha256 else None, "length": row.length, "checked": row.checked, "data_checked": row.data_checked,
        "copies": [{"remote": copy.remote, "checked": copy.checked, "trouble": copy.trouble} for copy in line.copies if not copy.disc()],
        "discs": [{"disc": copy.disc(), "burned": copy.made, "checked": copy.checked, "trouble": copy.trouble} for copy in line.copies if copy.disc()],
        "open_copies": [lag._asdict() for lag in line.lags],
        "attention": line.attention, "lost": line.lost, "place": line.place,
    }
