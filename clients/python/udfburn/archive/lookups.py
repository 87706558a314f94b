"""What the commands do that ask the catalogue alone. They load nothing that reads or writes a volume, so they start fast."""

from __future__ import annotations

import argparse
from typing import Dict, List, Tuple, Union

from ..protocol import Path, limits
from ..protocol.units import Moment
from .catalogue import Catalogue, Held, image_of, versions
from .config import config_of, volume_label
from .deletions import Event, are_known, events_of_path, file_at, files_in, has_below
from .errors import Lacking
from .find import matching_paths as found_by
from .names import path_from
from .tell import Tell, printed_path, shown_path, stamp, tell_of


def fields(group: List[Held], labels: Dict[int, str]) -> Dict[str, object]:
    """A version, for programs."""
    held = group[0]
    return {
        "path": shown_path(held.path), "size": held.size, "moment": held.moment, "sha256": held.sha256.hex(), "added": held.added,
        "places": [place(row, labels) for row in group],
    }


def place(row: Held, labels: Dict[int, str]) -> Dict[str, object]:
    """Where bytes of a version are, for programs; of a line also which path has them, and the line's own volume and commit."""
    found: Dict[str, object] = {"volume": labels[row.volume], "commit": row.commit, "first": row.first, "parts": row.parts}
    if row.noted is not None:
        found.update({"as": shown_path(row.stored_as()), "noted": {"volume": labels[row.noted[0]], "commit": row.noted[1]}, "known": row.there, "start": row.start})
    return found


def long_line(group: List[Held], labels: Dict[int, str], name: str) -> str:
    """A version, for people."""
    held = group[0]
    where = ", ".join(f"{labels[row.volume]}:{row.commit}" + ("" if row.noted is None else f"={printed_path(row.stored_as())}") for row in group)
    return f"{held.size:>12} {stamp(held.moment)} {held.sha256.hex()} {where} {name}"


class VolumeLabels(Dict[int, str]):
    """The labels of volumes, by their numbers."""

    def __init__(self, catalogue: Catalogue):
        super().__init__({row.number: row.label for row in catalogue.volumes()})
        self._label = catalogue.config.label

    def __missing__(self, number: int) -> str:
        return volume_label(self._label, number)


def ls(arguments: argparse.Namespace) -> int:
    """Lists."""
    config, tell = config_of(arguments), tell_of(arguments)
    path = path_from(arguments.path)
    with Catalogue(config) as catalogue:
        labels = VolumeLabels(catalogue)
        file = file_at(catalogue, path)
        count = 0
        if file is not None:
            count += 1
            list_file(tell, arguments, file, labels, printed_path(path[-1:])[1:])
        if arguments.recursive:
            for folder in catalogue.folders_below(path):
                count += list_folder(tell, arguments, catalogue, folder, labels, True)
        else:
            count += list_folders(tell, catalogue, path) + list_folder(tell, arguments, catalogue, path, labels, False)
    if not count and path:
        raise Lacking(f"{shown_path(path)}: is not in the archive")
    return 0


def list_file(tell: Tell, arguments: argparse.Namespace, group: List[Held], labels: Dict[int, str], text: str) -> None:
    tell.say(long_line(group, labels, text) if arguments.long else f"f {text}", kind="file", **fields(group, labels))


def list_folder(tell: Tell, arguments: argparse.Namespace, catalogue: Catalogue, folder: Path, labels: Dict[int, str], whole: bool) -> int:
    """The files of a folder."""
    count = 0
    for name, group in files_in(catalogue, folder).items():
        count += 1
        list_file(tell, arguments, group, labels, printed_path(folder + (name,)) if whole else printed_path((name,))[1:])
    return count


def list_folders(tell: Tell, catalogue: Catalogue, path: Path) -> int:
    """The folders in a folder."""
    count = 0
    all_are_there = not are_known(catalogue)
    for name in sorted(catalogue.children(path)):
        # A folder whose files were all deleted is gone with them.
        if not (all_are_there or has_below(catalogue, path + (name,))):
            continue
        count += 1
        tell.say(f"d {printed_path((name,))[1:]}", kind="folder", path=shown_path(path + (name,)))
    return count


def find(arguments: argparse.Namespace) -> int:
    """Finds files."""
    config, tell = config_of(arguments), tell_of(arguments)
    count = 0
    with Catalogue(config) as catalogue:
        labels = VolumeLabels(catalogue)
        for path in found_by(catalogue, arguments.pattern, arguments.ignore_case):
            count += 1
            show_found(tell, arguments.long, catalogue, path, labels)
    tell.outcome = {"files": count}
    return 0 if count else tell.fail(f"{arguments.pattern}: no file of the archive has such a {'path' if arguments.pattern.startswith('/') else 'name'}")


def show_found(tell: Tell, long: bool, catalogue: Catalogue, path: Path, labels: Dict[int, str]) -> None:
    """A file that was found: its path, or its newest version, which takes a look-up."""
    if not long and not tell.as_json:
        tell.say(printed_path(path))
        return
    for group in versions(catalogue.of_path(path))[:1]:
        tell.say(long_line(group, labels, printed_path(path)), **fields(group, labels))


def groups_of(catalogue: Catalogue, path: Path) -> List[List[Held]]:
    """The versions of a file, or `Lacking`."""
    found = versions(catalogue.of_path(path))
    if not found:
        raise Lacking(f"{shown_path(path)}: is not a file of the archive: 'find' looks for a name, and 'ls' lists a folder")
    return found


def history(arguments: argparse.Namespace) -> int:
    """Shows the versions of a file."""
    config, tell = config_of(arguments), tell_of(arguments)
    with Catalogue(config) as catalogue:
        labels, path = VolumeLabels(catalogue), path_from(arguments.path)
        entries: List[Tuple[Moment, Union[Event, List[Held]]]] = [(max(held.added for held in group), group) for group in groups_of(catalogue, path)]
        entries += [(event.since, event) for event in events_of_path(catalogue, path)]
        for moment, entry in sorted(entries, key=entry_moment, reverse=True):
            if isinstance(entry, Event):
                words = "there again" if entry.back else "deleted at its source"
                tell.say(f"{words}, found {stamp(moment)}", did="back" if entry.back else "gone", path=shown_path(path), since=moment, volume=labels[entry.volume])
            else:
                tell.say(long_line(entry, labels, f"added {stamp(moment)}"), **fields(entry, labels))
    return 0


def entry_moment(entry: Tuple[Moment, object]) -> Moment:
    """When something became of a file."""
    return entry[0]


def bytes_of(held: Held) -> str:
    """Which bytes of a file in parts a volume has."""
    first = (held.first or 0) * limits.FILE
    return f"bytes {first} to {min(first + (held.parts or 0) * limits.FILE, held.size) - 1}" if held.parts else "no bytes"


def where(arguments: argparse.Namespace) -> int:
    """Shows where a file is."""
    config, tell = config_of(arguments), tell_of(arguments)
    lacking = 0
    with Catalogue(config) as catalogue:
        holders, labels = catalogue.holders(), VolumeLabels(catalogue)
        for held in groups_of(catalogue, path_from(arguments.path))[0]:
            row = catalogue.volume(held.volume)
            if row is None and held.noted is None:
                raise Lacking(f"the catalogue lacks volume {held.volume}: run 'rebuild'")
            said, fields = as_noted(held, labels)
            if row is None or not held.there:
                lacking += 1
                tell.say(f"{labels[held.volume]} commit {held.commit}{said}: the catalogue does not know these bytes: bring that volume, and run 'rebuild'",
                         volume=labels[held.volume], commit=held.commit, state=None, **fields)
                continue
            image = image_of(config, row)
            good = [copy for copy in catalogue.copies(row.number) if copy.trouble is None]
            remotes, discs = [copy.remote for copy in good if not copy.disc()], [copy for copy in good if copy.disc()]
            parts = f", {bytes_of(held)}" if held.parts is not None else ""
            place = image or (f"at {holders.get(row.holder, '?')}" if row.holder != config.id else "away")
            line = f"{row.label} commit {held.commit}{parts}{said}: {row.state}, {place}" + "".join(f", copy on {remote}" for remote in remotes)
            line += "".join(f", disc {copy.disc()} of {stamp(copy.made)[:10]}" for copy in discs)
            tell.say(line, volume=row.label, commit=held.commit, first=held.first, parts=held.parts, state=row.state, image=image,
                     holder=holders.get(row.holder), copies=remotes, discs=[copy.disc() for copy in discs], sha256=held.sha256.hex(), size=held.size, moment=held.moment, **fields)
    return 1 if lacking else 0


def as_noted(held: Held, labels: VolumeLabels) -> Tuple[str, Dict[str, object]]:
    """What a row says of a file whose bytes another one or a bundle has, for people and for programs; nothing of others."""
    if held.noted is None:
        return "", {}
    volume, commit = labels[held.noted[0]], held.noted[1]
    fields: Dict[str, object] = {"as": shown_path(held.stored_as()), "noted": {"volume": volume, "commit": commit}, "start": held.start}
    where = printed_path(held.stored_as()) + (f", bytes {held.start} to {held.start + held.size - 1}" if held.start is not None and held.size else "")
    return (f" in {where}" if held.is_member() else f" as {where}, which {volume} commit {commit} says"), fields
