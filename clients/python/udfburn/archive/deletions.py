"""What was deleted at its source: paths that runs of `add --deletions` did not find any more, and those that were there again later.

Nothing goes from a volume. A run writes the paths into texts on a volume, in `gone`, and the catalogue has them beside the files: so the
archive is shown as the tree was at each moment. A path is gone from the moment of the run on, until a later run finds it again.
"""

from __future__ import annotations

from typing import Dict, Iterable, Iterator, List, NamedTuple, Optional, Sequence, Tuple

from ..protocol import Path
from ..protocol.units import Commit, Moment
from ..reader import FileType, StateNode
from .catalogue import Catalogue, Held, as_of, versions, volume_and_commit
from .contents import GONE, TEXT_BYTES, Contents
from .errors import VolumeDiffers
from .held import below, folder_text, line_path, path_line
from .names import kept_name, name_back, text_of
from .schema import COMMITS

DELETIONS_TITLE = "udfburn-archive deletions 1"
"""The first line of a text of deletions."""

DELETION_TEXTS_BYTES = 1 << 28
"""Bytes of all texts of a volume that are read, at most."""

MARKS = {"-": False, "+": True}
"""What a line begins with: a path that is gone, or one that is there again."""


class Event(NamedTuple):
    """A path that was not found any more, or was found `back`, as a commit of a volume has it, since the moment of a run in microseconds."""

    path: Path
    back: bool
    volume: int = 0
    commit: Commit = Commit(0)
    since: Moment = Moment(0)


# ---- on a volume

def line_of(event: Event) -> bytes:
    """A path in a text."""
    return f"{'+' if event.back else '-'} {path_line(event.path)}\n".encode()


def deletion_texts(events: Iterable[Event]) -> Iterator[Tuple[bytes, List[Event]]]:
    """The texts that have events, each with what it has."""
    data = bytearray(f"{DELETIONS_TITLE}\n".encode())
    some: List[Event] = []
    for event in events:
        line = line_of(event)
        if some and len(data) + len(line) > TEXT_BYTES:
            yield bytes(data), some
            data, some = bytearray(f"{DELETIONS_TITLE}\n".encode()), []
        data += line
        some.append(event)
    if some:
        yield bytes(data), some


def read_deletions(data: bytes, where: str) -> Iterator[Tuple[Path, bool]]:
    """The paths that a text names, and whether each is there again; `VolumeDiffers` where it is none."""
    try:
        title, *lines = data.decode().split("\n")
        if title != DELETIONS_TITLE or lines.pop() != "":
            raise ValueError("it is none")
        for line in lines:
            if line[:1] not in MARKS or line[1:3] != " /":
                raise ValueError(f"{line[:40]!r} names no path")
            yield line_path(line[2:]), MARKS[line[0]]
    except ValueError as error:
        raise VolumeDiffers(f"{where}: is no text of deletions ({error})") from error


def events_on(contents: Contents, number: int) -> List[Event]:
    """The events that a volume has."""
    nodes: List[StateNode] = [node for path, node in contents.nodes.items() if len(path) == 2 and path[0] == GONE and node.kind is FileType.FILE]
    if sum(node.size for node in nodes) > DELETION_TEXTS_BYTES:
        raise VolumeDiffers(f"{contents.image}: has more than {DELETION_TEXTS_BYTES} bytes of deletions")
    found: List[Event] = []
    for node in nodes:
        commit = contents.commit_of(node)
        since = contents.added(commit)
        for path, back in read_deletions(contents.bytes_of(node), f"{contents.image}: {text_of(node.path)}"):
            found.append(Event(path, back, number, commit, since))
    return found


# ---- in the catalogue

def insert_events(catalogue: Catalogue, events: Sequence[Event]) -> None:
    """Keeps events. Only inside a transaction."""
    rows = [
        (catalogue.folder_id(folder_text(event.path[:-1])), kept_name(event.path[-1]), event.volume, event.commit, event.since, int(event.back)) for event in events
    ]
    statement = """INSERT INTO gone (folder, name, volume, commit_number, since, back) VALUES (?, ?, ?, ?, ?, ?)
    ON CONFLICT (folder, name, volume, commit_number) DO UPDATE SET since = excluded.since, back = excluded.back"""
    catalogue.base.many(statement, rows)


def replace_events(catalogue: Catalogue, number: int, events: Sequence[Event]) -> None:
    """Has these events in the place of all that the catalogue had of a volume, as one."""
    with catalogue.base.transaction():
        catalogue.base.run("DELETE FROM gone WHERE volume = ?", (number,))
        insert_events(catalogue, events)


def are_known(catalogue: Catalogue) -> bool:
    """Whether there is any event."""
    return bool(catalogue.base.run("SELECT 1 FROM gone LIMIT 1"))


def events_in_folder(catalogue: Catalogue, path: Path) -> Dict[str, List[Event]]:
    """The events of each name in a folder, in their order."""
    statement = """SELECT name, back, volume, commit_number, since FROM gone JOIN folder ON folder.id = gone.folder WHERE folder.path = ?
    ORDER BY since, volume, commit_number"""
    found: Dict[str, List[Event]] = {}
    for name, back, volume, commit, since in catalogue.base.run(statement, (folder_text(path),)):
        event = Event((*path, name_back(name)), bool(back), int(volume), Commit(int(commit)), Moment(int(since)))
        found.setdefault(event.path[-1], []).append(event)
    return found


def events_of_path(catalogue: Catalogue, path: Path) -> List[Event]:
    """The events of a path, in their order."""
    return events_in_folder(catalogue, path[:-1]).get(path[-1], []) if path else []


def last_since(catalogue: Catalogue, path: Path) -> Moment:
    """The latest moment at which something at a path or below it was found gone or back; 0 where nothing was."""
    low, high = below(path)
    statement = """SELECT max(gone.since) FROM folder JOIN gone ON gone.folder = folder.id
    WHERE folder.path = ? OR (folder.path >= ? AND folder.path < ?)"""
    found = catalogue.base.run(statement, (folder_text(path), low, high))
    return max([Moment(int(found[0][0] or 0)), *(event.since for event in events_of_path(catalogue, path))])


def deletion_runs(catalogue: Catalogue) -> Iterator[Tuple[Moment, int, Commit]]:
    """The moments of the runs that found deletions, with the volume and the commit of each."""
    for since, id in catalogue.base.run(f"SELECT since, min(volume * {COMMITS} + commit_number) FROM gone GROUP BY since, volume"):
        volume, commit = volume_and_commit(int(id))
        yield Moment(int(since)), volume, commit


# ---- what is there

def is_gone(group: Sequence[Held], events: Sequence[Event], moment: Optional[Moment]) -> bool:
    """Whether a version was gone at a moment, or is now: by the last event after it was added."""
    added = max(held.added for held in group if moment is None or held.added <= moment)
    since = [event for event in events if event.since > added and (moment is None or event.since <= moment)]
    return bool(since) and not since[-1].back


def present(groups: Sequence[List[Held]], events: Sequence[Event], moment: Optional[Moment]) -> Optional[List[Held]]:
    """The version that is there now, or was at a moment; None where there is none, or it was gone."""
    group = as_of(groups, moment)
    return None if group is None or is_gone(group, events, moment) else group


def files_in(catalogue: Catalogue, path: Path, moment: Optional[Moment] = None) -> Dict[str, List[Held]]:
    """The files of a folder that are there now, or were at a moment, by their names in order."""
    events = events_in_folder(catalogue, path)
    found = {name: present(versions(rows), events.get(name, ()), moment) for name, rows in sorted(catalogue.in_folder(path).items())}
    return {name: group for name, group in found.items() if group is not None}


def file_at(catalogue: Catalogue, path: Path, moment: Optional[Moment] = None) -> Optional[List[Held]]:
    """The version of a path that is there now, or was at a moment."""
    return present(versions(catalogue.of_path(path)), events_of_path(catalogue, path), moment)


def has_below(catalogue: Catalogue, path: Path) -> bool:
    """Whether a folder or what is below it has a file now."""
    return any(files_in(catalogue, folder) for folder in catalogue.folders_below(path))


__all__ = [
    "Event", "are_known", "deletion_runs", "deletion_texts", "events_in_folder", "events_of_path", "events_on", "file_at", "files_in", "has_below", "insert_events", "is_gone", "last_since", "present", "replace_events",
]
