"""The state of each volume: how full in each limit, when it was last looked at, where its copies are, and what needs attention."""

from __future__ import annotations

import os
import re
import time
from typing import Dict, List, NamedTuple, Optional, Sequence

from ..base.errors import UsageError

from ..protocol import limits
from ..protocol.units import Moment
from .catalogue import FILE_COLUMNS, STATE_CLOSED, STATE_CLOSING, STATE_FULL, STATE_NEW, STATE_RETIRED, Catalogue, Copy, Held, VolumeRow, folder_back, held_row, image_of, is_whole
from .config import Config, volume_label
from .errors import LOST, VolumeDiffers
from .lag import Lag, lags, seen_copies
from .open_copies import GROWING
from .same_rows import WithoutBytes
from .same_rows import lacking as without_bytes
from .tail import sound_length
from .tell import plural, shown_path, stamp
from .tree import GREATEST_MANIFEST, most_nodes
from .volume import look

HOUR = 3_600_000_000
UNITS = {"h": HOUR, "d": 24 * HOUR, "w": 168 * HOUR}
"""Microseconds of the units of an age."""

STALE = 400 * UNITS["d"]
"""Microseconds after which a closed volume or a copy should be looked at again, and an open one copied, where no other age is asked for."""

AHEAD = UNITS["d"]
"""Microseconds by which the clock of another machine may be ahead of this one's."""

NEED_KINDS = (
    "lost", "damaged", "copy_damaged", "not_closed", "not_copied", "not_checked", "copy_not_checked", "copy_behind", "older_image", "cut_short", "incomplete",
)
"""What somebody may be needed for."""

HURT = ("lost", "damaged", "copy_damaged", "copy_behind")
"""Those of which `check` says what they are."""


class Need(NamedTuple):
    """Something that needs somebody: one of `NEED_KINDS`, what is said of it, and the remote of the copy that it is about."""

    kind: str
    text: str
    remote: str = ""


class VolumeStatus(NamedTuple):
    """A volume: its state, and how full it is in each limit, from 0 to 1."""

    row: VolumeRow
    state: str
    at_hand: bool
    fullness: Dict[str, float]
    copies: List[Copy]
    needs: List[Need]
    place: Optional[str]
    """Where the user has put the image."""
    lags: List[Lag]
    """What the copies of an open volume of this folder lack."""

    @property
    def attention(self) -> List[str]:
        """What is said of all that needs somebody."""
        return [need.text for need in self.needs]

    @property
    def lost(self) -> bool:
        """Whether the image is lost."""
        return any(need.kind == "lost" for need in self.needs)


def age(text: str) -> int:
    """Microseconds of an age such as 12h, 180d or 26w; `UsageError` for another text, and for one of no time or above a million units."""
    match = re.fullmatch("([1-9][0-9]{0,5})([hdw])", text)
    if match is None:
        raise UsageError(f"{text}: is not an age such as 12h, 180d or 26w")
    return int(match.group(1)) * UNITS[match.group(2)]


def fullness(row: VolumeRow, nodes: int) -> Dict[str, float]:
    """How full a volume is in each limit, where one of small files takes so many nodes."""
    return {
        "nodes": min(row.nodes / most_nodes(nodes, row.nodes, row.blocks), 1.0), "names": row.fullest_folder / limits.NAMES, "blocks": row.blocks / row.capacity,
        "clients": row.clients / limits.CLIENTS, "manifest": row.manifest / GREATEST_MANIFEST,
    }


def good(copies: List[Copy], config: Config) -> int:
    """How many copies are well, of those that `archive.toml` asks for."""
    return sum(1 for copy in copies if copy.trouble is None and copy.remote in config.copies)


def is_lost(row: VolumeRow, config: Config, at_hand: bool, place: Optional[str]) -> bool:
    """Whether the image of a volume of this folder is gone, and the user has not put it away."""
    return row.holder == config.id and not at_hand and place is None and row.state not in (STATE_NEW, STATE_RETIRED) and (row.files > 0 or row.state == STATE_CLOSED)


def loss(row: VolumeRow, copies: List[Copy], config: Config) -> str:
    """What is said of an image that is lost."""
    if row.state != STATE_CLOSED:
        return "its image is lost, and it was never closed: bring the image back"
    remotes = [copy.remote for copy in copies if copy.trouble is None and copy.remote in config.copies]
    discs = [copy.disc() for copy in copies if copy.trouble is None and copy.disc()]
    how = "no copy is known: bring it back"
    if remotes:
        how = f"'repair {row.label}' brings it back from {remotes[0]}"
    elif discs:
        how = f"known on no remote, but on the disc {discs[0]}: 'repair {row.label} --disc {discs[0]}'"
    return f"its image is lost: {how}. If you have put it away: 'put-away {row.label} PLACE'"


def state_of(row: VolumeRow, at_hand: bool, copies: int, config: Config, own: bool) -> str:
    """The state as users see it."""
    if own and not at_hand and row.state not in (STATE_NEW, STATE_RETIRED):
        return "away"
    if row.state == STATE_CLOSED and config.copies and copies == len(config.copies):
        return "copied"
    return row.state


def needs(row: VolumeRow, at_hand: bool, copies: List[Copy], config: Config, now: int, stale: int) -> List[Need]:
    """What needs somebody, by the catalogue. `stale` is the age in microseconds from which a check is too old."""
    found: List[Need] = []
    if row.state == STATE_RETIRED:
        return found
    if row.trouble:
        found.append(Need("damaged", f"{row.trouble}: 'repair {row.label}'"))
    for copy in copies:
        disc = copy.disc()
        if copy.trouble and disc:
            found.append(Need("copy_damaged", f"the disc {disc}: {copy.trouble}: 'burn {row.label}' onto another one", copy.remote))
        elif copy.trouble:
            found.append(Need("copy_damaged", f"the copy on {copy.remote}: {copy.trouble}: 'repair {row.label}'", copy.remote))
    if row.state in (STATE_FULL, STATE_CLOSING):
        found.append(Need("not_closed", f"is {row.state}: 'close {row.label}'"))
    missing = [remote for remote in config.copies if remote not in [copy.remote for copy in copies]]
    if row.state == STATE_CLOSED and at_hand and missing:
        found.append(Need("not_copied", f"is not on {', '.join(missing)}: 'close {row.label}'"))
    return found + unchecked(row, at_hand, copies, now, stale)


def unchecked(row: VolumeRow, at_hand: bool, copies: List[Copy], now: int, stale: int) -> List[Need]:
    """What was not looked at for longer than an age: a closed image at hand, and its good copies."""
    found: List[Need] = []
    why = None if row.state != STATE_CLOSED or not at_hand else why_stale(row.checked or row.closed or 0, now, stale)
    if why is not None:
        found.append(Need("not_checked", f"was not checked {why}: 'check {row.label}'"))
    for copy in copies:
        why = None if row.state != STATE_CLOSED or copy.trouble else why_stale(copy.checked, now, stale)
        if why is not None:
            disc = copy.disc()
            what, how = (f"the disc {disc}", f"'check --disc {disc}'") if disc else (f"the copy on {copy.remote}", f"'check --remotes {row.label}'")
            found.append(Need("copy_not_checked", f"{what} was not checked {why}: {how}", copy.remote))
    return found


def why_stale(then: int, now: int, stale: int) -> Optional[str]:
    """For how long nobody did what was last done at a moment, where that is too long; None where it is not. A moment that is yet to come is of
    a clock that was wrong, and says nothing."""
    if then - now > AHEAD:
        return f"at any known time (a clock said {stamp(Moment(then))[:10]})"
    return f"for {days(now - then)}" if now - then > stale else None


def behind(lagging: Sequence[Lag], now: int, stale: int) -> List[Need]:
    """What the copies of an open volume lack for longer than an age."""
    old = [(lag, why_stale(lag.since, now, stale)) for lag in lagging if lag.since is not None]
    return [Need("copy_behind", f"has what was not copied to {lag.remote} {why}: 'copy'", lag.remote) for lag, why in old if why is not None]


def days(count: int) -> str:
    """Microseconds in whole days, or in hours where they are fewer than two days."""
    return plural(count // UNITS["d"], "day", "days") if count >= 2 * UNITS["d"] else plural(count // HOUR, "hour", "hours")


def tail_words(config: Config, row: VolumeRow) -> List[Need]:
    """What is to be known of an open image to which an earlier version was appending when it was killed."""
    image = image_of(config, row)
    try:
        length = None if image is None else sound_length(image)
    except VolumeDiffers as error:
        return [Need("cut_short", str(error))]
    if length is None:
        return []
    where = f"lastblock={length // limits.BLOCK - 1}"
    return [Need("cut_short", f"an earlier version was cut short while it appended to it: run 'add' before you mount it, or mount it with {where}")]


def damaged(config: Config, row: VolumeRow) -> List[Need]:
    """What is to be known of an open image that no command can fill or close."""
    image = config.path("open", row.label + ".img")
    if row.holder != config.id or row.state == STATE_CLOSED or not os.path.isfile(image):
        return []
    found = look(image)
    if found.damaged:
        return [Need("damaged", f"its image is damaged, and takes no more: 'udfburn check' says where, and {LOST}")]
    if found.commit is not None and found.commit < row.last_commit:
        few = f"its image has {found.commit} commits, and {row.last_commit} were acknowledged"
        return [Need("older_image", f"{few}: it is an older copy, or was cut short: bring the right one back, or {LOST}")]
    return []


def lines(config: Config, catalogue: Catalogue, stale: int = STALE) -> List[VolumeStatus]:
    """All volumes, those that need attention first."""
    copies: Dict[int, List[Copy]] = {}
    for copy in catalogue.copies():
        copies.setdefault(copy.volume, []).append(copy)
    now, places, seen = time.time_ns() // 1000, catalogue.put_away(), seen_copies(catalogue)
    found = []
    for row in catalogue.volumes():
        own, at_hand = row.holder == config.id, image_of(config, row) is not None
        have = copies.get(row.number, [])
        state = state_of(row, at_hand, good(have, config), config, own)
        lost = is_lost(row, config, at_hand, places.get(row.number))
        needed = [Need("lost", loss(row, have, config))] if lost else []
        lagging = lags(catalogue, row, seen, config.copies) if own and row.state in GROWING and row.files else []
        needed += needs(row, at_hand, have, config, now, stale) + behind(lagging, now, stale) + (tail_words(config, row) or damaged(config, row))
        found.append(VolumeStatus(row, state, at_hand, fullness(row, config.nodes), have, needed, places.get(row.number), lagging))
    return sorted(found, key=lambda line: (not line.needs, line.row.number))


class Incomplete(NamedTuple):
    """A file in parts of which the archive lacks some: its path, and the volumes of the parts that are there. Or files whose bytes were
    another's, and are on no volume that counts: the path of the first, the volume that had them, and what is said."""

    path: str
    volumes: str
    lacks: str = ""

    def need(self) -> Need:
        return Need("incomplete", self.lacks or f"parts are missing (those on {self.volumes} are there): add the file again")


def incomplete(catalogue: Catalogue) -> List[Incomplete]:
    """The files in parts of which the archive lacks some."""
    groups: Dict[object, List[Held]] = {}
    statement = f"SELECT {FILE_COLUMNS}, folder.path FROM file JOIN folder ON folder.id = file.folder WHERE file.part_count IS NOT NULL"
    for row in catalogue.base.run(statement):
        held = held_row(folder_back(row[-1]), row[:-1])
        groups.setdefault(held.version(), []).append(held)
    lacking = [group for group in groups.values() if not is_whole(group)]
    label = catalogue.config.label
    found = [Incomplete(shown_path(group[0].path), ", ".join(volume_label(label, held.volume) for held in group)) for group in lacking]
    return found + [Incomplete(shown_path(one.first), volume_label(label, one.volume), f"{lacking_words(label, one)}: add what lacks them again") for one in without_bytes(catalogue)]


def lacking_words(label: str, one: WithoutBytes) -> str:
    """What is said of files whose bytes are on no volume that counts."""
    others = f", like those of {plural(one.files - 1, 'other file', 'other files')}," if one.files > 1 else ""
    how = "is retired" if one.retired else "does not have them, or is not known"
    return f"its bytes{others} were stored on {volume_label(label, one.volume)}, which {how}"


def needed_lines(found: Sequence[VolumeStatus], lacking: Sequence[Incomplete]) -> List[str]:
    """A line for each thing that needs somebody."""
    return [f"{line.row.label}: {text}" for line in found for text in line.attention] + [f"{one.path}: {one.need().text}" for one in lacking]
