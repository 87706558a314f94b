"""Brings the image of an open volume back from its copies, where it is lost, damaged, or older than the catalogue."""

from __future__ import annotations

import os
from contextlib import closing, suppress
from typing import Dict, List, NamedTuple, Optional

from ..base.beneath import is_there
from ..base.own_files import from_top, move, set_mode
from ..base.scratch import room
from ..local.sources import shown
from ..protocol.units import Commit
from ..wire.operations import now
from . import same_rows
from .catalogue import Catalogue, Held, VolumeRow, image_of
from .close import beside, known_rows, read_payload
from .config import Config
from .contents import ABOUT, Contents
from .deletions import Event, events_on, replace_events
from .errors import LOST, ArchiveError, CopyFailed, NotAtHand, VolumeDiffers
from .lag import forget_beyond, forget_seen
from .names import is_bundle
from .open_copies import Image, OpenCopies, opened_image
from .remotes import remote_of
from .same import count_of, rows_on
from .tail import tail_note
from .tell import Tell, plural, shown_path
from .volume import LEDGER, look


class FetchedCopy(NamedTuple):
    """A copy that was fetched: where it is, from which remote, its last commit, and the rows of its files."""

    path: str
    remote: str
    last_commit: Commit
    rows: List[Held]
    events: List[Event]
    lines: List[Held]


class BringBack:
    """Repairs an open volume of this folder."""

    def __init__(self, config: Config, catalogue: Catalogue, tell: Tell, copies: OpenCopies):
        self.config, self.catalogue, self.tell, self.copies = config, catalogue, tell, copies
        self.failures: List[str] = []
        self.repaired = 0

    def run(self, row: VolumeRow) -> None:
        """Has the image be there and sound, and then the copies be beginnings of it. Where the image stays damaged, they stay as they are: they
        may have what it lacks."""
        image = self.config.path("open", row.label + ".img")
        needed = self._is_needed(row)
        hurt = None if needed else self._hurt(row, image)
        if hurt is not None and not self._is_on_copy(row):
            self.failures.append(f"{hurt}, and no sound copy has all of {row.label}: 'close --without-damaged {row.label}', and 'add' the source again")
            return
        if needed or hurt is not None:
            self._image(row, image)
            row = self.catalogue.volume(row.number) or row
        self._copies(row)

    def _is_needed(self, row: VolumeRow) -> bool:
        """Whether no command could go on with the image at hand."""
        image = image_of(self.config, row)
        if image is None:
            return True
        found = look(image)
        return found.damaged or found.commit is not None and found.commit < row.last_commit

    def _hurt(self, row: VolumeRow, image: str) -> Optional[str]:
        """What is said of an image of which something is not as it was stored; None where all is."""
        try:
            with closing(Contents(image)) as contents:
                damaged = read_payload(contents, known_rows(self.catalogue, row.number), {}).damaged
        except VolumeDiffers as error:
            return str(error)
        return f"{shown(image)}: {shown_path(damaged[0].path)} is not as it was stored" if damaged else None

    def _is_on_copy(self, row: VolumeRow) -> bool:
        """Whether a copy is sound, and has all that was acknowledged."""
        with room(self.config.folder, self.config.room_name("repair")) as folder, suppress(NotAtHand):
            return self.newest(row, folder).last_commit >= row.last_commit
        return False

    def _image(self, row: VolumeRow, image: str) -> None:
        with room(self.config.folder, self.config.room_name("repair")) as folder:
            best = self.newest(row, folder)
            self._require_newer(row, image, best)
            self.forget(row, best)
            end = f".damaged-{now()}"
            for path in (tail_note(image), image, *(beside(image, each) for each in LEDGER)):
                if is_there(path):
                    move(path, path + end)
            set_mode(best.path, self.config.mode)
            move(best.path, image)
        self.repaired += 1
        line = f"repaired the image of {row.label} from {best.remote}"
        self.tell.say_step(line, did="repaired", volume=row.label, what="the image", source=best.remote)

    def _require_newer(self, row: VolumeRow, image: str, best: FetchedCopy) -> None:
        """Raises where the image at hand is sound, and has more than a copy: it is older than the catalogue, and the copy is older still."""
        try:
            commit = Commit(0) if look(image).damaged else self._read(row, image, image).last_commit
        except (ArchiveError, OSError):
            return
        if commit > best.last_commit:
            raise VolumeDiffers(
                f"{shown(image)}: has {commit} commits, and the newest copy, on {best.remote}, {best.last_commit}, so it stays: bring the right one back. "
                "Or run 'rebuild', which names the files that it lacks, and remove its .ledger"
            )

    def newest(self, row: VolumeRow, folder: str) -> FetchedCopy:
        """The copy with most commits of those that are sound, in a folder; `NotAtHand` where there is none."""
        best: Optional[FetchedCopy] = None
        why: Dict[str, str] = {}
        for index, name in enumerate(self.config.copies):
            self.tell.working(f"fetching {row.label} from {name}")
            path = os.path.join(folder, f"{index}.img")
            try:
                remote = remote_of(self.catalogue, name)
                if remote.grown(row.label + ".img") is None:
                    continue
                with from_top(path) as place:
                    remote.fetch_grown(row.label + ".img", place)
                found = self._read(row, path, name)
            except (ArchiveError, OSError) as error:
                why[name] = str(error)
                continue
            if best is None or found.last_commit > best.last_commit:
                best = found
        if best is None:
            told = "; ".join(f"{name}: {text}" for name, text in why.items())
            raise NotAtHand(f"its image is lost or damaged, and no copy is good ({told or 'none is known'}): bring the right image back. {LOST}")
        return best

    def _read(self, row: VolumeRow, path: str, name: str) -> FetchedCopy:
        """Reads all of a copy. `CopyFailed` where it is another volume, or a file of it is not as it was stored."""
        with closing(Contents(path)) as contents:
            if (contents.label, contents.formatted, contents.capacity) != (row.label, row.formatted, row.capacity):
                raise CopyFailed(f"is not {row.label}: its label, moment of format or capacity differs")
            if (ABOUT,) in contents.nodes and (contents.about().archive, contents.about().number) != (self.catalogue.id, row.number):
                raise CopyFailed(f"is volume {contents.about().number} of the archive {contents.about().archive}")
            known = self.catalogue.of_volume(row.number)
            damaged = read_payload(contents, known_rows(self.catalogue, row.number), {}).damaged
            if damaged:
                raise CopyFailed(f"{plural(len(damaged), 'file is', 'files are')} not as stored, the first is {shown_path(damaged[0].path)}")
            rows = contents.rows(row.number, {held.commit: held for held in known})
            return FetchedCopy(path, name, contents.last_commit, rows, events_on(contents, row.number), rows_on(contents, row.number))

    def forget(self, row: VolumeRow, best: FetchedCopy) -> None:
        """Has the catalogue say what the copy has, and names each file that it lacks before that."""
        there = {held.key() for held in best.rows + best.lines}
        lost = [held for held in self.catalogue.of_volume(row.number) if held.key() not in there]
        lines = [held for held in same_rows.of_volume(self.catalogue.base, row.number) if held.key() not in there]
        for path in dict.fromkeys(held.path for held in lost + lines if not is_bundle(held.path[-1])):
            self.tell.fail(f"{row.label}: {shown_path(path)} is on no copy: add it again")
        for path in dict.fromkeys(held.path for held in same_rows.of_targets(self.catalogue.base, lost) if not held.is_member()):
            self.tell.fail(f"{row.label}: {shown_path(path)} has its bytes there, on no copy: add it again")
        if lost or lines:
            count = plural(count_of(lost, lines), "file", "files")
            self.failures.append(f"{row.label}: the newest copy, on {best.remote}, lacks {count} that the catalogue had")
        forget_beyond(self.catalogue, row.number, best.last_commit)
        replace_events(self.catalogue, row.number, best.events)
        same_rows.replace_lines(self.catalogue, row.number, best.lines)
        files = count_of(best.rows, best.lines)
        self.catalogue.replace(row._replace(last_commit=best.last_commit, files=files, trouble=None), best.rows)

    def _copies(self, row: VolumeRow) -> None:
        """Has the copies be beginnings of the image. One of this volume that is damaged gets another name, and a new one is made."""
        with opened_image(self.config, row) as image:
            for name in self.config.copies:
                try:
                    self.copies.remote(name).begun(image.descriptor, os.path.basename(image.path), image.length)
                except CopyFailed as error:
                    self._set_aside(row, image, name, str(error))
        self.copies.extend(row)
        self.failures += self.copies.troubles(row)

    def _set_aside(self, row: VolumeRow, image: Image, name: str, why: str) -> None:
        remote, base = self.copies.remote(name), os.path.basename(image.path)
        try:
            remote.require_same_volume(image.descriptor, base)
            forget_seen(self.catalogue, row.number, name)
            remote.set_aside(base, f".damaged-{now()}")
        except CopyFailed as error:
            self.failures.append(f"{row.label}: the copy on {name}: {why}; {error}")
            return
        self.repaired += 1
        line = f"repaired the copy on {name} of {row.label} from the image at hand"
        self.tell.say_step(line, did="repaired", volume=row.label, what=f"the copy on {name}", source="the image at hand")


__all__ = ["BringBack"]
