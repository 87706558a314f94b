"""Makes the catalogue again of the volumes, and says in what it differs from the one that is there."""

from __future__ import annotations

import os
import re
import signal
from collections import Counter, deque
from concurrent.futures import Future, ProcessPoolExecutor
from concurrent.futures.process import BrokenProcessPool
from contextlib import closing, contextmanager, suppress
from functools import partial
from multiprocessing import active_children, get_context, resource_tracker
from typing import Callable, Deque, Dict, Generator, Iterable, Iterator, List, NamedTuple, Optional, Set, Tuple

from ..base.beneath import is_own, open_own
from ..base.errors import UdfburnError
from ..base.own_files import from_top, untold
from ..base.scratch import room, sweep
from ..local.sources import shown
from ..protocol import limits
from ..protocol.units import Commit
from ..wire.operations import now
from . import same_rows
from .bag import manifest_size
from .bundle import damaged_on
from .catalogue import STATE_CLOSED, STATE_CLOSING, STATE_FULL, STATE_NEW, STATE_OPEN, STATE_RETIRED, Catalogue, Copy, Held, VolumeRow, has_all
from .claims import claims_of
from .close import as_closed, beside, sidecar
from .config import Config, traces, volume_label
from .contents import ABOUT, ARCHIVE, About, Contents, about_of, read_fields
from .deletions import Event, events_on, replace_events
from .errors import ArchiveError, CatalogueError, Claimed, CopyFailed, VolumeDiffers
from .fetching import fetched, known_length, length_on
from .lag import forget_beyond
from .markers import markers_of, move_marker
from .remake import NO_CATALOGUE, KeptCatalogue
from .remotes import Print, Remote, owner_of, print_of_file, remote_of
from .same import count_of, rows_on
from .same_rows import WithoutBytes
from .tell import Tell, plural, shown_path


class Difference(NamedTuple):
    """A file of which the catalogue that was there says something else than the volume, or nothing."""

    volume: str
    path: str
    how: str


class RebuildSummary:
    """What was found."""

    def __init__(self) -> None:
        self.volumes = self.files = self.names = 0
        self.differences: List[Difference] = []
        self.unknown: Dict[str, int] = {}
        """Volumes of which the catalogue had nothing, and how many files each has."""
        self.failures: List[str] = []
        self.lacking: List[str] = []
        """Volumes that the catalogue lacks, and of which there is something else than the image."""
        self.away: List[str] = []
        self.without_bytes: List[WithoutBytes] = []
        """Files whose bytes are on no volume that is known."""


def images(config: Config, others: List[str]) -> Iterator[Tuple[str, bool]]:
    """The images at hand, and whether each is among the closed ones."""
    for folder, closed in ((config.path("closed"), True), (config.path("open"), False), *((other, True) for other in others)):
        if os.path.isfile(folder):
            yield folder, closed
            continue
        for name in sorted(os.listdir(folder)):
            if name.endswith(".img"):
                yield os.path.join(folder, name), closed


STDERR = 2
"""The descriptor of the standard error."""


class VolumeRead(NamedTuple):
    """A volume as it was read: what it says of itself, its row but for what only a catalogue knows, and the rows of its files."""

    about: About
    row: VolumeRow
    rows: List[Held]
    events: List[Event]
    lines: List[Held]
    unlisted: Dict[Commit, str]
    """Bundles whose lists are damaged, by their commits, with what is said of each."""
    damaged: List[Held]
    """Members of bundles that are not as they were stored."""


def read_volume(image: str, closed: bool, holder: str) -> Optional[VolumeRead]:
    """Reads a volume; None where it holds none of an archive yet. One that cannot be read, or says what no volume says, is `VolumeDiffers`."""
    try:
        return _read_volume(image, closed, holder)
    except (ValueError, OverflowError, RecursionError, OSError) as error:
        raise VolumeDiffers(f"{shown(image)}: cannot be read as a volume of an archive ({error})") from error


def _read_volume(image: str, closed: bool, holder: str) -> Optional[VolumeRead]:
    with Contents(image) as contents:
        if (ABOUT,) not in contents.nodes:
            return None
        about = contents.about()
        unlisted: Dict[Commit, str] = {}
        rows, lines = contents.rows(about.number), rows_on(contents, about.number, unlisted)
        names: Dict[Tuple[str, ...], int] = {}
        for path in contents.nodes:
            if path:
                names[path[:-1]] = names.get(path[:-1], 0) + 1
        row = VolumeRow(
            about.number, contents.label, STATE_OPEN, holder, contents.capacity, contents.formatted, last_commit=contents.last_commit, files=count_of(rows, lines),
            nodes=len(contents.nodes), blocks=contents.medium.blocks, clients=len(contents.clients()),
            manifest=sum(manifest_size(node.path) for node in contents.payload()), fullest_folder=max(names.values(), default=0),
        )
        # Those that are named may be open ones of another folder.
        if closed and contents.is_bag():
            length, digest = sidecar(image)
            row = row._replace(state=STATE_CLOSED, length=length, sha256=digest, closed=contents.closed())
        # The digests of a closed volume are its manifest's, and its payload is not read.
        damaged = [] if row.state == STATE_CLOSED else damaged_on(contents, lines)
        return VolumeRead(about, row, rows, events_on(contents, about.number), lines, unlisted, damaged)


def read_all(wanted: Iterable[Tuple[str, bool]], holder: str, several: bool) -> Generator[Tuple[str, Callable[[], Optional[VolumeRead]]], None, None]:
    """Reads volumes, some at once where they are several. Each is given with a call that gives what was read, or raises why not."""
    if not several:
        for image, closed in wanted:
            yield image, partial(read_volume, image, closed, holder)
        return
    count = os.cpu_count() or 1
    # It unblocks interrupts when it starts. So it starts before the readers, which must not be interrupted as they start.
    resource_tracker.ensure_running()
    pool = ProcessPoolExecutor(count, get_context("spawn"), begin_reading)
    try:
        waiting: Deque[Tuple[str, "Future[Optional[VolumeRead]]"]] = deque()
        for image, closed in wanted:
            with uninterrupted():
                waiting.append((image, submitted(pool, image, closed, holder)))
            if len(waiting) > 2 * count:
                image, read = waiting.popleft()
                yield image, read.result
        while waiting:
            image, read = waiting.popleft()
            yield image, read.result
    finally:
        pool.shutdown(cancel_futures=True)
        # Readers of a pool that was interrupted while it started.
        for reader in active_children():
            reader.terminate()
            reader.join()


def submitted(pool: ProcessPoolExecutor, image: str, closed: bool, holder: str) -> "Future[Optional[VolumeRead]]":
    """Has a reader read a volume. `BrokenProcessPool` if a reader was killed."""
    try:
        return pool.submit(read_volume, image, closed, holder)
    except BrokenPipeError as error:
        # It was killed while it started.
        raise BrokenProcessPool(str(error)) from error


@contextmanager
def uninterrupted() -> Iterator[None]:
    """Blocks interrupts for this process, and for processes that it starts meanwhile until their `begin_reading`. Those print nothing:
    a traceback while they start would be of no use, since what fails in one is raised here."""
    kept, nowhere = os.dup(STDERR), os.open(os.devnull, os.O_WRONLY)
    before = signal.pthread_sigmask(signal.SIG_BLOCK, {signal.SIGINT})
    try:
        os.dup2(nowhere, STDERR)
        yield
    finally:
        os.dup2(kept, STDERR)
        os.close(kept)
        os.close(nowhere)
        signal.pthread_sigmask(signal.SIG_SETMASK, before)


def begin_reading() -> None:
    """Lets an interrupt end this process without a message: the process that started it reports the interrupt. If that one ignores
    interrupts, as in a shell's background, so does this one."""
    if signal.getsignal(signal.SIGINT) != signal.SIG_IGN:
        signal.signal(signal.SIGINT, signal.SIG_DFL)
    signal.pthread_sigmask(signal.SIG_UNBLOCK, {signal.SIGINT})


class Rebuilder:
    """A run of `rebuild`."""

    def __init__(self, config: Config, catalogue: Catalogue, tell: Tell, dry_run: bool, kept: KeptCatalogue = NO_CATALOGUE):
        self.config, self.catalogue, self.tell, self.dry_run, self.kept = config, catalogue, tell, dry_run, kept
        self.summary = RebuildSummary()
        self.claims = claims_of(catalogue.base, config.path("locks"), config.catalogue)
        self._seen: Dict[int, Tuple[int, int]] = {}
        """The moment of the format and the last commit of each volume that was read, by its number."""
        self._copied: Set[int] = set()
        """Open volumes of which only copies were found."""
        self._hurt: Set[int] = set()
        """Those of them whose copies have damaged bundles."""
        self._listed: Optional[Dict[str, List[int]]] = None
        """What remotes have, once they were asked."""

    def run(self, others: List[str]) -> RebuildSummary:
        """Reads each volume at hand, and has the catalogue say what it says."""
        found = list(images(self.config, others))
        sweep(self.config.folder, self.config.room_name("rebuild"))
        try:
            self._choose_archive(found)
            self.tell.begin(0, sum(known_length(image) for image, _ in found))
            self._all(found)
            if not self.dry_run:
                self._look_on_remotes()
                self._take_over()
            self._look_for_others()
            if not self.dry_run:
                self.summary.names = self.catalogue.mend_names()
                self.summary.without_bytes = same_rows.lacking(self.catalogue)
        finally:
            self.claims.close()
        self.summary.away = [row.label for row in self.catalogue.volumes() if row.number not in self._seen and row.state != STATE_NEW]
        return self.summary

    def _all(self, found: List[Tuple[str, bool]]) -> None:
        try:
            # The readers end with the loop, even if it is interrupted.
            with closing(read_all(self._claimed(found), self.config.id, len(found) > 2)) as volumes:
                for image, read in volumes:
                    try:
                        with self.tell.portion(known_length(image)):
                            self._one(image, read())
                    except CatalogueError:
                        raise
                    except (UdfburnError, ValueError, OverflowError) as error:
                        # It is left out, and the others are as good without it.
                        self.summary.failures.append(str(error))
        except BrokenProcessPool as error:
            raise ArchiveError("a process that reads volumes was killed: run 'rebuild' again") from error

    def _look_on_remotes(self) -> None:
        """Volumes that are not at hand may be on a remote: the catalogue learns their files, where it does not know them, and the copies."""
        wanted = [
            (remote_of(self.catalogue, name, self.tell.passed), number) for name, numbers in self._on_remotes().items() for number in numbers
            if number not in self._seen and name not in [copy.remote for copy in self.catalogue.copies(number)]
        ]
        lengths = [length_on(remote, self._base(number)) for remote, number in wanted]
        self.tell.more(sum(lengths))
        for (remote, number), length in zip(wanted, lengths):
            with self.tell.portion(length):
                self._on_remote(remote, number)

    def _base(self, number: int) -> str:
        """The name of a volume's image."""
        return volume_label(self.config.label, number) + ".img"

    def _on_remotes(self) -> Dict[str, List[int]]:
        """The remotes that are there now, and the numbers of the volumes of which each has an image."""
        if self._listed is None:
            # Of an open image rclone has a file for each tail.
            own = re.compile(re.escape(self.config.label) + r"-([0-9]{6,9})\.img(?:\.0{12}-[0-9]{12})?")
            self._listed = {}
            for name in self.config.copies:
                try:
                    names = sorted(remote_of(self.catalogue, name).names())
                    self._listed[name] = [int(match.group(1)) for match in map(own.fullmatch, names) if match]
                except CopyFailed as error:
                    self.tell.note(f"{name} was not looked at: {error}", did="not looked at", remote=name)
        return self._listed

    def _on_remote(self, remote: Remote, number: int) -> None:
        """Reads a volume that is on a remote, and keeps that it is there."""
        base = self._base(number)
        self.tell.working(f"reading {base} on {remote.name}")
        try:
            with room(self.config.folder, self.config.room_name("rebuild")) as folder:
                path = remote.path_of(base)
                image = path or fetched(remote, base, folder)
                if number not in self._seen or number in self._copied:
                    read = read_volume(image, True, self.config.id)
                    if read is None or read.about.number != number:
                        raise VolumeDiffers(f"{remote.name}: {base}: is not this volume, and was left out")
                    if read.row.state != STATE_CLOSED:
                        self._open_copy(image, read)
                        return
                    self._forget_copied(number)
                    self._one(image, read)
                row = self.catalogue.volume(number)
                told = untold if path is None else self.tell.passed
                good = row is not None and print_of_file(image, fresh=True, told=told) == Print(row.length or 0, row.sha256 or b"")
            self.catalogue.save_copy(Copy(number, remote.name, now(), now(), None if good else "is not as it was closed"))
        except CatalogueError:
            raise
        except (UdfburnError, ValueError, OverflowError, OSError) as error:
            self.summary.failures.append(str(error))

    def _open_copy(self, image: str, read: VolumeRead) -> None:
        """Learns the files of a copy of an open volume, where no catalogue says more of it: then its image is lost."""
        number = read.about.number
        known = self.catalogue.volume(number)
        hurt = bool(read.damaged or read.unlisted)
        if known is None or number in self._copied and (known.last_commit, number not in self._hurt) < (read.row.last_commit, not hurt):
            self._forget_copied(number)
            self._one(image, read)
            self._copied.add(number)
            self._hurt = self._hurt | {number} if hurt else self._hurt - {number}

    def _forget_copied(self, number: int) -> None:
        """Has what comes next count in the place of an open volume's copy."""
        if number in self._copied:
            self._copied.discard(number)
            self._seen.pop(number)

    def _take_over(self) -> None:
        """Keeps what could be read of the copies in a damaged catalogue, of the volumes that are known."""
        closed = {row.number for row in self.catalogue.volumes() if row.state in (STATE_CLOSED, STATE_RETIRED)}
        have = {(copy.volume, copy.remote) for copy in self.catalogue.copies()}
        for copy in self.kept.copies:
            if copy.volume in closed and (copy.volume, copy.remote) not in have:
                self.catalogue.save_copy(copy)
        for number in self.kept.volumes:
            self.catalogue.keep_numbers_above(number)

    def _look_for_others(self) -> None:
        """Volumes whose images are elsewhere leave their traces. No new one gets the number of one of them."""
        known = {row.number for row in self.catalogue.volumes()}
        for number in sorted((traces(self.config) | set(self.kept.volumes)) - known):
            self.summary.lacking.append(volume_label(self.config.label, number))
            if not self.dry_run:
                self.catalogue.keep_numbers_above(number)

    def _claimed(self, found: List[Tuple[str, bool]]) -> Iterator[Tuple[str, bool]]:
        """The images that are read. One that may still be written is claimed before."""
        for image, closed in found:
            try:
                if not os.path.isfile(image):
                    raise VolumeDiffers(f"{shown(image)}: is not a regular file, and was left out")
                if not closed:
                    self._claim(image)
            except CatalogueError:
                raise
            except (UdfburnError, ValueError, OverflowError, OSError) as error:
                self.summary.failures.append(str(error))
                continue
            yield image, closed

    def _claim(self, image: str) -> None:
        with Contents(image) as contents:
            if (ABOUT,) in contents.nodes and not self.claims.try_volume(contents.about().number):
                raise Claimed(f"{contents.label}: another process is writing it, so it was left out: run 'rebuild' again")

    def _one(self, image: str, read: Optional[VolumeRead]) -> None:
        """Keeps what was read of a volume; of one that was read before nothing, as of a copy of it."""
        if read is None:
            return
        about, number = read.about, read.about.number
        if about.label != self.config.label or about.archive != self.catalogue.id:
            raise VolumeDiffers(f"{shown(image)}: belongs to another archive, {about.label} {about.archive}")
        if read.row.label != volume_label(self.config.label, number):
            raise VolumeDiffers(f"{shown(image)}: has the label {read.row.label!r}, and {ABOUT} says volume {number}: it was left out")
        state = (read.row.formatted, read.row.last_commit)
        if number in self._seen:
            if self._seen[number] != state:
                raise VolumeDiffers(f"{shown(image)}: is another state of {read.row.label} than the image that was read before, and was left out")
            return
        known = self.catalogue.of_volume(number)
        old, closed = self.catalogue.volume(number), read.row.state == STATE_CLOSED
        is_new, old = old is None and not known, old or self.kept.volumes.get(number)
        if old is not None and not closed and self._is_older(old, read.row):
            raise VolumeDiffers(f"{shown(image)}: is an older copy of {old.label}, which was closed or taken over since, and was left out")
        noted = same_rows.of_volume(self.catalogue.base, number)
        # What the catalogue has of a bundle whose list is damaged is all that is known of its files.
        lines = read.lines + [held._replace(there=True) for held in noted if held.is_member() and held.commit in read.unlisted]
        others = old is not None and old.holder != self.config.id
        if others and old and (old.formatted != read.row.formatted or not closed and not has_all(read.rows + lines, known + noted)):
            # Its number was given twice, by a catalogue from a backup; or that folder took a copy over, and filled it otherwise.
            raise VolumeDiffers(f"{shown(image)}: is not {old.label} as another folder of the archive has it, and was left out")
        self._seen[number] = state
        self.summary.failures += read.unlisted.values()
        self.summary.failures += [f"{shown(image)}: {shown_path(held.path)} is not as it was stored" for held in read.damaged]
        if is_new:
            self.summary.unknown[read.row.label] = read.row.files
        else:
            self._compare(read.row.label, known + noted, read.rows + lines)
        if not self.dry_run:
            self._keep(image, read, lines, old)
        self.summary.volumes += 1
        self.summary.files += read.row.files
        self.tell.working(f"read {plural(self.summary.volumes, 'volume', 'volumes')}, {plural(self.summary.files, 'file', 'files')}")

    def _keep(self, image: str, read: VolumeRead, lines: List[Held], old: Optional[VolumeRow]) -> None:
        """Has the catalogue say what was read of a volume."""
        number, closed = read.about.number, read.row.state == STATE_CLOSED
        forget_beyond(self.catalogue, number, Commit(0) if closed else read.row.last_commit)
        replace_events(self.catalogue, number, read.events)
        same_rows.replace_lines(self.catalogue, number, lines)
        row = as_closed(image, read.row, old) if closed else read.row
        if row.sha256 != read.row.sha256:
            self.summary.failures.append(f"{shown(image)}: has another SHA-256 than when it was closed: run 'check {row.label}'")
        self.catalogue.replace(self._row(row, closed, old), read.rows)

    def _is_older(self, old: VolumeRow, row: VolumeRow) -> bool:
        """Whether an open image is not the volume any more: that one was closed, or another folder has it and has filled it since."""
        return old.state in (STATE_CLOSED, STATE_RETIRED) or old.holder != self.config.id and row.last_commit < old.last_commit

    # ---- the archive of a catalogue that was made anew

    def _choose_archive(self, found: List[Tuple[str, bool]]) -> None:
        """A catalogue that was made anew is that of the archive that most volumes name, of which a folder for copies has a marker where one
        of them is so marked. The volumes of others are named when they are read."""
        if self.catalogue.volumes():
            return
        votes = Counter(filter(None, (self._archive_of(image) for image, _ in found))) or self._votes_on_remotes()
        marked = {self.catalogue.id}
        for folder in filter(os.path.isabs, self.config.copies):
            with suppress(CopyFailed):
                marked |= markers_of(self.config.label, folder)
        weights = {id: (id in marked, count) for id, count in votes.items()}
        best = [id for id, weight in weights.items() if weight == max(weights.values())]
        if len(best) > 1:
            raise ArchiveError(f"there are as many volumes of the archive {best[0]} as of {best[1]}: move those away that are not of this archive")
        if best and best[0] != self.catalogue.id:
            self._take_archive(best[0])

    def _archive_of(self, image: str) -> Optional[str]:
        """The archive that a volume with this archive's label names; None where it is none."""
        about = about_of(image) if is_own(image) else None
        return about.archive if about is not None and about.label == self.config.label else None

    def _votes_on_remotes(self) -> "Counter[str]":
        """The archives that volumes on remotes name, where no image is at hand; of one that cannot be read in its place its `.info` says it."""
        votes: Counter[str] = Counter()
        for name, numbers in self._on_remotes().items():
            remote = remote_of(self.catalogue, name)
            for number in numbers:
                base = self._base(number)
                path = remote.path_of(base)
                archive = self._archive_of(path) if path is not None else self._archive_by_info(remote, beside(base, ".info")) or self._archive_by_tails(remote, base)
                votes.update([archive] if archive is not None else [])
        return votes

    def _archive_by_info(self, remote: Remote, name: str) -> Optional[str]:
        with suppress(CopyFailed, OSError), room(self.config.folder, self.config.room_name("rebuild")) as folder:
            path = os.path.join(folder, name)
            with from_top(path) as place:
                remote.fetch(name, place)
            with open(open_own(path), "rb") as file:
                archive = read_fields(file.read(limits.FILE)).get("archive", "")
            return archive if ARCHIVE.fullmatch(archive) else None
        return None

    def _archive_by_tails(self, remote: Remote, base: str) -> Optional[str]:
        """The archive that the copy of an open volume names."""
        with suppress(CopyFailed, OSError), room(self.config.folder, self.config.room_name("rebuild")) as folder:
            if remote.grown(base) is not None:
                path = os.path.join(folder, base)
                with from_top(path) as place:
                    remote.fetch_grown(base, place)
                return self._archive_of(path)
        return None

    def _take_archive(self, archive: str) -> None:
        """Has the catalogue be that of an archive, and folders take its copies."""
        if not self.dry_run:
            self.catalogue.base.run("UPDATE archive SET id = ?", (archive,))
            for folder in filter(os.path.isabs, self.config.copies):
                with suppress(CopyFailed):
                    move_marker(owner_of(self.catalogue), archive, folder)
        self.catalogue.id = archive

    # ---- what the catalogue keeps

    def _row(self, row: VolumeRow, closed: bool, old: Optional[VolumeRow]) -> VolumeRow:
        """What the volume says of itself; what it cannot say is kept."""
        if old is None:
            return row
        state = row.state if closed or old.state not in (STATE_FULL, STATE_CLOSING) else old.state
        state = STATE_RETIRED if old.state == STATE_RETIRED else state
        row = row._replace(state=state, holder=old.holder, checked=old.checked, data_checked=old.data_checked, trouble=old.trouble)
        return row._replace(closed=old.closed or row.closed) if closed else row._replace(length=old.length, sha256=old.sha256, closed=old.closed)

    def _compare(self, label: str, known: List[Held], rows: List[Held]) -> None:
        """Notes in what the catalogue differs from the volume."""
        # What the catalogue has of a line does not say whether it has the bytes.
        old, new = {held.key(): held._replace(there=True) for held in known}, {held.key(): held for held in rows}
        for id in sorted(set(old) | set(new)):
            if id not in new:
                how, held = "was in the catalogue, and is not on the volume", old[id]
            elif id not in old:
                how, held = "is on the volume, and was not in the catalogue", new[id]
            elif old[id] != new[id]:
                fields = ", ".join(name for name, a, b in zip(Held._fields, old[id], new[id]) if a != b)
                how, held = f"differed in {fields}", new[id]
            else:
                continue
            self.summary.differences.append(Difference(label, shown_path(held.path), how))
