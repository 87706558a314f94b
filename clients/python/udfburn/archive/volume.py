"""An open volume of this archive's folder: made, taken up again after a crash, and planned on."""

from __future__ import annotations

import os
from contextlib import ExitStack, closing
from typing import Dict, Iterator, NamedTuple, Optional

from ..base.disk import left_if_short
from ..base.errors import Damaged, DiskFull, NumberUsedElsewhere, ProgramFailed, UsageError, WrongVolume
from ..base.manifest import PAYLOAD_FOLDER
from ..base.own_files import move, new as new_file, remove, set_mode
from ..base.unfinished import is_unfinished
from ..image.blocks import Space
from ..ledger.digests import Files
from ..protocol import Code, Create, MakeDir, Path, Remove, limits
from ..protocol.units import Address, Commit, Moment
from ..reader import FileType
from ..trees.client import Client
from ..wire.connection import find_program, run_program
from ..wire.operations import Operation, now
from . import same_rows
from .bag import manifest_size
from .bundle import lists_on
from .catalogue import STATE_NEW, STATE_OPEN, STATE_RETIRED, Catalogue, Held, VolumeRow, image_of, is_whole
from .claims import Claims
from .config import Config, traces, volume_label
from .contents import ABOUT, GONE, RUNS, SAME, TITLE, Contents, File
from .deletions import events_on, replace_events
from .errors import LOST, CatalogueError, VolumeDiffers
from .places import Places
from .same import count_of, rows_on
from .schema import NUMBERS
from .tail import cut_tail, sound_length
from .tell import plural, stamp
from .tree import PlannedTree
from .unfinished import Unfinished

RUNS_MOST = 480
"""Runs that write to one volume, at most: each has a text in one folder."""

TEXTS_MOST = 500
"""Texts of this program's own in a folder, at most: that many names go into one."""

CLIENTS_MOST = 36
"""Clients after which one more makes a volume full. Linux mounts a volume with up to 38, so `close` may still come with another, as
where the ledger was lost or the volume was adopted."""

NODES_LEFT, BLOCKS_LEFT, MANIFEST_MOST = 26, 200, 1_040_000
"""Nodes and blocks that are left, and bytes of the manifest, from which on a volume counts as full: hardly a file would fit."""

NEW_BYTES = 262 * limits.BLOCK
"""Bytes of the image of a new volume (docs/FORMAT.md: the header, then the file set, the root and the first table)."""

LEDGER = (".ledger", ".ledger-wal", ".ledger-shm", ".ledger.lock")
"""The files of the ledger beside an open image."""

REBUILD = "run 'udfburn-archive rebuild' first"

RULES = """
This volume belongs to an archive that is larger than a disc. The files are below
data/, under their own paths and names, but for what this text says. Names that
begin with = are the archive's:

  =s1, =s2 ..  A folder with more names than UDF takes here goes on in these. Move
               what is in them up into the folder that has them.
  =v2, =v3 ..  Right below data/: later versions of files, under their own paths.
  NAME/=file.txt, NAME/=000000000000000 ..
               A file that no volume has room for, in parts, each named by the byte
               of the file with which it begins: "cat NAME/=0*" joins them. The text
               has its size and its SHA-256. The other parts are on other volumes.
  =b1.tar, =b2.tar ..
               Small files of the folder in which it is, in a tar, whose first
               header has a list of them with their SHA-256.
  ==NAME       A name that UDF cannot spell, one that begins with =, or several
               names in one where a path is too deep. =XX is the byte XX in
               hexadecimal digits, as in quoted-printable; =2F separates names.
               A folder whose name ends with = goes on with the name in it.

A file of the root that begins with .udfburn-unfinished- is none of the archive's:
a run was cut while it stored it.

runs/ has a text for each run that wrote to this volume, gone/ names files that were
deleted at their source, and same/ files whose bytes the archive had already, with
the place that has them. A closed volume is a bag of RFC 8493:
"sha256sum -c manifest-sha256.txt" checks it.
"""


class OpenVolume:
    """A volume that this process writes, by the program or with the C library. It has a claim on it."""

    def __init__(self, config: Config, catalogue: Catalogue, row: VolumeRow, library: bool = False):
        self.config, self.catalogue, self.row = config, catalogue, row
        self.program = find_program()
        self.image = config.path("open", row.label + ".img")
        self.ledger = config.path("open", row.label + ".ledger")
        self.client = Client(f"{'library' if library else 'image'}:{self.image}", ledger=self.ledger, program=self.program)
        self._held = ExitStack()
        self.marker: Optional[Operation] = None
        self._sent = False
        self.began, self.last_commit, self.runs = Moment(0), Commit(0), 0
        self.tree = PlannedTree(Space(row.capacity, Address(row.capacity), set()))
        self.unfinished = Unfinished(self.image, catalogue, {})
        self.texts: Dict[str, int] = {}
        """The bytes of this program's own texts, by their folder."""

    # ---- made

    def make(self) -> None:
        """Makes the image of a new volume, where it is not there. It gets its name once it is a volume."""
        if self.row.state != STATE_NEW or os.path.lexists(self.image):
            return
        new = self.image + ".new"
        for left in (new, self.ledger):
            remove(left)
        new_file(new, self.config.mode)
        try:
            run_program(self.program, ["format", new, self.row.label, str(self.row.formatted), str(self.row.capacity)])
        except ProgramFailed as error:
            room = left_if_short(new, NEW_BYTES)
            if room is None:
                raise
            raise DiskFull(f"{new}: its disk is full: {room:,} bytes are left. Make room, and run the same command again") from error
        move(new, self.image)

    def begin(self) -> None:
        """Writes what each volume begins with, as far as it is not there."""
        text = (
            f"{TITLE}\narchive: {self.catalogue.id}\nlabel: {self.config.label}\nvolume: {self.row.number}\n"
            f"opened: {stamp(self.row.formatted)}\n{RULES}"
        )
        wanted = [
            Operation(Create, (ABOUT,), self.row.formatted, text.encode()), Operation(MakeDir, (RUNS,), self.row.formatted),
            Operation(MakeDir, (PAYLOAD_FOLDER,), self.row.formatted),
        ]
        with self.client.held():
            missing = [operation for operation in wanted if self.client.find(operation.path) is None]
            for outcome in self.client.run(missing) if missing else ():
                if outcome.code is not Code.DONE:
                    raise VolumeDiffers(f"{self.row.label}: {outcome.operation.path}: {outcome.code.name}")

    # ---- taken up

    def take_up(self) -> None:
        """Finishes what an earlier process began, and has the catalogue agree with the volume. Nobody else has the image until `close`."""
        self.make()
        self._allow_to_write()
        self._cut()
        self._held.enter_context(self.client.held())
        try:
            self.client.resume()
        except NumberUsedElsewhere:
            # An earlier version was killed between what it appended and its ledger. All else that this knows of the image is so.
            self.client.forget()
        except WrongVolume as error:
            raise VolumeDiffers(
                f"{self.image}: is not what its ledger says: it is another copy, or bytes of its last commit have changed, which "
                f"'check --data {self.row.label}' finds. Bring the right image back; if this one is meant, remove {self.ledger}"
            ) from error
        except Damaged as error:
            raise VolumeDiffers(f"{self.image}: is damaged, and nothing is written to it: 'udfburn check' says where, and {LOST}") from error
        with closing(Contents(self.image)) as contents:
            self.require_own(contents)
            if all((name,) in contents.nodes for name in (ABOUT, PAYLOAD_FOLDER, RUNS)):
                self._load(contents)
                return
        self.begin()
        self.load()

    def _allow_to_write(self) -> None:
        """Has an image be no read-only file, as a `close` leaves it that was cut short, or an adoption from a medium that is read-only."""
        try:
            if not os.access(self.image, os.W_OK):
                set_mode(self.image, self.config.mode)
        except OSError as error:
            raise VolumeDiffers(f"{self.image}: cannot be written: {error.strerror}") from error

    def _cut(self) -> None:
        """Takes off what an earlier version appended and was cut short."""
        if sound_length(self.image) is not None:
            with closing(Contents(self.image)) as contents:
                self.require_own(contents)
            cut_tail(self.image)

    def require_own(self, contents: Contents) -> None:
        """Raises where the image is not this volume."""
        row = self.row
        if (contents.label, contents.formatted, contents.capacity) != (row.label, row.formatted, row.capacity):
            raise VolumeDiffers(f"{self.image}: is not {row.label}: its label, moment of format or capacity differs")
        if contents.last_commit < row.last_commit:
            raise VolumeDiffers(
                f"{self.image}: has {contents.last_commit} commits, and {row.last_commit} were acknowledged: it is an older copy: bring the right one back"
            )
        if (ABOUT,) not in contents.nodes:
            if row.last_commit or contents.last_commit > 3:
                raise VolumeDiffers(f"{self.image}: has no {ABOUT}, and is not {row.label}")
            return
        about = contents.about()
        if (about.archive, about.number) != (self.catalogue.id, row.number):
            raise VolumeDiffers(f"{self.image}: is volume {about.number} of the archive {about.archive}, and not {row.label} of {self.catalogue.id}")

    def load(self) -> None:
        """Reads the volume: has the catalogue agree with it, and plans from what is there."""
        with closing(Contents(self.image)) as contents:
            self._load(contents)

    def _load(self, contents: Contents) -> None:
        self.require_own(contents)
        if self._remove_doubles(contents):
            self.load()
            return
        self.tree = self._tree(contents)
        self.unfinished = Unfinished(self.image, self.catalogue, left_in(contents))
        self.texts = {folder: sum(node.size for path, node in contents.nodes.items() if len(path) == 2 and path[0] == folder) for folder in (GONE, SAME)}
        if contents.last_commit != self.row.last_commit or self.row.state == STATE_NEW:
            self._agree(contents)
        self.runs, self.last_commit = contents.runs(), contents.last_commit

    def _remove_doubles(self, contents: Contents) -> bool:
        """Removes files that no catalogue ever had from here, and that another volume has by now: another process stored them after
        this volume's was killed. Whether there were any."""
        if contents.last_commit == self.row.last_commit:
            return False
        known = {held.commit for held in self.catalogue.of_volume(self.row.number)}
        with closing(Places(self.config, self.catalogue)) as places:
            doubles = [file for file in contents.files() if file.commit not in known and self._is_elsewhere(contents, file, places)]
        paths = [path for file in doubles for path in contents.stored_paths(file)]
        # Each takes a commit. Where the volume is that full they stay, and nothing is lost.
        if not paths or self.row.capacity - contents.medium.blocks < 64 * len(paths) + 2000:
            return False
        for outcome in self.client.run(Operation(Remove, path, now()) for path in paths):
            if outcome.code is not Code.DONE:
                raise VolumeDiffers(f"{self.row.label}: {outcome.operation.path}: {outcome.code.name}: run the command again")
        return True

    def remove_unfinished(self) -> None:
        """Takes off what runs that were cut left of files that are not whole. Where the volume is too full for that they stay: they are in
        no bag, and nothing counts them."""
        paths = list(self.unfinished.sizes)
        if not paths or not self.tree.has_room_to_remove(len(paths)):
            return
        for outcome in self.client.run(Operation(Remove, path, now()) for path in paths):
            if outcome.code is not Code.DONE:
                raise VolumeDiffers(f"{self.row.label}: {outcome.operation.path}: {outcome.code.name}: run the command again")
        self.load()

    def _is_elsewhere(self, contents: Contents, file: File, places: Places) -> bool:
        """Whether other volumes have all of a file's version: those of this folder as this run sees, and others by the catalogue. An older
        one may name a volume that was lost since, and the file here is all that there is."""
        rows = [row for row in self.catalogue.of_path(file.path) if row.volume != self.row.number and row.there]
        alike = [row for row in rows if (row.size, row.moment) == (file.size, file.moment)]
        same = [row for row in alike if row.sha256 == contents.digest(file) and self._counts(row, places)] if alike else []
        return bool(same) and is_whole(same)

    def _counts(self, row: Held, places: Places) -> bool:
        """Whether another volume has the bytes of a row."""
        volume = self.catalogue.volume(row.volume)
        if volume is None or volume.state == STATE_RETIRED:
            return False
        return places.holds(row, volume) if volume.holder == self.config.id else volume.trouble is None

    def _agree(self, contents: Contents) -> None:
        known = self.catalogue.of_volume(self.row.number)
        rows, lines = contents.rows(self.row.number, {held.commit: held for held in known}), rows_on(contents, self.row.number)
        known += same_rows.of_volume(self.catalogue.base, self.row.number)
        lost = {held.key() for held in known} - {held.key() for held in rows + lines}
        if lost:
            paths = [held.path for held in known if held.key() in lost]
            raise VolumeDiffers(f"{self.image}: lacks {plural(len(lost), 'file', 'files')} that the catalogue has, the first is {paths[0]}: bring the right image back, or 'rebuild'")
        state = STATE_OPEN if self.row.state == STATE_NEW else self.row.state
        replace_events(self.catalogue, self.row.number, events_on(contents, self.row.number))
        same_rows.replace_lines(self.catalogue, self.row.number, lines)
        # The row comes last: it says that the catalogue has all up to the last commit.
        self.row = self.filled(contents.last_commit, count_of(rows, lines))._replace(state=state)
        self.catalogue.replace(self.row, rows)

    def _tree(self, contents: Contents) -> PlannedTree:
        """What the volume has, to plan more on it."""
        clients = contents.clients() | {self.client.session().ledger.client}
        space = Space(self.row.capacity, Address(contents.medium.blocks), clients, len(contents.state.entries), len(contents.nodes))
        manifest = sum(manifest_size(node.path) for node in contents.payload())
        tree = PlannedTree(space, manifest, self.config.nodes)
        for path, node in contents.nodes.items():
            if path:
                tree.has(path, node.kind is FileType.DIRECTORY)
        tree.lay_out()
        tree.lists = lists_on(contents)
        return tree

    def filled(self, last_commit: Commit, files: int) -> VolumeRow:
        """The row, with how full the volume is."""
        space, tree = self.tree.space, self.tree
        return self.row._replace(
            last_commit=last_commit, files=files, nodes=space.nodes, blocks=os.path.getsize(self.image) // limits.BLOCK, clients=len(space.clients),
            manifest=tree.manifest, fullest_folder=max(map(len, tree.names.values())),
        )

    def takes_text(self, folder: str, size: int, most: int) -> bool:
        """Whether a text may go into a folder that has no more than so many bytes: they are read together."""
        return self.texts.get(folder, 0) + size <= most and len(self.tree.names.get((folder,), ())) < TEXTS_MOST

    def is_full(self) -> bool:
        """Whether hardly anything more would fit."""
        space = self.tree.space
        return (
            space.nodes > self.tree.most_nodes() - NODES_LEFT or space.left() < BLOCKS_LEFT or self.tree.manifest > MANIFEST_MOST
            or self.runs >= RUNS_MOST or len(space.clients) > CLIENTS_MOST
        )

    # ---- written

    def sent(self) -> Dict[int, bytes]:
        """The SHA-256 of each file that the ledger sent, by the commit that wrote it."""
        ledger = self.client.session().ledger
        known = ledger.volume(self.client.endpoint.key())
        return {} if known is None else {commit: file.sha256 for commit, file in Files(ledger, known).by_commit.items()}

    def plan_marker(self, text: str, began: Moment) -> None:
        """Plans the text that notes a run before its first file. Its moment is when the run began."""
        self.began = began
        path: Path = (RUNS, f"{self.runs + 1:05}.txt")
        self.tree.small(path, len(text))
        self.runs += 1
        self.marker = Operation(Create, path, self.began, text.encode())
        self._sent = False

    def take_marker(self) -> Optional[Operation]:
        """That text, as long as it is not on the volume."""
        return None if self._sent else self.marker

    def marked(self, operation: Operation) -> None:
        """What was done is on the volume: if it was to store that text, it is stored once."""
        self._sent = self._sent or self.marker is not None and operation.path == self.marker.path

    def resync(self) -> None:
        """Has the plan go on where the image ends."""
        self.tree.space.next = Address(os.path.getsize(self.image) // limits.BLOCK)

    def close(self) -> None:
        """Gives the image and the ledger back."""
        self._held.close()
        self.client.close()


def left_in(contents: Contents) -> Dict[Path, int]:
    """The unfinished files of a volume, and the bytes of each."""
    return {path: node.size for path, node in contents.nodes.items() if is_unfinished(path) and node.kind is FileType.FILE}


def is_damaged(image: str) -> bool:
    """Whether the program would write nothing to an image."""
    return look(image).damaged


class Look(NamedTuple):
    """What the program finds in an image: whether it would write nothing to it, and its newest commit where that is known."""

    damaged: bool
    commit: Optional[Commit] = None


def look(image: str) -> Look:
    """Looks at a few blocks of an image, if all of them count."""
    if sound_length(image) is not None:
        return Look(False)
    try:
        lines = run_program(find_program(), ["log", image])
        return Look(False, Commit(int(lines.split(maxsplit=1)[0])))
    except ProgramFailed as error:
        # With cause 78 only an earlier state is damaged.
        return Look(any(code in str(error) for code in ("66 NotFormatted", "67 Damaged")) and "cause 78" not in str(error))
    except UsageError:
        # The program is not at hand. Whatever writes to the image needs it, and says so.
        return Look(False)


def new_row(config: Config, catalogue: Catalogue) -> VolumeRow:
    """A volume with the next number, that no other process gets."""
    with catalogue.base.transaction():
        number = catalogue.new_number()
        if number > NUMBERS:
            raise CatalogueError(f"the catalogue would give a new volume the number {number}, which no volume has: {REBUILD}")
        later = [other for other in traces(config) if other >= number]
        if later:
            # Its number would be that of another volume, which it would replace one day.
            label = volume_label(config.label, max(later))
            raise CatalogueError(f"there are files of {label}, which the catalogue does not know: it is older than the volumes: {REBUILD}")
        row = VolumeRow(number, volume_label(config.label, number), STATE_NEW, config.id, config.capacity, now())
        catalogue.save(row)
    return row


def own_volumes(config: Config, catalogue: Catalogue, claims: Claims, refused: Dict[int, str], library: bool) -> Iterator[OpenVolume]:
    """The open volumes of this archive's folder that no other process has, each claimed and taken up. `refused` gets the numbers of
    those that cannot be, with why: nothing is written to them, and the others are as good without them."""
    for row in catalogue.volumes():
        if row.holder == config.id and row.state in (STATE_NEW, STATE_OPEN) and claims.try_volume(row.number):
            # What another process did until it let go. A volume that was moved away is not written.
            fresh = catalogue.volume(row.number)
            image = config.path("closed", row.label + ".img")
            if fresh is not None and fresh.state in (STATE_NEW, STATE_OPEN) and os.path.lexists(image):
                if not was_closed(image):
                    raise CatalogueError(f"{image}: holds no volume that was closed: move it into the folder 'open', or away if it is not meant")
                raise CatalogueError(f"{fresh.label} is closed, which the catalogue does not know: it is older than the volumes: {REBUILD}")
            if fresh is not None and (fresh.state == STATE_NEW or fresh.state == STATE_OPEN and image_of(config, fresh)):
                try:
                    volume = taken_up(OpenVolume(config, catalogue, fresh, library))
                except VolumeDiffers as error:
                    refused[fresh.number] = str(error)
                else:
                    yield volume


def was_closed(image: str) -> bool:
    """Whether an image has a bag that was finished, or cannot be read."""
    try:
        with Contents(image) as contents:
            return contents.is_bag()
    except VolumeDiffers:
        return True


def open_new(config: Config, catalogue: Catalogue, claims: Claims, library: bool = False) -> OpenVolume:
    """A new volume. One that another process, which began just now, took up before it was claimed is left to that one."""
    while True:
        row = new_row(config, catalogue)
        fresh = catalogue.volume(row.number) if claims.try_volume(row.number) else None
        if fresh is not None and fresh.state == STATE_NEW:
            return taken_up(OpenVolume(config, catalogue, fresh, library))


def taken_up(volume: OpenVolume) -> OpenVolume:
    """The volume, taken up; or its ledger is given back."""
    try:
        volume.take_up()
    except BaseException:
        volume.close()
        raise
    return volume


__all__ = ["Look", "OpenVolume", "is_damaged", "look", "new_row", "open_new", "own_volumes"]
