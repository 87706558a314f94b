"""Compares closed volumes, and their copies, with what they were when they were closed; and repairs one from another."""

from __future__ import annotations

import os
import random
from contextlib import closing, suppress
from hashlib import sha256
from typing import Any, Dict, Iterator, List, NamedTuple, Optional, Sequence, Set, Tuple

from ..base.beneath import is_own, is_there
from ..base.own_files import BytesTold, from_top, move, remove, set_mode, untold
from ..base.scratch import room, sweep
from ..local.sources import shown
from ..protocol import Path, limits
from ..protocol.units import Commit
from ..wire.operations import now
from . import same_rows
from .assemble import assembled
from .bring_back import BringBack
from .bundle import damaged_in, members_by_bundle
from .catalogue import DISC, STATE_CLOSED, STATE_RETIRED, Catalogue, Copy, Held, VolumeRow, image_of, mebibytes_of, odd_image
from .claims import Claims
from .close import SIDECARS, beside, complete, send
from .config import Config
from .contents import Contents, File
from .errors import ArchiveError, Claimed, CopyFailed, NotAtHand, VolumeDiffers
from .open_copies import GROWING, OpenCopies
from .parity import durable, gathered, mended, parity_names, require_program
from .remotes import Print, Remote, print_of_file, remote_of
from .same import count_of, rows_on
from .status import is_lost, loss
from .tell import Tell, plural, shown_path


class CheckOptions(NamedTuple):
    """What is looked at."""

    data: bool = False
    remotes: bool = False
    sample: Optional[int] = None
    oldest: bool = False


def chosen(rows: Sequence[VolumeRow], names: Sequence[str], options: CheckOptions) -> List[VolumeRow]:
    """The volumes that are looked at: those that are named, each once, else all closed ones, of which some at random."""
    closed = [row for row in rows if row.state == STATE_CLOSED]
    if names:
        by_label = {row.label: row for row in rows}
        missing = [name for name in names if name not in by_label]
        if missing:
            raise NotAtHand(f"{missing[0]}: is not a volume of this archive")
        retired = [name for name in names if by_label[name].state == STATE_RETIRED]
        if retired:
            raise NotAtHand(f"{retired[0]}: was retired, and is not asked for any more")
        closed = [by_label[name] for name in dict.fromkeys(names)]
    if options.sample is not None and not options.oldest:
        return sorted(random.sample(closed, min(options.sample, len(closed))), key=lambda row: row.number)
    return closed


def oldest(config: Config, catalogue: Catalogue, rows: Sequence[VolumeRow], options: CheckOptions) -> List[VolumeRow]:
    """Those of the volumes that were not looked at for longest, by their images, or where these are not at hand by their copies. One of which
    nothing can be looked at takes no turn; those that are lost are named each time."""
    places, time = catalogue.put_away(), now()
    lost: List[VolumeRow] = []
    looked: Dict[int, int] = {}
    for row in rows:
        copies = catalogue.on_remotes(row.number) if options.remotes else []
        if image_of(config, row) or odd_image(config, row):
            looked[row.number] = (row.data_checked if options.data else row.checked) or 0
        elif is_lost(row, config, False, places.get(row.number)):
            lost.append(row)
        elif copies:
            looked[row.number] = min(copy.checked for copy in copies)
    # What a clock that was ahead has noted says nothing.
    found = sorted((row for row in rows if row.number in looked), key=lambda row: looked[row.number] if looked[row.number] <= time else 0)
    return lost + found[: options.sample or 1]


class Checker:
    """A run of `check`."""

    def __init__(self, config: Config, catalogue: Catalogue, tell: Tell, options: CheckOptions):
        self.config, self.catalogue, self.tell, self.options = config, catalogue, tell, options
        self.volumes = self.files = self.copies = 0
        self.failures: List[str] = []
        self.away: List[VolumeRow] = []
        self.bad: Set[Tuple[str, str]] = set()
        """The labels of volumes of which the image is damaged, or the copy on a remote, which is named then."""
        self._begun: Dict[object, Tuple[int, Any]] = {}
        """Files of which the first parts were read: how many, and their digest so far."""

    def run(self, rows: Sequence[VolumeRow]) -> None:
        """Looks at volumes."""
        images = [image_of(self.config, row) or odd_image(self.config, row) for row in rows]
        copies = [self.catalogue.on_remotes(row.number) if self.options.remotes else [] for row in rows]
        wholes = [self._bytes(row) if image is not None else 0 for row, image in zip(rows, images)]
        self.tell.begin(0, sum(wholes) + sum((row.length or 0) * len(found) for row, found in zip(rows, copies)))
        for row, image, whole, found in zip(rows, images, wholes, copies):
            if image is None:
                self.away.append(row)
            else:
                with self.tell.portion(whole):
                    self._volume(row, image)
            for copy in found:
                with self.tell.portion(row.length or 0):
                    self._copy(row, copy)

    def _bytes(self, row: VolumeRow) -> int:
        """The bytes that are read of an image: all of a closed one, and its payload again where each file is compared."""
        length = row.length or row.blocks * limits.BLOCK
        return length * ((row.state == STATE_CLOSED) + self.options.data)

    def _volume(self, row: VolumeRow, image: str) -> None:
        """Looks at a volume at hand, and keeps when, and what was found."""
        self.tell.working(f"reading {row.label}")
        trouble = self._trouble(row, image)
        self.volumes += 1
        with self.catalogue.base.transaction():
            # Another process may have filled or closed it meanwhile.
            fresh, time = self.catalogue.volume(row.number) or row, now()
            data = time if self.options.data else fresh.data_checked
            # What is wrong with the image of another folder only that folder sees.
            known = None if row.state == STATE_CLOSED and self.catalogue.is_here(fresh) else fresh.trouble
            self.catalogue.save(fresh._replace(checked=time, data_checked=data, trouble=trouble if trouble and row.state == STATE_CLOSED else known))
        if trouble:
            self.bad.add((row.label, ""))
            self.failures.append(f"{row.label}: {trouble}: {self._cure(row)}")
        self.tell.say_step(f"{row.label}: {trouble or 'is intact'}", did="checked", volume=row.label, trouble=trouble)

    def _trouble(self, row: VolumeRow, image: str) -> Optional[str]:
        if row.state == STATE_CLOSED:
            try:
                found = print_of_file(image, fresh=True, told=self.tell.passed)
            except OSError as error:
                return f"cannot be read: {error.strerror or error}"
            if found.length != row.length:
                return f"has {found.length} bytes instead of {row.length}"
            if found.sha256 != row.sha256 and not self.options.data:
                return "has another SHA-256 than when it was closed"
            if not self.options.data:
                return None
            return self._data(row, image) or ("has another SHA-256 than when it was closed" if found.sha256 != row.sha256 else None)
        return self._data(row, image) if self.options.data else None

    def _data(self, row: VolumeRow, image: str) -> Optional[str]:
        """Compares each file with its digest: by the catalogue, and by the bag's manifest."""
        try:
            with closing(Contents(image)) as contents:
                bad = self._files(row, contents)
        except VolumeDiffers as error:
            return str(error)
        for path in bad:
            self.failures.append(f"{row.label}: {path} is not as it was stored")
        return f"{plural(len(bad), 'file is not as it was', 'files are not as they were')} stored, the first is {bad[0]}" if bad else None

    def _files(self, row: VolumeRow, contents: Contents) -> List[str]:
        """The files that are not as they were stored, each once. Each byte of the payload is read once."""
        manifest = contents.manifest()
        known = {held.commit: held for held in self.catalogue.of_volume(row.number)}
        noted = same_rows.of_volume(self.catalogue.base, row.number)
        members = members_by_bundle(noted)
        self.files += count_of(known.values(), [held for some in members.values() for held in some])
        bad: List[str] = []
        files = contents.files()
        for file in files:
            held = known.pop(file.commit, None)
            same = self._is_as_stored(held, contents, file, manifest)
            if not same or held is not None and (file.path, file.parts) != (held.path, held.parts):
                bad += hurt(contents, file, members.get(file.commit, ()))
            else:
                # The catalogue may have been made of a bundle that was damaged by then. Its list has the digests of its files.
                bad += [shown_path(held.path) for held in damaged_in(contents, file, members.get(file.commit, ()))]
        unlisted: Dict[Commit, str] = {}
        lines = {held.key(): held for held in rows_on(contents, row.number, unlisted)}
        bad += [shown_path(file.path) for file in files if file.commit in unlisted]
        gone = [held for held in noted if lines.get(held.key()) != held._replace(there=True) and not (held.is_member() and held.commit in unlisted)]
        bad += [shown_path(held.path) for held in [*known.values(), *gone]]
        for path, digest in manifest.items():
            node = contents.nodes.get(path)
            if node is None or contents.sha256_of(node) != digest:
                bad.append("/".join(path))
        return list(dict.fromkeys(bad))

    def _is_as_stored(self, held: Optional[Held], contents: Contents, file: File, manifest: Dict[Path, bytes]) -> bool:
        """Whether a file has its digests, in the manifest, from which it is taken, and in the catalogue. One with parts on several volumes is
        compared with the catalogue's once the last of them is read, where they are read in order of its parts."""
        have, whole = (0, sha256()) if held is None else self._begun.pop(held.version(), (0, sha256()))
        same = True
        for node in file.nodes:
            part = sha256()
            for run in contents.volume.pieces(node):
                self.tell.passed(len(run.data))
                whole.update(run.data)
                part.update(run.data)
            wanted = manifest.pop(node.path, None)
            same = same and wanted in (None, part.digest())
        if held is None or have != (held.first or 0):
            return same
        have += held.parts or 0
        if held.parts is not None and have < mebibytes_of(held.size):
            self._begun[held.version()] = have, whole
            return same
        return same and bool(whole.digest() == held.sha256)

    def _copy(self, row: VolumeRow, copy: Copy) -> None:
        """Looks at a copy on a remote."""
        self.tell.working(f"reading {row.label} on {copy.remote}")
        remote, base, image = remote_of(self.catalogue, copy.remote, self.tell.passed), row.label + ".img", image_of(self.config, row)
        try:
            found = remote.look(base)
        except CopyFailed as error:
            self.failures.append(f"{row.label}: the copy on {copy.remote} cannot be checked: {error}")
            return
        trouble = None if found == Print(row.length or 0, row.sha256 or b"") else "is not there" if found is None else "is not as it was closed"
        if image is not None and remote.is_file(image, base):
            trouble = "is the image itself, and no copy: remove its name there, then"
        self.copies += 1
        self.catalogue.save_copy(copy._replace(checked=now(), trouble=trouble))
        if trouble:
            self.bad.add((row.label, copy.remote))
            self.failures.append(f"{row.label}: the copy on {copy.remote} {trouble}: 'udfburn-archive repair {row.label}'")
        self.tell.say_step(f"{row.label} on {copy.remote}: {trouble or 'is intact'}", did="checked", volume=row.label, remote=copy.remote, trouble=trouble)

    def _cure(self, row: VolumeRow) -> str:
        """From which copy a volume can be repaired."""
        # Remotes first, since nobody has to fetch one from a shelf.
        good = [copy.remote for copy in sorted(self.catalogue.copies(row.number), key=lambda copy: copy.disc() is not None) if copy.trouble is None]
        if good and good[0].startswith(DISC):
            return f"'udfburn-archive repair {row.label} --disc {good[0][len(DISC):]}' replaces it by the disc {good[0][len(DISC):]}"
        if good:
            return f"'udfburn-archive repair {row.label}' replaces it by the copy on {good[0]}"
        if row.state != STATE_CLOSED:
            first = f"'udfburn-archive repair {row.label}' replaces it, if a copy has all of it. Otherwise " if self.config.copies else ""
            return f"{first}'udfburn-archive close --without-damaged {row.label}' closes it without what is damaged, and then 'add' stores that again"
        return "no copy is known: 'udfburn-client salvage' copies out what is intact"


def hurt(contents: Contents, file: File, members: Sequence[Held]) -> List[str]:
    """What is damaged of a file that is: of a bundle those of its members whose own bytes are."""
    return [shown_path(held.path) for held in damaged_in(contents, file, members)] or [shown_path(file.path)]


def has_print(image: str, wanted: Print, told: BytesTold = untold) -> bool:
    """Whether an image is there, with this length and digest. One that cannot be read has another."""
    try:
        return is_own(image) and print_of_file(image, fresh=True, told=told) == wanted
    except OSError:
        return False


class Repairer:
    """A run of `repair`: a damaged or lost image from a good copy, and damaged or lost copies from a good image."""

    def __init__(self, config: Config, catalogue: Catalogue, claims: Claims, tell: Tell):
        self.config, self.catalogue, self.claims, self.tell = config, catalogue, claims, tell
        self.repaired = 0
        self.failures: List[str] = []

    def run(self, rows: Sequence[VolumeRow]) -> None:
        """Repairs volumes."""
        sweep(self.config.folder, self.config.room_name("repair"))
        self.tell.begin(0, sum(map(self._bytes, rows)))
        for row in rows:
            if row.state in GROWING and row.holder == self.config.id and self.config.copies:
                self._open(row)
                continue
            if row.state != STATE_CLOSED and image_of(self.config, row) is None:
                self.failures.append(f"{row.label}: {loss(row, [], self.config)}")
                continue
            if row.state != STATE_CLOSED or row.sha256 is None:
                self.failures.append(f"{row.label}: is not closed, so there is nothing to compare it with")
                continue
            try:
                self.claims.volume(row.number, row.label)
                self.tell.working(f"reading {row.label}")
                with self.tell.portion(self._bytes(row)):
                    self._volume(self.catalogue.volume(row.number) or row)
            except (Claimed, CopyFailed, OSError) as error:
                self.failures.append(f"{row.label}: {error}")

    def _open(self, row: VolumeRow) -> None:
        """Repairs a volume that this folder fills, from its copies or these from it."""
        copies = OpenCopies(self.config, self.catalogue, self.claims, self.tell)
        work = BringBack(self.config, self.catalogue, self.tell, copies)
        try:
            self.claims.volume(row.number, row.label)
            with closing(copies.places):
                work.run(self.catalogue.volume(row.number) or row)
        except (ArchiveError, OSError) as error:
            self.failures.append(f"{row.label}: {error}")
        self.repaired += work.repaired
        self.failures += work.failures

    def _bytes(self, row: VolumeRow) -> int:
        """The bytes that are read in any case: the image, where it is there, and each copy."""
        return (row.length or 0) * ((image_of(self.config, row) is not None) + len(self.catalogue.on_remotes(row.number)))

    def _remote(self, row: VolumeRow, name: str, what: str) -> Remote:
        """A remote of which something is read or written."""
        self.tell.working(f"{what} {row.label} on {name}")
        return remote_of(self.catalogue, name, self.tell.passed)

    def _volume(self, row: VolumeRow) -> None:
        wanted = Print(row.length or 0, row.sha256 or b"")
        image = self.config.path("closed", row.label + ".img")
        if not has_print(image, wanted, self.tell.passed):
            self._fetch(row, image, wanted)
        if row.trouble and self.catalogue.is_here(row):
            self.catalogue.save(row._replace(trouble=None, checked=now()))
        elif row.trouble:
            self.failures.append(f"{row.label}: the image of the folder that has this volume is damaged: 'repair {row.label}' there, or 'adopt' it")
        for copy in self.catalogue.on_remotes(row.number):
            try:
                remote = self._remote(row, copy.remote, "reading")
                if remote.look(row.label + ".img") == wanted and not remote.is_file(image, row.label + ".img"):
                    complete(remote, image)
                else:
                    self.tell.more(2 * wanted.length)
                    self.tell.working(f"copying {row.label} to {copy.remote}")
                    send(self.catalogue, row, image, copy.remote, self.tell.passed)
                    self._did(row, f"the copy on {copy.remote}", "the image at hand")
            except CopyFailed as error:
                self.failures.append(f"{row.label}: the copy on {copy.remote}: {error}")
                continue
            self.catalogue.save_copy(copy._replace(checked=now(), trouble=None))

    def _fetch(self, row: VolumeRow, image: str, wanted: Print) -> None:
        """Takes the image from the first copy that is as it was closed. What is damaged gets another name, and is not deleted."""
        new = image + ".new"
        why: Dict[str, str] = {}
        for copy in self.catalogue.on_remotes(row.number):
            self.tell.more(2 * wanted.length)
            try:
                with from_top(new) as place:
                    self._remote(row, copy.remote, "fetching").fetch(row.label + ".img", place)
                if print_of_file(new, fresh=True, told=self.tell.passed) != wanted:
                    raise CopyFailed("is not as it was closed")
            except (CopyFailed, OSError) as error:
                why[copy.remote] = str(error)
                continue
            self._put(image, new)
            self._fetch_sidecars(row, image, copy.remote)
            self._did(row, "the image", copy.remote)
            return
        remove(new)
        if self._assemble(row, image, wanted) or self._by_parity(row, image, wanted):
            return
        told = "; ".join(f"{remote}: {text}" for remote, text in why.items())
        discs = [copy.disc() for copy in self.catalogue.copies(row.number) if copy.disc() is not None and copy.trouble is None]
        if discs:
            raise CopyFailed(f"no copy on a remote is good ({told or 'none is known'}): put the disc {discs[0]} in, and run 'repair {row.label} --disc {discs[0]}'")
        raise CopyFailed(
            f"no copy is good ({told or 'none is known'}): 'add' stores the sources of what is damaged again, and 'udfburn-client salvage' copies out "
            f"what is intact. Then 'retire {row.label}' takes the volume out of use"
        )

    def _assemble(self, row: VolumeRow, image: str, wanted: Print) -> bool:
        """Makes the image of several that are damaged, each of which has blocks that others lack. Whether that was done."""
        new, base = image + ".new", row.label + ".img"
        with room(self.config.folder, self.config.room_name("repair")) as folder:
            damaged = [image] if is_own(image) else []
            for index, copy in enumerate(self.catalogue.on_remotes(row.number)):
                path = remote_of(self.catalogue, copy.remote).path_of(base)
                if path is None:
                    path = os.path.join(folder, str(index))
                    with suppress(CopyFailed), from_top(path) as place:
                        self.tell.more(wanted.length)
                        self._remote(row, copy.remote, "fetching").fetch(base, place)
                damaged += [path] if is_own(path) else []
            self.tell.working(f"comparing {plural(len(damaged), 'image', 'images')} of {row.label}")
            if len(damaged) < 2 or not assembled(damaged, wanted, new):
                remove(new)
                return False
        self._put(image, new)
        self._did(row, "the image", f"{len(damaged)} damaged images together")
        return True

    def _by_parity(self, row: VolumeRow, image: str, wanted: Print) -> bool:
        """Makes the image of a damaged one, or of a damaged copy, by the parity that is kept of it. Whether that was done."""
        name = row.label + ".img"
        remotes = [remote_of(self.catalogue, copy.remote) for copy in self.catalogue.on_remotes(row.number)]
        with room(self.config.folder, self.config.room_name("repair")) as folder, room(self.config.folder, self.config.room_name("repair")) as other:
            for source, files in gathered(image, remotes, folder):
                for damaged in self._damaged(name, image, remotes, other):
                    self.tell.working(f"repairing {row.label} by {source}")
                    require_program()
                    if mended(damaged, files, folder, wanted, name):
                        durable(os.path.join(folder, name))
                        self._put(image, os.path.join(folder, name))
                        self._did(row, "the image", source)
                        return True
        return False

    def _damaged(self, name: str, image: str, remotes: Sequence[Remote], folder: str) -> Iterator[str]:
        """What is left of an image: where it is at hand, in folders for copies, and brought from other remotes."""
        if is_own(image):
            yield image
        for index, remote in enumerate(remotes):
            path = remote.path_of(name)
            if path is None:
                path = os.path.join(folder, str(index))
                with suppress(CopyFailed), from_top(path) as place:
                    remote.fetch(name, place)
            if is_own(path):
                yield path

    def _put(self, image: str, new: str) -> None:
        if is_there(image):
            move(image, f"{image}.damaged-{now()}")
        set_mode(new, self.config.mode & 0o444)
        move(new, image)

    def _fetch_sidecars(self, row: VolumeRow, image: str, remote: str) -> None:
        """Takes the files beside the image too, where they are missing."""
        for end in SIDECARS:
            path = beside(image, end)
            if not is_there(path):
                try:
                    with from_top(path + ".new") as place:
                        remote_of(self.catalogue, remote).fetch(os.path.basename(path), place)
                    move(path + ".new", path)
                except (CopyFailed, OSError) as error:
                    self.tell.note(f"{shown(path)}: {error}", did="not repaired", path=path)
        with suppress(CopyFailed):
            place_of_copy = remote_of(self.catalogue, remote)
            for name in parity_names(row.label, place_of_copy.names()):
                path = os.path.join(os.path.dirname(image), name)
                if not is_there(path):
                    with from_top(path + ".new") as place:
                        place_of_copy.fetch(name, place)
                    move(path + ".new", path)

    def _did(self, row: VolumeRow, what: str, source: str) -> None:
        self.repaired += 1
        self.tell.say_step(f"repaired {what} of {row.label} from {source}", did="repaired", volume=row.label, what=what, source=source)
