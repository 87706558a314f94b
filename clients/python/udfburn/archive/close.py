"""Closes volumes: writes the bag's tag files, ends the image, keeps what is known of it beside it, and sends it to each remote.

Each step is durable before the next, and each is done again by the same command where it was cut.
"""

from __future__ import annotations

import os
from contextlib import closing
from hashlib import sha256
from tempfile import TemporaryDirectory
from typing import Dict, Iterator, List, Mapping, NamedTuple, Optional, Sequence, Tuple

from ..base.beneath import is_own, open_own, place_of
from ..base.manifest import BAG_DECLARATION, BAG_INFO, DECLARATION, LONGEST_WRITTEN, MANIFEST, PAYLOAD_FOLDER, TAG_FILES, TAG_MANIFEST, ManifestLine, bag_manifest
from ..base.own_files import BytesTold, move, remove, untold
from ..base.unfinished import is_unfinished
from ..local.saving import write_file
from ..local.sources import shown
from ..protocol import Code, Create, MakeDir, Path, Remove, Replace, limits
from ..protocol.units import Moment, Size
from ..wire.connection import find_program, run_program
from ..wire.operations import Operation, now
from . import same_rows
from .bag import info, tag_manifest
from .bundle import is_sound, members_by_bundle
from .bundle_mending import is_elsewhere, keep_members
from .catalogue import Catalogue, Copy, Held, STATE_CLOSED, STATE_CLOSING, VolumeRow, image_of
from .claims import Claims
from .config import Config
from .contents import SIZE, Contents, File, number, read_fields
from .errors import ArchiveError, CatalogueError, CopyFailed, NotAtHand, VolumeDiffers
from .lag import forget_seen
from .names import is_bundle
from .parity import make as make_parity
from .parity import parity_beside
from .remotes import Print, Remote, print_of_file, remote_of
from .same import count_of, rows_on
from .tail import locked
from .tell import Tell, plural, shown_path, stamp
from .volume import REBUILD, OpenVolume

READ_TO_CLOSE, READ_TO_SEND = 3, 2
"""How often the bytes of an image are read or written to close it, and for each copy."""

SIDECARS = (".sha256", ".info", ".log", ".svg")
"""The files beside a closed image: its digest in the form of sha256sum, what is known of it, its commits, its map."""


def beside(image: str, end: str) -> str:
    """The path of a file beside an image."""
    return image[: -len(".img")] + end


def sidecar(image: str) -> Tuple[Size, bytes]:
    """The length and the digest that an image had when it was closed; of one that has none kept, those that it has now."""
    kept = kept_beside(image)
    if kept is not None:
        return kept
    found = print_of_file(image)
    return Size(found.length), found.sha256


def kept_beside(image: str) -> Optional[Tuple[Size, bytes]]:
    """The length and the digest that an image had when it was closed, as the text beside it has them; None where it has none."""
    try:
        with open(open_own(beside(image, ".info")), "rb") as file:
            fields = read_fields(file.read(limits.FILE))
        digest = bytes.fromhex(fields["sha256"])
        if len(digest) != sha256().digest_size:
            raise ValueError("no SHA-256")
        return Size(number(fields["length"], SIZE)), digest
    except (OSError, KeyError, ValueError):
        return None


def as_closed(image: str, row: VolumeRow, known: Optional[VolumeRow]) -> VolumeRow:
    """The row of a closed image, where nothing beside it says what it was when it was closed, with what a catalogue has of that."""
    if known is None or known.sha256 is None or known.formatted != row.formatted or kept_beside(image) is not None:
        return row
    return row._replace(length=known.length, sha256=known.sha256)


class Closer:
    """A run of `close`."""

    def __init__(self, config: Config, catalogue: Catalogue, claims: Claims, tell: Tell, without_damaged: bool = False, parity: Optional[int] = None):
        self.config, self.catalogue, self.claims, self.tell, self.without_damaged = config, catalogue, claims, tell, without_damaged
        self.parity = parity
        """The percentage of parity that each volume gets."""
        self.program = find_program()
        self.failures: List[str] = []
        self.closed = self.copied = 0

    def run(self, row: VolumeRow) -> None:
        """Closes a volume and sends it, as far as that is not done."""
        with self.tell.portion(self.bytes_of(row)):
            self._run(row)

    def bytes_of(self, row: VolumeRow) -> int:
        """The bytes that are read and written for a volume, as far as that is known ahead: its payload, the image twice, and for each copy
        that is sent the image twice."""
        image = image_of(self.config, row)
        if image is None:
            return 0
        return os.path.getsize(image) * ((READ_TO_CLOSE if row.state != STATE_CLOSED else 0) + READ_TO_SEND * len(self._lacking(row)))

    def _run(self, row: VolumeRow) -> None:
        # Two processes that send to one remote would take each other's copies away.
        if row.state != STATE_CLOSED or self._lacking(row) or self.parity is not None:
            self.claims.volume(row.number, row.label)
            row = self.catalogue.volume(row.number) or row
        if row.state != STATE_CLOSED:
            self._require_own(row)
            self.tell.working(f"closing {row.label}")
            row = self._close(row)
            self.closed += 1
            self.tell.say_step(f"closed {row.label}", did="closed", volume=row.label, length=row.length, sha256=row.sha256.hex() if row.sha256 else None)
        if self.parity is not None:
            self._add_parity(row, self.parity)
        self._send(row)

    # ---- closed

    def _require_own(self, row: VolumeRow) -> None:
        """Raises where another folder of the archive has an open volume: an image in this one is an older copy."""
        if row.holder != self.config.id:
            place = self.catalogue.holders().get(row.holder, "another folder of the archive")
            raise VolumeDiffers(f"{row.label}: belongs to {place}: close it there, or 'adopt' it")

    def _close(self, row: VolumeRow) -> VolumeRow:
        target = self.config.path("closed", row.label + ".img")
        source = self.config.path("open", row.label + ".img")
        closed: Optional[Moment] = None
        if os.path.isfile(source):
            if os.path.lexists(target):
                raise VolumeDiffers(f"{shown(target)}: is there already, and would be replaced by the image in 'open': move the one away that is not meant")
            row = self._finish(row)
            with closing(Contents(source)) as contents:
                self._end(source, contents)
                self._keep_beside(source, target, contents)
                # Below its bytes are compared with the digest. Reading its tree once more would show nothing else.
                closed = contents.closed()
            # Another folder may have taken the volume over, if the claim was lost meanwhile.
            self.claims.require()
            # The image comes last, so what is in the folder `closed` has all that belongs to it.
            move(source, target)
        elif not os.path.isfile(target):
            raise NotAtHand(f"{row.label}: its image is missing: put it back into the folder 'open' of the archive")
        length, digest = sidecar(target)
        found = print_of_file(target, fresh=True, told=self.tell.passed)
        if found != Print(length, digest):
            raise VolumeDiffers(f"{shown(target)}: is not as it was closed: its length or SHA-256 differs")
        if closed is None:
            with closing(Contents(target)) as contents:
                if (contents.label, contents.formatted) != (row.label, row.formatted):
                    raise VolumeDiffers(f"{shown(target)}: is not {row.label}: its label or moment of format differs")
                if contents.last_commit != row.last_commit:
                    raise CatalogueError(f"{row.label} was closed as the catalogue does not know it: that is older than the volumes: {REBUILD}")
                closed = contents.closed()
        if closed is None:
            raise VolumeDiffers(f"{shown(target)}: is among the closed volumes, but its bag was never finished")
        row = row._replace(state=STATE_CLOSED, length=length, sha256=digest, closed=closed, checked=now(), data_checked=now(), trouble=None)
        self.claims.require()
        self.catalogue.save(row)
        forget_seen(self.catalogue, row.number)
        self._forget_ledger(row)
        return row

    def _finish(self, row: VolumeRow) -> VolumeRow:
        """Writes the tag files, each as it must be, the tag manifest last."""
        volume = OpenVolume(self.config, self.catalogue, row)
        with closing(volume):
            volume.take_up()
            volume.remove_unfinished()
            if self.without_damaged:
                self._remove_damaged(volume)
            volume.row = volume.row._replace(state=STATE_CLOSING)
            self.catalogue.save(volume.row)
            with closing(Contents(volume.image)) as contents:
                files = self._tag_files(volume, contents)
                there = {path[0]: contents.bytes_of(node) for path, node in contents.nodes.items() if len(path) == 1 and path[0] in files}
                done = contents.closed()
            moment = done or now()
            wanted = [
                Operation(Replace if name in there else Create, (name,), moment, data) for name, data in files.items() if there.get(name) != data
            ]
            for outcome in volume.client.run(wanted) if wanted else ():
                if outcome.code is not Code.DONE:
                    raise VolumeDiffers(f"{row.label}: {outcome.operation.path[0]}: {outcome.code.name}: run the command again")
                volume.last_commit = outcome.commit
            volume.row = volume.filled(volume.last_commit, volume.row.files)
            self.catalogue.save(volume.row)
            return volume.row

    def _tag_files(self, volume: OpenVolume, contents: Contents) -> Dict[str, bytes]:
        """The tag files by their names, in the order in which they are written. Digests are of the bytes that the volume has, and
        agree with those of the catalogue."""
        found = read_payload(contents, known_rows(self.catalogue, volume.row.number), volume.sent(), self.tell.passed)
        if found.damaged:
            first, count = shown_path(found.damaged[0].path), plural(len(found.damaged), "file is not as it was", "files are not as they were")
            raise VolumeDiffers(
                f"{volume.image}: {count} stored, the first is {first}: 'close --without-damaged {volume.row.label}' closes it "
                "without them, and then 'add' stores them again"
            )
        digests, size = found.lines, found.size
        date = stamp(contents.closed() or now())[:10]
        fields = {
            "Bagging-Date": self._date(contents) or date, "External-Identifier": volume.row.label, "Bag-Group-Identifier": self.catalogue.id,
            "Bag-Software-Agent": "udfburn-archive",
        }
        files = {BAG_DECLARATION: DECLARATION, BAG_INFO: info(fields, size, len(digests)), MANIFEST: bag_manifest(digests)}
        tags: Dict[Path, bytes] = {(name,): data for name, data in files.items()}
        tags.update({path: contents.bytes_of(node) for path, node in contents.nodes.items() if is_tag(path, node.kind.name)})
        files[TAG_MANIFEST] = tag_manifest(tags)
        for name, data in files.items():
            if len(data) > LONGEST_WRITTEN:
                raise ArchiveError(f"{volume.row.label}: its {name} would have {len(data)} bytes, and at most {LONGEST_WRITTEN} are written: the volume was not closed")
        return files

    def _remove_damaged(self, volume: OpenVolume) -> None:
        """Takes files off the volume's tree that are not as they were stored. Earlier commits have them still."""
        with closing(Contents(volume.image)) as contents:
            damaged = read_payload(contents, known_rows(self.catalogue, volume.row.number), volume.sent()).damaged
            paths = [path for file in damaged for path in contents.stored_paths(file)]
            bundles = [file for file in damaged if is_bundle(file.path[-1])]
            self._done(volume, (operation for file in bundles for operation in keep_members(self.catalogue, volume.tree, contents, volume.row.number, file)))
        if not paths:
            return
        self._done(volume, (Operation(Remove, path, now()) for path in paths))
        with closing(Contents(volume.image)) as contents:
            known = self.catalogue.of_volume(volume.row.number)
            rows, lines = contents.rows(volume.row.number, {held.commit: held for held in known}), rows_on(contents, volume.row.number)
        there = {held.id() for held in rows}
        self._name_others(volume, [held for held in known if held.id() not in there], lines)
        same_rows.replace_lines(self.catalogue, volume.row.number, lines)
        self.catalogue.replace(volume.row._replace(last_commit=contents.last_commit, files=count_of(rows, lines)), rows)
        for file in damaged:
            line = f"{volume.row.label}: {shown_path(file.path)} is not as it was stored, and was taken off"
            self.tell.say_step(line, did="taken off", volume=volume.row.label, path=shown_path(file.path))
        volume.row = self.catalogue.volume(volume.row.number) or volume.row
        volume.load()

    def _done(self, volume: OpenVolume, operations: Iterator[Operation]) -> None:
        """Has a volume do requests, each of which has to be done."""
        for outcome in volume.client.run(operations):
            if outcome.code is not Code.DONE and not (outcome.operation.kind is MakeDir and outcome.code is Code.EXISTS):
                raise VolumeDiffers(f"{volume.row.label}: {outcome.operation.path}: {outcome.code.name}: run the command again")

    def _name_others(self, volume: OpenVolume, lost: Sequence[Held], lines: Sequence[Held]) -> None:
        """Names the files that had bytes in what was taken off, and have them nowhere else."""
        there = {held.version() for held in lines}
        named = [held for held in same_rows.of_targets(self.catalogue.base, lost) if held.version() not in there or not held.is_member()]
        for path in dict.fromkeys(held.path for held in named if not (held.start is not None and is_elsewhere(self.catalogue, held))):
            line = f"{volume.row.label}: {shown_path(path)} had its bytes there, and lacks them: 'add' stores them again"
            self.tell.say_step(line, did="lacks", volume=volume.row.label, path=shown_path(path))

    def _date(self, contents: Contents) -> Optional[str]:
        """The date that an earlier run began with."""
        node = contents.nodes.get((BAG_INFO,))
        return read_fields(contents.bytes_of(node)).get("Bagging-Date") if node is not None else None

    def _end(self, image: str, contents: Contents) -> None:
        """Ends the image after its last VAT ICB, looks at all of it, and makes it read-only."""
        end = (contents.last_address + 1) * limits.BLOCK
        descriptor = locked(image)
        try:
            if os.fstat(descriptor).st_size > end:
                os.ftruncate(descriptor, end)
            os.fchmod(descriptor, os.fstat(descriptor).st_mode & 0o444)
            os.fsync(descriptor)
        finally:
            os.close(descriptor)
        run_program(self.program, ["check", image])

    def _keep_beside(self, image: str, target: str, contents: Contents) -> None:
        """Writes the files beside the image, where it will be."""
        from ..image.map import draw_map

        found = print_of_file(image, fresh=True, told=self.tell.passed)
        about, commits, closed = contents.about(), contents.last_commit, contents.closed()
        name = os.path.basename(target)
        text = (
            f"archive: {about.archive}\nlabel: {about.label}\nvolume: {about.number}\nclosed: {stamp(closed or Moment(0))}\ncommits: {commits}\n"
            f"length: {found.length}\nsha256: {found.sha256.hex()}\n"
        )
        mode = self.config.mode
        write_file(beside(target, ".sha256"), f"{found.sha256.hex()}  {name}\n".encode(), mode)
        write_file(beside(target, ".log"), run_program(self.program, ["log", image]), mode)
        write_file(beside(target, ".svg"), draw_map(image, self.program).encode(), mode)
        write_file(beside(target, ".info"), text.encode(), mode)

    def _forget_ledger(self, row: VolumeRow) -> None:
        """A closed volume takes no more requests, so its ledger has nothing left to say."""
        ledger = self.config.path("open", row.label + ".ledger")
        for end in ("", "-wal", "-shm", ".lock"):
            remove(ledger + end)

    # ---- parity

    def _add_parity(self, row: VolumeRow, redundancy: int) -> None:
        """Makes parity where there is none, of an image that is seen to be good, and sends it to the remotes that have the image."""
        image = image_of(self.config, row)
        if image is None:
            return
        self.tell.working(f"making parity of {row.label}")
        if print_of_file(image, fresh=True) != Print(row.length or 0, row.sha256 or b""):
            raise VolumeDiffers(f"{shown(image)}: is not as it was closed, so no parity was made: 'repair {row.label}'")
        if make_parity(self.config, image, redundancy):
            self.tell.say_step(f"made parity of {row.label}, {redundancy} %", did="parity", volume=row.label, percent=redundancy)
        for copy in self.catalogue.on_remotes(row.number):
            if copy.trouble is None and copy.remote in self.config.copies:
                try:
                    complete(remote_of(self.catalogue, copy.remote), image)
                except CopyFailed as error:
                    self.failures.append(f"{row.label}: its parity is not on {copy.remote}: {error}")

    # ---- sent

    def _lacking(self, row: VolumeRow) -> List[str]:
        """The remotes that do not have a volume."""
        have = {copy.remote for copy in self.catalogue.copies(row.number) if copy.trouble is None}
        return [name for name in self.config.copies if name not in have]

    def _send(self, row: VolumeRow) -> None:
        """Sends a closed volume to each remote that does not have it, and compares what arrived."""
        image = image_of(self.config, row)
        for name in self._lacking(row):
            if image is None:
                self.failures.append(f"{row.label}: is not at hand, so it was not copied to {name}")
                continue
            self.tell.working(f"copying {row.label} to {name}")
            try:
                send(self.catalogue, row, image, name, self.tell.passed)
            except CopyFailed as error:
                self.failures.append(f"{row.label}: is not on {name}: {error}")
                continue
            self.catalogue.save_copy(Copy(row.number, name, now(), now(), None))
            self.copied += 1
            self.tell.say_step(f"copied {row.label} to {name}", did="copied", volume=row.label, remote=name)


class Payload(NamedTuple):
    """The payload of a volume as it was read: the manifest's lines in order of their paths, its bytes, and the files that are not as
    they were stored."""

    lines: List[ManifestLine]
    size: int
    damaged: List[File]


def known_rows(catalogue: Catalogue, number: int) -> List[Held]:
    """The rows of the files and bundles that a volume has, and of the members of these."""
    return catalogue.of_volume(number) + [held for held in same_rows.of_volume(catalogue.base, number) if held.is_member()]


def read_payload(contents: Contents, rows: Sequence[Held], sent: Mapping[int, bytes], told: BytesTold = untold) -> Payload:
    """Reads every byte of a payload. Files that are whole on the volume are compared with the catalogue's digests, parts of others with those
    of what was sent, by their commits, and the members of a bundle with its list."""
    known, members = {held.commit: held for held in rows if not held.is_member()}, members_by_bundle(rows)
    digests: Dict[Path, bytes] = {}
    damaged: List[File] = []
    size = 0
    for file in contents.files():
        whole = sha256()
        for node in file.nodes:
            part = sha256()
            for piece in contents.pieces_of(node):
                whole.update(piece)
                part.update(piece)
                told(len(piece))
            digests[node.path] = part.digest()
            size += node.size
        if contents.has_all(file):
            same = file.commit not in known or known[file.commit].sha256 == whole.digest()
            same = same and (not is_bundle(file.path[-1]) or is_sound(contents, file, members.get(file.commit, ())))
        else:
            same = all(digests[node.path] == sent.get(contents.commit_of(node), digests[node.path]) for node in file.nodes)
        if not same:
            damaged.append(file)
    for node in contents.payload():
        if node.path not in digests:
            part = sha256()
            for piece in contents.pieces_of(node):
                part.update(piece)
            digests[node.path] = part.digest()
            size += node.size
    return Payload([ManifestLine(digests[node.path], node.path) for node in contents.payload()], size, damaged)


def send(catalogue: Catalogue, row: VolumeRow, image: str, name: str, told: BytesTold = untold) -> None:
    """Copies a closed volume to a remote, the image first, where it is not there; and compares all its bytes as they are there."""
    remote, wanted = remote_of(catalogue, name, told), Print(row.length or 0, row.sha256 or b"")
    base = os.path.basename(image)
    remote.require_own()
    if remote.is_file(image, base):
        raise CopyFailed("what is there is the image itself, and no copy")
    if remote.look(base) != wanted or not remote.counts(base, wanted.length):
        if not completed(remote, image, wanted.length):
            require_no_other(remote, row, image, name in [copy.remote for copy in catalogue.copies(row.number)])
            remote.send(image, base)
        found = remote.look(base)
        if found != wanted:
            raise CopyFailed(f"what arrived is not what was sent, by its {'SHA-256' if found and found.length == wanted.length else 'length'}")
    remote.drop_tails(image, base)
    for path in own_sidecars(image):
        remote.send(path, os.path.basename(path))


def completed(remote: Remote, image: str, length: int) -> bool:
    """Whether the copy that an image had while it was open is the whole of it now."""
    descriptor = open_own(image)
    try:
        return remote.complete(descriptor, os.path.basename(image), length)
    finally:
        os.close(descriptor)


def own_sidecars(image: str) -> List[str]:
    """The files that are beside an image, and are regular ones."""
    return [beside(image, end) for end in SIDECARS if is_own(beside(image, end))] + parity_beside(image)


def complete(remote: Remote, image: str) -> None:
    """Sends what belongs to an image whose copy is good, where it is not there, or a run that was killed has left its beginning."""
    there = set(remote.names())
    for path in own_sidecars(image):
        name = os.path.basename(path)
        if name not in there or name + ".new" in there:
            remote.send(path, name)


def require_no_other(remote: Remote, row: VolumeRow, image: str, known: bool) -> None:
    """Raises where a remote has another volume with the name of this one, as one of an archive with the same label: it is not replaced.
    What nothing there describes may be a copy of an open volume: it is replaced only where it is `known` to the catalogue as one of this one,
    or where the remote has no open volumes under this name, and it begins as the image."""
    name, base = row.label + ".info", row.label + ".img"
    digest = described(remote, name)
    if digest is None:
        if not known and remote.length(base) is not None and not remote.begins_as(image, base):
            raise CopyFailed(f"what it has as {base} is no beginning of this image, and is not replaced: move it away, if nobody needs it")
    elif digest != (row.sha256 or b"").hex():
        raise CopyFailed(f"it has another volume with this name, as {name} there says: move that away, or name another remote in archive.toml")


def described(remote: Remote, name: str) -> Optional[str]:
    """The SHA-256 of a closed image on a remote, as the text beside it says; None where that is not there, or says nothing."""
    length = remote.length(name)
    if length is None:
        return None
    if length > limits.FILE:
        raise CopyFailed(f"{name} there has {length} bytes, and describes no volume: move it away")
    with TemporaryDirectory() as folder:
        there = os.path.join(folder, name)
        remote.fetch(name, place_of(there))
        with open(there, "rb") as file:
            return read_fields(file.read(limits.FILE)).get("sha256")


def is_tag(path: Path, kind: str) -> bool:
    """Whether a file of the volume is a tag file beside those of a bag (RFC 8493 2.2.4)."""
    return kind == "FILE" and path[0] != PAYLOAD_FOLDER and not is_unfinished(path) and path[0] not in TAG_FILES
