"""Where copies of closed volumes go: a folder of any file system, or a remote of rclone. What arrived is read back and compared."""

from __future__ import annotations

import errno
import os
import stat
from contextlib import contextmanager
from typing import Iterator, List, Optional, Tuple

from ..base.beneath import Place, Root
from ..base.disk import is_full
from ..base.own_files import BytesTold, copy_file, untold
from ..local.sources import shown
from . import grow
from .catalogue import DISC, Catalogue
from .errors import CopyFailed
from .markers import Owner, opened_folder, require_taker
from .rclone import RcloneRemote
from .remote import UNREADABLE, Print, Remote, failed, forget, print_of, print_of_file, print_of_open
from .tail import tail_note


class FolderRemote(Remote):
    """A folder. It is opened anew for each call, and all is done in the one that was opened, whatever gets its name."""

    grows = True

    def __init__(self, name: str, owner: Owner, told: BytesTold = untold):
        super().__init__(name, told)
        self.owner = owner
        self._compared: grow.Compared = {}

    def require_own(self) -> None:
        with opened_folder(self.name) as root:
            require_taker(self.owner, root)

    def path_of(self, name: str) -> Optional[str]:
        return os.path.join(self.name, name)

    def names(self) -> List[str]:
        with opened_folder(self.name) as root:
            found = [(name, root.find((name,))) for name in root.names_in(())]
        return [name for name, status in found if status is not None and stat.S_ISREG(status.st_mode)]

    def length(self, name: str) -> Optional[int]:
        with opened_folder(self.name) as root:
            status = root.find((name,))
            if status is None:
                # Of a disk that is not mounted nothing is known.
                require_taker(self.owner, root)
                return None
        if not stat.S_ISREG(status.st_mode):
            # A link may lead to the image, or to another copy.
            raise CopyFailed(f"{shown(os.path.join(self.name, name))}: is no regular file")
        return status.st_size

    def send(self, local: str, name: str) -> None:
        with opened_folder(self.name) as root:
            # The marker is in the folder that is written to, so nothing is written where no disk is mounted.
            require_taker(self.owner, root)
            new = Place(root, (name + ".new",))
            try:
                copy_file(local, new, told=self.told)
                root.rename(new.names, name)
                root.sync(())
            except OSError as error:
                forget(new)
                raise failed(root.local((name,)), error) from error

    def fetch(self, name: str, target: Place) -> None:
        try:
            copy_file(os.path.join(self.name, name), target, told=self.told)
        except OSError as error:
            forget(target)
            raise failed(target.local() if is_full(error) else os.path.join(self.name, name), error) from error

    def look(self, name: str) -> Optional[Print]:
        with opened_folder(self.name) as root:
            try:
                return print_of_open(root.open_file((name,)), fresh=True, told=self.told)
            except FileNotFoundError:
                # Of a disk that is not mounted nothing is known, and nothing is written in its place.
                require_taker(self.owner, root)
                return None
            except OSError as error:
                if error.errno in (errno.EIO, errno.ELOOP, errno.EINVAL):
                    # It is there, and none of a good copy; as a link or a named pipe is none.
                    return UNREADABLE
                raise CopyFailed(f"{shown(root.local((name,)))}: {error.strerror or error}") from error

    @contextmanager
    def _copy(self, name: str) -> Iterator[Tuple[Root, Optional[int]]]:
        """The folder, and the descriptor of a copy in it; None where there is none, though the folder takes copies of this archive."""
        with opened_folder(self.name) as root:
            if root.find((name,)) is None:
                require_taker(self.owner, root)
                yield root, None
                return
            descriptor = root.open_file((name,))
            try:
                yield root, descriptor
            finally:
                os.close(descriptor)

    def extend(self, image: int, name: str, length: int) -> int:
        with opened_folder(self.name) as root:
            require_taker(self.owner, root)
            return grow.extend(root, name, image, length, self._compared, self.told)

    def begun(self, image: int, name: str, length: int) -> Optional[int]:
        with self._copy(name) as (root, descriptor):
            return None if descriptor is None else grow.begun(root, name, descriptor, image, length, self._compared, self.told)

    def grown(self, name: str) -> Optional[int]:
        with self._copy(name) as (root, descriptor):
            return None if descriptor is None else grow.sound(root, name, descriptor)

    def fetch_grown(self, name: str, target: Place) -> None:
        most = self.grown(name)
        try:
            copy_file(os.path.join(self.name, name), target, most, self.told)
        except OSError as error:
            forget(target)
            raise failed(target.local() if is_full(error) else os.path.join(self.name, name), error) from error

    def first_bytes(self, name: str, count: int) -> bytes:
        with opened_folder(self.name) as root, open(root.open_file((name,)), "rb") as file:
            return file.read(count)

    def set_aside(self, name: str, end: str) -> None:
        with opened_folder(self.name) as root:
            require_taker(self.owner, root)
            for each in (name, tail_note(name)):
                if root.find((each,)) is not None:
                    root.rename((each,), each + end)
            root.sync(())

    def counts(self, name: str, length: int) -> bool:
        return self.grown(name) == length

    def complete(self, image: int, name: str, length: int) -> bool:
        try:
            there = self.begun(image, name, length)
        except CopyFailed:
            return False
        if there is not None and there > length:
            return False
        self.extend(image, name, length)
        return True

    def is_file(self, local: str, name: str) -> bool:
        try:
            return os.path.samefile(local, os.path.join(self.name, name))
        except OSError:
            return False


def owner_of(catalogue: Catalogue) -> Owner:
    """Whose copies folders take."""
    config = catalogue.config
    return Owner(config.folder, catalogue.id, config.label, config.same_device)


def remote_of(catalogue: Catalogue, name: str, told: BytesTold = untold) -> Remote:
    """The place of a name in `archive.toml`. A disc is none: somebody has to put it in a drive."""
    if name.startswith(DISC):
        raise CopyFailed(f"{name[len(DISC):]}: is a disc: name it with --disc, and its drive with --device")
    return FolderRemote(name, owner_of(catalogue), told) if os.path.isabs(name) else RcloneRemote(name, told)


__all__ = ["FolderRemote", "Print", "RcloneRemote", "Remote", "owner_of", "print_of", "print_of_file", "print_of_open", "remote_of"]
