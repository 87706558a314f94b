"""Files that are given back, written below one folder: never outside of it, and never over what is there."""

from __future__ import annotations

import os
from concurrent.futures import ThreadPoolExecutor
from contextlib import suppress
from typing import Dict, List, NamedTuple, Optional, Set

from ..base.beneath import PIECE, NotFollowed, RelativePath, Root, folder_mode
from ..base.disk import is_full
from ..base.errors import SourceError
from ..local.saving import write_all
from ..protocol.units import Moment
from ..reader.volume import Path

NAME_BYTES = 255
"""The bytes of a name that file systems take."""

DURABLE_FILES, DURABLE_BYTES = 64, 32 << 20
"""What is written before it is made durable together."""


class NewFile(NamedTuple):
    """A file that has not its name yet: its folder, the name that it has meanwhile, and its descriptor; or why it could not be made."""

    folder: RelativePath
    temporary: str
    descriptor: int
    why: Optional[str] = None


class Waiting(NamedTuple):
    """A file that has its bytes and not yet its name."""

    key: int
    file: NewFile
    name: str


class WrittenFile(NamedTuple):
    """How a file was written: its path below the folder, and an error where it could not get its name."""

    key: int
    path: str
    error: Optional[str]


class InTheWay(Exception):
    """Something that is no folder has the name of one."""


class Output:
    """A folder that files go into. A file has its name once its bytes are on the disk. `mode` is that of new files."""

    def __init__(self, path: str, mode: int = 0o666):
        self._mode = mode
        self._root = Root.make(path, folder_mode(mode))
        self._folders: Dict[RelativePath, Optional[Moment]] = {}
        self._names: Dict[Path, RelativePath] = {(): ()}
        self._taken: Set[RelativePath] = set()
        self._new: Optional[NewFile] = None
        """The file that takes bytes."""
        self._waiting: List[Waiting] = []
        self._bytes = self._count = 0
        self._pool = ThreadPoolExecutor(8)

    # ---- names

    def _place(self, target: Path, tail: str) -> RelativePath:
        """The names of a path as they are written: each fits, and is that of no other path."""
        if target not in self._names:
            above = self._place(target[:-1], "")
            name = os.fsdecode(fitting(target[-1], ""))
            count = 0
            while above + (name,) in self._taken:
                count += 1
                name = os.fsdecode(fitting(target[-1], f"~{tail or count}" if count == 1 else f"~{tail}~{count}"))
            self._taken.add(above + (name,))
            self._names[target] = above + (name,)
        return self._names[target]

    # ---- folders

    def folder(self, target: Path, moment: Optional[Moment], tail: str) -> str:
        """Makes a folder, or takes the one that is there. Its path, or `InTheWay`."""
        place = self._place(target, tail)
        try:
            self._make(place)
        except (InTheWay, SourceError, OSError) as error:
            raise InTheWay(why_not_written(error)) from error
        self._folders[place] = moment
        return "/".join(place)

    def _make(self, place: RelativePath) -> None:
        """Makes a folder below the first one, where it is missing. No link is followed."""
        try:
            with self._root.at(place, folder_mode(self._mode)):
                self._folders.setdefault(place, None)
        except (NotFollowed, NotADirectoryError) as error:
            raise InTheWay(f"{error.filename}: is there, and is no folder") from error

    # ---- files

    def take(self, folder: Path, data: bytes) -> None:
        """Writes the next bytes of the file in this folder that `name` gives its name. Where it cannot be made, they go nowhere."""
        new = self._new_in(folder)
        if new.why is not None:
            return
        try:
            write_all(new.descriptor, data)
        except BaseException:
            self._drop_new()
            raise
        self._bytes += len(data)

    def name(self, key: int, target: Path, moment: Optional[Moment], tail: str) -> List[WrittenFile]:
        """Has the file with the bytes that were taken get its name. It gives those that got their names meanwhile."""
        new = self._new_in(target[:-1])
        place = self._place(target, tail)
        if new.why is not None:
            self._new = None
            return [WrittenFile(key, "/".join(place), new.why)]
        if moment is not None:
            os.utime(new.descriptor, ns=(moment * 1000, moment * 1000))
        self._waiting.append(Waiting(key, new, place[-1]))
        self._new = None
        return self.flush() if len(self._waiting) >= DURABLE_FILES or self._bytes >= DURABLE_BYTES else []

    def _new_in(self, folder: Path) -> NewFile:
        """The file that takes bytes: one is made where there is none."""
        if self._new is None:
            place = self._place(folder, "")
            self._count += 1
            temporary = f".udfburn-salvage.{os.getpid()}.{self._count}"
            try:
                self._make(place)
                self._new = NewFile(place, temporary, self._root.new_file(place + (temporary,), self._mode))
            except (InTheWay, SourceError, OSError) as error:
                self._new = NewFile(place, temporary, -1, why_not_written(error))
        return self._new

    def _drop_new(self) -> None:
        """Leaves nothing of the file that takes bytes."""
        if self._new is not None and self._new.why is None:
            self._drop(self._new)
        self._new = None

    def flush(self) -> List[WrittenFile]:
        """Has the disk take all bytes, and gives the files their names."""
        list(self._pool.map(lambda waiting: os.fsync(waiting.file.descriptor), self._waiting))
        done = []
        while self._waiting:
            waiting = self._waiting.pop()
            done.append(self._name(waiting))
        self._bytes = 0
        return done[::-1]

    def _name(self, waiting: Waiting) -> WrittenFile:
        path = "/".join(waiting.file.folder + (waiting.name,))
        try:
            self._link(waiting)
            return WrittenFile(waiting.key, path, None)
        except FileExistsError:
            same = self._has_same(waiting)
            return WrittenFile(waiting.key, path, None if same else "already exists, with other bytes")
        except (SourceError, OSError) as error:
            return WrittenFile(waiting.key, path, why_not_written(error))
        finally:
            self._drop(waiting.file)

    def _link(self, waiting: Waiting) -> None:
        """Gives a file its name; FileExistsError where something has it."""
        folder = waiting.file.folder
        temporary = folder + (waiting.file.temporary,)
        try:
            self._root.link(temporary, waiting.name)
        except FileExistsError:
            raise
        except OSError:
            # Some file systems have no second names: the name is taken first, so that nothing is replaced that has it by now.
            os.close(self._root.new_file(folder + (waiting.name,), self._mode))
            self._root.rename(temporary, waiting.name)

    def _has_same(self, waiting: Waiting) -> bool:
        """Whether the file that has the name has the bytes."""
        try:
            descriptor = self._root.open_file(waiting.file.folder + (waiting.name,))
        except OSError:
            return False
        with open(descriptor, "rb") as there:
            new = waiting.file.descriptor
            size = os.fstat(new).st_size
            return os.fstat(descriptor).st_size == size and all(there.read(PIECE) == os.pread(new, PIECE, at) for at in range(0, size, PIECE))

    def finish(self) -> List[WrittenFile]:
        """Names all files, and makes names and folders durable."""
        done = self.flush()
        for place, moment in sorted(self._folders.items(), key=lambda known: -len(known[0])):
            with self._root.at(place) as descriptor:
                os.fsync(descriptor)
                if moment is not None:
                    os.utime(descriptor, ns=(moment * 1000, moment * 1000))
        self._root.sync(())
        return done

    def _drop(self, file: NewFile) -> None:
        """Closes a file, and removes the name that it had meanwhile."""
        os.close(file.descriptor)
        with suppress(FileNotFoundError, NotFollowed, NotADirectoryError):
            self._root.unlink(file.folder + (file.temporary,))

    def close(self) -> None:
        """Leaves no temporary file."""
        self._drop_new()
        for waiting in self._waiting:
            self._drop(waiting.file)
        self._waiting = []
        self._pool.shutdown()
        self._root.close()


def why_not_written(error: Exception) -> str:
    """Why a file or a folder was not written, for example because the file system refuses its name. A full disk ends everything, so that
    error is raised again."""
    if is_full(error):
        raise error
    return f"was not written: {error.strerror if isinstance(error, OSError) else error}"


def fitting(name: str, tail: str) -> bytes:
    """A name as it is written: its beginning alone where it is too long, with the tail after it."""
    spelled, end = name.encode(), tail.encode()
    if len(spelled) + len(end) <= NAME_BYTES:
        return spelled + end
    mark = end or b"~"
    cut = spelled[: NAME_BYTES - len(mark)].decode(errors="ignore").encode()
    return cut + mark
