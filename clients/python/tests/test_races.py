"""Commands while somebody else turns a folder or a file into a link, or a named pipe, at each call that they make: nothing outside of what
the user named is read, written or deleted, and nothing is deleted that was not stored."""

from __future__ import annotations

import os
import shutil
import unittest
from typing import Callable, Dict, Iterator, Tuple

from udfburn import UdfburnError
from udfburn.protocol.units import Moment
from udfburn.trees import fetch
from udfburn.trees.client import Client
from udfburn.salvage.write import InTheWay, Output
from udfburn.trees.tree import ImportOptions, put_all

from .model import Volume
from .salvaged import put_into
from .swaps import REAL, Swap, Turned, picture
from .with_files import Local

SECRET = b"what nobody may read"


class Races(Local):
    def setUp(self) -> None:
        super().setUp()
        self.outside, self.back, self.runs = os.path.join(self.room, "outside"), os.path.join(self.room, "back"), 0
        for name in ("a", "sub/b", "sub/c"):
            self.write(os.path.join("../outside", name), SECRET)
            self.write(os.path.join("../outside", os.path.basename(name)), SECRET)
        self.before = picture(self.outside)
        self.ready: Callable[[], None] = self.fill
        """Is called before each run."""

    def files(self) -> Dict[Tuple[str, ...], bytes]:
        return {("a",): b"own a", ("sub", "b"): b"own b", ("sub", "c"): b"own c", ("sub", "deep", "d"): b"own d"}

    def fill(self) -> None:
        """The folder that is stored, anew."""
        shutil.rmtree(self.folder, ignore_errors=True)
        for names, data in self.files().items():
            self.write("/".join(names), data)

    def fresh(self) -> Client:
        """A client of a volume with nothing on it."""
        self.runs += 1
        self.server.volume = Volume()
        return self.client(os.path.join(self.room, f"ledger{self.runs}"))

    def turns(self, folder: str, to: Dict[str, str], run: Callable[[], None]) -> Iterator[str]:
        """Runs something with each call at which a name below the folder turns: for good, or for this call alone."""
        with Swap() as counted:
            run()
        for name, where in to.items():
            turned = Turned(os.path.join(folder, name), os.path.join(self.outside, where))
            for back in (None, turned.back):
                for at in range(1, counted.calls + 1):
                    self.ready()
                    with Swap(at, turned.forth, back):
                        run()
                    self.assertEqual(picture(self.outside), self.before, (name, at))
                    yield f"{name} at call {at} of {counted.calls}"

    # ---- stored

    def stores(self, delete: bool) -> None:
        """What is on the volume is what was in the folder. What is gone is on the volume."""
        self.fill()

        def run() -> None:
            with self.fresh() as client, self.direct(client):
                try:
                    put_all(client, [(self.folder, ("x",))], ImportOptions(recursive=True, skip_odd=True, delete_source=delete))
                except (UdfburnError, OSError):
                    pass

        for where in self.turns(self.folder, {"sub": "sub", "sub/b": "b", "sub/deep": "sub"}, run):
            stored = self.volume.files()
            self.assertNotIn(SECRET, stored.values(), where)
            for names, data in self.files().items():
                there = [os.path.join(self.folder, *beside(names, away)) for away in range(-1, len(names))]
                self.assertTrue(any(os.path.isfile(path) and not os.path.islink(path) for path in there) or data in stored.values(), (where, names))

    def test_put(self) -> None:
        self.stores(False)

    def test_put_that_deletes(self) -> None:
        self.stores(True)

    # ---- copied out

    def gets(self, force: bool) -> None:
        """What is got is what the volume has, and is in the folder."""
        self.fill()
        with self.client() as client:
            put_all(client, [(self.folder, ("x",))], ImportOptions(recursive=True))

        def ready() -> None:
            shutil.rmtree(self.back, ignore_errors=True)
            if force:
                os.makedirs(os.path.join(self.back, "sub"))
                for name in ("a", "sub/b"):
                    with open(os.path.join(self.back, name), "wb") as file:
                        file.write(b"older")

        def run() -> None:
            with self.client() as client, self.direct(client):
                try:
                    fetch.get_tree(client, ("x",), self.back, force=force)
                except (UdfburnError, OSError):
                    pass

        self.ready = ready
        ready()
        for where in self.turns(self.back, {"sub": "sub", "sub/b": "b", "sub/deep": "."}, run):
            for path, data in picture(self.back).items():
                self.assertIn(data[2], (b"", b"older", *self.files().values()), (where, path))

    def test_get(self) -> None:
        self.gets(False)

    def test_get_by_force(self) -> None:
        self.gets(True)

    # ---- salvaged

    def test_salvage(self) -> None:
        def run() -> None:
            try:
                output = Output(self.back)
                try:
                    for key, (names, data) in enumerate(self.files().items()):
                        output.folder(names[:-1], Moment(0), "x")
                        put_into(output, key, names, data, str(key))
                    output.finish()
                finally:
                    output.close()
            except (UdfburnError, OSError, InTheWay):
                pass

        self.ready = lambda: shutil.rmtree(self.back, ignore_errors=True)
        self.assertGreater(sum(1 for _ in self.turns(self.back, {"sub": "sub", "sub/b": "b", "sub/deep": "."}, run)), 100)


def beside(names: Tuple[str, ...], away: int) -> Tuple[str, ...]:
    """The path of what was moved aside at a depth; -1 for the path itself."""
    return tuple(name + ".away" if depth == away else name for depth, name in enumerate(names))


class Pipes(Local):
    """A file that becomes a named pipe at any call: nothing waits for its other end."""

    def test_put(self) -> None:
        def run() -> None:
            with self.client() as client, self.direct(client):
                try:
                    put_all(client, [(self.folder, (f"x{at}",))], ImportOptions(recursive=True, skip_odd=True))
                except (UdfburnError, OSError):
                    pass

        local, at = self.write("a"), 0
        with Swap() as counted:
            run()
        self.assertGreater(counted.calls, 10)

        def turned() -> None:
            REAL["unlink"](local)
            os.mkfifo(local)

        for at in range(1, counted.calls + 1):
            if os.path.lexists(local):
                os.unlink(local)
            self.write("a")
            with Swap(at, turned):
                run()


if __name__ == "__main__":
    unittest.main()
