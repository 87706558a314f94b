"""Files below a folder that the user named: no link is followed, whenever it is made, and nothing but regular files is opened."""

from __future__ import annotations

import errno
import os
import shutil
import stat
import tempfile
import unittest
from contextlib import suppress
from typing import Callable, List

from udfburn.base import errors as e, own_files
from udfburn.base.beneath import NotFollowed, Place, RelativePath, Root, folder_mode, mode_for, open_from_top, open_given, open_own, place_of

from .swaps import Swap, Turned, picture

SECRET = b"what nobody may read"


class WithTree(unittest.TestCase):
    def setUp(self) -> None:
        self.room = os.path.realpath(tempfile.mkdtemp())
        self.addCleanup(shutil.rmtree, self.room)
        self.tree, self.outside = os.path.join(self.room, "tree"), os.path.join(self.room, "outside")
        self.fresh()

    def fresh(self) -> None:
        """A folder with files, and another one with files of the same names."""
        for folder in (self.tree, self.outside):
            shutil.rmtree(folder, ignore_errors=True)
        for path, data in (("tree/d/e/f", b"own"), ("tree/g", b"own too"), ("outside/e/f", SECRET), ("outside/f", SECRET), ("outside/g", SECRET), ("outside/f.new", SECRET), ("outside/e/f.new", SECRET)):
            os.makedirs(os.path.dirname(os.path.join(self.room, path)), exist_ok=True)
            with open(os.path.join(self.room, path), "wb") as file:
                file.write(data)

    def read(self, root: Root, names: RelativePath) -> bytes:
        with open(root.open_file(names), "rb") as file:
            return file.read()


class Below(WithTree):
    def test_files_are_reached(self) -> None:
        with Root.open(self.tree) as root:
            self.assertEqual(self.read(root, ("d", "e", "f")), b"own")
            self.assertEqual(self.read(root, ("g",)), b"own too")
            self.assertEqual(root.names_in(()), ["d", "g"])
            self.assertEqual(root.local(("d", "e")), os.path.join(self.tree, "d", "e"))
            self.assertIsNone(root.find(("d", "x", "y")))
            root.unlink(("d", "e", "f"))
        self.assertFalse(os.path.exists(os.path.join(self.tree, "d", "e", "f")))

    def test_a_link_in_the_way(self) -> None:
        """Of a folder, of a file, and of the folder that is made."""
        os.symlink(self.outside, os.path.join(self.tree, "link"))
        os.symlink(os.path.join(self.outside, "f"), os.path.join(self.tree, "file"))
        with Root.open(self.tree) as root:
            calls: List[Callable[[], object]] = [
                lambda: root.open_file(("link", "f")), lambda: root.open_file(("file",)), lambda: root.new_file(("link", "new")),
                lambda: root.unlink(("link", "f")), lambda: root.status(("link", "f")), lambda: root.names_in(("link",)),
                lambda: root.at(("link", "e"), 0o777).__enter__(), lambda: root.rename(("link", "f"), "h"), lambda: root.link(("link", "f"), "h"),
            ]
            for does in calls:
                with self.assertRaises(NotFollowed) as raised:
                    does()
                self.assertRegex(str(raised.exception), "(link|file) is a symbolic link, and is not followed")
            with self.assertRaises(FileExistsError):
                root.new_file(("file",))
            self.assertTrue(stat.S_ISLNK(root.status(("file",)).st_mode))
        with Root.open(os.path.join(self.tree, "link")) as root:
            self.assertEqual(self.read(root, ("f",)), SECRET, "the user may name a link")

    def test_names_that_lead_elsewhere(self) -> None:
        with Root.open(self.tree) as root:
            for name in ("..", ".", "", "d/e", "/etc", "a\0b"):
                calls: List[Callable[[], object]] = [
                    lambda: root.open_file((name,)), lambda: root.open_file((name, "f")), lambda: root.new_file((name,)), lambda: root.unlink((name,)),
                ]
                for does in calls:
                    with self.assertRaisesRegex(e.SourceError, "no name of a file"):
                        does()

    def test_what_is_no_regular_file(self) -> None:
        """It is not opened, so nothing waits for the other end of a pipe."""
        os.mkfifo(os.path.join(self.tree, "pipe"))
        with Root.open(self.tree) as root:
            calls: List[Callable[[], object]] = [
                lambda: root.open_file(("pipe",)), lambda: root.open_file(("d",)), lambda: open_own(os.path.join(self.tree, "pipe")),
                lambda: open_given(os.path.join(self.tree, "pipe")), lambda: open_from_top(os.path.join(self.tree, "pipe")),
            ]
            for does in calls:
                with self.assertRaises(OSError) as raised:
                    does()
                self.assertEqual(raised.exception.errno, errno.EINVAL)

    def test_a_file_that_is_another_one_is_not_removed(self) -> None:
        def differs(status: os.stat_result) -> None:
            raise e.SourceChanged("another")

        with Root.open(self.tree) as root, self.assertRaises(e.SourceChanged):
            root.unlink(("g",), differs)
        self.assertTrue(os.path.exists(os.path.join(self.tree, "g")))

    def test_many_levels(self) -> None:
        """Only some folders stay open at once."""
        names = tuple(str(level) for level in range(200))
        before = len(os.listdir("/proc/self/fd"))
        with Root.open(self.tree) as root:
            with root.at(names, 0o777):
                self.assertLess(len(os.listdir("/proc/self/fd")), before + 40)
            for depth in (200, 3, 150, 0, 199):
                os.close(root.new_file(names[:depth] + ("file",)))
            for depth in (0, 3, 150, 199, 200):
                self.assertEqual(self.read(root, names[:depth] + ("file",)), b"")
        self.assertEqual(len(os.listdir("/proc/self/fd")), before)

    def test_folders_are_made(self) -> None:
        where = os.path.join(self.room, "new", "folder")
        with Root.make(where, 0o700) as root:
            os.close(root.new_file(("a",), 0o600))
        for path, mode in ((where, 0o700), (os.path.dirname(where), 0o700), (os.path.join(where, "a"), 0o600)):
            self.assertEqual(stat.S_IMODE(os.stat(path).st_mode), mode)
        with Root.make(where) as root:
            self.assertEqual(root.names_in(()), ["a"])

    def test_places(self) -> None:
        """A file or a folder is in the folder that the user named it in; a link is a folder where its path ends with a slash."""
        os.symlink("d", os.path.join(self.tree, "link"))
        for path, names in (("tree", ("tree",)), ("tree/", ("tree",)), ("tree/.", ()), ("tree/link", ("link",)), ("tree/link/", ()), ("tree/g", ("g",))):
            found = place_of(os.path.join(self.room, path))
            self.assertEqual(found.names, names)
            self.assertEqual(os.path.normpath(found.local()), os.path.normpath(os.path.join(self.room, path)))
        with self.assertRaises(NotADirectoryError):
            place_of(os.path.join(self.tree, "g/"))
        self.assertEqual(Place(Root.open("/"), ("etc",)).local(), "/etc")

    def test_no_link_from_the_top(self) -> None:
        os.symlink("d", os.path.join(self.tree, "link"))
        os.close(open_from_top(os.path.join(self.tree, "d/e/f")))
        with self.assertRaises(NotFollowed):
            open_from_top(os.path.join(self.tree, "link/e/f"))

    def test_own_files(self) -> None:
        """They are made, copied, moved and removed by their whole paths, in which no link is followed."""
        old, new, link = (os.path.join(self.tree, *names) for names in (("d", "e", "f"), ("d", "new"), ("link", "new")))
        os.symlink("d", os.path.join(self.tree, "link"))
        own_files.new(new, 0o640)
        self.assertEqual((os.path.getsize(new), stat.S_IMODE(os.stat(new).st_mode)), (0, 0o640))
        told: List[int] = []
        with own_files.from_top(new) as place:
            own_files.copy_file(old, place, told=told.append)
        for path in (old, new):
            with open(path, "rb") as file:
                self.assertEqual(len(file.read()), sum(told))
        own_files.set_mode(new, 0o400)
        own_files.move(new, old)
        self.assertFalse(os.path.exists(new))
        self.assertEqual(stat.S_IMODE(os.stat(old).st_mode), 0o400)
        own_files.new(new, 0o600)
        calls: List[Callable[[], object]] = [
            lambda: own_files.new(link, 0o600), lambda: own_files.remove(link), lambda: own_files.move(link, old), lambda: own_files.move(new, link + "er"),
            lambda: own_files.set_mode(link, 0o666),
        ]
        for does in calls:
            with self.assertRaises(NotFollowed):
                does()
        own_files.remove(new)
        own_files.remove(new)
        self.assertEqual(sorted(os.listdir(os.path.join(self.tree, "d"))), ["e"])

    def test_modes(self) -> None:
        for name, mode, wanted in (("a", 0o644, 0o644), ("b", 0o600, 0o600), ("c", 0o440, 0o640), ("d", 0o777, 0o666)):
            path = os.path.join(self.room, name)
            with open(path, "wb"):
                pass
            os.chmod(path, mode)
            self.assertEqual(mode_for(os.stat(path)), wanted, name)
            self.assertEqual(mode_for(os.stat(path), None, os.stat(os.path.join(self.room, "a"))), wanted & 0o644)
        self.assertEqual([folder_mode(mode) for mode in (0o666, 0o644, 0o600, 0o640, 0o620)], [0o777, 0o755, 0o700, 0o750, 0o730])


class Races(WithTree):
    """At each call a folder or a file turns into a link, for good or for that call alone: what it leads to stays as it is."""

    def everything(self) -> List[bytes]:
        """All that the module does to a file below a folder; gives the bytes that it read."""
        read: List[bytes] = []

        def tried(does: Callable[[], object]) -> None:
            try:
                does()
            except OSError:
                pass

        with Root.open(self.tree) as root:
            for names in (("d", "e", "f"), ("g",)):
                tried(lambda: root.names_in(names[:-1]))
                tried(lambda: root.status(names))
                tried(lambda: read.append(self.read(root, names)))
                tried(lambda: os.close(root.new_file(names[:-1] + ("new",))))
                tried(lambda: root.link(names, "second"))
                tried(lambda: root.rename(names[:-1] + ("new",), "g"))
                tried(lambda: root.at(names[:-1] + ("x", "y"), 0o777).__enter__())
                tried(lambda: root.unlink(names))
                tried(lambda: root.sync(names[:-1]))
        tried(lambda: read.append(self.opened(open_from_top(os.path.join(self.tree, "d/e/f")))))
        return read

    def by_whole_paths(self) -> None:
        """All that is done to files in the folder of an archive."""
        def tried(does: Callable[[], object]) -> None:
            with suppress(OSError):
                does()

        path = os.path.join(self.tree, "d/e/f")
        tried(lambda: own_files.new(path + ".new", 0o600))
        tried(lambda: own_files.set_mode(path + ".new", 0o666))
        tried(lambda: own_files.move(path + ".new", os.path.join(self.tree, "g")))
        with own_files.from_top(path + ".new") as place:
            tried(lambda: own_files.copy_file(os.path.join(self.tree, "g"), place))
        tried(lambda: os.close(own_files.open_to_write(path)))
        with own_files.from_top(path + ".new") as place:
            tried(lambda: os.close(place.root.lock_file(place.names)))
        tried(lambda: own_files.remove(path))

    def opened(self, descriptor: int) -> bytes:
        with open(descriptor, "rb") as file:
            return file.read()

    def test_at_each_call(self) -> None:
        with Swap() as counted:
            self.everything()
        self.assertGreater(counted.calls, 30)
        for name, to in (("d", "outside"), ("d/e", "outside"), ("d/e/f", "outside/f"), ("g", "outside/g"), ("d/e/new", "outside/g"), ("d/e/x", "outside")):
            for stays in (True, False):
                for at in range(1, counted.calls + 1):
                    self.fresh()
                    before, turned = picture(self.outside), Turned(os.path.join(self.tree, name), os.path.join(self.room, to))
                    with Swap(at, turned.forth, None if stays else turned.back):
                        self.assertNotIn(SECRET, self.everything(), (name, at))
                    self.assertEqual(picture(self.outside), before, (name, at))

    def test_whole_paths_at_each_call(self) -> None:
        with Swap() as counted:
            self.by_whole_paths()
        for name, to in (("d", "outside"), ("d/e", "outside"), ("d/e/f", "outside/f"), ("d/e/f.new", "outside/g")):
            for at in range(1, counted.calls + 1):
                self.fresh()
                before, turned = picture(self.outside), Turned(os.path.join(self.tree, name), os.path.join(self.room, to))
                with Swap(at, turned.forth):
                    self.by_whole_paths()
                self.assertEqual(picture(self.outside), before, (name, at))


if __name__ == "__main__":
    unittest.main()
