"""Copies of volumes that are still filled: they grow with the image, are beginnings of it at every moment, and give it back."""

from __future__ import annotations

import os
import shutil
import sqlite3
import subprocess
import sys
from typing import Callable, Dict, List, Tuple

from .servers import webdav
from .support import PACKAGE, UDFBURN, Digests, WithArchive, change, digests, environment, kill, make_tree, start, wait_until, words_of, write
from .test_chaos import Chaos

sys.path.insert(0, PACKAGE)

from udfburn.archive.contents import Contents  # noqa: E402
from udfburn.archive.catalogue import Held, is_whole  # noqa: E402

BLOCK = 2048


class WithOpen(WithArchive):
    """An open volume with a copy in each of two folders."""

    remotes: List[str] = []

    def setUp(self) -> None:
        super().setUp()
        self.folders = [self.path("one"), self.path("two")]
        for folder in self.folders:
            os.mkdir(folder)
        self.init("--copies", *self.folders, *self.remotes, "--capacity", "20000", "--delete", "copied")
        make_tree(self.source, 30, 1)
        self.add()

    def image(self, folder: str = "open", number: int = 1) -> str:
        return os.path.join(self.archive, folder, f"T-{number:06}.img")

    def copy(self, index: int = 0, number: int = 1) -> str:
        return os.path.join(self.folders[index], f"T-{number:06}.img")

    def read(self, path: str) -> bytes:
        with open(path, "rb") as file:
            return file.read()

    def more(self, name: str = "more", files: int = 20) -> None:
        make_tree(os.path.join(self.source, name), files, len(name))

    def require_copied(self) -> None:
        """All copies are the image, and nothing else is left beside them."""
        image = self.read(self.image())
        for index, folder in enumerate(self.folders):
            self.assertEqual(self.read(self.copy(index)), image)
            self.assertEqual([name for name in os.listdir(folder) if not name.startswith("udfburn-archive-")], ["T-000001.img"])


class Folders(WithOpen):
    def test_each_run_copies_what_is_new(self) -> None:
        self.require_copied()
        before = os.path.getsize(self.image())
        inode = os.stat(self.copy()).st_ino
        self.more()
        steps = [line for line in self.add().objects() if line["did"] == "copied"]
        self.assertEqual([(step["remote"], step["bytes"]) for step in steps], [(folder, os.path.getsize(self.image()) - before) for folder in self.folders])
        self.assertEqual(os.stat(self.copy()).st_ino, inode)
        self.require_copied()
        self.assertEqual([line for line in self.add().objects() if line["did"] == "copied"], [])
        self.do("check", "--remotes")
        # A copy is a volume, also while its image is open.
        subprocess.run([UDFBURN, "check", self.copy()], check=True, capture_output=True)

    def test_without_copies_and_later(self) -> None:
        before = self.read(self.copy())
        self.more()
        self.add("--no-copy")
        self.assertEqual(self.read(self.copy()), before)
        done = self.do("check", "--remotes", status=1)
        self.assertIn(f"T-000001: the copy on {self.folders[0]} lacks the last", done.errors)
        self.assertEqual(self.do("copy").last()["copied"], 2)
        self.assertEqual(self.do("copy").last()["copied"], 0)
        self.require_copied()
        self.do("check", "--remotes")

    def test_a_disk_that_is_not_mounted(self) -> None:
        os.rename(self.folders[1], self.folders[1] + " away")
        os.mkdir(self.folders[1])
        self.more()
        done = self.add(status=1)
        self.assertIn(f"T-000001: its copy on {self.folders[1]} was not made or lacks the newest files", done.errors)
        self.assertEqual(os.listdir(self.folders[1]), [])
        # The files are stored, and the other copy has them.
        self.assertEqual(self.read(self.copy()), self.read(self.image()))
        self.assertEqual(self.get_all(), digests(self.source))
        os.rmdir(self.folders[1])
        os.rename(self.folders[1] + " away", self.folders[1])
        self.do("copy")
        self.require_copied()

    def test_what_is_no_beginning_is_left_alone(self) -> None:
        self.more()
        whole = self.read(self.copy())
        for place in (0, 300 * BLOCK, len(whole) // 2, len(whole) - 1):
            change(self.copy(), place)
            spoilt = self.read(self.copy())
            done = self.add(status=1)
            self.assertRegex(done.errors, "one/T-000001.img: differs from the image in block [0-9]+, and is not changed")
            self.assertEqual(self.read(self.copy()), spoilt)
            self.assertIn("differs from the image", self.do("check", "--remotes", status=1).errors)
            change(self.copy(), place)
        # An image that was taken from a backup is older than its copy, and takes no copy back either.
        shutil.copy(self.image(), self.path("kept"))
        self.do("copy")
        newer = self.read(self.copy())
        self.more("again")
        self.add()
        newest = self.read(self.copy())
        self.assertGreater(len(newest), len(newer))
        ledger = [name for name in os.listdir(os.path.join(self.archive, "open")) if name.startswith("T-000001.ledger")]
        for name in ledger:
            os.unlink(os.path.join(self.archive, "open", name))
        shutil.copy(self.path("kept"), self.image())
        with sqlite3.connect(os.path.join(self.archive, "catalogue.sqlite")) as base:
            base.execute("DELETE FROM file")
            base.execute("UPDATE volume SET last_commit = 4")
        base.close()
        self.assertIn("and the image", self.do("copy", status=1).errors)
        self.assertEqual(self.read(self.copy()), newest)

    def test_an_older_image_with_more_than_its_copies(self) -> None:
        """`repair` puts none in the place of one that has more, though the catalogue knows of still more."""
        for name in ("more", "newest"):
            self.more(name)
            self.add("--no-copy")
            shutil.copy(self.image(), self.path(name))
        shutil.copy(self.path("more"), self.image())
        rows = self.rows()
        self.assertIn("so it stays", self.do("repair", "T-000001", status=1).errors)
        self.assertEqual(self.read(self.image()), self.read(self.path("more")))
        self.assertEqual(self.rows(), rows)
        # It goes on as the message says.
        self.do("rebuild")
        for name in os.listdir(os.path.dirname(self.image())):
            if name.startswith("T-000001.ledger"):
                os.unlink(os.path.join(os.path.dirname(self.image()), name))
        self.assertEqual(self.add().last()["files"], 20)
        self.assertEqual(self.get_all(), digests(self.source))
        self.require_copied()

    def test_links_and_the_image_itself(self) -> None:
        target = write(self.path("target"), self.read(self.copy()))
        kept = self.read(target)
        self.more()
        makers: List[Callable[[], None]] = [
            lambda: os.symlink(target, self.copy()), lambda: os.link(self.image(), self.copy()), lambda: os.mkfifo(self.copy()), lambda: os.mkdir(self.copy()),
        ]
        for make in makers:
            shutil.rmtree(self.copy()) if os.path.isdir(self.copy()) else os.unlink(self.copy())
            make()
            self.add(status=1)
            self.assertEqual(self.read(target), kept)
        os.rmdir(self.copy())
        # Nor is a link followed that has the name of the note, or of a new copy.
        private = write(self.path("private"), b"mine")
        os.symlink(private, self.copy() + ".new")
        os.symlink(private, self.copy(1)[:-4] + ".tail")
        self.add(status=1)
        os.unlink(self.copy(1)[:-4] + ".tail")
        self.do("copy")
        self.assertEqual(self.read(private), b"mine")
        self.require_copied()

    def test_a_copy_that_is_torn(self) -> None:
        """What a power loss left behind the note's length is not read, and is cut off by the next run."""
        length = os.path.getsize(self.copy())
        self.more()
        self.add("--no-copy")
        image = self.read(self.image())
        for torn in (bytes(9 * BLOCK), image[length : length + 5 * BLOCK] + bytes(3 * BLOCK), os.urandom(100), b""):
            os.truncate(self.copy(), length)
            with open(self.copy(), "ab") as file:
                file.write(torn)
            write(self.copy()[:-4] + ".tail", b"%d\n" % length)
            self.assertIn("lacks the last", self.do("check", "--remotes", status=1).errors)
            self.do("copy")
            self.assertEqual(self.read(self.copy()), image)
        self.require_copied()
        # Without the note it is no beginning of the image.
        with open(self.copy(), "r+b") as file:
            file.truncate(length)
            file.seek(length + 4 * BLOCK)
            file.write(b"x")
        self.do("copy", status=1)
        # A note without a length says nothing.
        write(self.copy(1)[:-4] + ".tail", b"no number\n")
        self.do("copy", status=1)

    def test_close_completes_it(self) -> None:
        self.more()
        self.add("--no-copy")
        inode = os.stat(self.copy()).st_ino
        # One that was torn just before.
        write(self.copy(1)[:-4] + ".tail", b"%d\n" % (os.path.getsize(self.copy(1)) - 10 * BLOCK))
        self.do("close")
        self.assertEqual(os.stat(self.copy()).st_ino, inode)
        self.assertEqual([volume["state"] for volume in self.volumes()], ["copied"])
        for index, folder in enumerate(self.folders):
            self.assertEqual(self.read(self.copy(index)), self.read(self.image("closed")))
            self.assertFalse([name for name in os.listdir(folder) if name.endswith((".tail", ".new"))])
        self.do("check", "--remotes", "--data")

    def test_the_closed_image_itself(self) -> None:
        """It is no copy, under whatever name."""
        self.do("close")
        os.unlink(self.copy())
        os.link(self.image("closed"), self.copy())
        self.assertIn("is the image itself, and no copy", self.do("check", "--remotes", status=1).errors)
        self.assertEqual([volume["state"] for volume in self.volumes()], ["closed"])
        self.do("repair", status=1)
        os.unlink(self.copy())
        self.do("repair")
        self.do("check", "--remotes")
        self.assertEqual([volume["state"] for volume in self.volumes()], ["copied"])

    def test_close_replaces_nothing_unknown(self) -> None:
        for index, data in enumerate((os.urandom(5000), None)):
            if data is not None:
                write(self.copy(index), data)
            else:
                change(self.copy(index), 500_000)
        spoilt = [self.read(self.copy(index)) for index in range(2)]
        done = self.do("close", status=1)
        self.assertEqual(done.errors.count("is no beginning of this image, and is not replaced"), 2)
        self.assertEqual([self.read(self.copy(index)) for index in range(2)], spoilt)
        for index in range(2):
            os.rename(self.copy(index), self.copy(index) + ".other")
        self.do("close")
        self.do("check", "--remotes")


class Rclone(WithOpen):
    """A local remote of rclone, and one over HTTP, which has no digests."""

    def setUp(self) -> None:
        if shutil.which("rclone") is None:
            self.skipTest("rclone is not installed")
        self.remotes = ["here:sub", "dav:deep"]
        WithArchive.setUp(self)
        for name in ("local", "served"):
            os.mkdir(self.path(name))
        url = webdav(self, self.path("served"))
        config = f"[here]\ntype = alias\nremote = {self.path('local')}\n\n[dav]\ntype = webdav\nurl = {url}\nvendor = other\n"
        os.environ["RCLONE_CONFIG"] = write(self.path("rclone.conf"), config.encode())
        self.addCleanup(os.environ.pop, "RCLONE_CONFIG")
        self.folders = []
        self.init("--copies", *self.remotes, "--capacity", "20000", "--delete", "copied")
        make_tree(self.source, 30, 1)
        self.add()

    def places(self) -> List[str]:
        return [self.path("local", "sub"), self.path("served", "deep")]

    def tails(self, place: str) -> Dict[str, bytes]:
        return {name: self.read(os.path.join(place, name)) for name in sorted(os.listdir(place))}

    def test_a_file_for_each_tail(self) -> None:
        first = os.path.getsize(self.image())
        self.more()
        self.add()
        whole = self.read(self.image())
        names = [f"T-000001.img.{0:012}-{first:012}", f"T-000001.img.{first:012}-{len(whole):012}"]
        for place in self.places():
            self.assertEqual(self.tails(place), dict(zip(names, (whole[:first], whole[first:]))))
        self.do("check", "--remotes")
        os.unlink(self.image())
        self.do("repair")
        self.assertEqual(self.read(self.image()), whole)
        self.do("close")
        for place in self.places():
            self.assertEqual([name for name in self.tails(place) if name.startswith("T-000001.img")], ["T-000001.img"])
        self.do("check", "--remotes")

    def test_damaged_tails(self) -> None:
        for place in self.places():
            (name,) = self.tails(place)
            change(os.path.join(place, name), 600_000)
        spoilt = [self.tails(place) for place in self.places()]
        self.more()
        done = self.add(status=1)
        self.assertEqual(done.errors.count("differs from the image, and is not changed"), 2)
        self.assertEqual([self.tails(place) for place in self.places()], spoilt)
        self.assertEqual(len(self.do("check", "--remotes", status=1).last()["failures"]), 2)
        self.do("repair", "T-000001")
        self.do("check", "--remotes")

    def test_sources_go(self) -> None:
        self.more()
        before = digests(self.source)
        self.assertEqual(self.add("--delete-source").last()["deleted"], 50)
        self.assertEqual(self.get_all(), before)
        self.more()
        self.add()
        # An older tail is damaged: nothing goes for it.
        (name, *_) = self.tails(self.places()[0])
        change(os.path.join(self.places()[0], name), 600_000)
        self.assertEqual(self.add("--delete-source", status=None).last()["deleted"], 0)

    def test_close_leaves_what_the_image_lacks(self) -> None:
        """The folder came from a backup, and was filled otherwise: the tails have files that are nowhere else."""
        shutil.copytree(self.archive, self.path("backup"))
        self.more()
        self.add()
        tails = [self.tails(place) for place in self.places()]
        shutil.rmtree(self.archive)
        shutil.copytree(self.path("backup"), self.archive)
        self.assertEqual(self.do("close", status=1).errors.count("is not as the closed image has it, and is left alone"), 2)
        for place, before in zip(self.places(), tails):
            newest = sorted(before)[-1]
            self.assertEqual(self.tails(place)[newest], before[newest])
            os.rename(os.path.join(place, newest), os.path.join(place, "kept"))
        self.do("close")
        self.assertEqual([volume["state"] for volume in self.volumes()], ["copied"])

    def test_the_folder_is_lost(self) -> None:
        shutil.rmtree(self.archive)
        self.init("--copies", *self.remotes, "--capacity", "20000")
        self.do("rebuild")
        self.do("repair")
        self.assertEqual(self.get_all(), digests(self.source))
        self.assertEqual(self.add().last()["files"], 0)


class Killed(WithOpen):
    def test_at_any_moment(self) -> None:
        """The copies are beginnings of the image whenever the command is killed, and the next one goes on."""
        for index in range(8):
            self.more(f"m{index}", 40)
            process = start("add", self.source, "--at", "/s", "--archive", self.archive)
            length = os.path.getsize(self.copy())
            wait_until(lambda: process.poll() is not None or os.path.exists(self.copy()[:-4] + ".tail") or os.path.getsize(self.copy()) > length)
            if process.poll() is None:
                kill(process)
            for place in range(2):
                note = self.copy(place)[:-4] + ".tail"
                sound = int(self.read(note)) if os.path.exists(note) else os.path.getsize(self.copy(place))
                self.assertEqual(self.read(self.copy(place))[:sound], self.read(self.image())[:sound])
            self.add()
            self.require_copied()


class FullDisk(WithOpen):
    def test_a_full_disk(self) -> None:
        small = self.path("small")
        self.mount_memory(small, "2m")
        self.do("remote", "add", small)
        self.do("copy")
        copy = os.path.join(small, "T-000001.img")
        before = self.read(copy)
        write(os.path.join(self.source, "large"), os.urandom(900_000))
        write(os.path.join(self.source, "larger"), os.urandom(900_000))
        done = self.add(status=1)
        self.assertIn("the disk has no room", done.errors)
        self.assertEqual(self.read(copy), before)
        self.assertEqual([name for name in os.listdir(small) if name.endswith((".tail", ".new"))], [])
        subprocess.run(["mount", "-o", "remount,size=20m", small], check=True)
        self.do("copy")
        self.assertEqual(self.read(copy), self.read(self.image()))


class Ordered(WithOpen):
    def test_what_is_durable_when(self) -> None:
        """The note is on the disk before a byte is appended, and goes once all of them are: so the power may be lost at any call."""
        if shutil.which("strace") is None:
            self.skipTest("strace is not installed")
        self.more()
        log = self.path("calls")
        words = ["strace", "-f", "-qq", "-y", "-e", "trace=write,fsync,unlinkat,linkat,renameat,renameat2,ftruncate", "-o", log]
        subprocess.run([*words, *words_of("add", self.source, "--at", "/s", "--archive", self.archive, "--quiet")], env=environment(), check=True)
        folder = self.folders[0]
        calls: List[Tuple[str, str]] = []
        for line in self.read(log).decode(errors="replace").splitlines():
            call, _, rest = line.split(maxsplit=1)[1].partition("(")
            if folder in rest:
                name = "image" if f"{folder}/T-000001.img>" in rest else "note" if "T-000001.tail" in rest else "folder" if f"{folder}>)" in rest else "new note"
                if not calls or calls[-1] != (call, name):
                    calls.append((call, name))
        self.assertEqual(calls, [
            ("write", "new note"), ("fsync", "new note"), ("linkat", "note"), ("fsync", "folder"),
            ("write", "image"), ("fsync", "image"), ("unlinkat", "note"), ("fsync", "folder"),
        ])


class Failing(Chaos):
    """A kill, an error of the disk or a full disk at each call."""

    def bytes_of(self, path: str) -> bytes:
        """Those that count of an image or of a copy."""
        with open(path, "rb") as file:
            data = file.read()
        note = path[:-4] + ".tail"
        if os.path.exists(note):
            with open(note, "rb") as file:
                return data[: int(file.read())]
        return data

    def require_beginnings(self) -> None:
        for copies in self.copies:
            for name in [name for name in os.listdir(copies) if name.endswith(".img")]:
                have = self.bytes_of(os.path.join(copies, name))
                self.assertEqual(self.bytes_of(self.path("archive", "open", name))[: len(have)], have)

    def require_copied(self) -> None:
        labels = [volume["volume"] for volume in self.volumes() if volume["files"]]
        self.assertGreater(len(labels), 1)
        for label in labels:
            for copies in self.copies:
                path = os.path.join(copies, label + ".img")
                self.assertEqual(self.bytes_of(path), self.bytes_of(self.path("archive", "open", label + ".img")))
                self.assertFalse(os.path.exists(path[:-4] + ".tail"))

    def test_copy(self) -> None:
        self.add("--no-copy")
        self.keep()

        def check(_: str) -> None:
            self.require_beginnings()
            self.do("copy")
            self.require_copied()

        self.trials(check, "copy")

    def test_add_that_deletes_what_is_copied(self) -> None:
        toml = self.path("archive", "archive.toml")
        with open(toml, "rb") as file:
            text = file.read().replace(b'"acknowledged"\n', b'"copied"\n')
        write(toml, text)
        self.keep()
        words = ("add", self.source, "--at", "/s", "--delete-source", "--json")

        def check(_: str) -> None:
            self.require_beginnings()
            gone = set(self.before) - set(digests(self.source))
            for copies in self.copies:
                self.assertLessEqual({(path, self.before[path]) for path in gone}, set(self.on_copies(copies).items()))
            self.do("rebuild")
            self.do(*words[:-1])
            self.assertEqual(digests(self.source), {})
            self.assertEqual(self.get_all(), self.before)
            self.require_copied()

        self.trials(check, *words)

    def on_copies(self, folder: str) -> Digests:
        """The files of which the copies in a folder have all bytes, by what they have now."""
        rows: Dict[object, List[Held]] = {}
        for name in sorted(os.listdir(folder)):
            if name.endswith(".img"):
                with Contents(os.path.join(folder, name)) as contents:
                    for held in contents.rows(int(name[2:8])):
                        rows.setdefault(held.version(), []).append(held)
        whole = [group[0] for group in rows.values() if is_whole(group)]
        return {os.fsencode("/".join(held.path[1:])): (held.sha256.hex(), held.moment) for held in whole}
