"""Copies on real remotes, repaired volumes, and bags as other readers show them."""

from __future__ import annotations

import os
import random
import shutil
import signal
import sqlite3
import subprocess
import sys
from contextlib import closing, suppress
from hashlib import sha256
from pathlib import Path
from typing import List, Optional, Sequence, Tuple

from .servers import webdav
from .support import HERE, PATIENCE, WithArchive, change, digests, environment, make_tree, start, wait_until, write
from .test_tail import WithTail

sys.path.insert(0, os.path.join(HERE, "..", "readers"))

import linux  # noqa: E402


class WithRemotes(WithArchive):
    """An archive with a folder, a local remote of rclone, and one over HTTP."""

    def setUp(self) -> None:
        super().setUp()
        if shutil.which("rclone") is None:
            self.skipTest("rclone is not installed")
        for name in ("folder", "local", "served"):
            os.mkdir(self.path(name))
        url = webdav(self, self.path("served"))
        config = f"[here]\ntype = alias\nremote = {self.path('local')}\n\n[dav]\ntype = webdav\nurl = {url}\nvendor = other\n"
        os.environ["RCLONE_CONFIG"] = write(self.path("rclone.conf"), config.encode())
        self.addCleanup(os.environ.pop, "RCLONE_CONFIG")
        self.remotes = [self.path("folder"), "here:sub", "dav:deep/er"]
        self.init("--copies", *self.remotes, "--capacity", "5000")

    def image(self, number: int) -> str:
        return os.path.join(self.archive, "closed", f"T-{number:06}.img")

    def copies(self) -> List[str]:
        return [self.path("folder"), self.path("local", "sub"), self.path("served", "deep", "er")]


class Copies(WithRemotes):
    def test_each_remote_gets_each_volume(self) -> None:
        make_tree(self.source, 500, 41)
        self.add()
        self.do("close")
        names = sorted(os.listdir(os.path.join(self.archive, "closed")))
        self.assertEqual(names, [f"T-000001{end}" for end in (".img", ".info", ".log", ".sha256", ".svg")])
        for place in self.copies():
            self.assertEqual([name for name in sorted(os.listdir(place)) if not name.startswith("udfburn-archive-")], names)
            for name in names:
                with open(os.path.join(place, name), "rb") as copy, open(os.path.join(self.archive, "closed", name), "rb") as own:
                    self.assertEqual(copy.read(), own.read())
            subprocess.run(["sha256sum", "--quiet", "-c", *[name for name in names if name.endswith(".sha256")]], check=True, cwd=place)
        self.assertTrue(all(volume["state"] == "copied" for volume in self.volumes()))
        (where,) = self.do("where", self.rows()[0]["path"]).objects()[:-1]
        self.assertEqual(sorted(where["copies"]), sorted(self.remotes))

    def test_damage_is_found_and_repaired(self) -> None:
        make_tree(self.source, 300, 42)
        self.add()
        self.do("close")
        chance = random.Random(4)
        with open(self.image(1), "rb") as file:
            whole = file.read()
        for place in [chance.randrange(len(whole)) for _ in range(2)]:
            change(self.image(1), place)
            done = self.do("check", status=1)
            self.assertIn("repair T-000001", done.errors)
            self.do("check", "--data", status=1)
            self.assertTrue(self.volumes()[0]["attention"])
            # Named twice, it is repaired once.
            self.do("repair", "T-000001", "T-000001")
            with open(self.image(1), "rb") as file:
                self.assertEqual(file.read(), whole)
            self.do("check", "--data")
        # What was damaged is kept under another name.
        self.assertEqual(len([name for name in os.listdir(os.path.dirname(self.image(1))) if ".damaged-" in name]), 2)

    def test_a_damaged_file_is_named(self) -> None:
        make_tree(self.source, 30, 43)
        data = os.urandom(5000)
        write(os.path.join(self.source, "the one"), data)
        self.add()
        self.do("close")
        with open(self.image(1), "rb") as file:
            change(self.image(1), file.read().index(data) + 77)
        done = self.do("check", "--data", status=1)
        self.assertIn("the one is not as it was stored", done.errors)
        # A copy in a folder has it.
        self.assertEqual(self.do("get", "/s", self.path("whole")).last()["files"], 31)
        self.assertEqual(digests(self.path("whole", "s")), digests(self.source))
        # Only remotes of rclone have it.
        copy = os.path.join(self.copies()[0], "T-000001.img")
        with open(copy, "rb") as file:
            change(copy, file.read().index(data) + 4000)
        get = self.do("get", "/s", self.path("back"), status=1)
        self.assertRegex(get.errors, "/s/the one: .*'repair'")
        self.assertEqual(get.last()["files"], 30)
        self.assertFalse(os.path.exists(self.path("back", "s", "the one")))
        self.do("repair")
        self.assertEqual(self.get_all(), digests(self.source))
        self.do("check", "--data", "--remotes")

    def test_damaged_and_lost_copies(self) -> None:
        make_tree(self.source, 60, 44)
        self.add()
        self.do("close")
        change(os.path.join(self.copies()[1], "T-000001.img"), 700_000)
        os.unlink(os.path.join(self.copies()[2], "T-000001.img"))
        os.unlink(self.image(1))
        done = self.do("check", "--remotes", status=1)
        self.assertIn("here:sub is not as it was closed", done.errors)
        self.assertIn("dav:deep/er is not there", done.errors)
        # The only good copy mends the others.
        self.do("repair", "T-000001")
        self.do("check", "--data", "--remotes")
        for place in self.copies():
            with open(os.path.join(place, "T-000001.img"), "rb") as copy, open(self.image(1), "rb") as own:
                self.assertEqual(copy.read(), own.read())

    def test_no_good_copy(self) -> None:
        make_tree(self.source, 10, 45)
        self.add()
        self.do("close")
        with open(self.image(1), "rb") as file:
            damaged = file.read()
        for path in [self.image(1)] + [os.path.join(place, "T-000001.img") for place in self.copies()]:
            change(path, 700_000)
        done = self.do("repair", "T-000001", status=1)
        self.assertIn("no copy is good", done.errors)
        self.assertEqual(len(damaged), os.path.getsize(self.image(1)))

    def test_what_arrives_is_compared(self) -> None:
        make_tree(self.source, 10, 47)
        self.add()
        # A program rclone that changes a byte of each image that it brings to the local remote.
        real = shutil.which("rclone")
        place = self.path("local", "sub", "T-000001.img.new")
        text = f'#!/bin/sh\n{real} "$@" || exit\n[ "$1" != copyto ] || [ ! -f {place} ] || printf X | dd of={place} bs=1 seek=600000 conv=notrunc 2> /dev/null\n'
        os.chmod(write(self.path("bin", "rclone"), text.encode()), 0o755)
        path = os.environ["PATH"]
        os.environ["PATH"] = self.path("bin") + ":" + path
        try:
            done = self.do("close", status=1)
        finally:
            os.environ["PATH"] = path
        self.assertIn("what arrived is not what was sent", done.errors)
        self.assertEqual(done.last()["copied"], 2)
        (volume,) = self.volumes()
        self.assertEqual((volume["state"], len(volume["copies"])), ("closed", 2))
        # The next run sees that it is wrong, and sends it again.
        self.assertEqual(self.do("close").last()["copied"], 1)
        self.do("check", "--remotes")

    def rclone(self, text: str) -> None:
        """A program rclone that does something else before the real one, until the test ends."""
        real, path = shutil.which("rclone"), os.environ["PATH"]
        os.chmod(write(self.path("bin", "rclone"), f'#!/bin/sh\n{text}\nexec {real} "$@"\n'.encode()), 0o755)
        os.environ["PATH"] = self.path("bin") + ":" + path
        self.addCleanup(os.environ.__setitem__, "PATH", path)

    def test_another_volume_with_its_name(self) -> None:
        """It is not replaced, though no text beside it says what it is."""
        other = self.path("other")
        for archive in (self.archive, other):
            if archive == other:
                self.init(archive=other)
            write(os.path.join(self.source, "f"), archive.encode())
            self.run_in(archive, "add", self.source, "--at", "/s", "--no-copy")
        self.do("remote", "remove", "dav:deep/er")
        self.do("close")
        for name in ("folder", "local/sub"):
            write(self.path(name, "T-000001.info"), b"")
        for name in (self.path("folder"), "here:sub"):
            self.run_in(other, "remote", "add", name, "--same-device")
        kept = [digests(place) for place in self.copies()[:2]]
        for _ in range(2):
            self.assertEqual(self.run_in(other, "close", status=1).errors.count("is no beginning of this image, and is not replaced"), 2)
            for place, before in zip(self.copies(), kept):
                after = digests(place)
                self.assertEqual({name: after.get(name) for name in before}, before)
                with suppress(FileNotFoundError):
                    os.unlink(os.path.join(place, "T-000001.info"))
                    before.pop(b"T-000001.info")
        # What begins as the image is what a run that was killed has left.
        shutil.copy(os.path.join(other, "closed", "T-000001.img"), os.path.join(self.copies()[1], "T-000001.img"))
        change(os.path.join(self.copies()[1], "T-000001.img"), 600_000)
        self.assertEqual(self.run_in(other, "close", status=1).last()["copied"], 1)

    def test_the_other_remotes_are_repaired(self) -> None:
        write(os.path.join(self.source, "f"), b"1")
        self.add()
        self.do("close")
        os.rename(self.path("folder"), self.path("folder.gone"))
        os.unlink(self.image(1))
        # The second remote says that it gives the image, and does not.
        self.rclone('case "$*" in *copyto*here:sub/*) exit 0;; esac')
        done = self.do("repair", "T-000001", status=1)
        self.assertIn("folder: is not there: mount it", done.errors)
        self.assertTrue(os.path.exists(self.image(1)))
        os.unlink(os.path.join(self.copies()[2], "T-000001.img"))
        self.do("repair", "T-000001", status=1)
        self.assertTrue(os.path.exists(os.path.join(self.copies()[2], "T-000001.img")))

    def test_one_process_sends_a_volume(self) -> None:
        write(os.path.join(self.source, "f"), b"1")
        self.add()
        self.rclone(f'if [ "$1" = copyto ]; then echo > {self.path("begun")}; while [ -d {self.room} ] && ! [ -e {self.path("go")} ]; do sleep 0.1; done; fi')
        process = start("close", "--archive", self.archive)
        wait_until(lambda: os.path.exists(self.path("begun")))
        try:
            done = self.do("close")
            self.assertEqual([line["did"] for line in done.objects()], ["left to that one", "close"])
            self.assertIn("another process has this volume", self.do("repair", "T-000001", status=1).errors)
        finally:
            write(self.path("go"), b"")
            self.assertEqual(process.wait(), 0)
        self.do("check", "--remotes")

    def test_a_remote_that_prints_much(self) -> None:
        write(os.path.join(self.source, "f"), b"1")
        self.add()
        self.rclone('[ "$1" != cat ] || head -c 200000 /dev/zero | tr "\\0" x >&2')
        process = start("close", "--archive", self.archive)
        try:
            self.assertEqual(process.wait(PATIENCE), 0)
        finally:
            if process.poll() is None:
                os.killpg(process.pid, signal.SIGKILL)

    def test_a_remote_that_is_gone(self) -> None:
        make_tree(self.source, 10, 46)
        self.add()
        os.rename(self.path("folder"), self.path("folder.gone"))
        done = self.do("close", status=1)
        self.assertEqual(done.last()["copied"], 2)
        self.assertFalse(os.path.exists(self.path("folder")))
        os.rename(self.path("folder.gone"), self.path("folder"))
        self.assertEqual(self.do("close").last()["copied"], 1)


class Some(WithArchive):
    """Checks of some of the volumes, which have no copies."""

    def test_the_oldest_first(self) -> None:
        self.init("--capacity", "5000")
        for index in range(3):
            write(os.path.join(self.source, f"big{index}"), os.urandom(4_900_000))
        self.add()
        self.do("close")
        looked = []
        for _ in range(3):
            (line,) = [line for line in self.do("check", "--oldest").objects() if line.get("did") == "checked"]
            looked.append(line["volume"])
        self.assertEqual(sorted(looked), ["T-000001", "T-000002", "T-000003"])
        self.assertEqual(self.do("check", "--sample", "2").last()["volumes"], 2)
        # One that nobody can look at here takes no turn, and one that was looked at by a clock that was ahead waits for none.
        self.do("put-away", looked[0], "a shelf")
        os.unlink(os.path.join(self.archive, "closed", looked[0] + ".img"))
        with closing(sqlite3.connect(os.path.join(self.archive, "catalogue.sqlite"))) as base:
            base.execute("UPDATE volume SET checked = checked + 30000000000000 WHERE label = ?", (looked[1],))
            base.commit()
        again = [line["volume"] for _ in range(2) for line in self.do("check", "--oldest").objects() if line.get("did") == "checked"]
        self.assertEqual(sorted(again), sorted(looked[1:]))


def linux_shows(test: WithArchive, images: Sequence[Tuple[str, Optional[int]]]) -> "List[linux.Mount]":
    """What a Linux kernel shows of images, each up to a block where that is given."""
    guest, kernel = os.environ.get("GUEST"), os.environ.get("KERNEL")
    if not guest:
        test.skipTest("no kernel with udf: test/archive.sh has one where it can be had")
    assert guest
    room = Path(test.path("linux"))
    room.mkdir()
    jobs = [linux.Job(Path(image), lastblock) for image, lastblock in images]
    return linux.mount_in_machine(Path(guest), Path(kernel), jobs, room) if kernel else linux.mount_here(Path(guest), jobs, room)


WITHOUT_LEDGER = """
import glob, os, sys
from udfburn.archive.cli import main
source, archive = sys.argv[1:]
for index in range(42):
    with open(os.path.join(source, f"f{index}"), "w") as file:
        file.write(str(index))
    for path in glob.glob(os.path.join(archive, "open", "*.ledger*")):
        os.unlink(path)
    if main(["add", source, "--at", "/c", "--archive", archive, "--quiet"]):
        sys.exit(1)
"""
"""Adds a file each time after the ledger was lost, so each is another client of the volume."""


class Mounted(WithTail):
    """What a Linux kernel mounts beside sound volumes."""

    def test_as_linux_shows_it(self) -> None:
        cut = self.images()
        closed = self.many_clients()
        shown = linux_shows(self, [*cut, *((path, None) for path in closed)])
        for mount in shown[: len(cut)]:
            self.assertEqual(mount.refused, 0)
            found = {path[len(b"/data/s/"):]: sha256(node.data).hexdigest() for path, node in mount.nodes.items() if node.kind == "F" and path.startswith(b"/data/s/")}
            self.assertEqual(found, self.before)
        self.assertEqual([mount.refused for mount in shown[len(cut):]], [0] * len(closed))
        names = [path for mount in shown[len(cut):] for path in mount.nodes if path.startswith(b"/data/c/")]
        self.assertEqual(sorted(names), sorted(b"/data/c/f%d" % index for index in range(42)))

    def many_clients(self) -> List[str]:
        """Closed volumes that had as many clients as they may have, and were closed by one more."""
        archive = self.path("clients")
        self.init(archive=archive)
        os.mkdir(self.path("few"))
        subprocess.run([sys.executable, "-c", WITHOUT_LEDGER, self.path("few"), archive], env=environment(), check=True, timeout=PATIENCE)
        self.assertEqual(len(self.volumes(archive)), 2)
        for name in os.listdir(os.path.join(archive, "open")):
            if ".ledger" in name:
                os.unlink(os.path.join(archive, "open", name))
        self.run_in(archive, "close")
        return [os.path.join(archive, "closed", f"T-{number:06}.img") for number in (1, 2)]


class Bags(WithArchive):
    """A closed volume, as other programs show it, is a bag."""

    def setUp(self) -> None:
        super().setUp()
        self.init("--capacity", "30000")
        make_tree(self.source, 120, 51)
        write(os.path.join(self.source, "big"), os.urandom(2_200_000))
        for index in range(600):
            write(os.path.join(self.source, "many", f"f{index}"), b"%d" % index)
        self.add()
        self.do("close")
        self.closed = os.path.join(self.archive, "closed", "T-000001.img")

    def require_bag(self, folder: str) -> None:
        """Checks it as RFC 8493 has it, with what every system has."""
        with open(os.path.join(folder, "bagit.txt"), encoding="utf-8") as file:
            self.assertEqual(file.read(), "BagIt-Version: 1.0\nTag-File-Character-Encoding: UTF-8\n")
        for name in ("manifest-sha256.txt", "tagmanifest-sha256.txt"):
            subprocess.run(["sha256sum", "--quiet", "-c", name], check=True, cwd=folder)
        found = digests(os.path.join(folder, "data"))
        with open(os.path.join(folder, "manifest-sha256.txt"), "rb") as manifest:
            lines = manifest.read().splitlines()
        self.assertEqual(sorted(line.split(b"  ", 1)[1] for line in lines), sorted(b"data/" + path for path in found))
        size = sum(os.path.getsize(os.path.join(os.fsencode(folder), b"data", path)) for path in found)
        with open(os.path.join(folder, "bag-info.txt"), encoding="utf-8") as info:
            self.assertIn(f"Payload-Oxum: {size}.{len(found)}\n", info.read())
        # The files of the archive follow from the bag alone: spread ones are moved up.
        with open(os.path.join(self.source, "big"), "rb") as big, open(os.path.join(folder, "data", "s", "big"), "rb") as whole:
            self.assertEqual(whole.read(), big.read())
        many = [path for path in found if path.startswith(b"s/many/")]
        self.assertEqual(len(many), 600)
        self.assertTrue(any(path.startswith(b"s/many/=s1/") for path in many))

    def test_as_udfclient_shows_it(self) -> None:
        if shutil.which("udfclient") is None:
            self.skipTest("udfclient is not installed")
        with open(self.closed, "rb") as file:
            # The volume set identifier of the primary volume descriptor (ECMA-167 3/10.1.11), a dstring in one byte a letter.
            file.seek(32 * 2048 + 72)
            field = file.read(128)
        where = ":".join([field[1 : field[127]].decode()] + ["T-000001"] * 3)
        words = f'get "{where}" bag\nquit\n'
        subprocess.run(["udfclient", "-b", "2048", self.closed], input=words.encode(), cwd=self.room, check=True, capture_output=True, timeout=PATIENCE)
        self.require_bag(self.path("bag"))

    def test_as_linux_shows_it(self) -> None:
        (mount,) = linux_shows(self, [(self.closed, None)])
        self.assertEqual(mount.refused, 0)
        folder = self.path("bag")
        for path, node in mount.nodes.items():
            local = os.fsencode(folder) + path
            if node.kind == "D":
                os.makedirs(local, exist_ok=True)
            else:
                os.makedirs(os.path.dirname(local), exist_ok=True)
                with open(local, "wb") as file:
                    file.write(node.data)
        self.require_bag(folder)
