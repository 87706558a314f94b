"""Folders for copies: one whose disk is not mounted, or that goes with the archive, takes none."""

from __future__ import annotations

import os
import shutil
import subprocess
import tomllib
from typing import Any, Dict, List

from .support import WithArchive, digests, make_tree, unmount, write


class Markers(WithArchive):
    def setUp(self) -> None:
        super().setUp()
        self.copies = self.path("copies")
        os.mkdir(self.copies)

    def mount(self) -> None:
        """A disk of its own for copies, which stays mounted elsewhere."""
        disk = self.path("disk")
        self.mount_memory(disk, "48m")
        self.bind()
        self.addCleanup(subprocess.call, ["umount", "-l", self.copies], stderr=subprocess.DEVNULL)

    def bind(self) -> None:
        """Has the disk where copies are sent."""
        subprocess.run(["mount", "--bind", self.path("disk"), self.copies], check=True)

    def make(self, *words: str, status: int = 0) -> str:
        """Makes an archive with this folder for copies."""
        return self.do("init", self.archive, "--label", "T", "--copies", self.copies, *words, status=status).errors

    def marker(self) -> str:
        (name,) = [name for name in os.listdir(self.copies) if name.startswith("udfburn-archive-")]
        return os.path.join(self.copies, name)

    def toml(self) -> Dict[str, Any]:
        with open(self.path("archive", "archive.toml"), "rb") as file:
            return tomllib.load(file)

    def test_another_disk_in_its_place(self) -> None:
        """It takes copies once it has a marker, and has none of those that the one before had."""
        folder = self.path("disk")
        os.mkdir(folder)
        self.init("--copies", folder)
        for name, command in (("f", "close"), ("g", "copy")):
            write(os.path.join(self.source, name), name.encode())
            self.add()
            self.do(command)
        self.do("status", "--check", "--stale", "1h")
        shutil.rmtree(folder)
        os.mkdir(folder)
        self.do("remote", "add", folder)
        self.assertIn(f"T-000001: the copy on {folder}: is not there", self.do("status", "--check", status=1).errors)
        self.assertEqual([volume["state"] for volume in self.volumes()], ["closed", "open"])
        self.do("repair")
        self.do("copy")
        self.assertEqual(self.do("check", "--remotes").last()["copies"], 2)
        self.do("status", "--check")

    def test_a_disk_that_is_not_mounted(self) -> None:
        self.mount()
        self.make()
        make_tree(self.source, 12, 1)
        self.add()
        # As it is after the start of a machine whose disk for copies is not there.
        unmount(self.copies)
        done = self.do("close", status=1)
        self.assertIn(f"{self.copies}: its disk is not mounted", done.errors)
        self.assertEqual((os.listdir(self.copies), done.last()["copied"]), ([], 0))
        self.assertEqual(self.add("--delete-source").last()["deleted"], 0)
        self.assertIn("is not mounted", self.do("remote", "list", status=1).errors)
        self.bind()
        self.assertEqual(self.do("close").last()["copied"], 1)
        self.assertEqual(self.add("--delete-source").last()["deleted"], 12)

    def test_a_folder_on_the_disk_of_the_archive(self) -> None:
        self.assertIn("is on the same disk as the archive", self.make(status=1))
        self.assertEqual(os.listdir(self.copies), [])
        self.make("--same-device")
        self.assertIs(self.toml()["same_device"], True)
        self.do("remote", "list")

    def test_a_folder_inside_the_archive(self) -> None:
        os.mkdir(self.archive)
        os.symlink(self.archive, self.path("link"))
        os.mkdir(self.path("archive", "open"))
        for folder in (self.archive, self.path("archive", "open"), self.path("link")):
            done = self.do("init", self.archive, "--label", "T", "--copies", folder, "--same-device", status=1)
            self.assertIn("is inside the folder of the archive", done.errors)
        self.init()
        self.assertIn("is inside", self.do("remote", "add", self.path("archive", "open"), "--same-device", status=1).errors)
        self.assertEqual(self.toml()["copies"], [])

    def test_a_folder_that_is_not_there(self) -> None:
        os.rmdir(self.copies)
        self.assertIn("is not there: mount it", self.make("--same-device", status=1))
        self.assertFalse(os.path.exists(self.path("archive", "archive.toml")))

    def test_an_archive_that_has_no_marker_yet(self) -> None:
        self.make("--same-device")
        write(os.path.join(self.source, "f"), b"1")
        self.add("--no-copy")
        os.unlink(self.marker())
        toml = self.path("archive", "archive.toml")
        with open(toml, encoding="utf-8") as file:
            text = file.read().replace("same_device = true\n", "# mine\n")
        write(toml, text.encode())
        errors = self.do("close", status=1).errors
        self.assertEqual(os.listdir(self.copies), [])
        # The refusal says which words to run.
        words = errors[errors.index("'udfburn-archive ") + len("'udfburn-archive ") :].split("'")[0].split(" ")
        self.assertEqual(words, ["remote", "add", self.copies, "--same-device"])
        self.do(words[0], *words[1:])
        with open(toml, encoding="utf-8") as file:
            self.assertIn("# mine\n", file.read())
        self.assertEqual(self.do("close").last()["copied"], 1)

    def test_a_marker_of_another_archive(self) -> None:
        self.make("--same-device")
        write(os.path.join(self.source, "f"), b"1")
        self.add("--no-copy")
        marker = self.marker()
        with open(marker, "rb") as file:
            data = file.read()
        for other in (data.replace(b"archive: ", b"archive: x"), b"", b"\0" * 5000):
            write(marker, other)
            self.assertIn("its disk is not mounted", self.do("close", status=1).errors)
        os.unlink(marker)
        os.symlink("/dev/zero", marker)
        self.assertEqual(self.do("close", status=1).last()["copied"], 0)
        self.assertEqual(os.listdir(self.copies), [os.path.basename(marker)])

    def names(self) -> List[str]:
        return [line["remote"] for line in self.do("remote", "list").objects() if line["did"] == "listed"]

    def test_remotes_are_added_and_removed(self) -> None:
        self.init()
        second = self.path("second")
        os.mkdir(second)
        write(os.path.join(self.source, "f"), b"1")
        self.add()
        toml = self.path("archive", "archive.toml")
        with open(toml, encoding="utf-8") as file:
            text = file.read()
        # Whatever a user made of it.
        write(toml, text.replace("copies = []", 'copies = [  # the disks\n    # "copies = [1]",\n]').encode())
        os.chmod(toml, 0o600)
        self.do("remote", "add", self.copies, status=1)
        self.do("remote", "add", self.copies, "--same-device")
        self.do("remote", "add", second)
        self.assertEqual((self.names(), os.stat(toml).st_mode & 0o777), ([self.copies, second], 0o600))
        self.do("close")
        before = digests(second)
        self.do("remote", "remove", second)
        self.assertEqual((self.names(), digests(second)), ([self.copies], before))
        (volume,) = self.volumes()
        self.assertEqual([copy["remote"] for copy in volume["copies"]], [self.copies])
        self.do("remote", "remove", second, status=1)
        self.do("remote", "remove", status=2)
        self.do("remote", "list", second, status=2)

    def test_the_last_remote_stays_where_copies_are_wanted(self) -> None:
        self.make("--same-device")
        self.assertIn('delete = "copied"', self.do("remote", "remove", self.copies, status=1).errors)
        self.assertEqual(self.names(), [self.copies])
