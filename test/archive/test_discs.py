"""Volumes on discs: burned by xorriso into a file in the place of a drive, listed, compared, and taken back."""

from __future__ import annotations

import os
import shutil
import sqlite3
from typing import Any, Dict, List
from unittest import mock

from .support import COMMANDS, Done, WithArchive, change, digests, environment, make_tree, write

from udfburn.archive import remotes  # noqa: E402
from udfburn.archive.catalogue import Catalogue  # noqa: E402
from udfburn.archive.config import check_remote, read  # noqa: E402
from udfburn.archive.errors import BadConfig, CopyFailed  # noqa: E402

BLOCK = 2048
LABEL = "TAPES-000001"


class Discs(WithArchive):
    """An archive with a closed volume and an open one, and a folder for copies."""

    def setUp(self) -> None:
        super().setUp()
        os.mkdir(self.path("second"))
        self.run_in(self.archive, "init", self.archive, "--label", "TAPES", "--capacity", "4000", "--copies", self.path("second"), "--same-device")
        make_tree(self.source, 30, 1)
        self.run_in(self.archive, "add", self.source, "--at", "/tapes")
        self.run_in(self.archive, "close")
        self.image = os.path.join(self.archive, "closed", LABEL + ".img")
        self.data = self.bytes(self.image)

    def bytes(self, path: str) -> bytes:
        with open(path, "rb") as file:
            return file.read()

    def disc(self, name: str) -> str:
        return self.path("disc " + name)

    def burn(self, name: str, label: str = LABEL, status: int = 0, place: str = "") -> Done:
        return self.run_in(self.archive, "burn", label, "--disc", name, "--device", "stdio:" + self.disc(place or name), status=status)

    def discs(self) -> List[Dict[str, Any]]:
        """The discs as `status` has them."""
        found = self.run_in(self.archive, "status", status=None).objects()
        return [{"volume": one["volume"], **disc} for one in found if one["did"] == "volume" for disc in one["discs"]]

    def names(self) -> List[str]:
        return [row["disc"] for row in self.discs()]

    def say(self, *words: str, status: int = 0) -> str:
        """What a command prints for people."""
        done = COMMANDS.run([*words, "--archive", self.archive], environment(), self.room, 600)
        self.assertEqual(done.returncode, status, done.stderr)
        return (done.stdout + done.stderr).decode()

    def test_burned_listed_compared_and_taken_back(self) -> None:
        told = self.burn("Shelf 1").last()
        self.assertEqual((told["volume"], told["disc"], told["burned"], told["length"]), (LABEL, "Shelf 1", True, len(self.data)))
        burned = self.bytes(self.disc("Shelf 1"))
        self.assertEqual((burned[: len(self.data)], len(burned) % (32 * BLOCK)), (self.data, 0))
        self.assertIn(f"already, and every byte was compared. Write on it: {LABEL} / Shelf 1", self.say("burn", LABEL, "--disc", "Shelf 1", "--device", "stdio:" + self.disc("Shelf 1")))
        (row,) = self.discs()
        self.assertEqual((row["volume"], row["disc"], row["trouble"]), (LABEL, "Shelf 1", None))
        where = self.run_in(self.archive, "where", "/tapes/d0/e0/file 0.bin").objects()[0]
        self.assertEqual((where["copies"], where["discs"]), ([self.path("second")], ["Shelf 1"]))
        self.assertIn(", disc Shelf 1 of ", self.say("where", "/tapes/d0/e0/file 0.bin"))
        self.run_in(self.archive, "report", self.path("page.html"))
        self.assertIn(b'"discs":[["Shelf 1",', self.bytes(self.path("page.html")))
        # Each byte counts, of the volume's own.
        words = ("check", "--disc", "Shelf 1", "--device", "stdio:" + self.disc("Shelf 1"))
        self.assertIn("is intact", self.say(*words))
        change(self.disc("Shelf 1"), len(self.data) // 2)
        self.assertIn("is not as it was burned: burn another one", self.say(*words, status=1))
        self.assertEqual([row["trouble"] for row in self.discs()], ["is not as it was burned"])
        self.assertIn("the disc Shelf 1: is not as it was burned", self.say("status"))
        # Another disc takes the place of one that is bad.
        self.burn("Shelf 1", place="new")
        self.assertEqual([row["trouble"] for row in self.discs()], [None])
        self.assertIn("is intact", self.say("check", "--disc", "Shelf 1", "--device", "stdio:" + self.disc("new")))

    def test_an_image_comes_back(self) -> None:
        """From a disc, where it is damaged or away; never from one that is damaged itself."""
        self.burn("A")
        self.burn("B")
        for path in (self.image, os.path.join(self.path("second"), LABEL + ".img")):
            change(path, 400 * BLOCK)
        self.run_in(self.archive, "check", status=1)
        self.assertIn(f"repair {LABEL} --disc A", self.say("repair", LABEL, status=1))
        change(self.disc("A"), 500 * BLOCK)
        words = ("repair", LABEL, "--disc")
        before = sorted(os.listdir(os.path.dirname(self.image)))
        self.assertIn("is not as it was burned", self.say(*words, "A", "--device", "stdio:" + self.disc("A"), status=1))
        self.assertEqual(sorted(os.listdir(os.path.dirname(self.image))), before)
        self.assertEqual(self.run_in(self.archive, *words, "B", "--device", "stdio:" + self.disc("B")).last()["repaired"], 2)
        self.assertEqual(self.bytes(self.image), self.data)
        self.assertEqual(self.bytes(os.path.join(self.path("second"), LABEL + ".img")), self.data)
        self.run_in(self.archive, "check", "--remotes", "--data")
        os.unlink(self.image)
        self.assertEqual(self.run_in(self.archive, *words, "B", "--device", "stdio:" + self.disc("B")).last()["repaired"], 1)
        self.assertEqual(self.bytes(self.image), self.data)

    def test_no_program_is_asked_for_a_disc(self) -> None:
        """rclone has a remote `disc:` for whoever asks it for one."""
        self.burn("A")
        write(self.path("bin", "rclone"), f"#!/bin/sh\ntouch {self.path('asked')}\nexit 1\n".encode())
        os.chmod(self.path("bin", "rclone"), 0o755)
        with mock.patch.dict(os.environ, {"PATH": self.path("bin") + ":" + os.environ["PATH"]}):
            self.assertEqual(self.run_in(self.archive, "check", "--remotes").last()["copies"], 1)
            self.run_in(self.archive, "repair", LABEL)
            self.run_in(self.archive, "close")
            for command in ("status", "rebuild"):
                self.run_in(self.archive, command)
            self.run_in(self.archive, "report", self.path("page.html"))
        self.assertFalse(os.path.exists(self.path("asked")))
        self.assertEqual(self.names(), ["A"])
        with Catalogue(read(self.archive)) as catalogue, self.assertRaisesRegex(CopyFailed, "is a disc"):
            remotes.remote_of(catalogue, "disc:A")
        with self.assertRaisesRegex(BadConfig, "how the catalogue names discs"):
            check_remote("disc:A")
        shutil.rmtree(self.path("second"))
        os.unlink(self.image)
        self.assertIn("known on no remote, but on the disc A", self.without_remotes())

    def without_remotes(self) -> str:
        path = os.path.join(self.archive, "archive.toml")
        text = self.bytes(path).decode().replace(f'"{self.path("second")}"', "").replace("copies_wanted = 1", "copies_wanted = 0").replace('"copied"\n', '"acknowledged"\n')
        write(path, text.encode())
        # The image is lost.
        return self.say("status", status=1)

    def refused(self, why: str, name: str, label: str = LABEL, place: str = "") -> None:
        """A plain line, and nothing changes: no row, no byte of a disc."""
        path = self.disc(place or name)
        before = self.discs(), self.bytes(path) if os.path.isfile(path) else None
        self.assertIn(why, self.burn(name, label, 1, place).errors)
        self.assertEqual((self.discs(), self.bytes(path) if os.path.isfile(path) else None), before)

    def test_what_is_refused(self) -> None:
        self.burn("A")
        write(os.path.join(self.source, "more"), b"more")
        self.run_in(self.archive, "add", self.source, "--at", "/tapes")
        self.refused("is open: close it first", "N", "TAPES-000002")
        self.run_in(self.archive, "close")
        self.refused("is the name of another disc already, with TAPES-000001", "A", "TAPES-000002", "new")
        self.refused("is the name of another disc already, with TAPES-000001", "A", place="new")
        self.refused("is not blank, and does not have TAPES-000002", "N", "TAPES-000002", "A")
        write(self.disc("text"), b"somebody's own")
        self.refused("is not blank", "text")
        os.mkdir(self.disc("folder"))
        self.refused("is no drive", "N", place="folder")
        for words, status, why in (
            (("burn", LABEL, "--disc", "N", "--device", "/nonexistent/sr0"), 1, "there is no such drive"), (("burn", LABEL, "--disc", "N" * 41), 2, "is not a name for a disc"),
            (("burn", LABEL, "--disc", "a\tb"), 2, "is not a name for a disc"), (("burn", "TAPES-000009", "--disc", "N"), 1, "is not a volume"),
            (("check", "--disc", "N"), 1, "is no disc of this archive"), (("check", "TAPES-000002", "--disc", "A"), 2, f"is a disc with {LABEL}"),
            (("burn", LABEL, "--disc", "N", "--device", "stdio:" + self.image), 1, "is the image itself"), (("check", "--device", "/dev/sr0"), 2, "goes with --disc"),
            (("repair", LABEL, "--device", "/dev/sr0"), 2, "goes with --disc"), (("check", "--disc", "A", "--data"), 2, "leave out --data"),
            (("check", "--disc", "A", "--device", "/nonexistent/sr0"), 1, "there is no such drive"),
        ):
            self.assertIn(why, self.say(*words, status=status))
        # The disc in the drive is another one: nothing is said of that on the shelf.
        self.burn("C", "TAPES-000002")
        before = self.discs()
        for command in (("check",), ("repair", LABEL)):
            os.chmod(self.image, 0o600)
            change(self.image, 500 * BLOCK)
            self.assertIn(f"has TAPES-000002, and not {LABEL}: put the right one in", self.say(*command, "--disc", "A", "--device", "stdio:" + self.disc("C"), status=1))
            self.refused("is not as it was closed, and was not burned", "N")
            change(self.image, 500 * BLOCK)
        os.rename(self.image, self.path("away"))
        self.refused("is not at hand", "N")
        self.assertEqual(self.discs(), before)
        # A disc needs no image at hand to be known again.
        shutil.copy(self.disc("A"), self.disc("D"))
        self.assertEqual(self.burn("D").last()["burned"], False)
        self.assertEqual(self.names(), ["A", "D", "C"])

    def test_only_a_disc_is_left(self) -> None:
        """A new archive of what a disc has: the copies at its end are no part of what is compared, and harm nothing."""
        self.burn("A")
        files = {name: found[0] for name, found in digests(self.source).items()}
        other = self.path("other")
        self.run_in(other, "init", other, "--label", "TAPES")
        shutil.copy(self.disc("A"), os.path.join(other, "closed", LABEL + ".img"))
        self.assertEqual(self.run_in(other, "rebuild").last()["files"], 30)
        self.run_in(other, "get", "/tapes", self.path("back"))
        self.assertEqual({name: found[0] for name, found in digests(self.path("back", "tapes")).items()}, files)
        self.run_in(other, "check", "--data")
        self.run_in(other, "burn", LABEL, "--disc", "A", "--device", "stdio:" + self.disc("A"))

    def test_a_full_volume_has_room_for_the_copies(self) -> None:
        """On each medium: at most 3 copies and what 31 blocks lack to a unit."""
        archive = self.path("full")
        self.run_in(archive, "init", archive, "--label", "FULL", "--capacity", "700")
        make_tree(self.path("many"), 150, 2)
        self.run_in(archive, "add", self.path("many"))
        self.run_in(archive, "close")
        sizes = [os.path.getsize(os.path.join(archive, "closed", name)) // BLOCK for name in os.listdir(os.path.join(archive, "closed")) if name.endswith(".img")]
        self.assertGreater(len(sizes), 1)
        self.assertLessEqual(max(sizes) + 34, 700)

    def test_a_disc_lets_no_source_go(self) -> None:
        """What is on a disc alone is not seen in the run, and so is no reason to delete; nor is it one to stop."""
        self.archive = self.path("acknowledged")
        self.run_in(self.archive, "init", self.archive, "--label", "TAPES", "--capacity", "4000", "--delete", "acknowledged")
        self.run_in(self.archive, "add", self.source, "--at", "/tapes")
        self.run_in(self.archive, "close")
        self.burn("A")
        os.rename(os.path.join(self.archive, "closed", LABEL + ".img"), self.path("away"))
        before = digests(self.source)
        told = self.run_in(self.archive, "add", self.source, "--at", "/tapes", "--delete-source").last()
        self.assertEqual((told["deleted"], told["kept"]), (0, 30))
        self.assertEqual(digests(self.source), before)

    def test_a_catalogue_that_is_damaged(self) -> None:
        """Its discs are known only to the catalogue, so what can be read of them is kept. One with discs is not taken for a damaged one."""
        self.burn("A")
        self.burn("B")
        catalogue = os.path.join(self.archive, "catalogue.sqlite")
        self.run_in(self.archive, "rebuild")
        self.assertEqual([name for name in os.listdir(self.archive) if ".damaged-" in name], [])
        base = sqlite3.connect(catalogue)
        base.execute("UPDATE volume SET length = 'none'")
        base.commit()
        base.close()
        self.run_in(self.archive, "rebuild")
        self.assertNotEqual([name for name in os.listdir(self.archive) if ".damaged-" in name], [])
        self.assertEqual(self.names(), ["A", "B"])

    def test_only_remotes_are_repaired_unasked(self) -> None:
        self.burn("A")
        change(self.disc("A"), 500 * BLOCK)
        self.run_in(self.archive, "check", "--disc", "A", "--device", "stdio:" + self.disc("A"), status=1)
        self.assertEqual(self.run_in(self.archive, "repair").last()["volumes"], 0)
