"""Who may read what is made, and what is no regular file, over the programs."""

from __future__ import annotations

import os
import shutil
import stat
import unittest
from typing import Callable, List

from .programs import WithPrograms


class Modes(WithPrograms):
    capacity = 3000

    def setUp(self) -> None:
        super().setUp()
        old = os.umask(0o022)
        self.addCleanup(os.umask, old)

    def command(self, *words: str, status: int = 0) -> str:
        return self.run_command(*words, where=[], status=status)

    def clear(self, *names: str) -> None:
        for name in names:
            path = os.path.join(self.room, name)
            if os.path.isdir(path):
                shutil.rmtree(path)
            elif os.path.lexists(path):
                os.unlink(path)

    def mode(self, *names: str) -> int:
        return stat.S_IMODE(os.stat(os.path.join(self.room, *names)).st_mode)

    def test_a_new_image(self) -> None:
        """It is its user's alone, unless another mode is asked for. A file that is there keeps its own."""
        for name, words, wanted in (("a", (), 0o600), ("b", ("--mode", "664"), 0o664), ("c", ("--mode", "0640"), 0o640)):
            self.command("format", os.path.join(self.room, f"{name}.img"), "--capacity", "600", *words)
            self.assertEqual(self.mode(f"{name}.img"), wanted)
        os.chmod(self.write("empty.img", b""), 0o644)
        self.command("format", os.path.join(self.room, "empty.img"), "--capacity", "600")
        self.assertEqual(self.mode("empty.img"), 0o644)
        for word in ("777", "0o600", "400", "6000", "abc"):
            self.assertIn("is not a valid mode", self.command("format", os.path.join(self.room, "d.img"), "--mode", word, status=2))

    def test_a_format_that_fails(self) -> None:
        """It leaves no file that it made, and no other one is touched."""
        self.command("format", os.path.join(self.room, "new.img"), "--program", "/bin/false", "--capacity", "600", status=1)
        self.command("format", self.image, "--capacity", "600", status=1)
        self.assertEqual(sorted(os.listdir(self.room)), ["disc.img"])

    def test_what_is_made_of_an_image(self) -> None:
        """Nobody may read it who may not read the image."""
        os.chmod(self.write("source/d/a", b"private"), 0o600)
        self.run_command("put", "-r", os.path.join(self.room, "source"), "/x", where=["--image", self.image])
        for image, file, folder in ((0o600, 0o600, 0o700), (0o640, 0o640, 0o750), (0o644, 0o644, 0o755), (0o666, 0o644, 0o755)):
            os.chmod(self.image, image)
            self.clear("got", "salvaged", "alone")
            self.run_command("get", "-r", "/x", os.path.join(self.room, "got"), where=["--image", self.image])
            self.run_command("get", "--force", "/x/d/a", os.path.join(self.room, "alone"), where=["--image", self.image])
            self.command("salvage", self.image, os.path.join(self.room, "salvaged"), "--accept-unproved")
            self.command("map", self.image, os.path.join(self.room, "map.svg"))
            for path in ("got/d/a", "salvaged/x/d/a", "alone", "map.svg"):
                self.assertEqual(self.mode(path), file, path)
            for path in ("got", "got/d", "salvaged/x/d"):
                self.assertEqual(self.mode(path), folder, path)

    def test_over_a_socket(self) -> None:
        """Whoever may write to it may read all of the volume."""
        self.serve()
        self.write("a", b"data")
        self.run_command("put", os.path.join(self.room, "a"), "/a")
        for mode, wanted in ((0o600, 0o600), (0o755, 0o600), (0o660, 0o640), (0o777, 0o644)):
            os.chmod(self.path, mode)
            self.clear("back")
            self.run_command("get", "--force", "/a", os.path.join(self.room, "back"))
            self.assertEqual(self.mode("back"), wanted)

    def test_a_picture_in_the_place_of_another_file(self) -> None:
        """A link is not followed, and nothing but a picture is replaced."""
        target, picture = self.write("target", b"<svg of somebody"), os.path.join(self.room, "map.svg")
        makes: List[Callable[[], object]] = [
            lambda: os.symlink(target, picture), lambda: os.mkfifo(picture), lambda: os.mkdir(picture), lambda: self.write("map.svg", b"data"),
        ]
        for make in makes:
            make()
            self.assertIn("already exists, and is not a picture of this command", self.command("map", self.image, picture, status=1))
            self.clear("map.svg")
        self.assertEqual(self.read("target"), b"<svg of somebody")
        for _ in range(2):
            self.command("map", self.image, picture)
        self.assertTrue(self.read("map.svg").startswith(b"<svg"))

    def test_pipes(self) -> None:
        """No command waits for the other end of one."""
        pipe = os.path.join(self.room, "pipe")
        os.mkfifo(pipe)
        for words in (
            ("status", pipe), ("check", pipe), ("salvage", pipe, "--list"), ("map", pipe, pipe + ".svg"), ("log", pipe), ("salvage", self.image, "--list", "--map", pipe),
            ("salvage", self.image, "--list", "--ledger", pipe),
        ):
            self.assertNotEqual(self.command(*words, status=1), "", words)


if __name__ == "__main__":
    unittest.main()
