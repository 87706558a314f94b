"""Parity of closed volumes, by the real par2: made with `close`, kept beside images and copies, used by `repair`."""

from __future__ import annotations

import os
import shutil
import subprocess
from typing import List

from .support import WithArchive, digests, make_tree, write

BLOCK = 2048


class Parity(WithArchive):
    """A closed volume with parity, and a copy in a folder."""

    def setUp(self) -> None:
        super().setUp()
        if shutil.which("par2") is None:
            self.skipTest("par2 is not installed")
        # Its threads wait without turning.
        os.environ["OMP_WAIT_POLICY"] = "passive"
        self.addCleanup(os.environ.pop, "OMP_WAIT_POLICY")
        self.copies = self.path("copies")
        os.mkdir(self.copies)
        self.init("--copies", self.copies, "--capacity", "3000")
        make_tree(self.source, 30, 1, most=20_000)
        self.add()

    def image(self, folder: str = "") -> str:
        return os.path.join(folder or self.path("archive", "closed"), "T-000001.img")

    def parity(self, folder: str) -> List[str]:
        return sorted(name for name in os.listdir(folder) if name.endswith(".par2"))

    def spoil(self, path: str, *blocks: int) -> None:
        """Writes over blocks."""
        os.chmod(path, 0o600)
        with open(path, "r+b") as file:
            for block in blocks:
                file.seek(block * BLOCK)
                file.write(b"\xff" * BLOCK)

    def read(self, path: str) -> bytes:
        with open(path, "rb") as file:
            return file.read()

    def test_it_is_kept_beside_image_and_copies(self) -> None:
        self.assertIn("parity", [line["did"] for line in self.do("close", "--parity", "10").objects()])
        closed = self.path("archive", "closed")
        names = self.parity(closed)
        self.assertEqual((len(names), names[0]), (2, "T-000001.par2"))
        for folder in (closed, self.copies):
            self.assertEqual(self.parity(folder), names)
            subprocess.run(["par2", "verify", "-q", "-q", "T-000001.par2"], cwd=folder, check=True)
        # It is a tenth, and what says of which blocks it is.
        self.assertLess(sum(os.path.getsize(os.path.join(closed, name)) for name in names), os.path.getsize(self.image()) * 0.25)
        self.do("check", "--data", "--remotes")
        self.assertEqual([line["did"] for line in self.do("close", "--parity", "10").objects()], ["close"])

    def test_a_volume_that_was_closed_without(self) -> None:
        self.do("close")
        self.assertEqual(self.parity(self.copies), [])
        # Not of what is damaged.
        whole = self.read(self.image())
        self.spoil(self.image(), 300)
        self.assertIn("so no parity was made", self.do("close", "--parity", "10", status=1).errors)
        self.assertEqual(self.parity(self.path("archive", "closed")), [])
        write(self.image(), whole)
        self.do("close", "--parity", "10")
        self.assertEqual(len(self.parity(self.copies)), 2)

    def test_no_copy_is_good(self) -> None:
        """The same blocks of the image and of its copy are damaged."""
        self.do("close", "--parity", "10")
        whole = self.read(self.image())
        for path in (self.image(), self.image(self.copies)):
            self.spoil(path, 300, 310, 350, 400)
        self.do("check", "--remotes", status=1)
        spoilt = self.read(self.image())
        steps = [(line["what"], line["source"]) for line in self.do("repair").objects() if line["did"] == "repaired"]
        self.assertEqual(steps, [("the image", "parity"), (f"the copy on {self.copies}", "the image at hand")])
        self.assertEqual((self.read(self.image()), self.read(self.image(self.copies))), (whole, whole))
        (kept,) = [name for name in os.listdir(self.path("archive", "closed")) if ".damaged-" in name]
        self.assertEqual(self.read(self.path("archive", "closed", kept)), spoilt)
        self.do("check", "--data", "--remotes")
        self.assertEqual(self.get_all(), digests(self.source))
        self.assertEqual([name for name in os.listdir(self.archive) if name.startswith(".")], [])

    def test_the_parity_of_a_remote(self) -> None:
        self.do("close", "--parity", "10")
        whole = self.read(self.image())
        for name in self.parity(self.path("archive", "closed")):
            os.unlink(self.path("archive", "closed", name))
        os.unlink(self.image())
        self.spoil(self.image(self.copies), 300, 310)
        # Its index is damaged too.
        self.spoil(os.path.join(self.copies, "T-000001.par2"), 0)
        self.do("repair")
        self.assertEqual((self.read(self.image()), self.read(self.image(self.copies))), (whole, whole))
        self.do("check", "--data", "--remotes")

    def test_an_image_that_is_lost_comes_with_it(self) -> None:
        self.do("close", "--parity", "10")
        for name in os.listdir(self.path("archive", "closed")):
            os.unlink(self.path("archive", "closed", name))
        self.do("repair")
        self.assertEqual(self.parity(self.path("archive", "closed")), self.parity(self.copies))

    def test_more_damage_than_it_covers(self) -> None:
        self.do("close", "--parity", "5")
        blocks = os.path.getsize(self.image()) // BLOCK
        for path in (self.image(), self.image(self.copies)):
            self.spoil(path, *range(270, blocks - 1, 2))
        spoilt = self.read(self.image())
        self.do("check", "--remotes", status=1)
        self.assertIn("no copy is good", self.do("repair", status=1).errors)
        self.assertEqual(self.read(self.image()), spoilt)
        self.assertEqual([name for name in os.listdir(self.archive) if name.startswith(".")], [])

    def test_without_the_program(self) -> None:
        path = os.environ["PATH"]
        os.environ["PATH"] = self.path("nothing")
        self.addCleanup(os.environ.__setitem__, "PATH", path)
        self.assertIn("par2 is not on the PATH", self.do("close", "--parity", "10", status=2).errors)
        self.assertEqual(os.listdir(self.path("archive", "closed")), [])
        for words in ("0", "101", "x", "-1", "1.5", "٣"):
            self.do("close", f"--parity={words}", status=2)
