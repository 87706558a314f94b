"""Copies that are encrypted, by a real crypt remote of rclone: all that is done with copies, and what a stranger sees of them."""

from __future__ import annotations

import os
import shutil
import subprocess
from typing import Dict

from .support import WithArchive, change, digests, make_tree, write

SECRET = b"what nobody else may read: " * 40


class Encrypted(WithArchive):
    """As docs/ARCHIVE.md says under "Encrypted copies"."""

    def setUp(self) -> None:
        super().setUp()
        if shutil.which("rclone") is None:
            self.skipTest("rclone is not installed")
        password = subprocess.run(["rclone", "obscure", "a password"], check=True, capture_output=True, text=True).stdout.strip()
        config = f"[cloud]\ntype = alias\nremote = {self.path('cloud')}\n\n[secret]\ntype = crypt\nremote = cloud:photos\npassword = {password}\n"
        os.environ["RCLONE_CONFIG"] = write(self.path("rclone.conf"), config.encode())
        self.addCleanup(os.environ.pop, "RCLONE_CONFIG")
        os.mkdir(self.path("cloud"))
        self.init("--copies", "secret:", "--capacity", "3000", "--delete", "copied")
        make_tree(self.source, 20, 1)
        write(os.path.join(self.source, "letter.txt"), SECRET)

    def seen(self) -> Dict[str, bytes]:
        """What the provider has: names and bytes."""
        found = {}
        for at, _, names in os.walk(self.path("cloud")):
            for name in names:
                with open(os.path.join(at, name), "rb") as file:
                    found[os.path.relpath(os.path.join(at, name), self.path("cloud"))] = file.read()
        return found

    def require_secret(self) -> None:
        seen = self.seen()
        self.assertTrue(seen)
        for name, data in seen.items():
            self.assertNotIn("T-000001", name)
            for plain in (SECRET[:27], b"letter", b"file 1", b"udfburn", b"T-000001", b"BEA01"):
                self.assertNotIn(plain, data)

    def test_all_that_is_done_with_copies(self) -> None:
        before = digests(self.source)
        # While the volume is open.
        self.add("--delete-source")
        self.assertEqual(digests(self.source), {})
        self.require_secret()
        self.do("check", "--remotes")
        image = self.path("archive", "open", "T-000001.img")
        os.unlink(image)
        self.do("repair")
        self.assertEqual(self.get_all(), before)
        # And once it is closed.
        self.do("close")
        self.require_secret()
        self.do("check", "--remotes")
        self.assertEqual([volume["state"] for volume in self.volumes()], ["copied"])
        image = self.path("archive", "closed", "T-000001.img")
        with open(image, "rb") as file:
            whole = file.read()
        os.unlink(image)
        self.do("repair")
        with open(image, "rb") as file:
            self.assertEqual(file.read(), whole)
        # A byte that the provider changes is found.
        (largest,) = [name for name, data in self.seen().items() if len(data) > len(whole)]
        for place in (len(whole) // 2, 3):
            change(self.path("cloud", largest), place)
            self.assertIn("secret: is not as it was closed", self.do("check", "--remotes", status=1).errors)
            self.do("repair")
            self.do("check", "--remotes")

    def test_the_folder_is_lost(self) -> None:
        self.add()
        self.do("close")
        before = digests(self.source)
        shutil.rmtree(self.archive)
        self.init("--copies", "secret:", "--capacity", "3000")
        self.do("rebuild")
        self.do("repair")
        self.assertEqual(self.get_all(), before)
