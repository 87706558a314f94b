"""How many files a volume takes: few where they are small, so that its tables stay short."""

from __future__ import annotations

import os
import sys
from contextlib import redirect_stderr, redirect_stdout
from io import StringIO
from typing import List
from unittest import mock

from .support import PACKAGE, WithArchive, digests, environment, make_tree, write

sys.path.insert(0, PACKAGE)

from udfburn.archive.cli import main  # noqa: E402

LEFT = 26
"""Nodes that are left in a volume that counts as full, at most."""


class Nodes(WithArchive):
    def counts(self) -> List[int]:
        return [volume["nodes"] for volume in self.volumes()]

    def remove_field(self) -> None:
        """Makes `archive.toml` one of an earlier version."""
        path = os.path.join(self.archive, "archive.toml")
        with open(path, encoding="utf-8") as file:
            lines = [line for line in file if not line.startswith("nodes")]
        write(path, "".join(lines).encode())

    def test_small_files_go_to_volumes_with_few_nodes(self) -> None:
        self.init("--nodes", "150")
        make_tree(self.source, 260, 1, most=2500)
        self.add()
        counts = self.counts()
        self.assertEqual(len(counts), 3)
        self.assertLessEqual(max(counts), 150)
        states = {volume["volume"]: (volume["state"], volume["fullness"]["nodes"]) for volume in self.volumes()}
        for volume in self.volumes():
            self.assertEqual(volume["state"] == "full", volume["nodes"] > 150 - LEFT, states)
            self.assertEqual(volume["fullness"]["nodes"], volume["nodes"] / 150)
        self.assertEqual(self.get_all(), digests(self.source))
        self.require_agreed()

    def test_a_folder_with_more_files_goes_to_several(self) -> None:
        self.init("--nodes", "100")
        make_tree(self.source, 150, 2, most=2500, a_folder=200)
        self.add()
        self.assertEqual(len(self.counts()), 2)
        self.assertLessEqual(max(self.counts()), 100)
        self.assertEqual(self.get_all(), digests(self.source))

    def test_a_volume_of_larger_files_takes_more(self) -> None:
        self.init("--nodes", "100")
        for index in range(130):
            write(os.path.join(self.source, f"{index:03}"), os.urandom(70_000))
        self.add()
        self.assertEqual([count > 130 for count in self.counts()], [True])
        # It takes small ones too, as long as its files are large on average.
        make_tree(os.path.join(self.source, "small"), 40, 3, most=500)
        self.add()
        first, *others = self.volumes()
        self.assertGreater(first["nodes"], 131)
        self.assertGreaterEqual(first["blocks"], 32 * first["nodes"])
        self.assertEqual(first["files"] + sum(volume["files"] for volume in others), 170)
        self.assertEqual(self.get_all(), digests(self.source))

    def test_an_archive_of_an_earlier_version_goes_on_as_it_was(self) -> None:
        self.init("--nodes", "100")
        self.remove_field()
        make_tree(self.source, 260, 4, most=500)
        self.add()
        self.assertEqual([count > 260 for count in self.counts()], [True])
        self.assertLess(self.volumes()[0]["fullness"]["nodes"], 0.1)

    def test_what_it_may_be(self) -> None:
        for text in ("99", "4097", "-1", "many", "1e3", ""):
            self.assertIn("from 100 to 4,096", self.do("init", self.archive, f"--nodes={text}", status=2).errors)
        self.init()
        with open(os.path.join(self.archive, "archive.toml"), encoding="utf-8") as file:
            text = file.read()
        self.assertIn("\nnodes = 1000\n", text)
        for value in ("99", "4097", "true", '"1000"', "1000.0"):
            write(os.path.join(self.archive, "archive.toml"), text.replace("nodes = 1000", f"nodes = {value}").encode())
            self.assertIn("nodes", self.do("add", self.source, status=1).errors)

    def test_a_manifest_that_has_no_room(self) -> None:
        """It is said how long it would be. No bag is written, and the same command closes the volume where there is room."""
        self.init()
        make_tree(self.source, 9, 5)
        self.add()
        image = os.path.join(self.archive, "open", "T-000001.img")
        size = os.path.getsize(image)
        with mock.patch("udfburn.archive.close.LONGEST_WRITTEN", 500), mock.patch.dict(os.environ, environment()), \
                redirect_stdout(StringIO()), redirect_stderr(StringIO()) as errors:
            self.assertEqual(main(["close", "--archive", self.archive]), 1)
        self.assertRegex(errors.getvalue(), "T-000001: its manifest-sha256.txt would have [0-9]{3} bytes, and at most 500 are written: the volume was not closed")
        self.assertEqual((os.path.getsize(image), self.get_all()), (size, digests(self.source)))
        self.do("close")
        self.assertEqual(self.get_all(), digests(self.source))
