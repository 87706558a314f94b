"""The lines that say where the bytes of a file are: of strange volumes, written and read back, and cut at each call."""

from __future__ import annotations

import os
import shutil
import sys
import unittest
from contextlib import closing
from typing import List, Set
from unittest import mock

from .support import PACKAGE, digests, write
from .test_chaos import Chaos
from .test_deletions import ODD
from .test_forged import Forged
from .test_same import WithMoved

sys.path.insert(0, PACKAGE)

from udfburn.archive.catalogue import Held  # noqa: E402
from udfburn.archive.contents import Contents  # noqa: E402
from udfburn.archive.errors import VolumeDiffers  # noqa: E402
from udfburn.archive.same import SAME_TEXTS_BYTES, entry, read_same, rows_on, same_texts  # noqa: E402
from udfburn.protocol.units import Commit, Moment, Size  # noqa: E402


class Strange(Forged, WithMoved):
    """Lines of volumes that were made to do harm."""

    HEAD = "udfburn-archive same 1\nwords\n\n"

    def line(self, path: str = "/x", place: str = "T-000001, commit 9: data/s/f", size: object = 5, moment: object = 1, digest: str = "00" * 32) -> bytes:
        return f"{self.HEAD}{digest} {size} {moment} {path}\n  the same as {place}\n".encode()

    def test_lines_that_are_none(self) -> None:
        places = [
            "T-000001, commit 9: ../../etc/passwd", "T-000001, commit 9: data/../../x", "T-000001, commit 9: volume.txt", "T-9, commit 9: data/f",
            "U-000001, commit 9: data/f", "T-000001, commit -1: data/f", "T-000001, commit 999999: data/f", "T-000001, commit 9: data/f/=file.txt",
            "/etc/passwd", "T-000001, commit 9, bytes 1 to 4: data/f", "T-000001, commit 9, bytes 1048576 to 9: data/f",
        ]
        paths = ["/../x", "/a/../../x", "/./x", "x", "/", "//x", "/a\0b"]
        given = [self.line(place=place) for place in places] + [self.line(path=path) for path in paths]
        given += [self.line(size=-1), self.line(size=10**30), self.line(moment=10**18), self.line(digest="zz" * 32), b"", b"\xff", self.HEAD.encode() + b"x"]
        given.append(self.line()[: self.line().index(b"  the")])
        for text in given:
            with self.assertRaises(VolumeDiffers, msg=text):
                list(read_same(text, "x", "T"))
        self.require_left_out([self.forge("x0.img", "T-000002", self.about(), {"same/1.txt": self.line(path="/../../x")})])

    def test_lines_that_lie(self) -> None:
        """They give nothing but the bytes that they promise, and only from volumes of the archive."""
        image = self.forge("T-000002.img", "T-000002", self.about(), {
            "same/1.txt": self.line("/s/lie", "T-000001, commit 9: data/s/d0/e0/file 0.bin"), "same/2.txt": self.line("/s/other", "T-000777, commit 9: data/f"),
        })
        done = self.do("rebuild")
        self.assertEqual({line["volume"] for line in done.objects() if line["did"] == "without bytes"}, {"T-000001", "T-000777"})
        done = self.do("get", "/s", self.path("back"), status=1)
        self.assertEqual(digests(self.path("back", "s")), digests(self.source))
        self.assertEqual(done.last()["lacking"], ["T-000777"])
        self.do("where", "/s/other", status=1)
        self.do("where", "/s/lie", status=1)
        self.assertEqual(len(self.do("history", "/s/lie").objects()), 2)
        self.do("mount", self.path("none"), status=None)
        # A file with this path is stored: the line counts for nothing.
        os.unlink(image)
        write(os.path.join(self.source, "lie"), b"12345")
        self.assertEqual(self.add().last()["files"], 1)
        self.do("get", "/s/lie", self.path("lie"))
        self.assertEqual(digests(self.path("lie"))[b"lie"], digests(self.source)[b"lie"])

    def test_too_many(self) -> None:
        files = {f"same/{index}.txt": bytes(1 << 20) for index in range(3)}
        image = self.forge("x0.img", "T-000002", self.about(), files)
        with mock.patch("udfburn.archive.same.SAME_TEXTS_BYTES", 3 << 19), closing(Contents(image)) as contents:
            with self.assertRaises(VolumeDiffers):
                rows_on(contents, 2)
        self.assertEqual(SAME_TEXTS_BYTES, 1 << 26)


# The tests of other forged volumes are run where they are.
for name in [name for name in dir(Forged) if name.startswith("test_")]:
    setattr(Strange, name, None)


class Texts(unittest.TestCase):
    def test_there_and_back(self) -> None:
        """Each line is read as it was written, whatever names there are."""
        names = [os.fsdecode(name) for name in ODD] + ["a, commit 1: data", "  the same as T-000001", "x" * 200]
        noted = 0, Commit(0)
        rows = [Held(7, Commit(12), ("s", name), Size(5), Moment(1), bytes(32), Moment(0), at=("old", name, "f"), noted=noted) for name in names]
        parts = [
            Held(number, Commit(3), ("big",), Size(3_000_000), Moment(1), bytes(32), Moment(0), first, 1 + first, ("old",), noted)
            for number, first in ((1, 0), (2, 1))
        ]
        entries = [entry([row], "T, commit", [index % 3 + 1]) for index, row in enumerate(rows)] + [entry(parts, "T, commit", [1, 2])]
        found: List[List[Held]] = []
        for data, some in same_texts(entries):
            found += [[row._replace(noted=noted) for row in each] for each in read_same(data, "x", "T, commit")]
            self.assertEqual(len(found), len(some))
        self.assertEqual(found, [[row] for row in rows] + [parts])


class Failing(Chaos):
    def test_lines(self) -> None:
        """Files of which some have the bytes of others: what they are the same as is acknowledged as a file is."""
        self.add()
        earlier = digests(self.source)
        os.rename(self.source, self.path("source moved"))
        os.mkdir(self.source)
        os.rename(self.path("source moved"), os.path.join(self.source, "moved"))
        shutil.copy(os.path.join(self.source, "moved", "big"), os.path.join(self.source, "copy of big"))
        write(os.path.join(self.source, "new"), b"new bytes")
        write(os.path.join(self.source, "new too"), b"new bytes")
        self.before = digests(self.source)
        self.keep()
        self.add_that_deletes(earlier)

    def stored(self, output: str, prefix: str) -> Set[bytes]:
        found = super().stored(output, prefix)
        return found | super().stored(output.replace('{"did": "same as"', '{"did": "stored"'), prefix)
