"""Remotes of rclone, over a script in its place: what is taken for a file that is there, for one that is not, and for trouble."""

from __future__ import annotations

import os
import shutil
import sys
import tempfile
import unittest
from hashlib import sha256
from typing import Dict, List
from unittest import mock

from .support import PACKAGE, write

sys.path.insert(0, PACKAGE)

from udfburn.archive.errors import CopyFailed  # noqa: E402
from udfburn.archive.remotes import Print, RcloneRemote  # noqa: E402
from udfburn.base.own_files import from_top  # noqa: E402

SCRIPT = """#!/bin/sh
echo "$*" >> "$ROOM/asked"
[ ! -e "$ROOM/$1" ] || cat "$ROOM/$1"
[ ! -e "$ROOM/$1.status" ] || { echo first; echo "no $1 today"; } >&2
exit "$(cat "$ROOM/$1.status" 2> /dev/null || echo 0)"
"""


class Rclone(unittest.TestCase):
    def setUp(self) -> None:
        self.room = tempfile.mkdtemp()
        self.addCleanup(shutil.rmtree, self.room)
        os.chmod(write(os.path.join(self.room, "bin", "rclone"), SCRIPT.encode()), 0o700)
        environment = mock.patch.dict(os.environ, ROOM=self.room, PATH=os.path.join(self.room, "bin") + os.pathsep + os.environ["PATH"])
        environment.start()
        self.addCleanup(environment.stop)
        self.told: List[int] = []
        self.remote = RcloneRemote("here:sub", self.told.append)
        self.data = os.urandom(2_500_000)

    def says(self, **said: bytes) -> None:
        """Has the commands of rclone print this; `lsjson_status` is that of one that fails."""
        for name in ("lsjson", "lsf", "cat", "copyto", "moveto", "deletefile"):
            for file, key in ((name, name), (f"{name}.status", f"{name}_status")):
                if key in said:
                    write(os.path.join(self.room, file), said[key])
                elif os.path.exists(os.path.join(self.room, file)):
                    os.unlink(os.path.join(self.room, file))

    def asked(self) -> List[str]:
        with open(os.path.join(self.room, "asked"), encoding="utf-8") as file:
            return file.read().splitlines()

    def test_what_is_there(self) -> None:
        digest = sha256(self.data).digest()
        self.says(lsjson=b'{"Size": 2500000, "IsDir": false, "Hashes": {"SHA-256": "%s"}}' % digest.hex().encode(), lsf=b"x.img\ny.img\n", cat=self.data)
        self.assertEqual((self.remote.length("x.img"), self.remote.names()), (2_500_000, ["x.img", "y.img"]))
        self.assertEqual(self.remote.ask("x.img"), Print(2_500_000, digest))
        self.assertEqual(self.told, [], "no byte was read")
        self.assertEqual(self.remote.look("x.img"), Print(2_500_000, digest))
        self.assertEqual(sum(self.told), 2_500_000)
        self.assertTrue(any(line.endswith("here:sub/x.img") for line in self.asked()))

    def test_a_remote_without_digests_is_read(self) -> None:
        for hashes in (b"", b', "Hashes": null', b', "Hashes": {"md5": "00"}'):
            self.says(lsjson=b'{"Size": 9%s}' % hashes, lsf=b"x.img\n", cat=self.data)
            self.assertEqual(self.remote.ask("x.img"), Print(2_500_000, sha256(self.data).digest()))

    def test_what_is_not_there(self) -> None:
        said: List[Dict[str, bytes]] = [{"lsjson_status": b"3", "lsf_status": b"3"}, {"lsjson_status": b"4", "lsf_status": b"4"}, {"lsjson": b'{"Size": -1, "IsDir": true}'}, {"lsjson": b"[]"}]
        for each in said:
            self.says(**each)
            self.assertEqual([self.remote.length("x"), self.remote.ask("x"), self.remote.look("x"), self.remote.names()], [None, None, None, []], each)

    def test_trouble(self) -> None:
        """Nothing is taken for a file that is not there: what rclone said last is told."""
        self.says(lsjson_status=b"1", lsf_status=b"1", cat_status=b"1", copyto_status=b"4", moveto_status=b"3")
        for call, command in ((self.remote.length, "lsjson"), (self.remote.ask, "lsjson"), (self.remote.look, "lsf")):
            self.assertRaisesRegex(CopyFailed, f"rclone {command} here:sub: no {command} today", call, "x")
        self.assertRaisesRegex(CopyFailed, "no lsf today", self.remote.names)
        self.assertRaisesRegex(CopyFailed, "no copyto today", self.remote.send, __file__, "x")
        self.says(lsf=b"x\n", cat=b"some", cat_status=b"1")
        self.assertRaisesRegex(CopyFailed, "rclone cat here:sub: no cat today", self.remote.look, "x")
        self.says(lsjson=b"what")
        self.assertRaisesRegex(CopyFailed, "no JSON", self.remote.length, "x")

    def test_no_rclone(self) -> None:
        with mock.patch.dict(os.environ, PATH=self.room):
            for call in (self.remote.length, self.remote.look):
                self.assertRaisesRegex(CopyFailed, "rclone is not on the PATH", call, "x")

    def test_what_is_sent(self) -> None:
        """It gets its name once it is whole; what is left of one that failed goes."""
        self.says()
        local = write(os.path.join(self.room, "image"), self.data)
        self.remote.send(local, "x.img")
        sent = [f"copyto --ignore-times {local} here:sub/x.img.new", "moveto here:sub/x.img.new here:sub/x.img"]
        self.assertEqual((self.asked(), self.told), (sent, [2_500_000]))
        self.says(moveto_status=b"1")
        self.assertRaisesRegex(CopyFailed, "no moveto today", self.remote.send, local, "x.img")
        self.assertEqual(self.asked()[2:], [*sent, "deletefile here:sub/x.img.new"])

    def test_what_is_fetched(self) -> None:
        path = write(os.path.join(self.room, "there"), b"before")
        for said, found in (({"cat": self.data}, self.data), ({"cat": b"some", "cat_status": b"1"}, None)):
            self.says(**said)
            with from_top(os.path.realpath(path)) as place:
                if found is None:
                    self.assertRaisesRegex(CopyFailed, "no cat today", self.remote.fetch, "x.img", place)
                    self.assertFalse(os.path.exists(path))
                    continue
                self.remote.fetch("x.img", place)
            with open(path, "rb") as file:
                self.assertEqual(file.read(), found)
            self.assertEqual((sum(self.told), os.stat(path).st_mode & 0o777), (2_500_000, 0o600))


if __name__ == "__main__":
    unittest.main()
