"""What `salvage` writes, and the manifests that it reads."""

from __future__ import annotations

import errno
import hashlib
import os
import tempfile
import unittest
from typing import Any, Dict
from unittest import mock

from udfburn.protocol import Path
from udfburn.protocol.units import Address
from udfburn.reader import FileType, Medium
from udfburn.salvage.digests import Digests, Manifest, add_manifests, folder_of, listed_lines, manifest_data
from udfburn.salvage.salvage import FILE_UNPROVED, FILE_WHOLE, Salvage
from udfburn.salvage.write import InTheWay, Output, fitting

from .appended import Appender, empty_image
from .salvaged import judged, put_into


class Writing(unittest.TestCase):
    """The folder that files go into."""

    def setUp(self) -> None:
        room = tempfile.TemporaryDirectory()
        self.addCleanup(room.cleanup)
        self.room = room.name

    def test_names(self) -> None:
        self.assertEqual(fitting("a", ".x"), b"a.x")
        self.assertEqual(len(fitting("é" * 200, "~17")), 255)
        self.assertTrue(fitting("é" * 200, "~17").endswith("é~17".encode()))

    def test_two_of_one_name(self) -> None:
        """Two paths that are written alike get names of their own."""
        output = Output(self.room)
        for key, name in enumerate(["é" * 200 + "a", "é" * 200 + "b", "é" * 200 + "c"]):
            put_into(output, key, (name,), b"%d" % key, str(key))
        done = output.finish()
        output.close()
        self.assertEqual(len(os.listdir(self.room)), 3)
        for key, path, error in done:
            self.assertIsNone(error)
            with open(os.path.join(self.room, path), "rb") as file:
                self.assertEqual(file.read(), b"%d" % key)

    def test_interrupted(self) -> None:
        """What has no name yet is gone."""
        output = Output(self.room)
        put_into(output, 0, ("d", "a"), b"x", "1")
        output.close()
        self.assertEqual(os.listdir(os.path.join(self.room, "d")), [])

    def test_a_name_that_the_file_system_refuses(self) -> None:
        """That file or folder is not written, and the rest is: a disc has names that other file systems do not take."""
        mkdir, link, opened = os.mkdir, os.link, os.open

        def refusing(call: Any) -> Any:
            def called(first: str, *rest: Any, **more: Any) -> Any:
                if call is link:
                    raise OSError(errno.EPERM, "Operation not permitted")
                if ":" in first:
                    raise OSError(errno.EINVAL, "Invalid argument")
                return call(first, *rest, **more)
            return called

        output = Output(self.room)
        self.addCleanup(output.close)
        with mock.patch("os.mkdir", refusing(mkdir)), mock.patch("os.link", refusing(link)), mock.patch("os.open", refusing(opened)):
            self.assertRaisesRegex(InTheWay, "was not written: Invalid argument", output.folder, ("d:",), 0, "1")
            done = [*put_into(output, 0, ("a:",), b"x", "2"), *put_into(output, 1, ("d:", "b"), b"x", "3"), *put_into(output, 2, ("c",), b"x", "4")]
            done += output.finish()
        why = "was not written: Invalid argument"
        self.assertEqual(sorted((found.path, found.error) for found in done), [("a:", why), ("c", None), ("d:/b", why)])
        self.assertEqual(os.listdir(self.room), ["c"])

    def test_synced_before_it_is_named(self) -> None:
        output = Output(self.room)
        self.addCleanup(output.close)
        with mock.patch("udfburn.salvage.write.os.fsync", side_effect=OSError("no room")):
            put_into(output, 0, ("a",), b"x", "1")
            self.assertRaises(OSError, output.flush)
        self.assertNotIn("a", os.listdir(self.room))


class Manifests(unittest.TestCase):
    """Digests as manifests write them."""

    def test_lines(self) -> None:
        digest = "ab" * 32
        bag = f"{digest}  data/a%0Ab%25\n{digest} *data/c\nno line\n".encode()
        self.assertEqual([line.path for line in listed_lines(("bag",), bag, True)], [("bag", "data", "a\nb%"), ("bag", "data", "c")])
        plain = f"\\{digest}  a\\nb\\\\\n{digest.upper()}  ./d/e%25\u2028f\n".encode()
        self.assertEqual(list(listed_lines((), plain, False)), [(("a\nb\\",), digest), (("d", "e%25\u2028f"), digest)])

    def test_a_manifest_without_a_name(self) -> None:
        """It is that of the folder in which its files are."""
        lines = "".join(f"{'ab' * 32}  d/{name}\n" for name in "xyz").encode()
        paths: Dict[Path, None] = {("a", "d", name): None for name in "xy"}
        self.assertEqual(folder_of(lines, {**paths, ("d", "x"): None}), ("a",))
        self.assertIsNone(folder_of(lines, {("d", "x"): None}))
        self.assertIsNone(folder_of(lines + b"something else\n", paths))
        self.assertIsNone(folder_of(b"", paths))

    def test_a_file_that_is_no_manifest_is_not_kept(self) -> None:
        """Of a file without a name it is known by its beginning. All of it is read: what is missing is noted."""
        line = f"{'ab' * 32}  d/x\n".encode()
        for first in (line, b"\r\n\n\\" + line, line[:30], b"\n", b""):
            self.assertEqual(manifest_data(iter([first, b"rest"])), first + b"rest")
        for first in (line[1:], b" " + line, line[:30] + b"\n", bytes(100)):
            pieces = iter([first, b"rest"])
            self.assertEqual((manifest_data(pieces), next(pieces, None)), (b"", None))

    def test_manifests_that_are_too_long(self) -> None:
        """One that is longer than what is left for manifests is a file like any other, and is said to compare nothing. It takes nothing of it."""
        files = {"one": b"first" * 500, "two": b"second" * 500}
        first, second = (f"{hashlib.sha256(data).hexdigest()}  {name}\n".encode() for name, data in files.items())
        names = ("manifest-sha256.txt", "tagmanifest-sha256.txt")
        cases = ((30, 2099, 0, "2,099 of 2,099", [FILE_UNPROVED, FILE_WHOLE]), (1, 139, 1, "69 of 139", [FILE_WHOLE, FILE_UNPROVED]))
        for count, most, which, left, wanted in cases:
            image = empty_image(self)
            appender = Appender(image)
            for name, data in (*files.items(), (names[0], count * first), (names[1], second)):
                appender.create(name, data)
            appender.write()
            with self.subTest(most=most), Medium(image) as medium, mock.patch("udfburn.salvage.salvage.LONGEST_MANIFEST", most):
                found = Salvage(medium)
                given = {item.path[-1]: judged(found, item) for item in found.tree.items if item.kind is FileType.FILE}
                self.assertEqual([given[name][0].state for name in files], wanted)
                self.assertEqual([name for name in given if given[name][0].why], [names[which]])
                self.assertEqual(given[names[which]][0].why, f"what it lists is not compared, since {left} bytes for manifests are left")
                self.assertEqual(given[names[0]][1], count * first)

    def test_a_manifest_that_is_doubted(self) -> None:
        """Where a manifest is not as another has it, that a file differs from it says nothing."""
        digests, mine, other = Digests(), "ab" * 32, "cd" * 32
        line = f"{mine}  file\n".encode()
        found = [
            Manifest(("manifest-sha256.txt",), (), line, "ef" * 32, False, Address(500)),
            Manifest(("tagmanifest-sha256.txt",), (), f"{'00' * 32}  manifest-sha256.txt\n".encode(), "11" * 32, False, Address(502)),
        ]
        add_manifests(digests, found, set())
        self.assertEqual([digests.agrees(("file",), digest, Address(400)) for digest in (mine, other)], [True, None])
        digests = Digests()
        add_manifests(digests, found[:1], set())
        self.assertEqual([digests.agrees(("file",), digest, Address(400)) for digest in (mine, other)], [True, False])
        # A file that was written after its manifest may be another.
        self.assertEqual([digests.agrees(("file",), digest, Address(600)) for digest in (mine, other)], [True, None])
        self.assertIsNone(digests.agrees(("x",), other, Address(400)))
