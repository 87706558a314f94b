"""Sealed directories: bags and manifests, over copies that other readers made, and what is not sealed."""

from __future__ import annotations

import hashlib
import os
import subprocess
import sys
import unittest
from typing import Dict, List
from unittest import mock

from udfburn import Client
from udfburn.base import errors as e
from udfburn import protocol as p
from udfburn.base.manifest import ManifestLine, bag_manifest, plain_manifest, read_manifest
from udfburn.protocol.units import Moment
from udfburn.trees.seal import files_below, read_files_back, seal_directory

from . import bags
from .model import File
from .programs import UDFBURN, WithPrograms
from .test_kills import killer
from .with_files import store_in_parts
from .with_server import WithServer

ODD = ("a name", "100%", "%25", "new\nline", "cr\rname", "back\\slash", "\\", "ends\r", "é", "中", "-c", "*star", "two\n\r%lines")
FULL = p.limits.FILE


class Lines(unittest.TestCase):
    """Names as each form of a manifest has them; what is expected is spelled out."""

    def test_written(self) -> None:
        digest = bytes(range(32))
        digits = "000102030405060708090a0b0c0d0e0f101112131415161718191a1b1c1d1e1f"
        cases = (
            ("a", "a", "a", ""), ("a b", "a b", "a b", ""), ("50%", "50%25", "50%", ""), ("%0A", "%250A", "%0A", ""), ("x\ny", "x%0Ay", "x\\ny", "\\"),
            ("x\ry", "x%0Dy", "x\\ry", "\\"), ("x\\y", "x\\y", "x\\\\y", "\\"), ("x\\n", "x\\n", "x\\\\n", "\\"), ("ü", "ü", "ü", ""),
        )
        for name, bag, plain, mark in cases:
            line = ManifestLine(digest, ("data", name))
            self.assertEqual(bag_manifest([line]).decode(), f"{digits}  data/{bag}\n")
            self.assertEqual(plain_manifest([line]).decode(), f"{mark}{digits}  data/{plain}\n")
            for form, data in ((True, bag_manifest([line])), (False, plain_manifest([line]))):
                self.assertEqual(read_manifest(data, form), ([line], []))

    def test_read(self) -> None:
        digits = "ab" * 32
        digest = bytes.fromhex(digits)
        for data in (f"{digits} *./d/f\n", f"{digits.upper()}  d/f\r\n", f"\n{digits}  ./d/./f"):
            self.assertEqual(read_manifest(data.encode(), False), ([ManifestLine(digest, ("d", "f"))], []))
        for data in (f"{digits}\tdata/f\n", f"{digits}   data/f\n", f"{digits} *data/f\r\n"):
            self.assertEqual(read_manifest(data.encode(), True), ([ManifestLine(digest, ("data", "f"))], []))
        self.assertEqual(read_manifest(f"{digits}  *star\n".encode(), True), ([ManifestLine(digest, ("*star",))], []))
        self.assertEqual(read_manifest(f"{digits}  d/%0a%0A%25%41\n".encode(), True)[0], [ManifestLine(digest, ("d", "\n\n%%41"))])
        # Only these end a line.
        for end in ("\r\n", "\r", "\n"):
            self.assertEqual(read_manifest(f"{digits}  a\x0b\u2028\x85b{end}{digits}  c{end}".encode(), True)[0], [ManifestLine(digest, ("a\x0b\u2028\x85b",)), ManifestLine(digest, ("c",))])
        self.assertEqual(read_manifest(f"{digits}  a\x0b\u2028b\n".encode(), False)[0], [ManifestLine(digest, ("a\x0b\u2028b",))])

    def test_what_is_no_line(self) -> None:
        digits = "ab" * 32
        for bad in (f"{digits[:-1]}  f", f"{digits}f", f"{digits}  ../f", f"{digits}  /f", f"{digits}  a//f", f"\\{digits}  a\\x", f"\\{digits}  a\\", "text"):
            lines, faults = read_manifest(f"{bad}\n{digits}  good\n".encode(), False)
            self.assertEqual(([line.path for line in lines], len(faults)), ([("good",)], 1), bad)
        self.assertEqual(read_manifest(b"\xff", False), ([], ["it is not UTF-8"]))
        # The first ones are named, and the others counted.
        lines, faults = read_manifest(b"text\n" * 1300 + f"{digits}  good\n".encode(), True)
        self.assertEqual(([line.path for line in lines], len(faults)), ([("good",)], 101))
        self.assertEqual(faults[-2:], ["line 100 is none of a manifest", "after these, 1,200 more of its lines are none"])


class Bags(WithPrograms):
    """Over an image, and over copies of it."""

    capacity = 20000

    def tree(self, names: "tuple[str, ...] | list[str]", top: str = "source") -> str:
        for index, name in enumerate(names):
            self.write(os.path.join(top, "d" if index % 2 else ".", name), name.encode() * (index * 200))
        return os.path.join(self.room, top)

    def copied(self) -> str:
        """A copy of the image's tree by the independent reader."""
        folder = os.path.join(self.room, f"copy{len(os.listdir(self.room))}")
        bags.copy_by_reader(self.image, folder)
        return folder

    def test_a_bag(self) -> None:
        where = ["--image", self.image]
        self.run_command("put", "-r", "-p", self.tree(ODD), "/bag/data", where=where)
        told = self.run_command("seal", "/bag", where=where)
        self.assertIn(f"sealed {len(ODD)} files", told)
        self.assertIn(f"{len(ODD)} compared with what was sent; wrote 4 files", told)
        bag = os.path.join(self.copied(), "bag")
        self.assertEqual(bags.faults(bag), [])
        self.assertEqual(bags.sha256sum(bag, "tagmanifest-sha256.txt").returncode, 0)
        self.assertIn(bags.bagit(bag), (True, None))

    def test_a_bag_by_tools_that_others_wrote(self) -> None:
        """A copy by udfclient, and `sha256sum`: of names that both have."""
        names = [f"file {index:02}.txt" for index in range(30)]
        where = ["--image", self.image]
        self.run_command("put", "-r", "--seal", self.tree(names), "/bag", where=where)
        folders = [self.copied()]
        if bags.copy_by_udfclient(self.image, os.path.join(self.room, "udfclient"), "TEST", 0):
            folders.append(os.path.join(self.room, "udfclient", "all"))
        for folder in folders:
            bag = os.path.join(folder, "bag")
            self.assertEqual(bags.faults(bag), [])
            for manifest in ("manifest-sha256.txt", "tagmanifest-sha256.txt"):
                self.assertEqual(bags.sha256sum(bag, manifest).returncode, 0)
            self.assertIn(bags.bagit(bag), (True, None))
            # And they notice a byte that changed.
            with open(os.path.join(bag, "data", "file 04.txt"), "r+b") as file:
                file.write(b"X")
            self.assertEqual(bags.sha256sum(bag, "manifest-sha256.txt").returncode, 1)
            self.assertEqual(bags.faults(bag), ["data/file 04.txt"])

    def test_manifests_of_sha256sum(self) -> None:
        """With all names that it escapes."""
        where = ["--image", self.image]
        self.run_command("put", "-r", "--seal", "--manifest-only", self.tree(ODD), "/x", where=where)
        folder = os.path.join(self.copied(), "x")
        done = bags.sha256sum(folder, "manifest-sha256.txt")
        self.assertEqual((done.returncode, done.stdout.count(": OK\n")), (0, len(ODD)), done.stderr)
        # Line by line what the tool itself writes.
        paths = [path for path in bags.files_below(folder) if path != "manifest-sha256.txt"]
        written = subprocess.run(["sha256sum", "--", *sorted(paths, key=lambda path: path.split("/"))], cwd=folder, capture_output=True, check=True).stdout
        with open(os.path.join(folder, "manifest-sha256.txt"), "rb") as file:
            self.assertEqual(sorted(file.read().split(b"\n")), sorted(written.split(b"\n")))

    def test_files_in_parts(self) -> None:
        """The manifest has the parts, as other readers see them."""
        big = os.urandom(2 * FULL + 9)
        self.write("source/big", big)
        where = ["--image", self.image]
        with Client(f"image:{self.image}", ledger=self.ledger, program=UDFBURN) as client:
            client.makedirs("/bag/data")
            store_in_parts(client, ("bag", "data", "big"), big)
        self.run_command("put", "-r", "--seal", os.path.join(self.room, "source"), "/bag", where=where)
        bag = os.path.join(self.copied(), "bag")
        self.assertEqual(bags.faults(bag), [])
        self.assertEqual(sorted(bags.listed(bag, "manifest-sha256.txt")), [f"data/big.{index:03}" for index in range(3)])

    def test_sources_are_deleted_last(self) -> None:
        source = self.tree(["a", "b", "c"])
        where = ["--image", self.image]
        told = self.run_command("put", "-r", "--seal", "--delete-source", source, "/bag", where=where)
        self.assertIn("deleted 3", told)
        self.assertEqual(bags.files_below(source), [])
        self.assertEqual(bags.faults(os.path.join(self.copied(), "bag")), [])


class Sealed(WithServer):
    """What is sealed and what is not, over a volume that can be changed."""

    def setUp(self) -> None:
        super().setUp()
        self.one = self.client()
        self.one.makedirs("/bag/data/d", Moment(1))
        for name in ("a", "d/b", "d/c"):
            self.one.create(f"/bag/data/{name}", name.encode() * 9, Moment(5))

    def files(self) -> Dict[str, bytes]:
        return {p.show(path): node.data for path, node in self.volume.nodes.items() if isinstance(node, File)}

    def test_again(self) -> None:
        """Nothing is written where all is there; a new file changes the manifest, and keeps what others wrote of the bag."""
        sealed = seal_directory(self.one, ("bag",))
        self.assertEqual((sealed.files, sealed.bytes, sealed.known, len(sealed.written)), (3, 63, 3, 4))
        commits = self.volume.commits
        self.assertEqual(seal_directory(self.one, ("bag",)).written, [])
        self.assertEqual(self.volume.commits, commits)
        info = b"Contact-Name: A. Person\nExternal-Description: one\n  and two\nBagging-Date: 2020-02-02\nPayload-Oxum: 1.1\n"
        self.one.replace("/bag/bag-info.txt", info)
        self.one.create("/bag/notes.txt", b"of ours")
        seal_directory(self.one, ("bag",))
        text = self.files()["/bag/bag-info.txt"].decode()
        for line in ("Bagging-Date: 2020-02-02\n", "Payload-Oxum: 63.3\n", "Contact-Name: A. Person\n", "External-Description: one\n  and two\n"):
            self.assertEqual(text.count(line), 1, "the payload is the same, so the day is")
        self.assertIn("notes.txt", self.files()["/bag/tagmanifest-sha256.txt"].decode())
        self.one.create("/bag/data/new", b"")
        sealed = seal_directory(self.one, ("bag",))
        self.assertEqual([p.show(path) for path in sealed.written], ["/bag/bag-info.txt", "/bag/manifest-sha256.txt", "/bag/tagmanifest-sha256.txt"])
        text = self.files()["/bag/bag-info.txt"].decode()
        self.assertIn("Payload-Oxum: 63.4\n", text)
        self.assertNotIn("2020-02-02", text)

    def test_other_bytes_than_were_sent(self) -> None:
        node = self.volume.nodes[("bag", "data", "d", "b")]
        assert isinstance(node, File)
        node.data = b"X" + node.data[1:]
        for path, manifest_only in ((("bag",), False), (("bag", "data"), True)):
            with self.assertRaisesRegex(e.Differs, r"/bag/data/d/b: has other bytes than were sent \(commit 5\)"):
                seal_directory(self.one, path, manifest_only)
        self.assertEqual(len(self.files()), 3, "nothing is written")
        self.put_refuses()

    def put_refuses(self) -> None:
        """Nor is a source deleted, where the volume has other bytes than were sent."""
        from udfburn.commands import cli

        source = os.path.join(self.room, "source", "file")
        os.makedirs(os.path.dirname(source))
        with open(source, "wb") as file:
            file.write(b"bytes")
        words = ["put", "-r", "--seal", "--delete-source", os.path.dirname(source), "/bag", "--socket", self.server.path, "--ledger", self.ledger, "--quiet"]
        self.one.close()
        self.assertEqual(cli.main(words), 1)
        self.assertTrue(os.path.exists(source))
        self.assertIn("/bag/data/file", self.files())

    def test_a_manifest_that_says_other_bytes(self) -> None:
        """Years later and with another ledger: a new manifest would hide what happened to a file."""
        seal_directory(self.one, ("bag",))
        self.one.close()
        with Client(f"unix:{self.server.path}", ledger=os.path.join(self.room, "other.sqlite")) as other:
            other.create("/bag/data/new", b"new")
            self.assertEqual(seal_directory(other, ("bag",)).known, 1)
            for path, manifest in ((("bag", "data", "a"), "manifest"), (("bag", "bagit.txt"), "tagmanifest")):
                node = self.volume.nodes[path]
                assert isinstance(node, File)
                node.data, before, commits = b"X" + node.data[1:], node.data, self.volume.commits
                with self.assertRaisesRegex(e.Differs, f"{p.show(path)}: has other bytes than /bag/{manifest}-sha256.txt says"):
                    seal_directory(other, ("bag",))
                self.assertEqual(self.volume.commits, commits)
                node.data = before
            self.assertEqual(seal_directory(other, ("bag",)).written, [])
            # What this ledger itself stored anew is no fault.
            other.replace("/bag/data/a", b"of this ledger")
            self.assertEqual(len(seal_directory(other, ("bag",)).written), 3)

    def test_a_sealing_that_is_killed(self) -> None:
        """At any line: the same command again makes it whole, and each file is stored as often as it has other bytes."""
        self.one.close()
        killed, lines, written = True, 0, set()
        while killed:
            lines += 211
            # Other bytes each time, so that there is something to write.
            with self.client() as client:
                client.replace("/bag/data/a", b"%d" % lines, Moment(5))
            child = os.fork()
            if not child:
                try:
                    sys.settrace(killer(lines))
                    with self.client() as client:
                        seal_directory(client, ("bag",))
                finally:
                    sys.settrace(None)
                    os._exit(0)
            killed = os.WIFSIGNALED(os.waitpid(child, 0)[1])
            with self.client() as client:
                written.add(len(seal_directory(client, ("bag",)).written))
            self.assert_sealed()
        self.assertLessEqual({0, 1, 3}, written, "it was killed before, between and after what it writes")

    def assert_sealed(self) -> None:
        """Every manifest has every file, with the digest of the bytes that are there."""
        files = self.files()
        payload = "".join(f"{hashlib.sha256(files[path]).hexdigest()}  {path[5:]}\n" for path in sorted(files) if path.startswith("/bag/data/"))
        tags = ("/bag/bag-info.txt", "/bag/bagit.txt", "/bag/manifest-sha256.txt")
        self.assertEqual(sorted(files["/bag/manifest-sha256.txt"].decode().splitlines()), sorted(payload.splitlines()))
        expected = "".join(f"{hashlib.sha256(files[path]).hexdigest()}  {path[5:]}\n" for path in tags)
        self.assertEqual(files["/bag/tagmanifest-sha256.txt"].decode(), expected)

    def test_a_manifest_among_the_sources(self) -> None:
        """Sealing would replace it, and then its source is deleted."""
        from udfburn.commands import cli

        source = os.path.join(self.room, "source")
        os.makedirs(os.path.join(source, "d"))
        with open(os.path.join(source, "d", "manifest-sha256.txt"), "wb") as file:
            file.write(b"of the user")
        self.one.close()
        words = ["put", "-r", "--seal", "--delete-source", source, "/x", "--socket", self.server.path, "--ledger", self.ledger, "--quiet"]
        self.assertEqual(cli.main(words + ["--manifest-only"]), 2)
        self.assertEqual(bags.files_below(source), ["d/manifest-sha256.txt"])
        self.assertNotIn(("x",), self.volume.nodes)
        self.assertEqual(cli.main(words), 0)
        self.assertEqual(self.files()["/x/data/d/manifest-sha256.txt"], b"of the user")

    def test_what_another_client_stored(self) -> None:
        """It is sealed as it is read; the count says that it was compared with nothing."""
        with Client(f"unix:{self.server.path}", ledger=os.path.join(self.room, "other.sqlite")) as other:
            other.create("/bag/data/theirs", b"theirs")
            other.replace("/bag/data/a", b"theirs too", Moment(6))
        self.one.close()
        with Client(f"unix:{self.server.path}", ledger=self.ledger, shared=True) as client:
            sealed = seal_directory(client, ("bag",))
        self.assertEqual((sealed.files, sealed.known), (4, 2))
        self.assertIn(hashlib.sha256(b"theirs too").hexdigest() + "  data/a\n", self.files()["/bag/manifest-sha256.txt"].decode())

    def require_no_room(self, words: str) -> None:
        """Sealing the bag is refused with these words, before anything is written."""
        commits = self.volume.commits
        with self.assertRaisesRegex(e.TooLarge, words):
            seal_directory(self.one, ("bag",))
        self.assertEqual(self.volume.commits, commits)

    def test_a_manifest_that_has_no_room(self) -> None:
        """One in each directory, of the files in it; a bag has one alone, and is refused."""
        with mock.patch("udfburn.base.manifest.LONGEST_WRITTEN", 300):
            self.one.create("/bag/notes.txt", b"")
            self.require_no_room("^/bag/tagmanifest-sha256.txt: would have 317 bytes, and at most 300 are written: .*--manifest-only.*Nothing was written$")
            self.one.remove("/bag/notes.txt")
            self.one.create("/bag/bag-info.txt", b"Contact-Name: " + b"a" * 280)
            self.require_no_room("^/bag/bag-info.txt: would have [0-9]+ bytes, and at most 300 are written: shorten it")
            self.one.remove("/bag/bag-info.txt")
            self.one.create("/bag/data/e", b"")
            self.one.create("/bag/data/f", b"")
            self.require_no_room("^/bag/manifest-sha256.txt: would have 369 bytes, and at most 300 are written: .*--manifest-only.*Nothing was written$")
            self.assertFalse([path for path in self.files() if path.endswith(".txt")])
            sealed = seal_directory(self.one, ("bag", "data"), manifest_only=True)
        self.assertEqual([p.show(path) for path in sealed.written], ["/bag/data/manifest-sha256.txt", "/bag/data/d/manifest-sha256.txt"])
        names = [line.split("  ")[1] for line in self.files()["/bag/data/d/manifest-sha256.txt"].decode().splitlines()]
        self.assertEqual(names, ["b", "c"])
        names = [line.split("  ")[1] for line in self.files()["/bag/data/manifest-sha256.txt"].decode().splitlines()]
        self.assertEqual(names, ["a", "e", "f"])

    def test_a_long_file_with_the_name_of_a_manifest(self) -> None:
        """It is named before any file is read; under another name it is sealed as other long files are."""
        long = bytes(range(256)) * 12_288
        self.one.put("/bag/data/d/manifest-sha256.txt", long)
        self.one.put("/bag/data/film", long)
        commits, asked = self.volume.commits, len(self.server.payloads)
        words = "^/bag/data/d/manifest-sha256.txt: has 3145728 bytes, and of a file with this name at most 1048576 are read: .*Nothing was written$"
        for path, manifest_only in ((("bag",), False), (("bag", "data"), True)):
            with self.assertRaisesRegex(e.TooLarge, words):
                seal_directory(self.one, path, manifest_only)
        self.assertFalse([query for query in map(p.decode_message, self.server.payloads[asked:]) if isinstance(query, (p.Get, p.Read))])
        self.assertEqual(self.volume.commits, commits)
        self.one.rename("/bag/data/d/manifest-sha256.txt", "/bag/data/d/sums")
        sealed = seal_directory(self.one, ("bag",))
        self.assertEqual((sealed.files, sealed.bytes, sealed.known, len(sealed.written)), (5, 63 + 2 * len(long), 5, 4))
        self.assert_sealed()

    def test_long_tag_files(self) -> None:
        """Those of the bag are named; below it, and where no bag is made, they are files like any other, and are not kept in memory."""
        long = bytes(range(256)) * 8192
        for name in ("bag-info.txt", "bagit.txt"):
            self.one.put(f"/bag/data/d/{name}", long)
        self.one.create("/bag/data/bag-info.txt", b"of the payload")
        self.assertEqual(seal_directory(self.one, ("bag",)).files, 6)
        self.assert_sealed()
        paths = sorted(files_below(self.one, ("bag",)))
        kept = [p.show(path) for path, file in read_files_back(self.one, paths, {}, ("bag",)).items() if file.data]
        self.assertEqual(kept, [f"/bag/{name}" for name in ("bag-info.txt", "bagit.txt", "manifest-sha256.txt", "tagmanifest-sha256.txt")])
        self.one.put("/bag/bag-info.txt", long)
        self.one.remove("/bag/bagit.txt")
        with self.assertRaisesRegex(e.TooLarge, "^/bag/bag-info.txt: has 2097152 bytes"):
            seal_directory(self.one, ("bag",))
        self.assertEqual(self.files()["/bag/bag-info.txt"], long)
        self.assertEqual(seal_directory(self.one, ("bag",), manifest_only=True).files, 8)

    def test_what_is_no_bag(self) -> None:
        cases: List["tuple[str, bool, type[Exception], str]"] = [
            ("/bag/data", False, e.UsageError, "/bag/data/data.*--manifest-only"), ("/bag/data/a", True, e.NotDirectory, "not a directory"),
            ("/no", True, e.NotFound, "/no"),
        ]
        for path, manifest_only, error, words in cases:
            with self.assertRaisesRegex(error, words):
                seal_directory(self.one, p.path_of(path), manifest_only)
        seal_directory(self.one, ("bag",))
        with self.assertRaisesRegex(e.UsageError, "is a bag"):
            seal_directory(self.one, ("bag",), True)

    def test_a_dry_run(self) -> None:
        commits, told = self.volume.commits, []
        sealed = seal_directory(self.one, ("bag",), dry_run=True, told=lambda what, path, size, commit: told.append((what, p.show(path))))
        self.assertEqual((self.volume.commits, len(sealed.written)), (commits, 4))
        self.assertEqual({what for what, _ in told}, {"would store"})


if __name__ == "__main__":
    unittest.main()
