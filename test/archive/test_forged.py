"""Volumes that were made to do harm, or are odd: `rebuild` names each, leaves it out, and goes on with the others."""

from __future__ import annotations

import hashlib
import os
import shutil
import subprocess
import sys
from typing import Dict, List, Set, Tuple

from .support import PACKAGE, UDFBURN, WithArchive, digests, make_tree, write

sys.path.insert(0, PACKAGE)

from udfburn.archive.bundle import bundled  # noqa: E402
from udfburn.trees.client import Client  # noqa: E402
from udfburn.wire.operations import Operation  # noqa: E402
from udfburn.protocol import Create, MakeDir  # noqa: E402
from udfburn.protocol.units import Moment


class Forged(WithArchive):
    def setUp(self) -> None:
        super().setUp()
        self.init("--delete", "acknowledged")
        make_tree(self.source, 12, 1)
        self.add()
        self.do("close")
        self.before = self.rows()
        folder = self.path("back")
        self.archive_id = self.read_id()
        self.assertFalse(os.path.exists(folder))

    def read_id(self) -> str:
        text = subprocess.run([UDFBURN, "get", self.path("archive", "closed", "T-000001.img"), "/volume.txt"], check=True, capture_output=True).stdout.decode()
        return text.split("archive: ")[1].split("\n")[0]

    def forge(self, name: str, label: str, about: str, files: "Dict[str, bytes]", folder: str = "closed") -> str:
        """A volume with a text about itself, and files at these stored paths."""
        image = self.path("archive", folder, name)
        subprocess.run([UDFBURN, "format", image, label, "1700000000000000", "3000"], check=True, stdout=subprocess.DEVNULL)
        made: "Set[Tuple[str, ...]]" = {("runs",), ("data",)}
        wanted = [Operation(Create, ("volume.txt",), Moment(1), about.encode()), Operation(MakeDir, ("runs",), Moment(1)), Operation(MakeDir, ("data",), Moment(1))]
        for path, data in files.items():
            names = tuple(path.split("/"))
            for depth in range(1, len(names)):
                if names[:depth] not in made:
                    made.add(names[:depth])
                    wanted.append(Operation(MakeDir, names[:depth], Moment(1)))
            wanted.append(Operation(Create, names, Moment(1), data))
        with Client(f"image:{image}", ledger=self.path(f"{name}.ledger"), program=UDFBURN) as client:
            for outcome in client.run(wanted):
                self.assertEqual(outcome.code.name, "DONE", outcome.operation.path)
        return image

    def about(self, number: object = 2, archive: str = "", label: str = "T") -> str:
        return f"udfburn-archive 1\narchive: {archive or self.archive_id}\nlabel: {label}\nvolume: {number}\nopened: x\n"

    def described(self, size: object = 2_000_000, first: object = 0, digest: str = "00" * 32, what: str = "first part") -> bytes:
        return f"size: {size}\nmodified: 1\nsha256: {digest}\n{what}: {first}\n".encode()

    def require_left_out(self, images: List[str]) -> None:
        """Each is named, once or more, and nothing else changed."""
        for words in (("--dry-run",), (), ("again",)):
            if words == ("again",):
                # After the catalogue was lost, with nothing to compare with.
                for name in os.listdir(self.archive):
                    if name.startswith("catalogue"):
                        os.unlink(os.path.join(self.archive, name))
                words = ()
            done = self.do("rebuild", *words, status=1)
            self.assertNotIn("Traceback", done.errors)
            for image in images:
                self.assertTrue([line for line in done.last()["failures"] if image in line], f"{image}: {done.errors}")
            self.assertEqual(len(done.last()["failures"]), len(images), done.errors)
        self.assertEqual(self.rows(), self.before)
        write(os.path.join(self.source, "new"), b"new")
        for image in images:
            if os.path.dirname(image).endswith("open"):
                os.unlink(image)
        self.add()
        # No number is used up.
        self.assertEqual([volume["volume"] for volume in self.volumes()], ["T-000001", "T-000002"])
        self.assertEqual(self.get_all(), digests(self.source))

    def test_numbers(self) -> None:
        texts = [str(10**30), "-3", "0x10", "1_0", "\u0661", "", "9999999999", "3 "]
        images = [self.forge(f"x{index}.img", "T-000002", self.about(text), {"data/f": b"1"}) for index, text in enumerate(texts)]
        self.require_left_out(images)

    def test_descriptions(self) -> None:
        texts = [
            self.described(size=-5), self.described(size=10**30), self.described(first=10**30), self.described(first=-1), self.described(first=3),
            self.described(digest="00"), self.described(digest="zz" * 32), b"\xff\xfe", b"",
            *(self.described(first=byte, what="first byte") for byte in (1, -1, 2_000_001, 3 << 20, 10**30, "")), self.described(what="first"),
        ]
        images = []
        for index, text in enumerate(texts):
            files = {"data/s/big/=file.txt": text, "data/s/big/=p0/00000000": b"1"}
            images.append(self.forge(f"x{index}.img", "T-000002", self.about(), files))
        self.require_left_out(images)

    def test_names_that_no_catalogue_keeps(self) -> None:
        escaped = "==" + "".join(f"={byte:02X}" for byte in "\U0010ff85".encode())
        images = [self.forge("x0.img", "T-000002", self.about(), {f"data/{escaped}": b"1"})]
        images.append(self.forge("x1.img", "T-000002", self.about(), {f"data/s/{escaped}/f": b"1"}))
        self.require_left_out(images)

    def test_a_bundle_of_any_size(self) -> None:
        """It would be in memory as a whole."""
        image = self.forge("T-000002.img", "T-000002", self.about(), {"data/f": b"1"})
        data, _ = bundled([("member", Moment(1), bytes(2_000_000))])
        with Client(f"image:{image}", ledger=self.path("T-000002.img.ledger"), program=UDFBURN) as client:
            client.put("/data/=b1.tar", data, Moment(1))
        done = self.do("rebuild", status=1)
        self.assertIn(f"/=b1.tar has {len(data)} bytes, and a bundle has at most 1048576", done.errors)
        self.assertEqual([row["path"] for row in self.rows()], sorted(["/f", *(row["path"] for row in self.before)]))

    def test_parts_that_do_not_end_with_their_file(self) -> None:
        """They count for nothing: no source goes for what `get` would not give back."""
        path, data, kept = os.path.join(self.source, "x"), os.urandom(2 << 20), self.path("kept")
        shutil.copytree(self.archive, kept)
        text = self.described(len(data), 0, hashlib.sha256(data).hexdigest(), "first byte")
        for index, part in enumerate((data + bytes(1 << 20), data + b"1", data[:-1], data[: (1 << 20) + 1])):
            with self.subTest(size=len(part)):
                shutil.rmtree(self.archive)
                shutil.copytree(kept, self.archive)
                image = self.forge("T-000002.img", "T-000002", self.about(), {}, "open")
                with Client(f"image:{image}", ledger=self.path(f"{index}.ledger"), program=UDFBURN) as client:
                    client.makedirs("/data/s/x")
                    client.create("/data/s/x/=file.txt", text, Moment(1_700_000_000_000_000))
                    client.put("/data/s/x/=000000000000000", part, Moment(1))
                self.do("rebuild")
                self.assertEqual(self.rows(), self.before)
                os.utime(write(path, data), (1_700_000_000, 1_700_000_000))
                self.assertEqual(self.do("add", path, "--at", "/s/x", "--delete-source").last()["deleted"], 1)
                self.do("get", "/s/x", self.path("back", str(index)))
                with open(self.path("back", str(index), "x"), "rb") as file:
                    self.assertEqual(file.read(), data)
                for name in os.listdir(self.room):
                    if name.startswith("T-000002.img.ledger"):
                        os.unlink(self.path(name))

    def test_labels(self) -> None:
        images = [self.forge(f"x{index}.img", label, self.about(), {"data/f": b"1"}) for index, label in enumerate(("T-000003", "../../x", "T-2", "T-000002 "))]
        images.append(self.forge("x8.img", "T-000002", self.about(label="../T"), {"data/f": b"1"}))
        images.append(self.forge("x9.img", "T-000002", self.about(archive="../../../etc/passwd"), {"data/f": b"1"}))
        self.require_left_out(images)

    def test_what_is_no_volume(self) -> None:
        closed, opened = self.path("archive", "closed"), self.path("archive", "open")
        images = [write(os.path.join(closed, "T-999999999.img"), b""), write(os.path.join(opened, "T-99999999999999999999.img"), b"")]
        os.mkdir(os.path.join(closed, "folder.img"))
        os.mkfifo(os.path.join(closed, "pipe.img"))
        images += [os.path.join(closed, "folder.img"), os.path.join(closed, "pipe.img")]
        self.require_left_out(images)

    def test_lengths_beside_an_image(self) -> None:
        image = self.path("archive", "closed", "T-000001")
        with open(image + ".info", "rb") as file:
            text = file.read()
        for length in (b"-1", b"%d" % 10**30, b"x"):
            write(image + ".info", text.replace(b"length: ", b"length: " + length + b" "))
            for name in os.listdir(self.archive):
                if name.startswith("catalogue"):
                    os.unlink(os.path.join(self.archive, name))
            self.do("rebuild")
            self.assertEqual(self.rows(), self.before)
            self.assertEqual(self.do("check").last()["failures"], [])
