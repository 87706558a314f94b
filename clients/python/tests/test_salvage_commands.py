"""The commands `salvage` and `log`, and the digests of manifests and ledgers."""

from __future__ import annotations

import errno
import hashlib
import json
import os
import subprocess
import tempfile
from contextlib import redirect_stderr, redirect_stdout
from io import StringIO
from pathlib import Path
from typing import Callable, List, Tuple
from unittest import mock

from udfburn.commands import cli
from udfburn.protocol import Create, MakeDir
from udfburn.salvage.salvage import FILE_DAMAGED, FILE_UNPROVED, FILE_WHOLE
from udfburn.local.saving import write_all

from .programs import PACKAGE, UDFBURN, run_client
from .test_salvage import BLOCK, Damaged
from .volumes import format_image


class Commands(Damaged):
    """What users see."""

    # ---- digests

    def test_digests_of_a_manifest(self) -> None:
        """A file is whole where its digest agrees, and damaged where it does not."""
        self.fill()
        lines = "".join(f"{hashlib.sha256(data).hexdigest()}  {'/'.join(path)}\n" for path, data in self.model.files().items())
        self.send(Create, ("manifest-sha256.txt",), lines.encode())
        self.send(Create, ("new",), b"not listed")
        files, _ = self.salvage()
        self.assertEqual({found[0] for path, found in files.items() if path[-1] != "manifest-sha256.txt"}, {FILE_WHOLE, FILE_UNPROVED})
        self.assertEqual(files["new",][0], FILE_UNPROVED)
        _, data, _ = self.node("top")
        assert data is not None
        self.flip(data, 77)
        files, _ = self.salvage()
        self.assertEqual((files["top",][0], files["d", "large"][0]), (FILE_DAMAGED, FILE_WHOLE))
        # A bit inside an entry is mended by the digest, and so is a lost entry.
        self.flip(data, 77)
        self.flip(self.node("d", "renamed")[0], 300)
        self.damage(self.node("top")[0], 0, bytes(BLOCK))
        files, _ = self.salvage()
        for path in (("d", "renamed"), ("top",)):
            self.assertEqual(files[path][:2], (FILE_WHOLE, self.model.files()[path]))

    def test_digests_of_a_ledger(self) -> None:
        """They are found by the commits that wrote the files, whatever the files are called now."""
        ledger, local = os.path.join(self.room, "ledger.sqlite"), os.path.join(self.room, "local")
        os.mkdir(local)
        for name in ("a", "b", "c"):
            with open(os.path.join(local, name), "wb") as file:
                file.write(name.encode() * 3000)
        words = ["--image", self.image, "--ledger", ledger, "--quiet", "--program", UDFBURN]
        self.assertEqual(self.command("put", "-r", local, "/kept", *words).stderr, "")
        self.assertEqual(self.command("mv", "/kept/a", "/kept/z", *words).stderr, "")
        done = self.command("salvage", self.image, "--list", "--ledger", ledger)
        self.assertEqual((done.returncode, done.stdout.count("whole /kept/")), (0, 3), done.stdout + done.stderr)
        _, data, _ = self.node("kept", "b")
        assert data is not None
        self.flip(data, 5)
        self.damage(self.node("kept", "z")[0], 0, bytes(BLOCK))
        done = self.command("salvage", self.image, "--list", "--ledger", ledger)
        self.assertIn("damaged /kept/b (3000 bytes) - its bytes do not have the digest that is kept of them\n", done.stderr)
        self.assertIn("whole /kept/z (3000 bytes)\n", done.stdout)
        self.assertEqual(self.command("salvage", self.image, "--list", "--ledger", ledger + "x").returncode, 2)
        # Of another volume the ledger knows nothing.
        format_image(self.image + ".other")
        self.image += ".other"
        self.send(Create, ("x",), b"1")
        self.assertIn("unproved /x", self.command("salvage", self.image, "--list", "--ledger", ledger).stdout)

    # ---- log

    def test_log(self) -> None:
        self.fill()
        said = subprocess.run([UDFBURN, "log", self.image], check=True, capture_output=True, text=True).stdout
        done = self.command("log", self.image)
        self.assertEqual((done.returncode, done.stdout, done.stderr), (0, said, ""))
        lines = said.splitlines()
        sound = self.blocks()
        at = [int(line.split()[1]) for line in lines]
        # A bit of an entry: the line says that it is broken. The whole entry and the table: that commit is lost.
        self.flip(at[3], 60)
        done = self.command("log", self.image)
        self.assertEqual(done.returncode, 1)
        self.assertEqual(done.stdout.splitlines(), [*lines[:3], lines[3] + " broken: its entry has a wrong byte", *lines[4:]])
        self.put(sound)
        for address in (at[3] - 1, at[3]):
            self.damage(address, 0, bytes(BLOCK))
        done = self.command("log", self.image)
        self.assertEqual(done.stdout.splitlines()[3:5], ["6 ? ? ? lost", lines[4]])
        self.assertIn("1 lost", done.stderr)
        first = json.loads(self.command("log", self.image, "--json").stdout.splitlines()[0])
        self.assertEqual((first["commit"], first["address"], first["files"], first["broken"]), (9, at[0], 5, []))

    # ---- the command

    def command(self, *words: str) -> "subprocess.CompletedProcess[str]":
        return run_client(list(words), {**os.environ, "PYTHONPATH": PACKAGE, "UDFBURN": ""})

    def test_a_full_disk(self) -> None:
        """What was written whole stays, and it is said which disk is full; the same command goes on."""
        self.fill()
        out = os.path.join(self.room, "out")
        room = [2]

        def fills(descriptor: int, data: bytes) -> int:
            room[0] -= 1
            if room[0] < 0:
                raise OSError(errno.ENOSPC, "No space left on device")
            return write_all(descriptor, data)

        errors = StringIO()
        with mock.patch("udfburn.salvage.write.write_all", fills), redirect_stdout(StringIO()), redirect_stderr(errors):
            self.assertEqual(cli.main(["salvage", self.image, out]), 1)
        self.assertIn(f"{out}: its disk is full (No space left on device): the files copied so far are complete", errors.getvalue())
        self.assertEqual(self.written(out), 2)
        with redirect_stdout(StringIO()), redirect_stderr(StringIO()):
            self.assertEqual(cli.main(["salvage", "--accept-unproved", self.image, out]), 0)
        self.assertEqual(self.written(out), 5)

    def written(self, out: str) -> int:
        """How many files of the volume are there. There are no others."""
        found = [os.path.join(at, name) for at, _, names in os.walk(out) for name in names]
        for local in found:
            with open(local, "rb") as file:
                self.assertEqual(file.read(), self.model.files()[tuple(os.path.relpath(local, out).split(os.sep))])
        return len(found)

    def test_command(self) -> None:
        self.fill()
        before = self.blocks()
        out = os.path.join(self.room, "out")
        listed = self.command("salvage", self.image, "--list")
        self.assertFalse(os.path.exists(out))
        self.assertIn("unproved /d/e/deep (2500 bytes)\n", listed.stdout)
        done = self.command("salvage", self.image, out)
        self.assertEqual(done.returncode, 1)
        self.assertIn("5 files are unproved", done.stderr)
        self.assertEqual(self.command("salvage", self.image, out, "--accept-unproved", "--quiet").returncode, 0)
        for path, data in self.model.files().items():
            with open(os.path.join(out, *path), "rb") as file:
                self.assertEqual(file.read(), data)
        self.assertEqual(os.stat(os.path.join(out, "top")).st_mtime, 4.0)
        self.assertEqual(os.stat(os.path.join(out, "d", "e")).st_mtime, 6.0)
        self.assertEqual(self.blocks(), before)
        self.assertEqual([name for _, _, names in os.walk(out) for name in names if name.startswith(".")], [])

    def test_nothing_is_replaced(self) -> None:
        """What is there stays: a file with other bytes, a link that leads out."""
        self.fill()
        out, other = os.path.join(self.room, "out"), os.path.join(self.room, "other")
        os.makedirs(os.path.join(out))
        os.mkdir(other)
        os.symlink(other, os.path.join(out, "d"))
        with open(os.path.join(out, "top"), "wb") as file:
            file.write(b"mine")
        done = self.command("salvage", self.image, out)
        self.assertEqual(done.returncode, 1)
        os.unlink(os.path.join(out, "d"))
        done = self.command("salvage", self.image, out, "--accept-unproved")
        self.assertEqual(done.returncode, 1)
        self.assertIn("already exists, with other bytes", done.stderr)
        self.assertEqual(os.listdir(other), [])
        with open(os.path.join(out, "top"), "rb") as file:
            self.assertEqual(file.read(), b"mine")

    def test_what_is_in_the_way(self) -> None:
        """What has the name of a folder, and folders that have the names of files, are named, and all else is given back."""
        self.fill()
        whole = os.path.join(self.room, "whole")
        self.assertEqual(self.command("salvage", self.image, whole, "--accept-unproved", "--quiet").returncode, 0)
        ways: List[Tuple[str, Callable[[str], object]]] = [
            ("d", lambda path: Path(path).write_bytes(b"")), ("d", os.mkfifo), ("d", lambda path: os.symlink(self.room, path)), ("top", os.mkdir),
        ]
        for name, make in ways:
            with self.subTest(name=name), tempfile.TemporaryDirectory(dir=self.room) as out:
                make(os.path.join(out, name))
                done = self.command("salvage", self.image, out, "--accept-unproved")
                self.assertEqual((done.returncode, "Errno" in done.stderr), (1, False), done.stderr)
                self.assertIn("d: is there, and is no folder" if name == "d" else "top already exists", done.stderr)
                for other in set(os.listdir(whole)) - {name, "d"}:
                    self.assertEqual(Path(out, other).read_bytes(), Path(whole, other).read_bytes())

    def test_json(self) -> None:
        self.fill()
        address, data, _ = self.node("top")
        assert data is not None
        self.flip(address, 2000)
        lines = [json.loads(line) for line in self.command("salvage", self.image, "--list", "--json").stdout.splitlines()]
        structures = [(line["block"], line["cause"]) for line in lines if line["did"] == "structure"]
        self.assertEqual(structures, [(address, 27)])
        self.assertEqual({line["state"] for line in lines if line["did"] == "file"}, {"unproved"})
        end = lines[-1]
        self.assertEqual((end["did"], end["status"], end["files"], end["unproved"], end["label"], end["commit"]), ("salvage", 1, 5, 5, "TEST", 9))

    def test_words(self) -> None:
        self.assertEqual(self.command("salvage", self.image).returncode, 2)
        self.assertEqual(self.command("salvage", self.image, "out", "--list").returncode, 2)
        self.assertEqual(self.command("salvage", self.image, "--list", "--map", self.image).returncode, 2)
        self.assertEqual(self.command("salvage", self.image + "x", "--list").returncode, 1)
        self.put(b"")
        self.assertIn("no table of a volume can be read", self.command("salvage", self.image, "--list").stderr)
        self.assertIn("no table of a volume can be read", self.command("log", self.image).stderr)

    def test_a_tree_that_names_cannot_hold(self) -> None:
        """Names that are too long for the system are cut, and all files are there."""
        self.send(MakeDir, ("lost+found",))
        self.send(Create, ("lost+found", "x"), b"1")
        self.send(Create, ("é" * 254,), b"2")
        self.send(Create, ("é" * 253 + "e",), b"3")
        out = os.path.join(self.room, "out")
        self.assertEqual(self.command("salvage", self.image, out, "--accept-unproved").returncode, 0)
        found = []
        for at, _, names in os.walk(out):
            for name in names:
                with open(os.path.join(at, name), "rb") as file:
                    found.append(file.read())
        self.assertEqual(sorted(found), [b"1", b"2", b"3"])
