"""Images that end with a group of commits that was not settled, as a live one may, and one that lost its power: each reader sees the last
settled state, and no hole."""

from __future__ import annotations

import hashlib
import io
import json
import os
import subprocess
import tempfile
import unittest
from contextlib import contextmanager
from typing import Dict, Iterator, List, Sequence, Tuple

from udfburn.base.progress import Progress
from udfburn.mounting.image_view import ImageView
from udfburn.protocol import Append, Create, MakeDir, Message, Path, Remove, Replace
from udfburn.protocol.units import Moment
from udfburn.reader import FileType, Medium, Volume
from udfburn.reader.basics import EXTENT_BYTES
from udfburn.reader.chain import Chain
from udfburn.reader.survey import Survey
from udfburn.salvage.salvage import FILE_UNPROVED, FILE_WHOLE, UNFINISHED, Salvage

from .programs import PACKAGE, UDFBURN, run_client
from .salvaged import judged
from .test_group import BLOCK, head
from .test_mount import all_of, folder_at
from .volumes import apply_messages, format_image

FIRST: List[Message] = [
    MakeDir(7, 1, Moment(1), ("d",)),
    Create(7, 2, Moment(2), ("d", "kept"), b"kept" * 2500),
    Create(7, 3, Moment(3), ("small",), b"small"),
]
GROUP: List[Message] = [
    Create(7, 4, Moment(4), ("new",), b"new" * 2000),
    Replace(7, 5, Moment(5), ("d", "kept"), b"other" * 1500),
    Create(7, 6, Moment(6), ("d", "inside"), b"inside"),
    Remove(7, 7, Moment(7), ("small",)),
    MakeDir(7, 8, Moment(8), ("e",)),
]
SETTLED: Dict[Path, bytes] = {("d", "kept"): b"kept" * 2500, ("small",): b"small"}
"""The files before the group."""
AFTER: Dict[Path, bytes] = {("d", "kept"): b"other" * 1500, ("d", "inside"): b"inside", ("new",): b"new" * 2000}
"""The files after it."""
LOST: List[Sequence[int]] = [(0,), (2,), (4,), (1, 3), (3, 4), (0, 1, 2, 3, 4)]
"""Which marks are zeros."""


class WithGroup(unittest.TestCase):
    """An image that ends with a group."""

    first, group, capacity = FIRST, GROUP, 3000

    def setUp(self) -> None:
        room = tempfile.TemporaryDirectory()
        self.addCleanup(room.cleanup)
        self.room, self.image = room.name, os.path.join(room.name, "disc.img")
        format_image(self.image, capacity=self.capacity)
        apply_messages(self.image, self.first)
        self.begin = os.path.getsize(self.image) // BLOCK
        apply_messages(self.image, self.group)
        with Medium(self.image) as medium:
            self.blocks = medium.blocks
            self.marks = sorted(table.address for table in Volume(medium).chain() if table.address >= self.begin)
        self.assertEqual((len(self.marks), self.marks[-1]), (len(self.group), self.blocks - 1))
        with open(self.image, "rb") as file:
            self.whole = file.read()

    def lose(self, lost: Sequence[int]) -> None:
        """Has the image end with the group's head, and lack these of its marks."""
        image = bytearray(self.whole)
        for at in (self.marks[index] for index in lost):
            image[at * BLOCK : (at + 1) * BLOCK] = bytes(BLOCK)
        with open(self.image, "wb") as file:
            file.write(image + head(self.begin, self.blocks, self.marks))

    @contextmanager
    def losing(self, lost: Sequence[int]) -> Iterator[None]:
        """An image of which a power loss kept no others of the marks, or that is read while these are written."""
        self.lose(lost)
        with self.subTest(lost=lost):
            yield

    def command(self, *words: str) -> "subprocess.CompletedProcess[str]":
        return run_client([*words], {**os.environ, "PYTHONPATH": PACKAGE, "UDFBURN_LEDGER": os.path.join(self.room, "none")})


@unittest.skipUnless(UDFBURN, "UDFBURN names the program")
class Unsettled(WithGroup):
    def salvaged(self) -> Tuple[Dict[Path, bytes], List[bytes], List[str]]:
        """The files that come out under their paths, the bytes of those that were not finished, and what is said to be damaged."""
        with Medium(self.image) as medium:
            found = Salvage(medium)
            given = [judged(found, item) for item in found.tree.items if item.kind is not FileType.DIRECTORY]
            self.assertLessEqual({outcome.state for outcome, _ in given}, {FILE_UNPROVED, UNFINISHED})
            files = {outcome.path: data for outcome, data in given if outcome.state == FILE_UNPROVED}
            return files, sorted(data for outcome, data in given if outcome.state == UNFINISHED), [str(note) for note in found.notes]

    def test_salvage(self) -> None:
        """What the group stored comes out beside, since it may have been answered before its marks were damaged."""
        for lost in LOST:
            with self.losing(lost):
                self.assertEqual(self.salvaged(), (SETTLED, sorted(AFTER.values()), []))
        self.lose(())
        self.assertEqual(self.salvaged(), (AFTER, [], []))

    def test_what_salvage_says(self) -> None:
        said = f"a group of commits that was not finished is left out: blocks {self.begin} to {self.blocks - 1}\n"
        for index, lost in enumerate(LOST):
            with self.losing(lost):
                into = os.path.join(self.room, str(index))
                done = self.command("salvage", self.image, into, "--accept-unproved")
                self.assertEqual((done.returncode, done.stderr), (0, ""))
                self.assertIn(said, done.stdout)
                self.assertIn("it is of a group of commits that was not finished", done.stdout)
                self.assertIn("commit 3: 2 files", done.stdout)
                self.assertIn("0 structures are not as it must be", done.stdout)
                for path, data in SETTLED.items():
                    with open(os.path.join(into, *path), "rb") as file:
                        self.assertEqual(file.read(), data)
                self.assertEqual(len(os.listdir(os.path.join(into, "lost+found"))), len(AFTER))
                lines = [json.loads(line) for line in self.command("salvage", self.image, "--list", "--json", "--accept-unproved").stdout.splitlines()]
                (group,) = (line for line in lines if line["did"] == "group")
                self.assertEqual((group["block"], group["blocks"]), (self.begin, self.blocks - self.begin))
        self.lose(())
        self.assertNotIn("group", self.command("salvage", self.image, "--list").stdout)

    def test_log(self) -> None:
        for lost in LOST:
            with self.losing(lost):
                done = self.command("log", self.image)
                self.assertEqual(done.returncode, 0, done.stderr)
                self.assertIn("a group of commits that was not finished is left out", done.stderr)
                wanted = subprocess.run([UDFBURN, "log", self.image], check=True, capture_output=True, text=True)
                self.assertEqual(done.stdout, wanted.stdout)
                self.assertEqual(len(done.stdout.splitlines()), 1 + len(FIRST))

    def test_mount(self) -> None:
        for lost in LOST:
            with self.losing(lost):
                told = io.StringIO()
                view = ImageView(self.image, Progress(False, False, told, told))
                self.addCleanup(view.close)
                self.assertEqual(list(folder_at(view, "commits").names()), [b"0", b"1", b"2", b"3"])
                found = {path: data for path, (data, _) in all_of(folder_at(view, "latest")).items() if data is not None}
                self.assertEqual(found, {"/".join(("", *path)).encode(): data for path, data in SETTLED.items()})
                self.assertEqual(told.getvalue(), "")

    def test_check(self) -> None:
        """It is no damage, and the blocks are named as those of no commit."""
        for lost in LOST:
            with self.losing(lost):
                done = self.command("check", "--data", self.image, "--program", UDFBURN)
                self.assertEqual(done.returncode, 0, done.stderr)
                self.assertIn("every structure of 3 commits is as it must be; 2 files", done.stdout)
                self.assertIn(f"{self.blocks - self.begin} blocks after commit 3 belong to no commit", done.stderr)
                self.assertEqual(len(done.stderr.splitlines()), 1, done.stderr)
        expected = self.command("check", self.image, "--expect", "8", "--program", UDFBURN)
        self.assertIn("its newest commit is 3, and commit 8 was expected", expected.stderr)

    def test_status(self) -> None:
        """The next writer drops the group."""
        for lost in LOST:
            with self.losing(lost):
                found = json.loads(self.command("status", self.image, "--json").stdout.splitlines()[-1])
                self.assertEqual((found["commits"], found["files"], found["written"], found["left"]), (3, 2, self.begin, 3000 - self.begin))
                self.assertEqual((found["loose"], found["notes"]), (self.blocks - self.begin, []))

    def test_map(self) -> None:
        """The picture has as many blocks left as `status` says."""
        picture = os.path.join(self.room, "map.svg")
        for lost, left in (((1,), 3000 - self.begin), ((), 3000 - self.blocks)):
            self.lose(lost)
            self.assertEqual(self.command("map", self.image, picture, "--program", UDFBURN).returncode, 0)
            with open(picture, encoding="utf-8") as file:
                self.assertIn(f"left: {left:,} blocks<", file.read())

    def test_a_copy_by_ddrescue(self) -> None:
        """Its map has what is after the last block, or has it not."""
        self.lose((1,))
        for end, commits in ((len(self.whole) + 280, 3), (len(self.whole) + 279, 8)):
            path = os.path.join(self.room, "map")
            with open(path, "w", encoding="ascii") as file:
                file.write(f"0x0 + 1\n0x0 {end:#x} +\n")
            with Medium(self.image, path) as medium:
                self.assertEqual(Volume(medium).table().commit, commits)

    def test_a_mark_that_is_written_meanwhile(self) -> None:
        """The survey came by before a mark was written, and to the next one after it was: there is no hole."""
        with Medium(self.image) as medium:
            volume = Volume(medium)
            for missed in ((1,), (0, 2, 3)):
                survey = Survey(volume)
                for at in (self.marks[index] for index in missed):
                    survey.tables.remove(at)
                links = Chain(volume, survey).links
                self.assertEqual([link.commit for link in links], list(range(8, -1, -1)))
                self.assertEqual([link.broken for link in links], [()] * 9)
            self.assertEqual(volume.notes.all(), [])


@unittest.skipUnless(UDFBURN, "UDFBURN names the program")
class Versions(WithGroup):
    """A group with several entries of a file: one that was appended to, and one whose bytes were replaced twice."""

    FILM, capacity = bytes(range(256)) * (EXTENT_BYTES // 256) * 2 + b"the end", 5000
    group = [
        Create(7, 4, Moment(4), ("film",), FILM[:EXTENT_BYTES]),
        Replace(7, 5, Moment(5), ("small",), b"first" * 1000),
        Append(7, 6, Moment(6), ("film",), EXTENT_BYTES, FILM[EXTENT_BYTES : 2 * EXTENT_BYTES]),
        Append(7, 7, Moment(7), ("film",), 2 * EXTENT_BYTES, FILM[2 * EXTENT_BYTES :]),
        Replace(7, 8, Moment(8), ("small",), b"second" * 1000),
    ]

    def test_each_is_written(self) -> None:
        """None is in the way of another, and what an append continued is written once."""
        self.lose((4,))
        into = os.path.join(self.room, "out")
        done = self.command("salvage", self.image, into, "--accept-unproved")
        self.assertEqual((done.returncode, done.stderr), (0, ""), done.stdout)
        found = {}
        for name in os.listdir(os.path.join(into, "lost+found")):
            with open(os.path.join(into, "lost+found", name), "rb") as file:
                found[name] = file.read()
        self.assertEqual(sorted(found.values()), sorted([b"first" * 1000, b"second" * 1000, self.FILM]))
        self.assertEqual(found["18.unfinished"], b"second" * 1000)


@unittest.skipUnless(UDFBURN, "UDFBURN names the program")
class Sealed(WithGroup):
    """A group that replaces a file and writes the only manifest."""

    MANIFEST = f"{hashlib.sha256(b'other' * 1500).hexdigest()}  d/kept\n{hashlib.sha256(b'small').hexdigest()}  small\n".encode()
    group = [Replace(7, 4, Moment(4), ("d", "kept"), b"other" * 1500), Create(7, 5, Moment(5), ("manifest-sha256.txt",), MANIFEST)]

    def test_its_manifest_damages_nothing(self) -> None:
        """It lists the bytes after the group: a file that has those before is as it was stored, and one that agrees is whole."""
        self.lose((1,))
        with Medium(self.image) as medium:
            found = Salvage(medium)
            given = {outcome.path: (outcome.state, data) for outcome, data in (judged(found, item) for item in found.tree.items if item.kind is FileType.FILE)}
        self.assertEqual(given[("d", "kept")], (FILE_UNPROVED, SETTLED["d", "kept"]))
        self.assertEqual(given[("small",)], (FILE_WHOLE, b"small"))


if __name__ == "__main__":
    unittest.main()
