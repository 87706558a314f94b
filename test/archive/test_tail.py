"""Archives of an earlier version, which appended the blocks of many files at once: a tail that was cut short is taken off, and one that is
whole is kept, whatever the ledger and the catalogue have of it."""

from __future__ import annotations

import os
import shutil
import sqlite3
from typing import List, Optional, Tuple

from .support import LARGE, WithArchive, digests, make_tree, write

BLOCK = 2048

PAGE = 4096
"""Bytes of which a write has all or none when its process is killed."""

ADDED = 40
"""Files whose blocks are the tail."""


class WithTail(WithArchive):
    """An archive as such a version left it."""

    def setUp(self) -> None:
        super().setUp()
        self.init()
        make_tree(self.source, 30, 1)
        self.add()
        self.length = os.path.getsize(self.image())
        shutil.copytree(self.archive, self.path("kept"))
        self.before = {path: whole for path, (whole, _) in digests(self.source).items()}
        make_tree(os.path.join(self.source, "more"), ADDED, 2)
        self.add()
        with open(self.image(), "rb") as file:
            self.whole = file.read()

    def image(self) -> str:
        return self.path("archive", "open", "T-000001.img")

    def note(self) -> str:
        return self.path("archive", "open", "T-000001.tail")

    def cut(self, count: int, noted: bool = True) -> None:
        """The image with so many bytes of the tail. Ledger and catalogue are as they were before it."""
        shutil.rmtree(self.archive)
        shutil.copytree(self.path("kept"), self.archive)
        with open(self.image(), "r+b") as file:
            file.seek(self.length)
            file.write(self.whole[self.length : self.length + count])
        if noted:
            write(self.note(), b"%d\n" % self.length)

    def tail(self) -> int:
        """The bytes of the tail."""
        return len(self.whole) - self.length

    def words(self) -> str:
        """What `status` says of the volume."""
        where = f"lastblock={self.length // BLOCK - 1}"
        return f"an earlier version was cut short while it appended to it: run 'add' before you mount it, or mount it with {where}"

    def require_all(self) -> None:
        """All of the source is in the archive once, and every part agrees."""
        self.require_agreed()
        self.assertEqual(self.get_all(), digests(self.source))
        self.assertEqual(len(self.rows()), len(digests(self.source)))

    def images(self) -> "List[Tuple[str, Optional[int]]]":
        """Images with tails of several lengths, each with the last block that `status` names."""
        found: List[Tuple[str, Optional[int]]] = []
        for count in (0, PAGE, 50 * PAGE, self.tail() - PAGE, self.tail()):
            self.cut(count)
            (told,) = self.volumes()[0]["attention"]
            found.append((shutil.copy(self.image(), self.path(f"{count}.img")), int(told.rpartition("lastblock=")[2])))
        return found


class Tails(WithTail):
    def require_front(self) -> None:
        """Who only reads sees what was acknowledged."""
        folder = self.path("front")
        self.do("get", "/s", folder)
        self.assertEqual({path[2:]: whole for path, (whole, _) in digests(folder).items()}, self.before)
        shutil.rmtree(folder)

    def test_each_page_of_a_tail(self) -> None:
        self.assertGreater(self.tail(), 50 * PAGE)
        for count in range(0, self.tail() + 1, PAGE if LARGE else 25 * PAGE):
            self.cut(count)
            self.assertEqual(self.volumes()[0]["attention"], [self.words()])
            self.require_front()
            self.add()
            self.require_all()
            self.assertFalse(os.path.exists(self.note()))
            self.assertEqual(self.volumes()[0]["attention"], [])

    def test_power_was_lost_in_a_tail(self) -> None:
        self.cut(self.tail())
        # Any of its blocks may be missing, the last one least of all: it is what a volume is found by.
        with open(self.image(), "r+b") as file:
            for address in range(self.length // BLOCK + 1, len(self.whole) // BLOCK - 1, 2):
                file.seek(address * BLOCK)
                file.write(bytes(BLOCK))
        self.require_front()
        self.assertEqual(self.do("rebuild").last()["files"], 30)
        self.add()
        self.require_all()
        self.do("close")
        self.assertEqual(self.do("check", "--data").last()["failures"], [])

    def test_the_ledger_is_behind(self) -> None:
        """The tail is whole, and neither the ledger nor the catalogue has it."""
        self.cut(self.tail(), noted=False)
        with sqlite3.connect(self.path("archive", "open", "T-000001.ledger")) as base:
            before = base.execute("SELECT count(*) FROM request").fetchone()[0]
        base.close()
        self.assertLess(before, 50)
        last = self.add().last()
        self.assertEqual((last["files"], last["same"]), (0, 30 + ADDED))
        self.require_all()
        # It goes on with the same client.
        write(os.path.join(self.source, "new"), b"new")
        self.add()
        self.require_all()
        self.assertEqual(len(self.volumes()), 1)

    def test_a_note_that_takes_too_much(self) -> None:
        write(self.note(), b"%d\n" % self.length)
        self.assertIn("were acknowledged", self.add(status=1).errors)
        with open(self.image(), "rb") as file:
            self.assertEqual(file.read(), self.whole)
        write(self.note(), b"so long\n")
        self.assertIn("has no length in it", self.add(status=1).errors)
        os.unlink(self.note())
        self.require_all()

    def test_another_folder_takes_it_over(self) -> None:
        """With its note, since the machine died."""
        self.cut(self.tail() - PAGE)
        base = sqlite3.connect(self.path("archive", "catalogue.sqlite"))
        base.execute("UPDATE volume SET holder = 'gone'")
        base.execute("INSERT INTO holder VALUES ('gone', 'host', ?)", (self.path("other"),))
        base.commit()
        base.close()
        os.makedirs(self.path("other", "open"))
        for path in (self.image(), self.note()):
            os.rename(path, self.path("other", "open", os.path.basename(path)))
        os.unlink(self.path("archive", "open", "T-000001.ledger"))
        self.do("adopt", "T-000001")
        self.assertEqual(len(self.rows()), 30)
        self.add()
        self.require_all()
