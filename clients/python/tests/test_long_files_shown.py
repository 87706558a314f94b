"""Files whose entries lead on to descriptor blocks, as a mount shows them and as an archive reads them."""

from __future__ import annotations

import io
import os
import sys
import unittest

from udfburn.base.errors import Damaged
from udfburn.base.progress import Progress
from udfburn.mounting.image_view import ImageView
from udfburn.mounting.shown_tree import Memory, OpenFile, ShownFile, ShownFolder, ShownItem
from udfburn.protocol.units import Moment, Size
from udfburn.reader.basics import BLOCK, EXTENT_BYTES, PARTITION

from .test_long_files import OnImage, put


class Mounted(OnImage):
    """Each piece is given once its entry and its descriptor blocks are as they must be."""

    def shown(self, *path: str) -> ShownFile:
        told = io.StringIO()
        view = ImageView(self.image, Progress(False, False, told, told))
        self.addCleanup(view.close)
        item: "ShownItem | None" = view
        for name in path:
            assert isinstance(item, ShownFolder)
            item = item.find(os.fsencode(name))
        assert isinstance(item, ShownFile)
        return item

    def test_read(self) -> None:
        file = self.shown("latest", "film")
        reading = OpenFile(file, Memory())
        for _ in reading.check():
            pass
        self.assertEqual(file.size, self.size)
        for index in (0, 115, 116, 117):
            wanted = self.piece(index - 1)[-4:] + self.piece(index)[:36] if index else self.piece(0)[:40]
            self.assertEqual(reading.read(max(index * EXTENT_BYTES - 4, 0), 40), wanted)
        self.assertEqual(reading.read(self.size - 9, 20), bytes(9))
        earlier = self.shown("commits", str(sorted(self.entries)[-2]), "film")
        self.assertEqual(earlier.size, 117 * EXTENT_BYTES)

    def test_a_damaged_block(self) -> None:
        """Even where its descriptors can be used, nothing of the file is given."""
        file = self.shown("latest", "film")
        self.change(self.entry - 1, put(16, b"\1"))
        with self.assertRaisesRegex(Damaged, f"its entry in block {self.entry + PARTITION} or a descriptor block of it is damaged"):
            OpenFile(file, Memory())
            file.sums()
        self.assertEqual(self.shown("commits", str(sorted(self.entries)[-2]), "film").size, 117 * EXTENT_BYTES)


# The archive needs Python 3.11.
if sys.version_info >= (3, 11):
    class Archived(OnImage):
        """What the archive reads of a volume."""

        def test_each_way(self) -> None:
            from udfburn.archive.contents import Contents, File
            from udfburn.archive.errors import VolumeDiffers

            with Contents(self.image) as contents:
                node = contents.nodes[("film",)]
                file = File(("film",), 0, ("film",), (node,), node.size, Moment(0), contents.commit_of(node), Moment(0), None, None, None)
                self.assertEqual((node.size, contents.commit_of(node)), (Size(self.size), max(self.entries)))
                for index, piece in enumerate(contents.pieces_of(node)):
                    self.assertTrue(piece == self.piece(index), index)
                self.assertTrue(all(contents.piece(file, index) == self.piece(index) for index in (0, 115, 116, 117)))
                with self.assertRaisesRegex(VolumeDiffers, "a bundle has at most 1048576"):
                    contents.span(file, 116 * EXTENT_BYTES - 5, Size(BLOCK))
                with self.assertRaisesRegex(VolumeDiffers, "which no such file of an archive has"):
                    contents.bytes_of(node)


if __name__ == "__main__":
    unittest.main()
