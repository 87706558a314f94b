"""Damaged images put together, block by block; and which volumes a command looks at."""

from __future__ import annotations

import os
import random
import shutil
import sys
import tempfile
import unittest
from hashlib import sha256
from types import SimpleNamespace
from typing import Any, Dict, List, Optional
from unittest.mock import patch

from .support import PACKAGE, write

sys.path.insert(0, PACKAGE)

from udfburn.archive import closing  # noqa: E402
from udfburn.archive.assemble import assembled, likeliest  # noqa: E402
from udfburn.archive.catalogue import STATE_CLOSED, STATE_FULL, STATE_RETIRED  # noqa: E402
from udfburn.archive.check import CheckOptions, chosen, oldest  # noqa: E402
from udfburn.archive.errors import NotAtHand  # noqa: E402
from udfburn.archive.remotes import Print  # noqa: E402

BLOCK = 2048


class Assembled(unittest.TestCase):
    """Images that are no volumes: what digests of files would say is not known."""

    BLOCKS = 1100
    """More than two pieces of those that are compared at once."""

    def setUp(self) -> None:
        self.room = tempfile.mkdtemp()
        self.addCleanup(shutil.rmtree, self.room)
        self.data = random.Random(5).randbytes(self.BLOCKS * BLOCK)
        self.target = os.path.join(os.path.realpath(self.room), "new.img")

    def together(self, *damage: Dict[int, bytes], lengths: Optional[List[int]] = None) -> bool:
        """Whether images, in each of which some blocks are others, give the whole one, and it is there then."""
        paths: List[str] = []
        for index, blocks in enumerate(damage):
            data = bytearray(self.data)
            for at, byte in blocks.items():
                data[at * BLOCK : (at + 1) * BLOCK] = byte * BLOCK
            paths.append(write(os.path.join(self.room, f"{index}.img"), bytes(data)[: lengths[index] if lengths else None]))
        found = assembled(paths, Print(len(self.data), sha256(self.data).digest()), self.target)
        if found:
            with open(self.target, "rb") as file:
                self.assertTrue(file.read() == self.data)
        return found

    def test_zeros_are_meant_last(self) -> None:
        self.assertTrue(self.together({0: b"\0", 1: b"\0", 600: b"\0"}, {2: b"\0", 1099: b"\0"}))

    def test_what_most_images_have_is_meant(self) -> None:
        self.assertTrue(self.together({at: b"x" for at in range(1, 30, 2)}, {at: b"y" for at in range(40, 80, 2)}, {1050: b"z"}))

    def test_what_no_count_decides_is_tried(self) -> None:
        """Neighbours are damaged together; so there are few choices."""
        self.assertTrue(self.together({3: b"x", 4: b"x", 700: b"x"}, {511: b"y", 512: b"y", 1000: b"y"}))
        # Of zeros and of what is none in one image, in a row, neither is right.
        self.assertTrue(self.together({3: b"\0", 4: b"x"}, {700: b"y"}))
        self.assertFalse(self.together({at: b"x" for at in range(1, 40, 2)}, {}), "too many choices, of which no digest of a file tells")

    def test_an_image_that_was_cut(self) -> None:
        self.assertTrue(self.together({}, {1: b"x"}, {1: b"x", 2: b"x"}, lengths=[len(self.data), 5 * BLOCK, 0]))
        self.assertTrue(self.together({7: b"\0"}, {}, lengths=[len(self.data), 700 * BLOCK + 1]))

    def test_a_block_that_no_image_has(self) -> None:
        self.assertFalse(self.together({}, {}, lengths=[700 * BLOCK, 600 * BLOCK]))
        self.assertFalse(self.together({5: b"x"}, {5: b"x"}))

    def test_the_likeliest(self) -> None:
        cases = (
            ([b"a"], [b"a"], True), ([b"a", b"b", b"a"], [b"a", b"b"], True), ([b"b", b"b", b"a"], [b"b", b"a"], True), ([b"a", b"b"], [b"a", b"b"], False),
            ([b"\0", b"\0", b"x"], [b"x", b"\0"], False), ([b"a", b"a", b"b", b"b"], [b"a", b"b"], False), ([b"x", b"x", b"\0"], [b"x", b"\0"], True),
        )
        for found, ordered, surely in cases:
            self.assertEqual(likeliest(found), (ordered, surely), found)


def rows(*states: str, **fields: List[Any]) -> Any:
    """Rows of volumes 1, 2 and so on, with these states and other fields."""
    made = []
    for index, state in enumerate(states):
        values = {name: given[index] for name, given in fields.items()}
        made.append(SimpleNamespace(number=index + 1, label=f"T-{index + 1}", state=state, **values))
    return made


class Chosen(unittest.TestCase):
    def labels(self, found: Any) -> List[str]:
        return [row.label for row in found]

    def test_those_that_are_checked(self) -> None:
        some = rows("open", STATE_CLOSED, STATE_RETIRED, STATE_CLOSED, STATE_CLOSED)
        self.assertEqual(self.labels(chosen(some, [], CheckOptions())), ["T-2", "T-4", "T-5"])
        self.assertEqual(self.labels(chosen(some, ["T-1", "T-5", "T-1"], CheckOptions())), ["T-1", "T-5"])
        for name in ("T-3", "T-9"):
            self.assertRaisesRegex(NotAtHand, name, chosen, some, [name], CheckOptions())
        for count, size in ((1, 1), (2, 2), (9, 3)):
            found = self.labels(chosen(some, [], CheckOptions(sample=count)))
            self.assertEqual((len(found), found), (size, sorted(found)))
        self.assertEqual(CheckOptions(), (False, False, None, False))

    def test_those_that_were_not_looked_at_for_longest(self) -> None:
        some = rows(*[STATE_CLOSED] * 4, checked=[9, 3, 5, 1 << 62], data_checked=[1, None, 7, 9])
        config, catalogue = SimpleNamespace(), SimpleNamespace(put_away=dict)
        for asked, found in (
            (CheckOptions(oldest=True), ["T-4"]), (CheckOptions(oldest=True, sample=3), ["T-4", "T-2", "T-3"]),
            (CheckOptions(oldest=True, sample=2, data=True), ["T-2", "T-1"]),
        ):
            with self.subTest(asked=asked), patch("udfburn.archive.check.image_of", return_value="there"):
                choose: Any = oldest
                self.assertEqual(self.labels(choose(config, catalogue, some, asked)), found)

    def test_those_that_are_closed(self) -> None:
        some = rows("new", "open", "open", STATE_FULL, STATE_CLOSED, STATE_RETIRED, "open", files=[0, 0, 3, 0, 5, 1, 9], holder=["me"] * 6 + ["other"])
        config, catalogue = SimpleNamespace(id="me"), SimpleNamespace(volumes=lambda: some)
        to_close: Any = closing.to_close
        self.assertEqual(self.labels(to_close(config, catalogue, [], False)), ["T-3", "T-4", "T-5"])
        self.assertEqual(self.labels(to_close(config, catalogue, [], True)), ["T-4", "T-5"])
        self.assertEqual(self.labels(to_close(config, catalogue, ["T-2"], False)), ["T-2"])


if __name__ == "__main__":
    unittest.main()
