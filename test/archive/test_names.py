"""Names: every path is read back from its place on a volume, by rules that this file has for itself."""

from __future__ import annotations

import argparse
import os
import random
import re
import sys
import unittest

from .support import PACKAGE

sys.path.insert(0, PACKAGE)

from udfburn.archive.cli import function, parser  # noqa: E402
from udfburn.archive.errors import CannotStore  # noqa: E402
from udfburn.archive.names import STORED_DEPTH, kept_name, name_back, read_back, spelled, stored_folder, stored_part_name  # noqa: E402
from udfburn.protocol.names import name_fault  # noqa: E402

LETTERS = "ab=%.~ \\\n\r\té中\U0001f4f7\udcff\udc80\ufeff\x01/"


def undone(names: "tuple[str, ...]") -> bytes:
    """The path of a stored one, by the words of volume.txt: leave =s and =v out, join, decode."""
    kept = [name for name in names[1:] if not re.fullmatch("=[sv][0-9]+", name)]
    parts = []
    begun = b""
    for name in map(os.fsencode, kept):
        if not name.startswith(b"=="):
            parts.append(name)
            continue
        begun += name[2:]
        if name.endswith(b"="):
            begun = begun[:-1]
            continue
        parts.append(re.sub(b"=(..)", lambda found: bytes([int(found.group(1), 16)]), begun))
        begun = b""
    return b"/".join(parts)


class Names(unittest.TestCase):
    def chance_name(self, chance: random.Random) -> str:
        letters = LETTERS.replace("/", "")
        while True:
            name = "".join(chance.choice(letters) for _ in range(chance.choice((1, 2, 3, 8, 60, 255))))
            raw = os.fsencode(name)[: 255]
            name = os.fsdecode(raw)
            if name not in (".", "..") and name:
                return name

    def test_every_name_comes_back(self) -> None:
        chance = random.Random(46)
        for _ in range(3000):
            path = tuple(self.chance_name(chance) for _ in range(chance.randrange(1, 5)))
            try:
                stored = ("data", *stored_folder(path[:-1]), *spelled(path[-1]))
            except CannotStore:
                continue
            for name in stored:
                self.assertIsNone(name_fault(name), name)
                self.assertLessEqual(len(name.encode()), 254)
                self.assertFalse(set("%\r\n") & set(name))
            self.assertEqual(undone(stored), os.fsencode("/".join(path)))
            found = read_back(stored)
            assert found is not None
            self.assertEqual((found.path, found.version, found.part), (path, 1, None))

    def test_plain_names_are_kept(self) -> None:
        for name in ("a", "A B.txt", "é", "中" * 84, "x" * 254, ".hidden", "a=b", "~", "-rf"):
            self.assertEqual(spelled(name), (name,))

    def test_deep_paths_are_joined(self) -> None:
        for depth in range(1, 120):
            path = tuple(f"n{index}" for index in range(depth))
            stored = stored_folder(path)
            self.assertLessEqual(len(stored), STORED_DEPTH)
            self.assertEqual(undone(("data", *stored)), "/".join(path).encode())

    def test_spread_versions_and_parts(self) -> None:
        found = read_back(("data", "=v3", "a", "=s2", "b", "=s1", "c"))
        self.assertEqual(found, (("a", "b", "c"), 3, None))
        start = 1234 << 20
        self.assertEqual(stored_part_name(start), "=000001293942784")
        self.assertEqual(read_back(("data", "a", "big", stored_part_name(start))), (("a", "big"), 1, start))
        # As archives before have them.
        self.assertEqual(read_back(("data", "a", "big", "=p2", "00001234")), (("a", "big"), 1, start))
        self.assertEqual(read_back(("data", "a", "big", "=file.txt")), (("a", "big"), 1, -1))
        self.assertIsNone(read_back(("runs", "00001.txt")))

    def test_what_stands_for_no_path(self) -> None:
        """Another program may have written it. `get` makes no path of it that leads out of its folder."""
        for names in (("===2E=2E", "x"), ("===2E=2E=2F=2E=2E=2Fx",), ("==a=2F=2Fb",), ("==a=00b",), ("===2E",), ("=s1",), ("=v2",), ("==",), ("=file.txt",)):
            self.assertIsNone(read_back(("data", *names)), names)
        self.assertEqual(read_back(("data", "a", "=p0", "\u00b2")), (("a", "=p0", "\u00b2"), 1, None))

    def test_bytes_in_the_catalogue(self) -> None:
        for name in ("a", "\udcff\udc80x", "é\U0001f4f7"):
            kept = kept_name(name)
            kept.encode()
            self.assertEqual(name_back(kept), name)
        with self.assertRaises(CannotStore):
            kept_name("\U0010ffff")


class Functions(unittest.TestCase):
    def test_each_command_has_its_own(self) -> None:
        subs = next(action for action in parser()._actions if isinstance(action, argparse._SubParsersAction))
        names = list(subs.choices)
        self.assertGreater(len(names), 15)
        for name in names:
            self.assertEqual(function(name).__name__, name.replace("-", "_"))
        self.assertRaises(NotImplementedError, function, "none")
