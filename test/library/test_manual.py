"""What is written of the calls is what there is: the manual page has those of udfburn.h, and they send the frames of docs/PROTOCOL.md."""
from __future__ import annotations

import ctypes
import os
import re
import shutil
import subprocess
import unittest
from pathlib import Path
from typing import Dict, List, Tuple

from library.building import REPOSITORY, Case, built

FIRST = bytes.fromhex("26000000" "01" "0700000000000000" "0100000000000000" "0000000000000000" "01010061" "0500000068656C6C6F")
"""The frame of "An example" in docs/PROTOCOL.md."""


def documented_frames() -> List[bytes]:
    """The frames of the table in "A conversation"."""
    text = (REPOSITORY / "docs" / "PROTOCOL.md").read_text(encoding="utf-8").split("## A conversation")[1]
    rows = re.findall(r"^\| .* \| `([0-9A-F ]+)` \| `[0-9A-F ]+` \|$", text, re.MULTILINE)
    requests = [frame for frame in map(bytes.fromhex, rows) if frame[4] < 16]
    assert len(requests) > 6
    return requests


def declared() -> Dict[str, List[str]]:
    """The calls of udfburn.h, each with the words of its declaration."""
    text = re.sub(r"/\*.*?\*/", "", (REPOSITORY / "library" / "udfburn.h").read_text(encoding="utf-8"), flags=re.DOTALL)
    found = re.findall(r"^((?:const )?\w+ \*?)(udfburn_\w+)\(([^)]*)\);", text, re.MULTILINE)
    return {name: [result.strip(), *(" ".join(word.split()) for word in words.split(","))] for result, name, words in found}


class ManualPage(unittest.TestCase):
    """udfburn(3) has each call and each status of udfburn.h."""

    def setUp(self) -> None:
        self.page = (REPOSITORY / "man" / "udfburn.3").read_text(encoding="utf-8")

    def test_calls(self) -> None:
        calls = re.findall(r"^\.Ft (.*)\n\.Fn (\w+) (.*)$", self.page, re.MULTILINE)
        shown = {name: [result, *(quoted or word for quoted, word in re.findall(r'"([^"]*)"|(\w+)', words))] for result, name, words in calls}
        self.assertGreater(len(shown), 25)
        self.assertEqual(shown, declared())

    def test_statuses(self) -> None:
        header = (REPOSITORY / "library" / "udfburn.h").read_text(encoding="utf-8")
        statuses = dict(re.findall(r"^    (UDFBURN_\w+) = (\d+),? ", header, re.MULTILINE))
        self.assertGreater(len(statuses), 20)
        for name, number in statuses.items():
            self.assertRegex(self.page, rf"\b{name}\b")
            if not 33 <= int(number) <= 43:
                self.assertIn(f".It Dv {name} No ({number})\n", self.page)


class RequestOf(ctypes.Structure):
    """`struct udfburn_request`."""

    _fields_ = [(name, ctypes.c_uint64) for name in ("client", "number", "moment")] + [(name, ctypes.c_uint32) for name in ("commit", "repeated")]


class Conversation(Case):
    """The calls of udfburn.h send the very frames of docs/PROTOCOL.md: they leave the same blocks."""

    def test_the_documented_conversation(self) -> None:
        self.image = str(self.folder / "disc.img")
        self.assertEqual(self.udfburn("format", "disc.img", "TEST", "0", "10000").returncode, 0)
        documented = str(self.folder / "documented.img")
        shutil.copy(self.image, documented)
        frames = [FIRST, *documented_frames()[:6]]
        subprocess.run([built().udfburn, "apply", documented], input=b"".join(frames), stdout=subprocess.DEVNULL, check=True)
        before = os.path.getsize(self.image)
        self.call_all()
        self.assertEqual(Path(self.image).read_bytes(), Path(documented).read_bytes())
        self.assertGreater(os.path.getsize(self.image), before)

    def call_all(self) -> None:
        """What client 7 asks for in "A conversation"."""
        library = ctypes.CDLL(str(built().plain / "libudfburn.so.0"))
        disc = ctypes.c_void_p()
        self.assertEqual(library.udfburn_open(self.image.encode(), ctypes.byref(disc)), 0)
        calls: List[Tuple[str, Tuple[object, ...], int]] = [
            ("create", (b"/a", b"hello", ctypes.c_size_t(5)), 0), ("mkdir", (b"/d",), 0), ("rename", (b"/a", b"/d/b"), 0),
            ("replace", (b"/d/b", b"bye", ctypes.c_size_t(3)), 0), ("remove", (b"/d",), 37), ("remove", (b"/d/b",), 0),
        ]
        for number, (name, words, status) in enumerate(calls, 1):
            request = RequestOf(7, 0, 0)
            self.assertEqual(getattr(library, f"udfburn_{name}")(disc, ctypes.byref(request), *words), status)
            self.assertEqual((request.number, request.commit, request.repeated), (number, number, 0))
        library.udfburn_close(disc)


if __name__ == "__main__":
    unittest.main()
