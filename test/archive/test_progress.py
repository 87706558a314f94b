"""The line of progress of long commands, as a terminal shows it."""

from __future__ import annotations

import os
import pty
import re
import subprocess
import threading
from contextlib import suppress
from typing import List, Tuple

from .support import PATIENCE, WithArchive, environment, words_of, write

LINE = re.compile(r"\r\x1b\[K\[[#.]{24}\] +([0-9]+)%  ([0-9.]+ [KM]?i?B) of ([0-9.]+ [KM]?i?B)  [0-9.]+ [KMG]?i?B/s  [0-9:-]+ left  ([^\r]*)")


def shown(count: int) -> str:
    """Bytes, as the line has them."""
    return f"{count / (1 << 20):.1f} MiB" if count >= 1 << 20 else f"{count / 1024:.1f} KiB"


class Bars(WithArchive):
    def setUp(self) -> None:
        super().setUp()
        self.copies = self.path("copies")
        os.mkdir(self.copies)
        self.init("--copies", self.copies)
        write(os.path.join(self.source, "f"), os.urandom(3_000_000))
        self.add()
        # The bar of our own, wherever the tests run.
        write(self.path("none", "tqdm.py"), b"raise ImportError\n")

    def on_terminal(self, *words: str) -> str:
        """What a command shows on a terminal."""
        ours, theirs = pty.openpty()
        found = environment()
        found["PYTHONPATH"] = self.path("none") + os.pathsep + found["PYTHONPATH"]
        told = bytearray()

        def read() -> None:
            # The terminal is gone once no process has it.
            with suppress(OSError):
                while piece := os.read(ours, 1 << 16):
                    told.extend(piece)

        # Meanwhile, since a terminal holds no more than some pages, and a slow command shows many lines.
        reader = threading.Thread(target=read)
        reader.start()
        try:
            done = subprocess.run([*words_of(*words), "--archive", self.archive], env=found, stdout=subprocess.PIPE, stderr=theirs, timeout=PATIENCE, check=False)
        finally:
            os.close(theirs)
            reader.join()
            os.close(ours)
        self.assertEqual(done.returncode, 0, (done.stdout, told))
        return told.decode()

    def bars(self, *words: str) -> List[Tuple[int, str, str]]:
        """The percentage, the whole, and what is said to be done, of each line that a command shows. No percentage is lower than the last."""
        found = [(int(part), whole, what) for part, _, whole, what in LINE.findall(self.on_terminal(*words))]
        self.assertEqual([part for part, _, _ in found], sorted(part for part, _, _ in found))
        return found

    def size(self, *names: str) -> int:
        return os.path.getsize(self.path(*names))

    def test_close(self) -> None:
        before = self.size("archive", "open", "T-000001.img")
        found = self.bars("close")
        # Its payload, twice the image, and the copy as it is written and read back.
        self.assertEqual({whole for _, whole, _ in found}, {shown(5 * before)})
        self.assertEqual([what for _, _, what in found][0], "closing T-000001")
        last, _, what = found[-1]
        self.assertEqual(what, f"copying T-000001 to {self.copies}")
        self.assertGreaterEqual(last, 50)

    def test_check(self) -> None:
        self.do("close")
        length = self.size("archive", "closed", "T-000001.img")
        for words, count in ((), 1), (("--data",), 2), (("--data", "--remotes"), 3):
            found = self.bars("check", *words)
            self.assertEqual({whole for _, whole, _ in found}, {shown(count * length)})
            self.assertEqual(found[0][2], "reading T-000001")
        self.assertEqual(found[-1][2], f"reading T-000001 on {self.copies}")
        self.assertGreaterEqual(found[-1][0], 66)

    def test_rebuild(self) -> None:
        self.do("close")
        length = self.size("archive", "closed", "T-000001.img")
        write(os.path.join(self.source, "g"), os.urandom(2_000_000))
        self.add()
        found = self.bars("rebuild")
        self.assertEqual({whole for _, whole, _ in found}, {shown(length + self.size("archive", "open", "T-000002.img"))})
        self.assertIn("read 1 volume, 1 file", [what for _, _, what in found])
        # One that is not at hand is read on a remote.
        os.unlink(self.path("archive", "closed", "T-000001.img"))
        for name in os.listdir(self.archive):
            if name.startswith("catalogue"):
                os.unlink(self.path("archive", name))
        found = self.bars("rebuild")
        self.assertEqual(found[-1][1], shown(length + self.size("archive", "open", "T-000002.img")))
        self.assertIn(f"reading T-000001.img on {self.copies}", [what for _, _, what in found])

    def test_repair(self) -> None:
        self.do("close")
        length = self.size("archive", "closed", "T-000001.img")
        os.unlink(self.path("archive", "closed", "T-000001.img"))
        found = self.bars("repair")
        # The copy is read, and was fetched and compared before.
        self.assertEqual(found[-1][1], shown(3 * length))
        self.assertIn(f"fetching T-000001 on {self.copies}", [what for _, _, what in found])
