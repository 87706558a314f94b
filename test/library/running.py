"""The programs in C of this folder, each run in a folder of its own."""
from __future__ import annotations

import re
from typing import Sequence

from library.building import REPOSITORY, Case

DRIVES = "libudfburn_drive.a"
VALGRIND = ("valgrind", "-q", "--error-exitcode=99", "--leak-check=full", "--show-leak-kinds=all", "--errors-for-leak-kinds=all")


def version() -> str:
    text = (REPOSITORY / "clients/python/udfburn/__init__.py").read_text()
    found = re.search(r'^__version__ = "(.*)"$', text, re.M)
    assert found
    return found[1]


class Running(Case):
    """A test that runs them."""

    def words(self, source: str) -> list[str]:
        """What a program is given, a folder of its own first."""
        room = self.folder / ("room%d" % len(list(self.folder.iterdir())))
        room.mkdir()
        return [str(room), version()] if source == "calls.c" else [str(room)]

    def passes(self, source: str, program: str, before: Sequence[str] = (), *words: str) -> None:
        said = self.ran(*before, program, *(words or self.words(source)))
        self.assertRegex(said, r"^%s: [1-9]\d+ expected, 0 failed\n$" % source[:-2])
